"""Random scripts for a machine that takes its steps under limits of one's own, and how often each refusal came."""
import json
from collections import Counter

from tests.model.limits import Limits
from tests.model.scripts import MOST_CROWD, Script
from tests.model.steps import told

# The epoch of the program's machine.
EPOCH = 1
# Under these limits each must be met, in a run of so many lines.
SMALL, FULL_RUN = Limits(50, 4, 8), 5_000
# Of two refusals by one code: no entry more may come, and no place more may stand open.
CLIENTS, ENTRIES, OPEN_PLACES = "9", "10 of entries", "10 of open places"


class Machines:
    """Scripts of one machine each, all under the same limits, and how often each answer came. Where they are made anew,
    each line is heard by a machine that was made of the state before the last line and then followed that line's entries."""

    def __init__(self, limits, anew=False):
        self.limits = limits
        self.anew = anew
        self.met = Counter()

    def words(self):
        """The program's words."""
        open_places = self.limits.open_places
        bound = "none" if open_places is None else str(open_places)
        return ["machine", str(self.limits.entries), str(self.limits.clients), bound, *(["anew"] if self.anew else [])]

    def script(self, chance, left):
        """The program's words for one machine, its lines, and that nothing is wrong with the model. A script ends some lines
        after the machine can take no entry more."""
        script, lines = Script(chance, EPOCH, self.limits), []
        if chance.random() < 0.5:
            self.scatter(script)
        most, late = min(self.length(script), left), chance.randint(5, 40)
        while len(lines) < most and late > 0:
            before = script.account
            lines.append(script.line())
            name = self.name(before, *lines[-1])
            self.met[name] += 1
            late -= name == ENTRIES
        return self.words(), lines, None

    def scatter(self, script):
        """What is asked mostly stays: givers and takers seldom meet in so many queues."""
        script.queues = script.chance.sample(range(64), 20)
        script.clients = script.clients[: self.limits.clients + 1]
        script.gives, script.puts, script.drains, script.restarts = 0.7, 0.8, 0, 0.05

    def length(self, script):
        """How many lines a script has at most: now and then, where there may be as many clients, it is one with a crowd."""
        if self.limits.clients < MOST_CROWD or not script.odds(0.04):
            return script.chance.randint(20, 400)
        script.add_crowd(MOST_CROWD)
        return MOST_CROWD + script.chance.randint(200, 500)

    def name(self, before, line, text):
        """What is counted of an answer: its kind, or its refusal, with what a full epoch is full of."""
        answer = json.loads(text)
        code = answer.get("code")
        if code != 10:
            return str(code or answer["kind"])
        unbounded = Limits(self.limits.entries, self.limits.clients)
        return ENTRIES if told(before, line, unbounded)[1].encode() == text else OPEN_PLACES

    def lacking(self):
        """The refusals that never came, and should have under small limits."""
        if self.limits != SMALL or self.met.total() < FULL_RUN:
            return []
        return [name for name in (CLIENTS, ENTRIES, OPEN_PLACES) if not self.met[name]]

    def told(self):
        """The counts in words."""
        counts = sorted(self.met.items(), key=lambda pair: (pair[0].isalpha(), pair[0].split()[0].zfill(2), pair[0]))
        return ", ".join(f"{count:,} {name}" if name.isalpha() else f"{count:,} refusals {name}" for name, count in counts)
