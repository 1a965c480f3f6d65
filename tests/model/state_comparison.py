"""The comparison of states with accounts over random walks: steps, entries behind them, and accounts with one state."""
from collections import Counter

from tests.model import state_steps
from tests.model.account import Entry
from tests.model.audit import RULES
from tests.model.calls import KINDS
from tests.model.limits import BOOK, Limits
from tests.model.lines import account_text, entry_line
from tests.model.state_after import Following, state_of
from tests.model.state_formulas import follow_by_formulas, state_by_formulas, step_by_formulas
from tests.model.state_rules import NOT_OPEN, follow
from tests.model.state_twins import Twins, needed
from tests.model.state_walks import Walk

# How many changes of a walk's last account are tried, and how many steps two accounts with the same state go on together.
CHANGES, TOGETHER = 4, 3
CODES = [2, 3, 4, 5, 6, 7, 8, 9, 10, 12]
# The refusals for want of room among clients and entries.
FULL = (9, 10)
WORDS = sorted({word for kind in KINDS.values() for word in (kind.met, kind.unmet) if word} | {"cancelled", "timedout"})


def some_limits(chance):
    """A book's limits, most often; or little room for entries, for clients or for what is open."""
    entries, clients = chance.choice([BOOK.entries] * 9 + [9, 13]), chance.choice([BOOK.clients] * 9 + [1, 2])
    return Limits(entries, clients, chance.choice([None] * 8 + [0, 1, 2, 4]))


class Comparison:
    """What was compared so far: how often each thing, answer and verdict was met. For each step so many entries are
    tried, which may be less than one."""

    def __init__(self, share):
        self.share = share
        self.met = Counter()

    def count(self, name):
        """How many things of a name were compared."""
        return self.met[name]

    def told(self):
        """The counts in words."""
        counts = [self.count(name) for name in ("steps", "settled", "entries", "twins")]
        return "{} steps that settled {} requests, {} entries, {} pairs with one state".format(*counts)

    def walk_fault(self, chance):
        """What differs in one random walk, if something does."""
        walk = Walk(chance, some_limits(chance))
        return self.steps_fault(walk) or self.twins_fault(walk)

    def steps_fault(self, walk):
        """What differs in the steps of a walk, and in entries that are tried beside them, if something does."""
        state = state_of(walk.account)
        while walk.left:
            now, message, before = walk.now(), walk.message(), walk.account
            wanted = walk.step(now, message)
            got = state_steps.step(state, now, message, walk.limits)
            if seen(got) != wanted or got.state != walk.state:
                return difference(before, (now, message), (*wanted, walk.state), got)
            if got.answer.get("code") not in FULL and got != state_steps.step(state, now, message):
                return difference(before, (now, message), "the same step under a book's limits", got)
            self.note(got)
            state = got.state
            fault = self.entry_fault(walk, state)
            if fault:
                return fault
        again = state_of(walk.account)
        return None if again == state else difference(walk.account, "the state by one pass", state, again)

    def note(self, step):
        """Counts a step and its answer."""
        answer = step.answer
        said = answer.get("reply") or answer.get("code") or answer["kind"]
        self.met.update(["steps", said])
        self.met["settled"] += len(step.settled)

    def entry_fault(self, walk, state):
        """What differs for an entry behind an account, if one is tried and something does."""
        if self.met["entries"] >= self.share * self.met["steps"]:
            return None
        entry = walk.entry()
        wanted, got = follow_by_formulas(walk.account, entry), follow(state, entry)
        self.met.update(["entries", got if isinstance(got, str) else "legal"])
        if isinstance(got, Following) and not isinstance(wanted, str):
            after = state_by_formulas(walk.account.with_entry(entry))
            wanted, got = (wanted, after), ((got.settled, got.reply), got.state)
        return None if got == wanted else difference(walk.account, entry, wanted, got)

    def twins_fault(self, walk):
        """What differs between the last account of a walk and others with its state, if something does."""
        twins = Twins(walk.chance, walk.account)
        for _ in range(CHANGES):
            twin = twins.twin()
            fault = twin and self.twin_fault(walk, twin)
            if fault:
                return fault
        return None

    def twin_fault(self, walk, twin):
        """What differs as an account and its twin go on, if something does."""
        self.met["twins"] += 1
        stands = walk.account, walk.state
        entry = walk.entry()
        one, other = (follow_by_formulas(account, entry) for account in (walk.account, twin))
        fault = None if one == other else difference(walk.account, entry, one, other, twin)
        fault = fault or self.together_fault(walk, twin)
        walk.account, walk.state = stands
        return fault

    def together_fault(self, walk, twin):
        """What differs in some steps that a walk's account and its twin go on together, if something does."""
        for _ in range(TOGETHER):
            (now, message), before = walk.probe(), walk.account
            one = walk.step(now, message)
            after, other = step_by_formulas(twin, now, message, walk.limits)
            if one != other:
                return difference(before, (now, message), one, other, twin)
            twin = after
        one, other = (needed(state_of(account)) for account in (walk.account, twin))
        return None if one == other else difference(walk.account, "the states", one, other, twin)


def seen(step):
    """What a step makes that can be seen."""
    return step.entries, step.answer, step.settled


def difference(account, asked, wanted, got, twin=None):
    """The words for a difference behind an account, or between it and its twin."""
    lines = account_text(account).decode()
    lines += f"and behind\n{account_text(twin).decode()}" if twin else ""
    shown = entry_line(asked).decode() if isinstance(asked, Entry) else asked
    return f"behind\n{lines}{shown}\nexpected {wanted}\ngot      {got}"


def missed(comparison):
    """The answers and verdicts that were not met."""
    every = [*CODES, *WORDS, "waiting", "welcome", *RULES, NOT_OPEN, "legal"]
    return [str(said) for said in every if not comparison.count(said)]
