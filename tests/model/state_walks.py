"""Random walks from account to account for the comparison of states: small accounts of few clients, with messages and
entries to try behind them. What comes next is chosen by the state that the formulas over the account tell."""
from dataclasses import replace

from tests.model.account import MAX_MOMENT, OTHER_SIDE, Account, Call, Cancel, Entry, Hello, Key, Request, Tick
from tests.model.calls import KINDS
from tests.model.limits import BOOK
from tests.model.state import CancelledFirst, Fresh
from tests.model.state_formulas import state_by_formulas, step_by_formulas
from tests.model.texts import MAX_IDENTIFIER

ITEMS = ["", "a", "b", "é"]
WAITS = ["forever", "forever", "now", 0, 1, 2, 5]
MAXIMA = [1, 2, 2, 3, 16]
WORDS = [*["put", "take"] * 3, *["transfer", "drain", "swap"] * 2, "count", "peek"]
# The words of a walk's calls, often of few calls that meet each other.
MIXES = [WORDS, WORDS, ["transfer", "take"], ["transfer", "transfer", "take", "drain"],
         ["put", "put", "transfer", "drain"], ["put", "transfer", "take", "peek", "count"], ["swap", "swap", "swap", "take"]]
OPENINGS = [0, 0, 0, 5, MAX_MOMENT - 30]
# How far a number is above its session's last.
NUMBERS = [1] * 12 + [0, 0, -1, 2]
LENGTHS = [8, 12, 16, 20, 24, 30]
FURTHER_CLIENT, FURTHER_PLACE = 9, 63


class Walk:
    """A random account and its state, from which steps go on under some limits; and how many there may be."""

    def __init__(self, chance, limits=BOOK):
        self.chance, self.limits = chance, limits
        self.account = Account(chance.choice([1, 1, 1, 7]), chance.choice(OPENINGS))
        self.state = state_by_formulas(self.account)
        self.clients = range(1, 1 + chance.choice([1, 2, 2, 3, 4, 6]))
        self.places = range(chance.choice([1, 1, 2]))
        self.words = chance.choice(MIXES)
        self.restarts = chance.choice([0.03, 0.1, 0.25])
        self.pace = chance.choice([[0], [0, 0, 1], [0, 1, 2, -1]])
        self.left = 120 if chance.random() < 0.002 else chance.choice(LENGTHS)

    def odds(self, likelihood):
        """True so often."""
        return self.chance.random() < likelihood

    def step(self, now, message):
        """Goes on by a step over accounts; gives its entries, its answer and what it settles."""
        self.account, made = step_by_formulas(self.account, now, message, self.limits)
        self.state = state_by_formulas(self.account) if made[0] else self.state
        self.left -= 1
        return made

    def now(self, near=0.2):
        """A moment: at the state's or beside it, at a limit of what waits or beside it, or far away."""
        limits = [there.limit for there in self.state.waiting() if there.limit is not None]
        moment = self.state.moment + self.chance.choice(self.pace)
        if limits and self.odds(near):
            moment = self.chance.choice(limits) + self.chance.choice([-1, 0, 0, 1])
        if self.odds(0.01):
            moment = self.chance.choice([0, MAX_MOMENT - 1, MAX_MOMENT + 1, 2**64])
        return max(0, moment)

    def message(self):
        """A message, mostly one that its session may send next."""
        number = self.chance.choice(self.clients)
        client = self.state.clients.get(number)
        if self.odds(self.restarts) or client is None and self.odds(0.9):
            return self.hello(number, client)
        key, request = self.key(number, client), client.request if client else Fresh()
        if self.odds(0.12):
            return Cancel(key)
        call = self.call() if isinstance(request, (Fresh, CancelledFirst)) or self.odds(0.4) else request.call
        if client and key.number > client.last:
            call = self.call()
        return Request(key, self.other_call(call) if self.odds(0.05) else call)

    def probe(self):
        """A moment and a message that tell much of a state: often a limit of what waits, and the last request of a session
        again."""
        asked = [(number, client) for number, client in self.state.clients.items() if hasattr(client.request, "call")]
        if not asked or self.odds(0.4):
            return self.now(0.6), self.message()
        number, client = self.chance.choice(asked)
        return self.now(0.6), Request(Key(self.state.epoch, number, client.incarnation, client.last), client.request.call)

    def hello(self, number, client):
        """A hello of a newer, the same or an older incarnation, now and then of another version."""
        if client is None:
            return Hello(number, self.chance.choice([1, 2]), self.chance.choice([1, 2]))
        incarnation = client.incarnation + self.chance.choice([0, 1, 1, 2, -1])
        version = client.version if self.odds(0.6) else 3 - client.version
        return Hello(number, max(1, incarnation), version)

    def key(self, number, client):
        """A key of a client, mostly the next of its session; while it waits, mostly the last."""
        above = self.chance.choice(NUMBERS)
        if client and self.state.waiting_of(number) and self.odds(0.6):
            above = 0
        last, incarnation = (client.last, client.incarnation) if client else (0, 1)
        key = Key(self.state.epoch, number, incarnation, max(1, last + above))
        return self.other_key(key) if self.odds(0.04) else key

    def other_key(self, key):
        """A key that differs in one part."""
        name = self.chance.choice(["epoch", "client", "incarnation", "number"])
        own = getattr(key, name)
        return replace(key, **{name: self.chance.choice([own + 1, max(1, own - 1), FURTHER_CLIENT, MAX_IDENTIFIER])})

    def call(self):
        """A call at one of the few queues and exchangers."""
        return self.call_of(self.chance.choice(self.words), self.chance.choice(self.places))

    def call_of(self, word, at):
        """A call of a word there."""
        members, wait = KINDS[word].members, self.chance.choice(WAITS)
        wait = 1 if wait == "now" and not KINDS[word].unmet else wait
        item = self.chance.choice(ITEMS) if "item" in members else None
        most = self.chance.choice(MAXIMA) if "max" in members else None
        return Call(word, at, item, wait if "wait" in members else None, most)

    def other_call(self, call):
        """A call that differs, mostly in one part."""
        others = [self.call_of(self.chance.choice(WORDS), call.at), replace(call, at=FURTHER_PLACE)]
        others += [] if call.item is None else [replace(call, item="other")]
        others += [] if call.wait is None else [replace(call, wait=7)]
        return self.chance.choice(others)

    def entry(self):
        """An entry to put behind the account: one that may follow, or nearly so, in which most often something is
        spoilt."""
        moment = min(self.now(0.4), MAX_MOMENT)
        moment = max(self.state.moment, moment) if self.odds(0.95) else max(0, self.state.moment - 1)
        if self.odds(0.05) or self.state.due(moment) and self.odds(0.5):
            return Entry(moment, Tick(), self.chance.choice([()] * 5 + [(0,)]))
        act = self.next_request() if self.odds(0.75) else self.message()
        return Entry(moment, act, self.named(act))

    def next_request(self):
        """A request with the next number of a session, of one that doesn't wait where there is one, mostly to meet
        something."""
        free = [number for number in self.state.clients if not self.state.waiting_of(number)] or [FURTHER_CLIENT]
        number = self.chance.choice(free)
        client = self.state.clients.get(number)
        last, incarnation = (client.last, client.incarnation) if client else (0, 1)
        sides = [where for where in self.state.open if where[0] in OTHER_SIDE]
        call = self.call_of(self.chance.choice([*KINDS, "swap"]), self.chance.choice(self.places))
        if sides and self.odds(0.75):
            side, at = self.chance.choice(sides)
            call = self.call_of(self.chance.choice([word for word in WORDS if KINDS[word].side == OTHER_SIDE[side]]), at)
        return Request(Key(self.state.epoch, number, incarnation, last + 1), call)

    def named(self, act):
        """The places that an entry names: those that it should, or with something changed, or any."""
        if not isinstance(act, Request):
            return (0,) if self.odds(0.1) else ()
        named = [there.place for there in self.state.opposites(act.call)][: act.call.may_name]
        if self.odds(0.35):
            return tuple(named)
        change = self.chance.choice([self.fewer, self.fewer, self.more, self.other, self.other, self.other, self.shuffled])
        return tuple(change(named, act.call))

    def fewer(self, named, _):
        """One place less, if there is one."""
        at = self.chance.randrange(len(named)) if named else 0
        return named[:at] + named[at + 1 :]

    def more(self, named, call):
        """One place more, in its order."""
        return sorted([*named, self.any_place(call)])

    def other(self, named, call):
        """Another place for one of these."""
        return self.more(self.fewer(named, call), call)

    def shuffled(self, named, _):
        """The same places in another order, or one of them twice."""
        return named[::-1] if self.odds(0.5) else named + named[-1:]

    def any_place(self, call):
        """Any place, mostly one that the call might meet, or another open one; now and then the next or a later one."""
        opposites, opened = self.state.opposites(call), self.state.every_open()
        if opened and self.odds(0.7):
            return self.chance.choice(opposites if opposites and self.odds(0.6) else opened).place
        return self.chance.randrange(self.state.length + 2)
