"""Pairs of accounts whose states differ in one part alone, and which go on differently: why a state has that part
(docs/MODEL.md, the state of an account)."""
from dataclasses import fields, replace
from functools import reduce

from tests.model.account import Account, Call, Cancel, Entry, Hello, Key, Request
from tests.model.state import OpenPlace, State
from tests.model.state_after import state_of
from tests.model.state_formulas import step_by_formulas
from tests.model.state_twins import needed

FIRST, SECOND, THIRD = Hello(1, 1), Hello(2, 1), Hello(3, 1)
OFFER = Call("transfer", 5, "x", "forever")
POLL, PEEK, COUNT = Call("take", 5, wait="now"), Call("peek", 5), Call("count", 5)


def asks(client, number, call, incarnation=1):
    """A request of the pairs' epoch."""
    return Request(Key(3, client, incarnation, number), call)


def put(item, queue=5):
    """A put of an item."""
    return Call("put", queue, item)


def take(millis):
    """A take with a time."""
    return Call("take", 5, wait=millis)


def account(*entries, epoch=3):
    """An account opened at moment 7; each entry is an act, perhaps with its moment and its partners."""
    return Account(epoch, 7, tuple(entry_of(entry) for entry in entries))


def entry_of(entry):
    """An act of the opening moment, or what is written down of an entry."""
    return Entry(*entry) if isinstance(entry, tuple) else Entry(7, entry)


# The part; two accounts; and what both are asked then, each with its moment, after which they are not told the same.
CANCELLED = Cancel(Key(3, 1, 2, 1))
SOLD = FIRST, SECOND, THIRD, asks(2, 1, put("i"))
PAIRS = [
    ("the epoch", account(FIRST), account(FIRST, epoch=4), [(7, asks(1, 1, COUNT))]),
    ("the moment", account((7, FIRST)), account((8, FIRST)), [(7, asks(1, 1, take(5)))]),
    ("the number of entries", account(SECOND, Hello(1, 2)), account(SECOND, FIRST, Hello(1, 2)),
     [(7, asks(1, 1, OFFER, 2)), (7, asks(2, 1, POLL))]),
    ("the place of what is open", account(SECOND, FIRST, asks(1, 1, put("i")), asks(1, 2, put("z", 6))),
     account(FIRST, asks(1, 1, put("i")), SECOND, asks(1, 2, put("z", 6))), [(7, asks(2, 1, POLL))]),
    ("its side", *(account(FIRST, SECOND, asks(1, 1, put("i", queue)), asks(1, 2, put("z", 7))) for queue in (5, 6)),
     [(7, asks(2, 1, POLL))]),
    ("its item", *(account(FIRST, SECOND, asks(1, 1, put(item)), asks(1, 2, put("z", 6))) for item in "ij"),
     [(7, asks(2, 1, POLL))]),
    ("its limit", account(FIRST, (8, asks(1, 1, take(5))), (9, SECOND)),
     account(FIRST, (9, asks(1, 1, take(5))), (9, SECOND)), [(13, asks(2, 1, COUNT))]),
    ("what is open", account(FIRST, SECOND, asks(1, 1, put("i")), asks(1, 2, put("z", 6))),
     account(FIRST, SECOND, Cancel(Key(3, 1, 1, 1)), asks(1, 2, put("z", 6))), [(7, asks(2, 1, POLL))]),
    ("who said hello", account(FIRST, SECOND), account(FIRST, THIRD), [(7, asks(2, 1, COUNT))]),
    ("the incarnation", account(FIRST), account(Hello(1, 2)), [(7, asks(1, 1, COUNT))]),
    ("the version", account(FIRST), account(Hello(1, 1, 2)), [(7, FIRST)]),
    ("the last number", account(FIRST, Hello(1, 2), CANCELLED),
     account(Hello(1, 2), CANCELLED, Cancel(Key(3, 1, 2, 2))), [(7, asks(1, 2, COUNT, 2))]),
    ("what became of the last request", account(Hello(1, 2), CANCELLED), account(Hello(1, 2), asks(1, 1, COUNT, 2)),
     [(7, asks(1, 1, COUNT, 2))]),
    ("whether it came", account(FIRST, Hello(1, 2), CANCELLED), account(Hello(1, 2), asks(1, 1, OFFER, 2), CANCELLED),
     [(7, asks(1, 1, COUNT, 2))]),
    ("the call that waits", account(FIRST, (8, asks(1, 1, take(5))), (9, SECOND)),
     account(FIRST, (9, asks(1, 1, take(4))), (9, SECOND)), [(9, asks(1, 1, take(5)))]),
    ("the call that has a reply", account(FIRST, asks(1, 1, PEEK)), account(FIRST, asks(1, 1, POLL)),
     [(7, asks(1, 1, PEEK))]),
    ("its reply", account(*SOLD, (7, asks(1, 1, POLL), (3,)), asks(3, 1, POLL), asks(3, 2, PEEK)),
     account(*SOLD, (7, asks(3, 1, POLL), (3,)), asks(1, 1, POLL), asks(3, 2, PEEK)), [(7, asks(1, 1, POLL))]),
]


def pair_faults():
    """Each pair by the part in which its states differ, with what is wrong with it, if something is."""
    for part, one, other, asked in PAIRS:
        yield f"two accounts that differ in {part} alone", pair_fault(one, other, asked)


def pair_fault(one, other, asked):
    """That two states are the same or differ in more than one part, or that their accounts are told the same."""
    parts = differing(needed(state_of(one)), needed(state_of(other)))
    if len(parts) != 1:
        return f"their states differ in {parts}"
    return "they go on alike" if told(one, asked) == told(other, asked) else None


def told(account, asked):
    """What is told to these messages, with the entries that they make and what they settle."""
    def step(made, message):
        after, seen = step_by_formulas(made[0], *message)
        return after, (*made[1], seen)
    return reduce(step, asked, (account, ()))[1]


def differing(one, other):
    """The parts in which two states differ, but since when a request waits: of a client or an open place that both have,
    the parts of that."""
    parts = {name for name in ("epoch", "moment", "length") if getattr(one, name) != getattr(other, name)}
    return parts | parts_of(one.clients, other.clients) | parts_of(by_order(one), by_order(other))


def by_order(state: State):
    """The open places by side, queue or exchanger, and order."""
    return {(*where, order): there for where, places in state.open.items() for order, there in enumerate(places)}


def parts_of(ones, others):
    """The parts in which the members of two tables differ; which members there are is one."""
    both = [(there, others[name]) for name, there in ones.items() if name in others]
    named = {"members"} if ones.keys() != others.keys() else set()
    return named.union(*(parts_between(*pair) for pair in both))


def parts_between(one, other):
    """The parts in which two clients or open places differ; a key that waits is its client's, told by that."""
    if isinstance(one, OpenPlace):
        one, other = replace(one, key=None), replace(other, key=None)
    return {part.name for part in fields(one) if getattr(one, part.name) != getattr(other, part.name)}
