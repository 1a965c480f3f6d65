"""States by hand: of small accounts the state, what a step settles, and which rule an entry breaks that may not follow."""
from tests.model.account import Account, Call, Cancel, Entry, Hello, Key, Request, Tick
from tests.model.state import CancelledFirst, ClientState, OpenPlace, Replied, State, Waits
from tests.model.state_after import state_of
from tests.model.state_rules import NOT_OPEN, follow
from tests.model.state_steps import step

OFFER, SECOND, THIRD = Call("transfer", 5, "x", 10), Call("transfer", 5, "y", 5), Call("transfer", 5, "z", "forever")
ITEM, POLL, DRAIN, LOOK = Call("put", 5, "i"), Call("take", 5, wait="now"), Call("drain", 5, max=16), Call("peek", 5)
SWAP = Call("swap", 5, "s", "forever")


def key(client, number, incarnation=1):
    """A key of the rows' epoch."""
    return Key(3, client, incarnation, number)


def account(*entries):
    """An account opened at moment 7, of which each entry is a moment, an act and perhaps partners."""
    return Account(3, 7, tuple(Entry(*entry) for entry in entries))


# Two clients, the second in version 2; the rest of the rows goes on from here.
GREETED = ((7, Hello(1, 1)), (7, Hello(2, 1, 2)))
OFFERED = (*GREETED, (8, Request(key(1, 1), OFFER)))
SOLD = (*OFFERED, (9, Request(key(2, 1), POLL), (2,)))
OFFERED_BY_TWO = (*GREETED, (8, Request(key(2, 1), OFFER)), (9, Request(key(1, 1), POLL), (2,)))
ENDED = (*OFFERED, (18, Tick()))
RESTARTED = (*GREETED, (8, Request(key(1, 1), ITEM)), (8, Cancel(key(2, 1))), (9, Hello(1, 4, 2)))
LOOKED = (*RESTARTED, (9, Request(key(1, 1, 4), LOOK)))
SWAPPING = (*GREETED, (8, Request(key(1, 1), SWAP)))
SWAPPED = (*SWAPPING, (8, Request(key(2, 1), Call("swap", 5, "t", 0)), (2,)))
# Three transfers that wait, the first of which has the later limit of two.
THREE = (*GREETED, (7, Hello(9, 1)), (7, Hello(4, 1)),
         (8, Request(key(1, 1), OFFER)), (9, Request(key(2, 1), SECOND)), (9, Request(key(9, 1), THIRD)))
RECEIVED_BY = {"reply": "received", "by_client": 1, "by_incarnation": 1, "by_number": 1}

# What an account is, and its state: the moment, the number of entries, the open places and the clients.
STATES = [
    ("nothing", (), (7, 0, {}, {})),
    ("a transfer waits", OFFERED,
     (8, 3, {("giving", 5): (OpenPlace(2, "x", 18, key(1, 1), 8),)},
      {1: ClientState(1, 1, 1, Waits(2, OFFER)), 2: ClientState(1, 2)})),
    ("a transfer was received", SOLD,
     (9, 4, {}, {1: ClientState(1, 1, 1, Replied(OFFER, {"reply": "received"})),
                 2: ClientState(1, 2, 1, Replied(POLL, {"reply": "item", "item": "x"}))})),
    ("a transfer of version 2 was received", OFFERED_BY_TWO,
     (9, 4, {}, {1: ClientState(1, 1, 1, Replied(POLL, {"reply": "item", "item": "x"})),
                 2: ClientState(1, 2, 1, Replied(OFFER, RECEIVED_BY))})),
    ("a transfer timed out", ENDED,
     (18, 4, {}, {1: ClientState(1, 1, 1, Replied(OFFER, {"reply": "timedout"})), 2: ClientState(1, 2)})),
    ("an item whose client began anew, and a cancel of what never came", RESTARTED,
     (9, 5, {("giving", 5): (OpenPlace(2, "i"),)}, {1: ClientState(4, 2), 2: ClientState(1, 2, 1, CancelledFirst())})),
    ("a swap", SWAPPED,
     (8, 4, {}, {1: ClientState(1, 1, 1, Replied(SWAP, {"reply": "swapped", "item": "t"})),
                 2: ClientState(1, 2, 1, Replied(Call("swap", 5, "t", 0), {"reply": "swapped", "item": "s"}))})),
    ("a swap that waits at the number of a queue", SWAPPING,
     (8, 3, {("exchanging", 5): (OpenPlace(2, "s", None, key(1, 1), 8),)},
      {1: ClientState(1, 1, 1, Waits(2, SWAP)), 2: ClientState(1, 2)})),
    ("a peek", LOOKED,
     (9, 6, {("giving", 5): (OpenPlace(2, "i"),)},
      {1: ClientState(4, 2, 1, Replied(LOOK, {"reply": "peeked", "item": "i"})),
       2: ClientState(1, 2, 1, CancelledFirst())})),
]
# What an account is, the moment and message of a step, its entries, and the replies that it settles.
STEPS = [
    ("a tick and a drain settle by limit, and then by place", THREE, 19, Request(key(4, 1), DRAIN),
     [(19, Tick()), (19, Request(key(4, 1), DRAIN), (6,))],
     [(key(2, 1), {"reply": "timedout"}), (key(1, 1), {"reply": "timedout"}), (key(9, 1), {"reply": "received"})]),
    ("a drain settles by place", THREE, 9, Request(key(4, 1), DRAIN), [(9, Request(key(4, 1), DRAIN), (4, 5, 6))],
     [(key(1, 1), {"reply": "received"}),
      (key(2, 1), {"reply": "received", "by_client": 4, "by_incarnation": 1, "by_number": 1}),
      (key(9, 1), {"reply": "received"})]),
    ("a hello settles what its client waits for", THREE, 9, Hello(9, 2), [(9, Hello(9, 2))],
     [(key(9, 1), {"reply": "cancelled"})]),
    ("a repeat settles nothing", THREE, 9, Request(key(9, 1), THIRD), [], []),
]
# What an account is, an entry behind it, and the rule that it breaks.
FAULTS = [
    ("names what was met", SOLD, (9, Request(key(2, 2), POLL), (2,)), NOT_OPEN),
    ("names what was stopped", ENDED, (18, Request(key(2, 1), POLL), (2,)), NOT_OPEN),
    ("names a hello", OFFERED, (8, Request(key(2, 1), POLL), (0,)), NOT_OPEN),
    ("names itself", OFFERED, (8, Request(key(2, 1), POLL), (3,)), "P1"),
    ("names what is open elsewhere", OFFERED, (8, Request(key(2, 1), Call("take", 6, wait="now")), (2,)), "P2"),
    ("swaps with what is open elsewhere", OFFERED, (8, Request(key(2, 1), SWAP), (2,)), "S1"),
    ("passes over the oldest", THREE, (9, Request(key(4, 1), POLL), (5,)), "P3"),
    ("meets nobody where one waits", OFFERED, (8, Request(key(2, 1), POLL)), "P4"),
    ("swaps with nobody where one waits", SWAPPING, (8, Request(key(2, 1), SWAP)), "S2"),
    ("comes where something is due", OFFERED, (18, Request(key(2, 1), POLL), (2,)), "M2"),
]


def state_row_faults():
    """Each row by its name, with what is told otherwise, if something is."""
    for name, entries, (moment, length, places, clients) in STATES:
        wanted = State(3, moment, length, places, clients)
        yield f"the state of an account: {name}", other(wanted, state_of(account(*entries)))
    for name, entries, now, message, made, settled in STEPS:
        got = step(state_of(account(*entries)), now, message)
        wanted = tuple(Entry(*entry) for entry in made), tuple(settled)
        yield f"a step of a state: {name}", other(wanted, (got.entries, got.settled))
    for name, entries, entry, rule in FAULTS:
        yield f"an entry behind a state: it {name}", other(rule, follow(state_of(account(*entries)), Entry(*entry)))


def other(wanted, got):
    """That these differ, if they do."""
    return None if got == wanted else f"expected {wanted}, got {got}"
