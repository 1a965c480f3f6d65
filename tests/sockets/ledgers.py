"""The judge of crowds on ledgers that are written down: a right one, and one with each lie, which it must find."""
from tests.model.account import Key
from tests.sockets.judge import crowd_fault
from tests.sockets.ledger import Left, Ledger
from tests.sockets.wire import Members, demand, drain, give, swap, take


def key(client: int, number: int) -> Key:
    """A key of the first epoch and incarnation."""
    return Key(1, client, 1, number)


def text(client: int, number: int) -> str:
    """The item that a client gives under a number."""
    return f"{client}/1#{number}"


def by(client: int, number: int) -> Members:
    """The reply to a transfer that this request received, in version 2."""
    return {"reply": "received", "by_client": client, "by_incarnation": 1, "by_number": number}


def item(client: int, number: int) -> Members:
    """The reply to a take of what a client gave."""
    return {"reply": "item", "item": text(client, number)}


# Client 1 gives, client 2 takes, clients 3 and 4 swap, and client 5 takes what is left: client 1's last put.
RIGHT: dict[Key, tuple[Members, Members]] = {
    key(1, 1): (give("put", text(1, 1), "now", 3), {"reply": "done"}),
    key(1, 2): (give("transfer", text(1, 2), "forever", 3), by(2, 2)),
    key(1, 4): (give("transfer", text(1, 4), 10, 4), {"reply": "timedout"}),
    key(1, 5): (give("put", text(1, 5), "now", 63), {"reply": "done"}),
    key(1, 6): (give("put", text(1, 6), "now", 63), {"reply": "done"}),
    key(1, 7): (give("transfer", text(1, 7), "forever", 3), by(2, 5)),
    key(1, 8): (give("put", text(1, 8), "now", 3), {"reply": "done"}),
    key(2, 1): (take("now", 3), item(1, 1)),
    key(2, 2): (take("now", 3), item(1, 2)),
    key(2, 3): (take("now", 4), {"reply": "empty"}),
    key(2, 4): (drain(2, 63), {"reply": "drained", "texts": [text(1, 5), text(1, 6)]}),
    key(2, 5): (take("forever", 3), item(1, 7)),
    key(3, 1): (swap(text(3, 1), 10, 5), {"reply": "swapped", "item": text(4, 1)}),
    key(4, 1): (swap(text(4, 1), 10, 5), {"reply": "swapped", "item": text(3, 1)}),
    key(5, 1): (take("now", 3), item(1, 8)),
    key(5, 2): (take("now", 63), {"reply": "empty"}),
    key(5, 3): (take("now", 63), {"reply": "empty"}),
}
LEFT: Left = {3: [text(1, 8)], 4: [], 63: []}
# What is told where a client gave up before it was, and where a reply lacks.
GIVEN_UP, NOTHING = "given up", "nothing"
# What is told otherwise, what is left otherwise, and the part of the judge that must find it.
Lie = dict[Key, Members | str]
LIES: list[tuple[str, Lie, Left]] = [
    ("wrong kinds", {key(2, 1): {"reply": "done"}}, {}),
    ("wrong kinds", {key(2, 1): {"reply": "item", "item": "nobody's"}}, {}),
    ("wrong kinds", {key(2, 3): NOTHING}, {}),
    ("wrong texts", {key(2, 4): {"reply": "drained", "texts": [text(1, 6), text(1, 5)]}}, {}),
    ("wrong texts", {key(2, 4): {"reply": "drained", "texts": [text(1, 5), text(1, 6), text(1, 6)]}}, {}),
    ("wrong names", {key(1, 2): by(2, 1)}, {}),
    ("wrong names", {key(1, 2): {"reply": "received"}}, {}),
    ("twice taken", {key(2, 1): item(1, 2)}, {}),
    ("after a no", {key(2, 3): item(1, 4)}, {}),
    ("unassigned", {key(2, 2): GIVEN_UP, key(2, 5): {"reply": "empty"}, key(1, 7): by(2, 2)}, {}),
    ("lost", {key(2, 1): {"reply": "empty"}}, {}),
    ("untrue swaps", {key(4, 1): {"reply": "swapped", "item": text(4, 1)}}, {}),
    ("untrue swaps", {key(4, 1): {"reply": "timedout"}}, {}),
    ("disorder", {key(2, 1): item(1, 8), key(5, 1): item(1, 1)}, {3: [text(1, 1)]}),
    ("disorder", {key(2, 4): {"reply": "drained", "texts": []}, key(5, 2): item(1, 6), key(5, 3): item(1, 5)},
     {63: [text(1, 6), text(1, 5)]}),
]


def fault_of(told: Lie, left: Left) -> str | None:
    """What the judge says where this is told, and left, in place of what is right."""
    ledger = Ledger()
    for each, (call, right) in RIGHT.items():
        ledger.ask(each, call, 2)
        reply = told.get(each, right)
        if reply == GIVEN_UP:
            ledger.given_up.add(each)
        elif not isinstance(reply, str):
            ledger.tell(each, reply)
    return crowd_fault(ledger, {**LEFT, **left})


def the_judge_of_crowds() -> None:
    """A right ledger has no fault, and each lie is found by the part that looks for it."""
    demand(fault_of({}, {}) is None, f"the right ledger: {fault_of({}, {})}")
    for part, told, left in LIES:
        found = fault_of(told, left)
        demand(found and found.startswith(f"{part}: "), f"{part}, where {told or left}: {found}")
