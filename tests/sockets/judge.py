"""The judge of crowds: what must hold of all that their clients were told, and of what one client took behind them, with no
word on how the server came to it."""
from __future__ import annotations

from tests.model.account import Key, receipt
from tests.model.calls import KINDS
from tests.sockets.ledger import Left, Ledger
from tests.sockets.wire import Members

# Replies after which an item goes to nobody.
NOES = ("timedout", "cancelled", "nobody")
# The replies that a call may have, by its word.
REPLIES = {word: {kind.met, kind.unmet, *(["timedout", "cancelled"] if "wait" in kind.members else [])}
           for word, kind in KINDS.items()}


def crowd_fault(ledger: Ledger, left: Left) -> str | None:
    """What of all that was told cannot be, if something."""
    for part in [wrong_kinds, wrong_texts, wrong_names, twice_taken, after_a_no, unassigned, lost, untrue_swaps, disorder]:
        fault = part(ledger, left)
        if fault:
            return f"{part.__name__.replace('_', ' ')}: {fault}"
    return None


def told_of(ledger: Ledger, *words: str) -> list[tuple[Key, Members, Members | None]]:
    """The keys of calls of these words, each with its call and its reply, if it was told one."""
    return [(key, call, ledger.told.get(key)) for key, call in ledger.asked.items() if call["call"] in words]


def taken(ledger: Ledger) -> list[tuple[str, Key, int]]:
    """Each item that was told to a consumer, with the consumer's key and its queue."""
    takes = [(key, call, told) for key, call, told in told_of(ledger, "take", "drain") if told]
    return [(item, key, call["queue"]) for key, call, told in takes for item in texts_of(told)]


def texts_of(told: Members) -> list[str]:
    """The items that a consumer was told."""
    texts: dict[str, list[str]] = {"item": [told.get("item", "")], "drained": told.get("texts", [])}
    return texts.get(told["reply"], [])


def wrong_kinds(ledger: Ledger, left: Left) -> str | None:
    """A reply that its call does not have, or that has no item of anybody's."""
    items = {call["item"]: (call["call"] == "swap", call.get("queue", call.get("exchanger")))
             for call in ledger.asked.values() if "item" in call}
    for key, call, told in told_of(ledger, *REPLIES):
        if told is None:
            if key not in ledger.given_up:
                return f"{key} has no reply"
        elif told["reply"] not in REPLIES[call["call"]] | {"cancelled"}:
            return f"{key} {call} was told {told}"
        elif "item" in told or "texts" in told:
            place = (call["call"] == "swap", call.get("queue", call.get("exchanger")))
            if any(items.get(text) != place for text in told.get("texts", [told.get("item")])):
                return f"{key} {call} was told {told}, which was not given there"
    return None


def wrong_texts(ledger: Ledger, left: Left) -> str | None:
    """A drain that was told more than it may take, or items of one client out of their order."""
    for key, call, told in told_of(ledger, "drain"):
        texts = texts_of(told) if told else []
        if len(texts) > call.get("max", 0):
            return f"{key} {call} was told {told}"
        givers = [text.split("#") for text in texts]
        for number, (giver, given) in enumerate(givers):
            if any(giver == earlier and int(given) <= int(before) for earlier, before in givers[:number]):
                return f"{key} was told {told}, out of order"
    return None


def wrong_names(ledger: Ledger, left: Left) -> str | None:
    """A receipt of version 2 that does not name the consumer who was told the item, or one who gave up; one of version 1
    that names anybody."""
    takers = {item: key for item, key, _ in taken(ledger)}
    for key, call, told in told_of(ledger, "transfer"):
        if told and told["reply"] == "received":
            taker = takers.get(call["item"], gone_taker(ledger, key, call, told))
            if taker is None or told != receipt(ledger.spoken[key], taker):
                return f"{key} was told {told}, and {taker} took its item"
    return None


def gone_taker(ledger: Ledger, key: Key, call: Members, told: Members) -> Key | None:
    """The key of a consumer who gave up and may have got the item of a transfer: the one that is named, where one is."""
    given_up = [other for other, wish, heard in told_of(ledger, "take", "drain")
                if heard is None and wish["queue"] == call["queue"]]
    return next((other for other in given_up if told == receipt(ledger.spoken[key], other)), None)


def twice_taken(ledger: Ledger, left: Left) -> str | None:
    """An item that two consumers were told."""
    takers: dict[str, Key] = {}
    for item, key, _ in taken(ledger):
        if takers.setdefault(item, key) != key:
            return f"{item} went to {takers[item]} and to {key}"
    return None


def after_a_no(ledger: Ledger, left: Left) -> str | None:
    """An item that went to somebody though its giver was told a no."""
    gone = {item for item, _, _ in taken(ledger)}
    for key, call, told in told_of(ledger, "put", "transfer"):
        if told and told["reply"] in NOES and call["item"] in gone:
            return f"{key} was told {told}, and its item was taken"
    return None


def open_takes(ledger: Ledger, queue: int) -> int:
    """How many items the takes and drains of a queue that were given up may have got: nobody was told these."""
    given_up = [call for _, call, told in told_of(ledger, "take", "drain") if told is None]
    return sum(call.get("max", 1) for call in given_up if call["queue"] == queue)


def unassigned(ledger: Ledger, left: Left) -> str | None:
    """Items of received transfers that no consumer was told, more than consumers who gave up; and one that was taken
    and whose giver was told otherwise."""
    gone = {item for item, _, _ in taken(ledger)}
    for queue in left:
        here = [(key, call, told) for key, call, told in told_of(ledger, "transfer") if told and call["queue"] == queue]
        received = [call["item"] for _, call, told in here if told["reply"] == "received"]
        if sum(item not in gone for item in received) > open_takes(ledger, queue):
            return f"queue {queue}: {[item for item in received if item not in gone]} were received by nobody"
        for key, call, told in here:
            if call["item"] in gone and told["reply"] != "received":
                return f"{key} was told {told}, and its item was taken"
    return None


def lost(ledger: Ledger, left: Left) -> str | None:
    """Items that were put and neither taken nor left, more than consumers who gave up."""
    gone = {item for item, _, _ in taken(ledger)}
    for queue in left:
        puts = [call["item"] for _, call, told in told_of(ledger, "put")
                if call["queue"] == queue and told == {"reply": "done"}]
        missing = [item for item in puts if item not in gone]
        if len(missing) > open_takes(ledger, queue):
            return f"queue {queue}: {missing} are gone"
    return None


def untrue_swaps(ledger: Ledger, left: Left) -> str | None:
    """A swap whose partner did not get its object."""
    swaps = told_of(ledger, "swap")
    givers = {call["item"]: (key, call, told) for key, call, told in swaps}
    for key, call, told in swaps:
        if told and told["reply"] == "swapped":
            other, other_call, other_told = givers[told["item"]]
            wanted = {"reply": "swapped", "item": call["item"]}
            if other == key or other_call["exchanger"] != call["exchanger"]:
                return f"{key} was told {told}"
            if other_told not in (None, wanted):
                return f"{key} was told {told}, and {other} {other_told}"
    return None


def disorder(ledger: Ledger, left: Left) -> str | None:
    """What was left of one client's items in a queue, out of its order, or before what was taken of them earlier."""
    for queue, items in left.items():
        last: dict[str, int] = {}
        for item in items:
            giver, number = item.split("#")
            if int(number) <= last.get(giver, 0):
                return f"queue {queue}: {items}"
            last[giver] = int(number)
        first: dict[str, int] = {}
        for item in items:
            giver, number = item.split("#")
            first.setdefault(giver, int(number))
        for item, _, at in taken(ledger):
            giver, number = item.split("#")
            if at == queue and item not in items and int(number) > first.get(giver, 10**9):
                return f"queue {queue}: {item} was taken before {giver}#{first[giver]}"
    return None
