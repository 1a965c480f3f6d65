"""Accounts that are broken by hand: behind entries that make a legal account, each last entry breaks this rule, or
none. Where it breaks several, the first of them in their order is given."""
from dataclasses import replace

from .account import Account, Call, Cancel, Entry, Hello, Key, Request, Tick
from .lines import account_text
from .verdicts import verdict


def hello(client, incarnation):
    return Entry(0, Hello(client, incarnation))


def request(client, number, call):
    return Entry(0, Request(Key(1, client, 1, number), call))


def put(client, number, item):
    return request(client, number, Call("put", 3, item))


def transfer(client, number, item, wait="now", at=3):
    return request(client, number, Call("transfer", at, item, wait))


def take(client, number, wait="now", at=3):
    return request(client, number, Call("take", at, wait=wait))


def drain(client, number, most, at=3):
    return request(client, number, Call("drain", at, max=most))


def swap(client, number, item, at=3):
    return request(client, number, Call("swap", at, item, "forever"))


def count(client, number):
    return request(client, number, Call("count", 3))


def cancel(client, number):
    return Entry(0, Cancel(Key(1, client, 1, number)))


def tick(moment):
    return Entry(moment, Tick())


def at(entry, moment):
    return replace(entry, moment=moment)


def meeting(entry, *partners):
    return replace(entry, partners=partners)


def keyed(entry, **other):
    """The entry with other numbers in its key."""
    return replace(entry, act=replace(entry.act, key=replace(entry.act.key, **other)))


ONE, TWO, THREE = hello(1, 1), hello(2, 1), hello(3, 1)
A, B, NEXT = put(1, 1, "a"), put(1, 2, "b"), put(1, 3, "c")
POLL = at(take(2, 1), 1)
GIVEN, ENDED = transfer(1, 1, "a", "forever"), cancel(1, 1)
TIMED = transfer(1, 1, "a", 10)

# The opening moment, the first entries, and the last ones with the rule that each of them breaks.
BROKEN = [
    (0, [ONE, TWO, A, B], [
        (meeting(POLL, 2), None),
        (meeting(POLL, 3), "P3"),
        (POLL, "P4"),
        (meeting(POLL, 1), "P2"),
        (meeting(POLL, 4), "P1"),
        (meeting(at(take(2, 2), 1), 2), "N3"),
        (meeting(at(take(2, 1, at=4), 1), 2), "P2"),
        (meeting(NEXT, 2), "P2"),
        (keyed(NEXT, epoch=2), "N2"),
        (meeting(take(3, 1), 2), "N2"),
        (meeting(hello(3, 1), 2), "P1"),
        (hello(2, 1), "N1"),
        (meeting(hello(2, 1), 2), "N1"),
        (keyed(POLL, epoch=2, number=9), "N2"),
        (meeting(keyed(POLL, incarnation=2), 4), "N2"),
        (meeting(keyed(POLL, number=3), 3), "N3"),
        (keyed(POLL, number=3), "N3"),
        (meeting(keyed(POLL, number=3), 4), "N3"),
        (meeting(cancel(2, 1), 2), "P1"),
        (meeting(count(2, 1), 2), "P1"),
        (at(take(2, 1, at=4), 1), None),
        (meeting(swap(2, 1, "c"), 2), "S1"),
    ]),
    (0, [ONE], [(ONE, "N1")]),
    (3, [], [(at(ONE, 3), None), (tick(2), "M1"), (tick(3), "M3"), (at(POLL, 2), "M1"), (at(POLL, 3), "N2")]),
    (1, [], [(ONE, "M1")]),
    (0, [ONE, TWO, A, B, meeting(POLL, 2), at(hello(1, 3), 1)], [
        (meeting(at(take(2, 2), 1), 3), None),
        (meeting(take(2, 2), 3), "M1"),
        (at(hello(1, 2), 1), "N1"),
        (at(NEXT, 1), "N2"),
        (at(keyed(NEXT, incarnation=3), 1), "N3"),
        (at(keyed(A, incarnation=3), 1), None),
        (meeting(at(take(2, 2), 1), 2), "P1"),
        (meeting(at(take(2, 2), 1), 4), "P1"),
    ]),
    (0, [ONE, TWO, GIVEN], [
        (meeting(take(2, 1), 2), None),
        (meeting(take(2, 1, "forever"), 2), None),
        (take(2, 1, "forever"), "P4"),
        (meeting(transfer(2, 1, "b"), 2), "P2"),
        (transfer(2, 1, "b", "forever"), None),
        (count(2, 1), None),
        (meeting(count(2, 1), 2), "P1"),
        (B, "N3"),
        (count(1, 2), "N3"),
        (hello(1, 2), None),
        (ENDED, None),
        (cancel(1, 2), "N3"),
        (cancel(2, 1), None),
        (cancel(2, 2), "N3"),
        (keyed(ENDED, epoch=2), "N2"),
        (keyed(ENDED, incarnation=2), "N2"),
        (meeting(ENDED, 2), "P1"),
    ]),
    (0, [ONE, TWO, GIVEN, hello(1, 2)], [
        (meeting(take(2, 1), 2), "P2"),
        (take(2, 1), None),
        (keyed(GIVEN, incarnation=2), None),
    ]),
    (0, [ONE, TWO, THREE, take(1, 1, "forever"), take(2, 1, "forever")], [
        (meeting(put(3, 1, "x"), 3), None),
        (meeting(put(3, 1, "x"), 4), "P3"),
        (put(3, 1, "x"), "P4"),
        (transfer(3, 1, "y"), "P4"),
        (meeting(transfer(3, 1, "y"), 3), None),
        (transfer(3, 1, "y", at=4), None),
    ]),
    (0, [ONE, TWO, GIVEN, ENDED], [
        (meeting(take(2, 1), 2), "P2"),
        (take(2, 1), None),
        (ENDED, "N3"),
        (GIVEN, "N3"),
        (B, None),
    ]),
    (0, [ONE, ENDED], [(A, "N3"), (put(1, 2, "a"), None), (ENDED, "N3")]),
    (0, [ONE, TWO, TIMED], [
        (meeting(at(take(2, 1), 9), 2), None),
        (meeting(at(take(2, 1), 10), 2), "M2"),
        (at(take(2, 1), 10), "M2"),
        (at(ENDED, 10), "M2"),
        (at(hello(1, 2), 11), "M2"),
        (at(hello(2, 1), 10), "M2"),
        (at(keyed(ENDED, epoch=2), 10), "M2"),
        (at(keyed(take(2, 1), epoch=2), 10), "M2"),
        (meeting(at(count(2, 9), 10), 2), "M2"),
        (at(hello(1, 2), 9), None),
        (at(ENDED, 9), None),
        (meeting(tick(9), 2), "M3"),
        (tick(9), "M3"),
        (tick(10), None),
        (tick(11), None),
        (meeting(tick(10), 2), "P1"),
    ]),
    (0, [ONE, TWO, TIMED, tick(10)], [
        (tick(10), "M3"),
        (tick(9), "M1"),
        (meeting(at(take(2, 1), 10), 2), "P2"),
        (at(take(2, 1), 10), None),
        (at(ENDED, 10), "N3"),
        (at(B, 10), None),
    ]),
    (0, [ONE, TWO, transfer(1, 1, "a", 10), transfer(2, 1, "b", 5)], [
        (tick(4), "M3"),
        (tick(5), None),
        (at(count(1, 2), 5), "M2"),
        (at(count(1, 2), 4), "N3"),
    ]),
    (0, [ONE, TWO, transfer(1, 1, "a", 10), transfer(2, 1, "b", 5), tick(5)], [
        (meeting(at(take(2, 2), 5), 2), None),
        (meeting(at(take(2, 2), 5), 3), "P2"),
        (at(take(2, 2), 5), "P4"),
        (tick(9), "M3"),
        (tick(10), None),
    ]),
    (0, [ONE, TWO, transfer(1, 1, "a", 10), hello(1, 2)], [(tick(10), "M3"), (at(take(2, 1), 10), None)]),
    (0, [ONE, TWO, transfer(1, 1, "a", 10), meeting(take(2, 1), 2)], [(tick(10), "M3"), (at(count(2, 2), 10), None)]),
    (0, [ONE, TWO, A, hello(1, 2)], [(meeting(take(2, 1), 2), None), (take(2, 1), "P4")]),
    (0, [ONE, TWO, A, B, meeting(take(2, 1), 2)], [
        (meeting(take(2, 2), 2), "P1"),
        (meeting(take(2, 2), 4), "P1"),
        (meeting(take(2, 2), 3), None),
    ]),
    (0, [ONE, TWO, THREE, transfer(1, 1, "a", "forever"), transfer(2, 1, "b", "forever"), cancel(1, 1)], [
        (meeting(take(3, 1), 3), "P2"),
        (meeting(take(3, 1), 4), None),
    ]),
    (0, [ONE, TWO, THREE, transfer(1, 1, "a", "forever"), transfer(2, 1, "b", "forever"), cancel(2, 1)], [
        (meeting(take(3, 1), 4), "P2"),
        (meeting(take(3, 1), 3), None),
        (meeting(put(3, 1, "c"), 4), "P2"),
        (put(3, 1, "c"), None),
    ]),
    (0, [ONE, TWO, THREE, A, transfer(3, 1, "b", "forever"), B], [
        (meeting(drain(2, 1, 2), 3, 4), None),
        (meeting(drain(2, 1, 2), 3, 5), "P3"),
        (meeting(drain(2, 1, 2), 4, 5), "P3"),
        (meeting(drain(2, 1, 2), 3), "P4"),
        (meeting(drain(2, 1, 2), 4), "P3"),
        (drain(2, 1, 2), "P4"),
        (meeting(drain(2, 1, 2), 4, 3), "P1"),
        (meeting(drain(2, 1, 2), 3, 3), "P1"),
        (meeting(drain(2, 1, 2), 3, 4, 5), "P1"),
        (meeting(drain(2, 1, 2), 3, 6), "P1"),
        (meeting(drain(2, 1, 2), 3, 9), "P1"),
        (meeting(drain(2, 1, 2), 2, 3), "P2"),
        (meeting(drain(2, 1, 2, at=4), 3, 4), "P2"),
        (meeting(drain(2, 1, 2, at=4), 3), "P2"),
        (drain(2, 1, 2, at=4), None),
        (meeting(drain(2, 1, 3), 3, 4, 5), None),
        (meeting(drain(2, 1, 3), 3, 4), "P4"),
        (meeting(drain(2, 1, 3), 3, 5), "P3"),
        (meeting(drain(2, 1, 16), 3, 4, 5), None),
        (meeting(drain(2, 1, 16), 3, 4), "P4"),
        (meeting(drain(2, 1, 16), *range(6)), "P2"),
        (meeting(drain(2, 1, 16), *range(3, 20)), "P1"),
        (meeting(drain(2, 1, 1), 3), None),
        (meeting(drain(2, 1, 1), 4), "P3"),
        (meeting(drain(2, 1, 1), 3, 4), "P1"),
        (meeting(take(2, 1), 3, 4), "P1"),
        (meeting(take(2, 1), 3), None),
        (meeting(swap(2, 1, "x"), 3, 4), "P1"),
        (meeting(count(2, 1), 3, 4), "P1"),
        (meeting(cancel(3, 1), 3, 4), "P1"),
        (meeting(drain(2, 2, 2), 3, 4), "N3"),
        (meeting(keyed(drain(2, 1, 2), epoch=2), 3, 4), "N2"),
        (meeting(hello(3, 2), 3, 4), "P1"),
    ]),
    (0, [ONE, TWO, THREE, A, transfer(3, 1, "b", "forever"), B, meeting(drain(2, 1, 2), 3, 4)], [
        (meeting(drain(2, 2, 2), 5), None),
        (drain(2, 2, 2), "P4"),
        (meeting(drain(2, 2, 2), 4, 5), "P1"),
        (meeting(drain(2, 2, 2), 3), "P1"),
        (meeting(drain(2, 2, 2), 5, 6), "P1"),
        (meeting(drain(2, 2, 2), 6), "P1"),
        (meeting(take(2, 2), 4), "P1"),
        (meeting(take(2, 2), 5), None),
        (meeting(put(1, 3, "c"), 6), "P1"),
        (cancel(3, 1), "N3"),
        (count(3, 2), None),
        (hello(3, 2), None),
    ]),
    (0, [ONE, TWO, THREE, transfer(1, 1, "a", "forever"), transfer(3, 1, "b", 10), cancel(1, 1)], [
        (meeting(drain(2, 1, 2), 4), None),
        (meeting(drain(2, 1, 2), 3, 4), "P2"),
        (meeting(at(drain(2, 1, 2), 9), 4), None),
        (meeting(at(drain(2, 1, 2), 10), 4), "M2"),
        (drain(2, 1, 1), "P4"),
    ]),
    (0, [ONE, TWO, transfer(1, 1, "a", 10), meeting(drain(2, 1, 16), 2)], [
        (tick(10), "M3"),
        (at(count(2, 2), 10), None),
        (at(drain(2, 2, 16), 10), None),
        (meeting(at(drain(2, 2, 16), 10), 2), "P1"),
    ]),
    (0, [ONE, TWO, drain(2, 1, 1)], [
        (A, None),
        (meeting(A, 2), "P2"),
        (transfer(1, 1, "a"), None),
        (cancel(2, 1), "N3"),
        (drain(2, 2, 1), None),
        (meeting(drain(2, 2, 1), 2), "P2"),
    ]),
    (0, [ONE, TWO, THREE, take(1, 1, "forever")], [
        (drain(2, 1, 2), None),
        (meeting(drain(2, 1, 2), 3), "P2"),
        (meeting(A, 3), "N3"),
        (meeting(put(2, 1, "a"), 3), None),
    ]),
    (0, [ONE, TWO, THREE, take(1, 1, "forever"), take(2, 1, "forever")], [
        (meeting(put(3, 1, "a"), 3, 4), "P1"),
        (meeting(transfer(3, 1, "a"), 3, 4), "P1"),
    ]),
    (0, [ONE, TWO, take(2, 1, 0)], [(tick(0), "M3"), (put(1, 1, "b"), None)]),
    (0, [ONE, TWO, THREE, swap(1, 1, "a")], [
        (meeting(swap(2, 1, "b"), 3), None),
        (swap(2, 1, "b"), "S2"),
        (meeting(swap(2, 1, "b", 4), 3), "S1"),
        (swap(2, 1, "b", 4), None),
        (meeting(swap(2, 1, "b"), 2), "S1"),
        (meeting(swap(2, 1, "b"), 4), "P1"),
        (meeting(take(2, 1), 3), "P2"),
        (swap(2, 2, "b"), "N3"),
        (meeting(swap(2, 2, "b", 4), 3), "N3"),
        (meeting(put(2, 1, "b"), 3), "P2"),
        (put(2, 1, "b"), None),
    ]),
    (0, [ONE, TWO, THREE, swap(1, 1, "a"), hello(1, 2)], [
        (meeting(swap(2, 1, "b"), 3), "S1"),
        (swap(2, 1, "b"), None),
    ]),
    (0, [ONE, TWO, THREE, swap(1, 1, "a"), meeting(swap(2, 1, "b"), 3)], [
        (meeting(swap(3, 1, "c"), 3), "P1"),
        (meeting(swap(3, 1, "c"), 4), "P1"),
        (swap(3, 1, "c"), None),
    ]),
]


def broken_texts():
    """The lines of each account, with their verdict."""
    for opened, first, lasts in BROKEN:
        for last, rule in lasts:
            text = account_text(Account(1, opened, (*first, last)))
            yield text, f"fault {len(first)} {rule}" if rule else "legal"


def broken_faults():
    """Each account by its number, with what is wrong with the verdict that is found, if something is."""
    for number, (text, expected) in enumerate(broken_texts(), 1):
        found = verdict(text)
        yield f"broken account {number}", None if found == expected else f"{text}: got {found}, not {expected}"
