"""What a request came to: one type for each kind of reply, each with the key of its request; and a row for each."""
from __future__ import annotations

from dataclasses import dataclass
from typing import Callable, Mapping, NamedTuple, Optional, Tuple

__all__ = [
    "Cancelled", "Counted", "Done", "Drained", "Empty", "Item", "Key", "Nobody", "Outcome", "Peeked", "Receipt",
    "Swapped", "TimedOut",
]


class Key(NamedTuple):
    """The name of one request, for ever."""

    epoch: int
    client: int
    incarnation: int
    number: int


@dataclass(frozen=True)
class Outcome:
    """A request is settled: this is its one reply. `key` is the request's."""

    key: Key


@dataclass(frozen=True)
class Done(Outcome):
    """A put's item is in the queue, or was taken."""


@dataclass(frozen=True)
class Receipt(Outcome):
    """A transfer was received: its item was assigned to exactly one consumer's request. `key` is the transfer's, `by` the
    consumer's, which a session of version 1 is not told: there it is None."""

    by: Optional[Key] = None


@dataclass(frozen=True)
class Nobody(Outcome):
    """Nobody waited for the item of a transfer that doesn't wait: nobody gets it."""


@dataclass(frozen=True)
class Item(Outcome):
    """A take or a poll took this item."""

    item: str


@dataclass(frozen=True)
class Empty(Outcome):
    """No item was there for a poll or a peek."""


@dataclass(frozen=True)
class Swapped(Outcome):
    """A partner came, whose object this is."""

    item: str


@dataclass(frozen=True)
class TimedOut(Outcome):
    """Nobody came in time: the item goes to nobody, and none was taken."""


@dataclass(frozen=True)
class Cancelled(Outcome):
    """The request was cancelled: its item goes to nobody, and none was taken."""


@dataclass(frozen=True)
class Counted(Outcome):
    """How many items and how many waiting consumers a queue had in the step that answered."""

    items: int
    consumers: int


@dataclass(frozen=True)
class Peeked(Outcome):
    """The oldest item, which stays."""

    item: str


@dataclass(frozen=True)
class Drained(Outcome):
    """The items of a drain, oldest first; there may be none."""

    items: Tuple[str, ...]


def received(key: Key, *by: int) -> Receipt:
    """A receipt that names the consumer by this, which stands behind the same epoch, or names none."""
    return Receipt(key, Key(key.epoch, *by) if by else None)


class Reply(NamedTuple):
    """What a reply is: the members of what it tells beside the request's key, and the outcome of the key and of those."""

    members: Tuple[str, ...]
    outcome: Callable[..., Outcome]


REPLIES: Mapping[str, Reply] = {
    "done": Reply((), Done),
    "received": Reply((), received),
    "nobody": Reply((), Nobody),
    "item": Reply(("item",), Item),
    "empty": Reply((), Empty),
    "swapped": Reply(("item",), Swapped),
    "timedout": Reply((), TimedOut),
    "cancelled": Reply((), Cancelled),
    "counted": Reply(("items", "consumers"), Counted),
    "peeked": Reply(("item",), Peeked),
    "drained": Reply(("texts",), lambda key, texts: Drained(key, tuple(texts))),
}
