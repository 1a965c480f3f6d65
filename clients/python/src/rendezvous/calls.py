"""The calls of requests, a row each: its members and its replies. What no request may have is told before anything is sent."""
from __future__ import annotations

import enum
import math
from functools import partial
from typing import Any, Callable, Mapping, NamedTuple, Optional, Tuple, Union

from .bodies import GREATEST_DRAIN, GREATEST_ITEM, Members, is_item, is_whole

GREATEST_PLACE = 63
GREATEST_WAIT = 86_400_000
UNGIVEN = "a session that renews itself has no incarnation that is given: leave it out"


class Call(NamedTuple):
    """What a call is: the members of its body beside its word, in the order in which `made` is given them; the words of the
    replies that it may have; of those that it may have only where it doesn't wait; and whether it changes nothing."""

    members: Tuple[str, ...]
    replies: Tuple[str, ...]
    now: Tuple[str, ...] = ()
    looks: bool = False


CALLS: Mapping[str, Call] = {
    "put": Call(("queue", "item"), ("done",)),
    "transfer": Call(("queue", "item", "wait"), ("received",), now=("nobody",)),
    "take": Call(("queue", "wait"), ("item",), now=("empty",)),
    "drain": Call(("queue", "max"), ("drained",)),
    "swap": Call(("exchanger", "item", "wait"), ("swapped",)),
    "count": Call(("queue",), ("counted",), looks=True),
    "peek": Call(("queue",), ("peeked", "empty"), looks=True),
}


class Wait(enum.Enum):
    """A wait that is no number of seconds."""

    NOW = "now"
    FOREVER = "forever"


def made(word: str, *given: object) -> Members:
    """The members of a call, each of what is given for it."""
    return {"call": word, **{name: VALUES[name](value) for name, value in zip(CALLS[word].members, given)}}


def replies_of(call: Members) -> Tuple[str, ...]:
    """The words of the replies that a call may have. A wait for a time may time out, and each call may be cancelled."""
    row, wait = CALLS[call["call"]], call.get("wait")
    unmet = row.now if wait == "now" else ("timedout",) if isinstance(wait, int) else ()
    return (*row.replies, *unmet, "cancelled")


def looks(call: Members) -> bool:
    """Whether a call changes nothing at the server: it only looks."""
    return CALLS[call["call"]].looks


# ---- pieces of a wait

def is_in_pieces(call: Members, presence: Optional[int]) -> bool:
    """Whether a call waits longer than one request of it, which waits for so many milliseconds at most; None is no limit."""
    wait = call.get("wait", 0)
    return presence is not None and (wait == Wait.FOREVER.value or isinstance(wait, int) and wait > presence)


def piece_of(call: Members, presence: Optional[int], left: float) -> Members:
    """What is asked next of a call that has so many seconds left: itself, or a piece of its wait. The last piece has what is
    left."""
    if presence is None or not is_in_pieces(call, presence):
        return call
    return {**call, "wait": presence if left * 1000 >= presence else math.ceil(max(0.0, left) * 1000)}


# ---- members

def checked(holds: bool, what: str) -> None:
    """Refuses what no request may have."""
    if not holds:
        raise ValueError(what)


def place_of(kind: str, place: int) -> int:
    """A queue or an exchanger."""
    checked(is_whole(place, 0, GREATEST_PLACE), f"the {kind} is a whole number from 0 to {GREATEST_PLACE}: {place!r}")
    return place


def text_of(item: str) -> str:
    """An item that is given."""
    if not isinstance(item, str):
        raise TypeError(f"items are text: {type(item).__name__}")
    if not is_item(item):
        size = len(item.encode(errors="surrogatepass"))
        checked(size <= GREATEST_ITEM, f"item above {GREATEST_ITEM} bytes: {size}")
        raise ValueError("items are text in UTF-8, and a lone surrogate is none")
    return item


def most_of(most: int) -> int:
    """How many items are taken at most."""
    checked(is_whole(most, 1, GREATEST_DRAIN), f"a drain's max is 1 to {GREATEST_DRAIN} items: {most!r}")
    return most


def number_of(name: str, seconds: object) -> float:
    """A time in seconds, which may be `inf`."""
    if isinstance(seconds, bool) or not isinstance(seconds, (int, float)):
        raise TypeError(f"{name} is a number of seconds: {seconds!r}")
    try:
        number = float(seconds)
    except OverflowError:
        number = math.nan
    most = ", at most a day or inf" if name == "timeout" else ""
    checked(not math.isnan(number), f"{name} is a number of seconds{most}: {str(seconds)[:20]}")
    return number


def seconds_of(timeout: Optional[float]) -> float:
    """A call's own time: for ever where it has none, and no time where it is below zero."""
    return math.inf if timeout is None else max(0.0, number_of("timeout", timeout))


def time_of(name: str, seconds: Optional[float], may_be_none: bool = True) -> float:
    """A time of a session's, which is not below zero; None is for ever, where it may be that."""
    if seconds is None and may_be_none:
        return math.inf
    number = number_of(name, seconds)
    checked(number >= 0, f"{name} is not below zero: {seconds!r}")
    return number


def times_of(answer: float, connect_timeout: Optional[float]) -> Tuple[float, float]:
    """Two times of a session's: how long it awaits an answer, and its first welcome."""
    checked(time_of("answer", answer, may_be_none=False) > 0, f"answer is above zero: {answer!r}")
    return answer, time_of("connect_timeout", connect_timeout)


def presence_of(presence: Optional[float]) -> Optional[int]:
    """For how many milliseconds one request of a session waits at most, rounded up; None is no limit."""
    if presence is None:
        return None
    number = number_of("presence", presence)
    checked(0 < number * 1000 <= GREATEST_WAIT, f"presence is above zero, and at most a day: {presence!r}")
    return math.ceil(number * 1000)


def milliseconds(seconds: float) -> int:
    """A wait in whole milliseconds, rounded up; a time below zero is not waited for."""
    checked(seconds * 1000 <= GREATEST_WAIT, f"timeout is at most a day, or inf: {seconds!r}")
    return math.ceil(seconds * 1000)


def wait_of(wait: Union[Wait, float]) -> Union[str, int]:
    """A wait, or one of so many seconds, of which `inf` is for ever."""
    if isinstance(wait, Wait):
        return wait.value
    seconds = seconds_of(wait)
    return Wait.FOREVER.value if seconds == math.inf else milliseconds(seconds)


# What is written as a member, by what is given for it.
VALUES: Mapping[str, Callable[[Any], object]] = {
    "queue": partial(place_of, "queue"), "exchanger": partial(place_of, "exchanger"), "item": text_of, "max": most_of,
    "wait": wait_of,
}
