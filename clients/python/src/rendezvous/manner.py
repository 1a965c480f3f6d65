"""How a session goes about its calls: what it is given and, for what is left out, what its address says."""
from __future__ import annotations

import enum
import math
from dataclasses import dataclass, replace
from typing import NamedTuple, Optional, Union

from .addresses import Options
from .bodies import GREATEST_VERSION, is_whole
from .calls import checked, number_of, presence_of, time_of, times_of
from .errors import Misused
from .record import Path, Record, record_of


class Left(enum.Enum):
    """What stands for an argument that is left out, where None is something else."""

    OUT = "left out"


@dataclass(frozen=True)
class Retry:
    """How a call goes on that reaches no server, in seconds: before it tries again it pauses, for any time up to `first`, a bound
    that doubles each time up to `largest`; and it ends where nothing is heard for `patience`, which None has without an end.
    `Misused` where these are no such times."""

    first: float = 0.01
    largest: float = 5.0
    patience: Optional[float] = 60.0

    def __post_init__(self) -> None:
        try:
            first, largest = number_of("first", self.first), number_of("largest", self.largest)
            time_of("patience", self.patience)
        except (TypeError, ValueError) as fault:
            raise Misused(str(fault)) from None
        if not 0 < first <= largest < math.inf:
            raise Misused(f"first is above zero, and largest at least that, and not without an end: {first:g} and {largest:g}")


class Manner(NamedTuple):
    """How a session goes about its calls: the version that it speaks, for how many seconds it awaits one answer, and its first
    welcome, the record that it keeps, whether it begins anew where its epoch has ended, for how many milliseconds one request
    waits at most, and how it goes on where it reaches no server."""

    version: int
    answer: float
    connect_timeout: float
    record: Optional[Record]
    renew: bool
    presence: Optional[int]
    retry: Retry


def manner_of(options: Options, version: Optional[int], patience: Union[float, None, Left], retry: Optional[Retry], answer: float,
              connect_timeout: Optional[float], record: Optional[Path], renew: bool, presence: Optional[float]) -> Manner:
    """The manner of a session, by what it is given, and by its address's options."""
    awaits, connects = times_of(answer, connect_timeout)
    speaks = version if version is not None else options.version or GREATEST_VERSION
    checked(is_whole(speaks, 1, GREATEST_VERSION), f"the version is 1 to {GREATEST_VERSION}: {version!r}")
    if not isinstance(renew, bool):
        raise TypeError(f"renew is True or False: {renew!r}")
    waits, goes_on = presence_of(presence), retry_of(options, patience, retry)
    return Manner(speaks, awaits, connects, record_of(options.record if record is None else record), renew, waits, goes_on)


def retry_of(options: Options, patience: Union[float, None, Left], retry: Optional[Retry]) -> Retry:
    """How a session goes on: a patience that is given comes before that of a retry, and this before the address's."""
    if retry is not None and not isinstance(retry, Retry):
        raise TypeError(f"retry is a Retry: {retry!r}")
    if not isinstance(patience, Left):
        time_of("patience", patience)
        return replace(retry or Retry(), patience=patience)
    return retry or (Retry() if options.patience is None else Retry(patience=options.patience))
