"""Items that requests took and no call gave, since its caller had gone: each moves here from its request once."""
from __future__ import annotations

from dataclasses import dataclass
from typing import Dict, List, Optional, Tuple

from . import machine as m, replies
from .course import Job
from .replies import Key


@dataclass(frozen=True)
class Unclaimed:
    """An item that a request took and no call gave. `key` is the request's. `queue` is where it was taken; an object that a
    partner gave for one has its `exchanger` instead. The other one is None."""

    key: Key
    item: str
    queue: Optional[int] = None
    exchanger: Optional[int] = None


class NotThere(ValueError):
    """It is not unclaimed, or not any more."""


class Shelf:
    """Keeps such items, by their requests and places. An item moves here from its job once, and is given from here once. Each
    change is one step, which nothing that is thrown can split."""

    def __init__(self) -> None:
        self._kept: Dict[Tuple[Key, int], Unclaimed] = {}

    def keep(self, job: Job) -> None:
        """What a job's request took moves here from the job, if it took something and that has not moved before."""
        taken = [] if job.shelved else taken_by(job)
        for place, one in enumerate(taken):
            self._kept.setdefault((one.key, place), one)
        job.shelved = job.shelved or bool(taken)

    def lacks(self, job: Job) -> bool:
        """Whether something was given that moved here from a job."""
        return job.shelved and any((one.key, place) not in self._kept for place, one in enumerate(taken_by(job)))

    def give_back(self, job: Job) -> None:
        """What moved here from a job, and was not given, is the job's again."""
        for place, one in enumerate(taken_by(job) if job.shelved else []):
            self._kept.pop((one.key, place), None)
        job.shelved = False

    def listed(self) -> List[Unclaimed]:
        """What is kept, oldest first."""
        return [one for _, one in sorted(self._kept.items())]

    def first(self, queue: int) -> Optional[Unclaimed]:
        """The oldest of a queue."""
        return next((one for one in self.listed() if one.queue == queue), None)

    def claim(self, one: Unclaimed) -> str:
        """Takes it out, and gives its item; it stays where something is thrown meanwhile. ValueError where it isn't there."""
        place = next((place for place, kept in list(self._kept.items()) if kept == one), None)
        try:
            # a signal's handler may have claimed it meanwhile
            if place is not None and self._kept.pop(place, None) is not None:
                return one.item
        except BaseException:
            if place is not None:
                self._kept[place] = one
            raise
        raise NotThere(f"it is not unclaimed: {one}")

    def forget(self, key: Key) -> None:
        """What this request took was told."""
        for place in [place for place in list(self._kept) if place[0] == key]:
            self._kept.pop(place, None)


def taken_by(job: Job) -> List[Unclaimed]:
    """What the request of a job took."""
    outcome = job.told.outcome if isinstance(job.told, m.Settled) else None
    call = job.asked or {}
    if isinstance(outcome, replies.Item):
        return [Unclaimed(outcome.key, outcome.item, queue=call["queue"])]
    if isinstance(outcome, replies.Drained):
        return [Unclaimed(outcome.key, item, queue=call["queue"]) for item in outcome.items]
    if isinstance(outcome, replies.Swapped):
        return [Unclaimed(outcome.key, outcome.item, exchanger=call["exchanger"])]
    return []
