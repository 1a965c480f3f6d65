"""Queues and exchangers spread over several servers: which server has which, and the sessions of those that are used."""
from __future__ import annotations

import inspect
from typing import Any, Callable, Dict, Generic, Iterable, List, Optional, Protocol, TypeVar

from .addresses import Address, target_of
from .calls import checked, place_of
from .course import Running
from .errors import Misused
from .unclaimed import Unclaimed

# What each session has of its own, or of its address.
OWN = {"address", "client", "incarnation"}


class Held(Protocol):
    """What is done with the session of a server, whether it is awaited or not."""

    @property
    def running(self) -> Optional[Running]:
        """The call that runs now; None where none does."""

    def cancel(self) -> bool:
        """Gives the call up that runs now, or ends the loop over items that is under way; False where there is neither."""

    def unclaimed(self) -> List[Unclaimed]:
        """The items that requests took and no call gave, oldest first."""

    def claim(self, one: Unclaimed) -> str:
        """Takes one of these out, and gives its item."""


One = TypeVar("One", bound=Held)


class Spread(Generic[One]):
    """Sessions of one kind, each of a server: the first has queue and exchanger 0, and so on, in turn."""

    def __init__(self, kind: Callable[..., One], addresses: Iterable[Address], options: Dict[str, Any]) -> None:
        if isinstance(addresses, str):
            raise TypeError(f"shards are a list of addresses: {addresses!r}")
        self.addresses = tuple(addresses)
        checked(bool(self.addresses), "shards have one address at least")
        for address in self.addresses:
            target_of(address)
        alien = sorted(options.keys() - (inspect.signature(kind).parameters.keys() - OWN))
        if alien:
            raise TypeError(f"no argument of all sessions of shards: {', '.join(alien)}")
        self._kind, self._options = kind, options
        self._closed = False
        # setdefault is one step: a session that is not kept there ends with its last user
        self._sessions: Dict[int, One] = {}

    def __repr__(self) -> str:
        """How many servers there are, and the sessions that are used."""
        return f"<rendezvous shards of {len(self.addresses)}: {self.used()}>"

    def session(self, place: int) -> One:
        """The session of the server that has this queue and exchanger, made where it was not used before."""
        shard = self.shard(place)
        if shard not in self._sessions:
            if self._closed:
                raise Misused("the shards are closed")
            self._sessions.setdefault(shard, self._kind(self.addresses[shard], **self._options))
        return self._sessions[shard]

    def shard(self, place: int) -> int:
        """The index of the server that has this queue and exchanger."""
        return place_of("queue or exchanger", place) % len(self.addresses)

    def used(self) -> List[One]:
        """The sessions of the servers that are used, in the order of these."""
        return [one for _, one in sorted(self._sessions.items())]

    @property
    def running(self) -> Optional[Running]:
        """The call that runs now; None where none does."""
        return next(filter(None, (one.running for one in self.used())), None)

    def cancel(self) -> bool:
        """Gives the call up that runs now; where none runs, it ends the loops over `items` that are under way. False where there
        is neither."""
        running = self.running
        return running is not None and running.cancel() or any([one.cancel() for one in self.used()])

    def unclaimed(self) -> List[Unclaimed]:
        """The items that requests took and no call gave, server after server, oldest first; also after `close`."""
        return [each for one in self.used() for each in one.unclaimed()]

    def claim(self, one: Unclaimed) -> str:
        """Takes one of `unclaimed()` out, and gives its item, which nothing else gives any more. ValueError where it isn't there
        any more. `NotRecorded`, which has all that the request took, where that could not be recorded."""
        place = (one.exchanger if one.queue is None else one.queue) if isinstance(one, Unclaimed) else None
        held = None if place is None else self._sessions.get(self.shard(place))
        if held is None:
            raise ValueError(f"it is not unclaimed: {one}")
        return held.claim(one)
