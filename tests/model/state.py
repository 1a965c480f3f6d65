"""The state of an account: all that its future hangs on, without its entries (docs/MODEL.md, sections 5 to 8)."""
from dataclasses import dataclass, field

from tests.model.account import OTHER_SIDE, Call, Key


@dataclass(frozen=True)
class OpenPlace:
    """An open arrival: its place, with its item and its limit if it has them. Where it waits, also its key and the
    moment at which it came, which no step asks for. An open put is a text and a place: nobody asks later whose it was."""

    place: int
    item: str | None = None
    limit: int | None = None
    key: Key | None = None
    came: int | None = None

    @property
    def waits(self):
        """Whether it is more than an item that lies there."""
        return self.key is not None


@dataclass(frozen=True)
class Fresh:
    """The session has asked for nothing yet."""


@dataclass(frozen=True)
class Waits:
    """The request with the session's last number waits at a place."""

    place: int
    call: Call


@dataclass(frozen=True)
class Replied:
    """The request with the session's last number arrived and has this reply, in its members."""

    call: Call
    reply: dict


@dataclass(frozen=True)
class CancelledFirst:
    """The session's last number was cancelled before a request of it came."""


@dataclass(frozen=True)
class ClientState:
    """A client's session, and what became of the request with its last number."""

    incarnation: int
    version: int
    last: int = 0
    request: Fresh | Waits | Replied | CancelledFirst = Fresh()


@dataclass(frozen=True)
class State:
    """The epoch; the last entry's moment, before the first the opening; how many entries there are; by side and queue or
    exchanger the open places, oldest first, where there are any; and each client that said hello."""

    epoch: int
    moment: int
    length: int = 0
    open: dict = field(default_factory=dict)
    clients: dict = field(default_factory=dict)

    def open_at(self, side, at):
        """The open places of this side of a queue or exchanger, oldest first."""
        return self.open.get((side, at), ())

    def opposites(self, call):
        """The open places that an arrival with this call might meet, oldest first."""
        return self.open_at(OTHER_SIDE.get(call.side), call.at)

    def every_open(self):
        """All open places."""
        return [there for places in self.open.values() for there in places]

    def waiting(self):
        """The open places that wait."""
        return [there for there in self.every_open() if there.waits]

    def due(self, moment):
        """The open places whose limit is at or below a moment, by limit and then place."""
        timed = [there for there in self.every_open() if there.limit is not None and there.limit <= moment]
        return sorted(timed, key=lambda there: (there.limit, there.place))

    def waiting_of(self, client):
        """The open place at which the client waits, if it does."""
        request = self.clients[client].request if client in self.clients else None
        if not isinstance(request, Waits):
            return None
        there = self.open_at(request.call.side, request.call.at)
        return next(waits for waits in there if waits.place == request.place)
