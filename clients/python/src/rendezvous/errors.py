"""What ends a call without a result, each with what is known of its request."""
from __future__ import annotations

from typing import Any, Optional, Tuple

from .replies import Key, Outcome

__all__ = [
    "AllLeased", "Cancelled", "EpochEnded", "Full", "Interrupted", "Misused", "NotAsked", "NotRecorded", "Refused",
    "RendezvousError", "Replaced", "TimedOut", "Unsettled",
]

REFUSALS = {
    1: "bad text", 2: "other epoch", 3: "no session", 4: "old incarnation", 5: "old number", 6: "other call",
    7: "busy", 8: "gap", 9: "clients full", 10: "epoch full", 11: "no memory", 12: "other version",
}


class RendezvousError(Exception):
    """What ends a call without a result. `key` names its request; it is None where no request was sent."""

    def __init__(self, key: Optional[Key], *more: Any) -> None:
        super().__init__(key, *more)
        self.key = key

    def __str__(self) -> str:
        return self.words() if self.key is None else f"{self.words()} (request {'/'.join(map(str, self.key))})"

    def words(self) -> str:
        """What it says, but for the request's name."""
        return "no result"


class Unsettled(RendezvousError):
    """Nothing final was heard in time, so whether the request was met is not known. `accepted` tells whether the server
    said that the request waits there. `Session.again` asks it again, `Session.give_up` cancels it."""

    def __init__(self, key: Optional[Key], accepted: bool = False, why: str = "") -> None:
        super().__init__(key, accepted, why)
        self.accepted, self.why = accepted, why

    def words(self) -> str:
        heard = "the server accepted the request, and no reply came" if self.accepted else "no reply came"
        return f"{heard}: {self.why}" if self.why else heard


class NotAsked(RendezvousError):
    """Nothing was asked that anybody met, nor will be. The request was never sent: the server was not reached, or the time was
    over; then `current` is None, and `why` names the address and what went wrong there last. Or the server was started anew, in
    the epoch `current`, before any copy of the request came to it, and refused each: then `key` names the request, and the
    session has ended."""

    def __init__(self, key: Optional[Key] = None, why: str = "", current: Optional[int] = None) -> None:
        super().__init__(key, why, current)
        self.why, self.current = why, current

    def words(self) -> str:
        if self.current is not None:
            return f"nothing was asked: the server was started anew before the request came, and is of epoch {self.current}"
        return f"nothing was asked: {self.why}" if self.why else "nothing was asked"


class AllLeased(RendezvousError):
    """No client number was free: each from `first` to `last` is leased, by sessions of this host that were not closed yet.
    Nothing was asked."""

    def __init__(self, key: Optional[Key], first: int, last: int) -> None:
        super().__init__(key, first, last)
        self.first, self.last = first, last

    def words(self) -> str:
        return f"all client numbers {self.first} to {self.last} are leased"


class Full(RendezvousError):
    """The server has no room in this epoch, and had none as long as the call went on. The request was certainly not taken
    in: every copy of it that was sent has had its answer. Its number is used again."""

    def words(self) -> str:
        return "refused 10, epoch full: the request was not taken in"


class Cancelled(RendezvousError):
    """The request was cancelled: its item goes to no request, and it took none. Without a key it was never sent."""

    def words(self) -> str:
        return "cancelled" if self.key else "cancelled before anything was asked"


class TimedOut(RendezvousError, TimeoutError):
    """No partner came to the exchanger in time: the object goes to nobody."""

    def words(self) -> str:
        return "nobody came to the exchanger in time"


class EpochEnded(RendezvousError):
    """The server was started anew, in the epoch `current`, which is the key's own where it was started in the same epoch
    again. Whether the request was met is not known; where it is certain that it was not, this is `NotAsked`. The session has
    ended, and one that renews itself does so at the next call."""

    def __init__(self, key: Optional[Key], current: int) -> None:
        super().__init__(key, current)
        self.current = current

    def words(self) -> str:
        if self.key and self.key.epoch == self.current:
            return f"the server was started anew in the same epoch {self.current}, and lost what it had"
        return f"the epoch ended, the server is of epoch {self.current}"


class Replaced(RendezvousError):
    """A newer process has this client number, in the greater incarnation `current`. This one has to stop."""

    def __init__(self, key: Optional[Key], current: int) -> None:
        super().__init__(key, current)
        self.current = current

    def words(self) -> str:
        return f"replaced by incarnation {self.current}"


class Refused(RendezvousError):
    """The server refused, for a reason that a repeat would not change. `number` and `name` are the refusal's; `current` is
    the version that the session speaks, where that was refused (12), and else None."""

    def __init__(self, key: Optional[Key], number: int, current: Optional[int] = None, why: str = "") -> None:
        super().__init__(key, number, current, why)
        self.number, self.name, self.current, self.why = number, REFUSALS[number], current, why

    def words(self) -> str:
        return f"refused {self.number}, {self.name}{self.why}"


class NotRecorded(RendezvousError, OSError):
    """The request has its reply, which could not be written into the session's record. `outcome` is the reply, and nothing else
    tells it; `line` is what was to be written, without its LF. `errno`, `strerror` and `filename` say why not. The session
    goes on: the next call is asked, and recorded, as if nothing had been."""

    def __init__(self, outcome: Outcome, line: str, fault: OSError) -> None:
        super().__init__(outcome.key)
        self.outcome, self.line = outcome, line
        self.errno, self.strerror, self.filename = fault.errno, fault.strerror, fault.filename

    def __reduce__(self) -> Tuple[Any, ...]:
        return type(self), (self.outcome, self.line, OSError(self.errno, self.strerror, self.filename))

    def words(self) -> str:
        return f"a reply is not in the record {self.filename}: {str(self.strerror).lower()}: {self.outcome}"


class Interrupted(KeyboardInterrupt):
    """An interrupt from the keyboard came in a call, which was cancelled. `outcome` has what its request came to, which is
    not always that it was cancelled; where it is None, `fault` has the exception that says what is known instead. Beside an
    outcome `fault` is None, or the `NotRecorded` of it. `key` is the request's, or None where nothing was asked."""

    def __init__(self, key: Optional[Key], outcome: Optional[Outcome], fault: Optional[RendezvousError] = None) -> None:
        super().__init__(key, outcome, fault)
        self.key, self.outcome, self.fault = key, outcome, fault

    def __str__(self) -> str:
        return f"interrupted: {self.fault or self.outcome}"


class Misused(RuntimeError):
    """A session was asked while a call of it runs, or behind a request that was left unsettled, or after its end, or behind
    a fork."""
