"""Exit statuses: what a command came to, by one list for all commands of the shell."""
from __future__ import annotations

import enum

from . import errors


class Status(enum.IntEnum):
    """What a command came to. The last one is that of `xargs` where what it runs fails."""

    DONE = 0
    NO_SERVER = 1
    BAD_WORDS = 2
    EMPTY = 3
    TIMED_OUT = 4
    CANCELLED = 5
    NOT_KNOWN = 6
    REFUSED = 7
    COMMAND_FAILED = 123


def status_of(fault: Exception) -> Status:
    """The status of what ends a call. That nothing was asked has one, for want of a server, a client number or a record."""
    if isinstance(fault, (errors.Refused, errors.Full, errors.Replaced)):
        return Status.REFUSED
    if isinstance(fault, (errors.Unsettled, errors.EpochEnded)):
        return Status.NOT_KNOWN
    return Status.NO_SERVER
