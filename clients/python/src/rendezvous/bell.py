"""A datagram socket that is bound and hears itself alone: what leases a client number, and what wakes a session's thread."""
from __future__ import annotations

import errno
import os
import socket
import sys
import weakref
from typing import Dict, Tuple

Place = Tuple[str, int]
# Where a bell stands for no number: at any port that is free.
ANYWHERE: Place = ("127.0.0.1", 0)
# What a bind says where the place is another socket's. Windows says EACCES too, where that one has it for itself alone;
# elsewhere that is a ban, which has another name than a number that is leased.
TAKEN = (errno.EADDRINUSE, errno.EACCES) if sys.platform == "win32" else (errno.EADDRINUSE,)


class Datagrams(socket.socket):
    """A socket that is closed with its last user: so nobody who rings meets a descriptor that is closed, or another's by now."""

    # in one step, which no exception of a signal's handler splits
    __del__ = socket.SocketType.close


class Bell:
    """A socket of this process. A forked process has none of its parent's."""

    def __init__(self) -> None:
        # it is there while it is open: a thread and a signal's handler may close it at once, and pop is one step
        self._open: Dict[str, Datagrams] = {}
        BELLS.add(self)
        self._open["socket"] = Datagrams(socket.AF_INET, socket.SOCK_DGRAM)

    def takes(self, place: Place) -> bool:
        """Binds it to a place; False where another socket is there. A system that has no such address has that port at its one
        loopback address."""
        held = self._open["socket"]
        try:
            bind(held, place)
        except OSError as fault:
            if fault.errno in TAKEN:
                return False
            raise
        held.setblocking(False)
        # from now on the system throws away what others send
        held.connect(held.getsockname())
        return True

    def fileno(self) -> int:
        """The descriptor that is readable once it was rung."""
        return self._open["socket"].fileno()

    def ring(self) -> None:
        """Wakes who waits for the descriptor; behind its close nobody. Any thread and a signal's handler may say it. Where the
        system doesn't let it through, as by a filter, nobody is woken."""
        try:
            self._open.get("socket", NOBODY).send(b"\0")
        except OSError as fault:
            if not is_of_the_system(fault):
                raise

    def heard(self) -> bool:
        """Takes in that it was rung; False where it was not."""
        try:
            return len(self._open["socket"].recv(1)) > 0
        except OSError:
            return False

    def close(self) -> None:
        """Gives its place back."""
        self._open.pop("socket", None)


class Nobody:
    """What hears no bell."""

    def send(self, _: bytes) -> int:
        """Nothing is done."""
        return 0


NOBODY = Nobody()
# Those of this process, as long as somebody has them.
BELLS: "weakref.WeakSet[Bell]" = weakref.WeakSet()


def is_of_the_system(fault: OSError) -> bool:
    """Whether the system said it of what is asked here: what a signal's handler throws comes from a frame of its own."""
    trace = fault.__traceback__
    while trace is not None and trace.tb_next is not None:
        trace = trace.tb_next
    return trace is not None and trace.tb_frame.f_globals is globals()


def bind(held: socket.socket, place: Place) -> None:
    """Binds a socket to a place, or to its port where the system has no such address."""
    try:
        held.bind(place)
    except OSError as fault:
        if fault.errno != errno.EADDRNOTAVAIL:
            raise
        held.bind((ANYWHERE[0], place[1]))


def told_of(fault: OSError, need: str) -> OSError:
    """A fault of the system's, which says beside its own words what was needed; what a handler throws as it is."""
    return OSError(fault.errno, f"{need}: {fault.strerror}") if is_of_the_system(fault) else fault


def forget() -> None:
    """A forked process closes its copies: what is bound goes on in its parent alone, and ends there."""
    for bell in list(BELLS):
        held = bell._open.pop("socket", None)
        if held is not None:
            held.close()


if hasattr(os, "register_at_fork"):
    os.register_at_fork(after_in_child=forget)
