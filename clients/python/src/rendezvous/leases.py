"""Names of clients: a number that is given, or one that is leased by a bound socket, and an incarnation.

A leased number's socket is bound to a loopback address and a port that stand for the user and the number. The system keeps it:
there is nothing to delete, it has no environment, and it ends with the process, however that ends.
"""
from __future__ import annotations

import os
import re
import time
from typing import Dict, Optional

from .bell import Bell, Place, told_of
from .bodies import GREATEST, is_whole
from .calls import checked
from .errors import AllLeased

VARIABLE = "RV_CLIENTS"
CLIENTS = range(1, 1025)
# The ports of leases: so many from a first one on, above those that Linux gives out by itself.
FIRST_PORT, PORTS = 61_000, 4_096
# So many addresses, from 127.64.0.0 on; users and blocks of numbers are spread over them by an odd factor.
ADDRESSES, FACTOR = 2**22, 2_654_435_761


class Name:
    """What a session is called: a client number and an incarnation. `bell` is a lease's, or wakes the session's thread."""

    def __init__(self, client: int, incarnation: int, bell: Optional[Bell] = None) -> None:
        self.client, self.incarnation, self.bell = client, incarnation, bell

    def passes(self, current: int) -> bool:
        """Whether it takes an incarnation above this one, which the server has; a name that was given does not."""
        return False

    def begin_anew(self) -> None:
        """It goes on in a greater incarnation."""
        self.incarnation = new_incarnation()

    def close(self) -> None:
        """The session has ended."""
        if self.bell is not None:
            self.bell.close()


class Lease(Name):
    """A number that no other program of this user has on this host until it is closed, or this process ends. Where the clock was
    set back, the server's word for a greater incarnation is taken, once in each epoch."""

    _has_passed = False

    def passes(self, current: int) -> bool:
        if self._has_passed or current >= GREATEST:
            return False
        self._has_passed, self.incarnation = True, current + 1
        USED.setdefault(self.incarnation, None)
        return True

    def begin_anew(self) -> None:
        super().begin_anew()
        self._has_passed = False


def name_of(client: Optional[int], incarnation: Optional[int], clients: Optional[range], addressed: Optional[int] = None) -> Name:
    """The name of a session: what is given, and for what is left out a leased number, which is that of its address where this
    has one, and a new incarnation."""
    if client is None:
        checked(incarnation is None, "an incarnation is given along with its client number, or left out")
        return leased(range_of(clients) if clients is not None or addressed is None else range(addressed, addressed + 1))
    checked(clients is None, "a client number is given, or a range to lease one from")
    for what, number in (("client", client), ("incarnation", 1 if incarnation is None else incarnation)):
        checked(is_whole(number, 1, GREATEST), f"the {what} is 1 to {GREATEST}: {number!r}")
    return Name(client, new_incarnation() if incarnation is None else incarnation)


# ---- numbers

def leased(clients: range) -> Lease:
    """A lease of the least number of a range that is free. `AllLeased` where none is."""
    bell = Bell()
    try:
        for client in clients:
            if takes(bell, place_of(user(), client)):
                return Lease(client, new_incarnation(), bell)
        raise AllLeased(None, clients[0], clients[-1])
    except BaseException:
        bell.close()
        raise


def takes(bell: Bell, place: Place) -> bool:
    """Whether a bell gets a number's place; what the system says against it names the place."""
    try:
        return bell.takes(place)
    except OSError as fault:
        raise told_of(fault, "a client number is leased by a datagram socket at the loopback address %s:%d" % place)


def user() -> int:
    """The user's number; 0 where the system has none."""
    return os.geteuid() if hasattr(os, "geteuid") else 0


def place_of(user_number: int, client: int) -> Place:
    """The address and the port that stand for a user's client number. Where two fall together, one of them is not free."""
    block, within = divmod(client, PORTS)
    spread = (user_number + FACTOR * block) % ADDRESSES
    return f"127.{64 + (spread >> 16)}.{spread >> 8 & 255}.{spread & 255}", FIRST_PORT + within


# ---- incarnations

# Those that this process used: the greatest stays. setdefault is one step, which no other thread and no signal's handler
# splits.
USED: Dict[int, Optional[object]] = {}


def now() -> int:
    """This moment as an incarnation: the microseconds since 1970."""
    return max(1, time.time_ns() // 1_000)


def new_incarnation() -> int:
    """This moment, or the next number above each that this process used."""
    mine = object()
    while True:
        number = max(now(), 1 + max(list(USED), default=0))
        checked(number <= GREATEST, f"no incarnation is left above {number - 1}")
        if USED.setdefault(number, mine) is mine and number == max(list(USED)):
            break
    for lesser in [each for each in list(USED) if each < number]:
        USED.pop(lesser, None)
    return number


# ---- from which range

def range_of(clients: Optional[range]) -> range:
    """The range that numbers are leased from: what is given, or what the environment says, or the first 1,024."""
    if clients is not None:
        if not isinstance(clients, range):
            raise TypeError(f"clients are a range of numbers: {clients!r}")
        checked(bool(clients) and clients.step == 1 and 1 <= clients[0] and clients[-1] <= GREATEST,
                f"clients are a range of numbers from 1 to {GREATEST}, each of them: {clients!r}")
        return clients
    return range_told(os.environ[VARIABLE]) if VARIABLE in os.environ else CLIENTS


def range_told(text: str) -> range:
    """The range that the environment's variable says."""
    found = re.fullmatch(r"([0-9]{1,16})-([0-9]{1,16})", text)
    first, last = map(int, found.groups()) if found else (0, 0)
    checked(1 <= first <= last <= GREATEST,
            f"{VARIABLE} is FIRST-LAST, two whole numbers from 1 to {GREATEST}, the first at most the last: {text!r}")
    return range(first, last + 1)
