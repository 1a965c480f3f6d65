"""Leases of client numbers, as programs of this machine have them: where each is, and who takes it."""
from __future__ import annotations

import contextlib
import os
import random
import socket
from collections.abc import Iterator

from tests.commands.shelling import GREATEST

# Where the lease of a client number is, by the page of the formats: ports from the first on, addresses from 127.64.0.0 on.
FIRST_PORT, PORTS, ADDRESSES, FACTOR = 61_000, 4_096, 4_194_304, 2_654_435_761
# The least of the numbers of which cases choose theirs: above those that are leased where nothing is said.
FIRST_OWN = 1_000_000


def place_of(number: int, user: int) -> tuple[str, int]:
    """Where a user's lease of a client number is."""
    host = (user + FACTOR * (number // PORTS)) % ADDRESSES
    return f"127.{64 + host // 65_536}.{host // 256 % 256}.{host % 256}", FIRST_PORT + number % PORTS


def leased(number: int) -> socket.socket | None:
    """The lease of a number; none where somebody has it."""
    holder = socket.socket(socket.AF_INET, socket.SOCK_DGRAM)
    try:
        holder.bind(place_of(number, os.geteuid()))
    except OSError:
        holder.close()
        return None
    return holder


def is_free(number: int) -> bool:
    """Whether nobody has the lease of a number."""
    holder = leased(number)
    if holder:
        holder.close()
    return holder is not None


@contextlib.contextmanager
def held(count: int = 1) -> Iterator[dict[int, socket.socket]]:
    """Numbers, one after another, that nobody had, each with its lease, which is held until it is closed or the block ends."""
    with contextlib.ExitStack() as leases:
        holders: dict[int, socket.socket] = {}
        while len(holders) < count:
            first = random.randrange(FIRST_OWN, GREATEST - count)
            found = [(number, leased(number)) for number in range(first, first + count)]
            holders = {number: leases.enter_context(holder) for number, holder in found if holder}
        yield holders
