"""One client of a soak: it asks random calls, gives up some, and compares what each told with its own record's line, until it
is killed or told to end by its input's end.

usage: python3 -m tests.host.soak_client PORT CLIENT INCARNATION RECORD SEED
"""
from __future__ import annotations

import random
import select
import sys

from tests.clients.crowds import Client


class NoLedger:
    """Keeps nothing of what was told: the record does."""

    def settle(self, *_: object) -> None:
        """Lets it pass."""


def main() -> None:
    port, client, incarnation = map(int, sys.argv[1:4])
    record, seed = sys.argv[4:]
    one = Client(("127.0.0.1", port), client, random.Random(seed), NoLedger(), record, incarnation)
    one.run(lambda: not select.select([sys.stdin], [], [], 0)[0])


if __name__ == "__main__":
    main()
