#!/usr/bin/env python3
"""What a machine holds: the bytes of an open item, of a session, of a session that keeps an item, and of a transfer that waits with
its session, with items of 100 bytes each; and that requests that timed out behind one that waits for ever take none. Each is what the
most memory of a run grew by, beside the run's lines, for each one more; it fails where one takes more than it may.

usage: tools/bench/held.py PROGRAM
"""
import json
import os
import pathlib
import sys
import tempfile
from collections.abc import Callable, Iterator
from dataclasses import dataclass

ROOT = pathlib.Path(__file__).resolve().parents[2]
sys.dont_write_bytecode, sys.path[0] = True, str(ROOT)
from tools.bench.audit import hello, keyed, peak  # noqa: E402

# A step's greatest limits: entries, clients, open places.
LIMITS = [str(2**53 - 1), "65536", "100000"]
ITEM = "x" * 100
QUEUES = 64
Line = tuple[int, dict[str, object]]


@dataclass(frozen=True)
class Held:
    """What is held, how many bytes of it each may take, two numbers of them, and the lines that make so many."""

    name: str
    most: int
    few: int
    many: int
    lines: Callable[[int], Iterator[Line]]


def call(client: int, number: int, name: str, **members: object) -> dict[str, object]:
    """A request of a client."""
    return keyed("request", client, number, call=name, **members)


def items(count: int) -> Iterator[Line]:
    """So many items lie in all queues."""
    yield 0, hello(1)
    for number in range(1, count + 1):
        yield 0, call(1, number, "put", queue=number % QUEUES, item=ITEM)


def sessions(count: int) -> Iterator[Line]:
    """So many clients said hello."""
    for client in range(1, count + 1):
        yield 0, hello(client)


def takers(count: int) -> Iterator[Line]:
    """So many clients put an item, and got it again."""
    for client in range(1, count + 1):
        yield 0, hello(client)
        yield 0, call(client, 1, "put", queue=0, item=ITEM)
        yield 0, call(client, 2, "take", queue=0, wait="now")


def transfers(count: int) -> Iterator[Line]:
    """So many clients wait, each with an item and a limit of its own."""
    for client in range(1, count + 1):
        yield 0, hello(client)
        yield 0, call(client, 1, "transfer", queue=client % QUEUES, item=ITEM, wait=1_000_000 + client)


def passers(count: int) -> Iterator[Line]:
    """Behind one that waits for ever two clients time out so often, never both at once."""
    yield from ((0, hello(client)) for client in (1, 2, 3))
    yield 0, call(1, 1, "take", queue=0, wait="forever")
    for moment in range(count):
        yield moment, call(2 + moment % 2, moment // 2 + 1, "take", queue=0, wait=2)


ALL = [
    Held("an open item", 1_024, 1_000, 90_000, items),
    Held("a session", 1_024, 1_000, 60_000, sessions),
    Held("a session that keeps an item", 1_024, 1_000, 60_000, takers),
    Held("a transfer that waits, with its session", 2_048, 1_000, 60_000, transfers),
    Held("a request that timed out behind one that waits", 1, 10_000, 400_000, passers),
]


def beside_lines(program: str, lines: Iterator[Line]) -> int:
    """The most bytes that a run over these lines has at once, beside the lines."""
    with tempfile.TemporaryDirectory() as folder:
        path = os.path.join(folder, "lines")
        with open(path, "w", encoding="ascii") as file:
            for moment, message in lines:
                file.write(f"{moment} {json.dumps(message, separators=(',', ':'), sort_keys=True)}\n")
        return peak([program, "machine", *LIMITS], path) - os.path.getsize(path)


def bytes_each(program: str, held: Held) -> float:
    """How many bytes one more takes."""
    few, many = (beside_lines(program, held.lines(count)) for count in (held.few, held.many))
    return (many - few) / (held.many - held.few)


def main() -> None:
    if len(sys.argv) != 2:
        sys.exit(__doc__.rstrip().rsplit("\n", 1)[-1])
    over = []
    for held in ALL:
        each = bytes_each(sys.argv[1], held)
        print(f"{held.name}: {max(round(each), 0)} bytes")
        if each > held.most:
            over.append(held.name)
    sys.exit(f"more than they may: {', '.join(over)}" if over else 0)


main()
