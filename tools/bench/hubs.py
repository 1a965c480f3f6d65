#!/usr/bin/env python3
"""What a hub holds, and what an event costs: the bytes of a connection that says nothing, beside the run's lines; and the
instructions of an event by callgrind, of four of which two put and take an item on one connection and two take the replies away,
while other connections say nothing, wait, or aren't there, and behind many entries. It fails where a connection takes more than
it may.

Where valgrind is missing, that is said, and no instructions are counted.

usage: tools/bench/hubs.py PROGRAM
"""
import json
import os
import pathlib
import shutil
import sys
import tempfile
from collections.abc import Iterator
from dataclasses import dataclass

ROOT = pathlib.Path(__file__).resolve().parents[2]
sys.dont_write_bytecode, sys.path[0] = True, str(ROOT)
from tools.bench.audit import hello, keyed, peak  # noqa: E402
from tools.bench.instructions import counted  # noqa: E402

# A hub, a step's limits, for how long a request waits before it is told so, and no journal: the driver's words.
TERMS = ["hub", str(2**53 - 1), "65536", "100000", "1000000000", "none"]
# The most bytes that a connection that says nothing may take in a hub.
MOST = 512
FEW, MANY = 1_000, 100_000
SHORT, LONG = 50, 250
OTHERS = 1_000
# How the names of the functions begin that hand an event to the hub, and of those that they call for it: the compiler merges the
# hub's own.
CALLERS = ("rv_steps::run_lines", "rv_steps::answer_all", "rv_steps::print_answer", "rv_steps::driver::", "rv_hub::")
HUB = ("rv_hub::", "rv_server_connections::", "rv_machine::")


@dataclass(frozen=True)
class Beside:
    """What stands beside the connection that puts and takes: so many connections, of which each waits or says nothing, and so many
    puts and takes before."""

    name: str
    others: int = 0
    wait: bool = False
    before: int = 0


CASES = [
    Beside("nothing else"),
    Beside(f"{OTHERS:,} connections that say nothing", others=OTHERS),
    Beside(f"{OTHERS:,} connections that wait", others=OTHERS, wait=True),
    Beside(f"{10 * OTHERS:,} entries before", before=5 * OTHERS),
]


def came(connection: int, *messages: dict[str, object]) -> str:
    """A piece of frames came."""
    bodies = [json.dumps(message, separators=(",", ":"), sort_keys=True).encode() for message in messages]
    piece = b"".join(len(body).to_bytes(2, "big") + body for body in bodies)
    return f"0 came {connection} {piece.hex()}"


def call(client: int, number: int, name: str, **members: object) -> dict[str, object]:
    """A request of a client."""
    return keyed("request", client, number, call=name, **members)


def took(connection: int, number: int, **told: str) -> str:
    """The bytes of a reply left."""
    reply = keyed("reply", 1, number, **told)
    return f"0 took {connection} {2 + len(json.dumps(reply, separators=(',', ':')))}"


def turns(count: int, first: int) -> Iterator[str]:
    """So often client 1 puts an item over connection 0, and takes it, and each reply leaves."""
    for number in range(first, first + 2 * count, 2):
        yield came(0, call(1, number, "put", queue=0, item="item"))
        yield took(0, number, reply="done")
        yield came(0, call(1, number + 1, "take", queue=0, wait="now"))
        yield took(0, number + 1, reply="item", item="item")


def lines(beside: Beside, count: int) -> Iterator[str]:
    """The events of a case with so many puts and takes."""
    yield "0 opened"
    yield came(0, hello(1))
    for other in range(1, beside.others + 1):
        yield "0 opened"
        if beside.wait:
            yield came(other, hello(other + 1), call(other + 1, 1, "take", queue=other % 63 + 1, wait="forever"))
    yield from turns(beside.before, 1)
    yield from turns(count, 2 * beside.before + 1)


def write(path: pathlib.Path, events: Iterator[str]) -> None:
    path.write_text("".join(f"{event}\n" for event in events), encoding="ascii")


def silent(program: str, folder: pathlib.Path) -> float:
    """How many bytes one more connection takes that says nothing, beside its line."""
    most = []
    for count in (FEW, MANY):
        path = folder / "silent"
        write(path, ("0 opened" for _ in range(count)))
        most.append(peak([program, *TERMS], path) - os.path.getsize(path))
    return (most[1] - most[0]) / (MANY - FEW)


def of_events(program: str, folder: pathlib.Path, beside: Beside) -> float:
    """The instructions of one event of the case."""
    counts = []
    for count in (SHORT, LONG):
        path = folder / "events"
        write(path, lines(beside, count))
        counts.append(counted([program, *TERMS], path).of_calls(CALLERS, HUB))
    return (counts[1] - counts[0]) / (4 * (LONG - SHORT))


def main() -> None:
    if len(sys.argv) != 2:
        sys.exit(__doc__.rstrip().rsplit("\n", 1)[-1])
    program = sys.argv[1]
    with tempfile.TemporaryDirectory() as name:
        folder = pathlib.Path(name)
        each = silent(program, folder)
        print(f"a connection of a hub that says nothing: {max(round(each), 0)} bytes")
        if shutil.which("valgrind") and shutil.which("callgrind_annotate"):
            print("instructions of an event, beside")
            for beside in CASES:
                print(f"  {beside.name:40}{of_events(program, folder, beside):9,.0f}")
        else:
            print("valgrind is missing: the instructions of an event are not counted")
    sys.exit(f"a connection takes more than {MOST} bytes" if each > MOST else 0)


if __name__ == "__main__":
    main()
