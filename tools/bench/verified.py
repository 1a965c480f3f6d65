#!/usr/bin/env python3
"""What `rv verify` takes as an account grows: 16 clients put items of 100 bytes and take the oldest in turn, with 1,000 items open.
The account comes through a pipe. Memory is the most that the program had at once; it fails where that grows with the entries that
were. Then the same with the record of a million replies, evenly spread, each of which the account keeps.

usage: tools/bench/verified.py PROGRAM [ENTRIES]
  ENTRIES   how many instead of 20,000,000
"""
import collections
import itertools
import os
import pathlib
import subprocess
import sys
import tempfile
from collections.abc import Iterator
from dataclasses import dataclass

MILLION = 1_000_000
CLIENTS = 16
OPEN = 1_000
ITEM = "x" * 100
# How many times the memory of a million entries all of them may take.
MOST_MEMORY = 1.05
# How many lines are printed beside those of a record: the verdict and the counts.
FURTHER = 12
# How many lines go into the pipe at once.
PIECE = 2_000


@dataclass(frozen=True)
class Cost:
    """Seconds of the processor, and the most kilobytes at once."""

    seconds: float
    kilobytes: int


def requests(entries: int) -> Iterator[tuple[int, str, str, str]]:
    """The requests of a legal account of so many entries, behind the hellos: each one's place, partner, body and reply's body. They
    are puts until enough is open, then a put and a take in turn."""
    numbers, places = [0] * CLIENTS, collections.deque[int]()
    for place in range(CLIENTS, entries):
        turn = place % CLIENTS
        numbers[turn] += 1
        of_client, number = f'"client":{turn + 1},"epoch":1,"incarnation":1', f'"number":{numbers[turn]}'
        if len(places) < OPEN or place % 2:
            places.append(place)
            yield (place, "-", f'{{"call":"put",{of_client},"item":"{ITEM}","kind":"request",{number},"queue":3}}',
                   f'{{{of_client},"kind":"reply",{number},"reply":"done"}}')
        else:
            yield (place, str(places.popleft()), f'{{"call":"take",{of_client},"kind":"request",{number},"queue":3,"wait":"now"}}',
                   f'{{{of_client},"item":"{ITEM}","kind":"reply",{number},"reply":"item"}}')


def lines(entries: int) -> Iterator[str]:
    """The account's lines."""
    yield "epoch 1 opened 0\n"
    yield from (f'0 - {{"client":{client},"incarnation":1,"kind":"hello"}}\n' for client in range(1, CLIENTS + 1))
    yield from (f"{place} {partner} {body}\n" for place, partner, body, _ in requests(entries))


def write_record(path: pathlib.Path, entries: int) -> int:
    """Writes the record of a million of the replies, or of so many as there are, and gives how many."""
    every = max(1, entries // MILLION)
    with open(path, "w", encoding="utf-8") as file:
        for count, (_, _, body, reply) in enumerate(itertools.islice(requests(entries), 0, None, every), 1):
            file.write(f'{{"asked":{body},"told":{reply}}}\n')
    return count


def most_kilobytes(process: subprocess.Popen[bytes]) -> int:
    """The most that a program has had at once."""
    with open(f"/proc/{process.pid}/status", encoding="utf-8") as status:
        return max(int(line.split()[1]) for line in status if line.startswith("VmHWM"))


def cost(program: str, entries: int, *words: str, told: int = 1) -> Cost:
    """What the account of so many entries takes; what is printed must be so many lines, the first of which is `legal`. The end of the
    input is told only behind the last look at its memory."""
    before, all_lines = os.times(), lines(entries)
    with subprocess.Popen([program, "verify", "-", *words], stdin=subprocess.PIPE, stdout=subprocess.PIPE) as process:
        assert process.stdin
        while piece := "".join(itertools.islice(all_lines, PIECE)):
            process.stdin.write(piece.encode())
        process.stdin.flush()
        kilobytes = most_kilobytes(process)
        printed, _ = process.communicate()
    if process.returncode or not printed.startswith(b"legal\n") or printed.count(b"\n") != told:
        sys.exit(f"rv verify ended by {process.returncode} and printed {printed[:200]!r}")
    after = os.times()
    return Cost(after.children_user + after.children_system - before.children_user - before.children_system, kilobytes)


def main() -> None:
    if not 2 <= len(sys.argv) <= 3:
        sys.exit("\n".join(__doc__.rstrip().splitlines()[-2:]))
    program, entries = sys.argv[1], int(sys.argv[2]) if len(sys.argv) > 2 else 20 * MILLION
    first, whole = cost(program, min(MILLION, entries)), cost(program, entries)
    memory = whole.kilobytes / first.kilobytes
    print(f"rv verify, 1,000 items open: {whole.kilobytes} KB at {entries:,} entries, {first.kilobytes} at a million, ratio "
          f"{memory:.3f}; {whole.seconds:.1f} seconds of the processor, {whole.seconds / entries * 1e6:.2f} microseconds an entry")
    tell_record(program, entries)
    sys.exit("rv verify takes more memory as an account grows" if memory > MOST_MEMORY else 0)


def tell_record(program: str, entries: int) -> None:
    """Tells what a record takes beside the account."""
    with tempfile.TemporaryDirectory() as folder:
        record = pathlib.Path(folder, "record")
        count = write_record(record, entries)
        beside = cost(program, entries, "--replies", str(record), told=count + FURTHER)
    print(f"beside a record of {count:,} replies: {beside.kilobytes} KB, {beside.seconds:.1f} seconds of the processor")


if __name__ == "__main__":
    main()
