#!/usr/bin/env python3
"""What a machine takes as its entries grow: 16 clients put items of 100 bytes and take the oldest in turn, with 1,000
items open. Memory is the most that the program had at once; time is the processor's, and that of the last million is what the whole
run took beyond one that is a million shorter. It fails where either grows with the entries that were.

usage: tools/bench/months.py PROGRAM
"""
import os
import pathlib
import subprocess
import sys
from dataclasses import dataclass

ROOT = pathlib.Path(__file__).resolve().parents[2]
sys.dont_write_bytecode, sys.path[0] = True, str(ROOT)
from tools.bench import audit  # noqa: E402

MILLION = 1_000_000
ENTRIES = 20 * MILLION
RUNS = 5
# How many times what a million entries take the twentieth million may.
MOST_MEMORY = 1.05
MOST_TIME = 1.1
# A step's greatest limits: entries, clients, open places.
LIMITS = [str(2**53 - 1), "65536", "100000"]


@dataclass(frozen=True)
class Cost:
    """Seconds of the processor, and the most kilobytes at once."""

    seconds: float
    kilobytes: int


def words(program, entries):
    """The words of a run with so many entries, two a turn."""
    return [program, "machine", *LIMITS, "turns", str(entries // 2)]


def seconds(program, entries):
    """The least seconds of the processor in some runs."""
    took = []
    for _ in range(RUNS):
        before = os.times()
        subprocess.run(words(program, entries), check=True, stdout=subprocess.DEVNULL)
        after = os.times()
        took.append(after.children_user + after.children_system - before.children_user - before.children_system)
    return min(took)


def kilobytes(program, entries):
    """The least of the most kilobytes at once in some runs, of which the system counts some pages late."""
    return min(audit.peak(words(program, entries), os.devnull) for _ in range(RUNS)) // 1024


def cost(program, entries):
    return Cost(seconds(program, entries), kilobytes(program, entries))


def main():
    if len(sys.argv) != 2:
        sys.exit(__doc__.rstrip().rsplit("\n", 1)[-1])
    program = sys.argv[1]
    first, before, all_of_them = (cost(program, entries) for entries in (MILLION, ENTRIES - MILLION, ENTRIES))
    last = all_of_them.seconds - before.seconds
    memory, slower = all_of_them.kilobytes / first.kilobytes, last / first.seconds
    print(f"a machine, 1,000 items open: {all_of_them.kilobytes} KB at 20 million entries, {first.kilobytes} at one, "
          f"ratio {memory:.3f}")
    print(f"the first million entries in {first.seconds:.2f} seconds, the last in {last:.2f}, ratio {slower:.2f}; "
          f"all in {all_of_them.seconds:.1f}")
    sys.exit("a machine takes more as its entries grow" if memory > MOST_MEMORY or slower > MOST_TIME else 0)


main()
