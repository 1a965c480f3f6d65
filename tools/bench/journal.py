#!/usr/bin/env python3
"""Measures what a journal's piece costs on this machine's disk, by STEPS, beside the same bytes appended and synced by a plain
loop, and what opening costs a MiB. Each number is the middle one of some runs, in turn.

usage: tools/bench/journal.py STEPS [FOLDER]
"""
from __future__ import annotations

import os
import pathlib
import statistics
import subprocess
import sys
import tempfile
import time

# How many pieces are added in a run, their sizes with their LF, and how many runs there are.
PIECES, SIZES, RUNS = 1_000, (64, 4_096, 65_536), 3
# How many MiB a file has that is opened.
OPENED = 256


def added(steps: str, folder: pathlib.Path, size: int) -> float:
    """Seconds of a piece that STEPS adds, without its start and the first MiB of zeros."""
    given, journal = folder / "given", folder / "journal"
    given.write_bytes((b"x" * (size - 1) + b"\n") * PIECES)
    subprocess.run([steps, "journal", str(journal)], stdin=subprocess.DEVNULL, stdout=subprocess.DEVNULL, check=True)
    began = time.monotonic()
    with given.open("rb") as source:
        subprocess.run([steps, "journal", str(journal)], stdin=source, stdout=subprocess.DEVNULL, check=True)
    took = time.monotonic() - began
    journal.unlink()
    return took / PIECES


def appended(folder: pathlib.Path, size: int) -> float:
    """Seconds of a piece that a plain loop appends and syncs."""
    piece, path = b"x" * (size - 1) + b"\n", folder / "appended"
    file = os.open(path, os.O_WRONLY | os.O_CREAT | os.O_APPEND)
    began = time.monotonic()
    for _ in range(PIECES):
        os.write(file, piece)
        os.fsync(file)
    took = time.monotonic() - began
    os.close(file)
    path.unlink()
    return took / PIECES


def opened(steps: str, folder: pathlib.Path) -> float:
    """Seconds in which STEPS opens a MiB of lines of 64 bytes, and prints it."""
    path = folder / "opened"
    with path.open("wb") as file:
        for _ in range(OPENED):
            file.write((b"x" * 63 + b"\n") * 16_384)
        file.write(bytes(1 << 20))
        file.flush()
        os.fsync(file.fileno())
    began = time.monotonic()
    subprocess.run([steps, "journal", str(path)], stdin=subprocess.DEVNULL, stdout=subprocess.DEVNULL, check=True)
    took = time.monotonic() - began
    path.unlink()
    return took / OPENED


def main() -> None:
    if len(sys.argv) not in (2, 3):
        sys.exit((__doc__ or "").strip().split("\n")[-1])
    steps = str(pathlib.Path(sys.argv[1]).resolve())
    with tempfile.TemporaryDirectory(prefix="rv-journal-", dir=sys.argv[2] if len(sys.argv) > 2 else None) as name:
        folder = pathlib.Path(name)
        for size in SIZES:
            taken = [(added(steps, folder, size), appended(folder, size)) for _ in range(RUNS)]
            ours, plain = (statistics.median(numbers) for numbers in zip(*taken))
            beside = f"{ours / plain:.2f} times the {1e6 * plain:.0f} µs of a synced append"
            print(f"a piece of {size} bytes: {1e6 * ours:.0f} µs, {beside}", flush=True)
        print(f"opening: {1e3 * statistics.median(opened(steps, folder) for _ in range(RUNS)):.1f} ms a MiB")


if __name__ == "__main__":
    main()
