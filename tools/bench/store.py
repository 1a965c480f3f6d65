#!/usr/bin/env python3
"""Measures what a start takes that goes on with a store's account of many entries: of STEPS, seconds until it is opened; of
PROGRAM, until `rv host` listens, and then welcomes a client; the same once `rv compact` made a checkpoint; and the most memory. The
account is that of tools/bench/verified.py, and is read from the disk anew.

usage: tools/bench/store.py PROGRAM STEPS [ENTRIES] [FOLDER]
  ENTRIES   how many instead of 10,000,000
  FOLDER    where the store is made, on a disk, in place of out, in the clone
"""
from __future__ import annotations

import itertools
import os
import pathlib
import subprocess
import sys
import tempfile
import time
from collections.abc import Callable
from typing import NamedTuple

ROOT = pathlib.Path(__file__).resolve().parents[2]
sys.dont_write_bytecode, sys.path[0] = True, str(ROOT)
from tests.host.stored import StoreHost  # noqa: E402
from tests.host.watch import memory, most_memory  # noqa: E402
from tests.journal.store import FORMAT  # noqa: E402
from tests.sockets.hosts import Start, account_file  # noqa: E402
from tools.bench import disks  # noqa: E402
from tools.bench.verified import CLIENTS, PIECE, lines  # noqa: E402

# How many seconds a start may take.
MOST_SECONDS = 60


class Took(NamedTuple):
    """What a start took: seconds, the most kilobytes at once, and what is told beside."""

    seconds: float
    kilobytes: int
    more: str = ""


def made(folder: pathlib.Path, entries: int) -> int:
    """Writes the account of so many entries as a store's; its bytes."""
    with account_file(folder, 1).open("wb") as file:
        file.write(FORMAT)
        all_lines = lines(entries)
        while piece := "".join(itertools.islice(all_lines, PIECE)):
            file.write(piece.encode())
        file.write(bytes(1 << 20))
        file.flush()
        os.fsync(file.fileno())
        return file.tell()


def opened(steps: str, folder: pathlib.Path, entries: int) -> Took:
    """What STEPS takes to open the account."""
    began = time.monotonic()
    with subprocess.Popen([steps, "store", str(folder), "1"], stdin=subprocess.DEVNULL, stdout=subprocess.PIPE) as writer:
        assert writer.stdout
        told = writer.stdout.read()
        _, status, usage = os.wait4(writer.pid, 0)
        writer.returncode = os.waitstatus_to_exitcode(status)
    took = time.monotonic() - began
    if writer.returncode or told != b"entries %d\n" % entries:
        sys.exit(f"it told {told!r}, with status {writer.returncode}")
    return Took(took, usage.ru_maxrss)


def compacted(program: str, folder: pathlib.Path, entries: int) -> Took:
    """What a checkpoint takes, and how many bytes it has."""
    began = time.monotonic()
    with subprocess.Popen([program, "compact", str(folder)], stdout=subprocess.PIPE) as maker:
        assert maker.stdout
        told = maker.stdout.read()
        _, status, usage = os.wait4(maker.pid, 0)
        maker.returncode = os.waitstatus_to_exitcode(status)
    took = time.monotonic() - began
    # the client that a start welcomed before
    if maker.returncode or told != b"checkpoint after %d entries\n" % (entries + 1):
        sys.exit(f"it told {told!r}, with status {maker.returncode}")
    state, = folder.glob("epoch-1-*.state")
    return Took(took, usage.ru_maxrss, f", {state.stat().st_size:,} bytes")


def resumed(program: str, folder: pathlib.Path, entries: int) -> Took:
    """What a start takes that goes on from a checkpoint after all entries."""
    return hosted(program, folder, entries + 1, 2)


def hosted(program: str, folder: pathlib.Path, entries: int, newest: int = 1) -> Took:
    """What a host takes until it listens, and has welcomed a client that is new."""
    began = time.monotonic()
    with StoreHost(program, folder) as host:
        if host.start != Start(1, entries):
            sys.exit(f"it starts with {host.start}")
        host.connect().close()
        listens = time.monotonic() - began
        host.greeted(CLIENTS + newest).close()
        welcomes = time.monotonic() - began
        more = f", {memory(host.process.pid) >> 10:,} then; a client is welcome after {welcomes:.1f} s"
        return Took(listens, most_memory(host.process.pid) >> 10, more)


def main() -> None:
    if not 3 <= len(sys.argv) <= 5:
        sys.exit("usage: tools/bench/store.py PROGRAM STEPS [ENTRIES] [FOLDER]")
    program, steps = (str(pathlib.Path(path).resolve()) for path in sys.argv[1:3])
    entries = int(sys.argv[3]) if len(sys.argv) > 3 else 10_000_000
    parent = pathlib.Path(sys.argv[4]) if len(sys.argv) > 4 else ROOT / "out"
    parent.mkdir(exist_ok=True)
    system = disks.file_system(parent)
    with tempfile.TemporaryDirectory(prefix="rv-store-", dir=parent) as name:
        folder = pathlib.Path(name)
        size = made(folder, entries)
        print(f"starts after {entries:,} entries, {size >> 20:,} MiB on {system}:", flush=True)
        slowest = 0.0
        parts: list[tuple[str, Callable[[str, pathlib.Path, int], Took], str]] = [
            ("opened by the program for tests", opened, steps), ("rv host listens", hosted, program),
            ("rv compact", compacted, program), ("rv host listens with a checkpoint", resumed, program)]
        for what, part, path in parts:
            disks.forget(account_file(folder, 1))
            took = part(path, folder, entries)
            print(f"  {what}: {took.seconds:.1f} s, at most {took.kilobytes:,} KB{took.more}", flush=True)
            slowest = max(slowest, took.seconds)
    sys.exit(slowest > MOST_SECONDS)


if __name__ == "__main__":
    main()
