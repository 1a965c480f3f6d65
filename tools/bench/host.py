#!/usr/bin/env python3
"""Measures `rv host` by a compiled driver, beside `redis-server` where it is installed: LPUSH and BRPOP, with nothing on disk;
`--account` beside an append-only file that is never synced; and a store beside one that is synced as often, with what a sync of
the disk costs then. Each number is the middle one of some runs, in turn, so that both servers meet the same machine. Where
another program is given, its host is measured in turn with them. Then what idle clients cost, and what connections hold.

usage: tools/bench/host.py PROGRAM [--old PROGRAM] [--folder FOLDER] [--only OPTION]
"""
from __future__ import annotations

import argparse
import contextlib
import functools
import pathlib
import re
import shutil
import statistics
import subprocess
import sys
import tempfile
import time
from collections.abc import Callable, Iterator
from typing import NamedTuple

ROOT = pathlib.Path(__file__).resolve().parents[2]
sys.dont_write_bytecode, sys.path[0] = True, str(ROOT)
from tests.host import many  # noqa: E402
from tests.host.watch import memory, own_and_system, processor  # noqa: E402
from tests.sockets.hosts import Host  # noqa: E402
from tests.sockets.programs import free_port  # noqa: E402
from tools.bench import disks, driver  # noqa: E402
from tools.bench.server import wait_for  # noqa: E402

# Connections, requests in one piece, and the requests of all.
LOADS = [(1, 1, 20_000), (8, 1, 80_000), (64, 1, 128_000), (1_000, 1, 128_000),
         (1, 16, 96_000), (8, 16, 160_000), (64, 16, 204_800), (1_000, 16, 320_000)]
RUNS, ROUNDS, OTHERS = 3, 4_000, (0, 1_000)
# Clients that wait, and for how many seconds; connections whose memory is measured.
IDLE, IDLE_SECONDS, HELD = 1_000, 30, 5_000


class Running(NamedTuple):
    """A server that runs: what it is to the driver, its port, and its process."""

    kind: str
    port: int
    pid: int


class Taken(NamedTuple):
    """What a load took: the seconds of a request, those from a piece to its last answer, and those of the server's processor:
    all, and those of the server's own code."""

    each: float
    median: float
    late: float
    processor: float
    own: float


class Way(NamedTuple):
    """A way to keep what is done: the options of `rv host` for it, the first of which takes a path; those of Redis; and whether
    an answer waits for a sync."""

    ours: tuple[str, ...]
    theirs: str
    syncs: bool = False

    def told(self) -> str:
        """What it is called."""
        return f"{' '.join(self.ours)}, beside {self.theirs}" if self.ours else "nothing on disk"


IN_MEMORY = Way((), "--appendonly no")
WAYS = [IN_MEMORY, Way(("--account",), "--appendonly yes --appendfsync no"),
        Way(("--store",), "--appendonly yes --appendfsync always", syncs=True),
        Way(("--store", "--no-sync"), "--appendonly yes --appendfsync everysec")]


class Kind(NamedTuple):
    """A server that is measured: how it starts on a folder in some way, and which of `rv host`'s options it has; None for all."""

    start: Callable[[pathlib.Path, Way], contextlib.AbstractContextManager[Running]]
    options: frozenset[str] | None = None

    def has(self, way: Way) -> bool:
        """Whether it can be started in this way."""
        return self.options is None or self.options.issuperset(way.ours)


@contextlib.contextmanager
def host(program: str, folder: pathlib.Path, way: Way) -> Iterator[Running]:
    """A host that keeps what it does in this way."""
    options = (way.ours[0], str(folder / "kept"), *way.ours[1:]) if way.ours else ()
    with Host(program, keeps=False, options=options) as one:
        one.connect().close()
        yield Running("rv", one.port, one.process.pid)


@contextlib.contextmanager
def redis(program: str, folder: pathlib.Path, way: Way) -> Iterator[Running]:
    """Redis, which keeps what it does in this way."""
    port = free_port()
    words = [program, "--port", str(port), "--bind", "127.0.0.1", "--save", "", "--dir", str(folder), "--daemonize", "no",
             "--loglevel", "warning", *way.theirs.split()]
    server = subprocess.Popen(words, stdin=subprocess.DEVNULL, stdout=subprocess.DEVNULL)
    try:
        wait_for(port)
        yield Running("redis", port, server.pid)
    finally:
        server.terminate()
        server.wait()


class Bench(NamedTuple):
    """The servers that are measured, by name, that of PROGRAM first; and the folder in which they keep what they do."""

    kinds: dict[str, Kind]
    folder: pathlib.Path

    @contextlib.contextmanager
    def start(self, name: str, way: Way) -> Iterator[Running]:
        """A server that was just started, on a folder of its own."""
        with tempfile.TemporaryDirectory(prefix="rv-bench-", dir=self.folder) as folder:
            with self.kinds[name].start(pathlib.Path(folder), way) as server:
                yield server

    def load(self, name: str, way: Way, connections: int, piece: int, requests: int) -> Taken:
        """A load of a server that was just started."""
        with self.start(name, way) as server:
            own, system = own_and_system(server.pid)
            took = driver.load(server.kind, server.port, 1, connections, piece, requests)
            own_after, system_after = own_and_system(server.pid)
            own_spent, spent = own_after - own, own_after + system_after - own - system
            return Taken(took.seconds / requests, took.median, took.late, spent / requests, own_spent / requests)

    def hand(self, name: str, way: Way, others: int) -> driver.HandOver:
        """Hand-overs at a server that was just started."""
        with self.start(name, way) as server:
            return driver.hand(server.kind, server.port, 1, others, ROUNDS)

    def beside(self, way: Way) -> None:
        """The loads and the hand-overs in a way, of each server that has it in turn."""
        names = [name for name, kind in self.kinds.items() if kind.has(way)]
        for lacking in (name for name in self.kinds if name not in names):
            print(f"{lacking} has no {' '.join(way.ours)}: it isn't measured so", flush=True)
        if next(iter(self.kinds)) not in names:
            return
        print(f"{way.told()}:")
        for connections, piece, requests in LOADS:
            self.tell_head(way, f"{connections} connections, {piece} in a piece, {requests} requests")
            tell(in_turn(names, lambda name: self.load(name, way, connections, piece, requests)),
                 ("a request", "a piece at the median", "at the 99th of 100", "of the processor", "of its own code"))
        for others in OTHERS:
            self.tell_head(way, f"a hand-over while {others} others wait")
            tell(in_turn(names, lambda name: self.hand(name, way, others)), ("at the median", "at the 99th of 100"))

    def tell_head(self, way: Way, what: str) -> None:
        """Tells what is measured next, and what a sync costs where it waits for these."""
        print(f" {what}{f', a sync is {1e6 * disks.sync(self.folder):.0f} µs' if way.syncs else ''}:", flush=True)


def in_turn(names: list[str], run: Callable[[str], tuple[float, ...]]) -> dict[str, list[float]]:
    """The middle one of each number of some runs, of each server in turn."""
    taken = [[run(name) for name in names] for _ in range(RUNS)]
    return {name: middle(list(runs)) for name, runs in zip(names, zip(*taken))}


def middle(taken: list[tuple[float, ...]]) -> list[float]:
    """The middle one of each number."""
    return [statistics.median(numbers) for numbers in zip(*taken)]


def tell(servers: dict[str, list[float]], names: tuple[str, ...]) -> None:
    """The numbers of each server in microseconds, and how many times those of each other one the first ones are."""
    for name, numbers in servers.items():
        print(f"  {name:8}" + ", ".join(f"{1e6 * number:8.2f} µs {what}" for number, what in zip(numbers, names)), flush=True)
    ours, *others = servers.items()
    for name, theirs in others:
        ratios = (our / max(their, 1e-9) for our, their in zip(ours[1], theirs))
        print(f"  / {name:6}" + ", ".join(f"{ratio:8.2f}    {what}" for ratio, what in zip(ratios, names)), flush=True)


def idle(bench: Bench) -> None:
    """What clients cost that wait and wait."""
    print(f"{IDLE} clients that wait, for {IDLE_SECONDS} seconds:")
    for name in bench.kinds:
        with bench.start(name, IN_MEMORY) as server:
            waiting = driver.waiting(server.kind, server.port, 1, IDLE, IDLE_SECONDS)
            before, began = processor(server.pid), time.monotonic()
            again = waiting.communicate()[0].strip()
            share = (processor(server.pid) - before) / (time.monotonic() - began)
            print(f"  {name:8}{100 * share:.2f} parts of 100 of a core; {again} asked again", flush=True)


def held(bench: Bench) -> None:
    """The bytes of a connection that says nothing, and of one whose client waits."""
    name = next(iter(bench.kinds))
    with bench.start(name, IN_MEMORY) as server:
        before = memory(server.pid)
        with many.closing(many.connected(server.port, HELD)) as peers:
            many.greeted(peers[:1], 60_000, 1)
            silent = (memory(server.pid) - before) / HELD
    with bench.start(name, IN_MEMORY) as server:
        before = memory(server.pid)
        waiting = driver.waiting(server.kind, server.port, 1, HELD, 1)
        waits = (memory(server.pid) - before) / HELD
        waiting.communicate()
    print(f"a host has {silent:.0f} bytes a connection that says nothing, and {waits:.0f} a client that waits, of {HELD}")


def kind_of(program: str) -> Kind:
    """The hosts of a program."""
    told = subprocess.run([program, "host", "--help"], capture_output=True, text=True, check=True).stdout
    return Kind(functools.partial(host, program), frozenset(re.findall(r"^ +(--[a-z-]+)", told, re.MULTILINE)))


def kinds(program: str, old: str | None) -> dict[str, Kind]:
    """The servers that can be measured here."""
    found = {"rv host": kind_of(program)}
    if old:
        found["old"] = kind_of(old)
    if other := shutil.which("redis-server"):
        found["redis"] = Kind(functools.partial(redis, other))
    else:
        print("redis-server is missing: rv host is not compared with it")
    return found


def main() -> None:
    parser = argparse.ArgumentParser(description=(__doc__ or "").split("\n\n")[0])
    parser.add_argument("program", metavar="PROGRAM")
    parser.add_argument("--old", metavar="PROGRAM", help="another program, whose host is measured beside it")
    parser.add_argument("--folder", type=pathlib.Path, default=driver.DRIVER.parent, help="on a disk; default: out, in the clone")
    parser.add_argument("--only", metavar="OPTION", help="only the ways with this option of rv host")
    arguments = parser.parse_args()
    if driver.missing():
        print(f"rv host was not measured: {driver.missing()}")
        return
    driver.built()
    many.room()
    print(f"the folder is on {disks.file_system(arguments.folder)}")
    bench = Bench(kinds(arguments.program, arguments.old), arguments.folder)
    for way in WAYS:
        if arguments.only in (None, *way.ours):
            bench.beside(way)
    if not arguments.only:
        idle(bench)
        held(bench)


if __name__ == "__main__":
    main()
