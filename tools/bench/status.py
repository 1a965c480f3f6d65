#!/usr/bin/env python3
"""Measures what the status page costs the clients of a host that is nearly full: in turn nobody asks at the status address, and
each page is asked for once a second, while a compiled driver puts and takes. Each number of a round is the middle one of its runs.

The processor's time of a request hangs less on the machine's other work than requests a second do. What the asking takes by
itself, with no other client, bounds what it takes from the others.

usage: tools/bench/status.py PROGRAM
"""
from __future__ import annotations

import contextlib
import pathlib
import statistics
import sys
import threading
import time
from collections.abc import Iterator
from typing import NamedTuple

ROOT = pathlib.Path(__file__).resolve().parents[2]
sys.dont_write_bytecode, sys.path[0] = True, str(ROOT)
from tests.host import many  # noqa: E402
from tests.host.status import asked  # noqa: E402
from tests.model.account import Key  # noqa: E402
from tests.sockets.hosts import Host  # noqa: E402
from tests.sockets.programs import free_port  # noqa: E402
from tests.sockets.wire import demand, frame, give, request  # noqa: E402
from tools.bench import driver  # noqa: E402

# Open places and connections beside the driver's, and the first of their clients.
PLACES, CONNECTIONS, FIRST = 99_900, 10_000, 1_000_000
# The driver's connections, each with a queue of its own; behind these the queue of what is open; the clients of a run begin so far
# behind those of the last.
LINKS, FULL, STEP = 8, 32, 64
# Rounds, runs of each kind in a round, the seconds of a run, and of a look at the asking alone.
ROUNDS, RUNS, SECONDS, ALONE = 3, 10, 2.0, 20
PAGES = ("/", "/status.json", "/metrics")


class Run(NamedTuple):
    """Requests a second, and the microseconds of the host's processor that each took."""

    rate: float
    each: float


def processor(host: Host) -> float:
    """The processor seconds that a host's one thread took so far, of which the system counts nanoseconds."""
    return int(pathlib.Path(f"/proc/{host.process.pid}/schedstat").read_text().split()[0]) / 1e9


@contextlib.contextmanager
def asking(port: int) -> Iterator[None]:
    """Somebody asks for each page once a second, until the block ends."""
    done = threading.Event()

    def ask() -> None:
        while not done.is_set():
            began = time.monotonic()
            for path in PAGES:
                demand(asked(port, path)[0] == 200, f"{path} is refused")
            done.wait(began + 1 - time.monotonic())

    thread = threading.Thread(target=ask, daemon=True)
    thread.start()
    try:
        yield
    finally:
        done.set()
        thread.join()


def fill(host: Host) -> None:
    """Puts items that stay."""
    with host.greeted(FIRST - 1) as peer:
        for first in range(1, PLACES + 1, 100):
            keys = [Key(1, FIRST - 1, 1, number) for number in range(first, first + 100)]
            peer.send(b"".join(frame(request(key, give("put", "a" * 100, queue=FULL))) for key in keys))
            for _ in keys:
                demand(b'"reply":"done"' in (peer.hear() or b""), "a put is refused")


class Bench:
    """A host that is nearly full, and the next clients of the driver."""

    def __init__(self, host: Host, port: int):
        self.host, self.port, self.first, self.requests = host, port, STEP, 20_000

    def run(self) -> Run:
        """One load."""
        before = processor(self.host)
        took = driver.load("rv", self.host.port, self.first, LINKS, 1, self.requests)
        self.first += STEP
        spent = processor(self.host) - before
        return Run(self.requests / took.seconds, 1e6 * spent / self.requests)

    def round(self) -> tuple[Run, Run]:
        """The middle one of the loads with nobody who asks, and of those with one; of all, each in turn."""
        calm, asks = list[Run](), list[Run]()
        for _ in range(RUNS):
            calm.append(self.run())
            with asking(self.port):
                asks.append(self.run())
        return middle(calm), middle(asks)

    def alone(self) -> float:
        """The processor's seconds in a second with no client that asks anything."""
        before, began = processor(self.host), time.monotonic()
        time.sleep(ALONE)
        return (processor(self.host) - before) / (time.monotonic() - began)


def middle(runs: list[Run]) -> Run:
    """The middle one of each number."""
    return Run(*(statistics.median(numbers) for numbers in zip(*runs)))


def measure(bench: Bench) -> None:
    """All that is measured."""
    quiet = bench.alone()
    with asking(bench.port):
        asks = bench.alone()
    print(f"alone: {1e3 * quiet:.2f} ms of the processor in a second, {1e3 * asks:.2f} while each page is asked for", flush=True)
    bench.requests = 2 * LINKS * int(bench.run().rate * SECONDS / LINKS / 2)
    for _ in range(ROUNDS):
        calm, asks_too = bench.round()
        less, more = 1 - asks_too.rate / calm.rate, asks_too.each / calm.each - 1
        print(f"requests a second: {calm.rate:.0f}, {asks_too.rate:.0f} while each page is asked for, {100 * less:+.2f} parts of 100 "
              f"less; the processor's µs of a request: {calm.each:.2f}, {asks_too.each:.2f}, {100 * more:+.2f} more", flush=True)


def main() -> None:
    if len(sys.argv) != 2:
        sys.exit((__doc__ or "").strip().split("\n")[-1])
    if driver.missing():
        print(f"the status page was not measured: {driver.missing()}")
        return
    driver.built()
    port, count = free_port(), min(CONNECTIONS, many.room() - 2 * LINKS)
    options = ("--status", f"127.0.0.1:{port}", "--connections", str(count + 2 * LINKS))
    with Host(sys.argv[1], options=options, keeps=False) as host:
        fill(host)
        with many.closing(many.connected(host.port, count)) as peers:
            many.greeted(peers, FIRST, host.epoch)
            print(f"{PLACES} open places and {count} connections", flush=True)
            measure(Bench(host, port))


main()
