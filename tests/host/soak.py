"""A soak of `rv host`: crowds on bad links, whose clients are killed, for so many seconds, beside peers that send without end or take no
answers; and then so many entries.

The host must serve to the end, a hand-over be as prompt as at the start, the account legal, each record kept. Beside peers memory must
be within what --memory lets it be, and without them flat behind the first tenth. All of it stays on this machine's loopback, and stops
by itself. The last line counts the parts.

With --store the host keeps a store in that folder, in a new epoch, and is killed and started anew each minute: the epoch goes
on, no client is told what only a server tells that forgot something, and memory is flat within runs and from run to run. The
folder is made where it is missing, and stays.

usage: python3 -m tests.host.soak PROGRAM [--seconds 600] [--peers 400] [--memory 16] [--entries 20000000] [--store FOLDER]
"""
from __future__ import annotations

import argparse
import functools
import os
import pathlib
import random
import statistics
import subprocess
import sys
import tempfile
import time
from collections.abc import Callable

from tests import ROOT
from tests.clients.proxy import Proxy
from tests.host import many
from tests.host.peers import kinds_of, peers
from tests.host.watch import memory, most_memory, processor
from tests.model.account import Key
from tests.sockets.cases import Count
from tests.sockets.hosts import Host, HostProgram, Start, StoreProgram
from tests.sockets.wire import demand, frame, give, replied, request, take
from tests import left_out
from tools.bench import driver

# Clients of a crowd, and the seconds between two of them that are killed; a killed one begins in a greater incarnation.
CLIENTS, KILLED_EACH = 8, 1.5
# Connections through the link that loses, cuts and delays; the clients that see how prompt a hand-over is.
LINKS, TAKER, GIVER = 10**9, 60_001, 60_002
# Behind the first tenth memory may grow by so many parts, and by so many bytes; a hand-over may take so many times as long at
# the median as in the first tenth, and so many seconds more.
MORE, MORE_BYTES, SLOWER, SLOWER_SECONDS = 1.10, 4 << 20, 2.0, 0.002
# Peers that send without end, the MiB of --memory, and those by which the process may have more.
PEERS, MEMORY, BESIDE = 400, 16, 40
# The seconds after which a host that keeps a store is killed and started anew; in a short soak it is so many times.
RUN, RUNS = 60, 3
# Connections of the long load, requests in one piece, hand-overs that are measured in each tenth, and the clients of these.
CONNECTIONS, PIECE, ROUNDS, FIRST, FIRST_OF_HANDS = 16, 16, 200, 1, 10_000
# The seconds that `rv verify` may take.
VERIFYING = 3_600


class Measured:
    """Memory and promptness in each tenth."""

    def __init__(self) -> None:
        self.memory: list[list[int]] = [[] for _ in range(10)]
        self.seconds: list[list[float]] = [[] for _ in range(10)]
        # the most memory at once
        self.most = 0

    def judge(self, bound: int | None = None) -> str:
        """Memory is within a bound, or where there is none flat behind the first tenth, and the last hand-overs are as prompt as the
        first."""
        demand(all(self.memory) and all(self.seconds), "a tenth was too short to measure")
        least, most = max(self.memory[0]), max(max(tenth) for tenth in self.memory[1:])
        if bound is None:
            demand(most <= MORE * least + MORE_BYTES, f"memory grew from {least} to {most} bytes")
        else:
            demand(self.most <= bound, f"memory was {self.most} bytes, and may be {bound}")
        first, last = (statistics.median(self.seconds[tenth]) for tenth in (0, 9))
        demand(last <= SLOWER * first + SLOWER_SECONDS, f"a hand-over took {first:.6f} seconds, and takes {last:.6f}")
        longest = max(max(tenth) for tenth in self.seconds)
        return (f"memory {least >> 10} KiB in the first tenth, {most >> 10} at most behind it; hand-overs "
                f"{first * 1e6:.0f} µs in the first tenth, {last * 1e6:.0f} in the last, {longest * 1e6:.0f} at most")


class Probe:
    """A taker and a giver on links of their own, that are good."""

    def __init__(self, host: Host):
        self.number = 0
        self.connect(host)

    def connect(self, host: Host) -> None:
        """Both go on over new links."""
        self.taker, self.giver, self.epoch = host.greeted(TAKER), host.greeted(GIVER), host.epoch

    def seconds(self) -> float:
        """From the put to the item in the hands of the taker, which waits."""
        self.number += 1
        wish, gift = (Key(self.epoch, client, 1, self.number) for client in (TAKER, GIVER))
        self.taker.send(frame(request(wish, take("forever", queue=63))))
        time.sleep(0.01)
        began = time.monotonic()
        self.giver.send(frame(request(gift, give("put", "probe", queue=63))))
        got = self.taker.hear()
        took = time.monotonic() - began
        demand(got == replied(wish, reply="item", item="probe"), f"the probe was answered {got!r}")
        demand(self.giver.hear() == replied(gift, reply="done"), "the probe's put is not done")
        return took


class Crowd:
    """Processes of clients over a bad link, some of which are killed."""

    def __init__(self, port: int, folder: pathlib.Path, chance: random.Random):
        self.port, self.folder, self.chance, self.kills = port, folder, chance, 0
        self.incarnations = dict.fromkeys(range(1, 1 + CLIENTS), 0)
        self.running = {client: self.started(client) for client in self.incarnations}

    def started(self, client: int) -> subprocess.Popen[bytes]:
        """A client in its next incarnation, with a record of its own."""
        self.incarnations[client] += 1
        record = self.folder / f"{client}-{self.incarnations[client]}"
        words = [sys.executable, "-B", "-m", "tests.host.soak_client", str(self.port), str(client),
                 str(self.incarnations[client]), str(record), str(self.chance.random())]
        return subprocess.Popen(words, stdin=subprocess.PIPE, cwd=ROOT)

    def kill_one(self) -> None:
        """Kills any of them, and starts it anew. None of them may have ended by itself."""
        ended = {client: one.poll() for client, one in self.running.items() if one.poll() is not None}
        demand(not ended, f"clients ended by themselves: {ended}")
        client = self.chance.choice(list(self.running))
        self.running[client].kill()
        self.running[client].communicate()
        self.running[client], self.kills = self.started(client), self.kills + 1

    def end(self) -> None:
        """Lets all of them end: none may have found a fault."""
        for one in self.running.values():
            if one.stdin:
                one.stdin.close()
        statuses = [one.wait(120) for one in self.running.values()]
        demand(not any(statuses), f"clients ended with {statuses}")

    def records(self) -> bytes:
        """What all of them were told; of a line that one was killed in nothing."""
        return b"".join(text[: text.rfind(b"\n") + 1] for text in (path.read_bytes() for path in sorted(self.folder.iterdir())))


class Watched:
    """What is measured of a host in a soak of so many seconds, in which it serves. One that keeps a store is killed again and
    again, and started anew: then it is measured within its runs too."""

    def __init__(self, host: Host, seconds: float):
        self.host, self.seconds, self.probe, self.measured = host, seconds, Probe(host), Measured()
        self.run = min(RUN, seconds / RUNS) if host.store is not None else seconds
        self.within, self.starts = Measured(), [Start(host.epoch, None)]
        # the most memory of each run, and the longest that nobody could connect
        self.most: list[int] = []
        self.longest = 0.0
        # the seconds of the runs before, and when this one began
        self.ran, self.started = 0.0, time.monotonic()

    def goes_on(self) -> bool:
        """Whether the soak isn't over. A host whose run is over is killed and started anew."""
        runs = time.monotonic() - self.started
        if self.ran + runs >= self.seconds:
            return False
        if runs >= self.run:
            self.start_again()
        return True

    def start_again(self) -> None:
        """The host is killed, and goes on in its epoch after all entries that it went on after before, and more."""
        self.most.append(most_memory(self.host.process.pid))
        began, before = time.monotonic(), self.starts[-1]
        self.ran += began - self.started
        after = self.host.start_again()
        is_further = (after.entries or 0) > (before.entries or 0)
        demand(after.epoch == before.epoch and is_further, f"after {before} it starts with {after}")
        self.probe.connect(self.host)
        self.starts.append(after)
        self.started = time.monotonic()
        self.longest = max(self.longest, self.started - began)

    def look(self) -> None:
        """Measures what the host has now, and how prompt it is."""
        runs, has, took = time.monotonic() - self.started, memory(self.host.process.pid), self.probe.seconds()
        for measured, part in ((self.measured, (self.ran + runs) / self.seconds), (self.within, runs / self.run)):
            tenth = min(9, int(10 * part))
            measured.memory[tenth].append(has)
            measured.seconds[tenth].append(took)

    def judge(self, bound: int | None) -> str:
        """Memory and promptness over all of the soak are as they are to be; so they are within runs, and from run to run."""
        self.measured.most = self.within.most = max(self.most)
        told = self.measured.judge(bound)
        if self.host.store is None:
            return told
        within, first, most = self.within.judge(bound), self.most[0], max(self.most)
        demand(bound or most <= MORE * first + MORE_BYTES, f"the first run had {first} bytes at most, and a later one {most}")
        return (f"{told}; within runs {within}; the first run had {first >> 10} KiB at most, and no later one more than "
                f"{most >> 10}; {len(self.starts) - 1} kills, after each of which it was back within {self.longest:.2f} seconds")


def bad_links(start: Callable[..., Host], seconds: float, seed: int, count: int, mebibytes: int) -> str:
    """Crowds on bad links, whose clients are killed, beside so many peers that send without end or take no answers."""
    with tempfile.TemporaryDirectory(prefix="rv-soak-") as name, start("--memory", str(mebibytes)) as host:
        watched = Watched(host, seconds)
        with peers(host.port, kinds_of(count), host.epoch) as sent, Proxy(host, seed, LINKS) as proxy:
            crowd = Crowd(proxy.port, pathlib.Path(name), random.Random(seed))
            try:
                under_watch(watched, crowd)
                proxy.calm = True
                crowd.end()
            finally:
                for one in crowd.running.values():
                    one.kill()
            demand(all(sent().values()), f"of some kinds of peers nothing was sent: {sent()}")
            demand(not proxy.forgets(), f"clients were refused, by number: {proxy.forgets()}")
        host.halt()
        record = crowd.records()
        entries, replies = verified(host, record), record.count(b"\n")
    beside = f", beside {count} peers that sent {sum(sent().values()) >> 20} MiB" if count else ""
    told = watched.judge((mebibytes + BESIDE) << 20 if count else None)
    return f"{entries} entries, {replies} replies kept, {crowd.kills} clients killed{beside}; {told}"


def under_watch(watched: Watched, crowd: Crowd) -> None:
    """A crowd's clients are killed one by one beside what is measured."""
    killing = time.monotonic() + KILLED_EACH
    while watched.goes_on():
        watched.look()
        if time.monotonic() >= killing:
            crowd.kill_one()
            killing += KILLED_EACH
        time.sleep(0.1)
    watched.most.append(most_memory(watched.host.process.pid))


def verified(host: Host, record: bytes) -> int:
    """How many entries its account has, which must be legal and keep each line of the record."""
    with tempfile.NamedTemporaryFile(prefix="rv-record-") as file:
        file.write(record)
        file.flush()
        words = [host.program, "verify", str(host.store or host.account), *(["--replies", file.name] if record else [])]
        ran = subprocess.run(words, capture_output=True, text=True, timeout=VERIFYING)
    demand(ran.returncode == 0 and ran.stdout.startswith("legal\n"), f"rv verify says {ran.stdout[-1_000:]} {ran.stderr[-1_000:]}")
    with open(host.file, "rb") as account:
        return sum(piece.count(b"\n") for piece in iter(lambda: account.read(1 << 20), b"")) - 1


def many_entries(start: Callable[[], Host], entries: int) -> str:
    """So many puts and takes by the compiled driver, which compares each answer; hand-overs between."""
    driver.built()
    measured, each, rates = Measured(), entries // 10, []
    with start() as host:
        host.connect().close()
        for tenth in range(10):
            hands = driver.hand("rv", host.port, FIRST_OF_HANDS + 2 * tenth, 0, ROUNDS)
            measured.seconds[tenth].append(hands.median)
            took = processor(host.process.pid)
            driver.load("rv", host.port, FIRST + CONNECTIONS * tenth, CONNECTIONS, PIECE, each)
            rates.append((processor(host.process.pid) - took) / each)
            measured.memory[tenth].append(memory(host.process.pid))
        host.halt()
        made = verified(host, b"")
    demand(made >= entries, f"the account has {made} entries, not {entries}")
    return (f"{made} entries, {rates[0] * 1e6:.2f} µs of the processor each in the first tenth, {rates[-1] * 1e6:.2f} in the last; "
            f"{measured.judge()}")


def main() -> None:
    parser = argparse.ArgumentParser(prog="python3 -m tests.host.soak", description=__doc__, formatter_class=argparse.RawDescriptionHelpFormatter)
    parser.add_argument("program", nargs="?", default="crates/rv_app/out/rv_app")
    parser.add_argument("--seconds", type=float, default=600, help="how long the crowds ask; 0: not at all")
    parser.add_argument("--peers", type=int, default=PEERS, help="how many send without end or take no answers meanwhile; 0: none")
    parser.add_argument("--memory", type=int, default=MEMORY, help="the MiB of the host's --memory then")
    parser.add_argument("--entries", type=int, default=20_000_000, help="how many entries the second part makes; 0: none")
    parser.add_argument("--store", type=pathlib.Path, help="the folder of the hosts' store; default: each keeps an account")
    parser.add_argument("--seed", type=int, default=random.randrange(10**6), help="default: any")
    asked = parser.parse_args()
    many.room()
    start, count = functools.partial(started, os.path.abspath(asked.program), asked.store), Count("", True)
    print(f"seed {asked.seed}", flush=True)
    if asked.seconds:
        count.run("crowds on bad links", bad_links, start, asked.seconds, asked.seed, asked.peers, asked.memory)
    lacking = driver.missing()
    if asked.entries and lacking:
        left_out.tell("the long load", lacking)
    elif asked.entries:
        count.run("many entries", many_entries, start, asked.entries)
    if asked.store:
        print(f"the store is kept: {asked.store}")
    count.end()


def started(program: str, store: pathlib.Path | None, *options: str) -> Host:
    """A host that keeps an account, or a store in a folder, where a new epoch begins: clients of an earlier one may be there."""
    if store is None:
        return Host(HostProgram(program), options=options)
    host = Host(StoreProgram(program), time.time_ns() // 1_000_000, store=store.absolute(), options=options)
    host.told_start()
    return host


# the processes of the peers read this file too
if __name__ == "__main__":
    main()
