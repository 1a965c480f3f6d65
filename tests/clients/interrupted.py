"""A crowd of Python processes under fire, on a live server: their calls are interrupted at any time by SIGINT, SIGTERM and an
alarm, and some of them are killed and started anew. What each was told is compared with the server's account, and with the
record that their sessions kept.

The long form goes on over several epochs until so many calls were interrupted.
"""
import collections
import json
import pathlib
import random
import re
import signal
import subprocess
import sys
import tempfile
import time

from record_lines import read
from tests import ROOT
from tests.clients.interrupted_judged import LIMIT, Book, calls_of, faults_of, the_judge_finds_lies
from tests.model.account import Request, reply
from tests.model.tables import table_audit
from tests.sockets.driver import run_at_once
from tests.sockets.hosts import Host, kills, serving
from tests.sockets.wire import demand, together

PROCESSES, WORKERS = 8, 64
# A process gets a signal from outside each so many seconds, and one of them is killed each so many.
GAP, KILL_EACH = 0.005, 0.7
# Each so many seconds the server is held for longer than an interrupt waits for its cancel.
HOLD_EACH, HELD = 3.0, 1.4
# How often the processes are looked at, in seconds.
LOOK_EACH = 0.25
# Calls of an epoch: more than it has room for. Connections that a crowd may make at all events, and for each call.
CALLS, FEW_CALLS, AT_ALL_EVENTS, EACH_CALL = 100_000, 4_000, 6_000, 0.8
# The record that the sessions of all processes keep, and how each of its lines begins.
KEPT, BEGINS = "kept", b'{"asked":{'
# What a client logs of a server that is killed.
UNREACHED = re.compile(r"127\.0\.0\.1:\d+: connection refused\n")
# An epoch that takes so many seconds doesn't end.
LONGEST = 60 * LIMIT
# So many keys of an account are looked at by the plain model too, and a count or a peek where so few entries stand before:
# there the model looks at each pair of them.
SAMPLE, FEW = 20, 1_000


class One:
    """A process of the crowd, with its record."""

    def __init__(self, server, client, incarnation, seed, calls, folder):
        self.server, self.client, self.incarnation, self.calls = server, client, incarnation, calls
        self.path, self.said = (pathlib.Path(folder) / f"{client}.{incarnation}.{end}" for end in ("record", "said"))
        words = [server.port, client, incarnation, seed, calls, self.path, pathlib.Path(folder, KEPT)]
        program = [sys.executable, "-B", "-m", "tests.clients.interrupted_process"]
        with open(self.said, "wb") as said:
            self.process = subprocess.Popen([*program, *map(str, words)], stdout=said, stderr=said, cwd=ROOT)
        self.ready, self.size, self.grew = False, 0, time.monotonic()

    def is_ready(self):
        """Whether it takes signals: it has written its first line."""
        self.ready = self.ready or self.path.exists() and self.path.stat().st_size > 0
        return self.ready and self.process.poll() is None

    def look(self):
        """It must write something now and then; its stacks are told where it does not."""
        size, now = self.path.stat().st_size if self.path.exists() else 0, time.monotonic()
        if size != self.size:
            self.size, self.grew = size, now
        if now > self.grew + LIMIT + 10:
            self.process.send_signal(signal.SIGABRT)
            self.process.wait()
            demand(False, f"client {self.client} hung: {self.said.read_text()[-3000:]}")

    def kill(self):
        """Kills it; how many calls it has not asked."""
        self.process.kill()
        self.ended()
        return self.calls - sum("asks" in line for line in self.lines())

    def lines(self):
        """What it wrote; of a line that it was killed in nothing."""
        text = self.path.read_bytes() if self.path.exists() else b""
        return [json.loads(line) for line in text.split(b"\n")[:-1]]

    def ended(self):
        """It must have ended well, unless it was killed, and have said nothing, but that it found no server where that is
        killed."""
        status, said = self.process.wait(), self.said.read_text()
        if isinstance(self.server, Host) and self.server.is_killed:
            said = UNREACHED.sub("", said)
        demand(status in (0, -signal.SIGKILL) and not said, f"client {self.client} ended with {status}: {said[-3000:]}")


class Crowd:
    """Processes that are fired at until each of them has asked its calls."""

    def __init__(self, server, chance, calls, folder):
        self.server, self.chance, self.folder, self.kills = server, chance, folder, 0
        self.run, self.gone = [], []
        for client in range(1, PROCESSES + 1):
            self.start(client, 1, calls // PROCESSES)

    def start(self, client, incarnation, calls):
        """Starts a process."""
        self.run.append(One(self.server, client, incarnation, self.chance.randrange(10**9), calls, self.folder))

    def fire(self):
        """Fires until all have ended."""
        deeds, began = {self.look: LOOK_EACH, self.kill: KILL_EACH, self.hold: HOLD_EACH}, time.monotonic()
        due = {deed: began + each / 2 for deed, each in deeds.items()}
        while self.run:
            self.shoot()
            for deed in [deed for deed, moment in due.items() if time.monotonic() >= moment]:
                deed()
                due[deed] = time.monotonic() + deeds[deed]

    def shoot(self):
        """Sends one of them a signal, a little later."""
        time.sleep(self.chance.expovariate(PROCESSES / GAP))
        one = self.chance.choice(self.run) if self.run else None
        if one and one.is_ready():
            one.process.send_signal(self.chance.choice([signal.SIGINT, signal.SIGTERM]))

    def hold(self):
        """Holds the server for a while, under fire."""
        ends = time.monotonic() + HELD
        self.server.process.send_signal(signal.SIGSTOP)
        try:
            while time.monotonic() < ends:
                self.shoot()
        finally:
            self.server.process.send_signal(signal.SIGCONT)

    def kill(self):
        """Kills a process, and starts it anew in a greater incarnation."""
        one = self.chance.choice(self.run) if self.run else None
        if not one or not one.is_ready():
            return
        left = one.kill()
        self.kills += 1
        self.put_aside(one)
        if left > 0:
            self.start(one.client, one.incarnation + self.chance.choice([1, 1, 5]), left)

    def look(self):
        """Puts those aside that have ended, and looks at the others."""
        for one in list(self.run):
            if one.process.poll() is not None:
                one.ended()
                self.put_aside(one)
            else:
                one.look()

    def put_aside(self, one):
        """It runs no more."""
        self.run.remove(one)
        self.gone.append(one)

    def end(self):
        """Leaves none running."""
        for one in self.run:
            one.process.kill()
            one.process.wait()

    def record(self):
        """What all of them wrote."""
        return {(one.client, one.incarnation): one.lines() for one in self.gone}


def use_up(server):
    """Makes the connections that are left, so that the server ends; how many. A host has no last one."""
    if isinstance(server, Host):
        server.use_up()
        return 0
    made = []

    def makes():
        try:
            while True:
                with server.connect() as peer:
                    peer.end()
                    peer.more()
                made.append(1)
        except ConnectionError:
            pass
    server.connect().close()
    together(*[makes] * 4)
    return len(made)


def lines_kept(path):
    """The lines of the record that all sessions keep. A process that is killed in a write may leave the front of a line, to which the
    next one is joined: nobody was told the reply of that front."""
    lines = path.read_bytes().split(b"\n")[:-1] if path.exists() else []
    return [read(line[line.rindex(BEGINS):]) for line in lines]


def an_epoch(program, chance, epoch, calls, sums):
    """A server and its crowd; the record must be true by the account, which must be legal."""
    connections = AT_ALL_EVENTS + int(EACH_CALL * calls)
    with tempfile.TemporaryDirectory(prefix="rv-fire-") as folder, \
            serving(program, WORKERS, connections, epoch=epoch) as server:
        crowd = Crowd(server, chance, calls, folder)
        try:
            run_at_once([crowd.fire], kills(server, random.Random(chance.random())), LONGEST)
        finally:
            crowd.end()
        sums["connections"] += connections - use_up(server)
        account, record, kept = server.ended(), crowd.record(), lines_kept(pathlib.Path(folder, KEPT))
        server.audited()
    fault = table_audit(account)
    demand(not fault, f"place {fault} of the account")
    found = faults_of(record, account, kept)
    demand(not found, "; ".join(f"{rule}, {len(faults)} times: {faults[:3]}" for rule, faults in found.items()))
    by_definition(record, account, chance)
    sums["epochs"], sums["kills"], sums["entries"] = sums["epochs"] + 1, sums["kills"] + crowd.kills, \
        sums["entries"] + len(account.entries)
    sums["replies recorded"] += len(kept)
    add_up(record, account, sums)


def by_definition(record, account, chance):
    """Some keys that were told have the reply that the model's definition gives."""
    early = {entry.act.key for entry in account.entries[:FEW] if isinstance(entry.act, Request)}
    calls = [one for one in calls_of(record, account.epoch) if one.key in early or one.call["call"] not in ("count", "peek")]
    told = [pair for one in calls for pair in one.replies]
    looks = [pair for one in calls if one.call["call"] in ("count", "peek") for pair in one.replies]
    for key, members in chance.sample(told, min(SAMPLE, len(told))) + looks[:SAMPLE]:
        stands = reply(account.entries, key)
        demand(stands == members, f"{key} was told {members}, and by definition {stands} stands")


def add_up(record, account, sums):
    """Counts the calls that were interrupted, by what interrupted them and by what came of them."""
    book = Book(account)
    for one in calls_of(record, account.epoch):
        ways = one.ways
        came = one.replies[-1][1]["reply"] if one.replies else "nothing" if one.denied else "killed"
        sums["calls"] += 1
        sums["calls interrupted twice"] += len(ways) > 1
        sums["calls of killed processes that stand"] += one.killed and one.key in book.arrived
        sums["the longest call, in milliseconds"] = max(
            sums["the longest call, in milliseconds"], *(int(1000 * line.get("seconds", 0)) for line in [{}, *one.came]))
        for word in sorted({tells["nothing"] for tells in one.tells if "nothing" in tells}):
            sums[f"told {word}"] += 1
        sums["told unsettled"] += any("unsettled" in tells for tells in one.tells)
        if ways and came == "nothing":
            sums["interrupted, and nothing was asked or there was no room"] += 1
        elif ways:
            sums["interrupted"] += 1
            sums[f"interrupted by {ways[0]}"] += 1
            sums[f"interrupted, {came}"] += 1


def epochs(program, seed, how_many, calls):
    """Goes on until so many calls were interrupted; what came of it so far, behind each epoch."""
    chance, sums, began = random.Random(seed), collections.Counter(), time.monotonic()
    the_judge_finds_lies()
    while sums["interrupted"] < how_many:
        before = sums["interrupted"]
        an_epoch(program, chance, sums["epochs"] + 1, calls, sums)
        demand(sums["interrupted"] > before, "no call was interrupted")
        yield {"seed": seed, **dict(sorted(sums.items())), "false words": 0, "hangs": 0,
               "seconds": round(time.monotonic() - began)}


def interrupted_calls(program, seed, how_many):
    """The long form, over as many epochs as it takes. It tells how it goes on, and gives what came of it."""
    print(f"seed {seed}", flush=True)
    for sums in epochs(program, seed, how_many, CALLS):
        print(f"{sums['epochs']} epochs, {sums['interrupted']} calls interrupted, {sums['seconds']} seconds", flush=True)
    print(json.dumps(sums, indent=1), flush=True)
    return sums


def under_fire(program, seed):
    """The short form, of one epoch."""
    return next(epochs(program, seed, 1, FEW_CALLS))


CASES = [under_fire]
