"""Waits that are asked in pieces, on a live host: what a killed process asked ends by itself, and what others asked goes on."""
import contextlib
import os
import pathlib
import random
import subprocess
import sys
import tempfile
import threading
import time

import rendezvous as rv
from context import unhurried
from record_lines import lines_of
from tests import ROOT
from tests.clients import java
from tests.clients.proxy import Proxy
from tests.model.account import Request
from tests.model.tables import table_audit
from tests.sockets.hosts import Host, HostProgram
from tests.sockets.standing import Replies
from tests.sockets.wire import PATIENCE, demand, together, until

DOUBLE = HostProgram(ROOT / "tests/host/double.sh")
QUEUE = 3
# Who is killed, or waits in pieces; and another client. The presence in seconds.
WORKER, OTHER, PRESENCE = 1, 2, 1
# How many takes are cancelled at any moment, and the presence of these, in seconds.
CANCELLED, BRIEF = 60, 0.02
# How many items are handed over on a bad link, and how many connections that has.
HANDED, CONNECTIONS = 60, 2_000
# Workers in Python, which wait in a take until they are killed.
THREAD = f"rendezvous.Session(address, {WORKER}, 1, presence={PRESENCE}).take({QUEUE})"
TASK = f"asyncio.run(rendezvous.aio.Session(address, {WORKER}, 1, presence={PRESENCE}).take({QUEUE}))"


def in_python(work, port):
    """The words and the environment of a worker in Python."""
    text = f"import asyncio, rendezvous, rendezvous.aio\naddress = ('127.0.0.1', {port})\n{work}"
    path = {"PYTHONPATH": str(ROOT / "clients/python/src"), "PYTHONDONTWRITEBYTECODE": "1"}
    return [sys.executable, "-c", text], {**os.environ, **path}


def in_java(_, port):
    """The same of one in Java."""
    return java.command("rendezvous.Scenes", "waits", port), None


def session(server, number, presence=None, **more):
    """A session of a client, which waits long on a slow machine."""
    return rv.Session(("127.0.0.1", server.port), number, 1, patience=PATIENCE, answer=PATIENCE / 2, connect_timeout=None,
                      presence=presence, **more)


@contextlib.contextmanager
def begun(deed):
    """A deed in a thread of its own, which has ended at the end of the block; what it gave is in this list then."""
    gave = []
    thread = threading.Thread(target=lambda: gave.append(deed()), daemon=True)
    thread.start()
    yield gave
    thread.join(PATIENCE)
    demand(len(gave) == 1, "a call did not end, or ended by an exception")


def account_of(server):
    """The account of a host, which must be legal."""
    account = server.ended()
    fault = table_audit(account)
    demand(not fault, f"place {fault} of the account")
    return account


def waits(account, client):
    """The waits of a client's requests."""
    return [entry.act.call.wait for entry in account.entries if isinstance(entry.act, Request) and entry.act.key.client == client]


# ---- cases

def a_killed(worker, words, program):
    """A worker waits in its take, and is killed. Its request ends by itself, so a transfer that waits for nobody is received by
    nobody; it gives for how long the request stood after the death."""
    with Host(program) as server, session(server, OTHER) as other:
        asked, environment = words(worker, server.port)
        process = subprocess.Popen(asked, env=environment)
        try:
            until("a take that waits", lambda: other.count(QUEUE).consumers == 1)
            # one that is asked in the second piece, or later
            time.sleep(PRESENCE)
            until("a take that waits", lambda: other.count(QUEUE).consumers == 1)
        finally:
            process.kill()
            process.communicate()
        killed = time.monotonic()
        # nothing of it is on its way any more
        until("the end of its connection", lambda: server.accepted() == 1)
        until("the end of its take", lambda: other.count(QUEUE).consumers == 0)
        stood = time.monotonic() - killed
        demand(other.try_transfer(QUEUE, "a") is None, "the dead received a transfer")
        other.put(QUEUE, "b")
        demand(other.take(QUEUE) == "b", "the dead took an item")
        account = account_of(server)
    demand(set(waits(account, WORKER)) == {1000 * PRESENCE}, f"it waited {waits(account, WORKER)} milliseconds")
    return f"its request stood for {stood:.1f} seconds"


def killed_workers(program):
    """On a thread, and in asyncio."""
    host = HostProgram(program)
    return "; ".join(a_killed(worker, in_python, host) for worker in (THREAD, TASK))


def a_killed_worker_in_java(program):
    """The same."""
    return a_killed("", in_java, HostProgram(program))


def at_the_double(_program):
    """One of them at the double of the host."""
    return a_killed(THREAD, in_python, DOUBLE)


def java_at_the_double(_program):
    """One in Java there."""
    return a_killed("", in_java, DOUBLE)


def in_its_third_piece(program: str) -> None:
    """A take has an item that comes when two pieces timed out; the receipt names the piece that has it, and the next call has the
    next number."""
    with Host(HostProgram(program)) as server, session(server, WORKER, PRESENCE) as worker, session(server, OTHER) as other:
        with begun(lambda: worker.take(QUEUE)) as gave:
            until("two pieces", lambda: worker.last is not None and worker.last.key.number >= 2)
            receipt = other.transfer(QUEUE, "a")
        demand((gave, receipt.by.number >= 3, worker.last.key) == (["a"], True, receipt.by), f"{gave}, {receipt}, {worker.last}")
        demand(worker.poll(QUEUE) is None and worker.last.key.number == receipt.by.number + 1, f"{worker.last}")
        replies = Replies(account_of(server)).made
    told = [replies[key]["reply"] for key in sorted(replies, key=lambda key: key.number) if key.client == WORKER]
    demand(told == ["timedout"] * (len(told) - 2) + ["item", "empty"], f"{told}")


def the_place_in_the_line(program: str) -> None:
    """Is lost with each piece: whoever came meanwhile gets the next item."""
    with Host(HostProgram(program)) as server, session(server, WORKER, PRESENCE) as worker, session(server, OTHER) as other, \
            session(server, 3) as giver:
        with begun(lambda: worker.take(QUEUE)) as late:
            until("the first", lambda: giver.count(QUEUE).consumers == 1)
            with begun(lambda: other.take(QUEUE)) as soon:
                until("both", lambda: giver.count(QUEUE).consumers == 2)
                before = worker.last.key.number if worker.last else 0
                until("another piece", lambda: worker.last is not None and worker.last.key.number > before)
                giver.put(QUEUE, "a")
            giver.put(QUEUE, "b")
        demand((soon, late) == (["a"], ["b"]), f"{soon}, {late}")
        account_of(server)


@unhurried(cancels=False)
def a_time_of_its_own(program: str) -> None:
    """A transfer with a time that is longer than its presence: all pieces together wait no longer, and nobody has the item. One
    that is received in a later piece names who received it."""
    with Host(HostProgram(program)) as server, session(server, WORKER, PRESENCE) as worker, session(server, OTHER) as other:
        began = time.monotonic()
        demand(worker.try_transfer(QUEUE, "a", 2.5 * PRESENCE) is None, "nobody received it")
        took = time.monotonic() - began
        pieces = worker.last.key.number
        with begun(lambda: worker.try_transfer(QUEUE, "b", PATIENCE)) as gave:
            until("a piece", lambda: worker.last.key.number > pieces)
            demand(other.take(QUEUE) == "b", "another item")
        demand((gave[0].by, gave[0].key) == (other.last.key, worker.last.key), f"{gave}")
        account = account_of(server)
    first = waits(account, WORKER)[:pieces]
    demand(max(first) <= 1000 * PRESENCE and sum(first) <= 2500 * PRESENCE, f"it waited {first} milliseconds")
    demand(took >= 2.49 * PRESENCE, f"it took {took} seconds")


def cancels_at_any_moment(program: str, seed: int) -> str:
    """Takes in brief pieces are cancelled, within pieces and between them, while items come: each item is told once, by its take, or
    to whoever drains what a cancelled take left."""
    chance, told, left = random.Random(seed), [], []
    with Host(HostProgram(program)) as server, session(server, WORKER, BRIEF) as worker, session(server, OTHER) as other:
        for number in range(CANCELLED):
            later = threading.Timer(chance.random() * 4 * BRIEF, worker.cancel)
            gives = threading.Timer(chance.random() * 8 * BRIEF, lambda: other.put(QUEUE, f"item {number}"))
            for each in (later, gives):
                each.start()
            with contextlib.suppress(rv.Cancelled):
                told.append(worker.take(QUEUE))
            for each in (later, gives):
                each.join()
            left += other.drain(QUEUE, 16)
        demand(worker.unclaimed() == [] and worker.unsettled is None, f"{worker.unclaimed()}, {worker.unsettled}")
        account_of(server)
    demand(sorted(told + left) == sorted(f"item {number}" for number in range(CANCELLED)), f"{told} and {left} were told")
    return f"{len(told)} of {CANCELLED} takes had an item"


def over_a_bad_link(program: str, seed: int) -> str:
    """Transfers and takes in brief pieces, where answers are lost and requests come twice: each item is handed over once, in
    order, and the account has the reply of each piece."""
    chance, items = random.Random(seed), [f"item {number}" for number in range(HANDED)]

    def takes(one):
        time.sleep(chance.random() * 2 * BRIEF)
        return one.take(QUEUE), one.last.key
    with tempfile.TemporaryDirectory(prefix="rv-presence-") as folder, Host(HostProgram(program)) as server, \
            Proxy(server, seed, CONNECTIONS) as proxy:
        record = pathlib.Path(folder, "record")
        with session(proxy, WORKER, BRIEF, record=record) as giver, session(proxy, OTHER, BRIEF, record=record) as taker:
            receipts, taken = together(lambda: [giver.transfer(QUEUE, item) for item in items],
                                       lambda: [takes(taker) for _ in items])
        proxy.close()
        account_of(server)
        server.keeps(record.read_bytes())
        late = sum(line.reply["reply"] == "timedout" for line in lines_of(record))
    demand([item for item, _ in taken] == items, f"{taken} were taken")
    demand([receipt.by for receipt in receipts] == [key for _, key in taken], f"{receipts} for {taken}")
    return f"{late} pieces timed out, and {HANDED} items were handed over"


CASES = [killed_workers, at_the_double, in_its_third_piece, the_place_in_the_line, a_time_of_its_own]
BY_SEED = [cancels_at_any_moment, over_a_bad_link]
WITH_JAVA = [a_killed_worker_in_java, java_at_the_double]
