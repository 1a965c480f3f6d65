"""Crowds of Python and Java clients on one server, of version 1 and 2 in turn, over a link that loses,
repeats, cuts and delays: what each was told must stand in the account, which must be legal by the model's
audit and by `rv audit`; and in the record that all of them share, as soon as they are told it."""
import contextlib
import json
import pathlib
import random
import re
import subprocess
import tempfile
import threading
import time

import rendezvous as rv
from record_lines import lines_of
from tests.clients import java
from tests.clients.outcomes import answer_members
from tests.clients.proxy import Proxy
from tests.clients.records import Ended, Reader, judged, judged_java
from tests.sockets.cases import DOUBLE
from tests.sockets.driver import drive, run_at_once
from tests.sockets.ledger import Ledger
from tests.sockets.hosts import kills, serving
from tests.sockets.wire import PATIENCE, demand, key_of, reply_of

PYTHONS, JAVAS, WORKERS = 6, 4, 48
# Connections that a crowd may make a second, and at all events: what is given up takes a new one.
CONNECTIONS, AT_ALL_EVENTS = 600, 2_000
MILLIS = (0, 1, 3, 10, 30, 100)
# So many seconds longer a crowd asks at most, where the machine is slow.
LONGER = 600
# What Java's clients log of a server that is killed.
UNREACHED = re.compile(r".+ rendezvous\.RvSession warn\nWARNING: 127\.0\.0\.1:\d+: connection refused\n")
# The first client of Java's, and how long a crowd asks at the double of the server, in seconds.
FIRST_OF_JAVA, SHORT = 100, 3


def add(ledger, call, answer):
    """Keeps a call, and the answer that settled it."""
    ledger.settle(key_of(answer), call, reply_of(answer))


class Client:
    """A Python client that asks random calls, and gives up some that wait."""

    def __init__(self, address, number, chance, ledger, record, incarnation=1):
        self.session = rv.Session(address, number, incarnation, version=1 + number % 2, patience=PATIENCE, answer=2,
                                  connect_timeout=None, record=record)
        self.chance, self.ledger, self.number, self.items = chance, ledger, number, 0
        self.record = Reader(record, number)

    def run(self, goes_on):
        """Asks for as long as that holds."""
        while goes_on():
            call, ask = self.call()
            with self.given_up_later() if call.get("wait") == "forever" else contextlib.nullcontext():
                ended = self.ended(ask)
            if judged(self.record.new(), call, ended):
                add(self.ledger, call, answer_members(ended.outcome))
            time.sleep(self.chance.random() * 0.01)
        self.session.close()

    def ended(self, ask):
        """How a call ended. Nothing was asked where its time was over, or it was given up, before."""
        try:
            value = ask()
        except (rv.Cancelled, rv.TimedOut, rv.NotAsked) as fault:
            return Ended(None, fault, self.session.last if fault.key else None)
        except rv.Unsettled:
            outcome = self.session.again()
            return Ended(outcome, None, outcome, again=True)
        return Ended(value, None, self.session.last)

    @contextlib.contextmanager
    def given_up_later(self):
        """The call of the block is cancelled a little later, unless it is over; behind the block none is, whoever was slow."""
        over = threading.Event()
        later = threading.Thread(target=self.give_up, args=(over, self.chance.random() * 0.08), daemon=True)
        later.start()
        try:
            yield
        finally:
            over.set()
            later.join()

    def give_up(self, over, pause):
        """Cancels the running call after a pause, unless it is over."""
        while not over.wait(pause) and not self.session.cancel():
            pause = 0.005

    def call(self):
        """The members of a call, and what asks it."""
        one, chance = self.session, self.chance
        self.items += 1
        item, millis = f"python {self.number} {self.items}", chance.choice(MILLIS)
        seconds, most = millis / 1000, chance.randint(1, 16)
        swap = {"call": "swap", "exchanger": 5, "item": item}
        give, take = {"call": "transfer", "queue": 3, "item": item}, {"call": "take", "queue": 3}
        return chance.choice([
            ({"call": "put", "queue": 3, "item": item}, lambda: one.put(3, item)),
            ({**give, "wait": "forever"}, lambda: one.transfer(3, item)),
            ({**give, "wait": "now"}, lambda: one.try_transfer(3, item)),
            ({**give, "wait": millis}, lambda: one.try_transfer(3, item, seconds)),
            ({**take, "wait": "forever"}, lambda: one.take(3)),
            ({**take, "wait": "now"}, lambda: one.poll(3)),
            ({**take, "wait": millis}, lambda: one.poll(3, timeout=seconds)),
            ({**swap, "wait": "forever"}, lambda: one.exchange(5, item)),
            ({**swap, "wait": millis}, lambda: one.exchange(5, item, seconds)),
            ({"call": "count", "queue": 3}, lambda: one.count(3)),
            ({"call": "peek", "queue": 3}, lambda: one.peek(3)),
            ({"call": "drain", "queue": 3, "max": most}, lambda: one.drain(3, most)),
        ])


def java_crowd(port, seconds, seed, ledger, record):
    """Java's clients, for so many seconds; each of their replies must stand in the record."""
    words = java.command("rendezvous.Crowd", port, FIRST_OF_JAVA, JAVAS, seconds, seed, record)
    ran = subprocess.run(words, capture_output=True, text=True, timeout=seconds + LONGER)
    demand((ran.returncode, ran.stderr) == (0, ""), f"Java says {ran.stderr[:2000]}")
    printed = list(map(json.loads, ran.stdout.splitlines()))
    for one in printed:
        add(ledger, one["call"], one["told"])
    # what others append at this moment comes behind them
    readers = [Reader(record, client) for client in range(FIRST_OF_JAVA, FIRST_OF_JAVA + JAVAS)]
    judged_java([line for reader in readers for line in reader.new()], printed)


def receipts_of(ledger):
    """How many receipts name the consumer, and how many there are."""
    with ledger.lock:
        replies = list(ledger.told.values())
    return (sum("by_client" in members for members in replies),
            sum(members["reply"] == "received" for members in replies))


def lacking(ledger, proxy, seconds):
    """What has not happened yet of what must in so many seconds, if something: a slow machine takes longer."""
    if len(ledger.asked) <= 10 * seconds:
        return f"only {len(ledger.asked)} calls were made"
    if seconds < 10:
        return None
    if min(proxy.met.values()) == 0:
        return f"the link did too little: {proxy.met}"
    with ledger.lock:
        several = any(len(members.get("texts", "")) > 1 for members in ledger.told.values())
    named, received = receipts_of(ledger)
    if not several:
        return "no drain took several items"
    return None if 0 < named < received else f"{named} of {received} receipts name the consumer"


def a_crowd(program, seed, seconds, at_all_events=AT_ALL_EVENTS):
    """Python's and Java's clients at once; then what they were told is looked up in the account."""
    ledger, chance = Ledger(), random.Random(seed)
    began, connections = time.monotonic(), at_all_events + int(CONNECTIONS * seconds)
    with serving(program, WORKERS, connections) as server, Proxy(server, seed, connections * 3 // 4) as proxy, \
            tempfile.TemporaryDirectory(prefix="rv-record-") as folder:
        address, record = ("127.0.0.1", proxy.port), pathlib.Path(folder, "record")

        def goes_on():
            took = time.monotonic() - began
            return took < seconds or took < seconds + LONGER and lacking(ledger, proxy, seconds) is not None

        clients = [lambda one=Client(address, number, random.Random(chance.random()), ledger, record): one.run(goes_on)
                   for number in range(1, PYTHONS + 1)]
        if not java.missing():
            clients.append(lambda: java_crowd(proxy.port, seconds, seed, ledger, record))
        drive(server, ledger, clients, beside=kills(server, chance), limit=seconds + 2 * LONGER, calm=proxy.close,
              end=server.use_up)
        demand(not proxy.forgets(), f"clients were refused, by number: {proxy.forgets()}")
        recorded = len(lines_of(record))
        demand(recorded == len(ledger.asked), f"{len(ledger.asked)} calls were told, and {recorded} are recorded")
        server.keeps(record.read_bytes())
    demand(not lacking(ledger, proxy, seconds), lacking(ledger, proxy, seconds))
    named, received = receipts_of(ledger)
    return f"{len(ledger.asked)} calls, {received} receipts, of which {named} name the consumer"


def at_the_double():
    """A short crowd at the double of the server: what each call told must stand in the record, whatever the program does."""
    return a_crowd(DOUBLE, 1, SHORT, 0)


def beside_the_jdk(program, seed, scripts):
    """The JDK's own classes and those of the server, on random scripts."""
    def agree():
        ran = subprocess.run(words, capture_output=True, text=True, timeout=900)
        wanted, said = f"{scripts} scripts, the same outcomes\n", UNREACHED.sub("", ran.stderr) if killed else ran.stderr
        demand((ran.stdout, said) == (wanted, ""), f"{ran.stdout[:2000]} {said[:2000]}")

    with serving(program, 8, 20_000) as server:
        server.connect().close()
        words = java.command("rendezvous.BesideJdk", server.port, scripts, seed)
        killed = kills(server, random.Random(seed))
        run_at_once([agree], killed, 900 + LONGER)
