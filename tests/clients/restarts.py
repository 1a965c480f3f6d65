"""Clients of both languages at a host that is killed and started anew, again and again: what they were told of each put stands
in the accounts of all its starts."""
import asyncio
import contextlib
import itertools
import threading
from typing import NamedTuple

import rendezvous as rv
from rendezvous import aio
from tests.clients.java_scenes import playing
from tests.model.account import Key, Request
from tests.sockets.accounts import read_account
from tests.sockets.hosts import Host
from tests.sockets.programs import free_port
from tests.sockets.wire import PATIENCE, demand, until

QUEUE, OTHER = 3, 4
CLIENTS = itertools.count(1)
# Times of sessions, on whatever machine.
TIMES = {"patience": PATIENCE, "answer": PATIENCE / 2, "connect_timeout": None}
# Threads that put without a pause, how often the host is killed meanwhile, and how many each thread puts in each epoch before.
BUSY, KILLS, EACH = 6, 3, 5


class Told(NamedTuple):
    """What a put was told: that it is done, that nobody met it, or that this is not known; and its request's key, if there is one."""

    item: str
    word: str
    key: Key | None


class Putter:
    """A session of threads that puts, and a new one where it has ended."""

    def __init__(self, port, renew):
        self.port, self.renew, self.told = port, renew, []
        self.session = self.made()

    def made(self):
        """A session of a client number of its own."""
        return rv.Session(("127.0.0.1", self.port), next(CLIENTS), renew=self.renew, **TIMES)

    def puts(self, item):
        """Puts an item; what it was told."""
        try:
            self.ask(lambda one: one.put(QUEUE, item))
            told = Told(item, "done", Key(*self.session.last.key))
        except rv.NotAsked as fault:
            demand(not self.renew or fault.current is None, f"a session that renews itself is told {fault!r}")
            told = Told(item, "unmet", fault.key and Key(*fault.key))
        except rv.EpochEnded as fault:
            told = Told(item, "unknown", Key(*fault.key))
        self.told.append(told)
        if told.word != "done" and not self.renew:
            self.close()
            self.session = self.made()
        return told

    def counts(self):
        """How many items there are, where the session renews itself."""
        return self.ask(lambda one: one.count(QUEUE)).items if self.renew else None

    def ask(self, call):
        """What a call gives."""
        return call(self.session)

    def lost(self):
        """It is idle, and its connection has ended, which it sees."""

    def close(self):
        """Closes its session."""
        self.session.close()


class Task(Putter):
    """The same of asyncio, in an event loop of its own."""

    def __init__(self, port, renew):
        self.loop = asyncio.new_event_loop()
        super().__init__(port, renew)

    def made(self):
        return aio.Session(("127.0.0.1", self.port), next(CLIENTS), renew=self.renew, **TIMES)

    def ask(self, call):
        return self.loop.run_until_complete(call(self.session))

    def lost(self):
        until("the end of a connection", lambda: self.loop.run_until_complete(asyncio.sleep(0)) or self.session._course.has_news())

    def close(self):
        self.loop.run_until_complete(self.session.close())


def begun(deed):
    """A deed in a thread of its own, and what waits for its end."""
    thread = threading.Thread(target=deed, daemon=True)
    thread.start()
    return thread.join


def takes_in_vain(port, renew):
    """A session, and what waits until its take is told that nobody knows what became of it."""
    one, told = rv.Session(("127.0.0.1", port), next(CLIENTS), renew=renew, **TIMES), []

    def takes():
        try:
            told.append(one.take(OTHER))
        except rv.RendezvousError as fault:
            told.append(fault)
    join = begun(takes)

    def ended():
        join()
        demand(type(told[0]) is rv.EpochEnded, f"a take that waited is told {told[0]!r}")
    return one, ended


# ---- what was told, and the accounts

def account_of(host):
    """The account of a host, which may be killed amid a line."""
    text = host.written()
    return read_account(text[:text.rfind(b"\n") + 1])


def is_call(entry, word):
    """Whether a request of this call arrived in an entry."""
    return isinstance(entry.act, Request) and entry.act.call.word == word


def places(accounts):
    """The keys under which each item was put, in all accounts."""
    found = {}
    for entry in itertools.chain.from_iterable(account.entries for account in accounts):
        if is_call(entry, "put"):
            found.setdefault(entry.act.call.item, []).append(entry.act.key)
    return found


def judge(told, accounts):
    """What was told stands there: a put that is done once, one that nobody met never, another one once at most."""
    found = places(accounts)
    for one in told:
        stands, wanted = found.get(one.item, []), {"done": [[one.key]], "unmet": [[]], "unknown": [[], [one.key]]}[one.word]
        demand(stands in wanted, f"{one} stands as {stands}")
    return {word: sum(one.word == word for one in told) for word in ("done", "unmet", "unknown")}


def told_of(putters, wanted):
    """The last puts were told this, by whether the session renews itself."""
    for each in putters:
        demand(each.told[-1].word == wanted(each.renew), f"{type(each).__name__}, renew {each.renew}: {each.told[-1]}")


# ---- cases

def idle_and_away(program):
    """A host is killed while it rests. A put that is begun while it is away, or behind that by a session that was idle: nobody met
    it, or it goes on in the new epoch. A take that waited: that is not known. A count goes on."""
    port, accounts = free_port(), []
    with contextlib.ExitStack() as ends:
        putters = [kind(port, renew) for kind in (Putter, Task) for renew in (False, True)]
        for each in putters:
            ends.callback(each.close)
        with Host(program, 1, port=port) as host:
            for each in putters:
                each.puts(f"first of {id(each)}")
            takers = [takes_in_vain(port, renew) for renew in (False, True)]
            until("both takes", lambda: sum(is_call(entry, "take") for entry in account_of(host).entries) == len(takers))
            accounts.append(host.ended())
        for each in putters:
            each.lost()
        waits = [begun(lambda each=each: each.puts(f"away of {id(each)}")) for each in putters]
        with Host(program, 2, port=port) as host:
            for wait in [*waits, *(ended for _, ended in takers)]:
                wait()
            told_of(putters, lambda renew: "done" if renew else "unmet")
            demand([each.counts() for each in putters] == [None, 2] * 2, "another number of items")
            for each in putters:
                each.puts(f"second of {id(each)}")
            told_of(putters, lambda renew: "done")
            accounts.append(host.ended())
        for each in putters:
            each.lost()
        with Host(program, 3, port=port) as host:
            demand([each.counts() for each in putters] == [None, 0] * 2, "there are items of an old epoch")
            for each in putters:
                each.puts(f"idle of {id(each)}")
            told_of(putters, lambda renew: "done" if renew else "unmet")
            accounts.append(host.ended())
        for one, _ in takers:
            one.close()
    return str(judge([told for each in putters for told in each.told], accounts))


def amid_puts(program):
    """A host is killed amid puts, again and again: whatever each of them is told is true."""
    port, accounts, over = free_port(), [], threading.Event()
    putters = [Putter(port, place % 2 == 0) for place in range(BUSY)]

    def done(epoch):
        """How many puts each has done in an epoch."""
        return [sum(told.word == "done" and told.key.epoch == epoch for told in tuple(each.told)) for each in putters]

    def puts(each):
        numbers = itertools.count(1)
        while not over.is_set():
            each.puts(f"item {next(numbers)} of {id(each)}")
    waits = [begun(lambda each=each: puts(each)) for each in putters]
    for epoch in range(1, KILLS + 2):
        with Host(program, epoch, port=port) as host:
            until("puts of each", lambda: min(done(epoch)) >= EACH)
            if epoch > KILLS:
                over.set()
                for wait in waits:
                    wait()
            host.kill()
            accounts.append(account_of(host))
    for each in putters:
        each.close()
    return str(judge([told for each in putters for told in each.told], accounts))


def java_behind_restarts(program):
    """Java's puts and sizes go on in the new epoch, by sessions that were idle and while the host was away."""
    port, accounts, told = free_port(), [], []

    def put(scene, item):
        scene.go(item)
        line = scene.line()
        word, _, key = line.partition(" ")
        demand(word == "done", f"{item}: {line}")
        told.append(Told(item, word, Key(*map(int, key.split("/")))))
    with playing("lines", port) as scene:
        for epoch in (1, 2, 3):
            with Host(program, epoch, port=port) as host:
                if epoch > 1:
                    scene.go("size")
                    scene.expect("size 0")
                for place in (1, 2):
                    put(scene, f"{epoch} {place}")
                scene.go("size")
                scene.expect("size 2")
                accounts.append(host.ended())
        scene.go("away")
        with Host(program, 4, port=port) as host:
            demand(scene.line().startswith("done 4/"), "a put that is begun while the host is away")
            accounts.append(host.ended())
    demand([one.key.epoch for one in told] == [1, 1, 2, 2, 3, 3], f"{told}")
    return str(judge(told, accounts))


CASES = [idle_and_away, amid_puts]
WITH_JAVA = [java_behind_restarts]
