"""Takes in asyncio whose tasks are cancelled at any time, beside a producer, on a live server: no item is lost or doubled, and
each stands in the record. Other calls and closes are mixed with them, and what was told is held against the server's account."""
from __future__ import annotations

import asyncio
import collections
import itertools
import pathlib
import random
import tempfile
import threading
import time
from collections.abc import Callable

import rendezvous as rv
from record_lines import lines_of
from rendezvous import aio
from tests.model.account import Request
from tests.model.tables import table_audit
from tests.sockets.driver import run_at_once
from tests.sockets.hosts import Host, kills, serving
from tests.sockets.wire import demand

QUEUE, WORKERS = 3, 16
# So many takes the gate has cancelled or met, and of each at least so many. A long form has any number of them.
TAKES, EACH_AT_LEAST = 300, 20
# Connections at all events, and for each take: one that is cancelled takes a new one.
AT_ALL_EVENTS, EACH_TAKE = 200, 3
# How long a take may wait at first, in seconds, and by how much that changes behind each: so about as many are met as cancelled.
SPAN, CHANGE, LONGEST_SPAN = 0.005, 1.05, 0.01
PAUSE = 0.006
# Clients whose calls are mixed, and so many cancelled calls of them: in the gate, and in one epoch of the long form.
CLIENTS, CALLS_AT_ALL = 4, 120
MANY_CLIENTS, EPOCH_CALLS = 20, 5_000
# One of so many items is transferred, one of so many cancels has its close in the same step, and one of so many comes after some
# steps of the event loop; so many cancelled calls has a session, and so many steps pass, at most. One of so many sessions says
# its hello by its first call. A producer stands beside each so many clients.
TRANSFER_EACH, CLOSE_EACH, STEP_EACH, MOST, STEPS, HELLO_EACH, GIVER_EACH = 4, 8, 4, 9, 200, 6, 4
# What takes so many seconds doesn't end.
LONGEST = 18_000


class Producer:
    """A thread that puts items, one about as often as one is taken, until it is told to end."""

    def __init__(self, port, seed):
        self.session, self.chance = rv.Session(("127.0.0.1", port), 1, 1, connect_timeout=None), random.Random(seed)
        self.put, self.pause, self.ends = [], PAUSE, False
        self.thread = threading.Thread(target=self.run, daemon=True)
        self.thread.start()

    def run(self):
        """Puts one item behind another."""
        while not self.ends:
            item = f"item {len(self.put)}"
            self.session.put(QUEUE, item)
            self.put.append(item)
            time.sleep(self.chance.random() * self.pause)

    def end(self):
        """All that was put, once nothing more is."""
        self.ends = True
        self.thread.join()
        self.session.close()
        return self.put


async def takes(port, seed, how_many, record):
    """So many takes, and what they gave; and then what is left, unclaimed and in the queue."""
    chance, span, got, late = random.Random(seed), SPAN, [], 0
    producer = Producer(port, seed)
    async with aio.Session(("127.0.0.1", port), 2, 1, record=record, connect_timeout=None) as one:
        while len(got) + late < how_many or min(len(got), late) < EACH_AT_LEAST:
            try:
                got.append(await asyncio.wait_for(one.take(QUEUE), chance.random() * span))
                span /= CHANGE
            except asyncio.TimeoutError:
                late += 1
                span *= CHANGE
        put = await asyncio.get_running_loop().run_in_executor(None, producer.end)
        while (item := await one.poll(QUEUE)) is not None:
            got.append(item)
        demand(one.unclaimed() == [], f"{one.unclaimed()} is left")
    return got, put, late


def beside_kills(server, seed, work):
    """What a coroutine gives, beside which a server that keeps a store is killed and started anew."""
    gave = []
    run_at_once([lambda: gave.append(asyncio.run(work))], kills(server, random.Random(seed)), LONGEST)
    return gave[0]


def cancelled_takes(program, seed, how_many=TAKES):
    """Each item is given once, in the order in which they were put, whether its take was cancelled or not."""
    began = time.monotonic()
    with serving(program, WORKERS, AT_ALL_EVENTS + EACH_TAKE * how_many) as server, \
            tempfile.TemporaryDirectory(prefix="rv-record-") as folder:
        server.connect().close()
        record = pathlib.Path(folder, "record")
        got, put, late = beside_kills(server, seed, takes(server.port, seed, how_many, record))
        lines = lines_of(record)
    told = [line.reply["item"] for line in lines if line.reply["reply"] == "item"]
    demand(told == got, f"{len(got)} items were taken, and {len(told)} are recorded")
    demand([line.key.number for line in lines] == list(range(1, len(lines) + 1)), "a request is not recorded, or twice")
    first = next((place for place, pair in enumerate(zip(got, put)) if pair[0] != pair[1]), min(len(got), len(put)))
    demand(got == put, f"{len(put)} items were put and {len(got)} taken; from {first} on {got[first:][:9]} for {put[first:][:9]}")
    return f"{late} takes were cancelled, {len(got)} items taken, {time.monotonic() - began:.0f} seconds"


# ---- calls that are mixed, and judged by the account

# By what a closed session tells.
CLOSED = "unclaimed in closed sessions"


async def gives(port, client, chance, ends):
    """Puts one item after another, until it is told to end; some are transferred, where somebody waits for one."""
    async with aio.Session(("127.0.0.1", port), client, 1, connect_timeout=None) as one:
        for number in itertools.count():
            call = one.put if chance.randrange(TRANSFER_EACH) else one.try_transfer
            await call(QUEUE, f"item {client} {number}")
            await asyncio.sleep(chance.random() * PAUSE)
            if ends:
                return


class Mixed:
    """A client of one session after another. `told` has each item that it was told, `ways` how often by which way; `unsettled`
    has the keys of requests that a session left so."""

    def __init__(self, port, client, seed):
        self.port, self.client, self.incarnation = port, client, 0
        self.chance, self.span = random.Random(seed), SPAN
        self.told, self.unsettled, self.cancelled, self.ways = [], [], 0, collections.Counter()

    async def run(self, how_many):
        """Goes on until so many calls were cancelled."""
        while self.cancelled < how_many:
            self.incarnation += 1
            await self.uses(aio.Session(("127.0.0.1", self.port), self.client, self.incarnation, connect_timeout=None))

    async def uses(self, one):
        """One session: cancelled calls, others between them, and what stands after its end. Some begin with their hello."""
        if self.chance.randrange(HELLO_EACH):
            await one.connect()
        for _ in range(self.chance.randrange(1, MOST)):
            await self.cancels(one)
            for _ in range(self.chance.randrange(3)):
                name, call = self.chance.choice(OTHERS)
                self.hears(name, await came_of(call(one)))
        await one.close()
        self.hears(CLOSED, [one.claim(each) for each in one.unclaimed()])
        self.unsettled += [one.unsettled] if one.unsettled else []

    async def cancels(self, one):
        """A call whose task is cancelled soon. The session may be closed in the same step."""
        task = asyncio.ensure_future(self.chance.choice(CALLS)(one))
        await self.passes()
        task.cancel()
        if self.chance.randrange(CLOSE_EACH) == 0:
            await one.close()
        came = await came_of(task)
        self.cancelled += task.cancelled()
        self.span = min(LONGEST_SPAN, self.span * (CHANGE if task.cancelled() else 1 / CHANGE))
        self.hears("met before their cancel", came)

    async def passes(self):
        """A time passes, or some steps of the event loop do."""
        if self.chance.randrange(STEP_EACH):
            await asyncio.sleep(self.chance.random() * self.span)
            return
        for _ in range(self.chance.randrange(STEPS)):
            await asyncio.sleep(0)

    def hears(self, way, items):
        """It was told these items."""
        self.told += items
        self.ways[way] += len(items)


async def came_of(call):
    """The items that a call told; what else ends it must be what such calls may end by."""
    came = (await asyncio.gather(call, return_exceptions=True))[0]
    if isinstance(came, BaseException):
        demand(isinstance(came, (asyncio.CancelledError, rv.RendezvousError, rv.Misused)), f"a call ended by {came!r}")
        return []
    if isinstance(came, rv.replies.Outcome):
        came = getattr(came, "items", getattr(came, "item", None))
    return [] if came is None else [came] if isinstance(came, str) else list(came)


async def claims(one):
    """The newest unclaimed item."""
    return one.claim(one.unclaimed()[-1]) if one.unclaimed() else None


# Calls that are cancelled, and others.
CALLS = [lambda one: one.take(QUEUE), lambda one: one.poll(QUEUE, 60), lambda one: one.drain(QUEUE, 3)]
OTHERS = [("claim", claims), ("poll", lambda one: one.poll(QUEUE)), ("again", lambda one: one.again()),
          ("give_up", lambda one: one.give_up()), ("drain", lambda one: one.drain(QUEUE, 2))]


async def mixes(port, seed, clients, how_many):
    """All clients, beside some producers, and then one that takes what is left."""
    ends, chance = [], random.Random(seed)
    givers = asyncio.gather(*(gives(port, 2 + clients + place, chance, ends) for place in range(0, clients, GIVER_EACH)))
    crowd = [Mixed(port, 2 + place, seed + place) for place in range(clients)]
    await asyncio.gather(*(one.run(how_many / clients) for one in crowd))
    ends.append(True)
    await givers
    last = Mixed(port, 1, seed)
    async with aio.Session(("127.0.0.1", port), last.client, 1, connect_timeout=None) as one:
        while items := await one.drain(QUEUE, 16):
            last.hears("the rest", items)
    return [*crowd, last]


def pairs_of(account):
    """The items that went to takers, each with the keys of its takers."""
    entries, pairs = account.entries, collections.defaultdict(list)
    for place, entry in enumerate(entries):
        for two in ((entry, entries[partner]) for partner in entry.partners):
            giver, taker = sorted(two, key=lambda each: each.act.call.item is None)
            pairs[giver.act.call.item].append(taker.act.key)
    return pairs


def mixed_faults(crowd, account):
    """What is wrong in what was told: each item that went to a taker is told once, unless that is unsettled, and no other."""
    told = collections.Counter(item for one in crowd for item in one.told)
    unsettled = {tuple(key) for one in crowd for key in one.unsettled}
    pairs = pairs_of(account)
    for item, takers in pairs.items():
        least = 0 if {tuple(vars(key).values()) for key in takers} <= unsettled else 1
        if not least <= told[item] <= 1:
            yield f"{item} went to {takers}, and was told {told[item]} times"
    yield from (f"{item} was told, and went to nobody" for item in told if item not in pairs)


def mixed_epoch(program, seed, clients, how_many, epoch=1):
    """One epoch of so many cancelled calls; what came of it."""
    with Host(program, epoch) as server:
        server.connect().close()
        crowd = beside_kills(server, seed, mixes(server.port, seed, clients, how_many))
        account = server.ended()
    fault, faults = table_audit(account), list(mixed_faults(crowd, account))
    demand(not fault, f"place {fault} of the account")
    demand(not faults, f"{len(faults)} items: {faults[:3]}")
    asked = sum(isinstance(entry.act, Request) for entry in account.entries)
    sums = sum((one.ways for one in crowd), collections.Counter(
        {"cancelled calls": sum(one.cancelled for one in crowd), "sessions": sum(one.incarnation for one in crowd),
         "requests": asked, "items that went to takers": len(pairs_of(account)),
         "unsettled": sum(len(one.unsettled) for one in crowd)}))
    return sums


def mixed_calls(program, seed):
    """Claims, polls, drains, agains and closes come at any moment after a cancel: each item is told once."""
    return mixed_epoch(program, seed, CLIENTS, CALLS_AT_ALL)


def many_mixed_calls(program, seed, how_many):
    """The long form, over as many epochs as it takes. It tells how it goes on, and gives what came of it."""
    sums, began, epoch = collections.Counter(), time.monotonic(), 0
    while sums["cancelled calls"] < how_many:
        epoch += 1
        left = how_many - sums["cancelled calls"]
        sums += mixed_epoch(program, seed + epoch, MANY_CLIENTS, min(EPOCH_CALLS, left), epoch)
        print(f"{epoch} epochs, {sums['cancelled calls']} calls cancelled, {time.monotonic() - began:.0f} seconds", flush=True)
    demand(all(sums[name] for name, _ in OTHERS) and sums[CLOSED], f"some way told nothing: {sums}")
    told = ", ".join(f"{count} {name}" for name, count in sums.items())
    print(f"seed {seed}: {told}; none lost, none twice; {time.monotonic() - began:.0f} seconds", flush=True)


CASES: list[Callable[..., object]] = [cancelled_takes, mixed_calls]
