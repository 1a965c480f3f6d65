"""Servers of which one is killed, on live hosts with stores: whoever uses the other shards never notices, and a session goes on
at an alternative of its server."""
from __future__ import annotations

import asyncio
import contextlib
import logging
import pathlib
import tempfile
import threading
from collections.abc import Callable, Iterator
from typing import Any

import rendezvous as rv
from context import numbers
from record_lines import read
from rendezvous import aio
from test_words import Log
from tests.host.stored import StoreHost
from tests.sockets.wire import PATIENCE, demand, until

# How many hosts there are, and the one that is killed; how many items go through each other one meanwhile.
COUNT, KILLED, ITEMS = 3, 1, 20
# Times of sessions, on whatever machine.
TIMES: dict[str, Any] = {"patience": PATIENCE, "answer": PATIENCE / 2, "connect_timeout": None}
# What asks a call of shards, and gives what that gives.
Asks = Callable[[Callable[[Any], Any]], Any]


def address_of(host: StoreHost) -> str:
    """The address of a host."""
    return f"127.0.0.1:{host.port}"


@contextlib.contextmanager
def hosts(program: str, folder: pathlib.Path) -> Iterator[list[StoreHost]]:
    """Hosts that keep a store each."""
    with contextlib.ExitStack() as stack:
        yield [stack.enter_context(StoreHost(program, folder / str(place))) for place in range(COUNT)]


@contextlib.contextmanager
def threads_shards(addresses: list[str], record: pathlib.Path) -> Iterator[Asks]:
    """Shards of threads."""
    with rv.Shards(addresses, clients=numbers(), record=record, **TIMES) as shards:
        yield lambda call: call(shards)


@contextlib.contextmanager
def tasks_shards(addresses: list[str], record: pathlib.Path) -> Iterator[Asks]:
    """Shards of asyncio, in an event loop of their own."""
    loop, shards = asyncio.new_event_loop(), aio.Shards(addresses, clients=numbers(), record=record, **TIMES)
    try:
        yield lambda call: loop.run_until_complete(call(shards))
    finally:
        loop.run_until_complete(shards.close())
        loop.close()


def begun(deed: Callable[[], object]) -> Callable[[], object]:
    """What waits for the end of a deed, which is done in a thread, and gives what it gave."""
    gave: list[object] = []
    thread = threading.Thread(target=lambda: gave.append(deed()), daemon=True)
    thread.start()

    def ended() -> object:
        thread.join(PATIENCE)
        demand(len(gave) == 1, "a call that waits has not ended")
        return gave[0]
    return ended


def kept(host: StoreHost, record: pathlib.Path) -> int:
    """The account of a host keeps the lines of its epoch; how many these are."""
    lines = [line for line in record.read_bytes().splitlines(keepends=True) if read(line[:-1]).key.epoch == host.epoch]
    host.ended()
    host.keeps(b"".join(lines))
    return len(lines)


def demand_unnoticed(address: str, log: Log) -> None:
    """Of the server at an address it was logged alone that sessions connected there."""
    lines = {line for _, line in log.lines if line.startswith(address)}
    demand(lines == {f"{address}: connected"}, f"somebody noticed: {lines}")


def meanwhile(ask: Asks, waits: Callable[[], object]) -> None:
    """Uses the hosts that live: puts and takes there, and meets a take that waits."""
    for number in range(ITEMS):
        queue = 0 if number % 2 else COUNT + 2
        ask(lambda one: one.put(queue, f"item {number}"))
        given = ask(lambda one: one.take(queue))
        demand(given == f"item {number}", f"a take gives {given!r}")
    receipt = ask(lambda one: one.transfer(2, "met"))
    demand(waits() == "met" and receipt.by is not None, f"a take that waited at a host that lives: {receipt}")


def one_is_killed(program: str, kind: Callable[[list[str], pathlib.Path], contextlib.AbstractContextManager[Asks]]) -> str:
    """One of three hosts is killed while takes wait there and at another, and started anew by its store. Meanwhile calls at the
    others end as ever, over their first connections; behind it, the take that waited there goes on."""
    with tempfile.TemporaryDirectory(prefix="rv-shards-") as name, hosts(program, pathlib.Path(name)) as made:
        record, addresses = pathlib.Path(name, "told"), [address_of(host) for host in made]
        options = {"clients": numbers(), "record": record, **TIMES}
        with Log(least=logging.INFO) as log, kind(addresses, record) as ask, rv.Shards(addresses, **options) as other, \
                rv.Shards(addresses, **options) as third:
            there, elsewhere = begun(lambda: other.take(KILLED)), begun(lambda: third.take(2))
            made[KILLED].stands(1)
            made[2].stands(1)
            away = ("WARNING", f"{addresses[KILLED]}: connection refused")

            def is_away() -> None:
                until("the take that waits finds it away", lambda: away in log.lines)
                meanwhile(ask, elsewhere)
            made[KILLED].start_again(is_away)
            receipt = ask(lambda one: one.transfer(KILLED, "late"))
            demand((there(), receipt.by.client) == ("late", other.session(KILLED).client), f"the take that waited: {receipt}")
        for address in addresses[:KILLED] + addresses[KILLED + 1:]:
            demand_unnoticed(address, log)
        return str([kept(host, record) for host in made])


def one_of_threads_is_killed(program: str) -> str:
    """The same, by a user in a thread."""
    return one_is_killed(program, threads_shards)


def one_of_tasks_is_killed(program: str) -> str:
    """The same, by a user in asyncio."""
    return one_is_killed(program, tasks_shards)


def another_takes_over(program: str) -> str:
    """A host is killed, and another one goes on with its store elsewhere: a take that waited goes on there, since its session has
    both addresses, and so does one that was idle."""
    with tempfile.TemporaryDirectory(prefix="rv-alternatives-") as name:
        folder, record = pathlib.Path(name), pathlib.Path(name, "told")
        with StoreHost(program, folder / "store") as first, StoreHost(program, folder / "unused") as second:
            second.kill()
            address = f"rv://{address_of(first)},{address_of(second)}?record={record}"
            with rv.Session(address, **TIMES) as waiting, rv.Session(address, **TIMES) as idle:
                waits = begun(lambda: waiting.take(0))
                first.stands(1)
                first.kill()
                second.store = first.store
                second.start_again()
                receipt, taken = idle.transfer(0, "a"), waits()
                demand((taken, receipt.by and receipt.by.client) == ("a", waiting.client), f"the take that waited: {receipt}")
                demand([one.address.port for one in (waiting, idle)] == [second.port] * 2, "a session is elsewhere")
            return str(kept(second, record))


CASES = [one_of_threads_is_killed, one_of_tasks_is_killed, another_takes_over]
