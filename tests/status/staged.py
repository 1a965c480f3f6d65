"""Stages what goes wrong at a host, one after another: each must be told apart from the others by the status, by the metrics, and
by the alerts of packaging/rv.rules.yml. By hand, since it takes some five minutes.

The metrics are read once a second. Over them promtool evaluates the rules, in which a second stands for each minute; it says if
promtool is missing, and compares the numbers that the rules name alone. Of each case a line tells its numbers.
"""
from __future__ import annotations

import contextlib
import pathlib
import resource
import selectors
import subprocess
import threading
import time
import unittest
from collections.abc import Callable, Iterator

from tests.cases import Case, Scenario
from tests.clients import browser
from tests.host import many
from tests.host.hostile import DEAF_ITEM, KEPT, ask_and_never_read
from tests.model.account import Key
from tests.sockets.programs import Caller
from tests.sockets.wire import Peer, demand, frame, give, hello, replied, request, swap, take, until
from tests.status.stages import DAY, GIGABYTE, Reading, Stage, lacking, staged
from tests import left_out

# Readings behind which each alert that has to last is raised, and those of an account's growth.
LASTS, LONG = 25, 100
# The seconds between two items of a producer.
PAUSE = 0.1
# Seconds behind which a host ends who takes no answer, as it is told.
STALL = "10"
# Few descriptors, of which a host with a status address keeps 49 for other things than connections.
FEW, KEPT_BACK = 64, 49
# Clients of a crowd; those that wait at a busy host, the first of them, those of them that swap, the workers that are killed there,
# and the seconds for which it is busy.
CROWD, WAITING, FIRST, SWAPS, KILLED, BUSY = 20, 1_500, 2_001, 40, 3, 120


def shows(name: str, number: float) -> Callable[[Reading | None], bool]:
    """Whether a reading has this number under a name."""
    return lambda told: told is not None and told.get(name) == number


def counts(name: str) -> Callable[[Reading | None], bool]:
    """Whether a reading has more than nothing under a name."""
    return lambda told: told is not None and told.get(name, 0) > 0


def a_worker_was_killed(program: str) -> str:
    """The process of a worker is killed while it waits: its request is listed, and what the page says ends it."""
    with staged(program) as stage:
        with Caller(program, stage.host.port, 2, b'{"call":"take","queue":6,"wait":"forever"}\n', incarnation=7) as worker:
            stage.lasts("the worker waits", shows('rv_queue_consumers{queue="6"}', 1), 1)
            worker.kill()
        began = time.monotonic()
        stage.lasts("its request is unheard", shows("rv_requests_unheard", 1), 1)
        took = time.monotonic() - began
        stage.lasts("it stays so", shows("rv_requests_unheard", 1), 8)
        rows = [row[:2] + row[3:6] for row in stage.status()["unheard"]]
        demand(rows == [["take", 6, 2, 7, 1]], f"what is unheard: {rows}")
        stage.raises({"RvUnheard": {}})
        told = f"unheard {took:.0f} s behind the kill, {stage.rise('rv_fault_link_total')}"
        words = f"call --connect 127.0.0.1:{stage.host.port} --client 2 --incarnation 8 --tries 1 --speak 1"
        subprocess.run([program, *words.split()], stdin=subprocess.DEVNULL, check=True, timeout=60)
        stage.lasts("its words end it", shows("rv_requests_unheard", 0), 1)
        return told


def hands_over(giver: Peer, taker: Peer, number: int, item: str, queue: int, puts: int) -> None:
    """So many items are put into a queue, and one of them is taken."""
    for at in range(1, 1 + puts):
        key = Key(1, 10 + queue, 1, puts * (number - 1) + at)
        giver.expect(request(key, give("put", item, queue=queue)), replied(key, reply="done"))
    key = Key(1, 20 + queue, 1, number)
    taker.expect(request(key, take("now", queue=queue)), replied(key, reply="item", item=item))


@contextlib.contextmanager
def handing_over(stage: Stage, queue: int, item: str = "an item", puts: int = 1) -> Iterator[None]:
    """Somebody puts so many items for each that another takes, until the block ends."""
    done, faults = threading.Event(), list[Exception]()

    def run() -> None:
        number = 0
        try:
            with stage.host.greeted(10 + queue) as giver, stage.host.greeted(20 + queue) as taker:
                while not done.wait(PAUSE):
                    number += 1
                    hands_over(giver, taker, number, item, queue, puts)
        except Exception as fault:
            faults.append(fault)

    thread = threading.Thread(target=run, daemon=True)
    thread.start()
    try:
        yield
    finally:
        done.set()
        thread.join()
        if faults:
            raise faults[0]


def a_producer_is_too_fast(program: str) -> str:
    """Two items are put into a queue for each that is taken; in another one as many are taken as put."""
    with staged(program) as stage, handing_over(stage, 3, puts=2), handing_over(stage, 4):
        stage.lasts("it goes on", bool, LASTS)
        items = {row[0]: row[1] for row in stage.status()["queues"] if row[1]}
        demand(items.pop(3) > LASTS and sum(items.values()) <= 1, f"beside queue 3 there is {items}")
        stage.raises({"RvBacklog": {"queue": "3"}})
        return ", ".join(map(stage.rise, ['rv_queue_items{queue="3"}', 'rv_queue_items{queue="4"}']))


def a_peer_takes_no_answers(program: str) -> str:
    """A peer asks and never reads: meanwhile its answers are held, and then it is closed."""
    with staged(program, "--stall", STALL) as stage, stage.host.connect(receive=KEPT) as peer, handing_over(stage, 4):
        threading.Thread(target=ask_and_never_read, args=(peer, 1_000), daemon=True).start()
        stage.lasts("it is closed", shows("rv_fault_stall_total", 1), 2)
        held = max(reading["rv_buffer_bytes"] for _, reading in stage.readings.good())
        demand(stage.status()["numbers"]["rv_fault_stall_total"] == 1, "the page doesn't tell it")
        stage.raises({"RvPeerTakesNothing": {}})
        return f"{stage.rise('rv_fault_stall_total')}, meanwhile rv_buffer_bytes {held}"


def a_peer_leaves_few_answers(program: str) -> str:
    """A peer reads none of so few answers that the system keeps them: by the system the connection breaks a minute later. Nobody
    else met anything, and no alert is raised."""
    with staged(program) as stage, stage.host.connect(receive=KEPT) as peer, handing_over(stage, 4):
        put, peek = Key(1, 1_000, 1, 1), frame(request(Key(1, 1_000, 1, 2), {"call": "peek", "queue": 7}))
        peer.send(frame(hello(1_000)) + frame(request(put, give("put", DEAF_ITEM, queue=7))) + peek * CROWD)
        stage.lasts("it breaks", shows("rv_fault_link_total", 1), 2)
        demand(stage.status()["numbers"]["rv_fault_link_total"] == 1, "the page doesn't tell it")
        stage.raises({})
        return stage.rise("rv_fault_link_total")


def a_low_limit() -> None:
    """Leaves a process few descriptors."""
    resource.setrlimit(resource.RLIMIT_NOFILE, (FEW, FEW))


def few_descriptors_at_the_start(program: str) -> str:
    """`ulimit -n` is small: so is the limit of connections, and a crowd uses it up. Somebody waits to be accepted."""
    with staged(program, preexec_fn=a_low_limit) as stage, many.closing(many.connected(stage.host.port, CROWD)) as peers:
        room = FEW - KEPT_BACK
        stage.lasts("it is full", shows("rv_connections", room), 8)
        told = stage.status()["numbers"]
        demand(told["rv_connections_limit"] == room < len(peers), f"the limit is {told['rv_connections_limit']}")
        stage.raises({"RvAlmostFull": {}})
        return f"rv_connections {told['rv_connections']} of {told['rv_connections_limit']}, {len(peers)} came"


def no_descriptors(stage: Stage) -> contextlib.AbstractContextManager[None]:
    """Until the block ends no descriptor is left to the host: a crowd takes the last ones."""
    return many.no_descriptors(stage.host.process.pid, stage.host.port, CROWD)


def descriptors_run_out_for_moments(program: str) -> str:
    """No descriptor is left, again and again, for less than a second: each accept that found none is counted."""
    with staged(program) as stage:
        while not stage.readings.good()[-1][1]["rv_fault_descriptor_total"]:
            with no_descriptors(stage):
                time.sleep(PAUSE * 3)
            seen = len(stage.readings.taken)
            until("a further reading", lambda: len(stage.readings.taken) > seen)
        stage.lasts("it is told", counts("rv_fault_descriptor_total"), 2)
        demand(stage.status()["numbers"]["rv_fault_descriptor_total"] > 0, "the page doesn't tell it")
        stage.raises({"RvNoDescriptor": {}})
        return stage.rise("rv_fault_descriptor_total")


def descriptors_are_out(program: str) -> str:
    """No descriptor is left, for long: the page tells it, by the one that is held back."""
    with staged(program) as stage:
        with no_descriptors(stage):
            stage.lasts("it is told", counts("rv_fault_descriptor_total"), 2)
            demand(stage.status()["numbers"]["rv_fault_descriptor_total"] > 0, "the page doesn't tell it")
            stage.raises({"RvNoDescriptor": {}})
        until("standard error says why", lambda: b"accepts without a descriptor" in stage.host.said)
        return stage.rise("rv_fault_descriptor_total")


def the_account_grows(program: str) -> str:
    """Long items make an account grow by more than a gigabyte a day; the queue stays empty."""
    with staged(program) as stage, handing_over(stage, 4, DEAF_ITEM):
        stage.lasts("it goes on", bool, LONG)
        history = stage.status()["history"]
        gained = (history[-1][3] - history[0][3]) * DAY / (history[-1][0] - history[0][0])
        demand(gained > GIGABYTE, f"by the page it grows by {gained:.0f} bytes a day")
        stage.raises({"RvAccountGrows": {}})
        return f"{stage.rise('rv_account_bytes_total')}, {gained / GIGABYTE:.1f} gigabytes more a day"


@contextlib.contextmanager
def waiting(stage: Stage, peers: list[Peer]) -> Iterator[None]:
    """Each of them waits, until the block ends: takes, transfers and a few swaps, none of which meets another. Who is told that it
    waits asks again."""
    many.greeted(peers, FIRST, stage.host.epoch)
    done, told = threading.Event(), selectors.DefaultSelector()
    for client, peer in enumerate(peers, FIRST):
        calls = [take("forever", queue=16 + client % 6), give("transfer", "a", "forever", queue=40 + client % 6)]
        call = swap("a", "forever", exchanger=client % 64) if client < FIRST + SWAPS else calls[client % 2]
        asked = frame(request(Key(stage.host.epoch, client, 1, 1), call))
        peer.send(asked)
        told.register(peer.socket, selectors.EVENT_READ, (peer, asked))

    def ask_again() -> None:
        while not done.is_set():
            for key, _ in told.select(PAUSE):
                peer, asked = key.data
                with contextlib.suppress(ConnectionError):
                    peer.hear()
                    peer.send(asked)

    thread = threading.Thread(target=ask_again, daemon=True)
    thread.start()
    try:
        yield
    finally:
        done.set()
        thread.join()


def picture(program: str, path: pathlib.Path) -> None:
    """A screenshot of a busy host's page: hand-overs, a producer that is too fast, a crowd that waits, killed workers, and a peer
    that takes no answers."""
    with contextlib.ExitStack() as stack:
        stage = stack.enter_context(staged(program, "--stall", STALL))
        peers = stack.enter_context(many.closing(many.connected(stage.host.port, WAITING)))
        workers = stack.enter_context(many.closing(many.connected(stage.host.port, KILLED)))
        stack.enter_context(waiting(stage, peers))
        for queue in (1, 2, 3, 4, 5, 6, 8, 9):
            stack.enter_context(handing_over(stage, queue, puts=1 + (queue == 3)))
        deaf = stack.enter_context(stage.host.connect(receive=KEPT))
        threading.Thread(target=ask_and_never_read, args=(deaf, 1_000), daemon=True).start()
        time.sleep(BUSY / 2)
        for client, worker in enumerate(workers, FIRST - KILLED):
            worker.send(frame(hello(client)) + frame(request(Key(1, client, 1, 1), take("forever", queue=12))))
            worker.hear()
            worker.reset()
        time.sleep(BUSY / 2)
        browser.opened(f"http://127.0.0.1:{stage.port}/", f"--screenshot={path.resolve()}")


CASES: list[Callable[[str], str]] = [
    a_worker_was_killed, a_producer_is_too_fast, a_peer_takes_no_answers, a_peer_leaves_few_answers,
    few_descriptors_at_the_start, descriptors_run_out_for_moments, descriptors_are_out, the_account_grows]


class Staged(unittest.TestSuite):
    """Cases that compare the numbers alone where what evaluates the rules is missing, and tell that."""

    def run(self, result: unittest.TestResult, debug: bool = False) -> unittest.TestResult:
        why = lacking()
        if why:
            left_out.tell("what the rules raise", why)
        return super().run(result, debug)


def load_tests(_: unittest.TestLoader, __: unittest.TestSuite, ___: str | None) -> unittest.TestSuite:
    """The cases, of `rv host`."""
    return unittest.TestSuite([Staged([Scenario("status", case, Case.fixture.program) for case in CASES])])
