"""Crowds of clients at a server to which the system is hostile, until each client has its reply to each request."""
import functools
import random
import signal
import threading
import time
from collections.abc import Callable

from tests.faults.system import System, hostile_serving
from tests.model.account import Key
from tests.sockets import crowds
from tests.sockets.crowds import take_the_rest
from tests.sockets.driver import drive
from tests.sockets.hosts import kills
from tests.sockets.ledger import Ledger
from tests.sockets.programs import Served
from tests.sockets.wire import Members, demand, hello, members_of

NO_MEMORY = {"code": 11, "kind": "refused"}
# Tries until a request has its reply, at most.
MOST_TRIES = 400
# Crowds until each kind of hostility has happened, at most: a slow machine may do little in one.
MOST_CROWDS = 5
# What is done with a server until an event is set.
Beside = Callable[[random.Random, Served, threading.Event], None]


class Stubborn(crowds.Client):
    """A client that goes on where its connection breaks, or the server has no memory."""

    def hear(self, key: Key, body: bytes) -> None:
        try:
            super().hear(key, body)
        except ConnectionError:
            self.hang_up()

    def say_hello(self, version: int, wanted: bytes) -> None:
        for _ in range(MOST_TRIES):
            try:
                answer = self.link().told(hello(self.number, self.incarnation, version))
            except ConnectionError:
                self.hang_up()
                continue
            if answer != NO_MEMORY:
                demand(answer == members_of(wanted), f"a hello was answered {answer}")
                return
        demand(False, f"client {self.number} has no answer to its hello after {MOST_TRIES} tries")

    def try_once(self, key: Key, call: Members, body: bytes) -> None:
        try:
            super().try_once(key, call, body)
        except ConnectionError:
            self.hang_up()

    def take_in(self, key: Key, answer: Members) -> None:
        if answer != NO_MEMORY:
            super().take_in(key, answer)


def crowd_after_crowd(program: str, words: str, size: int, beside: Beside | None = None, **odds: int) -> None:
    """Crowds, each with a chance of its own that these words and its number tell, until each kind of hostility has
    happened."""
    # A server that reads byte by byte has no read to cut.
    missed = [name for name in odds if name != "cut_read"]
    for number in range(MOST_CROWDS):
        system = one_crowd(program, random.Random(f"{words} {number}"), size, beside, **odds)
        missed = [name for name in missed if not system.made(name)]
        if not missed:
            return
    demand(False, f"in {MOST_CROWDS} crowds no {missed} happened")


def one_crowd(program: str, chance: random.Random, size: int, beside: Beside | None = None, **odds: int) -> System:
    """A crowd while the system is hostile so, and what must hold behind it. `beside` is done with the server meanwhile,
    until an event is set, and a host that keeps a store is killed and started anew. It gives the system."""
    system, ledger = System(chance.randrange(2**31)), Ledger()
    with hostile_serving(program, system, size + 1, epoch=chance.choice([1, 7, 2**53 - 1])) as server:
        server.connect().close()
        clients = [Stubborn(server, ledger, number, random.Random(chance.random())) for number in range(1, size + 1)]
        system.be(**odds)
        also = [functools.partial(beside, chance, server)] if beside else []
        drive(server, ledger, [client.run for client in clients], calm=system.be, end=server.no_more,
              beside=[*also, *kills(server, random.Random(chance.random()))],
              rest=lambda: take_the_rest(server, ledger, size + 1))
    return system


def growths_refused(program: str, seed: int) -> None:
    """Each growth may be refused."""
    for size, odds in [(6, 40), (20, random.Random(f"growths {seed}").choice([100, 300]))]:
        crowd_after_crowd(program, f"growths {seed} {size}", size, growth=odds)


def links_broken(program: str, seed: int) -> None:
    """Each read and each write of a connection may be cut short or fail."""
    crowd_after_crowd(program, f"links {seed}", 12, cut_read=2, failed_read=2_000, cut_write=2, failed_write=2_000)


def connections_not_accepted(program: str, seed: int) -> None:
    """Each accept may fail."""
    crowd_after_crowd(program, f"accepts {seed}", 12, accept=3)


def clocks_that_fail(program: str, seed: int) -> None:
    """The clock can't be read now and then, which counts as moment 0, and a pause may end at once."""
    crowd_after_crowd(program, f"clocks {seed}", 12, clock=5, sleep=3)


def all_at_once(program: str, seed: int) -> None:
    """Growths, reads, writes, accepts, clocks and pauses, all of them."""
    crowd_after_crowd(program, f"all {seed}", 10, growth=200, cut_read=3, failed_read=3_000, cut_write=3,
                      failed_write=3_000, accept=5, clock=50, sleep=20)


def all_but_clocks(program: str, seed: int) -> None:
    """The same of a server that never pauses, and whose system can tell the time."""
    crowd_after_crowd(program, f"all but clocks {seed}", 10, growth=200, cut_read=3, failed_read=3_000, cut_write=3,
                      failed_write=3_000, accept=5)


def stop_and_go(chance: random.Random, server: Served, done: threading.Event) -> None:
    """Stops a server and lets it go on, at random."""
    try:
        while not done.is_set():
            time.sleep(chance.choice([0.001, 0.01, 0.05, 0.2]))
            server.process.send_signal(signal.SIGSTOP)
            time.sleep(chance.choice([0, 0.001, 0.01, 0.1, 0.3]))
            server.process.send_signal(signal.SIGCONT)
    finally:
        server.process.send_signal(signal.SIGCONT)


def stopped_and_gone_on(program: str, seed: int) -> None:
    """The server is stopped and goes on, in the middle of whatever it does."""
    crowd_after_crowd(program, f"stopped {seed}", 12, stop_and_go)


CASES = [growths_refused, links_broken, connections_not_accepted, clocks_that_fail, all_at_once, stopped_and_gone_on]
