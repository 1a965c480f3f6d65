"""Crowds of clients over as many workers, with links that lose answers, cut frames, repeat at once and late, close and
connect anew, until each client has its reply to each request."""
from __future__ import annotations

import random
import time
from collections.abc import Callable

from tests.model.account import Key
from tests.sockets.driver import drive
from tests.sockets.ledger import Left, Ledger
from tests.sockets.hosts import serving
from tests.sockets.programs import Served
from tests.sockets.wire import (
    Members, Peer, Wrong, cancel, demand, drain, frame, give, hello, key_of, members_of, refused, reply_of, request, swap, take, welcome)

SIZES = (4, 10, 25, 60)
REQUESTS = 8
# Connections that a crowd may make, for each of its clients; what is left is used up at the end.
CONNECTIONS = 80
QUEUES, EXCHANGERS = (3, 4, 63), (0, 5)
MAXIMA = (1, 2, 2, 3, 16)
WAITS: list[str | int] = ["now", "now", "now", 0, 1, 3, 10, 10, 30, 60, 200, "forever", "forever", "forever"]
# What a link does with a request, and how often.
LINKS = {"plain": 10, "lose": 3, "lose slowly": 2, "cut": 2, "twice": 3, "late": 2, "anew": 2, "greet again": 1, "reset": 1,
         "cancel behind": 1}
# After so many tries a client cancels what still waits.
TRIES = 3


class Client:
    """One client with its link to the server."""

    def __init__(self, server: Served, ledger: Ledger, number: int, chance: random.Random):
        self.server, self.ledger, self.number, self.chance = server, ledger, number, chance
        self.incarnation, self.last = 1, 0
        self.peer: Peer | None = None
        # the request before, and its call
        self.before: tuple[Key, Members] | None = None
        self.version = chance.choice([1, 2])

    def run(self) -> Client:
        """Says hello, and asks until each request has its reply; now and then it starts anew."""
        try:
            self.greet()
            for _ in range(REQUESTS):
                if self.chance.random() < 0.04:
                    self.start_anew()
                self.settle(self.call())
            return self
        finally:
            self.hang_up()

    def link(self) -> Peer:
        """The connection, made anew where there is none."""
        if self.peer is None:
            self.peer = self.server.connect()
        return self.peer

    def hang_up(self) -> None:
        if self.peer:
            self.peer.close()
            self.peer = None

    def greet(self) -> None:
        """Says hello in its version; now and then in the other one too, in which it is not welcome."""
        self.say_hello(self.version, welcome(self.number, self.server.epoch, self.incarnation, self.version))
        if self.chance.random() < 0.2:
            self.say_hello(3 - self.version, refused(12, current=self.version))

    def say_hello(self, version: int, wanted: bytes) -> None:
        self.link().expect(hello(self.number, self.incarnation, version), wanted)

    def start_anew(self) -> None:
        """Gives up a request that nobody heard an answer to, in the middle of it, and starts in a greater incarnation and
        in any version."""
        key, call = self.next_key(), self.call()
        self.ledger.ask(key, call, self.version)
        self.ledger.given_up.add(key)
        self.link().send(frame(request(key, call)))
        time.sleep(self.chance.choice([0, 0.01, 0.05]))
        self.hang_up()
        self.incarnation += self.chance.choice([1, 1, 3])
        self.version = self.chance.choice([1, 2])
        self.last, self.before = 0, None
        self.greet()

    def next_key(self) -> Key:
        return Key(self.server.epoch, self.number, self.incarnation, self.last + 1)

    def call(self) -> Members:
        """The members of a call; its item names who gives it."""
        key, chance = self.next_key(), self.chance
        item, wait = f"{key.client}/{key.incarnation}#{key.number}", chance.choice(WAITS)
        word = chance.choice(["put", "transfer", "transfer", "take", "take", "take", "drain", "swap", "count", "peek"])
        if word == "swap":
            return swap(item, wait if wait != "now" else 0, chance.choice(EXCHANGERS))
        queue = chance.choice(QUEUES)
        if word == "take":
            return take(wait, queue)
        if word == "drain":
            return drain(chance.choice(MAXIMA), queue)
        return give(word, item, wait, queue) if word in ("put", "transfer") else {"call": word, "queue": queue}

    def settle(self, call: Members) -> None:
        """Asks until the request has its reply, over a link that does not care; then asks now and then once more."""
        key = self.next_key()
        self.ledger.ask(key, call, self.version)
        if self.chance.random() < 0.05:
            self.hear(key, cancel(key))
        tries = 0
        while key not in self.ledger.told:
            tries += 1
            body = request(key, call) if tries <= TRIES else cancel(key)
            demand(tries < 40, f"{key} {call} has no reply after so many tries")
            self.try_once(key, call, body)
        self.last, self.before = key.number, (key, call)
        for _ in range(self.chance.choice([0, 0, 0, 1, 3])):
            self.hear(key, request(key, call))

    def try_once(self, key: Key, call: Members, body: bytes) -> None:
        """One try, as the link has it."""
        how = self.chance.choices(list(LINKS), list(LINKS.values()))[0]
        getattr(self, how.replace(" ", "_"))(key, call, body)

    def plain(self, key: Key, call: Members, body: bytes) -> None:
        self.hear(key, body)

    def lose(self, key: Key, call: Members, body: bytes) -> None:
        """The request comes, and its answer is lost."""
        self.link().send(frame(body))
        self.hang_up()

    def lose_slowly(self, key: Key, call: Members, body: bytes) -> None:
        self.link().send(frame(body))
        time.sleep(self.chance.choice([0.001, 0.01, 0.1]))
        self.hang_up()

    def reset(self, key: Key, call: Members, body: bytes) -> None:
        peer = self.link()
        peer.send(frame(body))
        time.sleep(self.chance.choice([0, 0.003]))
        peer.reset()
        self.peer = None

    def cut(self, key: Key, call: Members, body: bytes) -> None:
        """A part of the request comes, and then the connection ends."""
        data = frame(body)
        self.link().send(data[: self.chance.randrange(len(data))])
        self.hang_up()

    def twice(self, key: Key, call: Members, body: bytes) -> None:
        """The request comes some times at once."""
        times = self.chance.choice([2, 2, 3])
        self.link().send(frame(body) * times)
        for _ in range(times):
            self.heed(key)

    def late(self, key: Key, call: Members, body: bytes) -> None:
        """An earlier request comes again, before and after this one."""
        self.repeat(key)
        self.hear(key, body)
        self.repeat(key)

    def repeat(self, key: Key) -> None:
        """The request before, if there is one: it is told its reply again, or that its number is old where the next one came."""
        if self.before:
            answer = self.link().told(request(*self.before))
            if answer != {"kind": "refused", "code": 5, "last": key.number}:
                self.take_in(self.before[0], answer)

    def anew(self, key: Key, call: Members, body: bytes) -> None:
        """The request comes over a new connection, while the old one is open."""
        old = self.peer
        self.peer = None
        self.hear(key, body)
        if old:
            old.close()

    def greet_again(self, key: Key, call: Members, body: bytes) -> None:
        self.greet()
        self.hear(key, body)

    def cancel_behind(self, key: Key, call: Members, body: bytes) -> None:
        """A cancel comes over a second connection, while the request is asked for in the first."""
        self.link().send(frame(body))
        with self.server.connect() as other:
            time.sleep(self.chance.choice([0, 0.005, 0.03]))
            answer = other.told(cancel(key))
        # that it waits may have been told before the cancel came
        try:
            self.heed(key)
        finally:
            self.take_in(key, answer)

    def hear(self, key: Key, body: bytes) -> None:
        """Sends a body of the key and takes in the answer."""
        self.link().send(frame(body))
        self.heed(key)

    def heed(self, key: Key) -> None:
        """Takes in an answer."""
        body = self.link().hear()
        if body is None:
            raise Wrong(f"the connection of {key} ended")
        self.take_in(key, members_of(body))

    def take_in(self, key: Key, answer: Members) -> None:
        """An answer to the key's request or cancel: its reply, or that it waits, and never that again behind a reply."""
        demand(answer["kind"] in ("reply", "waiting") and key_of(answer) == key, f"{key} was answered {answer}")
        if answer["kind"] == "waiting":
            demand(key not in self.ledger.told, f"{key} waits again, behind {self.ledger.told.get(key)}")
        else:
            self.ledger.tell(key, reply_of(answer))


def take_the_rest(server: Served, ledger: Ledger, number: int) -> Left:
    """Takes all that is left, in order; the items of each queue."""
    left: Left = {queue: [] for queue in QUEUES}
    with server.greeted(number) as peer:
        place = 0
        for queue in QUEUES:
            while True:
                place += 1
                key, call = Key(server.epoch, number, 1, place), take("now", queue)
                ledger.ask(key, call)
                answer = peer.told(request(key, call))
                ledger.tell(key_of(answer), reply_of(answer))
                demand(key_of(answer) == key, f"{key} was answered {answer}")
                if answer["reply"] == "empty":
                    break
                left[queue].append(answer["item"])
    return left


def one_crowd(program: str, size: int, chance: random.Random) -> None:
    """A crowd, and what must hold behind it."""
    epoch = chance.choice([1, 2, 2**53 - 1])
    ledger = Ledger()
    # each client may hold one connection on which nothing comes while it waits on another: so one worker more is never without work
    with serving(program, workers=size + 1, connections=CONNECTIONS * size, epoch=epoch) as server:
        clients = [Client(server, ledger, number, random.Random(chance.random())) for number in range(1, size + 1)]
        drive(server, ledger, [client.run for client in clients], rest=lambda: take_the_rest(server, ledger, size + 1),
              end=server.use_up)


def case_of(size: int) -> Callable[[str, int], None]:
    """The case of a crowd of a size."""
    def crowd(program: str, seed: int) -> None:
        one_crowd(program, size, random.Random(f"crowd {seed} {size}"))

    crowd.__name__ = f"a_crowd_of_{size}"
    return crowd


CASES = [case_of(size) for size in SIZES]
