"""A thousand connections that mean no good, beside one good client that gets each answer."""
from __future__ import annotations

import errno
import functools
import random
import threading
import time

from tests.model.account import Hello, Key
from tests.sockets.driver import drive
from tests.sockets.ledger import Ledger
from tests.sockets.hosts import serving
from tests.sockets.programs import Served
from tests.sockets.wire import (
    BAD_TEXT, Members, Peer, demand, frame, give, hello, replied, request, take, welcome)

CONNECTIONS, WORKERS = 1_000, 8
# The clients that say hello over hostile connections, each from a thread of its own.
HOSTILE, NEVER_READS = range(1_000, 1_006), 999
# The most of a connection's answers that the system keeps for a client that does not read, in bytes, about.
KEPT = 4_096
QUESTIONS = 3_000


class Hostile:
    """Connections one after another, each of a random kind."""

    def __init__(self, server: Served, chance: random.Random, client: int):
        self.server, self.chance, self.client = server, chance, client
        version = chance.choice([1, 2])
        self.hello, self.welcome = hello(client, version=version), welcome(client, version=version)
        self.kinds = [self.noise, self.bad_length, self.cut_frame, self.nonsense, self.reset, self.silence]

    def run(self, left: Left) -> None:
        """As many connections as are left, shared with others like this."""
        while left.take():
            try:
                self.chance.choice(self.kinds)()
            except ConnectionError:
                pass
            except OSError as error:
                # what was reset before its end was said is not connected any more
                if error.errno != errno.ENOTCONN:
                    raise

    def noise_of(self, least: int, most: int) -> bytes:
        """So many bytes, whatever they are."""
        return self.chance.randbytes(self.chance.randint(least, most))

    def good(self) -> tuple[bytes, list[bytes]]:
        """Some frames of this client's own, and the answers to them."""
        times = self.chance.choice([0, 0, 1, 5])
        return frame(self.hello) * times, [self.welcome] * times

    def noise(self) -> None:
        """Random bytes."""
        with self.server.connect() as peer:
            peer.send(self.noise_of(1, self.chance.choice([3, 100, 20_000])))

    def bad_length(self) -> None:
        """Good frames and a bad length: they are answered, and the connection ends."""
        data, answers = self.good()
        with self.server.connect() as peer:
            peer.send(data + b"\x00\x00" + self.chance.choice([b"", b"\x00\x00", b"\xff\xff", b"GET / HTTP/1.1\r\n\r\n"]))
            self.hear(peer, answers)
            peer.expect_end()

    def cut_frame(self) -> None:
        """Good frames and one that is cut: they are answered."""
        data, answers = self.good()
        whole = frame(self.hello)
        cut = self.chance.choice([whole[: self.chance.randint(1, 44)], b"\x10\x01", b"\xff\xff" + whole,
                                  b"GET / HTTP/1.1\r\n\r\n"])
        with self.server.connect() as peer:
            peer.send(data + cut)
            peer.end()
            self.hear(peer, answers)
            peer.expect_end()

    def nonsense(self) -> None:
        """Frames of any bytes are answered as bad text, and good ones between them as ever."""
        data, answers = self.good()
        count = self.chance.randint(1, 20)
        bodies = [b"\xff" + self.noise_of(0, self.chance.choice([10, 10, 4095, 65_534])) for _ in range(count)]
        with self.server.connect() as peer:
            peer.send(data + b"".join(map(frame, bodies)) + data)
            self.hear(peer, [*answers, *[BAD_TEXT] * count, *answers])

    def reset(self) -> None:
        """The connection is reset, in the middle of what is asked."""
        peer = self.server.connect()
        peer.send(frame(self.hello) * self.chance.choice([1, 50]) + self.noise_of(0, 50))
        time.sleep(self.chance.choice([0, 0, 0.001]))
        peer.reset()

    def silence(self) -> None:
        """Nothing is said, for a moment."""
        with self.server.connect():
            time.sleep(self.chance.choice([0, 0.001, 0.01]))

    def hear(self, peer: Peer, answers: list[bytes]) -> None:
        for number, wanted in enumerate(answers):
            got = peer.hear()
            demand(got == wanted, f"answer {number} to a hostile client was {got!r}, not {wanted!r}")


class Left:
    """How many connections are left, for some threads."""

    def __init__(self, count: int):
        self.lock, self.count = threading.Lock(), count

    def take(self) -> bool:
        with self.lock:
            self.count -= 1
            return self.count >= 0


def never_reads(server: Served, ledger: Ledger, client: int) -> None:
    """A peer that asks and asks for a long answer and reads none, until the server's write waits; then it goes."""
    put, peek = Key(server.epoch, client, 1, 1), Key(server.epoch, client, 1, 2)
    asked = {put: give("put", "\x01" * 512, queue=7), peek: {"call": "peek", "queue": 7}}
    for key, call in asked.items():
        ledger.ask(key, call)
    peer = server.connect(receive=KEPT)
    peer.socket.settimeout(0.5)
    try:
        peer.send(frame(hello(client)) + frame(request(put, asked[put])) + frame(request(peek, asked[peek])) * QUESTIONS)
        peer.send(frame(b"x" * 4096) * QUESTIONS)
    except (TimeoutError, ConnectionError):
        pass
    time.sleep(0.5)
    peer.close()


class Good:
    """A client that puts and takes, whose each answer is known; until the others are done, and for a while at least."""

    def __init__(self, server: Served, ledger: Ledger):
        self.server, self.ledger, self.number = server, ledger, 0

    def ask(self, peer: Peer, call: Members, **reply: object) -> None:
        self.number += 1
        key = Key(self.server.epoch, 1, 1, self.number)
        self.ledger.ask(key, call)
        peer.expect(request(key, call), replied(key, **reply))
        self.ledger.tell(key, reply)

    def run(self, done: threading.Event) -> None:
        with self.server.greeted(1) as peer:
            while self.number < 200 or not done.is_set():
                item = f"item {self.number}"
                self.ask(peer, give("put", item), reply="done")
                self.ask(peer, take("forever"), reply="item", item=item)
                self.ask(peer, take(2), reply="timedout")
                time.sleep(0.002 * (self.number > 500))


def a_thousand_hostile_connections(program: str, seed: int) -> None:
    """They are of many kinds, some at once, and none of them hurts the good client nor the server."""
    chance = random.Random(f"hostile {seed}")
    with serving(program, workers=WORKERS, connections=CONNECTIONS + 10) as server:
        ledger, left = Ledger(), Left(CONNECTIONS)
        hostile = [Hostile(server, random.Random(chance.random()), client) for client in HOSTILE]
        bad = [functools.partial(never_reads, server, ledger, NEVER_READS), *(functools.partial(one.run, left) for one in hostile)]
        account = drive(server, ledger, bad, beside=[Good(server, ledger).run], end=server.use_up)
        clients = {entry.act.client for entry in account.entries if isinstance(entry.act, Hello)}
        demand(clients <= {1, *HOSTILE, NEVER_READS}, f"the account has hellos of {clients}")


CASES = [a_thousand_hostile_connections]
