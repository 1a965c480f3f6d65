"""Runs `rv end` of the built program, on 127.0.0.1, against a status address and a server that are scripted here: which requests it
ends, by which hellos, and what it prints, says and ends with.

A server's status is looked at again until it has been looked through, so that a case takes some seconds: cases run side by side.
Where there are very many looks the pauses between them end at once.
"""
from __future__ import annotations

import contextlib
import json
import socket
import struct
import subprocess
import threading
import time
import unittest
from collections.abc import Callable, Iterator, Mapping, Sequence
from concurrent.futures import ThreadPoolExecutor
from typing import IO, Any, List, NamedTuple

from tests.cases import Case, SideBySide
from tests.faults.system import System, systems
from tests.names import cases_of
from tests.sockets.programs import taken_port
from tests.sockets.wire import PATIENCE

GREATEST = 9_007_199_254_740_991
# The seconds that the scripted server has been up, and the age of a request that is to be ended, as milliseconds and as a word.
UP, AGE, OLDER = 1_000, 60_000, "60s"
# The longest answer that is read, and the rows that a server's status shows at most.
LONGEST, MOST = 4_194_304, 100
# How often a server's status is looked at, at most.
LOOKS = 1_800
# A reset instead of an end, where a socket is closed.
RESET = struct.pack("ii", 1, 0)

Row = List[Any]
# What answers a hello, and the same of one behind so many others.
Answer = Callable[["dict[str, Any]"], bytes]
Answers = Callable[[int, "dict[str, Any]"], bytes]


class Ran(NamedTuple):
    """What a run printed, said and ended with."""

    printed: list[str]
    said: str
    status: int


def row(client: int, since: int = UP * 1_000 - AGE, *, call: str = "take", at: int = 6, incarnation: int = 7, number: int = 1) -> Row:
    """The row of a request that has had no connection since this moment."""
    return [call, at, 0, client, incarnation, number, since]


def status_text(rows: object, clients: int = 1, **numbers: Any) -> bytes:
    """The text of a status with these rows."""
    told = {"rv_clients": clients, "rv_uptime_seconds": UP, **numbers}
    return json.dumps({"history": [], "numbers": told, "queues": [], "unheard": rows, "version": "1.2.3", "waiting": []}).encode()


def answered(body: bytes, first: str = "HTTP/1.1 200 OK") -> bytes:
    """An answer over HTTP."""
    return f"{first}\r\ncontent-type: application/json\r\ncontent-length: {len(body)}\r\nconnection: close\r\n\r\n".encode() + body


def frame(body: bytes) -> bytes:
    """A body behind its two length bytes."""
    return len(body).to_bytes(2, "big") + body


def welcome(hello: dict[str, Any]) -> bytes:
    """The frame of the welcome of a hello."""
    told = {**{name: hello[name] for name in ("client", "incarnation", "version")}, "epoch": 1, "kind": "welcome"}
    return frame(json.dumps(told, separators=(",", ":"), sort_keys=True).encode())


def refused(code: int, **detail: int) -> bytes:
    """The frame of a refusal."""
    return frame(json.dumps({"code": code, **detail, "kind": "refused"}, separators=(",", ":"), sort_keys=True).encode())


class Listener:
    """Serves the connections that come, one after another, until it is closed."""

    def __init__(self) -> None:
        self.listener = socket.create_server(("127.0.0.1", 0))
        self.address = "127.0.0.1:%d" % self.listener.getsockname()[1]
        self.came = 0
        self.thread = threading.Thread(target=self.run, daemon=True)
        self.thread.start()

    def run(self) -> None:
        """Accepts and serves, until the listener is shut down."""
        with contextlib.suppress(OSError):
            while True:
                connection, _ = self.listener.accept()
                self.came += 1
                connection.settimeout(PATIENCE)
                with contextlib.suppress(ConnectionError), connection:
                    self.serve(connection)

    def serve(self, connection: socket.socket) -> None:
        """Serves one connection."""
        raise NotImplementedError

    def __enter__(self) -> "Any":
        return self

    def __exit__(self, *_: object) -> None:
        self.listener.shutdown(socket.SHUT_RDWR)
        self.listener.close()
        self.thread.join(PATIENCE)


class Status(Listener):
    """A status address, which gives these answers one after another, the last again and again, and keeps what it was asked."""

    def __init__(self, *answers: bytes, reset: bool = False) -> None:
        self.answers, self.reset, self.asked = answers, reset, list[bytes]()
        super().__init__()

    def serve(self, connection: socket.socket) -> None:
        asked = b""
        while not asked.endswith(b"\r\n\r\n"):
            piece = connection.recv(4_096)
            if not piece:
                return
            asked += piece
        self.asked.append(asked)
        connection.sendall(self.answers[min(len(self.asked), len(self.answers)) - 1])
        if self.reset:
            connection.setsockopt(socket.SOL_SOCKET, socket.SO_LINGER, RESET)


class Server(Listener):
    """A server, which answers each hello by `answers`, called with how many came before and the hello, and closes a connection over
    which it answered no whole frame. It keeps the hellos."""

    def __init__(self, answers: Answers = lambda _, hello: welcome(hello)) -> None:
        self.answers, self.hellos = answers, list[dict[str, Any]]()
        super().__init__()

    def serve(self, connection: socket.socket) -> None:
        with connection.makefile("rb") as source:
            while head := source.read(2):
                hello = json.loads(source.read(int.from_bytes(head, "big")))
                self.hellos.append(hello)
                answer = self.answers(len(self.hellos) - 1, hello)
                connection.sendall(answer)
                if len(answer) < 2 or len(answer) < 2 + int.from_bytes(answer[:2], "big"):
                    return


def micros() -> int:
    """The wall clock's microseconds."""
    return time.time_ns() // 1_000


def words_of(status: str, connect: str, older: str = OLDER) -> list[str]:
    """The words of `rv end` for these addresses and this age."""
    return ["--status", status, "--connect", connect, "--older", older]


def spoilt_rows() -> Iterator[bytes]:
    """Texts of a status of which one row is no row, or a number is none."""
    good = row(2)
    for place, wrong in [(0, "put"), (0, "Take"), (0, 1), (1, -1), (1, "6"), (1, None), (2, 0.0), (3, 0), (3, GREATEST + 1), (4, 0),
                         (4, GREATEST + 1), (4, "7"), (5, -1), (5, [1]), (6, None), (6, 1e3), (6, -1), (6, 2**64)]:
        yield status_text([row(1), [*good[:place], wrong, *good[place + 1:]]])
    for rows in [[good[:6]], [[*good, 1]], [[]], [{}], [None], {}, "rows", None]:
        yield status_text(rows)
    for number in [-1, 1.5, "1000", None, 2**64]:
        yield status_text([], rv_uptime_seconds=number)
        yield status_text([], rv_clients=number)
    for text in [b"{}", b"[]", b"null", b'{"numbers":{"rv_uptime_seconds":1,"rv_clients":1}}', b'{"unheard":[]}']:
        yield text


# Words of an age, and the seconds since a start by which a request of the start has it.
AGES = {"0ms": 0, "1ms": 1, "999ms": 1, "1001ms": 2, "1s": 1, "0060s": 60, "10m": 600, "24h": 86_400, "86400s": 86_400,
        "1440m": 86_400, "86400000ms": 86_400, "0000000000000000001s": 1}


class Ends(Case):
    """What each expects is set beforehand. No wait lasts longer than `PATIENCE` seconds."""

    def ran(self, words: Sequence[str], stdout: int | IO[bytes] = subprocess.PIPE, env: Mapping[str, str] | None = None) -> Ran:
        """Runs `rv end` with these words."""
        ran = subprocess.run([self.program, "end", *words], stdout=stdout, stderr=subprocess.PIPE, timeout=PATIENCE, env=env)
        return Ran((ran.stdout or b"").decode().split("\n")[:-1], ran.stderr.decode(), ran.returncode)

    def ended(self, status: str, connect: str, older: str = OLDER, stdout: int | IO[bytes] = subprocess.PIPE,
              env: Mapping[str, str] | None = None) -> Ran:
        """Runs it with these addresses and this age."""
        return self.ran(words_of(status, connect, older), stdout, env)

    def test_the_old_are_ended(self) -> None:
        """Those of the age and older are ended, in the order of the rows, over one connection; a younger one is not."""
        now = UP * 1_000
        rows = [row(2, now - AGE), row(3, now - AGE + 1), row(4, 0, call="transfer", at=0, incarnation=1, number=GREATEST),
                row(5, now - 61_999, call="swap", at=63), row(1, 1)]
        with Status(answered(status_text(rows))) as status, Server() as server:
            began = micros()
            ran = self.ended(status.address, server.address)
            ended = micros()
            lines = ["2 7 1 take 6 60 ended", f"4 1 {GREATEST} transfer 0 1000 ended", "5 7 1 swap 63 62 ended", "1 7 1 take 6 1000 ended"]
            self.check_equal("those of the age are ended", ran, Ran(lines, "", 0))
            said = [(hello["kind"], hello["client"], hello["version"]) for hello in server.hellos]
            self.check_equal("by hellos", said, [("hello", client, 2) for client in (2, 4, 5, 1)])
            times = [began <= hello["incarnation"] <= ended for hello in server.hellos]
            self.check_equal("in incarnations of the clock", times, [True] * 4)
            self.check_equal("over one connection", server.came, 1)
            request = f"GET /status.json HTTP/1.1\r\nHost: {status.address}\r\nConnection: close\r\n\r\n".encode()
            self.check_equal("the request", set(status.asked), {request})

    def test_none_is_old(self) -> None:
        """Where none is old enough nothing is said or printed, and the status is looked at once."""
        now = UP * 1_000
        for name, rows, older in [("no request", [], OLDER), ("younger ones", [row(2, now - AGE + 1), row(3, now)], OLDER),
                                  ("a server that is younger", [row(2, 0)], "1001s"), ("a moment to come", [row(2, now + 1)], "0s")]:
            with Status(answered(status_text(rows))) as status, Server() as server:
                found = self.ended(status.address, server.address, older), server.came, status.came
                self.check_equal(name, found, (Ran([], "", 0), 0, 1))

    def test_more_than_a_look_shows(self) -> None:
        """It goes on until no look shows another: over a hundred requests are ended, each once, also where one is still shown."""
        looks = [[row(client) for client in range(first, first + MOST)] for first in (1, MOST + 1)]
        last = [row(2 * MOST), row(2 * MOST + 1), row(2 * MOST + 1, number=2)]
        answers = [answered(status_text(rows)) for rows in [*looks, [], last, []]]
        with Status(*answers) as status, Server() as server:
            ran = self.ended(status.address, server.address)
            lines = [f"{client} 7 1 take 6 60 ended" for client in range(1, 2 * MOST + 2)]
            self.check_equal("over a hundred", ran, Ran([*lines, f"{2 * MOST + 1} 7 2 take 6 60 ended"], "", 0))
            self.check_equal("over one connection", server.came, 1)

    def test_clients_are_looked_at_twice(self) -> None:
        """It looks on for as long as a server takes to look at each client twice, and once more."""
        for clients, looks in [(1, 3), (2_559, 3), (2_560, 4), (7_680, 6)]:
            with Status(answered(status_text([row(1)], clients))) as status, Server() as server:
                self.check_equal(f"{clients} clients", (self.ended(status.address, server.address).status, status.came), (0, looks))

    def test_more_are_left(self) -> None:
        """After its last look it says that more are left, unless by then enough looks have shown no other request."""
        with systems():
            hasty = System()
            hasty.be(sleep=1)
            for vain, said in [(0, "more are left\n"), (1, "more are left\n"), (2, "")]:
                clients = range(1, LOOKS - vain + 1)
                looks = [*(status_text([row(client)]) for client in clients), *[status_text([])] * vain]
                with Status(*map(answered, looks)) as status, Server() as server:
                    found = self.ended(status.address, server.address, env=hasty.env), status.came
                lines = [f"{client} 7 1 take 6 60 ended" for client in clients]
                self.check_equal(f"{vain} looks in vain at the end", found, (Ran(lines, said, int(bool(said))), LOOKS))

    def test_what_comes_of_each(self) -> None:
        """A greater incarnation that is there, other refusals, and answers that say nothing; behind those the connection is another."""
        foreign = welcome({"client": 9, "incarnation": 1, "version": 2})
        answers = [refused(4, current=GREATEST), refused(9), refused(12, current=1), foreign, b"", b"\0\0", frame(b"{}"), frame(b"x")[:2],
                   refused(4, current=1)]
        words = ["replaced %d" % GREATEST, "refused 9", "refused 12", *["no answer"] * 5, "replaced 1"]
        rows = [row(client) for client in range(1, len(answers) + 1)]
        with Status(answered(status_text(rows))) as status, Server(lambda number, _: answers[number]) as server:
            ran = self.ended(status.address, server.address)
            self.check_equal("what comes of each", ran, Ran([f"{at} 7 1 take 6 60 {word}" for at, word in enumerate(words, 1)], "", 1))
            self.check_equal("a new connection after no answer", server.came, 1 + words.count("no answer"))

    def test_all_replaced(self) -> None:
        """Where each was ended by another process all is well."""
        with Status(answered(status_text([row(1), row(2)]))) as status, Server(lambda _, hello: refused(4, current=8)) as server:
            ran = self.ended(status.address, server.address)
            self.check_equal("each was replaced", ran, Ran(["1 7 1 take 6 60 replaced 8", "2 7 1 take 6 60 replaced 8"], "", 0))

    def test_great_incarnations(self) -> None:
        """Beyond the clock the next one is taken, and beyond the greatest none is."""
        rows = [row(1, incarnation=GREATEST - 2), row(2, incarnation=GREATEST - 1), row(3, incarnation=GREATEST)]
        with Status(answered(status_text(rows))) as status, Server() as server:
            lines = [f"1 {GREATEST - 2} 1 take 6 60 ended", f"2 {GREATEST - 1} 1 take 6 60 ended", f"3 {GREATEST} 1 take 6 60 kept"]
            self.check_equal("great incarnations", self.ended(status.address, server.address), Ran(lines, "", 1))
            said = [(hello["client"], hello["incarnation"]) for hello in server.hellos]
            self.check_equal("the next one, or none", said, [(1, GREATEST - 1), (2, GREATEST)])

    def test_no_status(self) -> None:
        """Whatever is no status of 200 ends the run before anything is said."""
        good = status_text([row(1)])
        answers = [b"", good, answered(good, "HTTP/1.1 404 Not Found"), answered(good, "HTTP/1.1 2000 OK"),
                   answered(good, "HTTP/1.0 200 OK"), answered(good).replace(b"\r\n\r\n", b"\r\n"), answered(good[:-1]),
                   answered(good + b"}"), answered(b""), answered(b"\xff" + good), answered(b"[" * 100_000),
                   answered(good.replace(b"take", b"t\xffke"))]
        for number, answer in enumerate([*answers, *map(answered, spoilt_rows())]):
            with Status(answer) as status, Server() as server:
                found = self.ended(status.address, server.address), server.came
                self.check_equal(f"no status, {number}: {answer[-40:]!r}", found, (Ran([], "status fault 5\n", 1), 0))

    def test_broken_status(self) -> None:
        """A status address that can't be reached, that breaks off, and that tells too much."""
        with Server() as server:
            with taken_port() as port:
                self.check_equal("nobody tells", self.ended(f"127.0.0.1:{port}", server.address), Ran([], "address fault\n", 1))
            self.check_equal("no address", self.ended("x", server.address), Ran([], "address fault\n", 1))
            with Status(b"HTTP/1.1 200 OK\r\n", reset=True) as status:
                self.check_equal("a reset", self.ended(status.address, server.address), Ran([], "status fault 1\n", 1))
            body = status_text([])
            for more, wanted in [(0, Ran([], "", 0)), (1, Ran([], "status fault 4\n", 1))]:
                whole = answered(body).replace(b"\r\n\r\n", b"\r\nx: \r\n\r\n")
                long = whole.replace(b"x: ", b"x: " + b"a" * (LONGEST + more - len(whole)))
                with Status(long) as status:
                    self.check_equal(f"an answer of {len(long)} bytes", self.ended(status.address, server.address), wanted)
            self.check_equal("nothing was said", server.came, 0)

    def test_no_server(self) -> None:
        """A server that can't be reached is told, and what was ended before stays printed."""
        with Status(answered(status_text([row(1), row(2)]))) as status:
            with taken_port() as port:
                self.check_equal("nobody listens", self.ended(status.address, f"127.0.0.1:{port}"), Ran([], "address fault\n", 1))
            with Server() as server, open("/dev/full", "wb", buffering=0) as full:
                self.check_equal("a full output", self.ended(status.address, server.address, stdout=full), Ran([], "run fault 2\n", 1))

    def test_ages(self) -> None:
        """A request has an age that a word says from this second on."""
        with ThreadPoolExecutor(len(AGES)) as pool:
            found = list(pool.map(self.around_an_age, AGES, AGES.values()))
        for (older, age), ran in zip(AGES.items(), found):
            before = [Ran([], "", 0)] if age else []
            self.check_equal(f"an age of {older}", ran, [*before, Ran([f"1 7 1 take 6 {age} ended"], "", 0)])

    def around_an_age(self, older: str, age: int) -> list[Ran]:
        """What comes of a request of the start in the second before it has an age, where there is one, and in that in which it has."""
        texts = [status_text([row(1, 0)], rv_uptime_seconds=second) for second in (age - 1, age) if second >= 0]
        with Status(*map(answered, texts)) as status, Server() as server:
            return [self.ended(status.address, server.address, older) for _ in texts]

    def test_bad_words(self) -> None:
        """Words that are none of it."""
        bad = Ran([], "command fault 1\n", 2)
        for older in ["", "60", "s", "60x", "60S", "60 s", " 60s", "60s ", "-1s", "+1s", "1.5s", "1e3s", "60sm", "60sms", "1s1", "ms", "25h",
                      "1441m", "86401s", "86400001ms", "00000000000000000001s", "18446744073709551617s", "\u0661s", "60s\n"]:
            self.check_equal(f"an age of {older!r}", self.ended("127.0.0.1:1", "127.0.0.1:1", older), bad)
        whole = words_of("127.0.0.1:1", "127.0.0.1:1")
        wrong: list[list[str]] = [
            [], whole[2:], whole[:2] + whole[4:], whole[:4], [*whole, "x"], [*whole, *whole[:2]], [*whole, "--tries", "1"]]
        for words in wrong:
            self.check_equal(f"the words {words}", self.ran(words), bad)


class AtOnce(SideBySide):
    """All of its cases at once, since they wait for the next look at a status."""

    at_once = 16


def load_tests(_: unittest.TestLoader, suite: unittest.TestSuite, __: str | None) -> unittest.TestSuite:
    """The cases, side by side."""
    return AtOnce(cases_of(suite))
