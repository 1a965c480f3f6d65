"""A test double of `rv serve` and `rv call`, over the book of the model: for the tests of tests/sockets themselves. double.sh beside it
is the program.

RV_WRONG in the environment names what it does wrong; `python3 -m tests --selftest sockets` sees that a test fails for each of these.

usage: python3 -m tests.sockets.double serve --listen ADDR --epoch E --workers W --connections N
       python3 -m tests.sockets.double call --connect ADDR --client C --incarnation I --tries T --speak V
       python3 -m tests.sockets.double audit
       python3 -m tests.sockets.double verify FILE --replies FILE
"""
from __future__ import annotations

import functools
import json
import os
import pathlib
import queue
import re
import socket
import struct
import sys
import threading
import time
from collections.abc import Callable, Mapping
from typing import Any, NoReturn, Union

from tests.model.account import Account, Call, Cancel, Entry, Hello, Key, Request
from tests.model.answers import read_answer
from tests.model.lines import account_text
from tests.model.state import State
from tests.model.state_steps import Step, step
from tests.model.steps import refused
from tests.model.tables import table_audit
from tests.model.texts import (
    KEY, MAX_BODY_BYTES, MAX_IDENTIFIER, NoReading, demand, members_of, read_call, read_json, read_message, written)
from tests.model.world import is_own
from tests.sockets.accounts import call_members, read_account
from tests.sockets.standing import Replies
from tests.sockets.wire import Members, key_of, reply_of

Message = Union[Hello, Request, Cancel]
# What the system tells of an address: its family, kind and protocol, its name, and where it is.
Address = tuple[int, int, int, str, tuple[Any, ...]]
# Connections that workers take, up to None for each of them.
Handed = queue.Queue[Union[socket.socket, None]]
WRONG = os.environ.get("RV_WRONG", "")
# One that is wrong pauses so that its test's patience ends before it answers, however slow the machine.
PAUSES, PAUSE, LONG_PAUSE = 200, 0.5 if WRONG == "pauses for too long" else 0.005, 0.05
FRAMES = 65_536
# How many bytes of a connection's answers are held back at most.
HELD = 2**30 if WRONG == "holds back all answers to a piece" else 16_384
# After so many seconds a read of a connection ends, a write to one, and a caller's read.
SILENCE, DEAFNESS, NO_ANSWER = 600, 60, 60
# The options of each command but `verify`.
OPTIONS: dict[str, list[str]] = {
    "serve": ["--listen", "--epoch", "--workers", "--connections"],
    "call": ["--connect", "--client", "--incarnation", "--tries", "--speak"], "audit": []}


def bad_text() -> Members:
    """The members of the answer to a body that is no message's."""
    members: Members = refused(1)
    return members


class AddressFault(Exception):
    """An address that is none, or where nobody listens, or somebody does."""


class Desk:
    """The model's book behind a lock: its state, and the entries that its steps made."""

    def __init__(self, epoch: int):
        self.lock = threading.Lock()
        self.state = State(epoch, 0)
        self.entries: list[Entry] = []
        self.began = time.monotonic()
        # What a wrong server was asked before, and how many puts of its own it made.
        self.put_before: set[Message] = set()
        self.injected = 0

    @property
    def account(self) -> Account:
        """The account so far."""
        return Account(self.state.epoch, 0, tuple(self.entries))

    def moment(self) -> int:
        """The milliseconds since it began."""
        now = int((time.monotonic() - self.began) * 1000)
        if WRONG == "counts tenths of seconds":
            return now // 100
        return now // 100 * 100 if WRONG == "rounds moments to tenths of seconds" else now

    def handle(self, message: Message) -> Members:
        """The members of the answer to a message."""
        made: Step = step(self.state, self.moment(), message)
        self.state = made.state
        self.entries += made.entries
        return made.answer

    def ask(self, body: bytes, send: Callable[[], None]) -> Members:
        """The members of the answer to a body. `send` is done before each pause."""
        try:
            message: Message = read_message(body)
        except NoReading:
            return bad_text()
        message = self.spoilt(message)
        for _ in range(PAUSES):
            with self.lock:
                answer = self.handle(message)
                if WRONG == "holds the lock while it pauses" and answer["kind"] == "waiting":
                    time.sleep(LONG_PAUSE)
            if answer["kind"] != "waiting" or WRONG in ("never asks again", "says received when it waits"):
                return self.spoilt_answer(message, answer)
            send()
            time.sleep(PAUSE)
        with self.lock:
            return self.spoilt_answer(message, self.handle(message))

    def spoilt(self, message: Message) -> Message:
        """The message that is asked in place of this one."""
        if WRONG == "runs a repeated put again" and isinstance(message, Request) and message.call.word == "put":
            with self.lock:
                if self.handle(message) and self.handle(message)["kind"] == "reply" and message in self.put_before:
                    self.inject(message.call)
                self.put_before.add(message)
        return message

    def inject(self, call: Call) -> None:
        """A put of nobody's, by client 1,000,000."""
        if not self.injected:
            self.handle(Hello(1_000_000, 1))
        self.injected += 1
        key = Key(self.state.epoch, 1_000_000, 1, self.injected)
        self.handle(Request(key, Call("put", call.at, call.item)))

    def spoilt_answer(self, message: Message, answer: Members) -> Members:
        """The answer that is told in place of this one."""
        reply, call = answer.get("reply"), message.call if isinstance(message, Request) else None
        if WRONG == "gives a timed out item to the next" and reply == "timedout" and call and call.word == "transfer":
            with self.lock:
                if message not in self.put_before:
                    self.put_before.add(message)
                    self.inject(call)
        if WRONG == "tells what was drained newest first" and reply == "drained":
            return {**answer, "texts": answer["texts"][::-1]}
        if WRONG == "names the giver" and "by_client" in answer:
            return {**answer, "by_client": answer["client"]}
        if WRONG == "names nobody" and "by_client" in answer:
            return {name: value for name, value in answer.items() if not name.startswith("by_")}
        if WRONG == "takes each version for the first" and answer["kind"] == "welcome":
            return {name: value for name, value in answer.items() if name != "version"}
        if WRONG == "says received when it waits" and answer["kind"] == "waiting" and call and call.word == "transfer":
            return {**answer, "kind": "reply", "reply": "received"}
        if WRONG == "gives its own object back" and reply == "swapped" and call:
            return {**answer, "item": call.item}
        return answer


class Outlet:
    """The answers over a connection, which are held back until they are sent."""

    def __init__(self, connection: socket.socket):
        self.connection, self.held = connection, b""

    def hold(self, data: bytes) -> None:
        """Takes an answer, behind the others where there is room."""
        if len(self.held) + len(data) > HELD:
            self.send()
        self.held += data
        if len(self.held) >= HELD or WRONG == "sends each answer alone":
            self.send()

    def send(self) -> None:
        """Sends what is held back. Where that fails, what is held is lost."""
        data, self.held = self.held, b""
        try:
            self.connection.sendall(data)
        except OSError:
            if WRONG != "goes on for a peer that went":
                raise

    def before_a_pause(self) -> None:
        """Sends what is held back, unless it is wrong."""
        if WRONG != "keeps answers back while one waits":
            self.send()


class Inlet:
    """Frames out of a connection. `send` is done before each read."""

    def __init__(self, connection: socket.socket, send: Callable[[], None]):
        self.connection, self.send, self.bytes = connection, send, b""

    def next(self) -> bytes | None:
        """The next body; None at the end, at a bad length, and where the rest is no frame."""
        while True:
            if len(self.bytes) >= 2:
                size = int.from_bytes(self.bytes[:2])
                if size == 0:
                    return None
                if len(self.bytes) >= 2 + size:
                    body, self.bytes = self.bytes[2 : 2 + size], self.bytes[2 + size :]
                    return body
            self.send()
            piece = self.connection.recv(4096)
            if not piece:
                return None
            if WRONG == "loses what is cut" and len(self.bytes) > 3000:
                self.bytes = b""
            self.bytes += piece


def end_behind(connection: socket.socket, name: int, seconds: int, wrong: str) -> None:
    """Has a read or a write of a connection end after so many seconds, unless this is what is done wrong."""
    if WRONG != wrong:
        connection.setsockopt(socket.SOL_SOCKET, name, struct.pack("ll", seconds, 0))


def work(desk: Desk, connection: socket.socket) -> None:
    """Answers the frames of a connection until it ends."""
    late = WRONG == "sends length and body apart"
    connection.setsockopt(socket.IPPROTO_TCP, socket.TCP_NODELAY, int(not late and WRONG != "has no packet without its like"))
    silence = 60 if WRONG == "ends a silent connection early" else SILENCE
    end_behind(connection, socket.SO_RCVTIMEO, silence, "waits for a silent peer")
    end_behind(connection, socket.SO_SNDTIMEO, DEAFNESS, "waits for a deaf peer")
    outlet = Outlet(connection)
    inlet = Inlet(connection, outlet.send)
    for _ in range(FRAMES + (WRONG == "answers a frame too many")):
        body = inlet.next()
        if body is None:
            break
        answer = desk.ask(body, outlet.before_a_pause)
        if WRONG == "ends at a body that is none" and answer == bad_text():
            break
        text = written(answer).encode()
        pieces = [len(text).to_bytes(2), text]
        if late:
            for piece in pieces:
                connection.sendall(piece)
        else:
            outlet.hold(b"".join(pieces))
    else:
        inlet.next()
    outlet.send()


def address(text: str) -> Address:
    """The host and port of an address."""
    host, _, port = text.rpartition(":")
    try:
        if not host or not re.fullmatch("[0-9]{1,5}", port) or int(port) > 65_535:
            raise AddressFault
        return socket.getaddrinfo(host.strip("[]"), int(port), type=socket.SOCK_STREAM)[0]
    except OSError as fault:
        raise AddressFault from fault


def listener(text: str) -> socket.socket:
    """A socket that listens at an address."""
    family, kind, protocol, _, at = address(text)
    listens = socket.socket(family, kind, protocol)
    listens.setsockopt(socket.SOL_SOCKET, socket.SO_REUSEADDR, 1)
    try:
        listens.bind(at)
        listens.listen(128)
    except OSError as fault:
        raise AddressFault from fault
    return listens


def run_worker(desk: Desk, handed: Handed) -> None:
    """Serves connections until there are no more."""
    while (connection := handed.get()) is not None:
        serve_one(desk, connection)


def serve_one(desk: Desk, connection: socket.socket) -> None:
    """Serves a connection; a fault of it ends it."""
    with connection:
        try:
            work(desk, connection)
        except OSError:
            pass


def started(desk: Desk, handed: Handed, workers: int) -> list[threading.Thread | None]:
    """The threads of so many workers, and None for each that could not be started."""
    threads: list[threading.Thread | None] = []
    for _ in range(workers):
        thread = threading.Thread(target=run_worker, args=(desk, handed), daemon=True)
        try:
            thread.start()
            threads.append(thread)
        except RuntimeError:
            threads.append(None)
    return threads


def accept_all(listens: socket.socket, count: int, deed: Callable[[socket.socket], object]) -> None:
    """Accepts so many connections, and does this with each. Behind one that can't be accepted it pauses."""
    for _ in range(count):
        try:
            connection, _ = listens.accept()
        except OSError:
            if WRONG != "accepts again at once":
                time.sleep(PAUSE)
            continue
        deed(connection)


def waiting_for(workers: int) -> int:
    """How many connections may wait for so many workers; 0 is any number."""
    return {"accepts all that come": 0, "accepts one for all its workers": 1}.get(WRONG, workers)


def serve(listen: str, epoch: int, workers: int, connections: int) -> None:
    """Serves so many connections, and then prints the account."""
    handed: Handed = queue.Queue(waiting_for(workers))
    desk, listens = Desk(epoch), listener(listen)
    alone = WRONG == "serves on one thread"
    threads = [] if alone else started(desk, handed, workers)
    goes = alone or any(threads[-1:] if WRONG == "needs its last thread" else threads)
    if goes:
        count = connections + (WRONG == "accepts one more")
        deed: Callable[[socket.socket], object] = handed.put
        if alone:
            deed = functools.partial(serve_one, desk)
        accept_all(listens, count, deed)
    if WRONG != "keeps listening":
        listens.close()
    running = [thread for thread in threads if thread]
    for _ in running:
        handed.put(None)
    for thread in running:
        thread.join()
    print_account(desk.account)
    if not goes:
        raise NoThread


class NoThread(Exception):
    """No thread could be started."""


def print_account(account: Account) -> None:
    """Prints an account, unless it is wrong."""
    if WRONG == "leaves out the last entry":
        account = Account(account.epoch, 0, account.entries[:-1])
    if WRONG != "prints no account":
        printed(account_text(account).decode())


class Stopped(Exception):
    """A caller's word for why it ended."""


class Link:
    """A caller's end of a connection."""

    def __init__(self, connection: socket.socket):
        self.connection, self.stream = connection, connection.makefile("rb")

    def ask(self, body: bytes) -> Members | None:
        """The members of the answer to a body; None at a fault of the link."""
        pieces = [len(body).to_bytes(2), body]
        try:
            for piece in pieces if WRONG == "sends length and body apart" else [b"".join(pieces)]:
                self.connection.sendall(piece)
            length = self.stream.read(2) or b""
            size = int.from_bytes(length)
            if len(length) < 2 or size == 0:
                return None
            text = self.stream.read(size) or b""
            if len(text) < size:
                return None
            answer: Members = read_answer(text)
            return answer
        except (OSError, NoReading):
            return None


def greet(link: Link, hello: Hello, tries: int) -> int:
    """Says hello until it is welcome; gives the epoch."""
    body = written(members_of(hello)).encode()
    for _ in range(tries):
        answer = link.ask(body)
        if answer is None:
            break
        if answer["kind"] == "refused":
            raise Stopped(f"refused {answer['code']}")
        if answer["kind"] == "welcome" and (is_own(hello, answer) or WRONG == "is welcome in any version"):
            return int(answer["epoch"])
    raise Stopped("not welcome")


def ask_call(link: Link, key: Key, members: Members, tries: int) -> str:
    """The text of the reply to a call."""
    body = written({"kind": "request", **vars(key), **members}).encode()
    for _ in range(tries):
        answer = link.ask(body)
        if answer is None:
            break
        if answer.get("code") == 2 and answer["current"] > key.epoch:
            raise Stopped(f"epoch ended {answer['current']}")
        if answer.get("code") == 4 and answer["current"] > key.incarnation:
            raise Stopped(f"replaced {answer['current']}")
        if answer["kind"] == "reply" and all(answer[name] == getattr(key, name) for name in KEY):
            return str(written(answer))
    raise Stopped(f"unsettled {key.number}")


def read_line(line: bytes) -> Members:
    """The members of a call text."""
    try:
        demand(1 <= len(line) <= MAX_BODY_BYTES)
        members = read_json(line)
        demand(isinstance(members, dict))
        return call_members(read_call(members))
    except NoReading:
        raise Stopped("bad line") from None


def call(connect: str, hello: Hello, tries: int) -> int:
    """Says hello and calls line by line; gives the status."""
    family, kind, protocol, _, at = address(connect)
    connection = socket.socket(family, kind, protocol)
    try:
        connection.connect(at)
    except OSError as fault:
        raise AddressFault from fault
    end_behind(connection, socket.SO_RCVTIMEO, NO_ANSWER, "waits for a silent server")
    try:
        text = sys.stdin.buffer.read()
    except OSError as fault:
        raise RunFault(1) from fault
    lines = text.split(b"\n")
    if not lines[-1]:
        lines.pop()
    status, late = 0, list[str]()
    try:
        link = Link(connection)
        epoch = greet(link, hello, tries)
        for number, line in enumerate(lines, 1):
            late.append(ask_call(link, Key(epoch, hello.client, hello.incarnation, number), read_line(line), tries))
            if WRONG != "prints when all is settled":
                printed(f"{late.pop()}\n")
    except Stopped as why:
        late.append(str(why))
        status = 1
    for told in late:
        printed(f"{told}\n")
    return status


def audit() -> int:
    """Audits the account on standard input; gives the status."""
    fault = table_audit(read_account(sys.stdin.buffer.read()))
    print(f"fault {fault[0]} {fault[1]}" if fault else "legal")
    return int(fault is not None)


def verify(account: str, replies: str) -> int:
    """Looks for the reply of each line of a record in an account; gives the status."""
    made = Replies(read_account(pathlib.Path(account).read_bytes())).made
    lines = [json.loads(line)["told"] for line in pathlib.Path(replies).read_bytes().splitlines()]
    return int(any(made.get(key_of(told)) != reply_of(told) for told in lines))


def option(given: Mapping[str, str], name: str, least: int, most: int) -> int:
    """The number of an option."""
    demand(re.fullmatch("[0-9]{1,19}", given[name]) and least <= int(given[name]) <= most)
    return int(given[name])


def run(words: list[str]) -> int:
    """Does what the words say; gives the status."""
    if words[:1] == ["verify"]:
        demand(len(words) == 4 and words[2] == "--replies")
        return verify(words[1], words[3])
    demand(words[:1] and words[0] in OPTIONS)
    names = OPTIONS[words[0]]
    demand(sorted(words[1::2]) == sorted(names) and len(words) == 1 + 2 * len(names))
    given = dict(zip(words[1::2], words[2::2]))
    if words[0] == "audit":
        return audit()
    if words[0] == "call":
        client, incarnation = (option(given, name, 1, MAX_IDENTIFIER) for name in ("--client", "--incarnation"))
        hello = Hello(client, incarnation, option(given, "--speak", 1, 2))
        return call(given["--connect"], hello, option(given, "--tries", 0, 2**32 - 1))
    serve(given["--listen"], option(given, "--epoch", 1, MAX_IDENTIFIER), option(given, "--workers", 1, 64),
          option(given, "--connections", 0, 2**32 - 1))
    return 0


class RunFault(Exception):
    """An input that can't be read, or an output that can't be written, by its number."""


def printed(text: str) -> None:
    """Prints and flushes."""
    try:
        sys.stdout.write(text)
        sys.stdout.flush()
    except OSError as fault:
        sys.stdout = open(os.devnull, "w")
        raise RunFault(2) from fault


def main() -> NoReturn:
    try:
        sys.exit(run(sys.argv[1:]))
    except RunFault as fault:
        print(f"run fault {fault}", file=sys.stderr)
        sys.exit(1)
    except NoThread:
        print("serve fault 1", file=sys.stderr)
        sys.exit(1)
    except NoReading:
        print("command fault 1", file=sys.stderr)
        sys.exit(2)
    except AddressFault:
        print("address fault", file=sys.stderr)
        sys.exit(1)


if __name__ == "__main__":
    main()
