"""Messages and answers on a socket: frames, and a client's end of a connection. Everything has a time-out."""
from __future__ import annotations

import errno
import os
import queue
import select
import socket
import struct
import sys
import threading
import time
from collections.abc import Callable
from typing import Any, NamedTuple, TypeVar

from tests.model.account import Key
from tests.model.texts import KEY, members_of_version, read_json, written

# How long a client waits for bytes, for room, or for a server that is to end, in seconds: long, for a slow machine, but
# where servers are tried that never answer.
PATIENCE = int(os.environ.get("RV_PATIENCE", "120"))
# Whether the first fault ends a case at once, though its other parts go on: so where a server is wrong, and all that the case
# began ends with its process.
FIRST_FAULT_ENDS = os.environ.get("RV_FIRST_FAULT") == "ends"
MAX_FRAME = 65_535
BAD_TEXT = b'{"code":1,"kind":"refused"}'
# Of what Linux tells of a connection: the bytes that came; the packets that went, those with data that came, and those that went.
TCP_INFO = struct.Struct("=128xQI12xII")


# The members of a JSON object.
Members = dict[str, Any]
Given = TypeVar("Given")
Self = TypeVar("Self", bound="Peer")


class Wrong(AssertionError):
    """What a test found."""


def demand(condition: object, what: object) -> None:
    """Ends the test unless the condition holds."""
    if not condition:
        raise Wrong(what)


def frame(body: bytes) -> bytes:
    """A body behind its length."""
    return struct.pack(">H", len(body)) + body


def hello(client: int, incarnation: int = 1, version: int = 1) -> bytes:
    """The body of a hello."""
    members = {"kind": "hello", "client": client, "incarnation": incarnation}
    return written({**members, **members_of_version(version)}).encode()


def request(key: Key, call: Members) -> bytes:
    """The body of a request; `call` has the members of its call."""
    return written({"kind": "request", **vars(key), **call}).encode()


def cancel(key: Key) -> bytes:
    """The body of a cancel."""
    return written({"kind": "cancel", **vars(key)}).encode()


def give(word: str, item: str, wait: str | int | None = None, queue: int = 3) -> Members:
    """The members of a put or a transfer."""
    return {"call": word, "queue": queue, "item": item, **({"wait": wait} if word == "transfer" else {})}


def take(wait: str | int, queue: int = 3) -> Members:
    """The members of a take."""
    return {"call": "take", "queue": queue, "wait": wait}


def drain(most: int, queue: int = 3) -> Members:
    """The members of a drain."""
    return {"call": "drain", "queue": queue, "max": most}


def swap(item: str, wait: str | int, exchanger: int = 5) -> Members:
    """The members of a swap."""
    return {"call": "swap", "exchanger": exchanger, "item": item, "wait": wait}


def welcome(client: int, epoch: int = 1, incarnation: int = 1, version: int = 1) -> bytes:
    """The body of a welcome."""
    members = {"kind": "welcome", "client": client, "epoch": epoch, "incarnation": incarnation}
    return written({**members, **members_of_version(version)}).encode()


def refused(code: int, **detail: int) -> bytes:
    """The body of a refusal."""
    return written({"kind": "refused", "code": code, **detail}).encode()


def replied(key: Key, **reply: object) -> bytes:
    """The body of a reply."""
    return written({"kind": "reply", **vars(key), **reply}).encode()


def record_line(key: Key, call: Members, reply: Members) -> bytes:
    """The line of a record for a call, and its reply's members."""
    return b'{"asked":%b,"told":%b}\n' % (request(key, call), replied(key, **reply))


def waits(key: Key) -> bytes:
    """The body that says that a request waits."""
    return written({"kind": "waiting", **vars(key)}).encode()


def key_of(answer: Members) -> Key:
    """The key that an answer's members name."""
    return Key(*(answer[name] for name in KEY))


def reply_of(answer: Members) -> Members:
    """The members of an answer's reply."""
    return {name: value for name, value in answer.items() if name not in ("kind", *KEY)}


class Packets(NamedTuple):
    """What came to an end of a connection, in bytes and in packets, and how many acknowledgements it sent that had no data."""

    bytes: int
    packets: int
    acknowledgements: int


class Peer:
    """A client's end of a connection."""

    def __init__(self, connection: socket.socket):
        self.socket = connection
        self.socket.settimeout(PATIENCE)
        self.socket.setsockopt(socket.IPPROTO_TCP, socket.TCP_NODELAY, 1)
        self.got = b""

    def __enter__(self: Self) -> Self:
        return self

    def __exit__(self, *_: object) -> None:
        self.close()

    def close(self) -> None:
        self.socket.close()

    def reset(self) -> None:
        """Closes so that the server's reads and writes fail."""
        self.socket.setsockopt(socket.SOL_SOCKET, socket.SO_LINGER, struct.pack("ii", 1, 0))
        self.socket.close()

    def end(self) -> None:
        """Sends nothing more; answers may still come. Where the server has reset the connection this is a ConnectionError, as a
        read would be, and not the plain OSError that Python makes of it."""
        try:
            self.socket.shutdown(socket.SHUT_WR)
        except OSError as fault:
            if fault.errno == errno.ENOTCONN:
                raise ConnectionResetError(fault.errno, "the connection was reset") from None
            raise

    def acknowledge(self, late: bool) -> None:
        """What comes next is acknowledged late, with what is sent behind it or after a while, or else at once: a packet that
        waits for its like is then kept back for so long, or for no time."""
        self.socket.setsockopt(socket.IPPROTO_TCP, socket.TCP_QUICKACK, int(not late))

    def counted(self) -> Packets:
        """What came so far, as the system counts it."""
        size, out, packets, out_with_data = TCP_INFO.unpack(
            self.socket.getsockopt(socket.IPPROTO_TCP, socket.TCP_INFO, TCP_INFO.size))
        return Packets(size, packets, out - out_with_data)

    def came(self, before: Packets, size: int) -> Packets:
        """What has come since `before`, at the first look that finds so many bytes of it. None is read: that may acknowledge."""
        now = before

        def is_whole() -> bool:
            nonlocal now
            now = self.counted()
            return now.bytes - before.bytes >= size

        readable = select.poll()
        readable.register(self.socket, select.POLLIN)
        readable.poll(1000 * PATIENCE)
        until(f"{size} bytes come", is_whole)
        return Packets(*(one - other for one, other in zip(now, before)))

    def send(self, data: bytes) -> None:
        self.socket.sendall(data)

    def more(self) -> bool:
        """Reads a piece; whether one came before the end."""
        piece = self.socket.recv(65_536)
        self.got += piece
        return bool(piece)

    def hear(self) -> bytes | None:
        """The body of the next frame; None where the connection ends between two frames."""
        while len(self.got) < 2 or len(self.got) < 2 + int.from_bytes(self.got[:2]):
            if not self.more():
                demand(not self.got, f"the connection ends within a frame: {self.got[:60]!r}")
                return None
        end = 2 + int.from_bytes(self.got[:2])
        demand(2 < end, "a frame of no bytes")
        body, self.got = self.got[2:end], self.got[end:]
        return body

    def ask(self, body: bytes) -> bytes:
        """Sends a frame and reads one, which must come."""
        self.send(frame(body))
        answer = self.hear()
        if answer is None:
            raise Wrong(f"the connection ends in place of an answer to {body[:200]!r}")
        return answer

    def told(self, body: bytes) -> Members:
        """The members of the answer to a frame."""
        return members_of(self.ask(body))

    def expect(self, body: bytes, wanted: bytes) -> None:
        """A frame must be answered so."""
        got = self.ask(body)
        demand(got == wanted, f"{body[:300]!r} was answered {got!r}, not {wanted!r}")

    def expect_end(self) -> None:
        """No further answer may come, and the connection must end."""
        try:
            body = self.hear()
        except ConnectionError:
            return
        demand(body is None, f"a further answer: {body!r}")


def members_of(body: bytes) -> Members:
    """The members of an answer, which must be written as answers are."""
    members = read_json(body)
    if not isinstance(members, dict) or written(members).encode() != body:
        raise Wrong(f"no answer's text: {body!r}")
    return members


def together(*parts: Callable[[], Given], limit: float = 10 * PATIENCE) -> list[Given]:
    """Runs parts at once, each in a thread, and gives what they gave. Tells the first that went wrong: behind the end of all,
    or at once where nothing counts behind a fault."""
    given: list[Any] = [None] * len(parts)
    faults: list[Exception] = []
    ended: queue.SimpleQueue[int] = queue.SimpleQueue()

    def run(number: int, part: Callable[[], Given]) -> None:
        try:
            given[number] = part()
        except Exception as fault:
            faults.append(fault)
        finally:
            ended.put(number)

    ends = time.monotonic() + limit
    for pair in enumerate(parts):
        threading.Thread(target=run, args=pair, daemon=True).start()
    for _ in parts:
        try:
            ended.get(timeout=max(0, ends - time.monotonic()))
        except queue.Empty:
            faults.append(Wrong(f"a client was not done within {limit} seconds"))
            break
        if faults and FIRST_FAULT_ENDS:
            break
    if faults:
        raise faults[0]
    return given


def until(what: str, holds: Callable[[], object], patience: float = PATIENCE) -> None:
    """Waits until something holds."""
    ends = time.monotonic() + patience
    while not holds():
        demand(time.monotonic() < ends, f"within {patience} seconds: {what}")
        time.sleep(0.005)


if sys.version_info < (3, 11):
    sys.exit("python3 is too old: 3.11 or later is needed")
