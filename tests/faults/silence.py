"""Peers that say nothing, read nothing or answer nothing, with time-outs that are so many times as short. One that ends early
is wrong at any speed; one that ends late is tried side by side, and one that does not is enough."""
import contextlib
import functools
import socket
import threading
import time

from tests.faults.system import HostileServer, System
from tests.model.account import Key
from tests.model.texts import written
from tests.sockets.ledger import Asked
from tests.sockets.listening import Listening
from tests.sockets.programs import Caller
from tests.sockets.wire import (
    PATIENCE, Peer, demand, frame, give, hello, replied, request, take, together, welcome)

# The seconds of silence behind which a server's read ends, a write to a peer that reads nothing, and a caller's read.
SILENCE, DEAFNESS, NO_ANSWER = 600, 60, 60
# How many times as short they are here.
HASTE, LITTLE_HASTE = 100, 20
# So many peers are tried side by side, of which one must be left in time.
PEERS = 3
# A time-out is over at the latest behind so many times as long; that of a write behind more, since the system may take a part
# of its bytes when it is over, and the rest is tried anew.
LATE, LATE_IN_PARTS = 4, 8
# The bytes that a system keeps of what is written and not read, about; and how many long answers are asked for.
KEPT, QUESTIONS = 4_096, 4_000


def hasty(haste: int) -> System:
    """A system whose time-outs are so many times as short, and which keeps little of what is not read."""
    system = System()
    system.be(haste=haste, kept=KEPT)
    return system


def judge(what: str, took: list[float], least: float, most: float) -> None:
    """None of these seconds may be fewer than the least, and one of them at least not more than the most."""
    demand(min(took) >= least, f"{what} ends after {min(took):.2f} seconds, and not {least:.2f}")
    demand(min(took) <= most, f"{what} ends after {min(took):.2f} seconds, and not within {most:.2f}")


def a_silent_client(program: str) -> None:
    """It is answered, says nothing more, and its connection ends in time: not earlier, and its worker is free then."""
    with HostileServer(program, hasty(HASTE), workers=PEERS, connections=2 * PEERS) as server:
        def silent(client: int) -> float:
            with server.connect() as peer:
                began = time.monotonic()
                peer.expect(hello(client), welcome(client))
                peer.expect_end()
                return time.monotonic() - began

        took = together(*(functools.partial(silent, client) for client in range(1, 1 + PEERS)))
        judge("a silent connection", took, SILENCE / HASTE, LATE * SILENCE / HASTE)
        for client in range(1, 1 + PEERS):
            server.greeted(client).close()
        server.judged({}, [])


def a_deaf_client(program: str) -> None:
    """It asks for long answers and reads none: the write that waits for it ends in time, and its worker is free then."""
    def deaf(_: int) -> float:
        with HostileServer(program, hasty(LITTLE_HASTE), workers=1, connections=2) as server:
            put, peek = Key(1, 1, 1, 1), Key(1, 1, 1, 2)
            asked = {put: give("put", "\x01" * 512), peek: {"call": "peek", "queue": 3}}
            with server.connect() as peer:
                began = time.monotonic()
                asking = threading.Thread(target=asks, args=(peer, asked, put, peek), daemon=True)
                asking.start()
                with server.connect() as other:
                    other.expect(hello(2), welcome(2))
                took = time.monotonic() - began
                asking.join(PATIENCE)
            server.judged(asked, [])
            return took

    took = together(*(functools.partial(deaf, number) for number in range(PEERS)))
    judge("a write that waits", took, DEAFNESS / LITTLE_HASTE, LATE_IN_PARTS * DEAFNESS / LITTLE_HASTE)


def asks(peer: Peer, asked: Asked, put: Key, peek: Key) -> None:
    """Asks for a long answer, again and again, as long as it can be sent."""
    with contextlib.suppress(OSError):
        peer.send(frame(hello(1)) + frame(request(put, asked[put])) + frame(request(peek, asked[peek])) * QUESTIONS)


class Mute(Listening):
    """Answers so many frames of each connection, by these answers, and then nothing more until the caller goes."""

    def __init__(self, answers: list[bytes]) -> None:
        super().__init__()
        self.answers = answers

    def meet(self, connection: socket.socket) -> None:
        with contextlib.suppress(OSError), Peer(connection) as peer:
            for answer in self.answers:
                peer.hear()
                peer.send(frame(answer))
            while peer.more():
                pass


def a_silent_server(program: str) -> None:
    """A caller that is not answered ends in time by a fault of its link: in its hello, and in a request."""
    took = together(*(lambda: mute(program, [], b"not welcome\n"),
                      lambda: mute(program, [welcome(2)], b"unsettled 1\n")) * PEERS)
    judge("a call that is not answered", took, NO_ANSWER / LITTLE_HASTE, LATE * NO_ANSWER / LITTLE_HASTE)


def mute(program: str, answers: list[bytes], printed: bytes) -> float:
    """The seconds that a caller takes which is told so much and no more, and must print this."""
    with Mute(answers) as listener:
        began, text = time.monotonic(), written(take("forever")).encode() + b"\n"
        with Caller(program, listener.port, 2, text, tries=3, env=hasty(LITTLE_HASTE).env) as caller:
            caller.judge(printed, 1)
        return time.monotonic() - began


def a_caller_at_busy_workers(program: str) -> None:
    """A caller whose server has no worker for it ends in time, and is served when it comes again behind those that were
    there."""
    text = written(give("put", "a")).encode() + b"\n"
    with HostileServer(program, System(), workers=1, connections=3) as server:
        with server.greeted(1):
            with Caller(program, server.port, 2, text, tries=3, env=hasty(HASTE).env) as caller:
                caller.judge(b"not welcome\n", 1)
        key = Key(1, 2, 1, 1)
        with Caller(program, server.port, 2, text, tries=3) as caller:
            caller.judge(replied(key, reply="done") + b"\n")
        server.judged({key: give("put", "a")}, [(key, {"reply": "done"})])


CASES = [a_silent_client, a_deaf_client, a_silent_server, a_caller_at_busy_workers]
