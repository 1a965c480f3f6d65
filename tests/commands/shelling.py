"""Runs the commands of a shell, such as `rv take 3`: what each prints, says and ends with; servers that answer them by a script; and
what a live host's account tells of them."""
from __future__ import annotations

import contextlib
import os
import re
import socket
import subprocess
from collections.abc import Callable, Iterator, Sequence
from typing import IO, Any, NamedTuple

from tests.cases import Case, SideBySide
from tests.model import lines
from tests.model.account import Account, Key, Request
from tests.sockets.hosts import Host, HostProgram
from tests.sockets.listening import Listening
from tests.sockets.programs import Process
from tests.sockets.wire import PATIENCE, Members, Peer, demand, frame, key_of, members_of, refused, replied, until, waits, welcome

GREATEST = 9_007_199_254_740_991
# The exit statuses.
TOOK_PLACE, NO_SERVER, BAD_WORDS, NOBODY, TIMED_OUT, CANCELLED, NOT_KNOWN, REFUSED = range(8)
# The environment, in which no server is named, no client numbers, and no record.
NAMELESS = {name: value for name, value in os.environ.items() if name not in ("RV_SERVER", "RV_CLIENTS", "RV_RECORD")}


class Ran(NamedTuple):
    """What a command printed, said on standard error, and ended with."""

    printed: bytes
    said: bytes
    status: int


def done(printed: bytes, status: int = TOOK_PLACE) -> Ran:
    """A command that printed this and said nothing."""
    return Ran(printed, b"", status)


class Shell:
    """Runs commands at the server of this address; if there is none, at that of the environment."""

    def __init__(self, program: str, address: str | None = None, **environment: str):
        self.program, self.address, self.environment = program, address, {**NAMELESS, **environment}

    def front(self, command: str) -> list[str]:
        """The first words of a command: the program, the command, and the server if one is named."""
        return [self.program, command, *([] if self.address is None else ["--connect", self.address])]

    def ran(self, command: str, *words: str, given: bytes = b"", stdout: int | IO[bytes] = subprocess.PIPE) -> Ran:
        """Runs a command to its end, with what its standard input is given."""
        ran = subprocess.run([*self.front(command), *words], input=given, stdout=stdout, stderr=subprocess.PIPE,
                             env=self.environment, timeout=PATIENCE)
        return Ran(ran.stdout or b"", ran.stderr, ran.returncode)

    def began(self, command: str, *words: str, **more: Any) -> Process:
        """A command that runs beside what follows, and is killed at the end of its block, if it still runs."""
        return Process([*self.front(command), *words], env=self.environment, **more)


def writes(process: Process, data: bytes, ends: bool = False) -> None:
    """Gives a command that runs more of its standard input, which may end then."""
    assert process.process.stdin
    process.process.stdin.write(data)
    process.process.stdin.flush()
    if ends:
        process.process.stdin.close()


def ended(process: Process) -> Ran:
    """What came of a command that ran beside."""
    status = process.status()
    return Ran(process.printed, process.said, status)


# What answers a frame, by its members.
Answer = Callable[[Members], bytes]


class Scripted(Listening):
    """Answers the frames of each connection by the answers of this connection, one after another, and then ends it. A connection
    that no script tells of is refused at its hello. What was heard is kept, connection by connection; it is all there once the
    block has ended."""

    def __init__(self, *script: Sequence[Answer]):
        super().__init__()
        self.script, self.heard = script, list[list[Members]]()

    def meet(self, connection: socket.socket) -> None:
        heard: list[Members] = []
        at = len(self.heard)
        self.heard.append(heard)
        with contextlib.suppress(ConnectionError), Peer(connection) as peer:
            for answer in self.script[at] if at < len(self.script) else [refuses(9)]:
                body = peer.hear()
                if body is None:
                    return
                heard.append(members_of(body))
                peer.send(answer(heard[-1]))


def welcomes(epoch: int = 1) -> Answer:
    """The welcome of whoever says hello."""
    return lambda hello: frame(welcome(hello["client"], epoch, hello["incarnation"], hello.get("version", 1)))


def replies(**reply: object) -> Answer:
    """The reply of whatever is asked."""
    return lambda asked: frame(replied(key_of(asked), **reply))


def refuses(code: int, **detail: int) -> Answer:
    """A refusal."""
    return lambda _: frame(refused(code, **detail))


def still_waits(asked: Members) -> bytes:
    """The answer that a request still waits."""
    return frame(waits(key_of(asked)))


def sends(data: bytes) -> Answer:
    """Bytes, whatever came."""
    return lambda _: data


def torn(answer: Answer, most: int) -> Answer:
    """The first bytes of an answer, which breaks off."""
    return lambda heard: answer(heard)[:most]


def cut(_: Members) -> bytes:
    """No answer: the connection ends."""
    return b""


DONE = replies(reply="done")
ITEM = replies(reply="item", item="a")
LAPSED = replies(reply="timedout")
# What meets a command when it comes again after its request was cut, so that its outcome isn't known.
UNKNOWN: dict[str, list[Answer]] = {
    "a greater epoch": [welcomes(2)],
    "clients full": [refuses(9)],
    "a newer incarnation": [refuses(4, current=GREATEST)],
    "an epoch that is full": [welcomes(), refuses(10)],
    "an epoch that ended": [welcomes(), refuses(2, current=2)],
    "no session": [welcomes(), refuses(3)],
    "replaced": [welcomes(), refuses(4, current=GREATEST)],
}


def check_unknown(case: Case, name: str, ran: Ran, key: Key, printed: bytes = b"") -> None:
    """Checks that the outcome of this key's request isn't known, and that one line tells the key, and how to ask again, after what
    was printed before."""
    wanted = [f"client {key.client}", f"incarnation {key.incarnation}", f"epoch {key.epoch}", "rv call "]
    case.check_equal(f"{name}: printed, status, lines", (ran.printed, ran.status, ran.said.count(b"\n")), (printed, NOT_KNOWN, 1))
    case.check_equal(f"{name}: told", [words for words in wanted if not re.search(rf"{words}(?!\d)", ran.said.decode())], [])


def requests(host: Host) -> list[Request]:
    """The requests in the account of a host that runs, in the order in which they came."""
    return [entry.act for entry in account_of(host).entries if isinstance(entry.act, Request)]


def keys_and_items(host: Host) -> list[tuple[Key, str | None]]:
    """The keys and items of the requests that came to a host."""
    return [(asked.key, asked.call.item) for asked in requests(host)]


def account_of(host: Host) -> Account:
    """What the account of a host that runs tells so far: the last line may be half written."""
    text = host.written()
    account: Account = lines.read_account(text[: text.rfind(b"\n") + 1])
    return account


def asked_so_far(host: Host, count: int) -> list[Key]:
    """The keys of so many requests, once they have come."""
    until(f"{count} requests have come", lambda: len(requests(host)) >= count)
    return [request.key for request in requests(host)]


@contextlib.contextmanager
def live(program: str) -> Iterator[tuple[Host, Shell]]:
    """A host, and a shell at it. At the end its account must be legal."""
    with Host(HostProgram(program)) as host:
        yield host, Shell(program, f"127.0.0.1:{host.port}")
        host.ended()
        ran = Shell(program).ran("verify", str(host.file))
        demand(ran == done(b"legal\n"), f"rv verify says {ran} of the account")


class AtOnce(SideBySide):
    """Many of its cases at once, since they mostly wait."""

    at_once = 8
