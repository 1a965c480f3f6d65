"""The program's processes: a server on a port of this machine, and a caller. None is left running."""
from __future__ import annotations

import collections
import contextlib
import os
import pathlib
import random
import re
import socket
import subprocess
import tempfile
import threading
import time
from collections.abc import Iterable, Iterator, Mapping, Sequence
from typing import Any, TypeVar

from tests.model.account import Account, Key
from tests.sockets.accounts import account_fault, read_account
from tests.sockets.wire import PATIENCE, Members, Peer, Wrong, demand, hello, members_of, record_line, until, welcome

PORTS = range(20_000, 32_000)
# The last that were given, which nobody may listen at yet.
GIVEN: collections.deque[int] = collections.deque(maxlen=100)
# How often another free port is tried, where somebody takes the one that was free.
TRIES = 5
# Whoever does nothing for so many seconds, and is not kept from it, rests.
REST = 0.05
Self = TypeVar("Self", bound="Process")


def free_port() -> int:
    """A port that nobody listens at. Below those that the machine gives to clients, so that no client gets it."""
    while True:
        port = random.choice(PORTS)
        if port in GIVEN:
            continue
        with socket.socket() as probe:
            try:
                probe.bind(("127.0.0.1", port))
            except OSError:
                continue
        GIVEN.append(port)
        return port


@contextlib.contextmanager
def taken_port() -> Iterator[int]:
    """A port at which nobody listens, nor can until the end of the block."""
    with socket.socket() as holder:
        holder.bind(("127.0.0.1", 0))
        yield holder.getsockname()[1]


def listens_at(pid: int, port: int) -> bool:
    """Whether a process has a listening TCP socket at a port of this machine: known without a fixed wait, so that a
    slow machine cannot have it missed."""
    try:
        own = {os.readlink(path) for path in paths_in(f"/proc/{pid}/fd")}
    except OSError:
        return False
    sockets = {name for name in own if name.startswith("socket:")}
    return bool(sockets) and any(sockets.intersection(listening(table, port)) for table in ("tcp", "tcp6"))


def listening(table: str, port: int) -> list[str]:
    """The names of the sockets that listen at a port, by one of the system's tables."""
    try:
        text = pathlib.Path(f"/proc/net/{table}").read_text()
    except OSError:
        return []
    # of thousands of rows those alone are taken apart that name the port, local or remote
    rows = [row.split() for row in text.splitlines() if f":{port:04X} " in row]
    return [f"socket:[{cells[9]}]" for cells in rows if cells[3] == "0A" and int(cells[1].rpartition(":")[2], 16) == port]


def paths_in(folder: str) -> list[str]:
    """The paths of what a folder has; none where it is gone. It is looked at often, of thousands of descriptors too."""
    try:
        return [f"{folder}/{name}" for name in os.listdir(folder)]
    except OSError:
        return []


def is_socket(path: str) -> bool:
    """Whether this descriptor of a process is a socket; not where it was closed meanwhile."""
    try:
        return os.readlink(path).startswith("socket:")
    except OSError:
        return False


class Process:
    """A process of the program. At the end of its block it is killed where it still runs."""

    def __init__(self, words: Sequence[str], **more: Any):
        self.words = words
        pipes: dict[str, Any] = {name: subprocess.PIPE for name in ("stdin", "stdout", "stderr")}
        self.process: subprocess.Popen[bytes] = subprocess.Popen(words, **{**pipes, **more})
        self.printed, self.said = b"", b""
        self.readers = [threading.Thread(target=read, daemon=True) for read in (self.read_printed, self.read_said)]
        for reader in self.readers:
            reader.start()

    def read_printed(self) -> None:
        while self.process.stdout and (piece := os.read(self.process.stdout.fileno(), 65_536)):
            self.printed += piece

    def read_said(self) -> None:
        while self.process.stderr and (piece := os.read(self.process.stderr.fileno(), 65_536)):
            self.said += piece

    def __enter__(self: Self) -> Self:
        return self

    def __exit__(self, *_: object) -> None:
        self.kill()

    def kill(self) -> None:
        """Ends the process, if it runs."""
        if self.process.poll() is None:
            self.process.kill()
        self.process.wait()
        for reader in self.readers:
            reader.join(PATIENCE)
        for stream in (self.process.stdin, self.process.stdout, self.process.stderr):
            try:
                if stream:
                    stream.close()
            except OSError:
                pass

    def runs(self) -> bool:
        """Whether the process has not ended."""
        return self.process.poll() is None

    def status(self, patience: float = PATIENCE) -> int:
        """The exit status; all that was printed and said is there then."""
        try:
            status = self.process.wait(patience)
        except subprocess.TimeoutExpired:
            raise Wrong(f"{self.words[1]} did not end within {patience} seconds") from None
        for reader in self.readers:
            reader.join(PATIENCE)
        return status


class Served(Process):
    """A program that serves, on a port that was free. A client that comes before it listens tries again."""

    # A client's end of a connection.
    peer = Peer
    # What it says where somebody took the port before it did.
    port_is_taken = b"address fault\n"

    def __init__(self, program: str, epoch: int, port: int | None = None, **more: Any):
        self.program, self.epoch, self.listens = program, epoch, False
        self.made, self.lock = 0, threading.Lock()
        for _ in range(TRIES):
            self.port = port or free_port()
            super().__init__([program, *self.command()], **more)
            if not self.taken():
                return
            self.kill()
        raise Wrong("no port is free")

    def command(self) -> list[str]:
        """The words behind the program's name."""
        raise NotImplementedError

    def written(self) -> bytes:
        """The bytes of its account."""
        return self.printed

    def ended(self, patience: float = PATIENCE) -> Account:
        """The account of all that it did, when it has ended, which must be a good one."""
        raise NotImplementedError

    def use_up(self) -> None:
        """Makes the connections that are left, so that it ends, or rests."""
        raise NotImplementedError

    def taken(self) -> bool:
        """Whether somebody took the port before the server did: it has not begun to listen, and soon ends."""
        until("the server listens, or ends", lambda: listens_at(self.process.pid, self.port) or not self.runs())
        return not self.runs() and self.status() == 1 and self.port_is_taken in self.said

    def connect(self, receive: int | None = None) -> Peer:
        """A connection to the server; `receive` is how many bytes the system is to keep for the client, at least."""
        ends = time.monotonic() + PATIENCE
        while True:
            connection = socket.socket()
            if receive:
                connection.setsockopt(socket.SOL_SOCKET, socket.SO_RCVBUF, receive)
            connection.settimeout(PATIENCE)
            listened = self.listens
            try:
                connection.connect(("127.0.0.1", self.port))
            except ConnectionRefusedError:
                connection.close()
                if listened or not self.runs() or time.monotonic() > ends:
                    raise
                time.sleep(0.005)
                continue
            self.listens = True
            with self.lock:
                self.made += 1
            return self.peer(connection)

    def greeted(self, client: int, incarnation: int = 1, version: int = 1) -> Peer:
        """A connection whose client was welcomed."""
        peer = self.connect()
        peer.expect(hello(client, incarnation, version), welcome(client, self.epoch, incarnation, version))
        return peer

    def waits(self) -> list[list[str]] | None:
        """How often each of its threads waited so far, where all of them do so now."""
        told = [pathlib.Path(path, "status").read_text() for path in paths_in(f"/proc/{self.process.pid}/task")]
        asleep = all("\nState:\tS" in text for text in told)
        return [re.findall(r"ctxt_switches:\t(\d+)", text) for text in told] if asleep else None

    def rests(self) -> bool:
        """Whether each of its threads waits, and went on waiting for a moment: it does nothing until something comes. That a
        slow machine lets a thread not run is no rest."""
        before = self.waits()
        time.sleep(REST)
        return before is not None and before == self.waits()

    def accepted(self) -> int:
        """How many connections it has accepted that are open; it listens."""
        return sum(map(is_socket, paths_in(f"/proc/{self.process.pid}/fd"))) - 1

    def judged(self, asked: Mapping[Key, Members], told: Iterable[tuple[Key, Members]], patience: float = PATIENCE) -> Account:
        """Ends with an account in which all that was told stands; `asked` has each key's call."""
        account = self.ended(patience)
        fault = account_fault(account, asked, told)
        demand(not fault, f"the account: {fault}")
        self.audited()
        self.verified(asked, told)
        return account

    def verified(self, asked: Mapping[Key, Members], told: Iterable[tuple[Key, Members]]) -> None:
        """By the program's own word the account must keep each reply that was told to one of these calls."""
        self.keeps(b"".join(record_line(key, asked[key], reply) for key, reply in told))

    def keeps(self, record: bytes) -> None:
        """By the program's own word the account must keep each line of the record."""
        with tempfile.TemporaryDirectory(prefix="rv-verify-") as folder:
            account, replies = pathlib.Path(folder, "account"), pathlib.Path(folder, "replies")
            account.write_bytes(self.written())
            replies.write_bytes(record)
            ran = subprocess.run([self.program, "verify", account, "--replies", replies], capture_output=True, timeout=4 * PATIENCE)
        demand((ran.returncode, ran.stderr) == (0, b""), f"rv verify says {ran.stdout[-2_000:]!r} and {ran.stderr!r}")

    def audited(self) -> None:
        """The program's own audit must find the account legal."""
        ran = subprocess.run([self.program, "audit"], input=self.written(), capture_output=True, timeout=4 * PATIENCE)
        told = (ran.stdout, ran.stderr, ran.returncode)
        demand(told == (b"legal\n", b"", 0), f"rv audit says {told} of the account")


class Server(Served):
    """A server of so many workers, which ends behind so many connections and then prints its account."""

    def __init__(self, program: str, workers: int, connections: int, epoch: int = 1, **more: Any):
        self.workers, self.connections = workers, connections
        super().__init__(program, epoch, **more)

    def command(self) -> list[str]:
        return ["serve", "--listen", f"127.0.0.1:{self.port}", "--epoch", str(self.epoch), "--workers", str(self.workers),
                "--connections", str(self.connections)]

    def use_up(self) -> None:
        """Makes the connections that are left, one by one, so that the server ends: it must serve these and no more."""
        ends, served = time.monotonic() + 4 * PATIENCE, self.made
        while True:
            demand(time.monotonic() < ends, f"{self.connections - served} connections are left and not served")
            try:
                with self.connect() as peer:
                    peer.end()
                    demand(not peer.more(), f"a connection that asked nothing was answered {peer.got!r}")
            except ConnectionError:
                break
            served += 1
        demand(served == self.connections, f"{served} connections were served, not {self.connections}")

    def ended(self, patience: float = PATIENCE) -> Account:
        """The account that the server printed at its end, which must be a good one."""
        status = self.status(patience)
        demand((status, self.said) == (0, b""), f"serve ended with status {status} and said {self.said!r}")
        account = read_account(self.printed)
        demand(account.epoch == self.epoch and account.opened == 0, "the account's first line is another")
        return account


class Caller(Process):
    """A caller, with these lines for its input. It may keep a record."""

    def __init__(self, program: str, port: int, client: int, lines: bytes, incarnation: int = 1, tries: int = 2 * PATIENCE,
                 speak: int = 1, record: str | os.PathLike[str] | None = None, **more: Any):
        super().__init__([program, *(["record", "--to", str(record)] if record else ["call"]), "--connect", f"127.0.0.1:{port}",
                          "--client", str(client), "--incarnation", str(incarnation), "--tries", str(tries), "--speak", str(speak)],
                         **more)
        assert self.process.stdin
        try:
            self.process.stdin.write(lines)
            self.process.stdin.close()
        except BrokenPipeError:
            pass

    def lines(self) -> list[bytes]:
        """The whole lines that were printed so far."""
        return self.printed.split(b"\n")[:-1]

    def judge(self, printed: bytes, status: int = 0, said: bytes = b"") -> None:
        """It must end so."""
        ended = self.status()
        got = (self.printed, ended, self.said)
        demand(got == (printed, status, said), f"call printed, ended with and said {got}, not {(printed, status, said)}")

    def replies(self) -> list[Members]:
        """The members of the answers that were printed."""
        return [members_of(line) for line in self.lines()]
