"""A system that is hostile to the program: what is loaded before it, and how often it refuses."""
from __future__ import annotations

import contextlib
import mmap
import os
import struct
import tempfile
import unittest
from collections.abc import Callable, Iterator
from typing import IO, Any, ClassVar

from tests.faults import preload
from tests.sockets.hosts import Host, HostProgram, Start
from tests.sockets.programs import Server
from tests.sockets.wire import Peer

# What happens by odds, and the other numbers, in the order of the page; then how often each of the odds happened, how many
# reads and writes of sockets were asked for, how often epoll was asked to wait and how often it had nothing to tell while the
# steady clock stood, and the options of the socket that was read last.
ODDS = ("growth", "cut_read", "failed_read", "cut_write", "failed_write", "accept", "thread", "clock", "sleep")
NUMBERS = (*ODDS, "most", "growth_at", "read_at", "room", "calm", "thread_at", "haste", "kept", "disk", "wall",
           "stopped", "pace", "unstored")
WAYS = ("reads", "writes")
SEEN = ("polls", "rests", "keeps_alive", "user_time_out", "no_delay")
PAGE = struct.Struct(f"={len(NUMBERS) + len(ODDS) + len(WAYS) + len(SEEN)}I")
# Connections that a server may be asked for: it ends when so many could not be accepted.
CONNECTIONS = 100_000


class System:
    """How hostile the system is to a process. It is calm until it is told otherwise. A read or a write fails once in so
    many bytes, all else once in so many times."""

    folder: ClassVar[str | None] = None

    def __init__(self, seed: int = 1):
        file, name = tempfile.mkstemp(dir=System.folder)
        os.truncate(file, PAGE.size)
        self.page = mmap.mmap(file, PAGE.size)
        os.close(file)
        self.env = {**os.environ, **preload.switches(page=name, seed=seed)}

    def be(self, **numbers: int) -> None:
        """Sets these numbers, and all others to 0."""
        for at, name in enumerate(NUMBERS):
            self.page[4 * at : 4 * at + 4] = struct.pack("=I", numbers.get(name, 0) % 2**32)

    def number(self, name: str) -> int:
        """A number as it stands now."""
        return self.numbers()[NUMBERS.index(name)]

    def made(self, name: str) -> int:
        """How often something happened so far."""
        return self.numbers()[len(NUMBERS) + ODDS.index(name)]

    def asked(self) -> tuple[int, ...]:
        """How many reads and how many writes of sockets were asked for so far."""
        return self.numbers()[len(NUMBERS) + len(ODDS) :][: len(WAYS)]

    def seen(self, name: str) -> int:
        """What was seen of epoll, or of the socket that was read last."""
        return self.numbers()[-len(SEEN) :][SEEN.index(name)]

    def numbers(self) -> tuple[int, ...]:
        """All numbers of the page as they stand now."""
        return PAGE.unpack(self.page)


@contextlib.contextmanager
def systems() -> Iterator[None]:
    """Builds what is loaded before the program; systems can be made within, whose pages lie in a folder of their own."""
    preload.built()
    with tempfile.TemporaryDirectory(prefix="torture-") as folder:
        System.folder = folder
        yield


class InSystems(unittest.TestSuite):
    """Cases within which systems can be made."""

    def run(self, result: unittest.TestResult, debug: bool = False) -> unittest.TestResult:
        with systems():
            return super().run(result, debug)


@contextlib.contextmanager
def file_of(text: bytes) -> Iterator[IO[bytes]]:
    """An input with these bytes. A file gives them whole: how many growths its reading takes follows from their number,
    and not from the pieces in which a pipe would hand them over."""
    with tempfile.TemporaryFile() as file:
        file.write(text)
        file.seek(0)
        yield file


class LossyPeer(Peer):
    """A client's end of a connection that may break at any time. Where something can't be sent, the next answer tells."""

    def send(self, data: bytes) -> None:
        with contextlib.suppress(ConnectionError):
            super().send(data)

    def more(self) -> bool:
        if not super().more():
            raise ConnectionResetError("the connection ended")
        return True


class HostileServer(Server):
    """A server in a system of its own."""

    peer = LossyPeer

    def __init__(self, program: str, system: System, workers: int, connections: int = CONNECTIONS, epoch: int = 1, **more: Any):
        self.system = system
        super().__init__(program, workers, connections, epoch, env=system.env, **more)

    def no_more(self) -> None:
        """No connection can be accepted from now on, and no pause is made, so the server ends once those that are open did."""
        self.system.be(accept=1, sleep=1)
        with contextlib.suppress(ConnectionError):
            # The accept that waits already is not refused.
            self.connect().close()


class HostileHost(Host):
    """A host in a system of its own."""

    peer = LossyPeer

    def __init__(self, program: str, system: System, epoch: int | None = 1, **more: Any):
        self.system = system
        super().__init__(program, epoch, env=system.env, **more)

    def start_again(self, between: Callable[[], object] | None = None) -> Start:
        """It starts in a calm system, which is then as hostile as before."""
        numbers = dict(zip(NUMBERS, self.system.numbers()))
        self.system.be()
        start = super().start_again(between)
        self.system.be(**numbers)
        return start

    def no_more(self) -> None:
        """The system is calm from now on, and the host serves one more: it does not end by itself."""
        self.system.be()
        self.use_up()


def hostile_serving(program: str, system: System, workers: int, **more: Any) -> HostileServer | HostileHost:
    """A server in a system of its own: `rv serve` of so many workers, or of a HostProgram `rv host`."""
    if isinstance(program, HostProgram):
        return HostileHost(program, system, **more)
    return HostileServer(program, system, workers, **more)
