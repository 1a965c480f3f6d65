"""A test double of `rv host`, and of `rv verify` of an account alone, over the model's hub: for the tests of tests/host themselves.
double.sh beside it is the program, whose other commands are those of the double of tests/sockets.

RV_WRONG in the environment names what it does wrong; `python3 -m tests --selftest host` sees that a case fails for each of these.

usage: python3 -m tests.host.double host --listen ADDR [--epoch E] [--epoch-above N] [--account FILE] [--connections N] [--memory MIB]
       [--idle SECONDS] [--stall SECONDS] [--quiet]
"""
from __future__ import annotations

import argparse
import contextlib
import errno
import os
import pathlib
import selectors
import socket
import sys
import time
from dataclasses import dataclass, field

from tests.model import hub as model
from tests.model.hub_events import Came, Ended, Event, Gone, Opened, Passed, Terms, Took, Written
from tests.model.limits import Limits
from tests.model.lines import entry_line
from tests.model.records import parted
from tests.model.state import State
from tests.model.tables import table_audit
from tests.sockets.accounts import read_account

WRONG = os.environ.get("RV_WRONG", "")
PATIENCES = {"tells early that it waits": 5_000, "tells late that it waits": 25_000, "never tells that it waits": 10**9}
PATIENCE = PATIENCES.get(WRONG, 10_000)
# The bytes of a read, and the seconds between two looks at all connections, between two accepts without a descriptor, and for which
# it pauses where no more may be held.
READ, LOOK, AGAIN, FULL_PAUSE = 4_096, 0.5, 0.1, 0.01
# For how long one that is wrong rests in a turn: less than a host that rests is looked at.
NO_REST = 0.01


class HostEnds(Exception):
    """The line by which a host ends, of status 1."""


@dataclass
class Link:
    """A connection's socket, what of its input isn't taken, when it last heard and wrote, and when it last could not be read;
    when the first byte of its unfinished frame came, if it has one."""

    socket: socket.socket
    heard: float
    moved: float
    barred: float = 0.0
    pending: bytes = field(default=b"")
    first: float | None = None
    # whether the poll tells of it, and whether its input has ended
    polled: bool = True
    ended: bool = False


class DoubleHost:
    """A host: one thread, one poll."""

    def __init__(self, options: argparse.Namespace):
        self.options, self.again, self.looked = options, 0.0, 0.0
        self.links: dict[int, Link] = {}
        # how many bytes were unread when all were looked at
        self.unread = 0
        # how many bytes are held in all, as a turn goes on, and since when they are more than may be
        self.total = 0
        self.full: float | None = None
        self.began = self.clock()
        self.epoch = self.chosen_epoch()
        self.listener = self.listening()
        self.account = self.made(options.account) if options.account else None
        self.unwritten: list[bytes] = []
        self.hub = model.Hub(Terms(Limits(2**53 - 1, 65_536, 100_000), PATIENCE, self.account is not None))
        self.hub.state = State(self.epoch, 0)
        self.poll, self.nothing = selectors.DefaultSelector(), selectors.DefaultSelector()
        self.poll.register(self.listener, selectors.EVENT_READ)
        self.listens = True
        self.write_account([b"epoch %d opened 0\n" % self.epoch])
        self.say(f"listens on {options.listen}, epoch {self.epoch}: {options.connections} connections")

    def clock(self) -> float:
        """The seconds by which moments are told."""
        return time.time() if WRONG == "has moments by the wall clock" else time.monotonic()

    def chosen_epoch(self) -> int:
        """The epoch by the options and the wall clock."""
        if self.options.epoch or WRONG == "takes any epoch":
            return self.options.epoch or 1
        return max(int(time.time() * 1000), (self.options.epoch_above or 0) + 1)

    def listening(self) -> socket.socket:
        """The listener."""
        host, _, port = self.options.listen.rpartition(":")
        try:
            listener = socket.create_server((host, int(port)), backlog=4_096)
        except OSError as fault:
            raise HostEnds(f"{self.options.listen}: {'address in use' if fault.errno == errno.EADDRINUSE else fault}") from None
        listener.setblocking(False)
        return listener

    @staticmethod
    def made(path: str) -> int:
        """The account's file, which may not be there."""
        try:
            return os.open(path, os.O_WRONLY | os.O_CREAT | (0 if WRONG == "takes up a file that is there" else os.O_EXCL), 0o600)
        except OSError as fault:
            raise HostEnds(f"{path}: {fault.strerror}") from None

    def say(self, line: str) -> None:
        """Says a line, and waits for nobody who is to read it."""
        if self.options.quiet and WRONG != "is never quiet":
            return
        os.set_blocking(2, WRONG == "waits for who reads what it says")
        with contextlib.suppress(BlockingIOError):
            os.write(2, line.encode() + b"\n")

    # ---- one turn

    def run(self) -> None:
        """Turns for ever."""
        while True:
            events = self.events()
            self.total = self.held_in_all()
            self.bar()
            self.tell(Passed())
            # whoever connected last is read first, since the room may be for one alone
            for key, mask in sorted(events, key=lambda event: event[0].data or 0, reverse=True):
                if key.fileobj is self.listener:
                    self.accept()
                elif mask & selectors.EVENT_READ:
                    self.read(key.data)
            if not self.listens and time.monotonic() >= self.again and self.has_room():
                self.listens = True
                self.poll.register(self.listener, selectors.EVENT_READ)
            self.flush()
            for number in list(self.links):
                self.write(number)
            self.look_over()
            for number in list(self.links):
                self.heed(number)

    def events(self) -> list[tuple[selectors.SelectorKey, int]]:
        """What the poll tells; where no more may be held, only who comes, after a pause, since nobody is read."""
        if not self.is_full():
            return self.poll.select(self.wait())
        self.nothing.select(FULL_PAUSE)
        return [(key, mask) for key, mask in self.poll.select(0) if key.fileobj is self.listener]

    def heed(self, number: int) -> None:
        """The poll tells of a connection as long as it may be read."""
        link, view = self.links[number], self.hub.view(number)
        may_be = view is not None and view.may_offer and not link.pending and not link.ended
        if may_be == link.polled or WRONG == "ends a connection with its input":
            return
        link.polled = may_be
        if may_be:
            self.poll.register(link.socket, selectors.EVENT_READ, number)
        else:
            self.poll.unregister(link.socket)

    def bar(self) -> None:
        """Who could not be read until now has all its time from now on."""
        for number, link in self.links.items():
            view = self.hub.view(number)
            if link.pending or self.is_full() or (view is not None and not view.may_offer):
                link.barred = time.monotonic()

    def wait(self) -> float:
        """For how long nothing is to be done."""
        moment = self.hub.next_moment
        late = 1_000 if WRONG == "polls past the end of a wait" else 0
        ends = LOOK if moment is None else min(LOOK, max(0, moment + late - self.moment()) / 1_000)
        if any(self.has_more(number) for number in self.links):
            return NO_REST if WRONG == "turns while a peer is blocked" else 0.0
        return ends if self.listens or WRONG == "spins without descriptors" else min(ends, AGAIN)

    def has_more(self, number: int) -> bool:
        """Whether something is to be done for a connection at once."""
        link, view = self.links[number], self.hub.view(number)
        if WRONG == "turns while a peer is blocked" and view is not None and view.ready:
            return True
        return view is not None and view.may_offer and len(link.pending) > 0

    def moment(self) -> int:
        """The milliseconds since the start; where the clock shows whole ones, exactly these."""
        return int(round((self.clock() - self.began) * 1_000, 3))

    def tell(self, event: Event) -> int:
        """Hands an event on to the hub."""
        early = 1_000 if WRONG == "ends waits early" else 0
        came = self.hub.handle(self.moment() + early, event)
        if not isinstance(came, model.Outcome):
            return 0
        self.unwritten += [entry_line(entry) + b"\n" for entry in came.entries]
        return came.result

    def flush(self) -> None:
        """Writes the entries of a turn, and tells the hub."""
        if self.account is None:
            self.unwritten.clear()
            return
        if WRONG == "writes its account late":
            # the last 50 are never written, so that whenever it is killed some that were told are not there
            lines, self.unwritten = self.unwritten[:-50], self.unwritten[-50:]
            self.write_account(lines)
            self.tell(Written(self.hub.state.length))
            return
        lines, self.unwritten = self.unwritten, []
        if WRONG == "answers before it writes":
            self.tell(Written(self.hub.state.length))
            for number in list(self.links):
                self.write(number)
        self.write_account(lines)
        self.tell(Written(self.hub.state.length))

    def write_account(self, lines: list[bytes]) -> None:
        """Writes lines of the account, or ends."""
        data = b"".join(lines)
        while data and self.account is not None:
            try:
                data = data[os.write(self.account, data):]
            except OSError as fault:
                if WRONG == "goes on when the disk is full":
                    return
                raise HostEnds("it ends" if WRONG == "does not say which file is full"
                               else f"{self.options.account}: {fault.strerror}") from None

    # ---- connections

    def has_room(self) -> bool:
        """Whether one more connection may be there."""
        return len(self.links) < self.options.connections or WRONG == "takes more than its connections"

    def accept(self) -> None:
        """Accepts one that waits."""
        if not self.has_room():
            return self.pause()
        try:
            link, _ = self.listener.accept()
        except BlockingIOError:
            return None
        except OSError as fault:
            if fault.errno in (errno.EMFILE, errno.ENFILE) and WRONG != "spins without descriptors":
                self.pause()
            return None
        link.setblocking(False)
        self.set_options(link)
        number = self.tell(Opened())
        now = time.monotonic()
        self.links[number] = Link(link, now, now)
        self.poll.register(link, selectors.EVENT_READ, number)
        return None

    @staticmethod
    def set_options(link: socket.socket) -> None:
        """Lets no packet wait, and gives up a peer that is gone, or takes nothing for a minute."""
        link.setsockopt(socket.SOL_SOCKET, socket.SO_KEEPALIVE, 1)
        link.setsockopt(socket.IPPROTO_TCP, socket.TCP_NODELAY, WRONG != "lets packets wait")
        if WRONG != "has no user time-out":
            # mypy's types of the library don't know this option
            link.setsockopt(socket.IPPROTO_TCP, socket.TCP_USER_TIMEOUT, 60_000)  # type: ignore[attr-defined, unused-ignore]

    def pause(self) -> None:
        """Accepts nobody for a while."""
        self.poll.unregister(self.listener)
        self.listens, self.again = False, time.monotonic() + (10**9 if WRONG == "never accepts again" else AGAIN)

    def read(self, number: int) -> None:
        """Reads once, and offers what came."""
        link, view = self.links.get(number), self.hub.view(number)
        if WRONG == "ends a connection with its input" and link is not None and self.has_ended(link):
            return self.drop(number)
        if link is None or view is None or not view.may_offer or link.pending or self.is_full():
            return
        try:
            piece = link.socket.recv(READ)
        except BlockingIOError:
            return
        except OSError:
            if WRONG == "ends at a reset":
                raise HostEnds("a link broke") from None
            return self.drop(number)
        if piece:
            self.total += len(piece)
            link.heard, link.pending = time.monotonic(), piece
            self.offer(number)
        else:
            self.poll.unregister(link.socket)
            link.ended, link.polled = True, False
            self.tell(Ended(number))

    @staticmethod
    def has_ended(link: Link) -> bool:
        """Whether nothing more comes on a link."""
        with contextlib.suppress(OSError):
            return not link.socket.recv(1, socket.MSG_PEEK)
        return False

    def offer(self, number: int) -> None:
        """Offers what came and isn't taken yet."""
        link, view = self.links[number], self.hub.view(number)
        if view is not None and view.may_offer and link.pending:
            taken, before = self.tell(Came(number, link.pending)), view.unread
            after = self.hub.view(number)
            goes_on = after is not None and 0 < before < after.unread and after.unread == before + taken
            if not goes_on or WRONG == "counts each byte as a first":
                link.first = time.monotonic()
            link.pending = b"" if WRONG == "loses what stands behind a wait" else link.pending[taken:]

    def write(self, number: int) -> None:
        """Writes once what may leave; a connection that the hub closed is let go."""
        link, view = self.links[number], self.hub.view(number)
        if view is None:
            return self.let_go(number)
        if not view.ready:
            link.moved = time.monotonic()
            return self.offer(number)
        try:
            count = link.socket.send(view.ready[:READ])
        except BlockingIOError:
            return
        except OSError:
            return self.drop(number)
        link.moved = time.monotonic()
        self.tell(Took(number, count))
        self.offer(number)

    def drop(self, number: int) -> None:
        """A connection whose peer is gone."""
        if WRONG == "forgets who is gone":
            link = self.links[number]
            if link.polled:
                self.poll.unregister(link.socket)
            link.ended, link.polled = True, False
            return
        self.tell(Gone(number))
        self.let_go(number)

    def let_go(self, number: int) -> None:
        link = self.links.pop(number)
        with contextlib.suppress(KeyError, ValueError):
            self.poll.unregister(link.socket)
        link.socket.close()

    # ---- what ends by time, or holds too much

    def look_over(self) -> None:
        """Ends those that hold most, and now and then those that stall or are idle."""
        self.make_room()
        now = time.monotonic()
        if now < self.looked + LOOK:
            return
        self.looked = now
        for number in [number for number in self.links if self.is_over(number, now)]:
            self.drop(number)
        if WRONG == "counts what was answered":
            self.unread = max(self.unread, sum(view.unread for number in self.links if (view := self.hub.view(number)) is not None))

    def held(self) -> dict[int, int]:
        """How many bytes are held of each connection."""
        answers = WRONG != "counts no answers"
        return {number: len(link.pending) + view.unread + view.held * answers for number, link in self.links.items()
                if (view := self.hub.view(number)) is not None}

    def held_in_all(self) -> int:
        """How many bytes are held of all connections."""
        return self.unread + sum(self.held().values())

    def is_full(self) -> bool:
        """Whether more is held than may be, as far as is known in this turn."""
        return self.total > self.options.memory << 20

    def make_room(self) -> None:
        """Ends those that hold most, where all have held too much for as long as a peer may stall."""
        now, self.total = time.monotonic(), self.held_in_all()
        if not self.is_full():
            self.full = None
            return
        self.full = now if self.full is None else self.full
        if now - self.full < self.options.stall:
            return
        held, self.full = self.held(), None
        while self.unread + sum(held.values()) > self.options.memory << 20 and held and WRONG != "closes nobody who holds much":
            number = max(held, key=lambda number: held[number])
            if WRONG == "closes the first who holds anything":
                number = next(number for number in held if held[number])
            del held[number]
            self.drop(number)
            if WRONG == "closes all that hold anything":
                for number in [number for number, size in held.items() if size]:
                    self.drop(number)
                held.clear()
        self.total = self.held_in_all()

    def is_over(self, number: int, now: float) -> bool:
        """Whether a connection's time is over."""
        link, view = self.links[number], self.hub.view(number)
        now -= 10 if WRONG == "ends late by time" else 0
        if view is None:
            return False
        if view.ready:
            return now - link.moved >= self.options.stall and WRONG != "keeps who takes no answer"
        if view.waits and WRONG != "ends who waits":
            return False
        since = link.heard if WRONG in ("counts from the last read", "ends who waits") else max(link.heard, link.barred)
        if view.unread or link.pending:
            first = since if link.first is None else max(link.first, link.barred)
            return now - min(since, first) >= self.options.stall and WRONG != "keeps half a frame"
        return now - since >= self.options.idle and WRONG != "keeps who is idle"


def verify(path: str) -> int:
    """What an account alone is: legal or not, and torn or not; the status. Its last line may lack its line feed."""
    whole, torn = parted(pathlib.Path(path).read_bytes())
    legal = table_audit(read_account(whole.removesuffix(b"\n") + b"\n")) is None
    print("legal" if legal else "fault", *["torn end"] * torn, sep="\n")
    return 3 if torn else int(not legal)


def options_of(words: list[str]) -> argparse.Namespace:
    """The options of a host."""
    parser = argparse.ArgumentParser()
    for name, most in [("listen", None), ("account", None), ("epoch", 0), ("epoch-above", 0), ("connections", 10_000),
                       ("memory", 256), ("idle", 3_600), ("stall", 30)]:
        parser.add_argument(f"--{name}", type=str if most is None else int, default=most)
    parser.add_argument("--quiet", action="store_true")
    return parser.parse_args(words)


def main() -> None:
    words = sys.argv[1:]
    if words[:1] == ["verify"] and len(words) == 2:
        sys.exit(verify(words[1]))
    try:
        DoubleHost(options_of(words[1:])).run()
    except HostEnds as end:
        print(end, file=sys.stderr)
        sys.exit(1)


if __name__ == "__main__":
    main()
