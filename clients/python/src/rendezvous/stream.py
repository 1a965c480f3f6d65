"""A course in an event loop of asyncio, and its connections. It has no thread; hosts' names are looked up as asyncio does."""
from __future__ import annotations

import asyncio
import contextlib
import os
import time
from typing import Optional, Tuple, cast

from .addresses import Server
from .bodies import NoAnswer
from .course import FOREVER, Channel, Course, Job
from .leases import Name
from .link import Inbox, frame_of
from .manner import Manner


class Connection(asyncio.Protocol):
    """A connection, as a course uses it. `news`: something came, or it ended, since it was looked at last."""

    def __init__(self, server: Server, course: "StreamCourse") -> None:
        self.server, self._course = server, course
        self.connected = self.used = self.news = False
        self._transport: Optional[asyncio.Transport] = None
        self._inbox = Inbox()
        self._fault: Optional[Exception] = None
        self._loop = asyncio.get_running_loop()
        self._made = self._loop.create_task(self._make())

    async def _make(self) -> None:
        """Connects, by each way to the server."""
        try:
            await self._loop.create_connection(lambda: self, *self.server)
        except OSError as fault:
            known = os.strerror(fault.errno) if fault.errno and fault.errno > 0 else fault.strerror or str(fault)
            self._end(OSError(fault.errno, f"{self.server}: {known.lower()}"))
        except asyncio.CancelledError:
            self._end(NoAnswer("the connection was given up"))
            raise
        except Exception as fault:
            self._end(fault)

    def connection_made(self, transport: asyncio.BaseTransport) -> None:
        self._transport, self.connected = cast(asyncio.Transport, transport), True
        self._tell()

    def data_received(self, data: bytes) -> None:
        self._inbox.add(data)
        self._tell()

    def connection_lost(self, exc: Optional[Exception]) -> None:
        self._end(exc or NoAnswer("the connection ended"))

    def _end(self, fault: Exception) -> None:
        """It is of no more use, for this reason or for one before it."""
        self._fault = self._fault or fault
        self._tell()

    def _tell(self) -> None:
        """There is news."""
        self.news = True
        self._course.wake()

    def go_on(self) -> Optional[bytes]:
        """An answer's body that has come whole."""
        self.news = False
        body = self._inbox.taken()
        if body is None and self._fault is not None:
            raise self._fault
        return body

    def say(self, body: bytes) -> None:
        """Sends a message."""
        assert self._transport is not None
        self.used = True
        self._transport.write(frame_of(body))

    def is_stale(self) -> bool:
        """Whether something is there though nothing is awaited: the peer's end, or an answer to nothing."""
        return bool(self._inbox) or self._fault is not None

    def close(self) -> None:
        """Throws it away; behind the end of its event loop that has done so."""
        if not self._loop.is_closed():
            self._made.cancel()
            if self._transport is not None:
                self._transport.abort()

    def let_go(self) -> None:
        """Throws it away, from any thread."""
        with contextlib.suppress(RuntimeError):
            self._loop.call_soon_threadsafe(self.close)


class StreamCourse(Course):
    """A course that waits in an event loop."""

    def __init__(self, servers: Tuple[Server, ...], name: Name, manner: Manner) -> None:
        super().__init__(servers, name, manner)
        self._ordered = False
        self._waker: "Optional[asyncio.Future[None]]" = None

    def _open(self) -> Channel:
        return Connection(self.server, self)

    def order(self) -> None:
        """Has what waits look at its job again."""
        self._ordered = True
        self.wake()

    def wake(self) -> None:
        """What waits is to look what came."""
        if self._waker is not None and not self._waker.done():
            self._waker.set_result(None)

    async def wait(self, moment: float) -> bool:
        """Waits until a moment, or until something comes; whether it is the connection's. Orders come first."""
        if not self._ordered and not self.has_news():
            await self._woken(moment)
        ordered, self._ordered = self._ordered, False
        return not ordered and self.has_news()

    async def _woken(self, moment: float) -> None:
        """Waits until a moment, or until something comes."""
        loop = asyncio.get_running_loop()
        waker = self._waker = loop.create_future()
        timer = None if moment == FOREVER else loop.call_later(max(0.0, moment - time.monotonic()), self.wake)
        try:
            await waker
        finally:
            if timer is not None:
                timer.cancel()
            if self._waker is waker:
                self._waker = None

    def has_news(self) -> bool:
        """Whether something came over the connection."""
        return isinstance(self._link, Connection) and self._link.news

    def end(self) -> None:
        """Throws the connection away, and gives the name back."""
        self.closing = True
        self._hang_up()
        self.name.close()


class UnderWay:
    """A job that was begun. Who waits for its next moment goes on with it: one task, and when that is cancelled another one."""

    def __init__(self, course: StreamCourse, job: Job) -> None:
        self.course, self.job, self._steps = course, job, course.steps(job)
        self.moment = FOREVER
        try:
            self.moment = next(self._steps)
        except StopIteration:
            pass

    @property
    def over(self) -> bool:
        """Whether it has ended."""
        return self.job.over

    def go_on(self, ready: bool) -> None:
        """Goes on until the next wait, or to the end; with `ready` false it only looks at its job and its times again."""
        try:
            self.moment = self._steps.send(ready)
        except StopIteration:
            pass

    def end(self, why: str) -> None:
        """Ends it by what is known, unless it has ended."""
        if not self.over:
            self.job.fault, self.job.tell_at = why, time.monotonic()
            self.go_on(False)


def let_go(course: StreamCourse) -> None:
    """Nobody has the session of this course any more."""
    course.closing = True
    course.name.close()
    if isinstance(course._link, Connection):
        course._link.let_go()
