"""The client for asyncio: a session whose calls are awaited, with the names, results and exceptions of `rendezvous.Session`.

    from rendezvous import aio

    async with aio.Session("127.0.0.1:7411") as session:
        print("took", await session.take(3))

A task may be cancelled while it waits in a call, as `asyncio.wait_for` does: CancelledError goes on at once, and the session
cancels the request by itself. What comes of that is settled before the next request is sent. An item that was met before is
never dropped: the next `take`, `poll`, `drain` or `items` of its queue gives it, and until then it stands in `unclaimed()`, also
after `close`. Each item is given once.
"""
from __future__ import annotations

import asyncio
import contextlib
import os
import time
import weakref
from functools import partial
from types import TracebackType
from typing import Any, AsyncIterator, Callable, Iterable, List, Optional, Tuple, Type, Union, cast

from . import errors, machine as m
from .addresses import Address, Server, target_of
from .bodies import Members
from .calls import UNGIVEN, Wait, checked, made
from .course import Job, Running
from .endings import (
    Result, counts_of, ending, item_if_any, item_of, items_of, itself, known_of, nothing, receipt_if_any, receipt_of)
from .leases import name_of
from .manner import Left, Retry, manner_of
from .record import Path
from .replies import Counted, Key, Outcome, Receipt
from .shown import shown
from .spread import Spread
from .stream import StreamCourse, UnderWay, let_go
from .unclaimed import NotThere, Shelf, Unclaimed

__all__ = ["Items", "Session", "Shards"]

# How many seconds a close waits for what a request comes to whose task was cancelled.
FAREWELL = 1.0


class Session:
    """One client in one incarnation, in one event loop. Its numbers, its version, its times, its record and how it renews itself
    are as those of `rendezvous.Session`; the event loop writes the record, and waits for that.

    It asks one request at a time: a second task that calls meanwhile gets `Misused` at once, for it might wait for ever behind a
    take. Tasks have a session each. Behind a call whose task was cancelled, the next call waits until it is known what that
    request came to, as long as its own time and the session's patience allow; then it is `NotAsked`. Where the request before
    it ended the session or could not be recorded, the next call raises what is known of that one, by its key, and asks nothing.
    """

    def __init__(self, address: Optional[Address] = None, client: Optional[int] = None, incarnation: Optional[int] = None, *,
                 clients: Optional[range] = None, version: Optional[int] = None, patience: Union[float, None, Left] = Left.OUT,
                 retry: Optional[Retry] = None, answer: float = 30.0, record: Optional[Path] = None,
                 connect_timeout: Optional[float] = 5.0, renew: bool = False, presence: Optional[float] = None) -> None:
        servers, options = target_of(address)
        checked(not renew or incarnation is None, UNGIVEN)
        manner = manner_of(options, version, patience, retry, answer, connect_timeout, record, renew, presence)
        self.patience = manner.retry.patience
        self._process = os.getpid()
        self._course = StreamCourse(servers, name_of(client, incarnation, clients, options.client), manner)
        self._event_loop: Optional[asyncio.AbstractEventLoop] = None
        self._closed = False
        # the call whose task waits; what it asks, or what a call left whose task was cancelled, with the task that settles that
        self._job: Optional[Job] = None
        self._left: Optional[UnderWay] = None
        self._settling: "Optional[asyncio.Task[None]]" = None
        # that no call runs any more, and that the session is closed, where somebody waits for that
        self._idle: "Optional[asyncio.Future[None]]" = None
        self._ended: "Optional[asyncio.Future[None]]" = None
        self._shelf = Shelf()
        self._loop: "Callable[[], Optional[Items]]" = no_loop
        weakref.finalize(self, let_go, self._course)

    def __repr__(self) -> str:
        """Its address, client and epoch, and what runs."""
        return shown("aio.Session", vars(self).get("_course"), vars(self).get("_closed", False), vars(self).get("_job"))

    async def __aenter__(self) -> "Session":
        try:
            await self.connect()
        except BaseException:
            self._closed = True
            self._end()
            raise
        return self

    async def __aexit__(self, kind: Optional[Type[BaseException]], fault: Optional[BaseException],
                        trace: Optional[TracebackType]) -> None:
        await self._close()
        if kind is None:
            self._tell_left()

    async def connect(self) -> None:
        """Says hello, again and again, until the welcome comes. Every call does so by itself where need be."""
        await self._call(None, nothing)

    async def close(self) -> None:
        """Closes the connection, for good, ends the call that runs by what is known, and gives a leased number back. The request
        of that call, and one that was given up, is cancelled, and what it comes to is waited for, for up to a second: what
        it took stands in `unclaimed()`. One that is unsettled then stands in `unsettled`, and goes on standing in the server,
        until a greater incarnation says hello, as the next session does that leases the number. `NotRecorded` where what was
        waited for could not be recorded, unless the end of a block by an exception closes the session."""
        await self._close()
        self._tell_left()

    async def _close(self) -> None:
        """Closes, and tells nothing. Who closes it meanwhile waits for the same end."""
        if os.getpid() != self._process:
            return
        if self._closed:
            if self._ended is not None and not self._ended.done():
                await asyncio.wait([self._ended])
            return
        self._closed, self._ended = True, asyncio.get_running_loop().create_future()
        self._stop_settling()
        try:
            await self._say_farewell(self._job is not None)
        finally:
            self._end()
            self._ended.set_result(None)

    async def _say_farewell(self, runs: bool) -> None:
        """Ends the call that runs, and waits for what its request comes to, or one that was given up."""
        if runs:
            self._idle = asyncio.get_running_loop().create_future()
            self._course.wake()
            await asyncio.wait([self._idle], timeout=FAREWELL)
        machine = self._course.machine
        if machine.state is not m.State.OUTSTANDING or not (runs or machine.giving_up):
            return
        if self._left is None or self._left.over:
            self._left = self._resuming()
        self._left.job.give_up(FAREWELL)
        self._go_on(self._left, False)
        await self._to_its_end(self._left)

    def _end(self) -> None:
        """Nothing is asked any more. An answer that is here already comes first."""
        self._stop_settling()
        if self._left is not None and self._course.has_news():
            self._go_on(self._left, True)
        self._course.closing = True
        if self._left is not None:
            self._go_on(self._left, False)
        self._course.order()
        self._course.end()

    @property
    def servers(self) -> Tuple[Server, ...]:
        """The servers that its address names."""
        return self._course.servers

    @property
    def address(self) -> Server:
        """The server of these that was reached last, or is tried."""
        return self._course.server

    @property
    def client(self) -> int:
        """The session's client number."""
        return self._course.name.client

    @property
    def incarnation(self) -> int:
        """The start of that client which this session is."""
        return self._course.name.incarnation

    @property
    def epoch(self) -> Optional[int]:
        """The server's epoch; None before the welcome, and where all numbers are used up."""
        key = self._course.machine.key
        return key.epoch if key else None

    @property
    def last(self) -> Optional[Outcome]:
        """What the last request that was settled came to, with its key: also one whose task was cancelled."""
        return self._course.last

    @property
    def unsettled(self) -> Optional[Key]:
        """The key of a request that was sent and has no outcome yet: that of the call that runs, or one that was left; also
        after `close`. None where there is none."""
        return self._course.unsettled

    @property
    def running(self) -> Optional[Running]:
        """The call that runs now; None where none does, also where the request of a cancelled task is settled."""
        return None if self._job is None else Running(self._job, self._course.order)

    # ---- calls

    async def put(self, queue: int, item: str, timeout: Optional[float] = None) -> None:
        """The item goes to the tail of the queue; nobody is waited for. A full server is asked again for `timeout` seconds,
        or as long as the session's patience; then this is `Full`."""
        await self._call(made("put", queue, item), nothing, timeout)

    async def transfer(self, queue: int, item: str) -> Receipt:
        """Waits until a consumer was assigned the item. The receipt names that consumer's request."""
        return await self._call(made("transfer", queue, item, Wait.FOREVER), receipt_of)

    async def try_transfer(self, queue: int, item: str, timeout: Optional[float] = None) -> Optional[Receipt]:
        """Hands the item over if a consumer waits, or comes within `timeout` seconds; else None, and nobody gets it."""
        call = made("transfer", queue, item, Wait.NOW if timeout is None else timeout)
        return await self._call(call, receipt_if_any, timeout)

    async def take(self, queue: int) -> str:
        """The oldest item, waiting for one if need be."""
        return await self._call(made("take", queue, Wait.FOREVER), item_of, kept=partial(self._kept, queue))

    async def poll(self, queue: int, timeout: Optional[float] = None) -> Optional[str]:
        """The oldest item, if one is there or comes within `timeout` seconds; else None."""
        call = made("take", queue, Wait.NOW if timeout is None else timeout)
        return await self._call(call, item_if_any, timeout, partial(self._kept, queue))

    def items(self, queue: int) -> "Items":
        """The items of a queue, one take behind another, for `async for`. It ends by its own `stop()`, which is for handlers of
        `loop.add_signal_handler`, and where a `cancel()` ends its take or comes between two calls. An item that was met before
        is still given, and the loop ends behind it. Whatever else ends a take is raised."""
        return Items(self, queue)

    async def drain(self, queue: int, max: int) -> List[str]:
        """Up to `max` of the oldest items, 1 to 16, oldest first; it never waits, so there may be none. They are taken in
        one step of the server. Where `unclaimed()` has items of the queue, it gives up to `max` of these alone."""
        return await self._call(made("drain", queue, max), items_of, kept=partial(self._several, queue, max))

    async def exchange(self, exchanger: int, item: str, timeout: Optional[float] = None) -> str:
        """The partner's object for this one. `TimedOut` where nobody came within `timeout` seconds. The object of an exchange
        that was met though its task was cancelled stands in `unclaimed()`."""
        call = made("swap", exchanger, item, Wait.FOREVER if timeout is None else timeout)
        return await self._call(call, item_of, timeout)

    async def count(self, queue: int) -> Counted:
        """The items and the waiting consumers of a queue, exact in the step that answers."""
        return await self._call(made("count", queue), counts_of)

    async def peek(self, queue: int) -> Optional[str]:
        """The oldest item, which stays; None where there is none."""
        return await self._call(made("peek", queue), item_if_any)

    async def again(self, timeout: Optional[float] = None) -> Outcome:
        """What the request came to that an exception left unsettled, or whose task was cancelled: a value that has its key. It is
        `Misused` where an item of it was given."""
        return await self._resumed(timeout, False)

    async def give_up(self, timeout: Optional[float] = None) -> Outcome:
        """Cancels the request that an exception left unsettled, and gives what it came to, which is not always that it was
        cancelled."""
        return await self._resumed(timeout, True)

    def cancel(self) -> bool:
        """Gives the call up that runs now; where none runs, it ends the loop over `items` that is under way. False
        where there is neither. It is called in the session's event loop, by any task or by a handler of
        `loop.add_signal_handler`."""
        running, loop = self.running, self._loop()
        return running is not None and running.cancel() or loop is not None and loop.stop()

    # ---- what no call gave

    def unclaimed(self) -> List[Unclaimed]:
        """The items that requests took whose tasks were cancelled, oldest first: each until a call gives it, or `claim` takes
        it out, also behind `close`. What was taken has its `queue`, the object of an exchange has its `exchanger` instead."""
        return self._shelf.listed()

    def claim(self, one: Unclaimed) -> str:
        """Takes one of `unclaimed()` out, and gives its item, which nothing else gives any more. ValueError where it isn't there
        any more. `NotRecorded`, which has all that the request took, where that could not be recorded."""
        fault = self._left.job.unrecorded if self._left is not None else None
        if fault is not None and fault.outcome.key == one.key:
            self._tell_left()
        try:
            return self._shelf.claim(one)
        except NotThere as absent:
            raise ValueError(str(absent)) from None

    def _kept(self, queue: int) -> Optional[str]:
        """The oldest unclaimed item of a queue, which is given now."""
        one = self._shelf.first(queue)
        return None if one is None else self._shelf.claim(one)

    def _several(self, queue: int, most: int) -> Optional[List[str]]:
        """The oldest unclaimed items of a queue, which are given now."""
        found = [one for one in self._shelf.listed() if one.queue == queue][:most]
        return [self._shelf.claim(one) for one in found] or None

    # ---- how a call is asked

    async def _call(self, call: Optional[Members], result: Callable[[Outcome], Result], own: Optional[float] = None,
                    kept: "Optional[Callable[[], Optional[Result]]]" = None) -> Result:
        """Asks one call, and gives its result, or what is kept for it."""
        return await self._asked(Job(call, own, self.patience), result, kept)

    async def _asked(self, job: Job, result: Callable[[Outcome], Result],
                     kept: "Optional[Callable[[], Optional[Result]]]" = None) -> Result:
        """Has a job done behind what was left, and gives its result, or what is kept for it."""
        self._begin(job)
        try:
            await self._settled(job)
            found = kept() if kept is not None else None
            return found if found is not None else await self._given(UnderWay(self._course, job), result)
        finally:
            self._finish()

    def _begin(self, job: Job) -> None:
        """This call runs, if none does."""
        loop = asyncio.get_running_loop()
        if os.getpid() != self._process:
            raise errors.Misused(f"this session is of process {self._process}: behind a fork make one anew")
        if self._event_loop not in (None, loop):
            raise errors.Misused("this session is of another event loop: make one for each")
        if self._closed:
            raise errors.Misused("the session is closed")
        if self._job is not None:
            raise errors.Misused("a session asks one request at a time: another call of it runs")
        self._event_loop, self._job = loop, job

    def _finish(self) -> None:
        """No call runs any more."""
        self._job = None
        if self._idle is not None and not self._idle.done():
            self._idle.set_result(None)

    async def _given(self, under_way: UnderWay, result: Callable[[Outcome], Result]) -> Result:
        """Goes on with a job to its end, and gives its result. Where the task is cancelled, so is the request; where the session
        is closed, the job ends by what is known."""
        self._left = under_way
        try:
            while not under_way.over:
                under_way.go_on(await self._course.wait(under_way.moment))
                if self._closed:
                    under_way.end("the session was closed")
        except BaseException:
            self._leave(under_way)
            raise
        self._left = None
        self._tell_unrecorded(under_way)
        value, fault = ending(under_way.job, result)
        if fault is not None:
            raise fault
        return cast(Result, value)

    def _tell_left(self) -> None:
        """Raises that what was left was not recorded, where that is so."""
        if self._left is not None:
            self._tell_unrecorded(self._left)

    def _tell_unrecorded(self, under_way: UnderWay) -> None:
        """Raises that a reply was not recorded, where that is so: once, and then nothing else tells the outcome."""
        fault, under_way.job.unrecorded = under_way.job.unrecorded, None
        if fault is not None:
            self._shelf.forget(fault.outcome.key)
            raise fault

    async def _resumed(self, timeout: Optional[float], gives_up: bool) -> Outcome:
        """Goes on with what is unsettled: what a cancelled task left, or the machine's request."""
        left, job = self._left, Job(None, timeout, self.patience, resumes=True)
        if left is not None and not isinstance(left.job.told, m.Unsettled) and not self._shelf.lacks(left.job):
            job = left.job
        self._begin(job)
        job.limit(timeout)
        try:
            self._stop_settling()
            if gives_up:
                job.cancelled = job.given_up = True
            # what it took is this call's again
            self._shelf.give_back(job)
            under_way = left if left and left.job is job else UnderWay(self._course, job)
            under_way.go_on(False)
            return await self._given(under_way, itself)
        finally:
            self._finish()

    # ---- what a cancelled task left

    def _leave(self, under_way: UnderWay) -> None:
        """Its task has gone, and another one settles it, or the close that waits; an answer that is here already comes first."""
        under_way.job.given_up = True
        if self._course.has_news():
            self._go_on(under_way, True)
        self._go_on(under_way, False)
        if not under_way.over and not self._closed and self._event_loop and not self._event_loop.is_closed():
            self._settling = self._event_loop.create_task(self._to_its_end(under_way))

    def _go_on(self, left: UnderWay, ready: bool) -> None:
        """Goes on with what was left. As it ends, what it took stands unclaimed: that happens here alone."""
        if not left.over:
            left.go_on(ready)
            self._shelf.keep(left.job)

    async def _to_its_end(self, left: UnderWay) -> None:
        """Goes on with what was left until it has ended. It may be cancelled at any time, and gone on with elsewhere."""
        while not left.over:
            self._go_on(left, await self._course.wait(left.moment))

    def _stop_settling(self) -> None:
        """Whoever calls this goes on with what was left."""
        task, self._settling = self._settling, None
        if task is not None:
            task.cancel()

    async def _settled(self, job: Job) -> None:
        """Goes on with what was left until it is settled, as long as a job has time."""
        self._stop_settling()
        ends = min(job.tell_at, time.monotonic() + job.patience)
        while self._left is not None and not self._has_room(self._left):
            left = self._left
            self._may_wait(job, ends)
            if left.over:
                self._left = self._resuming()
                continue
            try:
                ready = await self._course.wait(min(left.moment, ends))
            except BaseException:
                self._leave(left)
                raise
            self._go_on(left, ready)
        if self._closed:
            raise errors.NotAsked(None, "the session was closed")
        self._left = None

    def _has_room(self, left: UnderWay) -> bool:
        """Whether what was left leaves room for the next request. Where it ended the session, or could not be recorded, that is
        told, once."""
        if left.job.unrecorded is not None:
            self._left = None
            self._tell_unrecorded(left)
        if left.over and self._course.machine.state is m.State.ENDED:
            self._left = None
            _, fault = known_of(left.job)
            if fault is not None:
                raise fault
        return left.over and self._course.machine.state is not m.State.OUTSTANDING

    def _may_wait(self, job: Job, ends: float) -> None:
        """Raises why a job can't wait any longer for what was left, where it can't; that is settled further on."""
        fault: Optional[errors.RendezvousError] = None
        if self._closed:
            fault = errors.NotAsked(None, "the session was closed")
        elif job.given_up:
            fault = errors.Cancelled(None)
        elif time.monotonic() >= ends:
            key = "/".join(map(str, self._course.machine.key or ()))
            fault = errors.NotAsked(None, f"the request before it, {key}, is unsettled")
        if fault is not None:
            if self._left is not None:
                self._leave(self._left)
            raise fault

    def _resuming(self) -> UnderWay:
        """Goes on with a request that was left, and is unsettled."""
        job = Job(None, None, self.patience, resumes=True)
        job.given_up = True
        return UnderWay(self._course, job)


class Items(AsyncIterator[str]):
    """The items of a queue, one take behind another, until a cancel."""

    def __init__(self, session: Session, queue: int) -> None:
        self._session, self._queue = session, queue
        self._call = made("take", queue, Wait.FOREVER)
        self._job: Optional[Job] = None
        self._stopped = False

    async def __anext__(self) -> str:
        session = self._session
        session._loop = weakref.ref(self)
        if self._stopped:
            raise StopAsyncIteration
        job = self._job = Job(self._call, None, session.patience)
        try:
            return await session._asked(job, item_of, partial(session._kept, self._queue))
        except errors.Cancelled:
            raise StopAsyncIteration from None
        finally:
            self._stopped = self._stopped or job.cancelled

    def stop(self) -> bool:
        """Ends this loop: its take that waits, or else before the next one, and no other call of the session. An item that was
        met before is still given. False where it has ended, or is to end already."""
        stopped, self._stopped = self._stopped, True
        if not stopped and self._job is not None and self._session._job is self._job:
            Running(self._job, self._session._course.order).cancel()
        return not stopped


def no_loop() -> Optional[Items]:
    """There is no loop over items."""
    return None


class Shards(Spread[Session]):
    """Servers of which each has some queues and exchangers, as `rendezvous.Shards` has them, with the calls of `Session` here."""

    def __init__(self, addresses: Iterable[Address], **options: Any) -> None:
        super().__init__(Session, addresses, options)

    async def __aenter__(self) -> "Shards":
        return self

    async def __aexit__(self, kind: Optional[Type[BaseException]], fault: Optional[BaseException],
                        trace: Optional[TracebackType]) -> None:
        self._closed = True
        async with contextlib.AsyncExitStack() as ends:
            for one in self.used():
                ends.push_async_callback(one.__aexit__, kind, fault, trace)

    async def close(self) -> None:
        """Closes each session, as `Session.close` does."""
        await self.__aexit__(None, None, None)

    async def put(self, queue: int, item: str, timeout: Optional[float] = None) -> None:
        """As `Session.put`."""
        await self.session(queue).put(queue, item, timeout)

    async def transfer(self, queue: int, item: str) -> Receipt:
        """As `Session.transfer`."""
        return await self.session(queue).transfer(queue, item)

    async def try_transfer(self, queue: int, item: str, timeout: Optional[float] = None) -> Optional[Receipt]:
        """As `Session.try_transfer`."""
        return await self.session(queue).try_transfer(queue, item, timeout)

    async def take(self, queue: int) -> str:
        """As `Session.take`."""
        return await self.session(queue).take(queue)

    async def poll(self, queue: int, timeout: Optional[float] = None) -> Optional[str]:
        """As `Session.poll`."""
        return await self.session(queue).poll(queue, timeout)

    def items(self, queue: int) -> Items:
        """As `Session.items`."""
        return self.session(queue).items(queue)

    async def drain(self, queue: int, max: int) -> List[str]:
        """As `Session.drain`."""
        return await self.session(queue).drain(queue, max)

    async def exchange(self, exchanger: int, item: str, timeout: Optional[float] = None) -> str:
        """As `Session.exchange`."""
        return await self.session(exchanger).exchange(exchanger, item, timeout)

    async def count(self, queue: int) -> Counted:
        """As `Session.count`."""
        return await self.session(queue).count(queue)

    async def peek(self, queue: int) -> Optional[str]:
        """As `Session.peek`."""
        return await self.session(queue).peek(queue)
