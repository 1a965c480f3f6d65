"""Sessions: what a program calls, and what it is told."""
from __future__ import annotations

import os
import threading
import time
import weakref
from functools import partial
from typing import Callable, Iterator, List, NoReturn, Optional, Tuple, Type, Union, cast

from . import errors, machine as m
from .addresses import Address, Server, target_of
from .bodies import Members
from .calls import UNGIVEN, Wait, checked, made
from .course import Running
from .driver import Driver, Job
from .endings import (
    Result, counts_of, ending, item_if_any, item_of, items_of, itself, known_of, nothing, receipt_if_any, receipt_of)
from .leases import Name, name_of
from .manner import Left, Manner, Retry, manner_of
from .record import Path
from .replies import Cancelled, Counted, Key, Outcome, Receipt
from .shown import shown
from .unclaimed import NotThere, Shelf, Unclaimed

# How many seconds an interrupt leaves for the cancel of its call, and a close for that of a request that was given up.
FAREWELL = 1.0
# After how many seconds a close looks again whether that is told, where somebody else heard of it first.
LOOK_EACH = 0.05
# How many seconds a close waits for the end of the session's thread, by which a leased number is given back: longer than a thread
# waits that its bell doesn't reach.
END = 2.0


class Session:
    """One client in one incarnation: it asks one request at a time, and is used by one thread at a time.

    `address` is a text HOST:PORT, a pair of both, or a text rv://HOST:PORT,HOST:PORT?OPTION=VALUE&OPTION=VALUE, whose options
    are `patience`, `record`, `client` (the number to lease) and `version`; an argument comes before them. Servers beside the
    first are alternatives of it: after a lost connection the next one is asked at once, and each that is silent before its
    welcome has an equal share of the call's time. Left out, it is what the environment says in RV_SERVER, or 127.0.0.1:7411.

    `client` is a number that no other process has, and `incarnation` one above each that this client was started
    with: left out, it is this moment, in microseconds, or above all that this process used. Without a client number the least
    free one of `clients` is leased, until the session is closed; a lease counts among the programs of one user on one host, so
    each host has a range of its own. The range is `clients`, or what the environment says in RV_CLIENTS (as 1-512), or 1 to
    1,024. `AllLeased` where none is free. No incarnation is given for a leased number: whoever leased it before may have used
    that one too, and this session would hear its replies. Where the server has a greater incarnation at the first hello of a
    leased number, for the clock was set back, the session takes the next one above that.

    `version` is what the session speaks: in version 2 a receipt names the consumer, in version 1, which each server knows, it
    does not. `patience` is for how many seconds a call goes on while nothing at all is heard; None is for ever, and left out it
    is that of `retry`, which has the pauses between tries too. Before the session's first welcome it goes on for
    `connect_timeout` seconds at most, so that a wrong address is told soon; None is as long as the patience. `answer` is for how
    many seconds it waits for one answer before it throws the connection away.

    A call with a time of its own ends within that and a second, also where the server is silent or away. `inf` is for ever.

    While no connection can be made, or the server is of a lower epoch, calls go on: the logger `rendezvous` has a warning the
    first time, and when the reason changes. The exception that ends the call names each server and the reason.

    `record` is a file that gets a line for each reply, with the request, before anybody is told the reply; it is opened for
    each, and made where there is none. Left out, it is its address's, or what the environment says in RV_RECORD; an empty one is
    no record. A line is appended by one write, so any number of sessions and processes may share a local file. It is handed to
    the system, which keeps it whatever becomes of the process, and is not forced to the disk. An OSError, before anything is
    leased or asked, where it can't be written; `NotRecorded` where it can't be later.

    With `presence` a wait of more than so many seconds is asked in pieces of that at most: each is a new request, until one settles
    otherwise than by its time. So what a process asked that was killed ends by itself within that time. A new piece comes last in
    the line of those who wait. `last`, `unsettled` and `again` tell of one piece; a cancel between two is `Cancelled` without a
    key.

    A server that is started anew without a store ends the session. With `renew` it begins anew by itself, in the new epoch, under
    its client number and a greater incarnation: a call that certainly nobody met, or that only looks (`count`, `peek`), goes on
    there. One that may have been met is `EpochEnded`, and the next call begins anew. No incarnation is given then, and no other
    process may have the client number: the session would take it back.
    """

    def __init__(self, address: Optional[Address] = None, client: Optional[int] = None, incarnation: Optional[int] = None, *,
                 clients: Optional[range] = None, version: Optional[int] = None, patience: Union[float, None, Left] = Left.OUT,
                 retry: Optional[Retry] = None, answer: float = 30.0, record: Optional[Path] = None,
                 connect_timeout: Optional[float] = 5.0, renew: bool = False, presence: Optional[float] = None) -> None:
        servers, options = target_of(address)
        checked(not renew or incarnation is None, UNGIVEN)
        manner = manner_of(options, version, patience, retry, answer, connect_timeout, record, renew, presence)
        self.patience = manner.retry.patience
        self._process = os.getpid()
        self._closed = False
        # The job that runs, or that its caller left, and that of a close: setdefault and pop are single steps. Whoever pops it
        # has its outcome.
        self._jobs: "dict[str, Job]" = {}
        # what was not recorded, and a handler's exception hid
        self._hidden: "dict[str, errors.NotRecorded]" = {}
        self._shelf = Shelf()
        self._loop: "Callable[[], Optional[Items]]" = no_loop
        self._driver = driver_of(servers, name_of(client, incarnation, clients, options.client), manner)
        # from here on whatever is thrown ends what begins
        self._closes = weakref.finalize(self, self._driver.close)
        self._driver.start()

    def __repr__(self) -> str:
        """Its address, client and epoch, and what runs; any thread may ask, at any time."""
        driver = vars(self).get("_driver")
        return shown("Session", driver, driver is not None and driver.closing, vars(self).get("_jobs", {}).get("job"))

    def __enter__(self) -> "Session":
        try:
            self.connect()
        except BaseException:
            self.close()
            raise
        return self

    def __exit__(self, kind: Optional[Type[BaseException]], *_: object) -> None:
        self._close()
        if kind is None:
            self._tell_hidden()

    def connect(self) -> None:
        """Says hello, again and again, until the welcome comes. Every call does so by itself where need be."""
        self._told(self._job(None, None), nothing)

    def close(self) -> None:
        """Closes the connection, for good, ends the call that runs by what is known, and gives a leased number back. A request
        that was given up, as by an interrupt, and that of a call which this thread left, or in whose handler it closes, is
        cancelled, and waited for, for up to a second: what it took stands in `unclaimed()`. One that is unsettled then stands in
        `unsettled`, and goes on standing in the server, until a greater incarnation says hello, as the next session does that
        leases the number. `NotRecorded` where a handler's exception hid that, unless the end of a block by an exception closes
        the session."""
        self._close()
        self._tell_hidden()

    def _close(self) -> None:
        """Closes, and tells nothing."""
        self._closed = True
        try:
            if os.getpid() == self._process and not self._driver.closing:
                self._say_farewell()
        finally:
            self._driver.close()
        if os.getpid() == self._process and self._driver.ended.acquire(timeout=END):
            self._driver.ended.release()
        self._collect("farewell")

    def _say_farewell(self) -> None:
        """Waits for what a request comes to that was given up, also by its own time, or that this thread's call left. That call
        ends by what is known; one that runs in another thread is left to it."""
        job = self._jobs.get("job")
        if job is not None and is_elsewhere(job):
            if job.given_up or self._driver.machine.giving_up:
                self._await(job)
            return
        if job is not None and not job.over:
            job.fault, job.tell_at = "the session was closed", time.monotonic()
            self._driver.order(job)
            self._await(job)
        machine = self._driver.machine
        if machine.state is m.State.OUTSTANDING and (job is not None or machine.giving_up):
            farewell = self._jobs["farewell"] = self._job(None, None, True)
            farewell.give_up(FAREWELL)
            self._driver.order(farewell)
            self._await(farewell)

    def _await(self, job: Job) -> None:
        """Waits until a job is told, for up to a second, and lets others who wait for it go on."""
        ends = time.monotonic() + FAREWELL
        while not job.over and not self._driver.gone and time.monotonic() < ends:
            if job._done.acquire(timeout=LOOK_EACH):
                job._done.release()

    def _collect(self, which: str) -> None:
        """What a job took that nobody goes on with, since the session is closed, is unclaimed from now on."""
        job = self._jobs.get(which)
        if not self._driver.closing or job is None or job.told is None or is_elsewhere(job):
            return
        self._shelf.keep(job)
        if job.shelved:
            self._jobs.pop(which, None)
        if job.shelved and job.unrecorded is not None:
            self._hidden["fault"] = job.unrecorded

    @property
    def servers(self) -> Tuple[Server, ...]:
        """The servers that its address names."""
        return self._driver.servers

    @property
    def address(self) -> Server:
        """The server of these that was reached last, or is tried."""
        return self._driver.server

    @property
    def client(self) -> int:
        """The session's client number."""
        return self._driver.name.client

    @property
    def incarnation(self) -> int:
        """The start of that client which this session is; another one once a leased number's first hello was refused for it."""
        return self._driver.name.incarnation

    @property
    def epoch(self) -> Optional[int]:
        """The server's epoch; None before the welcome, and where all numbers are used up."""
        key = self._driver.machine.key
        return key.epoch if key else None

    @property
    def last(self) -> Optional[Outcome]:
        """What the last request that was settled came to, with its key: also where an exception of a signal's handler came
        just behind its call."""
        return self._driver.last

    @property
    def unsettled(self) -> Optional[Key]:
        """The key of a request that was sent and has no outcome yet: that of the call that runs, or one that was left; also
        after `close`. None where there is none."""
        return self._driver.unsettled

    @property
    def running(self) -> Optional[Running]:
        """The call that runs now; None where none does."""
        job = self._jobs.get("job")
        return None if job is None or job.told is not None else Running(job, partial(self._driver.order, job))

    # ---- calls

    def put(self, queue: int, item: str, timeout: Optional[float] = None) -> None:
        """The item goes to the tail of the queue; nobody is waited for. A full server is asked again for `timeout` seconds,
        or as long as the session's patience; then this is `Full`."""
        self._call(made("put", queue, item), nothing, timeout)

    def transfer(self, queue: int, item: str) -> Receipt:
        """Waits until a consumer was assigned the item. The receipt names that consumer's request."""
        return self._call(made("transfer", queue, item, Wait.FOREVER), receipt_of)

    def try_transfer(self, queue: int, item: str, timeout: Optional[float] = None) -> Optional[Receipt]:
        """Hands the item over if a consumer waits, or comes within `timeout` seconds; else None, and nobody gets it."""
        return self._call(made("transfer", queue, item, Wait.NOW if timeout is None else timeout), receipt_if_any, timeout)

    def take(self, queue: int) -> str:
        """The oldest item, waiting for one if need be."""
        return self._call(made("take", queue, Wait.FOREVER), item_of)

    def poll(self, queue: int, timeout: Optional[float] = None) -> Optional[str]:
        """The oldest item, if one is there or comes within `timeout` seconds; else None."""
        return self._call(made("take", queue, Wait.NOW if timeout is None else timeout), item_if_any, timeout)

    def items(self, queue: int) -> "Items":
        """The items of a queue, one take behind another, for a loop. It ends by its own `stop()`, which is for other threads and
        signals' handlers, and where a `cancel()` ends its take or comes between two calls. An item that was met before is still
        given, and the loop ends behind it. What stands in `unclaimed()` for this queue comes first. Whatever else ends a take
        is raised."""
        return Items(self, queue)

    def drain(self, queue: int, max: int) -> List[str]:
        """Up to `max` of the oldest items, 1 to 16, oldest first; it never waits, so there may be none. They are taken in
        one step of the server: nothing comes between two of them, and the transfers among them are received. Like each
        call it repeats its one key, so no item is lost or taken twice where a link breaks."""
        return self._call(made("drain", queue, max), items_of)

    def exchange(self, exchanger: int, item: str, timeout: Optional[float] = None) -> str:
        """The partner's object for this one. `TimedOut` where nobody came within `timeout` seconds."""
        return self._call(made("swap", exchanger, item, Wait.FOREVER if timeout is None else timeout), item_of, timeout)

    def count(self, queue: int) -> Counted:
        """The items and the waiting consumers of a queue, exact in the step that answers."""
        return self._call(made("count", queue), counts_of)

    def peek(self, queue: int) -> Optional[str]:
        """The oldest item, which stays; None where there is none."""
        return self._call(made("peek", queue), item_if_any)

    def again(self, timeout: Optional[float] = None) -> Outcome:
        """Goes on with the request that an exception left unsettled, and gives what it came to: a value that has its key.
        Where an exception came while a call was told of an interrupt, this tells what that call came to."""
        return self._resumed(timeout, False)

    def give_up(self, timeout: Optional[float] = None) -> Outcome:
        """Cancels the request that an exception left unsettled, and gives what it came to, which is not always that it was
        cancelled."""
        return self._resumed(timeout, True)

    def cancel(self) -> bool:
        """Gives the call up that runs now, from any thread and from a signal's handler; where none runs, it ends the loop over
        `items` that is under way. False where there is neither. Whoever means one certain call keeps `running`, and
        cancels that."""
        running, loop = self.running, self._loop()
        return running is not None and running.cancel() or loop is not None and loop.stop()

    # ---- what no call gave

    def unclaimed(self) -> List[Unclaimed]:
        """The items that requests took and no call gave, oldest first: an exception of a signal's handler came meanwhile, which
        says nothing of the request. They stay here, also behind `close`, until `claim` or `items` takes them. `Interrupted`,
        `NotRecorded` and `again` tell an outcome themselves, so that it doesn't stand here."""
        return self._standing().listed()

    def claim(self, one: Unclaimed) -> str:
        """Takes one of `unclaimed()` out, and gives its item, which nothing else gives any more. ValueError where it isn't there
        any more. `NotRecorded`, which has all that the request took, where that could not be recorded."""
        try:
            return self._claimed(one)
        except NotThere as absent:
            raise ValueError(str(absent)) from None

    def _claimed(self, one: Unclaimed) -> str:
        """The same, but for the fault, which no handler's exception can be taken for."""
        shelf, fault = self._standing(), self._hidden.get("fault")
        if fault is not None and fault.outcome.key == one.key:
            self._tell_hidden()
        return shelf.claim(one)

    def _standing(self) -> Shelf:
        """What stands unclaimed, with what an exception left in a session that is closed."""
        self._collect("job")
        self._collect("farewell")
        return self._shelf

    # ---- how a call is asked

    def _job(self, call: Optional[Members], own: Optional[float], resumes: bool = False) -> Job:
        """A call's job."""
        return Job(call, own, self.patience, resumes)

    def _call(self, call: Members, result: Callable[[Outcome], Result], own: Optional[float] = None) -> Result:
        """Asks one call, and gives its result."""
        return self._given(self._job(call, own), result)

    def _given(self, job: Job, result: Callable[[Outcome], Result]) -> Result:
        """Has a job done, and gives its result; what it took is kept where an exception that doesn't tell it comes instead."""
        try:
            return self._told(job, result)
        except (errors.Interrupted, errors.NotRecorded):
            raise
        except BaseException:
            if self._jobs.get("job") is not job:
                self._shelf.keep(job)
            raise

    def _resumed(self, timeout: Optional[float], gives_up: bool) -> Outcome:
        """Goes on with what is unsettled: a job that its caller left, or the machine's request."""
        left = self._jobs.get("job")
        if left is not None and is_elsewhere(left):
            raise errors.Misused("another thread's call runs")
        job = left or self._job(None, timeout, True)
        job.limit(timeout)
        if gives_up:
            job.cancelled = job.given_up = True
        return self._given(job, itself)

    def _told(self, job: Job, result: Callable[[Outcome], Result]) -> Result:
        """Has a job done, and gives its result; what is thrown meanwhile is thrown once the request was cancelled."""
        if os.getpid() != self._process:
            raise errors.Misused(f"this session is of process {self._process}: behind a fork make one anew")
        if self._closed or self._driver.closing:
            raise errors.Misused("the session is closed")
        self._tell_hidden()
        owner, value, fault = None, None, None
        try:
            owner = self._jobs.setdefault("job", job)
            if owner is job:
                self._driver.order(job)
                job.wait(self._driver)
                value, fault = ending(job, result)
        except BaseException as thrown:
            self._interrupted(job, thrown)
        if owner is not job:
            raise errors.Misused("a call of this session runs, or was left by its caller: again() tells what it came to")
        self._jobs.pop("job", None)
        if self._shelf.lacks(job):
            raise errors.Misused("the session was closed, and what the call took was claimed")
        self._shelf.give_back(job)
        self._hidden.clear()
        if fault is not None:
            raise fault
        return cast(Result, value)

    def _interrupted(self, job: Job, thrown: BaseException) -> NoReturn:
        """Cancels the request, waits for what it came to, and throws on; an interrupt of the keyboard says it."""
        if self._jobs.get("job") is not job:
            raise thrown
        job.give_up(FAREWELL)
        self._driver.order(job)
        job.wait(self._driver)
        outcome, fault = known_of(job)
        if isinstance(thrown, KeyboardInterrupt) and not job.shelved:
            interrupted = errors.Interrupted(outcome.key if outcome else fault.key if fault else None, outcome, fault)
            self._jobs.pop("job", None)
            raise interrupted from None
        self._shelf.keep(job)
        self._jobs.pop("job", None)
        if isinstance(fault, errors.NotRecorded):
            self._hidden["fault"] = fault
        raise thrown

    def _tell_hidden(self) -> None:
        """Raises what was not recorded, where a handler's exception hid that: once, and then nothing else tells the outcome."""
        fault = self._hidden.pop("fault", None)
        if fault is not None:
            self._shelf.forget(fault.outcome.key)
            raise fault


class Items(Iterator[str]):
    """The items of a queue, one take behind another, until a cancel."""

    def __init__(self, session: Session, queue: int) -> None:
        self._session, self._queue = session, queue
        self._call = made("take", queue, Wait.FOREVER)
        # the time that each take has of its own
        self._own: Optional[float] = None
        self._job: Optional[Job] = None
        self._stopped = False

    def __next__(self) -> str:
        session = self._session
        session._loop = weakref.ref(self)
        kept = session._standing().first(self._queue)
        while kept is not None and not self._stopped:
            try:
                return session._claimed(kept)
            except NotThere:
                # a signal's handler, or another thread, claimed it meanwhile
                kept = session._standing().first(self._queue)
        job = self._job = session._job(self._call, self._own)
        # who stops the loop sees the job, or is seen here
        if self._stopped:
            raise StopIteration

        def item_met(outcome: Outcome) -> str:
            self._stopped = self._stopped or job.cancelled
            return item_of(outcome)
        try:
            return session._given(job, item_met)
        except errors.Cancelled:
            self._stopped = True
            raise StopIteration from None
        except errors.NotRecorded as fault:
            self._stopped = self._stopped or job.cancelled or isinstance(fault.outcome, Cancelled)
            raise

    def stop(self) -> bool:
        """Ends this loop, from any thread and from a signal's handler: its take that waits, or else before the next one, and no
        other call of the session. An item that was met before is still given. False where it has ended, or is to end
        already."""
        if self._stopped:
            return False
        self._stopped, job = True, self._job
        if job is not None and not job.over:
            job.cancelled = job.given_up = True
            self._session._driver.order(job)
        return True


def is_elsewhere(job: Job) -> bool:
    """Whether a job is of another thread, which lives."""
    return job.thread is not threading.current_thread() and job.thread.is_alive()


def no_loop() -> Optional[Items]:
    """There is no loop over items."""
    return None


def driver_of(servers: Tuple[Server, ...], name: Name, manner: Manner) -> Driver:
    """The driver of a new session, which gives its name back at its end."""
    try:
        return Driver(servers, name, manner)
    except BaseException:
        name.close()
        raise
