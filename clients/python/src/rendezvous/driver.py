"""Drives a course on a thread of its own.

Who calls never touches the machine: it puts a job into a queue and waits for a lock, both of them single steps that no
exception of a signal's handler can split.
"""
from __future__ import annotations

import _thread
import os
import selectors
import threading
import time
from queue import Empty, SimpleQueue
from typing import Dict, Optional, Tuple

from . import course, machine as m
from .addresses import Server
from .bell import ANYWHERE, Bell, told_of
from .bodies import Members
from .course import FOREVER, Channel, Course
from .leases import Name
from .link import Link
from .manner import Manner

RUNS, CLOSED = "the thread runs", "the session is closed"
# What a thread waits by has no descriptor of its own.
Selector = getattr(selectors, "PollSelector", selectors.SelectSelector)
# So many seconds a thread waits at once, for no system waits for any time.
AT_ONCE = 3_600.0
# So many where it never heard its bell, for a filter of the system may drop what rings it: without a call, and beside one.
UNHEARD, UNHEARD_IN_A_CALL = 1.0, 0.1


class Job(course.Job):
    """A job for which its caller waits."""

    def __init__(self, call: Optional[Members], own: Optional[float], patience: Optional[float], resumes: bool = False) -> None:
        super().__init__(call, own, patience, resumes)
        self.taken = False
        self.thread = threading.current_thread()
        self._done = threading.Lock()
        self._done.acquire()

    def wait(self, driver: "Driver") -> None:
        """Waits until its outcome is told, or its driver is gone before it took the job."""
        while self.told is None and not self.misused:
            self._done.acquire(timeout=1.0)
            if driver.gone and not self.taken:
                self.misused = CLOSED

    def end(self, told: m.Told) -> None:
        super().end(told)
        self._done.release()

    def refuse(self, why: str) -> None:
        super().refuse(why)
        self._done.release()


class Driver(Course):
    """The thread of one session. The session's name is given back once nothing is done in that name any more."""

    def __init__(self, servers: Tuple[Server, ...], name: Name, manner: Manner) -> None:
        super().__init__(servers, name, manner)
        self.gone = False
        self._process = os.getpid()
        self.ended = threading.Lock()
        self.ended.acquire()
        self._orders: "SimpleQueue[Optional[Job]]" = SimpleQueue()
        self._bell = bell_of(name)
        self._selector: selectors.BaseSelector = Selector()
        # whether it was ever heard
        self._hears = False
        self._rung = self._selector.register(self._bell.fileno(), selectors.EVENT_READ).fileobj
        # what becomes of it: whoever comes first says so, and setdefault is one step
        self._fate: "Dict[str, str]" = {}

    # ---- for who calls

    def start(self) -> None:
        """Begins its thread, which runs until a close."""
        try:
            # in one step, where Thread.start waits for what an exception may leave
            _thread.start_new_thread(self._run, ())
            self._fate.setdefault("is", RUNS)
        except BaseException:
            self.close()
            raise

    def order(self, job: Optional[Job]) -> None:
        """Hands a job over, or has the thread look at it again; None where the driver is to close. It may be done twice.
        Nothing is caught here: an OSError would be one that a signal's handler threw."""
        self._orders.put(job)
        self._bell.ring()

    def close(self) -> None:
        """Ends the thread, and the call that runs. Behind a fork there is none, and behind its end nobody to wake. One that has
        not begun never does: its name is given back here."""
        if os.getpid() == self._process and not self.gone:
            self.closing = True
            if self._fate.setdefault("is", CLOSED) == CLOSED:
                self.name.close()
            else:
                self.order(None)

    # ---- the thread

    def _run(self) -> None:
        """Does one job after another until the session is closed."""
        if self._fate.setdefault("is", RUNS) != RUNS:
            return
        try:
            while not self.closing:
                job = self._next()
                if job is not None and not job.taken:
                    job.taken = True
                    self._do(job)
        finally:
            self.closing = self.gone = True
            self._hang_up()
            self._leave()
            self._selector.close()
            self.name.close()
            self.ended.release()

    def _leave(self) -> None:
        """Jobs that nobody will do are told so."""
        try:
            while True:
                job = self._orders.get_nowait()
                if job is not None and not job.taken:
                    job.taken = True
                    job.refuse(CLOSED)
        except Empty:
            pass

    def _next(self) -> Optional[Job]:
        """The next job; None where the thread was woken for nothing, or to close."""
        try:
            return self._orders.get_nowait()
        except Empty:
            if self._wait(FOREVER, UNHEARD):
                # the peer closed it, or said what nobody asked for
                self.lose("closed meanwhile")
            return None

    def _do(self, job: Job) -> None:
        """Does one job, and tells its outcome."""
        steps = self.steps(job)
        try:
            moment = next(steps)
            while True:
                try:
                    ready = self._wait(moment)
                except BaseException as fault:
                    moment = steps.throw(fault)
                else:
                    moment = steps.send(ready)
        except StopIteration:
            pass

    def _take_orders(self) -> None:
        """Refuses what came while a job runs; what is that job's is seen by its own fields."""
        try:
            while True:
                job = self._orders.get_nowait()
                if job is not None and not job.taken:
                    job.taken = True
                    job.refuse("a session asks one request at a time: another call of it runs")
        except Empty:
            pass

    # ---- the connection

    def _open(self) -> Channel:
        return Link(self.server)

    def _forget(self, link: Channel) -> None:
        assert isinstance(link, Link)
        try:
            self._selector.unregister(link.socket)
        except (KeyError, ValueError):
            pass

    def _watch(self) -> None:
        link = self._link
        if link is None:
            return
        assert isinstance(link, Link)
        wanted = selectors.EVENT_WRITE if link.wants_to_write() else selectors.EVENT_READ
        for key in list(self._selector.get_map().values()):
            if key.fileobj not in (self._rung, link.socket):
                self._selector.unregister(key.fileobj)
        if link.socket in self._selector.get_map():
            self._selector.modify(link.socket, wanted)
        else:
            self._selector.register(link.socket, wanted)

    def _wait(self, moment: float, unheard: float = UNHEARD_IN_A_CALL) -> bool:
        """Waits until a moment, or until something comes; whether it is the connection's. Until its bell was heard it waits for
        few seconds, since orders may come without it."""
        at_once = AT_ONCE if self._hears else unheard
        seconds = None if self._hears and moment == FOREVER else min(at_once, max(0.0, moment - time.monotonic()))
        ready = {key.fileobj for key, _ in self._selector.select(seconds)}
        if self._rung in ready:
            # orders come first: a cancel that came before an answer is looked at before it
            self._hears = self._bell.heard() or self._hears
            return False
        return isinstance(self._link, Link) and self._link.socket in ready


def bell_of(name: Name) -> Bell:
    """What wakes the thread of a session of this name: its lease, or else a bell at any place. The name closes it."""
    if name.bell is None:
        name.bell = Bell()
        try:
            name.bell.takes(ANYWHERE)
        except OSError as fault:
            raise told_of(fault, f"a session's thread is woken by a datagram socket at the loopback address {ANYWHERE[0]}")
    return name.bell
