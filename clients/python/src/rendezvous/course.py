"""The course of one call over connections that may break at any time, to its outcome or to what is known, without a wait.

A course says until when there is nothing to do, and is told whether the connection is ready; a thread and an asyncio task
can wait for that alike.
"""
from __future__ import annotations

import random
import time
from typing import Callable, Dict, Generator, Optional, Protocol, Tuple

from . import machine as m
from .addresses import Server
from .bodies import Members, NoAnswer, body_of, read_answer
from .calls import is_in_pieces, looks, piece_of, seconds_of, time_of
from .errors import REFUSALS, Misused, NotRecorded
from .leases import Name
from .log import INFO, WARNING, log
from .manner import Manner
from .record import line_of
from .replies import Key, Outcome, TimedOut

# A request whose own time is over is cancelled behind so many seconds, in which the server's own word may still come,
# and what is known is told behind so many.
CANCEL_BEHIND, TELL_BEHIND = 0.5, 1.0
# A server counts whole milliseconds: where less is left of a call's own time, that is over.
LEAST_WAIT = 0.001
FOREVER = float("inf")
LOWER_EPOCH = "the server is of the lower epoch"

# It yields the moment until which it waits, and is sent whether the connection is ready.
Steps = Generator[float, bool, None]
Turn = Generator[float, bool, Optional[m.Told]]


class Channel(Protocol):
    """A connection, as a course uses it: it never waits. Every fault of it is an OSError or NoAnswer."""

    @property
    def connected(self) -> bool:
        """Whether it has been made."""

    @property
    def used(self) -> bool:
        """Whether something was said there."""

    def go_on(self) -> Optional[bytes]:
        """Does what can be done at once, and gives an answer's body that has come whole."""

    def say(self, body: bytes) -> None:
        """Begins to send a message."""

    def is_stale(self) -> bool:
        """Whether something is there though nothing is awaited: the peer's end, or an answer to nothing."""

    def close(self) -> None:
        """Throws it away."""


class Job:
    """One call and what came of it. `call` is None where only the hello is to be said; `resumes` where it goes on with the
    unsettled request. `own` is the call's own time in seconds. `asked` has the members of the call that it is about: its request
    may be a piece of that. `unrecorded` is there where its reply could not be written into the record. `shelved`: what it took
    is unclaimed, and this job gives it no more."""

    def __init__(self, call: Optional[Members], own: Optional[float], patience: Optional[float], resumes: bool = False) -> None:
        self.call, self.resumes = call, resumes
        self.asked = call
        self.patience = time_of("patience", patience)
        self.ends = self.cancel_at = self.tell_at = FOREVER
        self.limit(own)
        self.given_up = False
        self.cancelled = False
        self.told: Optional[m.Told] = None
        self.unrecorded: Optional[NotRecorded] = None
        self.shelved = False
        self.misused = ""
        self.fault = ""

    @property
    def over(self) -> bool:
        """Whether its outcome is there, or it can't be asked."""
        return self.told is not None or bool(self.misused)

    def end(self, told: m.Told) -> None:
        """Its outcome is there."""
        self.told = told

    def refuse(self, why: str) -> None:
        """It can't be asked."""
        self.misused = why

    def limit(self, own: Optional[float]) -> None:
        """From now on it has so many seconds of its own, where it had not fewer."""
        ends = time.monotonic() + seconds_of(own)
        self.ends = min(self.ends, ends)
        self.cancel_at, self.tell_at = min(self.cancel_at, ends + CANCEL_BEHIND), min(self.tell_at, ends + TELL_BEHIND)

    def left(self) -> float:
        """How many seconds of its own time are left."""
        return self.ends - time.monotonic()

    def give_up(self, at_most: float) -> None:
        """Its caller goes, and waits so many seconds for what is known."""
        self.tell_at = min(self.tell_at, time.monotonic() + at_most)
        self.given_up = True


class Running:
    """A call that runs: it can be cancelled, and no other is."""

    def __init__(self, job: Job, look: Callable[[], None]) -> None:
        self._job, self._look = job, look

    def cancel(self) -> bool:
        """Gives this very call up, from any thread and from a signal's handler; False where it has ended. The call ends by
        `Cancelled`, or with its result where it was met before."""
        if self._job.over:
            return False
        self._job.cancelled = self._job.given_up = True
        self._look()
        return True


class Course:
    """What one session does. `machine` is replaced by one assignment a step, here alone. `last` is the outcome of the last
    request that was settled. `closing`: what is known is to be told, and nothing more is to be asked. `record`, where there is
    one, has each reply before anybody is told it. Of `servers` one after another is tried."""

    def __init__(self, servers: Tuple[Server, ...], name: Name, manner: Manner) -> None:
        self.servers, self.name, self.manner = servers, name, manner
        self.answer, self.record = manner.answer, manner.record
        self._welcomed = False
        # which server is tried or was reached, and how many in turn failed since something was heard that leads on
        self._at = self._missed = 0
        # what failed last at each server: in this job, and as it was logged, until a server is there
        self._faults: Dict[Server, str] = {}
        self._logged: Dict[Server, str] = {}
        self.machine = m.Machine(name.client, name.incarnation, manner.version)
        self.last: Optional[Outcome] = None
        self.closing = False
        self._link: Optional[Channel] = None
        # the body of the request that was sent last
        self._asked = b""
        self._resume_at = self._answer_by = self._heard_at = 0.0
        # how long an answer is awaited, and how long a pause may be
        self._awaited, self._bound = manner.answer, manner.retry.first
        # its epoch has ended, and it has not begun anew; and the last epoch in which a job had it begin anew
        self._outlived, self._renewed_for = False, 0

    @property
    def server(self) -> Server:
        """The server that is tried, or was reached."""
        return self.servers[self._at]

    @property
    def unsettled(self) -> Optional[Key]:
        """The key of the request that was sent and has no outcome yet."""
        machine = self.machine
        return machine.key if machine.state is m.State.OUTSTANDING and machine.sent else None

    # ---- what each kind of course does in its own way

    def _open(self) -> Channel:
        """Begins to make a connection."""
        raise NotImplementedError

    def _watch(self) -> None:
        """What the connection waits for may be another now."""

    def _forget(self, link: Channel) -> None:
        """A connection is looked at no more."""

    def _take_orders(self) -> None:
        """Looks at what came while a job runs."""

    # ---- one job

    def steps(self, job: Job) -> Steps:
        """Does one job, and tells its outcome."""
        try:
            told = yield from self._outcome(job)
        except Misused as misused:
            job.refuse(str(misused))
            return
        except BaseException as fault:
            self._hang_up()
            job.fault = job.fault or f"{type(fault).__name__}: {fault}"
            told = self._step(m.Expire()) or m.NotAsked()
        if self.machine.flying is not m.Flying.NOTHING:
            self._hang_up()
        try:
            self._log_doubt(told)
        finally:
            job.end(told)

    def _outcome(self, job: Job) -> Generator[float, bool, m.Told]:
        """Begins a job, and goes on until there is something to tell."""
        if job.resumes and self.machine.state is not m.State.OUTSTANDING:
            raise Misused("no request is unsettled")
        self._renewed_for = 0
        if self._outlived and self.manner.renew and not job.resumes:
            self._begin_anew(None)
        if job.call is not None:
            self._step(m.Ask(self._piece(job, job.call)))
        elif not job.resumes and self.machine.state is not m.State.NEW:
            if self.machine.state is m.State.IDLE:
                return m.Welcomed()
            raise Misused("the session has ended, or a request is unsettled")
        job.asked = job.call or self.machine.call
        self._resume_at = 0.0
        self._faults.clear()
        self._leads_on()
        told: Optional[m.Told] = None
        while told is None:
            told = self._looked(job) or (yield from self._turn(job))
        return told

    def _looked(self, job: Job) -> Optional[m.Told]:
        """Looks at orders and times, and gives the request up, or tells what is known, where it is time to."""
        self._take_orders()
        now = time.monotonic()
        if self.closing or now >= job.tell_at or now >= self._silent_until(job):
            job.fault = "the session was closed" if self.closing else job.fault or f"{self.server}: no answer in time"
            return self._step(m.Expire())
        if (job.given_up or now >= job.cancel_at) and not self.machine.giving_up:
            told = self._step(m.GiveUp())
            if told is None and self.machine.flying is not m.Flying.NOTHING:
                self._hang_up()
            self._resume_at = 0.0
            return told
        return None

    def _turn(self, job: Job) -> Turn:
        """One turn with the connection: makes it, speaks, or waits for an answer."""
        try:
            return (yield from self._linked(job))
        except (OSError, NoAnswer) as fault:
            why = str(fault.args[1] if isinstance(fault, OSError) and len(fault.args) > 1 else fault)
            self._note(job, why)
            self._failed(why)
            return None

    def _linked(self, job: Job) -> Turn:
        """The turn, whose faults are the connection's."""
        now = time.monotonic()
        if now < self._resume_at:
            if (yield self._until(job, self._resume_at)):
                self.lose("closed meanwhile")
            return None
        if self._link is None:
            self._connect(job, now)
        elif self.machine.flying is m.Flying.NOTHING and self._link.connected:
            self._speak(now)
        elif now >= self._answer_by:
            raise NoAnswer(f"no answer within {round(self._awaited, 3):g} seconds")
        elif (yield self._until(job, self._answer_by)) and self._link is not None:
            body = self._link.go_on()
            self._watch()
            if body is not None:
                return self._hear(job, body)
        return None

    def _connect(self, job: Job, now: float) -> None:
        """Begins to make a connection. One of several servers has its share of the job's time, as the others have theirs."""
        self._link, seconds = self._open(), self.answer
        if len(self.servers) > 1:
            left = min(job.tell_at, self._silent_until(job)) - now
            seconds = min(seconds, left / (len(self.servers) - self._missed))
        self._await(now, seconds)
        self._watch()

    def _await(self, now: float, seconds: float) -> None:
        """For so many seconds an answer is awaited, or a connection."""
        self._answer_by, self._awaited = now + seconds, seconds

    def _speak(self, now: float) -> None:
        """Says what is due, over a connection that the peer has not closed meanwhile."""
        assert self._link is not None
        if not self._link.is_stale():
            if not self._link.used:
                log(INFO, "%s: connected", self.server)
            self._send(m.step(self.machine, m.Speak()), now)
        elif self._link.used:
            self.lose("closed meanwhile")
        else:
            raise NoAnswer("the connection ended before anything was said")

    def _send(self, made: m.Step, now: float) -> None:
        """Takes a step that sends a message: it counts as sent before it is."""
        self.machine = made.machine
        if made.send is not None and self._link is not None:
            # a hello is a part of the try, where others are to come
            if len(self.servers) == 1 or made.machine.flying is not m.Flying.HELLO:
                self._await(now, self.answer)
            body = body_of(made.send)
            if made.machine.flying is m.Flying.REQUEST:
                self._asked = body
            self._link.say(body)
            self._watch()

    def _hear(self, job: Job, body: bytes) -> Optional[m.Told]:
        """Takes in an answer."""
        answer = read_answer(body)
        if answer["kind"] == "refused":
            log(INFO, "%s: refused %d, %s", self.server, answer["code"], REFUSALS[answer["code"]])
        made = self._heard(m.step(self.machine, m.Hear(answer)))
        if isinstance(made.tell, m.EpochEnded):
            log(WARNING, "%s: the epoch ended, the server is of epoch %d", self.server, made.tell.current)
        if isinstance(made.tell, m.Settled):
            job.unrecorded = self._recorded(made.tell.outcome, body)
            self.last = made.tell.outcome
        if made.send is not None:
            self._leads_on()
            if made.machine.state is not m.State.NEW:
                self._welcome()
            self._send(made, self._heard_at)
            return made.tell
        self.machine = made.machine
        if made.tell is None:
            why = unfit(self.machine, answer)
            self._note(job, why)
            self._failed(why, made.drop)
        elif not made.drop:
            self._welcome()
        else:
            self._hang_up()
        if isinstance(made.tell, m.EpochEnded):
            return self._outlives(job, made.tell)
        return self._pieced(job, made.tell)

    def _piece(self, job: Job, call: Members) -> Members:
        """What is asked next of a job's call."""
        return piece_of(call, self.manner.presence, job.left())

    def _pieced(self, job: Job, told: Optional[m.Told]) -> Optional[m.Told]:
        """What an answer tells of a job: nothing yet where a piece of its wait timed out, and there is time for the next one. That
        is a new request, which is never sent where the job is given up by now. A reply that can't be recorded ends the job."""
        timed_out = isinstance(told, m.Settled) and isinstance(told.outcome, TimedOut) and job.unrecorded is None
        if not timed_out or job.call is None or not is_in_pieces(job.call, self.manner.presence) or job.left() <= LEAST_WAIT:
            return told
        self._step(m.Ask(self._piece(job, job.call)))
        self._leads_on()
        return None

    def _welcome(self) -> None:
        """A server is there: what is logged from now on is something new."""
        self._welcomed = True
        self._logged.clear()

    def _leads_on(self) -> None:
        """Something was heard that leads on, or a job begins: its silence and its pauses begin anew."""
        self._heard_at, self._bound, self._missed = time.monotonic(), self.manner.retry.first, 0

    def _heard(self, made: m.Step) -> m.Step:
        """The step that an answer makes. Where the server has a greater incarnation of a client that was never welcome, and its
        name takes one above that, this is the new one's hello."""
        if self.machine.state is m.State.NEW and isinstance(made.tell, m.Replaced) and self.name.passes(made.tell.current):
            before = self.machine
            return m.step(m.Machine(before.client, self.name.incarnation, before.version, call=before.call), m.Speak())
        return made

    def _recorded(self, outcome: Outcome, told: bytes) -> Optional[NotRecorded]:
        """Writes the reply to the request into the record, if there is one; the exception where it can't be written."""
        if self.record is None:
            return None
        line = line_of(self._asked, told)
        try:
            self.record.append(line)
        except OSError as fault:
            return NotRecorded(outcome, line[:-1].decode(), fault)
        return None

    def _step(self, event: m.Event) -> Optional[m.Told]:
        """Takes a step that sends nothing."""
        made = m.step(self.machine, event)
        self.machine = made.machine
        return made.tell

    def _outlives(self, job: Job, told: m.EpochEnded) -> Optional[m.Told]:
        """The epoch has ended. That is told, unless the session begins anew, and the call goes on there: it is still wanted, nobody
        met it, or it changes nothing, and the server is of a greater epoch than when that was done last."""
        self._outlived, call = True, job.call
        if not self.manner.renew or job.resumes or job.given_up or told.current <= self._renewed_for:
            return told
        if call is None or not (told.unmet or looks(call)):
            return told
        self._begin_anew(self._piece(job, call))
        self._renewed_for = told.current
        return None

    def _begin_anew(self, call: Optional[Members]) -> None:
        """The session begins anew in a greater incarnation, with this call if there is one. What it was is over."""
        self.name.begin_anew()
        anew = m.Machine(self.name.client, self.name.incarnation, self.machine.version)
        self.machine = anew if call is None else m.step(anew, m.Ask(call)).machine
        self._outlived = False

    # ---- the connection

    def _failed(self, why: str, drops: bool = True) -> None:
        """A try has failed. Where the connection is of no more use the next server is tried: at once, or a little later where
        each had its turn since something was heard that leads on. Else this one is asked again a little later."""
        if drops:
            self.lose(why)
            self._at, self._missed = (self._at + 1) % len(self.servers), self._missed + 1
        if not drops or self._missed >= len(self.servers):
            self._missed = 0
            self._pause()

    def _pause(self) -> None:
        """Nothing is tried for a while, which is drawn anew each time: so clients that lost one server don't come back at
        once."""
        pause = random.uniform(0, self._bound)
        self._resume_at = time.monotonic() + pause
        self._bound = min(self.manner.retry.largest, 2 * self._bound)
        log(INFO, "%s: tried again in %d ms", self.server, round(1000 * pause))

    def lose(self, why: str) -> None:
        """The connection is of no more use, if there is one."""
        if self._link is not None and self._link.connected:
            log(INFO, "%s: lost: %s", self.server, why)
        self._hang_up()

    def _hang_up(self) -> None:
        """Throws the connection away; what flew there stays counted."""
        link, self._link = self._link, None
        self._step(m.Lose())
        if link is not None:
            self._forget(link)
            link.close()

    def _until(self, job: Job, moment: float) -> float:
        """The next moment at which something is to be done for a job."""
        cancels = FOREVER if self.machine.giving_up else job.cancel_at
        return min(moment, job.tell_at, cancels, self._silent_until(job))

    def _silent_until(self, job: Job) -> float:
        """When a job ends of which nothing more is heard."""
        return self._heard_at + (job.patience if self._welcomed else min(job.patience, self.manner.connect_timeout))

    def _note(self, job: Job, fault: str) -> None:
        """What failed last at each server is told where the job ends by it, with the address. That no connection can be made, or
        that the server is of a lower epoch, is logged at once as a warning, unless that was the last that was of this server."""
        where = f"{self.server}: "
        told = self._faults[self.server] = fault if fault.startswith(where) else where + fault
        job.fault = "; ".join(self._faults.values())
        not_reached = self._link is None or not self._link.connected or fault.startswith(LOWER_EPOCH)
        if not_reached and told != self._logged.get(self.server):
            self._logged[self.server] = told
            log(WARNING, "%s", told)

    def _log_doubt(self, told: m.Told) -> None:
        """Logs that nobody knows what became of a request, where a job ends so."""
        if isinstance(told, m.Unsettled) or isinstance(told, m.EpochEnded) and not told.unmet:
            log(WARNING, "%s: request %s: outcome not known", self.server, "/".join(map(str, told.key or ())))


def unfit(machine: m.Machine, answer: Members) -> str:
    """What an answer is that leads nowhere."""
    if answer["kind"] != "refused":
        return "an answer came that this request has not"
    if answer["code"] == 2 and machine.key is not None and answer["current"] < machine.key.epoch:
        return f"{LOWER_EPOCH} {answer['current']}, and the session of {machine.key.epoch}"
    return f"refused {answer['code']}, {REFUSALS[answer['code']]}"
