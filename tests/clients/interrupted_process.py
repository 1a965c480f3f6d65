"""One process under fire: it asks random calls of a live server, signals interrupt them at any time, and what it is told it
writes down, each line before its next call. Its session keeps another record beside that, which all processes share.

A first signal may come anywhere in a call, and a second one where the package deals with the first. A signal that comes
while nothing is asked does nothing.

usage: python3 -m tests.clients.interrupted_process PORT CLIENT INCARNATION SEED CALLS RECORD KEPT
"""
import faulthandler
import json
import os
import random
import signal
import sys
import time

import rendezvous as rv
from rendezvous.calls import milliseconds
from tests.clients.outcomes import reply_members
from tests.sockets.wire import demand

PACKAGE = os.path.dirname(rv.__file__)
QUEUES, EXCHANGER = (3, 4), 5
# A call's time is as good as for ever from here on, in milliseconds, and another one for each call: so an arrival shows
# which call it is.
LONG = 600_000
# The longest time until a process lets its alarm ring, in seconds, and how often it does.
RINGS, OFTEN = 0.005, 0.5
# How often a second signal is let in, and how often the call that tells what is unsettled is under fire too.
SECOND, RESUMED = 0.3, 0.25
# Where so long no call was settled the epoch is full; a request that is unsettled so long hangs; both in seconds.
FULL, LIMIT = 4, 300


def exits(_):
    """What many programs do at a SIGTERM."""
    sys.exit(0)


def throws(kind):
    """A handler that raises this."""
    def handle(_):
        raise kind("the program's own")
    return handle


HANDLERS = {signal.SIGINT: throws(KeyboardInterrupt), signal.SIGTERM: exits, signal.SIGALRM: throws(TimeoutError)}
KINDS = (KeyboardInterrupt, SystemExit, TimeoutError)


def in_package(frame):
    """Whether a frame is the package's, or stands on one of its frames."""
    while frame is not None and not frame.f_code.co_filename.startswith(PACKAGE):
        frame = frame.f_back
    return frame is not None


class Fire:
    """Lets signals in, at most two a call."""

    def __init__(self):
        self.armed = self.second = False
        self.shots = 0
        for number in HANDLERS:
            signal.signal(number, self.comes)

    def comes(self, number, frame):
        """A signal: it throws something, or does nothing."""
        if self.armed and (self.shots == 0 or self.second and self.shots == 1 and in_package(frame)):
            self.shots += 1
            HANDLERS[number](frame)

    def ends_of(self, ask, second):
        """How a call ended, as values and what was thrown: twice where a signal came right behind its end."""
        ends, self.shots, self.second = [], 0, second
        try:
            try:
                self.armed = True
                ends.append((ask(), None))
            except BaseException as thrown:
                ends.append((None, thrown))
            self.armed = False
        except KINDS as thrown:
            self.armed = False
            ends.append((None, thrown))
        return ends

    def stops(self):
        """No signal does anything from now on, at the interpreter's end too."""
        for number in HANDLERS:
            signal.signal(number, signal.SIG_IGN)


# ---- what is told, as members

def plain(value):
    """A call's result, as it is written down."""
    if isinstance(value, rv.Receipt):
        return ["receipt", value.key, value.by]
    if isinstance(value, rv.Counted):
        return ["counted", value.key, value.items, value.consumers]
    return value if value is None else ["items" if isinstance(value, list) else "item", value]


def settled(outcome):
    """What is told of a settled request."""
    return {"key": outcome.key, "reply": reply_members(outcome)}


def told_by(fault):
    """What one of the package's exceptions tells."""
    if isinstance(fault, rv.Unsettled):
        return {"unsettled": fault.key, "accepted": fault.accepted}
    if isinstance(fault, rv.Full):
        return {"nothing": "full", "key": fault.key}
    if isinstance(fault, (rv.NotAsked, rv.Cancelled)) and fault.key is None:
        return {"nothing": "not asked", "key": None}
    if isinstance(fault, rv.Cancelled):
        return {"key": fault.key, "reply": {"reply": "cancelled"}}
    return {"wrong": f"{type(fault).__name__}: {fault}"}


class Caller:
    """Asks calls, and writes down what it is told."""

    def __init__(self, port, client, incarnation, seed, calls, record, kept):
        self.fire, self.chance, self.name = Fire(), random.Random(seed), f"{client}.{incarnation}"
        self.record = os.open(record, os.O_WRONLY | os.O_CREAT | os.O_APPEND)
        self.left, self.number, self.asked, self.settled_at = calls, 1, 0, time.monotonic()
        self.session = rv.Session(("127.0.0.1", port), client, incarnation, version=1 + client % 2, patience=5, answer=2,
                                  record=kept, connect_timeout=None)

    def write(self, **members):
        """Writes a line, in one step."""
        os.write(self.record, json.dumps(members).encode() + b"\n")

    def run(self):
        """Asks so many calls, or until there is no room."""
        self.write(begins=self.name)
        while self.left and time.monotonic() < self.settled_at + FULL:
            self.left -= 1
            self.one_call()
        self.fire.stops()
        self.session.close()
        self.write(ends=self.name)

    def one_call(self):
        """Asks a call, until it is known what came of it."""
        call, ask = self.call()
        self.write(asks=self.number, call=call)
        began = time.monotonic()
        over = self.told(self.under_fire(ask, True))
        while not over:
            demand(time.monotonic() < began + LIMIT, f"unsettled for {LIMIT} seconds: {call}")
            over = self.told(self.resumed())
        self.write(seconds=round(time.monotonic() - began, 3))
        if self.is_settled():
            self.number, self.settled_at = self.number + 1, time.monotonic()

    def under_fire(self, ask, fired):
        """How a call ended that signals may interrupt, where it is to be fired at."""
        if fired and self.chance.random() < OFTEN:
            signal.setitimer(signal.ITIMER_REAL, self.chance.uniform(0.00005, RINGS))
        if fired:
            return self.fire.ends_of(ask, self.chance.random() < SECOND)
        try:
            return [(ask(), None)]
        except Exception as fault:
            return [(None, fault)]

    def resumed(self):
        """How it ended to go on with what may be unsettled."""
        one = self.session
        ask = self.chance.choice([lambda: one.give_up(5), lambda: one.again(0.02)])
        return self.under_fire(ask, self.chance.random() < RESUMED)

    def is_settled(self):
        """Whether the session has what the call came to."""
        return self.session.last is not None and self.session.last.key.number == self.number

    def told(self, ends):
        """Writes down what each of these ends told, and what the session has; whether nothing is left to be asked."""
        over = False
        for value, thrown in ends:
            tells = self.tells(value, thrown)
            self.write(way=type(thrown).__name__ if thrown else "returned", tells=tells)
            over = tells is not None and "unsettled" not in tells
        if self.is_settled():
            self.write(way="last", tells=settled(self.session.last))
        return over

    def tells(self, value, thrown):
        """What an end tells; None where a signal threw something that says nothing of the request."""
        if isinstance(value, rv.Outcome) and not isinstance(value, (rv.Receipt, rv.Counted)):
            return settled(value)
        if thrown is None:
            return {**settled(self.session.last), "value": plain(value)}
        if isinstance(thrown, rv.Interrupted):
            return settled(thrown.outcome) if thrown.outcome else thrown.fault and told_by(thrown.fault)
        if isinstance(thrown, rv.TimedOut):
            return {**settled(self.session.last), "value": ["timed out"]}
        if type(thrown) in KINDS:
            return None
        if isinstance(thrown, rv.Misused) and str(thrown) == "no request is unsettled":
            return {"nothing": "idle", "key": None}
        return told_by(thrown)

    def call(self):
        """The members of a call, and what asks it."""
        self.asked += 1
        one, chance, item = self.session, self.chance, f"{self.name}.{self.asked}"
        at, most = chance.choice(QUEUES), chance.randint(1, 16)
        seconds = (LONG + self.asked if chance.random() < 0.7 else chance.randint(1, 12)) / 1000
        timed = {"wait": milliseconds(seconds)}
        give, take = {"call": "transfer", "queue": at, "item": item}, {"call": "take", "queue": at}
        swap = {"call": "swap", "exchanger": EXCHANGER, "item": item}
        waits = [
            ({**give, "wait": "forever"}, lambda: one.transfer(at, item)),
            ({**give, **timed}, lambda: one.try_transfer(at, item, seconds)),
            ({**take, "wait": "forever"}, lambda: one.take(at)),
            ({**take, **timed}, lambda: one.poll(at, seconds)),
            ({**swap, "wait": "forever"}, lambda: one.exchange(EXCHANGER, item)),
            ({**swap, **timed}, lambda: one.exchange(EXCHANGER, item, seconds)),
        ]
        others = [
            ({"call": "put", "queue": at, "item": item}, lambda: one.put(at, item)),
            ({**give, "wait": "now"}, lambda: one.try_transfer(at, item)),
            ({**take, "wait": "now"}, lambda: one.poll(at)),
            ({"call": "drain", "queue": at, "max": most}, lambda: one.drain(at, most)),
            ({"call": "count", "queue": at}, lambda: one.count(at)),
            ({"call": "peek", "queue": at}, lambda: one.peek(at)),
        ]
        return chance.choice(waits if chance.random() < 0.75 else others)


if __name__ == "__main__":
    faulthandler.enable()
    Caller(*map(int, sys.argv[1:6]), *sys.argv[6:]).run()
