"""An exception of a signal's handler at each line of the package that the calling thread runs: what is told is true, and
the session goes on.

A tiny honest server has the truth. Each script is run once for each of its places (a line, and how often it was come to)
and each kind of exception; a place that shows up in any run is tried as well, so nothing hangs on who is scheduled first.
At the line that waits the exception comes both at once and when the server has the request.
"""
import contextlib
import gc
import itertools
import os
import sys
import unittest
import weakref

from book import PLACE, Book, counted, named, place_of, waits
from context import GENEROUS, Case, raised_by, rv, unhurried
from let_in import line_of
from rendezvous.course import Running
from rendezvous.driver import Job

FOLDER = os.path.dirname(rv.__file__)
KINDS = (KeyboardInterrupt, SystemExit, TimeoutError)
# The line at which a call waits.
WAITS = ("driver.py", line_of(Job.wait, "_done.acquire"))
# A place that no run comes by.
NOWHERE = ("", 0, 0)
CLIENTS = itertools.count(1)


class Thrown:
    """Traces a call, and throws at the places that are given, one behind the other; `places` has what it came by."""

    def __init__(self, kind, wanted, late):
        self.kind, self.wanted, self.late = kind, list(wanted), late
        self.places, self.times = [], {}

    def __call__(self, frame, event, _):
        if not frame.f_code.co_filename.startswith(FOLDER) or event == "call" and is_of_a_finalizer(frame):
            return None
        if event == "line":
            self.came_by(frame)
        return self

    @contextlib.contextmanager
    def traces(self):
        """In the block, this thread's calls are traced."""
        sys.setprofile(self.goes_on if len(self.wanted) > 1 else None)
        sys.settrace(self)
        try:
            yield
        finally:
            sys.setprofile(None)
            sys.settrace(None)

    def goes_on(self, frame, *_):
        """Traces on: what has thrown traces no more. The next call or return of this thread comes here."""
        if sys.gettrace() is None and self.wanted:
            sys.settrace(self)
            while frame is not None:
                frame.f_trace = self if frame.f_code.co_filename.startswith(FOLDER) else frame.f_trace
                frame = frame.f_back

    def came_by(self, frame):
        """Counts a place, and throws where it is the next that is wanted."""
        line = (os.path.basename(frame.f_code.co_filename), frame.f_lineno)
        self.times[line] = self.times.get(line, 0) + 1
        place = (*line, self.times[line])
        self.places.append(place)
        if self.wanted and self.wanted[0] == place:
            self.wanted.pop(0)
            if place[:2] == WAITS:
                self.late()
            raise self.kind("thrown here")


def is_of_a_finalizer(frame):
    """Whether a finalizer runs this: what it throws goes nowhere, and its moment is the runtime's."""
    while frame is not None and frame.f_code.co_filename != weakref.__file__:
        frame = frame.f_back
    return frame is not None


class Script:
    """A call, how the server meets it, and what is done beforehand and when its request was heard."""

    def __init__(self, call, met, at_cancel=None, left=False, hears=None, gives=None):
        self.call, self.met, self.at_cancel, self.left, self.hears, self.gives = call, met, at_cancel, left, hears, gives


class Untouched(Case):
    """Tests in which no garbage is collected but between two runs: its finalizers would be traced as well."""

    def setUp(self):
        super().setUp()
        gc.disable()
        self.addCleanup(gc.enable)
        self.runs = 0

    def one_more(self):
        """Counts a run, which may take as long as a test, and collects garbage now and then."""
        self.goes_on()
        self.runs += 1
        if self.runs % 50 == 0:
            gc.collect()


def script_of(session):
    """The job that runs, if it is a script's. A copy of a script's request may be read when the next call runs already."""
    job = session._jobs.get("job")
    return job if job is not None and place_of(job.asked or {}) == PLACE else None


def cancels(session):
    """Cancels the call of a script that runs."""
    job = script_of(session)
    if job is not None:
        Running(job, lambda: session._driver.order(job)).cancel()


def expires(session):
    """Has the patience of the call of a script that runs end now, so that it is unsettled."""
    job = script_of(session)
    if job is not None:
        job.patience = 0.0
        session._driver.order(job)


SCRIPTS = {
    "put": Script(lambda one: one.put(3, "a"), named("done")),
    "transfer": Script(lambda one: one.transfer(3, "a"), named("received")),
    "try_transfer": Script(lambda one: one.try_transfer(3, "a", 60), named("timedout")),
    "try_transfer at once": Script(lambda one: one.try_transfer(3, "a"), named("nobody")),
    "take": Script(lambda one: one.take(3), named("item")),
    "take, cancelled": Script(lambda one: one.take(3), waits, hears=cancels),
    "take, met at its cancel": Script(lambda one: one.take(3), waits, named("item"), hears=cancels),
    "take, left unsettled": Script(lambda one: one.take(3), waits, hears=expires),
    "poll": Script(lambda one: one.poll(3, 60), named("item")),
    "drain": Script(lambda one: one.drain(3, 5), named("drained")),
    "exchange": Script(lambda one: one.exchange(3, "a", 60), named("swapped")),
    "exchange, late": Script(lambda one: one.exchange(3, "a", 60), named("timedout")),
    "count": Script(lambda one: one.count(3), counted),
    "peek": Script(lambda one: one.peek(3), named("peeked")),
    "items": Script(lambda one: next(one.items(3)), named("item")),
    "items, cancelled": Script(lambda one: list(one.items(3)), waits, hears=cancels, gives=[]),
    "items, met at its cancel": Script(lambda one: next(one.items(3)), waits, named("item"), hears=cancels),
    "again": Script(lambda one: one.again(), waits, left=True, hears=cancels),
    "give_up": Script(lambda one: one.give_up(), waits, named("item"), left=True),
}
# Calls that wait until they are cancelled, and are met then.
MET_AT_CANCEL = {
    "take": Script(lambda one: one.take(3), waits, named("item")),
    "drain": Script(lambda one: one.drain(3, 5), waits, named("drained")),
    "exchange": Script(lambda one: one.exchange(3, "a"), waits, named("swapped")),
}
# The types of outcomes, by the words of replies.
TYPES = {"done": rv.replies.Done, "received": rv.Receipt, "nobody": rv.replies.Nobody, "item": rv.replies.Item,
         "swapped": rv.replies.Swapped, "timedout": rv.replies.TimedOut, "cancelled": rv.replies.Cancelled,
         "counted": rv.Counted, "peeked": rv.replies.Peeked, "drained": rv.replies.Drained}
# What a call gives for a reply that has no item; each other gives the item, or the outcome itself.
NOTHING = ("done", "nobody", "timedout")


def outcome_of(reply):
    """The outcome that a reply of the book is."""
    key = rv.Key(reply["epoch"], reply["client"], reply["incarnation"], reply["number"])
    made, word = TYPES[reply["reply"]], reply["reply"]
    if word == "received":
        return made(key, rv.Key(1, reply["by_client"], reply["by_incarnation"], reply["by_number"]))
    if word == "counted":
        return made(key, reply["items"], reply["consumers"])
    if word == "drained":
        return made(key, tuple(reply["texts"]))
    return made(key, reply["item"]) if "item" in reply else made(key)


class Run:
    """One run of a script: a session of a client of its own, the call, and what is told of its request, which is the
    session's second."""

    def __init__(self, test, book, script):
        test.one_more()
        self.test, self.script, self.client, self.told = test, script, next(CLIENTS), []
        self.book, self.account = book, book.accounts[self.client]
        self.session = self.asked = self.begun()
        self.session.count(1)
        book.met[self.client], book.at_cancel[self.client] = script.met, script.at_cancel
        if script.left:
            book.heard_of[self.client] = lambda: expires(self.session)
            self.test.assertIs(type(raised_by(lambda: self.session.take(PLACE))), rv.Unsettled)
        if script.hears:
            book.heard_of[self.client] = lambda: script.hears(self.session)

    def begun(self):
        """A session of its client."""
        return rv.Session(self.book.address, self.client, 1, connect_timeout=None)

    def throw(self, kind, places, late=False):
        """Makes the call, with exceptions at these places; tells all places that it came by."""
        thrown = Thrown(kind, places, lambda: late and self.book.has_come(self.client, 2, GENEROUS))
        value = fault = None
        try:
            with thrown.traces():
                value = self.script.call(self.asked)
        except BaseException as raised:
            fault = raised
        if isinstance(fault, KINDS) and not isinstance(fault, rv.RendezvousError):
            self.test.assertTrue(len(thrown.wanted) < len(places) and isinstance(fault, kind), fault)
        self.judge(value, fault, len(places) > 1)
        self.session.close()
        return thrown.places

    def judge(self, value, fault, twice):
        """What was told is true, the session tells the rest, and it goes on."""
        self.session_says()
        outcome, why = outcome_in(fault)
        self.keeps(outcome is None and type(fault) in KINDS, twice)
        self.told += [outcome] if outcome else []
        if isinstance(raised_by(lambda: self.session.count(1)), rv.Misused):
            self.left_over(twice)
            self.session.count(1)
        is_same, reply = self.test.assertEqual, self.account.own_reply(2)
        is_same(self.session.last, outcome_of(self.account.replies[self.account.last]))
        is_same((self.account.waits, self.account.last), (None, 2 if reply is None else 3))
        if fault is None:
            is_same(value, self.result_of(reply))
        elif reply is not None:
            self.test.assertTrue(self.told or isinstance(why, rv.Unsettled), "nothing was told")
        if isinstance(why, (rv.NotAsked, rv.Cancelled)):
            is_same((why.key, reply), (None, None))
        elif why is not None:
            is_same((type(why), why.key.number), (rv.Unsettled, 2))
        is_same(self.told, [outcome_of(reply)] * len(self.told) if reply else [])

    def keeps(self, untold, twice):
        """What the request took stands in the session where an exception came that doesn't tell it, and else not."""
        kept, reply = [one.item for one in self.session.unclaimed()], self.account.own_reply(2)
        took = reply.get("texts", [reply["item"]] if "item" in reply else []) if reply and reply["reply"] != "peeked" else []
        settled = self.session.last.key.number == 2 and "job" not in self.session._jobs
        wanted = took if untold and settled else []
        self.test.assertTrue(kept == wanted or twice and untold and not kept, f"{kept} of {took}")

    def session_says(self):
        """What the session has as its last outcome counts as told, where it is the request's."""
        if self.session.last.key.number == 2:
            self.told.append(self.session.last)

    def left_over(self, twice):
        """What the request came to that an exception left counts as told, once it is known."""
        asks = self.session.give_up if twice or self.script.met is waits else self.session.again
        for _ in range(5):
            try:
                self.told.append(asks())
                return
            except rv.Unsettled as unsettled:
                self.test.assertEqual(unsettled.key.number, 2)
                asks = self.session.give_up
            except (rv.NotAsked, rv.Cancelled) as never:
                self.test.assertIsNone(never.key)
                return
        self.test.fail("it stays unsettled")

    def result_of(self, reply):
        """What the call gives for a reply."""
        if self.script.gives is not None:
            return self.script.gives
        if self.script.left:
            return outcome_of(reply)
        if reply["reply"] in NOTHING:
            return None
        if reply["reply"] == "drained":
            return reply["texts"]
        return reply["item"] if "item" in reply else outcome_of(reply)


class Sharded(Run):
    """A run whose call is asked by shards, in the session of the server that has its place."""

    def begun(self):
        self.shards = rv.Shards([f"rv://{self.book.address}?client={self.client}"], connect_timeout=None)
        return self.shards.session(PLACE)

    def throw(self, kind, places, late=False):
        self.asked = self.shards
        return super().throw(kind, places, late)


class Closed(Run):
    """A run whose session is closed right after the exceptions: what the server gave is told, or stands there, once."""

    def judge(self, value, fault, twice):
        self.session.close()
        reply, told = self.account.own_reply(2), list(outcomes_in(fault))[:1]
        took = reply.get("texts", [reply["item"]] if "item" in reply else []) if reply else []
        gave = value if isinstance(value, list) else [value] if value else []
        gave += [text for each in told for text in getattr(each, "items", [getattr(each, "item", None)]) if text]
        self.test.assertEqual(gave + [one.item for one in self.session.unclaimed()], took, fault)
        self.test.assertEqual((told, self.session.unsettled), ([outcome_of(reply)] * len(told) if reply else [], None))


def outcomes_in(fault):
    """The outcomes that an exception tells, or one in whose place it came."""
    while fault is not None:
        if outcome_in(fault)[0] is not None:
            yield outcome_in(fault)[0]
        fault = fault.__context__


def outcome_in(fault):
    """The outcome that an exception tells, and the exception that tells what is known instead."""
    if isinstance(fault, rv.Interrupted):
        return fault.outcome, fault.fault
    if isinstance(fault, rv.Cancelled) and fault.key:
        return rv.replies.Cancelled(fault.key), None
    if isinstance(fault, rv.TimedOut):
        return rv.replies.TimedOut(fault.key), None
    return None, fault if isinstance(fault, rv.RendezvousError) else None


class Interrupts(Untouched):
    """Exceptions at each line."""

    def everywhere(self, run, kinds=KINDS, before=()):
        """Runs a script without an exception, and then with each kind at each place that shows up; how often it ran. `run`
        gives a new run; `before` are places of earlier exceptions."""
        tried, runs = set(), 0
        found = [place for place in run().throw(KINDS[0], before)[len(before):]]
        while found:
            place = found.pop()
            if place in tried:
                continue
            tried.add(place)
            for kind, late in itertools.product(kinds, (False, True) if place[:2] == WAITS else (False,)):
                with self.subTest(places=(*before, place), kind=kind.__name__, late=late):
                    found += run().throw(kind, (*before, place), late)
                runs += 1
        self.assertGreater(runs, 5 * len(kinds))
        return tried

    def test_each_line_of_each_call(self):
        """Each script, each place, each kind."""
        with Book() as book:
            for name, script in SCRIPTS.items():
                with self.subTest(script=name):
                    self.everywhere(lambda: Run(self, book, script))

    def test_each_line_of_shards(self):
        """Of theirs, and of the session beneath."""
        with Book() as book:
            for name in ("put", "take, met at its cancel", "items"):
                with self.subTest(script=name):
                    self.everywhere(lambda: Sharded(self, book, SCRIPTS[name]))

    def test_an_exception_behind_another(self):
        """A second one at each line that is run after the first."""
        with Book() as book:
            for name in ("take", "take, met at its cancel"):
                first = self.everywhere(lambda: Run(self, book, SCRIPTS[name]), KINDS[:1])
                for place in sorted(first):
                    with self.subTest(script=name):
                        self.second(lambda: Run(self, book, SCRIPTS[name]), place)

    @unhurried()
    def test_a_close_after_two_exceptions(self):
        """The first comes where the call waits, at once and once the server has the request, and the second at each line after
        it: then the session is closed."""
        with Book() as book:
            each = [*itertools.product(["take"], KINDS, (False, True)), *((name, TimeoutError, False) for name in MET_AT_CANCEL)]
            for name, kind, late in each:
                with self.subTest(script=name, kind=kind.__name__, late=late):
                    self.closed_after(lambda: Closed(self, book, MET_AT_CANCEL[name]), kind, late)

    def closed_after(self, run, kind, late):
        """A second exception at each place after the first, and none."""
        first = (*WAITS, 1)
        came_by = run().throw(kind, (first, NOWHERE), late)
        for each in came_by[came_by.index(first) + 1:]:
            with self.subTest(second=each):
                run().throw(kind, (first, each), late)

    def second(self, run, place):
        """A second exception at each place behind the first."""
        came_by = run().throw(KINDS[0], (place, NOWHERE))
        behind = came_by[came_by.index(place) + 1:] if place in came_by else []
        for each in behind:
            with self.subTest(places=(place, each)):
                run().throw(KINDS[0], (place, each))


class Sessions(Untouched):
    """Exceptions at each line of what asks nothing."""

    def thrown_in(self, book, call, judge):
        """Runs a call with each kind at each place that shows up."""
        tried, found = set(), [None]
        while found:
            place = found.pop()
            if place in tried:
                continue
            tried.add(place)
            for kind in KINDS:
                self.one_more()
                client = next(CLIENTS)
                one, thrown = rv.Session(book.address, client, 1, connect_timeout=None), Thrown(kind, [place], lambda: None)
                with self.subTest(place=place, kind=kind.__name__):
                    sys.settrace(thrown)
                    try:
                        fault = raised_by(lambda: call(one))
                    finally:
                        sys.settrace(None)
                    self.assertTrue(fault is None if thrown.wanted else isinstance(fault, kind), fault)
                    judge(one)
                found += thrown.places
        self.assertGreater(len(tried), 5)

    def test_connect(self):
        """Behind it the session asks as ever, or says that a call was left, and then asks."""
        def asks(one):
            if isinstance(raised_by(lambda: one.count(1)), rv.Misused):
                raised_by(one.again)
                one.count(1)
            self.assertEqual((one.last.key.number, one.epoch), (1, 1))
            one.close()
        with Book() as book:
            self.thrown_in(book, rv.Session.connect, asks)

    def test_close(self):
        """Behind it, and a second one, no call is asked."""
        def is_closed(one):
            one.close()
            with self.raises(rv.Misused):
                one.count(1)
        with Book() as book:
            self.thrown_in(book, rv.Session.close, is_closed)

    def test_a_block(self):
        """A block that is left by an exception closes its session."""
        def block(one):
            with one:
                one.count(1)

        def goes_on_or_is_closed(one):
            one.close()
            with self.raises(rv.Misused):
                one.count(1)
        with Book() as book:
            self.thrown_in(book, block, goes_on_or_is_closed)


if __name__ == "__main__":
    unittest.main()
