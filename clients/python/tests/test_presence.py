"""Waits that are asked in pieces, each a request of its own: in both sessions."""
import asyncio
import inspect
import itertools
import math
import os
import pathlib
import signal
import tempfile
import threading
import time
import unittest
from unittest import mock

from book import PLACE, Book, named
from context import Case, asked, behind, impatient, in_time, key, raised_by, rv, session, unhurried, until
from let_in import handled
from record_lines import lines_of
from rendezvous import aio, calls, stream
from rendezvous.course import LEAST_WAIT, Course
from scripted import HANG_UP, SILENCE, Scripted, received_by, refused, reply, running_first, welcome
from test_aio import cancelled, comes, made, raised, run

# A presence in seconds, longer than any test, and a piece's wait.
PRESENCE, PIECE = 3_000, 3_000_000
DAY = 86_400
TIMED_OUT = reply("timedout")
CLIENTS = itertools.count(1)


def next_item(one):
    """The next item of a loop, in either session."""
    return next(one.items(3)) if isinstance(one, rv.Session) else one.items(3).__anext__()


# Calls that wait longer than a presence: what asks them, a deed that meets the third piece, and what that gives.
LONG = [
    (lambda one: one.transfer(3, "a"), received_by(7, 8, 9), rv.Receipt(key(3), rv.Key(1, 7, 8, 9))),
    (lambda one: one.try_transfer(3, "a", DAY), received_by(7, 8, 9), rv.Receipt(key(3), rv.Key(1, 7, 8, 9))),
    (lambda one: one.take(3), reply("item", item="b"), "b"), (next_item, reply("item", item="b"), "b"),
    (lambda one: one.poll(3, DAY), reply("item", item="b"), "b"),
    (lambda one: one.poll(3, math.inf), reply("item", item="b"), "b"),
    (lambda one: one.exchange(3, "a"), reply("swapped", item="b"), "b"),
    (lambda one: one.exchange(3, "a", DAY), reply("swapped", item="b"), "b"),
]
# Calls that don't, with the wait that is asked.
SHORT = [
    (lambda one: one.poll(3), "now", reply("empty")), (lambda one: one.poll(3, 0), 0, TIMED_OUT),
    (lambda one: one.poll(3, PRESENCE), PIECE, TIMED_OUT), (lambda one: one.try_transfer(3, "a"), "now", reply("nobody")),
    (lambda one: one.try_transfer(3, "a", 7), 7_000, TIMED_OUT), (lambda one: one.put(3, "a", DAY), None, reply("done")),
]


def ends(call, server, kind, **more):
    """What a call of a session of this kind gives, or raises."""
    async def awaited():
        async with made(server, presence=PRESENCE, **more) as one:
            try:
                return await call(one)
            except rv.RendezvousError as fault:
                return fault
    if kind is aio.Session:
        return run(awaited())
    with session(server, presence=PRESENCE, **more) as one:
        told = []
        return raised_by(lambda: told.append(call(one))) or told[0]


def renewed(server, kind):
    """What a take gives in a session of this kind that renews itself."""
    async def awaited():
        async with aio.Session(server.address, 1, renew=True, connect_timeout=None, presence=PRESENCE) as one:
            return await one.take(3)
    if kind is aio.Session:
        return run(awaited())
    with rv.Session(server.address, 1, renew=True, connect_timeout=None, presence=PRESENCE) as one:
        return one.take(3)


def between(deed):
    """In the block, a deed is done between two pieces: the answer of one was taken in, and the next one is not sent yet."""
    pieced = Course._pieced

    def stops(course, job, told):
        left = pieced(course, job, told)
        if told is not None and left is None:
            deed(job)
        return left
    return mock.patch.object(Course, "_pieced", stops)


def requests(server):
    """The requests that came, each as its number and wait."""
    return [(one["number"], one.get("wait")) for one in server.heard if one["kind"] == "request"]


class Pieces(Case):
    """What is asked, and what is told of it."""

    def test_one_after_another(self):
        """A new request for each, with the same item; what settles the last one is the call's."""
        for kind, (number, (call, deed, wanted)) in itertools.product((rv.Session, aio.Session), enumerate(LONG)):
            with self.subTest(kind=kind.__module__, call=number), Scripted(welcome, TIMED_OUT, TIMED_OUT, deed) as server:
                self.assertEqual(ends(call, server, kind), wanted)
                self.assertEqual(requests(server), [(1, PIECE), (2, PIECE), (3, PIECE)])
                others = [{**one, "number": 1} for one in server.heard[1:]]
                self.assertEqual((others, server.connections), (others[:1] * 3, 1))

    def test_a_wait_that_is_no_longer(self):
        """Is one request."""
        for kind, (number, (call, wait, deed)) in itertools.product((rv.Session, aio.Session), enumerate(SHORT)):
            with self.subTest(kind=kind.__module__, call=number), Scripted(welcome, deed) as server:
                self.assertEqual((ends(call, server, kind), requests(server)), (None, [(1, wait)]))

    def test_without_a_presence(self):
        """Nothing is asked in pieces, and so it is unless it is chosen."""
        for kind in (rv.Session, aio.Session):
            self.assertIsNone(inspect.signature(kind).parameters["presence"].default)
        with Scripted(welcome, reply("item", item="a")) as server, session(server) as one:
            self.assertEqual((one.take(3), requests(server)), ("a", [(1, "forever")]))

    def test_what_a_presence_is(self):
        """Whole milliseconds, rounded up, to a day at most."""
        for given, kept in ((None, None), (1, 1_000), (0.25, 250), (0.0001, 1), (1.0001, 1_001), (DAY, 86_400_000)):
            self.assertEqual(calls.presence_of(given), kept)

    def test_what_is_left(self):
        """Is the last piece, rounded up."""
        call = calls.made("take", 3, 60)
        for left, wait in ((60.0, 25_000), (25.0, 25_000), (24.9999, 25_000), (10.0, 10_000), (0.0012, 2), (0.0, 0), (-1.0, 0)):
            self.assertEqual(calls.piece_of(call, 25_000, left), {**call, "wait": wait})
        self.assertEqual(calls.piece_of(calls.made("take", 3, calls.Wait.FOREVER), 25_000, math.inf)["wait"], 25_000)
        self.assertIs(calls.piece_of(call, 60_000, 0.5), call)

    @unhurried(cancels=False)
    def test_a_time_of_its_own(self):
        """All pieces together last as long as the call, and then nobody came."""
        def late(came):
            time.sleep(came["wait"] / 1000)
            return TIMED_OUT(came)
        for call, wanted in ((lambda one: one.try_transfer(3, "a", 0.5), None), (lambda one: one.poll(3, 0.5), None),
                             (lambda one: one.exchange(3, "a", 0.5), rv.TimedOut)):
            with Scripted(welcome) as server, session(server, presence=0.2) as one:
                server.otherwise, began, told = late, time.monotonic(), []
                fault = raised_by(lambda: told.append(call(one)))
                self.assertGreaterEqual(time.monotonic() - began, 0.5 - LEAST_WAIT)
                self.assertEqual(told if wanted is None else [type(fault)], [wanted])
                waits = [wait for _, wait in requests(server)]
                self.assertEqual(waits[:-1], [200] * (len(waits) - 1))
                self.assertTrue(0 < waits[-1] <= 200 and sum(waits) <= 500, waits)

    def test_what_is_last(self):
        """While a piece waits, the one before it is what was settled last; the session shows the call."""
        with Scripted(welcome, TIMED_OUT, SILENCE, reply("cancelled")) as server, session(server, presence=PRESENCE) as one:
            told = []

            def look():
                told.extend([one.last, one.unsettled, "running take(3)" in repr(one)])
                one.cancel()
            threading.Thread(target=behind(server, 3, look)).start()
            with self.raises(rv.Cancelled, key=key(2)):
                one.take(3)
            self.assertEqual(told, [rv.replies.TimedOut(key(1)), key(2), True])

    @impatient()
    def test_an_unsettled_piece(self):
        """It alone is asked again, and may have timed out; the next call has the next number."""
        for told, wanted in ((TIMED_OUT, rv.replies.TimedOut(key(2))), (reply("item", item="a"), rv.replies.Item(key(2), "a"))):
            with Scripted(welcome, TIMED_OUT, HANG_UP) as server, session(server, presence=PRESENCE) as one:
                with self.raises(rv.Unsettled, key=key(2)):
                    one.take(3)
                server.deeds += [told, reply("item", item="b")]
                self.assertEqual((one.again(), one.take(3)), (wanted, "b"))
                self.assertEqual(requests(server), [(1, PIECE), (2, PIECE), (2, PIECE), (3, PIECE)])

    def test_a_new_start_of_the_server(self):
        """Between two pieces: nobody met what is asked next, so that goes on in the new epoch where the session renews itself."""
        for kind in (rv.Session, aio.Session):
            with Scripted(welcome, TIMED_OUT, refused(2, current=5)) as server:
                fault = ends(lambda one: one.take(3), server, kind)
                self.assertEqual((type(fault), fault.key, fault.current), (rv.NotAsked, key(2), 5))
            with Scripted(welcome, TIMED_OUT, refused(2, current=5), lambda came: welcome(came, 5), TIMED_OUT,
                          reply("item", item="a")) as server:
                gave = renewed(server, kind)
                self.assertEqual((gave, requests(server)), ("a", [(1, PIECE), (2, PIECE), (1, PIECE), (2, PIECE)]))

    def test_a_full_server(self):
        """A piece that finds no room is asked until it does."""
        with Scripted(welcome, TIMED_OUT, refused(10), refused(10), reply("item", item="a")) as server:
            self.assertEqual(ends(lambda one: one.take(3), server, rv.Session), "a")
            self.assertEqual(requests(server), [(1, PIECE)] + [(2, PIECE)] * 3)


class Records(Case):
    """The record of a wait in pieces."""

    def setUp(self):
        super().setUp()
        folder = tempfile.TemporaryDirectory(prefix="rv-presence-")
        self.addCleanup(folder.cleanup)
        self.path = pathlib.Path(folder.name, "record")

    def test_a_line_for_each(self):
        """Each piece has its reply."""
        for kind in (rv.Session, aio.Session):
            with Scripted(welcome, TIMED_OUT, TIMED_OUT, reply("item", item="a")) as server:
                self.assertEqual(ends(lambda one: one.take(3), server, kind, record=self.path), "a")
            told = [(line.key.number, line.reply["reply"]) for line in lines_of(self.path)]
            self.assertEqual(told, [(1, "timedout"), (2, "timedout"), (3, "item")])
            self.path.unlink()

    def test_one_that_is_not_recorded(self):
        """It ends the call, which took nothing, and no other piece is asked."""
        for kind in (rv.Session, aio.Session):
            with Scripted(welcome, running_first(self.path.mkdir, TIMED_OUT)) as server:
                fault = ends(lambda one: one.take(3), server, kind, record=self.path)
                self.assertEqual((type(fault), getattr(fault, "outcome", None)), (rv.NotRecorded, rv.replies.TimedOut(key(1))))
                self.assertEqual(requests(server), [(1, PIECE)])
            self.path.rmdir()


class Cancels(Case):
    """Calls that are given up within a piece, and between two."""

    def test_within_a_piece(self):
        """The piece is cancelled; an item that it took is given. Where it timed out by then, nothing more is asked."""
        for told, wanted in ((reply("cancelled"), rv.Cancelled), (TIMED_OUT, rv.Cancelled), (reply("item", item="b"), "b")):
            with Scripted(welcome, TIMED_OUT, SILENCE, told) as server, session(server, presence=PRESENCE) as one:
                threading.Thread(target=behind(server, 3, one.cancel)).start()
                gave = []
                fault = raised_by(lambda: gave.append(one.take(3)))
                self.assertEqual(gave or [type(fault)], [wanted])
                self.assertEqual(asked(server)[1:], [("request", 1, "take"), ("request", 2, "take"), ("cancel", 2, None)])
                self.assertEqual((one.unclaimed(), one.unsettled), ([], None))

    def test_between_two(self):
        """It was cancelled, and nothing was asked: the next call has the next number."""
        for call, deed, _ in LONG[:3] + LONG[4:]:
            with Scripted(welcome, TIMED_OUT, reply("done")) as server, session(server, presence=PRESENCE) as one:
                with between(lambda _: one.cancel()), self.raises(rv.Cancelled, key=None):
                    call(one)
                self.assertEqual((one.last, one.unsettled), (rv.replies.TimedOut(key(1)), None))
                one.put(3, "c")
                self.assertEqual([number for number, _ in requests(server)], [1, 2])

    def test_as_the_answer_comes(self):
        """A cancel that is ordered before the answer is sent: whoever comes first, it was cancelled and nothing was taken."""
        for _ in range(20):
            with Scripted(welcome) as server, session(server, presence=PRESENCE) as one:
                server.deeds, server.otherwise = [running_first(one.cancel, TIMED_OUT)], TIMED_OUT
                self.assertIs(type(raised_by(lambda: one.take(3))), rv.Cancelled)
                self.assertEqual({number for number, _ in requests(server)}, {1})

    def test_a_loop(self):
        """Ends, by its stop and by a cancel."""
        for stops in (lambda one, jobs: jobs.stop(), lambda one, jobs: one.cancel()):
            with Scripted(welcome, reply("item", item="a"), TIMED_OUT) as server, session(server, presence=PRESENCE) as one:
                jobs = one.items(3)
                with between(lambda _: stops(one, jobs)):
                    self.assertEqual((list(jobs), requests(server)), (["a"], [(1, PIECE), (2, PIECE)]))
            with Scripted(welcome, reply("item", item="a"), TIMED_OUT) as server:
                self.assertEqual((run(self.looped(server, stops)), requests(server)), (["a"], [(1, PIECE), (2, PIECE)]))

    async def looped(self, server, stops):
        """The items of a loop in asyncio that is stopped between two pieces."""
        async with made(server, presence=PRESENCE) as one:
            jobs = one.items(3)
            with between(lambda _: stops(one, jobs)):
                return [item async for item in jobs]

    def test_a_close(self):
        """Between two pieces, by another thread: nothing is asked any more, and nothing is unsettled."""
        with Scripted(welcome, TIMED_OUT) as server, session(server, presence=PRESENCE) as one:
            def closes(_):
                threading.Thread(target=one.close).start()
                until("a close", lambda: one._driver.closing)
            with between(closes), self.raises(rv.NotAsked, key=None, why="the session was closed"):
                one.take(3)
            self.assertEqual((one.unsettled, one.unclaimed(), requests(server)), (None, [], [(1, PIECE)]))

    @unhurried()
    def test_an_interrupt(self):
        """Of the keyboard, between two pieces: nothing was asked; within one it has what that came to."""
        def press(job):
            os.kill(os.getpid(), signal.SIGINT)
            until("an interrupt", lambda: job.given_up)
        with handled(signal.SIGINT, signal.default_int_handler):
            with Scripted(welcome, TIMED_OUT) as server, session(server, presence=PRESENCE) as one:
                with between(press), self.raises(rv.Interrupted, key=None, outcome=None) as told:
                    one.take(3)
                self.assertEqual((type(told.raised.fault), requests(server)), (rv.NotAsked, [(1, PIECE)]))
            with Scripted(welcome, TIMED_OUT, SILENCE) as server, session(server, presence=PRESENCE) as one:
                server.otherwise = reply("item", item="b")
                threading.Thread(target=behind(server, 3, lambda: os.kill(os.getpid(), signal.SIGINT))).start()
                with self.raises(rv.Interrupted, key=key(2), outcome=rv.replies.Item(key(2), "b")):
                    one.take(3)

    @in_time
    @unhurried()
    def test_its_own_time(self):
        """Where a piece has no answer in the call's own time, it is cancelled, and nobody came."""
        with Scripted(welcome) as server, session(server, presence=0.02) as one:
            server.otherwise = lambda came: reply("cancelled")(came) if came["kind"] == "cancel" else SILENCE
            self.assertIsNone(one.poll(3, 0.05))
            self.assertEqual(set(asked(server)[1:]), {("request", 1, "take"), ("cancel", 1, None)})


class Tasks(Case):
    """Tasks that are cancelled."""

    def test_between_two(self):
        """Nothing was asked; the next take asks under the next number."""
        async def asks():
            with Scripted(welcome, TIMED_OUT, reply("item", item="a")) as server:
                async with made(server, presence=PRESENCE) as one:
                    with between(lambda _: one.cancel()):
                        self.assertEqual((await raised(one.take(3))).args, rv.Cancelled(None).args)
                    self.assertEqual((await one.take(3), requests(server)), ("a", [(1, PIECE), (2, PIECE)]))
        run(asks())

    def test_as_the_answer_comes(self):
        """Of a task that is cancelled in the step in which a piece's answer came, no other piece is asked."""
        async def asks():
            with Scripted(welcome, TIMED_OUT, reply("item", item="a")) as server:
                async with made(server, presence=PRESENCE) as one:
                    task = asyncio.ensure_future(one.take(3))
                    comes_in = stream.Connection.data_received

                    def cancelled_behind(link, data):
                        comes_in(link, data)
                        if len(server.heard) == 2:
                            task.cancel()
                    with mock.patch.object(stream.Connection, "data_received", cancelled_behind):
                        self.assertIs(type(await raised(task)), asyncio.CancelledError)
                    self.assertEqual((one.last, one.unsettled), (rv.replies.TimedOut(key(1)), None))
                    self.assertEqual((await one.take(3), requests(server)), ("a", [(1, PIECE), (2, PIECE)]))
        run(asks())

    def test_within_a_piece(self):
        """An item that the piece took is the next take's."""
        async def asks():
            with Scripted(welcome, TIMED_OUT, SILENCE, reply("item", item="a")) as server:
                async with made(server, presence=PRESENCE) as one:
                    await cancelled(one, lambda one: one.take(3), server, 3)
                    await comes("its item", one.unclaimed)
                    self.assertEqual(one.unclaimed(), [rv.Unclaimed(key(2), "a", queue=3)])
                    self.assertEqual((await one.take(3), len(requests(server))), ("a", 2))
        run(asks())

    def test_at_each_step_of_the_event_loop(self):
        """A take of which two pieces time out is cancelled after so many steps: each item that the server gave is told once."""
        async def takes(book, steps):
            client, got = next(CLIENTS), []
            book.met[client] = lambda came: named("item" if came["number"] % 3 == 0 else "timedout")(came)
            async with aio.Session(book.address, client, 1, connect_timeout=None, presence=PRESENCE) as one:
                task = asyncio.ensure_future(one.take(PLACE))
                for _ in itertools.takewhile(lambda step: step < steps and not task.done(), itertools.count()):
                    await asyncio.sleep(0)
                over = not task.cancel()
                fault = await raised(task)
                got += [] if fault else [task.result()]
                got += [await one.take(PLACE), await one.take(PLACE)]
                left = [each.item for each in one.unclaimed()]
            given = [each["item"] for _, each in sorted(book.accounts[client].replies.items()) if "item" in each]
            self.assertEqual((got, left), (given, []))
            return over

        async def all_steps(book):
            return [await takes(book, steps) for steps in [*range(60), *range(60, 3_000, 60), math.inf]]
        with Book() as book:
            overs = run(all_steps(book))
        self.assertFalse(overs[0])
        self.assertTrue(overs[-1])


if __name__ == "__main__":
    unittest.main()
