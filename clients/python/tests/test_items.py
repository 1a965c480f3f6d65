"""Loops over items, and what stands unclaimed, in sessions that wait on a thread."""
import gc
import itertools
import os
import signal
import sys
import threading
import unittest

from book import PLACE, Book, named
from context import PATIENCE, Case, asked, behind, key, raised_by, rv, session, unhurried
from let_in import handled, on_line
from rendezvous.driver import Job
from rendezvous.session import Items
from scripted import SILENCE, Scripted, refused, reply, waiting, welcome

FOLDER = os.path.dirname(rv.__file__)
WAITING = (Job.wait, "while self.told is None")
CLAIMING = (rv.Session._claimed, "return shelf.claim(one)")


def items_met(came):
    """A deed: an item that names its request; each cancel is told as one."""
    return reply("cancelled")(came) if came["kind"] == "cancel" else reply("item", item=f"item {came['number']}")(came)


class CancelAt:
    """Traces a loop, and cancels at a line: the one with this number, or where the second step from now on waits."""

    def __init__(self, one, wanted):
        self.one, self.wanted, self.count, self.steps, self.told, self.line = one, wanted, 0, 0, [], None

    def __call__(self, frame, event, _):
        if not frame.f_code.co_filename.startswith(FOLDER):
            return None
        self.steps += event == "call" and frame.f_code is Items.__next__.__code__
        if event == "line" and not self.told:
            self.count += 1
            waits = self.steps == 2 and frame.f_code is Job.wait.__code__
            if self.count == self.wanted or waits:
                sys.settrace(None)
                self.line = (frame.f_code.co_name, frame.f_lineno)
                self.told.append(self.one.cancel())
        return self


class Loops(Case):
    """`for item in session.items(queue)`."""

    def test_it_gives_one_item_after_another(self):
        """Each by a take of its own; leaving the loop leaves the rest, and another loop goes on."""
        with Scripted(welcome) as server, session(server) as one:
            server.otherwise, got = items_met, []
            for item in one.items(3):
                got.append(item)
                if len(got) == 3:
                    break
            self.assertEqual((got, next(one.items(3))), (["item 1", "item 2", "item 3"], "item 4"))
            self.assertEqual([call for _, _, call in asked(server)[1:]], ["take"] * 4)
            self.assertEqual(one.unclaimed(), [])

    def test_a_cancel_ends_its_take(self):
        """The loop ends; an item that was met before is given, and the loop ends behind it."""
        for told, items in ((reply("cancelled"), ["a"]), (reply("item", item="b"), ["a", "b"])):
            with Scripted(welcome, reply("item", item="a"), SILENCE, told) as server, session(server) as one:
                threading.Thread(target=behind(server, 3, one.cancel)).start()
                self.assertEqual(list(one.items(3)), items)
                self.assertEqual((one.cancel(), len(server.heard), one.unclaimed()), (False, 4, []))

    def test_a_cancel_between_two_takes(self):
        """By another thread, or a signal's handler, while an item is worked at: nothing more is asked."""
        for number in (None, signal.SIGTERM):
            with Scripted(welcome, reply("item", item="item 1")) as server, session(server) as one:
                server.otherwise, told = refused(2, current=5), []
                with handled(signal.SIGTERM, lambda *_: told.append(one.cancel())):
                    for item in one.items(3):
                        told.append(item)
                        if number is None:
                            other = threading.Thread(target=lambda: told.append(one.cancel()))
                            other.start()
                            other.join()
                        else:
                            signal.raise_signal(number)
                self.assertEqual((told, len(server.heard), one.cancel()), (["item 1", True], 2, False))
                server.otherwise = items_met
                self.assertEqual(one.take(3), "item 2")

    def test_a_cancel_at_each_line(self):
        """Whichever line a handler's cancel comes at, from the second step to the third one's wait: the loop ends, and has given
        each item that the server gave."""
        with Book() as book:
            tried = next(count for count in itertools.count(1) if not self.cancelled_at(book, count))
        self.assertGreater(tried, 40)

    def cancelled_at(self, book, count):
        """One loop, with a cancel at so many lines behind its first item; whether there are so many."""
        client = 1 + len(book.accounts)
        book.met[client] = lambda came: named("item")(came) if came["number"] < 3 else None
        with rv.Session(book.address, client, 1, patience=PATIENCE, connect_timeout=None) as one:
            loop = one.items(PLACE)
            tracer = CancelAt(one, count)
            got = [next(loop)]
            sys.settrace(tracer)
            try:
                for item in loop:
                    got.append(item)
            finally:
                sys.settrace(None)
            given = [each["item"] for _, each in sorted(book.accounts[client].replies.items()) if "item" in each]
            with self.subTest(line=tracer.line):
                self.assertEqual((got, one.unclaimed(), tracer.told), (given, [], [True]))
            return tracer.count >= count

    def test_a_stop(self):
        """It ends the loop's take that waits; while the body has a call of its own, the loop ends behind that."""
        with Scripted(welcome, SILENCE, reply("cancelled")) as server, session(server) as one:
            jobs = one.items(3)
            threading.Thread(target=behind(server, 2, jobs.stop)).start()
            self.assertEqual((list(jobs), jobs.stop(), list(jobs)), ([], False, []))
        with Scripted(welcome, reply("item", item="a")) as server, session(server) as one:
            jobs, told = one.items(3), []
            server.otherwise = lambda came: (told.append(jobs.stop()), reply("done")(came))[1]
            for item in jobs:
                told.append(one.put(4, item))
            self.assertEqual((told, [call for _, _, call in asked(server)]), ([True, None], [None, "take", "put"]))

    def test_other_ends(self):
        """What else ends a take is raised; the body's calls are its own."""
        with Scripted(welcome, reply("item", item="a"), reply("done"), waiting, refused(2, current=5)) as server:
            with session(server) as one, self.raises(rv.EpochEnded, key=key(3)):
                for item in one.items(3):
                    one.put(4, item)
        for wrong in (64, -1, "3", True):
            with Scripted() as server, self.assertRaises(ValueError):
                session(server).items(wrong)

    def test_a_loop_that_was_left(self):
        """It is nobody's to cancel."""
        with Scripted(welcome) as server, session(server) as one:
            server.otherwise = items_met
            for _ in one.items(3):
                break
            gc.collect()
            self.assertFalse(one.cancel())


class Unclaimed(Case):
    """Items that came with an exception of a signal's handler."""

    def left(self, call, told):
        """A session whose call ended by an alarm's exception, though its request was met."""
        def ring(*_):
            raise TimeoutError("the program's own alarm")
        server = Scripted(welcome, SILENCE, told).__enter__()
        self.addCleanup(server.__exit__)
        one = session(server)
        self.addCleanup(one.close)
        rings = behind(server, 2, lambda: signal.raise_signal(signal.SIGALRM))
        with unhurried(), handled(signal.SIGALRM, ring), on_line(*WAITING, rings):
            self.assertIs(type(raised_by(lambda: call(one))), TimeoutError)
        return server, one

    def test_it_stands_until_it_is_claimed(self):
        """A take doesn't give it, for `last` has told it; it stands behind the end too."""
        server, one = self.left(lambda one: one.take(3), reply("item", item="a"))
        wanted = [rv.Unclaimed(key(1), "a", queue=3)]
        self.assertEqual((one.unclaimed(), one.last), (wanted, rv.replies.Item(key(1), "a")))
        server.otherwise = items_met
        self.assertEqual((one.take(3), one.unclaimed()), ("item 2", wanted))
        one.close()
        self.assertEqual((one.unclaimed(), one.claim(wanted[0]), one.unclaimed()), (wanted, "a", []))
        with self.assertRaises(ValueError):
            one.claim(wanted[0])

    def test_a_loop_begins_by_it(self):
        """A loop of its queue gives it first, and then takes; one of another queue leaves it."""
        server, one = self.left(lambda one: one.drain(3, 9), reply("drained", texts=["a", "b"]))
        server.otherwise = items_met
        self.assertEqual(next(one.items(4)), "item 2")
        loop = one.items(3)
        self.assertEqual(([next(loop) for _ in range(3)], one.unclaimed()), (["a", "b", "item 3"], []))

    def test_a_handler_that_claims_what_a_loop_is_to_give(self):
        """The loop gives the next one that stands there, or takes; what a handler throws is thrown on, and the item stays."""
        for texts, wanted in ((["a", "b"], "b"), (["a"], "item 2")):
            server, one = self.left(lambda one: one.drain(3, 9), reply("drained", texts=texts))
            server.otherwise, loop, claimed = items_met, one.items(3), []

            def throws():
                raise ValueError("the handler's own")
            with on_line(*CLAIMING, throws), self.assertRaisesRegex(ValueError, "the handler's own"):
                next(loop)
            with on_line(*CLAIMING, lambda: claimed.append(one.claim(one.unclaimed()[0]))):
                self.assertEqual(next(loop), wanted)
            self.assertEqual((claimed, one.unclaimed()), (["a"], []))

    def test_an_exchange(self):
        """The object has its exchanger, and no queue."""
        _, one = self.left(lambda one: one.exchange(3, "b"), reply("swapped", item="a"))
        self.assertEqual(one.unclaimed(), [rv.Unclaimed(key(1), "a", exchanger=3)])

    def test_what_took_nothing(self):
        """A cancelled take, and a transfer, leave nothing there."""
        for call, told in ((lambda one: one.take(3), reply("cancelled")),
                           (lambda one: one.put(3, "a"), reply("done")), (lambda one: one.peek(3), reply("peeked", item="a"))):
            _, one = self.left(call, told)
            self.assertEqual((one.unclaimed(), one.last.key), ([], key(1)))


if __name__ == "__main__":
    unittest.main()
