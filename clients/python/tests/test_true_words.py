"""What a session must never say though it is not so, and where it must not hang: interrupts, cancels, refusals, signals."""
import os
import signal
import socket
import sys
import threading
import unittest

from context import (
    GENEROUS, Case, asked, behind, in_time, key, raised_by, rv, session, unhurried, until)
from let_in import handled, interrupt, on_line
from rendezvous.driver import Driver, Job
from scripted import HANG_UP, SILENCE, Scripted, hang_up, received_by, refused, reply, running_first, welcome

# Where a call looks whether it has to wait for what its request comes to, and where it was told.
WAITING, TOLD = (Job.wait, "while self.told is None"), (rv.Session._told, "value, fault = ending")
# Where the hello, or a call, is handed to the session's thread.
HANDED = (Driver.order, "self._bell.ring")
SOON = 20


def cancelled_or(deed):
    """A deed: a cancel is told that it was met, each other frame by this."""
    return lambda came: reply("cancelled")(came) if came["kind"] == "cancel" else deed


class Interrupts(Case):
    """The keyboard's interrupt tells its own request's outcome, and leaves the session free."""

    @unhurried()
    def test_it_tells_its_own_request(self):
        """Behind a take that was told, an interrupt of the second one tells the second's item, at each moment."""
        for place in (WAITING, TOLD):
            with Scripted(welcome) as server, session(server) as one:
                server.otherwise = lambda came: reply("item", item=f"item {came['number']}")(came)
                self.assertEqual(one.take(3), "item 1")
                with self.raises(rv.Interrupted, key=key(2), fault=None) as told:
                    with on_line(*place, behind(server, 3, interrupt)):
                        one.take(3)
                self.judge(one, told.raised)

    def judge(self, one, interrupted):
        """The outcome of the second take, and the next one's item."""
        outcome = interrupted.outcome
        self.assertIn(outcome, (rv.replies.Item(key(2), "item 2"), rv.replies.Cancelled(key(2))))
        self.assertEqual(one.last, outcome)
        self.assertEqual((one.take(3), one.last.key), ("item 3", key(3)))

    def test_what_was_not_asked(self):
        """An interrupt before anything is handed over is the plain one, and nothing was asked."""
        with Scripted(welcome) as server, session(server) as one:
            with self.raises(KeyboardInterrupt) as told:
                with on_line(rv.Session._told, "owner = self._jobs.setdefault", interrupt):
                    one.take(3)
            self.assertIs(type(told.raised), KeyboardInterrupt)
            self.assertEqual((one.last, len(server.heard)), (None, 1))
            server.otherwise = reply("item", item="a")
            self.assertEqual((one.take(3), one.last.key), ("a", key(1)))

    @unhurried()
    def test_an_interrupt_while_it_waits(self):
        """The request is cancelled; the exception has what it came to, whatever that is."""
        for told, outcome in ((reply("cancelled"), rv.replies.Cancelled(key(1))),
                              (reply("item", item="a"), rv.replies.Item(key(1), "a"))):
            with Scripted(welcome, SILENCE, told) as server, session(server) as one:
                press = behind(server, 2, lambda: os.kill(os.getpid(), signal.SIGINT))
                with handled(signal.SIGINT, signal.default_int_handler):
                    with self.raises(KeyboardInterrupt) as raised:
                        threading.Thread(target=press).start()
                        one.take(3)
                self.assertEqual((type(raised.raised), raised.raised.outcome), (rv.Interrupted, outcome))
                self.assertEqual((raised.raised.key, asked(server)[-1]), (key(1), ("cancel", 1, None)))

    @unhurried()
    def test_an_interrupt_at_the_end(self):
        """The cancel learns that the session is over: the exception says so."""
        for answer, kind, current in [(refused(2, current=5), rv.EpochEnded, 5), (refused(4, current=2), rv.Replaced, 2),
                                      (refused(3), rv.EpochEnded, 1)]:
            with Scripted(welcome, SILENCE, answer) as server, session(server) as one:
                with self.raises(rv.Interrupted, key=key(1), outcome=None) as told:
                    with on_line(*WAITING, behind(server, 2, interrupt)):
                        one.take(3)
                self.assertIs(type(told.raised.fault), kind)
                self.assertEqual((told.raised.fault.key, told.raised.fault.current), (key(1), current))
                with self.raises(rv.Misused):
                    one.take(3)

    def test_an_interrupt_while_the_server_is_away(self):
        """It ends soon, though patience is long; what is known is told."""
        for accepts in (True, False):
            with Scripted(welcome) as server, session(server) as one, socket.socket() as holder:
                holder.setsockopt(socket.SOL_SOCKET, socket.SO_REUSEADDR, 1)

                def leaves():
                    if not accepts:
                        server.__exit__()
                        # so that no other test's server listens there meanwhile
                        holder.bind(("127.0.0.1", server.port))
                    interrupt()
                with self.within(SOON), self.raises(rv.Interrupted, key=key(1), outcome=None) as told:
                    with on_line(*WAITING, behind(server, 2, leaves)):
                        one.take(3)
                self.assertIs(type(told.raised.fault), rv.Unsettled)
                self.assertEqual(told.raised.fault.key, key(1))

    def test_an_interrupt_at_the_hello(self):
        """Nothing was asked, and the session is as new."""
        with Scripted(SILENCE) as server:
            one = session(server)
            with self.raises(rv.Interrupted, key=None, outcome=None) as told:
                with on_line(*WAITING, behind(server, 1, interrupt)):
                    one.take(3)
            self.assertIs(type(told.raised.fault), rv.NotAsked)
            server.deeds += [welcome, reply("item", item="a")]
            self.assertEqual(one.take(3), "a")
            one.close()

    @in_time
    def test_no_call_has_the_time_of_another(self):
        """A take behind a poll whose time is over waits as ever."""
        with Scripted(welcome, reply("timedout"), reply("item", item="a")) as server, session(server) as one:
            self.assertIsNone(one.poll(3, 0))
            with self.raises(KeyboardInterrupt), on_line(rv.Session._told, "owner = self._jobs.setdefault", interrupt):
                one.take(3)
            self.assertEqual(one.take(3), "a")
            self.assertNotIn("cancel", [kind for kind, *_ in asked(server)])


class Cancels(Case):
    """A cancel and a close are final, and mean the call that they name."""

    def test_a_cancel_in_the_hello(self):
        """It is true, nothing is asked, and nothing is taken."""
        with Scripted() as server:
            one, answers = session(server), []
            server.deeds += [running_first(lambda: answers.append(one.cancel()), welcome)]
            server.otherwise = lambda came: welcome(came) if came["kind"] == "hello" else reply("item", item="a")(came)
            with self.raises(rv.Cancelled, key=None) as told:
                one.take(3)
            self.assertIn("before anything was asked", str(told.raised))
            # The call may end before the thread that cancelled it goes on.
            until("what the cancel gave", lambda: answers)
            self.assertEqual((answers, [kind for kind, *_ in asked(server)]), ([True], ["hello"]))
            self.assertEqual((one.take(3), one.last.key), ("a", key(1)))
            one.close()

    def test_a_cancel_names_its_call(self):
        """One that was decided on in a take does nothing to the transfer behind it."""
        kept, answers = [], []
        with Scripted(welcome) as server, session(server) as one:
            late = running_first(lambda: answers.append(kept[0].cancel()), received_by(2, 3, 4))
            server.deeds += [running_first(lambda: kept.append(one.running), reply("item", item="a")), late]
            self.assertEqual((one.running, one.take(3)), (None, "a"))
            self.assertEqual(one.transfer(4, "b").by.client, 2)
            self.assertEqual((answers, kept[0].cancel(), one.running), ([False], False, None))
            self.assertNotIn("cancel", [kind for kind, *_ in asked(server)])

    def test_a_cancel_of_the_call_that_runs(self):
        """It is true, also twice, and the call ends by it."""
        with Scripted(welcome) as server, session(server) as one:
            server.otherwise = cancelled_or(SILENCE)
            threading.Thread(target=behind(server, 2, lambda: [one.running.cancel() for _ in range(1)])).start()
            with self.raises(rv.Cancelled, key=key(1)):
                one.take(3)
            self.assertEqual(one.last, rv.replies.Cancelled(key(1)))

    def test_a_closed_session_takes_nothing(self):
        """The block is left while another thread's call runs: that ends, and no connection is made any more."""
        with Scripted(welcome) as server:
            faults = []
            with session(server) as one:
                taker = threading.Thread(target=lambda: faults.append(raised_by(lambda: one.take(3))))
                taker.start()
                until("a request", lambda: len(server.heard) > 1)
            server.otherwise = reply("item", item="a")
            taker.join(GENEROUS)
            self.assertEqual([(type(each), each.key, each.why) for each in faults],
                             [(rv.Unsettled, key(1), "the session was closed")])
            for call in (lambda: one.take(3), one.again, one.give_up, one.connect):
                with self.raises(rv.Misused):
                    call()
            self.assertEqual((server.connections, len(server.heard), one.cancel()), (1, 2, False))

    def test_it_may_be_closed_many_times(self):
        """Each of them ends."""
        with Scripted(welcome) as server:
            with session(server) as one:
                pass
            for _ in range(2000):
                one.close()

    def test_a_close_as_a_call_begins(self):
        """The call ends, at whichever line it was."""
        places = [(rv.Session._told, "owner = self._jobs"), (rv.Session._told, "self._driver.order(job)"),
                  (Driver.order, "self._orders.put"), HANDED]
        for place in places:
            with Scripted(welcome) as server, session(server) as one:
                server.otherwise = cancelled_or(SILENCE)
                with self.within(SOON), on_line(*place, one.close):
                    fault = raised_by(lambda: one.take(3))
                self.assertIn(type(fault), (rv.Misused, rv.NotAsked, rv.Unsettled))


class Refusals(Case):
    """Refusals that are final, and those that are not."""

    @in_time
    def test_no_room_with_a_copy_out(self):
        """The first copy of a transfer was lost sight of, the second is refused: nothing is known, and then it was met."""
        with Scripted(welcome, HANG_UP) as server, session(server, patience=1.0) as one:
            server.otherwise = refused(10)
            with self.raises(rv.Unsettled, key=key(1), accepted=False):
                one.transfer(3, "a")
            self.assertGreater(len(server.heard), 3, "no refusal was taken in")
            with self.raises(rv.Misused):
                one.transfer(3, "b")
            server.otherwise, one.patience = received_by(2, 1, 1), 60.0
            self.assertEqual(one.again(), rv.Receipt(key(1), rv.Key(1, 2, 1, 1)))
            self.assertEqual({number for _, number, _ in asked(server)[1:]}, {1})

    @in_time
    def test_no_room_without_a_copy_out(self):
        """Each copy was refused: it is certainly in no queue, and the number is used again."""
        with Scripted(welcome) as server, session(server, patience=0.5) as one:
            server.otherwise = refused(10)
            with self.raises(rv.Full, key=key(1)):
                one.transfer(3, "a")
            server.otherwise, one.patience = received_by(2, 1, 1), 60.0
            self.assertEqual(one.transfer(3, "b"), rv.Receipt(key(1), rv.Key(1, 2, 1, 1)))
            self.assertEqual((server.heard[-1]["number"], server.heard[-1]["item"]), (1, "b"))

    @in_time
    def test_no_room_behind_no_memory(self):
        """What a refusal 11 leaves open is not known to be full, until a later refusal 10."""
        with Scripted(welcome) as server, session(server, patience=0.5) as one:
            server.otherwise = refused(11)
            with self.raises(rv.Unsettled, key=key(1)):
                one.transfer(3, "a")
            self.assertGreater(len(server.heard), 2, "no refusal was taken in")
            server.otherwise = refused(10)
            with self.raises(rv.Full, key=key(1)):
                one.again()

    def test_nothing_is_repeated_behind_a_lost_session(self):
        """A transfer was met and its reply lost, and the server knows no session: the epoch's end is told, and no more."""
        for deeds in ([HANG_UP, refused(3)], [refused(3)], [[refused(3)] * 2]):
            with Scripted(welcome, *deeds) as server, session(server) as one:
                server.otherwise = lambda came: welcome(came) if came["kind"] == "hello" else received_by(6, 1, 1)(came)
                with self.raises(rv.EpochEnded, key=key(1), current=1) as told:
                    one.transfer(3, "a")
                self.assertIn("started anew in the same epoch 1", str(told.raised))
                with self.raises(rv.Misused):
                    one.transfer(3, "a")
                self.assertEqual([kind for kind, *_ in asked(server)], ["hello"] + ["request"] * len(deeds))

    def test_replies_of_other_calls(self):
        """A put that is told nobody, a take that is told empty: each is asked again until it has its own reply."""
        with Scripted(welcome, reply("nobody"), reply("done"), reply("empty"), reply("item", item="a")) as server:
            with session(server) as one:
                self.assertEqual((one.put(3, "a"), one.last), (None, rv.replies.Done(key(1))))
                self.assertEqual((one.take(3), one.last), ("a", rv.replies.Item(key(2), "a")))
                self.assertEqual([number for _, number, _ in asked(server)], [None, 1, 1, 2, 2])


class Signals(Case):
    """Handlers of signals that throw, exit, cancel or close."""

    def in_a_take(self, server, one, number, handler):
        """What a take raises in which this signal came, while it waits."""
        with handled(number, handler), on_line(*WAITING, behind(server, 2, lambda: signal.raise_signal(number))):
            return raised_by(lambda: one.take(3))

    @unhurried()
    def test_an_alarm(self):
        """Its TimeoutError comes out soon, and the take was cancelled."""
        def ring(*_):
            raise TimeoutError("the program's own alarm")
        for told, last in ((reply("cancelled"), rv.replies.Cancelled(key(1))), (reply("item", item="a"),
                                                                                rv.replies.Item(key(1), "a"))):
            with Scripted(welcome, SILENCE, told) as server, session(server) as one, self.within(SOON):
                fault = self.in_a_take(server, one, signal.SIGALRM, ring)
                self.assertEqual((type(fault), str(fault)), (TimeoutError, "the program's own alarm"))
                self.assertEqual((one.last, asked(server)[1:]), (last, [("request", 1, "take"), ("cancel", 1, None)]))

    @unhurried()
    def test_an_exit(self):
        """A handler's exit leaves the block, and the take was cancelled."""
        with Scripted(welcome, SILENCE, reply("cancelled")) as server, self.within(SOON):
            with session(server) as one:
                fault = self.in_a_take(server, one, signal.SIGTERM, lambda *_: sys.exit(7))
            self.assertEqual((type(fault), fault.code), (SystemExit, 7))
            self.assertEqual(asked(server)[-1], ("cancel", 1, None))

    def test_a_cancel_in_a_handler(self):
        """At the line that waits, and as the call begins: the call is cancelled."""
        for place in (WAITING, HANDED, (rv.Session._told, "self._driver.order(job)")):
            with Scripted(welcome) as server, session(server) as one, self.within(SOON):
                server.otherwise, answers = cancelled_or(SILENCE), []
                with handled(signal.SIGTERM, lambda *_: answers.append(one.cancel())):
                    with on_line(*place, lambda: signal.raise_signal(signal.SIGTERM)):
                        fault = raised_by(lambda: one.take(3))
                self.assertEqual((type(fault), answers), (rv.Cancelled, [True]))

    def test_a_close_in_a_handler(self):
        """The call ends by what is known, and the session is closed."""
        with Scripted(welcome) as server, session(server) as one, self.within(SOON):
            fault = self.in_a_take(server, one, signal.SIGTERM, lambda *_: one.close())
            self.assertEqual((type(fault), fault.key), (rv.Unsettled, key(1)))
            with self.raises(rv.Misused):
                one.take(3)

    def test_a_call_in_a_handler(self):
        """A second call is misuse, and does nothing to the first."""
        with Scripted(welcome, SILENCE) as server, session(server) as one:
            faults = []
            server.otherwise = reply("item", item="a")

            def puts(*_):
                faults.append(type(raised_by(lambda: one.put(3, "b"))))
                hang_up(server.open[0])
            with handled(signal.SIGTERM, puts):
                with on_line(*WAITING, behind(server, 2, lambda: signal.raise_signal(signal.SIGTERM))):
                    self.assertEqual(one.take(3), "a")
            self.assertEqual((faults, {call for _, _, call in asked(server)[1:]}), ([rv.Misused], {"take"}))


if __name__ == "__main__":
    unittest.main()
