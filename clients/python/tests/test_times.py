"""How long a call lasts, and what it is told where its time is over."""
import threading
import unittest

from context import Case, asked, behind, in_time, key, nobody, raised_by, rv, session, unhurried, until
from scripted import HANG_UP, SILENCE, Listening, Scripted, refused, reply, running_first, waiting, welcome

# The limit of what hangs, in seconds, far above what a call with a short time of its own takes.
SOON = 20


class Deaf(Listening):
    """A server whose connections are made, and where nothing is read."""

    def meet(self, connection):
        self.kept = getattr(self, "kept", []) + [connection]

    def __exit__(self, *_):
        super().__exit__()
        for connection in getattr(self, "kept", []):
            connection.close()


class OwnTimes(Case):
    """Calls with a time of their own."""

    @in_time
    @unhurried()
    def test_a_timeout_is_kept(self):
        """Where no answer comes in the call's own time, it is cancelled, and its reply is told, whatever it is."""
        for late in (SILENCE, HANG_UP):
            for told, result in ((reply("cancelled"), None), (reply("timedout"), None), (reply("item", item="a"), "a")):
                with Scripted(welcome) as server, session(server) as one:
                    server.otherwise = lambda came: told(came) if came["kind"] == "cancel" else late
                    with self.within(SOON):
                        self.assertEqual(one.poll(3, 0.05), result)
                    # a copy over a connection that was thrown away may be read behind the cancel
                    self.assertEqual(asked(server)[1], ("request", 1, "take"))
                    self.assertEqual(set(asked(server)[1:]), {("request", 1, "take"), ("cancel", 1, None)})

    @in_time
    @unhurried()
    def test_an_exchange_that_is_late(self):
        """Nobody came: that is also a TimeoutError, whether the server said it or the cancel."""
        for told in (reply("timedout"), lambda came: reply("cancelled")(came) if came["kind"] == "cancel" else SILENCE):
            with Scripted(welcome) as server, session(server) as one:
                server.otherwise = told
                with self.raises(rv.TimedOut, key=key(1)):
                    one.exchange(3, "x", 0.05)
                with self.raises(TimeoutError):
                    one.exchange(3, "x", 0)

    @in_time
    @unhurried()
    def test_a_put_that_is_late(self):
        """A put that its own time cancelled is no put: it is told so, and the next one is asked under the next number."""
        with Scripted(welcome) as server, session(server) as one:
            server.otherwise = lambda came: reply("cancelled")(came) if came["kind"] == "cancel" else SILENCE
            with self.within(SOON), self.raises(rv.Cancelled, key=key(1)):
                one.put(3, "a", timeout=0.05)
            server.otherwise = reply("done")
            one.put(3, "b")
            self.assertEqual(one.last, rv.replies.Done(key(2)))

    @in_time
    def test_a_short_poll_that_was_asked(self):
        """At a server that is silent then, a poll of a tenth of a second ends soon, though patience is long."""
        with Scripted(welcome) as server, session(server, patience=0.75 * SOON) as one, self.within(0.5 * SOON):
            with self.raises(rv.Unsettled, key=key(1), accepted=False):
                one.poll(3, timeout=0.1)

    def test_a_short_poll(self):
        """So it does at a silent server, a deaf one and none: it was not asked."""
        with Scripted() as server, self.within(SOON):
            with self.raises(rv.NotAsked, key=None):
                session(server, patience=60.0).poll(3, timeout=0.1)
        with Deaf() as server, self.within(SOON):
            with self.raises(rv.NotAsked, key=None):
                session(server, patience=None).poll(3, timeout=0.1)
        with nobody() as address, self.within(SOON), self.raises(rv.NotAsked, key=None) as told:
            rv.Session(address, 1, 1, patience=60.0).poll(3, timeout=0.1)
        self.assertIn("%s:%d: connection refused" % address, str(told.raised))

    @in_time
    def test_a_put_with_a_time(self):
        """A put at a full server ends in its own time; without one, in the session's patience."""
        for patience, more in ((60.0, {"timeout": 0.2}), (0.5, {})):
            with Scripted(welcome) as server, session(server, patience=patience) as one, self.within(SOON):
                server.otherwise = refused(10)
                with self.raises(rv.Full, key=key(1)) as told:
                    one.put(3, "a", **more)
                self.assertIn("not taken in", str(told.raised))
                server.otherwise, one.patience = reply("done"), 60.0
                one.put(3, "b")
                self.assertEqual(one.last, rv.replies.Done(key(1)))


class Patience(Case):
    """Calls that nothing is heard of."""

    @in_time
    def test_an_unsettled_request(self):
        """Without an answer the call ends by its key, and can be asked again; nothing else may be asked before."""
        with Scripted(welcome) as server, session(server, patience=1.0, answer=0.3) as one:
            for call in (lambda: one.take(3), one.again, lambda: one.again(timeout=0.1)):
                with self.within(SOON), self.raises(rv.Unsettled, key=key(1), accepted=False):
                    call()
            for call in (lambda: one.put(3, "a"), one.connect):
                with self.raises(rv.Misused):
                    call()
            server.otherwise, one.patience = reply("item", item="a"), 60.0
            self.assertEqual(one.again(), rv.replies.Item(key(1), "a"))
            for call in (one.again, one.give_up):
                with self.raises(rv.Misused):
                    call()
            self.assertEqual(one.take(3), "a")
            self.assertEqual(one.last, rv.replies.Item(key(2), "a"))

    @in_time
    def test_an_accepted_request(self):
        """What the server said to wait is told so; waiting renews the patience."""
        with Scripted(welcome, waiting, waiting) as server, session(server, patience=0.7, answer=60.0) as one:
            with self.raises(rv.Unsettled, key=key(1), accepted=True) as told:
                one.take(3)
            self.assertIn("accepted", str(told.raised))
        slow = [running_first(lambda: threading.Event().wait(0.4), waiting)] * 6
        with Scripted(welcome, *slow, reply("item", item="a")) as server, session(server, patience=30.0) as one:
            self.assertEqual(one.take(3), "a")

    @in_time
    def test_a_request_that_is_given_up(self):
        """It is cancelled, also over many connections, and then the next one is asked."""
        for told, wanted in ((reply("cancelled"), rv.replies.Cancelled(key(1))),
                             (reply("item", item="a"), rv.replies.Item(key(1), "a"))):
            with Scripted(welcome, SILENCE) as server, session(server, patience=0.5) as one:
                with self.raises(rv.Unsettled, key=key(1)):
                    one.take(3)
                server.deeds += [HANG_UP, refused(11), told, reply("done")]
                one.patience = 60.0
                self.assertEqual(one.give_up(), wanted)
                one.put(3, "a")
                self.assertEqual(asked(server)[-4:], [("cancel", 1, None)] * 3 + [("request", 2, "put")])

    @in_time
    def test_it_is_cancelled_once_it_was_given_up(self):
        """A request whose cancel has no answer is not asked again, but cancelled, also by again."""
        with Scripted(welcome) as server, session(server, patience=0.5) as one:
            for call in (lambda: one.take(3), one.give_up):
                with self.raises(rv.Unsettled, key=key(1)):
                    call()
            server.otherwise, one.patience = reply("cancelled"), 60.0
            self.assertEqual(one.again(), rv.replies.Cancelled(key(1)))
            self.assertEqual([kind for kind, *_ in asked(server)], ["hello", "request", "cancel", "cancel"])

    @in_time
    def test_nobody_listens(self):
        """No server: nothing was asked, and the reason is told; a later call is another try."""
        with nobody() as address:
            one = rv.Session(address, 1, 1, patience=0.3)
            for call in (one.connect, lambda: one.put(3, "a")):
                with self.raises(rv.NotAsked, key=None) as told:
                    call()
                self.assertIn("%s:%d: connection refused" % address, str(told.raised))
            one.close()

    def test_for_ever(self):
        """Without patience a call goes on until it is cancelled."""
        with Scripted(welcome) as server, session(server, patience=None) as one:
            one._driver.answer = 0.1
            server.otherwise = lambda came: reply("cancelled")(came) if came["kind"] == "cancel" else SILENCE
            threading.Thread(target=behind(server, 6, one.cancel)).start()
            with self.raises(rv.Cancelled, key=key(1)):
                one.take(3)


class Cancels(Case):
    """Calls that another thread cancels or closes."""

    def test_cancelled_by_another_thread(self):
        """While the answer is waited for; the reply may also be another."""
        for told, wanted in [(reply("cancelled"), rv.Cancelled), (reply("item", item="a"), "a")]:
            with Scripted(welcome, SILENCE, told) as server, session(server) as one:
                self.assertIs(one.cancel(), False)
                threading.Thread(target=behind(server, 2, one.cancel)).start()
                with self.within(one._driver.answer / 2):
                    if wanted is rv.Cancelled:
                        with self.raises(rv.Cancelled, key=key(1)):
                            one.take(3)
                    else:
                        self.assertEqual(one.take(3), wanted)
                self.assertEqual(asked(server)[1:], [("request", 1, "take"), ("cancel", 1, None)])
                self.assertIs(one.cancel(), False)

    def test_cancelled_between_two_tries(self):
        """While the server is away, or has no room."""
        with Scripted(welcome) as server, session(server) as one:
            server.otherwise = lambda came: HANG_UP if came["kind"] == "request" else reply("cancelled")(came)
            threading.Thread(target=behind(server, 4, one.cancel)).start()
            with self.raises(rv.Cancelled, key=key(1)):
                one.take(3)
        # a copy that was on its way when the cancel came is not known to be refused
        with Scripted(welcome) as server, session(server) as one:
            server.otherwise = lambda came: refused(10) if came["kind"] == "request" else reply("cancelled")(came)
            threading.Thread(target=behind(server, 4, one.cancel)).start()
            with self.raises((rv.Full, rv.Cancelled), key=key(1)):
                one.take(3)

    def test_one_thread_at_a_time(self):
        """A second thread's call is refused while one runs, and does nothing to it."""
        with Scripted(welcome, SILENCE, reply("cancelled")) as server, session(server) as one:
            faults = []
            taker = threading.Thread(target=lambda: faults.append(type(raised_by(lambda: one.take(3)))))
            taker.start()
            until("a request", lambda: len(server.heard) > 1)
            for call in (lambda: one.put(3, "a"), one.again, one.give_up, one.connect):
                with self.raises(rv.Misused):
                    call()
            self.assertEqual(len(server.heard), 2)
            one.cancel()
            taker.join()
            self.assertEqual(faults, [rv.Cancelled])


if __name__ == "__main__":
    unittest.main()
