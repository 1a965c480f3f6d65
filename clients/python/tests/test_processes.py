"""Sessions and exceptions where there is more than one process: forks and pickles."""
import concurrent.futures
import errno
import multiprocessing
import os
import pickle
import signal
import socket
import subprocess
import sys
import threading
import unittest
from unittest import mock

from context import GENEROUS, Case, asked, behind, key, numbers, raised_by, rv, session, unhurried, until
from let_in import on_line
from rendezvous import bell, driver
from rendezvous.bell import Bell
from scripted import SILENCE, Scripted, reply, welcome

EXCEPTIONS = [
    rv.Unsettled(key(1), True, "the session was closed"), rv.Unsettled(key(1)), rv.NotAsked(None, "no answer in time"),
    rv.NotAsked(), rv.NotAsked(key(1), "", 5), rv.Full(key(2)), rv.Full(None), rv.Cancelled(key(3)), rv.Cancelled(None), rv.TimedOut(key(4)),
    rv.EpochEnded(key(5), 1), rv.EpochEnded(key(5), 7), rv.EpochEnded(None, 7), rv.Replaced(None, 2), rv.Replaced(key(1), 2),
    rv.Refused(key(6), 6, None, ": another process"), rv.Refused(None, 12, 1), rv.Misused("a call runs"),
    rv.AllLeased(None, 1, 1024),
    rv.NotRecorded(rv.replies.Item(key(1), "a"), '{"asked":{},"told":{}}', OSError(28, "No space left on device", "told.jsonl")),
]
INTERRUPTS = [
    rv.Interrupted(key(1), rv.replies.Item(key(1), "a")), rv.Interrupted(key(1), None, rv.EpochEnded(key(1), 2)),
    rv.Interrupted(None, None, rv.NotAsked()), rv.Interrupted(None, None),
    rv.Interrupted(key(1), rv.replies.Done(key(1)), rv.NotRecorded(rv.replies.Done(key(1)), "{}", OSError(28, "none", "record"))),
]


def thrown(number):
    """Raises an exception, in another process."""
    raise (EXCEPTIONS + INTERRUPTS)[number]


def parts(raised):
    """What an exception has."""
    fields = {name: parts(value) if isinstance(value, BaseException) else value for name, value in vars(raised).items()}
    args = [parts(value) if isinstance(value, BaseException) else value for value in raised.args]
    return type(raised), str(raised), args, {name: value for name, value in fields.items() if not name.startswith("__")}


class Pickles(Case):
    """Exceptions and outcomes go to other processes as they are."""

    def test_all_exceptions_are_tried(self):
        """Each that the package has."""
        named = {value for value in vars(rv).values() if isinstance(value, type) and issubclass(value, BaseException)}
        self.assertEqual(named - {rv.RendezvousError}, {type(each) for each in EXCEPTIONS + INTERRUPTS})

    def test_exceptions(self):
        """They are read from their pickles with all that they have, in each form of pickles."""
        for each in EXCEPTIONS + INTERRUPTS:
            for form in range(2, pickle.HIGHEST_PROTOCOL + 1):
                with self.subTest(exception=repr(each), form=form):
                    self.assertEqual(parts(pickle.loads(pickle.dumps(each, form))), parts(each))

    def test_outcomes(self):
        """So are outcomes and keys."""
        for each in (rv.Receipt(key(1), key(2)), rv.Counted(key(1), 2, 3), rv.replies.Drained(key(1), ("a",)), key(9)):
            self.assertEqual(pickle.loads(pickle.dumps(each)), each)

    def test_through_pools(self):
        """Exceptions of a pool's processes come out as they were."""
        fresh = multiprocessing.get_context("spawn")
        with concurrent.futures.ProcessPoolExecutor(1, fresh) as pool:
            came = [pool.submit(thrown, number) for number in range(len(EXCEPTIONS + INTERRUPTS))]
            for future, each in zip(came, EXCEPTIONS + INTERRUPTS):
                self.assertEqual(parts(future.exception(GENEROUS))[:2], parts(each)[:2])
        with fresh.Pool(1) as pool:
            for number, each in enumerate(EXCEPTIONS):
                fault = raised_by(lambda: pool.apply_async(thrown, (number,)).get(GENEROUS))
                self.assertEqual(parts(fault)[:2], parts(each)[:2])


class Forks(Case):
    """A session is of the process that made it."""

    def in_a_fork(self, deed):
        """What a deed gives, a text, in a forked process."""
        reads, writes = os.pipe()
        child = os.fork()
        if child == 0:
            try:
                signal.alarm(GENEROUS)
                os.write(writes, deed().encode())
            finally:
                os._exit(0)
        os.close(writes)
        with open(reads, encoding="utf-8") as end:
            told = end.read()
        os.waitpid(child, 0)
        return told

    def test_a_child_asks_nothing(self):
        """Each call of it is misuse, its close ends nothing, and the parent goes on."""
        with Scripted(welcome) as server, session(server) as one:
            server.otherwise = reply("item", item="a")
            self.assertEqual(one.take(3), "a")
            calls = [lambda: one.take(3), lambda: one.put(3, "a"), one.connect, one.again, one.give_up]
            told = self.in_a_fork(lambda: " ".join(type(raised_by(call)).__name__ for call in calls))
            self.assertEqual(told, " ".join(["Misused"] * len(calls)))
            self.assertEqual(self.in_a_fork(lambda: f"{one.close()} {one.cancel()} {one.last.item}"), "None False a")
            self.assertEqual((one.take(3), one.last.key, server.connections), ("a", key(2), 1))
            self.assertEqual([number for _, number, _ in asked(server)], [None, 1, 2])

    def test_a_child_makes_a_session_of_its_own(self):
        """Also where the parent has one."""
        with Scripted(welcome) as server, session(server):
            server.otherwise = lambda came: welcome(came) if came["kind"] == "hello" else reply("item", item="b")(came)

            def takes():
                with rv.Session(server.address, 2, 1) as other:
                    return other.take(3)
            self.assertEqual(self.in_a_fork(takes), "b")


def counted(came):
    """A deed: a count of five items."""
    return reply("counted", items=5, consumers=0)(came)


class Bells(Case):
    """What wakes a session's thread, where the system doesn't let it through."""

    def asks_and_closes(self, one, server):
        """It asks, cancels and closes as ever."""
        self.assertEqual((one.put(3, "a"), one.count(1).items), (None, 5))
        server.deeds.append(SILENCE)
        canceller = threading.Thread(target=behind(server, 4, one.cancel))
        canceller.start()
        with unhurried(), self.raises(rv.Cancelled, key=key(3)):
            one.take(3)
        canceller.join()
        with mock.patch("rendezvous.session.END", GENEROUS):
            one.close()
        self.assertTrue(one._driver.gone)

    def test_rings_that_are_dropped(self):
        """A filter drops them: the thread looks by itself."""
        with Scripted(welcome, reply("done"), counted) as server, mock.patch.object(Bell, "ring", lambda _: None):
            server.otherwise, one = reply("cancelled"), session(server)
            self.asks_and_closes(one, server)

    def test_rings_that_are_refused(self):
        """The system refuses to send them: no call ends by that."""
        with Scripted(welcome, reply("done"), counted) as server:
            server.otherwise, one = reply("cancelled"), session(server)
            held = one._driver.name.bell._open["socket"]
            held.shutdown(socket.SHUT_WR)
            with self.raises(BrokenPipeError):
                held.send(b"\0")
            self.asks_and_closes(one, server)

    def test_how_often_an_idle_thread_looks(self):
        """Once a second, and once its bell was heard not at all."""
        waits, select = [], driver.Selector.select

        def noted(selector, seconds):
            waits.append(seconds)
            return select(selector, seconds)
        with Scripted(welcome, reply("done")) as server, mock.patch.object(driver.Selector, "select", noted):
            one = session(server)
            until("a wait", lambda: waits)
            one.put(3, "a")
            until("a wait for ever", lambda: waits[-1] is None)
            one.close()
        self.assertEqual(waits[0], 1.0)

    def test_what_a_handler_throws(self):
        """That is no fault of the bell's, be it an OSError: it is thrown on."""
        def rings():
            raise PermissionError("the program's own")
        with Scripted(welcome, reply("done"), counted) as server, session(server) as one:
            with on_line(Bell.ring, "send(b", rings), self.assertRaisesRegex(PermissionError, "the program's own"):
                one.put(3, "a")

    def test_no_loopback_address(self):
        """It is told by the type and number that the system has for it, and what it is for."""
        nowhere = ("192.0.2.1", 0)
        said = "datagram socket at the loopback address 192.0.2.1"
        for patched, more in (("driver.ANYWHERE", {"client": 5}), ("leases.place_of", {"clients": numbers()})):
            place = nowhere if "client" in more else lambda *_: nowhere
            with mock.patch(f"rendezvous.{patched}", place), mock.patch.object(bell, "ANYWHERE", nowhere):
                with self.raises(OSError, errno=errno.EADDRNOTAVAIL) as told:
                    rv.Session("127.0.0.1:7411", **more)
            self.assertIn(said, str(told.raised))


class Ends(Case):
    """A program ends, whatever its sessions do."""

    def ended(self, program, server):
        """What a program says that ends with a session open, and its status."""
        text = f"import context\nfrom context import rv\none = rv.Session({server.address!r}, 1, 1)\n{program}"
        folder = os.path.dirname(os.path.abspath(__file__))
        ran = subprocess.run([sys.executable, "-B", "-W", "error", "-c", text], cwd=folder, capture_output=True, text=True,
                             timeout=GENEROUS)
        return ran.stdout, ran.stderr, ran.returncode

    def test_a_session_that_is_never_closed(self):
        """The program ends, and says nothing of it."""
        for program, said in [("one.connect(); print(one.epoch)", "1\n"), ("print(one.epoch)", "None\n"),
                              ("one.connect(); one.close(); print(one.running)", "None\n"),
                              ("import threading\nasks = lambda: context.raised_by(lambda: one.take(3))\n"
                               "threading.Thread(target=asks, daemon=True).start()\n"
                               "context.until('a call', lambda: one.running)", "")]:
            with Scripted(welcome) as server, self.subTest(program=program):
                self.assertEqual(self.ended(program, server), (said, "", 0))

    def test_sessions_that_are_dropped(self):
        """A session that nobody has any more hangs up, and leaves no thread."""
        with Scripted() as server:
            server.otherwise = welcome
            program = ("import gc, threading, _thread\none.connect()\nbefore = _thread._count()\ndel one\ngc.collect()\n"
                       "context.until('its end', lambda: _thread._count() < before)\nprint('gone')")
            self.assertEqual(self.ended(program, server), ("gone\n", "", 0))


if __name__ == "__main__":
    unittest.main()
