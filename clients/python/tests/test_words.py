"""What a session says: of an address where no server is, of what it is given, of itself, and in copies."""
import contextlib
import copy
import decimal
import inspect
import logging
import math
import pathlib
import pickle
import socket
import subprocess
import sys
import threading
import unittest
from unittest import mock

from context import PATIENCE, Case, asked, behind, is_free, key, leasing, nobody, raised_by, rv, session, unhurried
from rendezvous import aio, link
from rendezvous.course import Course
from scripted import HANG_UP, SILENCE, Scripted, refused, reply, running_first, welcome
from test_aio import made, run
from test_processes import EXCEPTIONS, INTERRUPTS, parts

# The limit of what hangs, in seconds.
SOON = 20
HERE = pathlib.Path(__file__).resolve()
NAN, INF = math.nan, math.inf


@contextlib.contextmanager
def tries(count):
    """In the block, a call ends once so many tries of it failed, and not before."""
    paused, left = Course._pause, [count]

    def pauses(course):
        paused(course)
        course._resume_at, left[0] = 0.0, left[0] - 1
        if left[0] <= 0:
            course._heard_at = -INF
    with mock.patch.object(Course, "_pause", pauses):
        yield


class Log(logging.Handler):
    """What the package logs in a block, from a level on; `deed` is done with each."""

    def __init__(self, deed=lambda: None, least=logging.WARNING):
        super().__init__()
        self.lines, self.deed, self.least = [], deed, least

    def emit(self, record):
        self.lines.append((record.levelname, record.getMessage()))
        self.deed()

    def __enter__(self):
        self.logger = logging.getLogger("rendezvous")
        self.logger.addHandler(self)
        self.before, self.logger.propagate = (self.logger.propagate, self.logger.level), False
        self.logger.setLevel(self.least)
        return self

    def __exit__(self, *_):
        self.logger.removeHandler(self)
        self.logger.propagate, level = self.before
        self.logger.setLevel(level)


def both(address, **more):
    """A call of each session at an address: what it raises."""
    async def awaited():
        one = aio.Session(address, 1, 1, **{"patience": PATIENCE, **more})
        try:
            return await one.take(3)
        except Exception as fault:
            return fault
        finally:
            await one.close()

    def waited():
        with contextlib.closing(rv.Session(address, 1, 1, **{"patience": PATIENCE, **more})) as one:
            return raised_by(lambda: one.take(3))
    return waited, lambda: run(awaited())


class FirstHello(Case):
    """The time until the first welcome of a session."""

    def test_its_time(self):
        """Five seconds unless it is chosen, and none where it is None."""
        for kind in (rv.Session, aio.Session):
            self.assertEqual(inspect.signature(kind).parameters["connect_timeout"].default, 5.0)
        for given, kept in ((None, INF), (INF, INF), (7, 7.0)):
            with contextlib.closing(rv.Session("127.0.0.1:1", 1, 1, connect_timeout=given)) as one:
                self.assertEqual(one._driver.manner.connect_timeout, kept)

    def test_nobody_listens(self):
        """The call ends behind this time, long before its patience, and names the address and the reason."""
        with nobody() as address, Log():
            for ends in both(address, connect_timeout=0.3):
                with self.within(SOON):
                    fault = ends()
                self.assertIs(type(fault), rv.NotAsked)
                self.assertEqual(str(fault), "nothing was asked: %s:%d: connection refused" % address)

    def test_nothing_is_said(self):
        """So it does where a server takes the connection and is silent, or says what no server says: the address is named."""
        for deed in (SILENCE, b"SSH-2.0-OpenSSH_9.2\r\n", b"\0\2{}"):
            with Scripted() as server, Log():
                server.otherwise = deed
                for ends in both(server.address, connect_timeout=0.5):
                    with self.within(SOON):
                        fault = ends()
                    self.assertIs(type(fault), rv.NotAsked)
                    self.assertIn(f"nothing was asked: {server.address}: ", str(fault))

    def test_a_host_that_there_is_not(self):
        """It is named. It is looked up again within the time: a name may come up with its server."""
        def unknown(*_, **__):
            raise socket.gaierror(socket.EAI_NONAME, "Name or service not known")
        with mock.patch.object(link.socket, "getaddrinfo", unknown), tries(3), Log() as log:
            fault = both("no.such.host:7411")[0]()
        self.assertEqual(str(fault), "nothing was asked: no.such.host:7411: name or service not known")
        self.assertEqual(log.lines, [("WARNING", "no.such.host:7411: name or service not known")])

    def test_a_server_that_starts_meanwhile(self):
        """It is asked: a call goes on while the connection is refused, of which the log has the first."""
        with Scripted(welcome, reply("item", item="a")) as server, nobody() as address:
            ways = [address]
            starts = Log(lambda: ways.__setitem__(0, ("127.0.0.1", server.port)))

            def found(*_, **__):
                return [(socket.AF_INET, socket.SOCK_STREAM, 6, "", each) for each in ways]
            with mock.patch.object(link.socket, "getaddrinfo", found), starts as log:
                with contextlib.closing(session(server, connect_timeout=PATIENCE)) as one:
                    self.assertEqual((one.take(3), len(log.lines)), ("a", 1))

    def test_behind_the_welcome(self):
        """There it counts no more: the session's patience does; and before it, no other time is longer."""
        with Scripted(welcome) as server, session(server) as one:
            one._driver.manner = one._driver.manner._replace(connect_timeout=0.0)
            server.otherwise = reply("item", item="a")
            self.assertEqual(one.take(3), "a")
        with Scripted() as server, self.within(SOON):
            for ends in both(server.address, connect_timeout=0):
                self.assertIs(type(ends()), rv.NotAsked)
            for ends in both(server.address, connect_timeout=None, patience=0.2):
                self.assertIs(type(ends()), rv.NotAsked)
            self.assertIs(type(raised_by(lambda: session(server, connect_timeout=0.2).poll(3, 60))), rv.NotAsked)


class Logged(Case):
    """What stands in the log, once."""

    def test_a_refused_connection(self):
        """At the first of many tries, in both sessions, before the call ends."""
        with nobody() as address:
            for ends in both(address):
                with tries(5), Log() as log:
                    fault = ends()
                self.assertEqual(log.lines, [("WARNING", "%s:%d: connection refused" % address)])
                self.assertIn(log.lines[0][1], str(fault))

    def test_when_it_changes(self):
        """Another fault is another line, and so is the same one once it was well meanwhile."""
        def fault_of(words):
            def raises(*_, **__):
                raise socket.gaierror(socket.EAI_AGAIN, words)
            return raises
        with Scripted(welcome) as server, session(server) as one, Log() as log:
            found = [fault_of(words) for words in ("No a", "No a", "No b", "No b", "No a")]
            found.append(lambda *_, **__: [(socket.AF_INET, socket.SOCK_STREAM, 6, "", ("127.0.0.1", server.port))])
            server.otherwise = reply("item", item="a")
            for _ in range(2):
                one._driver._hang_up()
                left = list(found)
                with mock.patch.object(link.socket, "getaddrinfo", lambda *_, **__: left.pop(0)()), tries(99):
                    self.assertEqual(one.take(3), "a")
        self.assertEqual([line for _, line in log.lines], [f"{server.address}: no {word}" for word in "abaaba"][:3] * 2)

    def test_a_server_of_a_lower_epoch(self):
        """It is named, with both epochs, by the log at once and by the exception, and the session goes on."""
        def lower(came):
            return welcome(came, 9) if came["kind"] == "hello" else refused(2, current=5)
        for asks in (self.waited, self.awaited):
            with Scripted() as server, Log() as log:
                server.otherwise = lower
                words = f"{server.address}: the server is of the lower epoch 5, and the session of 9"
                fault, item = asks(server)
                self.assertEqual((type(fault), item), (rv.Unsettled, "a"))
                self.assertIn(words, str(fault))
                doubt = f"{server.address}: request 9/1/1/1: outcome not known"
                self.assertEqual(log.lines, [("WARNING", words), ("WARNING", doubt)])

    def waited(self, server):
        """What a take raises there, and what it gives behind that."""
        with session(server) as one:
            with tries(3):
                fault = raised_by(lambda: one.take(3))
            server.otherwise = reply("item", item="a")
            return fault, one.again().item

    def awaited(self, server):
        """The same in asyncio."""
        async def takes():
            async with made(server) as one:
                with tries(3):
                    fault = None
                    try:
                        await one.take(3)
                    except rv.RendezvousError as raised:
                        fault = raised
                server.otherwise = reply("item", item="a")
                return fault, (await one.again()).item
        return run(takes())

    def test_what_is_well(self):
        """Nothing stands there of a session whose server is there, nor of one that is closed."""
        with Scripted(welcome) as server, Log() as log:
            server.otherwise = reply("item", item="a")
            with session(server) as one:
                self.assertEqual(one.take(3), "a")
        self.assertEqual(log.lines, [])


# What no address is, and what is no time, with what is raised and a word of it.
ADDRESSES = [
    ("rv://a:7411?x=1", ValueError), ("a", ValueError), ("a:", ValueError), (":7411", ValueError), ("", ValueError),
    ("a:0", ValueError), ("a:65536", ValueError), ("a:-1", ValueError), ("a:x", ValueError), ("a:\u00b2", ValueError),
    ("a b:7411", ValueError), ("a/b:7411", ValueError), ("a\0:7411", ValueError), ("[::1:7411", ValueError),
    ("user@a:7411", ValueError), ("a:7411:7411", ValueError), (("a:7411", 7411), ValueError), (("[::1]", 7411), ValueError),
    ("a:" + "9" * 5000, ValueError), (7411, TypeError), (1.5, TypeError),
    (b"a:7411", TypeError), (object(), TypeError), (("a", "7411"), TypeError), (("a", True), TypeError),
    (("a", 7411.0), TypeError), ((7411, "a"), TypeError), (("a", None), TypeError), ((None, 7411), TypeError), (("a",), ValueError),
    (("a", 7411, 0, 0), ValueError), (("a", 0), ValueError), (("a", 65536), ValueError), (("", 7411), ValueError),
    ((), ValueError),
]
TIMES = [(NAN, ValueError), ("1", TypeError), (True, TypeError), (False, TypeError), (b"1", TypeError), ([], TypeError),
         (decimal.Decimal(1), TypeError), (1j, TypeError), (10**400, ValueError)]
BELOW = [(-1, ValueError), (-0.001, ValueError), (-INF, ValueError)]
NO_ONE = [(64, ValueError), (-1, ValueError), (True, ValueError), ("3", ValueError), (None, ValueError), (3.0, ValueError)]
NO_ITEM = [(None, TypeError), (7, TypeError), (b"a", TypeError), ("a" * 513, ValueError), ("\ud800", ValueError)]
# Each argument of a session: its name, what it is not, and a word that is said.
MADE = [
    *[("address", *each, "address") for each in ADDRESSES],
    *[(name, *each, name) for name in ("patience", "answer", "connect_timeout") for each in TIMES + BELOW],
    ("answer", None, TypeError, "answer"), ("answer", 0, ValueError, "answer"),
    *[("presence", *each, "presence") for each in [*TIMES, *BELOW, (0, ValueError), (INF, ValueError), (86_400.001, ValueError)]],
    *[("client", each, ValueError, "client") for each in (0, -1, True, 1.0, "1", 2**53)],
    *[("incarnation", each, ValueError, "incarnation") for each in (0, -1, True, 1.0, "1", 2**53)],
    *[("version", each, ValueError, "version") for each in (0, 3, True, "2")],
    ("clients", 7, TypeError, "clients"), ("clients", "1-9", TypeError, "clients"), ("clients", range(0), ValueError, "clients"),
    ("record", 7, TypeError, "record"), ("record", "a\0b", ValueError, "record"), ("record", b"a", TypeError, "record"),
    ("record", object(), TypeError, "record"),
    *[("renew", each, TypeError, "renew") for each in (None, 1, "yes")], ("retry", 7, TypeError, "retry"),
]
# Each argument of each call: a call with it, what it is not, and a word that is said.
CALLED = [
    *[(ask, *each, "queue") for each in NO_ONE for ask in (
        lambda s, v: s.put(v, "a"), lambda s, v: s.transfer(v, "a"), lambda s, v: s.try_transfer(v, "a"), lambda s, v: s.take(v),
        lambda s, v: s.poll(v), lambda s, v: s.items(v), lambda s, v: s.drain(v, 1), lambda s, v: s.count(v),
        lambda s, v: s.peek(v))],
    *[(lambda s, v: s.exchange(v, "a"), *each, "exchanger") for each in NO_ONE],
    *[(ask, *each, "item") for each in NO_ITEM for ask in (
        lambda s, v: s.put(3, v), lambda s, v: s.transfer(3, v), lambda s, v: s.try_transfer(3, v),
        lambda s, v: s.exchange(3, v))],
    *[(lambda s, v: s.drain(3, v), each, ValueError, "max") for each in (0, 17, -1, True, "1", None, 2.0)],
    *[(ask, *each, "timeout") for each in TIMES for ask in (
        lambda s, v: s.put(3, "a", v), lambda s, v: s.try_transfer(3, "a", v), lambda s, v: s.poll(3, v),
        lambda s, v: s.exchange(3, "a", v), lambda s, v: s.again(v), lambda s, v: s.give_up(v))],
    *[(ask, 86_400.001, ValueError, "timeout") for ask in (
        lambda s, v: s.try_transfer(3, "a", v), lambda s, v: s.poll(3, v), lambda s, v: s.exchange(3, "a", v))],
    *[(lambda s, v: s.claim(v), each, ValueError, "unclaimed") for each in (None, 7, "a")],
]


class Arguments(Case):
    """Each argument of each public call: what is none is a TypeError or a ValueError that names it, before anything is leased or
    sent."""

    def test_of_a_session(self):
        """In both."""
        with leasing() as clients:
            for kind in (rv.Session, aio.Session):
                for name, value, raises, word in MADE:
                    given = {"address": "127.0.0.1:1", name: value}
                    if name == "incarnation":
                        given["client"] = 1
                    with self.subTest(kind=kind.__module__, argument=name, value=repr(value)[:40]):
                        self.named(raised_by(lambda: kind(**given)), raises, word)
            self.assertTrue(all(map(is_free, clients)))

    def test_of_a_call(self):
        """In both; the session goes on."""
        async def awaited(server, ask, value):
            async with made(server) as one:
                try:
                    told = ask(one, value)
                    return await told if inspect.isawaitable(told) else told
                except Exception as fault:
                    return fault
        with Scripted() as server, session(server) as one:
            for ask, value, raises, word in CALLED:
                with self.subTest(word=word, value=repr(value)[:40]):
                    self.named(raised_by(lambda: ask(one, value)), raises, word)
            self.assertEqual([kind for kind, *_ in asked(server)], ["hello"])
        with Scripted() as server:
            server.otherwise = welcome
            for ask, value, raises, word in CALLED:
                with self.subTest(word=word, value=repr(value)[:40], awaited=True):
                    self.named(run(awaited(server, ask, value)), raises, word)
            self.assertEqual({kind for kind, *_ in asked(server)}, {"hello"})

    def setUp(self):
        super().setUp()
        # its hello is said, and nothing else
        self.welcomes = mock.patch.object(Scripted, "deed_for", _welcomes(Scripted.deed_for))
        self.welcomes.start()
        self.addCleanup(self.welcomes.stop)

    def named(self, fault, raises, word):
        """It was raised, of this type, and names the argument."""
        self.assertIs(type(fault), raises, fault)
        self.assertIn(word, str(fault))

    def test_each_is_tried(self):
        """No argument of a session or of a call is left out."""
        given = set(inspect.signature(rv.Session).parameters)
        self.assertEqual(given, {name for name, *_ in MADE})
        self.assertEqual(given, set(inspect.signature(aio.Session).parameters))
        calls = "put transfer try_transfer take poll items drain exchange count peek again give_up claim"
        public = {name for name, value in vars(rv.Session).items() if callable(value) and not name.startswith("_")}
        self.assertEqual(public - {"connect", "close", "cancel", "unclaimed"}, set(calls.split()))

    def test_times_without_an_end(self):
        """`inf` waits for ever, as a call without a time does; a time below zero is not waited for."""
        calls = [(lambda s, t: s.poll(3, t), reply("item", item="a"), "a"),
                 (lambda s, t: s.exchange(3, "b", t), reply("swapped", item="a"), "a"),
                 (lambda s, t: s.try_transfer(3, "b", t), reply("received"), rv.Receipt(key(1)))]
        for call, told, result in calls:
            for seconds, wait in ((INF, "forever"), (-1, 0), (-INF, 0), (1, 1000), (0.0001, 1)):
                with Scripted(welcome, told) as server, session(server, version=1) as one, unhurried(cancels=False):
                    self.assertEqual((call(one, seconds), server.heard[1]["wait"]), (result, wait))
        with Scripted(welcome, reply("done")) as server, session(server) as one:
            self.assertIsNone(one.put(3, "a", INF))
        with Scripted(welcome, SILENCE) as server, session(server, patience=INF, answer=INF, connect_timeout=INF) as one:
            threading.Thread(target=behind(server, 2, one.cancel)).start()
            server.otherwise = reply("cancelled")
            self.assertIs(type(raised_by(lambda: one.poll(3, INF))), rv.Cancelled)


def _welcomes(answers):
    """Meets each hello by a welcome."""
    def deed_for(server, came):
        deed = answers(server, came)
        return welcome(came) if came["kind"] == "hello" else deed
    return deed_for


class Shown(Case):
    """What a session is shown as, whatever it does; it never raises."""

    def test_its_states(self):
        """Before the welcome, idle, in a call, unsettled, and closed."""
        with Scripted(welcome_of_9, reply("item", item="a")) as server:
            one = session(server)
            begins, shown = f"<rendezvous.Session {server.address} client 1 ", []
            self.assertEqual(repr(one), begins + "before its welcome>")
            one.take(3)
            self.assertEqual(repr(one), begins + "epoch 9 idle>")
            calls = [(lambda: one.take(3), "take(3)", reply("item", item="a")), (lambda: one.poll(3), "poll(3)", reply("empty")),
                     (lambda: one.exchange(5, "x"), "exchange(5)", reply("swapped", item="y")),
                     (lambda: one.try_transfer(3, "a", 60), "try_transfer(3)", reply("timedout")),
                     (lambda: one.put(3, "a"), "put(3)", reply("done")),
                     (lambda: one.drain(4, 2), "drain(4)", reply("drained", texts=[]))]
            for call, words, told in calls:
                server.otherwise = running_first(lambda: shown.append(repr(one)), told)
                call()
                self.assertEqual(shown.pop(), f"{begins}epoch 9 running {words}>")
            server.otherwise = HANG_UP
            with tries(1), self.raises(rv.Unsettled):
                one.take(3)
            self.assertEqual(repr(one), begins + "epoch 9 unsettled take(3)>")
            one.close()
            self.assertEqual(repr(one), begins + "epoch 9 closed>")

    def test_its_ends(self):
        """It has ended, or was never made."""
        with Scripted(welcome, refused(3)) as server, session(server) as one:
            with self.raises(rv.EpochEnded):
                one.take(3)
            self.assertEqual(repr(one), f"<rendezvous.Session {server.address} client 1 ended>")
        for kind in (rv.Session, aio.Session):
            self.assertIn("not made", repr(kind.__new__(kind)))

    def test_in_asyncio(self):
        """The same, by its own name."""
        async def shows():
            shown = []
            with Scripted(welcome_of_9) as server:
                one = made(server)
                server.otherwise = running_first(lambda: shown.append(repr(one)), reply("item", item="a"))
                shown.append(repr(one))
                await one.take(3)
                shown.append(repr(one))
                await one.close()
                shown.append(repr(one))
                begins = f"<rendezvous.aio.Session {server.address} client 1 "
                ends = ["before its welcome", "epoch 9 running take(3)", "epoch 9 idle", "epoch 9 closed"]
                self.assertEqual(shown, [f"{begins}{end}>" for end in ends])
        run(shows())


def welcome_of_9(came):
    """A deed: the welcome in epoch 9."""
    return welcome(came, 9)


class Versions(Case):
    """The package's version."""

    def test_it_is_there(self):
        """Also where the package isn't installed; it is the one that is built."""
        text = "import rendezvous; print(rendezvous.__version__)"
        source = HERE.parents[1]
        told = subprocess.run([sys.executable, "-S", "-B", "-c", text], env={"PYTHONPATH": str(source / "src")}, text=True,
                              capture_output=True)
        self.assertRegex(told.stdout, r"\A\d+\.\d+\.\d+\n\Z", told.stderr)
        self.assertEqual(told.stdout.strip(), rv.__version__)
        built = (source / "pyproject.toml").read_text()
        self.assertIn('dynamic = ["version"]', built)
        self.assertIn('version = {attr = "rendezvous.__version__"}', built)


class Copies(Case):
    """Exceptions, outcomes and keys in copies and pickles."""

    def test_exceptions(self):
        """They have all that they had, and what was noted of them."""
        for each in EXCEPTIONS + INTERRUPTS:
            for way in (copy.copy, copy.deepcopy, lambda one: pickle.loads(pickle.dumps(one))):
                with self.subTest(exception=repr(each)):
                    self.assertEqual(parts(way(each)), parts(each))
                    self.assertEqual(way(each).__dict__.keys(), each.__dict__.keys())

    def test_values(self):
        """So have outcomes, each of them, keys and what is unclaimed."""
        outcomes = {value for value in vars(rv.replies).values() if isinstance(value, type) and issubclass(value, rv.Outcome)}
        made_of = {"by": key(2), "item": "a", "items": ("a",), "consumers": 3}
        for kind in sorted(outcomes, key=lambda kind: kind.__name__):
            names = [name for name in inspect.signature(kind).parameters if name != "key"]
            one = kind(key(1), **{name: 2 if kind is rv.Counted and name == "items" else made_of[name] for name in names})
            self.same(one)
        for one in (key(1), rv.Unclaimed(key(1), "a", 3), rv.Unclaimed(key(1), "a", exchanger=3)):
            self.same(one)

    def same(self, one):
        """It is the same in each copy, by type, value and words."""
        for form in range(pickle.HIGHEST_PROTOCOL + 1):
            self.assertEqual(pickle.loads(pickle.dumps(one, form)), one)
        for way in (copy.copy, copy.deepcopy, lambda one: pickle.loads(pickle.dumps(one))):
            came = way(one)
            self.assertEqual((type(came), came, repr(came), hash(came)), (type(one), one, repr(one), hash(one)))


if __name__ == "__main__":
    unittest.main()
