"""Client numbers that are leased: which, for how long, from whom, and with which incarnations."""
import _thread
import asyncio
import contextlib
import errno
import gc
import importlib.util
import os
import pathlib
import shutil
import signal
import socket
import subprocess
import sys
import tempfile
import threading
import unittest
import weakref
from unittest import mock

from context import GENEROUS, Case, is_free, leasing, numbers, place_of, raised_by, rv, until
from let_in import on_line
from rendezvous import aio, leases
from rendezvous.bell import Bell
from scripted import Scripted, refused, reply, welcome

# A program that makes a session, tells its number and incarnation, and has it until its input ends.
HOLDER = """
import sys
from context import rv
one = rv.Session("127.0.0.1:7411")
print(one.client, one.incarnation, flush=True)
sys.stdin.read()
"""
# A program of no package: it binds a datagram socket as any program can.
BINDS = """
import socket, sys
one = socket.socket(socket.AF_INET, socket.SOCK_DGRAM)
one.bind((sys.argv[1], int(sys.argv[2])))
print(flush=True)
sys.stdin.read()
"""
FOLDER = os.path.dirname(os.path.abspath(__file__))


@contextlib.contextmanager
def holder(**environment):
    """Another program that has a session in the block, in an environment of its own: its process, the number and the
    incarnation."""
    words = [sys.executable, "-B", "-c", HOLDER]
    with subprocess.Popen(words, cwd=FOLDER, stdin=subprocess.PIPE, stdout=subprocess.PIPE, text=True,
                          env={**os.environ, **environment}) as process:
        yield (process, *map(int, process.stdout.readline().split()))
        process.stdin.close()


def lease(clients=None):
    """A lease of this process."""
    return leases.name_of(None, None, clients)


@contextlib.contextmanager
def clock(micros):
    """In the block the clock stands at so many microseconds, and the last nanosecond of them."""
    with mock.patch("time.time_ns", lambda: micros * 1_000 + 999):
        yield


@contextlib.contextmanager
def unused():
    """In the block this process has used no incarnation."""
    with mock.patch.dict(leases.USED, clear=True):
        yield


class Ringing(Exception):
    """What a signal's handler throws."""


class Step:
    """Traces what this thread runs of the package, and of finalizers: throws at the step of this number, be it the call of a
    function, a line or a return."""

    def __init__(self, left):
        self.left, self.place = left, None

    def __call__(self, frame, event, _):
        if not frame.f_code.co_filename.startswith((os.path.dirname(rv.__file__), weakref.__file__)):
            return None
        if event in ("call", "line", "return") and self.place is None:
            self.left -= 1
            if self.left < 0:
                self.place = (frame.f_code.co_name, frame.f_lineno, event)
                raise Ringing
        return self


class Numbers(Case):
    """Which number is leased."""

    def test_the_least_free_number(self):
        """Each session has one of its own, and one that was closed is the next one's at once."""
        with leasing() as clients, Scripted() as server:
            server.otherwise = welcome
            first, second, third = (rv.Session(server.address, connect_timeout=None) for _ in range(3))
            self.assertEqual([one.client for one in (first, second, third)], [*clients[:3]])
            second.close()
            with rv.Session(server.address, connect_timeout=None) as fourth:
                self.assertEqual(fourth.client, second.client)
                self.assertGreater(fourth.incarnation, second.incarnation)
                hello = {"kind": "hello", "client": fourth.client, "incarnation": fourth.incarnation, "version": 2}
                self.assertEqual(server.heard, [hello])
            first.close()
            third.close()

    def test_short_sessions_one_after_another(self):
        """They use up no numbers, and no incarnation comes twice."""
        with leasing() as clients, Scripted() as server:
            server.otherwise = lambda came: welcome(came) if came["kind"] == "hello" else reply("done")(came)
            names = []
            for _ in range(50):
                with rv.Session(server.address, connect_timeout=None) as one:
                    one.put(3, "a")
                    names.append((one.client, one.incarnation))
            self.assertEqual({client for client, _ in names}, {clients[0]})
            self.assertEqual(sorted(set(names)), names)

    def test_threads_at_once(self):
        """Each thread gets a number of its own, and the numbers have no gap; nor have two the same incarnation."""
        with leasing() as clients:
            together, got = threading.Barrier(16), []

            def leases_one():
                together.wait()
                got.append(lease())
            threads = [threading.Thread(target=leases_one) for _ in range(16)]
            for each in threads:
                each.start()
            for each in threads:
                each.join()
            self.assertEqual(sorted(each.client for each in got), [*clients[:16]])
            self.assertEqual(len({each.incarnation for each in got}), 16)
            for each in got:
                each.close()

    def test_a_session_that_is_dropped(self):
        """Its number is given back, once its thread has ended."""
        with leasing() as clients:
            one = rv.Session("127.0.0.1:7411")
            self.assertEqual((one.client, is_free(one.client)), (clients[0], False))
            del one
            until("its end", lambda: is_free(clients[0]))

    def test_a_block_that_can_not_begin(self):
        """Its number is given back."""
        with leasing() as clients, Scripted(refused(9)) as server:
            with self.raises(rv.Refused, number=9):
                with rv.Session(server.address, connect_timeout=None):
                    pass
            self.assertTrue(is_free(clients[0]))

    def test_a_session_that_can_not_be_made(self):
        """What is refused leases nothing: it is told before anything is bound."""
        with leasing(), mock.patch("rendezvous.leases.Bell", side_effect=AssertionError("it leases")):
            for wrong in ({"address": "nowhere"}, {"version": 3}, {"incarnation": 7}, {"client": 1, "clients": range(1, 2)},
                          {"client": 0}, {"client": 2**53}, {"client": 1, "incarnation": 0}):
                with self.subTest(**wrong), self.assertRaises(ValueError):
                    rv.Session(**{"address": "127.0.0.1:7411", **wrong})

    def test_an_incarnation_without_its_client_number(self):
        """Whoever leased the number before may have used it too, and had replies that would be heard as this session's."""
        for kind in (rv.Session, aio.Session):
            for more in ({}, {"clients": numbers()}):
                with self.assertRaisesRegex(ValueError, "an incarnation is given along with its client number, or left out"):
                    kind("127.0.0.1:1", incarnation=7, **more)

    def test_a_thread_that_can_not_be_started(self):
        """The number is given back."""
        with leasing() as clients, mock.patch("_thread.start_new_thread", side_effect=RuntimeError("no thread")):
            with self.raises(RuntimeError) as told:
                rv.Session("127.0.0.1:7411")
            self.assertIsNotNone(told.raised.__traceback__)
            self.assertTrue(is_free(clients[0]))

    def test_an_exception_at_each_step(self):
        """A signal's handler may throw anywhere in the making of a session: the number is free again, and no thread is left."""
        # what other tests left is let go before, and not within a traced step
        gc.collect()
        gc.disable()
        self.addCleanup(gc.enable)
        with leasing() as clients:
            before, made, steps = _thread._count(), None, 0
            while made is None:
                step, steps = Step(steps), steps + 1
                with contextlib.suppress(Ringing), unused():
                    sys.settrace(step)
                    try:
                        made = rv.Session("127.0.0.1:7411")
                    finally:
                        sys.settrace(None)
                if made is None:
                    until(f"its end: {step.place}", lambda: is_free(clients[0]) and _thread._count() <= before)
            self.assertEqual((made.client, step.place), (clients[0], None))
            self.assertGreater(steps, 100)
            made.close()

    def test_numbers_that_are_given(self):
        """They are taken as they are, and lease nothing, so that two sessions may have one."""
        number = numbers()[0]
        one, other = rv.Session("127.0.0.1:7411", number), rv.Session("127.0.0.1:7411", number, 7)
        self.assertEqual((one.client, other.client, other.incarnation), (number, number, 7))
        self.assertTrue(is_free(number))
        one.close()
        other.close()
        one = rv.Session("127.0.0.1:7411", 2**53 - 1, 2**53 - 1)
        self.assertEqual((one.client, one.incarnation), (2**53 - 1, 2**53 - 1))
        one.close()


class Programs(Case):
    """Leases among programs."""

    def test_another_program(self):
        """It gets another number, and what it had is free behind its end."""
        with leasing() as clients:
            mine = lease()
            with holder() as (_, client, _):
                self.assertEqual((mine.client, client), (clients[0], clients[1]))
                mine.close()
                third = lease()
                self.assertEqual(third.client, clients[0])
            fourth = lease()
            self.assertEqual(fourth.client, clients[1])
            third.close()
            fourth.close()

    def test_other_environments(self):
        """A number that is in use is no other program's, whatever the environments say."""
        with leasing() as clients, tempfile.TemporaryDirectory() as name:
            others = [{"XDG_RUNTIME_DIR": name}, {"XDG_RUNTIME_DIR": ""}, {"XDG_RUNTIME_DIR": name + "/gone", "TMPDIR": name},
                      {"HOME": name, "TMPDIR": name}]
            one = rv.Session("127.0.0.1:7411")
            for environment in others:
                with self.subTest(environment=environment), holder(**environment) as (_, client, _):
                    self.assertEqual((one.client, client), (clients[0], clients[1]))
            one.close()

    def test_whatever_is_deleted(self):
        """A number stays its session's where all files are removed that a session may have made."""
        with leasing() as clients, tempfile.TemporaryDirectory() as name:
            runtime = pathlib.Path(name, "runtime")
            runtime.mkdir()
            places = {"XDG_RUNTIME_DIR": str(runtime), "TMPDIR": name, "HOME": name}
            with holder(**places) as (_, first, _):
                shutil.rmtree(runtime)
                runtime.mkdir()
                with holder(**places) as (_, second, _):
                    self.assertEqual((first, second), (clients[0], clients[1]))

    def test_two_copies_of_the_package(self):
        """They lease apart in one process, and what one of them gives back the other one may have."""
        with leasing() as clients, another_copy() as other:
            mine, second = lease(), other.Session("127.0.0.1:7411")
            third = other.Session("127.0.0.1:7411")
            self.assertEqual((mine.client, second.client, third.client), (*clients[:3],))
            second.close()
            fourth = lease()
            self.assertEqual(fourth.client, clients[1])
            with holder() as (_, client, _):
                self.assertEqual(client, clients[3])
            for each in (mine, third, fourth):
                each.close()

    def test_a_program_that_is_killed(self):
        """Its number is free, and the next incarnation is greater."""
        with leasing():
            with holder() as (process, client, incarnation):
                process.send_signal(signal.SIGKILL)
                process.wait(GENEROUS)
                mine = lease()
                self.assertEqual(mine.client, client)
                self.assertGreater(mine.incarnation, incarnation)
                mine.close()

    def test_a_lease_outlasts_others_of_its_process(self):
        """Whatever the same process tries and gives back meanwhile."""
        with leasing() as clients:
            mine = lease()
            for _ in range(3):
                lease().close()
            with self.raises(rv.AllLeased):
                lease(clients[:1])
            with holder() as (_, client, _):
                self.assertEqual((mine.client, client), (clients[0], clients[1]))
            mine.close()

    def test_a_socket_of_another_kind_of_program(self):
        """Whoever has bound the place of a number has that number."""
        with leasing() as clients:
            words = [sys.executable, "-c", BINDS, *map(str, place_of(clients[0]))]
            with subprocess.Popen(words, stdin=subprocess.PIPE, stdout=subprocess.PIPE) as process:
                process.stdout.readline()
                mine = lease()
                self.assertEqual(mine.client, clients[1])
                mine.close()
                process.stdin.close()

    def test_programs_that_are_started_meanwhile(self):
        """They inherit no lease, and outlive it."""
        with leasing() as clients:
            mine = lease()
            program = "import sys; print(flush=True); sys.stdin.read()"
            with subprocess.Popen([sys.executable, "-c", program], stdin=subprocess.PIPE, stdout=subprocess.PIPE,
                                  close_fds=False) as process:
                # Popen may return before the system has closed all that the program doesn't inherit
                process.stdout.readline()
                mine.close()
                self.assertTrue(is_free(clients[0]))
                process.stdin.close()

    def test_forks(self):
        """A forked process has no number of its parent's, and takes none from it: neither while it runs nor by its end."""
        with leasing() as clients:
            mine = lease()

            def told():
                own = lease()
                mine.close()
                return str(own.client)
            self.assertEqual(in_a_fork(told), str(clients[1]))
            with holder() as (_, client, _):
                self.assertEqual(client, clients[1])
            mine.close()

    def test_a_number_that_outlives_its_parent(self):
        """What a forked process inherited can't end a lease of its own, though both are of one number."""
        with leasing() as clients:
            mine = lease()

            def told():
                os.read(reads, 1)
                own = lease()
                mine.close()
                with holder() as (_, client, _):
                    return f"{own.client} {client}"
            reads, writes = os.pipe()
            said, child = begun_in_a_fork(told)
            mine.close()
            os.write(writes, b"\0")
            self.assertEqual(ended_in_a_fork(said, child), f"{clients[0]} {clients[1]}")
            os.close(reads)
            os.close(writes)


@contextlib.contextmanager
def another_copy():
    """The package once more, under another name."""
    folder = pathlib.Path(rv.__file__).parent
    made = importlib.util.spec_from_file_location("rendezvous_again", folder / "__init__.py",
                                                  submodule_search_locations=[str(folder)])
    with mock.patch.dict(sys.modules):
        other = sys.modules[made.name] = importlib.util.module_from_spec(made)
        made.loader.exec_module(other)
        assert other.Session is not rv.Session
        with mock.patch("rendezvous_again.session.END", GENEROUS):
            yield other


def begun_in_a_fork(deed):
    """A forked process, which does a deed that gives a text."""
    reads, writes = os.pipe()
    child = os.fork()
    if child == 0:
        try:
            signal.alarm(GENEROUS)
            os.write(writes, deed().encode())
        finally:
            os._exit(0)
    os.close(writes)
    return reads, child


def ended_in_a_fork(reads, child):
    """What it gave."""
    with open(reads, encoding="utf-8") as end:
        told = end.read()
    os.waitpid(child, 0)
    return told


def in_a_fork(deed):
    """What a deed gives in a forked process."""
    return ended_in_a_fork(*begun_in_a_fork(deed))


class Places(Case):
    """Which address and port stand for a number, and what is there."""

    def test_worked_places(self):
        """Those that the formats work out, and those of the least and the greatest numbers."""
        worked = [(1000, 1, "127.64.3.232", 61001), (0, 1, "127.64.0.0", 61001), (0, 4095, "127.64.0.0", 65095),
                  (0, 4096, "127.119.121.177", 61000), (1000, 2**53 - 1, "127.72.138.55", 65095),
                  (2**32 - 2, 1, "127.127.255.254", 61001)]
        for user, client, host, port in worked:
            with self.subTest(user=user, client=client):
                self.assertEqual((leases.place_of(user, client), place_of(client, user)), ((host, port),) * 2)

    def test_a_system_with_one_loopback_address(self):
        """Its port is bound there."""
        with leasing() as clients, mock.patch.object(socket.socket, "bind", only_at_the_first):
            mine, second = lease(), lease()
            host, port = place_of(clients[0])
            self.assertEqual(bound(mine), ("127.0.0.1", port))
            self.assertEqual((mine.client, second.client), (clients[0], clients[1]))
            mine.close()
            second.close()

    def test_what_the_system_refuses(self):
        """It is told by its own name, and no other number is tried; nothing stays open."""
        faults = [OSError(errno.EACCES, "denied"), OSError(errno.EPERM, "not permitted"), OSError(errno.ENOMEM, "no memory")]
        with leasing() as clients:
            for fault in faults:
                with mock.patch.object(Bell, "takes", side_effect=fault), self.subTest(fault=fault):
                    self.assertIs(raised_by(lease), fault)
                with mock.patch("rendezvous.bell.bind", side_effect=fault), self.subTest(fault=fault):
                    self.assertIs(raised_by(lease), fault)
            self.assertTrue(is_free(clients[0]))

    def test_what_others_send(self):
        """It is thrown away: nothing of it can be read."""
        with leasing(), contextlib.closing(leases.name_of(None, None, None)) as name:
            with socket.socket(socket.AF_INET, socket.SOCK_DGRAM) as stranger:
                stranger.sendto(b"a", bound(name))
            with self.raises(BlockingIOError):
                name.bell._open["socket"].recv(1)

    def test_who_rings_as_it_is_closed(self):
        """Its descriptor is nobody else's before that is over; then the number is free, and who rings later does nothing."""
        with leasing() as clients:
            one = rv.Session("127.0.0.1:7411")
            rings = one._driver.name.bell._open["socket"].send
            one.close()
            self.assertEqual((rings(b"\0"), is_free(clients[0])), (1, False))
            del rings
            self.assertTrue(is_free(clients[0]))
            one._driver.order(None)
            one.close()


def only_at_the_first(held, place):
    """A bind of a system that has one loopback address."""
    if place[0] != "127.0.0.1":
        raise OSError(errno.EADDRNOTAVAIL, os.strerror(errno.EADDRNOTAVAIL))
    return socket.SocketType.bind(held, place)


def bound(name):
    """Where a name's socket is bound."""
    return name.bell._open["socket"].getsockname()


class Incarnations(Case):
    """With which incarnations sessions begin."""

    def test_a_clock_that_stands_or_goes_back(self):
        """Each has a greater incarnation than all before it in this process, whether its number is leased or given."""
        number = numbers()[0]
        makes = [lease, lambda: leases.name_of(number, None, None)]
        with leasing(), unused():
            for turn, (micros, wanted) in enumerate([(5_000, 5_000), (5_000, 5_001), (4_000, 5_002), (0, 5_003), (5_004, 5_004),
                                                     (9_000, 9_000), (8_000, 9_001)]):
                with clock(micros):
                    one = makes[turn % 2]()
                self.assertEqual(one.incarnation, wanted)
                one.close()

    def test_the_clock(self):
        """It is the microseconds since 1970; an incarnation that is given counts for nothing else."""
        with unused(), clock(1_700_000_000_123_456):
            rv.Session("127.0.0.1:7411", 7, 2**53 - 1).close()
            one = rv.Session("127.0.0.1:7411", 7)
            self.assertEqual((one.client, one.incarnation), (7, 1_700_000_000_123_456))
            one.close()

    def test_a_clock_that_is_beyond_the_last(self):
        """Nothing is guessed: no session begins, and no number stays leased."""
        with leasing() as clients, unused():
            with clock(2**53 - 1):
                lease().close()
                with self.assertRaisesRegex(ValueError, f"no incarnation is left above {2**53 - 1}"):
                    lease()
            self.assertTrue(is_free(clients[0]))

    def test_a_handler_between_two_steps(self):
        """A signal's handler that makes a name amid the making of another gets an incarnation of its own."""
        for text in ("number = max(now()", "if USED.setdefault", "for lesser in", "return number"):
            with unused(), clock(5_000), self.subTest(line=text):
                within = []
                with on_line(leases.new_incarnation, text, lambda: within.append(leases.new_incarnation())):
                    about = leases.new_incarnation()
                self.assertEqual({*within, about}, {5_000, 5_001})
                self.assertEqual((leases.new_incarnation(), list(leases.USED)), (5_002, [5_002]))


class TheServersWord(Case):
    """What the server says of the incarnation, beside the clock."""

    def test_a_clock_that_was_set_back(self):
        """The first hello of a leased number is refused: a greater one is said in the same call, before anything is asked."""
        for call, more in ((lambda one: one.connect(), []), (lambda one: one.put(3, "a"), ["request"])):
            with leasing() as clients, unused(), Scripted(ahead(1_000), welcome, reply("done")) as server:
                one = rv.Session(server.address, connect_timeout=None)
                before = one.incarnation
                call(one)
                self.assertEqual(one.incarnation, before + 1_001)
                said = [(came["kind"], came["client"], came["incarnation"]) for came in server.heard]
                wanted = [("hello", before), *((kind, one.incarnation) for kind in ["hello", *more])]
                self.assertEqual(said, [(kind, clients[0], incarnation) for kind, incarnation in wanted])
                self.assertEqual(server.connections, 1)
                self.assertGreater(leases.new_incarnation(), one.incarnation)
                one.close()

    def test_in_asyncio(self):
        """There it is the same."""
        async def puts():
            with leasing(), unused(), Scripted(ahead(1_000), welcome, reply("done")) as server:
                one = aio.Session(server.address, connect_timeout=None)
                before = one.incarnation
                await one.put(3, "a")
                self.assertEqual((one.incarnation, one.last.key.incarnation), (before + 1_001,) * 2)
                await one.close()
        asyncio.run(puts())

    def test_once(self):
        """A second word of this kind is another program's: this one stops."""
        with leasing(), unused(), Scripted(ahead(1_000), ahead(5)) as server:
            one, server.otherwise = rv.Session(server.address, connect_timeout=None), refused(9)
            with self.raises(rv.Replaced, key=None, current=one.incarnation + 1_006):
                one.put(3, "a")
            self.assertEqual(len(server.heard), 2)
            one.close()

    def test_the_last_incarnations(self):
        """Above the greatest one there is none."""
        with leasing(), unused(), Scripted(refused(4, current=2**53 - 2), welcome, refused(4, current=2**53 - 1)) as server:
            with rv.Session(server.address, connect_timeout=None) as one:
                self.assertEqual(one.incarnation, 2**53 - 1)
            leases.USED.clear()
            with self.raises(rv.Replaced, key=None, current=2**53 - 1):
                rv.Session(server.address, connect_timeout=None).connect()

    def test_names_that_are_given(self):
        """The session ends: its caller says who it is."""
        for incarnation in (None, 7):
            with unused(), Scripted(ahead(1_000)) as server:
                one = rv.Session(server.address, numbers()[0], incarnation, connect_timeout=None)
                with self.raises(rv.Replaced, key=None, current=one.incarnation + 1_000):
                    one.connect()
                one.close()

    def test_behind_a_welcome(self):
        """The session is replaced: its number is another program's too."""
        with leasing(), unused(), Scripted(welcome, reply("done"), ahead(1_000)) as server:
            one, server.otherwise = rv.Session(server.address, connect_timeout=None), refused(9)
            one.put(3, "a")
            with self.raises(rv.Replaced, current=one.incarnation + 1_000):
                one.put(3, "b")
            one.close()


def ahead(count):
    """A deed: the server has an incarnation that is so much greater."""
    return lambda came: refused(4, current=came["incarnation"] + count)


class Ranges(Case):
    """From which range numbers are leased."""

    def test_an_argument(self):
        """It goes before the environment, and that before the first 1,024."""
        with leasing() as clients:
            other = numbers()[3:6]
            for given, wanted in ((other, other), (None, clients)):
                one = rv.Session("127.0.0.1:7411", clients=given)
                self.assertEqual((one.client, leases.range_of(given)), (wanted[0], wanted))
                one.close()
        with mock.patch.dict(os.environ):
            os.environ.pop("RV_CLIENTS", None)
            self.assertEqual(leases.range_of(None), range(1, 1025))

    def test_none_is_free(self):
        """The range is told."""
        with leasing() as clients:
            first, last = clients[0], clients[1]
            two = [lease(clients[:2]), lease(clients[:2])]
            self.assertEqual([one.client for one in two], [first, last])
            with self.raises(rv.AllLeased, key=None, first=first, last=last) as told:
                rv.Session("127.0.0.1:7411", clients=clients[:2])
            self.assertEqual(str(told.raised), f"all client numbers {first} to {last} are leased")
            two[1].close()
            with self.raises(rv.AllLeased):
                lease(clients[:1])
            again = lease(clients[:2])
            self.assertEqual(again.client, last)
            again.close()
            two[0].close()

    def test_wrong_variables(self):
        """The variable is named."""
        for text in ("", "1", "1-", "-1", "0-5", "5-4", "1-2-3", " 1-2", "1-2\n", "a-b", "+1-2", "1-9007199254740992", "١-٢"):
            with mock.patch.dict(os.environ, RV_CLIENTS=text), self.subTest(text=text):
                with self.assertRaisesRegex(ValueError, "RV_CLIENTS is FIRST-LAST"):
                    rv.Session("127.0.0.1:7411")
        with mock.patch.dict(os.environ, RV_CLIENTS="9007199254740991-9007199254740991"):
            self.assertEqual(leases.range_of(None), range(2**53 - 1, 2**53))

    def test_wrong_ranges(self):
        """Ranges that are none of client numbers."""
        for wrong in (range(0, 5), range(1, 1), range(1, 9, 2), range(5, 0, -1), range(1, 2**53 + 1),
                      range(1, 2**70)):
            with self.subTest(clients=wrong), self.assertRaises(ValueError):
                lease(wrong)
        for wrong in ([1, 2], "1-2", 7):
            with self.subTest(clients=wrong), self.assertRaises(TypeError):
                lease(wrong)


class Descriptors(Case):
    """What a session has of the system's."""

    def told(self, text, server):
        """What a program prints of the server at this address."""
        program = ("import asyncio, os, _thread\nfrom context import rv, numbers, until\nfrom rendezvous import aio, session\n"
                   f"address, session.END = {server.address!r}, {GENEROUS}\n"
                   "counted = lambda: (len(os.listdir('/proc/self/fd')), _thread._count())\n"
                   "since = lambda before: [now - then for now, then in zip(counted(), before)]\n" + text)
        ran = subprocess.run([sys.executable, "-B", "-c", program], cwd=FOLDER, capture_output=True, text=True, timeout=GENEROUS)
        self.assertEqual((ran.stderr, ran.returncode), ("", 0))
        return ran.stdout

    def test_a_session(self):
        """It has one thread and two descriptors, one of them before its connection; behind its close it has none."""
        for name in ("clients=numbers()", "client=1, incarnation=1"):
            text = (f"before = counted()\none = rv.Session(address, {name}, connect_timeout=None)\nprint(since(before)[0])\n"
                    "one.connect()\nprint(since(before))\none.close()\nprint(since(before)[0])\n"
                    "until('the thread ends', lambda: since(before)[1] == 0)\n")
            with Scripted(welcome) as server, self.subTest(name=name):
                self.assertEqual(self.told(text, server), "1\n[2, 1]\n0\n")

    def test_in_asyncio(self):
        """It has no thread, and its connection and its lease alone; a number that is given is no descriptor."""
        for name, count in (("clients=numbers()", 2), ("client=1, incarnation=1", 1)):
            text = (f"async def runs():\n    before = counted()\n    one = aio.Session(address, {name}, connect_timeout=None)\n"
                    "    print(since(before)[0])\n    await one.connect()\n    print(since(before)[0])\n"
                    "    await one.close()\n    await asyncio.sleep(0)\n    print(since(before)[0])\nasyncio.run(runs())\n")
            with Scripted(welcome) as server, self.subTest(name=name):
                self.assertEqual(self.told(text, server), f"{count - 1}\n{count}\n0\n")


if __name__ == "__main__":
    unittest.main()
