"""What all tests use: the package from this clone, sessions that wait long, and what a call raises."""
import contextlib
import errno
import faulthandler
import functools
import itertools
import os
import pathlib
import socket
import sys
import time
import types
import unittest
from unittest import mock

sys.path.insert(0, str(pathlib.Path(__file__).resolve().parent.parent / "src"))
import rendezvous as rv  # noqa: E402
from rendezvous.course import Course  # noqa: E402

# How long a test, or a part of one, may take that never hangs, in seconds; the patience of sessions, and how long
# something is awaited that must come: long, for a slow machine, but where clients are tried that never end.
HANG = 300
PATIENCE = GENEROUS = int(os.environ.get("RV_PATIENCE", "120"))
# How often what has to be done in time is tried.
TRIES = 5


def in_time(test):
    """A test in which a patience or a time ends, behind which the client says less: where the machine was too slow to
    ask before, or an answer was on its way just then, it is tried again."""
    @functools.wraps(test)
    def tried(case):
        for _ in range(TRIES - 1):
            with contextlib.suppress(Exception):
                return test(case)
        return test(case)
    return tried


@contextlib.contextmanager
def unhurried(cancels=True):
    """In the block, a call that was interrupted, or whose own time is over, waits for what its cancel comes to as long
    as for any other answer; or for its own answer, where its own time cancels nothing."""
    behind_time = ["course.TELL_BEHIND"] + ["course.CANCEL_BEHIND"] * (not cancels)
    with contextlib.ExitStack() as patched:
        for place in ("session.FAREWELL", "aio.FAREWELL", *behind_time):
            patched.enter_context(mock.patch(f"rendezvous.{place}", PATIENCE))
        yield


@contextlib.contextmanager
def impatient():
    """In the block, the patience of a call ends once a connection of it failed, and not before."""
    failed = Course._failed

    def fails(course, *given):
        failed(course, *given)
        course._heard_at = float("-inf")
    with mock.patch.object(Course, "_failed", fails):
        yield


class Case(unittest.TestCase):
    """A test that is ended, with its stacks, where it hangs."""

    def setUp(self):
        self.goes_on()

    def goes_on(self):
        """It does not hang: from now on it may take as long again."""
        faulthandler.dump_traceback_later(HANG, exit=True)

    def tearDown(self):
        faulthandler.cancel_dump_traceback_later()

    @contextlib.contextmanager
    def raises(self, kind, **fields):
        """The block must raise this, with these fields; `raised` of what it is given has it."""
        told = types.SimpleNamespace(raised=None)
        try:
            yield told
        except kind as raised:
            told.raised = raised
        if told.raised is None:
            self.fail(f"no {kind} was raised")
        self.assertEqual({name: getattr(told.raised, name) for name in fields}, fields)

    @contextlib.contextmanager
    def within(self, seconds):
        """The block must end in so many seconds."""
        began = time.monotonic()
        yield
        self.assertLess(time.monotonic() - began, seconds)


@contextlib.contextmanager
def nobody():
    """An address at which nobody listens, nor can until the end of the block: a port that is bound. One that was only closed may be
    the next server's, of another test too."""
    with socket.socket() as holder:
        holder.bind(("127.0.0.1", 0))
        yield holder.getsockname()


def session(server, **more):
    """A session of client 1, incarnation 1. It waits long, so that a slow machine does not have it ask once more."""
    return rv.Session(server.address, 1, 1, **{"patience": PATIENCE, "answer": PATIENCE / 2, "connect_timeout": None, **more})


# Blocks of client numbers that this process has leased from.
BLOCKS = itertools.count()
# How many numbers a block has.
BLOCK = 32


def numbers():
    """Client numbers that nobody else leases: each process has 4,096 of its own, by its number, and a block is some of them."""
    first = 4_096 * os.getpid() + BLOCK * next(BLOCKS)
    return range(first, first + BLOCK)


@contextlib.contextmanager
def leasing():
    """In the block numbers are leased from a new range, which it is given, and which the environment says; a close waits as long
    as need be until its session's number is given back."""
    clients = numbers()
    with mock.patch.dict(os.environ, RV_CLIENTS=f"{clients[0]}-{clients[-1]}"), mock.patch("rendezvous.session.END", GENEROUS):
        yield clients


def place_of(client, user=os.geteuid()):
    """The address and port that stand for a user's client number, as the formats say."""
    block = (user + 2654435761 * (client // 4096)) % 2**22
    return f"127.{64 + block // 65536}.{block // 256 % 256}.{block % 256}", 61000 + client % 4096


def is_free(client):
    """Whether nobody has leased a number."""
    with socket.socket(socket.AF_INET, socket.SOCK_DGRAM) as other:
        try:
            other.bind(place_of(client))
        except OSError as fault:
            assert fault.errno == errno.EADDRINUSE, fault
            return False
    return True


def key(number, epoch=1):
    """A key of client 1, incarnation 1."""
    return rv.Key(epoch, 1, 1, number)


def asked(server):
    """What came, each as its kind, number and call."""
    return [(one["kind"], one.get("number"), one.get("call")) for one in server.heard]


def until(what, holds):
    """Waits until something holds."""
    ends = time.monotonic() + GENEROUS
    while not holds():
        if time.monotonic() > ends:
            raise AssertionError(f"within {GENEROUS} seconds: {what}")
        time.sleep(0.002)


def behind(server, count, deed):
    """A deed that waits until so many frames came."""
    return lambda *_: (until("a frame", lambda: len(server.heard) >= count), deed())[1]


def raised_by(call):
    """What a call raises; None where it ends."""
    try:
        call()
    except BaseException as raised:
        return raised
    return None
