"""Addresses: what a text names, what it says of a session, and servers that are alternatives of one."""
import contextlib
import json
import math
import os
import pathlib
import unittest
from unittest import mock

from context import PATIENCE, Case, in_time, leasing, nobody, raised_by, rv
from rendezvous import aio
from rendezvous.addresses import Options, target_of
from rendezvous.course import Course
from scripted import HANG_UP, SILENCE, Scripted, refused, reply, welcome
from test_restarts import InTasks, InThreads, both
from test_words import tries

# The cases of both clients, which a clone has beside them.
TABLE = pathlib.Path(__file__).resolve().parents[2] / "addresses.jsonl"
# Times that no machine is too slow for.
LONG, NEARLY = 1e6, 0.99


def told_of(address):
    """What an address is, as a case of the table has it."""
    try:
        servers, options = target_of(address)
    except ValueError as fault:
        return {"fault": str(fault).partition(", in the address ")[0]}
    given = {name: value for name, value in options._asdict().items() if value is not None}
    if given.get("patience") == math.inf:
        given["patience"] = "forever"
    return {"servers": [list(server) for server in servers], "options": given}


class Texts(Case):
    """What a text names, or which place of it is wrong."""

    @unittest.skipUnless(TABLE.exists(), "the table is in a clone alone")
    def test_the_table(self):
        """Each case."""
        for line in TABLE.read_text(encoding="utf-8").splitlines():
            case = json.loads(line)
            with self.subTest(case["address"]):
                self.assertEqual({"address": case["address"], **told_of(case["address"])}, case)

    def test_no_text(self):
        """What UTF-8 has not is no option's value."""
        self.assertEqual(told_of("rv://a:1?record=\ud800"), {"fault": "option record"})

    def test_the_whole_is_named(self):
        """The fault stands before the address."""
        self.assertEqual(str(raised_by(lambda: target_of("a:7411,b"))), "port of server 2, in the address 'a:7411,b'")

    def test_pairs(self):
        """A pair is a server, and so is a list of both; each is written as an address has it."""
        for pair, text in (("a", 1), "a:1"), (["::1", 7411], "[::1]:7411"), (("fe80::1%eth0", 1), "[fe80::1%eth0]:1"):
            [server] = target_of(pair).servers
            self.assertEqual((server, str(server), target_of(pair).options), (tuple(pair), text, Options()))
            self.assertEqual(target_of(text).servers, (server,))


class Given(Case):
    """What a session has of its address, and what it is given beside that."""

    KINDS = (rv.Session, aio.Session)

    def made(self, kind, address, **more):
        """A session's servers, client, version, patience and record."""
        one = kind(address, **more) if address is not None else kind(**more)
        course = one._driver if kind is rv.Session else one._course
        if kind is rv.Session:
            one.close()
        else:
            course.end()
        manner = course.manner
        return one.servers, one.client, manner.version, one.patience, manner.record and manner.record.path

    def test_options(self):
        """An address's options hold where nothing else is given."""
        path = os.path.join(os.getcwd(), "told.jsonl")
        address = "rv://a:1,b:2?client=7&version=1&patience=forever&record=told.jsonl"
        for kind in self.KINDS:
            with mock.patch("rendezvous.record.Record.check"), mock.patch.dict(os.environ, RV_RECORD="other", RV_CLIENTS="8-9"):
                self.assertEqual(self.made(kind, address), ((("a", 1), ("b", 2)), 7, 1, math.inf, path))

    def test_arguments_come_first(self):
        """An argument wins over the address, also a range of client numbers and a patience in a retry."""
        address = "rv://a:1?client=7&version=1&patience=5&record=told.jsonl"
        with leasing() as clients:
            for kind in self.KINDS:
                given = self.made(kind, address, client=9, version=2, patience=None, record="")
                self.assertEqual(given[1:], (9, 2, None, None))
                given = self.made(kind, address, clients=clients, retry=rv.Retry(patience=3), record="")
                self.assertEqual(given[1:], (clients[0], 1, 3, None))
                self.assertEqual(self.made(kind, address, retry=rv.Retry(), patience=4.0, record="")[3], 4.0)

    def test_the_environment(self):
        """Without an address it is the environment's, and without that a server of this host."""
        for told, server in (("rv://a:1?client=7", ("a", 1)), ("", ("127.0.0.1", 7411)), (None, ("127.0.0.1", 7411))):
            with leasing() as clients, mock.patch.dict(os.environ):
                os.environ.pop("RV_SERVER", None)
                os.environ.update({} if told is None else {"RV_SERVER": told})
                for kind in self.KINDS:
                    self.assertEqual(self.made(kind, None)[:2], ((server,), 7 if told else clients[0]))

    def test_its_number_is_leased(self):
        """The number of an address is no other session's at the same time, in this process or another one."""
        with leasing() as clients:
            address = f"rv://a:1?client={clients[0]}"
            with contextlib.closing(rv.Session(address)) as session:
                self.assertEqual(session.client, clients[0])
                self.assertRaises(rv.AllLeased, rv.Session, address)
            rv.Session(address).close()

    def test_a_wrong_one(self):
        """It is told before anything is leased, also that of the environment."""
        with leasing(), mock.patch.dict(os.environ, RV_SERVER="a:1,b"), mock.patch("rendezvous.leases.leased") as leased:
            for kind in self.KINDS:
                self.assertIn("port of server 2", str(raised_by(kind)))
            leased.assert_not_called()


@contextlib.contextmanager
def opened():
    """In the block, the servers to which connections were begun, each time that one was."""
    servers, connects = [], Course._connect

    def connecting(course, *given):
        servers.append(str(course.server))
        connects(course, *given)
    with mock.patch.object(Course, "_connect", connecting):
        yield servers


@contextlib.contextmanager
def no_pause():
    """In the block, nothing may pause."""
    with mock.patch.object(Course, "_pause", side_effect=AssertionError("it paused")):
        yield


def text_of(*servers):
    """An address of servers that are named by texts, or by pairs."""
    return ",".join(server if isinstance(server, str) else "%s:%d" % server for server in servers)


class Alternatives(Case):
    """Servers that are alternatives of one, tried in turn."""

    @both
    def test_one_that_is_away(self, kind):
        """The next one is asked at once, and again by the next call."""
        with nobody() as away, Scripted(welcome) as server, opened() as servers, no_pause():
            server.otherwise = reply("item", item="a")
            with contextlib.closing(kind(text_of(away, server.address))) as played:
                self.assertEqual([played.ask(lambda one: one.take(3)) for _ in range(2)], ["a", "a"])
                self.assertEqual(str(played.one.address), server.address)
            self.assertEqual(servers, [text_of(away), server.address])

    @both
    def test_a_lost_connection(self, kind):
        """The next one is asked at once, by the same request; and behind the last one comes the first."""
        with Scripted(welcome, HANG_UP) as first, Scripted(reply("item", item="a"), HANG_UP) as second, no_pause():
            first.otherwise = reply("item", item="b")
            with contextlib.closing(kind(text_of(first.address, second.address))) as played:
                self.assertEqual([played.ask(lambda one: one.take(3)) for _ in range(2)], ["a", "b"])
            self.assertEqual([[one.get("number") for one in server.heard] for server in (first, second)], [[None, 1, 2], [1, 2]])

    @both
    def test_a_round_in_vain(self, kind):
        """Each is tried once between two pauses; the exception has what each of them said."""
        with nobody() as first, nobody() as second, opened() as servers, tries(3):
            with contextlib.closing(kind(text_of(first, second))) as played, self.raises(rv.NotAsked) as told:
                played.ask(lambda one: one.take(3))
            self.assertEqual(servers, [text_of(first), text_of(second)] * 3)
        words = "; ".join(f"{text_of(each)}: connection refused" for each in (first, second))
        self.assertEqual(str(told.raised), f"nothing was asked: {words}")

    @both
    def test_one_of_a_lower_epoch(self, kind):
        """The next one is asked at once."""
        def in_epoch_9(came):
            return welcome(came, 9)
        with Scripted(in_epoch_9, HANG_UP) as first, Scripted(refused(2, current=5)) as second, Scripted() as third, no_pause():
            third.otherwise = reply("item", item="a")
            with contextlib.closing(kind(text_of(first.address, second.address, third.address))) as played:
                self.assertEqual((played.ask(lambda one: one.take(3)), len(second.heard)), ("a", 1))

    @in_time
    def test_one_that_is_silent(self):
        """It has its share of the time to the first welcome, and the next one the rest."""
        for kind in (InThreads, InTasks):
            with Scripted(SILENCE) as silent, Scripted(welcome, reply("item", item="a")) as server:
                with contextlib.closing(kind(text_of(silent.address, server.address), connect_timeout=2.0)) as played:
                    self.assertEqual((played.ask(lambda one: one.take(3)), len(silent.heard)), ("a", 1))

    @both
    def test_shares(self, kind):
        """Of the time that is left: a half of it, then all; a hello has none of its own, and a request a whole one."""
        awaits, awaited = Course._await, []

        def awaiting(course, now, seconds):
            awaited.append(seconds)
            awaits(course, now, seconds)
        times = {"connect_timeout": LONG, "patience": LONG, "answer": LONG}
        patched = mock.patch.object(Course, "_await", awaiting)
        with nobody() as away, Scripted(welcome, reply("item", item="a")) as server, patched:
            with contextlib.closing(kind(text_of(away, server.address), **times)) as played:
                played.ask(lambda one: one.take(3))
        self.assertEqual(len(awaited), 3)
        for seconds, most in zip(awaited, (LONG / 2, LONG, LONG)):
            self.assertLessEqual(seconds, most)
            self.assertGreater(seconds, NEARLY * most)


class Retries(Case):
    """How a call goes on that reaches nobody."""

    def test_as_it_is_given(self):
        """Its values, and those that it has by itself."""
        self.assertEqual(rv.Retry(), rv.Retry(first=0.01, largest=5.0, patience=60.0))
        self.assertEqual(hash(rv.Retry(1, 2, None)), hash(rv.Retry(1, 2, None)))
        with self.assertRaises(AttributeError):
            rv.Retry().first = 1.0

    def test_none(self):
        """What is no such time is misused, and named."""
        wrong = {"first": (0, -1, math.inf, math.nan, "1", True, None, 6), "largest": (0, 0.001, math.inf, math.nan, None),
                 "patience": (-1, math.nan, "1", True)}
        for name, value in [(name, value) for name, values in wrong.items() for value in values]:
            with self.subTest(name, value=value), self.raises(rv.Misused) as told:
                rv.Retry(**{name: value})
            self.assertIn(name, str(told.raised))

    @both
    def test_pauses(self, kind):
        """Each is any up to a bound that doubles, from the first to the largest."""
        for retry, bounds in ((rv.Retry(0.25, 1.5, None), [0.25, 0.5, 1.0, 1.5, 1.5]), (None, [0.01, 0.02, 0.04, 0.08, 0.16])):
            with nobody() as away, tries(5), mock.patch("rendezvous.course.random.uniform", return_value=0.0) as drawn:
                with contextlib.closing(kind(away, retry=retry, patience=PATIENCE)) as played, self.raises(rv.NotAsked):
                    played.ask(lambda one: one.take(3))
                self.assertEqual(drawn.call_args_list, [mock.call(0, bound) for bound in bounds])


if __name__ == "__main__":
    unittest.main()
