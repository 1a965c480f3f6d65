"""Shards: which server a call is asked at, what becomes of the others meanwhile, and what all of them have."""
import asyncio
import contextlib
import inspect
import unittest
from unittest import mock

from context import Case, is_free, key, leasing, nobody, raised_by, rv
from rendezvous import aio
from rendezvous.spread import Spread
from scripted import Scripted, reply, running_first, waiting, welcome
from test_restarts import CALLS, InTasks, InThreads, both

# How many servers there are, and the greatest queue.
COUNT, LAST = 3, 63
ASKED = ("put", "transfer", "try_transfer", "take", "poll", "items", "drain", "exchange", "count", "peek")


class ThreadsShards(InThreads):
    """Shards of threads."""

    def __init__(self, addresses, **more):
        self.one = rv.Shards(addresses, **more)


class TasksShards(InTasks):
    """Shards of asyncio, in an event loop of their own."""

    def __init__(self, addresses, **more):
        self.one, self.loop = aio.Shards(addresses, **more), asyncio.new_event_loop()


KINDS = {InThreads: ThreadsShards, InTasks: TasksShards}


@contextlib.contextmanager
def shards_of(kind, addresses, **more):
    """Shards of these addresses, whose numbers are leased from a range of their own."""
    with leasing(), contextlib.closing(KINDS[kind](addresses, **more)) as played:
        yield played


def answered(came):
    """A deed: the welcome to a hello, and a count to any request."""
    return welcome(came) if came["kind"] == "hello" else reply("counted", items=1, consumers=2)(came)


@contextlib.contextmanager
def servers():
    """Servers that answer each count, and their addresses."""
    with contextlib.ExitStack() as stack:
        made = [stack.enter_context(Scripted()) for _ in range(COUNT)]
        for server in made:
            server.otherwise = answered
        yield made, [server.address for server in made]


def asks(place):
    """A call at a place."""
    return lambda one: one.count(place)


class Places(Case):
    """At which server a call is asked."""

    @both
    def test_each_queue(self, kind):
        """By its number alone, in one session of each server; one whose queues nobody uses is never connected."""
        with servers() as (made, addresses), shards_of(kind, addresses) as played:
            used = [place for place in range(LAST + 1) if place % COUNT != 1]
            for place in used:
                self.assertEqual(played.ask(asks(place)), rv.Counted(mock.ANY, 1, 2))
            for index, server in enumerate(made):
                heard = [one["queue"] for one in server.heard if one["kind"] == "request"]
                self.assertEqual(heard, [place for place in used if place % COUNT == index])
            self.assertEqual([server.connections for server in made], [1, 0, 1])

    @both
    def test_each_call(self, kind):
        """It is asked there, and gives what it gives in a session."""
        with servers() as (made, addresses), shards_of(kind, addresses) as played:
            for call, told, result in CALLS:
                made[0].deeds = [told] if made[0].heard else [welcome, told]
                given = played.ask(call)
                self.assertEqual(given, given if result is ... else result)
            self.assertEqual([len(server.heard) for server in made], [len(CALLS) + 1, 0, 0])

    @both
    def test_one_that_is_away(self, kind):
        """Only calls of its own queues are told so; the others' connections stay."""
        with servers() as (made, addresses), nobody() as away:
            with shards_of(kind, [addresses[0], "%s:%d" % away, addresses[2]], connect_timeout=0.1) as played:
                for place in (0, 2, 1, 0, 4, 2):
                    with self.raises(rv.NotAsked) if place % COUNT == 1 else contextlib.nullcontext():
                        played.ask(asks(place))
            self.assertEqual([server.connections for server in made], [1, 0, 1])

    @both
    def test_client_numbers(self, kind):
        """Each session has one of its own until the end, behind which nothing is asked."""
        with servers() as (made, addresses), shards_of(kind, addresses) as played:
            for place in (0, 1):
                played.ask(asks(place))
            clients = [one.client for one in played.one.used()]
            self.assertEqual(len(set(clients)), 2)
            self.assertFalse(any(map(is_free, clients)))
            played.ask(lambda one: one.close()) if kind is InTasks else played.one.close()
            self.assertTrue(all(map(is_free, clients)))
            for place in range(COUNT):
                with self.raises(rv.Misused):
                    played.ask(asks(place))
            self.assertEqual(len(made[2].heard), 0)

    @both
    def test_the_addresses_own(self, kind):
        """What an address says of its session holds for that one alone, and what all are given for each."""
        with shards_of(kind, ["rv://a:1,b:2?client=7", "c:3"], patience=9, version=1) as played:
            sessions = [played.one.session(place) for place in (2, 3)]
            self.assertEqual([one.patience for one in sessions], [9, 9])
            self.assertEqual((sessions[0].client, sessions[0].servers), (7, (("a", 1), ("b", 2))))
            self.assertNotEqual(sessions[1].client, 7)


class All(Case):
    """What is done with all sessions."""

    def test_names_and_signatures(self):
        """Shards have each call of a session, with the same arguments."""
        calls = {name for name, value in vars(rv.Session).items() if callable(value) and not name.startswith("_")}
        self.assertEqual(calls - {"connect", "close", "cancel", "unclaimed", "claim", "again", "give_up"}, set(ASKED))
        for shards, kind in ((rv.Shards, rv.Session), (aio.Shards, aio.Session)):
            for name in ASKED:
                here, there = getattr(shards, name), getattr(kind, name)
                self.assertEqual(*(str(inspect.signature(each)).replace('"', "").replace("'", "") for each in (here, there)))
                self.assertEqual(inspect.iscoroutinefunction(here), inspect.iscoroutinefunction(there))

    @both
    def test_wrong_arguments(self, kind):
        """They are told at once."""
        for addresses, more, raises in [
                ("a:1", {}, TypeError), ([], {}, ValueError), (["a:1", "b"], {}, ValueError), ([7], {}, TypeError),
                (7, {}, TypeError),
                (["a:1"], {"client": 7}, TypeError), (["a:1"], {"incarnation": 7}, TypeError), (["a:1"], {"x": 7}, TypeError)]:
            with self.subTest(addresses=addresses, more=more), self.raises(raises):
                KINDS[kind](addresses, **more)
        with shards_of(kind, ["a:1"]) as played:
            for place in (-1, 64, "0", None, True):
                with self.raises(ValueError):
                    played.ask(asks(place))
            self.assertEqual(played.one.used(), [])

    def test_a_cancel(self):
        """It ends the call that runs, though a loop is under way elsewhere; where none runs, the loop."""
        with servers() as (made, addresses), shards_of(InThreads, addresses) as played:
            made[0].deeds = [welcome, reply("item", item="a")]
            loop = played.one.items(0)
            self.assertEqual(next(loop), "a")
            made[1].deeds = [welcome, running_first(played.one.cancel, waiting)]
            made[1].otherwise = reply("cancelled")
            with self.raises(rv.Cancelled):
                played.one.take(1)
            self.assertTrue(played.one.cancel())
            self.assertEqual((list(loop), played.one.cancel(), played.one.running), ([], False, None))


class Held:
    """A session that holds what it is given, and can't be closed."""

    def __init__(self, address, unclaimed=()):
        self.address, self.kept, self.closes = address, list(unclaimed), 0

    def unclaimed(self):
        """What it holds."""
        return self.kept

    def claim(self, one):
        """Gives it."""
        self.kept.remove(one)
        return one.item

    def __exit__(self, *_):
        self.closes += 1
        raise rv.NotRecorded(rv.replies.Done(key(1)), "{}", OSError(28, "none", "record"))


class Unclaimed(Case):
    """Items that no call gave."""

    KEPT = [rv.Unclaimed(key(2), "b", queue=4), rv.Unclaimed(key(3), "c", exchanger=1), rv.Unclaimed(key(1), "a", queue=0)]

    def test_of_all(self):
        """Each is listed, and claimed once, from its own server's session; what never was there is not."""
        spread = Spread(Held, ["a:1", "b:1", "c:1"], {})
        self.assertEqual(spread.unclaimed(), [])
        for one in self.KEPT:
            place = one.exchanger if one.queue is None else one.queue
            spread.session(place).kept.append(one)
        self.assertEqual(spread.unclaimed(), [self.KEPT[2], *self.KEPT[:2]])
        self.assertEqual(([spread.claim(one) for one in self.KEPT], spread.unclaimed()), (["b", "c", "a"], []))
        for none in (self.KEPT[0], rv.Unclaimed(key(1), "a", queue=2), rv.Unclaimed(key(1), "a"), None, "a"):
            self.assertIsInstance(raised_by(lambda: spread.claim(none)), ValueError)

    def test_a_close_that_tells_something(self):
        """Each session is closed, also behind one that could not record what it took."""
        with mock.patch("rendezvous.shards.Session", Held):
            shards = rv.Shards(["a:1", "b:1", "c:1"])
            held = [shards.session(place) for place in (0, 2)]
            with self.raises(rv.NotRecorded):
                shards.close()
        self.assertEqual([one.closes for one in held], [1, 1])


if __name__ == "__main__":
    unittest.main()
