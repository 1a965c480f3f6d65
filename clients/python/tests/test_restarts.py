"""A server that is started anew: what a call is told whose request certainly nobody met, and sessions that renew themselves."""
import asyncio
import contextlib
import functools
import json
import pathlib
import socket
import tempfile
import threading
import unittest
from unittest import mock

from context import PATIENCE, Case, asked, impatient, leasing, rv, until
from rendezvous import aio
from rendezvous.addresses import target_of
from rendezvous.course import Course
from scripted import HANG_UP, SILENCE, Scripted, received_by, refused, reply, running_first, waiting, welcome

# The server was started anew, in epoch 5; and its welcome then.
ANEW = refused(2, current=5)
welcome_anew = functools.partial(welcome, epoch=5)
# Each call, with an answer and with what that gives.
CALLS = [
    (lambda one: one.put(3, "a"), reply("done"), None),
    (lambda one: one.transfer(3, "a"), received_by(7, 8, 9), ...),
    (lambda one: one.try_transfer(3, "a"), reply("nobody"), None),
    (lambda one: one.try_transfer(3, "a", 60), reply("timedout"), None),
    (lambda one: one.take(3), reply("item", item="b"), "b"),
    (lambda one: one.poll(3, 60), reply("item", item="b"), "b"),
    (lambda one: one.drain(3, 2), reply("drained", texts=["b", "c"]), ["b", "c"]),
    (lambda one: one.exchange(3, "a"), reply("swapped", item="b"), "b"),
    (lambda one: one.count(3), reply("counted", items=1, consumers=2), ...),
    (lambda one: one.peek(3), reply("peeked", item="b"), "b"),
]
# What changes nothing at the server.
LOOKS = CALLS[-2:]


class InThreads:
    """A session of threads."""

    def __init__(self, address, **more):
        self.one = rv.Session(address, **{"client": 1, "patience": PATIENCE, "answer": PATIENCE / 2, **more})

    def ask(self, call):
        """What a call gives."""
        return call(self.one)

    def cancel(self):
        """Cancels the call that runs, from another thread."""
        self.one.cancel()

    def goes_to(self, address):
        """Its connection has ended, and its next one is made to another address."""
        until("the end of its connection", lambda: self.one._driver._link is None)
        self.one._driver.servers = target_of(address).servers

    def close(self):
        """Closes it."""
        self.one.close()


class InTasks:
    """A session of asyncio, in an event loop of its own."""

    def __init__(self, address, **more):
        self.one = aio.Session(address, **{"client": 1, "patience": PATIENCE, "answer": PATIENCE / 2, **more})
        self.loop = asyncio.new_event_loop()

    def ask(self, call):
        """What a call gives."""
        return self.loop.run_until_complete(call(self.one))

    def cancel(self):
        """Cancels the call that runs, from another thread."""
        self.loop.call_soon_threadsafe(self.one.cancel)

    def goes_to(self, address):
        """Its connection has ended, and its next one is made to another address."""
        until("the end of its connection", lambda: self.loop.run_until_complete(asyncio.sleep(0)) or self.one._course.has_news())
        self.one._course.servers = target_of(address).servers

    def close(self):
        """Closes it."""
        if not self.loop.is_closed():
            self.loop.run_until_complete(self.one.close())
            self.loop.close()


def both(test):
    """A test of sessions of both kinds."""
    @functools.wraps(test)
    def tried(case):
        for kind in (InThreads, InTasks):
            with case.subTest(kind.__name__):
                test(case, kind)
    return tried


@contextlib.contextmanager
def playing(kind, *deeds, renew=True, **more):
    """A server of these deeds, and a session of it, which nobody has connected."""
    with Scripted(*deeds) as server, contextlib.closing(kind(server.address, renew=renew, **more)) as played:
        yield server, played


def put(one):
    """A put."""
    return one.put(3, "a")


def requests(server):
    """The requests that came, each as its epoch, number and call."""
    return [(one["epoch"], one["number"], one["call"]) for one in server.heard if one["kind"] == "request"]


def hellos(server):
    """The incarnations of the hellos that came."""
    return [one["incarnation"] for one in server.heard if one["kind"] == "hello"]


class Away:
    """An address at which nobody listens, until `begin`: then it is a server's of these deeds."""

    def __init__(self, *deeds):
        self.server = Scripted(*deeds)
        self.server.listener.close()
        self.server.listener = socket.socket()
        self.server.listener.bind(("127.0.0.1", 0))
        self.address = self.server.listener.getsockname()
        self.began = False

    def begin(self):
        """From now on it listens."""
        self.began = True
        self.server.listener.listen()
        self.server.__enter__()

    def close(self):
        """Ends it."""
        if self.began:
            self.server.__exit__()
        else:
            self.server.listener.close()


@contextlib.contextmanager
def moved(kind, renew):
    """A server that is started anew and still away, and a session that was idle when the old one ended, and looks for the new one."""
    away = Away(ANEW, welcome_anew, reply("done"))
    with contextlib.closing(away), playing(kind, welcome, reply("done"), renew=renew) as (server, played):
        played.ask(put)
        server.__exit__()
        played.goes_to(away.address)
        yield away, played


@contextlib.contextmanager
def tried_in_vain(deed):
    """In the block, a deed is done once a connection was refused."""
    failed, did = Course._failed, []

    def fails(course, *given):
        failed(course, *given)
        if not did:
            did.append(deed)
            deed()
    with mock.patch.object(Course, "_failed", fails):
        yield


class NobodyMetIt(Case):
    """Each copy of a request was refused by a server of a greater epoch."""

    def puts_anew(self, away, played, renew):
        """A put, which the new server refuses: that is told, or the session renews itself and asks there."""
        with contextlib.nullcontext() if renew else self.raises(rv.NotAsked, current=5):
            played.ask(put)
        self.assertEqual(requests(away.server), [(1, 2, "put"), (5, 1, "put")][:1 + renew])

    @both
    def test_idle_over_a_restart(self, kind):
        """Each call is told that nobody met its request, in which epoch the server is, and that the session has ended."""
        for call, _, _ in CALLS:
            with playing(kind, welcome, reply("done"), ANEW, renew=False) as (server, played):
                played.ask(put)
                incarnation = played.one.incarnation
                with self.raises(rv.NotAsked, key=rv.Key(1, 1, incarnation, 2), current=5) as told:
                    played.ask(call)
                self.assertIn("anew", str(told.raised))
                self.assertIn("epoch 5", str(told.raised))
                for more in (put, lambda one: one.connect(), lambda one: one.again()):
                    with self.raises(rv.Misused):
                        played.ask(more)
                self.assertEqual((len(server.heard), played.one.incarnation), (3, incarnation))

    @both
    def test_begun_while_the_server_was_away(self, kind):
        """Its only copy came to the new server."""
        for renew in (False, True):
            with moved(kind, renew) as (away, played), tried_in_vain(away.begin):
                self.puts_anew(away, played, renew)

    @both
    def test_a_cancel_while_the_server_is_away(self, kind):
        """Nothing was asked, and the session goes on; the next call is told of the restart, or renews it."""
        for renew in (False, True):
            with moved(kind, renew) as (away, played):
                with tried_in_vain(played.cancel), self.raises(rv.Cancelled, key=None):
                    played.ask(put)
                away.begin()
                self.puts_anew(away, played, renew)

    @both
    def test_no_room_is_no_doubt(self, kind):
        """A request that the old server had no room for was in no queue there."""
        with playing(kind, welcome, refused(10), refused(10), ANEW, renew=False) as (_, played):
            with self.raises(rv.NotAsked, current=5):
                played.ask(put)


class SomebodyMayHaveMetIt(Case):
    """A copy of the request may have come to the old server."""

    @both
    def test_it_is_not_known(self, kind):
        """A copy whose connection was lost, or that waits, or that found no memory: that is told, with `renew` or without; and
        where the session renews itself, the next call does it."""
        lost = [[HANG_UP], [waiting], [refused(11)], [HANG_UP, refused(10)], [refused(10), HANG_UP], [HANG_UP, refused(11)],
                [welcome], [b"\x00\x00"], [refused(2, current=1)], [waiting, HANG_UP]]
        for deeds in lost:
            for renew in (False, True):
                with playing(kind, welcome, *deeds, ANEW, welcome_anew, reply("item", item="b"), renew=renew) as (server, played):
                    with self.raises(rv.EpochEnded, current=5) as told:
                        played.ask(lambda one: one.take(3))
                    self.assertEqual(told.raised.key[::3], (1, 1))
                    if renew:
                        self.assertEqual(played.ask(lambda one: one.take(3)), "b")
                    else:
                        self.assertEqual(len(server.heard), len(deeds) + 2)

    @both
    def test_a_cancel_while_a_copy_is_out(self, kind):
        """Whether the request was met is not known, though the new server alone answered."""
        for renew in (False, True):
            with playing(kind, welcome, renew=renew) as (server, played):
                server.deeds += [running_first(played.cancel, SILENCE), ANEW, welcome_anew, reply("done")]
                with self.raises(rv.EpochEnded, current=5):
                    played.ask(lambda one: one.take(3))
                self.assertEqual([kind for kind, _, _ in asked(server)], ["hello", "request", "cancel"])
                if renew:
                    played.ask(put)

    @both
    def test_a_cancelled_look(self, kind):
        """It is not asked anew, though it may be."""
        for call, _, _ in LOOKS:
            with playing(kind, welcome) as (server, played):
                server.deeds += [running_first(played.cancel, SILENCE), ANEW, welcome_anew, reply("done")]
                with self.raises(rv.EpochEnded, current=5):
                    played.ask(call)
                played.ask(put)
                self.assertEqual([epoch for epoch, _, _ in requests(server)], [1, 5])

    @both
    def test_an_unsettled_one(self, kind):
        """It is not asked anew by `again`, whatever it was."""
        for call, _, _ in CALLS:
            with playing(kind, welcome, HANG_UP, ANEW, welcome_anew, reply("done")) as (server, played):
                with impatient(), self.raises(rv.Unsettled):
                    played.ask(call)
                with self.raises(rv.EpochEnded, current=5):
                    played.ask(lambda one: one.again())
                played.ask(put)
                self.assertEqual(requests(server)[2:], [(5, 1, "put")])

    @both
    def test_the_same_epoch_again(self, kind):
        """A server that lost all it had ends the session, and the next call renews it there."""
        for deed in (refused(3), refused(8, last=0)):
            with playing(kind, welcome, reply("done"), deed, welcome, reply("done")) as (server, played):
                played.ask(put)
                with self.raises(rv.EpochEnded, current=1):
                    played.ask(put)
                played.ask(put)
                self.assertEqual(requests(server), [(1, 1, "put"), (1, 2, "put"), (1, 1, "put")])
                self.assertLess(*hellos(server))


class Renewed(Case):
    """Sessions that renew themselves."""

    @both
    def test_each_call_goes_on(self, kind):
        """In the new epoch, under a greater incarnation; the session tells both, and what was told there."""
        for call, deed, given in CALLS:
            with playing(kind, welcome, reply("done"), ANEW, welcome_anew, deed) as (server, played):
                played.ask(put)
                before = played.one.incarnation
                told = played.ask(call)
                self.assertEqual(told if given is not ... else given, given)
                now = played.one.incarnation
                self.assertLess(before, now)
                self.assertEqual((played.one.epoch, played.one.client, hellos(server)), (5, 1, [before, now]))
                self.assertEqual(played.one.last.key, rv.Key(5, 1, now, 1))
                old, new = (one for one in server.heard[2:] if one["kind"] == "request")
                self.assertEqual({**old, "epoch": 5, "incarnation": now, "number": 1}, new)

    @both
    def test_a_look_at_a_queue(self, kind):
        """Changes nothing, so it is asked anew also where a copy was lost, and where the server took the same epoch again."""
        for call, deed, _ in LOOKS:
            for before, deeds, epoch in [([HANG_UP, ANEW], [welcome_anew], 5), ([refused(11), ANEW], [welcome_anew], 5),
                                         ([HANG_UP, refused(3)], [welcome], 1)]:
                with playing(kind, welcome, *before, *deeds, deed) as (server, played):
                    played.ask(call)
                    self.assertEqual((played.one.epoch, len(server.heard)), (epoch, 5))

    @both
    def test_more_restarts_than_one(self, kind):
        """Each renews it, where its epoch is greater; an old server that answers the hello again and again does not."""
        deeds = [deed for epoch in (5, 6, 7) for deed in (refused(2, current=epoch), functools.partial(welcome, epoch=epoch))]
        with playing(kind, welcome, *deeds, reply("done")) as (server, played):
            played.ask(put)
            self.assertEqual([epoch for epoch, _, _ in requests(server)], [1, 5, 6, 7])
        with playing(kind, welcome, ANEW, welcome, ANEW, welcome_anew, reply("done")) as (server, played):
            with self.raises(rv.NotAsked, current=5):
                played.ask(put)
            played.ask(put)
            self.assertEqual([epoch for epoch, _, _ in requests(server)], [1, 1, 5])

    @both
    def test_a_cancel_in_its_hello(self, kind):
        """Nothing was asked in the new epoch either; the session goes on there."""
        with playing(kind, welcome) as (server, played):
            server.deeds += [ANEW, running_first(played.cancel, SILENCE), welcome_anew, reply("done")]
            with self.raises(rv.Cancelled, key=None):
                played.ask(put)
            played.ask(put)
            self.assertEqual(requests(server), [(1, 1, "put"), (5, 1, "put")])

    @both
    def test_within_its_patience(self, kind):
        """A renewed call ends as each other, by what is known of it."""
        for deeds, fault in [([HANG_UP], rv.NotAsked), ([welcome_anew, HANG_UP], rv.Unsettled)]:
            with playing(kind, welcome, ANEW, *deeds) as (_, played), impatient(), self.raises(fault):
                played.ask(put)

    @both
    def test_other_ends(self, kind):
        """Another process of this name ends the session for good."""
        for deed, fault in [(refused(4, current=2**53 - 1), rv.Replaced), (refused(6), rv.Refused)]:
            with playing(kind, welcome, deed) as (server, played):
                with self.raises(fault):
                    played.ask(put)
                for call in (put, lambda one: one.connect()):
                    with self.raises(rv.Misused):
                        played.ask(call)
                self.assertEqual(len(server.heard), 2)

    @both
    def test_the_hello_of_a_connect(self, kind):
        """Behind an epoch that ended, a connect begins the session anew."""
        with playing(kind, welcome, HANG_UP, ANEW, welcome_anew) as (_, played):
            with self.raises(rv.EpochEnded):
                played.ask(put)
            played.ask(lambda one: one.connect())
            self.assertEqual(played.one.epoch, 5)

    @both
    def test_its_record(self, kind):
        """Has the request that was told, of the new epoch, and no other."""
        with tempfile.TemporaryDirectory(prefix="rv-told-") as folder:
            record = pathlib.Path(folder, "told.jsonl")
            with playing(kind, welcome, ANEW, welcome_anew, reply("done"), record=record) as (_, played):
                played.ask(put)
            lines = [json.loads(line) for line in record.read_text().splitlines()]
            self.assertEqual([(line["asked"]["epoch"], line["told"]["reply"]) for line in lines], [(5, "done")])

    @both
    def test_a_leased_number(self, kind):
        """Stays leased; the next lease of it has a greater incarnation, whatever the clock says."""
        with leasing(), playing(kind, welcome, ANEW, welcome_anew, reply("done"), client=None) as (server, played):
            played.ask(put)
            client = played.one.client
            with contextlib.closing(rv.Session("127.0.0.1:1")) as other:
                self.assertNotEqual(client, other.client)
            played.close()
            with mock.patch("rendezvous.leases.now", lambda: 1), contextlib.closing(rv.Session("127.0.0.1:1")) as other:
                self.assertEqual(other.client, client)
                self.assertLess(max(hellos(server)), other.incarnation)

    def test_an_incarnation_that_is_given(self):
        """Is the caller's to count: such a session doesn't renew itself."""
        for kind in (rv.Session, aio.Session):
            with self.raises(ValueError) as told:
                kind("127.0.0.1:1", 1, 1, renew=True)
            self.assertIn("incarnation", str(told.raised))
            kind("127.0.0.1:1", 1, 1, renew=False)

    def test_a_loop_over_items(self):
        """Goes on in the new epoch."""
        with Scripted(welcome, reply("item", item="a"), ANEW, welcome_anew, reply("item", item="b")) as server:
            with rv.Session(server.address, 1, renew=True, patience=PATIENCE, answer=PATIENCE / 2) as one:
                jobs = one.items(3)
                self.assertEqual([next(jobs), next(jobs)], ["a", "b"])

    def test_a_task_that_was_cancelled(self):
        """What its request came to is not known, and told by the next call; the one behind that renews the session."""
        async def asks(server):
            async with aio.Session(server.address, 1, renew=True, patience=PATIENCE, answer=PATIENCE / 2) as one:
                take = asyncio.ensure_future(one.take(3))
                while len(server.heard) < 2:
                    await asyncio.sleep(0.001)
                take.cancel()
                await asyncio.wait([take])
                with self.raises(rv.EpochEnded, current=5):
                    await one.put(3, "a")
                await one.put(3, "a")
                self.assertEqual(one.epoch, 5)
        with Scripted(welcome, SILENCE, ANEW, welcome_anew, reply("done")) as server:
            asyncio.run(asks(server))


if __name__ == "__main__":
    unittest.main()
