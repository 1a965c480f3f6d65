"""The session of asyncio: the calls of the other one, and tasks that are cancelled at any time."""
import asyncio
import contextlib
import gc
import inspect
import itertools
import math
import threading
import time
import unittest
import warnings
from unittest import mock

import _thread
from book import PLACE, Book, named, waits
from context import (
    GENEROUS, PATIENCE, Case, asked, impatient, in_time, is_free, key, leasing, raised_by, rv, session, unhurried, until)
from rendezvous import aio, stream
from scripted import HANG_UP, SILENCE, Scripted, received_by, refused, reply, twice, waiting, welcome

CLIENTS = itertools.count(1)
# Calls, by what asks them of a session, each with a deed for each of its ends.
CALLS = [
    (lambda one: one.put(3, "a"), [reply("done"), reply("cancelled")]),
    (lambda one: one.transfer(3, "a"), [received_by(7, 8, 9), reply("cancelled"), refused(2, current=5), refused(5, last=9)]),
    (lambda one: one.try_transfer(3, "a"), [received_by(7, 8, 9), reply("nobody")]),
    (lambda one: one.try_transfer(3, "a", 60), [received_by(7, 8, 9), reply("timedout")]),
    (lambda one: one.take(3), [reply("item", item="ä"), reply("cancelled"), refused(3), refused(4, current=7), refused(1)]),
    (lambda one: one.poll(3), [reply("item", item="ä"), reply("empty")]),
    (lambda one: one.poll(3, 60), [reply("item", item="ä"), reply("timedout")]),
    (lambda one: one.drain(3, 2), [reply("drained", texts=["a", "b"]), reply("drained", texts=[])]),
    (lambda one: one.exchange(3, "a"), [reply("swapped", item="ä"), reply("cancelled")]),
    (lambda one: one.exchange(3, "a", 60), [reply("swapped", item="ä"), reply("timedout")]),
    (lambda one: one.count(3), [reply("counted", items=1, consumers=2)]),
    (lambda one: one.peek(3), [reply("peeked", item="ä"), reply("empty")]),
    (lambda one: one.again(), []),
    (lambda one: one.give_up(), []),
    (lambda one: one.put(64, "a"), []), (lambda one: one.put(3, "a" * 513), []), (lambda one: one.put(3, 7), []),
    (lambda one: one.drain(3, 17), []), (lambda one: one.poll(3, 86_401), []), (lambda one: one.items(64), []),
]


def made(server, **more):
    """A session of client 1, incarnation 1, for asyncio."""
    return aio.Session(server.address, 1, 1, **{"patience": PATIENCE, "answer": PATIENCE / 2, "connect_timeout": None, **more})


def run(deed):
    """Runs a coroutine in an event loop of its own, in which nothing may be left unsaid."""
    said = []

    async def watched():
        asyncio.get_running_loop().set_exception_handler(lambda _, context: said.append(context))
        return await asyncio.wait_for(deed, GENEROUS)
    with warnings.catch_warnings():
        warnings.simplefilter("error")
        told = asyncio.run(watched())
    assert not said, said
    return told


async def comes(what, holds):
    """Waits until something holds."""
    ends = time.monotonic() + GENEROUS
    while not holds():
        assert time.monotonic() < ends, what
        await asyncio.sleep(0.001)


async def raised(awaited):
    """What an awaited call raises; None where it ends."""
    try:
        await awaited
    except (Exception, asyncio.CancelledError) as fault:
        return fault
    return None


async def cancelled(one, call, server, count):
    """Has a task ask a call, and cancels it once so many frames came."""
    task = asyncio.ensure_future(call(one))
    await comes("a frame", lambda: len(server.heard) >= count)
    task.cancel()
    fault = await raised(task)
    assert isinstance(fault, asyncio.CancelledError), fault


async def when_asked(server, deed):
    """Does a deed once a request came."""
    await comes("a request", lambda: len(server.heard) == 2)
    deed()


def parts(end):
    """What a call gave or raised, as it can be compared."""
    value, fault = end
    return value, type(fault), fault.args if fault else None, str(fault) if fault else None


class Alike(Case):
    """It has what `Session` has, and tells the same."""

    def test_names_and_signatures(self):
        """Each public name of the other one is there, with the same arguments; what waits there is awaited here."""
        def names(of):
            return {name: value for name, value in vars(of).items() if not name.startswith("_")}
        here, there = names(aio.Session), names(rv.Session)
        self.assertEqual(set(here), set(there))
        for name, other in [*there.items(), ("__init__", rv.Session.__init__)]:
            one = vars(aio.Session)[name]
            self.assertEqual(isinstance(one, property), isinstance(other, property), name)
            if not isinstance(one, property):
                mine, its = (inspect.signature(each).parameters for each in (one, other))
                self.assertEqual(mine, its, name)
                awaited = name not in ("cancel", "items", "unclaimed", "claim", "__init__")
                self.assertEqual(inspect.iscoroutinefunction(one), awaited, name)

    def test_results_and_exceptions(self):
        """Of each call, for each of its ends: and the same is said to the server."""
        for number, (call, deeds) in enumerate(CALLS):
            for deed in deeds or [SILENCE]:
                with self.subTest(call=number, deed=deed):
                    self.assertEqual(run(self.awaited(call, deed)), self.waited_for(call, deed))

    def waited_for(self, call, deed):
        """How it ends in the other session, what that has then, and what was said."""
        with Scripted(welcome, deed) as server, session(server) as one:
            try:
                end = (call(one), None)
            except Exception as fault:
                end = (None, fault)
            return parts(end), one.last, one.epoch, server.heard

    async def awaited(self, call, deed):
        """The same in this one."""
        with Scripted(welcome, deed) as server:
            async with made(server) as one:
                try:
                    end = (await call(one), None)
                except Exception as fault:
                    end = (None, fault)
                return parts(end), one.last, one.epoch, server.heard

    def test_repeats(self):
        """A call goes on over new connections, under one key, and through answers that settle nothing."""
        for deeds in ([HANG_UP, reply("item", item="a")], [waiting, waiting, reply("item", item="a")], [twice(waiting)],
                      [b"\0\0", reply("item", item="a")], [b"\0\2{}", HANG_UP, refused(11), refused(10), reply("item", item="a")],
                      [lambda came: {**reply("item", item="b")(came), "number": 2}, reply("item", item="a")]):
            async def takes():
                with Scripted(welcome, *deeds) as server:
                    server.otherwise = reply("item", item="a")
                    async with made(server) as one:
                        self.assertEqual((await one.take(3), await one.take(3), one.last.key), ("a", "a", key(2)))
                    self.assertEqual({number for _, number, _ in asked(server)[1:]}, {1, 2})
            with self.subTest(deeds=len(deeds)):
                run(takes())

    @impatient()
    def test_a_server_that_is_away(self):
        """The address and the reason are told, in the words of the other session."""
        async def connects(address):
            return await raised(aio.Session(address, 1, 1, patience=PATIENCE, connect_timeout=None).connect())
        for address in (("127.0.0.1", 1), "no.such.host.invalid:7411", ("." * 70, 7411)):
            one = rv.Session(address, 1, 1, patience=PATIENCE, connect_timeout=None)
            fault, other = run(connects(address)), raised_by(one.connect)
            self.assertEqual((type(fault), str(fault)), (rv.NotAsked, str(other)))

    @in_time
    def test_own_times(self):
        """A timed call ends within its time and a second beside a silent server, and says what is known."""
        async def polls():
            with Scripted(welcome) as server:
                async with made(server) as one:
                    began = time.monotonic()
                    fault = await raised(one.poll(3, 0.2))
                    self.assertEqual((type(fault), fault.key), (rv.Unsettled, key(1)))
                    self.assertGreaterEqual(time.monotonic() - began, 0.2)
                    self.assertEqual(type(await raised(one.take(3))), rv.Misused)
                    server.otherwise = reply("item", item="a")
                    self.assertEqual(await one.again(), rv.replies.Item(key(1), "a"))
                    self.assertEqual((await one.take(3), one.unclaimed()), ("a", []))
        run(polls())

    def test_no_thread(self):
        """The session needs none, where an address is one."""
        own, started = threading.get_ident(), []

        async def takes():
            with Scripted(welcome, reply("item", item="a")) as server:
                with mock.patch.object(threading.Thread, "start", recorded(threading.Thread.start, started)), \
                        mock.patch.object(_thread, "start_new_thread", recorded(_thread.start_new_thread, started)):
                    async with made(server) as one:
                        await one.take(3)
        run(takes())
        self.assertNotIn(own, started)


def recorded(starts, by):
    """What starts a thread, which keeps who did so."""
    def start(*given):
        by.append(threading.get_ident())
        return starts(*given)
    return start


class Cancels(Case):
    """Tasks that are cancelled while they wait."""

    def test_it_goes_on_at_once(self):
        """Beside a server that says nothing: the session cancels the request by itself, over a new connection."""
        async def takes():
            with Scripted(welcome) as server:
                one = made(server)
                await cancelled(one, lambda one: one.take(3), server, 2)
                await comes("its cancel", lambda: asked(server)[1:] == [("request", 1, "take"), ("cancel", 1, None)])
                self.assertEqual((one.last, one.running, one.cancel()), (None, None, False))
                await one.close()
        run(takes())

    def test_the_next_call_waits_for_it(self):
        """Nothing new is asked before it is known what the request came to."""
        async def takes():
            with Scripted(welcome, SILENCE, SILENCE) as server:
                async with made(server) as one:
                    await cancelled(one, lambda one: one.take(3), server, 2)
                    put = asyncio.ensure_future(one.put(4, "b"))
                    await comes("its cancel", lambda: len(server.heard) == 3)
                    self.assertFalse(put.done())
                    server.otherwise = lambda came: reply("cancelled" if came["kind"] == "cancel" else "done")(came)
                    server.open[-1].shutdown(2)
                    await put
                    self.assertEqual(asked(server)[3:], [("cancel", 1, None), ("request", 2, "put")])
                    self.assertEqual((one.last, one.unclaimed()), (rv.replies.Done(key(2)), []))
        run(takes())

    def test_a_call_in_the_same_step(self):
        """The task that was cancelled asks on at once, as `asyncio.timeout` has it: the cancel is not late for that."""
        async def asks():
            with Scripted(welcome, SILENCE, reply("cancelled"), reply("done")) as server:
                async with made(server, patience=None, answer=100_000) as one:
                    task = asyncio.current_task()
                    asyncio.get_running_loop().create_task(when_asked(server, task.cancel))
                    with contextlib.suppress(asyncio.CancelledError):
                        await one.take(3)
                    await one.put(3, "a")
                    self.assertEqual(asked(server)[1:], [("request", 1, "take"), ("cancel", 1, None), ("request", 2, "put")])
        run(asks())

    def met(self, call, told, deed):
        """A call whose task is cancelled though it was met; then a deed with the session and the server."""
        async def asks():
            with Scripted(welcome, SILENCE, reply(*told[:1], **told[1])) as server:
                one = made(server)
                await cancelled(one, call, server, 2)
                await comes("its outcome", lambda: one.last)
                await deed(one, server)
                await one.close()
        run(asks())

    def test_the_next_take_gives_it(self):
        """So do the next poll, drain, and loop; the server is not asked. Calls of other queues leave it."""
        async def next_of(one):
            async for item in one.items(3):
                return item
        for call, gives in ((lambda one: one.take(3), "a"), (lambda one: one.poll(3), "a"), (lambda one: one.poll(3, 9), "a"),
                            (lambda one: one.drain(3, 5), ["a"]), (next_of, "a")):
            async def goes_on(one, server, call=call, gives=gives):
                wanted = [rv.Unclaimed(key(1), "a", queue=3)]
                self.assertEqual((one.unclaimed(), one.last), (wanted, rv.replies.Item(key(1), "a")))
                server.otherwise = lambda came: reply("drained", texts=[])(came)
                self.assertEqual((await one.drain(4, 5), one.unclaimed()), ([], wanted))
                heard = len(server.heard)
                self.assertEqual((await call(one), one.unclaimed(), len(server.heard)), (gives, [], heard))
            self.met(lambda one: one.take(3), ("item", {"item": "a"}), goes_on)
            self.met(lambda one: one.poll(3, 60), ("item", {"item": "a"}), goes_on)

    def test_a_drain(self):
        """Each of its items is given, oldest first, by whichever calls."""
        async def goes_on(one, _):
            self.assertEqual([(each.queue, each.item) for each in one.unclaimed()], [(3, text) for text in "abcde"])
            self.assertEqual([await one.take(3), await one.drain(3, 2), await one.poll(3)], ["a", ["b", "c"], "d"])
            self.assertEqual([each.item for each in one.unclaimed()], ["e"])
            await one.close()
            self.assertEqual(one.unclaimed(), [rv.Unclaimed(key(1), "e", queue=3)])
            self.assertEqual((one.claim(one.unclaimed()[0]), one.unclaimed()), ("e", []))
            with self.assertRaises(ValueError):
                one.claim(rv.Unclaimed(key(1), "e", queue=3))
        self.met(lambda one: one.drain(3, 9), ("drained", {"texts": list("abcde")}), goes_on)

    def test_an_exchange(self):
        """The partner's object stands there, with the exchanger and no queue: no take of that number gives it."""
        async def goes_on(one, server):
            self.assertEqual(one.unclaimed(), [rv.Unclaimed(key(1), "a", exchanger=3)])
            server.otherwise = reply("empty")
            self.assertEqual((await one.poll(3), one.claim(one.unclaimed()[0]), one.unclaimed()), (None, "a", []))
        self.met(lambda one: one.exchange(3, "b"), ("swapped", {"item": "a"}), goes_on)

    def test_what_it_came_to(self):
        """`last` and `again` tell it, as in the other session; what `again` told is no take's."""
        receipt = rv.Receipt(key(1), rv.Key(1, 2, 3, 4))
        told = dict(zip(("by_client", "by_incarnation", "by_number"), (2, 3, 4)))

        async def of_a_transfer(one, server):
            self.assertEqual((one.last, await one.again(), one.unclaimed()), (receipt, receipt, []))
            self.assertEqual(type(await raised(one.again())), rv.Misused)
        self.met(lambda one: one.transfer(3, "b"), ("received", told), of_a_transfer)

        async def of_a_take(one, server):
            server.otherwise = reply("empty")
            self.assertEqual((await one.again(), one.unclaimed(), await one.poll(3)), (rv.replies.Item(key(1), "a"), [], None))
        self.met(lambda one: one.take(3), ("item", {"item": "a"}), of_a_take)

    @in_time
    def test_it_is_asked_again_while_it_is_settled(self):
        """`again` waits for what comes; its own task may be cancelled too, and nothing is lost."""
        async def asks():
            with Scripted(welcome) as server:
                async with made(server, answer=0.2) as one:
                    await cancelled(one, lambda one: one.take(3), server, 2)
                    for call in (lambda one: one.again(), lambda one: one.give_up(), lambda one: one.poll(3)):
                        await cancelled(one, call, server, 1 + len(server.heard))
                    self.assertEqual(type(await raised(one.again(0.01))), rv.Unsettled)
                    server.otherwise = reply("item", item="a")
                    self.assertEqual((await one.again(), one.last.key), (rv.replies.Item(key(1), "a"), key(1)))
                    self.assertEqual({(kind, number) for kind, number, _ in asked(server)[2:]}, {("cancel", 1)})
        run(asks())

    def test_a_short_time_to_ask_again(self):
        """It is kept where the session would wait for its answer for long."""
        async def asks():
            with Scripted(welcome) as server:
                async with made(server, patience=None, answer=100_000) as one:
                    await cancelled(one, lambda one: one.take(3), server, 2)
                    await comes("its cancel", lambda: len(server.heard) == 3)
                    self.assertEqual(type(await raised(one.again(0.01))), rv.Unsettled)
                    self.assertEqual(type(await raised(one.take(3))), rv.Misused)
                    self.assertEqual(type(await raised(one.give_up(0.01))), rv.Unsettled)
        run(asks())

    def test_before_anything_was_said(self):
        """A task that is cancelled in its hello asked nothing, and the next one asks under the first number."""
        async def asks():
            with Scripted(SILENCE) as server:
                one = made(server)
                await cancelled(one, lambda one: one.take(3), server, 1)
                server.otherwise = lambda came: welcome(came) if came["kind"] == "hello" else reply("item", item="a")(came)
                self.assertEqual((await one.take(3), one.last.key), ("a", key(1)))
                self.assertEqual(asked(server)[1:], [("hello", None, None), ("request", 1, "take")])
                await one.close()
        run(asks())

    def test_an_answer_that_is_here(self):
        """What came just before the cancel is taken in, and the connection is not thrown away."""
        async def asks():
            with Scripted(welcome, reply("item", item="a")) as server:
                async with made(server) as one:
                    task = asyncio.ensure_future(one.take(3))
                    comes_in = stream.Connection.data_received

                    def cancelled_behind(link, data):
                        comes_in(link, data)
                        task.cancel()
                    with mock.patch.object(stream.Connection, "data_received", cancelled_behind):
                        self.assertIs(type(await raised(task)), asyncio.CancelledError)
                    self.assertEqual((one.unclaimed(), server.connections), ([rv.Unclaimed(key(1), "a", queue=3)], 1))
        run(asks())

    def test_at_each_step_of_the_event_loop(self):
        """A take is cancelled behind so many steps: what the server gave is the task's, or the next take's, and no other."""
        async def takes(book, steps):
            client = next(CLIENTS)
            book.met[client] = named("item")
            got = []
            async with aio.Session(book.address, client, 1, connect_timeout=None) as one:
                task = asyncio.ensure_future(one.take(PLACE))
                for _ in itertools.takewhile(lambda step: step < steps and not task.done(), itertools.count()):
                    await asyncio.sleep(0)
                over = not task.cancel()
                fault = await raised(task)
                got += [] if fault else [task.result()]
                got += [await one.take(PLACE), await one.take(PLACE)]
                left = [each.item for each in one.unclaimed()]
            given = [each["item"] for _, each in sorted(book.accounts[client].replies.items()) if "item" in each]
            self.assertEqual((got, left), (given, []))
            return over
        async def all_steps(book):
            return [await takes(book, steps) for steps in [*range(60), *range(60, 3_000, 60), math.inf]]
        with Book() as book:
            overs = run(all_steps(book))
        self.assertFalse(overs[0])
        self.assertTrue(overs[-1])


class Once(Case):
    """However calls are mixed after a task that was cancelled, each item is told once: by a call, an outcome, or at the end by
    `unclaimed`."""

    @unhurried()
    def test_calls_after_a_take(self):
        """Each order of two or three of them, after a take that was met at its cancel; at once, or once that is known."""
        self.each_order(lambda one: one.take(PLACE), named("item"), False, itertools.product(FEW, repeat=3))
        self.each_order(lambda one: one.take(PLACE), named("item"), True, itertools.product(MIXED, repeat=2))

    @unhurried()
    def test_calls_after_a_drain(self):
        """The same, where some of its items were given and some not."""
        def met(came):
            return {"reply": "drained", "texts": [f"{came['client']} {text}" for text in "abab"]}
        self.each_order(lambda one: one.drain(PLACE, 9), met, True, itertools.product(FEW, repeat=3))
        self.each_order(lambda one: one.drain(PLACE, 9), met, False, itertools.product(MIXED, repeat=2))

    @unhurried()
    def test_calls_after_an_exchange(self):
        """Its object is no take's, and is told once as well."""
        self.each_order(lambda one: one.exchange(PLACE, "b"), named("swapped"), True, itertools.product(MIXED, repeat=2))

    def each_order(self, call, met, is_known, orders):
        """Tries these orders of calls after a call that is met by its cancel."""
        with Book() as book:
            for names in orders:
                self.goes_on()
                with self.subTest(calls=names, is_known=is_known):
                    run(self.told_once(book, call, met, is_known, names))

    async def told_once(self, book, call, met, is_known, names):
        """One order of calls: what they told, and what stands at the end, is what the server gave."""
        client, told = next(CLIENTS), []
        book.met[client] = lambda came: met_at_once(came) if came["number"] > 1 else None
        book.at_cancel[client] = lambda came: met(came) if came["number"] == 1 else {"reply": "cancelled"}
        one = aio.Session(book.address, client, 1, connect_timeout=None)
        task = asyncio.ensure_future(call(one))
        await comes("its request", lambda: book.accounts[client].waits)
        task.cancel()
        await raised(task)
        await comes("its outcome", lambda: one.last or not is_known)
        for name in names:
            told += await MIXED[name](one)
            left = [each.item for each in one.unclaimed()]
            self.assertLessEqual(len(told + left), len(given_to(book, client)), f"{told} and {left}")
        await one.close()
        left = [each.item for each in one.unclaimed()]
        self.assertEqual(sorted(told + left), sorted(given_to(book, client)), f"{told} and {left}")


def met_at_once(came):
    """How calls are met that come after the first: a take that waits by an item, and others by none."""
    if came["call"] == "drain":
        return {"reply": "drained", "texts": []}
    return named("item")(came) if came["wait"] == "forever" else {"reply": "empty"}


def given_to(book, client):
    """All items that a server gave to a client."""
    replies = book.accounts[client].replies.values()
    return [text for each in replies for text in each.get("texts", [each["item"]] if "item" in each else [])]


async def claims(one):
    """Takes the oldest unclaimed item out."""
    left = one.unclaimed()
    return [one.claim(left[0])] if left else []


async def gives(call):
    """The items that a call gives; none where there is nothing to ask."""
    try:
        came = await call
    except (rv.Misused, StopAsyncIteration):
        return []
    if isinstance(came, rv.replies.Outcome):
        came = getattr(came, "items", getattr(came, "item", None))
    return [] if came is None else [came] if isinstance(came, str) else list(came)


# What is mixed in after a cancelled task: each gives the items that it told. A few of them, for longer orders.
MIXED = {
    "claim": claims, "poll": lambda one: gives(one.poll(PLACE)), "take": lambda one: gives(one.take(PLACE)),
    "loop": lambda one: gives(one.items(PLACE).__anext__()), "drain": lambda one: gives(one.drain(PLACE, 1)),
    "again": lambda one: gives(one.again()), "give_up": lambda one: gives(one.give_up()), "close": lambda one: gives(one.close()),
}
FEW = ["claim", "poll", "loop", "drain", "again", "close"]


class Limits(Case):
    """How long what was left is waited for."""

    @in_time
    def test_a_call_with_a_time(self):
        """It ends within that and a second, was not asked, and says why; the session goes on with what was left."""
        async def asks():
            with Scripted(welcome) as server:
                async with made(server, answer=0.3) as one:
                    await cancelled(one, lambda one: one.take(3), server, 2)
                    fault = await raised(one.poll(4, 0.05))
                    self.assertEqual((type(fault), fault.key), (rv.NotAsked, None))
                    self.assertIn("the request before it, 1/1/1/1, is unsettled", str(fault))
                    server.otherwise = reply("item", item="a")
                    await comes("its outcome", lambda: one.last)
                    self.assertEqual((await one.take(3), {number for _, number, _ in asked(server)[1:]}), ("a", {1}))
        run(asks())

    @in_time
    def test_a_patience_that_ends(self):
        """What was left is unsettled then; the next call goes on with it, as long as it may wait itself."""
        async def asks():
            with Scripted(welcome) as server:
                async with made(server, patience=0.2, answer=0.1) as one:
                    await cancelled(one, lambda one: one.take(3), server, 2)
                    await comes("its end", lambda: one._left.over)
                    self.assertEqual(type(await raised(one.take(3))), rv.NotAsked)
                    one.patience, server.otherwise = PATIENCE, reply("item", item="a")
                    self.assertEqual((await one.take(3), one.last.key), ("a", key(1)))
        run(asks())

    def test_a_cancel_of_a_call_that_waits_for_it(self):
        """By `cancel` and by its task: it was not asked."""
        async def asks():
            with Scripted(welcome) as server:
                one = made(server)
                await cancelled(one, lambda one: one.take(3), server, 2)
                put = asyncio.ensure_future(one.put(3, "b"))
                await comes("the call", lambda: one.running)
                self.assertTrue(one.cancel())
                fault = await raised(put)
                self.assertEqual((type(fault), fault.key), (rv.Cancelled, None))
                await cancelled(one, lambda one: one.put(3, "b"), server, 2)
                server.otherwise = reply("cancelled")
                await one.close()
                self.assertIn(one.last, (None, rv.replies.Cancelled(key(1))))
                self.assertEqual({call for _, _, call in asked(server)}, {None, "take"})
        run(asks())

    def test_a_session_that_ended_meanwhile(self):
        """The next call is told so, by the key of the request that was left, and the one behind it that there is no session."""
        for answer, kind in ((refused(2, current=5), rv.EpochEnded), (refused(4, current=5), rv.Replaced),
                             (refused(5, last=7), rv.Refused)):
            async def asks():
                with Scripted(welcome, SILENCE, answer) as server:
                    async with made(server) as one:
                        await cancelled(one, lambda one: one.take(3), server, 2)
                        fault = await raised(one.put(3, "b"))
                        self.assertEqual((type(fault), fault.key), (kind, key(1)))
                        self.assertEqual(type(await raised(one.put(3, "b"))), rv.Misused)
                        self.assertEqual(len(server.heard), 3)
            run(asks())


class Tasks(Case):
    """More tasks than one, and what ends a session."""

    def test_a_second_task(self):
        """It is misuse at once; the take that waits goes on, and can be cancelled."""
        async def asks():
            with Scripted(welcome) as server:
                async with made(server) as one:
                    take = asyncio.ensure_future(one.take(3))
                    await comes("a request", lambda: len(server.heard) == 2)
                    for call in (one.put(3, "a"), one.again(), one.connect()):
                        self.assertEqual(type(await raised(call)), rv.Misused)
                    server.otherwise, running = reply("cancelled"), one.running
                    self.assertTrue(one.cancel())
                    fault = await raised(take)
                    self.assertEqual((type(fault), fault.key, running.cancel()), (rv.Cancelled, key(1), False))
        run(asks())

    def test_a_close_beside_a_take(self):
        """The take ends by what is known."""
        async def asks():
            with Scripted(welcome) as server:
                one = made(server)
                take = asyncio.ensure_future(one.take(3))
                await comes("a request", lambda: len(server.heard) == 2)
                await one.close()
                fault = await raised(take)
                self.assertEqual((type(fault), fault.why), (rv.Unsettled, "the session was closed"))
                for call in (one.take(3), one.connect(), one.again()):
                    self.assertEqual(type(await raised(call)), rv.Misused)
                await one.close()
        run(asks())

    def test_a_close_beside_a_call_that_waits_for_another(self):
        """It was not asked."""
        async def asks():
            with Scripted(welcome) as server:
                one = made(server)
                await cancelled(one, lambda one: one.take(3), server, 2)
                put = asyncio.ensure_future(one.put(3, "a"))
                await comes("the call", lambda: one.running)
                await one.close()
                self.assertEqual(type(await raised(put)), rv.NotAsked)
        run(asks())

    @unhurried()
    def test_a_block_that_is_left_by_a_timeout(self):
        """As `asyncio.timeout` does: it cancels the task. What the request came to is waited for at the end of the
        block, and its item stands behind it."""
        async def asks():
            with Scripted(welcome) as server:
                server.otherwise = lambda came: SILENCE if came["kind"] == "request" else reply("item", item="a")(came)
                task = asyncio.current_task()
                with contextlib.suppress(asyncio.CancelledError):
                    async with made(server) as one:
                        asyncio.get_running_loop().create_task(when_asked(server, task.cancel))
                        await one.take(3)
                self.assertEqual(one.unclaimed(), [rv.Unclaimed(key(1), "a", queue=3)])
        run(asks())

    def test_a_close_beside_a_silent_server(self):
        """It ends soon, also where its own task is cancelled, and the connection and the number are gone."""
        async def asks(cancels):
            with leasing() as clients, Scripted(welcome) as server:
                one = aio.Session(server.address, patience=None, answer=100_000, connect_timeout=None)
                await cancelled(one, lambda one: one.take(3), server, 2)
                await comes("its cancel", lambda: len(server.heard) == 3)
                close = asyncio.ensure_future(one.close())
                await asyncio.sleep(0.01)
                if cancels:
                    close.cancel()
                self.assertEqual(type(await raised(close)), asyncio.CancelledError if cancels else type(None))
                self.assertEqual((one.client, is_free(one.client)), (clients[0], True))
                await comes("their ends", lambda: all(each.fileno() < 0 for each in server.open))
        run(asks(False))
        run(asks(True))

    def test_a_block_that_can_not_begin(self):
        """Its number is given back, whatever ends its hello."""
        async def begins():
            with leasing() as clients, Scripted(refused(9)) as server:
                with self.raises(rv.Refused, number=9):
                    async with aio.Session(server.address, connect_timeout=None):
                        pass
                self.assertTrue(is_free(clients[0]))

                async def enters():
                    async with aio.Session(server.address, connect_timeout=None):
                        pass
                with contextlib.suppress(asyncio.TimeoutError):
                    await asyncio.wait_for(enters(), 0.01)
                self.assertTrue(is_free(clients[0]))
        run(begins())

    def test_an_event_loop_that_ends(self):
        """What is left open says nothing, and ends with it; in another loop the session is misuse."""
        async def asks(server):
            one = made(server)
            await one.connect()
            await cancelled(one, lambda one: one.take(3), server, 2)
            return one

        async def takes(one):
            return await raised(one.take(3))
        with Scripted(welcome) as server, warnings.catch_warnings():
            warnings.simplefilter("ignore")
            one = asyncio.run(asks(server))
            self.assertEqual(type(asyncio.run(takes(one))), rv.Misused)

    def test_a_session_that_is_dropped(self):
        """Its number is free, and its connection is gone."""
        async def drops():
            with leasing() as clients, Scripted(welcome) as server:
                one = aio.Session(server.address, connect_timeout=None)
                await one.connect()
                self.assertFalse(is_free(clients[0]))
                del one
                gc.collect()
                self.assertTrue(is_free(clients[0]))
                await comes("its end", lambda: server.open[0].fileno() < 0)
        run(drops())

    def test_many_sessions(self):
        """Tasks with a session each, in one loop: each has a number of its own."""
        async def swaps(address):
            async with aio.Session(address, connect_timeout=None) as one:
                await one.put(3, "a")
                await asyncio.sleep(0.01)
                return one.client

        async def together():
            with leasing(), Scripted() as server:
                server.otherwise = lambda came: welcome(came) if came["kind"] == "hello" else reply("done")(came)
                return await asyncio.gather(*(swaps(server.address) for _ in range(20)))
        self.assertEqual(len(set(run(together()))), 20)


class Loops(Case):
    """`async for` over items."""

    def test_it_ends_by_a_cancel(self):
        """Of its take, which waits; also where an item was met before, which is given."""
        for told, items in ((reply("cancelled"), ["a"]), (reply("item", item="b"), ["a", "b"])):
            async def loops():
                with Scripted(welcome, reply("item", item="a"), SILENCE, told) as server:
                    async with made(server) as one:
                        asyncio.get_running_loop().create_task(self.when_heard(server, 3, one.cancel))
                        self.assertEqual([item async for item in one.items(3)], items)
                        self.assertEqual((one.cancel(), len(server.heard)), (False, 4))
            run(loops())

    async def when_heard(self, server, count, deed):
        """Does a deed once so many frames came."""
        await comes("a frame", lambda: len(server.heard) == count)
        deed()

    def test_a_cancel_between_two_takes(self):
        """Nothing more is asked."""
        async def loops():
            with Scripted(welcome, reply("item", item="a")) as server:
                async with made(server) as one:
                    told = []
                    async for item in one.items(3):
                        told += [item, one.cancel(), one.cancel()]
                    self.assertEqual((told, len(server.heard)), (["a", True, False], 2))
        run(loops())

    def test_a_stop(self):
        """It ends the loop's take that waits; while the body has a call of its own, the loop ends behind that."""
        async def loops():
            with Scripted(welcome, SILENCE, reply("cancelled"), reply("item", item="a")) as server:
                async with made(server) as one:
                    jobs = one.items(3)
                    asyncio.get_running_loop().create_task(self.when_heard(server, 2, jobs.stop))
                    self.assertEqual(([job async for job in jobs], jobs.stop()), ([], False))
                    jobs, told = one.items(3), []
                    async for job in jobs:
                        put = asyncio.ensure_future(one.put(4, job))
                        await comes("the put", lambda: len(server.heard) == 5)
                        told += [jobs.stop(), put.done()]
                        server.otherwise = reply("done")
                        server.open[-1].shutdown(2)
                        await put
                    self.assertEqual((told, [call for _, _, call in asked(server)][-2:]), ([True, False], ["put", "put"]))
        run(loops())

    def test_a_task_that_is_cancelled(self):
        """The next loop begins by what had come."""
        async def loops():
            with Scripted(welcome, SILENCE, reply("item", item="a"), reply("item", item="b")) as server:
                async with made(server) as one:
                    got = []

                    async def collects(one):
                        async for item in one.items(3):
                            got.append(item)
                    await cancelled(one, collects, server, 2)
                    await cancelled(one, collects, server, 5)
                    self.assertEqual(got, ["a", "b"])
                    server.otherwise = reply("cancelled")
        run(loops())


class BesideAProducer(Case):
    """Takes whose tasks are cancelled at any time, beside a thread that hands items over."""

    @unhurried()
    def test_nothing_is_lost_or_doubled(self):
        """`asyncio.wait_for` of a take, again and again, with times about as long as a take takes."""
        client, times, given = next(CLIENTS), 400, []
        with Book() as book:
            book.met[client], book.at_cancel[client] = waits, lambda came: named("item")(came) if came["number"] % 3 else None
            waited = itertools.cycle([waits, named("item"), named("item")])
            book.met[client] = lambda came: next(waited)(came)
            book.at_cancel[client] = lambda came: named("item" if came["number"] % 2 else "cancelled")(came)

            async def takes():
                got = []
                async with aio.Session(book.address, client, 1, connect_timeout=None) as one:
                    for number in range(times):
                        with contextlib.suppress(asyncio.TimeoutError):
                            got.append(await asyncio.wait_for(one.take(PLACE), (number % 7) / 3_000))
                return got, [each.item for each in one.unclaimed()]
            got, left = run(takes())
        given = [each["item"] for _, each in sorted(book.accounts[client].replies.items()) if "item" in each]
        self.assertEqual(got + left, given)
        self.assertGreater(len(got), 0)
        self.assertLess(len(got), times)


if __name__ == "__main__":
    unittest.main()
