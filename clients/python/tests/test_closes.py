"""What a close waits for after a call that was given up: what the server answered is told by a call, or stands in the closed
session, at whichever moment the close comes."""
import asyncio
import itertools
import os
import signal
import threading
import unittest
from unittest import mock

from book import PLACE, Book, named, waits
from context import PATIENCE, Case, asked, behind, impatient, key, raised_by, rv, session, unhurried, until
from let_in import handled, on_line
from rendezvous import aio, stream
from rendezvous import session as threads
from rendezvous.driver import Job
from scripted import HANG_UP, SILENCE, Scripted, received_by, reply, running_first, welcome
from test_aio import cancelled, comes, given_to, made, raised, run

CLIENTS = itertools.count(1)
ITEM = [rv.Unclaimed(key(1), "a", queue=3)]
WAITING = (Job.wait, "while self.told is None")
# How long a close waits where nothing is to come.
SHORT = 0.05


def interrupts():
    """In the block the signal of the keyboard is an interrupt, also where this process was started without it."""
    return handled(signal.SIGINT, signal.default_int_handler)


def at_cancel(met):
    """A deed: a request waits, and its cancel is met so."""
    return lambda came: SILENCE if came["kind"] == "request" else met(came)


def waiting_for(began, deed):
    """A deed that is done once something began."""
    return running_first(lambda: until("its begin", began.is_set), deed)


# ---- asyncio: moments at which a close comes, each given a session and the server's cancel of its take

async def in_one_step(one, server, began):
    """The task is cancelled, and has not heard of that."""
    task = await taking(one, server)
    task.cancel()
    await closed(one, began)
    assert task.cancelled()


async def within_others(one, server, began):
    """The same, where the take is a task of a task of the task, and hears of it last."""
    task = asyncio.ensure_future(within(within(one.take(3))))
    await comes("a request", lambda: len(server.heard) == 2)
    task.cancel()
    await closed(one, began)
    assert task.cancelled()


async def before_its_cancel_is_sent(one, server, began):
    """The task is gone, and the connection for the cancel is not made."""
    await cancelled(one, lambda one: one.take(3), server, 2)
    await closed(one, began)


async def while_its_cancel_flies(one, server, began):
    """The server has the cancel, and answers once the close has begun."""
    await cancelled(one, lambda one: one.take(3), server, 2)
    await comes("its cancel", lambda: len(server.heard) == 3)
    await closed(one, began)


async def beside_a_call(one, server, began):
    """The next call waits, and ends unasked."""
    await cancelled(one, lambda one: one.take(3), server, 2)
    put = asyncio.ensure_future(one.put(3, "b"))
    await comes("the call", lambda: one.running)
    await closed(one, began)
    assert type(await raised(put)) is rv.NotAsked


async def beside_a_call_that_is_cancelled_too(one, server, began):
    """So is the task that asks on after it."""
    await cancelled(one, lambda one: one.take(3), server, 2)
    again = asyncio.ensure_future(one.again())
    await comes("the call", lambda: one.running)
    again.cancel()
    await closed(one, began)
    assert again.cancelled()


async def beside_the_take_itself(one, server, began):
    """Its task is not cancelled: it is told what is known, and not the item."""
    task = await taking(one, server)
    await closed(one, began)
    fault = await raised(task)
    assert (type(fault), fault.key, fault.why) == (rv.Unsettled, key(1), "the session was closed"), fault


async def by_two_tasks(one, server, began):
    """Each of them waits for the end."""
    await cancelled(one, lambda one: one.take(3), server, 2)
    first = asyncio.ensure_future(one.close())
    await asyncio.sleep(0)
    await closed(one, began)
    assert one._course.closing
    await first


async def once_it_is_known(one, server, began):
    """The outcome is there."""
    began.set()
    await cancelled(one, lambda one: one.take(3), server, 2)
    await comes("its outcome", lambda: one.last)
    await one.close()


async def within(awaited):
    """Waits in a task of its own, as `asyncio.wait_for` does: where it is cancelled, what that task raises is nobody's."""
    task = asyncio.ensure_future(awaited)
    try:
        return await asyncio.shield(task)
    except asyncio.CancelledError:
        task.cancel()
        await raised(task)
        raise


async def taking(one, server):
    """A task that takes, whose request came."""
    task = asyncio.ensure_future(one.take(3))
    await comes("a request", lambda: len(server.heard) == 2)
    return task


async def closed(one, began):
    """Closes the session; the server answers from now on."""
    began.set()
    await one.close()


MOMENTS = [in_one_step, within_others, before_its_cancel_is_sent, while_its_cancel_flies, beside_a_call,
           beside_a_call_that_is_cancelled_too, beside_the_take_itself, by_two_tasks, once_it_is_known]


class Tasks(Case):
    """In asyncio."""

    @unhurried()
    def test_each_moment(self):
        """The item stands in the closed session."""
        for moment in MOMENTS:
            with self.subTest(moment=moment.__name__):
                run(self.at(moment))

    async def at(self, moment):
        """A take whose cancel is answered by its item, after a close has begun."""
        began = threading.Event()
        with Scripted(welcome) as server:
            server.otherwise = at_cancel(waiting_for(began, reply("item", item="a")))
            one = made(server)
            await moment(one, server, began)
            self.assertEqual((one.unclaimed(), one.unsettled, one.last), (ITEM, None, rv.replies.Item(key(1), "a")))
            self.assertEqual({(kind, number) for kind, number, _ in asked(server)[2:]}, {("cancel", 1)})
            self.assertEqual((one.claim(ITEM[0]), one.unclaimed()), ("a", []))

    @unhurried()
    def test_with_the_answer(self):
        """A close that begins in the very step in which the answer comes, before and after it; the task may be cancelled."""
        for first, cancels in itertools.product((False, True), repeat=2):
            with self.subTest(first=first, cancels=cancels):
                run(self.with_the_answer(first, cancels))

    async def with_the_answer(self, first, cancels):
        """What the take gave, and what stands in the session, is the item."""
        with Scripted(welcome, reply("item", item="a")) as server:
            server.otherwise, closes, one = reply("item", item="a"), [], made(server)
            await one.connect()
            task = asyncio.ensure_future(one.take(3))
            comes_in = stream.Connection.data_received

            def comes_with_a_close(link, data):
                if first:
                    closes.append(asyncio.ensure_future(one.close()))
                comes_in(link, data)
                if cancels:
                    task.cancel()
                if not first:
                    closes.append(asyncio.ensure_future(one.close()))
            with mock.patch.object(stream.Connection, "data_received", comes_with_a_close):
                fault = await raised(task)
            await closes[0]
            gave = [] if fault else [task.result()]
            self.assertEqual((gave + [each.item for each in one.unclaimed()], one.unsettled), (["a"], None), fault)

    @unhurried()
    def test_at_each_step_of_the_event_loop(self):
        """A take is cancelled after so many steps, and the session closed after so many more: what the server gave was told, or
        stands there."""
        async def takes(book, met, steps, more):
            client = next(CLIENTS)
            book.met[client], book.at_cancel[client] = met, named("item")
            one, got = aio.Session(book.address, client, 1, connect_timeout=None), []
            await one.connect()
            task = asyncio.ensure_future(one.take(PLACE))
            await passes(steps)
            task.cancel()
            await passes(more)
            await one.close()
            got += [] if await raised(task) else [task.result()]
            return client, got + [each.item for each in one.unclaimed()], one.unsettled

        with Book() as book:
            for met, steps, more in itertools.product((waits, named("item")), STEPS, STEPS):
                self.goes_on()
                with self.subTest(steps=steps, more=more, met=met.__name__):
                    client, told, unsettled = run(takes(book, met, steps, more))
                    self.assertEqual((told, unsettled), (given_to(book, client), None))

    def test_a_request_that_was_given_up_before(self):
        """An `again` ended unsettled: the close asks once more, and its item stands there."""
        async def asks():
            with Scripted(welcome) as server:
                one = made(server)
                await cancelled(one, lambda one: one.take(3), server, 2)
                assert type(await raised(one.again(0.01))) is rv.Unsettled
                server.otherwise = reply("item", item="a")
                with unhurried():
                    await one.close()
                self.assertEqual((one.unclaimed(), one.unsettled), (ITEM, None))
        run(asks())

    @unhurried()
    def test_what_took_nothing(self):
        """`last` tells it."""
        receipt = rv.Receipt(key(1), rv.Key(1, 2, 3, 4))

        async def asks(told):
            with Scripted(welcome) as server:
                server.otherwise = at_cancel(told)
                one = made(server)
                await cancelled(one, lambda one: one.transfer(3, "b"), server, 2)
                await one.close()
                return one.last, one.unclaimed(), one.unsettled
        self.assertEqual(run(asks(received_by(2, 3, 4))), (receipt, [], None))
        self.assertEqual(run(asks(reply("cancelled"))), (rv.replies.Cancelled(key(1)), [], None))

    def test_a_silent_server(self):
        """The request stands: its key is told."""
        async def asks(moment):
            with Scripted(welcome) as server, mock.patch.object(aio, "FAREWELL", SHORT):
                one = made(server)
                await moment(one, server, threading.Event())
                return one.unsettled, one.unclaimed()
        for moment in MOMENTS[:-1]:
            with self.subTest(moment=moment.__name__):
                self.assertEqual(run(asks(moment)), (key(1), []))

    def test_a_close_that_is_cancelled(self):
        """It ends at once; what has come by then is there."""
        async def asks():
            with Scripted(welcome) as server:
                server.otherwise = at_cancel(reply("item", item="a"))
                one = made(server)
                await cancelled(one, lambda one: one.take(3), server, 2)
                comes_in = stream.Connection.data_received

                def comes_with_a_cancel(link, data):
                    comes_in(link, data)
                    close.cancel()
                with mock.patch.object(stream.Connection, "data_received", comes_with_a_cancel):
                    close = asyncio.ensure_future(one.close())
                    self.assertIs(type(await raised(close)), asyncio.CancelledError)
                self.assertEqual((one.unclaimed(), one.unsettled), (ITEM, None))
        run(asks())


STEPS = [0, 1, 2, 3, 4, 6, 10, 50, 100, 200, 400, 800]


async def passes(steps):
    """So many steps of the event loop pass."""
    for _ in range(steps):
        await asyncio.sleep(0)


# ---- threads

class Threads(Case):
    """In the session that waits on a thread."""

    def left_by_two(self, server, one, kind=TimeoutError):
        """A take that an exception of a signal's handler ends, and then, while its cancel flies, a second one."""
        def rings(*_):
            raise kind("the program's own")
        first = behind(server, 2, lambda: signal.raise_signal(signal.SIGALRM))
        with handled(signal.SIGALRM, rings), on_line(*WAITING, first):
            self.assertIs(type(raised_by(lambda: one.take(3))), kind)

    def twice_rung(self, told):
        """How a server meets a take, the first copy of its cancel, in which it sends a second signal, and others."""
        cancels = itertools.count()

        def meets(came):
            if came["kind"] == "request":
                return SILENCE
            if next(cancels) == 0:
                os.kill(os.getpid(), signal.SIGALRM)
                return SILENCE
            return told(came)
        return meets

    @unhurried()
    def test_after_a_second_exception(self):
        """The close waits for what the first one cancelled, and its item stands there."""
        for kind in (TimeoutError, SystemExit, KeyboardInterrupt):
            with Scripted(welcome) as server:
                one = session(server)
                server.otherwise = self.twice_rung(reply("item", item="a"))
                self.left_by_two(server, one, kind)
                self.assertEqual((one.unclaimed(), one.unsettled), ([], key(1)))
                one.close()
                self.assertEqual((one.unclaimed(), one.unsettled, one.last), (ITEM, None, rv.replies.Item(key(1), "a")))
                self.assertEqual((one.claim(ITEM[0]), one.unclaimed()), ("a", []))

    def test_after_a_second_that_was_over(self):
        """Nothing was heard in the second that an interrupt leaves: the close asks once more."""
        for told, wanted in ((reply("item", item="a"), (ITEM, None)), (SILENCE, ([], key(1)))):
            with Scripted(welcome) as server:
                one, press = session(server), behind(server, 2, lambda: signal.raise_signal(signal.SIGINT))
                with mock.patch.object(threads, "FAREWELL", SHORT), interrupts(), on_line(*WAITING, press):
                    self.assertIs(type(raised_by(lambda: one.take(3)).fault), rv.Unsettled)
                    server.otherwise = told
                    if told is SILENCE:
                        one.close()
                with unhurried():
                    one.close()
                self.assertEqual((one.unclaimed(), one.unsettled), wanted)

    @unhurried()
    def test_by_another_thread(self):
        """It waits for the cancel of an interrupt, whose call tells the item."""
        with Scripted(welcome) as server:
            one, closes = session(server), []
            closes.append(threading.Thread(target=one.close))

            def meets(came):
                closes[0].start()
                until("the close", lambda: one._closed)
                return reply("item", item="a")(came)
            server.deeds += [SILENCE, meets]
            press = behind(server, 2, lambda: signal.raise_signal(signal.SIGINT))
            with interrupts(), on_line(*WAITING, press), self.raises(rv.Interrupted, outcome=rv.replies.Item(key(1), "a")):
                one.take(3)
            closes[0].join()
            self.assertEqual((one.unclaimed(), one.unsettled), ([], None))

    def test_in_a_handler_once_the_answer_is_there(self):
        """What the handler claims is not the call's any more; else the call gives it."""
        for claims in (True, False):
            with Scripted(welcome, reply("item", item="a")) as server:
                one, told = session(server), []

                def closes():
                    one.close()
                    told.extend([one.claim(each) for each in one.unclaimed()] if claims else [])
                with on_line(rv.Session._told, "value, fault = ending", closes):
                    fault = raised_by(lambda: told.append(one.take(3)))
                self.assertEqual((told, type(fault), one.unclaimed()), (["a"], rv.Misused if claims else type(None), []))

    def test_a_call_of_another_thread(self):
        """It ends by what is known, and nothing is asked any more: its request was not given up."""
        with Scripted(welcome) as server:
            one, faults = session(server), []
            taker = threading.Thread(target=lambda: faults.append(raised_by(lambda: one.take(3))))
            taker.start()
            until("a request", lambda: len(server.heard) == 2)
            one.close()
            taker.join()
            self.assertEqual(([type(each) for each in faults], one.unsettled, len(server.heard)), ([rv.Unsettled], key(1), 2))

    @unhurried()
    def test_a_call_of_another_thread_whose_time_is_over(self):
        """Its cancel was sent: the close waits for what that comes to, and the call gives the item."""
        waits, awaits = threading.Event(), rv.Session._await
        with Scripted(welcome, SILENCE) as server:
            one, told = session(server), []
            closer = threading.Thread(target=one.close)

            def meets(came):
                closer.start()
                until("the close", lambda: waits.is_set() or not closer.is_alive())
                return reply("item", item="a")(came)
            server.otherwise = meets
            poller = threading.Thread(target=lambda: told.append(raised_by(lambda: told.append(one.poll(3, PATIENCE)))))
            poller.start()
            until("a request", lambda: len(server.heard) == 2)
            with mock.patch.object(rv.Session, "_await", lambda one, job: (waits.set(), awaits(one, job))):
                job = one._jobs["job"]
                job.cancel_at = 0.0
                one._driver.order(job)
                poller.join()
                closer.join()
            self.assertEqual((told, one.unclaimed(), one.unsettled), (["a", None], [], None))

    def test_a_request_that_nobody_gave_up(self):
        """A take is unsettled, since its patience ended: the close asks nothing more, and its key stands."""
        with Scripted(welcome, HANG_UP) as server:
            one = session(server)
            with impatient():
                self.assertIs(type(raised_by(lambda: one.take(3))), rv.Unsettled)
            one.close()
            self.assertEqual((one.unsettled, one.unclaimed(), len(server.heard)), (key(1), [], 2))


if __name__ == "__main__":
    unittest.main()
