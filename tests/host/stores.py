"""A host that keeps a store is killed, and started anew: it goes on in its epoch, as if it had only been slow. Clients repeat what
they don't know the outcome of, requests wait over the starts, and the wall clock jumps between them."""
from __future__ import annotations

import collections
import contextlib
import functools
import random
import stat
import threading
import time
import unittest
from collections.abc import Callable

from tests.cases import Case, SideBySide
from tests.faults.crowds import Stubborn
from tests.faults.system import InSystems, System
from tests.host.stored import KilledHost, StoreCase, StoreHost
from tests.model.account import Account, Key, Tick
from tests.model.account import reply as reply_in
from tests.sockets.crowds import take_the_rest
from tests.sockets.driver import drive
from tests.sockets.hosts import Start
from tests.sockets.ledger import Asked, Ledger, Told
from tests.sockets.wire import Members, cancel, demand, frame, give, hello, refused, replied, request, swap, take, welcome

EPOCH = 7
ANY = ("--epoch", str(EPOCH))
# How many requests are asked, and once in how many the host is killed before one.
REQUESTS, KILLED = 50, 8
CLIENTS = (1, 2, 3)
# The clients of a crowd, how many crowds the gate tries, and how often each one's host is killed at most: behind fewer further
# replies than these, or behind so many seconds, where all wait.
CROWD, CROWDS, KILLS, REPLIES, LONGEST = 6, 2, 20, 9, 0.4
# How much later at most, in seconds.
LATER = 0.01
# What a wall clock jumps by, in seconds, and a wait in between, in milliseconds.
HOUR, DAY, MINUTES = 3_600, 86_400, 600_000
# A wait that ends while a test looks on, in milliseconds.
SHORT = 200


class Talk:
    """Clients that ask one after another, each time over a new connection and with no hello but the first; what they asked, and what
    they were told, which is known before."""

    def __init__(self, host: StoreHost):
        self.host = host
        self.asked: Asked = {}
        self.told: Told = []
        self.items: collections.deque[str] = collections.deque()
        self.last: dict[int, tuple[Key, Members]] = {}
        for client in CLIENTS:
            host.greeted(client).close()

    def ask(self, client: int, word: str) -> None:
        """A client's next request."""
        number = self.last[client][0].number + 1 if client in self.last else 1
        key = Key(self.host.epoch, client, 1, number)
        calls = {"put": give("put", f"{client}#{number}"), "take": take("now"), "count": {"call": "count", "queue": 3}}
        call = calls[word]
        self.asked[key] = call
        reply = self.reply_to(call)
        with self.host.connect() as peer:
            peer.expect(request(key, call), replied(key, **reply))
        self.told.append((key, reply))
        self.last[client] = key, reply

    def reply_to(self, call: Members) -> Members:
        """The reply to a request that comes now."""
        if call["call"] == "put":
            self.items.append(call["item"])
            return {"reply": "done"}
        if call["call"] == "take":
            return {"reply": "item", "item": self.items.popleft()} if self.items else {"reply": "empty"}
        return {"reply": "counted", "items": len(self.items), "consumers": 0}

    def repeat(self) -> None:
        """The last request of each client comes again, and the one before, which is too old."""
        for key, reply in self.last.values():
            with self.host.connect() as peer:
                peer.expect(request(key, self.asked[key]), replied(key, **reply))
                if key.number > 1:
                    old = Key(key.epoch, key.client, key.incarnation, key.number - 1)
                    peer.expect(request(old, self.asked[old]), refused(5, last=key.number))


class GoesOn(StoreCase):
    """What was before a kill is there after the next start."""

    is_random = True

    def test_a_kill_between_requests(self) -> None:
        """The epoch is the same, each last request has its reply again, items are there in order, and no hello is needed."""
        chance = random.Random(f"kills {self.seed}")
        with self.host(*ANY) as host:
            demand(host.start == Start(EPOCH, None), f"at first it starts with {host.start}")
            demand(stat.S_IMODE(self.store.stat().st_mode) == 0o700, "others may look into the store")
            talk, kills = Talk(host), 0
            for _ in range(self.fixture.many(REQUESTS)):
                if chance.randrange(KILLED) == 0:
                    entries, kills = host.written().count(b"\n") - 1, kills + 1
                    host.start_again()
                    demand(host.start == Start(EPOCH, entries), f"after {entries} entries it starts with {host.start}")
                    talk.repeat()
                talk.ask(chance.choice(CLIENTS), chance.choice(["put", "put", "take", "count"]))
            host.start_again()
            with host.connect() as peer:
                # a hello that is a repeat is welcome, and one of another version is not
                peer.expect(hello(1), welcome(1, EPOCH))
                peer.expect(hello(1, version=2), refused(12, current=1))
            while talk.items:
                talk.ask(1, "take")
            host.judged(talk.asked, talk.told)
        self.told = f"{kills} kills"

    def test_smaller_limits(self) -> None:
        """With fewer clients and open places than there are it starts, serves what is there, and takes in nothing more."""
        asked: Asked = {}
        told: Told = []

        def tell(key: Key, reply: Members) -> bytes:
            told.append((key, reply))
            return replied(key, **reply)

        with self.host(*ANY) as host:
            for client in CLIENTS:
                with host.greeted(client) as peer:
                    key = Key(EPOCH, client, 1, 1)
                    asked[key] = give("put", f"item {client}")
                    peer.expect(request(key, asked[key]), tell(key, {"reply": "done"}))
        with self.host("--clients", "2", "--open", "2") as host, host.connect() as peer:
            for client in CLIENTS:
                key = Key(EPOCH, client, 1, 1)
                peer.expect(hello(client), welcome(client, EPOCH))
                peer.expect(request(key, asked[key]), replied(key, reply="done"))
            peer.expect(hello(4), refused(9))
            more = Key(EPOCH, 1, 1, 2)
            asked[more] = give("put", "one more")
            for number, client in enumerate((2, 3), 1):
                peer.expect(request(more, asked[more]), refused(10))
                key = Key(EPOCH, client, 1, 2)
                asked[key] = take("now")
                peer.expect(request(key, asked[key]), tell(key, {"reply": "item", "item": f"item {number}"}))
            peer.expect(request(more, asked[more]), tell(more, {"reply": "done"}))
            host.judged(asked, told)


class Waits(StoreCase):
    """Requests that wait while the host is down."""

    def test_they_go_on(self) -> None:
        """After the start a take is handed what is put, a transfer and a swap are met, and a cancel ends a wait."""
        keys = [Key(EPOCH, client, 1, 1) for client in range(1, 8)]
        wish, offer, half, ended, gift, want, other = keys
        asked: Asked = {wish: take("forever"), offer: give("transfer", "b", "forever", 4), half: swap("c", "forever"),
                        ended: take("forever", 6), gift: give("put", "a"), want: take("now", 4), other: swap("d", 0)}
        told: Told = []
        with self.host(*ANY) as host, contextlib.ExitStack() as before:
            for key in (wish, offer, half, ended):
                peer = before.enter_context(host.greeted(key.client))
                peer.send(frame(request(key, asked[key])))
            host.stands(4)
            host.start_again()
            with host.connect() as taker, host.connect() as peer:
                # one of them asks again before it is met, the others after that
                taker.send(frame(request(wish, asked[wish])))
                for key, word, more in ((gift, "done", None), (want, "item", "b"), (other, "swapped", "c")):
                    reply: Members = {"reply": word, **({"item": more} if more else {})}
                    peer.expect(hello(key.client), welcome(key.client, EPOCH))
                    peer.expect(request(key, asked[key]), replied(key, **reply))
                    told.append((key, reply))
                told.append((wish, {"reply": "item", "item": "a"}))
                demand(taker.hear() == replied(wish, reply="item", item="a"), "a take that waited is told something else")
                for key, reply in ((offer, {"reply": "received"}), (half, {"reply": "swapped", "item": "d"})):
                    peer.expect(request(key, asked[key]), replied(key, **reply))
                    told.append((key, reply))
                peer.expect(cancel(ended), replied(ended, reply="cancelled"))
                told.append((ended, {"reply": "cancelled"}))
            host.judged(asked, told)

    def test_one_that_ends_after_the_start(self) -> None:
        """It ends by itself, and no sooner than it asked for."""
        key, call = Key(EPOCH, 1, 1, 1), take(SHORT)
        with self.host(*ANY) as host, host.greeted(1) as peer:
            peer.send(frame(request(key, call)))
            host.stands(1)
            host.start_again()
            with host.connect() as again:
                again.expect(request(key, call), replied(key, reply="timedout"))
            account = host.judged({key: call}, [(key, {"reply": "timedout"})])
        came, tick = (moment_of(account, place) for place in (1, 2))
        demand(tick >= came + SHORT, f"a wait of {SHORT} milliseconds from {came} on ended at {tick}")

    def test_those_that_ended_while_it_was_down(self) -> None:
        """The first event after the start times them out: what is put then is another's. One that isn't over waits on."""
        system = System()
        keys = [Key(EPOCH, client, 1, 1) for client in range(1, 6)]
        over, offer, waits, gift, want = keys
        asked: Asked = {over: take(MINUTES), offer: give("transfer", "b", MINUTES, 4), waits: take(1_000 * DAY, 5),
                        gift: give("put", "a"), want: take("now")}
        told: Told = []
        with self.host(*ANY, env=system.env) as host:
            with contextlib.ExitStack() as before:
                peers = [before.enter_context(host.greeted(key.client)) for key in keys]
                for peer, key in zip(peers, (over, offer, waits)):
                    peer.send(frame(request(key, asked[key])))
                host.stands(3)
            host.start_again(lambda: system.be(wall=HOUR))
            after = host.start.entries or 0
            with host.connect() as peer:
                for key, reply in ((gift, {"reply": "done"}), (over, {"reply": "timedout"}), (offer, {"reply": "timedout"}),
                                   (want, {"reply": "item", "item": "a"})):
                    peer.expect(request(key, asked[key]), replied(key, **reply))
                    told.append((key, reply))
                peer.expect(cancel(waits), replied(waits, reply="cancelled"))
                told.append((waits, {"reply": "cancelled"}))
            account = host.judged(asked, told)
        demand(account.entries[after].act == Tick(), f"the first entry after the start is {account.entries[after]}")


def moment_of(account: Account, place: int) -> int:
    """The moment of an entry."""
    return int(account.entries[place].moment)


class Clocks(StoreCase):
    """The wall clock of a start shows another time than that of the one before."""

    def test_a_clock_that_jumps(self) -> None:
        """It goes back an hour, ahead a day, and back: moments never fall, a wait is over when the clock is past its end, and waits
        of a start are as long as they are to be."""
        system, wish = System(), Key(EPOCH, 1, 1, 1)
        asked: Asked = {wish: take(2 * MINUTES, 5)}
        told: Told = []
        firsts = []
        with self.host(*ANY, env=system.env) as host:
            with host.greeted(1) as peer, host.greeted(2) as other:
                peer.send(frame(request(wish, asked[wish])))
                host.stands(1)
                other.expect(hello(2), welcome(2, EPOCH))
            for number, wall in enumerate((-HOUR, DAY, 0), 1):
                host.start_again(functools.partial(system.be, wall=wall))
                firsts.append(host.start.entries or 0)
                key = Key(EPOCH, 2, 1, number)
                asked[key] = take(SHORT)
                with host.connect() as peer:
                    began = time.monotonic()
                    peer.expect(request(key, asked[key]), replied(key, reply="timedout"))
                    took = 1_000 * (time.monotonic() - began)
                    demand(took > SHORT - 2, f"a wait of {SHORT} milliseconds took {took:.0f} when the clock went {wall}")
                told.append((key, {"reply": "timedout"}))
            with host.connect() as peer:
                peer.expect(request(wish, asked[wish]), replied(wish, reply="timedout"))
            account = host.judged(asked, told)
        self.judge_moments(account, firsts, wish)

    def judge_moments(self, account: Account, firsts: list[int], wish: Key) -> None:
        """The moments of an account whose host was started anew at these places, and the end of a wait in it."""
        back, ahead, last = firsts
        moments = [entry.moment for entry in account.entries]
        self.check_equal("moments never fall", moments, sorted(moments))
        self.check("it goes on from the last moment", moments[back] - moments[back - 1] < 1_000 * HOUR / 2, moments)
        self.check("it is a day ahead", moments[ahead] - moments[ahead - 1] > 1_000 * (DAY - HOUR), moments)
        self.check("it goes on from there", moments[last] - moments[last - 1] < 1_000 * HOUR / 2, moments)
        self.check_equal("the wait goes on", reply_in(account.entries[:ahead], wish), None)
        self.check_equal("it is over at once", reply_in(account.entries[:ahead + 1], wish), {"reply": "timedout"})


class Crowds(StoreCase):
    """Clients that repeat what they don't know the outcome of, while the host is killed again and again."""

    is_random = True

    def test_many_kills(self) -> None:
        """Each has its reply to each request, nothing is lost or told to two, and all that was told stands in the account."""
        kills = 0
        for number in range(self.fixture.many(CROWDS)):
            chance, ledger = random.Random(f"crowd {self.seed} {number}"), Ledger()
            with KilledHost(self.program, self.folder / f"store-{number}", options=ANY) as host:
                kills += under_kills(host, ledger, chance)
        self.told = f"{kills} kills"


def under_kills(host: KilledHost, ledger: Ledger, chance: random.Random, between: Callable[[bool], object] = bool) -> int:
    """A crowd at a host that is killed at random moments, and what must hold behind it; how often it was killed. What is `between`
    is done before each next start, and told whether that is the last one."""
    kills = 0

    def start_again(is_last: bool) -> None:
        nonlocal kills
        kills += 1
        host.start_again(functools.partial(between, is_last))

    def kill(done: threading.Event) -> None:
        while kills < KILLS and not (kills and done.is_set()):
            wanted, ends = len(ledger.told) + chance.randrange(REPLIES), time.monotonic() + LONGEST
            while len(ledger.told) < wanted and time.monotonic() < ends and host.runs():
                time.sleep(LATER / 10)
            time.sleep(chance.uniform(0, LATER))
            start_again(kills + 1 == KILLS)

    clients = [Stubborn(host, ledger, number, random.Random(chance.random())) for number in range(1, CROWD + 1)]
    drive(host, ledger, [client.run for client in clients], beside=[kill], calm=functools.partial(start_again, True),
          rest=lambda: take_the_rest(host, ledger, CROWD + 1), end=host.use_up)
    return kills


def load_tests(loader: unittest.TestLoader, _: unittest.TestSuite, __: str | None) -> unittest.TestSuite:
    """The cases, some at a time, within systems."""
    classes: list[type[Case]] = [GoesOn, Waits, Clocks, Crowds]
    cases = [case for one in classes for case in loader.loadTestsFromTestCase(one)]
    return InSystems([SideBySide(cases)])
