"""A host whose steady clock the test sets: each wait, and what else is to be by time, ends at its moment, to the millisecond.
Nothing is waited for, so that no machine is too slow for it."""
from __future__ import annotations

import contextlib
import json
import os
import re
import select
import signal
from typing import Any

from tests.faults.system import HostileHost, System
from tests.host.hostile import KEPT, ask_and_never_read
from tests.host.many import closing, connected
from tests.host.status import buckets, read_numbers
from tests.model.account import Key
from tests.sockets.programs import free_port
from tests.sockets.wire import BAD_TEXT, Peer, demand, frame, give, hello, replied, request, swap, take, until, waits, welcome

# What the clock shows at the start, in milliseconds, and how far it goes between two looks of a host at its connections.
START, LOOK_OVER = 1_000_000, 1_000
# The moment at which requests come: after a look.
ASKED = LOOK_OVER
# Milliseconds until a request is told that it waits, accepting is tried again, a sample is taken, and a page is served on.
TOLD, AGAIN, SAMPLE, VISIT = 10_000, 100, 10_000, 20
# So many stand in line at the status address, who have so many milliseconds to say what they ask for; so many are visited in a turn.
LINE, TO_ASK, VISITED = 32, 1_000, 8
# So many come who say nothing there, of whom so many are accepted at a look.
SILENT, COME = 900, 256
# The seconds after which a host that is told so ends who stalls, and who is idle.
STALL, IDLE = 4, 6
# The first bytes of a frame that isn't whole yet.
PART = 5
# So many send the rest of a frame at once, of which a turn takes so many, and the clock goes on by so many milliseconds with each turn.
SHARERS, SHARES, PACE = 150, 4, 200
TEXT = frame(b"x" * 3_000)
# So often a page may be looked for, and so many times more than it is to.
LOOKS = 5_000
# Questions whose answers are more than a host and all systems on the way keep of one connection.
QUESTIONS = 200
# So many turns, and what a system keeps of answers that nobody takes is kept.
SETTLES = 3
# So many looks of a system that find nothing, each of a millisecond, are a rest.
RESTS = 20


class Stopped(HostileHost):
    """A host whose steady clock stands until the test sets it; what it waits for ends by that clock too. Its system keeps
    little of what is not read."""

    def __init__(self, program: str, **more: Any):
        system = System()
        system.be(stopped=START, kept=KEPT)
        super().__init__(program, system, **more)

    def set(self, moment: int, **numbers: int) -> None:
        """The clock shows so many milliseconds since the start, whatever the host does."""
        self.system.be(stopped=START + moment, kept=KEPT, **numbers)

    def at(self, moment: int, **numbers: int) -> None:
        """The same once the host rests, and then it has done all that is to be done at that moment. The clock isn't set while the host
        turns: a poll in Python reads it once more, after the host has computed how long to wait, and counts from that reading. If the
        clock were set between the two, the host would wait too long."""
        until("the host rests", self.rests)
        self.set(moment, **numbers)
        until("the host rests", self.rests)

    def rests(self) -> bool:
        """Whether it waits, and some looks of the system's find that nothing comes for it: it does nothing until the clock is
        set or something comes."""
        seen = self.system.seen
        polls, rests = seen("polls"), seen("rests")
        until("the host waits", lambda: seen("rests") >= rests + RESTS or seen("polls") != polls or not self.runs())
        return bool(seen("polls") == polls)

    def ticks(self) -> list[int]:
        """The moments at which waits ended so far, from that of the first line on."""
        first, _, entries = self.written().partition(b"\n")
        opened = int(first.rpartition(b" ")[2])
        return [int(moment) - opened for moment in re.findall(rb"^(\d+) - tick$", entries, re.M)]


def waits_end_at_their_moment(program: str) -> None:
    """A take, a transfer and a swap wait each as long as it asked for: a millisecond before it isn't told so, and then it is,
    with nothing that wakes the host."""
    with Stopped(program) as host:
        calls = [take(300), give("transfer", "a", 500, queue=4), swap("b", 700)]
        asked = {Key(1, client, 1, 1): call for client, call in enumerate(calls, 1)}
        with closing([host.greeted(key.client) for key in asked]) as peers:
            host.at(ASKED)
            for peer, key in zip(peers, asked):
                peer.send(frame(request(key, asked[key])))
            until("all have asked", lambda: host.written().count(b"request") == len(asked))
            for peer, (key, call) in zip(peers, asked.items()):
                host.at(ASKED + call["wait"] - 1)
                demand(is_silent(peer), f"a wait of {call['wait']} milliseconds ended early")
                host.set(ASKED + call["wait"])
                demand(peer.hear() == replied(key, reply="timedout"), "who waited is told something else")
        demand(host.ticks() == [ASKED + call["wait"] for call in asked.values()], f"waits ended at {host.ticks()}")
        host.judged(asked, [(key, {"reply": "timedout"}) for key in asked])


def told_that_it_waits_at_ten_seconds(program: str) -> None:
    """Who waits is told so ten seconds after its frame, neither before nor later, and so again each time that it asks."""
    with Stopped(program) as host, host.greeted(1) as peer:
        key, call = Key(1, 1, 1, 1), take("forever")
        host.at(ASKED)
        for told in range(ASKED + TOLD, ASKED + 4 * TOLD, TOLD):
            peer.send(frame(request(key, call)))
            host.at(told - 1)
            demand(is_silent(peer), f"it was told before {TOLD} milliseconds that its request waits")
            host.set(told)
            demand(peer.hear() == waits(key), "who waits is told something else")
        host.judged({key: call}, [])


def is_silent(peer: Peer) -> bool:
    """Whether nothing came for a peer, no end either."""
    return not select.select([peer.socket], [], [], 0)[0]


def stalled_and_idle_ends(program: str) -> None:
    """With --stall who sent half a frame is ended, and who takes no answers, and with --idle who says nothing: not before, and
    at the next look then. Who waits is not."""
    options = ("--stall", str(STALL), "--idle", str(IDLE))
    with Stopped(program, options=options) as host:
        with closing([host.greeted(client) for client in (1, 2, 3)]) as (half, idle, waiting), host.connect(receive=KEPT) as deaf:
            host.at(ASKED)
            wish = Key(1, 3, 1, 1)
            waiting.send(frame(request(wish, take("forever", queue=9))))
            half.send(frame(hello(1))[:-1])
            ask_and_never_read(deaf, 4, QUESTIONS)
            for _ in range(SETTLES):
                # what the system still takes of the answers it has then
                until("the host rests", host.rests)
                idle.expect(hello(2), welcome(2))
            for limit, before, after in ((STALL, 4, 2), (IDLE, 2, 1)):
                host.at(ASKED + limit * 1_000 - 1)
                demand(host.accepted() == before, f"before {limit} seconds {host.accepted()} of {before} connections are left")
                host.at(ASKED + limit * 1_000 - 1 + LOOK_OVER)
                demand(host.accepted() == after, f"after {limit} seconds {host.accepted()} connections are left, not {after}")
            demand(is_silent(waiting), "who waits was told something, or ended")
            host.ended()


def a_byte_a_second(program: str) -> None:
    """With --stall who sends a frame byte by byte, one a second, is ended at the look at which the time is over, and who is within
    another frame at each look, each of which is answered, is not. What comes after an answer has its whole time."""
    with Stopped(program, options=("--stall", str(STALL))) as host:
        with closing([host.greeted(client) for client in (1, 2)]) as (slow, busy):
            parts, moment = frame(hello(1)), ASKED
            busy.send(frame(hello(2))[:PART])
            for second in range(STALL):
                host.at(moment)
                slow.send(parts[second:second + 1])
                host.at(moment + LOOK_OVER // 2)
                busy.send(frame(hello(2))[PART:] + frame(hello(2))[:PART])
                demand(busy.hear() == welcome(2), "who is within another frame at each look is told something else")
                until("the host rests", host.rests)
                moment += LOOK_OVER
            demand(host.accepted() == 2, f"before {STALL} seconds {host.accepted()} of 2 connections are left")
            host.at(moment)
            slow.send(parts[STALL:STALL + 1])
            host.at(moment + LOOK_OVER)
            demand(host.accepted() == 1, f"who sent a byte a second is there after {STALL} seconds")
            busy.send(frame(hello(2))[PART:])
            demand(busy.hear() == welcome(2), "who ends its frame in time is not answered")
            host.ended()


def bytes_that_wait_for_a_share(program: str) -> None:
    """With --stall nobody is ended for a frame whose rest came in time, and waits for longer than that for its share of the turns: each
    such frame is answered."""
    demand((SHARERS // SHARES - 1) * PACE > 1_000 * STALL + LOOK_OVER, "shares are given too soon")
    with Stopped(program, options=("--stall", str(STALL))) as host:
        with closing(connected(host.port, SHARERS)) as peers:
            for peer in peers:
                peer.send(TEXT[:PART])
            until("all are accepted", lambda: host.accepted() == SHARERS)
            host.at(ASKED)
            os.kill(host.process.pid, signal.SIGSTOP)
            for peer in peers:
                peer.send(TEXT[PART:])
            host.set(ASKED, pace=PACE)
            os.kill(host.process.pid, signal.SIGCONT)
            until("the host rests", host.rests)
            over = sum(not is_answered(peer) for peer in peers)
            demand(over == 0, f"of {SHARERS} who sent a frame in time {over} were ended before their share")
        host.ended()


def is_answered(peer: Peer) -> bool:
    """Whether the one text that a peer sent, which is no message, is answered before its connection ends."""
    with contextlib.suppress(ConnectionError):
        return bool(peer.hear() == BAD_TEXT)
    return False


def accepting_is_tried_again(program: str) -> None:
    """Where accepting fails for want of something it is tried again a tenth of a second later, with nothing that wakes the
    host."""
    with Stopped(program) as host:
        host.at(ASKED, accept=1)
        with closing(connected(host.port, 1)) as (peer,):
            until("accepting fails", lambda: host.system.made("accept") > 0)
            peer.send(frame(hello(1)))
            host.at(ASKED + AGAIN - 1)
            demand(host.accepted() == 0, "accepting was tried again before a tenth of a second was over")
            host.set(ASKED + AGAIN)
            demand(peer.hear() == welcome(1), "who was not accepted at first is not welcome")
        host.ended()


def samples_of_the_status(program: str) -> None:
    """A sample has the seconds since the start, the entries, the places that are open, and the bytes of the account, at the start
    and ten seconds later."""
    port = free_port()
    with Stopped(program, options=("--status", f"127.0.0.1:{port}")) as host:
        until("the host rests", host.rests)
        head, calls = host.counted(), [give("put", "a"), give("put", "b"), take("now")]
        with host.greeted(1) as peer:
            for number, call in enumerate(calls, 1):
                peer.ask(request(Key(1, 1, 1, number), call))
        host.at(SAMPLE)
        wanted = [[0, 0, 0, head], [SAMPLE // 1_000, 1 + len(calls), 1, host.counted()]]
        history = json.loads(told_at(host, port, SAMPLE))["history"]
        demand(history[:2] == wanted, f"the samples are {history}, not {wanted}")
        host.ended()


def told_at(host: Stopped, port: int, moment: int) -> bytes:
    """The status at a moment, from which on the clock goes on as pages want it."""
    with closing(connected(port, 1)) as (visitor,):
        visitor.send(b"GET /status.json HTTP/1.1\r\nhost: 127.0.0.1\r\nconnection: close\r\n\r\n")
        visitor.socket.settimeout(VISIT / 1_000)
        for look in range(LOOKS):
            with contextlib.suppress(TimeoutError, ConnectionError):
                if not visitor.more():
                    break
            host.set(moment + look * VISIT)
        demand(b"\r\n\r\n" in visitor.got, f"the status is {visitor.got!r}")
        return visitor.got.partition(b"\r\n\r\n")[2]


def times_of_answers(program: str) -> None:
    """A request's time is that from its last byte, or from the answer before it, to its own answer; its wait is in it. No turn took
    time while the clock stood, nor while it was waited for."""
    port = free_port()
    with Stopped(program, options=("--status", f"127.0.0.1:{port}")) as host:
        until("the host rests", host.rests)
        with host.greeted(1) as first, host.greeted(2) as second:
            keys = [Key(1, 1, 1, 1), Key(1, 1, 1, 2), Key(1, 2, 1, 1)]
            host.at(ASKED)
            first.send(frame(request(keys[0], take(300))) + frame(request(keys[1], {"call": "count", "queue": 7})))
            late = frame(request(keys[2], take(200)))
            second.send(late[:PART])
            host.at(ASKED + 100)
            second.send(late[PART:])
            until("the host rests", host.rests)
            host.set(ASKED + 300)
            for peer, key in ((first, keys[0]), (second, keys[2])):
                demand(peer.hear() == replied(key, reply="timedout"), "who waited is told something else")
            demand(first.hear() == replied(keys[1], reply="counted", items=0, consumers=0), "who counts is told something else")
            host.at(SAMPLE)
            told = read_numbers(page_at(host, port, SAMPLE))
        answers, turns = buckets(told, "rv_answer_seconds"), buckets(told, "rv_turn_seconds")
        # two welcomes and a count at once, 200 and 300 milliseconds
        wanted = {bound: 3 + (float(bound) >= 0.2) + (float(bound) >= 0.3) for bound in answers}
        demand(answers == wanted, f"answers took {answers}, not {wanted}")
        demand(told["rv_answer_seconds_sum"] == 0.5, f"answers took {told['rv_answer_seconds_sum']} seconds in all, not 0.5")
        demand(turns["0.0005"] == turns["+Inf"] > 0 == told["rv_turn_seconds_sum"], f"turns took time: {turns}")
        host.ended()


def page_at(host: Stopped, port: int, moment: int) -> str:
    """The metrics at a moment, from which on the clock goes on as pages want it, each time when the host rests."""
    with closing(connected(port, 1)) as (visitor,):
        visitor.send(b"GET /metrics HTTP/1.1\r\nhost: 127.0.0.1\r\nconnection: close\r\n\r\n")
        while not has_ended(visitor):
            moment += VISIT
            host.at(moment)
        return visitor.got.decode().partition("\r\n\r\n")[2]


def silent_visitors_end(program: str) -> None:
    """Who says nothing at the status address, or half of what it asks for, is let go after a second, and at once where the line is
    full and others come. Beside them a page is told in the turn in which it is asked for."""
    port, more = free_port(), 2 * LINE
    with Stopped(program, options=("--status", f"127.0.0.1:{port}")) as host:
        until("the host rests", host.rests)
        with closing(connected(port, LINE + more)) as silent:
            silent[-1].send(b"GET /healthz HTTP/1.1\r\nhost: 127.0.0.1\r\n")
            host.at(VISIT)
            over = sum(map(has_ended, silent))
            demand(over == more, f"of {len(silent)} who say nothing {over} had to go, not {more}")
            with closing(connected(port, 1)) as (visitor,):
                visitor.send(b"GET /healthz HTTP/1.1\r\nhost: 127.0.0.1\r\n\r\n")
                host.at(2 * VISIT)
                until("the page is told", visitor.more)
                demand(visitor.got.startswith(b"HTTP/1.1 200"), f"it is told {visitor.got!r}")
            host.at(VISIT + TO_ASK - 1)
            over = sum(map(has_ended, silent))
            demand(over == more + 1, f"within a second {over} had to go, not {more + 1}")
            for turn in range(LINE // VISITED):
                host.at((2 + turn) * VISIT + TO_ASK - 1)
            demand(all(map(has_ended, silent)), f"after a second {sum(map(has_ended, silent))} of {len(silent)} had to go")
        host.ended()


def asked_beside_the_silent(program: str) -> None:
    """Whoever asks at the status address when hundreds have come there who say nothing is told the page after so many looks as accept
    all of them."""
    port = free_port()
    with Stopped(program, options=("--status", f"127.0.0.1:{port}")) as host:
        until("the host rests", host.rests)
        with closing(connected(port, SILENT)), closing(connected(port, 1)) as (visitor,):
            visitor.send(b"GET /healthz HTTP/1.1\r\nhost: 127.0.0.1\r\n\r\n")
            for look in range(1, 2 + SILENT // COME):
                host.at(look * VISIT)
            until("the page is told", visitor.more)
            demand(visitor.got.startswith(b"HTTP/1.1 200"), f"it is told {visitor.got!r}")
        host.ended()


def has_ended(peer: Peer) -> bool:
    """Whether the host has ended a connection over which it says nothing."""
    ready, _, _ = select.select([peer.socket], [], [], 0)
    with contextlib.suppress(ConnectionError):
        return bool(ready) and not peer.more()
    return True


CASES = [
    waits_end_at_their_moment, told_that_it_waits_at_ten_seconds, stalled_and_idle_ends, a_byte_a_second, bytes_that_wait_for_a_share,
    accepting_is_tried_again, samples_of_the_status, times_of_answers, silent_visitors_end, asked_beside_the_silent,
]
