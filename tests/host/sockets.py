"""What a host asks of the system for its connections, and how seldom it turns while their peers do nothing."""
from __future__ import annotations

import time

from tests.faults.system import HostileHost, System
from tests.host.hostile import KEPT, ask_and_never_read
from tests.host.many import closing, connected
from tests.host.moments import QUESTIONS
from tests.model.account import Key
from tests.sockets.wire import demand, frame, give, hello, request, take, until, welcome

# What the options of a connection are to be: a peer that takes nothing is given up after so many milliseconds.
OPTIONS = {"keeps_alive": 1, "user_time_out": 60_000, "no_delay": 1}
# A host whose peers are blocked may turn so often in so many seconds; one that doesn't rest turns thousands of times.
TURNS, SPAN = 20, 1.0


def options_of_a_connection(program: str) -> None:
    """A connection that was accepted is asked whether its peer is there, given up where that takes nothing for a minute, and
    sends at once."""
    system = System()
    with HostileHost(program, system) as host, host.greeted(1) as peer:
        peer.expect(hello(1), welcome(1))
        got = {name: system.seen(name) for name in OPTIONS}
        demand(got == OPTIONS, f"the options of a connection are {got}, not {OPTIONS}")
        host.ended()


def rests_beside_blocked_peers(program: str) -> None:
    """Peers take no answers, stop in a frame, wait, write on after a wait or send nothing more, and one more comes than there
    may be: the host turns a few times a second."""
    system = System()
    system.be(kept=KEPT)
    with HostileHost(program, system, options=("--connections", "5")) as host:
        wishes = [Key(1, client, 1, 1) for client in (2, 3, 4)]
        greeted = [host.greeted(client) for client in (1, 2, 3, 4)]
        with closing([host.connect(receive=KEPT), *greeted]) as peers:
            deaf, half, waiting, ahead, ended = peers
            half.send(frame(hello(1))[:-1])
            for peer, key in zip((waiting, ahead, ended), wishes):
                peer.send(frame(request(key, take("forever"))))
            ahead.send(frame(request(Key(1, 3, 1, 2), give("put", "a"))))
            ended.end()
            ask_and_never_read(deaf, 5, QUESTIONS)
            with closing(connected(host.port, 1)):
                until("the host rests", host.rests)
                before = system.seen("polls")
                time.sleep(SPAN)
                turns = system.seen("polls") - before
                demand(turns <= TURNS, f"a host whose peers are blocked turned {turns} times in {SPAN} seconds")
        host.ended()


CASES = [options_of_a_connection, rests_beside_blocked_peers]
