"""A turn of a host has a budget: however much comes at once, no more than some shares of it are answered between two polls."""
from __future__ import annotations

import os
import signal
import threading

from tests.faults.system import HostileHost, System
from tests.host.many import closing, connected
from tests.sockets.wire import BAD_TEXT, Peer, demand, frame, hello, until, welcome

# Peers that each send so many bytes at once of frames that are no messages.
GREEDY, TEXT, TEXTS = 100, b"x" * 100, 400
# A piece of at most so many bytes is answered as it comes; a share has at most so many, and so many shares are given a turn.
SMALL, SHARE, SHARES = 512, 4_096, 4
# A client that asks for little meanwhile, and how often.
CLIENT, CALLS = 1_000, 20


def a_turn_has_a_budget(program: str) -> str:
    """While a host stands still many peers send much; when it goes on it polls at least once for so many shares as a turn has, each
    gets all of its answers, and a client that asks for little is answered."""
    piece = frame(TEXT) * TEXTS
    with HostileHost(program, System()) as host, host.greeted(CLIENT) as good:
        with closing(connected(host.port, GREEDY)) as peers:
            until("all are accepted", lambda: host.accepted() == GREEDY + 1)
            os.kill(host.process.pid, signal.SIGSTOP)
            for peer in peers:
                peer.send(piece)
            before = host.system.seen("polls")
            os.kill(host.process.pid, signal.SIGCONT)
            hearing = [threading.Thread(target=hear_all, args=(peers[first::4],)) for first in range(4)]
            for thread in hearing:
                thread.start()
            for _ in range(CALLS):
                good.expect(hello(CLIENT), welcome(CLIENT))
            for thread in hearing:
                thread.join()
            polls = host.system.seen("polls") - before
        least = GREEDY * (len(piece) - SMALL) // (SHARE * SHARES)
        demand(polls >= least, f"between {polls} polls more was answered than a turn may: {least} are the least")
        host.ended()
    return f"{polls} polls, at least {least}"


def hear_all(peers: list[Peer]) -> None:
    """Each gets as many answers as it sent texts."""
    for _ in range(TEXTS):
        for peer in peers:
            demand(peer.hear() == BAD_TEXT, "a text that is none has another answer")


CASES = [a_turn_has_a_budget]
