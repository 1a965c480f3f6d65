"""Clients that all come back at once behind a start, and connections that hold more than there is memory for."""
from __future__ import annotations

import contextlib
import time

from tests.host.many import closing, connected, greeted
from tests.host.memory import wait_behind
from tests.model.account import Key
from tests.sockets.hosts import Host
from tests.sockets.wire import demand, frame, give, hello, refused, replied, request, take, until, welcome

# The seconds in which all are back, asked by hand of a machine that has nothing else to do.
BACK = 10
# So many seconds later no more of them are closed.
SETTLES = 2
# Peers that wait, the bytes behind their requests, the MiB that all may have, and the seconds for which that may be full.
HOLDERS, HELD, MEBIBYTES, FULL = 270, 3_900, 1, 1


def back_at_once(program: str, many: int, seconds: float | None = None) -> str:
    """So many clients wait, and the host is killed. All come back at once behind its next start, at its address: each is welcome, learns that its
    old epoch ended, and waits anew."""
    with Host(program, epoch=1) as before, closing(connected(before.port, many)) as peers:
        greeted(peers, 1, 1)
        for client, peer in enumerate(peers, 1):
            peer.send(frame(request(Key(1, client, 1, 1), take("forever", queue=client % 64))))
        before.kill()
    with Host(program, epoch=2, port=before.port) as after:
        after.connect().close()
        began = time.monotonic()
        with closing(connected(after.port, many)) as peers:
            greeted(peers, 1, 2)
            took = time.monotonic() - began
            first, ended = Key(1, 1, 1, 1), refused(2, current=2)
            peers[0].expect(request(first, take("forever", queue=1)), ended)
            gift = Key(2, many, 1, 1)
            peers[-1].expect(request(gift, give("put", "a")), replied(gift, reply="done"))
        demand(seconds is None or took < seconds, f"{many} clients were back after {took:.1f} seconds")
    return f"{many} clients, {took:.1f} seconds"


def in_time(program: str, many: int) -> str:
    """The same, within the time that a machine takes which does nothing else."""
    return back_at_once(program, many, BACK)


def holders_are_closed(program: str) -> str:
    """Peers wait with bytes behind their requests, in all more than --memory: each time that this has lasted for --stall one is closed,
    until the rest fits, and not more than would fit; who holds nothing is served on."""
    with Host(program, options=("--memory", str(MEBIBYTES), "--stall", str(FULL))) as host, host.greeted(HOLDERS + 1) as peer:
        fits = (MEBIBYTES << 20) // HELD
        with closing([host.greeted(client) for client in range(1, HOLDERS + 1)]) as holders:
            wait_behind(holders, [HELD] * HOLDERS)
            until("those that hold most are closed", lambda: host.accepted() <= 1 + fits)
            time.sleep(SETTLES)
            left = host.accepted() - 1
            demand(left == fits, f"of {HOLDERS} only {left} are left, and {fits} fit")
            peer.expect(hello(HOLDERS + 1), welcome(HOLDERS + 1))
        host.ended()
    return f"{left} of {HOLDERS} are left, and {fits} fit"


CASES = [holders_are_closed]
