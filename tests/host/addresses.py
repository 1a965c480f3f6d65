"""How many connections one address has: no more than --connections-from, and each further one is closed at once, and counted."""
from __future__ import annotations

import contextlib
import socket
from collections.abc import Iterator

from tests.host.counters import Counting, is_answering
from tests.host.many import closing
from tests.host.status import numbers, shows
from tests.sockets.wire import PATIENCE, Peer, demand, frame, hello, until, welcome

# How many connections an address may have, and two addresses of this machine.
MOST, HERE, THERE = 2, "127.0.0.1", "127.0.0.2"
# So many are closed of one that has as many.
MORE = 3


@contextlib.contextmanager
def come(host: Counting, address: str) -> Iterator[Peer]:
    """A connection that comes from an address."""
    link = socket.create_connection(("127.0.0.1", host.port), PATIENCE, source_address=(address, 0))
    peer = Peer(link)
    try:
        yield peer
    finally:
        peer.close()


def no_more_than_its_bound(program: str) -> None:
    """Who comes from an address that has as many as it may is closed; who comes from another is served, and from the first one
    again once one of its connections has ended."""
    with Counting(program, "--connections-from", str(MOST)) as host, contextlib.ExitStack() as stack:
        until("it answers", lambda: is_answering(host))
        mine = [stack.enter_context(come(host, HERE)) for _ in range(MOST)]
        greet(mine, 1)
        for _ in range(MORE):
            with come(host, HERE) as late:
                late.expect_end()
        others = [stack.enter_context(come(host, THERE)) for _ in range(MOST)]
        greet(others, 1 + MOST)
        mine[0].close()
        until("it is gone", lambda: numbers(host.status_port)["rv_connections"] == 2 * MOST - 1)
        greet([stack.enter_context(come(host, HERE))], 1 + 2 * MOST)
        shows(host.status_port, {"rv_connections_opened_total": 2 * MOST + 1 + MORE, "rv_connections": 2 * MOST})
        host.counts({"address": MORE})


def greet(peers: list[Peer], first: int) -> None:
    """Each is welcome, also after the others have come."""
    for client, peer in enumerate(peers, first):
        peer.send(frame(hello(client)))
        demand(peer.hear() == welcome(client), f"client {client} is not served")


def no_bound(program: str) -> None:
    """Without the option one address has all."""
    with Counting(program, "--connections", str(MORE)) as host, closing([host.greeted(client) for client in range(1, 1 + MORE)]):
        host.counts({})


CASES = [no_more_than_its_bound, no_bound]
