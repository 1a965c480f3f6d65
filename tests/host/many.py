"""Thousands of connections of one thread's."""
from __future__ import annotations

import contextlib
import os
import resource
import selectors
import socket
import time
from collections.abc import Iterator

from tests.sockets.wire import PATIENCE, Peer, demand, frame, hello, welcome

# The descriptors that a process needs beside its connections.
SPARE = 200


def room() -> int:
    """How many connections this process may have, and a program that it starts: all that the system lets it ask for."""
    _, most = resource.getrlimit(resource.RLIMIT_NOFILE)
    resource.setrlimit(resource.RLIMIT_NOFILE, (most, most))
    return most - SPARE


def connected(port: int, count: int, patience: float = PATIENCE) -> list[Peer]:
    """So many connections, all begun at once."""
    ends = time.monotonic() + patience
    links = [begun(port) for _ in range(count)]
    with selectors.DefaultSelector() as waiting:
        for link in links:
            waiting.register(link, selectors.EVENT_WRITE)
        while waiting.get_map():
            demand(time.monotonic() < ends, f"{len(waiting.get_map())} of {count} connections were not made")
            for key, _ in waiting.select(1):
                waiting.unregister(key.fileobj)
    for link in links:
        fault = link.getsockopt(socket.SOL_SOCKET, socket.SO_ERROR)
        demand(not fault, f"a connection was not made: error {fault}")
    return [Peer(link) for link in links]


def begun(port: int, receive: int | None = None) -> socket.socket:
    """A connection that may not be made yet. The system keeps little of what comes and isn't read, where it is told how much."""
    link = socket.socket()
    link.setblocking(False)
    if receive is not None:
        link.setsockopt(socket.SOL_SOCKET, socket.SO_RCVBUF, receive)
    with contextlib.suppress(BlockingIOError):
        link.connect(("127.0.0.1", port))
    return link


def greeted(peers: list[Peer], first: int, epoch: int, incarnation: int = 1) -> None:
    """All say hello, as clients from the first on, and each is welcome."""
    clients = range(first, first + len(peers))
    for client, peer in zip(clients, peers):
        peer.send(frame(hello(client, incarnation)))
    for client, peer in zip(clients, peers):
        got = peer.hear()
        demand(got == welcome(client, epoch, incarnation), f"the hello of {client} was answered {got!r}")


@contextlib.contextmanager
def no_descriptors(pid: int, port: int, count: int) -> Iterator[None]:
    """Until the block ends a host may have two descriptors more than it has, and so many connections take them."""
    limit = resource.prlimit(pid, resource.RLIMIT_NOFILE)
    few = len(os.listdir(f"/proc/{pid}/fd")) + 2
    resource.prlimit(pid, resource.RLIMIT_NOFILE, (few, limit[1]))
    try:
        with closing(connected(port, count)):
            yield
    finally:
        resource.prlimit(pid, resource.RLIMIT_NOFILE, limit)


@contextlib.contextmanager
def closing(peers: list[Peer]) -> Iterator[list[Peer]]:
    """Closes all of them behind the block."""
    try:
        yield peers
    finally:
        for peer in peers:
            peer.close()
