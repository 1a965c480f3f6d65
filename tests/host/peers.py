"""Peers that mean no good and never rest: they send frames that are no messages, or bodies nested as deep as a body may be, ask without
end, or take no answers. Where a host ends one of them it comes again."""
from __future__ import annotations

import contextlib
import multiprocessing
import selectors
import socket
from collections.abc import Callable, Iterator
from dataclasses import dataclass, field
from multiprocessing.synchronize import Event
from typing import Any

from tests.host.hostile import KEPT
from tests.host.many import begun
from tests.model.account import Key
from tests.sockets.wire import frame, hello, request

# Of so many peers so many are of each kind: those that send three-byte frames which are no messages, those that pipeline calls, those
# that never read, and those whose bodies are nested as deep as a body may be.
ALL, KINDS = 9_900, {"greedy": 8_500, "pipelines": 1_000, "deaf": 300, "nested": 100}
TEXTS = frame(b"x") * 21_845
DEEP = frame(b"[" * 127 + b"]" * 127) * 200
# Requests in one piece, the queue that they count, and the bytes of a read.
PIECE, QUEUE, READ = 16, 3, 262_144
# The first client number of those that pipeline.
FIRST = 1_000


def kinds_of(count: int) -> dict[str, int]:
    """So many peers: of each kind its part, and one at least. The greedy ones are the rest. None where there are to be none."""
    if count == 0:
        return {}
    few = {kind: max(1, count * part // ALL) for kind, part in KINDS.items() if kind != "greedy"}
    return {"greedy": count - sum(few.values()), **few}


@dataclass
class Sender:
    """A peer of one kind: who it is, in which epoch, its next request, what it hasn't sent yet of its piece, and its
    connection."""

    kind: str
    client: int
    epoch: int = 1
    incarnation: int = 0
    number: int = 1
    rest: bytes = b""
    link: socket.socket = field(init=False)

    def events(self) -> int:
        """What it waits for."""
        return selectors.EVENT_WRITE if self.kind == "deaf" else selectors.EVENT_READ | selectors.EVENT_WRITE

    def begin(self, port: int) -> None:
        """Begins its next connection, over which it is another incarnation."""
        self.incarnation, self.number = self.incarnation + 1, 1
        self.rest = frame(hello(self.client, self.incarnation)) if self.kind == "pipelines" else b""
        self.link = begun(port, receive=KEPT if self.kind == "deaf" else None)

    def piece(self) -> bytes:
        """What it sends next."""
        if self.kind != "pipelines":
            return DEEP if self.kind == "nested" else TEXTS
        keys = [Key(self.epoch, self.client, self.incarnation, self.number + more) for more in range(PIECE)]
        self.number += PIECE
        return b"".join(frame(request(key, {"call": "count", "queue": QUEUE})) for key in keys)

    def turn(self, mask: int) -> int | None:
        """Reads what is there, and sends as much as is taken at once: so many bytes, or none where the connection is over."""
        try:
            if mask & selectors.EVENT_READ and not self.link.recv(READ):
                return None
            if not mask & selectors.EVENT_WRITE:
                return 0
            self.rest = self.rest or self.piece()
            count = self.link.send(self.rest)
        except BlockingIOError:
            return 0
        except OSError:
            return None
        self.rest = self.rest[count:]
        return count


def send_on(port: int, senders: list[Sender], over: Event, sent: Any, place: int) -> None:
    """They send on until it is over. Who is ended comes again. How many bytes they sent is counted at a place."""
    with selectors.DefaultSelector() as waiting:
        for peer in senders:
            peer.begin(port)
            waiting.register(peer.link, peer.events(), peer)
        while not over.is_set():
            for key, mask in waiting.select(0.1):
                sender: Sender = key.data
                count = sender.turn(mask)
                sent[place] += count or 0
                if count is None:
                    waiting.unregister(sender.link)
                    sender.link.close()
                    sender.begin(port)
                    waiting.register(sender.link, sender.events(), sender)


@contextlib.contextmanager
def peers(port: int, counts: dict[str, int], epoch: int = 1) -> Iterator[Callable[[], dict[str, int]]]:
    """Until the block ends so many peers of each kind send on, each kind in a process of its own. It gives what tells how many bytes
    each kind has sent."""
    apart = multiprocessing.get_context("spawn")
    over, sent, running = apart.Event(), apart.Array("Q", len(counts), lock=False), []
    for place, (kind, count) in enumerate(counts.items()):
        senders = [Sender(kind, FIRST + number, epoch) for number in range(count)]
        running.append(apart.Process(target=send_on, args=(port, senders, over, sent, place), daemon=True))
    try:
        for process in running:
            process.start()
        yield lambda: dict(zip(counts, sent))
    finally:
        over.set()
        for process in running:
            process.join(5)
            process.kill()
            process.join()
