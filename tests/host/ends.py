"""Whom a host ends by time, and whom where all hold too much: nobody before the time, and nobody while all of it fits."""
from __future__ import annotations

import functools
import select
import time

from tests.host.many import closing
from tests.model.account import Key
from tests.sockets.hosts import Host
from tests.sockets.plain import attempted
from tests.sockets.wire import (
    BAD_TEXT, Peer, demand, frame, give, hello, replied, request, take, together, waits, welcome)

# The seconds of --stall and of --idle, and those for which a request waits, which are more.
LIMIT, WAIT = 2, 2.5
# The first bytes of a frame.
PART = frame(hello(1))[:5]
# Peers that hold a part of a frame and then are answered, in all nearly as many bytes as the one MiB that all may hold; those
# that wait then, and the texts that stand behind that, and are no messages: in all a quarter of it.
HOLDERS, HELD, WAITERS, BEHIND, TEXT = 20, 45_000, 4, 4, b"x" * 15_000
# So often; and the seconds after which a host has looked over all that is held.
ROUNDS, LOOKED = 2, 1.2


# ---- by time

def gives(host: Host, client: int, queue: int) -> bool:
    """Another client puts an item; whether it is told so."""
    gift = Key(1, client, 1, 1)
    with host.connect() as giver:
        giver.send(frame(hello(client)) + frame(request(gift, give("put", "a", queue=queue))))
        return giver.hear() == welcome(client) and giver.hear() == replied(gift, reply="done")


def lasts(peer: Peer, began: float) -> None:
    """Nothing comes of a connection, and it isn't ended, until its limit has passed since a moment; then it is ended."""
    ends, _, _ = select.select([peer.socket], [], [], max(0.0, began + LIMIT - time.monotonic()))
    took = time.monotonic() - began
    demand(not ends or took >= LIMIT, f"{took:.1f} seconds after its wait a connection is ended, which has {LIMIT}")
    peer.expect_end()


def waits_and_lasts(host: Host, rest: bytes, number: int) -> bool:
    """A client waits for longer than the limit, with these bytes behind its request; once it is told, the whole limit is left.
    On a slow machine who asks or gives may be ended before that, or told that it waits: then nothing is judged."""
    wish = Key(1, 1 + 2 * number, 1, 1)
    try:
        with host.connect() as peer:
            peer.send(frame(hello(wish.client)) + frame(request(wish, take("forever", queue=number))) + rest)
            if peer.hear() != welcome(wish.client):
                return False
            time.sleep(WAIT)
            began = time.monotonic()
            if not gives(host, 2 + 2 * number, number) or peer.hear() != replied(wish, reply="item", item="a"):
                return False
            lasts(peer, began)
            return True
    except ConnectionError:
        return False


def a_wait_is_no_stall(program: str) -> None:
    """With --stall, half a frame behind a request that waits has its time from the end of the wait on, since until then the host
    doesn't read; and with --idle so has who says nothing more."""
    def case(option: str, rest: bytes) -> None:
        with Host(program, options=(option, str(LIMIT))) as host:
            attempted(functools.partial(waits_and_lasts, host, rest))
            host.ended()

    together(lambda: case("--stall", PART), lambda: case("--idle", b""))


# ---- where all hold too much

def answered_holders(host: Host) -> None:
    """Peers hold parts of frames until the host has looked at them; then the rest comes, and each is answered."""
    whole = frame(b"x" * HELD)
    with closing([host.connect() for _ in range(HOLDERS)]) as holders:
        for holder in holders:
            holder.send(whole[:-1])
        time.sleep(LOOKED)
        for holder in holders:
            holder.send(whole[-1:])
        for holder in holders:
            demand(holder.hear() == BAD_TEXT, "a text that is none has another answer")


def waiters_stay(host: Host, first: int) -> None:
    """Clients wait, and more frames stand behind: in all less than may be held. Once each has an item it is told all."""
    wishes = [Key(1, first + number, 1, 1) for number in range(WAITERS)]
    with closing([host.connect() for _ in wishes]) as peers:
        for queue, (wish, peer) in enumerate(zip(wishes, peers)):
            asked = request(wish, take("forever", queue=queue))
            peer.send(frame(hello(wish.client)) + frame(asked) + frame(TEXT) * BEHIND)
        for wish, peer in zip(wishes, peers):
            demand(peer.hear() == welcome(wish.client), "who is to wait is not welcome")
        for queue in range(WAITERS):
            demand(gives(host, first + WAITERS + queue, queue), "who gives is not answered")
        for wish, peer in zip(wishes, peers):
            got = peer.hear()
            demand(got in (waits(wish), replied(wish, reply="item", item="a")), f"of {WAITERS} that fit one was told {got!r}")
            for _ in range(BEHIND):
                demand(peer.hear() == BAD_TEXT, "a text behind a wait has another answer")


def what_was_answered_is_held_no_more(program: str) -> None:
    """Nobody is closed for what others held until they were answered, however short a time before."""
    with Host(program, options=("--memory", "1", "--stall", "3600")) as host:
        for number in range(ROUNDS):
            answered_holders(host)
            waiters_stay(host, 1_000 * (1 + number))
        host.ended()


CASES = [a_wait_is_no_stall, what_was_answered_is_held_no_more]
