"""What waits at a host: it is told at once, and that it waits behind ten seconds; a hand-over that its client's end does not
end; and frames that wait behind it."""
from __future__ import annotations

import time

from tests.host.many import closing, connected, greeted
from tests.model.account import Key
from tests.sockets.ledger import Asked
from tests.sockets.hosts import Host
from tests.sockets.plain import Looker, in_its_own_frame
from tests.sockets.wire import (
    Peer, cancel, demand, frame, give, hello, refused, replied, request, take, together, waits, welcome)

# How many wait for one producer; so many requests stand behind one that waits.
WAITING, BEHIND = 70, 300
# The seconds behind which a request is told that it waits. Both clocks count milliseconds.
TOLD, MILLISECOND = 10, 0.001


def answered(peer: Peer, wanted: bytes) -> None:
    """The next frame must be this."""
    got = peer.hear()
    demand(got == wanted, f"the answer is {got!r}, not {wanted!r}")


def many_for_one_producer(program: str) -> None:
    """As many items as clients wait come in one piece: each gets the one of its place, in its own frame."""
    with Host(program) as host, Looker(host) as looker, closing(connected(host.port, WAITING)) as peers:
        greeted(peers, 1, host.epoch)
        asked, told = {}, []
        for client, peer in enumerate(peers, 1):
            key = Key(1, client, 1, 1)
            asked[key] = take("forever")
            peer.send(frame(request(key, asked[key])))
            looker.sees(consumers=client)
        giver = WAITING + 1
        gifts = [Key(1, giver, 1, number) for number in range(1, 1 + WAITING)]
        asked.update((key, give("put", f"item {key.number}")) for key in gifts)
        with host.greeted(giver) as producer:
            producer.send(b"".join(frame(request(key, asked[key])) for key in gifts))
            for key in gifts:
                answered(producer, replied(key, reply="done"))
        for client, peer in enumerate(peers, 1):
            key, reply = Key(1, client, 1, 1), {"reply": "item", "item": f"item {client}"}
            in_its_own_frame(peer, key, asked[key], **reply)
            told.append((key, reply))
        host.judged(asked | looker.asked, told)


def told_that_it_waits(program: str) -> None:
    """A take that waits is told so behind ten seconds, not before, and so is one over a link that sends nothing more; it is met
    when it is asked again, and each such word starts the time anew."""
    with Host(program) as host:
        asked: Asked = {}

        def waiting(client: int, ends: bool) -> None:
            key = Key(1, client, 1, 1)
            asked[key] = take("forever", queue=client)
            # the moment of the host's turn may be as early as that at which its welcome left
            began = time.monotonic()
            with host.greeted(client) as peer:
                peer.send(frame(request(key, asked[key])))
                if ends:
                    peer.end()
                answered(peer, waits(key))
                took = time.monotonic() - began
                demand(took > TOLD - 2 * MILLISECOND, f"it was told that its request waits after {took:.3f} seconds")
                if ends:
                    return peer.expect_end()
                peer.expect(cancel(key), replied(key, reply="cancelled"))

        together(lambda: waiting(1, False), lambda: waiting(2, True), lambda: waiting(3, False))
        host.judged(asked, [(Key(1, 1, 1, 1), {"reply": "cancelled"})])


def an_end_behind_a_take(program: str) -> None:
    """A client that sends nothing more behind its take gets the item all the same, and then its connection ends."""
    with Host(program) as host, Looker(host) as looker:
        wish, gift = Key(1, 1, 1, 1), Key(1, 2, 1, 1)
        asked = {wish: take("forever"), gift: give("transfer", "a", "forever")}
        with host.greeted(1) as taker, host.greeted(2) as giver:
            taker.send(frame(request(wish, asked[wish])))
            taker.end()
            looker.sees(consumers=1)
            giver.expect(request(gift, asked[gift]), replied(gift, reply="received"))
            demand(taker.hear() in (waits(wish), replied(wish, reply="item", item="a")), "the take is told something else")
            taker.expect_end()
        host.judged(asked | looker.asked, [(wish, {"reply": "item", "item": "a"})])


def frames_behind_one_that_waits(program: str) -> None:
    """What comes in one piece with a take that waits is answered behind it, in order."""
    with Host(program) as host, Looker(host) as looker:
        wish, gift = Key(1, 1, 1, 1), Key(1, 2, 1, 1)
        puts = [Key(1, 1, 1, number) for number in range(2, 2 + BEHIND)]
        asked = {wish: take("forever"), gift: give("put", "a"), **{key: give("put", "b", queue=4) for key in puts}}
        with host.greeted(1) as taker, host.greeted(2) as giver:
            taker.send(b"".join(frame(request(key, asked[key])) for key in (wish, *puts)))
            looker.sees(consumers=1)
            giver.expect(request(gift, asked[gift]), replied(gift, reply="done"))
            got = taker.hear()
            demand(got in (waits(wish), replied(wish, reply="item", item="a")), f"the take is answered {got!r}")
            for key in puts:
                answered(taker, replied(key, reply="done"))
        host.judged(asked | looker.asked, [(wish, {"reply": "item", "item": "a"})])


def a_killed_worker(program: str) -> None:
    """Its take stands when it is gone, so an item that comes is its own; a greater incarnation ends the take, and the next item is
    another's."""
    with Host(program) as host, Looker(host) as looker:
        old, other, gift = Key(1, 1, 1, 1), Key(1, 2, 1, 1), Key(1, 3, 1, 1)
        asked = {old: take("forever"), other: take("now"), gift: give("put", "a")}
        with host.greeted(1) as worker:
            worker.send(frame(request(old, asked[old])))
            looker.sees(consumers=1)
            worker.reset()
        looker.sees(consumers=1)
        with host.connect() as again, host.greeted(2) as taker, host.greeted(3) as giver:
            again.expect(hello(1, 2), welcome(1, 1, 2))
            looker.sees()
            again.expect(request(old, asked[old]), refused(4, current=2))
            giver.expect(request(gift, asked[gift]), replied(gift, reply="done"))
            taker.expect(request(other, asked[other]), replied(other, reply="item", item="a"))
        host.judged(asked | looker.asked, [(other, {"reply": "item", "item": "a"})])


CASES = [many_for_one_producer, told_that_it_waits, an_end_behind_a_take, frames_behind_one_that_waits, a_killed_worker]
