"""Peers that mean no good, beside a client that gets each answer: silence, half frames, deafness, resets, floods."""
from __future__ import annotations

import contextlib
import threading
from collections.abc import Iterator

from tests.faults.system import HostileHost, System
from tests.host.many import closing, connected
from tests.model.account import Key
from tests.sockets.ledger import Ledger
from tests.sockets.hostile import Good
from tests.sockets.hosts import Host
from tests.sockets.wire import Peer, demand, frame, give, hello, replied, request, take, together, until, waits, welcome

# Connections of a flood, and the threads that make them.
FLOOD, THREADS = 4_000, 4
# Bytes that a peer asks for and doesn't read: more than all systems on the way keep of one connection.
DEAF_ITEM, DEAF_QUESTIONS = "\x01" * 512, 2_000
# The bytes that the system keeps of what is written to a connection and not read, about.
KEPT = 4_096
# The seconds behind which a host that is told so ends who stalls, and who is idle.
STALL, IDLE = 1, 1
# Clients that hold half a frame, and that say nothing.
HALVES, IDLES = 40, 20
# A client that waits meanwhile, and one that gives it an item then.
WAITS, GIVES = 2_000, 2_001
WISH, TAKE = Key(1, WAITS, 1, 1), take("forever", queue=9)


@contextlib.contextmanager
def beside_a_good_client(program: str, *options: str) -> Iterator[Host]:
    """A host with a client that puts and takes until the block ends; then the account has all that it was told. The system
    keeps little of what is not read."""
    system = System()
    system.be(kept=KEPT)
    with HostileHost(program, system, options=options) as host:
        ledger, done, faults = Ledger(), threading.Event(), []

        def run() -> None:
            try:
                Good(host, ledger).run(done)
            except Exception as fault:
                faults.append(fault)

        good = threading.Thread(target=run, daemon=True)
        good.start()
        try:
            yield host
        finally:
            done.set()
            good.join()
        if faults:
            raise faults[0]
        told = list(ledger.told.items())
        account = host.ended()
        demand(len(account.entries) >= len(told), "the account lacks entries")
        host.audited()
        host.verified(ledger.asked, told)


def silent_connections(program: str, many: int) -> str:
    """They say nothing, and then each says hello; when they are gone the host has none of them."""
    with beside_a_good_client(program) as host:
        until("the good client", lambda: host.accepted() == 1)
        with closing(connected(host.port, many)) as peers:
            until("all are accepted", lambda: host.accepted() == many + 1)
            for peer in peers[:: max(1, many // 100)]:
                peer.expect(hello(1_000), welcome(1_000))
        until("all are gone", lambda: host.accepted() <= 1)
    return f"{many} connections"


def one_that_waits(host: Host) -> Peer:
    """A client that waits. A slow machine may have it ended as idle before it asks; then it comes again."""
    while True:
        peer = host.connect()
        try:
            peer.send(frame(hello(WAITS)) + frame(request(WISH, TAKE)))
            demand(peer.hear() == welcome(WAITS), "who is to wait is not welcome")
            return peer
        except ConnectionError:
            peer.close()


def still_waits(host: Host, waiting: Peer, idle_ends: bool = False) -> None:
    """Who waits gets an item, from one who comes again where it was ended as idle. Behind ten seconds it is told that it waits;
    where who is idle is ended it may then be, before it asks again."""
    gift, is_given = Key(1, GIVES, 1, 1), False
    while not is_given:
        with contextlib.suppress(ConnectionError), host.greeted(GIVES) as giver:
            giver.expect(request(gift, give("transfer", "a", "now", queue=9)), replied(gift, reply="received"))
            is_given = True
    got = waiting.hear()
    if got == waits(WISH):
        with contextlib.suppress(*[ConnectionError] * idle_ends):
            waiting.expect(request(WISH, TAKE), replied(WISH, reply="item", item="a"))
    else:
        demand(got == replied(WISH, reply="item", item="a"), f"who waited was told {got!r}")


def half_frames(program: str) -> None:
    """Each byte of a request is the last that a peer sends: with --stall it is ended, and one that waits is not."""
    with beside_a_good_client(program, "--stall", str(STALL)) as host, one_that_waits(host) as waiting:
        whole = frame(hello(1_000))
        with closing(connected(host.port, HALVES)) as peers:
            for number, peer in enumerate(peers):
                peer.send(whole + whole[: 1 + number % (len(whole) - 1)])
            for peer in peers:
                demand(peer.hear() == welcome(1_000), "the frame before half a frame is not answered")
                peer.expect_end()
        still_waits(host, waiting)


def idle_connections(program: str) -> None:
    """With --idle who says nothing is ended, and one that waits is not."""
    with HostileHost(program, System(), options=("--idle", str(IDLE))) as host, one_that_waits(host) as waiting:
        with closing(connected(host.port, IDLES)) as peers:
            for peer in peers:
                peer.expect_end()
        still_waits(host, waiting, idle_ends=True)
        host.ended()


def ask_and_never_read(peer: Peer, client: int, questions: int = DEAF_QUESTIONS) -> None:
    """Asks for so many long answers, or for as long as that can be sent."""
    put, peek = Key(1, client, 1, 1), Key(1, client, 1, 2)
    asked = frame(request(peek, {"call": "peek", "queue": 7}))
    with contextlib.suppress(OSError):
        peer.send(frame(hello(client)) + frame(request(put, give("put", DEAF_ITEM, queue=7))) + asked * questions)


def deaf_peers(program: str) -> None:
    """They ask and never read: with --stall each is ended, and meanwhile the good client is answered."""
    with beside_a_good_client(program, "--stall", str(STALL)) as host:
        peers = [host.connect(receive=KEPT) for _ in range(3)]
        with closing(peers):
            until("all are accepted", lambda: host.accepted() == 1 + len(peers))
            together(*(lambda peer=peer, client=client: ask_and_never_read(peer, client)
                       for client, peer in enumerate(peers, 1_000)))
            until("each deaf peer is ended", lambda: host.accepted() <= 1)


def resets_at_each_byte(program: str) -> str:
    """A client's talk is cut by a reset behind each of its bytes in turn, so that reads and writes fail anywhere."""
    with beside_a_good_client(program) as host:
        talk = [hello(1_000), request(Key(1, 1_000, 1, 1), give("put", "a", queue=7)),
                request(Key(1, 1_000, 1, 2), take("now", queue=7)), request(Key(1, 1_000, 1, 3), take("forever", queue=8))]
        data = b"".join(map(frame, talk))
        for cut in range(len(data) + 1):
            peer = host.connect()
            peer.send(data[:cut])
            if cut % 2 and cut > len(frame(talk[0])):
                peer.socket.recv(1)
            peer.reset()
        until("all are gone", lambda: host.accepted() <= 1)
    return f"{len(data) + 1} resets"


def a_flood(program: str) -> str:
    """Connections are made and closed, or reset, as fast as it goes; the host has none of them then."""
    with beside_a_good_client(program) as host:
        def flood() -> None:
            for number in range(FLOOD // THREADS):
                peer = host.connect()
                peer.reset() if number % 3 == 0 else peer.close()

        together(*[flood] * THREADS)
        until("all are gone", lambda: host.accepted() <= 1)
    return f"{FLOOD} connections"


def many_frames(program: str) -> None:
    """One connection may have as many frames as it likes."""
    count = 70_000
    with Host(program) as host, host.connect() as peer:
        def hear() -> None:
            left = count * len(frame(welcome(1)))
            while left:
                piece = peer.socket.recv(1_000_000)
                demand(piece, f"the connection ends {left} bytes early")
                left -= len(piece)

        together(lambda: peer.send(frame(hello(1)) * count), hear)
        demand(len(host.ended().entries) == 1, "the account has other than one entry")


CASES = [half_frames, idle_connections, deaf_peers, resets_at_each_byte, a_flood, many_frames]
