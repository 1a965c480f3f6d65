"""What a server does for few clients: hand-overs, waits, ends, ports, addresses and words."""
from __future__ import annotations

import contextlib
import itertools
import os
import socket
import subprocess
import threading
import time
from collections.abc import Callable, Iterable, Iterator, Mapping

from tests.model.account import Key, receipt
from tests.sockets.ledger import Asked, Told
from tests.sockets.hosts import serving
from tests.sockets.programs import Served, taken_port
from tests.sockets.wire import (
    BAD_TEXT, MAX_FRAME, PATIENCE, Members, Packets, Peer, Wrong, cancel, demand, drain, frame, give, hello, members_of,
    refused, replied, reply_of, request, take, together, until, waits, welcome)

GREATEST = 2**53 - 1
FRAMES = 65_536
# Requests in a row, of which most must not wait.
EXCHANGES = 300
# How many wait at once. One after another, each would be told so only behind the time that one takes alone.
WAITING = 40
# The pauses of a worker for a request that waits, and the seconds of each.
PAUSES, PAUSE = 200, 0.005
# A request is asked again for about a second. Where the machine was too slow for what is to happen in it, all is done
# anew, so often at most.
ATTEMPTS = 30
# The client that looks whether a request stands.
LOOKER = 900


class Looker:
    """A client that counts a queue, until what was sent over another connection stands there."""

    def __init__(self, server: Served, queue: int = 3):
        self.peer, self.epoch, self.queue = server.greeted(LOOKER), server.epoch, queue
        self.asked: Asked = {}

    def __enter__(self) -> Looker:
        return self

    def __exit__(self, *_: object) -> None:
        self.peer.close()

    def counted(self) -> tuple[int, int]:
        """How many items and consumers wait."""
        key, call = Key(self.epoch, LOOKER, 1, len(self.asked) + 1), {"call": "count", "queue": self.queue}
        self.asked[key] = call
        told = self.peer.told(request(key, call))
        return told["items"], told["consumers"]

    def sees(self, items: int = 0, consumers: int = 0) -> None:
        """Waits until so many wait."""
        until(f"{items} items and {consumers} consumers wait", lambda: self.counted() == (items, consumers))


def attempted(attempt: Callable[[int], bool]) -> None:
    """Attempts it with the numbers from 0 on, until one comes about: it gives whether the machine was quick enough."""
    demand(any(attempt(number) for number in range(ATTEMPTS)), f"in none of {ATTEMPTS} attempts it was told in its own frame")


def settled(peer: Peer, body: bytes, answer: Members) -> Members:
    """The answer to a body that is asked again for as long as it is told that it waits."""
    for _ in range(ATTEMPTS):
        if answer["kind"] != "waiting":
            break
        answer = peer.told(body)
    return answer


def in_its_own_frame(peer: Peer, key: Key, call: Members, **reply: object) -> bool:
    """Whether the request that waited is told its reply in the frame that comes now. Where it is told that it waits, it
    is told its reply when it is asked again."""
    got = peer.hear()
    if got == waits(key):
        peer.expect(request(key, call), replied(key, **reply))
        return False
    demand(got == replied(key, **reply), f"the request that waited was answered {got!r}")
    return True


def a_hand_over(program: str) -> None:
    """Two clients over two connections that are open at once; each asks again and gets its reply again."""
    with serving(program, workers=2, connections=2, epoch=7) as server:
        giver, taker, told = Key(7, 1, 1, 1), Key(7, 2, 1, 1), []
        gift, wish = give("transfer", "a", "forever"), take("forever")
        with server.greeted(1) as one, server.greeted(2) as two:
            one.send(frame(request(giver, gift)))
            taken = settled(two, request(taker, wish), two.told(request(taker, wish)))
            demand(taken == {"kind": "reply", **vars(taker), "reply": "item", "item": "a"}, f"the taker is told {taken}")
            answer = settled(one, request(giver, gift), members_of(one.hear() or b""))
            demand(answer == {"kind": "reply", **vars(giver), "reply": "received"}, f"the giver is told {answer}")
            for _ in range(3):
                one.expect(request(giver, gift), replied(giver, reply="received"))
                two.expect(request(taker, wish), replied(taker, reply="item", item="a"))
            told = [(giver, {"reply": "received"}), (taker, {"reply": "item", "item": "a"})]
        account = server.judged({giver: gift, taker: wish}, told)
        demand(len(account.entries) == 4, "the account has other than four entries")


# The account of two clients, one after the other, without its moments.
ONE_BY_ONE = [
    b'epoch 1 opened',
    b'- {"client":1,"incarnation":1,"kind":"hello"}',
    b'- {"call":"put","client":1,"epoch":1,"incarnation":1,"item":"a","kind":"request","number":1,"queue":3}',
    b'- {"client":2,"incarnation":1,"kind":"hello"}',
    b'1 {"call":"take","client":2,"epoch":1,"incarnation":1,"kind":"request","number":1,"queue":3,"wait":"now"}',
]


def one_after_the_other(program: str) -> None:
    """A client puts and closes, and then another one connects, polls and closes: what each is told, and the account, line
    for line but for the moments."""
    put, poll = Key(1, 1, 1, 1), Key(1, 2, 1, 1)
    with serving(program, workers=2, connections=2) as server:
        with server.greeted(1) as first:
            first.expect(request(put, give("put", "a")), replied(put, reply="done"))
        with server.greeted(2) as second:
            second.expect(request(poll, take("now")), replied(poll, reply="item", item="a"))
        server.judged({put: give("put", "a"), poll: take("now")},
                      [(put, {"reply": "done"}), (poll, {"reply": "item", "item": "a"})])
        head, *entries = server.written().splitlines()
        got = [head.rpartition(b" ")[0], *(line.partition(b" ")[2] for line in entries)]
        demand(got == ONE_BY_ONE, f"the account is {server.written()!r}")


def a_consumer_that_waits(program: str) -> None:
    """A take that waits in one connection is met by a put from another, and told so in its own frame."""
    with serving(program, workers=3, connections=3) as server:
        asked: Asked = {}
        with server.greeted(1) as giver, server.greeted(2) as taker, Looker(server) as looker:
            def attempt(number: int) -> bool:
                one, two = (Key(1, client, 1, number + 1) for client in (1, 2))
                asked.update({one: give("put", "a"), two: take("forever")})
                taker.send(frame(request(two, asked[two])))
                looker.sees(consumers=1)
                giver.expect(request(one, asked[one]), replied(one, reply="done"))
                return in_its_own_frame(taker, two, asked[two], reply="item", item="a")

            attempted(attempt)
        server.judged(asked | looker.asked, [])


def an_answer_before_a_wait(program: str) -> None:
    """What is asked in one piece before a request that waits is answered while that waits: an item comes for it once its
    client has the welcome."""
    with serving(program, workers=2, connections=ATTEMPTS + 1) as server:
        with server.greeted(1000) as giver:
            attempted(lambda number: is_met_behind_its_welcome(server, giver, number + 1))
        server.use_up()
        server.ended()


def is_met_behind_its_welcome(server: Served, giver: Peer, client: int) -> bool:
    """Whether a client that says hello and waits, all in one piece, is told of the item that is put at its welcome."""
    wish, gift = Key(1, client, 1, 1), Key(1, 1000, 1, client)
    with server.connect() as taker:
        taker.send(frame(hello(client)) + frame(request(wish, take("forever"))))
        got = taker.hear()
        demand(got == welcome(client), f"the hello was answered {got!r}")
        giver.expect(request(gift, give("put", "a")), replied(gift, reply="done"))
        return in_its_own_frame(taker, wish, take("forever"), reply="item", item="a")


def a_drain(program: str) -> None:
    """It takes the oldest items in one step, of a transfer that waits in another connection too, which is told so in its own
    frame; its repeat is told the same, and what it did not take stays. Its longest reply comes in one frame."""
    with serving(program, workers=3, connections=3) as server:
        asked: Asked = {}
        told: Told = []
        ones, twos = itertools.count(1), itertools.count(1)
        with server.greeted(1) as giver, server.greeted(2) as taker, Looker(server) as looker:
            def ask(client: int, call: Members) -> Key:
                key = Key(1, client, 1, next(ones if client == 1 else twos))
                asked[key] = call
                return key

            def puts(item: str) -> None:
                key = ask(1, give("put", item))
                giver.expect(request(key, asked[key]), replied(key, reply="done"))

            def drains(most: int, texts: list[str], times: int = 1) -> None:
                key = ask(2, drain(most))
                for _ in range(times):
                    taker.expect(request(key, asked[key]), replied(key, reply="drained", texts=texts))
                told.append((key, {"reply": "drained", "texts": texts}))

            def attempt(_: int) -> bool:
                puts("a")
                gift = ask(1, give("transfer", "b", "forever"))
                giver.send(frame(request(gift, asked[gift])))
                looker.sees(items=2)
                drains(16, ["a", "b"], times=2)
                drains(1, [])
                return in_its_own_frame(giver, gift, asked[gift], reply="received")

            attempted(attempt)
            for _ in range(17):
                puts("\x01" * 512)
            for count in (16, 1):
                drains(16, ["\x01" * 512] * count)
        server.judged(asked | looker.asked, told)


def a_request_that_waits_alone(program: str) -> None:
    """It is asked again for about a second, each in a connection anew; one with a limit is told so in its own frame."""
    with serving(program, workers=1, connections=1) as server:
        first, second, third, fourth = (Key(1, 1, 1, number) for number in range(1, 5))
        with server.greeted(1) as peer:
            for key in (first, first, third):
                if key == third:
                    peer.expect(cancel(first), replied(first, reply="cancelled"))
                    peer.expect(request(second, take(20)), replied(second, reply="timedout"))
                began = time.monotonic()
                peer.expect(request(key, take("forever")), waits(key))
                took = time.monotonic() - began
                demand(took > 0.9, f"it was told that its request waits after {took:.3f} seconds")
            peer.expect(cancel(third), replied(third, reply="cancelled"))
            peer.expect(request(fourth, give("transfer", "a", 300)), replied(fourth, reply="timedout"))
        asked = {first: take("forever"), second: take(20), third: take("forever"), fourth: give("transfer", "a", 300)}
        server.judged(asked, [(first, {"reply": "cancelled"}), (second, {"reply": "timedout"})])


def repeats(program: str) -> None:
    """What is asked again is told the same and not done again, and an item whose giver was told that nobody took it goes to
    nobody."""
    with serving(program, workers=1, connections=1) as server:
        asked: Asked = {}
        told: Told = []
        numbers = itertools.count(1)
        with server.greeted(1) as peer:
            def twice(call: Members, **reply: object) -> None:
                key = Key(1, 1, 1, next(numbers))
                asked[key] = call
                told.append((key, reply))
                for _ in range(2):
                    peer.expect(request(key, call), replied(key, **reply))

            twice(give("put", "a"), reply="done")
            twice(take("now"), reply="item", item="a")
            twice(take("now"), reply="empty")
            ends: list[tuple[str | int, str]] = [("now", "nobody"), (0, "timedout"), (20, "timedout")]
            for wait, word in ends:
                twice(give("transfer", "b", wait), reply=word)
                twice(take("now"), reply="empty")
        server.judged(asked, told)


def sessions_of_both_versions(program: str) -> None:
    """A hello tells its session's version, which no other hello of its incarnation changes. In the second a transfer is
    told who took its item: in its own frame where it waits, at once where a consumer does, and again."""
    with serving(program, workers=4, connections=4) as server:
        asked: Asked = {}
        told: Told = []
        numbers = {client: itertools.count(1) for client in (1, 2, 3)}

        def ask(client: int, call: Members) -> Key:
            key = Key(1, client, 1, next(numbers[client]))
            asked[key] = call
            return key

        with server.greeted(1, version=2) as giver, server.greeted(2) as other, server.greeted(3) as taker, \
                Looker(server) as looker:
            def transfer_waits(peer: Peer, client: int) -> bool:
                gift, wish = ask(client, give("transfer", "a", "forever")), ask(3, take("forever"))
                peer.send(frame(request(gift, asked[gift])))
                looker.sees(items=1)
                taker.expect(request(wish, asked[wish]), replied(wish, reply="item", item="a"))
                told.append((gift, receipt(3 - client, wish)))
                quick = in_its_own_frame(peer, gift, asked[gift], **told[-1][1])
                peer.expect(hello(client, version=3 - client), welcome(client, version=3 - client))
                peer.expect(request(gift, asked[gift]), replied(gift, **told[-1][1]))
                return quick

            def take_waits(_: int) -> bool:
                wish, gift = ask(3, take("forever")), ask(1, give("transfer", "b", "now"))
                taker.send(frame(request(wish, asked[wish])))
                looker.sees(consumers=1)
                told.append((gift, receipt(2, wish)))
                giver.expect(request(gift, asked[gift]), replied(gift, **told[-1][1]))
                return in_its_own_frame(taker, wish, asked[wish], reply="item", item="b")

            for peer, client, version in [(giver, 1, 2), (other, 2, 1)]:
                peer.expect(hello(client, version=3 - version), refused(12, current=version))
                peer.expect(hello(client, version=3), BAD_TEXT)
            for peer, client in [(giver, 1), (other, 2)]:
                attempted(lambda _: transfer_waits(peer, client))
            attempted(take_waits)
        server.judged(asked | looker.asked, told)


def many_that_wait(program: str) -> None:
    """Requests that wait at once, each in a connection of its own, wait beside each other: were the book locked while
    one pauses, the last would be told so much later. Then each gets one of as many items."""
    with serving(program, workers=WAITING + 1, connections=WAITING + 1) as server:
        keys = [Key(1, client, 1, 1) for client in range(1, WAITING + 1)]
        peers = [server.greeted(key.client) for key in keys]
        asked: Asked = {}
        first = Key(1, 1, 1, 1)
        alone = told_that_it_waits(peers[0], first, asked)
        keys[0] = Key(1, 1, 1, 2)
        with paced() as turns:
            began = time.monotonic()
            for peer, key in zip(peers, keys):
                peer.send(frame(request(key, take("forever"))))
            for peer, key in zip(peers, keys):
                got = peer.hear()
                demand(got == waits(key), f"{key} was answered {got!r}")
            took = time.monotonic() - began
        one = max(alone, *turns)
        demand(took < WAITING / 4 * one,
               f"{WAITING} requests that wait were told so after {took:.1f} seconds, and one alone after {one:.1f}")
        giver, told = 1_000, []
        asked.update((key, take("forever")) for key in keys)
        with server.greeted(giver) as peer:
            for number in range(1, WAITING + 1):
                key = Key(1, giver, 1, number)
                asked[key] = give("put", f"item {number}")
                peer.expect(request(key, asked[key]), replied(key, reply="done"))
        for peer, key in zip(peers, keys):
            told.append((key, reply_of(peer.told(request(key, asked[key])))))
            peer.close()
        items = sorted(reply.get("item", "") for _, reply in told)
        demand(items == sorted(f"item {number}" for number in range(1, WAITING + 1)), f"they got {items}")
        server.judged(asked, [(first, {"reply": "cancelled"}), *told])


@contextlib.contextmanager
def paced() -> Iterator[list[float]]:
    """Pauses beside what is measured, as a worker does for a request that waits. It gives the seconds that each turn took,
    which are more where the machine is slow, and one turn at least."""
    turns, ended = list[float](), threading.Event()

    def pace() -> None:
        while not ended.is_set():
            began = time.monotonic()
            for _ in range(PAUSES):
                time.sleep(PAUSE)
            turns.append(time.monotonic() - began)

    pacer = threading.Thread(target=pace)
    pacer.start()
    try:
        yield turns
    finally:
        ended.set()
        pacer.join()


def told_that_it_waits(peer: Peer, key: Key, asked: Asked) -> float:
    """The seconds until a take that waits alone is told so, which is cancelled then."""
    asked[key], began = take("forever"), time.monotonic()
    peer.expect(request(key, asked[key]), waits(key))
    took = time.monotonic() - began
    peer.expect(cancel(key), replied(key, reply="cancelled"))
    return took


def a_new_incarnation(program: str) -> None:
    """A client that starts anew ends what waits, also while it is asked for in another connection."""
    with serving(program, workers=3, connections=4) as server:
        asked: Asked = {}
        told: Told = []
        gift = give("transfer", "a", "forever")
        with server.greeted(1) as old, server.connect() as new, Looker(server) as looker:
            def attempt(number: int) -> bool:
                key, later = Key(1, 1, number + 1, 1), number + 2
                asked[key], gone = gift, refused(4, current=later)
                told.append((key, {"reply": "cancelled"}))
                old.send(frame(request(key, gift)))
                looker.sees(items=1)
                new.expect(hello(1, later), welcome(1, 1, later))
                got = old.hear()
                if got == waits(key):
                    old.expect(request(key, gift), gone)
                    return False
                demand(got == gone, f"the old one was answered {got!r}")
                return True

            attempted(attempt)
        with server.greeted(2) as taker:
            other = Key(1, 2, 1, 1)
            asked[other] = take("now")
            taker.expect(request(other, take("now")), replied(other, reply="empty"))
        server.judged(asked | looker.asked, [*told, (other, {"reply": "empty"})])


def long_texts(program: str) -> None:
    """Bodies and items of the greatest length, and one byte more; bodies about as long as a piece that is read, and of none."""
    with serving(program, workers=1, connections=1, epoch=GREATEST) as server:
        items = ["x" * 512, "\x01" * 512, "é" * 256, ""]
        asked: Asked = {}
        with server.connect() as peer:
            for size in (4_094, 4_095, 4_096, 4_097, MAX_FRAME):
                peer.expect(hello(1).ljust(size), welcome(1, GREATEST))
            for body in (b"{", b"{}", b"x" * MAX_FRAME):
                peer.expect(body, BAD_TEXT)
            for number, item in enumerate(items):
                given, taken = Key(GREATEST, 1, 1, 2 * number + 1), Key(GREATEST, 1, 1, 2 * number + 2)
                asked |= {given: give("put", item), taken: take("now")}
                peer.expect(request(given, give("put", item + "y" * 513)), BAD_TEXT)
                peer.expect(request(given, asked[given]), replied(given, reply="done"))
                peer.expect(request(taken, asked[taken]), replied(taken, reply="item", item=item))
            peer.expect(request(Key(1, 1, 1, 9), take("now")), b'{"code":2,"current":%d,"kind":"refused"}' % GREATEST)
        server.judged(asked, [])


def ends_of_connections(program: str) -> None:
    """Frames before a cut frame or a bad length are answered, and nothing behind it."""
    cut = [b"", b"\x00", b"\x00\x2b{", b"\x10\x01", b"\xff\xff", b"\xff\xff" + 5_000 * b"x", b"\xff\xff" + 65_534 * b"x"]
    ends = [*cut, b"\x00\x00", b"\x00\x00" + frame(hello(1)), b"\x00\x00" + 5_000 * b"x"]
    with serving(program, workers=2, connections=2 * len(ends) + 1) as server:
        for end in ends:
            for count in (0, 3):
                with server.connect() as peer:
                    peer.send(count * frame(hello(1)) + end)
                    if end in cut:
                        peer.end()
                    for _ in range(count):
                        got = peer.hear()
                        demand(got == welcome(1), f"before {end[:9]!r} a hello was answered {got!r}")
                    peer.expect_end()
        with server.connect() as peer:
            peer.expect(hello(1), welcome(1))
        server.judged({}, [])


def too_many_frames(program: str) -> None:
    """One connection's frames up to the most are answered, and then it ends."""
    with serving(program, workers=1, connections=2) as server:
        with server.connect() as peer:
            peer.socket.settimeout(2 * PATIENCE)
            data, wanted, got = frame(hello(1)) * (FRAMES + 1), frame(welcome(1)) * FRAMES, bytearray()

            def hear() -> None:
                with contextlib.suppress(ConnectionError):
                    while piece := peer.socket.recv(1_000_000):
                        got.extend(piece)

            together(lambda: peer.send(data), hear)
            demand(got == wanted, f"{len(got) // len(frame(welcome(1)))} answers came, not {FRAMES}")
        with server.connect() as peer:
            peer.expect(hello(1), welcome(1))
        account = server.judged({}, [])
        demand(len(account.entries) == 1, "the account has other than one entry")


def no_packet_waits(program: str) -> None:
    """A request costs one exchange of packets: none of an answer waits until the one before it was acknowledged."""
    with serving(program, workers=1, connections=1) as server:
        with server.greeted(1) as peer:
            none_waits(has_waited(peer, Key(1, 1, 1, number)) for number in range(1, 1 + EXCHANGES))
        server.ended()


def has_waited(peer: Peer, key: Key) -> bool:
    """Whether a packet of the answer to a put waited."""
    done, before = replied(key, reply="done"), peer.counted()
    peer.acknowledge(late=True)
    peer.send(frame(request(key, give("put", "a"))))
    came = peer.came(before, len(frame(done)))
    got = peer.hear()
    demand(got == done, f"a put was answered {got!r}")
    return is_late(came)


def is_late(came: Packets) -> bool:
    """Whether one of these packets may have waited until another was acknowledged: there are more than one, and an
    acknowledgement was sent. Who sends them together needs none; only a slow machine sends one then, as it looks too late."""
    return came.packets > 1 and came.acknowledgements > 0


def none_waits(exchanges: Iterable[bool]) -> None:
    """Ends the test where in most of these exchanges a packet waited."""
    late = 0
    for is_one_late in exchanges:
        late += is_one_late
        demand(late <= EXCHANGES / 2, f"in {late} of {EXCHANGES} exchanges a packet waited until another was acknowledged")


def its_connections(program: str) -> None:
    """A server ends after its connections, and not before; with none it ends at once."""
    for count in (0, 1, 5):
        with serving(program, workers=3, connections=count) as server:
            for client in range(1, count + 1):
                demand(server.runs(), f"serve ended before its connection {client}")
                server.greeted(client).close()
            server.judged({}, [])


def a_late_client(program: str) -> None:
    """Who comes after the last accept is refused, and not left waiting, though a connection is still served."""
    with serving(program, workers=2, connections=1) as server:
        with server.greeted(1) as peer:
            def is_refused() -> bool:
                try:
                    late = server.connect()
                except ConnectionError:
                    return True
                with late:
                    late.socket.settimeout(1)
                    try:
                        late.send(frame(hello(2)))
                        return not late.more()
                    except ConnectionError:
                        return True
                    except TimeoutError:
                        return False

            until("a late client is refused", is_refused)
            demand(server.runs(), "serve ended before its last connection did")
            peer.expect(hello(1), welcome(1))
        server.judged({}, [])


def a_silent_peer(program: str) -> None:
    """It holds its worker, while others are served by another; one more waits until a worker is free."""
    with serving(program, workers=2, connections=4) as server:
        silent = server.connect()
        with server.greeted(1) as peer:
            peer.expect(hello(1), welcome(1))
            with server.connect() as third:
                third.send(frame(hello(3)))
                third.socket.settimeout(0.3)
                try:
                    third.hear()
                    demand(False, "two workers serve three connections that are open")
                except TimeoutError:
                    pass
                third.socket.settimeout(PATIENCE)
                silent.close()
                got = third.hear()
                demand(got == welcome(3), f"the third was answered {got!r}")
                peer.expect(hello(1), welcome(1))
        server.greeted(4).close()
        server.judged({}, [])


def many_at_once(program: str) -> None:
    """As many connections as workers, all open at once; each is answered, and all are served again after it."""
    with serving(program, workers=64, connections=128) as server:
        for _ in range(2):
            peers = [server.connect() for _ in range(64)]
            for client, peer in enumerate(peers, 1):
                peer.expect(hello(client), welcome(client))
            for client, peer in reversed([*enumerate(peers, 1)]):
                peer.expect(hello(client), welcome(client))
                peer.close()
        server.judged({}, [])


def a_port_that_is_taken(program: str) -> None:
    """A server on a port where somebody listens."""
    with socket.socket() as other:
        other.bind(("127.0.0.1", 0))
        other.listen()
        ends_so(program, serve_words(listen=f"127.0.0.1:{other.getsockname()[1]}"), 1, b"address fault\n")


def nobody_listens(program: str) -> None:
    """A caller where nobody listens prints nothing, and doesn't read its input."""
    read, write = os.pipe()
    try:
        with taken_port() as port:
            words = call_words(connect=f"127.0.0.1:{port}")
            ran = subprocess.run([program, *words], stdin=read, capture_output=True, timeout=PATIENCE)
        judge(words, ran, 1, b"address fault\n")
    finally:
        os.close(read)
        os.close(write)


def broken_input() -> socket.socket:
    """An input whose reading fails: a connection that the other end has reset."""
    with socket.create_server(("127.0.0.1", 0)) as listener:
        broken = socket.create_connection(listener.getsockname())
        Peer(listener.accept()[0]).reset()
    return broken


def broken_streams(program: str) -> None:
    """A caller whose input can't be read asks nothing; where printing fails it says so, and so does a server that prints
    its account."""
    with serving(program, workers=1, connections=2) as server:
        server.greeted(1).close()
        words = call_words(connect=f"127.0.0.1:{server.port}")
        with broken_input() as broken:
            ran = subprocess.run([program, *words], stdin=broken.fileno(), capture_output=True, timeout=PATIENCE)
        judge(words, ran, 1, b"run fault 1\n")
        demand(len(server.ended().entries) == 1, "the account has other than one entry")
    with serving(program, workers=1, connections=2) as server, open("/dev/full", "wb") as full:
        server.greeted(2).close()
        words = call_words(connect=f"127.0.0.1:{server.port}")
        text = b'{"call":"put","item":"a","queue":3}\n' * 2
        ran = subprocess.run([program, *words], input=text, stdout=full, stderr=subprocess.PIPE, timeout=PATIENCE)
        demand((ran.returncode, ran.stderr) == (1, b"run fault 2\n"), f"a caller that can't print: {ran}")
        demand(len(server.ended().entries) == 3, "a caller that can't print goes on, or did not ask")
    with open("/dev/full", "wb") as full:
        ran = subprocess.run([program, *serve_words()], input=b"", stdout=full, stderr=subprocess.PIPE, timeout=PATIENCE)
    demand((ran.returncode, ran.stderr) == (1, b"run fault 2\n"), f"a server that can't print its account: {ran}")


def addresses(program: str) -> None:
    """Addresses that are none."""
    for text in ["127.0.0.1", "127.0.0.1:", ":", "", "127.0.0.1:65536", "127.0.0.1:99999", "127.0.0.1:x", "127.0.0.1:-1",
                 "127.0.0.1:1:1", "[::1", "::1", "127.0.0.1:0x50", "127.0.0.1 :80", "127.0.0.1:80 "]:
        ends_so(program, serve_words(listen=text), 1, b"address fault\n")
        ends_so(program, call_words(connect=text), 1, b"address fault\n")


def serve_words(**other: str | None) -> list[str]:
    """The words of a server that would end at once."""
    return words_of("serve", {"listen": "127.0.0.1:0", "epoch": "1", "workers": "1", "connections": "0"} | other)


def call_words(**other: str | None) -> list[str]:
    """The words of a caller that finds nobody."""
    options = {"connect": "127.0.0.1:1", "client": "1", "incarnation": "1", "tries": "1", "speak": "1"}
    return words_of("call", options | other)


def words_of(command: str, options: Mapping[str, str | None]) -> list[str]:
    """A command with its options; one that is None is left out."""
    given = [(f"--{name}", value) for name, value in options.items() if value is not None]
    return [command, *(word for pair in given for word in pair)]


def ends_so(program: str, words: list[str], status: int, said: bytes, printed: bytes = b"") -> None:
    """The program with these words ends so."""
    try:
        ran = subprocess.run([program, *words], input=b"", capture_output=True, timeout=PATIENCE)
    except subprocess.TimeoutExpired:
        raise Wrong(f"{words} did not end") from None
    judge(words, ran, status, said, printed)


def judge(words: list[str], ran: subprocess.CompletedProcess[bytes], status: int, said: bytes, printed: bytes = b"") -> None:
    """A run must have ended so."""
    got = (ran.stdout, ran.stderr, ran.returncode)
    demand(got == (printed, said, status), f"{words}: {got}")


def bad_words(program: str) -> None:
    """Words at `serve` and `call` that are no command, and limits of their numbers."""
    bad = (2, b"command fault 1\n")
    for name in ("listen", "epoch", "workers", "connections"):
        ends_so(program, serve_words(**{name: None}), *bad)
    for name in ("connect", "client", "incarnation", "tries", "speak"):
        ends_so(program, call_words(**{name: None}), *bad)
    odd = ["", "x", "-1", "+1", "1.0", " 1", "1 ", "0x1", "1" + "0" * 19, "０"]
    limits = {"epoch": ["0", "9007199254740992"], "workers": ["0", "65"], "connections": ["4294967296"],
              "client": ["0", "9007199254740992"], "incarnation": ["0", "9007199254740992"], "tries": ["4294967296"],
              "speak": ["0", "3"]}
    for name, values in limits.items():
        for value in [*odd, *values]:
            words_with = serve_words if name in ("epoch", "workers", "connections") else call_words
            ends_so(program, words_with(**{name: value}), *bad)
    for words in [serve_words() + ["--tries", "1"], serve_words() + ["--epoch", "1"], serve_words() + ["x"],
                  serve_words() + ["--speak", "1"], call_words() + ["--speak", "1"], call_words() + ["--epoch", "1"],
                  call_words() + ["x"], ["serve"], ["call"], ["serve", "--help"],
                  ["call", "--help"], ["--epoch", "1", *serve_words(epoch=None)], ["Serve", *serve_words()[1:]]]:
        ends_so(program, words, *bad)
    for options in [{"epoch": str(GREATEST)}, {"workers": "64"}, {"workers": "0000000000000000064"}, {"epoch": "01"}]:
        ran = subprocess.run([program, *serve_words(**options)], input=b"", capture_output=True, timeout=PATIENCE)
        first = b"epoch %d opened 0\n" % int(options.get("epoch", "1"))
        demand((ran.stdout, ran.stderr, ran.returncode) == (first, b"", 0), f"{options}: {ran}")
    for options in [{"tries": "0"}, {"tries": "4294967295"}, {"client": str(GREATEST)}, {"incarnation": str(GREATEST)},
                    {"speak": "2"}, {"speak": "02"}]:
        ends_so(program, call_words(**options), 1, b"address fault\n")


CASES = [
    a_hand_over, one_after_the_other, a_consumer_that_waits, an_answer_before_a_wait, a_drain, repeats,
    a_request_that_waits_alone, sessions_of_both_versions, many_that_wait, a_new_incarnation, long_texts,
    ends_of_connections, too_many_frames, no_packet_waits, its_connections, a_late_client, a_silent_peer, many_at_once,
    a_port_that_is_taken, nobody_listens, broken_streams, addresses, bad_words,
]
