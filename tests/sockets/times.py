"""What a server does in time, and how much it has in hand meanwhile. No limit measures the machine: what comes too early is
wrong at any speed, and what comes late is asked again where one quick answer is enough."""
import time

from tests.model.account import Key, Request
from tests.sockets.ledger import Asked
from tests.sockets.hosts import serving
from tests.sockets.plain import in_its_own_frame, told_that_it_waits
from tests.sockets.wire import Peer, demand, frame, give, hello, replied, request, take, together, until, welcome

# So often an item is waited for, until one comes before anything was acknowledged.
ITEMS = 500
# The pauses of a request that waits, each of so many seconds. So often one waits alone, until one takes not more than so many
# times as long as they do here.
PAUSES, PAUSE = 200, 0.005
WAITS_ALONE, MOST_TIMES = 4, 3
# Puts, and the seconds between them: no part of a tenth.
PUTS, STEP = 60, 0.007
# Requests that wait, in one piece.
PIECE = 37
# Connections that a server of so many workers is offered beside those that it may have in hand.
OFFERED = 5


def an_item_behind_an_answer(program: str) -> None:
    """A count and a take that waits come in one piece: the take's item leaves though the count's answer was not
    acknowledged. The client acknowledges late each time; only a slow machine does so before it looks."""
    with serving(program, workers=2, connections=2) as server:
        asked: Asked = {}
        with server.greeted(1) as taker, server.greeted(2) as giver:
            needed = (acknowledgements(taker, giver, number, asked) for number in range(ITEMS))
            demand(0 in needed, f"in {ITEMS} tries no item came before the answer in front of it was acknowledged")
        server.judged(asked, [])


def acknowledgements(taker: Peer, giver: Peer, number: int, asked: Asked) -> int:
    """How many the taker sends from a count and a take in one piece on, until something of the take's item is there, which is
    put behind the count's answer."""
    count, wish, gift = Key(1, 1, 1, 2 * number + 1), Key(1, 1, 1, 2 * number + 2), Key(1, 2, 1, number + 1)
    calls = {count: {"call": "count", "queue": 3}, wish: take("forever"), gift: give("put", "a")}
    asked.update(calls)
    counted, before = replied(count, reply="counted", items=0, consumers=0), taker.counted()
    taker.acknowledge(late=True)
    taker.send(frame(request(count, calls[count])) + frame(request(wish, calls[wish])))
    got = taker.hear()
    demand(got == counted, f"the count was answered {got!r}")
    giver.expect(request(gift, calls[gift]), replied(gift, reply="done"))
    came = taker.came(before, len(frame(counted)) + 1)
    in_its_own_frame(taker, wish, calls[wish], reply="item", item="a")
    return came.acknowledgements


def a_wait_ends(program: str) -> None:
    """A request that waits alone is told so behind as many pauses as there may be, each of them as short as it is to be: in one
    try at least it takes not much longer than as many pauses of this test's own, which are made meanwhile."""
    with serving(program, workers=1, connections=1) as server:
        asked: Asked = {}
        with server.greeted(1) as peer:
            def is_soon(number: int) -> bool:
                took, own = together(lambda: told_that_it_waits(peer, Key(1, 1, 1, number), asked), seconds_of_pauses)
                return took <= MOST_TIMES * own

            demand(any(is_soon(number) for number in range(1, 1 + WAITS_ALONE)),
                   f"{WAITS_ALONE} times a request that waits took more than {MOST_TIMES} times as long as its pauses")
        server.judged(asked, [])


def seconds_of_pauses() -> float:
    """The seconds that as many pauses take as a request that waits has."""
    began = time.monotonic()
    for _ in range(PAUSES):
        time.sleep(PAUSE)
    return time.monotonic() - began


def moments_beside_a_clock(program: str) -> None:
    """The account's moments are milliseconds: between two requests as many as this clock counts, from the first's answer to the
    second's sending at least, and from the first's sending to the second's answer at most."""
    began = time.monotonic()
    with serving(program, workers=1, connections=1) as server:
        spans: list[tuple[float, float]] = []
        asked: Asked = {}
        with server.greeted(1) as peer:
            for number in range(1, 1 + PUTS):
                key = Key(1, 1, 1, number)
                asked[key] = give("put", "a")
                time.sleep(STEP)
                sent = time.monotonic()
                peer.expect(request(key, asked[key]), replied(key, reply="done"))
                spans.append((1000 * (sent - began), 1000 * (time.monotonic() - began)))
        account = server.judged(asked, [])
    moments = [entry.moment for entry in account.entries if isinstance(entry.act, Request)]
    first_of_all = moments[0] - account.opened
    demand(first_of_all <= spans[0][1] + 1, f"moment {first_of_all} stands {spans[0][1]:.1f} milliseconds behind the start")
    pairs = [*((at - 1, at) for at in range(1, PUTS)), (0, PUTS - 1)]
    for first, second in pairs:
        least, most = spans[second][0] - spans[first][1], spans[second][1] - spans[first][0]
        passed = moments[second] - moments[first]
        demand(least - 1 < passed < most + 1, f"between moments {moments[first]} and {moments[second]} there were "
               f"{least:.1f} milliseconds at least, and {most:.1f} at most")


def a_peer_that_goes(program: str) -> None:
    """Requests that wait come in one piece, and their client closes: its worker is free long before all of them were waited
    for."""
    with serving(program, workers=1, connections=2) as server:
        asked: Asked = {}
        key = Key(1, 1, 1, 2)
        with server.greeted(1) as peer:
            alone = told_that_it_waits(peer, Key(1, 1, 1, 1), asked)
            asked[key] = take("forever")
            peer.send(frame(request(key, asked[key])) * PIECE)
        began = time.monotonic()
        with server.connect() as other:
            other.expect(hello(2), welcome(2))
        took = time.monotonic() - began
        demand(took < PIECE / 4 * alone, f"its worker was free after {took:.1f} seconds, and one wait takes {alone:.1f}")
        server.judged(asked, [])


def connections_in_hand(program: str) -> None:
    """A server serves as many connections as it has workers, has accepted as many more and one, and lets the others wait to
    be accepted. Each is served in its turn."""
    for workers in (1, 3):
        in_hand = 2 * workers + 1
        with serving(program, workers, connections=in_hand + OFFERED) as server:
            first = server.greeted(1)
            peers = [first, *(server.connect() for _ in range(in_hand + OFFERED - 1))]
            until("the server rests", server.rests)
            demand(server.accepted() == in_hand, f"{workers} workers: {server.accepted()} of {len(peers)} are accepted")
            for client, peer in enumerate(peers, 1):
                peer.expect(hello(client), welcome(client))
                peer.close()
            server.judged({}, [])


CASES = [an_item_behind_an_answer, a_wait_ends, moments_beside_a_clock, a_peer_that_goes, connections_in_hand]
