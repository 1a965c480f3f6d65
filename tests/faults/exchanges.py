"""How many reads and writes of its connection a worker needs, how much it holds back, and how often it pauses and asks."""
from tests.faults.system import HostileServer, System
from tests.faults.turns import see_end
from tests.model.account import Key
from tests.sockets.wire import Peer, cancel, demand, frame, give, hello, replied, request, take, waits, welcome

REQUESTS = 16
# Long answers that are asked for in one piece, how many of them there is room for, and how many bytes are held back at most.
LONG, IN_HAND, HELD = 30, 5, 16_384
# The pauses of a request that waits.
PAUSES = 200
# How often it is tried, where the machine cuts a piece in two.
TRIES = 10


def asked_in_one_piece(program: str) -> tuple[int, ...]:
    """The reads and writes of a connection over which a hello comes, and behind its welcome requests in one piece."""
    system = System()
    with HostileServer(program, system, workers=1, connections=1) as server:
        keys = [Key(1, 1, 1, number) for number in range(1, REQUESTS + 1)]
        with server.connect() as peer:
            peer.expect(hello(1), welcome(1))
            peer.send(b"".join(frame(request(key, give("put", "a"))) for key in keys))
            for key in keys:
                got = peer.hear()
                demand(got == replied(key, reply="done"), f"{key} was answered {got!r}")
            peer.end()
            peer.expect_end()
        server.judged({key: give("put", "a") for key in keys}, [])
    return system.asked()


def a_read_and_a_write_a_piece(program: str) -> None:
    """The answers to the requests of one piece go out in one write: beside the hello's there is one read, one write, and the
    read of the end. Before each read all answers are out, so there are never more writes than reads."""
    seen: list[tuple[int, ...]] = []
    while (3, 2) not in seen and len(seen) < TRIES:
        seen.append(asked_in_one_piece(program))
        demand(seen[-1][1] < seen[-1][0], f"of {REQUESTS} requests in a piece: {seen[-1]} reads and writes")
    demand((3, 2) in seen, f"{REQUESTS} requests in a piece have these reads and writes: {seen}")


def long_answers(program: str) -> tuple[int, ...]:
    """The reads and writes of a connection over which a hello comes, an item of the greatest length, and requests for it in one
    piece, which are repeats."""
    system = System()
    with HostileServer(program, system, workers=1, connections=1) as server:
        put, peek, item = Key(1, 1, 1, 1), Key(1, 1, 1, 2), "\x01" * 512
        asked, answer = {put: give("put", item), peek: {"call": "peek", "queue": 3}}, replied(peek, reply="peeked", item=item)
        demand(IN_HAND * len(frame(answer)) <= HELD < (IN_HAND + 1) * len(frame(answer)), f"{len(answer)} bytes of an answer")
        with server.connect() as peer:
            peer.expect(hello(1), welcome(1))
            peer.expect(request(put, asked[put]), replied(put, reply="done"))
            peer.send(frame(request(peek, asked[peek])) * LONG)
            for _ in range(LONG):
                got = peer.hear()
                demand(got == answer, f"{peek} was answered {got!r}")
            peer.end()
            peer.expect_end()
        server.judged(asked, [])
    return system.asked()


def what_is_held_back(program: str) -> None:
    """Of the answers to a piece as many are held back as there is room for, and then go out in one write; never more."""
    seen: list[tuple[int, ...]] = []
    wanted = (4, 2 + LONG // IN_HAND)
    while wanted not in seen and len(seen) < TRIES:
        seen.append(long_answers(program))
        demand(seen[-1][1] >= wanted[1], f"{LONG} long answers take {seen[-1]} reads and writes, and not {wanted}")
    demand(wanted in seen, f"{LONG} long answers to a piece have these reads and writes, and never {wanted}: {seen}")


def pauses_of_requests_that_wait(program: str) -> None:
    """A worker asks for a request that waits once more behind each of its pauses, at a moment of its own; whoever waited before in
    that connection. No pause is slept through here, and each reading of the clock fails."""
    system = System()
    with HostileServer(program, system, workers=1, connections=1) as server:
        system.be(clock=1, sleep=1)
        asked = {Key(1, 1, 1, number): take("forever") for number in (1, 2)}
        with server.connect() as peer:
            peer.expect(hello(1), welcome(1))
            for key in asked:
                seen: list[int] = []
                while PAUSES + 1 not in seen and len(seen) < TRIES:
                    seen.append(moments_of_a_wait(peer, system, key))
                    demand(seen[-1] > PAUSES, f"a request that waits is asked at {seen[-1]} moments")
                demand(PAUSES + 1 in seen, f"a request that waits is asked at these numbers of moments: {seen}")
                peer.expect(cancel(key), replied(key, reply="cancelled"))
        server.judged(asked, [(key, {"reply": "cancelled"}) for key in asked])


def moments_of_a_wait(peer: Peer, system: System, key: Key) -> int:
    """How often the clock is read for a take that waits, which now and then is once more than it is asked for. A sleep that is
    interrupted is slept again."""
    pauses, moments = system.made("sleep"), system.made("clock")
    peer.expect(request(key, take("forever")), waits(key))
    demand(system.made("sleep") - pauses >= PAUSES, f"it has {system.made('sleep') - pauses} pauses")
    return system.made("clock") - moments


def a_connection_that_is_broken(program: str) -> None:
    """Where the first answer to a piece can't be sent, its worker neither pauses nor reads on."""
    system, wish = System(), Key(1, 1, 1, 1)
    with HostileServer(program, system, workers=1, connections=2 * TRIES) as server:
        for rest in (frame(request(wish, take("forever"))) + frame(b"{"), b"\0"):
            seen: list[int] = []
            while 1 not in seen and len(seen) < TRIES:
                seen.append(reads_of_a_broken_one(server, system, frame(hello(1)) + rest))
            demand(1 in seen, f"a connection that is broken behind {rest[:9]!r} has these reads: {seen}")
        server.no_more()
        server.judged({wish: take("forever")}, [])


def reads_of_a_broken_one(server: HostileServer, system: System, piece: bytes) -> int:
    """How many reads there are of a connection over which a piece comes, and no byte can be sent."""
    reads, pauses = system.asked()[0], system.made("sleep")
    system.be(room=1, sleep=1)
    with server.connect() as peer:
        peer.send(piece)
        see_end(peer)
    demand(system.made("sleep") == pauses, "there is a pause in a connection that is broken")
    return system.asked()[0] - reads


CASES = [a_read_and_a_write_a_piece, what_is_held_back, pauses_of_requests_that_wait, a_connection_that_is_broken]
