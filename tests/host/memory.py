"""What a host keeps of its connections, by --memory, and of its descriptors: who is closed, what counts, and what is left for the
host itself."""
from __future__ import annotations

import contextlib
import resource
import time
from collections.abc import Iterator

from tests.faults.system import HostileHost, System
from tests.host.hostile import ask_and_never_read
from tests.host.many import closing, connected
from tests.host.moments import ASKED, KEPT, LOOK_OVER, QUESTIONS, Stopped, is_silent
from tests.host.peers import peers as sending
from tests.host.status import numbers, shows
from tests.host.watch import most_memory
from tests.model.account import Key
from tests.sockets.hosts import Host
from tests.sockets.programs import free_port
from tests.sockets.wire import Peer, demand, frame, hello, request, take, until, welcome

# The MiB that all buffers may have, and their bytes.
MEBIBYTE, BYTES = 1, 1 << 20
# Bytes behind requests that wait, which just fit, one of which are the most; and those of one more, after which that one is to go.
BEHIND, LARGEST, MORE = [3_900] * 12 + [3_950] + [3_900] * 255, 12, 3_900
# The seconds for which the memory may be full, and the queues of those who wait, from 0 on, for which nobody else asks.
STALL, QUEUES = 4, 7
# A host holds more than so many bytes of a peer that takes no answers.
HELD = 65_536
# So many wait fewer where there is to be room for what a peer that takes no answers has sent.
ROOM = 4
# A client that comes where nothing more may be held.
LATE = 1_000
# Half frames that are far more than may be held, the most bytes that come at a time, and so often it is looked how much is held.
HALVES, HALF, PIECE, LOOKS = 60, 64_000, 4_096, 10
# Peers that send without end or take no answers. For each connection that may be open a share of what it sent may be answered beside
# the bound, and one share has less than so many bytes of answers. The MiB that the process may have beside the bound.
SENDING, SHARE, ANSWERS, BESIDE = {"greedy": 70, "pipelines": 10, "deaf": 30, "nested": 10}, 4_096, 65_536, 40
# The open files that a host may have, how many it keeps for itself without and with a status address, and who comes beyond those.
FILES, SPARE, STATUS_SPARE, BEYOND = 100, 16, 49, 2


def the_largest_is_closed(program: str) -> None:
    """Bytes behind requests that wait just fit into --memory. After some more, once that has lasted for --stall, the connection that
    holds most is closed, and no other one."""
    with Stopped(program, options=("--memory", str(MEBIBYTE), "--stall", str(STALL))) as host:
        with closing([host.greeted(client) for client in range(1, len(BEHIND) + 2)]) as peers:
            demand(sum(BEHIND) <= BYTES < sum(BEHIND) + MORE, "what is held is not such that just one is too much")
            wait_behind(peers, BEHIND)
            host.at(ASKED)
            wait_behind(peers[-1:], [MORE], len(peers))
            host.at(ASKED + 1_000 * STALL - 1)
            demand(host.accepted() == len(peers), f"of {len(peers)} {host.accepted()} are left before it was full for so long")
            host.at(ASKED + 1_000 * STALL + LOOK_OVER)
            closed = [number for number, peer in enumerate(peers) if not is_silent(peer)]
            demand(closed == [LARGEST], f"closed are {closed}, and number {LARGEST} holds most")
        host.ended()


def wait_behind(peers: list[Peer], counts: list[int], first: int = 1) -> None:
    """Clients from the first on wait, each with so many bytes of a frame behind its request."""
    for client, (peer, count) in enumerate(zip(peers, counts), first):
        peer.send(frame(request(Key(1, client, 1, 1), take("forever", queue=client % QUEUES))) + half_frame(count))


def half_frame(count: int) -> bytes:
    """So many bytes of a frame that has one more."""
    return frame(b"x" * (count - 1))[:-1]


def a_begun_frame_waits_for_room(program: str) -> None:
    """Who has begun a frame isn't ended for its rest, which isn't read where nothing more may be held; it is answered once there is
    room, though that lasted for --stall."""
    whole = frame(hello(LATE))
    with filled(program, BEHIND[:-ROOM], whole[:-1]) as (host, late, _):
        late.send(whole[-1:])
        host.at(ASKED + 1_000 * STALL - 1)
        demand(is_silent(late), "the rest of a frame is read where nothing more may be held")
        host.at(ASKED + 1_000 * STALL + LOOK_OVER)
        demand(late.hear() == welcome(LATE), "who began a frame isn't welcome where there is room again")


@contextlib.contextmanager
def filled(program: str, behind: list[int], begun: bytes = b"") -> Iterator[tuple[Stopped, Peer, list[Peer]]]:
    """A host in which nothing more may be held: a peer takes none of its answers, and others wait with so many bytes behind their
    requests, which alone would fit. One more peer has begun by these bytes. It has been so since ASKED."""
    demand(sum(behind) + PIECE < BYTES < sum(behind) + HELD and max(behind) < HELD, "the answers are not just too much")
    with Stopped(program, options=("--memory", str(MEBIBYTE), "--stall", str(STALL))) as host:
        deaf = host.connect(receive=KEPT)
        with deaf, closing([host.greeted(client) for client in range(1, len(behind) + 1)]) as waiting, host.connect() as late:
            late.send(begun)
            host.at(ASKED)
            ask_and_never_read(deaf, len(behind) + 1, QUESTIONS)
            # it takes no more for good, before others make the bound full
            until("the host rests", host.rests)
            wait_behind(waiting, behind)
            until("the host rests", host.rests)
            yield host, late, waiting
        host.ended()


def answers_count(program: str) -> None:
    """Bytes behind requests that wait fit into --memory, but not beside the answers of a peer that takes none: who comes then is read
    once that has lasted for --stall, when that one is closed, and no other."""
    with filled(program, BEHIND[:-ROOM]) as (host, late, waiting):
        late.send(frame(hello(LATE)))
        host.at(ASKED + 1_000 * STALL - 1)
        demand(is_silent(late), "who comes is read where nothing more may be held")
        host.at(ASKED + 1_000 * STALL + LOOK_OVER)
        demand(late.hear() == welcome(LATE), "who came isn't welcome where there is room again")
        demand(all(map(is_silent, waiting)), "of those that hold less some are closed")


def a_bound_stands(program: str) -> None:
    """Half frames are far more than --memory: as many bytes are read as may be held, and no more, and nobody is closed for that."""
    port = free_port()
    with Host(program, options=("--status", f"127.0.0.1:{port}", "--memory", str(MEBIBYTE), "--stall", "3600")) as host:
        with closing(connected(host.port, HALVES)) as peers:
            for peer in peers:
                peer.send(half_frame(HALF))
            until("as much is held as may be", lambda: held_bytes(port) > BYTES)
            for _ in range(LOOKS):
                demand(held_bytes(port) <= BYTES + PIECE, f"{held_bytes(port)} bytes are held, and {BYTES} may be")
                time.sleep(0.1)
            left = numbers(port)["rv_connections"]
            demand(left == HALVES, f"of {HALVES} {left} are left")
        host.kill()


def beside_many_who_send(program: str) -> None:
    """Peers by the hundred send without end, ask without end, or take no answers: no more is held than --memory, and what room is made
    for of each that may be open. When they are gone nothing is held."""
    port, system = free_port(), System()
    system.be(kept=KEPT)
    options = ("--status", f"127.0.0.1:{port}", "--memory", str(MEBIBYTE), "--stall", "3600", "--connections", str(sum(SENDING.values())))
    most = BYTES + SHARE * sum(SENDING.values()) + ANSWERS
    with HostileHost(program, system, options=options) as host:
        with sending(host.port, SENDING) as sent:
            until("each kind of them sends, and bytes are held", lambda: all(sent().values()) and held_bytes(port) > 0)
            for _ in range(LOOKS):
                held = held_bytes(port)
                demand(held <= most, f"{held} bytes are held, and {most} may be")
                time.sleep(0.1)
            had = most_memory(host.process.pid)
            demand(had <= (MEBIBYTE + BESIDE) << 20, f"the process has had {had} bytes")
        until("nothing is held", lambda: held_bytes(port) == 0)
        host.ended()


def held_bytes(port: int) -> int:
    """How many bytes of connections a host holds."""
    return int(numbers(port)["rv_buffer_bytes"])


def descriptors_are_spared(program: str) -> None:
    """Of the open files that it may have a host leaves 16 for itself, and 49 with a status address: all others may be
    connections, none of which finds no descriptor."""
    with Host(program, preexec_fn=few_files) as host:
        with closing(connected(host.port, FILES - SPARE + BEYOND)):
            until("as many as may be are accepted", lambda: host.accepted() == FILES - SPARE)
            until("the host rests", host.rests)
            demand(host.accepted() == FILES - SPARE, f"{host.accepted()} are accepted, not {FILES - SPARE}")
        host.ended()
    port, most = free_port(), FILES - STATUS_SPARE
    with Host(program, options=("--status", f"127.0.0.1:{port}"), preexec_fn=few_files) as host:
        with closing(connected(host.port, most + BEYOND)):
            shows(port, {"rv_connections": most, "rv_connections_limit": most, "rv_fault_descriptor_total": 0})
        host.ended()


def few_files() -> None:
    """Lets the process have few open files."""
    resource.setrlimit(resource.RLIMIT_NOFILE, (FILES, FILES))


CASES = [the_largest_is_closed, a_begun_frame_waits_for_room, answers_count, a_bound_stands, beside_many_who_send,
         descriptors_are_spared]
