"""Each growth refused in turn, each read failed in turn, and writes stopped after each number of bytes: of a server over
its connections, and of a caller."""
from __future__ import annotations

import contextlib
import socket
import subprocess
from collections.abc import Callable, Iterable
from typing import Any

from tests.faults.crowds import NO_MEMORY
from tests.faults.system import HostileHost, HostileServer, System, file_of, hostile_serving
from tests.model.account import Key
from tests.model.texts import written
from tests.sockets.ledger import Asked
from tests.sockets.ledger import Told as AllTold
from tests.sockets.listening import Listening
from tests.sockets.wire import PATIENCE, Members, Peer, Wrong, demand, frame, give, hello, replied, request, take, until, welcome

# An item whose text is read and written with an escape.
ITEM = "a\x01"
# More turns than any talk has growths, reads or bytes.
MOST_TURNS = 3_000
# What is asked in turn, each with its answer.
Talk = list[tuple[bytes, bytes]]
# What a caller prints, how it ends, and the bytes that it sends.
Came = tuple[bytes, tuple[int, bytes], bytes]
# How many clients an epoch takes, and how many entries a client's talk makes.
CLIENTS, ENTRIES = 1_024, 3


def talk_of(client: int) -> Talk:
    """What a client asks in turn, with the answers: it says hello, each other one in version 2, puts an item and takes it."""
    put, poll = (Key(1, client, 1, number) for number in (1, 2))
    version = client % 2 + 1
    return [(hello(client, version=version), welcome(client, version=version)),
            (request(put, give("put", ITEM)), replied(put, reply="done")),
            (request(poll, take("now")), replied(poll, reply="item", item=ITEM))]


class Told:
    """What a client was told over one connection: its frames, all its bytes, and how often there was no memory."""

    def __init__(self) -> None:
        self.answers: list[bytes] = []
        self.bytes, self.no_memory = 0, 0


def talk_once(server: HostileServer | HostileHost, talk: Talk) -> Told:
    """Asks all of a talk over one connection, until that ends. What found no memory is asked again."""
    told = Told()
    with server.connect() as peer:
        try:
            for body, wanted in talk:
                answer = peer.ask(body)
                while answer == written(NO_MEMORY).encode():
                    told.no_memory += 1
                    answer = peer.ask(body)
                demand(answer == wanted, f"{body!r} was answered {answer!r}, not {wanted!r}")
                told.answers.append(answer)
            see_end(peer)
        except ConnectionError:
            pass
        told.bytes = sum(len(frame(answer)) for answer in told.answers) + len(peer.got)
    return told


def see_end(peer: Peer) -> None:
    """Sends nothing more, and waits until the server closes the connection: it reads no more of it then."""
    peer.end()
    with contextlib.suppress(ConnectionError):
        peer.more()


def rest_of(talk: Talk, told: Told) -> Talk:
    """What is to be asked behind a connection that ended: that which was not answered, behind a hello."""
    return talk[:1] + talk[max(1, len(told.answers)) :]


def turns(program: str, counts_down: str, check: Callable[[int, Told], None], **more: int) -> int:
    """A server's talks with one client after another, in each of which a further growth, read or byte fails, until none
    does. `check` gets the turn and what the client was told over the connection that met it."""
    system, met = System(), 0
    with hostile_serving(program, system, workers=1) as server:
        with server.connect() as peer:
            see_end(peer)
        for turn in range(1, MOST_TURNS):
            talk = talk_of(turn)
            system.be(**{counts_down: turn}, **more)
            told = talk_once(server, talk)
            missed = system.number(counts_down) > 0
            system.be()
            if missed:
                demand(len(told.answers) == len(talk) and not told.no_memory, "something went wrong by itself")
                break
            met += 1
            check(turn, told)
            if len(told.answers) < len(talk):
                again = rest_of(talk, told)
                demand(len(talk_once(server, again).answers) == len(again), f"turn {turn}: it is not answered again")
        server.no_more()
        account = server.judged(asked_of(turn), told_of(turn))
        demand(len(account.entries) == ENTRIES * turn, f"{len(account.entries)} entries of {turn} clients")
    return met


def asked_of(clients: int) -> Asked:
    """The calls of so many talks, by their keys."""
    pairs = [(Key(1, client, 1, number), call) for client in range(1, clients + 1)
             for number, call in ((1, give("put", ITEM)), (2, take("now")))]
    return dict(pairs)


def told_of(clients: int) -> AllTold:
    """The replies of so many talks."""
    replies: list[tuple[int, Members]] = [(1, {"reply": "done"}), (2, {"reply": "item", "item": ITEM})]
    return [(Key(1, client, 1, number), reply) for client in range(1, clients + 1) for number, reply in replies]


def each_growth_of_a_server(program: str) -> int:
    """The connection ends, or one message is told want of memory, or nothing differs; what is asked again is answered."""
    def check(turn: int, told: Told) -> None:
        ended = len(told.answers) < ENTRIES
        demand(told.no_memory + ended <= 1, f"growth {turn}: {told.no_memory} times no memory, and ended: {ended}")

    return turns(program, "growth_at", check)


def each_read_of_a_server(program: str) -> int:
    """The connection ends, behind the answers to all frames that were read whole."""
    def check(turn: int, told: Told) -> None:
        asked = sum(len(frame(body)) for body, _ in talk_of(turn))
        demand((len(told.answers) < ENTRIES) == (turn <= asked), f"read {turn} of {asked} failed: {told.answers}")
        demand(told.bytes == sum(map(len, map(frame, told.answers))), f"read {turn} failed: a part of an answer came")

    return turns(program, "read_at", check, most=1)


def each_byte_of_a_server(program: str) -> int:
    """So many bytes come, and then the connection ends; what was done stands."""
    def check(turn: int, told: Told) -> None:
        demand(told.bytes == turn - 1, f"{told.bytes} bytes came where there is room for {turn - 1}")

    return turns(program, "room", check)


# ---- a caller

LINES = [give("put", ITEM), take("now"), {"call": "count", "queue": 3}]
ASKED = [hello(2, version=2), *(request(Key(1, 2, 1, number), call) for number, call in enumerate(LINES, 1))]
REPLIES: list[dict[str, Any]] = [{"reply": "done"}, {"reply": "item", "item": ITEM}, {"reply": "counted", "items": 0, "consumers": 0}]
ANSWERS = [welcome(2, version=2), *(replied(Key(1, 2, 1, number), **reply) for number, reply in enumerate(REPLIES, 1))]
PRINTED = [answer + b"\n" for answer in ANSWERS[1:]]
TEXT = b"".join(written(call).encode() + b"\n" for call in LINES)
# What no caller sends: the length of a frame that does not come.
MARK = b"\xff\xff"


class Listener(Listening):
    """Answers each frame of each connection by its answer, one connection after another, and keeps the bytes of those that
    are closed."""

    def __init__(self) -> None:
        super().__init__()
        self.heard: list[bytes] = []

    def meet(self, connection: socket.socket) -> None:
        """Serves one connection, and closes it."""
        heard = bytearray()
        with connection:
            connection.settimeout(PATIENCE)
            try:
                self.serve(connection, heard)
            except OSError:
                pass
        self.heard.append(bytes(heard))

    def serve(self, connection: socket.socket, heard: bytearray) -> None:
        """Serves one connection until it ends."""
        connection.setsockopt(socket.IPPROTO_TCP, socket.TCP_NODELAY, 1)
        read = 0
        while piece := connection.recv(65_536):
            heard += piece
            while body := whole_body(bytes(heard[read:])):
                read += 2 + len(body)
                connection.sendall(frame(ANSWERS[ASKED.index(body)]))

    def taken(self) -> bytes:
        """The bytes of the one connection that was made, which has ended; none where none was made. A connection of its own
        is accepted behind that, so it tells that none is on its way."""
        with socket.create_connection(("127.0.0.1", self.port), PATIENCE) as mark:
            mark.sendall(MARK)
        until("the connections are closed", lambda: self.heard[-1:] == [MARK])
        connections, self.heard = self.heard[:-1], []
        demand(len(connections) <= 1, f"{len(connections)} connections were made")
        return connections[0] if connections else b""


def whole_body(data: bytes) -> bytes:
    """The body of the first frame, if it is whole."""
    size = int.from_bytes(data[:2])
    return data[2 : 2 + size] if len(data) >= 2 and len(data) >= 2 + size else b""


def call(program: str, system: System, listener: Listener) -> Came:
    """What a caller prints, how it ends, and the bytes that the listener heard."""
    words = ["call", "--connect", listener.address, "--client", "2", "--incarnation", "1", "--tries", "3", "--speak", "2"]
    with file_of(TEXT) as given:
        ran = subprocess.run([program, *words], stdin=given, capture_output=True, env=system.env, timeout=PATIENCE)
    return ran.stdout, (ran.returncode, ran.stderr), listener.taken()


STREAM = b"".join(map(frame, ASKED))
WHOLE: Came = b"".join(PRINTED), (0, b""), STREAM


def bounds(bodies: Iterable[bytes]) -> list[int]:
    """Where the frames of these bodies end in their stream."""
    ends = [0]
    for body in bodies:
        ends.append(ends[-1] + len(frame(body)))
    return ends


def stopped_at(asked: int) -> bytes:
    """What a caller prints whose link broke at this frame, counted from 0 with the hello."""
    word = b"not welcome\n" if asked == 0 else b"unsettled %d\n" % asked
    return b"".join(PRINTED[: max(0, asked - 1)]) + word


def caller_turns(program: str, counts_down: str, check: Callable[[int, Came], None], **more: int) -> int:
    """Runs of a caller, in each of which a further growth, read or byte fails, until none does."""
    system = System()
    with Listener() as listener:
        for turn in range(1, MOST_TURNS):
            system.be(**{counts_down: turn}, **more)
            came = call(program, system, listener)
            if system.number(counts_down) > 0:
                demand(came == WHOLE, f"a caller in a calm system: {came}")
                return turn - 1
            check(turn, came)
    raise Wrong(f"more than {MOST_TURNS} turns")


def each_growth_of_a_caller(program: str) -> int:
    """It ends with nothing asked, or its link breaks, or a line's reading or text finds no memory, or nothing differs;
    what it printed was told, and what it asked are whole frames."""
    broken = [(stopped_at(asked), (1, b"")) for asked in range(len(ASKED))]
    fault = [(b"".join(PRINTED[:count]), (1, b"run fault 3\n")) for count in range(len(PRINTED) + 1)]
    nothing = [(b"", (2, b"command fault 2\n")), (b"", (1, b"address fault\n"))]
    ends = bounds(ASKED)

    def check(turn: int, came: Came) -> None:
        printed, end, heard = came
        demand(came == WHOLE or (printed, end) in [*broken, *fault, *nothing], f"growth {turn}: {came}")
        demand(heard == STREAM[: len(heard)] and len(heard) in ends, f"growth {turn}: {heard!r} was asked")
        demand(printed.count(b"\n") <= max(1, ends.index(len(heard))), f"growth {turn}: printed {printed!r}, asked {heard!r}")

    return caller_turns(program, "growth_at", check)


def each_read_of_a_caller(program: str) -> int:
    """Its link breaks in the answer that the read is of: all lines before it are printed, and nothing further is asked."""
    ends, asked = bounds(ANSWERS), bounds(ASKED)

    def check(turn: int, came: Came) -> None:
        at = next(number for number, end in enumerate(ends[1:]) if turn <= end)
        demand(came == (stopped_at(at), (1, b""), STREAM[: asked[at + 1]]), f"read {turn}: {came}")

    met = caller_turns(program, "read_at", check, most=1)
    demand(met == ends[-1], f"{met} reads, and {ends[-1]} bytes of answers")
    return met


def each_byte_of_a_caller(program: str) -> int:
    """So many bytes go out, and its link breaks in the frame that the next byte is of."""
    ends = bounds(ASKED)

    def check(turn: int, came: Came) -> None:
        at = next(number for number, end in enumerate(ends[1:]) if turn <= end)
        demand(came == (stopped_at(at), (1, b""), STREAM[: turn - 1]), f"byte {turn}: {came}")

    met = caller_turns(program, "room", check)
    demand(met == ends[-1], f"{met} bytes, and not {ends[-1]}")
    return met


CASES = [each_growth_of_a_server, each_read_of_a_server, each_byte_of_a_server, each_growth_of_a_caller,
         each_read_of_a_caller, each_byte_of_a_caller]
