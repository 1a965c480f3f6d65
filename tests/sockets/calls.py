"""`rv call` at a server, and at a listener that answers by a script."""
from __future__ import annotations

import itertools
import pathlib
import socket
import tempfile
import threading
import time
from collections.abc import Sequence

from tests.model.account import Key
from tests.model.texts import written
from tests.sockets.plain import EXCHANGES, Looker, is_late, none_waits
from tests.sockets.hosts import serving
from tests.sockets.programs import Caller
from tests.sockets.wire import (
    BAD_TEXT, PATIENCE, Members, Packets, Peer, Wrong, demand, frame, give, hello, refused, replied, request, take, until, waits, welcome)

ONE = Key(1, 2, 1, 1)
WISH = take("forever")
HELLO, ASKED = hello(2), request(ONE, WISH)
WELCOME, WAITS = frame(welcome(2)), frame(waits(ONE))
SECOND, SECOND_WELCOME = hello(2, version=2), frame(welcome(2, version=2))
ITEM = replied(ONE, reply="item", item="a")
ANSWER = frame(ITEM)


def lines(*calls: Members) -> bytes:
    """The call texts of these calls, a line each."""
    return b"".join(written(call).encode() + b"\n" for call in calls)


def refusal(code: int, **detail: int) -> bytes:
    """The frame of a refusal."""
    return frame(refused(code, **detail))


def two_callers(program: str) -> None:
    """Two callers hand an item over, and swap, each in either version: the giver's own tells whether it is told who took
    its item."""
    named = {"reply": "received", "by_client": 2, "by_incarnation": 1, "by_number": 1}
    receipts: list[tuple[int, Members]] = [(1, {"reply": "received"}), (2, named)]
    for gives, receipt in receipts:
        for takes in (1, 2):
            hand_over(program, gives, takes, receipt)


def hand_over(program: str, gives: int, takes: int, receipt: Members) -> None:
    """Two callers of these versions."""
    gift = give("transfer", "a", "forever")
    first, second = map(swapped, "bc")
    with serving(program, workers=2, connections=2) as server:
        given, got = Key(1, 1, 1, 1), Key(1, 2, 1, 1)
        after = [Key(1, client, 1, 2) for client in (1, 2)]
        with Caller(program, server.port, 1, lines(gift, first), speak=gives) as giver:
            with Caller(program, server.port, 2, lines(WISH, second), speak=takes) as taker:
                taker.judge(replied(got, reply="item", item="a") + b"\n" + replied(after[1], reply="swapped", item="b") + b"\n")
                giver.judge(replied(given, **receipt) + b"\n" + replied(after[0], reply="swapped", item="c") + b"\n")
        asked = {given: gift, got: WISH, after[0]: first, after[1]: second}
        account = server.judged(asked, [(given, receipt), (got, {"reply": "item", "item": "a"})])
        demand(len(account.entries) == 6, "the account has other than six entries")


def two_recorders(program: str) -> None:
    """Two callers hand an item over, and append to one record: it has each one's line, in whichever order."""
    gift, given, got = give("transfer", "a", "forever"), Key(1, 1, 1, 1), Key(1, 2, 1, 1)
    received, taken = replied(given, reply="received"), replied(got, reply="item", item="a")
    with tempfile.TemporaryDirectory() as folder, serving(program, workers=2, connections=2) as server:
        record = pathlib.Path(folder) / "told"
        with Caller(program, server.port, 1, lines(gift), record=record) as giver:
            with Caller(program, server.port, 2, lines(WISH), record=record) as taker:
                taker.judge(taken + b"\n")
                giver.judge(received + b"\n")
        wanted = [b'{"asked":%s,"told":%s}' % pair for pair in [(request(got, WISH), taken), (request(given, gift), received)]]
        found = record.read_bytes().split(b"\n")
        demand(sorted(found) == sorted([*wanted, b""]), f"the record has {found}, not {wanted}")
        server.judged({given: gift, got: WISH}, [(given, {"reply": "received"}), (got, {"reply": "item", "item": "a"})])


def swapped(item: str) -> Members:
    """A swap that waits."""
    return {"call": "swap", "exchanger": 5, "item": item, "wait": "forever"}


def a_line_as_soon_as_it_is_settled(program: str) -> None:
    """What was settled is printed, to a pipe, while the next call still waits."""
    with serving(program, workers=2, connections=2) as server:
        with server.greeted(1) as peer, Caller(program, server.port, 2, lines(give("put", "x", queue=4), WISH)) as caller:
            until("the first line is printed", lambda: len(caller.lines()) == 1)
            demand(caller.lines() == [replied(ONE, reply="done")], f"call printed {caller.printed!r}")
            demand(caller.runs(), "call ended before its second line was settled")
            peer.expect(hello(1), welcome(1))
        server.ended()


def settled_in_turn(program: str) -> None:
    """Each line is printed while the next one waits for what comes later."""
    with serving(program, workers=2, connections=2) as server:
        with server.greeted(1) as peer, Caller(program, server.port, 2, lines(WISH, WISH, WISH)) as caller:
            wanted: list[bytes] = []
            for number, item in enumerate("abc", 1):
                time.sleep(0.1)
                demand(caller.runs() and caller.lines() == wanted, f"call printed {caller.printed!r}, not {wanted}")
                key = Key(1, 1, 1, number)
                peer.expect(request(key, give("put", item)), replied(key, reply="done"))
                wanted.append(replied(Key(1, 2, 1, number), reply="item", item=item))
                until(f"line {number} is printed", lambda: len(caller.lines()) >= number)
            caller.judge(b"".join(line + b"\n" for line in wanted))
        server.ended()


def started_again(program: str) -> None:
    """The same client and incarnation, started once more, begins at number 1: it is told the reply that stands where
    that is its last number and the same call, and else nothing that settles."""
    runs: list[tuple[int, int, bytes, str | list[Members]]] = [
        (1, 1, lines(give("put", "a")), [{"reply": "done"}]),
        (1, 1, lines(give("put", "a")), [{"reply": "done"}]),
        (1, 1, lines(give("put", "b")), "unsettled 1"),
        (2, 1, lines(take("now"), take("now")), [{"reply": "item", "item": "a"}, {"reply": "empty"}]),
        (2, 1, lines(take("now"), take("now")), "unsettled 1"),
        (2, 2, lines(take("now")), [{"reply": "empty"}]),
        (2, 1, lines(take("now")), "refused 4"),
        (2, 2, b"", []),
    ]
    with serving(program, workers=1, connections=len(runs) + 1) as server:
        server.greeted(9).close()
        for client, incarnation, text, wanted in runs:
            with Caller(program, server.port, client, text, incarnation, tries=2) as caller:
                if isinstance(wanted, str):
                    caller.judge(wanted.encode() + b"\n", 1)
                    continue
                keys = [Key(1, client, incarnation, number) for number in range(1, len(wanted) + 1)]
                caller.judge(b"".join(replied(key, **reply) + b"\n" for key, reply in zip(keys, wanted)))
        server.ended()


def started_in_another_version(program: str) -> None:
    """A client that is started again in its incarnation is welcome in the version of its session alone; in a greater
    incarnation in any."""
    gift = lines(give("transfer", "a", "now"))
    runs = [(1, 2, None), (1, 1, b"refused 12"), (1, 2, None), (2, 1, None), (2, 2, b"refused 12"), (1, 1, b"refused 4"),
            (1, 2, b"refused 4"), (3, 2, None)]
    with serving(program, workers=1, connections=len(runs) + 1) as server:
        server.greeted(9).close()
        for incarnation, speak, word in runs:
            with Caller(program, server.port, 1, gift, incarnation, tries=2, speak=speak) as caller:
                told = replied(Key(1, 1, incarnation, 1), reply="nobody")
                caller.judge((word or told) + b"\n", int(word is not None))
        server.ended()


def started_while_it_waits(program: str) -> None:
    """A second start of the same incarnation is told the same reply as the first, or nothing that settles where its
    call is another; one of a greater incarnation ends the first."""
    with serving(program, workers=5, connections=6) as server, Looker(server) as looker:
        with Caller(program, server.port, 1, lines(WISH)) as first:
            looker.sees(consumers=1)
            with Caller(program, server.port, 1, lines(WISH)) as second:
                with Caller(program, server.port, 1, lines(take("now")), tries=2) as other:
                    other.judge(b"unsettled 1\n", 1)
                with server.greeted(2) as peer:
                    key = Key(1, 2, 1, 1)
                    peer.expect(request(key, give("put", "a")), replied(key, reply="done"))
                    for caller in (first, second):
                        caller.judge(replied(Key(1, 1, 1, 1), reply="item", item="a") + b"\n")
                    with Caller(program, server.port, 3, lines(WISH)) as old:
                        looker.sees(consumers=1)
                        peer.expect(hello(3, 2), welcome(3, 1, 2))
                        old.judge(b"replaced 2\n", 1)
        looker.peer.close()
        server.ended()


class Scripted:
    """A listener that serves one connection: for each frame that it hears it sends the next bytes, and then it ends. It
    acknowledges late what comes, and counts the packets of each frame whose size it is told."""

    def __init__(self, steps: list[bytes], slowly: bool = False, sizes: Sequence[int] = ()):
        self.steps, self.slowly, self.sizes = steps, slowly, sizes
        self.heard: list[bytes] = []
        self.came: list[Packets] = []
        self.fault: TimeoutError | Wrong | None = None
        self.socket = socket.create_server(("127.0.0.1", 0))
        self.socket.settimeout(PATIENCE)
        self.port = self.socket.getsockname()[1]
        self.thread = threading.Thread(target=self.run, daemon=True)
        self.thread.start()

    def __enter__(self) -> Scripted:
        return self

    def __exit__(self, *_: object) -> None:
        self.thread.join(PATIENCE)
        self.socket.close()

    def run(self) -> None:
        try:
            with Peer(self.socket.accept()[0]) as peer:
                before = Packets(0, 0, 0)
                for step, size in itertools.zip_longest(self.steps, self.sizes):
                    peer.acknowledge(late=True)
                    if size:
                        self.came.append(peer.came(before, size))
                    body = peer.hear()
                    if body is None:
                        return
                    self.heard.append(body)
                    before = peer.counted()
                    for piece in ([step[at : at + 1] for at in range(len(step))] if self.slowly else [step]):
                        peer.send(piece)
                        time.sleep(0.002 * self.slowly)
                if self.steps:
                    peer.end()
                while (further := peer.hear()) is not None:
                    self.heard.append(further)
        except (TimeoutError, Wrong) as fault:
            self.fault = fault
        except OSError:
            # Who ends with bytes unread resets the connection.
            pass


# What is sent for each frame that comes, what is printed, the status, and what was heard; tries are 3.
SCRIPTS = [
    ([b""], b"not welcome", 1, [HELLO]),
    ([frame(b"{}")], b"not welcome", 1, [HELLO]),
    ([frame(b"rubbish")], b"not welcome", 1, [HELLO]),
    ([b"\x00\x00"], b"not welcome", 1, [HELLO]),
    ([b"\x10\x01" + 5000 * b"x"], b"not welcome", 1, [HELLO]),
    ([b"HTTP/1.1 400 Bad Request\r\n\r\n"], b"not welcome", 1, [HELLO]),
    ([WELCOME[:1]], b"not welcome", 1, [HELLO]),
    ([WELCOME[:20]], b"not welcome", 1, [HELLO]),
    ([frame(welcome(3))] * 3, b"not welcome", 1, [HELLO] * 3),
    ([frame(welcome(2, 1, 2))] * 3, b"not welcome", 1, [HELLO] * 3),
    ([WAITS, ANSWER, WAITS], b"not welcome", 1, [HELLO] * 3),
    ([refusal(4, current=2)], b"refused 4", 1, [HELLO]),
    ([refusal(1)], b"refused 1", 1, [HELLO]),
    ([refusal(9)], b"refused 9", 1, [HELLO]),
    ([refusal(11)], b"refused 11", 1, [HELLO]),
    ([refusal(12, current=2)], b"refused 12", 1, [HELLO]),
    ([refusal(12, current=3)], b"not welcome", 1, [HELLO]),
    ([refusal(12)], b"not welcome", 1, [HELLO]),
    ([SECOND_WELCOME] * 3, b"not welcome", 1, [HELLO] * 3),
    ([SECOND_WELCOME, WELCOME, ANSWER], ITEM, 0, [HELLO, HELLO, ASKED]),
    ([WELCOME, refusal(12, current=2), SECOND_WELCOME, ANSWER], ITEM, 0, [HELLO, ASKED, ASKED, ASKED]),
    ([ANSWER, WELCOME, ANSWER], ITEM, 0, [HELLO, HELLO, ASKED]),
    ([WELCOME, WAITS, ANSWER], ITEM, 0, [HELLO, ASKED, ASKED]),
    ([WELCOME, WAITS, WAITS, ANSWER], ITEM, 0, [HELLO, ASKED, ASKED, ASKED]),
    ([WELCOME, WAITS, WAITS, WAITS, ANSWER], b"unsettled 1", 1, [HELLO, ASKED, ASKED, ASKED]),
    ([WELCOME, frame(replied(Key(1, 2, 1, 2), reply="empty")), ANSWER], ITEM, 0, [HELLO, ASKED, ASKED]),
    ([WELCOME, frame(replied(Key(1, 3, 1, 1), reply="empty")), ANSWER], ITEM, 0, [HELLO, ASKED, ASKED]),
    ([WELCOME, frame(replied(Key(2, 2, 1, 1), reply="empty")), ANSWER], ITEM, 0, [HELLO, ASKED, ASKED]),
    ([WELCOME, frame(replied(Key(1, 2, 2, 1), reply="empty")), ANSWER], ITEM, 0, [HELLO, ASKED, ASKED]),
    ([WELCOME, WELCOME, ANSWER], ITEM, 0, [HELLO, ASKED, ASKED]),
    ([WELCOME, refusal(2, current=2)], b"epoch ended 2", 1, [HELLO, ASKED]),
    ([WELCOME, refusal(2, current=1), ANSWER], ITEM, 0, [HELLO, ASKED, ASKED]),
    ([WELCOME, refusal(4, current=3)], b"replaced 3", 1, [HELLO, ASKED]),
    ([WELCOME, refusal(4, current=1), ANSWER], ITEM, 0, [HELLO, ASKED, ASKED]),
    ([WELCOME, refusal(11), ANSWER], ITEM, 0, [HELLO, ASKED, ASKED]),
    ([WELCOME, refusal(5, last=2)] + [refusal(6)] * 2, b"unsettled 1", 1, [HELLO, ASKED, ASKED, ASKED]),
    ([WELCOME, b""], b"unsettled 1", 1, [HELLO, ASKED]),
    ([WELCOME, ANSWER[:1]], b"unsettled 1", 1, [HELLO, ASKED]),
    ([WELCOME, ANSWER[:-1]], b"unsettled 1", 1, [HELLO, ASKED]),
    ([WELCOME, WAITS, ANSWER[:9]], b"unsettled 1", 1, [HELLO, ASKED, ASKED]),
    ([WELCOME, b"\x00\x00"], b"unsettled 1", 1, [HELLO, ASKED]),
    ([WELCOME, frame(b"{}")], b"unsettled 1", 1, [HELLO, ASKED]),
    ([WELCOME, frame(BAD_TEXT + b"x")], b"unsettled 1", 1, [HELLO, ASKED]),
    ([WELCOME, frame(b" " + ITEM.replace(b":", b" :\n"))], ITEM, 0, [HELLO, ASKED]),
    ([frame(welcome(2, 5)), frame(replied(Key(5, 2, 1, 1), reply="empty"))], replied(Key(5, 2, 1, 1), reply="empty"), 0,
     [HELLO, request(Key(5, 2, 1, 1), WISH)]),
]

DONE = [replied(Key(1, 2, 1, number), reply="done") for number in (1, 2, 3)]
PUTS = [give("put", "a"), give("put", "b"), give("put", "c")]
PUT_FRAMES = [request(Key(1, 2, 1, number), PUTS[number - 1]) for number in (1, 2, 3)]
BAD_LINES = [b"x", b"", b"{}", ASKED, HELLO, lines(PUTS[0])[:-2], b'{"call":"offer","item":"a","queue":3}', b"\xff",
             b'{"call":"put","item":"%s","queue":3}' % (b"x" * 513), b'{"call":"put","item":"a","queue":64}', b" " * 5000]


# The same of a caller of version 2.
SECOND_SCRIPTS = [
    ([WELCOME] * 3, b"not welcome", 1, [SECOND] * 3),
    ([WELCOME, SECOND_WELCOME, WAITS, ANSWER], ITEM, 0, [SECOND, SECOND, ASKED, ASKED]),
    ([frame(welcome(2, 1, 2, version=2)), frame(welcome(3, version=2)), SECOND_WELCOME, ANSWER], ITEM, 0, [SECOND] * 3 + [ASKED]),
    ([refusal(12, current=1)], b"refused 12", 1, [SECOND]),
    ([refusal(4, current=2)], b"refused 4", 1, [SECOND]),
    ([frame(welcome(2, version=3))], b"not welcome", 1, [SECOND]),
    ([SECOND_WELCOME, refusal(12, current=1), WELCOME, ANSWER], ITEM, 0, [SECOND, ASKED, ASKED, ASKED]),
]


def at_a_script(program: str, steps: list[bytes], text: bytes, tries: int, printed: bytes, status: int, heard: list[bytes],
                slowly: bool = False, speak: int = 1, sizes: Sequence[int] = ()) -> list[Packets]:
    """A caller at a listener that answers by a script must end so. Gives what came for each frame whose size is told."""
    with Scripted(steps, slowly, sizes) as listener:
        with Caller(program, listener.port, 2, text, tries=tries, speak=speak) as caller:
            caller.judge(printed, status)
    demand(listener.heard == heard and not listener.fault,
           f"{steps}: the listener heard {listener.heard} and met {listener.fault}, not {heard}")
    return listener.came


def strange_servers(program: str) -> None:
    """Rubbish, half a frame, another's answers, those of another version, and answers that settle nothing."""
    for speak, scripts in [(1, SCRIPTS), (2, SECOND_SCRIPTS)]:
        for steps, printed, status, heard in scripts:
            at_a_script(program, steps, lines(WISH), 3, printed + b"\n", status, heard, speak=speak)
    at_a_script(program, [WELCOME, WAITS, ANSWER], lines(WISH), 3, ITEM + b"\n", 0, [HELLO, ASKED, ASKED], slowly=True)
    at_a_script(program, [WELCOME, WAITS], lines(WISH), 1, b"unsettled 1\n", 1, [HELLO, ASKED])


def lines_of_calls(program: str) -> None:
    """Inputs of several lines, of none, and with a line that is no call text; and no tries."""
    done = [WELCOME, *map(frame, DONE)]
    printed = [line + b"\n" for line in DONE]
    at_a_script(program, done, lines(*PUTS), 3, b"".join(printed), 0, [HELLO, *PUT_FRAMES])
    at_a_script(program, done, lines(*PUTS)[:-1], 3, b"".join(printed), 0, [HELLO, *PUT_FRAMES])
    at_a_script(program, [WELCOME], b"", 3, b"", 0, [HELLO])
    at_a_script(program, [], lines(*PUTS), 0, b"not welcome\n", 1, [])
    at_a_script(program, done[:2] + [refusal(2, current=9)], lines(*PUTS), 3, printed[0] + b"epoch ended 9\n", 1,
                [HELLO, *PUT_FRAMES[:2]])
    at_a_script(program, [*done[:2], *[WAITS] * 3], lines(*PUTS), 3, printed[0] + b"unsettled 2\n", 1,
                [HELLO, PUT_FRAMES[0], *[PUT_FRAMES[1]] * 3])
    for line in BAD_LINES:
        at_a_script(program, done, line + b"\n" + lines(*PUTS), 3, b"bad line\n", 1, [HELLO])
    at_a_script(program, done, lines(*PUTS[:2]) + b"x\n" + lines(PUTS[2]), 3, b"".join(printed[:2]) + b"bad line\n", 1,
                [HELLO, *PUT_FRAMES[:2]])


def no_packet_waits(program: str) -> None:
    """A request leaves in one piece, or else no part of it waits until the one before it was acknowledged."""
    keys = [Key(1, 2, 1, number) for number in range(1, EXCHANGES + 1)]
    heard = [HELLO, *(request(key, PUTS[0]) for key in keys)]
    done = [replied(key, reply="done") for key in keys]
    came = at_a_script(program, [WELCOME, *map(frame, done)], lines(*PUTS[:1] * len(keys)), 3,
                       b"".join(line + b"\n" for line in done), 0, heard, sizes=[len(frame(body)) for body in heard])
    none_waits(map(is_late, came[1:]))


CASES = [two_callers, two_recorders, a_line_as_soon_as_it_is_settled, settled_in_turn, started_again, started_in_another_version,
         started_while_it_waits,
         strange_servers, lines_of_calls, no_packet_waits]
