"""Callers to which the system is hostile, at a server to which it is too; and callers whose answers are spoilt."""
from __future__ import annotations

import functools
import random
import socket
import subprocess
from typing import Any

from tests.faults.mutants import EDGES, Mutants
from tests.faults.system import System, file_of, hostile_serving
from tests.model.account import Hello, Key
from tests.model.answers import CODES, LEAST, MOST, REPLIES, read_answer
from tests.model.texts import KEY, MAX_DRAIN, MAX_IDENTIFIER, TAKER, NoReading, members_of_version, written
from tests.model.world import is_own
from tests.sockets.driver import drive
from tests.sockets.ledger import Ledger
from tests.sockets.listening import Listening
from tests.sockets.programs import Served
from tests.sockets.wire import (
    MAX_FRAME, PATIENCE, Members, demand, drain, frame, give, key_of, members_of, reply_of, swap, take)

CALLERS, RUNS, LINES = 8, 12, 5
WAITS: list[str | int] = ["now", 0, 5, 40]
# What a caller ends with where it prints no line more, with its words on standard error.
FAULTS = [(1, b"run fault 3\n"), (2, b"command fault 2\n"), (1, b"address fault\n")]
WORDS = (b"not welcome", b"refused 11", b"unsettled")


def call_words(port: int, client: int, tries: int, speak: int) -> list[str]:
    """The words of a caller."""
    return ["call", "--connect", f"127.0.0.1:{port}", "--client", str(client), "--incarnation", "1", "--tries", str(tries),
            "--speak", str(speak)]


def any_call(chance: random.Random, item: str) -> Members:
    """A call that settles within a try, mostly: it waits not at all, or not for long."""
    wait, queue = chance.choice(WAITS), chance.choice([3, 4])
    return chance.choice([
        give("put", item, queue=queue), give("transfer", item, wait, queue), take(wait, queue), take(wait, queue),
        drain(chance.choice([1, 3]), queue), swap(item, wait if wait != "now" else 0), {"call": "count", "queue": queue}, {"call": "peek", "queue": queue}])


def hostile_callers(program: str, seed: int) -> None:
    """Each reply that a caller printed stands in the account, in the order of its lines, and nothing else was asked."""
    chance, ledger = random.Random(f"callers {seed}"), Ledger()
    system = System(chance.randrange(2**31))
    with hostile_serving(program, system, workers=CALLERS + 1) as server:
        server.connect().close()
        system.be(growth=500, cut_read=3, failed_read=6_000, cut_write=3, failed_write=6_000, accept=9, sleep=2)

        def run(first: int, chance: random.Random) -> None:
            for client in range(first, first + RUNS):
                calls = [any_call(chance, f"{client}#{number}") for number in range(1, LINES + 1)]
                keys = [Key(1, client, 1, number) for number in range(1, LINES + 1)]
                for key, call in zip(keys, calls):
                    ledger.ask(key, call)
                for key, reply in zip(keys, one_caller(program, server, client, calls, chance)):
                    ledger.tell(key, reply)

        drive(server, ledger, [functools.partial(run, first, random.Random(chance.random()))
                               for first in range(1, CALLERS * RUNS, RUNS)], calm=system.be, end=server.no_more)
    demand(len(ledger.told) > CALLERS * RUNS, f"{len(ledger.told)} replies in all")


def one_caller(program: str, server: Served, client: int, calls: list[Members], chance: random.Random) -> list[Members]:
    """The replies that a caller printed, a line each from the first on."""
    system = System(chance.randrange(2**31))
    system.be(growth=1_500, cut_read=3, failed_read=6_000, cut_write=3, failed_write=6_000)
    text = b"".join(written(call).encode() + b"\n" for call in calls)
    words = call_words(server.port, client, 5, chance.choice([1, 2]))
    with file_of(text) as given:
        ran = subprocess.run([program, *words], stdin=given, capture_output=True, env=system.env, timeout=PATIENCE)
    *lines, rest = ran.stdout.split(b"\n")
    end = (ran.returncode, ran.stderr)
    word = lines.pop() if lines and lines[-1].startswith(WORDS) else None
    demand(not rest and end == ((1, b"") if word else (0, b"")) or end in FAULTS, f"call: {ran}")
    demand(word or end != (0, b"") or len(lines) == len(calls), f"call ended well and printed {lines}")
    answers = [members_of(line) for line in lines]
    wanted = [Key(1, client, 1, number) for number in range(1, len(lines) + 1)]
    demand([key_of(answer) for answer in answers] == wanted, f"call printed {lines}")
    return [reply_of(answer) for answer in answers]


# ---- answers that are spoilt

OWN: dict[str, Any] = {"client": 2, "epoch": 1, "incarnation": 1, "number": 1}
NAMED: dict[str, Any] = {"kind": "reply", **OWN, "reply": "received", **dict.fromkeys(TAKER, 7)}
WELCOMES: list[dict[str, Any]] = [{"kind": "welcome", "client": 2, "epoch": 1, "incarnation": 1, **members_of_version(version)} for version in (1, 2)]
ANSWERS: list[dict[str, Any]] = [
    *WELCOMES, {**WELCOMES[0], "incarnation": 2}, {"kind": "waiting", **OWN}, {"kind": "reply", **OWN, "reply": "done"},
    {"kind": "reply", **OWN, "reply": "item", "item": "a\n\u00e9"}, {"kind": "reply", **OWN, "number": 2, "reply": "empty"},
    {"kind": "reply", **OWN, "reply": "counted", "items": 3, "consumers": 0}, {"kind": "refused", "code": 2, "current": 1},
    {"kind": "refused", "code": 2, "current": 9}, {"kind": "refused", "code": 4, "current": 1}, {"kind": "refused", "code": 11},
    {"kind": "refused", "code": 4, "current": 3}, {"kind": "refused", "code": 5, "last": 0}, {"kind": "refused", "code": 6},
    {"kind": "refused", "code": 7, "open": 1}, {"kind": "refused", "code": 1}, {"kind": "refused", "code": 3},
    {"kind": "reply", **OWN, "reply": "drained", "texts": ["a", "", "\n\u00e9"]},
    NAMED, {"kind": "reply", **OWN, "reply": "received"}, {"kind": "refused", "code": 12, "current": 2},
]
ITEM, COUNTED, DRAINED = ANSWERS[5], ANSWERS[7], ANSWERS[18]
# Answers that settle nothing, and how many answers a caller is sent at most.
STILL = [ANSWERS[at] for at in (3, 6, 8, 10, 11, 13, 14, 15, 16, 17, 21)]
MOST_ANSWERS = 6


class Link:
    """A caller's end of a stream of frames."""

    def __init__(self, data: bytes):
        self.data = data

    def ask(self) -> Members | None:
        """The members of the next answer; none where there is a fault of the link."""
        size = int.from_bytes(self.data[:2])
        body, self.data = self.data[2 : 2 + size], self.data[2 + size :]
        try:
            return read_answer(body) if len(body) == size else None
        except NoReading:
            return None


def caller(data: bytes, tries: int, speak: int) -> tuple[str, int]:
    """What a caller of one line and this version prints of these answers, and whether it stops there."""
    link = Link(data)
    for _ in range(tries):
        answer = link.ask()
        if answer is None:
            return "not welcome", 1
        if answer["kind"] == "refused":
            return f"refused {answer['code']}", 1
        if answer["kind"] == "welcome" and is_own(Hello(2, 1, speak), answer):
            return one_call(link, {**OWN, "epoch": answer["epoch"]}, tries)
    return "not welcome", 1


def one_call(link: Link, key: Members, tries: int) -> tuple[str, int]:
    """What is printed of the call under this key."""
    for _ in range(tries):
        answer = link.ask()
        if answer is None:
            break
        if answer.get("code") == 2 and answer["current"] > key["epoch"]:
            return f"epoch ended {answer['current']}", 1
        if answer.get("code") == 4 and answer["current"] > key["incarnation"]:
            return f"replaced {answer['current']}", 1
        if answer["kind"] == "reply" and all(answer[name] == key[name] for name in KEY):
            return written(answer), 0
    return f"unsettled {key['number']}", 1


class Sender(Listening):
    """Sends its data over each connection at once, and then reads until that ends."""

    data = b""

    def meet(self, connection: socket.socket) -> None:
        with connection:
            try:
                connection.sendall(self.data)
                connection.shutdown(socket.SHUT_WR)
                while connection.recv(65_536):
                    pass
            except OSError:
                pass


def answers(chance: random.Random, speak: int) -> bytes:
    """The bytes of some answers, one of them spoilt or more."""
    mutants, data = Mutants(chance), b""
    for at in range(chance.randint(2, MOST_ANSWERS)):
        own = [WELCOMES[speak - 1]] * 60 + ANSWERS
        known = chance.choice(own if at == 0 else [*STILL, *ANSWERS, *[COUNTED, ITEM, DRAINED, NAMED] * 5])
        body = written(known).encode()
        if mutants.odds(0.2 if at == 0 else 0.6):
            body = chance.choice([lambda: mutants.flipped(body), lambda: spoilt(mutants, known), mutants.shape])()
        piece = frame(body[:MAX_FRAME])
        data += mutants.flipped(piece[:2]) + piece[2:] if mutants.odds(0.03) else piece
    return data


def spoilt(mutants: Mutants, members: Members) -> bytes:
    """The text of an answer with another value, a member more or one less, in any order."""
    pairs = list(members.items())
    at = mutants.chance.randrange(len(pairs))
    name, value = pairs[at]
    least, most = LEAST.get(name, 1), MOST.get(name, MAX_IDENTIFIER)
    edges: list[object] = [least, max(0, least - 1), most, most + 1]
    if name == "item":
        edges = EDGES["item"]
    elif name == "texts":
        edges = [[], [""] * MAX_DRAIN, [""] * (MAX_DRAIN + 1), ["a", 1], [["a"]], *([text] for text in EDGES["item"])]
    elif name in ("version", "current", "code"):
        edges += [1, 2, 3, CODES]
    number = mutants.chance.choice(edges)
    pairs[at : at + 1] = mutants.chance.choice([
        [], [(name, number)], [(name, number)], [(name, mutants.value())], [(name, value), (name, value)],
        [(name, value), (mutants.chance.choice([*REPLIES, *LEAST, *TAKER, "code", "current", "item", "texts"]), number)],
        [(name, mutants.chance.choice([*REPLIES, "welcome", "reply", "waiting", "refused"]))]])
    mutants.chance.shuffle(pairs)
    return ("{" + ",".join(f"{written(name)}:{mutants.text(value)}" for name, value in pairs) + "}").encode()


def spoilt_answers(program: str, seed: int, count: int) -> int:
    """A caller ends as the model of one does, whatever it is answered."""
    text = written(give("put", "a")).encode()
    with Sender() as sender:
        for number in range(count // MOST_ANSWERS):
            chance = random.Random(f"answers {seed} {number}")
            speak = chance.choice([1, 2])
            sender.data = answers(chance, speak)
            printed, status = caller(sender.data, MOST_ANSWERS, speak)
            words = call_words(sender.port, 2, MOST_ANSWERS, speak)
            ran = subprocess.run([program, *words], input=text, capture_output=True, timeout=PATIENCE)
            got = ran.stdout, ran.stderr, ran.returncode
            demand(got == (printed.encode() + b"\n", b"", status), f"number {number}, {sender.data!r}: {got}, not {printed}")
    return count // MOST_ANSWERS


CASES, SPOILT = [hostile_callers], [spoilt_answers]
