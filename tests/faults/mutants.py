"""Spoilt bytes of each kind: bodies, frames, account lines and play lines, changed by their grammar and bit by bit. What
the program says of each must be what the model says. The chance of each is told by its seed."""
from __future__ import annotations

import random
import subprocess
from concurrent.futures import ThreadPoolExecutor
from typing import Any

from tests.model.account import Account
from tests.model.broken_lines import EXAMPLE
from tests.model.lines import account_text
from tests.model.plays import Play
from tests.model.rows import drain_texts
from tests.model.scripts import (
    BYTES, ESCAPES, FURTHER, LETTERS, NUMERALS, TEXTS, VALUES, Script)
from tests.model.steps import told
from tests.model.texts import MAX_DRAIN, MAX_IDENTIFIER, MAX_ITEM_BYTES, MAX_PLACE, MAX_WAIT, written
from tests.model.verdicts import verdict
from tests.sockets.hosts import serving
from tests.sockets.wire import MAX_FRAME, demand, frame

# How many mutants go through one process: the model's account of them stays short.
BOOK, PLAY, ACCOUNTS, STREAM = 60, 60, 20, 24
# Streams, each over a connection, to one server.
STREAMS = 8
AT_ONCE = 2
# The account of three drains: two items, one item, and none.
DRAINS = next(drain_texts())[0].encode()
KEY = {"client": 1, "epoch": 1, "incarnation": 1, "number": 1}
SHAPES: list[dict[str, Any]] = [
    {"kind": "hello", "client": 1, "incarnation": 1},
    {"kind": "hello", "client": 1, "incarnation": 1, "version": 2},
    {"kind": "request", **KEY, "call": "put", "item": "a", "queue": 3},
    {"kind": "request", **KEY, "call": "transfer", "item": "a", "queue": 3, "wait": "now"},
    {"kind": "request", **KEY, "call": "take", "queue": 3, "wait": 0},
    {"kind": "request", **KEY, "call": "drain", "max": 16, "queue": 3},
    {"kind": "request", **KEY, "call": "swap", "exchanger": 63, "item": "a", "wait": 5},
    {"kind": "request", **KEY, "call": "count", "queue": 3},
    {"kind": "request", **KEY, "call": "peek", "queue": 3},
    {"kind": "cancel", **KEY},
    {"kind": "welcome", "client": 1, "epoch": 1, "incarnation": 1},
    {"kind": "welcome", "client": 1, "epoch": 1, "incarnation": 1, "version": 2},
    {"kind": "reply", **KEY, "reply": "item", "item": "a"},
    {"kind": "reply", **KEY, "reply": "drained", "texts": ["a", ""]},
    {"kind": "reply", **KEY, "reply": "received", "by_client": 2, "by_incarnation": 1, "by_number": 1},
    {"kind": "waiting", **KEY},
    {"kind": "refused", "code": 4, "current": 2},
    {"kind": "refused", "code": 12, "current": 2},
]
IDENTIFIERS = [0, 1, MAX_IDENTIFIER, MAX_IDENTIFIER + 1]
# The limits of members, and what is just beyond them.
EDGES: dict[str, list[Any]] = {
    **dict.fromkeys(KEY, IDENTIFIERS),
    **dict.fromkeys(("queue", "exchanger"), [0, MAX_PLACE, MAX_PLACE + 1, 2**64]),
    "max": [0, 1, MAX_DRAIN, MAX_DRAIN + 1],
    "version": [0, 1, 2, 3],
    "wait": ["now", "forever", 0, 1, MAX_WAIT, MAX_WAIT + 1],
    "item": ["", "x" * MAX_ITEM_BYTES, "x" * (MAX_ITEM_BYTES + 1), "\u00e9" * 256, "\u00e9" * 257],
}
NAMES = [*{name: 0 for shape in SHAPES for name in shape}, *FURTHER]
GAPS = ["", "", "", "", " ", "\t", "\r", " \t ", "\f", "\u00a0", "\ufeff"]


class Mutants:
    """Bytes that are changed at random."""

    def __init__(self, chance):
        self.chance = chance

    def odds(self, likelihood):
        """True so often."""
        return self.chance.random() < likelihood

    def flipped(self, data):
        """Bytes with some bits the other way, bytes more, less, twice, exchanged, or of another place."""
        data = bytearray(data)
        for _ in range(self.chance.choice([1, 1, 1, 2, 3, 8])):
            at = self.chance.randrange(len(data) + 1)
            to = min(len(data), at + self.chance.choice([1, 1, 2, 5, 20]))
            how = self.chance.randrange(7)
            if how < 3 and at < len(data):
                data[at] ^= 1 << self.chance.randrange(8)
            elif how == 3:
                data[at:at] = bytes([self.chance.randrange(256)])
            elif how == 4:
                del data[at:to]
            elif how == 5:
                data[at:at] = data[at:to]
            else:
                data[at:to] = self.chance.choice([*BYTES, *ESCAPES, b'"', b",", b"{", b"}", b":", b"[", b"]", b"\\"])
        return bytes(data)

    def spliced(self, one, other):
        """The front of one and the end of another."""
        return one[: self.chance.randrange(len(one) + 1)] + other[self.chance.randrange(len(other) + 1) :]

    def shape(self):
        """The text of an object that is nearly a message: members more and less, twice, of another kind, in any order."""
        pairs = list(self.chance.choice(SHAPES).items())
        for _ in range(self.chance.choice([0, 1, 1, 2, 3])):
            how, at = self.chance.randrange(5), self.chance.randrange(len(pairs)) if pairs else 0
            if how == 0 and pairs:
                del pairs[at]
            elif how == 1:
                pairs.insert(at, (self.chance.choice(NAMES), self.value()))
            elif how == 2:
                pairs += self.chance.choice(list(self.chance.choice(SHAPES).items())),
            elif how == 3 and pairs:
                pairs[at] = (self.chance.choice(NAMES), pairs[at][1])
            elif pairs:
                pairs[at] = (pairs[at][0], self.value())
        if self.odds(0.5):
            self.chance.shuffle(pairs)
        body = ",".join(f"{self.gap()}{self.string(name)}{self.gap()}:{self.gap()}{self.text(value)}" for name, value in pairs)
        return f"{self.gap()}{{{body}{self.gap()}}}{self.gap()}".encode()

    def value(self):
        """A member's value: one of those that are often met, a text, a number, or one that nests."""
        how = self.chance.randrange(6)
        if how == 0:
            return "".join(self.chance.choices(LETTERS, k=self.chance.choice([0, 1, 3, 170, 512, 513])))
        if how == 1:
            return self.chance.choice([0, 1, -1]) + self.chance.choice([0, 1, 63, 2**53, 2**64, 86_400_000, 10**300])
        if how == 2 and self.odds(0.5):
            return [self.value()] if self.odds(0.5) else {self.chance.choice(NAMES): self.value()}
        return self.chance.choice(VALUES)

    def text(self, value):
        """The text of a value; now and then of a number that only looks like one, or of a nest that is deep."""
        if self.odds(0.04):
            return self.chance.choice(NUMERALS)
        if self.odds(0.01):
            return self.chance.choice(TEXTS)
        return self.string(value) if isinstance(value, str) else written(value)

    def string(self, text):
        """The text of a string, now and then with escapes that need not be, or are none."""
        quoted = written(text)
        if self.odds(0.04):
            return f'"{self.chance.choice(ESCAPES).decode()}{quoted[1:]}'
        if self.odds(0.08):
            return '"' + "".join(f"\\u{ord(letter):04x}" if ord(letter) < 2**16 else letter for letter in text) + '"'
        return quoted

    def gap(self):
        """White space, or what only looks like it; mostly none."""
        return self.chance.choice(GAPS) if self.odds(0.1) else ""

    def edge(self, script):
        """A message that a script may say next, but for a member at its limit or just beyond it."""
        members = script.of_a_key()
        name = self.chance.choice([name for name in members if name in EDGES])
        members[name] = self.chance.choice(EDGES[name])
        return script.text(members).encode()

    def body(self, script):
        """A body: of a script that goes on, of a shape of its own, and many of them changed in their bytes."""
        if self.odds(0.3):
            return self.edge(script)
        body = script.body() if self.odds(0.5) else self.shape()
        if self.odds(0.1):
            body = self.spliced(body, script.body())
        return self.flipped(body) if self.odds(0.6) else body

    def line(self, line):
        """A line that has no LF within it, changed or not."""
        return (self.flipped(line) if self.odds(0.7) else line).replace(b"\n", b" ")


def printed(program, words, lines):
    """The lines that the program prints for these."""
    ran = subprocess.run([program, *words], input=b"".join(line + b"\n" for line in lines), capture_output=True)
    demand((ran.returncode, ran.stderr) == (0, b""), f"{words} ended with {ran.returncode} and said {ran.stderr!r}: {lines}")
    return ran.stdout.split(b"\n")[:-1]


def same(what, lines, got, wanted):
    """The program's lines must be the model's."""
    for line, found, must in zip(lines, got, wanted):
        demand(found == must, f"{what} {line!r}: {found!r}, not {must!r}")
    demand(len(got) == len(wanted), f"{len(lines)} of {what}, {len(got)} answers")


def bodies(program, chance, count):
    """So many spoilt bodies, in books of some of them each; now and then the line before the body is spoilt too."""
    mutants, script = Mutants(chance), Script(chance, 1)
    lines, wanted = [], []
    for _ in range(min(count, BOOK)):
        line = script.moment() + b" " + mutants.body(script)
        line = mutants.line(line) if mutants.odds(0.1) else line.replace(b"\n", b" ")
        script.account, answer = told(script.account, line)
        lines.append(line)
        wanted.append(answer.encode())
    same("the line", lines, printed(program, ["book", "--epoch", "1"], lines), wanted)
    return len(lines)


def plays(program, chance, count):
    """So many spoilt event lines, in worlds of some of them each."""
    mutants, play = Mutants(chance), Play(chance)
    lines, wanted = [], []
    for _ in range(min(count, PLAY)):
        line = play.event()
        if line.startswith(b"begin") and mutants.odds(0.3):
            line = line.partition(b"{")[0] + mutants.shape()
        line = mutants.line(line) if mutants.odds(0.6) else line.replace(b"\n", b" ")
        wanted.append(play.world.play(line).encode())
        lines.append(line)
    same("the event", lines, printed(program, ["play"], lines), wanted)
    return len(lines)


def accounts(program, chance, count):
    """So many accounts of one book's, each spoilt: legal, its first bad line, or the first rule that it breaks."""
    mutants, script = Mutants(chance), Script(chance, 1)
    for _ in range(chance.choice([3, 8, 15, 25])):
        script.line()
    whole = chance.choice([EXAMPLE, DRAINS, *[account_text(script.account)] * 4])
    for _ in range(min(count, ACCOUNTS)):
        text = spoilt_account(mutants, whole.split(b"\n")[:-1])
        wanted = verdict(text)
        ran = subprocess.run([program, "audit"], input=text, capture_output=True)
        got = ran.stdout, ran.returncode, ran.stderr
        demand(got == (f"{wanted}\n".encode(), int(wanted != "legal"), b""), f"audit of {text!r}: {got}, not {wanted}")
    return min(count, ACCOUNTS)


def spoilt_account(mutants, lines):
    """An account of these lines, spoilt in one place or two."""
    chance = mutants.chance
    for _ in range(chance.choice([1, 1, 2])):
        at = chance.randrange(len(lines))
        lines[at : at + 1] = chance.choice([of_bytes, of_bytes, of_fields, of_fields, of_fields, of_lines, of_lines])(
            mutants, lines, at)
        lines = lines or [b""]
    return b"\n".join(lines) + chance.choice([b"", b"\n", b"\n"])


def of_bytes(mutants, lines, at):
    """The line with spoilt bytes: anywhere, or in its body."""
    front, space, body = lines[at].rpartition(b" ")
    choices = [mutants.flipped(lines[at]), front + space + mutants.flipped(body), front + space + mutants.shape(),
               mutants.spliced(lines[at], mutants.chance.choice(lines))]
    return [mutants.chance.choice(choices).replace(b"\n", b" ")]


def of_fields(mutants, lines, at):
    """The line with another number, or with another's field: the line reads, and the account may break a rule."""
    fields, other = (line.split(b" ", 2) for line in (lines[at], mutants.chance.choice(lines)))
    name = mutants.chance.randrange(len(fields))
    number = mutants.chance.choice([0, 1, 2, max(0, at - 1), max(0, at - 2), at, 99_999, 100_000, 2**62, 2**62 + 1])
    if name == 1 and mutants.odds(0.3):
        more = b"%d" % mutants.chance.choice([max(0, at - 2), number])
        fields[1] = mutants.chance.choice([fields[1] + b"," + more, more + b"," + fields[1], fields[1].partition(b",")[2]])
    elif name < 2 and mutants.odds(0.6):
        fields[name] = mutants.chance.choice([b"-", b"%d" % number])
    else:
        fields[name : name + 1] = other[name : name + 1]
    return [b" ".join(fields)]


def of_lines(mutants, lines, at):
    """The line and another, twice, before another, or not at all."""
    tick = b"%s - tick" % lines[at].split(b" ")[0]
    return mutants.chance.choice([[], [lines[at], lines[at]], [lines[at], mutants.chance.choice(lines)], [tick, lines[at]],
                                  [lines[at], tick]])


class Stream:
    """The bytes of one connection: frames, some of them spoilt, with their answers by the model. Nothing that would wait
    is asked, for then the server's clock would have a part in the answers."""

    def __init__(self, chance, account):
        self.chance, self.account = chance, account
        self.script = Script(chance, 1)
        self.data, self.answers, self.whole = b"", [], True

    def frame(self):
        """One frame more; behind a spoilt length nothing is as it was."""
        mutants = Mutants(self.chance)
        self.script.account = self.account
        data = frame(mutants.body(self.script)[:MAX_FRAME] or b"x")
        if mutants.odds(0.04):
            data = mutants.flipped(data[:2]) + data[2:]
        if mutants.odds(0.02):
            data = mutants.flipped(data)
        account, answers = self.served(data)
        if not any(b'"kind":"waiting"' in answer for answer in answers):
            self.data += data
            self.account, self.answers = account, [*self.answers, *answers]
            rest = self.rest(self.data)
            self.whole = not rest
            if len(rest) > 1 and not 1 <= int.from_bytes(rest[:2]) <= MAX_FRAME:
                # What is behind a bad length is not read: the end could be told as a reset, before the last answers.
                self.data = self.data[: len(self.data) - len(rest) + 2]

    def rest(self, data):
        """What is behind the last whole frame."""
        while len(data) >= 2 and 1 <= int.from_bytes(data[:2]) <= len(data) - 2 and int.from_bytes(data[:2]) <= MAX_FRAME:
            data = data[2 + int.from_bytes(data[:2]) :]
        return data

    def served(self, data):
        """The account behind some more bytes, and the answers to the whole frames in them."""
        account, answers = self.account, []
        while len(data) >= 2:
            size = int.from_bytes(data[:2])
            if not 1 <= size <= MAX_FRAME or len(data) < 2 + size:
                break
            body, data = data[2 : 2 + size], data[2 + size :]
            # A moment long behind each limit: a request with a limit is told of it in its own frame.
            moment = b"%d" % (account.own_moment() + 1)
            account, answer = told(account, moment + b" " + body)
            answers.append(answer.encode())
        return account, answers


def frames(program, chance, count):
    """So many frames, spoilt and cut into streams, over connections to one server."""
    account, done = Account(1, 0), 0
    with serving(program, workers=1, connections=STREAMS) as server:
        for _ in range(STREAMS):
            stream = Stream(chance, account)
            for _ in range(STREAM):
                if stream.whole:
                    stream.frame()
                    done += 1
            hear(server, stream)
            account = stream.account
        printed_account = server.ended()
        demand(shape(printed_account) == shape(account), "the account has other entries than the model's")
    return done


def hear(server, stream):
    """The stream's frames must be answered so, and then the connection must end."""
    with server.connect() as peer:
        peer.send(stream.data)
        peer.end()
        for number, wanted in enumerate(stream.answers):
            got = peer.hear()
            demand(got == wanted, f"frame {number} of {stream.data!r} was answered {got!r}, not {wanted!r}")
        peer.expect_end()


def shape(account):
    """What an account has beside its moments."""
    return [(entry.act, entry.partners) for entry in account.entries]


def case_of(part):
    """The case of so many mutants of a kind."""
    def case(program, seed, count):
        def run(number):
            chance = random.Random(f"{part.__name__} {seed} {number}")
            try:
                return part(program, chance, count)
            except Exception as fault:
                raise type(fault)(f"part {number}: {fault}") from fault

        done, number = 0, 0
        with ThreadPoolExecutor(AT_ONCE) as several:
            while done < count:
                done += sum(several.map(run, range(number, number + 8 * AT_ONCE)))
                number += 8 * AT_ONCE
        return done

    case.__name__ = f"spoilt_{part.__name__}"
    return case


CASES = [case_of(part) for part in (bodies, plays, accounts, frames)]
