"""Random scripts: lines of `rv book`, good ones and bad ones, with what the model answers to each."""
import json
import random
from collections.abc import Sequence
from functools import cache
from typing import Any

from tests.model.account import (
    MAX_CLIENTS, Account, Key, Request, incarnation, last_number, limit, reply, version, waiting, waiting_of)
from tests.model.audit import audit
from tests.model.calls import KINDS
from tests.model.limits import BOOK, Limits
from tests.model.steps import replied, told
from tests.model.texts import KEY, MAX_BODY_BYTES, MAX_IDENTIFIER, members_of_call, members_of_version, written

LETTERS = ["a", "b", "x", " ", "/", '"', "\\", "\0", "\x01", "\b", "\t", "\n", "\f", "\r", "\x1f", "\x7f", "\x80",
           "é", "߿", "ࠀ", "\u2028", "\ud7ff", "\ue000", "�", "\uffff", "𝄞", "\U0010ffff"]
NUMBERS = [0, 1, 2, 16, 17, 63, 64, 86_400_000, 86_400_001, 2**53 - 1, 2**53, 2**64 - 1, 2**64, -1, 1.0, 0.5]
VALUES: list[object] = [*NUMBERS, None, True, "", "1", "now", "forever", "NOW", "put", "take", "transfer", "swap", "count", "peek",
          "drain", "offer", "hello", "request", "cancel", "goodbye", [], [1], {}, {"kind": "hello"}]
TEXTS = ["", "[]", '"hello"', "null", "{}", "{", "}", "01", "nul", "[" * 127 + "]" * 127, "[" * 128 + "]" * 128]
NUMERALS = ["1.0", "1e2", "1E0", "-0", "-1", "01", "+1", ".5", "1.", "1e999", "1e-999", "0x1", "NaN", "Infinity",
            "18446744073709551615", "18446744073709551616", "9" * 400, '"1"', "0", "00"]
FURTHER = ["x", "", "Kind", "item", "wait", "queue", "exchanger", "max", "texts", "version", "version", "by_client"]
# What a hello tells of its version, of which 2 alone makes a message.
VERSIONS = [1, 1, 2, 2, 3, 0, 2.0, "2", None, [2], 2**64 + 2]
BYTES = [b"\xff", b"\xc0\x80", b"\xed\xa0\x80", b"\xc2\xa0", b"\x0b", b"\x00"]
ESCAPES = [b"\\ud800", b"\\udc00", b"\\ud83d\\ude00", b"\\x", b"\\u12", b"\\"]
MILLIS = [0, 0, 1, 1, 2, 3, 5, 10, 20, 100, 86_399_999, 86_400_000, 86_400_001]
WAITS = ["forever", "now", *MILLIS]
# How many items a drain may take, and two that it may not.
MAXIMA = [1, 1, 2, 2, 3, 4, 5, 8, 15, 16, 16, 16]
NO_MAXIMA = [0, 17]
# What a moment rises or falls by from line to line, one pace for each script.
PACES = [[0, 0, 0, 1, 1, 2, 5, -3], [0, 0, 0, 0, 0, 1], [0, 3, 10, 30, -20], [0, 1, -1, 1, -1, 2]]
LEAPS = [0, 1000, 86_400_000, 10**9, 2**62 - 86_400_000, 2**62 - 1, 2**62, 2**62 + 1, 10**19 - 1]
# How far above its session's last number a key's number is: mostly one, or often a repeat, a stale one or a gap.
STEPS = [
    [1] * 16 + [0, 0, -1, 2, 3],
    [1] * 5 + [0] * 5 + [-1],
    [1] * 4 + [0, 0, -1, -1, -2, -5],
    [1] * 4 + [0, 2, 2, 3, 9],
]
MOST_CROWD = MAX_CLIENTS + 76
# The members of a JSON object.
Members = dict[str, Any]


class Script:
    """One book's lines, or those of a machine under other limits. What comes next is chosen by the account that the model
    has so far."""

    def __init__(self, chance: random.Random, epoch: int, limits: Limits = BOOK):
        self.chance, self.limits = chance, limits
        self.account = Account(epoch, 0)
        self.now = 0
        count = chance.choice([1, 2, 3, 4, 5, 6, 9, 12, 16])
        self.clients = chance.sample([*range(1, 15), 1000, MAX_IDENTIFIER], count)
        self.queues = chance.sample(range(64), chance.randint(1, 3))
        self.steps = chance.choice(STEPS)
        self.restarts = chance.choice([0.05, 0.1, 0.3])
        self.gives = chance.choice([0.35, 0.5, 0.65])
        self.puts = chance.choice([0.1, 0.4, 0.7])
        self.patience = chance.choice([0.2, 0.5, 0.9])
        self.haste = chance.choice([0.1, 0.5, 0.9])
        self.drains = chance.choice([0, 0.1, 0.5])
        self.seconds = chance.choice([0, 0.5, 0.9, 1])
        if chance.random() < 0.3:
            self.hoard()
        self.pace = chance.choice(PACES)
        self.longs = chance.random() < 0.2
        self.leaps = chance.random() < 0.2
        self.crowd: list[int] = []
        self.newcomers: list[int] = []

    def hoard(self) -> None:
        """Items gather in a queue or two, and mostly drains take them."""
        self.gives, self.puts, self.drains = self.chance.choice([0.8, 0.9]), self.chance.choice([0.5, 0.8]), 0.9
        self.queues, self.patience, self.haste = self.queues[:2], 0.9, 0.1

    def add_crowd(self, size: int) -> None:
        """Further clients, so many with the others; most of the next lines are their first hellos."""
        others = [client for client in range(1, 2 * size) if client not in self.clients]
        self.crowd = self.chance.sample(others, size - len(self.clients))
        self.newcomers = self.chance.sample(self.clients + self.crowd, size)

    def odds(self, likelihood: float) -> bool:
        """True so often."""
        return self.chance.random() < likelihood

    def line(self) -> tuple[bytes, bytes]:
        """One line more, and the text that answers it."""
        line = self.newcomer() if self.newcomers and self.odds(0.95) else self.any_line()
        self.account, text = told(self.account, line, self.limits)
        return line, text.encode()

    def newcomer(self) -> bytes:
        """The hello of the next newcomer."""
        members = self.hello_of(self.newcomers.pop(), self.chance.choice([1, 1, 2]))
        return self.moment() + b" " + written(members).encode()

    def any_line(self) -> bytes:
        """A line, mostly a good one."""
        line = self.moment() + b" " + self.body()
        if self.odds(0.02):
            line = self.spoilt_line(line)
        return line.replace(b"\n", b" ")

    def moment(self) -> bytes:
        """A moment: it rises a little, stays, falls, leaps, or stands at the limit of a request that waits, or beside it."""
        self.now = max(0, self.now + self.chance.choice(self.pace))
        if self.odds(0.05):
            self.now = self.limit() or self.now
        if self.leaps and self.odds(0.03):
            self.now = self.chance.choice(LEAPS)
        digits = str(min(self.now, 10**19 - 1))
        return (digits.zfill(self.chance.randint(1, 19)) if self.odds(0.05) else digits).encode()

    def limit(self) -> int | None:
        """The limit of a request that waits, or a moment beside it; none where no request has one."""
        entries = self.account.entries
        limits = [limit(entries, r) for r in waiting(entries) if limit(entries, r) is not None]
        near = [moment for moment in limits if moment < self.now + 1_000]
        return self.chance.choice(near) + self.chance.choice([-1, 0, 0, 1]) if near else None

    def spoilt_line(self, line: bytes) -> bytes:
        """A line of another form, or nearly so."""
        digits, _, body = line.partition(b" ")
        return self.chance.choice([
            b"", b" ", digits, digits + b" ", digits + b"\t" + body, body, b" " + line, b"+" + line, b"-" + line,
            b"x " + body, digits + b"x " + body, digits.zfill(19) + b" " + body, digits.zfill(20) + b" " + body,
            b"1." + line, digits + b"  " + body, line + b"\r", line + b" ", digits + b" \t" + body, "１ ".encode() + body,
        ])

    def body(self) -> bytes:
        """A body, mostly that of a message."""
        members = self.hello() if self.odds(self.restarts) or not self.account.entries else self.of_a_key()
        if self.odds(0.03):
            self.spoil(members)
        text = self.text(members).encode()
        return self.spoilt_body(text) if self.odds(0.04) else text

    def client(self) -> int:
        """A client: one of the few who ask often, or now and then one of the crowd."""
        return self.chance.choice(self.crowd if self.crowd and self.odds(0.3) else self.clients)

    def hello(self) -> Members:
        """A hello: of a new incarnation, of this one again, or of an old one; now and then of a version that is told
        otherwise."""
        client = self.client()
        current = incarnation(self.account.entries, client)
        number = self.chance.choice([1, 2]) if current is None else current + self.chance.choice([0, 0, 1, 1, 2, -1])
        if self.odds(0.01):
            number = MAX_IDENTIFIER
        hello = self.hello_of(client, max(1, number))
        return {**hello, "version": self.chance.choice(VERSIONS)} if self.odds(0.04) else hello

    def hello_of(self, client: int, number: int) -> Members:
        """A hello in an incarnation: of the session's version where there is one, and else of any; now and then of the
        other one."""
        spoken = 2 if self.odds(self.seconds) else 1
        if number == incarnation(self.account.entries, client):
            spoken = version(self.account.entries, client)
        if self.odds(0.06):
            spoken = 3 - spoken
        return {"kind": "hello", "client": client, "incarnation": number, **members_of_version(spoken)}

    def of_a_key(self) -> Members:
        """A request or cancel, mostly one that its session may send next."""
        entries, client = self.account.entries, self.client()
        current = incarnation(entries, client)
        if current is None and self.odds(0.8):
            return self.hello_of(client, 1)
        last = last_number(entries, client) if current else 0
        step = 0 if waiting_of(entries, client) and self.odds(0.6) else self.chance.choice(self.steps)
        number = max(1, last + step)
        key = {"epoch": self.account.epoch, "client": client, "incarnation": current or 1, "number": number}
        if self.odds(0.04):
            name = self.chance.choice(list(key))
            key[name] = self.chance.choice([key[name] + 1, max(1, key[name] - 1), MAX_IDENTIFIER])
        if self.odds(0.13):
            return {"kind": "cancel", **key}
        again = self.arrived(key) if self.odds(0.8) else None
        if again and self.odds(0.25):
            self.change(again)
        return {"kind": "request", **key, **(again or self.call())}

    def arrived(self, key: Members) -> Members | None:
        """The members of the call that arrived under these key members, if one did."""
        for entry in self.account.entries:
            if isinstance(entry.act, Request) and vars(entry.act.key) == key:
                return members_of_call(entry.act.call)
        return None

    def change(self, call: Members) -> None:
        """Gives one member of a call another value, so that it is another call, or no message."""
        name = self.chance.choice(list(call))
        others: dict[str, Sequence[object]] = {
            "call": ["put", "take", "transfer", "drain"], "item": [self.item()], "wait": WAITS, "max": range(18)}
        call[name] = self.chance.choice(others.get(name, range(65)))

    def call(self) -> Members:
        """The members of a call."""
        word = "take"
        if self.odds(self.gives):
            word = "put" if self.odds(self.puts) else "transfer"
        elif self.odds(self.drains):
            word = "drain"
        if self.odds(0.25):
            word = self.chance.choice(["swap", "swap", "count", "peek"])
        at = self.chance.randrange(65) if self.odds(0.02) else self.chance.choice(self.queues)
        place, *names = KINDS[word].members
        given = {"item": self.item, "wait": self.wait, "max": self.most}
        return {"call": word, place: at, **{name: given[name]() for name in names}}

    def most(self) -> int:
        """How many items a drain takes at most, mostly as many as it may."""
        return self.chance.choice(NO_MAXIMA if self.odds(0.02) else MAXIMA)

    def wait(self) -> int | str:
        """A wait, mostly one that its call may have."""
        if self.odds(self.haste):
            return self.chance.choice(MILLIS)
        return "forever" if self.odds(self.patience) else "now"

    def item(self) -> str:
        """A text of some letters, now and then as long as one may be, or a byte longer."""
        if not self.longs and self.odds(0.9):
            return "".join(self.chance.choices(LETTERS, k=self.chance.randint(0, 3)))
        size = self.chance.choice([0, 1, 255, 256, 257, 300, 511, 512, 512, 513])
        letters = self.chance.choices(LETTERS, k=self.chance.randint(1, 8))
        chosen, left = [], size
        while left >= 4:
            chosen.append(self.chance.choice(letters))
            left -= len(chosen[-1].encode())
        return "".join(chosen) + "x" * left

    def spoil(self, members: Members) -> None:
        """Leaves a member out, adds one or changes one's value."""
        name = self.chance.choice(list(members))
        how = self.chance.randrange(4)
        if how == 0:
            del members[name]
        elif how == 1:
            members[self.chance.choice(FURTHER)] = self.chance.choice(VALUES)
        else:
            members[name] = self.chance.choice(VALUES)

    def spoilt_body(self, body: bytes) -> bytes:
        """A body with something wrong in its bytes, or nearly so."""
        at, end = self.chance.randrange(len(body)), body[-1:]
        nested = lambda levels: b'{"kind":' + b"[" * levels + b"]" * levels + b"," + body[1:]
        padded = lambda size: body[:-1] + b" " * max(0, size - len(body)) + end
        return self.chance.choice([
            lambda: body[:at],
            lambda: body[:at] + body[at + 1 :],
            lambda: body[:at] + bytes([self.chance.randrange(256)]) + body[at + 1 :],
            lambda: body[:at] + self.chance.choice(BYTES) + body[at:],
            lambda: body + self.chance.choice([b"x", b"{}", b",", b"\xc2\xa0", b" ", b"\t\r "]),
            lambda: b"\xef\xbb\xbf" + body,
            lambda: body.replace(b":1", b":" + self.chance.choice(NUMERALS).encode(), 1),
            lambda: body.replace(b'":"', b'":"' + self.chance.choice(ESCAPES), 1),
            lambda: padded(self.chance.choice([4_096, 4_097, MAX_BODY_BYTES, MAX_BODY_BYTES + 1])),
            lambda: nested(self.chance.choice([1, 125, 126, 127])),
            lambda: body[:-1] + b',"kind":"hello"}',
            lambda: body[:-1] + b',"version":%d}' % self.chance.choice([1, 2, 2, 3]),
            lambda: self.chance.choice(TEXTS).encode(),
        ])()

    def text(self, members: Members) -> str:
        """A JSON text of members: often as it would be written, else in any order, with white space and escapes."""
        if self.odds(0.5):
            return written(members)
        names = self.chance.sample(list(members), len(members))
        if names and self.odds(0.05):
            names.insert(0, self.chance.choice(names))
        pairs = [self.pair(name, members[name]) for name in names]
        return f"{self.gap()}{{{(self.gap() + ',').join(pairs)}{self.gap()}}}{self.gap()}"

    def pair(self, name: str, value: object) -> str:
        """The text of a member."""
        text = self.string(value) if isinstance(value, str) else json.dumps(value)
        return f"{self.gap()}{self.string(name)}{self.gap()}:{self.gap()}{text}"

    def gap(self) -> str:
        """White space, mostly none."""
        return "".join(self.chance.choices(" \t\r", k=self.chance.randint(1, 3))) if self.odds(0.1) else ""

    def string(self, text: str) -> str:
        """A JSON string, some of its letters with an escape."""
        often = self.chance.choice([0, 0, 0.1, 1])
        return '"' + "".join(self.letter(letter, often) for letter in text) + '"'

    def letter(self, letter: str, often: float) -> str:
        """A letter of a JSON string, so often with an escape that it needs not have."""
        if not self.odds(often):
            return plain_letter(letter)
        if letter == "/":
            return "\\/"
        units = letter.encode("utf-16-be")
        form = self.chance.choice(["\\u{:04x}", "\\u{:04X}"])
        return "".join(form.format(int.from_bytes(units[i : i + 2])) for i in range(0, len(units), 2))


@cache
def plain_letter(letter: str) -> str:
    """A letter of a JSON string, with an escape where it needs one."""
    return written(letter)[1:-1]


def make_script(chance: random.Random, epoch: int, count: int) -> list[tuple[bytes, bytes]]:
    """So many lines for a book of an epoch, each with the text that the program must answer."""
    script = Script(chance, epoch)
    return [script.line() for _ in range(count)]


def make_crowd(chance: random.Random, epoch: int) -> list[tuple[bytes, bytes]]:
    """Lines for a book that as many clients come to as may, or some more, each with the text that answers it."""
    script = Script(chance, epoch)
    size = chance.choice([MAX_CLIENTS - 1, MAX_CLIENTS, MAX_CLIENTS + 1, chance.randint(MAX_CLIENTS, MOST_CROWD)])
    script.add_crowd(size)
    return [script.line() for _ in range(size + chance.randint(200, 500))]


def law_fault(chance: random.Random) -> str | None:
    """What is wrong with a random book, if something is: it must be legal, and replies must stay."""
    script = Script(chance, 1)
    answers = [json.loads(script.line()[1]) for _ in range(200)]
    if audit(script.account):
        return f"the account breaks a rule: {audit(script.account)}"
    for answer in answers:
        key = Key(*(answer.get(name) for name in KEY))
        if answer["kind"] == "reply" and replied(key, reply(script.account.entries, key)) != answer:
            return f"this reply did not stay: {answer}"
    return None
