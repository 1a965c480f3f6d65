"""Runs the built program from outside: what it prints, what it says at faults, and how it ends. All examples, words that
name no command, and `rv book` over lines."""
from __future__ import annotations

import subprocess
from collections.abc import Iterable, Sequence

from tests import ROOT
from tests.commands.judged import GREATEST, LONGEST, Judged, Pair

FIRST, FIRST_ANSWERS = ((ROOT / "examples" / f"first.{end}").read_bytes() for end in ("in", "out"))
PIECE = 65_536
BAD_TEXT = '{"code":1,"kind":"refused"}'


def hello(client: int, epoch: int = 1, incarnation: int = 1) -> Pair:
    """A hello at moment 0, and its welcome."""
    return (f'0 {{"client":{client},"incarnation":{incarnation},"kind":"hello"}}',
            f'{{"client":{client},"epoch":{epoch},"incarnation":{incarnation},"kind":"welcome"}}')


def put(client: int, number: int, text: str, epoch: int = 1, incarnation: int = 1, queue: int = 3) -> Pair:
    """A put at moment 0 of an item with this JSON text, and its answer."""
    return (f'0 {{"call":"put","client":{client},"epoch":{epoch},"incarnation":{incarnation},"item":"{text}",'
            f'"kind":"request","number":{number},"queue":{queue}}}',
            f'{{"client":{client},"epoch":{epoch},"incarnation":{incarnation},'
            f'"kind":"reply","number":{number},"reply":"done"}}')


def take(client: int, number: int, text: str | None, epoch: int = 1, incarnation: int = 1) -> Pair:
    """A take from queue 3 that does not wait, and its answer: an item that is written so, or none is there."""
    item, reply = ("", "empty") if text is None else (f'"item":"{text}",', "item")
    return (f'0 {{"call":"take","client":{client},"epoch":{epoch},"incarnation":{incarnation},'
            f'"kind":"request","number":{number},"queue":3,"wait":"now"}}',
            f'{{"client":{client},"epoch":{epoch},"incarnation":{incarnation},{item}'
            f'"kind":"reply","number":{number},"reply":"{reply}"}}')


def count(client: int, number: int, queue: int) -> Pair:
    """A count of a queue where nothing waits, and its answer."""
    return (f'0 {{"call":"count","client":{client},"epoch":1,"incarnation":1,"kind":"request","number":{number},'
            f'"queue":{queue}}}',
            f'{{"client":{client},"consumers":0,"epoch":1,"incarnation":1,"items":0,"kind":"reply","number":{number},'
            '"reply":"counted"}')


def drain(client: int, number: int, most: int | str, texts: Sequence[str], queue: int = 3) -> Pair:
    """A drain, and its answer: items that are written so."""
    written = ",".join(f'"{text}"' for text in texts)
    return (f'0 {{"call":"drain","client":{client},"epoch":1,"incarnation":1,"kind":"request","max":{most},'
            f'"number":{number},"queue":{queue}}}',
            f'{{"client":{client},"epoch":1,"incarnation":1,"kind":"reply","number":{number},"reply":"drained",'
            f'"texts":[{written}]}}')


def refused(pair: Pair, code: int, **detail: int) -> Pair:
    """A line with a refusal for its answer. The members `current` and `last` stand around `kind`."""
    current = f',"current":{detail["current"]}' if "current" in detail else ""
    last = f',"last":{detail["last"]}' if "last" in detail else ""
    return pair[0], f'{{"code":{code}{current},"kind":"refused"{last}}}'


def many_lines(size: int) -> list[Pair]:
    """Hellos and their answers. The last line is padded, so that there are so many bytes with its LF."""
    pairs: list[Pair] = []
    left = size
    while left > 0:
        line, answer = hello(len(pairs) % 1_000 + 1)
        if left < 2 * (len(line) + 2):
            line = line.replace(" ", " " * (left - len(line)))
        pairs.append((line, answer))
        left -= len(line) + 1
    return pairs


class Book(Judged):
    """What each expects is set beforehand, by how its input is made."""

    def judge_book(self, name: str, epoch: int | str, pairs: Iterable[Pair]) -> None:
        """A run of the book over lines must print their answers."""
        self.judge_lines(name, ["book", "--epoch", str(epoch)], pairs)

    def test_examples(self) -> None:
        """The examples, byte for byte."""
        for end, words in [("in", ["book", "--epoch", "1"]), ("play", ["play"]), ("account", ["audit"])]:
            for path in sorted((ROOT / "examples").glob(f"*.{end}")):
                self.judge_input(f"examples/{path.name}", words, path.read_bytes(), path.with_suffix(".out").read_bytes())

    def test_words(self) -> None:
        """Words that name no command: nothing is printed, and one line says so."""
        for text in ["", "book", "book --epoch", "book 1", "book -e 1", "book -epoch 1", "book --epochs 1", "book --epoch 1 2",
                     "book --epoch 1 --epoch 1", "book --epoch 1 --epoch 2", "book --epoch 1 --workers 1", "--epoch 1",
                     "--epoch 1 book", "Book --epoch 1", "rv book --epoch 1", "play --epoch 1", "play 1", "play play",
                     "Play", "plays", "play --help", "play -h", "book --epoch 1 play", "play book --epoch 1", "--help", "-h",
                     "--version", "-V", "book --help", "book -h", "book --epoch 1 --help",
                     "book --epoch --help"]:
            self.judge_no_command(text.split(" ") if text else [])
        for epoch in ["", "0", "0000000000000000000", "9007199254740992", "9999999999999999999", "00000000000000000001",
                      "18446744073709551617", "+1", "-1", " 1 ", " 1", "1 ", "1\n", "1.0", "1e3", "0x1", "1_0", "one", "１", "١"]:
            self.judge_no_command(["book", "--epoch", epoch])
        self.judge_no_command([" book", "--epoch", "1"])
        self.judge_no_command([""])
        self.judge_no_command([b"\xff"])
        self.judge_no_command([b"book", b"--epoch", b"\xff"])
        self.judge_no_command([b"book", b"--epoch", b"1\xc0"])
        self.judge_no_command([b"book", b"--epoch", b"1", b"\xed\xa0\x80"])

    def judge_no_command(self, given: Sequence[str | bytes]) -> None:
        """The program with these words must end by command fault 1."""
        ran = self.ran(given, input=FIRST, stdout=subprocess.PIPE)
        self.judge(f"words {given}", ran, b"", b"command fault 1\n", 2)

    def test_epochs(self) -> None:
        """Books of other epochs, however they are written: their own keys are served, and those of epoch 7 refused."""
        for text, epoch in [("1", 1), ("01", 1), ("0000000000000000001", 1), ("42", 42), (str(GREATEST), GREATEST),
                            (f"000{GREATEST}", GREATEST)]:
            pairs = [hello(1, epoch), put(1, 1, "a", epoch), take(1, 2, "a", epoch)]
            pairs.insert(1, refused(put(1, 1, "a", 7), 2, current=epoch))
            self.judge_book(f"epoch {text}", text, pairs)

    def test_last_lines(self) -> None:
        """A last line may lack its LF, and an input of no line is answered by none."""
        self.judge_input("a last line with no LF", ["book", "--epoch", "1"], FIRST[:-1], FIRST_ANSWERS)
        self.judge_input("an empty input", ["book", "--epoch", "1"], b"", b"")

    def test_items(self) -> None:
        """Items of many bytes are handed over whole, however long their escapes make them."""
        for size in [257, 300, 512]:
            for what, text, written in [
                ("letters", "x" * size, "x" * size),
                ("quotes", '\\"' * size, '\\"' * size),
                ("line feeds", "\\u000a" * size, "\\n" * size),
                ("control characters", "\\u0001" * size, "\\u0001" * size),
                ("letters of two bytes", size % 2 * "x" + size // 2 * "é", size % 2 * "x" + size // 2 * "é"),
                ("letters of four bytes", size % 4 * "x" + size // 4 * "\\ud834\\udd1e", size % 4 * "x" + size // 4 * "𝄞"),
            ]:
                pairs = [hello(1), put(1, 1, text), take(1, 2, written), put(1, 3, "a"), take(1, 4, "a")]
                self.judge_book(f"an item of {size} bytes, {what}", 1, pairs)
        pairs = [hello(1), refused(put(1, 1, "x" * 513), 1), put(1, 1, "a"), take(1, 2, "a")]
        self.judge_book("an item of 513 bytes", 1, pairs)

    def test_long_inputs(self) -> None:
        """Inputs of more than one piece, with lines that lie across the ends of pieces."""
        for size in [PIECE - 1, PIECE, PIECE + 1, 2 * PIECE, 5 * PIECE + 77]:
            self.judge_book(f"an input of {size} bytes", 1, many_lines(size))
        for size in [4_096, 4_097, LONGEST]:
            line, answer = put(1, 1, "x" * 512)
            line = line.replace('"kind"', " " * (2 + size - len(line)) + '"kind"')
            for before in [1, 100, 4_000, 4_098, PIECE - 50]:
                pairs = [*many_lines(PIECE - before), (line, answer), take(1, 2, "x" * 512)]
                self.judge_book(f"a body of {size} bytes, whose line begins {before} before the end of a piece", 1, pairs)
        line = put(1, 1, "x")[0]
        line = line.replace('"kind"', " " * (3 + LONGEST - len(line)) + '"kind"')
        self.judge_book("a body of a byte too many", 1, [hello(1), (line, BAD_TEXT), put(1, 1, "a")])
        pairs = [hello(1), ("0 " + "x" * 3 * PIECE, BAD_TEXT), ("", BAD_TEXT), put(1, 1, "a"), take(1, 2, "a")]
        self.judge_book("a bad line of several pieces", 1, pairs)

    def test_sessions(self) -> None:
        """A repeat gets the reply that stands. What else is refused is refused for the first reason that applies."""
        first = put(1, 1, "a")
        self.judge_book("refusals of a key in their order", 1, [
            *map(hello, [1, 2, 3]),
            first,
            refused(put(1, 1, "b"), 6),
            refused(put(1, 3, "c"), 8, last=1),
            put(1, 2, "t", queue=4),
            refused(put(1, 2, "t", queue=5), 6),
            refused(first, 5, last=2),
            refused(put(1, 1, "b"), 5, last=2),
            refused(put(1, 4, "c"), 8, last=2),
            refused(put(9, 1, "a"), 3),
            refused(put(9, 1, "a", epoch=2), 2, current=1),
            refused(put(1, 2, "t", incarnation=2), 3),
            put(1, 2, "t", queue=4),
            put(1, 3, "c"),
            take(2, 1, "a"),
            take(2, 1, "a"),
            take(3, 1, "c"),
            take(3, 2, None),
            take(2, 1, "a"),
        ])

    def test_drains(self) -> None:
        """A drain takes the oldest items, at most as many as it names, and never waits; its repeat is told the same."""
        texts = [f"item {number}" for number in range(1, 41)]
        puts = [put(1, number, text) for number, text in enumerate(texts, 1)]
        for most in [1, 2, 15, 16]:
            parts: list[list[str]] = [*(texts[at:at + most] for at in range(0, 40, most)), [], []]
            drained = [drain(2, number, most, part) for number, part in enumerate(parts, 1)]
            self.judge_book(f"40 items by drains of {most}", 1, [hello(1), hello(2), *puts, *drained, drained[-1]])
            twice = [pair for pair in drained for _ in range(2)]
            self.judge_book(f"40 items by drains of {most}, each asked twice", 1, [hello(1), hello(2), *puts, *twice])
        for written in ["0", "17", "-1", "1.0", '"1"', "null", str(2**64)]:
            line = drain(1, 2, written, [])[0]
            self.judge_book(f"a drain of at most {written}", 1, [hello(1), puts[0], (line, BAD_TEXT), take(1, 2, "item 1")])
        for old, new in [(',"max":1', ""), ('"max":1', '"max":1,"wait":"now"'), ('"max":1', '"max":1,"item":"a"'),
                         ('"max"', '"Max"'), (',"queue":3', ""), ('"queue":3', '"queue":64'), ('"queue"', '"exchanger"')]:
            line = drain(1, 2, 1, [])[0].replace(old, new)
            self.judge_book(f"a drain with {new or 'nothing'} for {old}", 1, [hello(1), puts[0], (line, BAD_TEXT), take(1, 2, "item 1")])
        line = take(1, 2, "item 1")[0].replace('"kind"', '"kind":"x","kind"').replace('"wait"', '"max":1,"wait"')
        self.judge_book("a take with a greatest number", 1, [hello(1), puts[0], (line, BAD_TEXT), drain(1, 2, 1, ["item 1"])])
        self.judge_book("a drain, a take and another drain under one number", 1, [
            hello(1), hello(2), puts[0], drain(2, 1, 2, ["item 1"]), refused(take(2, 1, None), 6),
            refused(drain(2, 1, 1, []), 6), refused(drain(2, 1, 2, [], queue=4), 6), drain(2, 1, 2, ["item 1"]),
        ])
        for name, text, told in [("control characters", "\\u0001" * 512, "\\u0001" * 512), ("letters", "x" * 512, "x" * 512),
                                 ("letters of four bytes", "\\ud834\\udd1e" * 128, "𝄞" * 128), ("nothing", "", "")]:
            pairs = [hello(1), *[put(1, number, text) for number in range(1, 18)]]
            self.judge_book(f"the longest drain of {name}", 1, [
                *pairs, drain(1, 18, 16, [told] * 16), drain(1, 19, 16, [told]), drain(1, 20, 16, [])])

    def test_swaps_now(self) -> None:
        """A swap waits, if for 0 milliseconds: one that does not is no message."""
        line, answer = take(1, 1, None)
        swap = line.replace('"take"', '"swap"').replace('"queue"', '"exchanger"').replace('"kind"', '"item":"a","kind"')
        self.judge_book("swaps that do not wait", 1, [hello(1), (swap, BAD_TEXT), (line, answer)])

    def test_kept_replies(self) -> None:
        """A repeat gets the reply that its request got, whatever came between. The last number's call alone repeats it."""
        polled, found_none = take(1, 2, "a"), take(2, 1, None)
        self.judge_book("a poll that found nothing, repeated when an item is there", 1,
                        [hello(1), hello(2), found_none, put(1, 1, "a"), found_none, polled, polled, found_none])
        self.judge_book("a number that a put has, asked by a poll, and the other way round", 1,
                        [hello(1), put(1, 1, "a"), refused(take(1, 1, "a"), 6), polled, refused(put(1, 2, "a"), 6), polled])
        spaced = polled[0].replace(",", " , ").replace(":", "\t:"), polled[1]
        self.judge_book("a repeat that is written otherwise", 1, [hello(1), put(1, 1, "a"), polled, spaced])
        self.judge_book("the numbers of a session anew begin at 1", 1, [
            hello(1),
            put(1, 1, "a"),
            put(1, 2, "b"),
            hello(1, incarnation=GREATEST),
            refused(put(1, 3, "c", incarnation=GREATEST), 8, last=0),
            put(1, 1, "c", incarnation=GREATEST),
            put(1, 1, "c", incarnation=GREATEST),
            *[take(1, number + 2, text, incarnation=GREATEST) for number, text in enumerate(["a", "b", "c", None])],
            hello(1, incarnation=GREATEST),
        ])

    def test_clients(self) -> None:
        """1,024 clients are served and one more is refused, again and again; the known ones go on, started anew too."""
        known = range(1, 1_025)
        welcomes = [hello(client) for client in known]
        puts = [put(client, 1, str(client)) for client in known]
        more = refused(hello(1_025), 9)
        self.judge_book("a client more, and what the known ones do then", 1, [
            *welcomes,
            *puts,
            more,
            refused(put(1_025, 1, "a"), 3),
            *puts,
            *[hello(client, incarnation=2) for client in known],
            more,
            refused(hello(GREATEST, incarnation=GREATEST), 9),
            refused(hello(7), 4, current=2),
            *[take(client, 1, str(client), incarnation=2) for client in known],
            *[take(client, 1, str(client), incarnation=2) for client in known],
            more,
            *[hello(client, incarnation=3) for client in known],
            take(1_024, 1, None, incarnation=3),
        ])

    def test_full_epochs(self) -> None:
        """An epoch of 100,000 entries takes no other. Repeats get their replies, and refusals that come before stay."""
        puts = [put(1, number, "") for number in range(1, 100_001)]
        self.judge_book("a full epoch", 1, [
            hello(1),
            *puts[:99_999],
            refused(puts[99_999], 10),
            refused(take(1, 100_000, ""), 10),
            refused(hello(1, incarnation=2), 10),
            refused(hello(2), 10),
            hello(1),
            puts[99_998],
            refused(put(1, 99_999, "a"), 6),
            refused(puts[99_997], 5, last=99_999),
            refused(put(1, 100_001, ""), 8, last=99_999),
            puts[99_998],
        ])
        welcomes = [hello(client) for client in range(1, 1_025)]
        self.judge_book("a full epoch with 1,024 clients", 1, [
            *welcomes,
            *puts[:98_976],
            refused(puts[98_976], 10),
            refused(hello(1_025), 9),
            refused(hello(1, incarnation=2), 10),
            *welcomes,
            puts[98_975],
        ])

    def test_full_epoch_of_a_wait(self) -> None:
        """Where a request waits, an epoch is full with an entry left for its end. No other message takes that, and its cancel
        does."""
        key = '"client":1,"epoch":1,"incarnation":1'
        wait = take(1, 1, None)[0].replace('"now"', '"forever"')
        cancel, cancelled = f'0 {{{key},"kind":"cancel","number":1}}', f'{{{key},"kind":"reply","number":1,"reply":"cancelled"}}'
        looks = [count(2, number, 4) for number in range(1, 99_998)]
        self.judge_book("a full epoch where a take waits, and its cancel", 1, [
            hello(1),
            hello(2),
            (wait, f'{{{key},"kind":"waiting","number":1}}'),
            *looks[:99_996],
            refused(looks[99_996], 10),
            (cancel, cancelled),
            (cancel, cancelled),
            (wait, cancelled),
            refused(looks[99_996], 10),
            refused(take(1, 2, None), 10),
            looks[99_995],
        ])
