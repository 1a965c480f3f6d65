"""Runs the built program on 27 worked rows, each with the same lines again behind it, on the worked plays and on the worked
account, a server that nobody comes to, an account beside a record, a client that keeps a record, and requests of the dead that are
ended, with each growth of memory refused in turn; on rows and plays as they are, with each growth refused and all behind it; and on
lines that take no memory before their answer's text, with that and all growths behind it refused.

A run ends by a fault with nothing printed, and a play also by a fault behind the results of the lines before; or one line
says that memory was refused, and the others what follows from the account's having taken that line's step or not; or
nothing differs. What follows is told by the model. So a line that is said again after want of memory is answered, and
one that was answered gets its reply again. Where all growths are refused from one on, the lines before it are answered
as ever, and all others say that memory was refused. The later the growth, the later the line: where a run came so far
as some line, none with a later growth refused prints less than the lines before that.
"""
from __future__ import annotations

import contextlib
import os
import pathlib
import re
import socket
import subprocess
import tempfile
import threading
from collections.abc import Callable, Iterable, Iterator, Mapping, Sequence
from typing import Any, List, NamedTuple, Tuple

from tests import ROOT
from tests.cases import Case
from tests.commands import ends as dead
from tests.commands.replies import ACCOUNT, ALL_KEPT, KEPT
from tests.faults.preload import built, switches
from tests.faults.system import System, systems
from tests.model.account import Account
from tests.model.rows import (
    ANEW, DRAINED, DRAIN_ROW, LATER_ROWS, RESENT, ROWS, drain_texts, pairs_of, play_pairs)
from tests.model.steps import refused, ticked, told
from tests.model.texts import NoReading, read_line
from tests.model.version_rows import BOTH_ROW, FULL_ROW, NAMED_PLAY, NAMED_ROW, VERSION_ROWS
from tests.model.world import World

# A put and a poll; a hand-over that waits, and its repeats, and one that does not wait; a new start that ends what waits,
# and leaves a put; waits that end by their limit, at once, and before it; counts and peeks; consumers in order; cancels,
# also before what they cancel; a swap; refusals; drains; sessions of version 2, and who received a transfer; lists that
# grow; ticks beside others and refusals; the greatest moment; an item whose text is read and written with escapes.
REFUSED_IN = [
    "a poll gets the item",
    "a transfer waits for its consumer, and repeats get the replies again",
    "a transfer that does not wait",
    "a client starts anew",
    "a transfer that times out at its limit",
    "zero milliseconds",
    "puts and transfers in one order; count and peek",
    "consumers in order",
    "a cancel before arrival",
    "partners swap",
    "refusals in their order",
    "a transfer is met before its limit",
    "a moment that falls counts as the book's own",
    "the greatest moment that a line can have",
    "one tick ends all that is due, and leaves what is not",
    DRAIN_ROW,
    FULL_ROW,
    NAMED_ROW,
    BOTH_ROW,
    "polls name the puts that they take",
    "who waits is named by who comes",
    "a tick ends all that is due",
    "a tick is recorded beside a refusal",
    "nothing is due behind the greatest moment",
    "moments never fall",
    "a cancel is recorded where it ends a request",
    "an item with escapes",
]
# What takes no memory before its answer's text: the lines before it, the line, and a line that is said behind it, with
# its answer where the step was taken and where it was not.
TWO = "hello 1/1 => welcome\nhello 2/1 => welcome\n"
MIXED = "hello 1/1 version 2 => welcome\nhello 2/1 => welcome\n"
GIVES, GIVEN = TWO + '1#1 transfer 3 "a" 10 => waiting', '1#1 transfer 3 "a" 10 => timedout'
TAKES = TWO + "1#1 take 3 forever => waiting"
TAKE_NO_MEMORY = [
    ("a tick beside a hello that is said again", GIVES, "@20 hello 2/1 => welcome", GIVEN, "waiting"),
    ("a tick beside a cancel that comes too late", GIVES, "@10 cancel 1#1 => timedout", GIVEN, "waiting"),
    ("a tick beside a message that is refused", GIVES, "@10 cancel 2#9 => refused 8 0", GIVEN, "waiting"),
    ("a tick that ends two", GIVES + "\n2#1 take 4 9 => waiting", "@10 hello 2/1 => welcome", "2#1 take 4 9 => timedout",
     "waiting"),
    ("a cancel of a request that waits", TAKES, "@1 cancel 1#1 => cancelled", "1#1 take 3 forever => cancelled", "waiting"),
    ("a repeat of a request that waits", TAKES, "@1 1#1 take 3 forever => waiting", "1#1 take 3 forever => waiting",
     "waiting"),
    ("a repeat of a drain that took nothing", TWO + "1#1 drain 3 2 => drained", "@1 1#1 drain 3 2 => drained",
     "1#1 drain 3 2 => drained", "drained"),
    ("a repeat of a drain", TWO + '1#1 put 3 "a" => done\n2#1 drain 3 2 => drained "a"', '@1 2#1 drain 3 2 => drained "a"',
     '2#1 drain 3 2 => drained "a"', 'drained "a"'),
    ("a repeat of a transfer that was drained", TWO + '1#1 transfer 3 "a" forever => waiting\n2#1 drain 3 2 => drained "a"',
     '1#1 transfer 3 "a" forever => received', '1#1 transfer 3 "a" forever => received', "received"),
    ("a hello of another version", TWO, "@1 hello 1/1 version 2 => refused 12 1", "hello 1/1 => welcome", "welcome"),
    ("a hello of the version before", MIXED, "@1 hello 1/1 => refused 12 2", "hello 1/1 => refused 12 2", "refused 12 2"),
    ("a hello of version 2, again", MIXED, "@1 hello 1/1 version 2 => welcome", "hello 1/1 version 2 => welcome", "welcome"),
    ("a tick beside a hello of another version", GIVES, "@10 hello 2/1 version 2 => refused 12 1", GIVEN, "waiting"),
    ("a repeat that names a consumer", MIXED + '1#1 transfer 3 "a" forever => waiting\n2#1 drain 3 2 => drained "a"',
     '1#1 transfer 3 "a" forever => received 2#1', '1#1 transfer 3 "a" forever => received 2#1', "received 2#1"),
    ("a repeat of a transfer that waits", GIVES, '@1 1#1 transfer 3 "a" 10 => waiting', '1#1 transfer 3 "a" 10 => waiting',
     "waiting"),
    ("a repeat of what was cancelled", TAKES + "\ncancel 1#1 => cancelled", "@3 1#1 take 3 forever => cancelled",
     "1#1 take 3 forever => cancelled", "cancelled"),
    ("a tick beside a repeat of a drain", GIVES + '\n2#1 put 5 "b" => done\n2#2 drain 5 2 => drained "b"',
     '@10 2#2 drain 5 2 => drained "b"', GIVEN, "waiting"),
    ("a repeat of what timed out", GIVES + "\n@10 hello 2/1 => welcome", f"@11 {GIVEN}", GIVEN, "timedout"),
    ("a cancel of what timed out", GIVES + "\n@10 hello 2/1 => welcome", "@12 cancel 1#1 => timedout", GIVEN, "timedout"),
    ("a hello that is said again", TWO, "@1 hello 2/1 => welcome", "hello 2/1 => welcome", "welcome"),
    ("a cancel that leaves a gap", TWO, "@13 cancel 2#9 => refused 8 0", "cancel 2#9 => refused 8 0", "refused 8 0"),
    ("a repeat of a reply", TWO + "1#1 take 3 now => empty", "@1 1#1 take 3 now => empty", "1#1 take 3 now => empty",
     "empty"),
]
# What a client that keeps a record asks, is told, and records.
WELCOME = b'{"client":2,"epoch":1,"incarnation":1,"kind":"welcome"}'
RECORDED_BY = ["--client", "2", "--incarnation", "1", "--tries", "1", "--speak", "1"]
RECORDED = b'{"call":"take","queue":3,"wait":"now"}\n' * 2
ASKED = [b'{"call":"take","client":2,"epoch":1,"incarnation":1,"kind":"request","number":%d,"queue":3,"wait":"now"}' % number
         for number in (1, 2)]
TOLD = [b'{"client":2,"epoch":1,"incarnation":1,"item":"a","kind":"reply","number":1,"reply":"item"}',
        b'{"client":2,"epoch":1,"incarnation":1,"kind":"reply","number":2,"reply":"empty"}']
RECORD_LINES = [b'{"asked":%b,"told":%b}\n' % pair for pair in zip(ASKED, TOLD)]
NO_MEMORY = '{"code":11,"kind":"refused"}'
GOOD, RUN_FAULT = (0, ""), (1, "run fault 3\n")
BEFORE_THE_LINES = [(2, "command fault 2\n"), RUN_FAULT]
MOST_GROWTHS = 10_000
# Requests of the dead: the clients that each look at a status shows, and, of all clients in their order, what their hellos are
# answered and the lines of their requests. After the third one the next hello goes over another connection.
DEAD_LOOKS: list[list[int]] = [[2, 3], [3, 4, 5], [], []]
DEAD = [2, 3, 4, 5]
DEAD_ANSWERS: list[dead.Answer] = [dead.welcome, lambda _: dead.refused(4, current=8), lambda _: b"", dead.welcome]
DEAD_LINES = [f"{client} 7 1 take 6 60 {what}" for client, what in zip(DEAD, ["ended", "replaced 8", "no answer", "ended"])]
# How many lines stand where a status is asked for, and where a connection is made.
ASKED_AT, CONNECTED_AT, DEAD_END = [0, 2, 4], [0, 2, 3, 4], (1, "")
STATUS_FAULT, ADDRESS_FAULT, COMMAND_FAULT = (1, "status fault 3\n"), (1, "address fault\n"), (2, "command fault 2\n")
# More refusals than a run has growths.
ALL = 1_000_000
# Rows where each growth is refused with all behind it.
ALL_REFUSED_IN = [DRAIN_ROW, FULL_ROW, "a client starts anew", "a transfer that times out at its limit",
                  "a client that starts anew"]


# How a run ended: its status, and what it said.
End = Tuple[int, str]
# The lines that a run printed, and how it ended.
Ended = Tuple[List[str], End]
# The account that a line leaves where its memory is refused.
Taken = Callable[[Account, str], Account]


class Row(NamedTuple):
    """A row by its name, the program's words, its lines, what is printed of them, and how it may end with one growth refused."""

    name: str
    words: list[str]
    lines: list[str]
    ample: list[str]
    allowed: list[Ended]


def none_taken(account: Account, line: str) -> Account:
    """The account that a line leaves whose message was not read."""
    return account


def tick_taken(account: Account, line: str) -> Account:
    """The account that a line leaves whose own entry found no memory."""
    try:
        return ticked(account, read_line(line.encode())[0])
    except NoReading:
        return account


def all_taken(account: Account, line: str) -> Account:
    """The account that a line leaves whose answer's text found no memory."""
    return told(account, line.encode())[0]


def answers(epoch: int, lines: Sequence[str], lacking: int | None = None, taken: Taken = all_taken) -> list[str]:
    """What lines are answered where the one of this number meets want of memory, and leaves the account so."""
    account, texts = Account(epoch, 0), []
    for number, line in enumerate(lines):
        after, text = told(account, line.encode())
        texts.append(NO_MEMORY if number == lacking else text)
        account = taken(account, line) if number == lacking else after
    return texts


def results(lines: Sequence[str], number: int, how: str) -> Ended | None:
    """What a play prints where one of its lines meets want of memory: none where that line cannot meet it so."""
    world, texts = World(), []
    for line in lines[:number]:
        texts.append(world.play(line.encode()))
    if how == "ends":
        return texts, RUN_FAULT
    if how == "is refused":
        texts.append("refused 7")
    else:
        account, text = world.accounts[-1], world.play(lines[number].encode())
        if not text.startswith("answered"):
            return None
        world.to_client[-1] = (world.to_client[-1][0], refused(11))
        world.accounts[-1] = world.accounts[-1] if how == "is taken" else account
        texts.append(f"{text[: text.index('{')]}{NO_MEMORY}")
    return texts + [world.play(line.encode()) for line in lines[number + 1 :]], GOOD


def text_of(lines: Iterable[str]) -> bytes:
    """The bytes of lines."""
    return "".join(f"{line}\n" for line in lines).encode()


def book_row(name: str, epoch: int, rows: Any) -> Row:
    """A row of the book."""
    lines = [line for line, _ in pairs_of(epoch, rows)] * 2
    leaves = [none_taken, tick_taken, all_taken]
    ends = [(answers(epoch, lines, number, taken), GOOD) for number in range(len(lines)) for taken in leaves]
    return Row(name, book_words(epoch), lines, answers(epoch, lines), ends)


def book_words(epoch: int) -> list[str]:
    """The words of a book of this epoch."""
    return ["book", "--epoch", str(epoch)]


def play_row(name: str, pairs: Sequence[tuple[str, str]]) -> Row:
    """The same of a worked play."""
    lines = [line for line, _ in pairs]
    hows = ["ends", "is refused", "is taken", "is not taken"]
    ends = [end for number in range(len(lines)) for how in hows if (end := results(lines, number, how))]
    return Row(name, ["play"], lines, [result for _, result in pairs], ends)


def audit_rows() -> Iterator[Row]:
    """The same of audits of two legal accounts, the worked one and that of the drains: nothing is printed where there is no
    memory."""
    lines = (ROOT / "examples" / "items.account").read_text().splitlines()
    yield Row("the worked account", ["audit"], lines, ["legal"], [])
    yield Row("the account of drains", ["audit"], next(drain_texts())[0].splitlines(), ["legal"], [])


def serve_row() -> Row:
    """The same of a server that nobody comes to: it opens no book, can't listen, starts no thread, or prints no line."""
    words = ["serve", "--listen", "127.0.0.1:0", "--epoch", "1", "--workers", "2", "--connections", "0"]
    head = ["epoch 1 opened 0"]
    faults = [(1, "serve fault 2\n"), (1, "serve fault 1\n")]
    ends: list[Ended] = [([], faults[0]), ([], (1, "address fault\n")), ([], RUN_FAULT), *((head, fault) for fault in faults)]
    return Row("a server that nobody comes to", words, [], head, ends)


def verify_row(folder: pathlib.Path) -> Row:
    """The same of an account beside a record that it keeps: where a line finds no memory, those before it are printed."""
    record = folder / "record"
    record.write_bytes(text_of(KEPT))
    words, lines = ["verify", "-", "--replies", str(record)], ["legal", *ALL_KEPT]
    ends = [(lines[:number], RUN_FAULT) for number in range(1, len(KEPT) + 1)]
    return Row("an account beside a record", words, ACCOUNT, lines, ends)


def begun(words: Sequence[str], printed: Sequence[str], end: End, ample: Sequence[str]) -> int | None:
    """The number of the line that met the refused growth: -1 where no line was begun, and None where nothing differs, so
    that it can't be told."""
    if (printed, end) == (ample, GOOD):
        return None
    if not printed and (end != RUN_FAULT or words[0] == "book"):
        return -1
    return next((number for number, pair in enumerate(zip(printed, ample)) if pair[0] != pair[1]), len(printed))


def order_fault(words: Sequence[str], runs: Sequence[tuple[int, list[str], End]], ample: Sequence[str]) -> str | None:
    """What is wrong with runs of a book or of a play, each with a later growth refused, beside each other, if something is:
    none met it in an earlier line than the one before, and a play is ended behind some of its results now and then."""
    if words[0] not in ("book", "play"):
        return None
    met = [(growth, begun(words, printed, end, ample)) for growth, printed, end in runs]
    sure = [(growth, line) for growth, line in met if line is not None]
    for (_, before), (growth, line) in zip(sure, sure[1:]):
        if line < before:
            return f"growth {growth} is refused in line {line + 1}, and one before it in line {before + 1}"
    fronts = [printed for _, printed, end in runs if end == RUN_FAULT and ample[:1] == printed[:1]]
    return None if fronts or words[0] == "book" else "no run ends by want of memory behind the first results"


def dead_ends() -> list[tuple[int, End, int]]:
    """How a run may end that is to end requests of the dead, behind so many lines and so many hellos: where a hello, its answer or its
    line found no memory, that may have been said."""
    lines = range(len(DEAD_LINES))
    return [(0, COMMAND_FAULT, 0), *((count, STATUS_FAULT, count) for count in ASKED_AT),
            *((count, ADDRESS_FAULT, count) for count in CONNECTED_AT),
            *((count, RUN_FAULT, said) for count in lines for said in (count, count + 1)),
            (len(DEAD_LINES), DEAD_END, len(DEAD))]


def answer(listener: socket.socket, answers: Iterable[bytes]) -> None:
    """Answers each frame of one connection by the next of these, and then closes it."""
    with contextlib.suppress(OSError), listener.accept()[0] as connection, connection.makefile("rb") as source:
        for body in answers:
            source.read(int.from_bytes(source.read(2), "big"))
            connection.sendall(len(body).to_bytes(2, "big") + body)


def play_rows() -> list[Row]:
    """The worked plays."""
    return [play_row("the worked play", list(play_pairs())), play_row("a client that starts anew", list(play_pairs(ANEW))),
            play_row("a drain over a link", list(play_pairs(DRAINED))),
            play_row("a request that is sent again, and cancelled", list(play_pairs(RESENT))),
            play_row("a receipt of version 2 over a link", list(play_pairs(NAMED_PLAY)))]


def book_rows() -> list[Row]:
    """The worked rows of the book."""
    return [book_row(*row) for row in [*ROWS, *LATER_ROWS, *VERSION_ROWS] if row[0] in REFUSED_IN]


class Growths(Case):
    """Rows with growths refused: each run is a check."""

    def setUp(self) -> None:
        built()
        self.folder = pathlib.Path(self.enterContext(tempfile.TemporaryDirectory(prefix="growths-")))

    def ran(self, words: Sequence[str], text: bytes, growth: int, refusals: int = 1,
            env: Mapping[str, str] = os.environ) -> tuple[list[str], End, bool]:
        """Runs the program with one growth refused, or so many from that on. Gives what it printed, how it ended, and whether
        it came so far. It reads a file, whose reading takes as many growths each time; a pipe hands it over in pieces."""
        given, reached = self.folder / "input", self.folder / "refused"
        given.write_bytes(text)
        reached.unlink(missing_ok=True)
        room = {**env, **switches(growth=growth, growths=refusals, refused=reached)}
        with given.open("rb") as source:
            ran = subprocess.run([self.program, *words], stdin=source, capture_output=True, env=room)
        printed = ran.stdout.decode(errors="replace").split("\n")[:-1]
        return printed, (ran.returncode, ran.stderr.decode(errors="replace")), reached.exists()

    def judge_order(self, row: Row, runs: Sequence[tuple[int, list[str], End]]) -> None:
        """The later the refused growth, the later the line that met it."""
        with self.subTest(f"{row.name}, the order of its lines"):
            fault = order_fault(row.words, runs, row.ample)
            self.check_fault(fault)

    def refuse_each(self, row: Row) -> None:
        """Runs a row with each growth refused and with none."""
        text, runs = text_of(row.lines), []
        counts = {"before": 0, "during": 0}
        for growth in range(1, MOST_GROWTHS):
            printed, end, is_refused = self.ran(row.words, text, growth)
            if not is_refused:
                break
            runs.append((growth, printed, end))
            with self.subTest(f"{row.name}, growth {growth} refused"):
                is_before = end in BEFORE_THE_LINES and not printed
                self.assertTrue(is_before or (printed, end) in [(row.ample, GOOD), *row.allowed], f"{end}, {printed}")
                counts["before" if is_before else "during"] += 1
        # The run after the last growth is that with ample memory.
        with self.subTest(f"{row.name}, with ample memory"):
            self.assertEqual((printed, end, is_refused), (row.ample, GOOD, False))
            self.assertTrue(counts["before"], "no growth was refused before the first line")
            self.assertTrue(counts["during"] or not row.allowed, "no growth was refused during the lines")
        self.judge_order(row, runs)

    def test_books(self) -> None:
        """Worked rows, each with the same lines again behind it."""
        for row in book_rows():
            self.refuse_each(row)

    def test_plays(self) -> None:
        """Worked plays."""
        for row in play_rows():
            self.refuse_each(row)

    def test_audits(self) -> None:
        """Legal accounts."""
        for row in audit_rows():
            self.refuse_each(row)

    def test_a_server(self) -> None:
        """A server that nobody comes to."""
        self.refuse_each(serve_row())

    def test_a_record_beside_its_account(self) -> None:
        """An account beside a record that it keeps."""
        self.refuse_each(verify_row(self.folder))

    def refuse_from(self, row: Row) -> None:
        """Runs a row with each growth refused and all behind it: a play ends there."""
        text, runs = text_of(row.lines), []
        for growth in range(1, MOST_GROWTHS):
            printed, end, is_refused = self.ran(row.words, text, growth, refusals=ALL)
            if not is_refused:
                break
            runs.append((growth, printed, end))
            at = next((number for number, pair in enumerate(zip(printed, row.ample)) if pair[0] != pair[1]), len(printed))
            wanted = [(row.ample[:at], RUN_FAULT), ([*row.ample[:at], "refused 7"], RUN_FAULT)]
            if row.words[0] == "book":
                wanted = [(row.ample[:at] + [NO_MEMORY] * (len(row.lines) - at), GOOD)]
            with self.subTest(f"{row.name}, all refused from growth {growth} on"):
                self.assertTrue((printed, end) in wanted or not printed and end in BEFORE_THE_LINES, f"{end}, {printed}")
        with self.subTest(f"{row.name}, some growth was refused with all behind it"):
            self.assertTrue(runs)
        self.judge_order(row, runs)

    def test_all_refused(self) -> None:
        """Rows and plays with each growth refused and all behind it."""
        for row in [*book_rows(), *play_rows()]:
            if row.name in ALL_REFUSED_IN:
                self.refuse_from(row)

    def recorded(self, growth: int) -> tuple[list[str], int, bytes, bool]:
        """What a client printed that keeps a record, with one growth refused; its status; its record; and whether it came so far."""
        record = self.folder / "told"
        record.unlink(missing_ok=True)
        with socket.create_server(("127.0.0.1", 0)) as listener:
            server = threading.Thread(target=answer, args=[listener, [WELCOME, *TOLD]], daemon=True)
            server.start()
            address = "127.0.0.1:%d" % listener.getsockname()[1]
            words = ["record", "--to", str(record), "--connect", address, *RECORDED_BY]
            printed, end, is_refused = self.ran(words, RECORDED, growth)
            listener.shutdown(socket.SHUT_RDWR)
        server.join()
        return printed, end[0], record.read_bytes() if record.exists() else b"", is_refused

    def test_a_client_that_keeps_a_record(self) -> None:
        """What it printed is a front of its replies, and its record has their lines, where the last may lack that found no memory;
        then the run ends."""
        told = [body.decode() for body in TOLD]
        for growth in range(1, MOST_GROWTHS):
            printed, status, record, is_refused = self.recorded(growth)
            count = len([line for line in printed if line in told])
            ends = {(b"".join(RECORD_LINES[:count]), 0 if count == len(told) else status), (b"".join(RECORD_LINES[: count - 1]), 1)}
            with self.subTest(f"growth {growth} {'refused' if is_refused else 'of none'}"):
                self.assertEqual(printed[:count], told[:count])
                self.assertIn((record, status), ends, printed)
                self.assertTrue(is_refused or (count, status) == (len(told), 0), f"{status}, {printed}")
            if not is_refused:
                break
        self.assertGreater(growth, 1, "no growth was refused")

    def ended_dead(self, growth: int, env: Mapping[str, str]) -> tuple[list[str], End, list[int], bool]:
        """What is printed where requests of the dead are ended, with one growth refused, and how it ends; the clients that said hello;
        and whether it came so far."""
        looks = [dead.answered(dead.status_text([dead.row(client) for client in clients])) for clients in DEAD_LOOKS]
        with dead.Status(*looks) as status, dead.Server(lambda number, hello: DEAD_ANSWERS[number](hello)) as server:
            printed, end, is_refused = self.ran(["end", *dead.words_of(status.address, server.address)], b"", growth, env=env)
        return printed, end, [hello["client"] for hello in server.hellos], is_refused

    def test_requests_of_the_dead(self) -> None:
        """What it printed is a front of its lines, which ends where the growth was refused, and each line had its hello."""
        allowed, runs = dead_ends(), []
        with systems():
            hasty = System()
            hasty.be(sleep=1)
            for growth in range(1, MOST_GROWTHS):
                printed, end, said, is_refused = self.ended_dead(growth, hasty.env)
                if not is_refused:
                    break
                runs.append((len(printed), end))
                with self.subTest(f"requests of the dead, growth {growth} refused"):
                    self.assertEqual((printed, said), (DEAD_LINES[:len(printed)], DEAD[:len(said)]))
                    self.assertIn((len(printed), end, len(said)), allowed)
        with self.subTest("requests of the dead, with ample memory"):
            self.assertEqual((printed, end, said, is_refused), (DEAD_LINES, DEAD_END, DEAD, False))
            self.assertLessEqual({RUN_FAULT, STATUS_FAULT, COMMAND_FAULT}, {end for _, end in runs}, "some fault was never told")
        with self.subTest("requests of the dead, the order of its lines"):
            counts = [count for count, end in runs if end != DEAD_END]
            self.assertEqual(counts, sorted(counts))

    def count_growths(self, lines: Iterable[str]) -> int:
        """How many growths a run over these lines makes."""
        text, least, most = text_of(lines), 0, MOST_GROWTHS
        while least < most:
            middle = (least + most + 1) // 2
            is_refused = self.ran(book_words(1), text, middle)[2]
            least, most = (middle, most) if is_refused else (least, middle - 1)
        return least

    def behind_reading(self, before: Sequence[str], line: str) -> list[tuple[str, int, bool]]:
        """The forms of a line, each with the growth that ends the reading of its body, and whether the reading makes any. A compact
        body is read with a growth for its item alone; with a space after it the whole is read, as one of the same form is that names
        client 0, and so is no message."""
        bad = re.sub(r'"client":\d', '"client":0', line) + " "
        compact = self.count_growths([*before, "-" * len(line)]) + ('"item":' in line)
        return [(line, compact, '"item":' in line), (line + " ", self.count_growths([*before, bad]), True)]

    def refuse_behind(self, name: str, rows: str, asked: str, asked_later: str, answered: str) -> None:
        """Refuses growths behind the reading of a line's body: its answer's text is the first that finds no memory, and its step was
        taken. Where the last growth of the reading is refused it was not."""
        before = [text for text, _ in pairs_of(1, rows)]
        [(line, _)], [(later, taken)], [(_, untaken)] = [
            pairs_of(1, row) for row in (asked, asked_later, asked_later.rpartition("=>")[0] + f"=> {answered}")]
        for number, (form, read, grows) in enumerate(self.behind_reading(before, line)):
            text = text_of([*before, form, *[later] * 8])
            refused_at = [(read, 1, untaken)] * grows + [(read + 1, count, taken) for count in (1, 2, 5)]
            for growth, refusals, wanted in refused_at:
                printed, end, _ = self.ran(book_words(1), text, growth, refusals)
                told_later = [answer for answer in printed[len(before) + 1:] if answer != NO_MEMORY]
                with self.subTest(f"{name}{', with a space' * number}, {refusals} refused {growth - read} behind its reading"):
                    self.assertEqual((end, printed[len(before)], set(told_later)), (GOOD, NO_MEMORY, {wanted}), printed)

    def test_behind_the_reading(self) -> None:
        """What takes no memory before its answer's text."""
        for row in TAKE_NO_MEMORY:
            self.refuse_behind(*row)
