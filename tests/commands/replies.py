"""Runs `rv verify` of the built program with a record of replies, on a file that grows, and at a terminal."""
from __future__ import annotations

import contextlib
import os
import pathlib
import pty
import re
import signal
import subprocess
import tempfile
import threading
import time
from collections.abc import Callable, Iterable, Iterator, Sequence
from typing import Any, Tuple, Union

from tests.cases import Case
from tests.commands.audits import GREETED, HANG, HEAD, WORKED, hello, last_with, put, take

# The lines that a run printed, what it said and its status.
Ended = Tuple[Sequence[str], str, int]
Process = Union[subprocess.Popen[bytes], subprocess.Popen[str]]

FOREVER, NOW = '"forever"', '"now"'
# Longer than the program pauses before it asks a file again, so that it mostly sees each piece by itself.
BETWEEN = 0.25
# Seconds between two lines of progress, what takes one away, and the bytes of a megabyte.
PAUSE, ERASED, MEGABYTE = 2, b"\r\x1b[K", 1_000_000


def transfer(client: int, number: int) -> str:
    """The body of a transfer of "a"."""
    return (f'{{"call":"transfer","client":{client},"epoch":1,"incarnation":1,"item":"a","kind":"request","number":{number},'
            f'"queue":3,"wait":"forever"}}')


def told(client: int, number: int, more: str, epoch: int = 1) -> str:
    """The body of a reply; `more` is its word and its last members."""
    return f'{{"client":{client},"epoch":{epoch},"incarnation":1,"kind":"reply","number":{number},"reply":"{more}}}'


def item_of(client: int, number: int, item: str) -> str:
    """The body of a reply that tells an item."""
    return (f'{{"client":{client},"epoch":1,"incarnation":1,"item":"{item}","kind":"reply","number":{number},'
            f'"reply":"item"}}')


def record(asked: str, answer: str) -> str:
    """A line of a record."""
    return f'{{"asked":{asked},"told":{answer}}}'


def received_by(number: int) -> str:
    """The body of the transfer's reply, by this request of client 2."""
    return ('{"by_client":2,"by_incarnation":1,"by_number":%d,"client":1,"epoch":1,"incarnation":1,"kind":"reply","number":1,'
            '"reply":"received"}' % number)


CANCEL = '{"client":1,"epoch":1,"incarnation":1,"kind":"cancel","number":2}'
# Client 1 hands "a" to client 2, and cancels a request that never came; client 2 waits for more.
ACCOUNT = [HEAD, "0 - " + hello(1, 1, 2), "0 - " + hello(2), "0 - " + transfer(1, 1), "0 2 " + take(2, 1, FOREVER),
           "0 - " + CANCEL, "0 - " + take(2, 2, FOREVER)]
GIVEN = record(transfer(1, 1), received_by(1))
TAKEN = record(take(2, 1, FOREVER), item_of(2, 1, "a"))
UNSEEN = record(take(1, 2, 5), told(1, 2, 'cancelled"'))
KEPT = [GIVEN, TAKEN, UNSEEN]
# Each finding: the line, and what is printed of it.
TOLD = [
    (GIVEN, ["1 kept"]),
    (UNSEEN, ["2 kept, as a cancel tells it"]),
    (record(transfer(1, 1), received_by(2)), [f"3 another reply {received_by(1)}", "3 differs from line 1"]),
    (record(transfer(1, 1), told(1, 1, 'received"')), [f"4 another reply {received_by(1)}", "4 differs from line 1"]),
    (record(take(2, 1, FOREVER), item_of(2, 1, "b")), [f"5 another reply {item_of(2, 1, 'a')}"]),
    (record(take(2, 1, 5), item_of(2, 1, "a")), [f"6 another call {take(2, 1, FOREVER)}", "6 differs from line 5"]),
    (record(take(2, 2, FOREVER), item_of(2, 2, "a")), ["7 still waiting"]),
    (record(take(2, 2, FOREVER), told(2, 2, 'done"')), ["8 a reply that this call can't have", "8 differs from line 7"]),
    (record(take(2, 2, 5), item_of(2, 2, "a")), [f"9 another call {take(2, 2, FOREVER)}"]),
    (record(take(1, 2, 5), told(1, 2, 'timedout"')), [f"10 another reply {told(1, 2, 'cancelled' + chr(34))}",
                                                      "10 differs from line 2"]),
    (record(take(3, 1, NOW), told(3, 1, 'empty"')), ["11 no such request"]),
    (record(take(2, 1, NOW).replace('"epoch":1', '"epoch":2'), told(2, 1, 'empty"', 2)), ["12 another epoch"]),
    (GIVEN[:-1], ["13 no record"]),
    ("", ["14 no record"]),
    (record(take(2, 1, NOW), told(2, 2, 'empty"')), ["15 no record"]),
    (TAKEN.replace('"a"', '"\\u0061"').replace(":", " : "), ["16 kept", "16 differs from line 5"]),
    (GIVEN.replace(",", ", "), ["17 kept", "17 repeats line 1"]),
    (record(take(1, 2, 6), told(1, 2, 'cancelled"')), ["18 kept, as a cancel tells it"]),
    (UNSEEN, ["19 kept, as a cancel tells it", "19 repeats line 2"]),
    (record(take(2, 1, 5), item_of(2, 1, "b")), [f"20 another call {take(2, 1, FOREVER)}"]),
]
COUNTS = ("kept", "kept, as a cancel tells it", "another reply", "another call", "no such request", "still waiting", "another epoch",
          "a reply that this call can't have", "no record", "differing", "repeating")


def joined(lines: Iterable[str]) -> str:
    """The lines, each with its LF."""
    return "".join(line + "\n" for line in lines)


def counted(*counts: int) -> list[str]:
    """The last lines, of counts in their order; those that lack are 0."""
    return [f"{what} {count}" for what, count in zip(COUNTS, [*counts, *[0] * len(COUNTS)])]


# What is printed of the record that is kept.
ALL_KEPT = ["1 kept", "2 kept", "3 kept, as a cancel tells it", *counted(2, 1)]


def wait_until(process: Process, holds: Callable[[], bool]) -> None:
    """Waits until it holds, or the process has ended, or hangs."""
    ends = time.monotonic() + HANG
    while not holds() and process.poll() is None and time.monotonic() < ends:
        time.sleep(0.001)


def read_all(terminal: int, shown: bytearray) -> None:
    """Reads what a terminal is told, to its end."""
    try:
        while piece := os.read(terminal, 1_000):
            shown += piece
    except OSError:
        pass


def has_read_of(process: Process, name: str) -> bool:
    """Whether a process has read some of the file with this name."""
    folder = pathlib.Path("/proc", str(process.pid))
    try:
        numbers = [fd.name for fd in (folder / "fd").iterdir() if os.readlink(fd) == name]
        return any(not (folder / "fdinfo" / number).read_text().startswith("pos:\t0\n") for number in numbers)
    except OSError:
        return False


def tells_progress(part: str, text: str, most: int) -> bool:
    """Whether it is told exactly how far a reading of this text is, after some seconds, so many at most."""
    told = re.fullmatch(r"(\d+) lines, (\d+) of (\d+) MB, about (\d+) s still", part)
    if not told:
        return False
    lines, read, size, left = map(int, told.groups())
    first = sum(len(line) for line in text.splitlines(keepends=True)[:lines])
    behind = len(text) + 1 if first == len(text) else text.index("\n", first) + 1
    return size == len(text) // MEGABYTE and any(
        read == count // MEGABYTE and left == (len(text) - count) * seconds // count
        for count in range(max(first, 1), behind) for seconds in range(PAUSE, most + 1))


class Replies(Case):
    """Records, accounts that grow, and terminals: each run is a check by its name."""

    def ran(self, words: Sequence[str], text: str, lines: str, **streams: Any) -> Ended:
        """What the program prints of an account's text with a record of these lines, what it says, and its status. The words name the
        files ACCOUNT and RECORD."""
        with tempfile.TemporaryDirectory() as folder:
            account, replies = pathlib.Path(folder, "account"), pathlib.Path(folder, "record")
            account.write_text(text)
            replies.write_text(lines)
            names = {"ACCOUNT": account, "RECORD": replies, "MISSING": pathlib.Path(folder, "missing")}
            ran = subprocess.run([self.program, "verify", *(names.get(word, word) for word in words)], capture_output=True,
                                 timeout=HANG, text=True, **streams)
        return ran.stdout.splitlines(), ran.stderr.replace(folder + "/", ""), ran.returncode

    def test_records(self) -> None:
        """Records beside accounts: what was told of them, and what is to be told."""
        words, account, kept = ["ACCOUNT", "--replies", "RECORD"], joined(ACCOUNT), joined(KEPT)
        lines, printed = joined(line for line, _ in TOLD), [text for _, texts in TOLD for text in texts]
        self.check_equal("each finding", self.ran(words, account, lines), (["legal", *printed, *counted(3, 3, 4, 3, 1, 1, 1, 1, 3, 6, 2)], "", 6))
        self.check_equal("a record that is kept", self.ran(words, account, kept), (["legal", *ALL_KEPT], "", 0))
        self.check_equal("its last line without LF", self.ran(words, account, kept[:-1]), (["legal", *ALL_KEPT], "", 0))
        self.check_equal("an empty record", self.ran(words, account, ""), (["legal", *counted()], "", 0))
        self.check_equal("a torn end", self.ran(words, account + "0 -", kept), (["legal", "torn end", *ALL_KEPT], "", 3))
        self.check_equal("a torn end and a line that isn't kept", self.ran(words, account + "0 -", GIVEN[:-1]), (
            ["legal", "torn end", "1 no record", *counted(0, 0, 0, 0, 0, 0, 0, 0, 1)], "", 6))
        self.check_equal("a fault behind the replies", self.ran(words, account + "0 - tick\n", kept), (["fault 6 M3", *ALL_KEPT], "", 1))
        self.check_equal("a fault before a reply", self.ran(words, joined([*ACCOUNT[:4], "0 - tick", *ACCOUNT[4:]]), TAKEN), (
            ["fault 3 M3", "1 no such request", *counted(0, 0, 0, 0, 1)], "", 1))
        self.check_equal("a bad line before a reply", self.ran(words, joined([*ACCOUNT[:4], "x", *ACCOUNT[4:]]), TAKEN), (
            ["bad line 5", "1 no such request", *counted(0, 0, 0, 0, 1)], "", 1))
        self.check_equal("no epoch", self.ran(words, "x\n", kept), (["bad line 1"], "", 1))
        self.check_equal("a pipe", self.ran(["-", "--replies", "RECORD"], "", kept, input=account), (["legal", *ALL_KEPT], "", 0))
        self.check_equal("no record named", self.ran(["ACCOUNT"], account, kept), (["legal"], "", 0))

    def test_words(self) -> None:
        """Words in any order, and others, which are none of the command's; and files that can't be read."""
        account, kept = joined(ACCOUNT), joined(KEPT)
        self.check_equal("the record first", self.ran(["--replies", "RECORD", "ACCOUNT"], account, kept), (["legal", *ALL_KEPT], "", 0))
        self.check_equal("the record behind =", self.ran(["--replies=RECORD", "ACCOUNT"], account, kept), (
            [], "record RECORD: No such file or directory (os error 2)\n", 1))
        others: list[list[str]] = [
            ["--replies", "RECORD"], ["ACCOUNT", "--replies"], ["ACCOUNT", "RECORD"], ["-", "--follow"], ["ACCOUNT", "--follow", "--follow"],
            ["ACCOUNT", "--replies", "RECORD", "--replies", "RECORD"], ["ACCOUNT", "--follow=1"], ["ACCOUNT", "-f"], ["--help"], []]
        for words in others:
            ran = self.ran(words, account, kept, stdin=subprocess.DEVNULL)
            self.check_equal(f"the words {words}", ran, ([], "command fault 1\n", 2))
        self.check_equal("no such record", self.ran(["MISSING", "--replies", "MISSING"], account, kept), (
            [], "record missing: No such file or directory (os error 2)\n", 1))
        self.check_equal("no such account", self.ran(["MISSING", "--replies", "RECORD"], account, kept), (
            [], "account missing: No such file or directory (os error 2)\n", 1))
        self.check_equal("a folder for a record", self.ran(["ACCOUNT", "--replies", "/"], account, kept), ([], "run fault 1\n", 1))

    def followed(self, pieces: Iterable[str], lines: str | None = None, begun: str = "") -> Ended:
        """What is printed of a file that begins by this text and grows by these pieces, all that is said, and the status."""
        with tempfile.TemporaryDirectory() as folder:
            account, replies, said = (pathlib.Path(folder, name) for name in ("account", "record", "said"))
            account.write_text(begun)
            replies.write_text(lines or "")
            words = [str(account), "--follow", *(["--replies", str(replies)] if lines is not None else [])]
            with (open(said, "wb") as errors,
                  subprocess.Popen([self.program, "verify", *words], stdout=subprocess.PIPE, stderr=errors, text=True) as process):
                wait_until(process, lambda: said.stat().st_size > 0)
                with open(account, "ab", buffering=0) as file:
                    for piece in pieces:
                        file.write(piece.encode())
                        time.sleep(BETWEEN)
                printed, _ = process.communicate(timeout=HANG)
            return printed.splitlines(), said.read_text(), process.returncode

    def test_growth(self) -> None:
        """Files that grow, to an end each."""
        text, said = joined(WORKED), "0 entries so far\n"
        halves = [HEAD[:9], HEAD[9:] + "\n" + GREETED[:20], GREETED[20:] + "\n"]
        self.check_equal("a rule that is broken", self.followed([text, "1 - ", "tick\n"]), (["fault 5 M3"], said, 1))
        self.check_equal("the first line in pieces", self.followed([*halves, "x\n"]), (["bad line 3"], said, 1))
        self.check_equal("a bad line behind good ones", self.followed([text[:-9], text[-9:], "x", "y", "\n"]), (["bad line 7"], said, 1))
        self.check_equal("a bad first line", self.followed(["epoch 0 opened 0\n"]), (["bad line 1"], said, 1))
        self.check_equal("a closed place", self.followed([joined(last_with(" 2 ", " 1 "))]), (["fault 4 P2"], said, 1))
        self.check_equal("no room", self.followed([joined([HEAD, GREETED, *(f"0 - {put(number)}" for number in range(1, 100_002))])]), (
            ["beyond limits 100001"], said, 4))
        self.check_equal("six entries first", self.followed(["x", "\n"], None, joined(ACCOUNT)), (["bad line 8"], "6 entries so far\n", 1))
        self.check_equal("a record beside it", self.followed([joined(ACCOUNT[:4]), joined(ACCOUNT[4:]), "x\n"], joined(KEPT)), (
            ["bad line 8", *ALL_KEPT], said, 1))

    @contextlib.contextmanager
    def at_a_terminal(self, words: Sequence[str], **streams: Any) -> Iterator[tuple[subprocess.Popen[bytes], bytearray]]:
        """The program on these words, with a terminal for its standard error, and what that was told so far: all, once it ended."""
        ours, theirs = pty.openpty()
        shown = bytearray()
        reader = threading.Thread(target=read_all, args=[ours, shown], daemon=True)
        with subprocess.Popen([self.program, "verify", *words], stdout=subprocess.PIPE, stderr=theirs, **streams) as process:
            os.close(theirs)
            reader.start()
            yield process, shown
        reader.join(HANG)
        os.close(ours)

    def slowly(self) -> tuple[bytes, bytes]:
        """What a terminal is told of lines that come slowly, until it was told how far it is; and what is printed."""
        with self.at_a_terminal(["-"], stdin=subprocess.PIPE) as (process, shown):
            assert process.stdin
            process.stdin.write((HEAD + "\n" + GREETED + "\n").encode())
            ends = time.monotonic() + HANG
            for number in range(1, 1_000_000):
                process.stdin.write(f"0 - {put(number)}\n".encode())
                process.stdin.flush()
                if shown or time.monotonic() > ends:
                    break
                time.sleep(0.05)
            printed, _ = process.communicate(timeout=HANG)
        return bytes(shown), printed

    def stopped(self, text: str) -> tuple[bytes, bytes, int]:
        """What a terminal is told of a file with this text, in whose midst the program is stopped until a line is due; what is printed;
        and the seconds that it took at most. A run that ends before it is stopped is tried again."""
        with tempfile.NamedTemporaryFile() as file:
            file.write(text.encode())
            file.flush()
            for _ in range(5):
                began = time.monotonic()
                with self.at_a_terminal([file.name]) as (process, shown):
                    wait_until(process, lambda: has_read_of(process, file.name))
                    process.send_signal(signal.SIGSTOP)
                    time.sleep(PAUSE + 0.1)
                    process.send_signal(signal.SIGCONT)
                    printed, _ = process.communicate(timeout=HANG)
                if shown:
                    break
        return bytes(shown), printed, int(time.monotonic() - began) + 1

    def test_progress_at_a_terminal(self) -> None:
        """What stands at a terminal while lines come slowly: a line, which is taken away, and then nothing."""
        shown, printed = self.slowly()
        parts = shown.split(ERASED)
        got = parts[0], parts[-1], len(parts) > 2 and all(b" lines, 0 MB" in part for part in parts[1:-1]), printed
        self.check_equal("progress at a terminal", got, (b"", b"", True, b"legal\n"))

    def test_progress_of_a_file(self) -> None:
        """The same while a file is read, of which it is told exactly how far that is."""
        text = joined([HEAD, GREETED, *(f"0 - {put(number)}" for number in range(1, 40_001))])
        shown, printed, took = self.stopped(text)
        parts = shown.decode().split(ERASED.decode())
        got = parts[0], parts[-1], len(parts) > 2 and [part for part in parts[1:-1] if not tells_progress(part, text, took)], printed
        self.check_equal("progress of a file", got, ("", "", [], b"legal\n"))
