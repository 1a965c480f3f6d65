"""Runs `rv verify` of the built program: on the accounts that `rv audit` is tried on, on longer ones, on torn ends and from pipes."""
from __future__ import annotations

import os
import pathlib
import subprocess
import tempfile
import threading
from collections.abc import Iterable, Iterator, Sequence
from typing import Any, Tuple

from tests.cases import Case
from tests.commands import audits
from tests.commands.audits import GREETED, HEAD, WORKED, hello, last_with, put, take
from tests.model.verdicts import verdict

TORN, BEYOND, UNTOLD = 3, 4, 5
# Seconds behind which a run on a named pipe hangs.
PIPE_HANG = 60
# What `rv verify` says of accounts that are past a limit of `rv audit`.
PAST = {"a partner above the greatest": "fault 4 P1", "a second partner above the greatest": "fault 6 P1",
        "one entry too many": "fault 100000 M3"}
UNSURE = "fault 4 P1, P2 or S1: a file, read twice, tells which\n"
# What is to be told of an account, and the status.
Told = Tuple[str, int]
# What a run printed, what it said and its status.
Ended = Tuple[str, str, int]


def joined(lines: Iterable[str]) -> str:
    """The lines, each with its LF."""
    return "".join(line + "\n" for line in lines)


def status_of(said: str) -> int:
    """The status beside a verdict of an account with no torn end."""
    return 0 if said == "legal" else BEYOND if said.startswith("beyond") else 1


def told(said: str) -> Told:
    """What is printed of it, and the status."""
    return said + "\n", status_of(said)


def torn(said: str) -> Told:
    """The same where the end is torn, and this is the verdict on the lines before."""
    return said + "\ntorn end\n", TORN


def model_of(text: str) -> str:
    """The model's verdict."""
    return verdict(text.encode(errors="surrogateescape"))


def as_audited() -> Iterator[tuple[str, str, Told]]:
    """The accounts of `rv audit`, each with what is told of it: the same, but past its limits, and where the last piece is torn: it
    is the first line, or no entry's."""
    for name, text, expected in audits.cases():
        past = PAST.get(name.removesuffix(", without the last LF"))
        before, lf, piece = text.rpartition("\n")
        if piece and not past and (not lf or model_of(joined([HEAD, piece])) == "bad line 2"):
            yield name, text, torn(model_of(before + lf))
        else:
            yield name, text, told(past or expected)


def puts(count: int) -> list[str]:
    """A client that puts so many items."""
    return [HEAD, GREETED, *(f"0 - {put(number)}" for number in range(1, count + 1))]


def in_turn(count: int) -> Iterator[str]:
    """A client puts an item and another takes it, so many times."""
    yield from (HEAD, GREETED, "0 - " + hello(2))
    for number in range(1, count + 1):
        yield f"0 - {put(number)}"
        yield f"0 {2 * number} {take(2, number, chr(34) + 'now' + chr(34))}"


def longer() -> list[tuple[str, str, Told]]:
    """Accounts past the limits of `rv audit`."""
    return [
        ("160,000 entries", joined(in_turn(80_000)), told("legal")),
        ("an item taken twice behind 160,000 entries", joined([*in_turn(80_000), f"0 4 {take(2, 80_001, 5)}"]),
         told("fault 160002 P1")),
        ("100,000 open places", joined(puts(100_000)), told("legal")),
        ("one open place too many", joined(puts(100_001)), told("beyond limits 100001")),
        ("a bad line behind one open place too many", joined([*puts(100_001), "x"]), told("bad line 100004")),
    ]


def ends() -> Iterator[tuple[str, str, Told]]:
    """Accounts that end anywhere: each front of a hello's and a tick's line."""
    whole, last = joined(WORKED[:2]), WORKED[2]
    yield from ((f"{size} bytes of the first line", HEAD[:size], torn("bad line 1")) for size in range(1, len(HEAD) + 1))
    yield from ((f"{size} bytes of an entry's line", whole + last[:size], torn("legal")) for size in range(1, len(last)))
    yield "an entry's line without its LF", whole + last, told("legal")
    yield "a torn end behind a fault", joined([*last_with(" 2 ", " 3 ")]) + "1 -", torn("fault 4 P3")
    yield "a torn end behind a bad line", joined([HEAD, "x"]) + "1 -", torn("bad line 2")
    yield "an account of no bytes", "", told("bad line 1")


class Verify(Case):
    """Accounts, each a check by its name."""

    def ran(self, words: Sequence[str], **streams: Any) -> Ended:
        """What the program printed, said and ended with."""
        run = subprocess.run([self.program, "verify", *words], capture_output=True, timeout=audits.HANG, **streams)
        return run.stdout.decode(errors="replace"), run.stderr.decode(errors="replace"), run.returncode

    def judge_files(self, accounts: Iterable[tuple[str, str, Told]]) -> None:
        """What is told of each text as a file."""
        for name, text, (printed, status) in accounts:
            with tempfile.NamedTemporaryFile() as file:
                file.write(text.encode(errors="surrogateescape"))
                file.flush()
                self.check_equal(name, self.ran([file.name]), (printed, "", status))

    def test_as_audited(self) -> None:
        """The accounts on which `rv audit` is tried."""
        self.judge_files(as_audited())

    def test_longer(self) -> None:
        """Accounts past the limits of `rv audit`."""
        self.judge_files(longer())

    def test_ends(self) -> None:
        """Accounts that end anywhere."""
        self.judge_files(ends())

    def test_pipes(self) -> None:
        """Accounts from a pipe, which is read once."""
        for name, lines, expected in [("a legal account", WORKED, ("legal\n", "", 0)),
                                      ("a fault", last_with(" 2 ", " 3 "), ("fault 4 P3\n", "", 1)),
                                      ("a closed place", last_with(" 2 ", " 1 "), (UNSURE, "", UNTOLD))]:
            self.check_equal(f"{name}, from a pipe", self.ran(["-"], input=joined(lines).encode()), expected)

    def of_named_pipe(self, lines: Iterable[str], *options: str) -> Ended | str:
        """What the program printed, said and ended with on a named pipe, to which these lines are written once."""
        with tempfile.TemporaryDirectory() as folder:
            pipe = pathlib.Path(folder, "account")
            os.mkfifo(pipe)
            threading.Thread(target=pipe.write_text, args=[joined(lines)], daemon=True).start()
            try:
                run = subprocess.run([self.program, "verify", pipe, *options], capture_output=True, timeout=PIPE_HANG, text=True)
            except subprocess.TimeoutExpired:
                return "it hangs"
        return run.stdout, run.stderr, run.returncode

    def test_named_pipes(self) -> None:
        """The same from a named pipe: a second opening would wait for ever for who writes."""
        closed = last_with(" 2 ", " 1 ")
        self.check_equal("a legal account, from a named pipe", self.of_named_pipe(WORKED), ("legal\n", "", 0))
        self.check_equal("a closed place, from a named pipe", self.of_named_pipe(closed), (UNSURE, "", UNTOLD))
        self.check_equal("a closed place, from a named pipe that grows", self.of_named_pipe(closed, "--follow"), (UNSURE, "", UNTOLD))

    def test_words(self) -> None:
        """Files that can't be read, and words that name no account."""
        with tempfile.TemporaryDirectory() as folder:
            missing = f"{folder}/missing"
            self.check_equal("no such file", self.ran([missing]), ("", f"account {missing}: No such file or directory (os error 2)\n", 1))
            self.check_equal("a folder", self.ran([folder]), ("", f"account {folder}: no epoch has an account\n", 1))
        rows: list[list[str]] = [[], ["a", "b"], ["--help"]]
        for words in rows:
            self.check_equal(f"the words {words}", self.ran(words), ("", "command fault 1\n", 2))

    def test_a_full_output(self) -> None:
        """What is said where nothing can be printed."""
        with open("/dev/full", "wb") as full, tempfile.NamedTemporaryFile() as file:
            file.write(joined(WORKED).encode())
            file.flush()
            run = subprocess.run([self.program, "verify", file.name], stdout=full, stderr=subprocess.PIPE, timeout=audits.HANG)
            self.check_equal("a full output", (run.stderr, run.returncode), (b"run fault 2\n", 1))
