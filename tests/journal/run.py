"""Kills a writer on a journal's file at random moments: each line that it printed as stored is found, in order, and no other line
than those that were sent. Files of any bytes are opened or refused. What a crash of the system would leave is proved, not tried.
"""
from __future__ import annotations

import pathlib
import random
import subprocess
import tempfile
import time
from collections.abc import Callable
from typing import NamedTuple

from tests.cases import Case

# How often a writer is killed in the gate, after how many seconds at most, and how often it begins on a new file. Every second one
# is killed so long after it has opened its file, the others after their start.
KILLS, LONGEST, NEW_FILE = 50, 0.06, 10
# The lines that it is sent, and the most bytes of one beside its number.
LINES, MOST_BYTES = 400, 2_000
# How many seconds a writer may take for an input that ends.
PATIENCE = 60
# How many files of random bytes are opened in the gate, their sizes' bound, and how often they have each byte.
FILES, SIZES, WEIGHTS = 200, 40, (4, 4, 1, 1)
NO_JOURNAL = b"Error: no zero stands in the file: it is no journal\n"


class Written(NamedTuple):
    """What a writer printed: the lines that it found, if it came so far, and those that it stored."""

    found: bytes | None
    stored: bytes


def printed(output: bytes) -> Written:
    """The parts of a writer's output. An empty line ends the lines that it found; a line without its end wasn't printed."""
    if output.startswith(b"\n"):
        found, rest = b"", output[1:]
    else:
        before, end, rest = output.partition(b"\n\n")
        if not end:
            return Written(None, b"")
        found = before + b"\n"
    return Written(found, rest[:rest.rfind(b"\n") + 1])


def lines_of(held: bytes) -> bytes | None:
    """The lines of a file: those before its first zero. Without a zero it is no journal."""
    text, zero, _ = held.partition(b"\0")
    return text[:text.rfind(b"\n") + 1] if zero else None


def lines_from(random_: random.Random, first: int) -> bytes:
    """Numbered lines of random lengths."""
    return b"".join(b"%d %s\n" % (first + i, b"x" * random_.randrange(MOST_BYTES)) for i in range(LINES))


def wait_for(holds: Callable[[], bool]) -> None:
    """Waits until this holds."""
    ends = time.monotonic() + PATIENCE
    while not holds():
        if time.monotonic() > ends:
            raise TimeoutError(f"a writer opened no file within {PATIENCE} seconds")
        time.sleep(0.001)


class Killed(Case):
    """A writer that is killed, and the next one on its file."""

    is_random = True

    def setUp(self) -> None:
        self.folder = pathlib.Path(self.enterContext(tempfile.TemporaryDirectory(prefix="journal-")))

    def write(self, journal: pathlib.Path, sent: bytes, seconds: float | None, opens: bool = True) -> Written:
        """A writer that is sent these lines, and killed so many seconds after it has opened the file, or has started; or never."""
        given, output = self.folder / "given", self.folder / "output"
        given.write_bytes(sent)
        with given.open("rb") as source, output.open("wb") as sink:
            with subprocess.Popen([self.steps, "journal", str(journal)], stdin=source, stdout=sink) as writer:
                if seconds is None:
                    self.assertEqual(writer.wait(PATIENCE), 0)
                else:
                    if opens:
                        wait_for(lambda: output.stat().st_size > 0 or writer.poll() is not None)
                    time.sleep(seconds)
                    writer.kill()
        return printed(output.read_bytes())

    def judge(self, name: str, found: bytes, stored: bytes, sent: bytes) -> None:
        """What was found begins with what was stored, and goes on with what was sent."""
        with self.subTest(name):
            end = f"{len(found)} bytes that end {found[-80:]!r}"
            self.assertTrue(found.startswith(stored), f"{len(stored)} bytes were stored, and it found {end}")
            self.assertTrue(sent.startswith(found), f"it found what wasn't sent: {end}")

    def test_kills(self) -> None:
        """Lines that were stored are found after each kill."""
        random_ = random.Random(self.seed)
        journal, stored, sent, told = self.folder / "journal", b"", b"", 0
        for kill in range(self.fixture.many(KILLS)):
            if kill % NEW_FILE == 0:
                journal, stored, sent = self.folder / f"journal-{kill}", b"", b""
            lines = lines_from(random_, kill * LINES)
            written = self.write(journal, lines, random_.uniform(0, LONGEST), kill % 2 == 0)
            if written.found is not None:
                self.judge(f"kill {kill}", written.found, stored, sent)
                stored, sent = written.found + written.stored, written.found + lines
                told += written.stored.count(b"\n")
        last = self.write(journal, b"", None)
        self.judge("the last one", last.found or b"", stored, sent)
        self.told = f"{told} lines stored"

    def open(self, name: str, held: bytes) -> None:
        """A file of these bytes is opened as its lines say, and cleared after them; or refused, and left as it is."""
        file, lines = self.folder / "file", lines_of(held)
        file.write_bytes(held)
        ran = subprocess.run([self.steps, "journal", str(file)], input=b"", capture_output=True)
        with self.subTest(name):
            if lines is None:
                self.assertEqual((ran.returncode, ran.stdout, ran.stderr), (1, b"", NO_JOURNAL))
                self.assertEqual(file.read_bytes(), held)
            else:
                self.assertEqual((ran.returncode, ran.stdout, ran.stderr), (0, lines + b"\n", b""))
                self.assertEqual(file.read_bytes(), lines.ljust(len(held), b"\0"))

    def test_files(self) -> None:
        """Files of any bytes."""
        random_ = random.Random(self.seed)
        for held in (b"", b"A\n", b"A\nB", b"\0", b"A\0", b"A\nB\0C\n\0"):
            self.open(f"{held!r}", held)
        for number in range(self.fixture.many(FILES)):
            self.open(f"file {number}", bytes(random_.choices(b"A\n\0\xff", WEIGHTS, k=random_.randrange(SIZES))))

    def test_torn_line(self) -> None:
        """A line that lacks its end is dropped, and the next one stands in its place."""
        torn = self.folder / "torn"
        torn.write_bytes(b"A\nB\nC\0D\n" + bytes(8))
        self.check_equal("what it prints", self.write(torn, b"E\n", None), Written(b"A\nB\n", b"E\n"))
        self.check_equal("its bytes", torn.read_bytes(), b"A\nB\nE\n" + bytes(10))
