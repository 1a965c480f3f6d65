"""Runs the built program on devices that give and take a few bytes at a time, and fail where they are told."""
from __future__ import annotations

import errno
import os
import pathlib
import subprocess
import tempfile
from collections.abc import Sequence
from typing import Any, Tuple

from tests import ROOT
from tests.cases import Case
from tests.faults.preload import built, switches
from tests.faults.turns import PRINTED, TEXT, Listener

FIRST, FIRST_ANSWERS = ((ROOT / "examples" / f"first.{end}").read_bytes() for end in ("in", "out"))
EVENTS, RESULTS = ((ROOT / "examples" / f"packets.{end}").read_bytes() for end in ("play", "out"))
ACCOUNT, FOUND = ((ROOT / "examples" / f"items.{end}").read_bytes() for end in ("account", "out"))
DRAINS, DRAINED = ((ROOT / "examples" / f"drain.{end}").read_bytes() for end in ("in", "out"))
BOOK, PLAY, AUDIT = ["book", "--epoch", "1"], ["play"], ["audit"]
SERVE = ["serve", "--listen", "127.0.0.1:0", "--epoch", "1", "--workers", "1", "--connections", "0"]
NO_ENTRIES = b"epoch 1 opened 0\n"
# What it prints of an empty input, where that is something, with its status and its calls.
OF_NOTHING = {"audit": (b"bad line 1\n", b"", 1, "rw")}
BAD_TEXT = b'{"code":1,"kind":"refused"}\n'
ERRORS = [errno.EIO, errno.EINTR, errno.EAGAIN]
TAKES_NOTHING = 0
MAX_INPUT_BYTES = 536_870_912
# What a run printed, what it said, its status and its calls.
Got = Tuple[bytes, bytes, int, str]


def writes(size: int, most: int) -> int:
    """How many writes so many bytes take."""
    return -(-size // most)


def output_writes(words: Sequence[str], output: bytes, most: int) -> int:
    """How many writes an output takes. A caller's lines are written one by one, and all else together."""
    parts = output.splitlines(keepends=True) if words[0] == "call" else [output]
    return sum(writes(len(part), most) for part in parts)


class Devices(Case):
    """What comes of each fault of a device."""

    def setUp(self) -> None:
        built()
        self.folder = pathlib.Path(self.enterContext(tempfile.TemporaryDirectory(prefix="devices-")))
        listener = self.enterContext(Listener())
        call = ["call", "--connect", listener.address, "--client", "2", "--incarnation", "1", "--tries", "3", "--speak", "2"]
        # What the program runs on, and what it must print.
        self.runs = [(BOOK, FIRST, FIRST_ANSWERS), (BOOK, DRAINS, DRAINED), (PLAY, EVENTS, RESULTS), (AUDIT, ACCOUNT, FOUND),
                     (call, TEXT, b"".join(PRINTED))]

    def judge(self, name: str, got: tuple[object, ...], *wanted: object) -> None:
        """Compares what came of a run to what must."""
        parts = zip(("output", "standard error", "status", "calls"), got, wanted)
        with self.subTest(name):
            differ = "; ".join(f"{what}: {had!r:.200}, not {must!r:.200}" for what, had, must in parts if had != must)
            self.assertTrue(got == wanted, differ)

    def ran(self, text: bytes, words: Sequence[str] = BOOK, **devices: int) -> Got:
        """Runs the program over a text, and gives its output, its standard error, its status and its calls."""
        given, calls = self.folder / "input", self.folder / "calls"
        given.write_bytes(text)
        calls.write_bytes(b"")
        with given.open("rb") as source:
            ran = subprocess.run([self.program, *words], stdin=source, capture_output=True,
                                 env={**os.environ, **switches(calls=calls, **devices)})
        return ran.stdout, ran.stderr, ran.returncode, calls.read_text()

    def test_pieces(self) -> None:
        """Devices of a few bytes. The input is read until a read gives nothing, before the first write."""
        for words, text, output in self.runs:
            for most in [1, 7, 100_000]:
                calls = "r" * (writes(len(text), most) + 1) + "w" * output_writes(words, output, most)
                self.judge(f"{words}: {most} bytes at a time", self.ran(text, words, most=most), output, b"", 0, calls)
            self.judge(f"{words}: an empty input", self.ran(b"", words), *OF_NOTHING.get(words[0], (b"", b"", 0, "r")))

    def test_failed_reads(self) -> None:
        """A read that fails, with whatever error, is the last, and nothing is printed."""
        for words, text, _ in self.runs:
            for read in range(1, len(text) + 2):
                got = self.ran(text, words, most=1, read=read, error=ERRORS[read % len(ERRORS)])
                self.judge(f"{words}: read {read} fails", got, b"", b"run fault 1\n", 1, "r" * read)

    def test_failed_writes(self) -> None:
        """A write that fails, with whatever error, or takes nothing is the last: all before it went out."""
        for words, text, output in self.runs:
            for room in range(len(output)):
                *got, calls = self.ran(text, words, most=1, room=room, error=[*ERRORS, TAKES_NOTHING][room % 4])
                wanted = output[:room], b"run fault 2\n", 1, "w" * (room + 1)
                self.judge(f"{words}: output stops after {room} bytes", (*got, calls.lstrip("r")), *wanted)

    def test_accounts(self) -> None:
        """A server prints its account in any pieces, and reads no input; a write that fails is the last."""
        for most in [1, 7, 100_000]:
            got = self.ran(b"x", SERVE, most=most)
            self.judge(f"an account, {most} bytes at a time", got, NO_ENTRIES, b"", 0, "w" * writes(len(NO_ENTRIES), most))
        for room in range(len(NO_ENTRIES)):
            got = self.ran(b"", SERVE, most=1, room=room, error=[*ERRORS, TAKES_NOTHING][room % 4])
            self.judge(f"an account that stops after {room} bytes", got, NO_ENTRIES[:room], b"run fault 2\n", 1, "w" * (room + 1))

    def test_long_outputs(self) -> None:
        """Lines are gathered, and go out in pieces of as many as fit 131,072 bytes."""
        lines, answers = b"\n" * 5_000, BAD_TEXT * 5_000
        *got, calls = self.ran(lines)
        self.judge("140,000 bytes of output", (*got, calls.count("w")), answers, b"", 0, 2)
        for room in [0, 27, 28, 61_440, 65_535, 65_536, 65_537, 100_000, 131_067, 131_068, 131_069, 139_999]:
            *got, _ = self.ran(lines, room=room, error=errno.EIO)
            self.judge(f"long output stops after {room} bytes", tuple(got), answers[:room], b"run fault 2\n", 1)

    def judge_own(self, name: str, source: Any, sink: Any, *wanted: object) -> None:
        """A run on devices of the system's own."""
        ran = subprocess.run([self.program, "book", "--epoch", "1"], stdin=source, stdout=sink, stderr=subprocess.PIPE)
        self.judge(name, (ran.stdout or b"", ran.stderr, ran.returncode), *wanted)

    def test_own_devices(self) -> None:
        """A folder cannot be read, a full device takes nothing, and an input may be one byte longer than the limit."""
        descriptor = os.open(self.folder, os.O_RDONLY)
        self.judge_own("a folder as input", descriptor, subprocess.PIPE, b"", b"run fault 1\n", 1)
        os.close(descriptor)
        with open(ROOT / "examples/first.in", "rb") as source:
            if os.path.exists("/dev/full"):
                with open("/dev/full", "wb") as full:
                    self.judge_own("a full device", source, full, b"", b"run fault 2\n", 1)
        with tempfile.TemporaryFile() as longest:
            longest.truncate(MAX_INPUT_BYTES)
            self.judge_own("an input as long as it may be", longest, subprocess.PIPE, BAD_TEXT, b"", 0)
            longest.seek(0)
            longest.truncate(MAX_INPUT_BYTES + 1)
            self.judge_own("an input one byte longer", longest, subprocess.PIPE, b"", b"run fault 4\n", 1)
