"""Kills a writer on a store's folder at random moments: each entry that it printed as stored is found, and an account goes on from
there. A second writer of a folder is refused. Files of spoilt accounts are opened or refused as the model has it.
"""
from __future__ import annotations

import itertools
import pathlib
import random
import subprocess
import tempfile
import time
from collections.abc import Iterator

from tests.cases import Case
from tests.model.audits import is_past, random_ones, verdict_or_fault
from tests.model.lines import BadLine, read_account

# How often a writer is killed in the gate, after how many seconds at most, how many entries it is sent, and how often it begins on a
# new folder.
KILLS, LONGEST, ENTRIES, NEW_FOLDER = 50, 0.06, 400, 10
# How many seconds a writer may take to open its folder, or for an input that ends.
PATIENCE = 60
# How many accounts are spoilt in the gate.
SPOILT = 200
FORMAT = b"journal 1 "
HEAD = b"epoch 1 opened 0\n"
ROOM = bytes(4_096)


def entries() -> Iterator[bytes]:
    """The lines of a legal account's entries, without end: a client that puts an item and takes it, in turn."""
    yield b'0 - {"client":1,"incarnation":1,"kind":"hello"}\n'
    session = b'"client":1,"epoch":1,"incarnation":1'
    for number in itertools.count(1, 2):
        yield (b'%d - {"call":"put",%s,"item":"%s","kind":"request","number":%d,"queue":3}\n'
               % (number, session, b"x" * (number % 500), number))
        yield (b'%d %d {"call":"take",%s,"kind":"request","number":%d,"queue":3,"wait":"now"}\n'
               % (number + 1, number, session, number + 1))


def text_of(held: bytes) -> bytes:
    """The lines of a file: those before its first zero."""
    text, _, _ = held.partition(b"\0")
    return text[:text.rfind(b"\n") + 1]


class Stores(Case):
    """The store of a folder."""

    is_random = True

    def setUp(self) -> None:
        self.folder = pathlib.Path(self.enterContext(tempfile.TemporaryDirectory(prefix="store-")))
        self.store = self.folder / "store"

    def account(self, epoch: int) -> pathlib.Path:
        """The file of an epoch's account."""
        return self.store / f"epoch-{epoch}.account"

    def command(self, epoch: int) -> list[str]:
        """What writes to the account of an epoch."""
        return [self.steps, "store", str(self.store), str(epoch)]

    def write(self, epoch: int, sent: bytes, seconds: float) -> tuple[int | None, bytes]:
        """How many entries a writer found, if it came so far, and what it printed of these lines as stored, before it was killed."""
        given, output = self.folder / "given", self.folder / "output"
        given.write_bytes(sent)
        with given.open("rb") as source, output.open("wb") as sink:
            with subprocess.Popen(self.command(epoch), stdin=source, stdout=sink) as writer:
                ends = time.monotonic() + PATIENCE
                while output.stat().st_size == 0 and writer.poll() is None:
                    if time.monotonic() > ends:
                        raise TimeoutError(f"a writer opened no store within {PATIENCE} seconds")
                    time.sleep(0.001)
                time.sleep(seconds)
                writer.kill()
        first, end, rest = output.read_bytes().partition(b"\n")
        return (int(first.removeprefix(b"entries ")), rest[:rest.rfind(b"\n") + 1]) if end else (None, b"")

    def test_kills(self) -> None:
        """Entries that were stored are found after each kill."""
        random_, made = random.Random(self.seed), list(itertools.islice(entries(), NEW_FOLDER * ENTRIES))
        before = stored = sent = 0
        for kill in range(self.fixture.many(KILLS)):
            if kill % NEW_FOLDER == 0:
                self.store, before, stored, sent = self.folder / f"store-{kill}", before + stored, 0, 0
            found, printed = self.write(1, b"".join(made[sent:sent + ENTRIES]), random_.uniform(0, LONGEST))
            with self.subTest(f"kill {kill}"):
                self.assertEqual(found, stored, "what the file had is found")
                held = text_of(self.account(1).read_bytes())
                lines = held.removeprefix(FORMAT + HEAD).splitlines(keepends=True)
                self.assertEqual((held.startswith(FORMAT + HEAD), lines), (True, made[:len(lines)]))
                self.assertGreaterEqual(len(lines), sent + printed.count(b"\n"), "stored entries are not in the file")
            stored = sent = len(lines)
        self.told = f"{before + stored} entries stored"
        ran = subprocess.run(self.command(1), input=b"", capture_output=True, timeout=PATIENCE)
        self.check_equal("the last one", (ran.returncode, ran.stdout, ran.stderr), (0, b"entries %d\n" % stored, b""))

    def test_locked(self) -> None:
        """A folder has one writer."""
        with subprocess.Popen(self.command(1), stdin=subprocess.PIPE, stdout=subprocess.PIPE) as writer:
            assert writer.stdout and writer.stdin
            self.check_equal("the first one", writer.stdout.readline(), b"entries 0\n")
            ran = subprocess.run(self.command(1), input=b"", capture_output=True, timeout=PATIENCE)
            told = f"Error: another server has {self.store}\n".encode()
            self.check_equal("a second one", (ran.returncode, ran.stdout, ran.stderr), (1, b"", told))
            writer.stdin.close()
            self.check_equal("its end", writer.wait(PATIENCE), 0)
        ran = subprocess.run(self.command(1), input=b"", capture_output=True, timeout=PATIENCE)
        self.check_equal("one after it", (ran.returncode, ran.stdout), (0, b"entries 0\n"))

    def test_epochs(self) -> None:
        """A greater epoch begins beside the others, a smaller one doesn't; what a crash left of a new one is overwritten."""
        for epoch, status, told in ((7, 0, b""), (9, 0, b""), (8, 1, b"Error: the store has epoch 9\n"), (9, 0, b"")):
            if epoch == 9:
                (self.store / "unready.account").write_bytes(b"journal 1 epoch 8")
            ran = subprocess.run(self.command(epoch), input=b"", capture_output=True, timeout=PATIENCE)
            self.check_equal(f"epoch {epoch}", (ran.returncode, ran.stderr), (status, told))
        self.check_equal("the first one's file", text_of(self.account(7).read_bytes()), b"journal 1 epoch 7 opened 0\n")
        self.check_equal("the second one's", text_of(self.account(9).read_bytes()), b"journal 1 epoch 9 opened 0\n")

    def opens(self, name: str, epoch: int, held: bytes, told: str | None, found: int = 0) -> None:
        """A file of these bytes is opened with so many entries; or it is refused for this reason, and left as it is."""
        self.store.mkdir(exist_ok=True)
        file = self.account(epoch)
        file.write_bytes(held)
        ran = subprocess.run(self.command(epoch), input=b"", capture_output=True, timeout=PATIENCE)
        with self.subTest(name):
            if told is None:
                self.assertEqual((ran.returncode, ran.stdout, ran.stderr), (0, b"entries %d\n" % found, b""))
                self.assertEqual(file.read_bytes(), text_of(held).ljust(len(held), b"\0"))
            else:
                self.assertEqual((ran.returncode, ran.stdout, ran.stderr), (1, b"", f"Error: epoch {epoch}: {told}\n".encode()))
                self.assertEqual(file.read_bytes(), held)
        file.unlink()

    def test_files(self) -> None:
        """Files that are no account's journal."""
        first = b"journal 1 epoch 7 opened 0\n"
        self.opens("no zero", 7, first, "no zero stands in the file")
        self.opens("another version", 7, b"journal 2 epoch 7 opened 0\n\0", "another version of the format")
        self.opens("a version with a zero", 7, b"journal 01 epoch 7 opened 0\n\0", "no journal")
        self.opens("an account without a format", 7, b"epoch 7 opened 0\n\0", "no journal")
        self.opens("no whole line", 7, first[:-1] + b"\0", "no whole line")
        self.opens("nothing", 7, b"\0", "no whole line")
        self.opens("another epoch", 7, b"journal 1 epoch 8 opened 0\n\0", "an account of another epoch")
        self.opens("no account", 7, first + b"none\n\0", "no legal account")
        self.opens("an account", 7, first + b"torn\0lost\n\0", None)

    def test_spoilt(self) -> None:
        """Spoilt accounts are told as the model tells them."""
        tried = 0
        for name, text, _ in random_ones(self.seed, self.fixture.many(SPOILT)):
            whole = text[:text.rfind(b"\n") + 1]
            if b"\0" in text or is_past(whole):
                continue
            try:
                epoch = read_account(whole.partition(b"\n")[0] + b"\n").epoch
            except BadLine:
                epoch = 1
            is_legal = verdict_or_fault(whole) == "legal"
            told = None if is_legal else "no legal account" if whole else "no whole line"
            self.opens(name, epoch, FORMAT + text + ROOM, told, whole.count(b"\n") - 1)
            tried += 1
        self.told = f"{tried} accounts"
