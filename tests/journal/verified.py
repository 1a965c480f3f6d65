"""Runs `rv verify` on a journal, and on a store's folder: there it verifies the present account, takes no lock and makes nothing."""
from __future__ import annotations

import itertools
import os
import pathlib
import subprocess
import tempfile
from typing import Tuple

from tests.cases import Case
from tests.commands.replies import ACCOUNT, ALL_KEPT, KEPT, joined
from tests.journal.store import FORMAT, HEAD, PATIENCE, ROOM, entries, text_of

# The status of `rv verify` where the end of a file is torn.
TORN = 3
# What it printed, what it said, and its status.
Ended = Tuple[str, str, int]
LEGAL: Ended = ("legal\n", "", 0)
NO_SUCH = "No such file or directory (os error 2)"
NO_LINE = "the journal has no whole line"


class Verified(Case):
    """A file or a folder, each a check by its name."""

    def setUp(self) -> None:
        self.folder = pathlib.Path(self.enterContext(tempfile.TemporaryDirectory(prefix="verified-")))
        self.store, self.file = self.folder / "store", self.folder / "file"

    def ran(self, path: pathlib.Path | str, *options: str) -> Ended:
        """What the program printed, said and ended with."""
        run = subprocess.run([self.program, "verify", str(path), *options], capture_output=True, timeout=PATIENCE)
        return run.stdout.decode(errors="replace"), run.stderr.decode(errors="replace"), run.returncode

    def held(self) -> dict[str, bytes]:
        """The files of the folder, each with its bytes."""
        return {path.name: path.read_bytes() for path in self.store.iterdir()}

    def command(self, epoch: int) -> list[str]:
        """What writes to the account of an epoch."""
        return [self.steps, "store", str(self.store), str(epoch)]

    def write(self, epoch: int, sent: bytes) -> None:
        """Adds these lines to the account of an epoch."""
        subprocess.run(self.command(epoch), input=sent, stdout=subprocess.DEVNULL, check=True, timeout=PATIENCE)

    def verified(self, name: str, held: bytes, told: Ended) -> None:
        """What is told of a file of these bytes, which is left as it is."""
        self.file.write_bytes(held)
        self.check_equal(name, self.ran(self.file), told)
        self.check_equal(f"{name}: its bytes", self.file.read_bytes(), held)

    def refused(self, name: str, held: bytes, why: str) -> None:
        """A file of these bytes isn't verified, for this reason."""
        self.verified(name, held, ("", f"account {self.file}: {why}\n", 1))

    def test_files(self) -> None:
        """A journal, zeros and all: a line counts with its LF."""
        *made, last = itertools.islice(entries(), 4)
        whole = FORMAT + HEAD + b"".join(made)
        self.verified("whole lines", whole + ROOM, LEGAL)
        self.verified("lines after a zero", whole + b"\0" + b"lost\n" + ROOM, LEGAL)
        self.verified("no zero", whole, LEGAL)
        self.verified("an entry without its LF", whole[:-1] + ROOM, ("legal\ntorn end\n", "", TORN))
        self.verified("a moment that falls", whole + last.replace(b"3 - ", b"1 - ", 1) + ROOM, ("fault 3 M1\n", "", 1))
        self.verified("a bad line", whole + b"none\n" + ROOM, ("bad line 5\n", "", 1))
        self.verified("a long first line", FORMAT + b"x" * 200 + b"\n" + ROOM, ("bad line 1\n", "", 1))
        self.verified("a version with a zero", b"journal 01 " + HEAD, ("bad line 1\n", "", 1))
        self.refused("no line", FORMAT + ROOM, NO_LINE)
        self.refused("nothing but the format", FORMAT, NO_LINE)
        self.refused("a first line without its LF", FORMAT + HEAD[:-1] + ROOM, NO_LINE)
        self.refused("another version", b"journal 2 " + HEAD + ROOM, "journal version 2; version 1 is read")
        self.refused("a later one", b"journal 10 later", "journal version 10; version 1 is read")

    def test_followed(self) -> None:
        """`--follow` reads on where zeros are written over, also where the first line was not whole."""
        made = list(itertools.islice(entries(), 2))
        for name, before, found in (("entries", FORMAT + HEAD + made[0], 1), ("no line", FORMAT, 0)):
            self.file.write_bytes(before + ROOM)
            command = [self.program, "verify", "--follow", str(self.file)]
            with subprocess.Popen(command, stdout=subprocess.PIPE, stderr=subprocess.PIPE) as follower:
                assert follower.stdout and follower.stderr
                self.check_equal(f"how far {name} are", follower.stderr.readline(), b"%d entries so far\n" % found)
                with self.file.open("r+b") as writer:
                    writer.write(FORMAT + HEAD + b"".join(made) + b"none\n")
                told = follower.wait(PATIENCE), follower.stdout.read()
                self.check_equal(f"what is told of {name}", told, (1, b"bad line 4\n"))

    def test_store(self) -> None:
        """The greatest epoch's account is verified, whatever the others hold; the folder is left as it is."""
        made = b"".join(itertools.islice(entries(), 3))
        self.write(9, made.replace(b'"epoch":1', b'"epoch":9'))
        self.check_equal("one epoch", self.ran(self.store), LEGAL)
        self.write(10, b"")
        spoilt = self.store / "epoch-9.account"
        spoilt.write_bytes(spoilt.read_bytes().replace(b"0 - ", b"none", 1))
        for name in ("epoch-011.account", "epoch-12.account.new", "unready.account", "epoch-.account"):
            (self.store / name).write_bytes(b"none\n")
        before = self.held()
        self.check_equal("two epochs", self.ran(self.store), LEGAL)
        self.check_equal("with a slash after it", self.ran(f"{self.store}/"), LEGAL)
        self.write(10, made.replace(b'"epoch":1', b'"epoch":10') + made[:made.index(b"\n") + 1])
        self.check_equal("a moment that falls", self.ran(self.store), ("fault 3 M1\n", "", 1))
        self.check_equal("the lesser one", self.ran(spoilt), ("bad line 2\n", "", 1))
        self.check_equal("its files", self.held().keys(), before.keys())

    def test_locked(self) -> None:
        """A store that is locked by a running writer, whose next line is half written."""
        with subprocess.Popen(self.command(1), stdin=subprocess.PIPE, stdout=subprocess.PIPE) as writer:
            assert writer.stdout and writer.stdin
            writer.stdin.write(b"".join(itertools.islice(entries(), 2)))
            writer.stdin.flush()
            for _ in range(3):
                writer.stdout.readline()
            before = self.held()
            self.check_equal("a writer has it", self.ran(self.store), LEGAL)
            self.check_equal("its files", self.held(), before)
            account = self.store / "epoch-1.account"
            with account.open("r+b") as file:
                file.seek(len(text_of(before[account.name])))
                file.write(b"2 ")
            self.check_equal("a line is half written", self.ran(self.store), ("legal\ntorn end\n", "", TORN))
            writer.stdin.close()
            self.check_equal("its end", writer.wait(PATIENCE), 0)

    def test_read_twice(self) -> None:
        """The rule that is broken at a closed place is told by a second reading, of the same file."""
        made = list(itertools.islice(entries(), 3))
        taken = made[2].replace(b'"number":2', b'"number":3')
        self.write(1, b"".join(made))
        account = self.store / "epoch-1.account"
        account.write_bytes(text_of(account.read_bytes()) + taken + ROOM)
        self.check_equal("an item taken twice", self.ran(self.store), ("fault 3 P1\n", "", 1))

    def test_followed_store(self) -> None:
        """`--follow` on a folder reads on in the file that is present when it begins."""
        made = list(itertools.islice(entries(), 2))
        self.write(1, made[0])
        command = [self.program, "verify", "--follow", str(self.store)]
        with subprocess.Popen(command, stdout=subprocess.PIPE, stderr=subprocess.PIPE) as follower:
            assert follower.stdout and follower.stderr
            self.check_equal("how far it is", follower.stderr.readline(), b"1 entries so far\n")
            self.write(1, made[1])
            account = self.store / "epoch-1.account"
            with account.open("r+b") as file:
                file.seek(len(text_of(account.read_bytes())))
                file.write(b"none\n")
            self.check_equal("what it tells", (follower.wait(PATIENCE), follower.stdout.read()), (1, b"bad line 4\n"))

    def test_replies(self) -> None:
        """`--replies` on a folder: what the present account says of a record."""
        self.store.mkdir()
        (self.store / "epoch-1.account").write_bytes(FORMAT + joined(ACCOUNT).encode() + ROOM)
        record = self.folder / "record"
        record.write_text(joined(KEPT))
        self.check_equal("a record that is kept", self.ran(self.store, "--replies", str(record)), (joined(["legal", *ALL_KEPT]), "", 0))

    def test_none(self) -> None:
        """A folder without an account, and paths where no folder is."""
        self.store.mkdir()
        others: dict[str, list[str]] = {"no file": [], "no epoch's file": ["lock", "unready.account", "epoch-01.account"]}
        for name, files in others.items():
            for file in files:
                (self.store / file).write_bytes(b"")
            told = "", f"account {self.store}: no epoch has an account\n", 1
            self.check_equal(f"{name} in it", self.ran(self.store), told)
            self.check_equal(f"{name} in it, followed", self.ran(self.store, "--follow"), told)
            self.check_equal(f"{name}: nothing is made", sorted(os.listdir(self.store)), sorted(files))
        missing = self.folder / "missing"
        self.check_equal("no such folder", self.ran(missing), ("", f"account {missing}: {NO_SUCH}\n", 1))
        self.check_equal("it is not made", missing.exists(), False)
        (self.store / "epoch-5.account").symlink_to(missing)
        told = "", f"account {self.store}/epoch-5.account: {NO_SUCH}\n", 1
        self.check_equal("an account's file that is gone", self.ran(self.store), told)
