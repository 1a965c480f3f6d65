"""A host whose store isn't synced: after a kill it goes on while the machine is in the same boot, and begins a new epoch in any
other one, or where the boot isn't known."""
from __future__ import annotations

import contextlib
import pathlib
import random
import subprocess
import unittest

from tests import left_out
from tests.cases import Case, SideBySide
from tests.faults import preload
from tests.faults.system import InSystems
from tests.host.options import only
from tests.host.power_cuts import LIBRARY, SOURCE, Disk, killed_start
from tests.host.stored import KilledHost, StoreCase, StoreHost
from tests.host.stores import under_kills
from tests.model.account import Key
from tests.sockets.hosts import Start
from tests.sockets.ledger import Ledger
from tests.sockets.wire import demand, give, hello, replied, request, welcome

# Why a new epoch begins.
BOOTED = "the one before was not synced, and the machine was booted since"
UNKNOWN = "the machine's boot isn't known, and what was not synced may be lost"
# In a name space of its own the system tells no boot: the file that would is empty.
HIDDEN = """exec unshare -rm sh -c 'mount --bind /dev/null /proc/sys/kernel/random/boot_id && exec "$@"' sh"""
# How many crowds, and how many cuts of the power, the gate tries.
CROWDS, CUTS = 1, 9
# How often a start asks something of the disk where it goes on and notes the boot.
GOES_ON = 9


class UnsyncedCase(StoreCase):
    """A case with a store that may be synced or not, and what clients were told in it."""

    def setUp(self) -> None:
        super().setUp()
        self.puts: list[Key] = []
        # what runs as the host
        self.runs = self.program

    def started(self, *options: str) -> StoreHost:
        """A host that keeps the store, with these options."""
        return StoreHost(self.runs, self.store, options=options)

    def put(self, host: StoreHost) -> None:
        """A client's next put in the epoch of a host is done, and the last one is known."""
        known = [key for key in self.puts if key.epoch == host.epoch]
        with host.connect() as peer:
            for key in known[-1:] or [Key(host.epoch, 1, 1, 0)]:
                if key.number:
                    peer.expect(request(key, give("put", "a")), replied(key, reply="done"))
                else:
                    peer.expect(hello(1), welcome(1, host.epoch))
                following = Key(host.epoch, 1, 1, key.number + 1)
                peer.expect(request(following, give("put", "a")), replied(following, reply="done"))
                self.puts.append(following)

    def entries(self, epoch: int) -> int:
        """How many entries there are: the hello's, and one for each put."""
        return 1 + sum(key.epoch == epoch for key in self.puts)

    def note(self) -> bytes | None:
        """The boot that is noted."""
        with contextlib.suppress(FileNotFoundError):
            return (self.store / "boot").read_bytes()
        return None


class Boots(UnsyncedCase):
    """Which boot lets an account go on."""

    def goes_on(self, *options: str, epoch: int, note: bytes | None) -> None:
        """A start goes on in this epoch, knows all of it, and leaves this note."""
        name = " ".join(options)
        with self.started(*options) as host:
            demand(host.start == Start(epoch, self.entries(epoch)), f"{name}: it starts with {host.start}")
            self.check_equal(f"{name}: its note", self.note(), note)
            self.put(host)

    def begins(self, *options: str, why: str, note: bytes | None) -> int:
        """A start begins a greater epoch, says why, leaves this note and all other files; the epoch."""
        name, before = " ".join(options), self.held()
        with self.started(*options) as host:
            demand(host.start == Start(host.epoch, None, why), f"{name}: it starts with {host.start}")
            demand(all(host.epoch > key.epoch for key in self.puts), f"{name}: it begins {host.epoch}")
            self.check_equal(f"{name}: its note", self.note(), note)
            self.put(host)
            host.kill()
        after = self.held()
        others = {held: before[held] for held in before if held != "boot"}
        self.check_equal(f"{name}: other files", {held: after.get(held) for held in others}, others)
        return host.epoch

    def test_each_boot(self) -> None:
        """A store that is synced goes on in each boot, and one that wasn't in the same boot alone, with all that was answered."""
        with self.host("--epoch", "7") as host:
            self.put(host)
        self.check_equal("the note of a store that is synced", self.note(), None)
        unsynced = ("--no-sync", "--boot")
        self.goes_on(*unsynced, "one", epoch=7, note=b"one\n")
        self.goes_on(*unsynced, "one", epoch=7, note=b"one\n")
        self.goes_on("--boot", "one", epoch=7, note=None)
        self.goes_on("--boot", "two", epoch=7, note=None)
        self.goes_on(*unsynced, "two", epoch=7, note=b"two\n")
        third = self.begins(*unsynced, "three", why=BOOTED, note=b"three\n")
        self.goes_on(*unsynced, "three", epoch=third, note=b"three\n")
        fourth = self.begins("--boot", "four", why=BOOTED, note=None)
        self.goes_on("--boot", "five", epoch=fourth, note=None)

    def test_no_greater_epoch(self) -> None:
        """Where the options allow no other epoch, a start in another boot is refused, and changes nothing."""
        with self.host("--epoch", "7", "--no-sync", "--boot", "one") as host:
            self.put(host)
        before = self.held()
        told = f"{self.store}: it has epoch 7, and the options allow no greater one\n"
        for options in (("--boot", "two"), ("--boot", "two", "--no-sync"), ("--boot", "")):
            self.check_equal(" ".join(options), self.refused("--epoch", "7", *options), told)
        self.check_equal("files", self.held(), before)
        self.goes_on("--epoch", "7", "--no-sync", "--boot", "one", epoch=7, note=b"one\n")

    def test_the_system_s_boot(self) -> None:
        """Where no boot is named the system's counts; where it tells none, each start begins an epoch, as it does after that."""
        boot = pathlib.Path("/proc/sys/kernel/random/boot_id").read_bytes()
        with self.host("--epoch", "7") as host:
            self.put(host)
        self.goes_on("--no-sync", epoch=7, note=boot)
        self.goes_on("--no-sync", epoch=7, note=boot)
        hidden = self.folder / "hidden"
        hidden.write_text(f'#!/bin/sh\n{HIDDEN} {self.program} "$@"\n', encoding="utf-8")
        hidden.chmod(0o755)
        if subprocess.run([hidden, "help"], capture_output=True).returncode:
            raise unittest.SkipTest(left_out.reason("a boot that the system hides", "a mount in a name space of the test's own"))
        self.runs = str(hidden)
        for _ in range(2):
            self.begins("--no-sync", why=UNKNOWN, note=b"")
        last = self.begins(why=UNKNOWN, note=None)
        self.goes_on(epoch=last, note=None)
        self.begins("--no-sync", why=UNKNOWN, note=b"")
        self.runs = self.program
        self.begins(why=BOOTED, note=None)

    def test_words(self) -> None:
        """Only a store may be left unsynced; a boot may be named to any server."""
        listen = ["host", "--listen", "127.0.0.1:0"]
        only(self.program, [*listen, "--no-sync"], 2, "--no-sync: only with --store")
        only(self.program, [*listen, "--no-sync", "--account", str(self.folder / "account")], 2, "--no-sync: only with --store")
        self.check_equal("what was made", list(self.folder.iterdir()), [])

    def test_a_bad_note(self) -> None:
        """A folder in place of the note is told by its path. A note that is longer than any is of no boot."""
        with self.host("--epoch", "7", "--no-sync", "--boot", "one") as host:
            self.put(host)
        note = self.store / "boot"
        note.write_bytes(b"one\n" * 2_000)
        self.begins("--boot", "one", why=BOOTED, note=None)
        note.mkdir()
        told = self.refused("--boot", "one")
        self.check("a folder", told.startswith(f"{note}: ") and told.count("\n") == 1, f"it says {told!r}")


class Kills(UnsyncedCase):
    """Kills of a host whose store isn't synced, and cuts of the power."""

    is_random = True

    def test_crowds(self) -> None:
        """A crowd at a host that is killed: each answer that was told is found, and its client can go on."""
        chance, kills = random.Random(f"unsynced {self.seed}"), 0
        for epoch in range(7, 7 + self.fixture.many(CROWDS)):
            options = ("--epoch", str(epoch), "--no-sync")
            with KilledHost(self.program, self.store, options=options) as host:
                kills += under_kills(host, Ledger(), random.Random(chance.random()))
        self.told = f"{kills} kills"

    def test_cuts(self) -> None:
        """After a cut of the power a start begins a new epoch, whatever is left of the last one. Where the cut came before a start
        that doesn't sync had noted so, the account goes on, all of which is there."""
        preload.built(SOURCE, LIBRARY)
        self.store.mkdir()
        chance, disk, lost = random.Random(f"unsynced cuts {self.seed}"), Disk(self.store, self.folder / "log"), 0
        for number in range(self.fixture.many(CUTS)):
            with self.host("--new-epoch", "--boot", f"before {number}", env=disk.env) as host:
                self.put(host)
            if number % 3 == 0:
                killed_start(self.program, disk, chance.randint(1, GOES_ON), "--no-sync", "--boot", f"boot {number}")
            else:
                with self.host("--no-sync", "--boot", f"boot {number}", env=disk.env) as host:
                    for _ in range(1 + number):
                        self.put(host)
            lost += disk.cut(chance)
            with self.host("--boot", f"after {number}", env=disk.env) as after:
                is_whole = after.start == Start(host.epoch, self.entries(host.epoch))
                is_new = after.epoch > host.epoch and after.start == Start(after.epoch, None, BOOTED)
                demand(is_new or (number % 3 == 0 and is_whole), f"after a cut of {host.epoch} it has {after.start}")
                self.put(after)
        self.told = f"{lost} cuts lost what was not stored"


def load_tests(loader: unittest.TestLoader, _: unittest.TestSuite, __: str | None) -> unittest.TestSuite:
    """The cases, some at a time, within systems."""
    classes: list[type[Case]] = [Boots, Kills]
    return InSystems([SideBySide([case for one in classes for case in loader.loadTestsFromTestCase(one)])])
