"""A host that keeps a store, and cuts of the power: after a kill the folder is left as such a cut might leave it. What was stored
is there; of what was written since then each byte may be the old one or the new one; and a name may be lost that its folder hasn't
stored."""
from __future__ import annotations

import os
import pathlib
import random
import shutil
import signal
import struct
import subprocess
import unittest
from collections.abc import Iterator
from typing import NamedTuple

from tests.cases import SideBySide
from tests.faults import preload
from tests.host.stored import KilledHost, StoreCase, StoreHost
from tests.host.stores import under_kills
from tests.model.account import Key
from tests.sockets.hosts import Start
from tests.sockets.ledger import Ledger
from tests.sockets.wire import PATIENCE, demand, give, hello, replied, request, welcome

SOURCE = pathlib.Path(__file__).resolve().with_name("power_cut.c")
LIBRARY = SOURCE.parents[2] / "out/power_cut.so"
# How often the gate cuts the power, beside a crowd, and behind the start of a new account.
CUTS, STARTS = 20, 10
# How often a start asks something of the disk where it begins an account; less where it goes on. A crowd's host is killed when it
# has asked so often more, at most.
BEGINS, LATER = 10, 5
# The head of a record: its kind, a file's number, an offset, and how many bytes come behind it.
HEAD = struct.Struct("=4Q")
# What a cut leaves of a write; of bytes one by one, and of so many at a time.
LEFT = ("none", "all", "front", "bytes", "blocks")
BLOCK = 512
# A byte of chance makes one that is whole, or none.
WHOLE_OR_NONE = bytes(255 * (byte & 1) for byte in range(256))


class Asked(NamedTuple):
    """What was asked of the disk."""

    kind: str
    number: int
    at: int
    bytes: bytes


def asked_of(kept: bytes) -> Iterator[Asked]:
    """The records of a log. One that is not whole was not kept: what it asks was not begun."""
    at = 0
    while at + HEAD.size <= len(kept):
        kind, number, place, count = HEAD.unpack_from(kept, at)
        at += HEAD.size
        if at + count > len(kept):
            return
        yield Asked(chr(kind), number, place, kept[at:at + count])
        at += count


def mask_of(chance: random.Random, left: str, count: int) -> bytes:
    """Which of so many bytes of a write are left: a byte of ones where it is, and none where it isn't."""
    if left == "front":
        return (b"\xff" * chance.randrange(count + 1)).ljust(count, b"\0")
    if left == "bytes":
        return chance.randbytes(count).translate(WHOLE_OR_NONE)
    if left == "blocks":
        return b"".join(chance.choice([b"\0", b"\xff"]) * BLOCK for _ in range(0, count, BLOCK))[:count]
    return (b"\xff" if left == "all" else b"\0") * count


def mixed(old: bytes, new: bytes, mask: bytes) -> bytes:
    """The new bytes where the mask has ones, and else the old ones."""
    one, other, ones = (int.from_bytes(part, "little") for part in (old, new, mask))
    return ((one & ~ones) | (other & ones)).to_bytes(len(new), "little")


class File:
    """A file: the bytes that are stored, and what was written since then."""

    def __init__(self, stored: bytes = b""):
        self.stored = stored
        self.writes: list[Asked] = []

    def store(self) -> None:
        """All is stored."""
        self.stored = self.left(random.Random(), "all")

    def left(self, chance: random.Random, left: str) -> bytes:
        """What there is where so much is left of each write. Where the file was shorter it has any bytes, or zeros."""
        held = self.stored
        for write in self.writes:
            end, part = write.at + len(write.bytes), mask_of(chance, left, len(write.bytes))
            any_byte = left in ("bytes", "blocks") and chance.random() < 0.5
            if len(held) < end:
                held += chance.randbytes(end - len(held)) if any_byte else bytes(end - len(held))
            held = held[:write.at] + mixed(held[write.at:end], write.bytes, part) + held[end:]
        # the new length may be lost too
        lengths = [len(self.stored), len(held), chance.randint(len(self.stored), len(held))]
        return held if left == "all" else held[:chance.choice(lengths)]


class Disk:
    """The folder of a store on a disk whose power is cut. All that it has at first is stored; it may not be there yet."""

    def __init__(self, store: pathlib.Path, log: pathlib.Path):
        self.store, self.log = store, log
        self.env = {**os.environ, "LD_PRELOAD": str(LIBRARY), "CUT_LOG": str(log)}
        self.begin()

    def env_at(self, number: int) -> dict[str, str]:
        """The variables by which a program is killed once it has asked so often; by 0 it isn't."""
        return {**self.env, "CUT_AT": str(number)}

    def begin(self) -> None:
        """What is there now is stored."""
        self.log.write_bytes(b"")
        self.is_stored = True
        paths = [path for path in self.store.iterdir() if path.name != "lock"] if self.store.exists() else []
        self.files = {path.stat().st_ino: File(path.read_bytes()) for path in paths}
        self.names = {path.name: path.stat().st_ino for path in paths}
        # the names as they were asked for since they were stored, one more each time
        self.named = [self.names]

    def cut(self, chance: random.Random) -> bool:
        """Leaves what might be there after a cut now; whether something is lost that was asked for."""
        for asked in asked_of(self.log.read_bytes()):
            self.take(asked)
        if not self.is_stored:
            shutil.rmtree(self.store)
            self.begin()
            return True
        names = chance.choice([self.named[0], self.named[-1], chance.choice(self.named)])
        left = {name: self.files[number].left(chance, chance.choice(LEFT)) for name, number in names.items()}
        whole = {name: self.files[number].left(chance, "all") for name, number in self.named[-1].items()}
        for path in self.store.iterdir():
            if path.name != "lock":
                path.unlink()
        for name, held in left.items():
            (self.store / name).write_bytes(held)
        self.begin()
        return left != whole

    def take(self, asked: Asked) -> None:
        """What comes of what is asked of it."""
        names = dict(self.named[-1])
        if asked.kind == "w":
            self.files[asked.number].writes.append(asked)
        elif asked.kind == "m":
            self.is_stored = False
        elif asked.kind == "s" and asked.number == self.store.parent.stat().st_ino:
            self.is_stored = True
        elif asked.kind == "s" and asked.number == self.store.stat().st_ino:
            self.named = [names]
        elif asked.kind == "s":
            self.files[asked.number].store()
            self.files[asked.number].writes.clear()
        elif asked.kind == "t":
            self.files[asked.number] = File()
        elif asked.kind == "u":
            del names[pathlib.PurePath(asked.bytes.decode()).name]
            self.named.append(names)
        else:
            old, _, new = (pathlib.PurePath(part).name for part in asked.bytes.decode().partition("\0"))
            if asked.kind == "r":
                self.named.append({**{name: number for name, number in names.items() if name != old}, new: names[old]})
            elif old not in names and old != "lock":
                self.files[asked.number] = File()
                self.named.append({**names, old: asked.number})


def killed_start(program: str, disk: Disk, number: int, *options: str) -> None:
    """A host with these options is killed while it starts, once it has asked so often of the disk."""
    words = [program, "host", "--listen", "127.0.0.1:0", "--store", str(disk.store), *options]
    ran = subprocess.run(words, env=disk.env_at(number), capture_output=True, timeout=PATIENCE)
    demand(ran.returncode == -signal.SIGKILL, f"a start that is to be killed: {ran}")


class PowerCuts(StoreCase):
    """Cuts of the power."""

    is_random = True

    def setUp(self) -> None:
        super().setUp()
        preload.built(SOURCE, LIBRARY)
        self.store.mkdir()
        self.disk = Disk(self.store, self.folder / "log")

    def test_many_cuts(self) -> None:
        """Beside a crowd: each answer that was told is found, and its client can go on."""
        chance, cuts, lost = random.Random(f"cuts {self.seed}"), 0, 0
        while cuts < self.fixture.many(CUTS):
            epoch = cuts + 1
            env = self.disk.env_at(BEGINS + chance.randint(1, LATER))

            def cut(is_last: bool, env: dict[str, str] = env) -> None:
                nonlocal lost
                lost += self.disk.cut(chance)
                env.update(self.disk.env_at(0 if is_last else BEGINS + chance.randint(1, LATER)))

            with KilledHost(self.program, self.store, options=("--epoch", str(epoch)), env=env) as host:
                cuts += under_kills(host, Ledger(), random.Random(chance.random()), cut)
            self.disk.begin()
        self.told = f"{cuts} cuts, {lost} of which lost what was not stored"

    def test_a_new_account(self) -> None:
        """Where a client was welcome in a new epoch, that goes on, with all that it was told; else it, or the one before."""
        chance, lost = random.Random(f"new accounts {self.seed}"), 0
        self.answered(7)
        for epoch in range(8, 8 + self.fixture.many(STARTS)):
            lost += self.disk.cut(chance)
            with self.host(env=self.disk.env) as host:
                self.goes_on(host, epoch - 1)
            if epoch % 4:
                killed_start(self.program, self.disk, chance.randint(1, BEGINS - 1), "--epoch", str(epoch))
                lost += self.disk.cut(chance)
                with self.host(env=self.disk.env) as host:
                    demand(host.start in (Start(epoch - 1, 2), Start(epoch, 0)), f"after a start of {epoch} it has {host.start}")
            self.answered(epoch)
        self.told = f"{lost} cuts lost what was not stored"

    def test_a_new_folder(self) -> None:
        """Where a client was welcome the folder is there that the start made, or one before that was killed behind this."""
        for name, is_killed in (("made", False), ("found", True)):
            self.store = self.folder / name
            self.disk = Disk(self.store, self.folder / f"log of {name}")
            if is_killed:
                killed_start(self.program, self.disk, 1, "--epoch", "7")
            self.answered(7)
            self.disk.cut(random.Random(name))
            with self.subTest(name), self.host(env=self.disk.env) as host:
                self.goes_on(host, 7)

    def answered(self, epoch: int) -> None:
        """A client is told that its put is done in this epoch, and then the host is killed."""
        with self.host("--epoch", str(epoch), env=self.disk.env) as host, host.connect() as peer:
            key = Key(epoch, 1, 1, 1)
            peer.expect(hello(1), welcome(1, epoch))
            peer.expect(request(key, give("put", f"item {epoch}")), replied(key, reply="done"))

    def goes_on(self, host: StoreHost, epoch: int) -> None:
        """A host goes on in this epoch, in which a client was told that its put is done."""
        demand(host.start == Start(epoch, 2), f"after epoch {epoch} it has {host.start}")
        with host.connect() as peer:
            key = Key(epoch, 1, 1, 1)
            peer.expect(request(key, give("put", f"item {epoch}")), replied(key, reply="done"))


def load_tests(loader: unittest.TestLoader, _: unittest.TestSuite, __: str | None) -> unittest.TestSuite:
    """The cases, side by side."""
    return SideBySide(loader.loadTestsFromTestCase(PowerCuts))
