"""A store's folder and its files: who has it, which epoch a start gets, which files are refused, what a full disk leaves, and
that a store of each format opens."""
from __future__ import annotations

import contextlib
import os
import pathlib
import shutil
import time
import unittest

from tests import ROOT, left_out
from tests.cases import Case, SideBySide
from tests.commands.replies import counted, joined
from tests.faults.system import InSystems, System
from tests.host.files import bounded
from tests.host.options import only, ran
from tests.host.stored import StoreCase, StoreHost
from tests.journal.store import FORMAT, HEAD, ROOM, text_of
from tests.model.account import Key, Request
from tests.sockets.accounts import call_members, read_account
from tests.sockets.hosts import Start, account_file
from tests.sockets.ledger import Asked, Told
from tests.sockets.wire import (
    Members, Peer, demand, drain, frame, give, hello, key_of, members_of, refused, replied, reply_of, request, swap, take,
    welcome)

# The greatest epoch.
MOST = 2**53 - 1
# Why a file of epoch 7 is refused, and its bytes.
HEAD_OF_7 = HEAD.replace(b"epoch 1", b"epoch 7")
NO_ZERO = "no zero byte stands in it, so it is no journal"
BAD = [
    (NO_ZERO, b""),
    (NO_ZERO, FORMAT + HEAD_OF_7),
    ("no journal", b"none\n" + ROOM),
    ("no journal", b"journal\n" + ROOM),
    ("no journal", HEAD_OF_7 + ROOM),
    ("a journal of version 2; version 1 is read", b"journal 2 " + HEAD_OF_7 + ROOM),
    ("no whole line", ROOM),
    ("no whole line", FORMAT + HEAD_OF_7[:-1] + ROOM),
    ("the account of epoch 1", FORMAT + HEAD + ROOM),
    ("no legal account: rv verify tells where", FORMAT + b"epoch 7 opened\n" + ROOM),
    ("no legal account: rv verify tells where", FORMAT + HEAD_OF_7 + b"none\n" + ROOM),
    ("no legal account: rv verify tells where", FORMAT + HEAD_OF_7 + b"0 0 tick\n" + ROOM),
]
# A store of the format's version 1, which was written by hand from FORMATS, and the last replies that its clients were told. Four
# requests wait in it, one of which is long over.
FIRST_STORE, FIRST_RECORD = ROOT / "examples/store-1", ROOT / "examples/store-1.jsonl"
# Its sessions, as client, incarnation and version; and how many entries it has.
SESSIONS, ENTRIES = [(1, 1, 2), (2, 1, 1), (13, 9, 1), (15, 1, 2), (17, 1, 1)], 42
# What another client asks then, with each reply, and what those are told who waited.
OTHER = 18
ASKED: list[tuple[Members, Members]] = [
    (take("now", 0), {"reply": "item", "item": "first"}),
    (take("now", 0), {"reply": "item", "item": "second"}),
    (take("now", 0), {"reply": "item", "item": "third"}),
    (take("now", 0), {"reply": "empty"}),
    (drain(16, 11), {"reply": "drained", "texts": ["of the first start", "of the second start"]}),
    (drain(16, 10), {"reply": "drained", "texts": []}),
    (give("put", "more", queue=20), {"reply": "done"}),
    (take("now", 21), {"reply": "item", "item": "handed"}),
    (swap("other", 0, 63), {"reply": "swapped", "item": "kept"}),
]
WAITED: dict[int, Members] = {
    14: {"reply": "item", "item": "more"},
    15: {"reply": "received", "by_client": OTHER, "by_incarnation": 1, "by_number": 8},
    16: {"reply": "swapped", "item": "other"},
    17: {"reply": "timedout"},
}
# A new journal has so many bytes. An account's file with few of them may become so long; so many items need more.
FIRST, FULL, ITEMS, ITEM = 1 << 20, 6_000, 100, "x" * 100


class Locks(StoreCase):
    """Who has a store."""

    def test_one_server(self) -> None:
        """A second server on the same folder is refused, before and behind requests; the first one serves on. Once that is killed
        another one starts."""
        told = f"{self.store}: another server has this store\n"
        with self.host("--epoch", "7") as host:
            before = self.held()
            for number in (1, 2):
                self.check_equal(f"a second one, {number}", self.refused("--new-epoch"), told)
                self.check_equal(f"files, {number}", self.held(), before)
                with host.greeted(number) as peer:
                    key = Key(7, number, 1, 1)
                    peer.expect(request(key, give("put", "a")), replied(key, reply="done"))
                before = self.held()
            host.kill()
            with self.host() as other:
                self.check_equal("the next one", other.start, Start(7, 4))

    def test_options(self) -> None:
        """A store and an account are not kept both, and a new epoch is begun in a store alone."""
        listen = ["host", "--listen", "127.0.0.1:0"]
        account = self.folder / "account"
        only(self.program, [*listen, "--store", str(self.store), "--account", str(account)], 2, "--account and --store: not both")
        only(self.program, [*listen, "--new-epoch"], 2, "--new-epoch: only with --store")
        only(self.program, [*listen, "--new-epoch", "--account", str(account)], 2, "--new-epoch: only with --store")
        self.check_equal("what was made", list(self.folder.iterdir()), [])


class Epochs(StoreCase):
    """Which epoch a start gets."""

    def begins(self, *options: str, epoch: int | None = None) -> None:
        """A start with these options begins this epoch, or one by the clock, and changes no other file."""
        name, before, began = " ".join(options) or "no option", self.held() if self.store.exists() else {}, time.time()
        with self.host(*options) as host, host.connect() as peer:
            self.check_equal(f"{name}: a hello", peer.ask(hello(1)), welcome(1, host.epoch))
            first, last = (1_000 * began - 1, 1_000 * time.time() + 1) if epoch is None else (epoch, epoch)
            self.check(f"{name}: it begins", host.start.entries is None and first <= host.epoch <= last, host.start)
            self.check(f"{name}: its first line", host.written().startswith(b"epoch %d opened " % host.epoch), host.written())
            host.kill()
        self.check_equal(f"{name}: what was there", {known: self.held().get(known) for known in before}, before)
        self.check_equal(f"{name}: files", len(self.held()), len(before) + 1)

    def goes_on(self, epoch: int, *options: str) -> None:
        """A start with these options goes on in this epoch."""
        with self.host(*options) as host:
            self.check_equal(f"{' '.join(options) or 'no option'}: it goes on", host.start, Start(epoch, 1))

    def has_none(self, epoch: int, *options: str) -> None:
        """A start with these options is refused, since this epoch is there."""
        before, name = self.held(), " ".join(options)
        told = f"{self.store}: it has epoch {epoch}, and the options allow no greater one\n"
        self.check_equal(f"{name}: it is refused", self.refused(*options), told)
        self.check_equal(f"{name}: files", self.held(), before)

    def test_each_rule(self) -> None:
        """The present epoch goes on where the options allow it; else one that is greater begins, or the start is refused."""
        self.begins("--epoch", "7", epoch=7)
        self.goes_on(7)
        self.goes_on(7, "--epoch", "7")
        self.goes_on(7, "--epoch-above", "6")
        self.has_none(7, "--epoch", "6")
        self.has_none(7, "--epoch", "7", "--new-epoch")
        self.begins("--epoch", "9", epoch=9)
        self.has_none(9, "--epoch", "7")
        self.begins("--new-epoch", "--epoch", "12", epoch=12)
        self.goes_on(12)

    def test_by_the_clock(self) -> None:
        """A new epoch is the clock's milliseconds, or the nearest that is allowed."""
        self.begins()
        clock = max(int(name.split("-")[1].split(".")[0]) for name in self.held())
        self.goes_on(clock, "--epoch-above", "1")
        self.begins("--new-epoch")
        self.begins("--epoch-above", str(MOST - 4), epoch=MOST - 3)
        self.goes_on(MOST - 3)
        self.goes_on(MOST - 3, "--epoch-above", "9")
        self.begins("--new-epoch", epoch=MOST - 2)
        self.begins("--new-epoch", "--epoch-above", "9", epoch=MOST - 1)
        self.begins("--epoch-above", str(MOST - 1), epoch=MOST)
        self.has_none(MOST, "--new-epoch")
        self.has_none(MOST, "--epoch", str(clock))

    def test_leftovers(self) -> None:
        """What a crash left of a new account is overwritten, and other names are passed over."""
        self.begins("--epoch", "7", epoch=7)
        others = ("epoch-09.account", "epoch-9.account.old", "epoch-.account", "epoch-x.account", "account")
        for name in others:
            (self.store / name).write_bytes(b"of nobody")
        (self.store / "unready.account").write_bytes(b"journal 1 epoch 8 opened 12\n")
        self.goes_on(7)
        self.check_equal("a start that goes on", (self.store / "unready.account").read_bytes(), b"journal 1 epoch 8 opened 12\n")
        with self.host("--epoch", "8") as host:
            self.check_equal("its start", host.start, Start(8, None))
        self.check("its file", not (self.store / "unready.account").exists(), "it is still unready")
        self.check_equal("others", {(self.store / name).read_bytes() for name in others}, {b"of nobody"})


class Files(StoreCase):
    """Which files and folders are refused."""

    def test_bad_files(self) -> None:
        """A file that is no account is told by its path and the reason, and stays as it is."""
        file = account_file(self.store, 7)
        self.store.mkdir()
        for number, (reason, held) in enumerate(BAD):
            file.write_bytes(held)
            name = f"{number}, {held[:60]!r}"
            self.check_equal(name, self.refused(), f"{file}: {reason}\n")
            self.check_equal(f"{name}: files", self.held(), {file.name: held})

    def test_a_bad_file_that_is_not_present(self) -> None:
        """Only the greatest epoch's file is read."""
        self.store.mkdir()
        account_file(self.store, 7).write_bytes(b"none")
        with self.host("--epoch", "8") as host:
            self.check_equal("its start", host.start, Start(8, None))
            host.start_again()
            self.check_equal("its next start", host.start, Start(8, 0))
        self.check_equal("the other", account_file(self.store, 7).read_bytes(), b"none")

    def test_a_torn_line(self) -> None:
        """What stands behind the last whole line is cleared, and the next lines come in its place."""
        file, torn = account_file(self.store, 7), b'0 - {"client":1,"incar'
        self.store.mkdir()
        file.write_bytes(FORMAT + HEAD_OF_7 + torn + bytes(8) + b"lost\n" + ROOM)
        with self.host() as host:
            self.check_equal("its start", host.start, Start(7, 0))
            size = len(FORMAT + HEAD_OF_7)
            self.check_equal("its bytes", file.read_bytes()[size:size + 100], bytes(100))
            host.greeted(1).close()
            host.judged({}, [])

    def test_no_folder(self) -> None:
        """A folder whose parent isn't there, a file in its place, and a folder in place of a file."""
        self.store = self.folder / "lacking" / "store"
        self.told_of(self.store, "a parent that isn't there")
        self.check("nothing is made", not self.store.parent.exists(), "a parent is made")
        self.store = self.folder / "file"
        self.store.write_bytes(b"of somebody")
        self.told_of(self.store, "a file in its place")
        self.check_equal("the file", self.store.read_bytes(), b"of somebody")
        self.store = self.folder / "store"
        account_file(self.store, 7).mkdir(parents=True)
        self.told_of(self.store, "a folder in place of a file")

    def test_a_folder_that_is_only_read(self) -> None:
        """A folder in which nothing may be made."""
        if os.geteuid() == 0:
            raise unittest.SkipTest(left_out.reason("a store's folder that is only read", "another user than root"))
        self.store.mkdir(mode=0o500)
        self.told_of(self.store, "it is only read")
        self.check_equal("its files", list(self.store.iterdir()), [])

    def told_of(self, path: pathlib.Path, name: str) -> None:
        """A start is refused by a line that begins with this path."""
        told = self.refused()
        self.check(name, told.startswith(str(path)) and told.count("\n") == 1, f"it says {told!r}")


class Disks(StoreCase):
    """A disk that takes no more."""

    def fill(self, host: StoreHost, asked: Asked, told: Told) -> None:
        """A client puts one item after another, as long as the host answers."""
        with contextlib.suppress(ConnectionError), host.connect() as peer:
            keys = [Key(7, 1, 1, number) for number in range(1 + len(told), 1 + ITEMS)]
            asked.update((key, give("put", ITEM)) for key in keys)
            for key in keys:
                peer.send(frame(request(key, asked[key])))
                got = peer.hear()
                if got is None:
                    break
                demand(got == replied(key, reply="done"), f"{key} was answered {got!r}")
                told.append((key, {"reply": "done"}))

    def judge(self, host: StoreHost, why: str, asked: Asked, told: Told) -> None:
        """It has ended by this line. The next start, with nothing in its way, goes on behind all that was answered."""
        status, last = host.status(), host.said.decode().splitlines()[-1]
        line = f"rv host ends: {host.file}: a write to the device failed after 0 bytes: {why}"
        self.check("its end", status == 1 and line in last, f"status {status}, and it says {last!r}")
        self.check("it was answered", 0 < len(told) < ITEMS, f"{len(told)} of {ITEMS} were")
        with self.host() as after, after.connect() as peer:
            key = told[-1][0]
            self.check("it goes on", len(told) < (after.start.entries or 0) <= len(told) + 2, after.start)
            for number in (key.number + 1, key.number + 2):
                key = Key(7, 1, 1, number)
                peer.expect(request(key, asked[key]), replied(key, reply="done"))
                told.append((key, {"reply": "done"}))
            after.judged(asked, told)

    def test_a_bound_of_files(self) -> None:
        """Under `ulimit -f` a host ends by a line once its account would be longer. Without the bound it goes on."""
        asked: Asked = {}
        told: Told = []
        self.store.mkdir()
        account_file(self.store, 7).write_bytes(FORMAT + HEAD_OF_7 + ROOM)
        with self.host(preexec_fn=lambda: bounded(FULL)) as host:
            host.greeted(1).close()
            self.fill(host, asked, told)
            self.judge(host, "File too large", asked, told)

    def test_a_full_disk(self) -> None:
        """A disk that takes a piece of the next lines, or stores none of them, ends a host by a line."""
        whole = "No space left on device"
        for name, numbers, why in (("no byte", {"disk": 1}, whole), ("some bytes", {"disk": 30}, whole),
                                   ("some lines", {"disk": 2_000}, whole), ("nothing stored", {"unstored": 1}, "Input/output error")):
            system = System()
            asked: Asked = {}
            told: Told = []
            self.store = self.folder / name
            with self.subTest(name), self.host("--epoch", "7", env=system.env) as host:
                with host.greeted(1) as peer:
                    key = Key(7, 1, 1, 1)
                    asked[key] = give("put", ITEM)
                    peer.expect(request(key, asked[key]), replied(key, reply="done"))
                    told.append((key, {"reply": "done"}))
                system.be(**numbers)
                self.fill(host, asked, told)
                self.judge(host, why, asked, told)

    def test_no_room_to_begin(self) -> None:
        """Under a bound below a new journal's length no account is begun, and the folder is named."""
        told = self.refused("--epoch", "7", preexec_fn=lambda: bounded(FIRST - 1))
        self.check("it is told", told.startswith(str(self.store)), told)
        self.check("no account", not account_file(self.store, 7).exists(), "there is an account")
        with self.host("--epoch", "7", preexec_fn=lambda: bounded(FIRST)) as host:
            self.check_equal("with room for it", host.start, Start(7, None))


class Opened(StoreCase):
    """A store of each version of the format opens for ever."""

    def setUp(self) -> None:
        super().setUp()
        self.asked: Asked = {}
        self.heard: Told = []

    def expect(self, peer: Peer, key: Key, reply: Members) -> None:
        """A request is answered by this reply."""
        peer.expect(request(key, self.asked[key]), replied(key, **reply))
        self.heard.append((key, reply))

    def test_version_1(self) -> None:
        """Its epoch goes on: sessions, last replies and items are there, and those who wait are met, or timed out."""
        shutil.copytree(FIRST_STORE, self.store)
        account = read_account(text_of(account_file(self.store, 7).read_bytes()).removeprefix(FORMAT))
        self.asked |= {entry.act.key: call_members(entry.act.call) for entry in account.entries if isinstance(entry.act, Request)}
        others = account_file(self.store, 5).read_bytes()
        with self.host() as host, host.connect() as peer:
            self.check_equal("its start", host.start, Start(7, ENTRIES))
            for client, incarnation, version in SESSIONS:
                peer.expect(hello(client, incarnation, version), welcome(client, 7, incarnation, version))
            peer.expect(hello(13), refused(4, current=9))
            for line in map(members_of, FIRST_RECORD.read_bytes().splitlines()):
                demand(reply_of(line["asked"]) == self.asked[key_of(line["asked"])], f"the record and the account differ: {line}")
                self.expect(peer, key_of(line["told"]), reply_of(line["told"]))
            peer.expect(hello(OTHER), welcome(OTHER, 7))
            for number, (call, reply) in enumerate(ASKED, 1):
                key = Key(7, OTHER, 1, number)
                self.asked[key] = call
                self.expect(peer, key, reply)
            for client, reply in WAITED.items():
                self.expect(peer, Key(7, client, 1, 1), reply)
            host.judged(self.asked, self.heard)
        self.check_equal("the epoch before it", account_file(self.store, 5).read_bytes(), others)

    def test_version_1_verified(self) -> None:
        """`rv verify` finds it legal, and each reply of the record in it."""
        count = FIRST_RECORD.read_bytes().count(b"\n")
        found = [f"{number} kept" for number in range(1, count + 1)]
        got = ran(self.program, "verify", str(FIRST_STORE), "--replies", str(FIRST_RECORD))
        wanted = joined(["legal", *found, *counted(count)])
        self.check_equal("what it prints", (got.stdout, got.stderr, got.returncode), (wanted, "", 0))


def load_tests(loader: unittest.TestLoader, _: unittest.TestSuite, __: str | None) -> unittest.TestSuite:
    """The cases, some at a time, within systems."""
    classes: list[type[Case]] = [Locks, Epochs, Files, Disks, Opened]
    return InSystems([SideBySide([case for one in classes for case in loader.loadTestsFromTestCase(one)])])
