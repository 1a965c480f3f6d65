"""`rv compact` makes a checkpoint of a store's account, which a host may keep meanwhile, and a start goes on from it."""
from __future__ import annotations

import dataclasses
import fcntl
import functools
import os
import pathlib
import random
import signal
import subprocess
import threading
import unittest

from tests.cases import Case, SideBySide
from tests.faults import preload
from tests.faults.system import InSystems
from tests.host.files import bounded
from tests.host.power_cuts import LIBRARY, SOURCE, Disk
from tests.host.stored import KilledHost, StoreCase, StoreHost
from tests.host.stores import ANY, CLIENTS, EPOCH, Talk, under_kills
from tests.journal.store import FORMAT, ROOM, text_of
from tests.model import lines
from tests.model.account import Account, Key
from tests.model.checkpoints import checkpoint_text
from tests.model.state_after import state_of
from tests.sockets.hosts import Start, account_file
from tests.sockets.ledger import Asked, Ledger, Told
from tests.sockets.wire import PATIENCE, cancel, demand, frame, give, hello, replied, request, swap, take, welcome

# How many requests are asked, and once in how many a checkpoint is made before one, or the host is killed.
REQUESTS, KILLED = 60, 6
# How often the power is cut, and how often `rv compact` asks something of the disk, or a little less.
CUTS, ASKS = 16, 9
# After how many requests checkpoints are laid beside an account, and how often one is spoilt.
SPOILT_AFTER, SPOILT = 20, 40
# The counts after findings on a record.
FINDINGS = ["kept", "kept, as a cancel tells it", "another reply", "another call", "no such request", "still waiting", "another epoch",
            "a reply that this call can't have", "no record", "differing", "repeating"]
# The file in which a checkpoint is written, until it is stored.
UNREADY = "unready.state"


class CheckpointCase(StoreCase):
    """A case with a store of which checkpoints are made."""

    def ran(self) -> subprocess.CompletedProcess[bytes]:
        """What `rv compact` of the store comes to."""
        return subprocess.run([self.program, "compact", str(self.store)], capture_output=True, timeout=PATIENCE)

    def states(self) -> list[pathlib.Path]:
        """The checkpoints in the store."""
        return sorted(self.store.glob("epoch-*.state"))

    def compacts(self, host: StoreHost) -> None:
        """A checkpoint is made of an account that stands still, and is the state that the account has by the model."""
        ran, account = self.ran(), account_of(host)
        count = len(account.entries)
        demand((ran.returncode, ran.stdout, ran.stderr) == (0, b"checkpoint after %d entries\n" % count, b""), f"rv compact: {ran}")
        demand([path.name for path in self.states()] == [f"epoch-{EPOCH}-{count}.state"], f"there is {self.states()}")
        got, wanted = self.states()[0].read_bytes(), checkpoint_text(state_of(account))
        demand(got == wanted, f"the checkpoint is {got!r}, not {wanted!r}")
        self.verified("the checkpoint that was made", [f"checkpoint {count} holds"])

    def verified(self, name: str, told: list[str], *options: str, status: int = 0) -> None:
        """`rv verify` of the store finds its account legal, and tells this after it."""
        ran = subprocess.run([self.program, "verify", str(self.store), *options], capture_output=True, timeout=PATIENCE, text=True)
        self.check_equal(name, (ran.returncode, ran.stdout, ran.stderr), (status, "".join(f"{line}\n" for line in ["legal", *told]), ""))


def account_of(host: StoreHost) -> Account:
    """The account of a host."""
    account: Account = lines.read_account(host.written())
    return account


class GoesOn(CheckpointCase):
    """What was before a checkpoint is there after the next start."""

    is_random = True

    def test_starts(self) -> None:
        """Checkpoints are made beside a host, and while it is down; each start goes on after all entries, as one without them does."""
        chance, made = random.Random(f"checkpoints {self.seed}"), 0
        with self.host(*ANY) as host:
            talk = Talk(host)
            for _ in range(self.fixture.many(REQUESTS)):
                if chance.randrange(KILLED) == 0:
                    made += 1
                    self.compacts(host)
                if chance.randrange(KILLED) == 0:
                    entries = len(account_of(host).entries)
                    host.start_again(functools.partial(self.compacts, host) if chance.randrange(2) else None)
                    demand(host.start == Start(EPOCH, entries), f"after {entries} entries it starts with {host.start}")
                    talk.repeat()
                talk.ask(chance.choice(CLIENTS), chance.choice(["put", "put", "take", "count"]))
            self.compacts(host)
            host.start_again()
            while talk.items:
                talk.ask(1, "take")
            host.judged(talk.asked, talk.told)
        self.told = f"{made} checkpoints"

    def test_what_waits(self) -> None:
        """What waited at a checkpoint is met after it, or cancelled."""
        keys = [Key(EPOCH, client, 1, 1) for client in range(1, 8)]
        wish, offer, half, ended, gift, want, other = keys
        asked: Asked = {wish: take("forever"), offer: give("transfer", "b", 86_400_000, 4), half: swap("c", "forever"),
                        ended: take("forever", 6), gift: give("put", "a"), want: take("now", 4), other: swap("d", 0)}
        told: Told = []
        with self.host(*ANY) as host:
            for key in (wish, offer, half, ended):
                with host.greeted(key.client) as peer:
                    peer.send(frame(request(key, asked[key])))
                    host.stands(key.client)
            self.compacts(host)
            host.start_again(functools.partial(self.compacts, host))
            with host.connect() as peer:
                for key, reply in ((gift, {"reply": "done"}), (want, {"reply": "item", "item": "b"}),
                                   (other, {"reply": "swapped", "item": "c"})):
                    peer.expect(hello(key.client), welcome(key.client, EPOCH))
                    peer.expect(request(key, asked[key]), replied(key, **reply))
                    told.append((key, reply))
                for key, reply in ((wish, {"reply": "item", "item": "a"}), (offer, {"reply": "received"}),
                                   (half, {"reply": "swapped", "item": "d"})):
                    peer.expect(request(key, asked[key]), replied(key, **reply))
                    told.append((key, reply))
                peer.expect(cancel(ended), replied(ended, reply="cancelled"))
                told.append((ended, {"reply": "cancelled"}))
            self.compacts(host)
            host.judged(asked, told)

    def test_entries_are_passed_over(self) -> None:
        """A start doesn't follow the entries before a checkpoint: it goes on though they can't be read. Without it, it is refused."""
        with self.host(*ANY) as host:
            for client in CLIENTS:
                host.greeted(client).close()
            self.compacts(host)
            file, entries = host.file, len(account_of(host).entries)
            host.greeted(4).close()
        held = file.read_bytes()
        head, first, rest = held.split(b"\n", 2)
        file.write_bytes(b"\n".join([head, b"x" * len(first), rest]))
        with self.host(*ANY) as host:
            self.check_equal("with the checkpoint", host.start, Start(EPOCH, entries + 1))
            with host.connect() as peer:
                peer.expect(hello(1), welcome(1, EPOCH))
        self.states()[0].unlink()
        told = self.refused(*ANY)
        self.check("without it", "no legal account" in told, told)

    def test_kills(self) -> None:
        """Each of a crowd has its reply to each request, while the host is killed, and a checkpoint made before each start."""
        chance, ledger = random.Random(f"crowd {self.seed}"), Ledger()
        with KilledHost(self.program, self.store, options=ANY) as host:
            kills = under_kills(host, ledger, chance, lambda is_last: self.compacts(host))
        self.told = f"{kills} kills"

    def test_cuts(self) -> None:
        """The power is cut somewhere in `rv compact`: the checkpoint before it is left, or the new one, or both, and each is whole.
        The next start goes on after all entries."""
        preload.built(SOURCE, LIBRARY)
        self.store.mkdir()
        chance, disk = random.Random(f"checkpoint cuts {self.seed}"), Disk(self.store, self.folder / "log")
        entries, lost, had = None, 0, False
        for number in range(self.fixture.many(CUTS)):
            with self.host(*ANY, env=disk.env) as host:
                demand(host.start == Start(EPOCH, entries), f"after cut {number} of {entries} entries it starts with {host.start}")
                host.greeted(1 + number).close()
                entries = len(account_of(host).entries)
            ran = subprocess.run([self.program, "compact", str(self.store)], env=disk.env_at(chance.randint(1, ASKS)),
                                 capture_output=True, timeout=PATIENCE)
            demand(ran.returncode in (0, -signal.SIGKILL), f"rv compact: {ran}")
            lost += disk.cut(chance)
            counts = sorted(int(path.stem.rpartition("-")[2]) for path in self.states())
            self.check("one is left", counts or not had, "there is none")
            had = had or bool(counts)
            self.verified(f"after cut {number}", [f"checkpoint {count} holds" for count in counts])
        self.told = f"{lost} cuts lost what was not stored"

    def test_beside(self) -> None:
        """Checkpoints are made one after another beside a host that is killed: each is made, and each start goes on."""
        chance, ledger, ends = random.Random(f"beside {self.seed}"), Ledger(), threading.Event()
        made: list[subprocess.CompletedProcess[bytes]] = []

        def make() -> None:
            while not ends.is_set():
                made.append(self.ran())

        with KilledHost(self.program, self.store, options=ANY) as host:
            maker = threading.Thread(target=make)
            maker.start()
            try:
                kills = under_kills(host, ledger, chance)
            finally:
                ends.set()
                maker.join()
        self.check("some are made", made)
        self.check_equal("each is made", [ran for ran in made if ran.returncode or ran.stderr], [])
        self.told = f"{kills} kills, {len(made)} checkpoints"


class Compared(CheckpointCase):
    """`rv verify` compares each checkpoint of the present account with what the entries before it give."""

    is_random = True

    def account(self, chance: random.Random) -> Account:
        """The account of a host that was asked many things."""
        with self.host(*ANY) as host:
            talk = Talk(host)
            for _ in range(SPOILT_AFTER):
                talk.ask(chance.choice(CLIENTS), chance.choice(["put", "put", "take", "count"]))
            return account_of(host)

    def lay(self, count: int, text: bytes, epoch: int = EPOCH) -> pathlib.Path:
        """A file that is named as a checkpoint after so many entries."""
        path = self.store / f"epoch-{epoch}-{count}.state"
        path.write_bytes(text)
        return path

    def test_each_front(self) -> None:
        """After any number of entries it is the model's state of those; that of one entry more or less differs, and so does one
        after more than there are. Those of other epochs aren't compared."""
        whole = self.account(random.Random(f"fronts {self.seed}"))
        size = len(whole.entries)
        texts = [checkpoint_text(state_of(dataclasses.replace(whole, entries=whole.entries[:count]))) for count in range(size + 1)]
        for count, text in enumerate(texts):
            self.lay(count, text)
        self.lay(3, texts[3], EPOCH - 1)
        self.lay(3, texts[3], EPOCH + 1)
        self.verified("each of them", [f"checkpoint {count} holds" for count in range(size + 1)])
        for count in range(size + 1):
            self.lay(count, texts[count - 1])
        self.lay(size + 1, texts[size])
        self.verified("each of the entries before", [f"checkpoint {count} differs" for count in range(size + 2)], status=1)

    def test_spoilt(self) -> None:
        """One whose bytes are others than the model's differs."""
        chance = random.Random(f"spoilt {self.seed}")
        whole = self.account(chance)
        size = len(whole.entries)
        text = checkpoint_text(state_of(whole))
        for _ in range(self.fixture.many(SPOILT)):
            bad = spoilt(chance, text)
            file = self.lay(size, bad)
            right = bad == text
            word = "holds" if right else "differs"
            self.verified(repr(bad), [f"checkpoint {size} {word}"], status=0 if right else 1)
        file.write_bytes(text)
        record = self.store / "record"
        record.write_bytes(b"")
        self.verified("beside a record", [*(f"{word} 0" for word in FINDINGS), f"checkpoint {size} holds"], "--replies", str(record))
        file.unlink()
        file.mkdir()
        ran = subprocess.run([self.program, "verify", str(self.store)], capture_output=True, timeout=PATIENCE, text=True)
        self.check_equal("a folder", (ran.returncode, ran.stdout, ran.stderr),
                         (1, "legal\n", f"account {file}: Is a directory (os error 21)\n"))

    def test_an_account_that_is_not_legal(self) -> None:
        """Its checkpoints before the fault hold, and those after it differ."""
        whole = self.account(random.Random(f"fault {self.seed}"))
        bad, size = len(whole.entries) - 2, len(whole.entries)
        for count in (bad, size):
            self.lay(count, checkpoint_text(state_of(dataclasses.replace(whole, entries=whole.entries[:count]))))
        account = account_file(self.store, EPOCH)
        held = text_of(account.read_bytes()).splitlines(keepends=True)
        held[bad + 1] = b"none\n"
        account.write_bytes(b"".join(held) + ROOM)
        ran = subprocess.run([self.program, "verify", str(self.store)], capture_output=True, timeout=PATIENCE, text=True)
        wanted = [f"bad line {bad + 2}", f"checkpoint {bad} holds", f"checkpoint {size} differs"]
        self.check_equal("what is told", (ran.returncode, ran.stdout.splitlines(), ran.stderr), (1, wanted, ""))


def spoilt(chance: random.Random, text: bytes) -> bytes:
    """The text with a byte more, less or another, a line twice, gone or before another, or cut off."""
    at, byte, held = chance.randrange(len(text)), bytes([chance.choice(b'0123456789 {}",:a\n\0')]), text.splitlines(keepends=True)
    line, other = chance.randrange(len(held)), chance.randrange(len(held))
    swapped = [*held]
    swapped[line], swapped[other] = held[other], held[line]
    return chance.choice([text[:at] + byte + text[at + 1:], text[:at] + byte + text[at:], text[:at] + text[at + 1:], text[:at],
                          b"".join([*held[:line], *held[line + 1:]]), b"".join([*held[:line], held[line], *held[line:]]),
                          b"".join(swapped)])


class Refused(CheckpointCase):
    """What can't be a checkpoint, and what none is made of."""

    def kept(self) -> int:
        """A store whose account has a few entries, and how many."""
        with self.host(*ANY) as host:
            for client in CLIENTS:
                host.greeted(client).close()
            return len(account_of(host).entries)

    def test_starts(self) -> None:
        """A checkpoint that isn't whole, is another's or is of more entries than there are: the start is refused by its name, and
        nothing changes."""
        count = self.kept()
        demand(self.ran().returncode == 0, "no checkpoint is made")
        file, = self.states()
        text = file.read_bytes()
        first, *rest = text.splitlines(keepends=True)
        bad = {"no bytes": b"", "no last line": b"".join([first, *rest[:-1]]), "a line twice": b"".join([first, rest[0], *rest]),
               "another epoch": text.replace(b"state 1 7 ", b"state 1 8 "), "another version": text.replace(b"state 1", b"state 2"),
               "another count": text.replace(b" %d\n" % count, b" %d\n" % (count + 1), 1), "zeros": text + bytes(8)}
        for name, other in bad.items():
            file.write_bytes(other)
            self.told_of(file, name, "no checkpoint")
        file.write_bytes(text)
        more = file.with_name(f"epoch-{EPOCH}-{count + 1}.state")
        file.rename(more)
        self.told_of(more, "another name", "no checkpoint")
        more.rename(file)
        account = account_file(self.store, EPOCH)
        whole = text_of(account.read_bytes()).splitlines(keepends=True)
        account.write_bytes(b"".join(whole[:-1]) + ROOM)
        self.told_of(account, "fewer entries", "fewer entries than a .state file of it, which is no checkpoint of it")
        # an epoch that begins needs none of it
        file.write_bytes(b"")
        with self.host("--new-epoch") as host:
            self.check("another epoch begins", host.start.epoch > EPOCH and host.start.entries is None, host.start)

    def test_an_epoch_that_begins_again(self) -> None:
        """The account of an epoch was taken away: it begins anew, and the checkpoint of the one that was there goes."""
        self.kept()
        demand(self.ran().returncode == 0, "no checkpoint is made")
        account_file(self.store, EPOCH).unlink()
        with self.host(*ANY) as host:
            self.check_equal("it begins", host.start, Start(EPOCH, None))
            self.check_equal("no checkpoint is left", self.states(), [])
            host.greeted(9).close()
            host.start_again()
            self.check_equal("it goes on", host.start, Start(EPOCH, 1))

    def test_a_full_disk(self) -> None:
        """What a checkpoint took of a disk that is full is given back, and the one before stays."""
        self.kept()
        demand(self.ran().returncode == 0, "no checkpoint is made")
        held = self.held()
        ran = subprocess.run([self.program, "compact", str(self.store)], capture_output=True, timeout=PATIENCE,
                             preexec_fn=lambda: bounded(64), restore_signals=False)
        self.check("it is told", ran.returncode == 1 and ran.stderr.startswith(f"store {self.states()[0]}: ".encode()), ran)
        self.check_equal("files", self.held(), held)

    def told_of(self, path: pathlib.Path, name: str, why: str) -> None:
        """A start is refused by this line."""
        held = self.held()
        self.check_equal(name, self.refused(*ANY), f"{path}: {why}\n")
        self.check_equal(f"{name}: files", self.held(), held)

    def test_checkpoints(self) -> None:
        """None is made of no store, no account, an account that isn't legal or of another format, or while another one is made."""
        self.makes_none("no folder", self.store, "No such file or directory (os error 2)")
        self.store.mkdir()
        self.makes_none("no account", self.store, "no epoch has an account")
        account = account_file(self.store, EPOCH)
        for name, text, why in [("another version", b"journal 2 epoch 7 opened 0\n", "journal version 2; version 1 is read"),
                                ("no line", FORMAT + b"epoch 7", "the journal has no whole line"),
                                ("no journal", b"epoch 7 opened 0\n", "no journal"),
                                ("no entry", FORMAT + b"epoch 7 opened 0\nnone\n", "no legal account: rv verify tells where")]:
            account.write_bytes(text + ROOM)
            self.makes_none(name, account, why)
        account.write_bytes(FORMAT + b"epoch 7 opened 0\n" + ROOM)
        other = os.open(self.store, os.O_RDONLY)
        try:
            fcntl.flock(other, fcntl.LOCK_EX)
            self.makes_none("another one", self.store, "another rv compact has it")
        finally:
            os.close(other)

    def makes_none(self, name: str, path: pathlib.Path, why: str) -> None:
        """No checkpoint is made, by this line."""
        ran = self.ran()
        self.check_equal(name, (ran.returncode, ran.stdout, ran.stderr.decode()), (1, b"", f"store {path}: {why}\n"))
        self.check_equal(f"{name}: checkpoints", self.states(), [])

    def test_leftovers(self) -> None:
        """What a killed one left is written over, and a checkpoint of an epoch before goes."""
        count = self.kept()
        (self.store / UNREADY).write_bytes(b"left\n" * 1_000)
        (self.store / f"epoch-{EPOCH - 1}-99.state").write_bytes(b"of an epoch before")
        with self.host(*ANY) as host:
            self.compacts(host)
            self.check("nothing is left", not (self.store / UNREADY).exists(), "it is there")
            host.start_again()
            self.check_equal("its start", host.start, Start(EPOCH, count))


def load_tests(loader: unittest.TestLoader, _: unittest.TestSuite, __: str | None) -> unittest.TestSuite:
    """The cases, some at a time, within systems."""
    classes: list[type[Case]] = [GoesOn, Compared, Refused]
    cases = [case for one in classes for case in loader.loadTestsFromTestCase(one)]
    return InSystems([SideBySide(cases)])
