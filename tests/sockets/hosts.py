"""The host's process: `rv host` on a port of this machine, which stays until it is killed, with its account in a file, or its
store in a folder."""
from __future__ import annotations

import pathlib
import random
import re
import subprocess
import tempfile
import threading
import time
from collections.abc import Callable
from typing import Any, NamedTuple

from tests.journal.store import FORMAT, text_of
from tests.model.account import Account
from tests.sockets.accounts import read_account
from tests.sockets.programs import TRIES, Process, Served, Server
from tests.sockets.wire import PATIENCE, Peer, Wrong, demand, until

# The longest line that a host says of itself.
LONGEST_LINE = 4_096
# The seconds from a start to the next kill, where a host is killed again and again.
PAUSES = (0.01, 0.05, 0.2, 0.5)
# The line by which it tells with which account of a store it starts.
STORE = re.compile(rb"store: (.+)/epoch-(\d+)\.account (?:goes on after (\d+) entries|begins(?:: (.+))?)\n")


class HostProgram(str):
    """The path of the program, where its servers are to be `rv host`."""


class StoreProgram(HostProgram):
    """The same, where each of them keeps a store, and no account."""


class Start(NamedTuple):
    """With which epoch a host starts on a store, and after how many entries its account goes on: None where it begins, by its own
    choice or for a reason that it tells."""

    epoch: int
    entries: int | None
    why: str | None = None


class Host(Served):
    """A host. It ends by a kill alone, once it rests; its account is what it has written until then. One that keeps a store can
    be killed and started anew at its address."""

    port_is_taken = b": address in use"
    # Whether it is killed while clients talk to it: then who finds nobody at its address tries again.
    is_killed = False

    def __init__(self, program: str, epoch: int | None = 1, *, options: tuple[str, ...] = (), keeps: bool = True,
                 store: pathlib.Path | None = None, port: int | None = None, **more: Any):
        """`options` stand behind `--listen`, `--epoch`, which is left out where it is None, and `--account`, whose file goes with
        the host, and which is left out where it keeps none; of a StoreProgram behind `--store`, whose folder goes with the host
        too, unless it is given. Of a host that chooses its epoch this isn't known."""
        self.folder = tempfile.TemporaryDirectory(prefix="rv-host-")
        self.account = pathlib.Path(self.folder.name, "account")
        self.store = (store or pathlib.Path(self.folder.name, "store")) if isinstance(program, StoreProgram) else None
        self.options, self.has_account, self.has_epoch, self.more = options, keeps, epoch is not None, more
        super().__init__(program, epoch or 0, port, **more)

    def command(self) -> list[str]:
        epoch = ["--epoch", str(self.epoch)] if self.has_epoch else []
        return ["host", "--listen", f"127.0.0.1:{self.port}", *epoch, *self.words_of_account(), *self.options]

    def words_of_account(self) -> list[str]:
        """Where it keeps what it answers."""
        if self.store is not None:
            return ["--store", str(self.store)]
        self.account.unlink(missing_ok=True)
        return ["--account", str(self.account)] if self.has_account else []

    def __exit__(self, *_: object) -> None:
        super().__exit__()
        self.folder.cleanup()

    @property
    def file(self) -> pathlib.Path:
        """The file of its account."""
        return self.account if self.store is None else account_file(self.store, self.epoch)

    def written(self) -> bytes:
        held = self.file.read_bytes()
        return held if self.store is None else text_of(held).removeprefix(FORMAT)

    def counted(self) -> int:
        """How many bytes its status counts of its account: of a store with the format's name."""
        return len(self.written()) + (0 if self.store is None else len(FORMAT))

    def keeps(self, record: bytes) -> None:
        if self.store is None:
            return super().keeps(record)
        replies = pathlib.Path(self.folder.name, "replies")
        replies.write_bytes(record)
        words = [self.program, "verify", str(self.store), "--replies", str(replies)]
        ran = subprocess.run(words, capture_output=True, timeout=4 * PATIENCE)
        demand((ran.returncode, ran.stderr) == (0, b""), f"rv verify says {ran.stdout[-2_000:]!r} and {ran.stderr!r}")

    def told_start(self) -> Start:
        """With what it starts on its store, once it has told so. It may have ended since then."""
        until("a host tells its store, or ends", lambda: STORE.search(self.said) or not self.runs())
        if not self.runs():
            self.status()
        found = STORE.search(self.said)
        if self.store is None or found is None or found[1] != bytes(self.store):
            raise Wrong(f"a host that is to keep {self.store} says {self.said!r}")
        self.epoch = int(found[2])
        return Start(self.epoch, int(found[3]) if found[3] else None, found[4].decode() if found[4] else None)

    def start_again(self, between: Callable[[], object] | None = None) -> Start:
        """Kills it, if it runs, and starts it anew on its store and at its address, after what is done between. With what it
        starts."""
        self.kill()
        if between:
            between()
        for _ in range(TRIES):
            Process.__init__(self, [self.program, *self.command()], **self.more)
            if not self.taken():
                break
            # somebody looked whether the port is free
            self.kill()
        return self.told_start()

    def connect(self, receive: int | None = None) -> Peer:
        ends = time.monotonic() + PATIENCE
        while True:
            try:
                return super().connect(receive)
            except ConnectionError:
                if not self.is_killed:
                    raise
                demand(time.monotonic() < ends, f"nobody listened for {PATIENCE} seconds")
                time.sleep(0.005)

    def use_up(self) -> None:
        """It has no last connection: behind all others it serves one more, and says nothing where nothing is asked."""
        with self.connect() as peer:
            peer.end()
            peer.expect_end()

    def halt(self, patience: float = PATIENCE) -> None:
        """Kills it once it does nothing more: until then it must have run, and have said lines of no more than their length."""
        until("the host rests, or ends", lambda: self.rests() or not self.runs(), patience)
        demand(self.runs(), f"the host ended by itself and said {self.said!r}")
        self.kill()
        longest = max(map(len, self.said.split(b"\n")))
        demand(longest < LONGEST_LINE, f"the host said a line of {longest} bytes")

    def ended(self, patience: float = PATIENCE) -> Account:
        """Its account. A store that is opened anew then goes on after all of it."""
        self.halt(patience)
        account = read_account(self.written())
        demand(account.epoch == self.epoch and (account.opened == 0 or self.store), "the account's first line is another")
        if self.store is not None:
            with Host(self.program, None, store=self.store) as again:
                start = again.told_start()
            wanted = Start(self.epoch, len(account.entries))
            demand(start == wanted, f"opened anew it starts with {start}, not {wanted}")
        return account


def account_file(store: pathlib.Path, epoch: int) -> pathlib.Path:
    """The file of an epoch's account in a store."""
    return store / f"epoch-{epoch}.account"


def kills(server: Served, chance: random.Random) -> list[Callable[[threading.Event], None]]:
    """What goes on beside the clients of a host that keeps a store: until they are done, and once at all events, it is killed at
    random, and started anew. Beside those of another server nothing does."""
    if not isinstance(server, Host) or server.store is None:
        return []
    host = server
    host.is_killed = True

    def kill(done: threading.Event) -> None:
        is_over = False
        while not is_over:
            is_over = done.wait(chance.choice(PAUSES))
            host.start_again()

    return [kill]


def serving(program: str, workers: int, connections: int, epoch: int = 1, **more: Any) -> Served:
    """A server of the program: `rv serve` of so many workers and connections; or, of a HostProgram, `rv host`, which needs no
    such numbers."""
    if isinstance(program, HostProgram):
        return Host(program, epoch, **more)
    return Server(program, workers, connections, epoch, **more)
