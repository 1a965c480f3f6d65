"""A host that keeps a store, in a folder that stays when it ends, and can be killed and started anew at its address."""
from __future__ import annotations

import pathlib
import subprocess
import tempfile
from collections.abc import Callable
from typing import Any

from tests.cases import Case
from tests.faults.system import LossyPeer
from tests.sockets.hosts import Host, Start, StoreProgram
from tests.sockets.wire import PATIENCE, demand, until


class StoreHost(Host):
    """A host that keeps the store of a folder, which stays. Its epoch is that of its start."""

    def __init__(self, program: str, store: pathlib.Path, **more: Any):
        super().__init__(StoreProgram(program), None, store=store, **more)
        self.start = self.told_start()

    def start_again(self, between: Callable[[], object] | None = None) -> Start:
        self.start = super().start_again(between)
        return self.start

    def stands(self, count: int) -> None:
        """Waits until so many requests stand in its account."""
        until(f"{count} requests stand", lambda: self.written().count(b'"kind":"request"') == count)


class KilledHost(StoreHost):
    """One that is killed while clients talk to it."""

    peer, is_killed = LossyPeer, True


class StoreCase(Case):
    """A case with a folder of its own, in which a store may be made."""

    def setUp(self) -> None:
        self.folder = pathlib.Path(self.enterContext(tempfile.TemporaryDirectory(prefix="rv-store-")))
        self.store = self.folder / "store"

    def host(self, *options: str, **more: Any) -> StoreHost:
        """A host that keeps the store, with these options."""
        return StoreHost(self.program, self.store, options=options, **more)

    def refused(self, *options: str, **more: Any) -> str:
        """What a host says that can't start on the store: its status is 1, and it prints nothing."""
        words = [self.program, "host", "--listen", "127.0.0.1:0", "--store", str(self.store), *options]
        ran = subprocess.run(words, capture_output=True, text=True, timeout=PATIENCE, **more)
        demand((ran.returncode, ran.stdout) == (1, ""), f"a start that has to be refused: {ran}")
        return ran.stderr

    def held(self) -> dict[str, bytes]:
        """The bytes of each file in the store but its lock."""
        return {path.name: path.read_bytes() for path in self.store.iterdir() if path.name != "lock"}
