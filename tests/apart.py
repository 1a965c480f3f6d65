"""Deeds that are done in processes of their own, some at once, all of them forked from one that has loaded what they need."""
from __future__ import annotations

import concurrent.futures
import contextlib
import importlib
import multiprocessing
import os
import signal
import tempfile
from collections.abc import Callable, Mapping, Sequence
from multiprocessing.connection import Connection, wait
from typing import Any, Generic, TypeVar, cast
from unittest import mock

Gives = TypeVar("Gives")


def each(deed: Callable[..., Gives], given: Sequence[tuple[Any, ...]], at_once: int, variables: Mapping[str, str],
         modules: Sequence[str] = ()) -> list[Gives]:
    """What a deed gives for each of these, so many at once. They are done from a process that loads all modules anew, and these too,
    where these variables are set."""
    spawns = multiprocessing.get_context("spawn")
    with mock.patch.dict(os.environ, variables), concurrent.futures.ProcessPoolExecutor(1, spawns) as pool:
        return pool.submit(each_forked, deed, given, at_once, modules).result()


def each_forked(deed: Callable[..., Gives], given: Sequence[tuple[Any, ...]], at_once: int, modules: Sequence[str]) -> list[Gives]:
    """The same, forked from this process."""
    for module in modules:
        importlib.import_module(module)
    gave: dict[int, Gives] = {}
    running: dict[int, Forked[Gives]] = {}
    try:
        for number, words in enumerate(given):
            running[number] = Forked(deed, words)
            is_last = number == len(given) - 1
            while len(running) == at_once or running and is_last:
                ready = wait([one.hears for one in running.values()])
                for told in [told for told, one in running.items() if one.hears in ready]:
                    gave[told] = running[told].told()
                    running.pop(told).end()
    finally:
        for one in running.values():
            one.end()
    return [gave[number] for number in range(len(given))]


class Forked(Generic[Gives]):
    """A deed in a process, behind which nothing that it started runs on, and no file that it made is left."""

    def __init__(self, deed: Callable[..., Gives], given: tuple[Any, ...]):
        forks = multiprocessing.get_context("fork")
        self.hears, tells = forks.Pipe(duplex=False)
        self.folder = tempfile.TemporaryDirectory(prefix="rv-try-", ignore_cleanup_errors=True)
        self.process = forks.Process(target=tell, args=(tells, self.folder.name, deed, given))
        self.process.start()
        tells.close()

    def told(self) -> Gives:
        """What it gave, or raised, once that is told."""
        gave, fault = self.hears.recv()
        if fault:
            raise fault
        return cast(Gives, gave)

    def end(self) -> None:
        """Ends it, and what it started."""
        assert self.process.pid
        with self.folder, self.hears, contextlib.suppress(ProcessLookupError):
            os.killpg(self.process.pid, signal.SIGKILL)
        # where it isn't in its group yet
        self.process.kill()
        self.process.join()


def tell(tells: Connection, folder: str, deed: Callable[..., object], given: tuple[Any, ...]) -> None:
    """Tells what a deed gives, or raises, in a group of processes whose files stand in a folder."""
    os.setpgid(0, 0)
    os.environ["TMPDIR"] = tempfile.tempdir = folder
    try:
        told: tuple[object, Exception | None] = deed(*given), None
    except Exception as fault:
        told = None, fault
    tells.send(told)
    signal.pause()
