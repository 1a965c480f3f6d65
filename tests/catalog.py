"""The modules that have cases, in the order in which they run, and the cases of those that are asked for."""
from __future__ import annotations

import functools
import importlib
import unittest
from collections.abc import Callable, Iterable, Iterator
from dataclasses import dataclass

from tests.names import PACKAGE, is_within, readable

MODULES = [
    "commands.book",
    "commands.play",
    "commands.calls",
    "commands.ends",
    "commands.shell",
    "commands.shell_lines",
    "commands.shell_sessions",
    "commands.bodies",
    "commands.rows",
    "commands.audits",
    "commands.verify",
    "commands.replies",
    "commands.fill",
    "commands.waits",
    "commands.steps",
    "commands.decoding",
    "journal.run",
    "journal.store",
    "journal.verified",
    "model.compare",
    "model.states",
    "model.hubs",
    "model.crashes",
    "faults.hub_growths",
    "sockets.serve",
    "host.run",
    "host.run_stores",
    "host.stores",
    "host.store_files",
    "host.checkpoints",
    "host.power_cuts",
    "host.unsynced",
    "faults.devices",
    "faults.growths",
    "faults.torture",
    "clients.run",
    "clients.wrong_clients",
    "package.run",
    "status.run",
    "website.run",
]
# Those that run where they are named alone, since they need more than the programs, or much time.
BY_NAME: list[str] = [
    "clients.by_hand",
    "host.by_hand",
    "status.staged",
    "faults.refusals",
]


def loaded(module: str) -> unittest.TestSuite:
    """The cases of a module."""
    return unittest.defaultTestLoader.loadTestsFromModule(importlib.import_module(f"{PACKAGE}{module}"))


def folder_of(name: str) -> str:
    """The folder of a module, or of a case."""
    return name.partition(".")[0]


def modules_of(names: Iterable[str]) -> list[str]:
    """The modules that may have what is named: all of its folder, or those that need their name. Without a name, all others."""
    names = list(names)
    folders = {folder_of(name) for name in names}
    alone = [module for module in BY_NAME if any(name.startswith(module) for name in names)]
    return [*(module for module in MODULES if not names or folder_of(module) in folders), *alone]


def chosen(suite: unittest.TestSuite, wants: Callable[[unittest.TestCase], bool]) -> unittest.TestSuite:
    """The cases of a suite that are wanted, grouped as there."""
    kept: list[unittest.TestSuite | unittest.TestCase] = []
    for part in suite:
        if isinstance(part, unittest.TestSuite):
            kept.append(chosen(part, wants))
        elif wants(part):
            kept.append(part)
    return type(suite)(kept)


@dataclass(frozen=True)
class Asked:
    """What is asked for: cases by name, all where there is none; by words in their names; and those that judge the tests, or others."""

    names: tuple[str, ...]
    only: str
    selftest: bool
    # Whether only what is another case with another seed is asked for.
    is_random: bool = False

    def wants(self, module: str, case: unittest.TestCase) -> bool:
        """Whether a case of a module is asked for."""
        identity = case.id()
        named = not self.names or module in self.names or any(is_within(identity, name) for name in self.names)
        kind = getattr(case, "selftest", False) == self.selftest and (not self.is_random or getattr(case, "is_random", False))
        return named and kind and self.only in readable(identity)

    def suites(self) -> Iterator[tuple[str, unittest.TestSuite]]:
        """The modules that have cases which are asked for, each with these."""
        for module in modules_of(self.names):
            suite = chosen(loaded(module), functools.partial(self.wants, module))
            if suite.countTestCases():
                yield module, suite
