"""What cases are: methods of classes, functions that several programs are tried by, and groups of them that run side by side."""
from __future__ import annotations

import unittest
from collections.abc import Callable, Iterable
from concurrent.futures import ThreadPoolExecutor
from dataclasses import dataclass
from typing import Any, ClassVar

from tests import left_out
from tests.fixture import Fixture


class Case(unittest.TestCase):
    """A case in methods. Each `subTest` of a method is a check, and a method that has none is one check itself."""

    fixture: ClassVar[Fixture] = Fixture()
    # Whether it judges the tests themselves: it runs by --selftest alone.
    selftest: ClassVar[bool] = False
    # Whether it is another case with another seed.
    is_random: ClassVar[bool] = False
    maxDiff = 2_000
    # What it tells of how much it did.
    told: object = None

    @property
    def program(self) -> str:
        """The program's path."""
        return self.fixture.program

    @property
    def steps(self) -> str:
        """The path of the program for tests."""
        return self.fixture.steps

    @property
    def seed(self) -> int:
        """The seed of what is random."""
        return self.fixture.seed

    def check(self, name: str, holds: object, otherwise: object = "it isn't so") -> None:
        """A check that this holds."""
        with self.subTest(name):
            self.assertTrue(holds, otherwise)

    def check_equal(self, name: str, got: object, wanted: object) -> None:
        """A check that what came is what must."""
        with self.subTest(name):
            self.assertEqual(got, wanted)

    def check_fault(self, fault: object) -> None:
        """Fails with what is told to be wrong, if something is."""
        if fault:
            self.fail(str(fault))

    def check_faults(self, faults: Iterable[tuple[str, object]]) -> None:
        """Has a check for each name, which passes where nothing is told to be wrong."""
        for name, fault in faults:
            with self.subTest(name):
                self.check_fault(fault)


class SelfTest(Case):
    """A case that judges the tests themselves: what is wrong must fail."""

    selftest = True


@dataclass(frozen=True)
class Tool:
    """What is left out where a tool is missing, and what tells which is, if one is."""

    what: str
    missing: Callable[[], str | None]

    def demand(self) -> None:
        """Leaves out the case that asks for it, where the tool is missing."""
        why = self.missing()
        if why:
            raise unittest.SkipTest(left_out.reason(self.what, why))


class Scenario(unittest.TestCase):
    """A case that is a function of what it is given, such as a program: several programs can be tried by one function. It is named
    by the folder of who runs it, and by the function's module and name."""

    selftest = False

    def __init__(self, folder: str, function: Callable[..., object], *given: Any, tools: Iterable[Tool] = (),
                 is_random: bool = False) -> None:
        super().__init__("play")
        self.folder, self.function, self.given, self.is_random = folder, function, given, is_random
        self.tools = tuple(tools)
        # What the function gives, which tells how much it did.
        self.told: object = None

    def id(self) -> str:
        module = self.function.__module__.rpartition(".")[2]
        return f"tests.{self.folder}.{module}.{self.function.__name__}"

    def shortDescription(self) -> str | None:
        return (self.function.__doc__ or "").partition("\n")[0] or None

    def play(self) -> None:
        for tool in self.tools:
            tool.demand()
        self.told = self.function(*self.given)


class SideBySide(unittest.TestSuite):
    """Cases that mostly wait, and run some at a time. They share no fixture of a class."""

    at_once = 4

    def run(self, result: unittest.TestResult, debug: bool = False) -> unittest.TestResult:
        with ThreadPoolExecutor(self.at_once) as pool:
            for _ in pool.map(lambda case: case.run(result), self):
                pass
        return result
