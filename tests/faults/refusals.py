"""Runs tests in Rattle, as they are proved and built, with each growth of memory refused in turn: the first one alone, then
the second one, and so on, until there is none left. Each has to pass each time. What the program does then is seen by
`faults.growths` and `faults.torture`.

Those are the tests in HOLD, which give again what a refused growth stopped; all others fail where what they are made of
finds no memory. A test in HOLD that asks for no memory has failed too: it would show nothing. With nothing refused, the
two tests of each pair in ALIKE have to ask for as many growths as each other.

The tests are run as they lie in out/, where `rt ci` and `rt test` put them.
"""
from __future__ import annotations

import os
import pathlib
import shutil
import struct
import subprocess
import tempfile
from concurrent.futures import ThreadPoolExecutor
from typing import NamedTuple

from tests import ROOT
from tests.cases import Case
from tests.faults.preload import built, switches

# By crate, the tests that hold whichever growth is refused.
HOLD = {"rv_tests": ["frames::a_refused_growth_changes_nothing"]}
# By crate, tests that ask for as many growths as each other: what the second does beside the first takes no memory.
ALIKE = {"rv_tests": [("deadlines::forty_are_added", "deadlines::forty_are_added_twice")]}
# A test has so many seconds.
LIMIT = 60


class Run(NamedTuple):
    """What came of a run: whether it passed, what it said where it did not, how many growths it asked for, and whether one was
    refused."""

    passed: bool
    said: str
    asked: int
    is_refused: bool


class Tests:
    """The tests of a crate, and a folder for what is told of their runs."""

    def __init__(self, crate: str, folder: pathlib.Path) -> None:
        self.crate, self.folder = crate, folder
        self.program = ROOT / "crates" / crate / "out" / f"{crate}_tests"

    def run(self, name: str, growth: int = 0) -> Run:
        """Runs a test with one growth refused, or with none."""
        room = self.folder / f"{self.crate}-{name.replace('::', '-')}-{growth}"
        room.mkdir()
        told = switches(growth=growth, counted=room / "counted", refused=room / "refused")
        try:
            ran = subprocess.run([self.program, name], capture_output=True, cwd=room, timeout=LIMIT, env=told)
            passed, said = ran.returncode == 0, ran.stderr.decode(errors="replace").strip()
        except subprocess.TimeoutExpired:
            passed, said = False, f"it had not ended after {LIMIT} seconds"
        asked, = struct.unpack("l", (room / "counted").read_bytes())
        is_refused = (room / "refused").exists()
        shutil.rmtree(room)
        return Run(passed, said, asked, is_refused)


class Refusals(Case):
    """Built tests in Rattle with growths refused: each run is a check."""

    def setUp(self) -> None:
        built()
        self.folder = pathlib.Path(self.enterContext(tempfile.TemporaryDirectory(prefix="refusals-")))

    def built_tests(self, crate: str) -> Tests:
        """The built tests of a crate."""
        tests = Tests(crate, self.folder)
        self.assertTrue(tests.program.exists(), f"{crate} has no built tests: rt ci makes them, and rt test")
        return tests

    def refuse_each(self, tests: Tests, name: str) -> None:
        """Runs a test with each growth refused and with none."""
        ample = tests.run(name)
        self.assertTrue(ample.passed and ample.asked, f"{tests.crate} {name}: {ample.said or 'it asks for no memory'}")
        # The run behind the last growth has none to refuse.
        growths = range(1, ample.asked + 2)
        with ThreadPoolExecutor(len(os.sched_getaffinity(0))) as pool:
            for growth, ran in zip(growths, pool.map(lambda growth: tests.run(name, growth), growths)):
                with self.subTest(f"{tests.crate} {name}, growth {growth} of {ample.asked}"):
                    self.assertTrue(ran.passed, ran.said)
                    self.assertEqual(ran.is_refused, growth <= ample.asked)

    def test_each_growth(self) -> None:
        """Tests that hold whichever growth is refused."""
        for crate, held in HOLD.items():
            for name in held:
                self.refuse_each(self.built_tests(crate), name)

    def test_growths_alike(self) -> None:
        """Tests that ask for as many growths as each other, and for some."""
        for crate, pairs in ALIKE.items():
            for one, other in pairs:
                with self.subTest(f"{crate} {one}, {other}"):
                    first, second = (self.built_tests(crate).run(name).asked for name in (one, other))
                    self.assertEqual(first, second)
                    self.assertTrue(first, "they ask for no memory")
