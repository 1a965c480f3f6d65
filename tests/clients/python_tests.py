"""The Python client's own tests, as its own runner runs them: a process for each file of them, some at a time, and counted one
by one."""
from __future__ import annotations

import concurrent.futures
import os
import re
import pathlib
import subprocess
import sys
from collections.abc import Iterator

from tests import ROOT
from tests.cases import Case

TESTS = ROOT / "clients/python/tests"
PATIENCE = 1_800
# How many files are run at once: most of their tests wait.
AT_ONCE = 4
# A run of Python's own runner that prints the name of each test that passes.
RUN = """
import sys, unittest

class Telling(unittest.TextTestResult):
    def addSuccess(self, test):
        super().addSuccess(test)
        print("passed", test.id(), flush=True)

unittest.main(sys.argv[1], argv=sys.argv[:1], testRunner=unittest.TextTestRunner(resultclass=Telling, verbosity=2))
"""


def ran(file: pathlib.Path) -> subprocess.CompletedProcess[str]:
    """A run of all tests of a file."""
    environment = {**os.environ, "PYTHONDONTWRITEBYTECODE": "1"}
    return subprocess.run([sys.executable, "-c", RUN, file.stem], cwd=TESTS, capture_output=True, text=True, timeout=PATIENCE,
                          env=environment)


def what_failed(told: str) -> str:
    """What the runner says of tests that failed, behind what it says of each."""
    return told[max(0, told.find("\n" + "=" * 70 + "\n")):].lstrip("=\n")


class PythonTests(Case):
    """The tests of each file, each test a check."""

    def test_python_tests(self) -> None:
        """All of them pass, and none is skipped; the greatest file is begun first."""
        files = sorted(TESTS.glob("test_*.py"), key=lambda file: -file.stat().st_size)
        with concurrent.futures.ThreadPoolExecutor(AT_ONCE) as pool:
            for file, done in zip(files, pool.map(ran, files)):
                self.judge(file.name, done)

    def judge(self, name: str, done: subprocess.CompletedProcess[str]) -> None:
        """Checks what came of a file's tests."""
        passed = re.findall(r"^passed (\S+)$", done.stdout, re.M)
        for test in passed:
            with self.subTest(test):
                pass
        with self.subTest(f"all of {name}"):
            total = re.search(r"^Ran (\d+) tests? in", done.stderr, re.M)
            self.assertEqual(done.returncode, 0, what_failed(done.stderr)[-8_000:])
            self.assertEqual(total and int(total[1]), len(passed), f"some were skipped: {done.stderr[-2_000:]}")
            self.assertTrue(passed, "it has no test")
