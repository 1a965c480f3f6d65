"""A result that counts checks, and tells each that fails."""
from __future__ import annotations

import collections
import threading
import time
import traceback
import unittest
from types import TracebackType
from typing import Tuple, Type, Union

from tests import left_out
from tests.names import readable

Raised = Union[Tuple[Type[BaseException], BaseException, TracebackType], Tuple[None, None, None]]
# So much is told of a check that fails, and of what a case did.
LONGEST, LONGEST_TOLD = 4_000, 600


class Result(unittest.TestResult):
    """What passed and what failed, in checks: each `subTest` of a case is one, and so is a case that has none. Cases may run in
    several threads."""

    def __init__(self, verbose: bool) -> None:
        super().__init__()
        self.verbose, self.passed, self.failed = verbose, 0, 0
        self.left_out: list[str] = []
        self.lock = threading.Lock()
        # By the identity of a case: its checks so far, and when it began.
        self.checks: collections.Counter[str] = collections.Counter()
        self.began: dict[str, float] = {}

    def startTest(self, test: unittest.TestCase) -> None:
        super().startTest(test)
        self.checks[test.id()], self.began[test.id()] = 0, time.monotonic()

    def addSubTest(self, test: unittest.TestCase, subtest: unittest.TestCase, err: Raised | None) -> None:
        self.checks[test.id()] += 1
        own = subtest.id().removeprefix(test.id()).strip().removeprefix("[").removesuffix("]")
        self.count(f"{readable(test.id())}, {own}", err)

    def addSuccess(self, test: unittest.TestCase) -> None:
        name, told = readable(test.id()), str(getattr(test, "told", None) or "")[:LONGEST_TOLD]
        if self.checks[test.id()]:
            print(f"{name}: {told}\n" if told else "", end="", flush=True)
        else:
            self.count(name, None, f"{told}, " if told else "", time.monotonic() - self.began[test.id()])

    def addFailure(self, test: unittest.TestCase, err: Raised) -> None:
        self.count(self.name_of(test), err)

    addError = addFailure

    def addSkip(self, test: unittest.TestCase, reason: str) -> None:
        with self.lock:
            line = f"left out: {reason}"
            heard = left_out.heard(line) or f"{self.name_of(test)} ({reason})"
            if heard not in self.left_out:
                print(line, flush=True)
            self.left_out.append(heard)

    def wasSuccessful(self) -> bool:
        return self.failed == 0

    def count(self, name: str, err: Raised | None, told: str = "", seconds: float | None = None) -> None:
        """Counts a check, and tells it where it fails, or what it did where it tells that."""
        with self.lock:
            self.passed, self.failed = self.passed + (not err), self.failed + bool(err)
            if err:
                print(f"FAILED: {name}: {fault_of(err)}", flush=True)
            elif self.verbose or told:
                took = f": {told}{seconds:.1f} seconds" if seconds is not None else ""
                print(f"ok: {name}{took}", flush=True)

    @staticmethod
    def name_of(test: unittest.TestCase) -> str:
        """The words for a case, or for the class or module that could not begin."""
        return readable(test.id()) if isinstance(test, unittest.TestCase) else str(test)


def fault_of(err: Raised) -> str:
    """What is told of an exception: what it says where a test demands something, and else where it comes from."""
    kind, fault, _ = err
    if isinstance(fault, AssertionError) and str(fault):
        return str(fault)[:LONGEST]
    return "".join(traceback.format_exception(kind, fault, fault.__traceback__ if fault else None))[-LONGEST:]
