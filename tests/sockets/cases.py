"""What comes of cases; and the doubles of the program, on which they are tested themselves."""
from __future__ import annotations

import os
import sys
import time
from collections.abc import Callable, Iterable, Iterator
from typing import Any, NoReturn, Tuple

from tests import ROOT, apart, interpreter
from tests.sockets.wire import PATIENCE, Wrong

DOUBLE = str(ROOT / "tests/sockets/double.sh")
# How many doubles are tried at once: most of them wait.
AT_ONCE = 8
# How long a client waits for a double that is wrong, in seconds: it may never answer, and whatever the case then finds, the
# double has failed it. One that is right gets the time of a slow machine.
SHORT = 30
# What is wrong in a case, if something is; what it gave, and the seconds that it took.
Came = Tuple[Any, object, float]
# What a double does wrong, or nothing, and the name of a case.
Tried = Tuple[str, str]
# What comes of a wrong and a name.
CameOfName = Callable[[str, str], Came]


def name_of(case: Callable[..., object]) -> str:
    """The words for a case: its module's and its own."""
    return f"{case.__module__.rpartition('.')[2]}, {case.__name__.replace('_', ' ')}"


def came_of(case: Callable[..., object], *given: Any) -> Came:
    """What came of a case."""
    began, fault, gave = time.monotonic(), None, None
    try:
        gave = case(*given)
    except TimeoutError:
        fault = f"nothing came for {PATIENCE} seconds"
    except Wrong as wrong:
        fault = str(wrong)
    except Exception as other:
        fault = f"{type(other).__name__}: {other}"
    return fault, gave, time.monotonic() - began


def came_of_double(wrong: str, case: Callable[..., object], *given: Any) -> Came:
    """The same where the program is the double, and does this wrong, or nothing."""
    os.environ["RV_WRONG"] = wrong
    return came_of(case, DOUBLE, *given)


def came_at_once(came_of_name: CameOfName, tried: list[Tried], patience: int = PATIENCE,
                 first_fault: str = "counts") -> Iterator[tuple[Tried, Came]]:
    """Each wrong and name with what came of it. Several are tried at once, from a process that reads anew how long they wait, and
    whether the first fault `ends` a case."""
    told = {"RV_PATIENCE": str(patience), "RV_FIRST_FAULT": first_fault, **interpreter.variables()}
    yield from zip(tried, apart.each(came_of_name, tried, AT_ONCE, told))


def double_faults(wrongs: Iterable[Tried], came_of_name: CameOfName, words: str = "") -> Iterator[tuple[str, object]]:
    """Each double that does a thing wrong must fail the case that is named beside it, and the one that does none must pass all of
    these: each with what is wrong with that, if something is. Of the wrong ones only those with these words are tried."""
    tried = [(wrong, name) for wrong, name in wrongs if words in f"{wrong}, {name}"]
    for (wrong, name), (fault, _, _) in came_at_once(came_of_name, tried, SHORT, "ends"):
        yield f"a server that {wrong}, {name}", None if fault else "it passes"
    right = [("", name) for name in dict.fromkeys(name for _, name in tried)]
    for (_, name), (fault, _, _) in came_at_once(came_of_name, right):
        yield f"the double, {name}", fault


class Count:
    """What passed and what failed, of the cases with some words in their name."""

    def __init__(self, only: str, verbose: bool):
        self.only, self.verbose, self.passed, self.failed = only, verbose, 0, 0

    def wants(self, name: str) -> bool:
        """Whether a case of this name is asked for."""
        return self.only in name

    def run(self, name: str, case: Callable[..., object], *given: object) -> None:
        """Runs a case, if it is asked for."""
        if self.wants(name):
            self.judge(name, *came_of(case, *given))

    def judge(self, name: str, fault: object, gave: object = None, seconds: float = 0) -> None:
        """Counts a case, and tells what came of it."""
        self.passed, self.failed = self.passed + (not fault), self.failed + bool(fault)
        if fault:
            print(f"FAILED: {name}: {fault}", flush=True)
        elif self.verbose or gave:
            many = f"{gave}, " if gave else ""
            print(f"ok: {name}: {many}{seconds:.1f} seconds", flush=True)

    def end(self) -> NoReturn:
        """Tells how many passed and failed, and ends."""
        print(f"{self.passed} passed, {self.failed} failed")
        sys.exit(self.failed > 0)
