"""Runs the built program where all is hostile to it: a server under crowds of clients whose system refuses growths,
breaks links, accepts nothing and stops it, or that has no room, no descriptors, no threads; and spoilt bodies, frames,
account lines and play lines by the ten thousand, each with what the model says of it.

Whatever happens, the account that a server prints must be legal and must have what each client was told.
"""
from __future__ import annotations

import unittest
from collections.abc import Callable
from typing import Any

from tests.cases import Case, Scenario, SelfTest, SideBySide
from tests.faults import callers, crowds, exchanges, limits, memory, mutants, silence, turns
from tests.faults.system import InSystems, systems
from tests.sockets.cases import Came, came_of_double, double_faults

# The cases that are as they are; those of them that mostly wait; those that are random, and those that have so many spoilt
# bodies.
ONCE = [*turns.CASES, *limits.CASES, *exchanges.CASES]
WAITING = silence.CASES
RANDOM = [*memory.CASES, *crowds.CASES, *callers.CASES]
SPOILT = [*mutants.CASES, *callers.SPOILT]
# What the double of tests/sockets can do wrong, and a case that must see it, whoever is first; and which it must pass. A crowd
# sees for sure what is wrong at its end alone: its judge is tested by sockets.serve.
WRONGS = [
    ("prints no account", "links broken"),
    ("leaves out the last entry", "connections not accepted"),
    ("leaves out the last entry", "stopped and gone on"),
    ("ends at a body that is none", "spoilt frames"),
    ("needs its last thread", "one thread less"),
    ("accepts again at once", "accepts that fail"),
    ("sends each answer alone", "a read and a write a piece"),
    ("sends each answer alone", "what is held back"),
    ("holds back all answers to a piece", "what is held back"),
    ("goes on for a peer that went", "a connection that is broken"),
    ("waits for a silent peer", "a silent client"),
    ("ends a silent connection early", "a silent client"),
    ("waits for a deaf peer", "a deaf client"),
    ("waits for a silent server", "a silent server"),
    ("waits for a silent server", "a caller at busy workers"),
]
# The seed of what is random there, and how many spoilt bodies it has; else there are so many of each kind.
FIXED, FEW, MUTANTS = 1, 500, 10_000


def case_and_numbers(name: str) -> tuple[Any, ...]:
    """A case, and the seed and the number of spoilt bodies that it takes."""
    case = {case.__name__.replace("_", " "): case for case in [*ONCE, *WAITING, *RANDOM, *SPOILT]}[name]
    return case, *([FIXED] if case in RANDOM + SPOILT else []), *([FEW] if case in SPOILT else [])


def of_double(wrong: str, name: str) -> Came:
    """What came of a case where the double does this wrong, or nothing."""
    with systems():
        return came_of_double(wrong, *case_and_numbers(name))


class Doubles(SelfTest):
    """The cases themselves, on servers that are wrong."""

    def test_wrong_servers(self) -> None:
        """Each wrong server fails its case, and the double passes it."""
        # the processes that try doubles make systems of their own, of what is built here
        with systems():
            self.check_faults(double_faults(WRONGS, of_double, self.fixture.wrong))


def scenario(case: Callable[..., object], *given: Any) -> Scenario:
    """A case of the program."""
    return Scenario("faults", case, Case.fixture.program, *given, is_random=bool(given))


def load_tests(_: unittest.TestLoader, suite: unittest.TestSuite, __: str | None) -> unittest.TestSuite:
    """The cases, of `rv serve` and `rv call`."""
    seed, mutants = Case.fixture.seed, Case.fixture.many(MUTANTS)
    suite.addTest(InSystems([
        SideBySide(map(scenario, WAITING)),
        *map(scenario, ONCE),
        *(scenario(case, seed) for case in RANDOM),
        *(scenario(case, seed, mutants) for case in SPOILT),
    ]))
    return suite
