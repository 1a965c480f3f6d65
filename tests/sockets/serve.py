"""Runs servers and callers of the built program, as processes with sockets on this machine, and looks at each answer.

Everything is bounded: each socket of a client and each wait for a process has a time-out, and no process is left
running. What a case expects is set beforehand, or is what the plain model of tests/model answers; the account that a
server prints at its end is read, must be legal, and must have each reply that was told.

The cases are functions of the program, and some of a seed too: the host's cases are the same ones, and a double's.
"""
from __future__ import annotations

import unittest
from collections.abc import Callable

from tests.cases import Case, Scenario, SelfTest
from tests.sockets import calls, crowds, hostile, ledgers, pieces, plain, times
from tests.sockets.cases import Came, came_of_double, double_faults, name_of

# The cases that are as they are, and those that are random.
ONCE = [*plain.CASES, *times.CASES, *calls.CASES]
RANDOM = [*pieces.CASES, *crowds.CASES, *hostile.CASES]
# What the double can do wrong, and the case that must see it. None of these cases hangs on who is first: a crowd sees for sure
# what is wrong at its end alone, and its judge is tested on ledgers that are written down.
WRONGS = [
    ("serves on one thread", "plain, a hand over"),
    ("never asks again", "plain, a consumer that waits"),
    ("never asks again", "pieces, frames in pieces"),
    ("holds the lock while it pauses", "plain, many that wait"),
    ("keeps answers back while one waits", "plain, an answer before a wait"),
    ("says received when it waits", "plain, repeats"),
    ("runs a repeated put again", "plain, repeats"),
    ("gives a timed out item to the next", "plain, repeats"),
    ("gives its own object back", "calls, two callers"),
    ("names the giver", "plain, sessions of both versions"),
    ("names nobody", "plain, sessions of both versions"),
    ("names nobody", "calls, two callers"),
    ("takes each version for the first", "plain, sessions of both versions"),
    ("tells what was drained newest first", "plain, a drain"),
    ("ends at a body that is none", "pieces, frames in pieces"),
    ("loses what is cut", "pieces, frames in pieces"),
    ("sends length and body apart", "plain, no packet waits"),
    ("sends length and body apart", "calls, no packet waits"),
    ("has no packet without its like", "times, an item behind an answer"),
    ("pauses for too long", "times, a wait ends"),
    ("counts tenths of seconds", "times, moments beside a clock"),
    ("rounds moments to tenths of seconds", "times, moments beside a clock"),
    ("goes on for a peer that went", "times, a peer that goes"),
    ("accepts all that come", "times, connections in hand"),
    ("accepts one for all its workers", "times, connections in hand"),
    ("answers a frame too many", "plain, too many frames"),
    ("accepts one more", "plain, its connections"),
    ("keeps listening", "plain, a late client"),
    ("leaves out the last entry", "plain, a hand over"),
    ("leaves out the last entry", "plain, one after the other"),
    ("leaves out the last entry", "crowds, a crowd of 10"),
    ("prints no account", "plain, one after the other"),
    ("prints no account", "plain, its connections"),
    ("prints no account", "plain, broken streams"),
    ("prints no account", "pieces, frames in pieces"),
    ("prints no account", "crowds, a crowd of 25"),
    ("is welcome in any version", "calls, strange servers"),
    ("prints when all is settled", "calls, a line as soon as it is settled"),
]
# The seed of the cases that are random.
FIXED = 1


def of_double(wrong: str, name: str) -> Came:
    """What came of a case where the double does this wrong, or nothing."""
    cases: list[Callable[..., object]] = [*ONCE, *RANDOM]
    case = {name_of(case): case for case in cases}[name]
    return came_of_double(wrong, case, *([FIXED] if case in RANDOM else []))


class Doubles(SelfTest):
    """The cases themselves, on servers that are wrong, and what judges crowds."""

    def test_the_judge_of_crowds(self) -> None:
        """What a crowd was told is judged, where it is written down."""
        ledgers.the_judge_of_crowds()

    def test_wrong_servers(self) -> None:
        """Each wrong server fails its case, and the double passes it."""
        self.check_faults(double_faults(WRONGS, of_double, self.fixture.wrong))


def load_tests(_: unittest.TestLoader, suite: unittest.TestSuite, __: str | None) -> unittest.TestSuite:
    """The cases, of `rv serve`."""
    program, seed = Case.fixture.program, Case.fixture.seed
    suite.addTests(Scenario("sockets", case, program) for case in ONCE)
    suite.addTests(Scenario("sockets", case, program, seed, is_random=True) for case in RANDOM)
    return suite
