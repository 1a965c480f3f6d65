"""Runs `rv host` from outside: its options, what waits, hostile peers, a system that lacks something; and, at a host, the
cases of `rv serve` that hold there too, the clients' crowds and processes, and crowds in a hostile system.

Whatever was told must stand in the account, by the model and by `rv verify`. Nothing hangs on who is first or how fast the
machine is.
"""
from __future__ import annotations

import os
import resource
import unittest
from collections.abc import Callable, Iterator
from typing import Any

from tests import ROOT
from tests.cases import Case, Scenario, SelfTest, Tool
from tests.faults import callers, mutants, turns
from tests.faults import crowds as faulty_crowds
from tests.faults.system import InSystems, systems
from tests.clients import cancelled_tasks, drains, interrupted, java, receipts
from tests.clients import crowds as client_crowds
from tests.host import (
    addresses, counters, ends, fair, files, hostile, many, memory, moments, options, says, sockets, starts, status, system, waits)
from tests.sockets import calls, crowds, plain, times
from tests.sockets import hostile as noisy
from tests.sockets.cases import Came, came_of, double_faults, name_of
from tests.sockets.hosts import HostProgram

# The cases that are a host's own.
OWN = [*options.CASES, *says.CASES, *waits.CASES, *moments.CASES, *sockets.CASES, *hostile.CASES, *memory.CASES, *system.CASES,
       *starts.CASES, *ends.CASES, *status.CASES, *counters.CASES, *fair.CASES, *files.CASES, *addresses.CASES]
# Those of `rv serve` that say nothing of workers, of numbers of connections, or of how long a request waits in its frame.
SHARED = [
    plain.a_hand_over, plain.one_after_the_other, plain.a_consumer_that_waits, plain.an_answer_before_a_wait, plain.a_drain,
    plain.repeats, plain.sessions_of_both_versions, plain.a_new_incarnation, plain.long_texts, plain.ends_of_connections,
    plain.many_at_once, times.moments_beside_a_clock, calls.two_callers, calls.two_recorders,
    calls.a_line_as_soon_as_it_is_settled, calls.settled_in_turn, calls.started_in_another_version,
    receipts.of_each_version, receipts.one_version_a_session, *drains.CASES,
]
# The same with a seed; in a hostile system; and of the clients.
RANDOM: list[Callable[..., object]] = [*crowds.CASES, *noisy.CASES]
HOSTILE: list[Callable[..., object]] = [faulty_crowds.growths_refused, faulty_crowds.links_broken, faulty_crowds.connections_not_accepted,
           faulty_crowds.all_but_clocks, faulty_crowds.stopped_and_gone_on, *callers.CASES]
IN_TURN = [turns.each_growth_of_a_server, turns.each_byte_of_a_server]
CLIENTS: list[Callable[..., object]] = [*cancelled_tasks.CASES, *interrupted.CASES]
# What the double can do wrong, and the case that must see it; none of these hangs on who is first.
WRONGS = [
    ("answers before it writes", "system, a disk that fills"),
    ("goes on when the disk is full", "system, a disk that fills"),
    ("does not say which file is full", "system, a disk that fills"),
    ("writes its account late", "system, killed"),
    ("tells early that it waits", "waits, told that it waits"),
    ("never tells that it waits", "waits, told that it waits"),
    ("ends a connection with its input", "waits, an end behind a take"),
    ("loses what stands behind a wait", "waits, frames behind one that waits"),
    ("keeps half a frame", "hostile, half frames"),
    ("counts each byte as a first", "moments, a byte a second"),
    ("ends who waits", "hostile, idle connections"),
    ("keeps who is idle", "hostile, idle connections"),
    ("keeps who takes no answer", "hostile, deaf peers"),
    ("ends at a reset", "hostile, resets at each byte"),
    ("forgets who is gone", "hostile, resets at each byte"),
    ("spins without descriptors", "system, few descriptors"),
    ("never accepts again", "system, few descriptors"),
    ("takes more than its connections", "system, more than its connections"),
    ("has moments by the wall clock", "system, a clock that jumps"),
    ("takes any epoch", "system, epochs by the clock"),
    ("waits for who reads what it says", "system, nobody reads what it says"),
    ("takes up a file that is there", "options, accounts"),
    ("is never quiet", "options, its first lines"),
    ("closes nobody who holds much", "starts, holders are closed"),
    ("closes all that hold anything", "starts, holders are closed"),
    ("counts from the last read", "ends, a wait is no stall"),
    ("counts what was answered", "ends, what was answered is held no more"),
    ("polls past the end of a wait", "moments, waits end at their moment"),
    ("ends waits early", "moments, waits end at their moment"),
    ("tells late that it waits", "moments, told that it waits at ten seconds"),
    ("ends late by time", "moments, stalled and idle ends"),
    ("lets packets wait", "sockets, options of a connection"),
    ("has no user time-out", "sockets, options of a connection"),
    ("turns while a peer is blocked", "sockets, rests beside blocked peers"),
    ("closes the first who holds anything", "memory, the largest is closed"),
    ("counts no answers", "memory, answers count"),
]
DOUBLE = HostProgram(ROOT / "tests/host/double.sh")
# Silent connections, where descriptors allow them; spoilt frames; how long a crowd of the clients asks, in seconds, and the
# scripts that the JDK's classes run too.
SILENT, SPOILT, CROWD, SCRIPTS = 2_000, 2_000, 10, 300


# What is left out where its tool is missing.
JAVA = Tool("the Java client", java.missing)


class AtAHost(InSystems):
    """Cases of a host, which may have as many descriptors as the system lets it ask for."""

    def run(self, result: unittest.TestResult, debug: bool = False) -> unittest.TestResult:
        before = resource.getrlimit(resource.RLIMIT_NOFILE)
        many.room()
        try:
            return super().run(result, debug)
        finally:
            resource.setrlimit(resource.RLIMIT_NOFILE, before)


def of_double(wrong: str, name: str) -> Came:
    """What came of a case where the double does this wrong, or nothing."""
    case = next(case for case in OWN if name_of(case) == name)
    os.environ["RV_WRONG"] = wrong
    with systems():
        return came_of(case, DOUBLE)


class Doubles(SelfTest):
    """The cases themselves, on hosts that are wrong."""

    def test_wrong_hosts(self) -> None:
        """Each wrong host fails its case, and the double passes it."""
        # the processes that try doubles make systems of their own, of what is built here
        with systems():
            self.check_faults(double_faults(WRONGS, of_double, self.fixture.wrong))


def scenario(case: Callable[..., object], *given: Any, is_random: bool = False, tools: tuple[Tool, ...] = ()) -> Scenario:
    """A case at a host of the program."""
    return Scenario("host", case, HostProgram(Case.fixture.program), *given, tools=tools, is_random=is_random)


def as_they_are() -> Iterator[Scenario]:
    """The cases that are the same each time."""
    silent = min(SILENT, resource.getrlimit(resource.RLIMIT_NOFILE)[1] - many.SPARE)
    yield from map(scenario, [*OWN, *SHARED, *IN_TURN])
    yield scenario(hostile.silent_connections, silent)
    yield scenario(starts.back_at_once, silent)
    yield from (scenario(case, tools=(JAVA,)) for case in receipts.WITH_JAVA)


def of_a_seed(seed: int, part: float = 1) -> Iterator[Scenario]:
    """The cases that are random, with such a part of what is long."""
    def many_of(count: int) -> int:
        return max(1, Case.fixture.many(round(part * count)))

    yield from (scenario(case, seed, is_random=True) for case in [*RANDOM, *HOSTILE])
    spoilt = next(case for case in mutants.CASES if case.__name__ == "spoilt_frames")
    yield scenario(spoilt, seed, many_of(SPOILT), is_random=True)
    yield from (scenario(case, seed, is_random=True) for case in CLIENTS)
    yield scenario(client_crowds.a_crowd, seed, part * CROWD * Case.fixture.times, is_random=True)
    yield scenario(client_crowds.beside_the_jdk, seed, many_of(SCRIPTS), is_random=True, tools=(JAVA,))


def load_tests(_: unittest.TestLoader, suite: unittest.TestSuite, __: str | None) -> unittest.TestSuite:
    """The cases, of `rv host`."""
    suite.addTest(AtAHost([*as_they_are(), *of_a_seed(Case.fixture.seed)]))
    return suite
