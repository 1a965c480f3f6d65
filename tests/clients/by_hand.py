"""What is asked of the clients by hand: the long forms of what is interrupted, cancelled and closed, and a wait of ten minutes."""
from __future__ import annotations

import unittest

from tests.cases import Case, Scenario
from tests.clients import cancelled_tasks, interrupted, java_closes, long_waits
from tests.clients.run import JAVA, scenario

# Calls that are interrupted, calls in asyncio that are cancelled, with others between, and takes of Java that are cancelled, with
# closes meanwhile.
CALLS = 10_000


def load_tests(_: unittest.TestLoader, suite: unittest.TestSuite, __: str | None) -> unittest.TestSuite:
    """The cases, of the program."""
    program, seed, count = Case.fixture.program, Case.fixture.seed, Case.fixture.many(CALLS)
    cases: list[Scenario] = [
        scenario(interrupted.interrupted_calls, program, seed, count, is_random=True),
        scenario(cancelled_tasks.many_mixed_calls, program, seed, count, is_random=True),
        scenario(java_closes.cancelled_takes, program, seed, count, is_random=True, tools=[JAVA]),
        *map(scenario, long_waits.BY_HAND),
    ]
    return unittest.TestSuite(cases)
