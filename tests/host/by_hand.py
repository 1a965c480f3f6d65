"""What is asked of a host by hand, of a machine that does nothing else: ten thousand clients that come back at once; a host beside
thousands of peers that send without end, and the memory that it has then; and silent visitors at its status address."""
from __future__ import annotations

import resource
import unittest

from tests.cases import Case, Scenario
from tests.host import many, peers, starts, storm
from tests.host.run import AtAHost, scenario

# Clients that come back within ten seconds, where descriptors allow them.
BACK = 10_000


def load_tests(_: unittest.TestLoader, __: unittest.TestSuite, ___: str | None) -> unittest.TestSuite:
    """The cases, of `rv host`."""
    room = resource.getrlimit(resource.RLIMIT_NOFILE)[1] - many.SPARE
    senders = min(Case.fixture.many(peers.ALL), room)
    cases: list[Scenario] = [
        scenario(starts.in_time, min(Case.fixture.many(BACK), room)),
        scenario(storm.beside_a_storm, senders),
        *(scenario(storm.memory_in_a_storm, senders, mebibytes) for mebibytes in storm.MEMORIES),
        scenario(storm.status_beside_the_silent),
    ]
    return unittest.TestSuite([AtAHost(cases)])
