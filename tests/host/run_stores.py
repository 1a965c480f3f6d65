"""The cases of `rv host` at hosts that keep a store. After each the store is opened anew, and goes on after all of its entries;
the hosts of crowds are killed and started anew in their midst."""
from __future__ import annotations

import logging
import unittest
from collections.abc import Callable

from tests.cases import Case, Scenario
from tests.clients import interrupted, receipts
from tests.host import fair, files, hostile, memory, options, run, starts, status, system
from tests.sockets import crowds
from tests.sockets import hostile as noisy
from tests.sockets.hosts import StoreProgram

# What is left out. Of these no host serves, so that none keeps anything.
UNSERVED: list[Callable[..., object]] = [
    options.numbers, options.misspelt, options.addresses, options.help_tells, options.its_version, options.it_is_open_to_others,
    status.addresses,
]
# These say something of the file of `--account`: of that of a store host.store_files does.
OF_ACCOUNTS: list[Callable[..., object]] = [
    options.accounts, system.a_disk_that_fills, system.no_room_to_start, system.killed, files.an_empty_file_is_taken,
    files.a_start_that_fails, files.a_bound_of_files,
]
# These are long, or of connections alone: they are tried where more is tried than the gate tries.
LONG: list[Callable[..., object]] = [
    *hostile.CASES, hostile.silent_connections, *memory.CASES, *starts.CASES, starts.back_at_once, *fair.CASES, *noisy.CASES,
    system.few_descriptors, system.more_than_its_connections, status.hostile_visitors, status.told_without_descriptors,
    status.the_dead_are_ended, status.a_moment_begins_anew, *interrupted.CASES, *receipts.WITH_JAVA,
]
# The clients of these end where a connection breaks: those of the torture's crowds don't.
UNBROKEN: list[Callable[..., object]] = [*crowds.CASES]
# Such a part is tried of what is long.
PART = 0.2


class AtAStore(Scenario):
    """A case of hosts, at hosts that keep a store."""

    def __init__(self, case: Scenario) -> None:
        program, *given = case.given
        super().__init__(case.folder, case.function, StoreProgram(program), *given, tools=case.tools, is_random=case.is_random)

    def id(self) -> str:
        return f"{super().id()}_at_a_store"

    def play(self) -> None:
        """What clients here log of a host that is killed isn't told."""
        log, quiet = logging.getLogger("rendezvous"), logging.NullHandler()
        log.addHandler(quiet)
        try:
            super().play()
        finally:
            log.removeHandler(quiet)


def load_tests(_: unittest.TestLoader, suite: unittest.TestSuite, __: str | None) -> unittest.TestSuite:
    """The cases, of `rv host --store`."""
    cases = [*run.as_they_are(), *run.of_a_seed(Case.fixture.seed, PART)]
    left_out = [*UNSERVED, *OF_ACCOUNTS, *UNBROKEN, *(LONG if Case.fixture.times <= 1 else [])]
    suite.addTest(run.AtAHost(AtAStore(case) for case in cases if case.function not in left_out))
    return suite
