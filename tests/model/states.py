"""Compares the states of accounts, with their steps and what may follow them, with the same things over accounts:
after each step of random walks through small accounts, for random entries that are mostly spoilt, and for pairs of
accounts with the same state, which must go on alike.

In some walks there may be few entries or few clients, or little may be open, so that the rules of room are met; a step that they
don't refuse is one under a book's limits.
"""
from __future__ import annotations

import random

from tests.cases import Case, SelfTest
from tests.model.state_comparison import Comparison, missed
from tests.model.state_pairs import pair_faults
from tests.model.state_rows import state_row_faults
from tests.model.wrong_states import wrong_state_faults

# A run of so many steps and entries has to meet each answer and each verdict.
FULL_STEPS, FULL_ENTRIES = 50_000, 10_000


class States(Case):
    """The states of accounts, beside the same over accounts."""

    is_random = True

    def test_walks(self) -> None:
        """10,000 steps and 2,000 entries beside them, up to the first difference."""
        steps, entries = self.fixture.many(10_000), self.fixture.many(2_000)
        comparison, walks = Comparison(entries / steps), 0
        while comparison.count("steps") < steps or comparison.count("entries") < entries:
            fault = comparison.walk_fault(random.Random(f"{self.seed} {walks}"))
            self.check_fault(fault and f"seed {self.seed}, walk {walks}: {fault}")
            walks += 1
        self.told = f"{walks} walks, {comparison.told()}: all as over accounts"
        lacks = missed(comparison) if steps >= FULL_STEPS and entries >= FULL_ENTRIES else []
        self.check_fault(lacks and f"seed {self.seed}: none of them is {', '.join(lacks)}")


class Definitions(SelfTest):
    """What of states is written by hand, and wrong definitions."""

    def test_states_by_hand(self) -> None:
        """States that are written by hand."""
        self.check_faults(state_row_faults())

    def test_pairs(self) -> None:
        """Pairs of states that differ in one part."""
        self.check_faults(pair_faults())

    def test_wrong_definitions(self) -> None:
        """Wrong definitions, each of which must be refused."""
        self.check_faults(wrong_state_faults())
