"""What every case is given: the programs that it tries, the seed of what is random, and how long that is tried."""
from __future__ import annotations

import random
from dataclasses import dataclass, field

from tests import ROOT

PROGRAM = ROOT / "crates/rv_app/out/rv_app"
# The program for tests: a machine's steps under limits of one's own, a hub's events, what bodies are read as, and JSON that is
# written back.
STEPS = ROOT / "crates/rv_steps/out/rv_steps"
# Seeds are below this number.
SEEDS = 10**6


def any_seed() -> int:
    """A seed, where none is asked for."""
    return random.randrange(SEEDS)


@dataclass(frozen=True)
class Fixture:
    """The paths of the programs, a seed, and how many times as much is tried as the gate tries of what is random."""

    program: str = str(PROGRAM)
    steps: str = str(STEPS)
    seed: int = field(default_factory=any_seed)
    times: float = 1
    # Of what is wrong on purpose, only what has these words is tried.
    wrong: str = ""

    def many(self, count: int) -> int:
        """How many are tried where the gate tries so many."""
        return max(1, round(count * self.times))
