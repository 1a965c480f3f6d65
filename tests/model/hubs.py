"""Compares hubs with a plain second implementation of what they promise, over random events: up to 200 connections,
which say what is good and what is not, and whose peers take late what is written late.

A script has a hub of its own, and up to 120 events. Of each the program must tell what the model tells: how many bytes
were taken, or why it can't be, the entries, each connection that changed with its bytes to hand out, the totals and the next
moment. The program is rv_steps, whose lines tests/model/hub_lines.py has.
"""
from __future__ import annotations

import random
import subprocess
from collections.abc import Iterator

from tests.cases import Case, SelfTest
from tests.model.hub_lacking import lacking_fault
from tests.model.hub_laws import hub_fault
from tests.model.hub_lines import blocks_of, hub_words
from tests.model.hub_rows import SHORT_ROWS, events_of, hub_row_faults
from tests.model.hub_scripts import Script, make_hub_script
from tests.model.hub_tally import Tally
from tests.model.wrong_hubs import wrong_hub_faults

# A run of so many events has to meet all that is counted.
FULL_RUN = 20_000
# How many events a script has at most.
EVENTS = 120


def told_by(program: str, script: Script) -> Iterator[list[bytes]]:
    """What the program tells of each line, in lines."""
    text = b"".join(line.line + b"\n" for line in script.lines)
    ran = subprocess.run([program, *hub_words(script.terms)], input=text, capture_output=True)
    assert (ran.returncode, ran.stderr) == (0, b""), f"{program} ended with status {ran.returncode} and said {ran.stderr!r}"
    return blocks_of(ran.stdout.splitlines())


def difference(program: str, script: Script) -> str | None:
    """The first line of a script of which the program doesn't tell what it has to, if there is one."""
    told = told_by(program, script)
    for number, line in enumerate(script.lines, 1):
        got: list[bytes] = next(told, [])
        if not line.told.is_told_by(got):
            wanted = line.told.lines()
            lacks = [f"  wanted {show(text)}" for text in wanted if text not in got]
            more = [f"  got    {show(text)}" for text in got if text not in wanted]
            return "\n".join([f"line {number}: {show(line.line)}", *lacks, *more])
    return None


def show(text: bytes) -> str:
    """A line, or how it begins."""
    return text[:300].decode("ascii", "backslashreplace")


class Hubs(Case):
    """The program's hubs, beside the model's."""

    is_random = True

    def test_random_events(self) -> None:
        """5,000 random events of up to 200 connections, up to the first difference."""
        tally, scripts, count = Tally(), 0, self.fixture.many(5_000)
        while tally.events < count:
            chance = random.Random(f"{self.seed} {scripts}")
            script = make_hub_script(chance, chance.randint(10, EVENTS))
            differs = difference(self.steps, script)
            self.check_fault(differs and f"seed {self.seed}, script {scripts}, {differs}")
            tally.add(script.lines)
            scripts += 1
        self.told = f"{scripts} hubs, {tally.told()}: each as the model has it"
        lacks = tally.lacking() if count >= FULL_RUN else []
        self.check_fault(lacks and f"seed {self.seed}: there was none of {', '.join(lacks)}")


class Model(SelfTest):
    """The model's hub: in worked rows, in random events, and where it is wrong."""

    def test_worked_rows(self) -> None:
        """Rows that are worked by hand."""
        self.check_faults(hub_row_faults())

    def test_laws(self) -> None:
        """What must hold of every hub, of random ones."""
        self.check_faults((f"random hub {seed}", hub_fault(random.Random(f"laws {seed}"), 60)) for seed in range(60))

    def test_growths_refused(self) -> None:
        """Worked rows where a growth is refused."""
        self.check_faults((f"{name}, a growth refused", lacking_fault(terms, events_of(terms, lines)))
                          for name, terms, lines in SHORT_ROWS)

    def test_wrong_hubs(self) -> None:
        """Hubs that do a thing wrong, each of which random events find."""
        self.check_faults(wrong_hub_faults())
