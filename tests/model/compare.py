"""Compares a program with a plain second implementation of docs/MODEL.md, over random scripts: of `rv book`, of `rv play`, over random
accounts, most of them spoilt, of `rv audit`, of `rv verify` on random records of what clients were told, and of a machine under limits
of one's own, of `rv_steps`: under 50 entries, 4 clients and 8 open places each must be met. That machine is also made anew behind each
line: of the state before it, and by following the entries that it made.

A run of many lines is parted into many scripts of up to 400 lines, each a book or a world of its own: the model looks
for everything in the account's list of entries, so a line's cost grows faster than the lines before it. Now and then a
script of a book is longer, and more clients come to it than it serves. What must hold of every world is looked at in
the model's own world, at the end of each script.
"""
from __future__ import annotations

import random
import subprocess
from collections.abc import Callable, Sequence
from typing import List, Tuple

from tests.cases import Case, SelfTest
from tests.model.audits import compare_audits
from tests.model.bounded import SMALL, Machines
from tests.model.broken import broken_faults
from tests.model.broken_lines import line_faults
from tests.model.limits import Limits
from tests.model.plays import make_play, play_fault
from tests.model.records import compare_records
from tests.model.row_entries import entry_faults
from tests.model.rows import LATER_WORLDS, drain_faults, play_row_faults, row_faults
from tests.model.scripts import law_fault, make_crowd, make_script
from tests.model.spoilt import make_texts
from tests.model.verdicts import Unsure, verdict
from tests.model.version_rows import VERSION_ROWS, VERSION_WORLDS, second_faults
from tests.model.wrong_books import wrong_book_faults

# The most lines of a script with a crowd.
CROWD_LINES = 1_600
# The greatest limits that a machine can have.
GREATEST = Limits(2**53 - 1, 65_536, 100_000)
# A script's lines, each with its answer.
Lines = List[Tuple[bytes, bytes]]
# What makes a script of so many lines at most: the program's words for it, its lines, and what is wrong with the model, if something is.
Scripts = Callable[[random.Random, int], Tuple[Sequence[str], Lines, object]]


def audits_fault(chance: random.Random) -> str | None:
    """What is wrong with the model's two audits of some random accounts, if something is."""
    for text in make_texts(chance, 50):
        try:
            verdict(text)
        except Unsure as unsure:
            return f"{unsure}: {text!r}"
    return None


def printed(program: str, words: Sequence[str], lines: Sequence[bytes]) -> list[bytes]:
    """The lines that the program prints for a script, whose last line lacks its LF now and then."""
    text = b"".join(line + b"\n" for line in lines)
    if len(lines) % 2 and lines[-1]:
        text = text[:-1]
    ran = subprocess.run([program, *words], input=text, capture_output=True)
    assert (ran.returncode, ran.stderr) == (0, b""), f"{program} ended with status {ran.returncode} and said {ran.stderr!r}"
    return ran.stdout.split(b"\n")[:-1]


def difference(got: Sequence[bytes], script: Lines) -> str | None:
    """The first line that is answered otherwise, with both answers."""
    for number, (line, wanted) in enumerate(script):
        found = got[number] if number < len(got) else None
        if found != wanted:
            return f"line {number + 1}: {shown(line)}\nexpected {shown(wanted)}\ngot      {shown(found)}"
    return f"a line too many: {shown(got[len(script)])}" if len(got) > len(script) else None


def shown(text: bytes | None) -> str:
    """Bytes so that they can be read."""
    return text.decode("utf-8", "backslashreplace") if text is not None else "no line"


def book_script(chance: random.Random, left: int) -> tuple[Sequence[str], Lines, object]:
    """One book's script: one in 25 has a crowd, where there is room for it."""
    epoch = chance.choice([1, 1, 2, 7, 2**53 - 1])
    crowded = left >= CROWD_LINES and chance.random() < 0.04
    lines = make_crowd(chance, epoch) if crowded else make_script(chance, epoch, min(chance.randint(20, 400), left))
    return ["book", "--epoch", str(epoch)], lines, None


def play_script(chance: random.Random, left: int) -> tuple[Sequence[str], Lines, object]:
    """One world's script, and what the model's world breaks, if something."""
    lines, fault = make_play(chance, min(chance.randint(20, 400), left))
    return ["play"], lines, fault


def compare(program: str, seed: int, count: int, scripts: Scripts) -> str:
    """Compares scripts of so many lines in all, up to the first difference, and tells how many there were."""
    done = 0
    while done < count:
        words, script, fault = scripts(random.Random(f"{seed} {done}"), count - done)
        assert not fault, f"seed {seed}, {words}, the script that begins at line {done + 1}: {fault}"
        differs = difference(printed(program, words, [line for line, _ in script]), script)
        assert not differs, f"seed {seed}, {words}, the script that begins at line {done + 1}, {differs}"
        done += len(script)
    return f"{done} lines, each answer as the model has it"


class Compared(Case):
    """The program beside the model, over random scripts."""

    is_random = True

    def test_books(self) -> None:
        """Messages to books."""
        self.told = compare(self.program, self.seed, self.fixture.many(10_000), book_script)

    def test_plays(self) -> None:
        """Events of worlds."""
        self.told = compare(self.program, self.seed, self.fixture.many(5_000), play_script)

    def test_accounts(self) -> None:
        """Accounts that are audited."""
        self.told = compare_audits(self.program, self.seed, self.fixture.many(2_000))

    def test_records(self) -> None:
        """Records of 100 accounts, four of each, each reply changed in turn."""
        self.told = compare_records(self.program, self.seed, self.fixture.many(100), 4)

    def judge_machines(self, count: int, limits: Limits, anew: bool = False) -> None:
        """Compares the steps of machines under limits, and tells how often each answer came; none that should may lack."""
        machines = Machines(limits, anew)
        same = compare(self.steps, self.seed, self.fixture.many(count), machines.script)
        self.told = f"{same}: {machines.told()}"
        self.assertFalse(machines.lacking(), f"these refusals never came: {machines.lacking()}")

    def test_few_limits(self) -> None:
        """Machines under limits that are met soon."""
        self.judge_machines(5_000, SMALL)

    def test_greatest_limits(self) -> None:
        """Machines under the greatest limits."""
        self.judge_machines(3_000, GREATEST)

    def test_few_limits_anew(self) -> None:
        """Machines under limits that are met soon, made anew for each line."""
        self.judge_machines(5_000, SMALL, anew=True)

    def test_greatest_limits_anew(self) -> None:
        """Machines under the greatest limits, made anew for each line."""
        self.judge_machines(2_000, GREATEST, anew=True)


class Model(SelfTest):
    """The whole model: on worked rows, on accounts that are broken by hand, on random books of its own, and on books that drain
    wrongly, each of which must be found."""

    def test_worked_rows(self) -> None:
        """Worked rows, in both versions."""
        self.check_faults([*row_faults(), *drain_faults(), *row_faults(VERSION_ROWS), *second_faults()])

    def test_worked_worlds(self) -> None:
        """Worked worlds, in both versions."""
        self.check_faults([*play_row_faults(), *play_row_faults(VERSION_WORLDS), *play_row_faults(LATER_WORLDS)])

    def test_broken_accounts(self) -> None:
        """Accounts that are broken by hand, and the entries of rows."""
        self.check_faults([*broken_faults(), *line_faults(), *entry_faults()])

    def test_random_books(self) -> None:
        """What must hold of every book, of random ones."""
        self.check_faults((f"random book {seed}", law_fault(random.Random(seed))) for seed in range(10))

    def test_random_worlds(self) -> None:
        """What must hold of every world, of random ones."""
        self.check_faults((f"random world {seed}", play_fault(random.Random(seed))) for seed in range(20))

    def test_random_accounts(self) -> None:
        """The model's two audits of random accounts agree."""
        self.check_faults((f"random accounts {seed}", audits_fault(random.Random(seed))) for seed in range(5))

    def test_wrong_books(self) -> None:
        """Books that do a thing wrong, each of which is found."""
        self.check_faults(wrong_book_faults())
