"""Runs the built program on the worked rows, and on the worked worlds; and on those of version 1 again, with each session
of version 2. The lines and answers of version 1 must be as they ever were. An account of the entries that a row leads to
is legal, and isn't where an entry names another partner."""
from __future__ import annotations

import subprocess
from collections.abc import Callable, Iterable, Iterator, Sequence
from typing import Any, Tuple

from tests.cases import Case
from tests.commands.judged import Pair
from tests.model.row_entries import accounts, unpaired
from tests.model.rows import LATER_ROWS, LATER_WORLDS, LONG_ROWS, ROWS, WORLDS, pairs_of
from tests.model.version_rows import VERSION_ROWS, VERSION_WORLDS, first_faults, second, second_fault

# A row or a world by its name, with the program's words for it and its lines with their answers.
Run = Tuple[str, Sequence[str], Sequence[Pair]]
Difference = Callable[[Sequence[Pair], Sequence[str]], object]


def first_difference(pairs: Sequence[Pair], got: Sequence[str]) -> str | None:
    """The first answer that is not as it must be, if one is not."""
    return next((f"{line}: got {answer}" for (line, expected), answer in zip(pairs, got) if answer != expected), None)


def runs(rows: Iterable[Any], worlds: Iterable[Any]) -> Iterator[Run]:
    """Each row and each world."""
    for name, epoch, lines in rows:
        yield name, ["book", "--epoch", str(epoch)], list(pairs_of(epoch, lines))
    for name, pairs, _, _ in worlds:
        yield name, ["play"], pairs


def runs_of_version_1() -> Iterator[Run]:
    """The rows and worlds of version 1."""
    return runs([*ROWS, *LATER_ROWS, *LONG_ROWS], [*WORLDS, *LATER_WORLDS])


class Rows(Case):
    """Worked rows and worlds, each a check by its name."""

    def fault(self, words: Sequence[str], pairs: Sequence[Pair], difference: Difference = first_difference) -> object:
        """What is wrong with what the program prints for a row, if something is."""
        text = "".join(f"{line}\n" for line, _ in pairs)
        ran = subprocess.run([self.program, *words], input=text.encode(), capture_output=True)
        if ran.returncode or ran.stderr:
            return f"status {ran.returncode}, standard error: {ran.stderr!r}"
        got = ran.stdout.decode("utf-8", "backslashreplace").split("\n")[:-1]
        return difference(pairs, got) if len(got) == len(pairs) else f"{len(pairs)} lines, {len(got)} answers"

    def audit_fault(self, text: str, status: int, told: str) -> str | None:
        """What is wrong with what the program's audit tells of an account, if something is."""
        ran = subprocess.run([self.program, "audit"], input=text.encode(), capture_output=True)
        found = ran.returncode, ran.stderr, ran.stdout
        return None if found == (status, b"", f"{told}\n".encode()) else f"got {found}"

    def test_version_1_is_as_it_was(self) -> None:
        """The rows and the examples of version 1 are those that they ever were."""
        self.check_faults(first_faults())

    def test_rows(self) -> None:
        """Each row and each world has its answers."""
        versions = runs(VERSION_ROWS, VERSION_WORLDS)
        self.check_faults((name, self.fault(words, pairs)) for name, words, pairs in [*runs_of_version_1(), *versions])

    def test_rows_in_version_2(self) -> None:
        """Those of version 1 have their answers where each session is of version 2."""
        self.check_faults((f"{name}, in version 2", self.fault(words, list(second(pairs)), second_fault))
                          for name, words, pairs in runs_of_version_1())

    def test_entries_of_rows(self) -> None:
        """The account of a row is legal, and isn't where an entry names another partner."""
        for name, _, text in accounts():
            self.check_faults([(f"the entries of {name}", self.audit_fault(text, 0, "legal"))])
            self.check_faults((f"the entries of {name}, {told}", self.audit_fault(other, 1, told)) for other, told in unpaired(text))
