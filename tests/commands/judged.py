"""Runs of the program over lines, each of which must print, say and end with what is set beforehand."""
from __future__ import annotations

import subprocess
import tempfile
from collections.abc import Iterable, Sequence
from typing import Any, Tuple

from tests.cases import Case

GREATEST = 9_007_199_254_740_991
LONGEST = 65_535
# A line, and its answer.
Pair = Tuple[str, str]


class Judged(Case):
    """Cases that run the program with some words."""

    def ran(self, words: Sequence[str | bytes], **streams: Any) -> subprocess.CompletedProcess[bytes]:
        """A run of the program with these words."""
        return subprocess.run([self.program, *words], stderr=subprocess.PIPE, **streams)

    def judge(self, name: str, ran: subprocess.CompletedProcess[bytes], output: bytes, said: bytes, status: int) -> None:
        """Checks what a run printed, said and ended with."""
        with self.subTest(name):
            self.assertEqual((ran.returncode, ran.stderr), (status, said))
            self.assertTrue((ran.stdout or b"") == output, f"it printed {ran.stdout!r:.1000}, and not {output!r:.1000}")

    def judge_lines(self, name: str, words: Sequence[str], pairs: Iterable[Pair]) -> None:
        """Checks that a run over lines prints their answers. A file is read in whole pieces, as a pipe may not be."""
        pairs = list(pairs)
        output = b"".join(answer.encode() + b"\n" for _, answer in pairs)
        with tempfile.TemporaryFile() as file:
            file.write(b"".join(line.encode() + b"\n" for line, _ in pairs))
            file.seek(0)
            self.judge(name, self.ran(words, stdin=file, stdout=subprocess.PIPE), output, b"", 0)

    def judge_input(self, name: str, words: Sequence[str], given: bytes, output: bytes) -> None:
        """Checks that a run over these bytes prints this, and ends well."""
        self.judge(name, self.ran(words, input=given, stdout=subprocess.PIPE), output, b"", 0)
