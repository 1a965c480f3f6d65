#!/usr/bin/env python3
"""Counts the instructions that a line of `rv book` takes, part by part, and those of the plain loop over the
same lines, which STEPS has: items put and taken in turn. callgrind counts them, so that what else the machine does changes
nothing. A count is that of a long input less that of a short one: what a start takes is left out.

What the reader of JSON sets to zero is told apart: 16 KiB for each text, of which callgrind counts each byte.

Where valgrind is missing, that is said, and nothing is counted.

usage: tools/bench/instructions.py PROGRAM STEPS
"""
import pathlib
import re
import shutil
import subprocess
import sys
import tempfile
from collections import Counter
from collections.abc import Iterable
from dataclasses import dataclass, field

ROOT = pathlib.Path(__file__).resolve().parents[2]
sys.dont_write_bytecode, sys.path[0] = True, str(ROOT)
from tools.bench import audit  # noqa: E402
from tools.bench.lines import book_lines, in_turn  # noqa: E402

SHORT, LONG = 2_000, 12_000
# The parts of a line's work, and how the names of the functions begin that do it, as the program's own call
# them; where the compiler merges one of them into its caller, those that it called. In none of them are the
# program's own loop, which finds lines and their moments, and the memory that it gives back.
PARSE = "parse: text to message"
PARTS = {
    "read: input to lines": ("rv_run::input", "rv_book::lines", "rv_frame::source"),
    PARSE: ("rv_text::decode", "rv_text::members", "rv_text::message", "rv_text::serde_json",
            "rv_json::value", "rv_json::members", "rv_json::body", "rv_json::flat", "rv_json::scan", "rv_json::serde_json",
        "serde_json", "json::index"),
    "step: the machine and the book": (
        "rv_book", "rv_machine", "rv_session", "rv_text::answer",
        "rv_text::call"),
    "write: answer to text": ("rv_text::encode", "rv_json::writer", "json::write"),
    "print: output": ("rv_run::output", "rv_frame::sink"),
}
# How the names of those begin that set memory to zero, and of those that do so to read JSON.
ZEROING = ("memset", "__memset")
READERS = (*PARTS[PARSE], "rv_app", "rv_steps")
# A row of the annotator: instructions and their share; "<" before a caller, and behind all callers "*" before
# the function that they call; its file; its name; how often; its program.
ROW = re.compile(r" *([\d,]+) \( *[\d.]+%\) +([<*]) +[^:]*:(.*?)(?: \([\d,]+x\))?(?: \[[^\]]*\])?")
TOTAL = re.compile(r" *([\d,]+) \( *[\d.]+%\) +PROGRAM TOTALS")


@dataclass
class Profile:
    """Instructions: all of them, and those of a function's calls of another, with all that this calls."""

    total: float = 0
    calls: Counter[tuple[str, str]] = field(default_factory=Counter)

    def of_calls(self, callers: tuple[str, ...], functions: tuple[str, ...]) -> float:
        """Those of the calls of functions by callers, the names of which begin so."""
        return sum(count for (caller, function), count in self.calls.items()
                   if caller.startswith(callers) and function.startswith(functions))

    def zeroing(self) -> float:
        return self.of_calls(READERS, ZEROING)

    def parts(self, own: str) -> dict[str, float]:
        """Those of each part of a program, whose own functions' names begin so: all but the zeroing."""
        counts = {name: self.of_calls((own,), functions) for name, functions in PARTS.items()}
        counts[PARSE] -= self.of_calls(PARTS[PARSE], ZEROING)
        return counts | {"else": self.total - self.zeroing() - sum(counts.values())}


def number(digits: str) -> int:
    return int(digits.replace(",", ""))


def profile(rows: Iterable[str]) -> Profile:
    """What the annotator tells. The types of generic functions are left out of their names."""
    told, callers = Profile(), Counter[str]()
    for row in rows:
        if total := TOTAL.fullmatch(row):
            told.total = number(total[1])
        elif found := ROW.fullmatch(row):
            name = found[3].partition("::<")[0]
            if found[2] == "<":
                callers[name] += number(found[1])
            else:
                told.calls.update({(caller, name): count for caller, count in callers.items()})
                callers = Counter()
    return told


def counted(words: list[str], path: pathlib.Path) -> Profile:
    """The instructions of a program over an input."""
    out = path.with_suffix(".callgrind")
    callgrind = ["valgrind", "--tool=callgrind", f"--callgrind-out-file={out}"]
    with open(path, "rb") as source:
        ran = subprocess.run([*callgrind, *words], stdin=source, stdout=subprocess.DEVNULL,
                             stderr=subprocess.PIPE, text=True, errors="replace")
    if ran.returncode:
        sys.exit(f"valgrind {' '.join(words)} ended with status {ran.returncode}:\n{ran.stderr}")
    annotate = ["callgrind_annotate", "--inclusive=yes", "--tree=caller", "--threshold=100", "--auto=no"]
    told = subprocess.run([*annotate, out], stdout=subprocess.PIPE, text=True, errors="replace", check=True)
    return profile(told.stdout.split("\n"))


def of_a_line(words: list[str], short: pathlib.Path, long: pathlib.Path) -> Profile:
    """The instructions of each line that the long input has beyond the short one."""
    before, whole, lines = counted(words, short), counted(words, long), LONG - SHORT
    calls = {call: (count - before.calls[call]) / lines for call, count in whole.calls.items()}
    return Profile((whole.total - before.total) / lines, Counter(calls))


def in_row(name: str, ours: float, theirs: float) -> str:
    return f"  {name:34}{ours:9,.0f}{'':8}{theirs:18,.0f}{ours / theirs:8.2f}"


def print_table(book: Profile, plain: Profile) -> None:
    """The parts of a line of the book, and both programs without and with the zeroing."""
    aside, plain_aside = book.total - book.zeroing(), plain.total - plain.zeroing()
    heads = f"{'rv book':>9}{'share':>8}{'plain JSON loop':>18}{'ratio':>8}"
    print(f"{'instructions a line, by callgrind':36}{heads}")
    for name, count in book.parts("rv_app::").items():
        print(f"  {name:34}{count:9,.0f}{count / aside:8.0%}")
    print(in_row("all, the zeroing aside", aside, plain_aside))
    print(in_row("all", book.total, plain.total))


def main() -> None:
    if len(sys.argv) != 3:
        sys.exit(__doc__.rstrip().rsplit("\n", 1)[-1])
    if not shutil.which("valgrind") or not shutil.which("callgrind_annotate"):
        print("valgrind is missing: the instructions of a line are not counted")
        return
    program, steps = sys.argv[1:]
    book, plain = [program, "book", "--epoch", "1"], [steps, "json"]
    with tempfile.TemporaryDirectory() as folder:
        short, long = (pathlib.Path(folder) / f"{count}.in" for count in (SHORT, LONG))
        for path, count in ((short, SHORT), (long, LONG)):
            path.write_text("".join(f"{line}\n" for line in book_lines(in_turn(count))), encoding="ascii")
        audit.see_good(book, long)
        print_table(of_a_line(book, short, long), of_a_line(plain, short, long))


if __name__ == "__main__":
    main()
