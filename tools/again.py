#!/usr/bin/env python3
"""Runs one test of the gate again and again, alone or beside twice as many busy loops as it has cores, and tells what
flickered: what failed in some of the runs and not in all. It has the cores that it may run on: where it is started by
`taskset -c 0`, say, the test and two busy loops share that one.

What came of each run is appended to a file. What stands there of the same test, of the same files and the same program, is
not run again: a run that was ended is taken up where it was.

usage: tools/again.py "python3 -m tests --seed 1 sockets" 20 [--busy] [--into FILE] [--limit SECONDS]
"""
import argparse
import collections
import contextlib
import hashlib
import json
import os
import pathlib
import re
import shlex
import signal
import subprocess
import sys
import time
from collections.abc import Iterator
from dataclasses import asdict, dataclass

ROOT = pathlib.Path(__file__).resolve().parents[1]
PROGRAM = ROOT / "crates/rv_app/out/rv_app"
# What a test may read, beside the program.
FOLDERS = ("tests", "tools", "clients", "examples", "docs")
# Busy loops for each core that it may run on.
LOOPS = 2
BUSY = "while True: pass"


@dataclass(frozen=True)
class Run:
    """What came of a run: of which test, of which files, and beside how many busy loops; and what failed in it."""

    test: str
    of: str
    loops: int
    failed: list[str]
    seconds: float

    def is_like(self, other: "Run") -> bool:
        """Whether both are runs of the same."""
        return (self.test, self.of, self.loops) == (other.test, other.of, other.loops)


def digest(words: list[str]) -> str:
    """A sum over the files that a test may read, and over those that its words name."""
    files = {path for folder in FOLDERS for path in (ROOT / folder).rglob("*") if "__pycache__" not in path.parts}
    files |= {ROOT / word for word in words} | {PROGRAM}
    whole = hashlib.sha256()
    for path in sorted(path for path in files if path.is_file()):
        whole.update(f"{path}\0".encode() + hashlib.sha256(path.read_bytes()).digest())
    return whole.hexdigest()[:16]


def kept(path: pathlib.Path) -> list[Run]:
    """The runs that a file has. A line that was cut is none."""
    runs = []
    for line in path.read_text().splitlines() if path.exists() else []:
        with contextlib.suppress(ValueError, TypeError):
            runs.append(Run(**json.loads(line)))
    return runs


@contextlib.contextmanager
def loops(count: int) -> Iterator[None]:
    """So many busy loops, until the end of the block."""
    busy = [subprocess.Popen([sys.executable, "-c", BUSY]) for _ in range(count)]
    try:
        yield
    finally:
        for loop in busy:
            loop.kill()
            loop.wait()


def name_of(line: str) -> str:
    """What failed, without what was found: a module's words and a case's, or the words before the second colon."""
    found = re.match(r"FAILED: ((?:\w+\.\w+: )?[^:]*)", line)
    return found[1].strip() if found else line


def failed_in(words: list[str], limit: float) -> list[str]:
    """What failed in a run of these words."""
    try:
        ran = subprocess.run(words, cwd=ROOT, stdout=subprocess.PIPE, stderr=subprocess.STDOUT, text=True, errors="replace",
                             timeout=limit)
    except subprocess.TimeoutExpired:
        return [f"it did not end within {limit:.0f} seconds"]
    lines = [line for line in ran.stdout.splitlines() if line.startswith("FAILED: ")]
    for line in lines:
        print(f"    {line[:200]}", flush=True)
    names = sorted({name_of(line) for line in lines})
    return names or ([] if ran.returncode == 0 else [f"it ended with status {ran.returncode}"])


def run_once(like: Run, limit: float) -> Run:
    """Runs a test once, as this run was."""
    began = time.monotonic()
    with loops(like.loops):
        failed = failed_in(shlex.split(like.test), limit)
    return Run(like.test, like.of, like.loops, failed, round(time.monotonic() - began, 1))


def told(runs: list[Run]) -> Iterator[str]:
    """What failed in these runs, and in how many of them."""
    times = collections.Counter(name for run in runs for name in run.failed)
    for name, count in times.most_common():
        word = "failed each time" if count == len(runs) else f"flickered, {count} of {len(runs)} times"
        yield f"{word}: {name}"


def main() -> None:
    raw = argparse.RawDescriptionHelpFormatter
    parser = argparse.ArgumentParser(description=__doc__, formatter_class=raw)
    parser.add_argument("test", help="the words of a test, with the seed of one that is random")
    parser.add_argument("times", type=int, help="how many runs there are to be, with those that the file has")
    parser.add_argument("--busy", action="store_true", help=f"beside {LOOPS} busy loops for each core that it may run on")
    parser.add_argument("--into", type=pathlib.Path, default=ROOT / "out/again.jsonl", help="default: out/again.jsonl")
    parser.add_argument("--limit", type=float, default=7_200, help="seconds behind which a run hangs; default: 7200")
    asked = parser.parse_args()
    # Who is ended leaves no loops behind.
    signal.signal(signal.SIGTERM, lambda *_: sys.exit(1))
    count = LOOPS * len(os.sched_getaffinity(0)) if asked.busy else 0
    like = Run(asked.test, digest(shlex.split(asked.test)), count, [], 0)
    runs = [run for run in kept(asked.into) if run.is_like(like)][: asked.times]
    asked.into.parent.mkdir(parents=True, exist_ok=True)
    while len(runs) < asked.times:
        runs.append(run_once(like, asked.limit))
        with asked.into.open("a") as file:
            file.write(json.dumps(asdict(runs[-1])) + "\n")
        print(f"run {len(runs)} of {asked.times}: {len(runs[-1].failed)} failed, {runs[-1].seconds} seconds", flush=True)
    print(*told(runs), sep="\n", end="\n" if any(run.failed for run in runs) else "")
    failed = sum(bool(run.failed) for run in runs)
    print(f"{len(runs) - failed} passed, {failed} failed")
    sys.exit(failed > 0)


main()
