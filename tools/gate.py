#!/usr/bin/env python3
"""The gate: rt ci, then the built tests with growths refused, then the built program from outside, then the documents.

In some kits rt ci keeps what it passed on this machine, by checksums of all that it read: what is the same is not proved and
not tried again, whoever ran it in whichever clone; tests and programs are run each time. With --anew all is proved and tried,
as other kits always do.

On a terminal a line at the bottom tells what is being proved, for how long, and at most about how long still.

The last line adds up what each of them counted. The line before it tells the processor time of all of them, in minutes
and in units: a unit is what `rt selftest` takes on the same machine. Before that stands what each crate took of it; what
all proofs, all proofs of tests and all edits took; and how many of the proofs and edits were done in this run: the
minutes are of these alone. Where all is proved, each program gets a mark of its sources, so that tools/build.py takes it
as it is.

One run of `rt selftest` may take a tenth more than another, so a unit is the mean of two: before all else, and after it.

Random tests take their seed from the commit, so that each one explores anew; it is printed, and --seed repeats it.

RT_JOBS says how many provers run side by side, and is else set by processors and memory. An empty one leaves that to rt, which
is quicker where little changed, and takes more of the processor.

usage: tools/gate.py [--anew] [--seed SEED]
  --anew   prove and try all, also what this machine has passed before: to measure what all of it takes
"""
import argparse
import collections
import os
import pathlib
import resource
import shutil
import subprocess
import sys
import threading
import time

ROOT = pathlib.Path(__file__).resolve().parents[1]
sys.dont_write_bytecode, sys.path[0] = True, str(ROOT)
from tools import proved  # noqa: E402
from tools.outside import BAR, OF_TESTS, PROGRAM, STEPS, count, finish, outcome, outside, run, seed_of_commit  # noqa: E402

# How many units the gate may take where all is proved from nothing.
BUDGET = 115
# How much memory a prover may need, in GiB.
ROOM = 5


class Provers(threading.Thread):
    """Looks twice a second at the provers of this run, and keeps the processor seconds of each. On a terminal it tells
    which are at work."""

    def __init__(self, unit):
        super().__init__(daemon=True)
        self.seen, self.now, self.ended, self.unit, self.began = {}, set(), threading.Event(), unit, time.monotonic()

    def run(self):
        while not self.ended.wait(0.5):
            self.now = set()
            for folder in pathlib.Path("/proc").glob("[0-9]*"):
                self.look(folder)
            if self.now and BAR.shows:
                BAR.write(self.line())

    def line(self):
        """What is at work, for how long, and at most how long still at this pace."""
        spent, used = (time.monotonic() - self.began) / 60, sum(self.seen.values()) / 60
        left = max(0, BUDGET * self.unit - used) * spent / used if used > self.unit else None
        still = f"; at most about {left:.0f} min still" if left is not None else ""
        return f"{spent:.0f} min; at work: {', '.join(sorted(f'{what} of {crate}' for crate, what in self.now))}{still}"

    def look(self, folder):
        """Keeps what one process has taken, if it is a prover of this run."""
        try:
            words = (folder / "cmdline").read_text(errors="replace").split("\0")
            if "--crate-name" in words and self.is_own(folder.name):
                crate = words[words.index("--crate-name") + 1]
                what = self.what(words, os.readlink(folder / "cwd"))
                took = self.stat(folder.name)[11:13]
                self.now.add((crate, what))
                self.seen[crate, what, folder.name] = sum(map(int, took)) / os.sysconf("SC_CLK_TCK")
        except (OSError, IndexError):
            # it has ended meanwhile
            pass

    @staticmethod
    def stat(process):
        """What the system tells of a process, behind its name."""
        return pathlib.Path(f"/proc/{process}/stat").read_text().rpartition(")")[2].split()

    def is_own(self, process):
        """Whether a process was started from here: others may prove on the same machine meanwhile."""
        while process not in ("0", str(os.getpid())):
            process = self.stat(process)[1]
        return process != "0"

    @staticmethod
    def what(words, room):
        """What a prover is at: tests are proved in their crate's folder, as it is, and an edit is tried in a copy of it."""
        if "--test" in words:
            return "tests"
        return "proofs" if pathlib.Path(room).is_relative_to(pathlib.Path.cwd()) else "edits"

    def end(self):
        self.ended.set()
        self.join()
        BAR.pass_on("")

    def told(self, by):
        """The minutes by crate, or by what was done, the dearest first."""
        minutes = collections.Counter()
        for key, seconds in self.seen.items():
            minutes[key[by]] += seconds / 60
        return ", ".join(f"{name} {taken:.1f}" for name, taken in minutes.most_common()) or "none"


def side_by_side():
    """How many provers run side by side, as far as memory goes: two, or one for two processors where there are more than four,
    since a machine's processors are often the threads of half as many cores. On four of those, three provers side by side took
    1.17 times the processor time of two, and proved hardly more in an hour; rt would give idle ones to a single proof, which
    takes a third more."""
    memory = os.sysconf("SC_PAGE_SIZE") * os.sysconf("SC_PHYS_PAGES") / 2**30
    processors = os.cpu_count() or 1
    return max(1, min(processors, max(2, processors // 2), int(memory / ROOM)))


def processor_minutes():
    """The processor time of all commands so far."""
    used = resource.getrusage(resource.RUSAGE_CHILDREN)
    return (used.ru_utime + used.ru_stime) / 60


def selftest():
    """How many processor minutes the kit's own test takes now, and whether it passed."""
    before = processor_minutes()
    _, status, _ = run(["rt", "selftest"])
    return processor_minutes() - before, status == 0


def build():
    """Sees that the proved programs are there: rt ci leaves them. What it counts is a failure for each that is not."""
    lacking = [path for path in (PROGRAM, STEPS) if not os.path.exists(path)]
    return [0, sum(run(["tools/build.py", pathlib.Path(path).name])[1] != 0 for path in lacking)]


def keeps():
    """Whether this kit's rt ci keeps what it passed, and so has a word by which it keeps nothing. Its help comes on either
    stream."""
    told = subprocess.run(["rt", "help"], stdout=subprocess.PIPE, stderr=subprocess.STDOUT, text=True, errors="replace")
    return "--anew" in told.stdout


def gate(anew):
    """Proves all, or all that this machine has not passed before, and marks the programs where nothing failed. What it
    counts, and what it says of how much it did."""
    sources = {name: proved.digest(name) for name in proved.PROGRAMS}
    counted, share = outcome(["rt", "ci", *(["--anew"] if anew and keeps() else [])])
    for name in proved.PROGRAMS if not counted[1] else []:
        proved.leave(name, sources[name])
    return counted, share or ("rt ci did not pass" if counted[1] else "this kit's rt ci does not say how many were kept")


def main():
    os.chdir(ROOT)
    if not shutil.which("rt"):
        sys.exit("rt is missing: put the rt of the Rattle kit on the PATH")
    parser = argparse.ArgumentParser(usage="tools/gate.py [--anew] [--seed SEED]")
    parser.add_argument("--anew", action="store_true")
    parser.add_argument("--seed", type=int, default=seed_of_commit())
    asked = parser.parse_args()
    os.environ.setdefault("RT_JOBS", str(side_by_side()))
    print(f"seed of random tests: {asked.seed}; provers side by side: {os.environ['RT_JOBS']}", flush=True)
    unit, well = selftest()
    for path in (PROGRAM, STEPS):
        pathlib.Path(path).unlink(missing_ok=True)
    provers = Provers(unit)
    provers.start()
    counted, share = gate(asked.anew)
    counts = [counted, build()]
    provers.end()
    counts += [count(OF_TESTS), *outside(asked.seed)]
    used = processor_minutes() - unit
    again, still_well = selftest()
    unit = (unit + again) / 2
    counts.append([0, int(not well) + int(not still_well)])
    print(f"proofs and edits: {share}")
    print(f"minutes by crate: {provers.told(0)}")
    print(f"minutes by what was done: {provers.told(1)}")
    print(f"processor: {used:.1f} minutes, {unit:.2f} a unit, {used / unit:.1f} units")
    finish(counts)


main()
