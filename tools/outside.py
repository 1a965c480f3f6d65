"""The commands that run the program from outside, how each of them is run and counted, and what is told of all."""
import os
import re
import shutil
import subprocess
import sys
import threading

from tests import left_out

PROGRAM = "crates/rv_app/out/rv_app"
# The program for tests: a machine's steps under limits of one's own, a hub's events, what bodies are read as, and JSON that is
# written back.
STEPS = "crates/rv_steps/out/rv_steps"
# The seed where there is no commit.
NO_COMMIT = 1
# What runs the tests from outside.
RUNNER = [sys.executable, "-B", "-m", "tests"]
# The tests in Rattle, as rt ci has built them, with growths refused.
OF_TESTS = [*RUNNER, "faults.refusals"]


class Bar:
    """A line at the bottom of a terminal, which the next line takes away."""

    def __init__(self):
        self.shows = sys.stdout.isatty()
        self.lock = threading.Lock()

    def write(self, words):
        """Writes it in place of the last one."""
        with self.lock:
            print(f"\r\033[K{words[:shutil.get_terminal_size().columns - 1]}", end="", flush=True)

    def pass_on(self, line):
        """Prints a line above it."""
        with self.lock:
            print(("\r\033[K" if self.shows else "") + line, end="", flush=True)


BAR = Bar()
# What the commands so far left out for want of a tool.
missed = []


# What rt ci says of edits that don't compile: it lets them pass, and here each is a failure, since it shows nothing.
BAD_EDITS = re.compile(r"rt: note: bad must-fail edits, as told above: (\d+)\..*\n")


def run(words):
    """Runs a command, shows what it prints, and gives the numbers of its last line that counts, its status, and what it
    says of how much it did and how much was kept, where it says that. An edit that is bad counts as failed."""
    print(f"== {' '.join(words)}", flush=True)
    counted = share = None
    bad = 0
    with subprocess.Popen(words, stdout=subprocess.PIPE, stderr=subprocess.STDOUT, text=True, errors="replace") as ran:
        for line in ran.stdout:
            BAR.pass_on(line)
            counted = re.fullmatch(r"(\d+) passed, (\d+) failed\n", line) or counted
            share = re.fullmatch(r"rt: ok; .*; ((?:done in this run:|every proof) .*)\n", line) or share
            bad += sum(map(int, BAD_EDITS.findall(line)))
            missed.extend(filter(None, [left_out.heard(line)]))
    numbers = counted and [int(counted[1]), int(counted[2]) + bad]
    return numbers, ran.returncode, share and share[1]


def count(words):
    """What a command counted."""
    return outcome(words)[0]


def outcome(words):
    """What a command counted, and what it says of how much it did. One that counts nothing, or ends badly and counts no
    failure, has failed itself."""
    counted, status, share = run(words)
    if counted is None:
        print(f"{words[0]} did not come to its end")
        return [0, 1], share
    passed, failed = counted
    return [passed, failed or int(status != 0)], share


def outside(seed):
    """What the runs of the programs from outside count, where they are there, and the documents. The tests run one after another, and
    then what judges them."""
    asked = [*RUNNER, "--seed", str(seed), "--program", PROGRAM, "--steps", STEPS]
    runs = [asked, [*asked, "--selftest"]] if all(map(os.path.exists, (PROGRAM, STEPS))) else []
    return [count(words) for words in [*runs, ["tools/docs.py"]]]


def seed_of_commit():
    """The seed of random tests: a number that the commit names."""
    ran = subprocess.run(["git", "rev-parse", "HEAD"], capture_output=True, text=True)
    return int(ran.stdout[:5], 16) if ran.returncode == 0 else NO_COMMIT


def finish(counts):
    """Tells what was left out, and all that was counted, and ends."""
    passed, failed = map(sum, zip(*counts))
    print(left_out.summary(missed))
    print(f"{passed} passed, {failed} failed")
    sys.exit(failed > 0)
