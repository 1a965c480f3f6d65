#!/usr/bin/env python3
"""Tries the edits of crates/*/edits, each of which the prover must refuse, and then those of crates/*/test-edits, each of
which a test must see, in a copy of the repository.

One check tries many of them at once: edits of different functions, each of which has a contract of its own. An edit is
refused where the function that it changes isn't proved. What a check leaves open, since a function below has an edit too,
goes to the next; what it can't tell, or takes for proved, is tried alone, and is then refused where any function isn't
proved. An edit that is refused at no goal, since a proof names what it took away, has failed. What `rt check` kept in
out/ is copied, so that only what an edit changes is proved.

An edit that a test must see is a wrong body that no contract shows. It is tried alone: the test that it names, or the program
that this runs from outside, is built with nothing proved, and the test has to fail; as the code is, it has to pass, and so
do all tests of its crate.

usage: tools/edits.py [--must-fail] [CRATE..]
  --must-fail   the edits of crates/*/must-fail in their place, which the gate tries one by one
"""
import argparse
import contextlib
import os
import pathlib
import re
import shlex
import shutil
import signal
import subprocess
import sys
import tempfile
import time

ROOT = pathlib.Path(__file__).resolve().parents[1]
sys.dont_write_bytecode, sys.path[0] = True, str(ROOT)
from tools.edit_files import Edit  # noqa: E402
from tools.outside import RUNNER  # noqa: E402

# How many edits a check tries at most: the goals of all of them lie in memory together.
AT_ONCE = 16
# What the prover says of a function: it is proved, or has open goals, or calls one that isn't proved.
VERDICT = re.compile(r"fn (\S+): (not proved|no proof: it calls|no proof|proved)")
OPEN = ("not proved", "no proof")
# Where it names an open goal: in a file of answers, or before the function's verdict.
ANSWER = re.compile(r"(?:\./)?proofs/(\S+)/\w+\.antt:\d+:\d+: error: `([\w-]+)`")
GOAL = re.compile(r"note: src/\S+: .*\(`([\w-]+)`\)")
# Where a proof names what an edit took away.
MISSING = re.compile(r"has no field|is not in scope|has no `|was not admitted")
# The words of a program that runs until it is copied: `rt try` keeps none.
IDLE = ["serve", "--listen", "127.0.0.1:0", "--epoch", "1", "--workers", "1", "--connections", "1"]
# How long a test from outside waits for a program that may never answer, in seconds.
SHORT = "30"


def copy(to):
    """Copies the files of the working tree that git knows or would take, and what checks kept."""
    words = ["git", "ls-files", "-coz", "--exclude-standard"]
    listed = subprocess.run(words, cwd=ROOT, capture_output=True, check=True)
    for name in filter(None, os.fsdecode(listed.stdout).split("\0")):
        if (ROOT / name).is_file():
            (to / name).parent.mkdir(parents=True, exist_ok=True)
            shutil.copy2(ROOT / name, to / name)
    for kept in ROOT.glob("crates/*/out"):
        shutil.copytree(kept, to / kept.relative_to(ROOT), symlinks=True, dirs_exist_ok=True)


@contextlib.contextmanager
def changed(folder, texts):
    """A crate's folder has these texts in place of its own."""
    before = {at: (folder / at).read_text(encoding="utf-8") for at in texts}
    for at, text in texts.items():
        (folder / at).write_text(text, encoding="utf-8")
    try:
        yield
    finally:
        for at, text in before.items():
            (folder / at).write_text(text, encoding="utf-8")


def run_with(folder, texts, words, room):
    """What a command prints where it runs, in a room of its own, with these texts in place of those of a crate's folder."""
    with changed(folder, texts):
        ran = subprocess.run(words, cwd=room, stdout=subprocess.PIPE, stderr=subprocess.STDOUT, text=True, errors="replace")
    return ran.stdout


class Trial:
    """The edits of one crate, tried in a copy of its folder."""

    def __init__(self, folder, edits):
        self.folder, self.edits = folder, edits
        self.refused, self.passed = 0, 0

    def say(self, edit, text, is_refused):
        print(f"{self.folder.name}/{edit.name}: {text}", flush=True)
        self.refused += is_refused
        self.passed += not is_refused

    def say_refused(self, edit, failed, goals):
        told = [f"{name} ({', '.join(goals[name])})" for name in failed if goals.get(name)]
        none = "NO GOAL: a proof names what the edit took away, which says nothing of the contract"
        self.say(edit, f"refused, at {'; '.join(told)}" if told else none, bool(told))

    def checked(self, texts):
        """What a check says with these texts in place of the crate's own: verdict and open goals by function; its lines."""
        said = run_with(self.folder, texts, ["rt", "check"], self.folder)
        return *self.read(said.split("\n")), said

    def read(self, lines):
        """The verdicts and the open goals that these lines tell, by function."""
        verdicts, goals, before = {}, {}, []
        for line in lines:
            if (found := ANSWER.match(line)) and not MISSING.search(line):
                goals.setdefault(f"{self.folder.name}::{found[1].replace('/', '::')}", []).append(found[2])
            elif found := GOAL.match(line):
                before.append(found[1])
            elif found := VERDICT.match(line):
                verdicts[found[1]] = found[2]
                goals.setdefault(found[1], []).extend(before)
                before = []
        return verdicts, goals

    def batch(self, edits):
        """The first edits that can stand in one check, with their functions, and the texts with all of them."""
        taken, texts, used = [], {}, set()
        for edit in edits:
            functions = {pattern.pattern for pattern in edit.functions() if pattern}
            together = edit.applied(texts)
            if together and not functions & used:
                taken, texts, used = taken + [edit], together, used | functions
            if len(taken) == AT_ONCE:
                break
        return taken, texts

    def alone(self, edit):
        """Tries one edit by itself."""
        verdicts, goals, said = self.checked(edit.applied({}))
        failed = [name for name, verdict in verdicts.items() if verdict in OPEN]
        if failed:
            self.say_refused(edit, failed, goals)
        elif verdicts:
            self.say(edit, "NOT REFUSED: the crate is still proved with this edit", False)
        else:
            why = next((line for line in said.split("\n") if ": error" in line), said[:200])
            self.say(edit, f"BAD EDIT: it didn't reach the prover: {why}", False)

    def together(self, edits, texts):
        """Tries edits in one check, and gives those on which it says nothing."""
        verdicts, goals, _ = self.checked(texts)
        if not verdicts and len(edits) > 1:
            # one of them can't be read: halves find it
            halves = [edits[:len(edits) // 2], edits[len(edits) // 2:]]
            return [left for half in halves for left in self.together(*self.batch(half))]
        left = []
        for edit in edits:
            patterns = [pattern for pattern in edit.functions() if pattern]
            names = [name for name in verdicts if any(pattern.fullmatch(name) for pattern in patterns)]
            failed = [name for name in names if verdicts[name] in OPEN]
            if failed:
                self.say_refused(edit, failed, goals)
            elif any(verdicts[name] != "proved" for name in names):
                left.append(edit)
            else:
                self.alone(edit)
        return left

    def run(self):
        """Tries all of them."""
        left = [edit for edit in self.edits if not edit.wrong]
        for edit in self.edits:
            if edit.wrong:
                self.say(edit, f"BAD EDIT: {edit.wrong}", False)
        while left:
            taken, texts = self.batch(left)
            open_still = self.together(taken, texts)
            left = [edit for edit in left if edit not in taken or edit in open_still]
            if open_still == taken:
                self.alone(taken[0])
                left.remove(taken[0])
        return self.refused, self.passed


def try_edits(root, crate, kind):
    """Tries one crate's edits in the copy, and gives how many were refused and how many were not."""
    folder = root / "crates" / crate
    edits = [Edit(path, folder) for path in sorted((folder / kind).glob("*.edit"))]
    print(f"== {crate}: {len(edits)} edits", flush=True)
    if subprocess.run(["rt", "check"], cwd=folder, stdout=subprocess.DEVNULL, stderr=subprocess.DEVNULL).returncode:
        print(f"{crate} isn't proved as it is")
        return 0, len(edits)
    return Trial(folder, edits).run()


def is_below(process, top):
    """Whether a process was started by another one, or by one below that."""
    while process not in ("0", top):
        process = pathlib.Path(f"/proc/{process}/stat").read_text().rpartition(")")[2].split()[1]
    return process == top


def idle_below(top):
    """The process that runs a built program below another one, and the words that it runs it by, if there is one."""
    for folder in pathlib.Path("/proc").glob("[0-9]*"):
        try:
            words = os.fsdecode((folder / "cmdline").read_bytes()).split("\0")[:-1]
            front = words[:-len(IDLE)]
            if words[len(front):] == IDLE and front and os.path.isfile(front[-1]) and is_below(folder.name, top):
                return int(folder.name), front
        except (OSError, IndexError):
            # it has ended meanwhile
            pass
    return None


def tried_program(root, folder):
    """Builds the program as it is written, with nothing proved: a script in this folder that runs it, if it could be built."""
    words = {"cwd": root / "crates/rv_app", "stdout": subprocess.DEVNULL, "stderr": subprocess.DEVNULL}
    with subprocess.Popen(["rt", "try", "--", *IDLE], **words) as ran:
        while ran.poll() is None:
            found = idle_below(str(ran.pid))
            if found:
                process, (*front, program) = found
                shutil.copy(program, folder / "program")
                os.kill(process, signal.SIGTERM)
                script = folder / "rv"
                script.write_text(f'#!/bin/sh\nexec {shlex.join([*front, str(folder / "program")])} "$@"\n')
                script.chmod(0o755)
                ran.wait()
                return script
            time.sleep(0.2)
    return None


def ran_outside(root, program, test):
    """How many checks of a test from outside passed and failed on a program: none where it doesn't tell."""
    words = [*RUNNER, "--program", program, test]
    said = subprocess.run(words, cwd=root, capture_output=True, text=True, errors="replace",
                          env={**os.environ, "RV_PATIENCE": SHORT}).stdout
    told = re.search(r"(\d+) passed, (\d+) failed\n\Z", said)
    return (int(told[1]), int(told[2])) if told else (0, 0)


def passes_outside(root, tests):
    """Whether tests from outside pass as the code is."""
    with tempfile.TemporaryDirectory(prefix="tried-") as folder:
        program = tried_program(root, pathlib.Path(folder)) if tests else None
        for test in tests:
            passed, failed = ran_outside(root, program, test) if program else (0, 0)
            if failed or not passed:
                print(f"{test}: it fails as the code is")
                return False
    return True


def seen_outside(root, edit):
    """Whether a test from outside fails with an edit, and what is to be said of that."""
    with tempfile.TemporaryDirectory(prefix="tried-") as folder:
        with changed(edit.folder, edit.applied({})):
            program = tried_program(root, pathlib.Path(folder))
        passed, failed = ran_outside(root, program, edit.test) if program else (0, 0)
    if failed:
        return True, f"seen by {edit.test}"
    return False, f"NOT SEEN: {edit.test} passes with this edit" if passed else f"BAD EDIT: {edit.test} didn't run to its end"


def seen(root, edit):
    """Whether the test that must see an edit fails with it, and what is to be said of that."""
    if edit.wrong or not edit.test_stands():
        return False, f"BAD EDIT: {edit.wrong or f'there is no test {edit.test}'}"
    if edit.outside():
        return seen_outside(root, edit)
    crate, name = edit.test.split("::", 1)
    said = run_with(edit.folder, edit.applied({}), ["rt", "try", "--test", "--", name], root / "crates" / crate)
    if f"test {name} ... FAILED" in said:
        return True, f"seen by {edit.test}"
    if f"test {name} ... ok" in said:
        return False, f"NOT SEEN: {edit.test} passes with this edit"
    why = next((line for line in said.split("\n") if "error" in line), said[-200:])
    return False, f"BAD EDIT: {edit.test} didn't run to its end: {why}"


def try_by_tests(root, crates):
    """Tries these crates' edits that a test must see, and gives how many were seen and how many were not."""
    paths = [path for crate in crates for path in sorted((root / "crates" / crate / "test-edits").glob("*.edit"))]
    edits = [Edit(path, path.parent.parent) for path in paths]
    print(f"== {len(edits)} edits that a test must see", flush=True)
    if not passes_outside(root, sorted({edit.outside() for edit in edits if edit.outside() and edit.test_stands()})):
        return 0, len(edits)
    for crate in sorted({edit.test.split("::")[0] for edit in edits if edit.test_stands() and not edit.outside()}):
        if "; 0 failed" not in run_with(root, {}, ["rt", "try", "--test"], root / "crates" / crate):
            print(f"{crate}: a test fails as the code is")
            return 0, len(edits)
    counts = [0, 0]
    for edit in edits:
        is_seen, text = seen(root, edit)
        print(f"{edit.folder.name}/{edit.name}: {text}", flush=True)
        counts[not is_seen] += 1
    return tuple(counts)


def main():
    parser = argparse.ArgumentParser(description="Tries edits that the prover must refuse, and those that a test must see.")
    parser.add_argument("--must-fail", action="store_true", help="the gate's edits")
    parser.add_argument("crates", nargs="*", help="the crates; none: all")
    words = parser.parse_args()
    kind = "must-fail" if words.must_fail else "edits"
    if not shutil.which("rt"):
        sys.exit("rt is missing: put the rt of the Rattle kit on the PATH")
    with tempfile.TemporaryDirectory(prefix="edits-") as folder:
        root = pathlib.Path(folder)
        copy(root)
        crates = sorted({path.parts[-3] for path in root.glob(f"crates/*/{kind}/*.edit")})
        counts = [try_edits(root, crate, kind) for crate in words.crates or crates]
        if not words.must_fail:
            every = sorted(path.name for path in root.glob("crates/*"))
            counts.append(try_by_tests(root, words.crates or every))
    refused, passed = map(sum, zip((0, 0), *counts))
    print(f"{refused} passed, {passed} failed")
    sys.exit(passed > 0)


if __name__ == "__main__":
    main()
