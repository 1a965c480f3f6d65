"""Proved programs: what they are made of, and the marks beside them that tell of which sources they were made.

A mark lies in the crate's out/, which git passes over. It is left by a finished proof alone (tools/build.py, tools/gate.py).
"""
import hashlib
import os
import pathlib
import re
import subprocess

ROOT = pathlib.Path(__file__).resolve().parents[1]
# The crates that are programs.
PROGRAMS = ("rv_app", "rv_steps")
# How much memory the proof of a crate may take.
PROOF_BYTES = 3 << 30
# What a crate's folder holds that no program is made of.
BESIDE = ("README.md", "out", "must-fail", "edits", "test-edits")


def at_once():
    """How many crates to prove side by side: one for each processor, as far as the free memory goes."""
    free = re.search(r"MemAvailable: +(\d+)", pathlib.Path("/proc/meminfo").read_text())
    return max(1, min(len(os.sched_getaffinity(0)), int(free[1]) * 1024 // PROOF_BYTES))


def standing_on(name):
    """The crates that a program is made of by crates.txt, itself the last, and each behind those that it stands on."""
    uses = {}
    for line in (ROOT / "crates.txt").read_text(encoding="utf-8").split("\n"):
        head, colon, rest = line.partition("#")[0].partition(":")
        if colon:
            uses[head.split()[0]] = rest.split()
    found = []

    def add(crate):
        for lower in uses[crate]:
            if lower in uses:
                add(lower)
        if crate not in found:
            found.append(crate)

    add(name)
    return found


def digest(name):
    """A sum over all that a program is made of: the toolchain, crates.txt, HANDLES, and the files of its crates."""
    paths = [ROOT / "crates.txt", ROOT / "HANDLES"]
    for crate in standing_on(name):
        folder = ROOT / "crates" / crate
        inside = [path for path in folder.rglob("*") if path.relative_to(folder).parts[0] not in BESIDE]
        paths += sorted(path for path in inside if path.is_file())
    version = subprocess.run(["rt", "version"], capture_output=True, check=True).stdout
    parts = [("rt version", version), *((str(path.relative_to(ROOT)), path.read_bytes()) for path in paths)]
    whole = hashlib.sha256()
    for label, content in parts:
        whole.update(f"{label}: {len(content)}\n".encode() + content)
    return whole.hexdigest()


def program(name):
    """Where the program of a crate is."""
    return ROOT / "crates" / name / "out" / name


def marked(name, sources):
    """What a mark says of the program that is there, where it was made of these sources."""
    return f"sources {sources}\nprogram {hashlib.sha256(program(name).read_bytes()).hexdigest()}\n"


def fits(name):
    """Whether a program is there, and its mark says of it that it was made of the sources as they are."""
    mark = program(name).with_suffix(".mark")
    return mark.is_file() and program(name).is_file() and mark.read_text() == marked(name, digest(name))


def leave(name, sources):
    """Marks a program whose proof has finished, unless its sources are others than when the proof began."""
    if program(name).is_file() and digest(name) == sources:
        program(name).with_suffix(".mark").write_text(marked(name, sources))
