#!/usr/bin/env python3
"""Proves what changed since the last check, with all programs, and then runs the built program from outside. It tries no
edits and runs no test in Rattle: it is for the time of writing, and no gate.

usage: tools/check.py [--seed SEED]
"""
import argparse
import os
import pathlib
import shutil
import sys

ROOT = pathlib.Path(__file__).resolve().parents[1]
sys.dont_write_bytecode, sys.path[0] = True, str(ROOT)
from tools import proved  # noqa: E402
from tools.outside import finish, outside, run, seed_of_commit  # noqa: E402


def proofs():
    """Proves what changed since the last check, with all programs. What it counts: one for each."""
    commands = [["rt", "all", "check", "--jobs", str(proved.at_once())], *(["tools/build.py", name] for name in proved.PROGRAMS)]
    failed = sum(run(words)[1] != 0 for words in commands)
    return [len(commands) - failed, failed]


def main():
    os.chdir(ROOT)
    if not shutil.which("rt"):
        sys.exit("rt is missing: put the rt of the Rattle kit on the PATH")
    parser = argparse.ArgumentParser(usage="tools/check.py [--seed SEED]")
    parser.add_argument("--seed", type=int, default=seed_of_commit())
    asked = parser.parse_args()
    print(f"seed of random tests: {asked.seed}", flush=True)
    counts = [proofs()]
    finish(counts if counts[0][1] else counts + outside(asked.seed))


main()
