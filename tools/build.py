#!/usr/bin/env python3
"""Proves and builds the program of a crate, as crates/NAME/out/NAME, unless its mark says that it was made of the sources
as they are. While it proves it tells on standard error how far it is, and else only what went wrong.

usage: tools/build.py NAME
"""
import os
import pathlib
import re
import shutil
import subprocess
import sys
import tempfile

ROOT = pathlib.Path(__file__).resolve().parents[1]
sys.dont_write_bytecode, sys.path[0] = True, str(ROOT)
from tools import proved  # noqa: E402
from tools.progress import Progress  # noqa: E402


def prove(name, log):
    """Proves a crate and those that it stands on, chains side by side, and gives the status of that."""
    jobs = proved.at_once()
    progress = Progress(proved.standing_on(name), jobs)
    words = ["rt", "all", "check", "--jobs", str(jobs)]
    room = proved.ROOT / "crates" / name
    with subprocess.Popen(words, cwd=room, stdout=subprocess.PIPE, stderr=subprocess.STDOUT, text=True,
                          errors="replace") as ran:
        for line in ran.stdout:
            log.write(line)
            if line.startswith("rt: waiting"):
                print(line, end="", file=sys.stderr, flush=True)
            ended = re.fullmatch(r"== (\w+)\n", line)
            if ended and ended[1] in progress.crates:
                progress.end(ended[1])
    progress.close()
    return ran.returncode


def build(name, log):
    """Builds the program, and runs it on what its folder gives it; the status of that."""
    print(f"building {name}", file=sys.stderr, flush=True)
    room = proved.ROOT / "crates" / name
    words = (room / "args").read_text().split("\n")[:-1] if (room / "args").exists() else []
    given = room / "stdin" if (room / "stdin").exists() else pathlib.Path(os.devnull)
    with open(given, "rb") as stdin:
        ran = subprocess.run(["rt", "run", "--", *words], cwd=room, stdin=stdin, stdout=subprocess.PIPE,
                             stderr=subprocess.STDOUT, text=True, errors="replace")
    log.write(ran.stdout)
    return ran.returncode


def main():
    if len(sys.argv) != 2:
        sys.exit(__doc__.strip().split("\n")[-1])
    if not shutil.which("rt"):
        sys.exit("rt is missing: put the rt of the Rattle kit on the PATH")
    name = sys.argv[1]
    if proved.fits(name):
        return
    sources = proved.digest(name)
    with tempfile.TemporaryFile("w+", encoding="utf-8") as log:
        if prove(name, log) or build(name, log):
            log.seek(0)
            sys.stderr.write(log.read())
            sys.exit(1)
    proved.leave(name, sources)


main()
