#!/usr/bin/env python3
"""Tells a hand-over over a bad link, as `rv play` plays it: the book and the clients are those that rv runs, the link is
the list of lines in examples/demo.play. Where no proved program is there it takes the code as it is written, which `rt try`
compiles, and proves nothing.

usage: tools/demo.py [PROGRAM]
"""
import pathlib
import shutil
import subprocess
import sys
import tempfile
import time

ROOT = pathlib.Path(__file__).resolve().parents[1]
sys.dont_write_bytecode, sys.path[0] = True, str(ROOT)
from tools import proved  # noqa: E402
from tools.story import Story, entry_words  # noqa: E402

PLAY, ACCOUNT = ROOT / "examples/demo.play", ROOT / "examples/handed.account"
ABOUT = "A hand-over over a bad link, by the book and the clients that rv runs. Of what is sent some is lost, and some comes late.\n"


def command(words):
    """How the program is run: one that is given, a proved one that is there, or the code as it is written."""
    if len(words) > 1:
        sys.exit("usage: tools/demo.py [PROGRAM]")
    if words:
        return [str(pathlib.Path(words[0]).resolve())]
    if not shutil.which("rt"):
        sys.exit("rt is missing: put the rt of the Rattle kit on the PATH")
    return [str(proved.program("rv_app"))] if proved.fits("rv_app") else ["rt", "try", "--"]


def begin(program, word, source):
    """Starts the program on a file; what it says on standard error is kept for a failure."""
    with open(source, "rb") as given:
        return subprocess.Popen([*program, word], cwd=ROOT / "crates/rv_app", stdin=given, stdout=subprocess.PIPE,
                                stderr=subprocess.PIPE, text=True)


def wait(runs, is_tried):
    """Waits for both runs, and where they are compiled first tells on a terminal for how long."""
    began = time.monotonic()
    while is_tried and any(run.poll() is None for run in runs):
        if sys.stderr.isatty():
            print(f"\rcompiling for {time.monotonic() - began:.0f} s", end="", file=sys.stderr, flush=True)
        time.sleep(0.2)
    if is_tried and sys.stderr.isatty():
        print("\r\033[K", end="", file=sys.stderr, flush=True)
    return [finish(run) for run in runs]


def finish(run):
    """The lines that a run printed. `rv audit` ends by 1 for an account that isn't legal, and then says which."""
    printed, said = run.communicate()
    if run.returncode and not printed:
        sys.exit(said.rstrip() or f"{' '.join(run.args)} ended by {run.returncode}")
    return printed.splitlines()


def tell(events, results):
    """Tells the play, what each client was told, and the account."""
    story = Story(events, results)
    print("\n".join(story.lines()))
    print("\nWhat each client was told, once and for ever:")
    print("\n".join(f"    client {client}: {told}" for client, all_told in story.told.items() for told in all_told))
    print("\nThe account, which is all that the book did, by place and moment:")
    print("\n".join(f"    {place}  {entry_words(line)}" for place, line in enumerate(story.entries)))
    return story.account()


def draw(results):
    """Draws the play into a new folder, and gives the picture's path."""
    folder = pathlib.Path(tempfile.mkdtemp(prefix="rv-demo-"))
    (folder / "results").write_text("".join(f"{line}\n" for line in results), encoding="utf-8")
    with open(folder / "demo.svg", "wb") as picture:
        subprocess.run([ROOT / "tools/draw.py", "play", PLAY, folder / "results"], stdout=picture, check=True)
    return folder / "demo.svg"


def main():
    program = command(sys.argv[1:])
    is_tried = program[0] == "rt"
    print(ABOUT, flush=True)
    if is_tried:
        print("The code is compiled as it is written, in a minute or two; nothing is proved.\n", flush=True)
    results, verdict = wait([begin(program, "play", PLAY), begin(program, "audit", ACCOUNT)], is_tried)
    account = tell(PLAY.read_text(encoding="utf-8").splitlines(), results)
    if account != ACCOUNT.read_text(encoding="utf-8").splitlines():
        sys.exit(f"\nThat is not the account of {ACCOUNT.relative_to(ROOT)}, which was audited.")
    print(f"The auditor's word on it: {verdict[0]}")
    print(f"\nA picture of it: {draw(results)}")
    if is_tried:
        print("\nNext, `make install PREFIX=$HOME/.local` proves all, in about 40 minutes on four cores, and README.md has a hand-over between\n"
              "two programs.")


main()
