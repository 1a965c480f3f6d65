#!/usr/bin/env python3
"""Draws a play as a sequence of packets, or an account as who waited and who met, in SVG on standard output.

usage: tools/draw.py play EVENTS RESULTS          lines of `rv play`, and what it printed for them
       tools/draw.py account [--mark PLACE] [--from PLACE] [--to PLACE] [--queue Q] < ACCOUNT
  --mark PLACE         the place to show, as of a fault
  --from, --to PLACE   only the entries from here, to there
  --queue Q            only requests of this queue, and what ends them
"""
import pathlib
import sys

ROOT = pathlib.Path(__file__).resolve().parents[1]
sys.dont_write_bytecode, sys.path[0] = True, str(ROOT)
from tools.drawing.accounts import draw_account  # noqa: E402
from tools.drawing.plays import draw_play  # noqa: E402

OPTIONS = ("--mark", "--from", "--to", "--queue")
# More entries than a browser shows well.
MANY = 5_000


def usage():
    """Ends, for want of words that mean something."""
    sys.exit("usage: " + __doc__.split("usage: ")[1].rstrip())


def numbers(words):
    """The options of an account, each with its number."""
    if len(words) % 2 or not set(words[::2]) <= set(OPTIONS) or not all(word.isdecimal() for word in words[1::2]):
        usage()
    return {name: int(word) for name, word in zip(words[::2], words[1::2])}


def account(words):
    """The picture of the account on standard input."""
    asked = numbers(words)
    window = (asked.get("--from", 0), asked.get("--to", float("inf")))
    lines = sys.stdin.read().splitlines()
    if not lines:
        sys.exit("there is no account on standard input")
    if len(lines) > MANY and asked.keys() <= {"--mark"}:
        print(f"{len(lines) - 1} entries: --from, --to and --queue draw some of them", file=sys.stderr)
    return draw_account(lines, asked.get("--mark"), window, asked.get("--queue"))


def main():
    what, words = (sys.argv[1:2] or [""])[0], sys.argv[2:]
    if what == "account":
        sys.stdout.write(account(words))
    elif what == "play" and len(words) == 2:
        sys.stdout.write(draw_play(*(pathlib.Path(word).read_text(encoding="utf-8").splitlines() for word in words)))
    else:
        usage()


main()
