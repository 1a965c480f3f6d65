#!/usr/bin/env python3
"""Breaks each line of a file of proofs that is wider than 110 columns, at its blanks, and a wide import into several of the
same module. Run `rt fmt` behind it: that puts each part where it belongs.

usage: tools/wrap.py FILE..
"""
import pathlib
import re
import sys

WIDTH = 110
# A wide import.
IMPORT = re.compile(r"(pub )?use [^{]*\{[^{}]*\}$")
# How many columns further left a break may be for each bracket that it isn't inside of, for standing between two parts of
# a term, and for standing before an arrow of a statement.
BRACKET, PART, ARROW = 22, 14, 45
# What the next part begins with, what a part ends with, and what neither may be parted from.
BEGINS = ("→ ", "∙ ", "× ", "⊎ ")
ENDS = (" in", ";", ":", "=")
CLINGS_LEFT, CLINGS_RIGHT = (" λ", " ∷", "→", "↦", " let", "."), (":", "=", "≡", "in ", "as ")


def blanks(line):
    """The places of a line at which it may be broken, each with how many brackets are open there."""
    depth, quoted = 0, False
    for at, letter in enumerate(line):
        if letter == '"':
            quoted = not quoted
        elif not quoted:
            depth += (letter in "([{") - (letter in ")]}")
            if letter == " " and line[:at].strip():
                yield at, depth


def worth(line, at, depth):
    """How good a break is: far to the right, in few brackets, and between two parts."""
    before, after = line[:at], line[at + 1:]
    between = after.startswith(BEGINS) or before.endswith(ENDS)
    clings = before.endswith(CLINGS_LEFT) or after.startswith(CLINGS_RIGHT)
    arrow = depth == 0 and after.startswith("→ ")
    return at - BRACKET * depth + PART * between + ARROW * arrow - 3 * PART * clings


def imports(line):
    """A wide import in several that aren't."""
    head, names = line.rstrip("}").split("{")
    lines = []
    for name in names.split(", "):
        if lines and len(lines[-1]) + len(name) + 3 <= WIDTH:
            lines[-1] += f", {name}"
        else:
            lines.append(f"{head}{{{name}")
    return [f"{line}}}" for line in lines]


def parts(line):
    """A line in lines that are no wider than they may be, as far as it has blanks for that."""
    if len(line) > WIDTH and IMPORT.match(line):
        return imports(line)
    indent = " " * (len(line) - len(line.lstrip()))
    comment = line.lstrip().startswith("-- ")
    done = []
    while len(line) > WIDTH:
        places = [(at if comment else worth(line, at, depth), at)
                  for at, depth in blanks(line) if len(indent) + 8 < at <= WIDTH]
        if not places:
            break
        at = max(places)[1]
        done.append(line[:at].rstrip())
        line = indent + ("-- " if comment else "    ") + line[at:].lstrip()
    return [*done, line]


def main():
    """Breaks the lines of each file that is named."""
    if len(sys.argv) < 2:
        sys.exit(__doc__.split("\n\n")[1])
    for path in map(pathlib.Path, sys.argv[1:]):
        lines = path.read_text(encoding="utf-8").split("\n")
        path.write_text("\n".join(part for line in lines for part in parts(line)), encoding="utf-8")


if __name__ == "__main__":
    main()
