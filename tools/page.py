#!/usr/bin/env python3
"""Writes the page of a server's status into its crate, as the text that the program answers by: crates/rv_status/page/status.html
as src/page.rt. With --check it only looks whether that is done, and ends by 1 if not.

usage: tools/page.py [--check]
"""
import pathlib
import sys

CRATE = pathlib.Path(__file__).resolve().parents[1] / "crates/rv_status"
SOURCE, TARGET = CRATE / "page/status.html", CRATE / "src/page.rt"
# How many characters of the page a line of the source has at most.
WIDTH = 96
HEAD = '''//! The page for people, as tools/page.py writes it from page/status.html.

/// The bytes of the page.
pub(crate) const PAGE: &[u8] = b"\\
'''


def escaped(line: str) -> "list[str]":
    """A line of the page as lines of a literal: none begins by a space, which a literal that goes on drops."""
    pieces = []
    while line:
        cut = min(len(line), WIDTH)
        while cut < len(line) and line[cut] == " ":
            cut -= 1
        pieces.append(line[:cut].replace("\\", "\\\\").replace('"', '\\"'))
        line = line[cut:]
    return pieces


def source(page: str) -> str:
    """The text of the source. The page's own indents and blank ends of lines are left out."""
    lines = [line.strip() for line in page.split("\n") if line.strip()]
    pieces = [piece for line in lines for piece in [*escaped(line)[:-1], escaped(line)[-1] + "\\n"]]
    return HEAD + "".join(f"{piece}\\\n" for piece in pieces) + '";\n'


def main() -> None:
    page = SOURCE.read_text(encoding="ascii")
    if sys.argv[1:] == ["--check"]:
        sys.exit(0 if TARGET.read_text() == source(page) else "crates/rv_status/src/page.rt is old: run tools/page.py")
    if sys.argv[1:]:
        sys.exit(__doc__.strip().split("\n")[-1])
    TARGET.write_text(source(page))


main()
