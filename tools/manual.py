#!/usr/bin/env python3
"""Writes the manual page of rv, rv(1), from what the program's own help says of it and of each of its commands.

usage: tools/manual.py PROGRAM > rv.1
"""
import re
import subprocess
import sys
from typing import Iterator, List


def said(*words: str) -> str:
    """What the program prints for these words."""
    return subprocess.run(words, check=True, capture_output=True, text=True, timeout=60).stdout.strip("\n")


def commands(overview: str) -> List[str]:
    """The names of the commands that the overview lists, but for help itself."""
    listed = overview.partition("\nCommands:\n")[2].partition("\n\n")[0]
    names = re.findall(r"^ {2}(\w+)", listed, re.M)
    return [name for name in names if name != "help"]


def block(text: str) -> Iterator[str]:
    """Lines that stand as they are."""
    yield ".nf"
    for line in text.split("\n"):
        plain = line.replace("\\", "\\e").replace("-", "\\-")
        yield "\\&" + plain if plain.startswith((".", "'")) else plain
    yield ".fi"


def page(program: str) -> Iterator[str]:
    """The lines of the page."""
    overview = said(program, "help")
    names = commands(overview)
    if not names:
        sys.exit(f"{program} help lists no command")
    yield '.TH RV 1 "" "rv" "User Commands"'
    yield ".SH NAME"
    yield "rv \\- a rendezvous server, and what reads its records"
    yield ".SH SYNOPSIS"
    yield ".B rv"
    yield ".I COMMAND"
    yield "[options]"
    yield ".SH DESCRIPTION"
    yield from block(overview)
    yield ".SH COMMANDS"
    for name in names:
        yield f".SS rv {name}"
        yield from block(said(program, "help", name))


def main() -> None:
    if len(sys.argv) != 2:
        sys.exit(__doc__.strip().split("\n")[-1])
    print("\n".join(page(sys.argv[1])))


main()
