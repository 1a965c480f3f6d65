#!/usr/bin/env python3
"""Writes what the documents say of all crates from two sources: the sections of crates.txt, and each crate's one sentence, the
first of the comment that its src/lib.rt or src/main.rt begins with. It writes crates/README.md, in which the number of lines that
a crate may have stays as it is, and the first paragraph of each crate's page.

usage: tools/crates.py [--check]

With --check it writes nothing, names each file that differs, and ends by 1 if one does.
"""
import pathlib
import re
import sys
import textwrap
from typing import Dict, Iterator, List, NamedTuple, Tuple

ROOT = pathlib.Path(__file__).resolve().parents[1]
CRATES = ROOT / "crates"
INDEX = CRATES / "README.md"
# How wide a line of a document is at most.
WIDTH = 128
INDEX_HEAD = """# The crates

The lowest first, each with how many lines its `src` may have; `crates.txt` says which stand on which. Each sees only the
contracts of those below it.
"""
# What a row begins with: the crate, with or without a link, and its lines at most.
INDEX_ROW = re.compile(r"^- \[?(rv_\w+)(?:\]\([^)]*\))? \(([\d,]+)\): ", re.MULTILINE)


class Wrong(Exception):
    """What the sources lack."""


class Section(NamedTuple):
    """A section of crates.txt: its title, and its crates, the lowest first."""

    title: str
    crates: List[str]


def sections() -> List[Section]:
    """The paragraphs of crates.txt that list crates; comments before the first crate are the title."""
    found = []
    for paragraph in (ROOT / "crates.txt").read_text(encoding="utf-8").split("\n\n"):
        lines = paragraph.strip().split("\n")
        names = [line.split(":")[0].split()[0] for line in lines if re.match(r"\w[^:]*:", line)]
        title = " ".join(line.lstrip("# ") for line in lines if line.startswith("#")).rstrip(".")
        if names:
            found.append(Section(title, names))
    return found


def sentence(crate: str) -> str:
    """A crate's one sentence."""
    root = next((path for path in (CRATES / crate / "src/lib.rt", CRATES / crate / "src/main.rt") if path.exists()), None)
    lines: List[str] = []
    for line in root.read_text(encoding="utf-8").split("\n") if root else []:
        if not re.match(r"//! *\S", line):
            break
        lines.append(line[3:].strip())
    found = re.match(r".+?\.(?=\s|$)", " ".join(lines))
    if not found:
        raise Wrong(f"crates/{crate}: its root file doesn't begin by a sentence in a comment //!")
    return found[0]


def limits() -> Dict[str, str]:
    """How many lines each crate may have, by crates/README.md as it is."""
    return dict(INDEX_ROW.findall(INDEX.read_text(encoding="utf-8")))


def wrapped(text: str, indent: str = "") -> str:
    """A text in lines of a document."""
    return textwrap.fill(text, WIDTH, subsequent_indent=indent, break_long_words=False, break_on_hyphens=False)


def index(found: List[Section]) -> str:
    """The text of crates/README.md."""
    parts, most = [INDEX_HEAD], limits()
    lacking = [crate for section in found for crate in section.crates if crate not in most]
    if lacking:
        raise Wrong(f"crates/README.md has no row for {', '.join(lacking)}, with its lines at most: - NAME (LINES): ..")
    for section in found:
        rows = [wrapped(f"- {linked(crate)} ({most[crate]}): {sentence(crate)}", "  ") for crate in section.crates]
        parts.append("\n".join([f"## {section.title}", "", *rows, ""]))
    return "\n".join(parts)


def linked(crate: str) -> str:
    """A crate's name, which leads to its page if it has one."""
    return f"[{crate}]({crate}/README.md)" if (CRATES / crate / "README.md").exists() else crate


def page(crate: str) -> str:
    """The text of a crate's page: its sentence stands between the heading and what begins by a mark, as **Contract**."""
    head, _, rest = (CRATES / crate / "README.md").read_text(encoding="utf-8").partition("\n\n")
    first, _, after = rest.partition("\n\n")
    body = rest if first.startswith(("**", "#", "- ", "|")) else after
    return "\n\n".join([head, wrapped(sentence(crate)), body] if body else [head, wrapped(sentence(crate)) + "\n"])


def written() -> Iterator[Tuple[pathlib.Path, str]]:
    """Each file that is written, with the text that it is to have."""
    found = sections()
    crates = [crate for section in found for crate in section.crates]
    yield INDEX, index(found)
    for crate in crates:
        if (CRATES / crate / "README.md").exists():
            yield CRATES / crate / "README.md", page(crate)


def main() -> None:
    """Writes the files, or says which differ."""
    if sys.argv[1:] not in ([], ["--check"]):
        sys.exit((__doc__ or "").strip().split("\n\n")[1])
    try:
        differing = {path: text for path, text in written() if path.read_text(encoding="utf-8") != text}
    except Wrong as fault:
        sys.exit(str(fault))
    for path, text in differing.items():
        if sys.argv[1:]:
            print(f"{path.relative_to(ROOT)} isn't what tools/crates.py writes")
        else:
            path.write_text(text, encoding="utf-8")
    sys.exit(bool(differing and sys.argv[1:]))


if __name__ == "__main__":
    main()
