#!/usr/bin/env python3
"""Prints what stands in the repository anyway: which wrong bodies each crate is tried with, from the edits, or the words of the
specifications, from specs/.

usage: tools/tables.py edits | words
"""
import pathlib
import re
import sys

ROOT = pathlib.Path(__file__).resolve().parents[1]
DECLARED = re.compile(r"^ *(?:(?:abbrev|record|data|pub|unfoldable)\s+)*(?:abbrev|record|data|unfoldable)\s+(?:pub\s+)?([\w'-]+)", re.M)


def crates():
    """The folders of the crates, in the order of crates.txt."""
    lines = (ROOT / "crates.txt").read_text(encoding="utf-8").split("\n")
    return [ROOT / "crates" / re.match(r"\w+", line)[0] for line in lines if re.match(r"\w+.*:", line)]


def row(*cells):
    return f"| {' | '.join(cells)} |"


def table(header, rows):
    return [row(*header), f"|{'---|' * len(header)}", *rows]


def quoted(names):
    return ", ".join(f"`{name}`" for name in names)


def edits():
    """A row for each crate that has edits: those that the gate tries, how many more there are, which make edits tries, and those
    that no contract shows and a test must see."""
    rows = []
    for folder in crates():
        names = {kind: sorted(path.stem for path in (folder / kind).glob("*.edit"))
                 for kind in ("must-fail", "edits", "test-edits")}
        if any(names.values()):
            further = f"[{len(names['edits'])}](crates/{folder.name}/edits)" if names["edits"] else ""
            rows.append(row(folder.name, quoted(names["must-fail"]), further, quoted(names["test-edits"])))
    return table(["Crate", "The gate tries", "Beside it", "A test must see"], rows)


def first_sentence(text):
    """What the comment that a file begins with says first."""
    lines = []
    for line in text.split("\n"):
        if not line.startswith("-- "):
            break
        lines.append(line[3:].strip())
    return re.split(r"(?<=\w)[.;:](?: |$)", " ".join(lines))[0].replace("|", "\\|")


def modules(folder):
    """The modules of specs/ that a reader must agree with: the first group of specs/Lib, but what is for proofs alone."""
    path = folder / "specs/Lib.antt"
    groups = re.split(r"^--.*$", path.read_text(encoding="utf-8"), flags=re.M) if path.exists() else []
    names = re.findall(r"^pub mod (\w+)", next((group for group in groups if group.strip()), ""), re.M)
    texts = [(name, (folder / "specs" / f"{name}.antt").read_text(encoding="utf-8")) for name in names]
    return [(name, text) for name, text in texts if not re.search(r"private clauses|proofs", text.split("\nuse ")[0])]


def words():
    """A row for each module that a reader has to agree with: what it is about, and the words that it declares."""
    rows = []
    for folder in crates():
        for name, text in modules(folder):
            declared = list(dict.fromkeys(DECLARED.findall(text)))
            link = f"{folder.name} [{name}](crates/{folder.name}/specs/{name}.antt)"
            if declared:
                rows.append(row(link, first_sentence(text), quoted(declared)))
    return table(["File", "What it says", "Words"], rows)


def main():
    made = {"edits": edits, "words": words}
    if len(sys.argv) != 2 or sys.argv[1] not in made:
        sys.exit(__doc__.strip().split("\n\n")[1])
    print("\n".join(made[sys.argv[1]]()))


main()
