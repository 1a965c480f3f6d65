#!/usr/bin/env python3
"""Checks what a machine can of the documents: words, pages, names, files, laws, edits, printed lists, public functions, links, limits,
rows of commands and of crates, lengths and the logic of the kit; that none says 'behind' for 'after'; that no source makes want of
memory of nothing.

usage: tools/docs.py [--behind]

With --behind it checks nothing, but lists the comments of sources, definitions and proofs that say 'behind' for 'after'.
"""
import collections
import pathlib
import re
import shutil
import subprocess
import sys
from typing import Iterator, List, Set, Tuple

ROOT = pathlib.Path(__file__).resolve().parents[1]
sys.dont_write_bytecode, sys.path[0] = True, str(ROOT)
from tools import edit_files, headings  # noqa: E402
from tests.catalog import BY_NAME, MODULES  # noqa: E402
from tools.crates import limits as limits_of_crates  # noqa: E402

MODEL = ROOT / "docs/MODEL.md"
FORMATS = ROOT / "docs/FORMATS.md"
ARCHITECTURE = ROOT / "docs/ARCHITECTURE.md"
TESTS_PAGE = ROOT / "tests/README.md"

# The rows of the tables of limits in FORMATS, by their first cell without marks, and the constant in the code that
# the greatest number of the second cell is.
LIMITS = {
    "client, epoch, incarnation, number, by_client, by_incarnation, by_number, current, open": "MAX_IDENTIFIER",
    "version": "Version::number",
    "queue, exchanger": "MAX_QUEUE",
    "item": "MAX_ITEM_BYTES",
    "texts": "MAX_DRAIN",
    "max": "MAX_DRAIN",
    "wait": "MAX_WAIT",
    "items, consumers": "MAX_COUNTED",
    "code": "Refusal::code",
    "current of code 12": "Version::number",
    "last": "MAX_IDENTIFIER",
    "a body": "MAX_BODY_BYTES",
    "a moment": "MAX_MOMENT",
    "clients in an epoch": "MAX_CLIENTS",
    "entries in an epoch": "MAX_ENTRIES",
    "input of a run over lines": "MAX_INPUT_BYTES",
    "frames on a connection": "MAX_FRAMES",
    "workers": "MAX_WORKERS",
    "pauses for one waiting request": "MAX_PAUSES",
}
# Constants that say a number of the table over again.
SAME = {"MAX_EXCHANGER": "MAX_QUEUE"}
# The folders of edits: those that the gate tries, all others that the prover must refuse, and those that a test must see.
KINDS = ("must-fail", "edits", "test-edits")
# Crates of tests and measurements, files of laws and of devices for tests, and what has no other body than its own.
TESTS = ("rv_tests", "rv_steps")
BESIDE = re.compile(r"src/(?:\w+/)*(?:laws|testing)\.rt:")
NO_WRONG_BODY = (r"\w+::swap::Swap\w*::new", r"\w+::wait_queues::WaitQueues\w*::empty", r"\w+::locked::(?:shared::)?Shared\w*::lock",
                 r"\w+::account::Account\w*::allocator", r"\w+::\w+::Verifier\w*::machine", r"\w+::records::Records\w*::new",
                 r"\w+::dispatcher::Dispatcher\w*::machine", r"\w+::dispatcher::Dispatcher\w*::wires",
                 r"\w+::hub::Hub\w*::machine", r"\w+::engine::Engine\w*::hub",
                 r"\w+::traffic::Switchboard\w*::engine", r"\w+::traffic::Switchboard\w*::links",
                 # what cells hold, of which no clause can speak
                 r"\w+::counted::AnswerTally\w*::begin_turn", r"\w+::counted::AnswerTally\w*::counts",
                 r"\w+::counted::AnswerTally\w*::fresh", r"\w+::counted::AnswerTally\w*::times",
                 # a socket and a file, of which no clause can speak
                 r"\w+::run::link::connected", r"\w+::keeping::checkpoint::make_checkpoint",
                 r"\w+::keeping::checkpoint::checkpoints_in")
# Names of types and definitions that two crates declare: in each they mean the same. Of `Item` one crate has what a producer
# hands over, the other what a frame was answered by; of `Clients` one has the sessions, the other the processes. Of `World` one
# has the definition, the other the type. `Fault` belongs to a trait, and an impl in another crate names it too.
SHARED = ("Clients", "Fault", "Item", "Made", "NoMemory", "Place", "Stamp", "World")
# How many lines and words the first page may have.
README_LINES, README_WORDS = 80, 700
# How many columns a line of the sources, of the definitions and of the proofs may have.
COLUMNS = 110
# Texts that make want of memory of nothing, and texts that do not.
GROWTHS = [
    (True, "Err(LineFault::NoMemory) => Err(AllocError),"),
    (True, "return Err(std::alloc::AllocError);"),
    (True, "let refused = AllocError;"),
    (True, "{ AllocError }"),
    (True, "f(1 < 2, AllocError)"),
    (True, "Err((text, AllocError))"),
    (True, "Err(NoMemory {})"),
    (True, "found.ok_or(AllocError {})?"),
    (True, "found.ok_or(AllocError)?"),
    (False, "use std::alloc::{AllocError, Global};"),
    (False, "pub type NoMemory = AllocError;"),
    (False, "impl From<AllocError> for RunFault { fn from(_error: AllocError) -> RunFault { RunFault::NoMemory } }"),
    (False, "fn room(alloc: Global) -> Result<Vec<u8>, AllocError> {"),
    (False, "fn refuse() -> AllocError"),
    (False, "found.map_err(AllocError::from)"),
    (False, "match found { Err(AllocError) => None, Ok(x) => Some(x) }"),
    (False, "if let Err(AllocError) = found {"),
    (False, "pub enum Fault { Bad, NoMemory(AllocError), Of { refused: AllocError } }"),
    (False, "// Err(AllocError)\nlet text = \"Err(AllocError)\";"),
]
# Names between backticks in MODEL that are of no definition and of no function.
NO_WORDS = ("rv", "serde_json", "timedout", "SynchronousQueue", "getWaitingConsumerCount")
# What may stand behind something, and texts that say 'behind' for 'after', and texts that do not.
IN_PLACE = re.compile(r"`[^`]*`|\b(?:lea\w+|left) behind\b|\bbehind (?:(?:an?|its|the|their) )?\[?(?:lock|proxy|sockets|tunnel)\b",
                      re.IGNORECASE)
LATE = [
    (True, "What holds behind each event."),
    (True, "Behind the last byte none is taken"),
    (True, "an item is put behind the others"),
    (True, "the lock `of` which, behind it"),
    (False, "A desk behind its lock."),
    (False, "Behind a [tunnel](#encryption-by-stunnel) all have one address"),
    (False, "what a run leaves behind, for each of its outcomes"),
    (False, "`giver_behind` and `behind` search by halves"),
]
counts: collections.Counter[bool] = collections.Counter()


def check(holds, what):
    """Counts a check, and tells one that fails."""
    counts[bool(holds)] += 1
    if not holds:
        print(f"FAILED: {what}")


def documents():
    """The Markdown files of the repository."""
    words = ["git", "ls-files", "-co", "--exclude-standard", "*.md"]
    listed = subprocess.run(words, cwd=ROOT, capture_output=True, text=True, check=True)
    return [ROOT / name for name in listed.stdout.split("\n") if name and (ROOT / name).exists()]


def prose(path):
    """A document's lines without its blocks of code."""
    lines, in_code = [], False
    for line in path.read_text().split("\n"):
        in_code ^= line.lstrip().startswith("```")
        lines.append("" if in_code or line.startswith("    ") else line)
    return lines


def tables(path):
    """The tables of a document, each as its header cells and its rows of cells."""
    found, rows = [], []
    for line in [*prose(path), ""]:
        if line.startswith("|"):
            rows.append([cell.strip() for cell in re.split(r"(?<!\\)\|", line.strip())[1:-1]])
        elif rows:
            found.append((rows[0], rows[2:]))
            rows = []
    return found


def quoted(cell):
    """The words of a cell between backticks."""
    return re.findall(r"`([^`]+)`", cell)


def sections(path: pathlib.Path) -> Iterator[Tuple[str, List[str]]]:
    """The headings of a document, without their marks, each with the lines up to the next one."""
    heading = ""
    lines: List[str] = []
    for line in prose(path):
        if re.match(r"#+ ", line):
            yield heading, lines
            heading, lines = line.lstrip("#").strip(), []
        else:
            lines.append(line)
    yield heading, lines


def items(path: pathlib.Path, wanted: str) -> List[str]:
    """The items of the list under a heading, each in one line."""
    lines = next(lines for heading, lines in sections(path) if heading == wanted)
    found: List[str] = []
    for line in lines:
        if line.startswith("- "):
            found.append(line[2:])
        elif line.startswith("  ") and found:
            found[-1] += " " + line.strip()
    return found


def named(item: str) -> List[Tuple[str, str]]:
    """The names of an item, each with its crate: "rv_one: `name`, `name`; rv_other: `name`"."""
    pieces = re.findall(r"\b(rv_\w+): (`[\w.]+`(?:, `[\w.]+`)*)", item)
    return [(crate, name) for crate, names in pieces for name in quoted(names)]


def words() -> None:
    """Each name that MODEL has in its text is a definition, one of its cases, or a function."""
    lists = ("15. The promises", "Laws", "17. Wrong bodies")
    text = "\n".join(line for heading, lines in sections(MODEL) if heading not in lists for line in lines)
    specs = "\n".join(path.read_text(encoding="utf-8") for path in ROOT.glob("crates/*/specs/**/*.antt"))
    sources = "\n".join(path.read_text(encoding="utf-8") for path in ROOT.glob("crates/*/src/**/*.rt"))
    declared = set(re.findall(r"^ *(?:(?:abbrev|record|data|pub|unfoldable)\s+)+([\w'-]+)|^ +(\w+) :", specs, re.M))
    known = {name for pair in declared for name in pair} | set(re.findall(r"\bfn (\w+)", sources)) | set(NO_WORDS)
    for word in sorted(set(re.findall(r"`([A-Za-z]\w*)`", text))):
        check(word in known, f"MODEL: there is no {word} in crates/*/specs, nor in crates/*/src")


def pages() -> None:
    """Each name that a crate's page has in its text stands in the sources or the definitions of some crate."""
    code = [path.read_text(encoding="utf-8") for form in ("src/**/*.rt", "specs/**/*.antt") for path in ROOT.glob(f"crates/*/{form}")]
    known = set(re.findall(r"[A-Za-z_]\w*", "\n".join(code)))
    for path in sorted(ROOT.glob("crates/*/README.md")):
        parts = [part for name in re.findall(r"`([A-Za-z_][\w:.]*)`", "\n".join(prose(path))) for part in re.split(r"::|\.", name)]
        for part in sorted(set(filter(None, parts)) - known):
            check(False, f"{path.relative_to(ROOT)}: there is no {part} in crates/*/src, nor in crates/*/specs")
        check(f"](../{path.parent.name}/" not in path.read_text(encoding="utf-8"), f"{path.relative_to(ROOT)} links to itself")


def names():
    """A name of a type or a definition is declared in one crate, but for those that are shared, and in its specs once."""
    form = (r"^ *(?:pub(?:\([a-z]+\))? )?(?:struct|enum|trait|type|abbrev|record|data|unfoldable) +"
            r"(?:(?:pub|abbrev|record) +)*([\w'-]+)")
    crates, files = collections.defaultdict(set), collections.defaultdict(list)
    for folder in ("src/**/*.rt", "specs/**/*.antt"):
        for path in sorted(ROOT.glob(f"crates/*/{folder}")):
            crate = path.relative_to(ROOT).parts[1]
            for name in re.findall(form, path.read_text(encoding="utf-8"), re.M) if crate not in TESTS else []:
                crates[name].add(crate)
                files[crate, name] += [path.stem] if path.suffix == ".antt" else []
    for name, found in sorted(crates.items()):
        check(len(found) == 1 or name in SHARED, f"{name} is declared in {', '.join(sorted(found))}")
    for (crate, name), found in sorted(files.items()):
        check(len(found) < 2, f"{name} is declared twice in {crate}/specs, in {', '.join(found)}")


def files():
    """Each file that a document names as `specs/..`, `proofs/..` or `src/..` is in some crate."""
    for path in documents():
        for name in re.findall(r"`((?:specs|proofs|src)/[\w/.]+)`", path.read_text(encoding="utf-8")):
            there = any(next(ROOT.glob(f"crates/*/{name}{kind}"), None) for kind in ("", ".antt", ".rt"))
            check(there, f"{path.relative_to(ROOT)}: no crate has {name}")


def places():
    """Each function and definition that a document's table names behind a file's link stands in that file."""
    for path in documents():
        for header, rows in tables(path):
            for column in {"Function", "Definition", "Look in"} & set(header):
                for row in rows:
                    for at, names in re.findall(r"\]\(\.\./crates/([^)]+)\) ((?:`\w+`(?:, )?)+)", row[header.index(column)]):
                        for name in quoted(names):
                            check(stands(ROOT / "crates" / at, name), f"{path.name}: there is no {name} in {at}")


def stands(path, name):
    """Whether a file has a function or a definition of this name."""
    words = "fn" if path.suffix == ".rt" else "abbrev|record|data|unfoldable"
    form = rf"^ *(?:[\w()]+ +)*?(?:{words}) +(?:pub +)?{re.escape(name)}(?![\w-])"
    return path.is_file() and re.search(form, path.read_text(encoding="utf-8"), re.M) is not None


def refusals():
    """ARCHITECTURE tells of each refusal of FORMATS where it is decided, under the same number and name."""
    formats = [row[:2] for header, rows in tables(FORMATS) if header[:2] == ["`code`", "Name"] for row in rows]
    decided = [row[:2] for header, rows in tables(ARCHITECTURE) if header[:2] == ["Number", "Refusal"] for row in rows]
    check(formats == decided != [], "ARCHITECTURE: the refusals are not those of FORMATS")


def laws():
    """MODEL names each law of the code, and no other; `.._end` is each law of its crate that ends so."""
    told = {pair for item in items(MODEL, "Laws") for pair in named(item)}
    standing = {(path.relative_to(ROOT).parts[1], law) for path in ROOT.glob("crates/*/src/**/laws.rt")
                for law in re.findall(r"^pub fn (\w+)", path.read_text(), re.M)}
    families = {(crate, name[2:]) for crate, name in told if name.startswith("..")}
    for crate, law in sorted(standing):
        in_family = any(crate == other and law.endswith(end) for other, end in families)
        check((crate, law) in told or in_family, f"MODEL: the law {law} of {crate} is not named")
    for crate, name in sorted(told):
        there = any(crate == other and (name == law or name[:2] == ".." and law.endswith(name[2:])) for other, law in standing)
        check(there, f"MODEL: there is no law {name} in {crate}")


def promises():
    """Each function that MODEL names beside a promise stands in the sources of the crate that it says."""
    for crate, name in [pair for item in items(MODEL, "15. The promises") for pair in named(item)]:
        sources = "\n".join(path.read_text(encoding="utf-8") for path in ROOT.glob(f"crates/{crate}/src/**/*.rt"))
        check(re.search(rf"\bfn {name}\b", sources), f"MODEL: there is no function {name} in {crate}")


def edits():
    """Each edit that MODEL names is there; each that is there says in its first line what it does."""
    found = [path for kind in KINDS for path in ROOT.glob(f"crates/*/{kind}/*.edit")]
    paths = {path: (path.parts[-3], path.stem) for path in found}
    there = set(paths.values())
    for crate, word in [pair for item in items(MODEL, "17. Wrong bodies") for pair in named(item)]:
        check((crate, word) in there, f"MODEL: there is no edit {word} of {crate}")
    for path in sorted(paths):
        check(path.read_text().startswith("# "), f"{path.relative_to(ROOT)} does not begin by a line '# ..' that says what it does")
    check(len(there) == len(paths), f"an edit stands in two of {KINDS}")
    gate = {paths[path] for path in paths if path.parts[-2] in ("must-fail", "test-edits")}
    for item in items(MODEL, "17. Wrong bodies"):
        check(gate & set(named(item)), f"MODEL: {item}: no edit of the gate, nor one that a test must see")


def made():
    """The lists that are printed have a row for each crate that has edits, and words of the specifications."""
    for name, wanted in (("edits", len({path.parent.parent for path in ROOT.glob("crates/*/edits/*.edit")})), ("words", 1)):
        ran = subprocess.run([ROOT / "tools/tables.py", name], capture_output=True, text=True)
        check(ran.returncode == 0 and ran.stdout.count("\n") >= 2 + wanted, f"tools/tables.py {name}: {ran.stderr.strip()}")


def functions():
    """Each edit applies, and the test that must see it is there; each public function has an edit in its code.

    Laws have no code to edit.
    """
    for folder in sorted(ROOT.glob("crates/*")):
        edits = {kind: [edit_files.Edit(path, folder) for path in (folder / kind).glob("*.edit")] for kind in KINDS}
        for edit in sum(edits.values(), []):
            check(not edit.wrong, f"{folder.name}, {edit.name}: {edit.wrong}")
        for edit in edits["test-edits"]:
            check(edit.test_stands(), f"{folder.name}, {edit.name}: there is no test {edit.test}")
        proved = edits["must-fail"] + edits["edits"]
        changed = {pattern.pattern for edit in proved if not edit.wrong for pattern in edit.functions() if pattern}
        for at, pattern in edit_files.public_functions(folder).items():
            name = f"{folder.name}, {at}"
            if folder.name not in TESTS and not BESIDE.match(at) and pattern.pattern not in NO_WRONG_BODY:
                check(pattern.pattern in changed, f"{name}: no edit is in this public function")


def unmarked(heading: str) -> str:
    """The words of a heading, without the marks of links and of code."""
    return re.sub(r"\[([^\]]*)\]\([^)]*\)", r"\1", heading).replace("`", "")


def anchors(path: pathlib.Path) -> Set[str]:
    """The anchors of a document."""
    found = filter(None, (re.match(r"#+ +(.*)", line) for line in prose(path)))
    return set(headings.anchors_of(unmarked(heading[1]) for heading in found))


def links():
    """Each relative link leads to a file, and to a heading of it where it names one."""
    for path in documents():
        for target in re.findall(r"\]\(([^)\s]+)\)", "\n".join(prose(path))):
            if re.match(r"[a-z]+:", target):
                continue
            name, _, anchor = target.partition("#")
            aim = (path.parent / name).resolve() if name else path
            good = aim.exists() and (not anchor or aim.suffix == ".md" and anchor in anchors(aim))
            check(good, f"{path.relative_to(ROOT)}: {target} leads nowhere")


def constants():
    """The constants of the code that are whole numbers, by name, and the greatest numbers of a refusal and of a version."""
    values = collections.defaultdict(set)
    for path in ROOT.glob("crates/*/src/**/*.rt"):
        for name, value in re.findall(r"\bconst (\w+): \w+ = ([\d_]+);", path.read_text()):
            values[name].add(int(value))
    for name, form, file in [("Refusal::code", r"\bRefusal::\w+(?:\(_\))? => (\d+),", "answer.rt"),
                             ("Version::number", r"\bVersion::\w+ => (\d+),", "version.rt")]:
        numbers = re.findall(form, (ROOT / "crates/rv_text/src" / file).read_text())
        values[name].add(max(map(int, numbers)))
    return values


def greatest(cell):
    """The greatest number of a cell."""
    return max((int(number.replace(",", "")) for number in re.findall(r"\d[\d,]*", cell)), default=None)


def limits():
    """Each number of a limit in FORMATS is the constant in the code."""
    values, seen = constants(), set()
    for header, rows in tables(FORMATS):
        for row in rows if header[-1] == "Limit" else []:
            name = row[0].replace("`", "")
            seen.add(name)
            check(name in LIMITS, f"FORMATS: tools/docs.py does not know the limit of {name}")
            constant, number = LIMITS.get(name), greatest(row[-1])
            check(number is not None, f"FORMATS: the limit of {name} has no number")
            if constant is not None:
                check(values[constant] == {number}, f"FORMATS: {name}: {number}, but {constant} is {values[constant]}")
    check(seen == set(LIMITS), f"FORMATS lacks limits: {sorted(set(LIMITS) - seen)}")
    for name, constant in SAME.items():
        check(values[name] == values[constant] != set(), f"{name} is not {constant}")


def standing():
    """No page says what is to come, and each command that a page names is there."""
    targets = set(re.findall(r"^([\w-]+):", (ROOT / "Makefile").read_text(), re.M))
    sources = [path.read_text() for path in ROOT.glob("crates/*/src/**/*.rt")]
    runs = {word for source in sources for word in re.findall(r"^ */// `rv (\w+)", source, re.M)}
    for path in documents():
        text = path.read_text()
        check("to come" not in text.lower(), f"{path.name} says what is to come")
        for word in re.findall(r"(?:`|^ {4})make ([\w-]+)", text, re.M):
            check(word in targets, f"{path.name}: there is no make {word}")
        for word in re.findall(r"(?:`|^ {4,})rv (\w+)", text, re.M):
            check(word in runs, f"{path.name}: there is no rv {word}")
        for name in re.findall(r"`((?:tests|tools)/[\w./]+)", text):
            check((ROOT / name).exists(), f"{path.name}: there is no {name}")


def commands():
    """Each module of the tests from outside has a row in tests/README.md, which has no other."""
    told = {word for _, rows in tables(TESTS_PAGE) for row in rows for word in quoted(row[0])}
    for name in [*MODULES, *BY_NAME]:
        check(name in told, f"tests/README.md: no row for {name}, which `python3 -m tests` runs")
    for name in sorted(word for word in told if re.fullmatch(r"[a-z]+\.[a-z_]+", word)):
        check(name in [*MODULES, *BY_NAME], f"tests/README.md: there is no module {name}")


def sizes():
    """crates/README.md has a row for each crate, with how many lines it may have: none has more."""
    most = limits_of_crates()
    crates = sorted(path.name for path in ROOT.glob("crates/rv_*"))
    check(sorted(most) == crates, f"crates/README.md: the rows are of {sorted(most)}, and not of {crates}")
    for crate, limit in most.items():
        lines = sum(len(path.read_text().split("\n")) - 1 for path in ROOT.glob(f"crates/{crate}/src/**/*.rt"))
        check(lines <= (greatest(limit) or 0), f"{crate} has {lines} lines, and may have {limit}")


def sentences() -> None:
    """Each crate's page and crates/README.md say of the crates what tools/crates.py writes."""
    ran = subprocess.run([ROOT / "tools/crates.py", "--check"], capture_output=True, text=True)
    check(ran.returncode == 0, (ran.stdout + ran.stderr).strip())


def widths():
    """No line of the sources, of the definitions and of the proofs is wider than it may be."""
    for form in ("src/**/*.rt", "specs/**/*.antt", "proofs/**/*.antt"):
        for path in sorted(ROOT.glob(f"crates/*/{form}")):
            wide = [number for number, line in enumerate(path.read_text().split("\n"), 1) if len(line) > COLUMNS]
            check(not wide, f"{path.relative_to(ROOT)} has over {COLUMNS} columns in lines {wide}")


def plain(text):
    """Rust's text without its comments, texts, imports, and what its types declare; all else stands where it stood."""
    pieces = (r"//[^\n]*", r'"(?:\\.|[^"\\])*"', r"\b(?:ghost )?use [^;]*;", r"\btype \w+ = [^;]*;",
              r"\b(?:enum|struct) \w+[^{;]*(?:\{(?:[^{}]|\{[^{}]*\})*\}|;)")
    return re.sub("|".join(pieces), lambda piece: re.sub(r"[^\n]", " ", piece[0]), text)


def opened_by(text, at):
    """The bracket that is open at a place; `<` is one where no space stands before it."""
    depth = 0
    for before in range(at - 1, -1, -1):
        tight = text[before] in "<>" and text[before - 1] not in " -="
        depth += (text[before] in ")]}" or tight and text[before] == ">") - (text[before] in "([{" or tight and text[before] == "<")
        if depth < 0:
            return text[before]
    return ""


def is_value(text, found):
    """Whether a name of want of memory is a value there, and no type, path or pattern."""
    before, after = text[:found.start()].rstrip(), text[found.end():].lstrip()
    if after.startswith("::") or before.endswith((":", "->", "+", "for", "impl", "dyn", "as")):
        return False
    if opened_by(text, found.start()) == "<":
        return False
    return not re.match(r"[)\s]*(?:=>|=(?!=)|\||if\b)", after)


def refused_growths(text):
    """Where a text makes want of memory of nothing: it writes the value that only a refused growth gives."""
    text = plain(text)
    names = re.finditer(r"(?<![\w:])(?:\w+::)*AllocError\b(?!\s*::)|(?<![\w:])NoMemory\b(?=\s*\{\s*\})", text)
    return [text.count("\n", 0, found.start()) + 1 for found in names if is_value(text, found)]


def growths():
    """No source writes the value of a refused growth: each that is answered came from one."""
    for is_one, text in GROWTHS:
        check(bool(refused_growths(text)) == is_one, f"{text!r} makes{'' if is_one else ' no'} want of memory of nothing")
    for path in sorted(ROOT.glob("crates/*/src/**/*.rt")):
        made_up = refused_growths(path.read_text())
        check(not made_up, f"{path.relative_to(ROOT)} makes want of memory of nothing in lines {made_up}")


def late(text: str) -> bool:
    """Whether a text says 'behind' where it means 'after'."""
    return re.search(r"\bbehind\b", IN_PLACE.sub("", text), re.IGNORECASE) is not None


def behind() -> None:
    """No document says 'behind' for 'after'."""
    for is_late, text in LATE:
        check(late(text) == is_late, f"{text!r} says {'' if is_late else 'no '}'behind' for 'after'")
    for path in documents():
        lines = path.read_text(encoding="utf-8").split("\n")
        found = [number for number, line in enumerate(lines, 1) if late(line)]
        check(not found, f"{path.relative_to(ROOT)} says 'behind' for 'after' in lines {found}")


def late_comments() -> Iterator[str]:
    """The public comments of sources, and all of definitions and proofs, that say 'behind' for 'after', each at its place."""
    comments = r"(?:.*\s)?--\s(.*)"
    for form, mark in (("src/**/*.rt", r"\s*//[/!](.*)"), ("specs/**/*.antt", comments), ("proofs/**/*.antt", comments)):
        for path in sorted(ROOT.glob(f"crates/*/{form}")):
            for number, line in enumerate(path.read_text(encoding="utf-8").split("\n"), 1):
                comment = re.match(mark, line)
                if comment and late(comment[1]):
                    yield f"{path.relative_to(ROOT)}:{number}:{comment[1]}"


def lengths():
    """The first page is short, and so is the Python client's."""
    pages = {"README.md": {"lines": README_LINES, "words": README_WORDS}, "clients/python/README.md": {"words": README_WORDS}}
    for name, most in pages.items():
        page = (ROOT / name).read_text()
        counted = {"lines": len(page.split("\n")) - 1, "words": len(page.split())}
        for what, limit in most.items():
            check(counted[what] <= limit, f"{name} has {counted[what]} {what}, and may have {limit}")


def kit():
    """The first page names the logic of the kit that is on the PATH, if one is. A kit of the same logic that is not among
    those on which the gate has passed is told, and is no failure."""
    if not shutil.which("rt"):
        return
    version = subprocess.run(["rt", "version"], capture_output=True, text=True, check=True).stdout.strip()
    name, _, logic = version.partition(" ")
    page = (ROOT / "README.md").read_text()
    check(f"`{logic}`" in page, f"README.md does not name the kit's {logic}")
    if f"`{name}`" not in page:
        print(f"README.md does not name {name} among the kits on which the gate has passed")


def versions():
    """The program and its clients have one version, which stands once in Rattle, once in Python, and in Java once for programs and
    once for Maven."""
    told = {}
    for name, form in [("python/src/rendezvous/__init__.py", r'^__version__ = "(.+)"$'),
                       ("java/src/main/java/rendezvous/RvClients.java", r'^    public static final String VERSION = "(.+)";$'),
                       ("java/pom.xml", r"^  <version>(.+)</version>$"),
                       ("../crates/rv_words/src/options/version.rt", r'^pub const VERSION: &str = "(.+)";$')]:
        told[name] = re.findall(form, (ROOT / "clients" / name).read_text(), re.M)
    found = list(told.values())
    check(len(found[0]) == 1 and all(each == found[0] for each in found), f"there are more versions than one: {told}")


PARTS = [words, pages, names, places, files, refusals, laws, promises, edits, made, functions, links, limits, standing, commands,
         sizes, sentences, widths, growths, behind, lengths, kit, versions]
if sys.argv[1:] == ["--behind"]:
    print("\n".join(late_comments()))
    sys.exit()
if sys.argv[1:]:
    sys.exit(__doc__.strip().split("\n\n")[1])
for part in PARTS:
    part()
print(f"{counts[True]} passed, {counts[False]} failed")
sys.exit(counts[False] > 0)
