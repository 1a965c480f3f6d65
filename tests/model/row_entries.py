"""The entries of the accounts of worked rows, with values that were set beforehand.

An account is lines `MOMENT PARTNERS WHAT`, behind those of its row's first hellos, which have moment 0. WHAT is written as in
`rows`, or `tick`; PARTNERS are places with commas between them, or `-`.
"""
from tests.model.account import Account
from tests.model.lines import account_text
from tests.model.rows import DRAIN_ROW, LATER_ROWS, ROWS, THREE, line_of, pairs_of
from tests.model.steps import told
from tests.model.verdicts import verdict
from tests.model.version_rows import FULL_ROW, VERSION_ROWS

# By a row's name, its hellos and its further entries.
TWO, NONE = THREE[: THREE.index("hello 3")], ""
ENTRIES = {
    "a poll gets the item": (TWO, """
        0 - 1#1 put 3 "a"
        0 2 2#1 take 3 now
        """),
    "puts and transfers in one order; count and peek": (THREE, """
        0 - 1#1 put 3 "a"
        0 - 1#2 put 3 "b"
        0 - 2#1 transfer 3 "c" forever
        1 - 3#1 count 3
        1 - 3#2 peek 3
        2 - cancel 2#1
        3 3 3#3 take 3 now
        3 4 3#4 take 3 now
        3 - 3#5 take 3 now
        3 - 3#6 peek 3
        """),
    DRAIN_ROW: (THREE, """
        0 - 1#1 put 3 "a"
        0 - 3#1 transfer 3 "b" forever
        0 - 1#2 put 3 "c"
        1 3,4 2#1 drain 3 2
        2 5 2#2 drain 3 16
        2 - 2#3 drain 3 1
        """),
    "polls name the puts that they take": (TWO, """
        0 - 1#1 put 3 "a"
        0 2 2#1 take 3 now
        0 - hello 2/2
        0 - 1#2 put 3 "b"
        0 - 1#3 put 3 "c"
        0 - 1#4 put 4 "d"
        0 5 2/2#1 take 3 now
        0 6 2/2#2 take 3 now
        0 - 2/2#3 take 3 now
        0 - 1#5 put 3 "e"
        """),
    "a transfer waits for its consumer, and repeats get the replies again": (THREE, """
        0 - 1#1 transfer 3 "a" forever
        5 3 2#1 take 3 forever
        """),
    "a transfer that does not wait": (THREE, """
        0 - 1#1 transfer 3 "a" now
        0 - 2#1 take 3 now
        0 - 2#2 take 3 forever
        1 5 1#2 transfer 3 "b" now
        """),
    "consumers in order": (THREE, """
        0 - 1#1 take 3 forever
        0 - 2#1 take 3 forever
        0 - 3#1 take 3 forever
        1 - cancel 2#1
        1 - 2#2 count 3
        2 3 2#3 put 3 "x"
        2 5 2#4 put 3 "y"
        """),
    "who waits is named by who comes": (THREE, """
        0 - 1#1 take 3 forever
        0 - 2#1 take 3 forever
        0 - 3#1 count 3
        0 - 3#2 peek 3
        0 3 3#3 put 3 "x"
        0 4 3#4 transfer 3 "y" now
        0 - 3#5 transfer 3 "z" now
        0 - 3#6 put 3 "u"
        0 - 1#2 transfer 3 "v" forever
        0 10 2#2 take 3 now
        0 11 2#3 take 3 forever
        0 - 2#4 take 3 forever
        """),
    "partners swap": (THREE, """
        0 - 1#1 swap 63 "a" forever
        1 3 2#1 swap 63 "b" 5
        2 - 3#1 swap 63 "c" 0
        """),
    "a transfer that times out at its limit": (THREE, """
        0 - 1#1 transfer 3 "a" 10
        10 - tick
        10 - 2#1 take 3 forever
        """),
    "zero milliseconds": (THREE, """
        0 - 2#1 take 3 0
        0 - 1#1 transfer 3 "a" 0
        """),
    "a tick ends all that is due": (THREE, """
        0 - 1#1 transfer 3 "a" 10
        0 - 2#1 take 5 4
        10 - tick
        10 - 3#1 take 3 forever
        10 - 2#2 take 3 0
        """),
    "a tick is recorded beside a refusal": (TWO, """
        2 - 2#1 transfer 3 "c" 4
        6 - tick
        7 - 2#2 take 3 now
        """),
    "nothing is due behind the greatest moment": (TWO, """
        4611686018427387904 - 2#1 take 3 1
        4611686018427387904 2 1#1 transfer 3 "a" 10
        """),
    "a cancel before arrival": (THREE, """
        0 - cancel 1#1
        3 - 2#1 take 3 forever
        """),
    "a cancel is recorded where it ends a request": (TWO, """
        0 - cancel 1#1
        1 - 1#2 take 3 forever
        2 - cancel 1#2
        5 - 2#1 put 3 "x"
        """),
    "a client starts anew": (THREE, """
        0 - 1#1 transfer 3 "a" forever
        1 - hello 1/2
        2 - 2#1 take 3 now
        5 - 1/2#1 put 3 "b"
        6 - hello 1/3
        7 6 2#2 take 3 now
        """),
    "refusals in their order": (THREE, """
        0 - 1#1 put 3 "a"
        0 - 1#2 transfer 4 "t" forever
        0 - cancel 1#2
        """),
    FULL_ROW: (NONE, """
        0 - hello 1/1 version 2
        0 - hello 2/1
        0 - 1#1 transfer 3 "a" forever
        1 2 2#1 take 3 now
        2 - 2#2 transfer 4 "b" forever
        2 4 1#2 drain 4 16
        4 - hello 1/2
        """),
    "moments never fall": (NONE, """
        0 - hello 1/1
        8 - hello 2/1
        8 - 1#1 put 3 "a"
        9 2 2#1 take 3 now
        4611686018427387904 - 2#2 take 3 now
        """),
    "what takes no memory": (THREE, """
        0 - 1#1 transfer 3 "a" 10
        0 - 2#1 take 4 forever
        0 - 3#1 put 5 "b"
        0 5 3#2 drain 5 2
        2 - cancel 2#1
        10 - tick
        """),
}


def entry_text(row):
    """The line of an entry."""
    moment, partners, what = row.split(" ", 2)
    line = f"{moment} tick" if what == "tick" else line_of(what, moment, 1)[0]
    return f"{moment} {partners} {line.removeprefix(f'{moment} ')}\n"


def accounts():
    """Each row's name, its lines, and the text of its account."""
    rows = {name: lines for name, _, lines in [*ROWS, *LATER_ROWS, *VERSION_ROWS]}
    for name, (hellos, entries) in ENTRIES.items():
        written = [f"0 - {line.rpartition(' => ')[0]}" for line in hellos.splitlines()]
        written += filter(None, map(str.strip, entries.splitlines()))
        yield name, rows[name], "epoch 1 opened 0\n" + "".join(map(entry_text, written))


def unpaired(text):
    """The account with one entry's partners left out, of each entry that names some, and what an audit tells of it."""
    lines = text.splitlines(keepends=True)
    for place, line in enumerate(lines[1:]):
        moment, partners, what = line.split(" ", 2)
        if partners != "-":
            rule = "S2" if '"call":"swap"' in what else "P4"
            yield "".join([*lines[: place + 1], f"{moment} - {what}", *lines[place + 2 :]]), f"fault {place} {rule}"


def entry_fault(lines, text):
    """What is wrong with the model's account of a row, or with what the model's audit tells of it, if something is."""
    account = Account(1, 0)
    for line, _ in pairs_of(1, lines):
        account, _ = told(account, line.encode())
    if account_text(account) != text.encode():
        return f"got {account_text(account)}, and not {text}"
    found = verdict(text.encode())
    return None if found == "legal" else f"got {found}"


def entry_faults():
    """Each row whose entries are written here, by its name, with what is wrong with them, if something is."""
    for name, lines, text in accounts():
        yield f"the entries of {name}", entry_fault(lines, text)
