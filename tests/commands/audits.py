"""Runs `rv audit` of the built program on accounts that are written by hand: what it tells, and how it ends."""
from __future__ import annotations

import subprocess
from collections.abc import Iterable, Iterator
from typing import Tuple

from tests import ROOT
from tests.cases import Case

# The name of an account, its text, and what is to be told of it.
Audited = Tuple[str, str, str]
# Seconds behind which an audit hangs: the longest takes a few.
HANG = 600
GREATEST = 9_007_199_254_740_991
LATEST = 4_611_686_018_427_387_904
HEAD = "epoch 1 opened 0"
WORKED, DRAINS, RECEIVED = ((ROOT / "examples" / f"{name}.account").read_text().splitlines()
                            for name in ("items", "drained", "received"))


def hello(client: int, incarnation: int = 1, version: object = None) -> str:
    """The body of a hello, with a version where it tells one."""
    told = "" if version is None else f',"version":{version}'
    return f'{{"client":{client},"incarnation":{incarnation},"kind":"hello"{told}}}'


def put(number: int, item: str = "", epoch: int = 1) -> str:
    """The body of a put of client 1."""
    return (f'{{"call":"put","client":1,"epoch":{epoch},"incarnation":1,"item":"{item}","kind":"request",'
            f'"number":{number},"queue":3}}')


def take(client: int, number: int, wait: object) -> str:
    """The body of a take from queue 3."""
    return (f'{{"call":"take","client":{client},"epoch":1,"incarnation":1,"kind":"request","number":{number},'
            f'"queue":3,"wait":{wait}}}')


def last_with(old: str, new: str) -> list[str]:
    """The worked account with a part of its last line changed."""
    return [*WORKED[:-1], WORKED[-1].replace(old, new, 1)]


def drained(fields: str) -> list[str]:
    """The account of drains, with other partners of the first one."""
    return [*DRAINS[:7], DRAINS[7].replace(" 3,4 ", f" {fields} ", 1), *DRAINS[8:]]


def drained_of(most: int, places: Iterable[int], among: int = 17) -> list[str]:
    """The account of so many puts, the first at place 2, and of a drain of so many at most that has these partners."""
    body = (f'{{"call":"drain","client":2,"epoch":1,"incarnation":1,"kind":"request","max":{most},"number":1,'
            f'"queue":3}}')
    puts = [f"{number} - {put(number, 'item')}" for number in range(1, among + 1)]
    return [HEAD, GREETED, "0 - " + hello(2), *puts, f"{among + 1} {','.join(map(str, places))} {body}"]


def entry(line: str) -> list[str]:
    """An account of this one entry."""
    return [HEAD, line]


def of_one_version(version: object) -> list[str]:
    """The account of receipts, each hello with this version, or with none that is told."""
    sessions = {1: hello(1, 1, version), 2: hello(2, 1, version), 7: hello(1, 2, version)}
    return [f"{line.partition('{')[0]}{sessions[at]}" if at in sessions else line for at, line in enumerate(RECEIVED)]


GREETED, SECOND = "0 - " + hello(1), "0 - " + hello(1, 1, 2)

# what is audited, and what is told of it
LINES: list[tuple[str, list[str], str]] = [
    ("the worked account", WORKED, "legal"),
    ("the second item taken first", last_with(" 2 ", " 3 "), "fault 4 P3"),
    ("items are there, and none is taken", last_with(" 2 ", " - "), "fault 4 P4"),
    ("a hello for a partner", last_with(" 2 ", " 1 "), "fault 4 P2"),
    ("itself for a partner", last_with(" 2 ", " 4 "), "fault 4 P1"),
    ("a tick without a cause", [*WORKED, "1 - tick"], "fault 5 M3"),
    ("a number left out", last_with('"number":1', '"number":2'), "fault 4 N3"),
    ("a second hello of one client", [*WORKED[:2], WORKED[1], *WORKED[3:]], "fault 1 N1"),
    ("no entry", [HEAD], "legal"),
    ("the greatest numbers of a head", [f"epoch {GREATEST} opened {LATEST}"], "legal"),
    ("time below the opening moment", ["epoch 1 opened 5", "4 - " + hello(1)], "fault 0 M1"),
    ("the opening moment", ["epoch 1 opened 5", "5 - " + hello(1)], "legal"),
    ("the latest moment", entry(f"{LATEST} - " + hello(1)), "legal"),
    ("an elapsed wait that is ended", [HEAD, GREETED, "0 - " + take(1, 1, 5), "5 - tick"], "legal"),
    ("an elapsed wait that is not", [HEAD, GREETED, "0 - " + take(1, 1, 5), "5 - " + hello(2)], "fault 2 M2"),
    ("a key of another epoch", [HEAD, GREETED, "0 - " + put(1, epoch=2)], "fault 1 N2"),
    ("a partner of a hello", entry("0 0 " + hello(1)), "fault 0 P1"),
    ("the greatest partner", entry("0 99999 " + hello(1)), "fault 0 P1"),
    ("a partner of a tick", [HEAD, GREETED, "0 - " + take(1, 1, 5), "5 0 tick"], "fault 2 P1"),
    ("white space and another order in a body", entry('0 -  { "kind" : "hello", "incarnation":1,\t"client":1 } '),
     "legal"),
    ("CR behind a body", entry(GREETED + "\r"), "legal"),
    ("no line", [], "bad line 1"),
    ("a blank first line", ["", *WORKED], "bad line 1"),
    ("a blank line in between", [*WORKED[:3], "", *WORKED[3:]], "bad line 4"),
    ("a blank last line", [*WORKED, ""], "bad line 7"),
    ("CR behind the first line", [HEAD + "\r"], "bad line 1"),
    ("CR behind a tick", entry("0 - tick\r"), "bad line 2"),
    ("a first line of an entry", WORKED[1:], "bad line 1"),
    ("two first lines", [HEAD, HEAD], "bad line 2"),
    ("epoch 0", ["epoch 0 opened 0"], "bad line 1"),
    ("an epoch above the greatest", [f"epoch {GREATEST + 1} opened 0"], "bad line 1"),
    ("an epoch with a leading zero", ["epoch 01 opened 0"], "bad line 1"),
    ("an opening moment with a leading zero", ["epoch 1 opened 00"], "bad line 1"),
    ("an opening moment above the latest", [f"epoch 1 opened {LATEST + 1}"], "bad line 1"),
    ("a first line with a space in front", [" " + HEAD], "bad line 1"),
    ("a first line with a space behind", [HEAD + " "], "bad line 1"),
    ("a first line with two spaces", ["epoch 1  opened 0"], "bad line 1"),
    ("a first line in another case", ["Epoch 1 opened 0"], "bad line 1"),
    ("a moment with a leading zero", entry("00 - " + hello(1)), "bad line 2"),
    ("a moment above the latest", entry(f"{LATEST + 1} - " + hello(1)), "bad line 2"),
    ("a moment of 20 digits", entry("1" * 20 + " - " + hello(1)), "bad line 2"),
    ("a moment with a sign", entry("+1 - " + hello(1)), "bad line 2"),
    ("a line without a moment", entry("- " + hello(1)), "bad line 2"),
    ("a partner with a leading zero", last_with(" 2 ", " 02 "), "bad line 6"),
    ("a partner above the greatest", last_with(" 2 ", " 100000 "), "bad line 6"),
    ("a partner with a sign", last_with(" 2 ", " -2 "), "bad line 6"),
    ("the account of drains", DRAINS, "legal"),
    ("a drain that passes over the second item", drained("3,5"), "fault 6 P3"),
    ("a drain that takes too few", drained("3"), "fault 6 P4"),
    ("a drain whose partners fall", drained("4,3"), "fault 6 P1"),
    ("a drain that takes nothing", drained("-"), "fault 6 P4"),
    ("a drain with one partner twice", drained("3,3"), "fault 6 P1"),
    ("a drain with more partners than it may have", drained("3,4,5"), "fault 6 P1"),
    ("a drain with itself for a partner", drained("3,6"), "fault 6 P1"),
    ("a drain with a hello for a partner", drained("2,3"), "fault 6 P2"),
    ("seventeen partners", drained(",".join(map(str, range(17)))), "fault 6 P1"),
    ("a thousand partners", drained(",".join(["99999"] * 1_000)), "fault 6 P1"),
    ("two partners of a take", last_with(" 2 ", " 2,3 "), "fault 4 P1"),
    ("two partners of a hello", entry("0 0,1 " + hello(1)), "fault 0 P1"),
    ("a drain of 16 takes the sixteen oldest", drained_of(16, range(2, 18)), "legal"),
    ("a drain of 16 passes over the first", drained_of(16, range(3, 19)), "fault 19 P3"),
    ("a drain of 16 passes over the last but one", drained_of(16, [*range(2, 17), 18]), "fault 19 P3"),
    ("a drain of 16 takes fifteen of seventeen", drained_of(16, range(2, 17)), "fault 19 P4"),
    ("a drain of 16 takes seventeen", drained_of(16, range(2, 19)), "fault 19 P1"),
    ("a drain of 15 takes sixteen", drained_of(15, range(2, 18)), "fault 19 P1"),
    ("a drain of 16 with two partners exchanged", drained_of(16, [*range(2, 16), 17, 16]), "fault 19 P1"),
    ("a comma behind the partners", drained("3,4,"), "bad line 8"),
    ("a comma before the partners", drained(",3,4"), "bad line 8"),
    ("two commas between partners", drained("3,,4"), "bad line 8"),
    ("a comma alone", drained(","), "bad line 8"),
    ("a minus among partners", drained("3,-"), "bad line 8"),
    ("a space among partners", drained("3, 4"), "bad line 8"),
    ("a second partner with a leading zero", drained("3,04"), "bad line 8"),
    ("a second partner above the greatest", drained("3,100000"), "bad line 8"),
    ("the greatest second partner", drained("3,99999"), "fault 6 P1"),
    ("the account of receipts", RECEIVED, "legal"),
    ("the account of receipts in version 1", of_one_version(None), "legal"),
    ("the account of receipts in version 2", of_one_version(2), "legal"),
    ("version 1 that is told", of_one_version(1), "bad line 2"),
    ("version 3", of_one_version(3), "bad line 2"),
    ("a version that is a text", entry('0 - ' + hello(1, 1, '"2"')), "bad line 2"),
    ("a version in a tick's place", entry('0 - "version":2'), "bad line 2"),
    ("a version of a cancel", [HEAD, SECOND, '0 - {"client":1,"epoch":1,"incarnation":1,"kind":"cancel","number":1,"version":2}'],
     "bad line 3"),
    ("the same incarnation in another version", [HEAD, SECOND, GREETED], "fault 1 N1"),
    ("a lower incarnation in another version", [HEAD, "0 - " + hello(1, 2), SECOND], "fault 1 N1"),
    ("a greater incarnation in another version", [HEAD, SECOND, "0 - " + hello(1, 2)], "legal"),
    ("a partner of a hello of version 2", entry("0 0 " + hello(1, 1, 2)), "fault 0 P1"),
    ("two minuses", entry("0 -- " + hello(1)), "bad line 2"),
    ("no partner", entry("0 " + hello(1)), "bad line 2"),
    ("two spaces before the partner", entry("0  - " + hello(1)), "bad line 2"),
    ("two spaces before a tick", entry("0 -  tick"), "bad line 2"),
    ("a space behind a tick", entry("0 - tick "), "bad line 2"),
    ("a tick in another case", entry("0 - Tick"), "bad line 2"),
    ("no body", entry("0 - "), "bad line 2"),
    ("a body of no message", entry('0 - {"kind":"goodbye"}'), "bad line 2"),
    ("a body of an answer", entry('0 - {"code":1,"kind":"refused"}'), "bad line 2"),
    ("a client above the greatest", entry("0 - " + hello(GREATEST + 1)), "bad line 2"),
    ("bytes that are no UTF-8", entry('0 - {"client":1,"incarnation":1,"kind":"\udcff"}'), "bad line 2"),
    ("a bad line behind a fault", [HEAD, GREETED, GREETED, "x"], "bad line 4"),
    ("the first of two bad lines", [HEAD, "x", ""], "bad line 2"),
]


def cases() -> Iterator[Audited]:
    """Each text, and what is to be told of it. A last line may lack its LF, unless it is blank."""
    for name, lines, expected in LINES:
        yield name, "".join(line + "\n" for line in lines), expected
        if lines and lines[-1]:
            yield f"{name}, without the last LF", "\n".join(lines), expected
    many = [HEAD, GREETED, *(f"0 - {put(number)}" for number in range(1, 100_000))]
    ranges: list[tuple[str, Iterable[int], str]] = [
        ("all of them for partners", range(2, 50_002), "fault 50002 P1"),
        ("half of them for partners, each twice", [2 + place // 2 for place in range(50_000)], "fault 50002 P1"),
        ("the sixteen oldest for partners", range(2, 18), "legal"),
    ]
    for partners, places, expected in ranges:
        yield f"a drain behind 50,000 puts with {partners}", "\n".join(drained_of(16, places, 50_000)) + "\n", expected
    yield "100,000 entries", "\n".join(many) + "\n", "legal"
    yield "one entry too many", "\n".join([*many, "0 - tick"]) + "\n", "bad line 100002"
    yield "one blank line too many", "\n".join(many) + "\n\n", "bad line 100002"
    spoilt = [*many[:9], "x", *many[10:], "0 - tick"]
    yield "one entry too many behind a bad line", "\n".join(spoilt) + "\n", "bad line 10"


class Audits(Case):
    """Each account is a check by its name."""

    def said_of(self, text: str) -> tuple[str, str, int | None]:
        """What the program tells of a text."""
        try:
            ran = subprocess.run([self.program, "audit"], input=text.encode(errors="surrogateescape"), capture_output=True, timeout=HANG)
        except subprocess.TimeoutExpired:
            return "", f"it did not end within {HANG} seconds", None
        return ran.stdout.decode(errors="replace"), ran.stderr.decode(errors="replace"), ran.returncode

    def test_audits(self) -> None:
        """What is told of each account."""
        for name, text, expected in cases():
            with self.subTest(name):
                self.assertEqual(self.said_of(text), (expected + "\n", "", int(expected != "legal")))
