"""What calls told beside the record that their clients kept: each call's own line tells what it gave or raised, and no other."""
from __future__ import annotations

import copy
import json
import os
import pathlib
from collections.abc import Callable, Sequence
from typing import Any, Dict, List, NamedTuple, Tuple

import rendezvous as rv
from record_lines import Line, ending_of, read
from tests import ROOT
from tests.clients.outcomes import answer_members
from tests.sockets.wire import Wrong, demand

# What a call in Java throws where one in Python raises this; of a crowd each cancel is an interrupt's.
IN_JAVA = {rv.Cancelled: "InterruptedException", rv.TimedOut: "TimeoutException"}


# The members of a JSON object.
Members = Dict[str, Any]


class Ended(NamedTuple):
    """How a call ended: by a value or by an exception. `outcome` is what its session has of it, None where it was not settled;
    `again` tells whether it was asked again, and gave that outcome itself."""

    value: object
    fault: rv.RendezvousError | None
    outcome: rv.Outcome | None
    again: bool = False


class Reader:
    """Reads what is new in a record, of one client. Others append to it meanwhile."""

    def __init__(self, path: str | os.PathLike[str], client: int):
        self.path, self.client, self.at = pathlib.Path(path), client, 0

    def new(self) -> list[Line]:
        """The lines of the client that were appended since this was asked last."""
        if not self.path.exists():
            return []
        with open(self.path, "rb") as file:
            file.seek(self.at)
            whole = file.read().rpartition(b"\n")[0]
        self.at += len(whole) + bool(whole)
        return [line for line in map(read, whole.split(b"\n") if whole else []) if line.key.client == self.client]


def judged(lines: Sequence[Line], call: Members, ended: Ended) -> Line | None:
    """The line of a call, the only one that came with it, which must tell what the call told. None where nothing was settled:
    then no line may have come."""
    if ended.outcome is None:
        demand(not lines, f"{call} was not settled, and has lines: {lines}")
        return None
    demand(len(lines) == 1, f"{call} has {len(lines)} lines: {lines}")
    line, = lines
    demand(line.call == call, f"{call} stands as {line.call}")
    demand(line.told == answer_members(ended.outcome), f"{call} has the outcome {ended.outcome}, and its line tells {line.told}")
    told = (ended.value, type(ended.fault) if ended.fault else None)
    wanted = (ended.outcome, None) if ended.again else ending_of(line)
    demand(told == wanted, f"{call} gave or raised {told}, and its line tells {line.told}")
    demand(ended.fault is None or ended.fault.key == line.key, f"{ended.fault} is told of {line.key}")
    return line


def in_java(line: Line) -> Members:
    """What a call in Java has to give or throw by its line, as a crowd prints it."""
    value, raised = ending_of(line)
    if raised:
        return {"threw": IN_JAVA[raised]}
    word = line.reply["reply"]
    return {"gave": line.told if word == "received" else value.items if word == "counted" else value}


def judged_java(lines: Sequence[Line], printed: Sequence[Members]) -> None:
    """Each call that Java's crowd printed has one line of these, which tells what it told; and there are no others."""
    by_key = {line.key: line for line in lines}
    keys = [rv.Key(*(one["told"][name] for name in rv.Key._fields)) for one in printed]
    demand(len(by_key) == len(lines), "a reply was recorded twice")
    demand(set(keys) == set(by_key), f"{len(keys)} calls were told, and {len(by_key)} are recorded")
    for key, one in zip(keys, printed):
        line = by_key[key]
        demand((line.call, line.told) == (one["call"], one["told"]), f"{one} stands as {line}")
        wanted = {"again": line.told} if "again" in one["ended"] else in_java(line)
        demand(one["ended"] == wanted, f"{one['call']} ended by {one['ended']}, and its line tells {line.told}")


# ---- the judges, tried on lies

KEY = rv.Key(1, 2, 1, 1)
CALL: Members = {"call": "take", "queue": 3, "wait": "forever"}
ASKED: Members = {"kind": "request", **KEY._asdict(), **CALL}
ITEM = Line(ASKED, {"kind": "reply", **KEY._asdict(), "reply": "item", "item": "a"})
GONE = Line(ASKED, {"kind": "reply", **KEY._asdict(), "reply": "cancelled"})
OTHER = Line({**ITEM.asked, "number": 2}, {**ITEM.told, "number": 2})
# The lines that came with a call, the call, and how it ended.
Case = Tuple[List[Line], Members, Ended]
TAKEN, CANCELLED = rv.replies.Item(KEY, "a"), rv.replies.Cancelled(KEY)
TRUE: list[Case] = [([ITEM], CALL, Ended("a", None, TAKEN)), ([GONE], CALL, Ended(None, rv.Cancelled(KEY), CANCELLED)),
        ([ITEM], CALL, Ended(TAKEN, None, TAKEN, True)), ([], CALL, Ended(None, rv.NotAsked(), None))]
LIES: list[Case] = [
    ([ITEM], CALL, Ended("b", None, TAKEN)), ([ITEM], CALL, Ended(None, None, TAKEN)),
    ([ITEM], CALL, Ended("a", None, rv.replies.Item(KEY, "b"))), ([], CALL, Ended("a", None, TAKEN)),
    ([ITEM, ITEM], CALL, Ended("a", None, TAKEN)), ([ITEM], {**CALL, "queue": 4}, Ended("a", None, TAKEN)),
    ([OTHER], CALL, Ended("a", None, TAKEN)), ([ITEM], CALL, Ended(None, rv.Cancelled(KEY), TAKEN)),
    ([GONE], CALL, Ended(None, None, CANCELLED)), ([GONE], CALL, Ended(None, rv.Cancelled(OTHER.key), CANCELLED)),
    ([GONE], CALL, Ended(None, rv.TimedOut(KEY), CANCELLED)), ([ITEM], CALL, Ended(None, rv.NotAsked(), None)),
    ([ITEM], CALL, Ended(CANCELLED, None, TAKEN, True)),
]
PRINTED: list[Members] = [{"call": CALL, "told": ITEM.told, "ended": {"gave": "a"}}]
LIES_IN_JAVA: list[tuple[str, object]] = [("ended", {"gave": "b"}), ("ended", {"threw": "InterruptedException"}), ("ended", {"again": GONE.told}),
                ("told", GONE.told), ("told", OTHER.told), ("call", {**CALL, "wait": "now"})]


def is_found(judge: Callable[..., object], *given: object) -> bool:
    """Whether a judge finds what is wrong."""
    try:
        judge(*given)
    except Wrong:
        return True
    return False


def the_judges_find_lies() -> None:
    """What is true they let pass, and no lie."""
    for given in TRUE:
        judged(*given)
    for given in LIES:
        demand(is_found(judged, *given), f"a lie is not found: {given}")
    judged_java([ITEM], PRINTED)
    for name, lie in LIES_IN_JAVA:
        demand(is_found(judged_java, [ITEM], [{**copy.deepcopy(PRINTED[0]), name: lie}]), f"a lie is not found: {name}, {lie}")
    for lines in ([], [ITEM, ITEM], [ITEM, OTHER]):
        demand(is_found(judged_java, lines, PRINTED), f"a lie is not found: {lines}")


def the_page_of_formats() -> None:
    """Its lines are of the example that it names: each with a request and the reply that this is told there."""
    page, examples = (ROOT / "docs/FORMATS.md").read_text(), ROOT / "examples"
    lines = [read(text.encode()) for text in page.split("\n") if text.startswith('{"asked":{')]
    asked = [json.loads(line.split(" ", 1)[1]) for line in (examples / "handover.in").read_text().splitlines()]
    told = [json.loads(line) for line in (examples / "handover.out").read_text().splitlines()]
    there = [pair for pair in zip(asked, told) if pair[1]["kind"] == "reply"]
    demand(len(lines) == 2 and all(line in there for line in lines), f"{lines} stand in FORMATS, and {there} in the example")


CASES = [the_judges_find_lies, the_page_of_formats]
