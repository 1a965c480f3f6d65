"""The cases of the machine of a client's session: machines crossed with events, and what comes by the rules.

The main machines meet each event. The others for which something flies meet all but most replies, and those
for which nothing flies, which take in no answer, meet a few answers. A machine of each nature of call meets
the replies.
"""
import json
from collections.abc import Iterable
from typing import Any

from tests.clients.machine_rules import FRESH, step
from tests.model.steps import refused
from tests.model.texts import MAX_DRAIN, MAX_IDENTIFIER, TAKER

# The members of a JSON object; and an event: a word, or a word with what it brings.
Members = dict[str, Any]
Event = str | Members

KEY = {"epoch": 5, "client": 7, "incarnation": 3, "number": 4}
FIRST = {**KEY, "number": 1}
GREATEST = {**KEY, "number": MAX_IDENTIFIER}
ODD_TEXT = "\u0001\"\\é"
PUT = {"call": "put", "queue": 3, "item": "a"}
COUNT = {"call": "count", "queue": 3}
PEEK = {"call": "peek", "queue": 3}
DRAIN = {"call": "drain", "queue": 3, "max": 2}


def transfer(wait: int | str) -> Members:
    """A transfer that waits so."""
    return {"call": "transfer", "queue": 3, "item": "a", "wait": wait}


def take(wait: int | str) -> Members:
    """A take that waits so."""
    return {"call": "take", "queue": 3, "wait": wait}


def swap(wait: int | str) -> Members:
    """A swap that waits so."""
    return {"call": "swap", "exchanger": 63, "item": "a", "wait": wait}


# ---- machines

def machine(state: str, **members: object) -> Members:
    """A machine of client 7 and incarnation 3 in this state; what is not named is as at its start."""
    whose = {"client": 7, "incarnation": 3, "version": 1}
    return {**whose, "state": state, "key": None, "call": None, **FRESH, "flying": "nothing", **members}


def asking(call: Members | None = None, **members: object) -> Members:
    """A machine with an outstanding request: a transfer that waits for ever, unless another call is named."""
    own: Members = {"key": KEY, "call": call or transfer("forever")}
    return machine("outstanding", **{**own, **members})


def said(call: Members | None = None, **members: object) -> Members:
    """A machine whose request flies for the first time, or with what else was sent."""
    return asking(call, **{"sent": True, "out": 1, "flying": "request", **members})


STILL = [
    machine("new"),
    machine("new", call=transfer("forever"), version=2),
    machine("new", call=transfer("forever"), full=True),
    machine("idle", key=FIRST),
    machine("idle", key=KEY, version=2),
    machine("idle"),
    asking(),
    asking(sent=True, doubtful=True),
    asking(sent=True, out=1, doubtful=True),
    asking(sent=True, out=1, accepted=True, doubtful=True),
    asking(sent=True, full=True),
    asking(sent=True, full=True, out=1, doubtful=True),
    asking(sent=True, out=1, giving_up=True, doubtful=True),
    machine("ended"),
]
MAIN = [
    said(),
    said(version=2),
    said(accepted=True, doubtful=True),
    said(giving_up=True, flying="cancel", doubtful=True),
    said(COUNT, key=GREATEST),
]
FLYING = [
    machine("new", flying="hello"),
    machine("new", flying="hello", version=2),
    machine("new", flying="hello", call=transfer("forever"), full=True),
    said(doubtful=True),
    said(out=2, doubtful=True),
    said(full=True),
    said(out=2, full=True, giving_up=True, doubtful=True),
    said(giving_up=True, flying="cancel"),
    said(giving_up=True, flying="cancel", accepted=True, out=2, version=2, doubtful=True),
]
CALLS: list[tuple[Members, int]] = [
    (PUT, 1), (PUT, 2), (transfer(5), 1), (transfer(5), 2), (transfer(0), 2), (transfer("now"), 1),
    (transfer("now"), 2), (take("forever"), 1), (take(5), 2), (take(0), 1), (take("now"), 1),
    (swap("forever"), 2), (swap(5), 1), (swap(0), 2), (COUNT, 1), (PEEK, 1), (DRAIN, 2)]
CALLING = [said(call, version=version) for call, version in CALLS]


# ---- events

def reply(word: str, key: Members | None = None, **members: object) -> Members:
    """A reply, of the request's own key unless another is named."""
    return {"kind": "reply", **(key or KEY), "reply": word, **members}


def waiting(key: Members) -> Members:
    """The answer that the request of a key waits."""
    return {"kind": "waiting", **key}


def welcome(**members: object) -> Members:
    """A welcome, the machine's own unless something else is named."""
    return {"kind": "welcome", "epoch": 5, "client": 7, "incarnation": 3, **members}


BY: Members = dict(zip(TAKER, (8, 1, 2)))
# The key with each of its parts lower, and greater.
OTHER_KEYS = [{**KEY, part: KEY[part] + more} for part in KEY for more in (-1, 1)]
REPLIES = [
    reply("done"), reply("received"), reply("received", **BY), reply("nobody"), reply("item", item=ODD_TEXT),
    reply("empty"), reply("swapped", item=""), reply("timedout"), reply("cancelled"),
    reply("counted", items=3, consumers=0), reply("peeked", item=ODD_TEXT), reply("drained", texts=[]),
    reply("drained", texts=["", ODD_TEXT]), reply("drained", texts=["a", "b", "c"]),
]
OTHER_REPLIES = [
    reply("drained", texts=["a"] * MAX_DRAIN), *(reply("received", key) for key in OTHER_KEYS),
    reply("received", OTHER_KEYS[-1], **BY), *(waiting(key) for key in OTHER_KEYS),
    reply("counted", GREATEST, items=0, consumers=0),
]
WELCOMES = [
    welcome(), welcome(version=2), welcome(epoch=6), welcome(client=8), welcome(incarnation=2),
    welcome(incarnation=4), welcome(incarnation=4, version=2)]
REFUSED: list[tuple[int, dict[str, int]]] = [
    (1, {}), (2, {"current": 4}), (2, {"current": 5}), (2, {"current": 6}), (3, {}), (4, {"current": 2}),
    (4, {"current": 3}), (4, {"current": 4}), (5, {"last": 3}), (5, {"last": 4}), (5, {"last": 5}), (6, {}),
    (7, {"open": 3}), (7, {"open": 4}), (7, {"open": 5}), (8, {"last": 0}), (8, {"last": 2}),
    (8, {"last": 3}), (8, {"last": 4}), (9, {}), (10, {}), (11, {}), (12, {"current": 1}),
    (12, {"current": 2})]
REFUSALS = [refused(code, **detail) for code, detail in REFUSED]
ANSWERS = [*WELCOMES, *REFUSALS, *REPLIES, *OTHER_REPLIES, waiting(KEY)]
# Replies and answers to wait: its own, one of the other version, one of another call, one of another key.
SOME = [reply("received"), reply("received", **BY), reply("done"), waiting(KEY), waiting(OTHER_KEYS[-1])]
# Each of these is taken in by a machine for which something flies.
FEW = [welcome(), reply("received"), waiting(KEY), refused(1), refused(2, current=6), refused(3), refused(4, current=4),
       refused(10), refused(11)]
OWN: list[Event] = [{"ask": PUT}, "speak", "lose", "give up", "expire"]


# ---- cases

def heard(answers: Iterable[Members]) -> list[Event]:
    """The events that these answers come."""
    return [{"hear": answer} for answer in answers]


def crossed(machines: Iterable[Members], events: list[Event]) -> list[tuple[Members, Event]]:
    """Each machine with each event."""
    return [(given, event) for given in machines for event in events]


def text_of(members: Members) -> str:
    """A line of the table."""
    return json.dumps(members, ensure_ascii=False, sort_keys=True) + "\n"


def machine_cases() -> list[str]:
    """The cases of machines, none of them twice, each a line of JSON."""
    pairs = [*crossed(STILL, [*OWN, *heard(FEW)]), *crossed(MAIN, [*OWN, *heard(ANSWERS)]),
             *crossed(FLYING, [*OWN, *heard([*WELCOMES, *REFUSALS, *SOME])]),
             *crossed(CALLING, heard([*REPLIES, waiting(KEY)]))]
    made = [text_of({"machine": given, "event": event, **step(given, event)}) for given, event in pairs]
    return list(dict.fromkeys(made))
