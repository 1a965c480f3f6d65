"""Bodies of messages, which are written, and of answers, which are read: the members of their rows, and no others."""
from __future__ import annotations

import json
from typing import Any, Dict, Tuple

from .replies import REPLIES, Key, Outcome

Members = Dict[str, Any]

GREATEST = 2**53 - 1
GREATEST_ITEM = 512
GREATEST_DRAIN = 16
GREATEST_COUNT = 100_000
GREATEST_VERSION = 2
GREATEST_CODE = 12

KEY = ("client", "epoch", "incarnation", "number")
# The consumer's key in a receipt, whose epoch is the answer's.
BY = ("by_client", "by_incarnation", "by_number")
DETAILS = {2: "current", 4: "current", 5: "last", 7: "open", 8: "last", 12: "current"}
# The limits of members that are whole numbers; of all others they are 1 and GREATEST.
LIMITS = {"items": (0, GREATEST_COUNT), "consumers": (0, GREATEST_COUNT), "last": (0, GREATEST),
          "version": (2, GREATEST_VERSION), "code": (1, GREATEST_CODE)}


class NoAnswer(Exception):
    """What came is no frame, or no answer's body."""


def body_of(members: Members) -> bytes:
    """The compact body of these members."""
    return json.dumps(members, ensure_ascii=False, separators=(",", ":"), sort_keys=True).encode()


def is_whole(value: Any, least: int, most: int) -> bool:
    """Whether a value is a whole number within limits; true and 1.0 are none."""
    return type(value) is int and least <= value <= most


def is_item(value: Any) -> bool:
    """Whether a value is a text that an item may be."""
    try:
        return isinstance(value, str) and len(value.encode()) <= GREATEST_ITEM
    except UnicodeEncodeError:
        return False


def are_texts(value: Any) -> bool:
    """Whether a value is a list of texts that one drain may give."""
    return isinstance(value, list) and len(value) <= GREATEST_DRAIN and all(map(is_item, value))


def further_members(answer: Members) -> Tuple[str, ...]:
    """The names that an answer of its kind has beside `kind`."""
    kind = answer.get("kind")
    if kind == "welcome":
        return (*KEY[:3], "version") if "version" in answer else KEY[:3]
    if kind == "waiting":
        return KEY
    if kind == "reply" and isinstance(answer.get("reply"), str) and answer["reply"] in REPLIES:
        return (*KEY, "reply", *told_members(answer))
    if kind == "refused" and is_whole(answer.get("code"), 1, GREATEST_CODE):
        detail = DETAILS.get(answer["code"])
        return ("code", detail) if detail else ("code",)
    raise NoAnswer("an answer of no kind")


def told_members(reply: Members) -> Tuple[str, ...]:
    """The names of what a reply tells: a receipt may name the consumer."""
    return BY if reply["reply"] == "received" and BY[0] in reply else REPLIES[reply["reply"]].members


def keeps_limit(name: str, answer: Members) -> bool:
    """Whether a member keeps its limit."""
    value = answer[name]
    if name in ("kind", "reply"):
        return isinstance(value, str)
    if name == "item":
        return is_item(value)
    if name == "texts":
        return are_texts(value)
    least, most = LIMITS.get(name, (1, GREATEST))
    if name == "current" and answer["code"] == GREATEST_CODE:
        most = GREATEST_VERSION
    return is_whole(value, least, most)


def read_answer(body: bytes) -> Members:
    """The members of an answer's body."""
    try:
        answer = json.loads(body.decode())
    except (ValueError, RecursionError) as fault:
        raise NoAnswer("no JSON") from fault
    if not isinstance(answer, dict):
        raise NoAnswer("no object")
    names = {"kind", *further_members(answer)}
    if answer.keys() != names or not all(keeps_limit(name, answer) for name in names):
        raise NoAnswer("no answer's members")
    return answer


def key_of(answer: Members) -> Key:
    """The key that an answer names."""
    return Key(answer["epoch"], answer["client"], answer["incarnation"], answer["number"])


def outcome_of(reply: Members) -> Outcome:
    """The outcome that a reply tells."""
    return REPLIES[reply["reply"]].outcome(key_of(reply), *(reply[name] for name in told_members(reply)))
