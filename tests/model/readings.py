"""What a body is read as: the message, the answer and the call, each written again, or its fault (docs/FORMATS.md, section 1)."""
from collections.abc import Callable, Iterable, Iterator
from dataclasses import dataclass
from itertools import islice
from typing import Any

from tests.model.answers import answer_of
from tests.model.texts import (
    KEY, MAX_BODY_BYTES, NoReading, members_of, members_of_call, message_of, read_call, read_json, written)

Members = dict[str, Any]
# How the value is read whose JSON text bytes are: it raises NoReading where they have no reading.
Read = Callable[[bytes], Any]
# What tells of each of some bodies what it is read as, in a line.
Program = Callable[[list[bytes]], list[bytes]]

NOT_JSON, NOT_MESSAGE = b"1", b"2"
NO_READING = b"\t".join([NOT_JSON] * 3)
NO_MEANING = b"\t".join([NOT_MESSAGE] * 3)
# The key of the request as which a call is written.
OF_CALLS = dict.fromkeys(KEY, 1)


def reading(body: bytes, read: Read = read_json) -> bytes:
    """What a body is read as, in the line that the program has to tell."""
    if not 1 <= len(body) <= MAX_BODY_BYTES:
        return NO_MEANING
    try:
        value = read(body)
    except NoReading:
        return NO_READING
    return meaning(value)


def meaning(value: Any) -> bytes:
    """What a value is read as."""
    if not isinstance(value, dict):
        return NO_MEANING
    return b"\t".join(again(write, value) for write in (message_again, answer_of, call_again))


def again(write: Callable[[Members], Members], members: Members) -> bytes:
    """What these members are the members of, written again, or that they are of none such."""
    try:
        return bytes(written(write(dict(members))).encode())
    except NoReading:
        return NOT_MESSAGE


def message_again(members: Members) -> Members:
    """The members of a message, if these are such."""
    return members_of(message_of(members))


def call_again(members: Members) -> Members:
    """The members of the request of a call, if these are those of a call."""
    return {"kind": "request", **OF_CALLS, **members_of_call(read_call(members))}


@dataclass(frozen=True)
class Difference:
    """What a program tells otherwise of a body: the line that it has to tell, and its own."""

    body: bytes
    wanted: bytes
    got: bytes

    def told(self) -> str:
        """The difference in words."""
        lines = ("wanted", self.wanted), ("got", self.got), ("body", self.body[:500]), ("in hex", self.body[:500].hex().encode())
        return f"a body of {len(self.body)} bytes" + "".join(f"\n  {name:7}{text!r}" for name, text in lines)


def ways(body: bytes) -> list[bytes]:
    """A body as it is, and with a space after it, which means the same and goes another way; not where it makes the length a good
    one, or a bad one."""
    return [body] if len(body) in (0, MAX_BODY_BYTES) else [body, body + b" "]


def first_difference(program: Program, rows: Iterable[tuple[bytes, bytes]]) -> Difference | None:
    """The first body, asked in each of its ways, of which a program tells another line than the one beside it."""
    asked = [(text, line) for body, line in rows for text in ways(body)]
    told = program([text for text, _ in asked])
    for (text, wanted), got in zip(asked, told):
        if got != wanted:
            return Difference(text, wanted, got)
    return None if len(told) == len(asked) else Difference(b"", b"%d lines" % len(asked), b"%d lines" % len(told))


def in_parts(bodies: Iterator[bytes], count: int, at_hand: int) -> Iterator[list[bytes]]:
    """So many of the bodies, in parts of so many."""
    some = islice(bodies, count)
    while part := list(islice(some, at_hand)):
        yield part
