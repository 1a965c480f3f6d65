"""Programs that read bodies in a wrong way, made of the model's reading by a change. Hostile bodies must find each."""
import json
import random
import re
from collections.abc import Callable, Iterator
from typing import Any

from tests.model.hostile import NAMES, make_bodies
from tests.model.readings import (
    NO_MEANING, NO_READING, NOT_MESSAGE, Members, Program, Read, first_difference, in_parts, meaning, reading)
from tests.model.texts import (
    MAX_BODY_BYTES, MAX_DRAIN, MAX_IDENTIFIER, MAX_ITEM_BYTES, NoReading, fraction, no_constant, number, object_of, read_json)

# How many bodies find a wrong program at most, and how many it is asked at a time.
BODIES, AT_A_TIME = 20_000, 100
# A name with what is escaped in it, and any text.
NAME = re.compile(rb'"((?:[^"\\]|\\.)*)"(?=[ \t\r\n]*:)', re.DOTALL)
TEXT = re.compile(rb'"(?:[^"\\]|\\.)*"', re.DOTALL)
# What stands after a name's colon, where a number ends.
FRONT, BACK = rb"(?<=:)", rb"(?=[,}])"


def decoded(body: bytes, strict: bool = True, pairs: Callable[[list[tuple[str, Any]]], Any] = object_of) -> Any:
    """The value that is read so, however deep it nests."""
    decoder = json.JSONDecoder(object_pairs_hook=pairs, parse_int=number, parse_float=fraction, parse_constant=no_constant, strict=strict)
    try:
        return decoder.decode(body.decode())
    except (ValueError, RecursionError) as error:
        raise NoReading from error


def first_of(pairs: list[tuple[str, Any]]) -> Members:
    """The members where a name's first value counts."""
    return dict(object_of(pairs[::-1]))


def counted(pairs: list[tuple[str, Any]]) -> Members:
    """The members where a name counts as often as it stands."""
    members = object_of(pairs)
    return {**members, **{f"again {more}": None for more in range(len(pairs) - len(members))}}


def replaced(pattern: bytes, by: bytes) -> Read:
    """Reads a body in which what fits the pattern was replaced."""
    compiled = re.compile(pattern, re.DOTALL)
    return lambda body: read_json(compiled.sub(by, body))


def wraps(body: bytes) -> Any:
    """A number counts modulo 2^64."""
    return read_json(re.sub(FRONT + rb"\d{20,300}" + BACK, lambda digits: b"%d" % (int(digits[0]) % 2**64), body))


def takes_raw_names(body: bytes) -> Any:
    """An escape in a name is overlooked."""
    return read_json(NAME.sub(lambda name: name[0].replace(b"\\", b"\\\\"), body))


def takes_raw_words(body: bytes) -> Any:
    """An escape in a text that is no name is overlooked."""
    return read_json(re.sub(rb'(?<=:)' + TEXT.pattern, lambda text: text[0].replace(b"\\", b"\\\\"), body))


def stops_early(body: bytes) -> Any:
    """What stands after the value is passed over."""
    try:
        _, end = json.JSONDecoder().raw_decode(body.decode("utf-8", "surrogateescape"))
    except (ValueError, RecursionError):
        end = len(body)
    return read_json(body.decode("utf-8", "surrogateescape")[:end].encode("utf-8", "surrogateescape"))


def needs_no_spaces(body: bytes) -> Any:
    """White space is no JSON."""
    if re.search(rb"[ \t\r\n]", TEXT.sub(b"", body)):
        raise NoReading
    return read_json(body)


def takes_other_bytes(body: bytes) -> Any:
    """What is no UTF-8 counts as a replacement character."""
    return read_json(body.decode(errors="replace").encode())


def changed(change: Callable[[Members], Members]) -> Read:
    """Reads the members with a change."""
    def read(body: bytes) -> Any:
        value = read_json(body)
        return change(value) if isinstance(value, dict) else value
    return read


def knows_names(members: Members) -> Members:
    """A member of an unknown name is passed over."""
    return {name: value for name, value in members.items() if name in NAMES}


def lowers_names(members: Members) -> Members:
    """The case of a name is passed over."""
    return {name.lower(): value for name, value in members.items()}


def takes_one_more(members: Members) -> Members:
    """2^53 is within the limit of numbers."""
    return {name: value - (value == MAX_IDENTIFIER + 1) if type(value) is int else value for name, value in members.items()}


def cuts_items(members: Members) -> Members:
    """A longer item is cut."""
    item = members.get("item")
    return {**members, "item": item.encode()[:MAX_ITEM_BYTES].decode(errors="ignore")} if isinstance(item, str) else members


def cuts_texts(members: Members) -> Members:
    """Further texts are passed over."""
    texts = members.get("texts")
    return {**members, "texts": texts[:MAX_DRAIN]} if isinstance(texts, list) else members


def takes_first_of_list(members: Members) -> Members:
    """A list of one value is that value."""
    return {name: value[0] if isinstance(value, list) and len(value) == 1 and name != "texts" else value for name, value in members.items()}


class Stale:
    """A text, or the digits of a number, that are shorter than those of the body before, are read with the rest of these."""

    def __init__(self, name: str, kind: type[str] | type[int]):
        self.name, self.kind, self.last = name, kind, ""

    def __call__(self, body: bytes) -> Any:
        value = read_json(body)
        now = value.get(self.name) if isinstance(value, dict) else None
        if type(now) is not self.kind:
            return value
        text, before = str(now), self.last
        self.last = text
        return {**value, self.name: self.kind(text + before[len(text):])}


def by(read: Read) -> Program:
    """The program that reads so."""
    return lambda bodies: [reading(body, read) for body in bodies]


def fast(read: Read) -> Program:
    """The program that reads so where the way is fast: where no space stands at the end."""
    return lambda bodies: [reading(body, read_json if body[-1:] == b" " else read) for body in bodies]


def slow(read: Read) -> Program:
    """The program that reads so where the way is slow."""
    return lambda bodies: [reading(body, read if body[-1:] == b" " else read_json) for body in bodies]


def no_length(bodies: list[bytes]) -> list[bytes]:
    """The length isn't looked at."""
    return [meaning_of(body) if len(body) > MAX_BODY_BYTES else reading(body) for body in bodies]


def meaning_of(body: bytes) -> bytes:
    """What a body of any length is read as."""
    try:
        return meaning(read_json(body))
    except NoReading:
        return NO_READING


def shorter(bodies: list[bytes]) -> list[bytes]:
    """A body of the greatest length is too long."""
    return [NO_MEANING if len(body) == MAX_BODY_BYTES else reading(body) for body in bodies]


def none_is_json(bodies: list[bytes]) -> list[bytes]:
    """A body without a byte is no JSON."""
    return [reading(body) if body else NO_READING for body in bodies]


def one_fault(bodies: list[bytes]) -> list[bytes]:
    """What is no JSON is no message."""
    return [NO_MEANING if line == NO_READING else line for line in map(reading, bodies)]


def later(bodies: list[bytes]) -> list[bytes]:
    """Of two bodies of one length the second is read as the first."""
    return [reading(before if len(before) == len(body) else body) for before, body in zip([b"", *bodies], bodies)]


def of_calls(bodies: list[bytes]) -> list[bytes]:
    """A request is a call too, whose key is passed over."""
    return [line if not line.startswith(b'{"call"') else line.replace(NOT_MESSAGE, line.split(b"\t")[0]) for line in map(reading, bodies)]


WRONG: dict[str, Program] = {
    "a name's first value counts": by(lambda body: decoded(body, pairs=first_of)),
    "a name's first value counts, on the fast way alone": fast(lambda body: decoded(body, pairs=first_of)),
    "a name's first value counts, on the slow way alone": slow(lambda body: decoded(body, pairs=first_of)),
    "a name that stands twice counts twice": by(lambda body: decoded(body, pairs=counted)),
    "a number counts modulo 2^64": by(wraps),
    "a number counts modulo 2^64, on the fast way alone": fast(wraps),
    "an escape in a name is overlooked": by(takes_raw_names),
    "an escape in a name is overlooked, on the fast way alone": fast(takes_raw_names),
    "an escape in a value is overlooked": fast(takes_raw_words),
    "what stands after the object is passed over": by(stops_early),
    "white space is no JSON": slow(needs_no_spaces),
    "a piece of the text before is read": fast(Stale("item", str)),
    "a digit of the number before is read": fast(Stale("client", int)),
    "zeros in front of a number are passed over": fast(replaced(FRONT + rb"0+(?=\d)", b"")),
    "a sign is passed over": fast(replaced(FRONT + rb"[+-](?=\d)", b"")),
    "-0 is 0": fast(replaced(FRONT + rb"-0" + BACK, b"0")),
    "a point is passed over": fast(replaced(FRONT + rb"(\d+)\.0+" + BACK, rb"\1")),
    "an exponent is passed over": fast(replaced(FRONT + rb"(\d+)[eE][+-]?0+" + BACK, rb"\1")),
    "a number may stand in quotes": fast(replaced(FRONT + rb'"(\d+)"' + BACK, rb"\1")),
    "a number ends at any byte": fast(replaced(FRONT + rb"(\d+)[^\d,}.eE]+" + BACK, rb"\1")),
    "a comma may stand at the end": fast(replaced(rb",(?=[}\]])", b"")),
    "a comma may be missing": fast(replaced(rb'(?<=[\d"])(?="\w+":)', b",")),
    "a form feed is white space": by(replaced(rb"\x0c", b" ")),
    "a mark of order may stand in front": by(replaced(rb"\A\xef\xbb\xbf", b"")),
    "a lone surrogate is a character": by(replaced(rb"\\u[dD][89abAB][0-9a-fA-F]{2}(?!\\u[dD][c-fC-F])", rb"\\ufffd")),
    "a control may stand in a text": by(lambda body: decoded(body, strict=False)),
    "bytes that are no UTF-8 are read": fast(takes_other_bytes),
    "a body may nest deeper": by(decoded),
    "a further member is passed over": fast(changed(knows_names)),
    "the case of a name is passed over": fast(changed(lowers_names)),
    "2^53 is a client": fast(changed(takes_one_more)),
    "an item may be longer": fast(changed(cuts_items)),
    "a drained may have more texts": fast(changed(cuts_texts)),
    "a list of one value is that value": fast(changed(takes_first_of_list)),
    "members after the sixteenth are passed over": fast(lambda body: decoded(body, pairs=lambda pairs: object_of(pairs[:16]))),
    "a body may be longer": no_length,
    "a body may not be as long": shorter,
    "a body of no bytes is no JSON": none_is_json,
    "what is no JSON is no message": one_fault,
    "a body is read as that before it": later,
    "a request is a call": of_calls,
    "the last body isn't told": lambda bodies: [reading(body) for body in bodies[:-1]]}


def is_found(program: Program, chance: random.Random) -> bool:
    """Whether hostile bodies find that a program is wrong."""
    parts = in_parts(make_bodies(chance), BODIES, AT_A_TIME)
    return any(first_difference(program, [(body, reading(body)) for body in part]) for part in parts)


def wrong_reader_faults() -> Iterator[tuple[str, str | None]]:
    """Each wrong program, and that it isn't found, if so."""
    for name, program in WRONG.items():
        found = is_found(program, random.Random(f"wrong {name}"))
        yield f"a wrong program: {name}", None if found else f"{BODIES} bodies don't find it"
