"""Bodies and lines: how a line of `rv book` is read, and how a body is written (docs/FORMATS.md, sections 1 and 4)."""
import json
import re
from functools import lru_cache

from tests.model.account import Call, Cancel, Hello, Key, Request
from tests.model.calls import KINDS

MAX_BODY_BYTES = 65_535
MAX_ITEM_BYTES = 512
MAX_DEPTH = 127
MAX_PLACE = 63
MAX_IDENTIFIER = 2**53 - 1
MAX_WAIT = 86_400_000
MAX_DRAIN = 16
KEY = ("epoch", "client", "incarnation", "number")
SURROGATE = re.compile("[\ud800-\udfff]")
# What may nest in a JSON text, and the texts in it, of which nothing does.
BRACKET = re.compile(r'"(?:[^"\\]|\\.)*"|[][{}]', re.DOTALL)
# Behind the epoch, which is the answer's, the key of a consumer that an answer names.
TAKER = ("by_client", "by_incarnation", "by_number")


class NoReading(Exception):
    """Bytes that are no message's body, or a line of another form."""


def written(members):
    """The one text of an object: no white space, members in byte order of their names."""
    return ENCODER.encode(members)


def members_of(message):
    """The members of a message."""
    match message:
        case Hello(client, incarnation, version):
            return {"kind": "hello", "client": client, "incarnation": incarnation, **members_of_version(version)}
        case Cancel(key):
            return {"kind": "cancel", **vars(key)}
    return {"kind": "request", **vars(message.key), **members_of_call(message.call)}


def members_of_version(version):
    """What a hello or its welcome tells of the version: nothing of the first."""
    return {"version": version} if version != 1 else {}


def version_of(members):
    """The version that members tell, of which it is taken out: the first, unless a member tells the second."""
    return whole(members.pop("version"), 2, 2) if "version" in members else 1


def members_of_call(call):
    """The members of a call."""
    more = {"item": call.item, "wait": call.wait, "max": call.max}
    present = {name: value for name, value in more.items() if value is not None}
    return {"call": call.word, call.kind.members[0]: call.at, **present}


def demand(condition):
    """Ends the reading unless the condition holds."""
    if not condition:
        raise NoReading


def read_line(line):
    """The moment and the message of a line without its LF."""
    digits, space, body = line.partition(b" ")
    demand(space and 1 <= len(digits) <= 19 and all(byte in b"0123456789" for byte in digits))
    return int(digits), read_message(body)


@lru_cache(maxsize=10_000)
def read_message(body):
    """The message whose body the bytes are."""
    demand(1 <= len(body) <= MAX_BODY_BYTES)
    members = read_json(body)
    demand(isinstance(members, dict))
    return message_of(members)


def message_of(members):
    """The message with these members, which are taken out."""
    kind = members.pop("kind", None)
    if kind == "hello":
        return read_hello(members)
    demand(kind in ("request", "cancel") and members.keys() >= set(KEY))
    key = Key(*(whole(members.pop(name), 1, MAX_IDENTIFIER) for name in KEY))
    if kind == "request":
        return Request(key, read_call(members))
    demand(not members)
    return Cancel(key)


def read_hello(members):
    """The hello with these members."""
    version = version_of(members)
    demand(members.keys() == {"client", "incarnation"})
    return Hello(*(whole(members[name], 1, MAX_IDENTIFIER) for name in ("client", "incarnation")), version)


def read_call(members):
    """The call with these members."""
    word = members.pop("call", None)
    demand(isinstance(word, str) and word in KINDS and members.keys() == set(KINDS[word].members))
    at = whole(members[KINDS[word].members[0]], 0, MAX_PLACE)
    item, wait = members.get("item"), members.get("wait")
    if "item" in members:
        demand(isinstance(item, str) and len(item.encode()) <= MAX_ITEM_BYTES)
    if "wait" in members and wait not in ("now", "forever"):
        whole(wait, 0, MAX_WAIT)
    demand(wait != "now" or KINDS[word].unmet)
    return Call(word, at, item, wait, whole(members["max"], 1, MAX_DRAIN) if "max" in members else None)


def whole(value, least, most):
    """A whole number within its limits."""
    demand(type(value) is int and least <= value <= most)
    return value


def read_json(body):
    """The value that the bytes are the JSON text of."""
    try:
        text = body.decode("utf-8")
        demand(not text.startswith("\ufeff"))
        value = DECODER.decode(text)
    except (ValueError, RecursionError) as error:
        raise NoReading from error
    no_surrogate(value)
    demand(depth(text) <= MAX_DEPTH)
    return value


def object_of(pairs):
    """The members of an object; the last value of a name counts, but each value has to have a reading."""
    for name, value in pairs:
        no_surrogate(name)
        no_surrogate(value)
    return dict(pairs)


def number(digits):
    """What digits without point and exponent give: a sign, or 2^64 and more, makes them no whole number."""
    return fraction(digits) if digits.startswith("-") or int(digits) >= 2**64 else int(digits)


def fraction(digits):
    """A number with a point or an exponent; one that is too large has no reading."""
    value = float(digits)
    if value in (float("inf"), float("-inf")):
        raise ValueError(digits)
    return value


def no_constant(word):
    """NaN and the infinities are no JSON."""
    raise ValueError(word)


def no_surrogate(value):
    """Ends the reading at a text that holds a lone surrogate."""
    if isinstance(value, list):
        for part in value:
            no_surrogate(part)
    if isinstance(value, str):
        demand(not SURROGATE.search(value))


def depth(text):
    """How deep a JSON text nests."""
    deepest = level = 0
    for bracket in BRACKET.findall(text):
        if bracket in "[{":
            level += 1
            deepest = max(deepest, level)
        elif bracket in "]}":
            level -= 1
    return deepest


ENCODER = json.JSONEncoder(sort_keys=True, separators=(",", ":"), ensure_ascii=False)
DECODER = json.JSONDecoder(object_pairs_hook=object_of, parse_int=number, parse_float=fraction, parse_constant=no_constant)
