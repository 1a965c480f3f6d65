"""Bodies that are hard to read: those of messages, answers and calls, in all orders, spoilt in many ways."""
import random
import re
from collections.abc import Callable, Iterator
from dataclasses import dataclass
from itertools import islice, permutations

from tests.model.answers import CODES, DETAILS, OTHER_VERSION, REPLIES
from tests.model.calls import KINDS
from tests.model.hostile_values import (
    any_number, any_word, bad_text, escaped, good_value, hostile_value, near_number, nested, other_value, quoted, turned)
from tests.model.texts import KEY, MAX_BODY_BYTES, TAKER

Pair = tuple[bytes, bytes]
SPACES = [b" ", b"\t", b"\n", b"\r", b"  ", b" \r\n\t", b"\n\n"]
# What is no white space in JSON, though it looks like it.
NO_SPACES = [b"\x0b", b"\x0c", b"\x00", b"\xc2\xa0", b"\xef\xbb\xbf", b"\xe2\x80\xa8", b"\x85", b"/**/"]
# Where white space may stand, and where it may not, in texts.
PLACES = re.compile(rb"\A|\Z|(?=[]}:,])|(?<=[{\[:,])")
# What may stand after a body.
ENDS = [b"}", b"]", b",", b":", b"x", b"1", b'"', b"null", b"{}", b"[]", b" {}", b"\n1", b"\x00", b" \x00", b"\xff", b"//", b"#", b"\xef\xbb\xbf"]
# Bytes that mean something in JSON, or in UTF-8.
BYTES = b'{}[]:,"\\/ \t\n\r0123456789+-.eEutfnabh\x00\x01\x1f\x7f\x80\xbf\xc3\xe2\xed\xf0\xff'
# How many bodies a whole family has at most, and how many digits a number that is written in another way.
FAMILY, MOST_DIGITS = 150, 20


@dataclass(frozen=True)
class Shape:
    """Which members a body has: words that are fixed, and the names of others."""

    words: dict[str, str | int]
    names: tuple[str, ...]

    def pairs(self, chance: random.Random) -> list[Pair]:
        """The members with good values, as texts, in byte order of their names."""
        fixed = {name: quoted(word.encode()) if isinstance(word, str) else b"%d" % word for name, word in self.words.items()}
        values = {**fixed, **{name: good_value(chance, name) for name in self.names}}
        if self.words.get("code") == OTHER_VERSION:
            values["current"] = chance.choice([b"1", b"2"])
        if self.words.get("call") == "swap" and values["wait"] == b'"now"':
            values["wait"] = b'"forever"'
        return [(quoted(name.encode()), values[name]) for name in sorted(values)]


VERSIONS: list[tuple[str, ...]] = [(), ("version",)]
CALLS = [Shape({"call": word}, kind.members) for word, kind in KINDS.items()]
MESSAGES = [
    *(Shape({"kind": "hello"}, ("client", "incarnation", *version)) for version in VERSIONS),
    *(Shape({"kind": "request", **call.words}, (*KEY, *call.names)) for call in CALLS),
    Shape({"kind": "cancel"}, KEY)]
ANSWERS = [
    *(Shape({"kind": "welcome"}, (*KEY[:3], *version)) for version in VERSIONS),
    *(Shape({"kind": "reply", "reply": word}, (*KEY, *names)) for word, names in [*REPLIES.items(), ("received", TAKER)]),
    Shape({"kind": "waiting"}, KEY),
    *(Shape({"kind": "refused", "code": code}, (DETAILS[code],) if code in DETAILS else ()) for code in range(1, CODES + 1))]
NAMES = sorted({name for shape in (*MESSAGES, *ANSWERS) for name in (*shape.words, *shape.names)})
# The one answer with a list comes more often, and messages come as often as answers, though there are fewer kinds.
DRAINED = Shape({"kind": "reply", "reply": "drained"}, (*KEY, "texts"))
SHAPES, HOW_OFTEN_EACH = [MESSAGES, [*ANSWERS, *[DRAINED] * 4], CALLS], [45, 40, 15]


def text_of(pairs: list[Pair]) -> bytes:
    """The compact text of an object with these members."""
    return b"{" + b",".join([name + b":" + value for name, value in pairs]) + b"}"


def name_in(pair: Pair) -> str:
    """A member's name, as it is written."""
    return pair[0][1:-1].decode("utf-8", "replace")


# Changes of the members.

def doubled(chance: random.Random, pairs: list[Pair]) -> None:
    """A name stands twice, or more often, with its own value, or others."""
    name, value = chance.choice(pairs)
    for _ in range(chance.choice([1, 1, 1, 2, 5])):
        other = chance.choice([value, good_value_in(chance, name, value), hostile_value(chance, name_in((name, value)))])
        as_written = quoted(escaped(chance, name[1:-1])) if chance.random() < 0.2 else name
        pairs.insert(chance.choice([0, len(pairs), chance.randint(0, len(pairs))]), (as_written, other))


def good_value_in(chance: random.Random, name: bytes, value: bytes) -> bytes:
    """A value that this name may have; of a word, the same or another word."""
    plain = name[1:-1].decode("utf-8", "replace")
    if plain in ("kind", "call", "reply"):
        return chance.choice([value, any_word(chance)])
    return good_value(chance, plain) if plain in NAMES else value


def revalued(chance: random.Random, pairs: list[Pair]) -> None:
    """A member has a value that is mostly none for it: often the one that is a text, or texts."""
    of_texts = [at for at, (name, _) in enumerate(pairs) if name in (b'"item"', b'"texts"')]
    at = chance.choice(of_texts) if of_texts and chance.random() < 0.7 else chance.randrange(len(pairs))
    pairs[at] = (pairs[at][0], hostile_value(chance, name_in(pairs[at])))


def renumbered(chance: random.Random, pairs: list[Pair]) -> None:
    """A number is written in another way, mostly wrongly, or is past its limit, or none."""
    numbers = [at for at, (_, value) in enumerate(pairs) if value.isdigit() and len(value) <= MOST_DIGITS]
    at = chance.choice(numbers) if numbers else chance.randrange(len(pairs))
    name, value = pairs[at]
    pairs[at] = (name, near_number(chance, value) if numbers and chance.random() < 0.5 else any_number(chance))


def reworded(chance: random.Random, pairs: list[Pair]) -> None:
    """A member has some word, or one of its characters is escaped."""
    words = [at for at, (_, value) in enumerate(pairs) if value[:1] == b'"' and len(value) > 2 and b"\\" not in value and value.isascii()]
    at = chance.choice(words or [0])
    name, value = pairs[at]
    pairs[at] = (name, quoted(escaped(chance, value[1:-1])) if at in words and chance.random() < 0.5 else any_word(chance))


def renamed(chance: random.Random, pairs: list[Pair]) -> None:
    """A member has a name that is nearly its own, that of another, or its own with an escape."""
    at = chance.randrange(len(pairs))
    name, value = pairs[at]
    plain = name[1:-1]
    other = chance.choice(NAMES).encode()
    names = [*[escaped(chance, plain)] * 6, other, plain.title(), plain + b"s", plain[:-1], plain + b"\\u0000", b"", plain + b" ", b" " + plain]
    bare = [plain, b"'" + plain + b"'", quoted(plain) + b"x", b"1", b"null", b"[]", bad_text(chance), quoted(b"a" * 300), quoted(turned(chance, plain))]
    pairs[at] = (quoted(chance.choice(names)) if chance.random() < 0.8 else chance.choice(bare), value)


def added(chance: random.Random, pairs: list[Pair]) -> None:
    """A member too many: of a known name, or of another."""
    name = chance.choice([chance.choice(NAMES), chance.choice(["", "x", "Kind", "id", "é", "\x7f", "texts"])])
    value = good_value_in(chance, quoted(name.encode()), b"1")
    pairs.insert(chance.randint(0, len(pairs)), (quoted(name.encode()), chance.choice([value, hostile_value(chance, name)])))


def crowded(chance: random.Random, pairs: list[Pair]) -> None:
    """Many members stand beside: of names of their own, or of all known names; or those of the body stand many times."""
    count = chance.choice([5, 8, 12, 25, 40])
    more = chance.choice([[f"x{number}" for number in range(count)], NAMES, [""] * count])
    others = [(quoted(name.encode()), good_value_in(chance, quoted(name.encode()), b"1")) for name in more]
    again = [(name, good_value_in(chance, name, value)) for name, value in pairs * count]
    pairs[:] = chance.choice([[*pairs, *others], [*others, *pairs], pairs * count, again, again])


def dropped(chance: random.Random, pairs: list[Pair]) -> None:
    """A member is lacking."""
    if len(pairs) > 1:
        pairs.pop(chance.randrange(len(pairs)))


def swapped_values(chance: random.Random, pairs: list[Pair]) -> None:
    """Two members have each other's value."""
    one, other = chance.randrange(len(pairs)), chance.randrange(len(pairs))
    (first, value), (second, last) = pairs[one], pairs[other]
    pairs[one], pairs[other] = (first, last), (second, value)


# Changes of the text.

def spaced(chance: random.Random, text: bytes) -> bytes:
    """White space stands at some places, mostly where it may."""
    for _ in range(chance.choice([1, 1, 2, 5])):
        may = [place.start() for place in PLACES.finditer(text)]
        at = chance.choice(may) if chance.random() < 0.8 else chance.randint(0, len(text))
        text = text[:at] + chance.choice(SPACES if chance.random() < 0.9 else NO_SPACES) + text[at:]
    return text


def cut(chance: random.Random, text: bytes) -> bytes:
    """It is cut, at its end or at its beginning."""
    at = chance.randint(0, len(text))
    return text[:at] if chance.random() < 0.8 else text[at:]


def touched(chance: random.Random, text: bytes) -> bytes:
    """Some bytes are changed, put in or taken out."""
    for _ in range(chance.choice([1, 1, 1, 2, 4])):
        at = chance.randint(0, len(text))
        byte = bytes([chance.choice(BYTES) if chance.random() < 0.7 else chance.randrange(256)])
        text = text[:at] + chance.choice([byte, byte, b""]) + text[at + chance.randint(0, 1):]
    return text


def moved(chance: random.Random, text: bytes) -> bytes:
    """A piece of it stands twice, or at another place, or is missing."""
    one, other = sorted((chance.randint(0, len(text)), chance.randint(0, len(text))))
    to = chance.randint(0, len(text))
    return chance.choice([text[:to] + text[one:other] + text[to:], text[:one] + text[other:], text[:one] + text[one:other][::-1] + text[other:]])


def followed(chance: random.Random, text: bytes) -> bytes:
    """Something stands after it, or before it."""
    end = chance.choice([*ENDS, text, b"," + text, b" " + text])
    return text + end if chance.random() < 0.8 else end + text


def wrapped(chance: random.Random, text: bytes) -> bytes:
    """It stands in another value, or another value in its place."""
    inner = nested(chance, chance.choice([1, 126, 127, 128]))
    return chance.choice([b"[" + text + b"]", b'{"kind":' + text + b"}", quoted(text), text[1:-1], inner, other_value(chance)])


def sized(chance: random.Random, text: bytes) -> bytes:
    """It is as long as a body may be, or nearly so, or longer."""
    size = MAX_BODY_BYTES + chance.choice([-2, -1, 0, 0, 1, 1, 2])
    left, again = size - len(text), b'"client":7,"item":"x","number":1,"kind":"x",'
    return chance.choice([
        text + chance.choice([b" ", b"\n", b"\t"]) * left,
        text[:1] + b" " * left + text[1:],
        text[:-1] + b',"item":"' + b"a" * (left - 10) + b'"}',
        text[:1] + again * (left // len(again)) + text[1:-1] + b" " * (left % len(again)) + text[-1:],
        chance.choice([b"[", b"{", b'"', b"0", b"1", b" ", b"\x00", b"\xff", b'{"a":', b"[1,"]) * (size // chance.choice([1, 5]))])


# Whole families.

def all_cuts(_: random.Random, pairs: list[Pair]) -> Iterator[bytes]:
    """A body cut at every place."""
    text = text_of(pairs)
    return (text[:at] for at in range(len(text)))


def all_orders(_: random.Random, pairs: list[Pair]) -> Iterator[bytes]:
    """A body's members in all orders."""
    return (text_of(list(order)) for order in permutations(pairs))


def all_spaces(chance: random.Random, pairs: list[Pair]) -> Iterator[bytes]:
    """A body with white space at every place."""
    text = text_of(pairs)
    return (text[:at] + chance.choice(SPACES) + text[at:] for at in range(len(text) + 1))


def all_removals(_: random.Random, pairs: list[Pair]) -> Iterator[bytes]:
    """A body without each of its bytes."""
    text = text_of(pairs)
    return (text[:at] + text[at + 1:] for at in range(len(text)))


def all_insertions(chance: random.Random, pairs: list[Pair]) -> Iterator[bytes]:
    """A body with a byte put in at every place."""
    text, byte = text_of(pairs), bytes([chance.choice(BYTES)])
    return (text[:at] + byte + text[at:] for at in range(len(text) + 1))


def all_changes(chance: random.Random, pairs: list[Pair]) -> Iterator[bytes]:
    """A body with a bit turned in each of its bytes."""
    text, bit = text_of(pairs), 1 << chance.randrange(8)
    return (text[:at] + bytes([text[at] ^ bit]) + text[at + 1:] for at in range(len(text)))


def all_doubles(chance: random.Random, pairs: list[Pair]) -> Iterator[bytes]:
    """A body with each of its members twice, the second one in each place."""
    other = [(name, good_value_in(chance, name, value)) for name, value in pairs]
    return (text_of([*pairs[:at], pair, *pairs[at:]]) for pair in other for at in range(len(pairs) + 1))


MEMBERS: list[Callable[[random.Random, list[Pair]], None]] = [
    doubled, doubled, revalued, revalued, renumbered, renumbered, reworded, reworded, renamed, renamed, added, dropped,
    swapped_values]
TEXTS: list[Callable[[random.Random, bytes], bytes]] = [spaced, spaced, cut, touched, touched, moved, followed, wrapped]
FAMILIES: list[Callable[[random.Random, list[Pair]], Iterator[bytes]]] = [
    all_cuts, all_orders, all_spaces, all_removals, all_insertions, all_changes, all_doubles]
# How many changes a body has, of its members and of its text, and how often so many.
COUNTS, HOW_OFTEN = [(0, 0), (1, 0), (2, 0), (3, 0), (0, 1), (0, 2), (1, 1)], [10, 35, 12, 3, 25, 5, 10]


def some_pairs(chance: random.Random) -> list[Pair]:
    """The members of some good body, in byte order of their names or in any."""
    pairs = chance.choice(chance.choices(SHAPES, HOW_OFTEN_EACH)[0]).pairs(chance)
    if chance.random() < 0.5:
        chance.shuffle(pairs)
    return pairs


def one_body(chance: random.Random) -> bytes:
    """One body, mostly spoilt."""
    pairs = some_pairs(chance)
    of_members, of_text = chance.choices(COUNTS, HOW_OFTEN)[0]
    for change in chance.choices(MEMBERS, k=of_members):
        change(chance, pairs)
    if chance.random() < 0.01:
        crowded(chance, pairs)
    text = text_of(pairs)
    for spoil in chance.choices(TEXTS, k=of_text):
        text = spoil(chance, text)
    return sized(chance, text) if chance.random() < 0.003 else text


def some_family(chance: random.Random) -> Iterator[bytes]:
    """Up to so many bodies of one family."""
    return islice(chance.choice(FAMILIES)(chance, some_pairs(chance)), FAMILY)


def make_bodies(chance: random.Random) -> Iterator[bytes]:
    """Bodies without end."""
    while True:
        if chance.random() < 0.003:
            yield from some_family(chance)
        else:
            yield one_body(chance)
