"""Values of a body's members, as JSON texts: good ones, those at a limit and past it, and others that are hard to read."""
import random

from tests.model.answers import CODES, MOST_PLACES
from tests.model.calls import KINDS
from tests.model.texts import MAX_DRAIN, MAX_IDENTIFIER, MAX_ITEM_BYTES, MAX_PLACE, MAX_WAIT, TAKER

# The least and the greatest number of each member that is one.
LIMITS = {
    **dict.fromkeys(("client", "epoch", "incarnation", "number", *TAKER, "current", "open"), (1, MAX_IDENTIFIER)),
    "last": (0, MAX_IDENTIFIER), "queue": (0, MAX_PLACE), "exchanger": (0, MAX_PLACE), "max": (1, MAX_DRAIN), "wait": (0, MAX_WAIT),
    "items": (0, MOST_PLACES), "consumers": (0, MOST_PLACES), "code": (1, CODES), "version": (2, 2)}
# Where numbers change their kind, or have one digit more.
STEPS = (0, 1, 2**31, 2**32, 2**53, 2**63, 10**18, 10**19, 2**64, 2**64 + 2**53, 2 * 2**64, 10**20, 2**127, 2**128)
# What is a number, or nearly one.
NUMBERS = [
    b"00", b"01", b"007", b"-0", b"-1", b"-7", b"+1", b"+0", b"1.0", b"2.0", b"0.0", b"1.5", b"1e0", b"1E0", b"2e+0", b"2e-0", b"10e-1",
    b"0.1e1", b".5", b"1.", b"1.e1", b"1e", b"1e+", b"1e-", b"-", b"--1", b"-01", b"- 1", b"1 2", b"0x1", b"1_0", b"1a", b"1,0", b"Infinity",
    b"-Infinity", b"NaN", b"-NaN", b"inf", b"1e308", b"1.7976931348623157e308", b"1e309", b"-1e309", b"1e999", b"1e-999", b"0e999",
    b"1e99999999999999999999", b"0e99999999999999999999", b"1e-99999999999999999999", b"-0.0", b"-0e0", b"1" + b"0" * 307,
    b"1" + b"0" * 310, b"-1" + b"0" * 310, b"9" * 5_000, b"0." + b"0" * 400 + b"1", b"1." + b"0" * 400, b"0" * 20 + b"1", "１".encode(),
    "²".encode(), "1\u00a0".encode(), b"\x001", b"1\x00"]
# What is another kind of value, or nearly one.
OTHERS = [
    b"true", b"false", b"null", b"tru", b"True", b"nul", b"nulll", b"none", b"[]", b"{}", b"[1]", b"[[1]]", b'{"a":1}', b'{"client":1}',
    b'{"kind":"hello"}', b'["a"]', b'[1,"a",null]', b"[", b"]", b"{", b"}", b"[1,]", b'{"a"}', b'{"a":}', b'{"a":1,}', b'{1:2}', b"[1 2]", b'""',
    b'"1"', b'"2"', b"'1'", b'"now"', b'"', b'"a', b"a", b"", b":", b",", b"//", b"/**/1", b"1/**/", b'"a""b"', b'"a" "b"', b'["\\ud800"]',
    b'{"\\ud800":1}', b'{"a":1e999}', b'[01]', b'["\xff"]', b'[1,"a\x01"]', b"\xef\xbb\xbf1", b"\xff", b"\x00", b"\x0b", b"\x0c"]
# The parts of a good text, with how many bytes each has once it is read.
PARTS = [
    (b"a", 1), (b"Z", 1), (b" ", 1), (b"\x7f", 1), (b"{", 1), (b"}", 1), (b":", 1), (b",", 1), (b"[", 1), (b"'", 1), (b"0", 1), (b"/", 1),
    ("é".encode(), 2), ("€".encode(), 3), ("😀".encode(), 4), ("\u0080".encode(), 2), ("\u2028".encode(), 3), ("\uffff".encode(), 3),
    ("\ufeff".encode(), 3), ("\U0010ffff".encode(), 4), (b'\\"', 1), (b"\\\\", 1), (b"\\/", 1), (b"\\b", 1), (b"\\f", 1), (b"\\n", 1),
    (b"\\r", 1), (b"\\t", 1), (b"\\u0000", 1), (b"\\u001F", 1), (b"\\u007f", 1), (b"\\u0022", 1), (b"\\u005c", 1), (b"\\u00e9", 2),
    (b"\\u20AC", 3), (b"\\uFFFF", 3), (b"\\ud83d\\ude00", 4), (b"\\uD83D\\uDE00", 4), (b"\\udbff\\udfff", 4)]
# Those that stand for themselves.
PLAIN = [part for part, _ in PARTS if part[:1] != b"\\"]
# The parts by which a text has no reading.
BREAKS = [
    *(bytes([control]) for control in range(0x20)), b"\\x", b"\\u", b"\\u12", b"\\u12g4", b"\\u 123", b"\\U0041", b"\\'", b"\\0", b"\\a", b"\\",
    b'"', b"\\ud83d", b"\\ude00", b"\\ude00\\ud83d", b"\\ud83d\\u0041", b"\\ud83dx", b"\\ud83d\\n", b"\\ud83d\\ud83d", b"\\ud83d\\",
    b"\\ud83d\\u", b"\xff", b"\xfe", b"\x80", b"\xbf", b"\xc3", b"\xc0\xaf", b"\xc1\x81", b"\xe0\x80\xaf", b"\xed\xa0\x80", b"\xed\xa0\xbd\xed\xb8\x80",
    b"\xf0\x80\x80\xaf", b"\xf4\x90\x80\x80", b"\xf5\x80\x80\x80", b"\xe2\x82", b"\xf0\x9f\x98", b"\xe2\x28\xa1", b"\xc3\xc3\xa9"]
WAITS = [b'"now"', b'"forever"']
WORDS = [word.encode() for word in ("hello", "request", "cancel", "welcome", "reply", "waiting", "refused", *KINDS, "item", "done", "received",
                                    "nobody", "empty", "swapped", "timedout", "cancelled", "counted", "peeked", "drained", "now", "forever")]


def quoted(text: bytes) -> bytes:
    """A text in its quotes."""
    return b'"' + text + b'"'


def good_value(chance: random.Random, name: str) -> bytes:
    """A value that a member of this name may have."""
    if name == "item":
        return good_text(chance)
    if name == "texts":
        return list_of(good_texts(chance, chance.choice([0, 1, 2, 3, 15, 16, chance.randint(0, MAX_DRAIN)])))
    if name == "wait" and chance.random() < 0.6:
        return chance.choice(WAITS)
    least, most = LIMITS[name]
    return b"%d" % chance.choice([least, max(least, min(1, most)), max(least, min(7, most)), most, chance.randint(least, most)])


def list_of(values: list[bytes]) -> bytes:
    """A list of these values."""
    return b"[" + b",".join(values) + b"]"


def good_text(chance: random.Random) -> bytes:
    """A text that an item may have, mostly a short one."""
    if chance.random() < 0.03:
        return sized_text(chance, MAX_ITEM_BYTES - chance.choice([0, 0, 1, 2]))
    if chance.random() < 0.5:
        return quoted(b"a" * chance.choice([0, 1, 1, 2, 5, 30]))
    return quoted(b"".join(part for part, _ in chance.choices(PARTS, k=chance.choice([1, 2, 3, 5, 20]))))


def good_texts(chance: random.Random, count: int) -> list[bytes]:
    """So many texts that items may have: in half of the lists none has an escape."""
    if chance.random() < 0.5:
        return [good_text(chance) for _ in range(count)]
    return [quoted(b"".join(chance.choices(PLAIN, k=chance.choice([0, 1, 1, 2, 5, 20])))) for _ in range(count)]


def sized_text(chance: random.Random, size: int) -> bytes:
    """A text that has so many bytes once it is read."""
    part, width = chance.choice(PARTS)
    return quoted(part * (size // width) + b"a" * (size % width))


def bad_text(chance: random.Random) -> bytes:
    """A text that has no reading, or ends early."""
    before, after = (b"".join(part for part, _ in chance.choices(PARTS, k=chance.choice([0, 0, 1, 3]))) for _ in range(2))
    return quoted(before + chance.choice(BREAKS) + after)


def any_number(chance: random.Random) -> bytes:
    """A number, at a limit or past it, or what is nearly a number."""
    kind = chance.randrange(4)
    if kind == 0:
        return chance.choice(NUMBERS)
    if kind == 1:
        return b"%d" % max(0, chance.choice(STEPS) + chance.choice([-2, -1, 0, 0, 1, 2, 7]))
    if kind == 2:
        return b"%d" % max(0, chance.choice(chance.choice(list(LIMITS.values()))) + chance.choice([-1, 0, 1, 1]))
    return b"%d" % chance.randrange(10 ** chance.choice([1, 2, 5, 16, 17, 18, 19, 20, 21, 25, 40]))


def any_list(chance: random.Random) -> bytes:
    """A list of texts, at its limit or past it, among which other values stand now and then."""
    count = chance.choice([0, 1, 2, 15, 16, 16, 17, 17, 17, 18, chance.randint(0, MAX_DRAIN + 1)])
    values = good_texts(chance, count)
    if values and chance.random() < 0.2:
        values[chance.randrange(count)] = chance.choice([any_number, other_value, bad_text, long_text])(chance)
    return list_of(values)


def long_text(chance: random.Random) -> bytes:
    """A text at the limit of an item or past it."""
    return sized_text(chance, MAX_ITEM_BYTES + chance.choice([-1, 0, 0, 1, 1, 2, 88]))


def other_value(chance: random.Random) -> bytes:
    """A value of another kind, or what is nearly a value; some nest."""
    if chance.random() < 0.1:
        return nested(chance, chance.choice([2, 125, 126, 127, 128, 129, 300]))
    return chance.choice(OTHERS)


def nested(chance: random.Random, depth: int) -> bytes:
    """A value that nests so deep."""
    if chance.random() < 0.5:
        return b"[" * depth + b"]" * (depth - chance.choice([0] * 9 + [1]))
    return b'{"a":' * depth + b"1" + b"}" * (depth - chance.choice([0] * 9 + [1]))


def any_word(chance: random.Random) -> bytes:
    """A word that a member may have, or nearly one."""
    word = chance.choice(WORDS)
    return quoted(chance.choice([word, word, escaped(chance, word), word.title(), word.upper(), word + b"s", word[:-1], word + b" ", turned(chance, word)]))


def turned(chance: random.Random, word: bytes) -> bytes:
    """A word of which one letter is another."""
    at = chance.randrange(len(word)) if word else 0
    return word[:at] + bytes([chance.randrange(ord("a"), ord("z") + 1)]) + word[at + 1:]


def escaped(chance: random.Random, text: bytes) -> bytes:
    """A text of ASCII, of which one character is escaped, mostly rightly."""
    at = chance.randrange(len(text)) if text else 0
    form = chance.choice([b"\\u%04x"] * 4 + [b"\\u%04X"] * 2 + [b"\\U%04x", b"\\u%03x", b"\\x%02x", b"\\u%05x"])
    return text[:at] + form % text[at] + text[at + 1:] if text else b"\\u0061"


def near_number(chance: random.Random, digits: bytes) -> bytes:
    """A number written in another way, most of which are none."""
    before = chance.choice([b"+", b"0", b"00", b"- ", b"0x", b" "])
    after = chance.choice([b".0", b".", b".00", b"e0", b"E+0", b"E-00", b"e", b"0", b"_", b" ", b"x", b"\x00", b"\x0c", b"\xa0"])
    return chance.choice([b"-" + digits, before + digits, digits + after, quoted(digits), b"[" + digits + b"]", b"%d" % (int(digits) + 2**64)])


def hostile_value(chance: random.Random, name: str) -> bytes:
    """A value that is mostly none for a member of this name."""
    if name in LIMITS and chance.random() < 0.3:
        return near_number(chance, b"%d" % chance.choice(LIMITS[name]))
    if name == "texts" and chance.random() < 0.7:
        return any_list(chance)
    if name == "item" and chance.random() < 0.7:
        return chance.choice([bad_text, long_text])(chance)
    if name in LIMITS and chance.random() < 0.3:
        least, most = LIMITS[name]
        return b"%d" % max(0, chance.choice([least - 1, least, most, most + 1, most + 2]))
    return chance.choice([any_number, any_number, other_value, any_word, bad_text, long_text, any_list])(chance)
