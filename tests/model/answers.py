"""Bodies of answers: the members that each has, and how one is read (docs/FORMATS.md, section 1)."""
from tests.model.texts import (
    KEY, MAX_BODY_BYTES, MAX_DRAIN, MAX_IDENTIFIER, MAX_ITEM_BYTES, TAKER, NoReading, demand, read_json, whole)

REPLIES = {"done": (), "received": (), "nobody": (), "item": ("item",), "empty": (), "swapped": ("item",), "timedout": (),
           "cancelled": (), "counted": ("consumers", "items"), "peeked": ("item",), "drained": ("texts",)}
DETAILS = {2: "current", 4: "current", 5: "last", 7: "open", 8: "last", 12: "current"}
CODES, MOST_PLACES = 12, 100_000
# The limits of the members that are other numbers than those of a key, where they are others than a key's.
LEAST = {"last": 0, "consumers": 0, "items": 0, "version": 2}
MOST = {"consumers": MOST_PLACES, "items": MOST_PLACES, "code": CODES, "version": 2}
OTHER_VERSION, VERSIONS = 12, 2


def read_answer(body):
    """The members of an answer whose body the bytes are."""
    demand(1 <= len(body) <= MAX_BODY_BYTES)
    members = read_json(body)
    demand(isinstance(members, dict))
    return answer_of(members)


def answer_of(members):
    """The members of an answer, if these are such."""
    names = names_of(members)
    demand(members.keys() == {"kind", *names})
    for name in names:
        demand(fits(name, members[name], members))
    return members


def names_of(members):
    """The members that an answer with these has beside its kind."""
    match members.get("kind"):
        case "welcome":
            return KEY[:3] + ("version",) * ("version" in members)
        case "waiting":
            return KEY
        case "reply":
            return (*KEY, "reply", *names_of_reply(members))
        case "refused":
            detail = DETAILS.get(whole(members.get("code"), 1, CODES))
            return ("code", detail) if detail else ("code",)
    raise NoReading


def names_of_reply(members):
    """The members that a reply has: one that something was received names its consumer, or nobody."""
    word = members.get("reply")
    demand(isinstance(word, str) and word in REPLIES)
    return TAKER if word == "received" and not members.keys().isdisjoint(TAKER) else REPLIES[word]


def fits(name, value, members):
    """Whether one of these members has a value that it may have."""
    match name:
        case "reply":
            return True
        case "item":
            return is_item(value)
        case "texts":
            return isinstance(value, list) and len(value) <= MAX_DRAIN and all(map(is_item, value))
    most = MOST.get(name, MAX_IDENTIFIER)
    if name == "current" and members["code"] == OTHER_VERSION:
        most = VERSIONS
    return whole(value, LEAST.get(name, 1), most) is not None


def is_item(value):
    """Whether a value is a text of an item."""
    return isinstance(value, str) and len(value.encode()) <= MAX_ITEM_BYTES
