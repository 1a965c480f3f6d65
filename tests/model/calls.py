"""The calls, a row each, that the model of the tests goes by (docs/MODEL.md, section 4)."""
from dataclasses import dataclass


@dataclass(frozen=True)
class Kind:
    """What a call is: its side; the members of its body beside its word, of which the first is its place; the word of its reply
    where it meets somebody, and where it meets nobody and doesn't wait. An item that `rests` may be met behind its reply."""

    side: str
    members: tuple
    met: str
    unmet: str | None
    rests: bool = False


KINDS = {
    "put": Kind("giving", ("queue", "item"), "done", "done", rests=True),
    "transfer": Kind("giving", ("queue", "item", "wait"), "received", "nobody"),
    "take": Kind("taking", ("queue", "wait"), "item", "empty"),
    "drain": Kind("taking", ("queue", "max"), "drained", "drained"),
    "swap": Kind("exchanging", ("exchanger", "item", "wait"), "swapped", None),
    "count": Kind("looking", ("queue",), "counted", "counted"),
    "peek": Kind("looking", ("queue",), "peeked", "empty"),
}
