"""The record of a client, as it is read: its lines, each of which must be whole; and what a call gives by its line."""
import json
import pathlib
from typing import NamedTuple

import rendezvous as rv

# The members of a request's key.
KEY = ("epoch", "client", "incarnation", "number")


class Line(NamedTuple):
    """A line: the request's members and its reply's."""

    asked: dict
    told: dict

    @property
    def key(self):
        """The key of both."""
        return rv.Key(*(self.told[name] for name in KEY))

    @property
    def call(self):
        """The members of the call that was asked."""
        return {name: value for name, value in self.asked.items() if name not in (*KEY, "kind")}

    @property
    def reply(self):
        """The members of the reply that was told."""
        return {name: value for name, value in self.told.items() if name not in (*KEY, "kind")}


def read(text):
    """A line that is written as it is to be."""
    members = json.loads(text)
    assert list(members) == ["asked", "told"] and text.startswith(b'{"asked":{') and b',"told":{' in text, text
    asked, told = members.values()
    assert (asked["kind"], told["kind"]) == ("request", "reply"), text
    assert all(asked[name] == told[name] for name in KEY), text
    return Line(asked, told)


def lines_of(path):
    """The lines of a record; none where there is no file."""
    path = pathlib.Path(path)
    text = path.read_bytes() if path.exists() else b""
    assert not text or text.endswith(b"\n"), f"a line is cut: {text[-200:]}"
    return [read(line) for line in text.split(b"\n")[:-1]]


def ending_of(line):
    """What the call of a line has to give, and what it has to raise: one of the two, or neither. A wait for a time that was
    cancelled was so by its own time."""
    key, call, reply = line.key, line.call, line.reply
    word, timed = reply["reply"], isinstance(call.get("wait"), int)
    if word == "cancelled" and not timed:
        return None, rv.Cancelled
    if word in ("cancelled", "timedout"):
        return None, rv.TimedOut if call["call"] == "swap" else None
    if word == "received":
        by = [reply[name] for name in ("by_client", "by_incarnation", "by_number") if name in reply]
        return rv.Receipt(key, rv.Key(key.epoch, *by) if by else None), None
    if word == "counted":
        return rv.Counted(key, reply["items"], reply["consumers"]), None
    return reply.get("item", reply.get("texts")), None
