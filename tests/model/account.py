"""Accounts, and what is said of them: formulas over places, with no table beside the list of entries.

The words are those of docs/MODEL.md, sections 4 to 8. A place is an index into a list of entries, and
"before j" is the same formula over the entries before j.
"""
from dataclasses import dataclass

from tests.model.calls import KINDS

MAX_MOMENT = 2**62
MAX_CLIENTS = 1024
MAX_ENTRIES = 100_000
OTHER_SIDE = {"giving": "taking", "taking": "giving", "exchanging": "exchanging"}


@dataclass(frozen=True)
class Key:
    epoch: int
    client: int
    incarnation: int
    number: int


@dataclass(frozen=True)
class Call:
    """A call; `at` is its queue or exchanger, `wait` is "now", "forever" or milliseconds, `max` is a drain's."""

    word: str
    at: int
    item: str | None = None
    wait: str | int | None = None
    max: int | None = None

    @property
    def kind(self):
        return KINDS[self.word]

    @property
    def side(self):
        return self.kind.side

    @property
    def may_name(self):
        """How many partners its arrival may name."""
        if self.max is not None:
            return self.max
        return 1 if self.side in OTHER_SIDE else 0


@dataclass(frozen=True)
class Hello:
    """A hello; `version` is what its session is to speak."""

    client: int
    incarnation: int
    version: int = 1


@dataclass(frozen=True)
class Request:
    key: Key
    call: Call


@dataclass(frozen=True)
class Cancel:
    key: Key


@dataclass(frozen=True)
class Tick:
    pass


@dataclass(frozen=True)
class Entry:
    """A moment, an act (the message that came, or a tick), and the places of its partners."""

    moment: int
    act: Hello | Request | Cancel | Tick
    partners: tuple = ()


@dataclass(frozen=True)
class Account:
    epoch: int
    opened: int
    entries: tuple = ()

    def own_moment(self):
        return self.entries[-1].moment if self.entries else self.opened

    def with_entry(self, entry):
        return Account(self.epoch, self.opened, (*self.entries, entry))


def arrivals(entries):
    """The places of the arrivals."""
    return [r for r, entry in enumerate(entries) if isinstance(entry.act, Request)]


def limit(entries, r):
    """The moment at which the arrival times out, if it has one."""
    wait = entries[r].act.call.wait
    return entries[r].moment + wait if isinstance(wait, int) else None


def stays(call):
    """Whether a call may be met after its arrival."""
    return call.kind.rests or call.wait == "forever" or isinstance(call.wait, int) and call.wait > 0


def met(entries, r):
    """Whether the arrival is in a pair or swap."""
    return bool(entries[r].partners) or any(r in later.partners for later in entries[r + 1 :])


def stops(entries, r, later):
    """Whether this later entry stops the arrival."""
    key = entries[r].act.key
    match later.act:
        case Cancel(cancelled):
            return cancelled == key
        case Hello(client, _):
            return client == key.client
        case Tick():
            return limit(entries, r) is not None and later.moment >= limit(entries, r)
    return False


def stopper(entries, r):
    """The first entry that stops the arrival, if one does; a put is never stopped."""
    if entries[r].act.call.kind.rests:
        return None
    return next((later for later in entries[r + 1 :] if stops(entries, r, later)), None)


def is_open(entries, r):
    """Whether the arrival may still be met."""
    return stays(entries[r].act.call) and not met(entries, r) and stopper(entries, r) is None


def open_at(entries, side, at):
    """The places of the open arrivals of this side of a queue or exchanger, oldest first."""
    there = [r for r in arrivals(entries) if entries[r].act.call.side == side and entries[r].act.call.at == at]
    return [r for r in there if is_open(entries, r)]


def waiting(entries):
    """The places of the waiting requests: what is open and no put."""
    return [r for r in arrivals(entries) if not entries[r].act.call.kind.rests and is_open(entries, r)]


def overdue(entries, moment):
    """Whether a waiting request has a limit at or below the moment."""
    timed = [r for r in arrivals(entries) if limit(entries, r) is not None and limit(entries, r) <= moment]
    return any(is_open(entries, r) for r in timed)


def hellos(entries, client):
    """The places of the client's hellos."""
    return [r for r, entry in enumerate(entries) if isinstance(entry.act, Hello) and entry.act.client == client]


def incarnation(entries, client):
    """The incarnation of the client's last hello, if it said one."""
    places = hellos(entries, client)
    return entries[places[-1]].act.incarnation if places else None


def version(entries, client):
    """The version of the client's last hello, if it said one."""
    places = hellos(entries, client)
    return entries[places[-1]].act.version if places else None


def last_number(entries, client):
    """The greatest number of an arrival or cancel of the client since its last hello; else 0."""
    places = hellos(entries, client)
    since = entries[places[-1] :] if places else ()
    keys = [entry.act.key for entry in since if isinstance(entry.act, (Request, Cancel))]
    return max((key.number for key in keys if key.client == client), default=0)


def waiting_of(entries, client):
    """The key of the client's waiting request, if it has one."""
    own = [r for r in arrivals(entries) if entries[r].act.key.client == client and not entries[r].act.call.kind.rests]
    return next((entries[r].act.key for r in own if is_open(entries, r)), None)


def arrival_of(entries, key):
    """The place at which the key arrived, if it did."""
    return next((r for r in arrivals(entries) if entries[r].act.key == key), None)


def met_with(entries, r):
    """The other places of the arrival's pairs or swap, in their order."""
    named_by = [j for j in range(r + 1, len(entries)) if r in entries[j].partners]
    return sorted([*entries[r].partners, *named_by])


def reply(entries, key):
    """The members of the key's reply; none while its request waits, or where nothing came of the key."""
    r = arrival_of(entries, key)
    if r is None:
        came = any(isinstance(entry.act, Cancel) and entry.act.key == key for entry in entries)
        return {"reply": "cancelled"} if came else None
    word = reply_word(entries, r)
    return word and {"reply": word, **reply_members(entries, r, word)}


def reply_word(entries, r):
    """The word of an arrival's reply, if it has one."""
    call = entries[r].act.call
    if meets(entries, r):
        return call.kind.met
    if call.wait in (None, "now"):
        return call.kind.unmet
    if call.wait == 0:
        return "timedout"
    match stopper(entries, r):
        case None:
            return None
        case Entry(act=Tick()):
            return "timedout"
    return "cancelled"


def meets(entries, r):
    """Whether the arrival is in a pair or swap, or looks and finds an item."""
    call = entries[r].act.call
    return bool(open_at(entries[:r], "giving", call.at)) if call.side == "looking" else met(entries, r)


def reply_members(entries, r, word):
    """What an arrival's reply of this word tells."""
    before, at = entries[:r], entries[r].act.call.at
    others = [entries[other].act for other in met_with(entries, r)]
    match word:
        case "received":
            return received(entries, r, others[0].key)
        case "item" | "swapped":
            return {"item": others[0].call.item}
        case "drained":
            return {"texts": [other.call.item for other in others]}
        case "counted":
            return {"items": len(open_at(before, "giving", at)), "consumers": len(open_at(before, "taking", at))}
        case "peeked":
            return {"item": before[open_at(before, "giving", at)[0]].act.call.item}
    return {}


def received(entries, r, taker):
    """The reply of a transfer that met the consumer of this key."""
    return receipt(version(entries[:r], entries[r].act.key.client), taker)


def receipt(spoken, taker):
    """What a transfer is told that the consumer of this key met: in a session of version 2 the key, but for the epoch,
    which is the answer's."""
    if spoken == 1:
        return {"reply": "received"}
    by = {"by_client": taker.client, "by_incarnation": taker.incarnation, "by_number": taker.number}
    return {"reply": "received", **by}
