"""What an account says of each line of a record of replies, by the account's entries alone (docs/FORMATS.md, sections 8 and 9)."""
from dataclasses import dataclass

from tests.model.account import Call, Key, Request, arrival_of, reply
from tests.model.answers import read_answer
from tests.model.texts import KEY, NoReading, demand, members_of, read_json, read_message, written

# A reply by a cancel that came before its request: with which call that would have come nobody knows.
UNSEEN = "kept, as a cancel tells it"
KEPT = ("kept", UNSEEN)
FINDINGS = (*KEPT, "another reply", "another call", "no such request", "still waiting", "another epoch",
            "a reply that this call can't have", "no record")
# What a call may be told that met somebody, or looked; and what it is told at once if nobody was there.
MET = {"put": ("done",), "transfer": ("received",), "take": ("item",), "drain": ("drained",), "swap": ("swapped",),
       "count": ("counted",), "peek": ("peeked", "empty")}
AT_ONCE = {"transfer": "nobody", "take": "empty"}


@dataclass(frozen=True)
class Told:
    """A line of a record: a request, and the members of its reply."""

    key: Key
    call: Call
    reply: tuple

    @property
    def members(self):
        return dict(self.reply)


def told_of(key, call, members):
    """A line of these; lists become tuples, so that lines can be compared and kept."""
    return Told(key, call, tuple(sorted((name, tuple(value) if isinstance(value, list) else value)
                                        for name, value in members.items())))


def read_told(line):
    """The request and the reply that a line records; None where it is no record."""
    try:
        members = read_json(line)
        demand(isinstance(members, dict) and members.keys() == {"asked", "told"})
        demand(all(isinstance(part, dict) for part in members.values()))
        asked, answer = read_message(written(members["asked"]).encode()), read_answer(written(members["told"]).encode())
        demand(isinstance(asked, Request) and answer["kind"] == "reply")
        demand(asked.key == Key(*(answer[name] for name in KEY)))
    except NoReading:
        return None
    return told_of(asked.key, asked.call, {name: answer[name] for name in answer.keys() - {"kind", *KEY}})


def may_be_told(call, members):
    """Whether a request with this call may be told this, by whomever it met, and where it was cancelled before it came."""
    word = members["reply"]
    if word == "cancelled":
        return True
    if word in MET[call.word]:
        return call.max is None or len(members["texts"]) <= call.max
    if call.wait == "now":
        return word == AT_ONCE.get(call.word)
    return word == "timedout" and isinstance(call.wait, int)


class Said:
    """What an account says of records: each key's call and reply is looked up once."""

    def __init__(self, account):
        self.account, self.known = account, {}

    def of(self, key):
        """The call with which a key came, if it did, and its reply's members, if it has one."""
        if key not in self.known:
            r, entries = arrival_of(self.account.entries, key), self.account.entries
            self.known[key] = (None if r is None else entries[r].act.call), reply(entries, key)
        return self.known[key]

    def finding(self, told):
        """The finding on a line, with the body that the account has in its place."""
        if told is None:
            return "no record", None
        call, own = self.of(told.key)
        if own is not None and told_of(told.key, told.call, own) == told and call in (None, told.call):
            return UNSEEN if call is None else "kept", None
        if told.key.epoch != self.account.epoch:
            return "another epoch", None
        if not may_be_told(told.call, told.members):
            return "a reply that this call can't have", None
        if call not in (None, told.call):
            return "another call", members_of(Request(told.key, call))
        if own is not None:
            return "another reply", {"kind": "reply", **vars(told.key), **own}
        return ("no such request" if call is None else "still waiting"), None


def lines_said(account, lines):
    """What is printed of a record's lines beside an account, the findings, and whether each line is kept and no two differ."""
    said, firsts, printed, found, differing, repeating = Said(account), {}, [], [], 0, 0
    for number, told in enumerate(map(read_told, lines), 1):
        finding, body = said.finding(told)
        found.append(finding)
        printed.append(f"{number} {finding}" + (f" {written(body)}" if body else ""))
        first, first_told = firsts.setdefault(told.key, (number, told)) if told else (number, None)
        if told and first_told.reply != told.reply:
            differing += 1
            printed.append(f"{number} differs from line {first}")
        elif told == first_told and first != number:
            repeating += 1
            printed.append(f"{number} repeats line {first}")
    printed += [f"{finding} {found.count(finding)}" for finding in FINDINGS]
    printed += [f"differing {differing}", f"repeating {repeating}"]
    return printed, found, not differing and set(found) <= set(KEPT)
