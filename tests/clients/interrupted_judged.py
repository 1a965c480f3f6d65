"""Compares what processes under fire were told with the server's account: no word of theirs may be false.

A record has the lines of each process, by its client and incarnation; what their sessions kept of themselves is lines of another
kind, each with a request and its reply. Each rule gives what it finds against its sentence. The rules themselves are tried on a
record that is written down, with one lie in it each time.
"""
import collections
import copy
from typing import NamedTuple

from record_lines import Line
from tests.model.account import Account, Call, Cancel, Entry, Hello, Key, Request
from tests.sockets.accounts import call_members
from tests.sockets.standing import Replies
from tests.sockets.wire import demand

# A call that takes longer hangs, in seconds.
LIMIT = 300
# Replies of a call that went to no pair.
NOES = ("timedout", "cancelled", "nobody", "empty")
# How a call ends that a signal interrupted, and by what. A call of fewer milliseconds may be cancelled by its own time.
WAYS = {"Interrupted": "KeyboardInterrupt", "KeyboardInterrupt": "KeyboardInterrupt", "SystemExit": "SystemExit",
        "TimeoutError": "TimeoutError"}
SHORT = 1_000


class Called(NamedTuple):
    """A call of a process: its key, what was asked, the lines that came of it, and whether the process was killed in it."""

    key: Key
    call: dict
    came: list
    killed: bool

    @property
    def tells(self):
        """What was told of it, in order."""
        return [line["tells"] for line in self.came if line.get("tells")]

    @property
    def replies(self):
        """The keys and replies that were told."""
        return [(Key(*tells["key"]), tells["reply"]) for tells in self.tells if "reply" in tells]

    @property
    def ways(self):
        """The signals that came in it, by what they threw."""
        return [WAYS[line["way"]] for line in self.came if line.get("way") in WAYS]

    @property
    def denied(self):
        """Whether it was told that it was not asked, or found no room; and not another end."""
        return not self.replies and any("nothing" in tells for tells in self.tells)


def calls_of(record, epoch):
    """Each call of a record."""
    for (client, incarnation), lines in record.items():
        killed, called = not any("ends" in line for line in lines), []
        for line in lines:
            if "asks" in line:
                key = Key(epoch, client, incarnation, line["asks"])
                called.append(Called(key, line["call"], [], False))
            elif called:
                called[-1].came.append(line)
        if called and killed:
            called[-1] = called[-1]._replace(killed=True)
        yield from called


class Book:
    """What an account says of each key: what arrived, its reply, and whether it went to a pair; and what sessions kept of it."""

    def __init__(self, account, kept=()):
        entries = account.entries
        self.kept = [(Key(*line.key), line) for line in kept]
        self.arrived = {entry.act.key: call_members(entry.act.call) for entry in entries if isinstance(entry.act, Request)}
        self.cancelled = [entry.act.key for entry in entries if isinstance(entry.act, Cancel)]
        self.replies = Replies(account).made
        joined = [place for place, entry in enumerate(entries) if entry.partners]
        joined += [partner for entry in entries for partner in entry.partners]
        self.paired = {entries[place].act.key for place in joined}


def value_of(key, call, reply):
    """What a call gives that has this reply; a cancel of its own time is that the time was over."""
    word = reply["reply"]
    if word == "received":
        by = [reply[name] for name in ("by_client", "by_incarnation", "by_number") if name in reply]
        return ["receipt", list(vars(key).values()), [key.epoch, *by] if by else None]
    if word in ("item", "swapped", "peeked"):
        return ["item", reply["item"]]
    if word == "drained":
        return ["items", reply["texts"]]
    if word == "counted":
        return ["counted", list(vars(key).values()), reply["items"], reply["consumers"]]
    if word == "cancelled" and not isinstance(call.get("wait"), int):
        return ["none, as it was cancelled"]
    return ["timed out"] if call["call"] == "swap" else None


# ---- the rules

def wrong(calls, book):
    """A call was told what no call of such a crowd may be told."""
    return [f"{one.key} {one.call}: {tells['wrong']}" for one in calls for tells in one.tells if "wrong" in tells]


def hung(calls, book):
    """A call took too long."""
    return [f"{one.key} {one.call}: {line['seconds']} seconds"
            for one in calls for line in one.came if line.get("seconds", 0) > LIMIT]


def other_key(calls, book):
    """A call was told of another request's key."""
    named = [(one, tells.get("key") or tells.get("unsettled")) for one in calls for tells in one.tells]
    return [f"{one.key} was told of {key}" for one, key in named if key and Key(*key) != one.key]


def told_twice(calls, book):
    """A key was told two replies."""
    before = {}
    told = [pair for one in calls for pair in one.replies]
    return [f"{key} was told {before[key]}, and {reply}" for key, reply in told if before.setdefault(key, reply) != reply]


def false_reply(calls, book):
    """A reply was told that is not the account's."""
    return [f"{key} was told {reply}, and {book.replies.get(key)} stands"
            for one in calls for key, reply in one.replies if book.replies.get(key) != reply]


def false_value(calls, book):
    """A call gave another result than its reply has."""
    given = [(one, tells) for one in calls for tells in one.tells if "value" in tells]
    return [f"{one.key} {one.call} gave {tells['value']} by {tells['reply']}"
            for one, tells in given if tells["value"] != value_of(one.key, one.call, tells["reply"])]


def false_no(calls, book):
    """A call was told that nobody was met, and went to a pair."""
    return [f"{one.key} {one.call} was told {reply}, and is in a pair"
            for one in calls for _, reply in one.replies if reply["reply"] in NOES and one.key in book.paired]


def false_denial(calls, book):
    """A call was told that it was not asked, or found no room, and stands in the account."""
    others = {(one.key, str(one.call)) for one in calls if not one.denied}
    return [f"{one.key} {one.call} was told {one.tells}, and stands" for one in calls
            if one.denied and book.arrived.get(one.key) == one.call and (one.key, str(one.call)) not in others]


def denied_and_told(calls, book):
    """A call was told that it was not asked, or found no room, and a reply too."""
    return [f"{one.key} {one.call} was told {one.tells}" for one in calls
            if one.replies and any(tells.get("nothing") in ("not asked", "full") for tells in one.tells)]


def false_waiting(calls, book):
    """A call was told that the server accepted it, and does not stand in the account."""
    return [f"{one.key} {one.call} was told that it was accepted" for one in calls for tells in one.tells
            if tells.get("accepted") and book.arrived.get(one.key) != one.call]


def silence(calls, book):
    """A call was told neither a reply nor that there is none, though its process was not killed in it."""
    return [f"{one.key} {one.call} was told {one.tells} alone"
            for one in calls if not (one.killed or one.replies or one.denied)]


def not_asked(calls, book):
    """Something stands in the account that nobody asked."""
    asked = {}
    for one in calls:
        asked.setdefault(one.key, []).append(one.call)
    return [*(f"{key} {call} stands" for key, call in book.arrived.items() if call not in asked.get(key, [])),
            *(f"a cancel of {key} stands" for key in book.cancelled if key not in asked)]


def cancelled_by_nobody(calls, book):
    """A call was told that it was cancelled, and neither a signal nor its own time nor its process ordered that."""
    told = [one for one in calls if any(reply["reply"] == "cancelled" for _, reply in one.replies)]
    return [f"{one.key} {one.call} was told {one.came}" for one in told
            if not (one.ways or is_short(one.call) or is_given_up(one))]


def is_given_up(one):
    """Whether the first that was told of a call is that it is unsettled, as where its patience ended: its process gives
    up what is unsettled."""
    return "unsettled" in one.tells[0]


def is_short(call):
    """Whether a call's own time is soon over."""
    return isinstance(call.get("wait"), int) and call["wait"] < SHORT


def taken_twice(calls, book):
    """Two calls were told the same item of a put, a transfer or a swap."""
    takers = {}
    told = {(one.key, text) for one in calls for _, reply in one.replies for text in texts_of(reply)}
    return [f"{text} went to {takers[text]} and to {key}" for key, text in sorted(told, key=str)
            if takers.setdefault(text, key) != key]


def texts_of(reply):
    """The items that a reply hands over."""
    return reply.get("texts", [reply["item"]] if reply["reply"] in ("item", "swapped") else [])


def kept_false(calls, book):
    """A session kept a reply that is not the account's, or a request that its process did not ask under that key."""
    asked = collections.defaultdict(list)
    for one in calls:
        asked[one.key].append(one.call)
    return [f"{line} was kept, and {book.replies.get(key)} stands" for key, line in book.kept
            if book.replies.get(key) != line.reply or line.call not in asked[key]]


def kept_twice(calls, book):
    """A session kept two replies to one key."""
    counted = collections.Counter(key for key, _ in book.kept)
    return [f"{key} was kept {count} times" for key, count in counted.items() if count > 1]


def not_kept(calls, book):
    """A reply was told that no session kept."""
    kept = {key for key, _ in book.kept}
    return [f"{key} was told {reply}, and it was not kept" for one in calls for key, reply in one.replies if key not in kept]


RULES = [wrong, hung, other_key, told_twice, false_reply, false_value, false_no, false_denial, denied_and_told, false_waiting,
         silence, not_asked, cancelled_by_nobody, taken_twice, kept_false, kept_twice, not_kept]


def faults_of(record, account, kept):
    """What is false in a record, or in what sessions kept, by rule."""
    calls, book = list(calls_of(record, account.epoch)), Book(account, kept)
    found = {rule.__name__: rule(calls, book) for rule in RULES}
    return {name: faults for name, faults in found.items() if faults}


# ---- the rules, tried on lies

GIVE, POLL, TAKE, TRY = (
    {"call": "transfer", "queue": 3, "item": "a", "wait": "forever"}, {"call": "take", "queue": 3, "wait": 60_001},
    {"call": "take", "queue": 3, "wait": "forever"}, {"call": "transfer", "queue": 3, "item": "b", "wait": "now"})


def entry(moment, client, number, call, *partners):
    """An arrival of an account."""
    call = dict(call)
    named = Call(call.pop("call"), call.pop("queue"), **call)
    return Entry(moment, Request(Key(1, client, 1, number), named), partners)


def written():
    """A record that is true, and its account: client 1 hands an item to client 2, and finds nobody for another one;
    client 3 gives a take up of which it heard nothing."""
    account = Account(1, 0, (
        Entry(0, Hello(1, 1, 2)), Entry(0, Hello(2, 1)), entry(1, 1, 1, GIVE), entry(2, 2, 1, TAKE, 2),
        entry(3, 1, 2, TRY), Entry(4, Hello(3, 1)), entry(4, 3, 1, TAKE), Entry(5, Cancel(Key(1, 3, 1, 1)))))
    cancelled = {"key": [1, 3, 1, 1], "reply": {"reply": "cancelled"}}
    received = {"reply": "received", "by_client": 2, "by_incarnation": 1, "by_number": 1}
    item, key = {"reply": "item", "item": "a"}, [1, 2, 1, 1]
    return account, {
        (1, 1): [
            {"asks": 1, "call": GIVE}, {"way": "SystemExit", "tells": None},
            {"way": "Unsettled", "tells": {"unsettled": [1, 1, 1, 1], "accepted": True}},
            {"way": "returned", "tells": {"key": [1, 1, 1, 1], "reply": received}}, {"seconds": 1.5},
            {"asks": 2, "call": TRY},
            {"way": "returned", "tells": {"key": [1, 1, 1, 2], "reply": {"reply": "nobody"}, "value": None}},
            {"seconds": 0.1}, {"ends": "1.1"}],
        (2, 1): [
            {"asks": 1, "call": POLL}, {"way": "Interrupted", "tells": {"nothing": "not asked", "key": None}}, {"seconds": 0.1},
            {"asks": 1, "call": TAKE}, {"way": "returned", "tells": {"key": key, "reply": item, "value": ["item", "a"]}},
            {"asks": 2, "call": POLL}],
        (3, 1): [
            {"asks": 1, "call": TAKE}, {"way": "Unsettled", "tells": {"unsettled": [1, 3, 1, 1], "accepted": False}},
            {"way": "returned", "tells": cancelled}, {"seconds": 5.1}, {"ends": "3.1"}]}


def lies():
    """Each lie: the rule that must find it, the process and the line where it stands, and what stands there."""
    item = {"key": [1, 2, 1, 1], "reply": {"reply": "item", "item": "a"}}
    giver, taker = [1, 1, 1, 1], [1, 2, 1, 1]
    return [
        ("wrong", 2, 4, {"tells": {"wrong": "Refused"}}), ("hung", 1, 4, {"seconds": LIMIT + 1.0}),
        ("other_key", 2, 4, {"tells": {**item, "key": giver}}), ("other_key", 1, 2, {"tells": {"unsettled": taker}}),
        ("told_twice", 1, 2, {"tells": {"key": giver, "reply": {"reply": "cancelled"}}}),
        ("false_reply", 2, 4, {"tells": {**item, "reply": {"reply": "item", "item": "b"}}}),
        ("false_reply", 1, 3, {"tells": {"key": giver, "reply": {"reply": "received"}}}),
        ("false_value", 2, 4, {"tells": {**item, "value": ["item", "b"]}}),
        ("false_value", 2, 4, {"tells": {**item, "value": None}}),
        ("false_no", 2, 4, {"tells": {"key": taker, "reply": {"reply": "cancelled"}}}),
        ("false_no", 1, 3, {"tells": {"key": giver, "reply": {"reply": "timedout"}}}),
        ("false_denial", 2, 4, {"tells": {"nothing": "not asked", "key": None}}),
        ("false_denial", 2, 4, {"tells": {"nothing": "full", "key": taker}}),
        ("false_denial", 1, 6, {"tells": {"nothing": "idle", "key": None}}),
        ("denied_and_told", 1, 2, {"tells": {"nothing": "full", "key": giver}}),
        ("false_waiting", 2, 1, {"tells": {"unsettled": taker, "accepted": True}}),
        ("silence", 1, 6, {"tells": None}), ("silence", 2, 4, {"tells": {"unsettled": taker, "accepted": True}}),
        ("not_asked", 2, 3, {"asks": 1, "call": POLL}), ("not_asked", 1, 5, {"asks": 3, "call": TRY}),
        ("cancelled_by_nobody", 2, 4, {"way": "Cancelled", "tells": {"key": taker, "reply": {"reply": "cancelled"}}}),
        ("cancelled_by_nobody", 3, 1,
         {"way": "returned", "tells": {"key": [1, 3, 1, 1], "reply": {"reply": "cancelled"}}}),
        ("taken_twice", 1, 3, {"tells": {"key": giver, "reply": {"reply": "item", "item": "a"}}}),
    ]


def kept():
    """What the sessions of that record kept: the call in which its process was killed had no reply."""
    received = {"reply": "received", "by_client": 2, "by_incarnation": 1, "by_number": 1}
    return [line_of(1, 1, GIVE, **received), line_of(2, 1, TAKE, reply="item", item="a"), line_of(1, 2, TRY, reply="nobody"),
            line_of(3, 1, TAKE, reply="cancelled")]


def line_of(client, number, call, **reply):
    """A line of what a session kept."""
    key = {"epoch": 1, "client": client, "incarnation": 1, "number": number}
    return Line({"kind": "request", **key, **call}, {"kind": "reply", **key, **reply})


def lies_of_sessions():
    """Each lie in what sessions kept: the rule that must find it, the line, and what stands there, if anything."""
    return [
        ("kept_false", 1, line_of(2, 1, TAKE, reply="item", item="b")), ("kept_false", 0, line_of(1, 1, GIVE, reply="received")),
        ("kept_false", 3, line_of(3, 1, GIVE, reply="cancelled")), ("kept_false", 1, line_of(2, 1, TRY, reply="item", item="a")),
        ("kept_twice", 1, line_of(1, 2, TRY, reply="nobody")), ("not_kept", 2, None), ("not_kept", 3, None)]


def the_judge_finds_lies() -> None:
    """The record that is written down is true; with each of the lies it is not, and the lie's rule finds it."""
    account, record = written()
    demand(faults_of(record, account, kept()) == {}, f"a true record: {faults_of(record, account, kept())}")
    tried = set()
    for rule, client, place, lie in lies():
        spoilt = copy.deepcopy(record)
        spoilt[client, 1][place] = lie
        found = faults_of(spoilt, account, kept())
        demand(rule in found, f"{rule} does not find {lie}: {found}")
        tried.add(rule)
    for rule, place, lie in lies_of_sessions():
        spoilt = kept()
        spoilt[place : place + 1] = [lie] if lie else []
        found = faults_of(record, account, spoilt)
        demand(rule in found, f"{rule} does not find {lie}: {found}")
        tried.add(rule)
    demand(tried == {rule.__name__ for rule in RULES}, "a rule is not tried")


CASES = [the_judge_finds_lies]
