"""Compares what `rv verify --replies` says of records with the model: of random accounts, each with a record of all replies that it
gives, in which some lines are written otherwise, and beside them one line for each reply, in which that is changed; and with more
records of the same account, which may be cut or spoilt."""
import json
import os
import pathlib
import random
import subprocess
import tempfile
from collections import Counter
from concurrent.futures import ThreadPoolExecutor
from dataclasses import dataclass, replace
from itertools import islice, takewhile, zip_longest

from tests.model.account import Account, Call, Cancel, Request, arrivals, reply
from tests.model.audits import MOST_SECONDS, is_past
from tests.model.calls import KINDS
from tests.model.findings import FINDINGS, KEPT, lines_said, may_be_told, read_told, told_of
from tests.model.lines import account_text, read_entry, read_head
from tests.model.spoilt import AccountScript, make_text
from tests.model.tables import table_audit
from tests.model.texts import MAX_DRAIN, NoReading, members_of, written
from tests.model.verdicts import verdict

# How many records are at hand at a time.
AT_HAND = 400
# A run of so many records has to meet each finding.
FULL_RUN = 200
TORN, UNKEPT = 3, 6
# A reply of each word.
REPLIES = [{"reply": "done"}, {"reply": "received"}, {"reply": "received", "by_client": 1, "by_incarnation": 1, "by_number": 1},
           {"reply": "nobody"}, {"reply": "item", "item": "a"}, {"reply": "empty"}, {"reply": "swapped", "item": "a"},
           {"reply": "timedout"}, {"reply": "cancelled"}, {"reply": "counted", "consumers": 0, "items": 1},
           {"reply": "peeked", "item": "a"}, {"reply": "drained", "texts": ["a"]}, {"reply": "drained", "texts": []}]


def record_line(key, call, members):
    """The line of a record for a request and its reply's members."""
    asked, told = members_of(Request(key, call)), {"kind": "reply", **vars(key), **members}
    return b'{"asked":%b,"told":%b}' % (written(asked).encode(), written(told).encode())


def any_call(chance):
    """A call that nobody may have asked."""
    kind = KINDS[word := chance.choice(list(KINDS))]
    return Call(word, chance.randint(0, 63), "b" if "item" in kind.members else None,
                chance.choice(["forever", 0, 5, 20]) if "wait" in kind.members else None,
                chance.randint(1, MAX_DRAIN) if "max" in kind.members else None)


class Record:
    """The lines of a record: those that an account keeps, and beside them changed ones."""

    def __init__(self, chance, account):
        self.chance, self.entries = chance, account.entries
        came = {self.entries[r].act.key: self.entries[r].act.call for r in arrivals(self.entries)}
        unseen = [entry.act.key for entry in self.entries if isinstance(entry.act, Cancel) and entry.act.key not in came]
        calls = {**came, **{key: any_call(chance) for key in unseen}}
        told = {key: reply(self.entries, key) for key in calls}
        self.kept = [(key, calls[key], told[key]) for key in calls if told[key]]
        self.waiting = [(key, calls[key], self.likely(calls[key])) for key in calls if not told[key]]
        self.unseen = set(unseen)
        self.given = {key: told_of(key, calls[key], members) for key, _, members in self.kept}

    def right(self):
        """A line for each reply, some of them written in another form."""
        lines = [record_line(*one) for one in self.kept]
        self.chance.shuffle(lines)
        return [self.rewritten(line) if self.chance.random() < 0.2 else line for line in lines]

    def rewritten(self, line):
        """The same line with white space, its members in another order, and characters escaped."""
        def mixed(value):
            if not isinstance(value, dict):
                return value
            return {name: mixed(value[name]) for name in self.chance.sample(list(value), len(value))}
        text = json.dumps(mixed(json.loads(line)), ensure_ascii=self.chance.random() < 0.5,
                          separators=(self.chance.choice([",", " , "]), self.chance.choice([":", ":\t"])))
        return self.chance.choice([b"", b" ", b"\r"]) + text.encode() + self.chance.choice([b"", b" ", b"\r"])

    def wrong(self):
        """A changed line for each reply, and one for each request that waits."""
        return [self.changed(*one) for one in self.kept] + [record_line(*one) for one in self.waiting]

    def changed(self, key, call, members):
        """A line of which something is changed, so that the account doesn't keep it."""
        changes = [self.other_reply, self.other_reply, self.other_key, self.spoilt] + [self.other_call] * (key not in self.unseen)
        while True:
            line = self.chance.choice(changes)(key, call, members)
            if not self.is_right(read_told(line)):
                return line

    def is_right(self, told):
        """Whether the account gives a line's key its reply: of a request that was cancelled before it came, whatever its call."""
        own = told and self.given.get(told.key)
        return bool(own) and own.reply == told.reply and (own.call == told.call or told.key in self.unseen)

    def other_reply(self, key, call, members):
        """Another reply: of another word, mostly one that this call may have, or with another item, count or consumer."""
        return record_line(key, call, self.chance.choice([self.likely(call), self.other_member(members)]))

    def likely(self, call):
        """A reply, mostly one that this call may have."""
        return self.chance.choice([told for told in REPLIES if may_be_told(call, told) or self.chance.random() < 0.1])

    def other_member(self, members):
        """A reply of the same word, where it tells more than this."""
        names = [name for name in members if name != "reply"]
        if not names:
            return {**members, **self.chance.choice(REPLIES[1:4])}
        name = self.chance.choice(names)
        return {**members, name: self.other_value(members[name])}

    def other_value(self, value):
        """Another value of a reply's member."""
        if isinstance(value, int):
            return max(1, value + self.chance.choice([-1, 1]))
        if isinstance(value, str):
            return self.chance.choice([value + "x", value[1:], value[::-1], value.upper()])[:100]
        return self.chance.choice([value[1:], value[:-1], value[::-1], [*value, "x"][-MAX_DRAIN:], value + value[:1]])[:MAX_DRAIN]

    def other_key(self, key, call, members):
        """The same under another key."""
        name = self.chance.choice(list(vars(key)))
        return record_line(replace(key, **{name: max(1, getattr(key, name) + self.chance.choice([-1, 1, 1, 2]))}), call, members)

    def other_call(self, key, call, members):
        """The same for another call: of another word, or with another member."""
        names = [name for name in ("at", "item", "wait", "max") if getattr(call, name) is not None]
        name = self.chance.choice(names)
        value = {"at": (call.at + 1) % 64, "item": "z", "wait": self.chance.choice(["forever", 7, 9]),
                 "max": 1 + self.chance.randrange(MAX_DRAIN)}[name]
        return record_line(key, self.chance.choice([any_call(self.chance), replace(call, **{name: value})]), members)

    def spoilt(self, key, call, members):
        """A line that is cut, joined to another, or no record in another way."""
        line = record_line(key, call, members)
        at = self.chance.randrange(len(line))
        return self.chance.choice([
            line[:at], line[at:], line + line, line[:at] + b"\x00" + line[at:], line[:-1] + b',"more":1}', b"",
            line.replace(b'"told"', b'"Told"'), line.replace(b'"number":', b'"number":0'),
            line.replace(b'"kind":"reply"', b'"kind":"waiting"'), line.replace(b'"client":', b'"client":1.0,"client":', 1) + b"x",
            b"[%b]" % line, line.replace(b'"asked"', b'"told"')])


@dataclass(frozen=True)
class Pair:
    """The text of an account, and a record with the lines of it that are changed. `whole` tells that the account gives each of the
    other lines."""

    name: str
    text: bytes
    record: bytes
    wrong: list
    whole: bool


def make_record(chance, account, is_first):
    """A record beside an account: the right lines, and among them changed ones, which but the first may lack; and the changed ones."""
    record = Record(chance, account)
    lines = record.right()
    wrong = record.wrong() if is_first or chance.random() < 0.8 else []
    for line in wrong:
        lines.insert(chance.randint(0, len(lines)), line)
    text = b"".join(line + b"\n" for line in lines)
    return text.removesuffix(b"\n") if lines and lines[-1] and chance.random() < 0.3 else text, wrong


def make_pairs(seed, accounts, records):
    """So many accounts, each with so many records, and the lines of these which are changed: in the first one of each account, which
    is whole, each reply."""
    for number in range(1, accounts + 1):
        chance = random.Random(f"{seed} {number}")
        script = AccountScript(chance)
        for _ in range(chance.choice([10, 20, 40, 60, 80])):
            script.line()
        for record in range(1, records + 1):
            whole = account_text(script.account)
            text = whole if record == 1 else make_account(chance, script, whole)
            if not is_past(text + b"\n"):
                name = f"record {record} of account {number} of seed {seed}"
                yield Pair(name, text, *make_record(chance, script.account, record == 1), text == whole)


def make_account(chance, script, whole):
    """The text of a book's account, mostly all of it: else it was spoilt, or its end is torn."""
    return chance.choices([whole, make_text(chance, script), whole[: -chance.randint(1, 40)]], [7, 2, 1])[0]


def parted(text):
    """The text of an account's lines, and whether its end is torn."""
    before, lf, piece = text.rpartition(b"\n")
    is_torn = bool(piece) and (not lf or reading(read_entry, piece) is None)
    return (before + lf, True) if is_torn else (text, False)


def reading(read, line):
    """What a line says; None where it says nothing."""
    try:
        return read(line)
    except NoReading:
        return None


def passed(text):
    """The account of the entries that passed before the first fault or bad line; None where the first line is bad."""
    first, *lines = text.split(b"\n")
    head = reading(read_head, first)
    read = takewhile(lambda entry: entry is not None, (reading(read_entry, line) for line in lines))
    return head and front_of(Account(*head, tuple(read)))


def front_of(account):
    """The account up to its first fault."""
    fault = table_audit(account)
    return replace(account, entries=account.entries[: fault[0]]) if fault else account


def lines_of(record):
    """The lines of a record, of which the last one may lack its LF."""
    return record.removesuffix(b"\n").split(b"\n") if record else []


def expected(text, record):
    """What has to be printed, the findings, and the status."""
    whole, torn = parted(text)
    said, account = verdict(whole), passed(whole)
    printed, found, kept = lines_said(account, lines_of(record)) if account else ([], [], True)
    status = UNKEPT if said == "legal" and not kept else TORN if torn else int(said != "legal")
    return [said, *["torn end"] * torn, *printed], found, status


def ran(program, text, record):
    """What the program prints, with its status and what it says on standard error."""
    with tempfile.TemporaryDirectory() as folder:
        account, replies = pathlib.Path(folder, "account"), pathlib.Path(folder, "record")
        account.write_bytes(text)
        replies.write_bytes(record)
        run = subprocess.run([program, "verify", account, "--replies", replies], capture_output=True, timeout=MOST_SECONDS)
    return run.stdout.decode(errors="replace").removesuffix("\n").split("\n"), run.returncode, run.stderr


def told_wrongly(pair, found):
    """A changed line that is called kept, or a right one that isn't, beside the whole account; None where there is none."""
    is_wrong = dict.fromkeys(pair.wrong)
    lines = zip(lines_of(pair.record), found)
    return next((line for line, finding in lines if (line in is_wrong) == (finding in KEPT)), None) if pair.whole else None


def outcome(program, pair):
    """The findings of a pair, what the program had to say, and what it said."""
    printed, found, status = expected(pair.text, pair.record)
    return found, (printed, status, b""), ran(program, pair.text, pair.record), told_wrongly(pair, found)


def compare_records(program, seed, accounts, records):
    """Compares so many records of each of so many accounts, in which each finding is to be met; tells how often each was."""
    met, pairs, done = Counter(), make_pairs(seed, accounts, records), 0
    with ThreadPoolExecutor(os.cpu_count()) as several:
        while part := list(islice(pairs, AT_HAND)):
            for pair, (found, wanted, got, wrong) in zip(part, several.map(lambda pair: outcome(program, pair), part)):
                met.update(found)
                if got != wanted or wrong is not None:
                    several.shutdown(wait=False, cancel_futures=True)
                    raise AssertionError(shown(pair, wanted, got, wrong))
            done += len(part)
    missed = [finding for finding in FINDINGS if not met[finding]] if done >= FULL_RUN else []
    assert not missed, f"seed {seed}: no line is told: {', '.join(missed)}"
    counts = ", ".join(f"{what} {met[what]}" for what in FINDINGS)
    return f"{accounts} accounts, {done} records, each line as the model has it: {counts}"


def shown(pair, wanted, got, wrong):
    """A difference, with the account and the record, in words."""
    lines = [f"{pair.name}: status {got[1]}, not {wanted[1]}; standard error {got[2][:200]!r}; told wrongly: {wrong!r}"]
    for number, (one, other) in enumerate(zip_longest(wanted[0], got[0]), 1):
        if one != other:
            lines.append(f"line {number} of the output has to be {one!r}, and is {other!r}")
    for what, text in ("account", pair.text), ("record", pair.record):
        lines += [f"the {what}:", *text.decode(errors="backslashreplace").splitlines()[:200]]
    return "\n    ".join(lines)
