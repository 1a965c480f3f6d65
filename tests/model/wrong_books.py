"""Books that drain wrongly, or that name the wrong consumer, made of the model by a change in its step. Each must be found:
by a worked row, and with no expected values, by what must hold of a random world, or by its audit."""
import random
from contextlib import contextmanager
from dataclasses import replace

from tests.model import steps
from tests.model.account import OTHER_SIDE, Entry, Hello, Request, arrival_of, is_open, open_at, received
from tests.model.plays import Play, make_play
from tests.model.rows import DRAIN_ROW, ROWS, row_fault
from tests.model.texts import MAX_DRAIN
from tests.model.version_rows import BOTH_ROW, NAMED_ROW, VERSION_ROWS

# How many random worlds a wrong book has, at most, and how many lines each.
WORLDS, LINES = 40, 300
reply, entered = steps.reply, steps.entered


def is_drain(entry):
    """Whether an entry is the arrival of a drain."""
    return isinstance(entry.act, Request) and entry.act.call.word == "drain"


def newest_first(entries, key):
    """The reply of a key, of a drain with its texts the other way round."""
    members = reply(entries, key)
    return {**members, "texts": members["texts"][::-1]} if members and "texts" in members else members


def drained_not_told(entries, key):
    """The reply of a key, of which none is told to a transfer that a drain took."""
    members = reply(entries, key)
    if not is_receipt(members):
        return members
    r = arrival_of(entries, key)
    return None if any(is_drain(entry) and r in entry.partners for entry in entries) else members


def is_receipt(members):
    """Whether a reply is that an item was received."""
    return bool(members) and members["reply"] == "received"


def latest_named(entries, key):
    """The reply of a key, of which a receipt of version 2 names the consumer that came last to the queue, whoever took the
    item."""
    members = reply(entries, key)
    if not is_receipt(members):
        return members
    r = arrival_of(entries, key)
    return received(entries, r, consumers(entries, r)[-1])


def consumers(entries, r):
    """The keys of all takes and drains in the queue of an arrival, oldest first."""
    at = entries[r].act.call.at
    there = [entry.act for entry in entries if isinstance(entry.act, Request) and entry.act.call.side == "taking"]
    return [act.key for act in there if act.call.at == at]


def latest_that_waits_named(entries, key):
    """The reply of a key, of which a receipt of version 2 that is told at once names the last of the consumers that wait."""
    members, r = reply(entries, key), arrival_of(entries, key)
    if not is_receipt(members) or not entries[r].partners:
        return members
    there = open_at(entries[:r], "taking", entries[r].act.call.at)
    return received(entries, r, entries[there[-1]].act.key)


def none_named(entries, key):
    """The reply of a key as if each session had version 1."""
    return reply(with_version(entries, 1), key)


def all_named(entries, key):
    """The reply of a key as if each session had version 2."""
    return reply(with_version(entries, 2), key)


def with_version(entries, version):
    """The entries, each hello with this version."""
    return tuple(replace(entry, act=replace(entry.act, version=version)) if isinstance(entry.act, Hello) else entry
                 for entry in entries)


def named_newest_first(account, moment, message):
    """The account with a drain's entry whose partners stand newest first."""
    after = entered(account, moment, message)
    return with_last(after, after.entries[-1].partners[::-1]) if is_drain(after.entries[-1]) else after


def one_too_many(account, moment, message):
    """The account with a drain's entry that takes one more than it may, where one more is there."""
    if not (isinstance(message, Request) and message.call.word == "drain"):
        return entered(account, moment, message)
    there = open_at(account.entries, OTHER_SIDE["taking"], message.call.at)
    return account.with_entry(Entry(moment, message, tuple(there[: message.call.max + 1])))


def one_too_few(account, moment, message):
    """The account with a drain's entry that leaves the last item where it takes several."""
    after = entered(account, moment, message)
    return with_last(after, after.entries[-1].partners[:1]) if is_drain(after.entries[-1]) else after


def second_first(account, moment, message):
    """The account with a drain's entry that passes over the oldest item where there is another one."""
    after = entered(account, moment, message)
    partners = after.entries[-1].partners
    return with_last(after, partners[1:]) if is_drain(after.entries[-1]) and len(partners) > 1 else after


def drained_stays(account, moment, message):
    """The account with a message's entry, for which what was drained before is there as if it was not."""
    forgotten = tuple(replace(entry, partners=()) if is_drain(entry) else entry for entry in account.entries)
    if not (isinstance(message, Request) and message.call.side == "taking"):
        return entered(account, moment, message)
    there = [r for r in open_at(forgotten, "giving", message.call.at) if is_open(forgotten, r)]
    return account.with_entry(Entry(moment, message, tuple(there[: min(message.call.may_name, MAX_DRAIN)])))


def with_last(account, partners):
    """The account whose last entry has these partners."""
    return replace(account, entries=(*account.entries[:-1], replace(account.entries[-1], partners=partners)))


# What each wrong book does, and what it puts in the place of which part of the step.
WRONG_BOOKS = [
    ("a drain's texts are told newest first", {"reply": newest_first}),
    ("a drain's partners stand newest first", {"entered": named_newest_first}),
    ("a drained item stays in the queue", {"entered": drained_stays}),
    ("a drain takes one more than it may", {"entered": one_too_many}),
    ("a drain leaves what it may take", {"entered": one_too_few}),
    ("a drain passes over the oldest item", {"entered": second_first}),
    ("a drained transfer is not told received", {"reply": drained_not_told}),
    ("a receipt names the consumer that came last to the queue", {"reply": latest_named}),
    ("a receipt names the last of the consumers that wait", {"reply": latest_that_waits_named}),
    ("a receipt of version 2 names nobody", {"reply": none_named}),
    ("a receipt of version 1 names its consumer", {"reply": all_named}),
]
# The rows of which one at least tells of each wrong book.
FOUND_BY = [row for row in [*ROWS, *VERSION_ROWS] if row[0] in (DRAIN_ROW, NAMED_ROW, BOTH_ROW)]


@contextmanager
def stepping(parts):
    """Within it the model steps by these parts."""
    kept = {name: getattr(steps, name) for name in parts}
    vars(steps).update(parts)
    try:
        yield
    finally:
        vars(steps).update(kept)


def rows_fault():
    """What the worked rows tell of the book."""
    return next(filter(None, (row_fault(epoch, lines) for _, epoch, lines in FOUND_BY)), None)


class BusyPlay(Play):
    """A world's lines in one queue, with many drains, or with many takes that wait, and with sessions of both versions."""

    def __init__(self, chance):
        super().__init__(chance)
        script, drains = self.script, chance.random() < 0.6
        script.drains, script.gives, script.patience = (0.6, 0.6, script.patience) if drains else (0.1, 0.4, 0.9)
        script.puts, script.queues, script.seconds = 0.5, script.queues[:1], 0.6


def world_fault(seed):
    """What a random world breaks of what must hold of all, if something. One that comes to an account which no entry can
    follow tells nothing."""
    try:
        return make_play(random.Random(seed), LINES, BusyPlay)[1]
    except ValueError:
        return None


def wrong_book_faults():
    """Each wrong book by its name and how it is looked at, with that it was not found, if it was not. The right book, looked
    at in the same ways, must have no fault."""
    for name, parts in [("the right book", {}), *WRONG_BOOKS]:
        with stepping(parts):
            seen = {"worked rows": rows_fault(),
                    "random worlds": next(filter(None, map(world_fault, range(WORLDS))), None)}
        for what, fault in seen.items():
            yield f"{name}, by {what}", None if bool(fault) == bool(parts) else fault or "it was not found"
