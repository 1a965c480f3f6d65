"""One step of an account by a moment and a message (docs/MODEL.md, section 9)."""
from itertools import combinations

from tests.model.account import (
    MAX_MOMENT, OTHER_SIDE, Cancel, Entry, Hello, Request, Tick, arrival_of, arrivals, incarnation, is_open, last_number,
    open_at, overdue, reply, stays, version, waiting, waiting_of)
from tests.model.audit import broken_rule
from tests.model.limits import BOOK
from tests.model.texts import MAX_DRAIN, NoReading, members_of, read_line, written

# Of so many places all lists are tried.
FEW = 3


def told(account, line, limits=BOOK):
    """The account after a line of `rv book`, or of a machine under other limits, and the text that answers it."""
    try:
        moment, message = read_line(line)
    except NoReading:
        return account, written(refused(1))
    account, members = step(account, moment, message, limits)
    return account, written(members)


def refused(code, **detail):
    """The members of a refusal."""
    return {"kind": "refused", "code": code, **detail}


def replied(key, members):
    """The members of a reply; of `waiting` where there is none yet."""
    return {"kind": "reply", **vars(key), **members} if members else {"kind": "waiting", **vars(key)}


def welcome(account, hello):
    """The members of a welcome."""
    return {**members_of(hello), "kind": "welcome", "epoch": account.epoch}


def step_moment(account, now):
    """The moment of a step."""
    return max(account.own_moment(), min(now, MAX_MOMENT))


def ticked(account, now):
    """The account with the tick that is due at a moment that was handed in, if one is."""
    moment = step_moment(account, now)
    return account.with_entry(Entry(moment, Tick())) if overdue(account.entries, moment) else account


def step(account, now, message, limits=BOOK):
    """The account after a message that was handed in at a moment, and the members of its answer, under these limits."""
    moment = step_moment(account, now)
    account = ticked(account, now)
    lines = hello_lines if isinstance(message, Hello) else key_lines
    answer = lines(account, message) or full(account, message, limits)
    if answer:
        return account, answer
    account = entered(account, moment, message)
    if isinstance(message, Hello):
        return account, welcome(account, message)
    return account, replied(message.key, reply(account.entries, message.key))


def key_lines(account, message):
    """Lines 1 to 10: the answer to a request or cancel that gets no entry of its own, if one of them applies."""
    entries, key = account.entries, message.key
    if key.epoch != account.epoch:
        return refused(2, current=account.epoch)
    current = incarnation(entries, key.client)
    if current is None or current < key.incarnation:
        return refused(3)
    if key.incarnation < current:
        return refused(4, current=current)
    last = last_number(entries, key.client)
    if key.number < last:
        return refused(5, last=last)
    if key.number == last:
        return repeat_lines(entries, message)
    if waiting_of(entries, key.client):
        return refused(7, open=last)
    if key.number > last + 1:
        return refused(8, last=last)
    return None


def repeat_lines(entries, message):
    """Lines 5 to 8: the answer to a request or cancel of its session's last number."""
    kept = reply(entries, message.key)
    if isinstance(message, Cancel):
        return replied(message.key, kept) if kept else None
    r = arrival_of(entries, message.key)
    if r is not None and entries[r].act.call != message.call:
        return refused(6)
    return replied(message.key, kept)


def hello_lines(account, hello):
    """Lines 11 to 13: the answer to a hello that gets no entry of its own, if one of them applies."""
    current = incarnation(account.entries, hello.client)
    if current is not None and current > hello.incarnation:
        return refused(4, current=current)
    if current == hello.incarnation:
        spoken = version(account.entries, hello.client)
        return welcome(account, hello) if spoken == hello.version else refused(12, current=spoken)
    return None


def full(account, message, limits):
    """Lines 14 and 15, and that of a bound on what is open: the refusal of a message whose entry the limits forbid."""
    entries = account.entries
    if isinstance(message, Cancel) and waiting_of(entries, message.key.client):
        return None
    clients = {entry.act.client for entry in entries if isinstance(entry.act, Hello)}
    if isinstance(message, Hello) and message.client not in clients and len(clients) >= limits.clients:
        return refused(9)
    may_wait = isinstance(message, Request) and message.call.word != "put" and stays(message.call)
    need = 2 if may_wait else 1
    if len(entries) + len(waiting(entries)) + need > limits.entries:
        return refused(10)
    return refused(10) if would_stay(entries, message) and is_crowded(entries, limits.open_places) else None


def would_stay(entries, message):
    """Whether a message is a request that would stay, and meets nobody."""
    if not isinstance(message, Request) or not stays(message.call):
        return False
    return not open_at(entries, OTHER_SIDE[message.call.side], message.call.at)


def is_crowded(entries, most):
    """Whether so many places are open, if that is bounded."""
    return most is not None and sum(is_open(entries, r) for r in arrivals(entries)) >= most


def entered(account, moment, message):
    """The one legal account with the message's entry. Only open places of the other side can be its partners."""
    lists = [()]
    if isinstance(message, Request) and message.call.side in OTHER_SIDE:
        lists += lists_of(open_at(account.entries, OTHER_SIDE[message.call.side], message.call.at))
    choices = [account.with_entry(Entry(moment, message, partners)) for partners in lists]
    [legal] = [choice for choice in choices if broken_rule(choice, len(account.entries)) is None]
    return legal


def lists_of(places):
    """Rising lists of some places: all there are of a few, else each place by itself, and the fronts."""
    if len(places) <= FEW:
        return [some for size in range(1, len(places) + 1) for some in combinations(places, size)]
    return [*((place,) for place in places), *(tuple(places[:size]) for size in range(2, min(len(places), MAX_DRAIN + 1) + 1))]
