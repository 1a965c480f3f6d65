"""What the states of accounts are compared with: the same things told by the formulas over places of account.py, and
by the rules of audit.py and the steps of steps.py over accounts."""
from tests.model.account import (
    OTHER_SIDE, Hello, Key, Request, Tick, arrival_of, arrivals, incarnation, is_open, last_number, limit, reply, version,
    waiting)
from tests.model.audit import broken_rule
from tests.model.limits import BOOK
from tests.model.state import CancelledFirst, ClientState, Fresh, OpenPlace, Replied, State, Waits
from tests.model.state_after import CANCELLED
from tests.model.state_rules import NOT_OPEN
from tests.model.steps import step


def state_by_formulas(account):
    """The state of a legal account, each part by its formula."""
    entries, places = account.entries, {}
    for r in arrivals(entries):
        if is_open(entries, r):
            call = entries[r].act.call
            places.setdefault((call.side, call.at), []).append(open_by_formulas(entries, r))
    clients = {entry.act.client for entry in entries if isinstance(entry.act, Hello)}
    sessions = {client: client_by_formulas(account, client) for client in clients}
    places = {where: tuple(there) for where, there in places.items()}
    return State(account.epoch, account.own_moment(), len(entries), places, sessions)


def open_by_formulas(entries, r):
    """What a state has of an open arrival."""
    act = entries[r].act
    waits = (None, None) if act.call.kind.rests else (act.key, entries[r].moment)
    return OpenPlace(r, act.call.item, limit(entries, r), *waits)


def client_by_formulas(account, client):
    """What a state has of a client that said hello."""
    entries = account.entries
    key = Key(account.epoch, client, incarnation(entries, client), last_number(entries, client))
    return ClientState(key.incarnation, version(entries, client), key.number, request_by_formulas(entries, key))


def request_by_formulas(entries, key):
    """What a state has of the request with its session's last number."""
    if not key.number:
        return Fresh()
    r, kept = arrival_of(entries, key), reply(entries, key)
    if r is None:
        assert kept == CANCELLED, f"{key} never arrived, and is told {kept}"
        return CancelledFirst()
    call = entries[r].act.call
    return Replied(call, kept) if kept else Waits(r, call)


def settled_by_formulas(before, after):
    """What the entries of the second account behind those of the first settle: the keys that waited and have a reply,
    each with it; those of a tick first, by limit and then place, then the others by place."""
    waits = waiting(before.entries) if after.entries is not before.entries else []
    replies = [(r, before.entries[r].act.key, reply(after.entries, before.entries[r].act.key)) for r in waits]
    settled = [(rank(before, after, r), key, kept) for r, key, kept in replies if kept]
    return tuple((key, kept) for _, key, kept in sorted(settled, key=lambda found: found[0]))


def rank(before, after, r):
    """Where what is settled at a place stands among the others: with those of the tick, if the tick's limits reach it."""
    tick = after.entries[len(before.entries)]
    ends = limit(before.entries, r)
    of_tick = isinstance(tick.act, Tick) and ends is not None and ends <= tick.moment
    return (0, ends, r) if of_tick else (1, 0, r)


def step_by_formulas(account, now, message, limits=BOOK):
    """The account after a step under these limits; with the step's entries, its answer and what it settles."""
    after, answer = step(account, now, message, limits)
    return after, (after.entries[len(account.entries) :], answer, settled_by_formulas(account, after))


def follow_by_formulas(account, entry):
    """What an entry settles behind an account, and its own key's reply; or the rule that it breaks, as a state tells
    it."""
    after = account.with_entry(entry)
    rule = broken_rule(after, len(account.entries))
    if rule:
        return NOT_OPEN if names_what_is_not_open(account, entry, rule) else rule
    own = None if isinstance(entry.act, (Hello, Tick)) else reply(after.entries, entry.act.key)
    return settled_by_formulas(account, after), own


def names_what_is_not_open(account, entry, rule):
    """Whether the rule is broken by a place that is open nowhere, and not by the kind of act, or by the number, order
    or range of the named places."""
    entries, partners = account.entries, entry.partners
    if rule not in ("P1", "P2", "S1") or not isinstance(entry.act, Request) or entry.act.call.side not in OTHER_SIDE:
        return False
    if [*partners] != sorted({*partners}) or len(partners) > entry.act.call.may_name or partners[-1] >= len(entries):
        return False
    return not all(isinstance(entries[r].act, Request) and is_open(entries, r) for r in partners)
