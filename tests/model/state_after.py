"""The state of an account by one pass over its entries, and what each entry makes of the state before it (docs/MODEL.md,
sections 5 to 8).

Each question is asked of the state, and none of earlier entries. tests/model/states.py compares all of it with the
formulas over places of account.py.
"""
from dataclasses import dataclass, replace
from functools import reduce

from tests.model.account import OTHER_SIDE, Cancel, Hello, Request, Tick, receipt, stays
from tests.model.state import CancelledFirst, ClientState, OpenPlace, Replied, State, Waits

CANCELLED, TIMED_OUT = {"reply": "cancelled"}, {"reply": "timedout"}


@dataclass(frozen=True)
class Following:
    """What an entry makes of a state: the state after it; what it settles, as pairs of a key that waited and its
    reply, in their order; and the reply of its own key, where it has one."""

    state: State
    settled: tuple = ()
    reply: dict | None = None


def state_of(account):
    """The state of a legal account, by one pass over its entries."""
    opening = State(account.epoch, account.opened)
    return reduce(lambda state, entry: followed_by(state, entry).state, account.entries, opening)


def followed_by(state, entry):
    """What an entry makes of a state that it may follow."""
    match entry.act:
        case Hello():
            made = greeted(state, entry.act)
        case Request():
            made = arrived(state, entry)
        case Cancel():
            made = cancelled(state, entry.act.key)
        case Tick():
            made = stopped(state, state.due(entry.moment), TIMED_OUT)
    after = State(state.epoch, entry.moment, state.length + 1, made.state.open, made.state.clients)
    return Following(after, made.settled, made.reply)


def greeted(state, hello):
    """A hello opens a session, and what waits of an earlier one is cancelled."""
    waits = state.waiting_of(hello.client)
    made = stopped(state, [waits] if waits else [], CANCELLED)
    return replace(made, state=with_client(made.state, hello.client, opened_by(hello)))


def opened_by(hello):
    """The session that a hello opens."""
    return ClientState(hello.incarnation, hello.version)


def cancelled(state, key):
    """A cancel ends what waits, or settles a number before a request of it came."""
    waits = state.waiting_of(key.client)
    if waits:
        return replace(stopped(state, [waits], CANCELLED), reply=CANCELLED)
    client = replace(state.clients[key.client], last=key.number, request=CancelledFirst())
    return Following(with_client(state, key.client, client), reply=CANCELLED)


def stopped(state, places, reply):
    """These places, which wait, do so no longer: each gets the same reply, in their order."""
    settled = tuple((there.key, reply) for there in places)
    for there in places:
        call = state.clients[there.key.client].request.call
        state = without(state, call.side, call.at, [there])
    return Following(told(state, settled), settled)


def arrived(state, entry):
    """An arrival meets its partners, or is open where it stays; they and it are told what they are told."""
    key, call = entry.act.key, entry.act.call
    own = OpenPlace(state.length, call.item, limit_of(entry.moment, call), key, entry.moment)
    partners = [there for there in state.opposites(call) if there.place in entry.partners]
    reply = reply_at_once(state, own, call, partners)
    settled = tuple((there.key, reply_met(state, there, own)) for there in partners if there.waits)
    after = told(without(state, OTHER_SIDE.get(call.side), call.at, partners), settled)
    if not partners and stays(call):
        after = with_open(after, call, OpenPlace(own.place, call.item) if call.kind.rests else own)
    request = replied_to(call, reply) if reply else Waits(own.place, call)
    client = replace(after.clients[key.client], last=key.number, request=request)
    return Following(with_client(after, key.client, client), settled, reply)


def limit_of(moment, call):
    """The moment at which a call that arrives at a moment times out, if it has one."""
    return moment + call.wait if isinstance(call.wait, int) else None


def reply_at_once(state, own, call, partners):
    """The reply that a request has when it arrives; none where it waits."""
    if partners or call.side == "looking" and state.open_at("giving", call.at):
        word = call.kind.met
    elif call.wait in (None, "now"):
        word = call.kind.unmet
    elif call.wait == 0:
        return TIMED_OUT
    else:
        return None
    if call.side == "looking":
        return {"reply": word, **members_seen(state, call.at, word)}
    return {"reply": word, **members_met(state, own, word, partners)}


def reply_met(state, waits, arrival):
    """The reply of what waits where an arrival meets it."""
    word = state.clients[waits.key.client].request.call.kind.met
    return {"reply": word, **members_met(state, waits, word, [arrival])}


def members_met(state, own, word, others):
    """What a reply of this word tells of the others in its pairs or swap."""
    match word:
        case "received":
            return receipt(state.clients[own.key.client].version, others[0].key)
        case "item" | "swapped":
            return {"item": others[0].item}
        case "drained":
            return {"texts": [other.item for other in others]}
    return {}


def members_seen(state, at, word):
    """What a reply of this word tells of a queue that was looked at."""
    items, consumers = state.open_at("giving", at), state.open_at("taking", at)
    match word:
        case "counted":
            return {"items": len(items), "consumers": len(consumers)}
        case "peeked":
            return {"item": items[0].item}
    return {}


def told(state, settled):
    """The state in which these keys, which waited, have these replies."""
    for key, reply in settled:
        state = with_client(state, key.client, answered(state.clients[key.client], reply))
    return state


def answered(client, reply):
    """A client whose request waited and now has a reply."""
    return replace(client, request=replied_to(client.request.call, reply))


def replied_to(call, reply):
    """What is left of a request with this call that has this reply."""
    return Replied(call, reply)


def with_client(state, number, client):
    """The state with what a client is now."""
    return State(state.epoch, state.moment, state.length, state.open, {**state.clients, number: client})


def with_open(state, call, there):
    """The state with one open place more, the newest of its side."""
    where = call.side, call.at
    return replace(state, open={**state.open, where: (*state.open_at(*where), there)})


def without(state, side, at, places):
    """The state in which these places of one side are open no longer."""
    if not places:
        return state
    left = tuple(there for there in state.open_at(side, at) if there not in places)
    others = {where: there for where, there in state.open.items() if where != (side, at)}
    return replace(state, open={**others, (side, at): left} if left else others)
