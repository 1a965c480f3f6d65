"""One step of a state by a moment and a message: the rules of a step of an account, each asked of the state alone, in
their order (docs/MODEL.md, section 9)."""
from dataclasses import dataclass

from tests.model.account import MAX_MOMENT, Cancel, Entry, Hello, Request, Tick, stays
from tests.model.limits import BOOK
from tests.model.state import CancelledFirst, State, Waits
from tests.model.state_after import CANCELLED, followed_by
from tests.model.steps import refused, replied, welcome


@dataclass(frozen=True)
class Step:
    """What a step makes: its entries; the members of its answer; what it settles, as pairs of a key that waited and
    its reply, those of its tick by limit and then place, then those of its message's entry by place; and the state
    after it."""

    entries: tuple
    answer: dict
    settled: tuple
    state: State


def step(state, now, message, limits=BOOK):
    """The step of a message that was handed in at a moment, under these limits."""
    moment = max(state.moment, min(now, MAX_MOMENT))
    entries, settled = (), ()
    if state.due(moment):
        entries = (Entry(moment, Tick()),)
        made = followed_by(state, *entries)
        state, settled = made.state, made.settled
    lines = hello_lines if isinstance(message, Hello) else key_lines
    answer = lines(state, message) or full(state, message, limits)
    if answer:
        return Step(entries, answer, settled, state)
    entry = Entry(moment, message, partners_of(state, message))
    made = followed_by(state, entry)
    answer = welcome(state, message) if isinstance(message, Hello) else replied(message.key, made.reply)
    return Step((*entries, entry), answer, (*settled, *made.settled), made.state)


def partners_of(state, message):
    """The places that a message's entry names: of those that it might meet the oldest, as many as it may name."""
    if not isinstance(message, Request):
        return ()
    return tuple(there.place for there in state.opposites(message.call)[: message.call.may_name])


def key_lines(state, message):
    """The answer to a request or cancel that gets no entry of its own, room aside, if one of these lines applies."""
    key, client = message.key, state.clients.get(message.key.client)
    if key.epoch != state.epoch:
        return refused(2, current=state.epoch)
    if client is None or client.incarnation < key.incarnation:
        return refused(3)
    if key.incarnation < client.incarnation:
        return refused(4, current=client.incarnation)
    if key.number < client.last:
        return refused(5, last=client.last)
    if key.number == client.last:
        return repeat_lines(client, message)
    if isinstance(client.request, Waits):
        return refused(7, open=client.last)
    return refused(8, last=client.last) if key.number > client.last + 1 else None


def repeat_lines(client, message):
    """The answer to a request or cancel of its session's last number; none where a cancel ends what waits."""
    kept, is_cancel = client.request, isinstance(message, Cancel)
    if isinstance(kept, CancelledFirst):
        return replied(message.key, CANCELLED)
    if not is_cancel and kept.call != message.call:
        return refused(6)
    if not isinstance(kept, Waits):
        return replied(message.key, kept.reply)
    return None if is_cancel else replied(message.key, None)


def hello_lines(state, hello):
    """The answer to a hello that gets no entry of its own, room aside, if one of these lines applies."""
    client = state.clients.get(hello.client)
    if client is None or client.incarnation < hello.incarnation:
        return None
    if client.incarnation > hello.incarnation:
        return refused(4, current=client.incarnation)
    return welcome(state, hello) if client.version == hello.version else refused(12, current=client.version)


def full(state, message, limits):
    """The rules of room: the refusal of a new client where there are as many as may be, of a message whose entry might
    leave no room for the ends of all that waits, and of one that would stay where as much is open as may be."""
    if isinstance(message, Cancel) and state.waiting_of(message.key.client):
        return None
    if isinstance(message, Hello) and message.client not in state.clients and len(state.clients) >= limits.clients:
        return refused(9)
    may_wait = isinstance(message, Request) and not message.call.kind.rests and stays(message.call)
    need = 2 if may_wait else 1
    if state.length + len(state.waiting()) + need > limits.entries:
        return refused(10)
    would_stay = isinstance(message, Request) and stays(message.call) and not state.opposites(message.call)
    is_crowded = limits.open_places is not None and len(state.every_open()) >= limits.open_places
    return refused(10) if would_stay and is_crowded else None
