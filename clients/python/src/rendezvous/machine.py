"""What a client is, and what each event makes of it: a value and one function, with no socket and no clock.

The machine says what is to be sent and what is to be told; a driver does it. It is replaced as a whole, so whoever looks
finds it before a step or behind it, and never between.
"""
from __future__ import annotations

import enum
from dataclasses import dataclass, replace
from typing import Callable, Dict, NamedTuple, Optional, Union

from .bodies import BY, GREATEST, Members, key_of, outcome_of
from .calls import replies_of
from .errors import Misused
from .replies import Key, Outcome


class State(enum.Enum):
    """What a client is: it has no session yet, has no request, has one, or is no more."""

    NEW = "new"
    IDLE = "idle"
    OUTSTANDING = "outstanding"
    ENDED = "ended"


class Flying(enum.Enum):
    """What was said last on the connection and has no answer yet."""

    NOTHING = "nothing"
    HELLO = "hello"
    REQUEST = "request"
    CANCEL = "cancel"


@dataclass(frozen=True)
class Machine:
    """`key` is the next request's where it is idle (None where the greatest number was used), and the request's where it
    is outstanding, with its `call`; a new one's `call` waits for the welcome. `giving_up`: the request is to be
    cancelled. `sent`: a copy of it was sent. `out` counts the copies of the request and of its cancel that were sent and
    have no answer, also on connections that are gone. `accepted`: the server said that it waits. `full`: the last answer
    was that there is no room, by a refusal of a number that has not arrived. `doubtful`: a copy of the request may have come
    to a server of its epoch, which took it. So it is where one was lost with its connection, waits, or found no memory."""

    client: int
    incarnation: int
    version: int
    state: State = State.NEW
    key: Optional[Key] = None
    call: Optional[Members] = None
    giving_up: bool = False
    sent: bool = False
    out: int = 0
    accepted: bool = False
    full: bool = False
    doubtful: bool = False
    flying: Flying = Flying.NOTHING


# ---- events

@dataclass(frozen=True)
class Ask:
    """A call is asked."""

    call: Members


@dataclass(frozen=True)
class Speak:
    """The connection stands, and nothing flies there: what is due may be said."""


@dataclass(frozen=True)
class Hear:
    """An answer came."""

    answer: Members


@dataclass(frozen=True)
class Lose:
    """The connection is gone."""


@dataclass(frozen=True)
class GiveUp:
    """The request is not wanted any more."""


@dataclass(frozen=True)
class Expire:
    """Time is over: what is known is to be told."""


Event = Union[Ask, Speak, Hear, Lose, GiveUp, Expire]


# ---- what is told

@dataclass(frozen=True)
class Welcomed:
    """There is a session."""


@dataclass(frozen=True)
class Settled:
    """The request has its reply."""

    outcome: Outcome


@dataclass(frozen=True)
class Unsettled:
    """The request may be in the book; `accepted` where the server said so."""

    key: Key
    accepted: bool


@dataclass(frozen=True)
class NotAsked:
    """No copy of the request was sent."""


@dataclass(frozen=True)
class Full:
    """There was no room, and the request is certainly not in the book."""

    key: Optional[Key]


@dataclass(frozen=True)
class Refused:
    """A refusal that a repeat would not change."""

    key: Optional[Key]
    code: int
    current: Optional[int] = None


@dataclass(frozen=True)
class EpochEnded:
    """The server was started anew. `unmet`: no copy of the request can have come to a server of its epoch."""

    key: Optional[Key]
    current: int
    unmet: bool = False


@dataclass(frozen=True)
class Replaced:
    """A greater incarnation of the client is there."""

    key: Optional[Key]
    current: int


Told = Union[Welcomed, Settled, Unsettled, NotAsked, Full, Refused, EpochEnded, Replaced]


class Step(NamedTuple):
    """What an event makes of the machine, what is to be sent and told, and whether the connection is to be thrown away.
    Behind an answer with neither, the driver pauses and speaks again."""

    machine: Machine
    send: Optional[Members] = None
    tell: Optional[Told] = None
    drop: bool = False


# ---- steps

def step(machine: Machine, event: Event) -> Step:
    """What an event makes of the machine. `Misused` where it can't be asked or speak; then nothing changes."""
    if isinstance(event, Hear):
        return _heard(machine, event.answer)
    if isinstance(event, Ask):
        return Step(_asked(machine, event.call))
    if isinstance(event, Speak):
        return _spoken(machine)
    if isinstance(event, GiveUp):
        return _given_up(machine)
    if isinstance(event, Expire):
        return _expired(machine)
    return Step(_lost(machine))


def _asked(machine: Machine, call: Members) -> Machine:
    """A call begins, under the next key; a new client's waits for the welcome."""
    if machine.state is State.ENDED:
        raise Misused("the session has ended: start another")
    if machine.call is not None:
        raise Misused("a request is unsettled: ask it again, or give it up")
    if machine.state is State.NEW:
        return replace(machine, call=call, giving_up=False, full=False)
    if machine.key is None:
        raise Misused("all numbers of this incarnation are used up")
    return replace(_idle(machine, machine.key), state=State.OUTSTANDING, call=call)


def _spoken(machine: Machine) -> Step:
    """What is due: the hello, the request, or its cancel."""
    if machine.flying is not Flying.NOTHING:
        raise Misused("an answer is awaited")
    if machine.state is State.NEW:
        named = {"version": machine.version} if machine.version > 1 else {}
        hello = {"kind": "hello", "client": machine.client, "incarnation": machine.incarnation, **named}
        return Step(replace(machine, flying=Flying.HELLO), hello)
    if machine.state is not State.OUTSTANDING:
        return Step(machine)
    assert machine.key is not None and machine.call is not None
    if machine.giving_up:
        cancels = replace(machine, out=machine.out + 1, flying=Flying.CANCEL)
        return Step(cancels, {"kind": "cancel", **machine.key._asdict()})
    asks = replace(machine, sent=True, out=machine.out + 1, flying=Flying.REQUEST)
    return Step(asks, {"kind": "request", **machine.key._asdict(), **machine.call})


def _given_up(machine: Machine) -> Step:
    """The request is cancelled, unless it is certain by now that it is not in the book."""
    known = _expired(machine)
    if machine.state is State.NEW:
        return known._replace(tell=NotAsked())
    if machine.state is State.OUTSTANDING and isinstance(known.tell, Unsettled):
        return Step(replace(machine, giving_up=True))
    return known


def _expired(machine: Machine) -> Step:
    """What is known of the request is told."""
    if machine.state is State.NEW:
        return Step(replace(machine, call=None), tell=Full(None) if machine.full else NotAsked())
    if machine.state is not State.OUTSTANDING:
        return Step(machine)
    assert machine.key is not None
    if not machine.sent:
        return Step(_idle(machine, machine.key), tell=NotAsked())
    if machine.full and machine.out == 0:
        return Step(_idle(machine, machine.key), tell=Full(machine.key))
    return Step(machine, tell=Unsettled(machine.key, machine.accepted))


def _idle(machine: Machine, key: Optional[Key]) -> Machine:
    """A machine with no request, whose next one has this key."""
    return Machine(machine.client, machine.incarnation, machine.version, State.IDLE, key)


def _lost(machine: Machine) -> Machine:
    """The connection is gone: what became of a request that flew there is not known."""
    return replace(machine, flying=Flying.NOTHING, doubtful=machine.doubtful or machine.flying is Flying.REQUEST)


def _fault(machine: Machine) -> Step:
    """An answer that can't be had: the connection is out of step."""
    return Step(_lost(machine), drop=True)


def _end(machine: Machine, told: Told) -> Step:
    """The client is no more."""
    ended = Machine(machine.client, machine.incarnation, machine.version, State.ENDED)
    return Step(ended, tell=told, drop=True)


def _heard(machine: Machine, answer: Members) -> Step:
    """What an answer is to the machine."""
    if machine.flying is Flying.NOTHING or machine.state in (State.IDLE, State.ENDED):
        return _fault(machine)
    if machine.state is State.NEW:
        return _greeted(machine, answer)
    if answer["kind"] == "reply":
        return _replied(machine, answer)
    if answer["kind"] == "waiting":
        return _waits(machine, answer)
    if answer["kind"] == "refused":
        return REFUSED.get(answer["code"], lambda machine, _: _fault(machine))(machine, answer)
    return _fault(machine)


# ---- a new client's answers

def _greeted(machine: Machine, answer: Members) -> Step:
    """What an answer is to a client that said hello."""
    if answer["kind"] == "welcome" and _is_own(machine, answer):
        idle = _idle(machine, Key(answer["epoch"], machine.client, machine.incarnation, 1))
        return Step(idle, tell=Welcomed()) if machine.call is None else _spoken(_asked(idle, machine.call))
    return _turned_away(machine, answer) if answer["kind"] == "refused" else _fault(machine)


def _is_own(machine: Machine, welcome: Members) -> bool:
    """Whether a welcome is of its client, its incarnation and its version."""
    named = (welcome["client"], welcome["incarnation"], welcome.get("version", 1))
    return named == (machine.client, machine.incarnation, machine.version)


def _turned_away(machine: Machine, refusal: Members) -> Step:
    """What a refusal is to a client that said hello."""
    code, current = refusal["code"], refusal.get("current")
    quiet = replace(machine, flying=Flying.NOTHING)
    if code == 4 and refusal["current"] > machine.incarnation:
        return _end(machine, Replaced(None, refusal["current"]))
    if code in (1, 9) or code == 12 and current != machine.version:
        return Step(replace(quiet, call=None), tell=Refused(None, code, current), drop=True)
    if code in (10, 11):
        return Step(replace(quiet, full=code == 10))
    return _fault(machine)


# ---- a request's answers

def _can_have(machine: Machine, reply: Members) -> bool:
    """Whether the reply is one that the outstanding call can have, in this version."""
    assert machine.call is not None
    word = reply["reply"]
    if word == "drained" and len(reply["texts"]) > machine.call.get("max", 0):
        return False
    if word == "received" and (BY[0] in reply) != (machine.version > 1):
        return False
    return word in replies_of(machine.call)


def _replied(machine: Machine, reply: Members) -> Step:
    """The reply of its own key settles the request."""
    key = machine.key
    assert key is not None
    if key_of(reply) != key or not _can_have(machine, reply):
        return _fault(machine)
    following = key._replace(number=key.number + 1) if key.number < GREATEST else None
    return Step(_idle(machine, following), tell=Settled(outcome_of(reply)))


def _waits(machine: Machine, answer: Members) -> Step:
    """The server has the request, which waits: it is asked again, or cancelled."""
    assert machine.call is not None
    may_wait = machine.call.get("wait", "now") not in ("now", 0)
    if key_of(answer) != machine.key or machine.flying is not Flying.REQUEST or not may_wait:
        return _fault(machine)
    return _spoken(replace(_answered(machine), accepted=True, full=False, doubtful=True))


def _answered(machine: Machine) -> Machine:
    """The copy that flew has its answer."""
    return replace(machine, out=machine.out - 1, flying=Flying.NOTHING)


def _bad_text(machine: Machine, refusal: Members) -> Step:
    """The server takes no such request; where no other copy is out, the number is used again."""
    if machine.flying is not Flying.REQUEST or machine.accepted:
        return _fault(machine)
    answered = _answered(machine)
    told = Refused(machine.key, refusal["code"])
    return Step(_idle(machine, machine.key) if answered.out == 0 else answered, tell=told)


def _other_epoch(machine: Machine, refusal: Members) -> Step:
    """A greater epoch ends the client; a lower one is another server's. The copy that flew came to no server of its own epoch."""
    assert machine.key is not None
    if refusal["current"] <= machine.key.epoch:
        return _fault(machine)
    return _end(machine, EpochEnded(machine.key, refusal["current"], not machine.doubtful))


def _no_session(machine: Machine, _: Members) -> Step:
    """Behind a welcome this shows that the server was started anew in the same epoch."""
    assert machine.key is not None
    return _end(machine, EpochEnded(machine.key, machine.key.epoch))


def _old_incarnation(machine: Machine, refusal: Members) -> Step:
    """A greater incarnation ends the client."""
    if refusal["current"] <= machine.incarnation:
        return _fault(machine)
    return _end(machine, Replaced(machine.key, refusal["current"]))


def _taken_over(machine: Machine, refusal: Members) -> Step:
    """Refusals by a number or a call that only another process of this name can have used."""
    assert machine.key is not None
    number, code = machine.key.number, refusal["code"]
    shown = (code == 5 and refusal["last"] > number or code == 6 and machine.flying is Flying.REQUEST
             or code == 7 and refusal["open"] < number)
    return _end(machine, Refused(machine.key, code)) if shown else _fault(machine)


def _gap(machine: Machine, refusal: Members) -> Step:
    """A number that was settled is gone: the server was started anew in the same epoch."""
    assert machine.key is not None
    return _no_session(machine, refusal) if refusal["last"] < machine.key.number - 1 else _fault(machine)


def _no_room(machine: Machine, _: Members) -> Step:
    """The number has not arrived, and finds no room. So no copy that was answered before is in the book either."""
    if machine.accepted:
        return _fault(machine)
    answered = _answered(machine)
    full = replace(answered, full=True, doubtful=machine.doubtful and answered.out > 0)
    return _expired(full) if full.giving_up and full.out == 0 and full.sent else Step(full)


def _no_memory(machine: Machine, _: Members) -> Step:
    """Nothing is known: the request, or the answer's text, found no memory."""
    return Step(replace(_lost(machine), out=machine.out - 1, full=False))


REFUSED: Dict[int, Callable[[Machine, Members], Step]] = {
    1: _bad_text, 2: _other_epoch, 3: _no_session, 4: _old_incarnation, 5: _taken_over, 6: _taken_over, 7: _taken_over,
    8: _gap, 10: _no_room, 11: _no_memory,
}
