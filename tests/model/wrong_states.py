"""Wrong definitions of states, each made by a change in one part of the right ones. Each must be refused: by the state
that the formulas tell, by what its steps do, and, where it leaves something out, by two accounts that have one such
state and go on differently."""
import random
from contextlib import contextmanager

from tests.model import state_after
from tests.model.state import ClientState, Replied
from tests.model.state_after import Following, state_of
from tests.model.state_comparison import Comparison, seen
from tests.model.state_steps import step
from tests.model.state_twins import Twins
from tests.model.state_walks import Walk

# How many walks are tried, at most, until a wrong definition is found, and how many for the right one; and how many
# changes of a walk's account are tried.
WALKS, RIGHT_WALKS, CHANGES = 1_000, 30, 25


def forgets_call(call, reply):
    """What is left of a request that was replied to, without its call."""
    return Replied(None, reply)


def forgets_version(hello):
    """The session that a hello opens, of no version of its own."""
    return ClientState(hello.incarnation, 1)


def forgets_limit(*_):
    """No limit."""
    return None


def keeps_stopped(state, places, reply):
    """These places are told that they wait no longer, and stay open."""
    settled = tuple((there.key, reply) for there in places)
    return Following(state_after.told(state, settled), settled)


def by_formulas(_, chance):
    """What a walk's states lack of those that the formulas tell, if something."""
    walk = Walk(chance)
    while walk.left:
        walk.step(walk.now(), walk.message())
    got = state_of(walk.account)
    return None if got == walk.state else f"the formulas tell {walk.state}, and it is {got}"


def by_steps(_, chance):
    """What the steps of a walk's states do otherwise than the account's, if something. A state that breaks down as it
    steps tells nothing."""
    walk, state = Walk(chance), None
    while walk.left:
        now, message, state = walk.now(), walk.message(), state or state_of(walk.account)
        wanted = walk.step(now, message)
        try:
            made = step(state, now, message)
        except (AttributeError, KeyError, StopIteration):
            return None
        if seen(made) != wanted:
            return f"expected {wanted}, got {seen(made)}"
        state = made.state
    return None


def by_twins(comparison, chance):
    """How accounts with the state of a walk's account go on otherwise, if one does. Moments rise often, so that limits
    differ."""
    walk = Walk(chance)
    walk.pace = [0, 1]
    for _ in range(chance.randint(2, 10)):
        walk.step(walk.now(), walk.message())
    twins = Twins(chance, walk.account)
    for _ in range(CHANGES):
        twin = twins.twin()
        fault = twin and comparison.twin_fault(walk, twin)
        if fault:
            return fault
    return None


# What each wrong definition does, what it puts in the place of which part, and whether it leaves something out.
WRONG_STATES = [
    ("a state without the call of a request that was replied to", {"replied_to": forgets_call}, True),
    ("a state without versions of sessions", {"opened_by": forgets_version}, True),
    ("a state without limits", {"limit_of": forgets_limit}, True),
    ("an open list that keeps a stopped request", {"stopped": keeps_stopped}, False),
]
WAYS = {"the formulas": by_formulas, "its steps": by_steps, "accounts with one state": by_twins}


@contextmanager
def defined_by(parts):
    """Within it states are made by these parts."""
    kept = {name: getattr(state_after, name) for name in parts}
    vars(state_after).update(parts)
    try:
        yield
    finally:
        vars(state_after).update(kept)


def first_fault(way, walks):
    """What is found in one way within so many walks, if something."""
    comparison = Comparison(0)
    faults = ((walk, way(comparison, random.Random(walk))) for walk in range(walks))
    return next((f"walk {walk}: {fault}" for walk, fault in faults if fault), None)


def wrong_state_faults():
    """Each wrong definition by its name and how it is looked at, with that it was not found, if it was not. The right
    one, looked at in the same ways, must have no fault."""
    for what, way in WAYS.items():
        yield f"the right state, by {what}", first_fault(way, RIGHT_WALKS)
    for name, parts, leaves_out in WRONG_STATES:
        with defined_by(parts):
            ways = [what for what in WAYS if leaves_out or WAYS[what] is not by_twins]
            found = {what: first_fault(WAYS[what], WALKS) for what in ways}
        yield from ((f"{name}, by {what}", None if fault else "it was not found") for what, fault in found.items())
