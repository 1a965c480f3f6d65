"""The nine clauses of the headline across crashes (docs/MODEL.md, "Across crashes"), each by brute force over a world."""
from __future__ import annotations

from collections.abc import Callable, Iterator

from tests.model.account import Account, Tick
from tests.model.crash_world import NO_MEMORY, CrashWorld, Message, sender
from tests.model.limits import Limits
from tests.model.state import State
from tests.model.state_after import followed_by
from tests.model.state_steps import step
from tests.model.world import World, after_a_no, disorder, growth_fault, illegal, two_replies, unassigned

# Refused so, a client that keeps the protocol would have been forgotten.
FORGETS = (3, 6, 7, 8, 12)


def no_two_replies(crash: CrashWorld) -> str | None:
    return two_replies(crash.stored_world())


def legal_accounts(crash: CrashWorld) -> str | None:
    """An account that isn't legal, an arrival that nobody asked for, or two accounts of one epoch."""
    made = crash.made_world()
    epochs = [account.epoch for account in made.accounts]
    return "two accounts of one epoch" if len(set(epochs)) < len(epochs) else illegal(made)


def received_means_assigned(crash: CrashWorld) -> str | None:
    return unassigned(with_replies(crash.stored_world(), "swapped", False))


def true_exchange(crash: CrashWorld) -> str | None:
    return unassigned(with_replies(crash.stored_world(), "swapped", True))


def never_handed_over(crash: CrashWorld) -> str | None:
    """An arrival that was answered a no, then or earlier, and is met in what was made since."""
    return after_a_no(crash.made_world())


def order_of_arrival(crash: CrashWorld) -> str | None:
    return disorder(crash.made_world())


def every_answer(crash: CrashWorld) -> str | None:
    """An answer that was sent, and is none of a step with a message of its client between two fronts of what is stored."""
    stored = crash.stored_world()
    told = {account.epoch: answers_of_steps(stored, account, crash.limits) for account in stored.accounts}
    for client, answer in stored.to_client:
        if answer != NO_MEMORY and not any((client, text_of(answer)) in answers for answers in told.values()):
            return f"client {client} was answered {answer}"
    return None


def nobody_is_forgotten(crash: CrashWorld) -> str | None:
    return next((f"client {client} was answered {answer}" for client, answer in crash.around.to_client
                 if answer.get("code") in FORGETS), None)


# All of them but that of growth, which speaks of two worlds.
CLAUSES: list[Callable[[CrashWorld], str | None]] = [
    no_two_replies, legal_accounts, received_means_assigned, never_handed_over, order_of_arrival, true_exchange, every_answer,
    nobody_is_forgotten]


def only_growth(before: tuple, crash: CrashWorld) -> str | None:
    """What the stored world has lost of what it had."""
    return growth_fault(before, crash.stored_world())


def faults(crash: CrashWorld, before: tuple | None = None) -> dict[str, str]:
    """The clauses that are broken, by name, each with how; growth since `before`, where that is given."""
    found = {clause.__name__: clause(crash) for clause in CLAUSES}
    if before is not None:
        found[only_growth.__name__] = only_growth(before, crash)
    return {name: fault for name, fault in found.items() if fault}


def with_replies(world: World, word: str, are: bool) -> World:
    """A world of whose answered replies only those with this word are left, or only the others."""
    left = [(client, answer) for client, answer in world.to_client if (answer.get("reply") == word) == are]
    return World(world.accounts, world.started, world.processes, world.asked, world.held, world.to_server, left, world.waits)


def text_of(answer: dict) -> str:
    """An answer as a text that can be looked up."""
    return repr(sorted(answer.items()))


def answers_of_steps(world: World, account: Account, limits: Limits) -> set[tuple[int, str]]:
    """Who is answered what by a step with a message that was sent, between two fronts of an account."""
    messages = {repr(message): message for message in world.to_server}.values()
    return {(sender(message), text_of(answer)) for state, following in fronts(account) for message in messages
            for answer in answers_between(state, following, message, limits)}


def fronts(account: Account) -> Iterator[tuple[State, tuple]]:
    """The state of each front, with the entries after it."""
    state = State(account.epoch, account.opened)
    yield state, account.entries
    for place, entry in enumerate(account.entries, 1):
        state = followed_by(state, entry).state
        yield state, account.entries[place:]


def answers_between(state: State, following: tuple, message: Message, limits: Limits) -> Iterator[dict]:
    """The answers of the steps with a message that make none of the following entries, or the first one or two."""
    moments = {state.moment, *(entry.moment for entry in following[:1])}
    for moment in moments:
        made = step(state, moment, message, limits)
        if made.entries == following[: len(made.entries)]:
            yield made.answer
        elif made.entries and isinstance(made.entries[0].act, Tick) and made.entries[:1] == following[:1]:
            # the tick alone, where memory was lacking for the own entry
            yield NO_MEMORY
