"""What the end of a call is to its caller: its result, or the exception that says what is known."""
from __future__ import annotations

import time
from typing import Callable, List, Optional, Tuple, TypeVar, cast

from . import errors, machine as m, replies
from .course import Job
from .replies import Counted, Outcome, Receipt

Result = TypeVar("Result")


def ending(job: Job, result: Callable[[Outcome], Result]) -> Tuple[Optional[Result], Optional[Exception]]:
    """The result of a job that has ended, or its exception. Whoever asks for the outcome itself gets each of them."""
    if job.misused:
        return None, errors.Misused(job.misused)
    outcome, fault = known_of(job)
    if outcome is not None and fault is None and result is not itself:
        fault = ended_without(job, outcome)
    return None if outcome is None or fault is not None else result(outcome), fault


def ended_without(job: Job, outcome: Outcome) -> Optional[errors.RendezvousError]:
    """The exception of an outcome that is no result: it was cancelled, or nobody came to the exchanger. A cancel that the
    call's own time ordered is that nobody came in time, where the call waits for somebody: a put does not."""
    waits = job.call is not None and "wait" in job.call
    late = waits and not job.cancelled and time.monotonic() >= job.cancel_at
    if isinstance(outcome, replies.Cancelled) and not late:
        return errors.Cancelled(outcome.key)
    swaps = job.call is not None and job.call["call"] == "swap"
    return errors.TimedOut(outcome.key) if swaps and not isinstance(outcome, replies.Swapped) else None


def known_of(job: Job) -> Tuple[Optional[Outcome], Optional[errors.RendezvousError]]:
    """The outcome of a job, or the exception that says what is known; both where the outcome could not be recorded."""
    told = job.told
    if isinstance(told, m.Settled):
        return told.outcome, job.unrecorded
    if isinstance(told, m.Unsettled):
        return None, errors.Unsettled(told.key, told.accepted, job.fault)
    if isinstance(told, m.NotAsked):
        return None, errors.Cancelled(None) if job.cancelled else errors.NotAsked(None, job.fault)
    if isinstance(told, m.Full):
        return None, errors.Full(told.key)
    if isinstance(told, m.Refused):
        return None, errors.Refused(told.key, told.code, told.current, meaning(told))
    if isinstance(told, m.EpochEnded):
        return None, errors.NotAsked(told.key, "", told.current) if told.unmet else errors.EpochEnded(told.key, told.current)
    if isinstance(told, m.Replaced):
        return None, errors.Replaced(told.key, told.current)
    return None, None


def meaning(refused: m.Refused) -> str:
    """What a refusal means, where its name alone doesn't say it."""
    if refused.code == 12:
        return f": the client's session in this incarnation speaks {refused.current}"
    if refused.code == 1 and refused.key is None:
        return ": a server that knows version 1 alone refuses a hello of version 2"
    if refused.code in (5, 6, 7):
        return ": another process uses this client and incarnation"
    return ""


# ---- results

def nothing(_: Outcome) -> None:
    """What a call gives that only has to end."""


def itself(outcome: Outcome) -> Outcome:
    """What a request that was asked again came to."""
    return outcome


def receipt_if_any(outcome: Outcome) -> Optional[Receipt]:
    """The receipt of a transfer, where it was received."""
    return outcome if isinstance(outcome, Receipt) else None


def receipt_of(outcome: Outcome) -> Receipt:
    """The receipt of a transfer that was received."""
    return cast(Receipt, outcome)


def item_if_any(outcome: Outcome) -> Optional[str]:
    """The item of an outcome that has one."""
    return outcome.item if isinstance(outcome, (replies.Item, replies.Swapped, replies.Peeked)) else None


def item_of(outcome: Outcome) -> str:
    """The item of a take or of a swap."""
    return cast(str, item_if_any(outcome))


def items_of(outcome: Outcome) -> List[str]:
    """The items of a drain."""
    return list(cast(replies.Drained, outcome).items)


def counts_of(outcome: Outcome) -> Counted:
    """What a count told."""
    return cast(Counted, outcome)
