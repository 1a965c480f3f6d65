"""What a session is shown as: its address, client and epoch, and what runs."""
from __future__ import annotations

from typing import Optional

from .bodies import Members
from .course import Course, Job
from .machine import State

# The methods that ask a call: one that waits as long as it takes, and one that waits for a time or not at all.
METHODS = {"take": ("take", "poll"), "transfer": ("transfer", "try_transfer"), "swap": ("exchange", "exchange")}


def shown(kind: str, course: Optional[Course], closed: bool, job: Optional[Job]) -> str:
    """What a session of this kind is shown as. `course` is None where it was never made, `job` where nothing runs."""
    if course is None:
        return f"<rendezvous.{kind} not made>"
    machine = course.machine
    epoch = f" epoch {machine.key.epoch}" if machine.key else ""
    return f"<rendezvous.{kind} {course.server} client {course.name.client}{epoch} {state(course, closed, job)}>"


def state(course: Course, closed: bool, job: Optional[Job]) -> str:
    """What it does, or can do."""
    machine = course.machine
    if closed:
        return "closed"
    if job is not None and not job.over:
        return f"running {method(job.asked or machine.call)}"
    if machine.state is State.OUTSTANDING and machine.call is not None:
        return f"unsettled {method(machine.call)}"
    return {State.NEW: "before its welcome", State.ENDED: "ended"}.get(machine.state, "idle")


def method(call: Optional[Members]) -> str:
    """The method that asks a call, and where."""
    if call is None:
        return "connect()"
    waits, else_ = METHODS.get(call["call"], (call["call"], call["call"]))
    name = waits if call.get("wait") == "forever" else else_
    return f"{name}({call.get('queue', call.get('exchanger'))})"
