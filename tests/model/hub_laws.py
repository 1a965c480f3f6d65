"""What must hold of the model's own hub behind random events, seen by what came and what was handed out, and by accounts."""
import random
from dataclasses import dataclass

from tests.model.account import Account, Cancel, Entry, Hello, Key, Request, reply
from tests.model.answers import read_answer
from tests.model.audit import audit
from tests.model.hub import EPOCH, Hub, Outcome
from tests.model.hub_connection import Connection
from tests.model.hub_events import Came, Event, Opened, Refusal, Terms, Took
from tests.model.hub_scripts import HubScript
from tests.model.state_steps import Step
from tests.model.steps import refused, step, ticked
from tests.model.texts import KEY, NoReading, read_message


@dataclass(frozen=True)
class Made:
    """A step, or only that time went on: its moment, and the message and what that was answered."""

    moment: int
    message: Hello | Request | Cancel | None = None
    answer: dict | None = None


class Traced(Hub):
    """A hub that keeps the steps of its book, in their order."""

    def __init__(self, terms: Terms):
        super().__init__(terms)
        self.steps: list[Made] = []

    def let_time_pass(self, moment: int) -> None:
        super().let_time_pass(moment)
        self.steps.append(Made(self.now))

    def hear(self, message: Hello | Request | Cancel) -> Step:
        made = super().hear(message)
        self.steps.append(Made(self.now, message, made.answer))
        return made


@dataclass
class Peer:
    """What came of a connection, and what its peer took; and behind the last event, if it is open, what is held for it, and
    how many of its whole frames aren't answered."""

    came: bytes = b""
    took: bytes = b""
    held: bytes = b""
    lacking: int | None = None


class Record:
    """The peers of all connections that there ever were, those that are open by their number, and all entries."""

    def __init__(self) -> None:
        self.peers: list[Peer] = []
        self.open: dict[int, Peer] = {}
        self.entries: tuple[Entry, ...] = ()

    def note(self, event: Event, outcome: Outcome, ready: bytes) -> None:
        """One event more, before which these bytes were ready on its connection."""
        self.entries += outcome.entries
        match event:
            case Opened():
                self.open[outcome.result] = Peer()
                self.peers.append(self.open[outcome.result])
            case Came(number, piece):
                self.open[number].came += piece[: outcome.result]
            case Took(number, count):
                self.open[number].took += ready[:count]

    def end(self, connections: dict[int, Connection]) -> None:
        """What is held for those that are open behind the last event."""
        for number, connection in connections.items():
            self.open[number].held = connection.ready(2**64)
            self.open[number].lacking = (connection.wait is not None) + connection.has_frame


def frames_of(octets: bytes) -> list[bytes]:
    """The bodies of the whole frames that bytes begin with."""
    bodies = []
    while len(octets) >= 2 and 0 < int.from_bytes(octets[:2]) <= len(octets) - 2:
        size = 2 + int.from_bytes(octets[:2])
        bodies.append(octets[2:size])
        octets = octets[size:]
    return bodies


def rest_fault(hub: Hub) -> str | None:
    """What isn't as it has to be behind an event, if something isn't."""
    for number, connection in hub.connections.items():
        if connection.is_due or connection.is_finished:
            return f"connection {number} has something left to do"
        if connection.held > 131_071:
            return f"too much is held for connection {number}"
        wait = connection.wait
        there = hub.state.waiting_of(wait.request.key.client) if wait else None
        if wait and (there is None or there.key != wait.request.key or wait.until <= hub.now):
            return f"connection {number} waits for what is over, or too long"
    return "somebody was told and didn't go on" if hub.freed else None


def answers_fault(peer: Peer, entries: tuple[Entry, ...]) -> str | None:
    """What is wrong with what a peer was handed out, or is held for it, if something is: it has to be the answers of the first
    of its frames, where it is open of all but those that wait, and each reply its key's in the account."""
    frames, answers = frames_of(peer.came), frames_of(peer.took + peer.held)
    lacking = len(frames) - len(answers)
    if lacking < 0 or peer.lacking not in (None, lacking):
        return f"{len(frames)} frames have {len(answers)} answers"
    for frame, body in zip(frames, answers):
        if not is_answer(frame, read_answer(body), entries):
            return f"{body!r} is told to {frame!r}"
    return None


def is_answer(frame: bytes, answer: dict, entries: tuple[Entry, ...]) -> bool:
    """Whether an answer may be that of a frame."""
    try:
        message = read_message(frame)
    except NoReading:
        return answer == refused(1)
    if answer["kind"] == "refused":
        return answer["code"] not in (1, 11)
    if isinstance(message, Hello):
        return answer["kind"] == "welcome" and answer["client"] == message.client
    if {name: answer.get(name) for name in KEY} != vars(message.key):
        return False
    told = {name: value for name, value in answer.items() if name not in ("kind", *KEY)}
    return answer["kind"] == "waiting" or told == reply(entries, message.key)


def book_fault(hub: Traced, entries: tuple[Entry, ...]) -> str | None:
    """What of the hub's steps isn't one run of an account's, if something isn't."""
    account = Account(EPOCH, 0)
    for made in hub.steps:
        if made.message is None:
            account = ticked(account, made.moment)
            continue
        account, answer = step(account, made.moment, made.message, hub.terms.limits)
        if answer != made.answer:
            return f"{made.message} is answered {made.answer} in place of {answer}"
    return None if account.entries == entries else "the entries are others than those of its steps"


def hub_fault(chance: random.Random, events: int) -> str | None:
    """What is wrong with a random hub, if something is."""
    script, record = HubScript(chance, Traced), Record()
    for _ in range(events):
        ready = {number: connection.ready(script.hub.written) for number, connection in script.hub.connections.items()}
        _, event, outcome = script.step()
        if isinstance(outcome, Refusal):
            continue
        record.note(event, outcome, ready.get(event.connection, b"") if isinstance(event, Took) else b"")
        if fault := rest_fault(script.hub):
            return fault
    record.end(script.hub.connections)
    faults = (answers_fault(peer, record.entries) for peer in record.peers)
    account = Account(EPOCH, 0, record.entries)
    assert isinstance(script.hub, Traced)
    return next(filter(None, faults), None) or book_fault(script.hub, record.entries) or audit(account)
