"""Hubs for which memory is refused once: what they may do then, of which a program must do one."""
from collections.abc import Iterable, Iterator
from enum import Enum

from tests.model.hub import Hub, Outcome
from tests.model.hub_events import Event, Opened, Refusal, Terms
from tests.model.hub_laws import rest_fault
from tests.model.hub_lines import Told, told
from tests.model.steps import refused
from tests.model.texts import NoReading, read_message, written

NO_MEMORY = written(refused(11)).encode()


class Lack(Enum):
    """What comes of it: a message is answered that memory was refused, before its step or behind it; its connection is closed,
    before the step or behind it; or a connection isn't opened."""

    TOLD = "told"
    TOLD_BEHIND = "told behind its step"
    CLOSED = "closed"
    CLOSED_BEHIND = "closed behind its step"
    NOT_OPENED = "not opened"


class LackingHub(Hub):
    """A hub for which the growth of this number is refused, of those that may be refused so. All others of it go on."""

    def __init__(self, terms: Terms, growth: int, lack: Lack):
        super().__init__(terms)
        self.left, self.lack = growth, lack

    def lacks(self, *lacks: Lack) -> bool:
        """Whether it is this growth's turn, which may be refused so."""
        if self.lack not in lacks:
            return False
        self.left -= 1
        return self.left == 0

    def refusal(self, event: Event) -> Refusal | None:
        why = super().refusal(event)
        if isinstance(event, Opened) and self.lacks(Lack.NOT_OPENED):
            return Refusal.NO_MEMORY
        return why

    def feed(self, number: int) -> None:
        if number == self.piece_of and number in self.connections and self.piece and self.lacks(Lack.CLOSED):
            self.close(number)
        elif number in self.connections:
            super().feed(number)

    def turn(self, number: int) -> None:
        self.feed(number)
        while number in self.connections and self.connections[number].is_due:
            self.ask(number)
            self.feed(number)
        if number in self.connections and self.connections[number].is_finished:
            self.close(number)

    def ask(self, number: int) -> None:
        if self.lacks(Lack.TOLD):
            self.touch(number).take_frame()
            self.connections[number].answer(NO_MEMORY, 0)
        elif self.lacks(Lack.CLOSED):
            self.close(number)
        elif self.lacks(Lack.TOLD_BEHIND, Lack.CLOSED_BEHIND):
            self.ask_in_vain(number)
        else:
            super().ask(number)

    def ask_in_vain(self, number: int) -> None:
        """The step of a message is made, for whose answer or wait there is no room; all are told whom it settled."""
        try:
            settled = self.hear(read_message(self.touch(number).take_frame())).settled
        except NoReading:
            settled = ()
        if self.lack == Lack.CLOSED_BEHIND:
            self.close(number)
        else:
            self.connections[number].answer(NO_MEMORY, 0)
        self.tell_settled(key for key, _ in settled)

    def tell(self, number: int) -> None:
        if self.lacks(Lack.TOLD):
            self.touch(number).wait = None
            self.connections[number].answer(NO_MEMORY, 0)
            self.freed.append(number)
        elif self.lacks(Lack.CLOSED):
            self.close(number)
        else:
            super().tell(number)


def told_by(hub: Hub, events: Iterable[tuple[int, Event]]) -> list[Told]:
    """What a hub tells of events."""
    outcomes: Iterator[Outcome | Refusal] = (hub.handle(moment, event) for moment, event in events)
    return [told(hub, outcome) for outcome in outcomes]


def lacking_fault(terms: Terms, events: list[tuple[int, Event]]) -> str | None:
    """What isn't as it has to be behind an event of a hub for which one growth is refused, if something isn't."""
    for lack in Lack:
        growth, hub = 1, LackingHub(terms, 1, lack)
        while fault_behind(hub, events) is None and hub.left <= 0:
            growth += 1
            hub = LackingHub(terms, growth, lack)
        if fault := rest_fault(hub):
            return f"{lack.value}, growth {growth}: {fault}"
    return None


def fault_behind(hub: Hub, events: list[tuple[int, Event]]) -> str | None:
    """What isn't as it has to be behind the first event of a hub where something isn't."""
    return next((fault for event in events if hub.handle(*event) and (fault := rest_fault(hub))), None)


def lacking_tellings(terms: Terms, events: list[tuple[int, Event]]) -> Iterator[list[Told]]:
    """What may be told of events where one growth is refused."""
    for lack in Lack:
        growth, hub = 1, LackingHub(terms, 1, lack)
        telling = told_by(hub, events)
        while hub.left <= 0:
            yield telling
            growth += 1
            hub = LackingHub(terms, growth, lack)
            telling = told_by(hub, events)
