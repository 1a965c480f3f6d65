"""Hubs that do one thing wrong, made of the model's by a change. Random events, or a worked row, must find each."""
import random
from collections.abc import Iterable, Iterator
from dataclasses import dataclass
from functools import cache
from itertools import islice

from tests.model.account import Key
from tests.model.hub import Hub
from tests.model.hub_connection import Answer, Connection, Wait
from tests.model.hub_events import Came, Event, Terms
from tests.model.hub_lines import Told, told
from tests.model.hub_rows import ROWS, hub_row_faults
from tests.model.hub_scripts import HubScript
from tests.model.steps import refused, replied
from tests.model.texts import written

# How many random scripts a wrong hub has, at most, and how many events each.
SCRIPTS, EVENTS = 300, 80


class AnswersAnother(Hub):
    """An answer goes to another connection now and then: that of the lowest number."""

    def give(self, number: int, members: dict) -> None:
        super().give(min(self.connections) if members.get("reply") == "item" else number, members)


class SwappingConnection(Connection):
    """The second of two answers stands before the first, where nothing of that is taken."""

    def answer(self, body: bytes, rests_on: int) -> None:
        super().answer(body, rests_on)
        if len(self.answers) == 2 and not self.left:
            self.answers.reverse()


class Swaps(Hub):
    """Two answers are swapped."""

    kind = SwappingConnection


class TellsLater(Hub):
    """Whoever waited is told by the next event alone."""

    def __init__(self, terms: Terms):
        super().__init__(terms)
        self.later: list[Key] = []

    def let_time_pass(self, moment: int) -> None:
        keys, self.later = self.later, []
        super().tell_settled(keys)
        super().let_time_pass(moment)

    def tell_settled(self, keys: Iterable[Key]) -> None:
        self.later += keys


class TellsOne(Hub):
    """Of several connections that wait for one request the first is told."""

    def tell_settled(self, keys: Iterable[Key]) -> None:
        for key in keys:
            for number in [n for n, wait in self.waits().items() if wait.request.key == key][:1]:
                self.tell(number)


class TellsFirst(Hub):
    """Of all whom a tick ends the first is told."""

    def let_time_pass(self, moment: int) -> None:
        self.tells_all = False
        super().let_time_pass(moment)
        self.tells_all = True

    def tell_settled(self, keys: Iterable[Key]) -> None:
        super().tell_settled(keys if self.tells_all else islice(keys, 1))


class RoomyConnection(Connection):
    """A frame is taken while too much is held."""

    @property
    def is_due(self) -> bool:
        return self.has_frame and not self.wait


class TakesTooMuch(Hub):
    """A frame is taken while too much is held."""

    kind = RoomyConnection


class EarlyConnection(Connection):
    """Bytes are handed out before they are written."""

    def ready(self, _: int) -> bytes:
        return super().ready(2**64)


class HandsOutEarly(Hub):
    """Bytes are handed out before they are written."""

    kind = EarlyConnection


class WelcomesEarly(Hub):
    """A welcome is handed out before its hello is written."""

    def give(self, number: int, members: dict) -> None:
        rests_on = 0 if members["kind"] == "welcome" else self.state.length
        self.touch(number).answer(written(members).encode(), rests_on)


class OvertakingConnection(Connection):
    """What rests on nothing is handed out before what stands before it."""

    def answer(self, body: bytes, rests_on: int) -> None:
        super().answer(body, rests_on)
        if not rests_on and len(self.answers) > 1 and not self.left:
            self.answers.rotate(1)


class Overtakes(Hub):
    """What rests on nothing is handed out before what stands before it."""

    kind = OvertakingConnection


class RepeatsRestOnNothing(Hub):
    """An answer that made no entry is handed out before those that were made are written."""

    def give(self, number: int, members: dict) -> None:
        own = any(entry.moment == self.now for entry in self.entries)
        self.touch(number).answer(written(members).encode(), self.state.length if own else 0)


class KeepsAnswers(Hub):
    """What a closed connection's peer had not taken is sent to the next one of its number."""

    def __init__(self, terms: Terms):
        super().__init__(terms)
        self.kept: dict[int, Connection] = {}

    def close(self, number: int) -> None:
        self.kept[number] = self.connections[number]
        super().close(number)

    def open(self) -> int:
        number = super().open()
        if number in self.kept:
            self.connections[number].answers = self.kept[number].answers
            self.connections[number].left = self.kept[number].left
            self.connections[number].held = self.kept[number].held
        return number


class KeepsWaits(KeepsAnswers):
    """What a closed connection waited for is told to the next one of its number."""

    def open(self) -> int:
        number = Hub.open(self)
        if number in self.kept:
            self.connections[number].wait = self.kept[number].wait
        return number


class LosesPieces(Hub):
    """What is left of a piece is lost where its connection goes on later in the same event."""

    def act(self, event: Event) -> None:
        super().act(event)
        self.piece_of = None


class HalfWaitingConnection(Connection):
    """One that waits whose input ended is closed."""

    @property
    def is_finished(self) -> bool:
        over = self.has_bad_length or (self.ended and not self.has_frame)
        return over and not self.held


class ClosesWaiting(Hub):
    """One that waits whose input ended is closed."""

    kind = HalfWaitingConnection


class ClosesUnanswered(Hub):
    """One whose input ended is closed with its answers untaken."""

    def turn(self, number: int) -> None:
        super().turn(number)
        connection = self.connections.get(number)
        if connection and connection.ended and not connection.wait and not connection.has_frame:
            self.close(number)


class NeverCloses(Hub):
    """None is closed but those that are gone."""

    def turn(self, number: int) -> None:
        if number in self.connections:
            self.feed(number)
            while self.connections[number].is_due:
                self.ask(number)
                self.feed(number)


class GoesByNumber(Hub):
    """Those that were told go on by number, in place of the order in which they were told."""

    def turn(self, number: int) -> None:
        super().turn(number)
        ordered = sorted(self.freed)
        self.freed.clear()
        self.freed.extend(ordered)


class FreedFirst(Hub):
    """Those whom time freed go on before the event's connection."""

    def act(self, event: Event) -> None:
        while self.freed:
            self.turn(self.freed.popleft())
        super().act(event)


class SkipsItsTurn(Hub):
    """The event's connection, where time freed it, goes on among those that were freed, in place of before them."""

    def act(self, event: Event) -> None:
        if getattr(event, "connection", None) not in self.freed:
            super().act(event)


class FreedAtOnce(Hub):
    """Whoever is told goes on at once."""

    def tell(self, number: int) -> None:
        super().tell(number)
        self.turn(self.freed.pop())


class TellsBehindTurn(Hub):
    """Whom a connection's steps settled is told when it stops, in place of behind each step."""

    def __init__(self, terms: Terms):
        super().__init__(terms)
        self.turn_of: int | None = None
        self.later: list[Key] = []

    def turn(self, number: int) -> None:
        self.turn_of = number
        super().turn(number)
        self.turn_of, keys, self.later = None, self.later, []
        super().tell_settled(keys)

    def tell_settled(self, keys: Iterable[Key]) -> None:
        if self.turn_of is None:
            super().tell_settled(keys)
        else:
            self.later += keys


class TellsByLatest(Hub):
    """Those that wait for one request are told the one of the greatest number first."""

    def waits(self) -> dict[int, Wait]:
        return dict(reversed(super().waits().items()))


class WaitingSooner(Hub):
    """`waiting` is told a millisecond before it is due."""

    def let_time_pass(self, moment: int) -> None:
        super().let_time_pass(moment)
        for number, wait in self.waits().items():
            if wait.until == self.now + 1:
                self.tell(number)


class WaitingLater(Hub):
    """`waiting` is told a millisecond after it is due."""

    def __init__(self, terms: Terms):
        super().__init__(Terms(terms.limits, terms.patience + 1, terms.has_journal))


class NeverWaiting(Hub):
    """`waiting` is never told."""

    def __init__(self, terms: Terms):
        super().__init__(Terms(terms.limits, 2**64, terms.has_journal))


class WaitingFirst(Hub):
    """`waiting` is told before the reply of the same moment."""

    def let_time_pass(self, moment: int) -> None:
        for number, wait in self.waits().items():
            if wait.until <= moment:
                self.touch(number)
                self.connections[number].wait = None
                self.give(number, replied(wait.request.key, None))
                self.freed.append(number)
        super().let_time_pass(moment)


class AnswersWaiting(Hub):
    """A request that waits is answered so at once."""

    def ask(self, number: int) -> None:
        super().ask(number)
        if self.connections[number].wait:
            self.tell(number)


class CutOffCancelled(Hub):
    """Whoever was cut off by a hello is told that the request was cancelled."""

    def repeated(self, request) -> dict:
        answer = super().repeated(request)
        return replied(request.key, {"reply": "cancelled"}) if answer.get("code") == 4 else answer


class CutOffOldNumber(Hub):
    """Whoever waited is told of an old number."""

    def repeated(self, request) -> dict:
        answer = super().repeated(request)
        return refused(5, last=request.key.number) if answer.get("reply") == "cancelled" else answer


class GoneCancels(Hub):
    """A connection that is gone takes its request out of the book's waiting ones that have no connection."""

    def unheard(self) -> list[Key]:
        return []


class ForgetsLimits(Hub):
    """The next moment is that of a `waiting` alone."""

    @property
    def next_moment(self) -> int | None:
        return min((wait.until for wait in self.waits().values()), default=None)


class ForgetsWaits(Hub):
    """The next moment is that of the book alone."""

    @property
    def next_moment(self) -> int | None:
        return min((there.limit for there in self.state.every_open() if there.limit is not None), default=None)


class TimeFalls(Hub):
    """A moment below the greatest before counts as it is."""

    def let_time_pass(self, moment: int) -> None:
        self.now = max(self.state.moment, min(self.now, moment))
        super().let_time_pass(moment)


class TimeBehind(Hub):
    """Time goes on behind the event, in place of before it."""

    def handle(self, moment: int, event: Event):
        self.handed = moment
        return super().handle(moment, event)

    def let_time_pass(self, moment: int) -> None:
        pass

    def act(self, event: Event) -> None:
        super().act(event)
        super().let_time_pass(self.handed)


class TakesOfAll(Hub):
    """More than one frame of a connection that waits is unread: all of a piece is taken."""

    def feed(self, number: int) -> None:
        super().feed(number)
        if number == self.piece_of and self.connections[number].wait:
            self.piece = b""


class RefusedChanges(Hub):
    """An event that can't be lets time go on."""

    def refusal(self, event: Event):
        why = super().refusal(event)
        self.now += why is not None
        return why


class DoesNothing(Hub):
    """Frames are taken in, and none is answered."""

    def ask(self, number: int) -> None:
        self.touch(number).take_frame()


WRONG = [kind for kind in list(globals().values()) if isinstance(kind, type) and issubclass(kind, Hub) and kind is not Hub]


@dataclass(frozen=True)
class Played:
    """A random script: how its hub begins, and each event at its moment, with what has to be told of it."""

    terms: Terms
    events: list[tuple[int, Event, Told]]

    def finds(self, kind: type[Hub]) -> bool:
        """Whether a wrong hub tells something else."""
        wrong = kind(self.terms)
        return any(not right.is_told_by(told(wrong, wrong.handle(moment, event)).lines()) for moment, event, right in self.events)


@cache
def played(number: int) -> Played:
    """A random script, by its number."""
    script = HubScript(random.Random(f"wrong hubs {number}"))
    steps = (script.step() for _ in range(EVENTS))
    return Played(script.hub.terms, [(moment, event, told(script.hub, outcome)) for moment, event, outcome in steps])


def wrong_hub_faults() -> Iterator[tuple[str, str | None]]:
    """Of each wrong hub, that neither random events nor a worked row find it, if none do."""
    for kind in WRONG:
        found = any(played(number).finds(kind) for number in range(SCRIPTS)) or is_found_in_rows(kind)
        yield kind.__name__, None if found else "neither random events nor a row find it"


def is_found_in_rows(kind: type[Hub]) -> bool:
    """Whether a wrong hub tells something else in a worked row."""
    return any(fault for _, fault in hub_row_faults(tuple(ROWS), kind))
