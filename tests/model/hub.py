"""A hub: thousands of connections over one book, without threads, clocks or sockets.

Each event does its own deed, by which no frame is answered, and lets time go on. Then the frames of its connection are answered
one by one, and behind each step whoever it settled is told before the next step; then those go on that were told, in that
order.
"""
from collections import deque
from collections.abc import Iterable
from dataclasses import dataclass

from tests.model.account import MAX_MOMENT, Cancel, Entry, Hello, Key, Request, Tick
from tests.model.hub_connection import Connection, View, Wait
from tests.model.hub_events import Came, Ended, Event, Gone, Opened, Passed, Refusal, Terms, Took, Written
from tests.model.state import State
from tests.model.state_after import followed_by
from tests.model.state_steps import Step, step
from tests.model.steps import refused
from tests.model.texts import NoReading, read_message, written

# The epoch of a hub's book, which begins at moment 0.
EPOCH = 1
BAD_TEXT = written(refused(1)).encode()


@dataclass(frozen=True)
class Outcome:
    """What came of an event that was taken: the number that a new connection has, or how many bytes of a piece were
    taken, else 0; the entries; the connections whose bytes to hand out, right to offer or end changed, as they are now, of
    one that is closed nothing; and the others that something was done to."""

    result: int
    entries: tuple[Entry, ...]
    changed: dict[int, View | None]
    others: dict[int, View | None]


class Hub:
    """A hub over the book of an epoch without entries."""

    # What an open connection is.
    kind = Connection

    def __init__(self, terms: Terms):
        self.terms = terms
        self.state = State(EPOCH, 0)
        self.now = 0
        self.told_written = 0
        self.connections: dict[int, Connection] = {}
        self.free_numbers: list[int] = []
        # Of the event that is being taken: those that were told, what is left of its piece and whose that is, its
        # entries, and what was seen before of the connections that may have changed.
        self.freed: deque[int] = deque()
        self.piece = b""
        self.piece_of: int | None = None
        self.entries: list[Entry] = []
        self.before: dict[int, View | None] = {}

    def handle(self, moment: int, event: Event) -> Outcome | Refusal:
        """Takes an event at a moment, or tells why it can't be; then nothing changes."""
        if refusal := self.refusal(event):
            return refusal
        self.entries, self.before = [], {}
        self.piece, self.piece_of = b"", None
        result = self.deed(event)
        self.let_time_pass(moment)
        self.act(event)
        while self.freed:
            self.turn(self.freed.popleft())
        if isinstance(event, Came):
            result = len(event.piece) - len(self.piece)
        return Outcome(result, tuple(self.entries), *self.changes())

    # ---- what is asked of it

    @property
    def written(self) -> int:
        """How many entries are written: all, where no journal is kept."""
        return self.told_written if self.terms.has_journal else self.state.length

    @property
    def held(self) -> int:
        """How many bytes of answers are held in all."""
        return sum(connection.held for connection in self.connections.values())

    @property
    def next_moment(self) -> int | None:
        """The next moment at which time has to go on."""
        limits = [there.limit for there in self.state.every_open() if there.limit is not None]
        return min((*limits, *(wait.until for wait in self.waits().values())), default=None)

    def unheard(self) -> list[Key]:
        """The requests that wait without a connection that waits for them, by client."""
        heard = {wait.request.key for wait in self.waits().values()}
        return sorted((there.key for there in self.state.waiting() if there.key not in heard), key=lambda key: key.client)

    def waits(self) -> dict[int, Wait]:
        """What each connection waits for that does, by number."""
        return {number: connection.wait for number, connection in sorted(self.connections.items()) if connection.wait}

    def view(self, number: int) -> View | None:
        """What is seen of a connection, if it is open."""
        connection = self.connections.get(number)
        return connection.view(self.written) if connection else None

    def views(self) -> dict[int, View]:
        """What is seen of all open connections, by number."""
        return {number: connection.view(self.written) for number, connection in sorted(self.connections.items())}

    # ---- events

    def refusal(self, event: Event) -> Refusal | None:
        """Why an event can't be, if it can't."""
        match event:
            case Opened() | Passed():
                return None
            case Written(entries):
                return self.refusal_of_written(entries)
        connection = self.connections.get(event.connection)
        if connection is None:
            return Refusal.NOT_OPEN
        if isinstance(event, Took):
            return Refusal.NOT_OFFERED if event.count > len(connection.ready(self.written)) else None
        return Refusal.HAS_ENDED if connection.ended and not isinstance(event, Gone) else None

    def refusal_of_written(self, entries: int) -> Refusal | None:
        """Why so many entries can't be written, if they can't."""
        if entries < self.written:
            return Refusal.FALLS
        return Refusal.NOT_MADE if entries > self.state.length else None

    def deed(self, event: Event) -> int:
        """What the event itself does, before time goes on: no frame is answered by it."""
        match event:
            case Opened():
                return self.open()
            case Came(number, piece):
                self.piece, self.piece_of = piece, number
            case Ended(number):
                self.touch(number).ended = True
            case Gone(number):
                self.close(number)
            case Took(number, count):
                self.touch(number).took(count)
            case Written(entries):
                self.touch_all(self.connections)
                self.told_written = entries
        return 0

    def act(self, event: Event) -> None:
        """The event's connection goes on until it stops."""
        if isinstance(event, Came | Ended | Took):
            self.turn(event.connection)

    def open(self) -> int:
        """Opens a connection, of the number that was let go last, or the next that there never was."""
        number = self.free_numbers.pop() if self.free_numbers else len(self.connections)
        self.before.setdefault(number, None)
        self.connections[number] = self.kind()
        return number

    def close(self, number: int) -> None:
        """Closes a connection. Its request goes on waiting in the book."""
        self.touch(number)
        del self.connections[number]
        self.free_numbers.append(number)

    def let_time_pass(self, moment: int) -> None:
        """Time goes on: whom that ends is told, and then whoever has waited as long as one may."""
        self.now = max(self.now, min(moment, MAX_MOMENT))
        if self.state.due(self.now):
            tick = Entry(self.now, Tick())
            made = followed_by(self.state, tick)
            self.state = made.state
            self.entries.append(tick)
            self.tell_settled(key for key, _ in made.settled)
        overdue = [(wait.until, number) for number, wait in self.waits().items() if wait.until <= self.now]
        for _, number in sorted(overdue):
            self.tell(number)

    # ---- frames

    def turn(self, number: int) -> None:
        """A connection goes on until it stops."""
        if number not in self.connections:
            return
        self.feed(number)
        while self.connections[number].is_due:
            self.ask(number)
            self.feed(number)
        if self.connections[number].is_finished:
            self.close(number)

    def feed(self, number: int) -> None:
        """The connection takes of the event's piece, if that is its own."""
        if number == self.piece_of:
            count = self.touch(number).take_in(self.piece)
            self.piece = self.piece[count:]

    def ask(self, number: int) -> None:
        """The frame of a connection that is due is answered, or waits; then all are told whom its step settled."""
        connection = self.touch(number)
        try:
            message = read_message(connection.take_frame())
        except NoReading:
            connection.answer(BAD_TEXT, 0)
            return
        made = self.hear(message)
        if made.answer["kind"] == "waiting":
            connection.wait = Wait(message, self.now + self.terms.patience)
        else:
            self.give(number, made.answer)
        self.tell_settled(key for key, _ in made.settled)

    def hear(self, message: Hello | Request | Cancel) -> Step:
        """Makes the step of a message."""
        made = step(self.state, self.now, message, self.terms.limits)
        self.state = made.state
        self.entries += made.entries
        return made

    def tell_settled(self, keys: Iterable[Key]) -> None:
        """All that wait for one of these requests are told, those of one request by number."""
        for key in keys:
            for number, wait in self.waits().items():
                if wait.request.key == key:
                    self.tell(number)

    def tell(self, number: int) -> None:
        """A connection that waits is told what a repeat of its request would be, and waits no more."""
        connection = self.touch(number)
        wait, connection.wait = connection.wait, None
        assert wait
        self.give(number, self.repeated(wait.request))
        self.freed.append(number)

    def repeated(self, request: Request) -> dict:
        """What a repeat of a request is told, which makes no entry."""
        return step(self.state, self.now, request, self.terms.limits).answer

    def give(self, number: int, members: dict) -> None:
        """A connection gets the answer to a step, which rests on all entries so far."""
        self.touch(number).answer(written(members).encode(), self.state.length)

    # ---- what changed

    def touch(self, number: int) -> Connection:
        """A connection that may change now."""
        self.touch_all([number])
        return self.connections[number]

    def touch_all(self, numbers: Iterable[int]) -> None:
        """Notes what is seen of these connections, before the first change of each."""
        for number in numbers:
            if number not in self.before:
                self.before[number] = self.view(number)

    def changes(self) -> tuple[dict[int, View | None], dict[int, View | None]]:
        """The connections whose bytes to hand out, right to offer or end changed, and the others that were touched."""
        changed: dict[int, View | None] = {}
        others: dict[int, View | None] = {}
        for number, before in sorted(self.before.items()):
            view = self.view(number)
            which = others if seen(view) == seen(before) else changed
            which[number] = view
        return changed, others


def seen(view: View | None) -> tuple[bool, bytes] | None:
    """What a host acts by."""
    return (view.may_offer, view.ready) if view else None
