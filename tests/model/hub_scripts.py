"""Random events of a hub, good ones and some that can't be, with what the model tells of each."""
import random
from collections import deque
from collections.abc import Callable
from dataclasses import dataclass

from tests.model.account import MAX_MOMENT
from tests.model.bounded import SMALL
from tests.model.hub import Hub, Outcome
from tests.model.hub_events import Came, Ended, Event, Gone, Opened, Passed, Refusal, Terms, Took, Written
from tests.model.hub_lines import SHOW, Told, event_line, shown, told
from tests.model.hub_talk import LONG_ITEM, MANY_PEEKS, Talk
from tests.model.limits import BOOK, Limits
from tests.model.scripts import PACES

SIZES = [1, 2, 3, 3, 5, 5, 10, 30, 200]
PATIENCES = [1, 3, 20, 500, 10_000]
LIMITS = [BOOK, BOOK, SMALL, Limits(2**53 - 1, 65_536, 100_000)]
# The greatest moment that a line tells.
MOST_TOLD = 10**19 - 1
# More connections than a script has.
NO_NUMBER = 100_000
LEAPS = [0, 10_000, 86_400_000, MAX_MOMENT - 1, MAX_MOMENT, MAX_MOMENT + 1, MOST_TOLD]


@dataclass
class Peer:
    """The peer of an open connection: for whom it mostly speaks, and what it said that isn't taken yet."""

    client: int
    said: bytes = b""


@dataclass(frozen=True)
class Line:
    """A line for the driver, and what it has to tell of it."""

    line: bytes
    told: Told


@dataclass(frozen=True)
class Script:
    """How a hub begins, and its lines."""

    terms: Terms
    lines: list[Line]


class HubScript:
    """One hub's events. What comes next is chosen by what the hub of the model is so far."""

    def __init__(self, chance: random.Random, kind: type[Hub] = Hub):
        self.chance = chance
        limits, patience = chance.choice(LIMITS), chance.choice(PATIENCES)
        self.hub = kind(Terms(limits, patience, chance.random() < 0.6))
        self.size = chance.choice(SIZES)
        self.talk = Talk(chance, self.hub, chance.choice([2, 3, 5, max(5, self.size), max(5, self.size)]))
        self.peers: dict[int, Peer] = {}
        # The next events, of a scene that has begun: meanwhile no time goes on.
        self.plan: deque[Callable[[], Event]] = deque()
        self.now = 0
        self.pace = chance.choice(PACES)
        self.leaps, self.hunger = chance.random() < 0.05, chance.choice([0, 1, 4])
        # How eagerly peers take what is offered, and how late it is told that entries are written.
        self.thirst, self.delay = chance.choice([0.02, 0.3, 1]), chance.choice([0, 0.5, 0.95])
        self.ends, self.scenes = chance.choice([0.1, 0.5, 2]), chance.choice([0, 0.1, 0.4])

    def odds(self, likelihood: float) -> bool:
        """True so often."""
        return self.chance.random() < likelihood

    def line(self) -> Line:
        """One event more, or now and then a look at all connections."""
        if self.odds(0.02):
            return Line(SHOW, shown(self.hub))
        moment, event, outcome = self.step()
        return Line(event_line(moment, event), told(self.hub, outcome))

    def step(self) -> tuple[int, Event, Outcome | Refusal]:
        """One event more at its moment, and what comes of it."""
        moment, event = self.planned() if self.plan else (self.moment(), self.event())
        outcome = self.hub.handle(moment, event)
        self.follow(event, outcome)
        return moment, event, outcome

    def follow(self, event: Event, outcome: Outcome | Refusal) -> None:
        """The peers, behind an event."""
        if isinstance(outcome, Refusal):
            return
        match event:
            case Opened():
                self.peers[outcome.result] = Peer(self.chance.choice(self.talk.clients))
            case Came(number, _):
                self.peers[number].said = self.peers[number].said[outcome.result :]
        self.peers = {number: peer for number, peer in self.peers.items() if number in self.hub.connections}
        busy = {peer.client for number, peer in self.peers.items() if peer.said or self.hub.connections[number].unread}
        for client in {*self.talk.clients} - busy:
            self.talk.forget(client)

    # ---- moments

    def moment(self) -> int:
        """A moment: it rises a little, stays, falls, leaps, or is the next at which time has to go on, or beside it."""
        self.now = max(0, self.now + self.chance.choice(self.pace))
        if self.odds(0.08) and self.hub.next_moment is not None:
            self.now = max(0, self.hub.next_moment + self.chance.choice([-1, 0, 0, 1]))
        if self.leaps and self.odds(0.02):
            self.now = self.chance.choice(LEAPS)
        return min(self.now, MOST_TOLD)

    # ---- scenes

    def planned(self) -> tuple[int, Event]:
        """The next event of a scene. Time goes on behind it up to the next moment at which it has to."""
        event = self.plan.popleft()()
        if isinstance(event, Passed) and self.hub.next_moment is not None:
            self.now = max(self.now, self.hub.next_moment)
        return min(self.now, MOST_TOLD), event

    def scene(self) -> Event:
        """The first event of a scene, whose others are planned."""
        kinds = [self.end_together, self.wait_for_one, self.answer_each_other, self.fill]
        self.chance.choices(kinds, [3, 3, 3, self.hunger])[0]()
        return Passed() if not self.plan else self.plan.popleft()()

    def some_peers(self, most: int) -> list[int]:
        """Some connections that may offer, and of which nothing is on its way."""
        free = [n for n in self.peers if self.hub.connections[n].may_offer and not self.hub.connections[n].unread]
        for number in free:
            self.peers[number].said = b""
        return self.chance.sample(free, min(len(free), most))

    def says(self, number: int, octets: bytes) -> None:
        """A peer says something, which is to come next."""
        self.peers[number].said += octets
        self.plan.append(lambda: Came(number, self.peers[number].said) if number in self.peers else Passed())

    def end_together(self) -> None:
        """Requests of several clients time out at one moment."""
        clients = self.chance.sample(self.talk.clients, min(len(self.talk.clients), 6))
        for number, client in zip(self.some_peers(6), clients):
            take = self.talk.take(self.chance.randrange(64), self.chance.choice([7, 7, 7, 8]))
            self.says(number, self.talk.asks(client, take) + self.talk.some(client))
        self.plan += [Passed, Passed]

    def wait_for_one(self) -> None:
        """Several connections wait for the same request, and it is met, cancelled, cut off or times out."""
        client, other = self.chance.choice(self.talk.clients), self.chance.choice(self.talk.clients)
        numbers, queue = self.some_peers(5), self.chance.randrange(64)
        waits: list[int | str] = [5, "forever"]
        call = self.talk.take(queue, self.chance.choice(waits))
        asked = self.talk.asks(client, call)
        key = self.talk.last_key(client)
        for at, number in enumerate(numbers):
            octets = self.talk.repeats(key, call) if at else asked
            octets = self.talk.ends(key, other, queue) if 1 < len(numbers) == at + 1 else octets
            self.says(number, octets + self.talk.some(client))
        self.plan.append(Passed)

    def answer_each_other(self) -> None:
        """One lets another go on, whose next request lets it go on in the same event."""
        clients = self.chance.sample(self.talk.clients, min(len(self.talk.clients), 2))
        first, second = self.chance.sample(range(64), 2)
        said = [(self.talk.take(first, "forever"), self.talk.put(second, "a")),
                (self.talk.put(first, "b"), self.talk.take(second, "forever"))]
        for number, client, calls in zip(self.some_peers(2), clients, said):
            self.says(number, self.talk.asks(client, *calls) + self.talk.burst(client))

    def fill(self) -> None:
        """More answers are due on one connection than may be held."""
        for number in self.some_peers(1):
            client, queue = self.chance.choice(self.talk.clients), self.chance.randrange(64)
            calls = [self.talk.put(queue, LONG_ITEM), *([{"call": "peek", "queue": queue}] * MANY_PEEKS)]
            self.says(number, self.talk.asks(client, *calls) + self.talk.some(client))

    # ---- events

    def event(self) -> Event:
        """An event, mostly one that can be."""
        if self.odds(self.scenes):
            return self.scene()
        if len(self.peers) < self.size and self.odds(0.6):
            return Opened()
        if self.odds(0.03) or not self.peers:
            return self.odd_event()
        kinds: list[Callable[[], Event]] = [self.came, self.took, self.written, Passed, self.ended, self.gone]
        return self.chance.choices(kinds, [6, 6 * self.thirst, 2 * (1 - self.delay), 0.5, self.ends, self.ends / 2])[0]()

    def came(self) -> Event:
        """A piece of what a peer says comes, mostly where it may."""
        number = self.one_of([n for n, seen in self.hub.connections.items() if seen.may_offer or self.odds(0.1)])
        if number is None or self.hub.connections[number].ended:
            return self.took()
        peer = self.peers[number]
        if not peer.said or self.odds(0.1):
            peer.said += self.talk.burst(peer.client)
        whole = len(peer.said)
        return Came(number, peer.said[: self.chance.choice([whole, whole, whole, whole // 2, 1, 2, 3, 100])])

    def took(self) -> Event:
        """A peer takes what it is offered, or some of it."""
        number = self.one_of([n for n, seen in self.hub.connections.items() if seen.held])
        if number is None:
            return Passed()
        ready = len(self.ready(number))
        return Took(number, self.chance.choice([ready, ready, ready, ready // 2, min(1, ready)]))

    def written(self) -> Event:
        """Some entries more are written, mostly all."""
        most, least = self.hub.state.length, self.hub.written
        return Written(self.chance.choice([most, most, most, self.chance.randint(least, most)]))

    def ended(self) -> Event:
        """A peer says no more, mostly when all is taken that it said, or while it waits."""
        quiet = [n for n, peer in self.peers.items() if not peer.said or self.hub.connections[n].wait or self.odds(0.2)]
        number = self.one_of(quiet)
        return Passed() if number is None else Ended(number)

    def gone(self) -> Event:
        """A peer goes, as often as not one that waits."""
        number = self.one_of([*self.hub.waits()]) if self.odds(0.5) else None
        return Gone(self.chance.choice(list(self.peers)) if number is None else number)

    def odd_event(self) -> Event:
        """An event that mostly can't be."""
        number = self.chance.choice([*self.peers, len(self.peers), len(self.peers) + 1, NO_NUMBER])
        counts = [0, 1, self.hub.written, self.hub.state.length, self.hub.state.length + 1, 2**53]
        ready = len(self.ready(number)) if number in self.hub.connections else 0
        events: list[Event] = [
            Came(number, b""), Ended(number), Took(number, ready + 1), Took(number, 0), Written(self.chance.choice(counts)),
            Took(number, 2**53), Written(max(0, self.hub.written - 1)), Written(self.hub.state.length + 1), Gone(NO_NUMBER),
        ]
        return self.chance.choice(events)

    def ready(self, number: int) -> bytes:
        """What an open connection is offered."""
        return self.hub.connections[number].ready(self.hub.written)

    def one_of(self, numbers: list[int]) -> int | None:
        """One of some connections, if there is one."""
        return self.chance.choice(numbers) if numbers else None


def make_hub_script(chance: random.Random, count: int) -> Script:
    """A hub's script of so many lines of events, of which the last shows all."""
    script = HubScript(chance)
    lines = [script.line() for _ in range(count)]
    return Script(script.hub.terms, [*lines, Line(SHOW, shown(script.hub))])
