"""Worked rows of hubs, with what each connection is told that was set beforehand.

A row is lines `[@MOMENT] EVENT => TOLD`; without @MOMENT the moment is 0. EVENT is `opened`, `N says WHAT; WHAT ..`, `N sends
HEX`, `N ended`, `N gone`, `N takes` all that it is offered, `N takes COUNT`, `written COUNT` or `passed`; WHAT is as in
tests/model/rows.py. TOLD is what may be handed out from then on, of each connection for which that is something: `N: ANSWER,
ANSWER .. | N: ..`, where `closed` stands for its end; or `refused WHY`. ANSWER is `welcome CLIENT/INCARNATION`, `refused CODE
DETAIL`, or a key and what its request is told. `[next MOMENT] [held COUNT] [unheard KEY ..]` may stand behind a `;`.
"""
import re
from collections.abc import Iterable, Iterator
from dataclasses import dataclass, replace

from tests.model.hub import EPOCH, Hub
from tests.model.hub_events import Came, Ended, Event, Gone, Opened, Passed, Refusal, Terms, Took, Written
from tests.model.hub_laws import frames_of
from tests.model.limits import BOOK
from tests.model.rows import answer_of, key_of, line_of, session_members

TEN_SECONDS, JOURNAL = Terms(BOOK, 10_000), Terms(BOOK, 10_000, True)
TWO = "opened => \n opened => \n"
THREE = TWO + "opened => \n"
LONG = '"' + 512 * "x" + '"'
PEEKS = "; ".join(f"1#{number} peek 3" for number in range(2, 132))
# Of those that are answered at once, their frames have 605 bytes, or 606 or 607 where the number has more digits.
ANSWERS = ", ".join(f"1#{number} peeked {LONG}" for number in range(2, 110))

# A transfer with all that stands beside it, and the same requests again; what is told of it isn't set here.
GROWTHS_ROW = TWO + f"""
    0 says hello 1/1; 1#1 transfer 3 {LONG} forever; 1#2 count 3 =>
    1 says hello 2/1 =>
    1 says 2#1 take 3 forever; 2#2 take 4 20 =>
    written 4 =>
    @20 passed =>
    written 6 =>
    0 takes =>
    1 takes =>
    opened =>
    @20 2 says 1#2 count 3; 2#2 take 4 20 =>
    @20 0 ended =>
    @20 1 gone =>
    """
# Whoever waits ends, takes and goes just as the time of its request is over.
LATE_ROW = THREE + """
    0 says hello 1/1; 1#1 take 3 20; 1#2 count 3 =>
    1 says hello 2/1; 2#1 take 4 40 =>
    2 says hello 3/1; 3#1 take 5 60 =>
    written 6 =>
    @20 0 ended =>
    @40 1 takes =>
    1 says 2#2 take 4 20 =>
    @60 2 gone =>
    opened =>
    @80 2 says 3#1 take 5 60; 3#2 take 5 20 =>
    @100 opened =>
    """

# Name, terms, lines.
Row = tuple[str, Terms, str]
ROWS: list[Row] = [
    ("whoever waits is told at once", TEN_SECONDS, TWO + """
        0 says hello 1/1; 1#1 take 3 forever => 0: welcome 1/1 ; next 10000
        1 says hello 2/1; 2#1 transfer 3 "a" forever => 0: 1#1 item "a" | 1: welcome 2/1, 2#1 received ; next -
        """),
    ("what stands behind one that waits is answered when that is told", TEN_SECONDS, TWO + """
        0 says hello 1/1; 1#1 take 3 forever; 1#2 put 4 "b" => 0: welcome 1/1
        1 says hello 2/1; 2#1 count 4; 2#2 put 3 "a" => 0: 1#1 item "a", 1#2 done | 1: welcome 2/1, 2#1 counted 0 0, 2#2 done
        1 says 2#3 count 4 => 1: 2#3 counted 1 0
        """),
    ("a cancel from elsewhere, and the next request behind it", TEN_SECONDS, TWO + """
        0 says hello 1/1; 1#1 take 3 forever => 0: welcome 1/1
        1 says cancel 1#1; 1#2 put 3 "a" => 0: 1#1 cancelled | 1: 1#1 cancelled, 1#2 done
        """),
    ("two wait for one request, and both are told", TEN_SECONDS, THREE + """
        1 says hello 1/1; 1#1 take 3 forever => 1: welcome 1/1
        0 says 1#1 take 3 forever; 1#2 put 4 "b" =>
        2 says hello 2/1; 2#1 put 3 "a" => 0: 1#1 item "a", 1#2 done | 1: 1#1 item "a" | 2: welcome 2/1, 2#1 done
        """),
    ("a tick ends two requests, and both are told; a moment that falls counts as the greatest before", TEN_SECONDS, TWO + """
        @5 0 says hello 1/1; 1#1 take 3 10 => 0: welcome 1/1 ; next 15
        @4 1 says hello 2/1; 2#1 take 4 10; 2#2 count 4 => 1: welcome 2/1 ; next 15
        @14 passed =>
        @15 passed => 0: 1#1 timedout | 1: 2#1 timedout, 2#2 counted 0 0 ; next -
        """),
    ("who waits long is told so, and by a reply of the same moment that instead", TEN_SECONDS, TWO + """
        0 says hello 1/1; 1#1 take 3 forever => 0: welcome 1/1 ; next 10000
        @2 1 says hello 2/1; 2#1 take 4 10000 => 1: welcome 2/1 ; next 10000
        @9999 passed =>
        @10000 passed => 0: 1#1 waiting ; next 10002 unheard 1#1
        @10001 0 says 1#1 take 3 forever => ; next 10002
        @10002 passed => 1: 2#1 timedout ; next 20001
        """),
    ("nothing is handed out before it is written, but what rests on nothing", JOURNAL, TWO + """
        0 says hello 1/1; 1#1 count 3; hello 1/1 =>
        1 sends 000178 => 1: refused 1
        written 1 => 0: welcome 1/1
        1 says hello 1/1; line 0 x =>
        1 says hello 3/1 =>
        written 2 => 0: 1#1 counted 0 0, welcome 1/1 | 1: welcome 1/1, refused 1
        written 3 => 1: welcome 3/1
        """),
    ("a hello cuts off whoever waits", TEN_SECONDS, TWO + """
        0 says hello 1/1; 1#1 take 3 forever; 1#2 count 3 => 0: welcome 1/1
        1 says hello 1/2 => 0: refused 4 2, refused 4 2 | 1: welcome 1/2
        """),
    ("an ended input isn't the end of one that waits", TEN_SECONDS, TWO + """
        0 says hello 1/1; 1#1 take 3 forever; 1#2 count 3 => 0: welcome 1/1
        0 ended =>
        0 takes =>
        0 sends 00 => refused has_ended
        1 says hello 2/1; 2#1 put 3 "a" => 0: 1#1 item "a", 1#2 counted 0 0 | 1: welcome 2/1, 2#1 done
        0 takes 5 =>
        0 takes => 0: closed ; held 138
        """),
    ("an ended input with half a frame is the end, and so is a bad length", TEN_SECONDS, TWO + """
        0 sends 0003ab =>
        0 ended => 0: closed
        1 says hello 1/1 => 1: welcome 1/1
        1 sends 0000ff =>
        1 takes => 1: closed
        1 takes 0 => refused not_open
        """),
    ("one whose next length is bad is told what it waits for", TEN_SECONDS, TWO + """
        0 says hello 1/1; 1#1 take 3 forever => 0: welcome 1/1
        0 sends 0000 =>
        0 takes =>
        1 says cancel 1#1 => 0: 1#1 cancelled | 1: 1#1 cancelled
        0 takes => 0: closed
        """),
    ("one that is gone takes nothing out of the book, and leaves nothing to its number", TEN_SECONDS, TWO + """
        0 says hello 1/1; 1#1 take 3 forever => 0: welcome 1/1
        0 gone => 0: closed ; unheard 1#1 next - held 0
        opened =>
        1 says hello 2/1; 2#1 put 3 "a" => 1: welcome 2/1, 2#1 done
        0 says 1#1 take 3 forever => 0: 1#1 item "a"
        """),
    ("one goes on with the rest of its piece when it was told in the same event", TEN_SECONDS, TWO + """
        1 says hello 2/1; 2#1 take 3 forever; 2#2 put 4 "b" => 1: welcome 2/1
        0 says hello 1/1; 1#1 put 3 "a"; 1#2 take 4 forever; 1#3 count 3; 1#4 count 4
            => 0: welcome 1/1, 1#1 done, 1#2 item "b", 1#3 counted 0 0, 1#4 counted 0 0 | 1: 2#1 item "a", 2#2 done
        """),
    ("of those that time frees the event's connection goes on first", TEN_SECONDS, THREE + """
        0 says hello 1/1; 1#1 take 3 20; 1#2 put 5 "a" => 0: welcome 1/1
        1 says hello 2/1; 2#1 take 4 20; 2#2 put 5 "b" => 1: welcome 2/1
        @20 1 ended => 0: 1#1 timedout, 1#2 done | 1: 2#1 timedout, 2#2 done
        @20 2 says hello 3/1; 3#1 take 5 forever => 2: welcome 3/1, 3#1 item "b"
        """),
    ("what can't be is refused", JOURNAL, TWO + """
        2 gone => refused not_open
        0 says hello 1/1 =>
        0 takes 1 => refused not_offered
        written 2 => refused not_made
        written 1 => 0: welcome 1/1
        written 0 => refused written_falls
        """),
    ("without a journal all is written", TEN_SECONDS, TWO + """
        0 says hello 1/1 => 0: welcome 1/1
        written 0 => refused written_falls
        written 1 =>
        0 says hello 1/2 => 0: welcome 1/2
        """),
    ("one of which too much is held stops until that is taken", TEN_SECONDS, "opened =>" + f"""
        0 says hello 1/1; 1#1 put 3 {LONG}; {PEEKS} => 0: welcome 1/1, 1#1 done, {ANSWERS} ; held 65588
        0 takes 53 =>
        0 takes 1 => 0: 1#110 peeked {LONG}
        """),
]
# Those in which each growth is refused in turn.
GROWTHS_ROWS: list[Row] = [
    ("a transfer and all beside it", JOURNAL, GROWTHS_ROW),
    ("whoever's time is over ends, takes or goes", JOURNAL, LATE_ROW),
    ("the same without a journal", TEN_SECONDS, LATE_ROW),
]
# Those of few messages, and these.
SHORT_ROWS = [*ROWS[:-1], *GROWTHS_ROWS]


@dataclass(frozen=True)
class Step:
    """A line of a row."""

    moment: int
    event: str
    told: str
    asked: str


def steps_of(lines: str) -> Iterator[Step]:
    """The lines of a row; one that begins with its sign goes on with the line before."""
    for line in filter(None, map(str.strip, re.sub(r"\n\s*=>", " =>", lines).splitlines())):
        moment, _, line = line.removeprefix("@").partition(" ") if line.startswith("@") else ("0", "", line)
        event, _, told = line.partition("=>")
        told, _, asked = told.partition(";")
        yield Step(int(moment), event.strip(), told.strip(), asked.strip())


def event_of(text: str, hub: Hub) -> Event:
    """The event that a line means."""
    match text.split(" ", 2):
        case ["opened"]:
            return Opened()
        case ["passed"]:
            return Passed()
        case ["written", count]:
            return Written(int(count))
        case [number, "says", said]:
            return Came(int(number), b"".join(map(frame_of, said.split("; "))))
        case [number, "sends", octets]:
            return Came(int(number), bytes.fromhex(octets))
        case [number, "takes", count]:
            return Took(int(number), int(count))
        case [number, "takes"]:
            return Took(int(number), len(hub.connections[int(number)].ready(hub.written)))
        case [number, "ended"]:
            return Ended(int(number))
    return Gone(int(text.split(" ")[0]))


def events_of(terms: Terms, lines: str) -> list[tuple[int, Event]]:
    """The events of a row, each at its moment."""
    hub, events = Hub(terms), []
    for step in steps_of(lines):
        events.append((step.moment, event_of(step.event, hub)))
        hub.handle(*events[-1])
    return events


def frame_of(what: str) -> bytes:
    """The frame of a message."""
    line, _ = line_of(what, 0, EPOCH)
    body = line.partition(" ")[2].encode()
    return len(body).to_bytes(2) + body


def answer_body(text: str) -> str:
    """The body of an answer."""
    word, _, rest = text.partition(" ")
    if word == "welcome":
        return answer_of(word, {"epoch": EPOCH, **session_members(rest)})
    return answer_of(text, {}) if word == "refused" else answer_of(rest, key_of(word, EPOCH))


def bodies_of(told: str) -> dict[int, list[str]]:
    """What each connection is told, in bodies; nothing of one that is closed."""
    parts = [part.partition(": ") for part in told.split(" | ") if part]
    return {int(number): [] if texts == "closed" else list(map(answer_body, texts.split(", "))) for number, _, texts in parts}


def new_bodies(ready: bytes, before: bytes) -> list[str]:
    """The bodies of the frames that may be handed out now, and might not before."""
    return [body.decode() for body in frames_of(ready[len(before) :])]


def told_fault(step: Step, hub: Hub, event: Event) -> str | None:
    """What is wrong with what a hub tells of a line, if something is."""
    before = hub.views()
    outcome = hub.handle(step.moment, event)
    if isinstance(outcome, Refusal) or step.told.startswith("refused "):
        return None if outcome == Refusal(step.told.removeprefix("refused ")) else f"got {outcome}"
    if isinstance(event, Took) and event.connection in hub.connections:
        view = before[event.connection]
        before[event.connection] = replace(view, ready=view.ready[event.count :])
    got = {n: new_bodies(seen.ready, before[n].ready) for n, seen in hub.views().items() if n in before}
    got = {n: bodies for n, bodies in got.items() if bodies} | {n: [] for n in before if n not in hub.connections}
    return None if got == bodies_of(step.told) else f"got {got}"


def asked_fault(step: Step, hub: Hub) -> str | None:
    """What is wrong with what is asked of the hub behind a line, if something is."""
    words = step.asked.split()
    asked = {words[at]: words[at + 1] for at in range(0, len(words), 2)}
    unheard = [f"{key.client}#{key.number}" for key in hub.unheard()]
    is_now = {"next": str(hub.next_moment or "-"), "held": str(hub.held), "unheard": " ".join(unheard)}
    wrong = {name: is_now[name] for name, value in asked.items() if is_now[name] != value}
    return f"got {wrong}" if wrong else None


def hub_row_faults(rows: Iterable[Row] = tuple(ROWS), kind: type[Hub] = Hub) -> Iterator[tuple[str, str | None]]:
    """Each row by its name, with what is wrong with it, if something is, in a hub of this kind."""
    for name, terms, lines in rows:
        hub, faults = kind(terms), []
        for step in steps_of(lines):
            event = event_of(step.event, hub)
            faults += [f"{step.event[:200]}: {fault}" for fault in (told_fault(step, hub, event), asked_fault(step, hub)) if fault]
        yield name, faults[0] if faults else None
