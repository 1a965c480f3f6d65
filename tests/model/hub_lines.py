"""The lines of a hub's driver: of events, and of what came of each.

The driver's words `hub ENTRIES CLIENTS OPEN|none PATIENCE journal|none` say how its hub begins, over a book of epoch 1 without
entries. An event is a line, its moment first: `AT opened`, `AT came N HEX` (`-` for no bytes), `AT ended N`, `AT gone N`,
`AT took N COUNT`, `AT written COUNT`, `AT passed`; `show COUNT`, which is no event, looks at the connections of so many numbers.

Each line is told by lines. The first is `ok RESULT`, or `refused WHY`, or `shown`. Then `+ ENTRY` for each entry,
as an account line has it; a line for each connection that changed (or, of `show`, that is open): `N open WAITS UNREAD HELD
OFFERS BYTES`, with 0 or 1 for whether it waits and may offer, and with the bytes to hand out, in hexadecimal digits, or where
they are over 2,000 as `COUNT:HIGH.LOW` by the two halves of their Adler-32 sum; or `N closed`. At last
`= HELD MOMENT COUNT KEYS`: all bytes held; the next moment, or `-`; how many requests wait that no connection waits for, and
their keys by client, as `CLIENT.INCARNATION.NUMBER`.
"""
import zlib
from collections.abc import Iterable, Iterator, Mapping
from dataclasses import dataclass

from tests.model.hub import Hub, Outcome
from tests.model.hub_connection import View
from tests.model.hub_events import Came, Ended, Event, Gone, Opened, Passed, Refusal, Terms, Took, Written
from tests.model.lines import entry_line

# No connection has a greater number.
SHOW = b"show 1000"
MOST_SHOWN = 2_000


def hub_words(terms: Terms) -> list[str]:
    """The words with which a hub begins."""
    limits = terms.limits
    bound = "none" if limits.open_places is None else limits.open_places
    journal = "journal" if terms.has_journal else "none"
    return [str(word) for word in ("hub", limits.entries, limits.clients, bound, terms.patience, journal)]


def event_line(moment: int, event: Event) -> bytes:
    """The line of an event at a moment."""
    return f"{moment} {event_words(event)}".encode()


def event_words(event: Event) -> str:
    """An event in the driver's words."""
    match event:
        case Opened():
            return "opened"
        case Came(number, piece):
            return f"came {number} {in_hex(piece)}"
        case Ended(number):
            return f"ended {number}"
        case Gone(number):
            return f"gone {number}"
        case Took(number, count):
            return f"took {number} {count}"
        case Written(entries):
            return f"written {entries}"
        case Passed():
            return "passed"


def in_hex(octets: bytes) -> str:
    """Bytes in hexadecimal digits."""
    return octets.hex() or "-"


@dataclass(frozen=True)
class Told:
    """What has to be told of a line: how it begins, the lines of the connections that changed, of which all have to be there,
    those of others that may be there, and its last line."""

    head: tuple[bytes, ...]
    changed: tuple[bytes, ...]
    others: tuple[bytes, ...]
    last: bytes

    def lines(self) -> list[bytes]:
        """All lines that have to be there."""
        return [*self.head, *self.changed, self.last]

    def is_told_by(self, lines: list[bytes]) -> bool:
        """Whether these lines tell it."""
        count = len(self.head)
        seen = lines[count:-1]
        whole = {*self.changed} <= {*seen} <= {*self.changed, *self.others} and len(seen) == len({*seen})
        return whole and tuple(lines[:count]) == self.head and lines[-1:] == [self.last]


def told_bytes(octets: bytes) -> str:
    """Bytes to hand out, or where they are many how many they are, and their sum."""
    if len(octets) <= MOST_SHOWN:
        return in_hex(octets)
    high, low = divmod(zlib.adler32(octets), 2**16)
    return f"{len(octets)}:{high}.{low}"


def told(hub: Hub, came: Outcome | Refusal) -> Told:
    """What has to be told of an event of a hub."""
    if isinstance(came, Refusal):
        return Told((f"refused {came.value}".encode(),), (), (), totals_line(hub))
    head = (f"ok {came.result}".encode(), *(b"+ " + entry_line(entry) for entry in came.entries))
    return Told(head, view_lines(came.changed), view_lines(came.others), totals_line(hub))


def shown(hub: Hub) -> Told:
    """What `show` has to tell of a hub."""
    return Told((b"shown",), view_lines(hub.views()), (), totals_line(hub))


def blocks_of(lines: Iterable[bytes]) -> Iterator[list[bytes]]:
    """The lines that are told of each line, which end with the totals."""
    block = []
    for line in lines:
        block.append(line)
        if line.startswith(b"= "):
            yield block
            block = []
    if block:
        yield block


def view_lines(views: Mapping[int, View | None]) -> tuple[bytes, ...]:
    """The lines of connections."""
    return tuple(view_line(number, view) for number, view in views.items())


def view_line(number: int, view: View | None) -> bytes:
    """The line of a connection."""
    if view is None:
        return b"%d closed" % number
    words = [number, "open", int(view.waits), view.unread, view.held, int(view.may_offer), told_bytes(view.ready)]
    return " ".join(map(str, words)).encode()


def totals_line(hub: Hub) -> bytes:
    """The line of what is asked of the whole hub."""
    moment, unheard = hub.next_moment, hub.unheard()
    keys = [f"{key.client}.{key.incarnation}.{key.number}" for key in unheard]
    return " ".join(map(str, ["=", hub.held, "-" if moment is None else moment, len(unheard), *keys])).encode()
