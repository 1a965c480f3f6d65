"""What happens to a hub (docs/MODEL.md has the book's part), and why it refuses what can't be."""
from dataclasses import dataclass
from enum import Enum

from tests.model.limits import BOOK, Limits


@dataclass(frozen=True)
class Terms:
    """What stays of a hub: the limits of each step, after how many milliseconds whoever waits is told so, and whether it
    is told what is written, or all is at once."""

    limits: Limits = BOOK
    patience: int = 10_000
    has_journal: bool = False


@dataclass(frozen=True)
class Opened:
    """A connection was opened."""


@dataclass(frozen=True)
class Came:
    """A piece of a connection's input came."""

    connection: int
    piece: bytes


@dataclass(frozen=True)
class Ended:
    """A connection's input ended."""

    connection: int


@dataclass(frozen=True)
class Gone:
    """A connection's peer is gone."""

    connection: int


@dataclass(frozen=True)
class Took:
    """A connection's peer took so many of the bytes that it was offered."""

    connection: int
    count: int


@dataclass(frozen=True)
class Written:
    """So many entries are written."""

    entries: int


@dataclass(frozen=True)
class Passed:
    """Time went on."""


Event = Opened | Came | Ended | Gone | Took | Written | Passed


class Refusal(Enum):
    """Why an event isn't taken, in the driver's words."""

    NOT_OPEN = "not_open"
    HAS_ENDED = "has_ended"
    NOT_OFFERED = "not_offered"
    FALLS = "written_falls"
    NOT_MADE = "not_made"
    # Never by the model's own hub.
    NO_MEMORY = "no_memory"
