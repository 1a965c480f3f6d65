"""The limits that a step takes (docs/MODEL.md, Limits)."""
from dataclasses import dataclass

from tests.model.account import MAX_CLIENTS, MAX_ENTRIES


@dataclass(frozen=True)
class Limits:
    """How many entries there may be, how many clients, and how many places may stand open; none where any number may."""

    entries: int
    clients: int
    open_places: int | None = None


BOOK = Limits(MAX_ENTRIES, MAX_CLIENTS)
