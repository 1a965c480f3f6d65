"""Jobs as JSON, in texts that fit into an item.

    from rendezvous import Session, jobs

    with Session() as session:
        session.transfer(3, jobs.text({"resize": "/srv/in/7.png", "width": 640}))

What is larger lies elsewhere, as in a file or another store; the job has its path or its key.
"""
from __future__ import annotations

import json

from .bodies import GREATEST_ITEM
from .calls import text_of

__all__ = ["TooLong", "text"]


class TooLong(ValueError):
    """A job's text has `excess` bytes more than an item."""

    def __init__(self, excess: int) -> None:
        super().__init__(excess)
        self.excess = excess

    def __str__(self) -> str:
        return f"the job is {self.excess} bytes too long: an item has at most {GREATEST_ITEM}"


def text(job: object) -> str:
    """The JSON text of a job, without white space between its members; `json.loads` reads it. `TooLong` where no item has that
    many bytes. TypeError or ValueError where the job is no JSON, as an object of another type, NaN and a lone surrogate."""
    made = json.dumps(job, ensure_ascii=False, separators=(",", ":"), allow_nan=False)
    excess = len(made.encode(errors="surrogatepass")) - GREATEST_ITEM
    if excess > 0:
        raise TooLong(excess)
    return text_of(made)
