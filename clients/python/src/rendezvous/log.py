"""What is logged of sessions, under the package's name: of servers and of requests' keys, never what is in them. It is silent by
default."""
from __future__ import annotations

import contextlib
import logging
from logging import INFO, WARNING

__all__ = ["INFO", "WARNING", "log"]

LOG = logging.getLogger("rendezvous")
LOG.addHandler(logging.NullHandler())


def log(level: int, words: str, *more: object) -> None:
    """Logs a line. What a program's own handler raises there ends no call."""
    with contextlib.suppress(Exception):
        LOG.log(level, words, *more, stacklevel=2)
