"""Builds the compiled driver, tools/bench/driver.c, and runs it against a server."""
from __future__ import annotations

import pathlib
import shutil
import subprocess
from typing import NamedTuple

SOURCE = pathlib.Path(__file__).resolve().with_suffix(".c")
DRIVER = SOURCE.parents[2] / "out/driver"
# No run of it takes so many seconds.
LIMIT = 3_600


class Load(NamedTuple):
    """What a load took: all its seconds, and those from a piece to its last answer."""

    seconds: float
    median: float
    late: float


class HandOver(NamedTuple):
    """The seconds from a put's first byte to its item in the hands of a taker that waited."""

    median: float
    late: float


def missing() -> str | None:
    """What it can't be built without, if something."""
    return None if shutil.which("cc") else "cc is missing"


def built() -> None:
    """Builds it, unless it is newer than its source."""
    if not DRIVER.exists() or DRIVER.stat().st_mtime <= SOURCE.stat().st_mtime:
        DRIVER.parent.mkdir(exist_ok=True)
        words = ["cc", "-O2", "-Wall", "-Wextra", "-Werror", "-D_GNU_SOURCE", "-o", str(DRIVER), str(SOURCE)]
        subprocess.run(words, check=True)


def told(how: str, kind: str, port: int, *numbers: float) -> list[float]:
    """The numbers that a run prints. It must end well."""
    words = [str(DRIVER), how, kind, str(port), *map(str, numbers)]
    ran = subprocess.run(words, stdout=subprocess.PIPE, text=True, timeout=LIMIT, check=True)
    return [float(word) for word in ran.stdout.split()]


def load(kind: str, port: int, first: int, connections: int, piece: int, requests: int) -> Load:
    """Puts and takes over so many connections, so many in one piece."""
    seconds, median, late = told("load", kind, port, first, connections, piece, requests)
    return Load(seconds, median / 1e6, late / 1e6)


def hand(kind: str, port: int, first: int, others: int, rounds: int) -> HandOver:
    """Hand-overs, one after another, while others wait."""
    median, late = told("hand", kind, port, first, others, rounds)
    return HandOver(median / 1e6, late / 1e6)


def waiting(kind: str, port: int, first: int, others: int, seconds: float) -> subprocess.Popen[str]:
    """Starts others that wait for so long; they wait when this is given."""
    words = [str(DRIVER), "wait", kind, str(port), *map(str, (first, others, seconds))]
    ran = subprocess.Popen(words, stdout=subprocess.PIPE, text=True)
    if ran.stdout is None or ran.stdout.readline() != "ready\n":
        ran.kill()
        raise RuntimeError("those that are to wait do not")
    return ran
