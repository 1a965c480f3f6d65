"""Runs the hub's program on worked rows, with each growth of memory refused in turn: a transfer with all that stands beside it,
and the same requests again; and those whose time is over as they end, take or go.

A run ends by its own want of memory, with nothing told that the model doesn't tell; or it tells what the model does where
one growth is refused: a message is answered that memory was refused, one connection is closed, or one isn't opened, and all
else goes on. What follows is told by the model, so a request that is asked again gets its reply.
"""
from __future__ import annotations

import os
import pathlib
import subprocess
import tempfile

from tests.cases import Case
from tests.faults.preload import built, switches
from tests.model.hub import Hub
from tests.model.hub_events import Event, Terms
from tests.model.hub_lacking import lacking_tellings, told_by
from tests.model.hub_lines import Told, blocks_of, event_line, hub_words
from tests.model.hub_rows import GROWTHS_ROWS, events_of

MOST_GROWTHS = 10_000
GOOD = (0, "")
# The program's own want of memory: of its words, its input, its output or its lines.
OWN_WANTS = [(1, f"Error: {words}\n") for words in ("memory allocation failed", "out of memory", "run fault 3")]


def run(words: list[str], folder: pathlib.Path, text: bytes, growth: int) -> tuple[list[list[bytes]], tuple[int, str], bool]:
    """What the program tells where one growth is refused, how it ends, and whether it came so far."""
    given, reached = folder / "input", folder / "refused"
    given.write_bytes(text)
    reached.unlink(missing_ok=True)
    with given.open("rb") as source:
        room = {**os.environ, **switches(growth=growth, refused=reached)}
        ran = subprocess.run(words, stdin=source, capture_output=True, env=room)
    end = ran.returncode, ran.stderr.decode(errors="replace")
    return list(blocks_of(ran.stdout.splitlines())), end, reached.exists()


def is_allowed(blocks: list[list[bytes]], end: tuple[int, str], tellings: list[list[Told]]) -> bool:
    """Whether a run tells what one of these does, or the front of it and then that memory was refused to itself."""
    if end in OWN_WANTS:
        return not blocks or any(all(map(Told.is_told_by, telling, blocks[:-1])) for telling in tellings)
    return end == GOOD and any(
        len(blocks) == len(telling) and all(map(Told.is_told_by, telling, blocks)) for telling in tellings)


class Growths(Case):
    """Rows of a hub with growths refused: each run is a check."""

    def setUp(self) -> None:
        built()
        self.folder = pathlib.Path(self.enterContext(tempfile.TemporaryDirectory(prefix="hub-growths-")))

    def refuse_each(self, name: str, terms: Terms, events: list[tuple[int, Event]]) -> None:
        """Runs a row with each growth refused and with none."""
        ample = told_by(Hub(terms), events)
        allowed = [ample, *lacking_tellings(terms, events)]
        text, of_hub = b"".join(event_line(*event) + b"\n" for event in events), 0
        for growth in range(1, MOST_GROWTHS):
            blocks, end, is_refused = run([self.steps, *hub_words(terms)], self.folder, text, growth)
            if not is_refused:
                break
            with self.subTest(f"{name}, growth {growth} refused"):
                told = "\n".join(line.decode() for block in blocks for line in block)
                self.assertTrue(is_allowed(blocks, end, allowed), f"{end}\n{told}")
                of_hub += end not in OWN_WANTS
        with self.subTest(f"{name}, with ample memory"):
            self.assertTrue(not is_refused and is_allowed(blocks, end, [ample]))
            self.assertTrue(of_hub, "no growth was refused to the hub")

    def test_worked_rows(self) -> None:
        """Each worked row of growths."""
        for name, terms, lines in GROWTHS_ROWS:
            self.refuse_each(name, terms, events_of(terms, lines))
