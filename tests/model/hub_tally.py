"""How often random events of hubs met what they have to meet."""
from collections import Counter

from tests.model.hub_connection import MOST_HELD
from tests.model.hub_events import Refusal
from tests.model.hub_lines import SHOW
from tests.model.hub_scripts import Line

KINDS = ["opened", "came", "ended", "gone", "took", "written", "passed", "show"]
CLOSED, FULL, TICK, WAITING = "closed", "full", "tick", "waiting"
# The refusals by whether a detail stands behind their code.
DETAILED, PLAIN = (2, 4, 5, 7, 8), (1, 3, 6, 9, 10)
MARKS = {'"kind":"waiting"': WAITING, **{f'{{"code":{code},"kind"': f"refusal {code}" for code in PLAIN},
         **{f'{{"code":{code},"': f"refusal {code}" for code in DETAILED}}
IN_HEX = {mark.encode().hex().encode(): name for mark, name in MARKS.items()}


class Tally:
    """What was met so far."""

    def __init__(self) -> None:
        self.events = 0
        self.met: Counter[str] = Counter()

    def add(self, lines: list[Line]) -> None:
        """The lines of one script more."""
        for line in lines:
            self.events += 1
            self.met["show" if line.line == SHOW else line.line.split()[1].decode()] += 1
            self.add_told(line)

    def add_told(self, line: Line) -> None:
        """What is told of one line."""
        for text in line.told.head:
            if text.startswith(b"refused"):
                self.met[text.split()[1].decode()] += 1
            self.met[TICK] += text.startswith(b"+") and text.endswith(b"tick")
        for text in line.told.changed:
            words = text.split()
            self.met[CLOSED] += words[1] == b"closed"
            self.met[FULL] += words[1] == b"open" and int(words[4]) > MOST_HELD
            self.met.update(name for mark, name in IN_HEX.items() if mark in text)

    def lacking(self) -> list[str]:
        """What was never met."""
        wanted = [*KINDS, *(why.value for why in Refusal if why != Refusal.NO_MEMORY), CLOSED, FULL, TICK, *MARKS.values()]
        return [name for name in wanted if not self.met[name]]

    def told(self) -> str:
        """The counts in words."""
        names = [*KINDS, CLOSED, FULL, WAITING]
        return f"{self.events:,} events: " + ", ".join(f"{self.met[name]:,} {name}" for name in names)
