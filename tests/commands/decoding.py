"""Compares what bodies are read as with a second implementation: hostile bodies of messages, answers and calls, in all orders, cut,
spoilt, nested, with names that stand twice, escapes, and numbers and texts at their limits and past them.

Each body is read as a message, as an answer and as a call, each of which the program for tests writes again, or tells the fault of. It
is asked as it is, and with a space after it: it means the same, but no body with white space goes the fast way. Both must be what the
model reads. The program is rv_steps, by its word `bodies`.
"""
from __future__ import annotations

import random
import subprocess
from collections import Counter
from collections.abc import Iterator

from tests.cases import Case, SelfTest
from tests.model.hostile import ANSWERS, CALLS, MESSAGES, Shape, make_bodies, text_of
from tests.model.reading_rows import row_faults
from tests.model.readings import NO_MEANING, NO_READING, NOT_MESSAGE, Program, first_difference, in_parts, reading
from tests.model.wrong_readers import wrong_reader_faults

# How many bodies there are; how many the program is asked at a time; and of how many each kind must come.
BODIES, AT_A_TIME, FULL_RUN = 20_000, 2_000, 1_000
# How often each shape's bodies are drawn that must be good.
DRAWS = 100
KINDS = ["messages", "answers", "calls", "not a message", "not JSON"]


def by_model(bodies: list[bytes]) -> list[bytes]:
    """What the model reads bodies as."""
    return [reading(body) for body in bodies]


def good_faults() -> Iterator[tuple[str, str | None]]:
    """Each shape, and a body of it that isn't read as what it is, if there is one."""
    for place, shapes in enumerate([MESSAGES, ANSWERS, CALLS]):
        for shape in shapes:
            yield f"bodies of {shape.words}", misread(shape, place)


def misread(shape: Shape, place: int) -> str | None:
    """A body that nothing spoilt and that is none of this place's kind, of which it has to be, and of no other."""
    chance = random.Random(f"good {shape}")
    for _ in range(DRAWS):
        body = text_of(shape.pairs(chance))
        if [told != NOT_MESSAGE for told in reading(body).split(b"\t")] != [number == place for number in range(3)]:
            return f"it is read as {reading(body)!r}: {body!r}"
    return None


def told_by(program: str) -> Program:
    """What a program tells of bodies."""
    def tell(bodies: list[bytes]) -> list[bytes]:
        text = "".join(f"{body.hex() or '-'}\n" for body in bodies).encode()
        ran = subprocess.run([program, "bodies"], input=text, capture_output=True)
        assert (ran.returncode, ran.stderr) == (0, b""), f"{program} ended with status {ran.returncode} and said {ran.stderr!r}"
        return ran.stdout.split(b"\n")[:-1]
    return tell


def kind_of(line: bytes) -> str:
    """As what a line tells that a body is read."""
    if line in (NO_READING, NO_MEANING):
        return KINDS[4 if line == NO_READING else 3]
    return next(kind for kind, told in zip(KINDS, line.split(b"\t")) if told != NOT_MESSAGE)


class Decoding(Case):
    """What the program for tests reads bodies as."""

    is_random = True

    def test_worked_rows(self) -> None:
        """Bodies that are worked by hand."""
        self.check_faults(row_faults(told_by(self.steps)))

    def test_hostile_bodies(self) -> None:
        """20,000 random bodies, each in its ways as the model has it; there are some of each kind."""
        count = self.fixture.many(BODIES)
        met: Counter[str] = Counter()
        for bodies in in_parts(make_bodies(random.Random(self.seed)), count, AT_A_TIME):
            rows = [(body, reading(body)) for body in bodies]
            difference = first_difference(told_by(self.steps), rows)
            if difference:
                self.fail(f"seed {self.seed}, after {met.total()} bodies: {difference.told()}")
            met.update(kind_of(line) for _, line in rows)
        self.told = f"{met.total()} bodies: " + ", ".join(f"{what} {met[what]}" for what in KINDS)
        lacks = [kind for kind in KINDS if not met[kind]] if count >= FULL_RUN else []
        self.check_fault(lacks and f"seed {self.seed}: there was none of {', '.join(lacks)}")


class Model(SelfTest):
    """The model's own reading, which is held against worked rows and wrong programs."""

    def test_worked_rows(self) -> None:
        """Bodies that are worked by hand."""
        self.check_faults(row_faults(by_model))

    def test_good_bodies(self) -> None:
        """Bodies that nothing spoilt are read as what they are."""
        self.check_faults(good_faults())

    def test_wrong_readers(self) -> None:
        """Hostile bodies find each program that reads wrongly."""
        self.check_faults(wrong_reader_faults())
