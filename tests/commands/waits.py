"""Runs in which as many clients wait as there can be, whose answers are known by how the lines are made, with no model;
and runs that show that time-outs, cancels of what waits and repeats take no memory.

1. 1,024 clients wait at once in all the ways there are: transfers and takes in 64 queues, two of them crowded, and a
   swap at each of 64 exchangers; without end, until one moment, and until moments of their own, who came last first.
   They end in all the ways there are: time is over for one or for many, some cancel, some start anew, and the others
   are met in the order in which they came.
2. 1,023 consumers wait in one queue, each until an earlier moment than the one before; every other cancels, from the
   middle on; items go to those that are left, the oldest first. The same with 1,023 items.
3. 1,023 transfers wait in one queue, every third is cancelled, and drains of 1 to 16 items take the others; each of
   these is told received, and by which drain where its session is of version 2.
4. All wait until one moment, all again until another, and then all again, and cancel.
5. In a book where as many clients wait as a table may have room for, beside others that fill the account's room, a
   request is ended or repeated while growths are refused, from the one behind the reading of the line on. Its answer's
   text is the first that finds no memory, the bodies behind it are the others, and no other growth is refused: there is
   none.
6. Growths are counted: a tick that ends all that wait takes as many as none; each cancel and each repeat as many as the
   one before.

No answer of the first four may tell want of memory.
"""
from __future__ import annotations

import os
import pathlib
import subprocess
import sys
import tempfile
from collections.abc import Callable, Iterable, Iterator

from tests.cases import Case
from tests.commands.filling import CLIENTS, EPOCH, QUEUES, Fill, Filling, text
from tests.faults.preload import built, switches

ALL = range(1, CLIENTS + 1)
EXCHANGERS = 64
NO_MEMORY = '{"code":11,"kind":"refused"}'
DAY = 86_400_000
# The moment at which one kind of waits ends, and the first of those at which each of the others does.
SOON, LATER = 1_000, 2_000
# So many clients, below, at and above what a table that doubles has room for, also one that keeps an eighth free.
CROWDS = [1, 2, 3, 4, 5, 7, 8, 9, 14, 15, 16, 17, 28, 29, 32, 33, 56, 64, 65, 112, 128, 224, 256, 448, 512, 513,
          896, 897, 1_023, 1_024]
REFUSALS = [1, 3]
BEHIND = 8


class Waits(Fill):
    """Lines of clients that wait, and where: of each queue its waiting clients, the oldest first."""

    now: int

    def __init__(self) -> None:
        super().__init__()
        self.now = 0
        self.waiting: dict[tuple[str, int], list[int]] = {}
        for client in ALL:
            self.hello(client)

    def wait(self, client: int, word: str, at: int, wait: int | str) -> None:
        """A request waits on a side."""
        item = {} if word == "take" else {"item": item_of(client)}
        place = {"exchanger" if word == "swap" else "queue": at}
        self.ask(client, None, call=word, **place, **item, wait=wait)
        self.waiting.setdefault((word, at), []).append(client)

    def leave(self, clients: Iterable[int]) -> None:
        """These clients wait no longer."""
        gone = set(clients)
        for there in self.waiting.values():
            there[:] = [client for client in there if client not in gone]

    def times_out(self, moment: int, clients: Iterable[int]) -> None:
        """The moment comes by a line that changes nothing else; and these clients were told that their time is over."""
        self.now = moment
        self.hello(ALL[-1])
        self.leave(clients)
        for client in clients:
            self.again(client, {"reply": "timedout"})

    def cancel(self, client: int) -> None:
        """A client cancels its request, which waits, and once more."""
        answer = text(kind="reply", **self.key(client), reply="cancelled")
        for _ in range(2):
            self.say(text(kind="cancel", **self.key(client)), answer)
        self.leave([client])

    def meet(self, client: int) -> None:
        """Another client comes to all that wait, in their order, and each is then told so."""
        for word, at, other in [(*side, other) for side, there in self.waiting.items() for other in there]:
            gives, gets = {"item": f"for {other}"}, {"item": item_of(other)}
            if word == "transfer":
                self.ask(client, {"reply": "item", **gets}, call="take", queue=at, wait="now")
                self.received(other, self.key(client))
            elif word == "take":
                self.ask(client, {"reply": "done"}, call="put", queue=at, **gives)
                self.again(other, {"reply": "item", **gives})
            else:
                self.ask(client, {"reply": "swapped", **gets}, call="swap", exchanger=at, **gives, wait="forever")
                self.again(other, {"reply": "swapped", **gives})
        self.waiting.clear()


def item_of(client: int) -> str:
    """The item of a client."""
    return f"of {client}"


def side_of(client: int) -> tuple[str, int]:
    """Where a client waits in the first run: at an exchanger, in one of two crowds, or with a few others."""
    if client <= EXCHANGERS:
        return "swap", client - 1
    if client % 3:
        return ("transfer", 0) if client % 3 == 1 else ("take", 1)
    queue = 2 + client // 3 % (QUEUES - 2)
    return ("transfer" if queue % 2 else "take"), queue


def all_ways() -> Waits:
    """All clients wait in all the ways there are, and end in all the ways there are."""
    fill = Waits()
    kinds = {kind: [client for client in ALL if client // 4 % 4 == kind] for kind in range(4)}
    limits = {client: LATER + len(kinds[3]) - turn for turn, client in enumerate(kinds[3])}
    for client in ALL:
        ways: list[int | str] = ["forever", SOON, DAY, limits.get(client, DAY)]
        fill.wait(client, *side_of(client), ways[client // 4 % 4])
    for client in ALL:
        fill.again(client, None)
    fill.now = SOON - 1
    fill.again(kinds[1][0], None)
    fill.times_out(SOON, kinds[1])
    for client in sorted(kinds[3], key=limits.__getitem__)[: len(kinds[3]) // 2]:
        fill.times_out(limits[client], [client])
    for client in kinds[2][::3]:
        fill.cancel(client)
    anew = kinds[0][::5]
    for client in anew:
        fill.hello(client, incarnation=2)
    fill.leave(anew)
    fill.meet(kinds[1][0])
    for queue in range(QUEUES):
        fill.count(kinds[1][0], queue)
    return fill


def one_queue(word: str) -> Waits:
    """All clients but the last wait in one queue."""
    fill = Waits()
    others = ALL[:-1]
    for client in others:
        fill.wait(client, word, 5, DAY - client)
    crowd = {"consumers" if word == "take" else "items": len(others)}
    fill.count(ALL[-1], 5, **crowd)
    middle = len(others) // 2
    for client in [*others[middle::2], *others[middle - 2 :: -2]]:
        fill.cancel(client)
    fill.meet(ALL[-1])
    fill.count(ALL[-1], 5)
    return fill


def takers_wait() -> Waits:
    """Consumers wait in one queue."""
    return one_queue("take")


def givers_wait() -> Waits:
    """Items wait in one queue."""
    return one_queue("transfer")


def givers_drained() -> Waits:
    """Items wait in one queue, every third is cancelled, and the last client drains the others, 16 at most by each drain."""
    fill = Waits()
    others = ALL[:-1]
    for client in others:
        fill.wait(client, "transfer", 5, DAY - client)
    for client in others[::3]:
        fill.cancel(client)
    left = [client for client in others if client not in others[::3]]
    fill.items[5] = [item_of(client) for client in left]
    for number in range(len(left)):
        fill.count(ALL[-1], 5, items=len(fill.items[5]))
        fill.drain(ALL[-1], 5, number % 16 + 1)
        fill.again(ALL[-1], fill.told)
        if not fill.items[5]:
            break
    for client in left:
        fill.received(client, fill.took[item_of(client)])
    fill.drain(ALL[-1], 5, 16)
    return fill


def all_again() -> Waits:
    """All wait until one moment, twice; and once more, and cancel."""
    fill = Waits()
    for limit in (SOON, 2 * SOON):
        for client in ALL:
            fill.wait(client, *side_of(client), limit - fill.now)
        fill.times_out(limit, ALL)
    for client in ALL:
        fill.wait(client, *side_of(client), "forever")
    for client in reversed(ALL):
        fill.cancel(client)
    return fill


# ---- growths


class Growths:
    """The program beside what counts its growths, and refuses some."""

    def __init__(self, program: str, folder: str) -> None:
        self.program, self.folder = program, pathlib.Path(folder)
        built()

    def run(self, lines: Iterable[str], refuse: int = 0, refusals: int = 0) -> tuple[list[str], int]:
        """What the program answers to these lines, and how many growths it makes. They are read from a file: how many
        growths the reading of an input takes then follows from its length, and not from how a pipe hands it over."""
        said, counted = self.folder / "lines", self.folder / "counted"
        said.write_text("".join(f"{line}\n" for line in lines))
        counted.unlink(missing_ok=True)
        room = {**os.environ, **switches(growth=refuse, growths=refusals, counted=counted)}
        with said.open("rb") as given:
            ran = subprocess.run([self.program, "book", "--epoch", str(EPOCH)], stdin=given, capture_output=True, env=room)
        assert (ran.returncode, ran.stderr) == (0, b""), f"status {ran.returncode}, standard error {ran.stderr!r}"
        return ran.stdout.decode(errors="replace").split("\n")[:-1], int.from_bytes(counted.read_bytes(), sys.byteorder)

    def count(self, lines: Iterable[str]) -> int:
        """How many growths these lines make."""
        return self.run(lines)[1]


def crowd(count: int, others: int = 0) -> Fill:
    """So many clients wait in one queue, until one moment, and so many others said hello alone."""
    fill = Fill()
    fill.now = 0
    for client in range(1, count + others + 1):
        fill.hello(client)
    for client in range(1, count + 1):
        fill.ask(client, None, call="take", queue=3, wait=SOON)
    return fill


def others_for(count: int) -> int:
    """How many others fill the account's room, where it doubles: of each client that waits it has two entries and keeps
    room for one. None, where these were too many clients."""
    others = (1 << (3 * count - 1).bit_length()) - 3 * count
    return others if count + others <= CLIENTS else 0


def bad(line: str) -> str:
    """A line as long that says nothing, and answers what needs no memory. To read the line itself takes none either: its body is
    compact, and has no item."""
    return "-" * len(line)


def request(fill: Fill, client: int, moment: int = 0) -> str:
    """The line of a client's request."""
    return f'{moment} {text(kind="request", **fill.key(client), **fill.calls[client])}'


def endings(fill: Fill, count: int) -> Iterator[tuple[str, str, str]]:
    """Lines behind a crowd, each with a request that is then said again and what it is told."""
    client = count // 2 + 1
    told = text(kind="reply", **fill.key(client), reply="cancelled")
    late = text(kind="reply", **fill.key(client), reply="timedout")
    waits = text(kind="waiting", **fill.key(client))
    again = request(fill, client)
    yield f'0 {text(kind="cancel", **fill.key(client))}', again, told
    yield f'{SOON} {text(kind="hello", client=1, incarnation=1)}', request(fill, client, SOON), late
    yield again, again, waits


def taken_by(growths: Growths, count: int, others: int) -> str | None:
    """What shows that what ends or repeats a request takes memory where so many wait, if something does. Each growth that is
    refused is seen in an answer: first in that line's, whose step was taken, and then in those behind it."""
    fill = crowd(count, others)
    for line, again, told in endings(fill, count):
        read = growths.count([*fill.lines, bad(line), *[bad(again)] * BEHIND])
        for refusals in REFUSALS:
            answers, _ = growths.run([*fill.lines, line, *[again] * BEHIND], read + 1, refusals)
            wanted = [*fill.answers, *[NO_MEMORY] * refusals, *[told] * (BEHIND + 1 - refusals)]
            if answers != wanted:
                told = "\n".join(answers[len(fill.lines) :])
                return f"{refusals} growths refused behind the reading of {line}:\n{told}"
    return None


def cancel_line(fill: Fill, client: int) -> str:
    """The line of a client's cancel."""
    return f'0 {text(kind="cancel", **fill.key(client))}'


class Waiting(Filling):
    """As many clients wait as there can be."""

    def test_all_ways(self) -> None:
        """All clients wait in all the ways there are, and end in all the ways there are."""
        self.judge(all_ways())

    def test_takers_wait(self) -> None:
        """Consumers wait in one queue."""
        self.judge(takers_wait())

    def test_givers_wait(self) -> None:
        """Items wait in one queue."""
        self.judge(givers_wait())

    def test_givers_drained(self) -> None:
        """Items wait in one queue, some are cancelled, and drains take the others."""
        self.judge(givers_drained())

    def test_all_again(self) -> None:
        """All wait until one moment, twice; and once more, and cancel."""
        self.judge(all_again())


class Memory(Case):
    """What ends or repeats a request that waits takes no memory."""

    def setUp(self) -> None:
        folder = self.enterContext(tempfile.TemporaryDirectory(prefix="waits-"))
        self.growths = Growths(self.program, folder)

    def test_ends_and_repeats_take_none(self) -> None:
        """Growths that are refused where a request is ended or repeated are those of answers."""
        for count in CROWDS:
            others = others_for(count)
            with self.subTest(f"{count} wait beside {others}"):
                fault = taken_by(self.growths, count, others)
                self.check_fault(fault)

    def test_a_tick_grows_nothing(self) -> None:
        """A tick that ends all that wait takes as many growths as no tick."""
        fill = crowd(CLIENTS)
        hello = text(kind="hello", client=1, incarnation=1)
        before, at = (self.growths.count([*fill.lines, f"{moment:04} {hello}"]) for moment in (SOON - 1, SOON))
        self.assertEqual(before, at)

    def judge_alike(self, make: Callable[[Fill, int], str]) -> None:
        """Each of a row of lines must take as many growths as the first."""
        fill = crowd(CLIENTS)
        lines = [make(fill, client) for client in range(100, 1_000)]
        none, one, half, all_lines = (
            self.growths.count([*fill.lines, *lines[:good], *map(bad, lines[good:])]) for good in (0, 1, 450, 900))
        self.assertEqual((half - none, all_lines - none), (450 * (one - none), 900 * (one - none)))

    def test_cancels_grow_alike(self) -> None:
        """Each cancel takes as many growths as the one before."""
        self.judge_alike(cancel_line)

    def test_repeats_grow_alike(self) -> None:
        """Each repeat takes as many growths as the one before."""
        self.judge_alike(request)
