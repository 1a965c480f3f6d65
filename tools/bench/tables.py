#!/usr/bin/env python3
"""What a hand-over costs in tables that are full, beside the same in tables that are nearly empty, shape by shape; and,
where another program is given, what both cost in it. It fails where a shape of the first program is out of bounds.

A cost is processor time, of the program alone, for a line behind those that prepare the shape. Runs of all programs and
of both fillings follow one another, and of each the median is taken.

usage: tools/bench/tables.py PROGRAM [OTHER_PROGRAM]
"""
import json
import os
import statistics
import sys
import tempfile

RUNS = 9
MOST_RATIO = 1.2
CLIENTS = 1_024
FIRST = 1_001
ITEMS = 45_000
IN_TURN = 24_000
DEADLINES = 1_000


class Lines:
    """Lines of a book, a moment after one another, with each client's next number."""

    def __init__(self, clients):
        self.moment, self.numbers, self.texts, self.before = 0, {}, [], None
        for client in range(FIRST, FIRST + clients):
            self.say(kind="hello", client=client, incarnation=1)

    def say(self, **members):
        body = json.dumps(members, sort_keys=True, separators=(",", ":"))
        self.texts.append(f"{self.moment} {body}\n")
        self.moment += 1

    def ask(self, client, call, queue=3, **members):
        self.numbers[client] = number = self.numbers.get(client, 0) + 1
        key = {"client": client, "epoch": 1, "incarnation": 1, "number": number}
        self.say(kind="request", call=call, queue=queue, **key, **members)

    def put(self, client, queue=3):
        self.ask(client, "put", queue, item="an item")

    def poll(self, client):
        self.ask(client, "take", wait="now")

    def take(self, client, wait="forever"):
        self.ask(client, "take", wait=wait)

    def cancel(self, client):
        self.say(kind="cancel", client=client, epoch=1, incarnation=1, number=self.numbers[client])

    def prepared(self):
        """What follows is measured."""
        self.before = len(self.texts)


def in_turn(beside=0, clients=2):
    """Items met in turn; so many lie in another queue, and so many clients put and take."""
    lines = Lines(clients)
    for _ in range(beside):
        lines.put(FIRST, queue=4)
    lines.prepared()
    for turn in range(IN_TURN):
        client = FIRST + turn % clients
        lines.put(client)
        lines.poll(client)
    return lines


def then_taken(depth):
    """Items that wait, so many at once, and are then taken."""
    lines = Lines(2)
    lines.prepared()
    for _ in range(ITEMS // depth):
        for _ in range(depth):
            lines.put(FIRST)
        for _ in range(depth):
            lines.poll(FIRST)
    return lines


def cancelled(order, waiting):
    """So many clients wait in one queue and are cancelled in an order; who is left is met."""
    lines = Lines(waiting + 1)
    lines.prepared()
    takers = range(FIRST + 1, FIRST + 1 + waiting)
    ends = list(order(takers))
    for _ in range(40 * (CLIENTS - 1) // waiting):
        for client in takers:
            lines.take(client)
        for client in ends:
            lines.cancel(client)
        for _ in range(waiting - len(ends)):
            lines.put(FIRST)
    return lines


def limits(waiting, apart):
    """So many clients wait in one queue until limits so many milliseconds apart come, one a line or all at once."""
    lines = Lines(waiting + 1)
    lines.prepared()
    takers = range(FIRST + 1, FIRST + 1 + waiting)
    for _ in range(IN_TURN // waiting):
        start = lines.moment
        for at, client in enumerate(takers):
            lines.take(client, wait=start + waiting + at * apart - lines.moment)
        if not apart:
            lines.moment = start + waiting
        for _ in range(waiting):
            lines.moment += max(apart - 1, 0)
            lines.say(kind="hello", client=FIRST, incarnation=1)
    return lines


def oldest_first(takers):
    return takers


def newest_first(takers):
    return reversed(takers)


def every_second(takers):
    return takers[1::2]


# Of each shape what it is called, and its lines in nearly empty and in full tables.
SHAPES = [
    ("45,000 items wait, and are then taken", lambda: then_taken(1), lambda: then_taken(ITEMS)),
    ("met in turn, 45,000 in another queue", in_turn, lambda: in_turn(beside=ITEMS)),
    ("met in turn, by 1,024 clients, and by 2", in_turn, lambda: in_turn(clients=CLIENTS)),
    *((f"1,023 takers, {name}", lambda order=order: cancelled(order, 4),
       lambda order=order: cancelled(order, CLIENTS - 1))
      for name, order in [("cancelled oldest first", oldest_first), ("cancelled newest first", newest_first),
                          ("every second one cancelled", every_second)]),
    ("1,000 deadlines, due one by one", lambda: limits(2, 1), lambda: limits(DEADLINES, 1)),
    ("1,000 deadlines, due all at once", lambda: limits(2, 0), lambda: limits(DEADLINES, 0)),
]


class Run:
    """A program on the lines of a shape, and on those alone that prepare it."""

    def __init__(self, program, lines, folder, name):
        self.words = [program, "book", "--epoch", "1"]
        self.count = len(lines.texts) - lines.before
        self.all, self.before = os.path.join(folder, f"{name}.all"), os.path.join(folder, f"{name}.before")
        for path, texts in [(self.all, lines.texts), (self.before, lines.texts[: lines.before])]:
            with open(path, "w", encoding="ascii") as file:
                file.writelines(texts)
        self.costs = []

    def measure(self):
        """One more cost of a line, in seconds."""
        self.costs.append((self.spent(self.all) - self.spent(self.before)) / self.count)

    def spent(self, path):
        """The processor time that the program takes for some lines, in seconds."""
        with open(path, "rb") as source, open(os.devnull, "wb") as sink:
            actions = [(os.POSIX_SPAWN_DUP2, source.fileno(), 0), (os.POSIX_SPAWN_DUP2, sink.fileno(), 1)]
            child = os.posix_spawn(self.words[0], self.words, os.environ, file_actions=actions)
            _, status, usage = os.wait4(child, 0)
        if status != 0:
            sys.exit(f"{self.words[0]} ended with status {os.waitstatus_to_exitcode(status)}")
        return usage.ru_utime + usage.ru_stime

    def cost(self):
        return statistics.median(self.costs)


def measured(programs, shape):
    """What a line costs in nearly empty and in full tables, for each program, in seconds."""
    name, small, full = shape
    with tempfile.TemporaryDirectory() as folder:
        runs = [(Run(program, small(), folder, f"small{at}"), Run(program, full(), folder, f"full{at}"))
                for at, program in enumerate(programs)]
        for _ in range(RUNS):
            for run in [run for pair in runs for run in pair]:
                run.measure()
        return [(small.cost(), full.cost()) for small, full in runs]


def in_columns(costs):
    """The cost in nearly empty and in full tables in microseconds, and their ratio."""
    small, full = costs
    return f"{small * 1e6:12.2f}{full * 1e6:9.2f}{full / small:8.2f}"


def tables_beside(programs):
    """Prints a table of all shapes. Whether the first program is in bounds."""
    heads = "".join(f"{name:>29}" for name in ["processor time of a line, us", "the other program's"][: len(programs)])
    print(f"{'':40}{heads}")
    print(f"{'':40}" + f"{'empty':>12}{'full':>9}{'ratio':>8}" * len(programs))
    good = True
    for shape in SHAPES:
        costs = measured(programs, shape)
        print(f"{shape[0]:40}" + "".join(map(in_columns, costs)), flush=True)
        good = good and costs[0][1] < MOST_RATIO * costs[0][0]
    return good


if __name__ == "__main__":
    sys.exit(not tables_beside(sys.argv[1:]))
