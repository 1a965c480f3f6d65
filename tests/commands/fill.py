"""Fills books by long runs, whose answers are known by how the lines are made, with no model.

1. 1,024 clients say hello and put items, with a take now and then, until the lines that are left are just enough to
   take all items out again, oldest first. So more than 40,000 items wait at once, in 64 queues.
2. The same, with drains of 1 to 16 items in place of the takes. So a drain takes items from among thousands.
3. 1,023 clients transfer and wait. Every third starts anew; the others' items are counted, shown and taken in order,
   and each of those clients is told so, and who took its item where its session is of version 2.
4. The same, with drains in place of the takes: each settles up to 16 transfers in one step.
5. A client waits, and another counts until the epoch has room for the entry alone that will end the wait. A drain has
   none, though it would take several items.
6. 1,023 clients wait, and the last counts until there is room for their ends alone.
7. The same with limits that all come at once, when the epoch is full: one tick ends all of them.

No answer may tell want of memory.
"""
from __future__ import annotations

from tests.commands.filling import CLIENTS, QUEUES, Fill, Filling, text

LINES = 95_000
MAX_ENTRIES = 100_000
MAX_DRAIN = 16
EPOCH_FULL = '{"code":10,"kind":"refused"}'


class Drains(Fill):
    """The same, where whoever would take drains, with each greatest number in turn."""

    def take(self, client: int, queue: int) -> None:
        """A drain gets what is there, or finds none."""
        self.drain(client, queue, len(self.lines) * 7 % MAX_DRAIN + 1)


def items_wait(fill: Fill) -> Fill:
    """Hellos, a first round of puts with a take now and then, and takes of all that is left."""
    for client in range(1, CLIENTS + 1):
        fill.hello(client)
    turn = 0
    while len(fill.lines) + sum(map(len, fill.items.values())) < LINES - 2:
        turn += 1
        client, queue = turn % CLIENTS + 1, turn * 7 % QUEUES
        if turn % 11:
            fill.put(client, queue)
        else:
            fill.take(client, queue)
    while len(fill.lines) < LINES:
        turn += 1
        waiting = [queue for queue in range(QUEUES) if fill.items[queue]] or range(QUEUES)
        fill.take(turn * 5 % CLIENTS + 1, waiting[turn % len(waiting)])
    return fill


def transfers_wait(fill: Fill) -> Fill:
    """Transfers of all clients but the first, which all wait at once; some end by a new start, the others are met."""
    for client in range(1, CLIENTS + 1):
        fill.hello(client)
    for client in range(2, CLIENTS + 1):
        fill.ask(client, None, call="transfer", queue=client * 7 % QUEUES, item=f"of {client}", wait="forever")
    for client in range(2, CLIENTS + 1):
        fill.again(client, None)
    for client in range(3, CLIENTS + 1, 3):
        fill.hello(client, incarnation=2)
    others = [client for client in range(2, CLIENTS + 1) if client % 3]
    for client in others:
        fill.items[client * 7 % QUEUES].append(f"of {client}")
    for queue in range(QUEUES):
        fill.count(1, queue, items=len(fill.items[queue]))
        fill.ask(1, {"reply": "peeked", "item": fill.items[queue][0]}, call="peek", queue=queue)
        while fill.items[queue]:
            fill.take(1, queue)
        fill.take(1, queue)
    for client in others:
        fill.received(client, fill.took[f"of {client}"])
    return fill


def one_waits(fill: Fill) -> Fill:
    """A consumer waits while the book fills; what is left is the room of its end."""
    fill.hello(1)
    fill.hello(2)
    fill.ask(1, None, call="take", queue=3, wait="forever")
    for _ in range(99_996):
        fill.count(2, 4)
    fill.refused(2, EPOCH_FULL, call="count", queue=4)
    fill.refused(2, EPOCH_FULL, call="put", queue=3, item="a")
    fill.refused(2, EPOCH_FULL, call="drain", queue=3, max=16)
    fill.say(text(kind="hello", client=1, incarnation=2), EPOCH_FULL)
    fill.hello(1)
    fill.again(1, None)
    fill.again(2, {"reply": "counted", "items": 0, "consumers": 0})
    return fill


def many_wait(fill: Fill) -> Fill:
    """Consumers of all clients but the first wait while the book fills. What may wait needs two entries, and a drain one."""
    waiting = CLIENTS - 1
    for client in range(1, CLIENTS + 1):
        fill.hello(client)
    for client in range(2, CLIENTS + 1):
        fill.ask(client, None, call="take", queue=client % QUEUES, wait="forever")
    for _ in range(MAX_ENTRIES - 1 - waiting - len(fill.lines)):
        fill.count(1, 5, consumers=16)
    for wait in ["transfer", "take"]:
        item = {"item": "a"} if wait == "transfer" else {}
        fill.refused(1, EPOCH_FULL, call=wait, queue=5, wait="forever", **item)
    fill.drain(1, 5, 16)
    fill.refused(1, EPOCH_FULL, call="count", queue=5)
    fill.refused(1, EPOCH_FULL, call="drain", queue=5, max=1)
    fill.refused(1, EPOCH_FULL, call="transfer", queue=5, item="a", wait="now")
    for client in range(2, CLIENTS + 1):
        fill.again(client, None)
    return fill


def limits_come(fill: Fill) -> Fill:
    """Consumers of all clients but the first wait until one moment, before which the epoch is full."""
    waiting = CLIENTS - 1
    limit = MAX_ENTRIES - waiting + 1
    for client in range(1, CLIENTS + 1):
        fill.hello(client)
    for client in range(2, CLIENTS + 1):
        fill.ask(client, None, call="take", queue=client % QUEUES, wait=limit - len(fill.lines))
    while len(fill.lines) < limit - 1:
        fill.count(1, 5, consumers=16)
    fill.refused(1, EPOCH_FULL, call="count", queue=5)
    fill.hello(1)
    fill.count(1, 5)
    for client in range(2, CLIENTS + 1):
        fill.again(client, {"reply": "timedout"})
    for _ in range(waiting - 2):
        fill.count(1, 5)
    fill.refused(1, EPOCH_FULL, call="count", queue=5)
    return fill


class Filled(Filling):
    """Books that are filled, and emptied."""

    def test_items_wait(self) -> None:
        """More than 40,000 items wait at once, and are taken one by one."""
        self.judge(items_wait(Fill()))

    def test_items_wait_for_drains(self) -> None:
        """More than 40,000 items wait at once, and are drained."""
        self.judge(items_wait(Drains()))

    def test_transfers_wait(self) -> None:
        """1,023 transfers wait at once, and are taken one by one."""
        self.judge(transfers_wait(Fill()))

    def test_transfers_wait_for_drains(self) -> None:
        """1,023 transfers wait at once, and are drained."""
        self.judge(transfers_wait(Drains()))

    def test_one_waits(self) -> None:
        """A full epoch has room for the end of one that waits."""
        self.judge(one_waits(Fill()))

    def test_many_wait(self) -> None:
        """A full epoch has room for the ends of 1,023 that wait."""
        self.judge(many_wait(Fill()))

    def test_limits_come(self) -> None:
        """One tick ends 1,023 that wait in a full epoch."""
        self.judge(limits_come(Fill()))
