"""Long scripts of `rv book`, whose answers are known by how the lines are made, with no model. Every second client's
sessions are of version 2."""
from __future__ import annotations

import json
import subprocess
from typing import Any, Dict

from tests.cases import Case

# The members of an object.
Members = Dict[str, Any]

CLIENTS = 1_024
QUEUES = 64
EPOCH = 7


def text(**members: Any) -> str:
    """The written text of an object."""
    return json.dumps(members, sort_keys=True, separators=(",", ":"))


def version(client: int) -> Members:
    """The member that tells of a client's version: none of version 1."""
    return {} if client % 2 else {"version": 2}


class Fill:
    """Lines and their answers: each client's last number, its last call, and the items of each queue, oldest first."""

    def __init__(self) -> None:
        self.lines: list[str] = []
        self.answers: list[str] = []
        self.now: int | None = None
        self.numbers = dict.fromkeys(range(1, CLIENTS + 1), 0)
        self.calls: dict[int, Members] = {}
        self.items: dict[int, list[str]] = {queue: [] for queue in range(QUEUES)}
        # What the last drain was told, and the key of the request that took each item.
        self.told: Members | None = None
        self.took: dict[str, Members] = {}

    def say(self, body: str, answer: str) -> None:
        """One line and its answer. Where no moment is set, each line has a greater one than the line before."""
        self.lines.append(f"{len(self.lines) if self.now is None else self.now} {body}")
        self.answers.append(answer)

    def hello(self, client: int, incarnation: int = 1) -> None:
        """A client is welcome."""
        members = {"client": client, "incarnation": incarnation, **version(client)}
        self.say(text(kind="hello", **members), text(kind="welcome", epoch=EPOCH, **members))

    def key(self, client: int) -> Members:
        """The key of the client's last number."""
        return {"client": client, "epoch": EPOCH, "incarnation": 1, "number": self.numbers[client]}

    def ask(self, client: int, reply: Members | None, **call: Any) -> None:
        """A request of the client's next number; with no reply it waits."""
        self.numbers[client] += 1
        self.calls[client] = call
        self.again(client, reply)

    def again(self, client: int, reply: Members | None) -> None:
        """The client's last request, and what it is told."""
        key = self.key(client)
        answer = text(kind="reply", **key, **reply) if reply else text(kind="waiting", **key)
        self.say(text(kind="request", **key, **self.calls[client]), answer)

    def received(self, client: int, taker: Members) -> None:
        """The client's last request, a transfer whose item the request of this key took: the key is told in version 2."""
        by = {f"by_{name}": taker[name] for name in ("client", "incarnation", "number")}
        self.again(client, {"reply": "received", **(by if version(client) else {})})

    def refused(self, client: int, answer: str, **call: Any) -> None:
        """A request of the client's next number that is refused."""
        key = {**self.key(client), "number": self.numbers[client] + 1}
        self.say(text(kind="request", **key, **call), answer)

    def put(self, client: int, queue: int) -> None:
        """A put is done, and its item waits."""
        item = f"item {len(self.lines)}"
        self.items[queue].append(item)
        self.ask(client, {"reply": "done"}, call="put", queue=queue, item=item)

    def take(self, client: int, queue: int) -> None:
        """A take that does not wait gets the oldest item, or finds none."""
        first, self.items[queue] = self.items[queue][:1], self.items[queue][1:]
        reply = {"reply": "item", "item": first[0]} if first else {"reply": "empty"}
        self.ask(client, reply, call="take", queue=queue, wait="now")
        self.took.update((item, self.key(client)) for item in first)

    def drain(self, client: int, queue: int, most: int) -> None:
        """A drain gets the oldest items, as many as there are and as it may take."""
        texts, self.items[queue] = self.items[queue][:most], self.items[queue][most:]
        self.told = {"reply": "drained", "texts": texts}
        self.ask(client, self.told, call="drain", queue=queue, max=most)
        self.took.update((item, self.key(client)) for item in texts)

    def count(self, client: int, queue: int, items: int = 0, consumers: int = 0) -> None:
        """A count of so many."""
        self.ask(client, {"reply": "counted", "items": items, "consumers": consumers}, call="count", queue=queue)


def fault_of(program: str, fill: Fill) -> str | None:
    """What is wrong with what the program answers to these lines, if something is: it must give their answers, and nothing else."""
    words = [program, "book", "--epoch", str(EPOCH)]
    ran = subprocess.run(words, input="\n".join(fill.lines).encode(), capture_output=True)
    got = ran.stdout.decode(errors="replace").split("\n")
    wrong = next((at for at, pair in enumerate(zip(got, [*fill.answers, ""])) if pair[0] != pair[1]), None)
    if (ran.returncode, ran.stderr, wrong, len(got)) == (0, b"", None, len(fill.lines) + 1):
        return None
    fault = f"status {ran.returncode}, standard error {ran.stderr!r}, {len(got) - 1} lines"
    if wrong is not None:
        fault += f"\nline {wrong + 1}: {[*fill.lines, ''][wrong]}\nexpected {[*fill.answers, ''][wrong]}\ngot      {got[wrong]}"
    return fault


class Filling(Case):
    """Cases of long scripts."""

    def judge(self, fill: Fill) -> None:
        """The program must give the answers to these lines."""
        self.check_fault(fault_of(self.program, fill))
