"""Random commands of a shell, side by side at one host: what they printed and ended with, and the same as the host's account tells it.

Each item is of its own, so that none can be handed over twice unseen. Each script keeps a record.
"""
from __future__ import annotations

import json
import pathlib
import random
import subprocess
from collections import Counter
from collections.abc import Iterator
from typing import NamedTuple

from tests.commands.shelling import Ran, Shell
from tests.model.account import Account, Key, Request, reply
from tests.sockets.wire import PATIENCE, Members, key_of, members_of, reply_of, together

# The scripts of a host, the commands of each, and the queues and exchangers that they have.
SCRIPTS, COMMANDS, PLACES = 4, 8, 2
WORDS = ["put", "lines", "take", "take", "transfer", "transfer", "drain", "swap", "swap", "count", "peek"]
# How many lines are put at once, at most.
LINES = 3
WAITS = ["0s", "1ms", "50ms", "200ms"]
# What an item begins with; its own number comes after it.
FRONTS = ["", " ", "a b ", "\u00e9", "'\"`$\\", "--", "\U0001d11e"]
STATUSES = {"nobody": 3, "empty": 3, "timedout": 4, "cancelled": 5}
# What was asked, the status, and the parts of what was printed.
Told = tuple[str, int, tuple[str, ...]]


class Command(NamedTuple):
    """A command that was run, the option by which it printed, and what came of it."""

    words: list[str]
    form: str
    ran: Ran

    @property
    def has_lines(self) -> bool:
        """Whether it puts lines."""
        return self.words[0] == "put" and self.words[-1] == "-"


def commands_ran(shell: Shell, seed: str, folder: str) -> list[Command]:
    """Random scripts, side by side, and what came of each command. Their records are in the folder."""
    def play(number: int) -> list[Command]:
        chance = random.Random(f"{seed} {number}")
        recorded = Shell(shell.program, shell.address, RV_RECORD=f"{folder}/{number}")
        return [ran_one(recorded, chance, f"{number}.{at}") for at in range(COMMANDS)]

    return sum(together(*(lambda number=number: play(number) for number in range(SCRIPTS))), [])


def ran_one(shell: Shell, chance: random.Random, name: str) -> Command:
    """A random command, whose item, if it has one, has this name."""
    word, form = chance.choice(WORDS), chance.choice(["--null", "--json", ""])
    options = [form] if form else []
    if word in ("take", "transfer", "swap"):
        options += ["--wait", chance.choice(WAITS)]
    if word == "drain":
        options += ["--max", str(chance.randint(1, 4))]
    place = str(chance.randrange(PLACES))
    if word == "lines":
        lines = [f"{chance.choice(FRONTS)}{name}.{number}" for number in range(chance.randint(0, LINES))]
        words = ["put", *options, "--", place, "-"]
        return Command(words, form, shell.ran(*words, given="\n".join(lines).encode()))
    items = [chance.choice(FRONTS) + name] if word in ("put", "transfer", "swap") else []
    words = [word, *options, "--", place, *items]
    return Command(words, form, shell.ran(*words))


def parts_of(told: Members) -> tuple[str, ...]:
    """What is printed of a reply, without ends."""
    match told["reply"]:
        case "done":
            return ("done",)
        case "item" | "swapped" | "peeked":
            return (told["item"],)
        case "drained":
            return tuple(told["texts"])
        case "received":
            return ("received {by_client} {by_incarnation} {by_number}".format_map(told),)
        case "counted":
            return ("{items} {consumers}".format_map(told),)
    return ()


def status_of(told: Members) -> int:
    """The status that tells a reply."""
    return 3 if told.get("texts") == [] else STATUSES.get(told["reply"], 0)


def bodies_of(command: Command) -> list[Members]:
    """The bodies that a command printed, by its option a line each."""
    return [members_of(line) for line in command.ran.printed.splitlines()] if command.form == "--json" else []


def printed_by(command: Command) -> tuple[str, ...]:
    """The parts of what a command printed."""
    if command.form == "--json":
        return sum(map(parts_of, bodies_of(command)), ())
    end = "\0" if command.form == "--null" else "\n"
    *parts, rest = command.ran.printed.decode().split(end)
    return (*parts, rest) if rest else tuple(parts)


def told_by(commands: list[Command]) -> Counter[Told]:
    """What came of commands; what one said on standard error counts as printed too. Each line that one puts counts alone."""
    told: Counter[Told] = Counter()
    for command in commands:
        word, status, printed = command.words[0], command.ran.status, printed_by(command)
        said = tuple(command.ran.said.decode().splitlines())
        if command.has_lines and not (status or said):
            told.update((word, 0, (part,)) for part in printed)
        else:
            told[(word, status, (*printed, *said))] += 1
    return told


def replies_of(account: Account) -> Iterator[tuple[Request, Members]]:
    """The requests of an account that has ended, and their replies."""
    for entry in account.entries:
        if isinstance(entry.act, Request):
            yield entry.act, reply(account.entries, entry.act.key)


def told_by_account(account: Account) -> Counter[Told]:
    """The same as an account tells it."""
    return Counter((asked.call.word, status_of(told), parts_of(told)) for asked, told in replies_of(account))


def faults_of_bodies(commands: list[Command], account: Account) -> Iterator[str]:
    """Bodies that were printed of a key for which the account has another reply."""
    stands = {asked.key: told for asked, told in replies_of(account)}
    for command in commands:
        for body in bodies_of(command):
            if stands.get(key_of(body)) != reply_of(body):
                yield f"{command.words} printed {body}"


def faults_of_records(program: str, account: str, folder: str) -> Iterator[tuple[str, str | None]]:
    """The records of the scripts, each with what the program finds wrong with it beside the account, if it does."""
    for number in range(SCRIPTS):
        ran = subprocess.run([program, "verify", account, "--replies", f"{folder}/{number}"], capture_output=True, timeout=PATIENCE)
        is_kept = (ran.returncode, ran.stderr) == (0, b"")
        yield f"record {number}", None if is_kept else f"{ran.returncode}, {ran.stdout.decode()!r}, {ran.stderr!r}"


def keys_recorded(folder: str) -> Counter[Key]:
    """The keys of the replies in all records."""
    lines = [line for number in range(SCRIPTS) for line in pathlib.Path(folder, str(number)).read_bytes().splitlines()]
    return Counter(key_of(json.loads(line)["told"]) for line in lines)


def handed_twice(commands: list[Command]) -> list[str]:
    """The items that were printed more than once by what takes them."""
    items = Counter(part for command in commands if command.words[0] in ("take", "drain", "swap") for part in printed_by(command))
    return [item for item, times in items.items() if times > 1]
