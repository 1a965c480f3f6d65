"""Plays random lists of what can occur in the world across crashes of its server (docs/MODEL.md, "Across crashes"), with many
crashes, and holds each world against the nine clauses of its headline by brute force. By --selftest each rule of the world is
dropped in turn, and a list that is kept must break the clause that rests on it."""
from __future__ import annotations

import random
from collections import Counter

from tests.cases import Case, SelfTest
from tests.model.account import Call
from tests.model.crash_laws import faults
from tests.model.crash_world import CrashWorld, sender
from tests.model.limits import BOOK, Limits
from tests.model.world import Idle
from tests.model.wrong_crashes import wrong_crash_faults

# A run of so many occurrences has to meet all that is counted.
FULL_RUN = 20_000
LONGEST = 120
# How often each occurrence is tried.
ODDS = {"start": 3, "begin": 8, "resend": 3, "cancel": 2, "crash": 1, "client": 12, "step": 16, "lack": 1, "pass": 2,
        "store": 8, "send": 12, "fall": 8, "epoch": 0.3}
CALLS = [*["put", "take", "transfer"] * 2, "drain", "swap", "count", "peek"]
# A client's request, from being asked to being told.
ROUND = ["ask", "step", "store", "send", "hear"]
WAITS: list[str | int] = ["forever", "forever", "now", 0, 2, 5]


class Player:
    """Plays one list, whose every choice is random."""

    def __init__(self, chance: random.Random) -> None:
        self.chance = chance
        self.world = CrashWorld(chance.choice([BOOK, BOOK, Limits(30, 3), Limits(100, 1024, 2)]))
        self.now = 0
        self.met: Counter[str] = Counter()
        self.calm = chance.choice([0.2, 0.6, 0.9, 0.95])
        self.plan: list[tuple] = []

    def list_fault(self, length: int) -> str | None:
        """Plays so many occurrences; the clause that is broken, if one is. It is looked at after crashes and at the end."""
        before = self.world.lists()
        for number in range(length):
            occurrence = self.occurrence()
            if not self.world.occur(*occurrence):
                continue
            self.met[occurrence[0]] += 1
            if occurrence[0] == "fall" or number == length - 1:
                found = faults(self.world, before)
                if found:
                    return f"{occurrence}: {found}"
                before = self.world.lists()
        answers = [answer for _, answer in self.world.around.to_client]
        self.met.update(str(answer.get("reply") or answer.get("code") or answer["kind"]) for answer in answers)
        return None

    def occurrence(self) -> tuple:
        """What is tried next: any, or what has one client go on, hear an answer and ask again."""
        if self.chance.random() < self.calm:
            self.plan = self.plan or [(word, client) for client in [self.client_number()] for word in ROUND]
            word, client = self.plan.pop(0)
            return getattr(self, f"next_{word}")(client)
        word = self.chance.choices([*ODDS], [*ODDS.values()])[0]
        return word, *getattr(self, word)()

    def next_ask(self, client: int) -> tuple:
        """The client says something: hello, a request, or the same again."""
        match self.world.around.processes.get(client):
            case None:
                return "start", client, len(self.world.around.started) + 1, self.chance.choice([1, 1, 2])
            case Idle():
                return "begin", client, self.call()
        return "resend", client

    def next_step(self, client: int) -> tuple:
        """The server steps with what the client said last."""
        said = [k for k, message in enumerate(self.world.around.to_server) if sender(message) == client]
        return "step", said[-1] if said else 0, self.moment()

    def next_store(self, _: int) -> tuple:
        return ("store",)

    def next_send(self, client: int) -> tuple:
        """The server answers the client."""
        held = [k for k, answer in enumerate(self.world.server.withheld) if answer.client == client]
        return "send", held[-1] if held else -1

    def next_hear(self, client: int) -> tuple:
        """The client hears what it was answered last."""
        told = [k for k, (number, _) in enumerate(self.world.around.to_client) if number == client]
        return "client", told[-1] if told else 0

    def start(self) -> tuple:
        return self.chance.randint(1, 4), self.chance.randint(1, 9), self.chance.choice([1, 1, 2])

    def begin(self) -> tuple:
        return self.client_number(), self.call()

    def call(self) -> Call:
        """A call at one of two places."""
        word, wait = self.chance.choice(CALLS), self.chance.choice(WAITS)
        item = self.chance.choice("ab") if word in ("put", "transfer", "swap") else None
        waits = word in ("transfer", "take", "swap")
        wait = 5 if word == "swap" and wait == "now" else wait
        return Call(word, self.chance.choice([0, 0, 1]), item, wait if waits else None, 2 if word == "drain" else None)

    def moment(self) -> int:
        """A moment of the clock, which may go back."""
        self.now = max(0, self.now + self.chance.choice([0, 0, 1, 1, 3, -2]))
        return self.now

    def client_number(self) -> int:
        return self.chance.randint(1, 4)

    def resend(self) -> tuple:
        return (self.client_number(),)

    cancel = crash = resend

    def packet(self, count: int) -> int:
        """A packet, mostly one of the last."""
        return max(0, count - 1 - min(int(self.chance.expovariate(0.4)), count))

    def client(self) -> tuple:
        return (self.packet(len(self.world.around.to_client)),)

    def step(self) -> tuple:
        lacks = self.chance.choice([""] * 8 + ["entry", "text"])
        return self.packet(len(self.world.around.to_server)), self.moment(), lacks

    def lack(self) -> tuple:
        return (self.packet(len(self.world.around.to_server)),)

    def store(self) -> tuple:
        least, most = self.world.server.stored, len(self.world.server.made.entries)
        return (self.chance.choice([most, self.chance.randint(least, most)]),)

    def send(self) -> tuple:
        return (self.packet(len(self.world.server.withheld)),)

    def fall(self) -> tuple:
        # a clock that begins anew
        self.now = self.chance.choice([self.now, 0])
        return (self.chance.randint(0, len(self.world.server.made.entries) - self.world.server.stored),)

    def epoch(self) -> tuple:
        return (self.world.around.accounts[-1].epoch + 1,)


# `pass` is no name that Python leaves to a method.
setattr(Player, "pass", lambda player: (player.world.server.state.moment + player.chance.choice([0, 1, 4]),))
# What a long run has to meet.
MEETS = [*ODDS, "welcome", "waiting", "done", "received", "item", "swapped", "nobody", "empty", "timedout", "cancelled", "counted",
         "peeked", "drained", "2", "4", "5", "9", "10", "11"]


class Crashes(Case):
    """The world across crashes of its server."""

    is_random = True

    def test_random_lists(self) -> None:
        """5,000 occurrences, in lists of their own, none of which breaks a clause."""
        met: Counter[str] = Counter()
        worlds, count = 0, self.fixture.many(5_000)
        while met["occurred"] < count:
            player = Player(random.Random(f"{self.seed} {worlds}"))
            fault = player.list_fault(player.chance.randint(10, LONGEST))
            self.check_fault(fault and f"seed {self.seed}, list {worlds}: {fault}")
            occurred = sum(player.met[word] for word in ODDS)
            met += player.met
            met["occurred"] += occurred
            worlds += 1
        self.told = (f"{met['occurred']:,} occurrences in {worlds:,} worlds, {met['fall']:,} crashes of a server: "
                     "no clause is broken")
        lacks = [name for name in MEETS if not met[name]] if count >= FULL_RUN else []
        self.check_fault(lacks and f"seed {self.seed}: there was none of {', '.join(lacks)}")


class Rules(SelfTest):
    """The rules of the world across crashes."""

    def test_worlds_that_drop_a_rule(self) -> None:
        """Where a rule is dropped, a list that is kept breaks the clause that rests on it."""
        self.check_faults(wrong_crash_faults())
