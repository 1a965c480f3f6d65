"""The world across crashes of its server (docs/MODEL.md, "Across crashes"): what a server makes, stores and holds back, what a
crash leaves of it, and what clients and link do meanwhile. A list of occurrences is played; one that isn't allowed changes
nothing."""
from __future__ import annotations

from dataclasses import dataclass, field, replace

from tests.model.account import Account, Cancel, Entry, Hello, Request, Tick
from tests.model.limits import BOOK, Limits
from tests.model.state import State
from tests.model.state_after import followed_by, state_of
from tests.model.state_steps import step
from tests.model.steps import refused
from tests.model.world import NO_SUCH_PACKET, Refused, World, lists_of

NO_MEMORY = refused(11)
Message = Hello | Request | Cancel


def sender(message: Message) -> int:
    """The client that sent a message."""
    return message.client if isinstance(message, Hello) else message.key.client


def front(account: Account, length: int) -> Account:
    """An account with its first entries alone."""
    return replace(account, entries=account.entries[:length])


@dataclass(frozen=True)
class Withheld:
    """An answer to a client, and on how many entries it rests."""

    client: int
    answer: dict
    rests: int


@dataclass
class Server:
    """All that a server made, how much of it no crash takes, and the answers that it gave since it began, or began again."""

    made: Account
    state: State
    stored: int = 0
    withheld: list[Withheld] = field(default_factory=list)

    @classmethod
    def of(cls, epoch: int) -> Server:
        """A server of an epoch that has made nothing."""
        return cls(Account(epoch, 0), State(epoch, 0))

    @property
    def stored_account(self) -> Account:
        """What no crash takes."""
        return front(self.made, self.stored)

    def extend(self, entries: tuple[Entry, ...], state: State) -> None:
        """Makes entries more."""
        self.made, self.state = replace(self.made, entries=self.made.entries + entries), state


class CrashWorld:
    """A world whose present account is what its server has stored. Each method named do_ is an occurrence."""

    def __init__(self, limits: Limits = BOOK) -> None:
        self.limits, self.around, self.server = limits, World(), Server.of(1)

    # ---- the rules that a wrong world drops, each by a method

    def rests_on(self, message: Message, before: int, entries: tuple[Entry, ...], answer: dict) -> int:
        """On how many entries an answer rests: on all behind its step, and one for want of memory on none."""
        return 0 if answer == NO_MEMORY else before + len(entries)

    def state_of_step(self) -> State:
        """The state from which a step is made, whose moment isn't below that of the last entry."""
        return self.server.state

    def left_of(self, left: int) -> Account:
        """What a crash leaves: all that is stored, and a front of the rest."""
        return front(self.server.made, self.server.stored + left)

    def withheld_of_crash(self) -> list[Withheld]:
        """The answers that a crash leaves."""
        return []

    def begin_epoch(self, epoch: int) -> None:
        """A server of a greater epoch begins with nothing."""
        self.around.do_epoch(epoch)
        self.server = Server.of(epoch)

    # ---- what occurs

    def occur(self, word: str, *given: object) -> bool:
        """Has something occur; whether it was allowed. What isn't, or occurs in no such world, changes nothing."""
        deed = getattr(self, f"do_{word}", None)
        if deed is None:
            return False
        try:
            deed(*given)
        except Refused:
            return False
        self.around.accounts[-1] = self.server.stored_account
        return True

    def message(self, packet: int) -> Message:
        """A message that was sent."""
        if packet >= len(self.around.to_server):
            raise Refused(NO_SUCH_PACKET)
        return self.around.to_server[packet]

    def do_step(self, packet: int, moment: int, lacks: str = "") -> None:
        """A step with a message. Memory may be lacking for its own entry, or for its answer's text."""
        message, before = self.message(packet), len(self.server.made.entries)
        made = step(self.state_of_step(), moment, message, self.limits)
        entries, state, answer = made.entries, made.state, made.answer
        if lacks == "entry" and entries and not isinstance(entries[-1].act, Tick):
            entries, answer = entries[:-1], NO_MEMORY
            state = followed_by(self.server.state, entries[0]).state if entries else self.server.state
        elif lacks == "text" and {"item", "texts"} & answer.keys():
            answer = NO_MEMORY
        self.server.extend(entries, state)
        rests = self.rests_on(message, before, entries, answer)
        self.server.withheld.append(Withheld(sender(message), answer, rests))

    def do_pass(self, moment: int) -> None:
        """Time alone."""
        state = self.server.state
        if moment < state.moment:
            raise Refused("a moment that fell")
        if state.due(moment):
            entry = Entry(moment, Tick())
            self.server.extend((entry,), followed_by(state, entry).state)

    def do_lack(self, packet: int) -> None:
        """No memory is told for a message, and no step is made."""
        self.server.withheld.append(Withheld(sender(self.message(packet)), NO_MEMORY, 0))

    def do_store(self, count: int | None = None) -> None:
        """So many entries are stored, or all."""
        count = len(self.server.made.entries) if count is None else count
        if not self.server.stored <= count <= len(self.server.made.entries):
            raise Refused("less than was stored, or more than there is")
        self.server.stored = count

    def do_fall(self, left: int) -> None:
        """The server crashes, and of what wasn't stored so much is left."""
        made = self.left_of(left)
        kept = self.withheld_of_crash()
        self.server = Server(made, state_of(made), min(self.server.stored, len(made.entries)), kept)

    def do_send(self, number: int = -1) -> None:
        """An answer is sent that is held back, once what it rests on is stored."""
        if not -len(self.server.withheld) <= number < len(self.server.withheld):
            raise Refused("no such answer")
        held = self.server.withheld[number]
        if held.rests > self.server.stored:
            raise Refused("what it rests on isn't stored")
        self.around.to_client.append((held.client, held.answer))

    def do_epoch(self, epoch: int) -> None:
        self.begin_epoch(epoch)

    def do_start(self, client: int, incarnation: int, version: int = 1) -> None:
        self.around.do_start(client, incarnation, version)

    def do_begin(self, client: int, call: object) -> None:
        self.around.do_begin(client, call)

    def do_resend(self, client: int) -> None:
        self.around.do_resend(client)

    def do_cancel(self, client: int) -> None:
        self.around.do_cancel(client)

    def do_crash(self, client: int) -> None:
        self.around.do_crash(client)

    def do_client(self, packet: int) -> None:
        self.around.do_client(packet)

    # ---- the world as it is stored, and as it was made

    def stored_world(self) -> World:
        """The world whose present account is what is stored."""
        return replace(self.around, accounts=[*self.around.accounts[:-1], self.server.stored_account])

    def made_world(self) -> World:
        """The world whose present account is all that the server made."""
        return replace(self.around, accounts=[*self.around.accounts[:-1], self.server.made])

    def lists(self) -> tuple:
        """What the stored world has so far."""
        return lists_of(self.stored_world())
