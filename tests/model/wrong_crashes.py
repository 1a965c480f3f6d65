"""Worlds across crashes of which each drops one rule, and for each a list of occurrences by which it breaks a clause, while the
right world breaks none on the same list."""
from __future__ import annotations

from collections.abc import Iterator
from dataclasses import replace

from tests.model.account import Account, Call, Entry, Tick
from tests.model.crash_laws import faults
from tests.model.crash_world import CrashWorld, Message, Server, Withheld, front
from tests.model.state import State
from tests.model.state_after import state_of

PUT, OTHER_PUT = Call("put", 3, "a"), Call("put", 3, "b")
TAKE, TAKE_NOW = Call("take", 3, wait="forever"), Call("take", 3, wait="now")
TRANSFER, TRANSFER_NOW, TRANSFER_5 = Call("transfer", 3, "a", "forever"), Call("transfer", 3, "a", "now"), Call("transfer", 3, "a", 5)
COUNT = Call("count", 3)
# A client's welcome: its hello is heard, stored and answered, and it hears that.
STORED, SENT = ("store",), ("send",)


def welcomed(client: int, sent: int, told: int, incarnation: int = 1) -> list[tuple]:
    """What has a client welcomed, whose hello is this message, and whose welcome this answer."""
    return [("start", client, incarnation), ("step", sent, 0), STORED, SENT, ("client", told)]


TWO = [*welcomed(1, 0, 0), *welcomed(2, 1, 1)]


class SendsAtOnce(CrashWorld):
    """It sends each answer before anything is stored."""

    def rests_on(self, message: Message, before: int, entries: tuple[Entry, ...], answer: dict) -> int:
        return 0


class RestsOnWhatWasBefore(CrashWorld):
    """It sends an answer once the entries before its step are stored."""

    def rests_on(self, message: Message, before: int, entries: tuple[Entry, ...], answer: dict) -> int:
        return before


class RestsOnItsTick(CrashWorld):
    """It sends an answer once its tick is stored."""

    def rests_on(self, message: Message, before: int, entries: tuple[Entry, ...], answer: dict) -> int:
        return before + len([entry for entry in entries if isinstance(entry.act, Tick)])


class SendsFreely(CrashWorld):
    """It sends at once what makes no entry of its own of some kinds: it thinks that this rests on nothing."""

    kinds: tuple[str, ...] = ()

    def rests_on(self, message: Message, before: int, entries: tuple[Entry, ...], answer: dict) -> int:
        return 0 if answer["kind"] in self.kinds else super().rests_on(message, before, entries, answer)


class SendsRepeatsFreely(CrashWorld):
    """It sends a reply that stood before at once."""

    def rests_on(self, message: Message, before: int, entries: tuple[Entry, ...], answer: dict) -> int:
        is_repeat = answer["kind"] == "reply" and not entries
        return 0 if is_repeat else super().rests_on(message, before, entries, answer)


class SendsWelcomesFreely(SendsFreely):
    kinds = ("welcome",)


class SendsWaitingFreely(SendsFreely):
    kinds = ("waiting",)


class SendsRefusalsFreely(SendsFreely):
    kinds = ("refused",)


class CutsWhatIsStored(CrashWorld):
    """A crash leaves less than what is stored."""

    def left_of(self, left: int) -> Account:
        return front(self.server.made, left)


class LetsMomentsFall(CrashWorld):
    """It goes on by a clock that begins anew, below the moment of the last entry."""

    def state_of_step(self) -> State:
        return replace(self.server.state, moment=0)


class OutlivesItsServer(CrashWorld):
    """An answer that was held back is sent after a crash, by what is stored then."""

    def withheld_of_crash(self) -> list[Withheld]:
        return self.server.withheld


class GoesOnFromACopy(CrashWorld):
    """It goes on from a copy of what was stored that is older by some entries."""

    def left_of(self, left: int) -> Account:
        return front(self.server.made, max(0, self.server.stored - 1))


class HasASecondServer(CrashWorld):
    """A second server of the same epoch begins with a front of what is stored, and stores beside the first."""

    def do_second(self, length: int) -> None:
        account = front(self.server.made, length)
        self.server = Server(account, state_of(account), length)


class ForgetsAnEpoch(CrashWorld):
    """A server takes an epoch again, with nothing in it."""

    def begin_epoch(self, epoch: int) -> None:
        account = Account(self.around.accounts[-1].epoch, 0)
        self.around.accounts.append(account)
        self.server = Server.of(account.epoch)


class ServesOn(CrashWorld):
    """The server of an old epoch serves on, and what it stores there stands in no account of the world."""

    def begin_epoch(self, epoch: int) -> None:
        old = self.server
        super().begin_epoch(epoch)
        self.old = old

    def do_old(self, packet: int) -> None:
        """The old server hears a message, stores what it makes, and answers."""
        present, self.server = self.server, self.old
        self.do_step(packet, 0)
        self.do_store()
        self.do_send()
        self.server = present


class HasALostTail(CrashWorld):
    """Lines of a tail that a crash had cut stand after what is stored next, where that is shorter."""

    def __init__(self) -> None:
        super().__init__()
        self.lost: tuple[Entry, ...] = ()
        self.cut = 0

    def do_fall(self, left: int) -> None:
        self.cut = self.server.stored + left
        self.lost = self.server.made.entries[self.cut:]
        super().do_fall(left)

    def do_store(self, count: int | None = None) -> None:
        super().do_store(count)
        entries = self.server.made.entries
        made = replace(self.server.made, entries=entries + self.lost[len(entries) - self.cut:])
        self.server.made, self.server.stored, self.lost = made, len(made.entries), ()


# The transfer of client 1 arrives and waits, and what client 2 asks meets it; nothing of that is stored.
MEETS = [*TWO, ("begin", 1, TRANSFER), ("step", 2, 0), ("begin", 2, TAKE_NOW)]
WRONG: list[tuple[str, type[CrashWorld], str, list[tuple]]] = [
    ("sent before anything is stored", SendsAtOnce, "no_two_replies",
     [*MEETS, STORED, ("step", 3, 0), SENT, ("fall", 0), ("cancel", 1), ("step", 4, 1), STORED, SENT, ("step", 3, 2), STORED, SENT]),
    ("sent once the entries before its step are stored", RestsOnWhatWasBefore, "no_two_replies",
     [*MEETS, STORED, ("step", 3, 0), SENT, ("fall", 0), ("cancel", 1), ("step", 4, 1), STORED, SENT, ("step", 3, 2), STORED, SENT]),
    ("sent once its tick is stored", RestsOnItsTick, "no_two_replies",
     [*TWO, ("begin", 1, TRANSFER_5), ("step", 2, 0), STORED, ("begin", 2, PUT), ("step", 3, 9), ("store", 4), SENT, ("fall", 0)]),
    ("a repeat that is sent freely", SendsRepeatsFreely, "no_two_replies",
     [*TWO, ("begin", 1, PUT), ("step", 2, 0), ("step", 2, 1), SENT, ("fall", 0)]),
    ("a welcome that is sent freely", SendsWelcomesFreely, "nobody_is_forgotten",
     [("start", 1, 1), ("step", 0, 0), SENT, ("fall", 0), ("client", 0), ("begin", 1, PUT), ("step", 1, 1), STORED, SENT]),
    ("a waiting that is sent freely", SendsWaitingFreely, "every_answer",
     [*TWO, ("begin", 1, TRANSFER), ("step", 2, 0), SENT, ("fall", 0)]),
    ("a refusal that is sent freely", SendsRefusalsFreely, "every_answer",
     [*TWO, ("start", 1, 2), ("begin", 2, PUT), ("step", 2, 0), ("start", 1, 3), ("step", 4, 0), ("step", 2, 0), SENT, ("fall", 0)]),
    ("a cut below what is stored", CutsWhatIsStored, "no_two_replies",
     [*TWO, ("begin", 1, PUT), ("step", 2, 0), STORED, SENT, ("fall", 2)]),
    ("a moment that falls", LetsMomentsFall, "legal_accounts",
     [*TWO, ("begin", 1, PUT), ("step", 2, 9), STORED, ("fall", 0), ("begin", 2, PUT), ("step", 3, 4)]),
    ("an answer that outlives its server", OutlivesItsServer, "no_two_replies",
     [*TWO, ("begin", 1, PUT), ("begin", 2, TAKE_NOW), ("step", 2, 0), ("step", 3, 0), ("fall", 0), ("step", 3, 1), ("step", 2, 1),
      STORED, ("send", 1), ("send", 3)]),
    ("a server that goes on from an older copy", GoesOnFromACopy, "only_growth",
     [*TWO, ("begin", 1, PUT), ("step", 2, 0), STORED, SENT, ("fall", 0)]),
    ("a second server", HasASecondServer, "no_two_replies",
     [*TWO, ("begin", 1, PUT), ("step", 2, 0), STORED, SENT, ("client", 2), ("begin", 2, TAKE_NOW), ("step", 3, 0), STORED, SENT,
      ("second", 2), ("step", 3, 1), STORED, SENT]),
    ("an epoch that was forgotten", ForgetsAnEpoch, "legal_accounts",
     [*TWO, ("begin", 1, PUT), ("step", 2, 0), STORED, SENT, ("epoch", 2), ("begin", 2, TAKE_NOW)]),
    ("an old epoch's server that serves on", ServesOn, "every_answer",
     [*TWO, ("begin", 1, PUT), ("epoch", 2), ("old", 2)]),
    ("a lost tail behind what is stored", HasALostTail, "legal_accounts",
     [*TWO, ("begin", 1, PUT), ("begin", 2, COUNT), ("step", 2, 0), ("step", 3, 0), ("fall", 0), ("step", 3, 1), STORED]),
]


def played(crash: CrashWorld, occurrences: list[tuple]) -> dict[str, str]:
    """The clauses that a world breaks at any time as it plays a list."""
    found: dict[str, str] = {}
    before = crash.lists()
    for occurrence in occurrences:
        if crash.occur(*occurrence):
            found = {**faults(crash, before), **found}
            before = crash.lists()
    return found


def wrong_crash_faults() -> Iterator[tuple[str, str | None]]:
    """Each wrong world by its name, with that its list doesn't show it, if it doesn't."""
    for name, wrong, clause, occurrences in WRONG:
        found = played(wrong(), occurrences)
        yield name, None if clause in found else f"{clause} isn't broken, but {found}"
        right = played(CrashWorld(), occurrences)
        yield f"{name}, by the right world", str(right) if right else None
