"""The replies that stand in an account, in one walk, for accounts that are too long for the model's definition."""
from __future__ import annotations

from collections import OrderedDict

from tests.model.account import Account, Call, Cancel, Entry, Hello, Key, Request, Tick, stays
from tests.sockets.wire import Members


class Replies:
    """The reply of each key in a legal account, in one walk."""

    def __init__(self, account: Account):
        self.entries = account.entries
        # The open places by side and queue or exchanger; by key the replies; by client the place that waits, and the version.
        self.open: dict[tuple[str, int], OrderedDict[int, bool]] = {}
        self.made: dict[Key, Members] = {}
        self.waits: dict[int, int] = {}
        self.versions: dict[int, int] = {}
        for place, entry in enumerate(self.entries):
            self.walk(place, entry)

    def walk(self, place: int, entry: Entry) -> None:
        """What an entry settles."""
        act = entry.act
        if isinstance(act, Tick):
            for r in [r for r in self.waits.values() if self.is_due(r, entry.moment)]:
                self.stop(r, "timedout")
        elif isinstance(act, Hello):
            self.stop(self.waits.get(act.client), "cancelled")
            self.versions[act.client] = act.version
        elif isinstance(act, Cancel):
            waits = self.waits.get(act.key.client)
            self.stop(waits, "cancelled")
            if waits is None:
                self.made[act.key] = {"reply": "cancelled"}
        else:
            self.arrive(place, act, entry.partners)

    def is_due(self, r: int, moment: int) -> bool:
        """Whether the request at a place has a limit at or below a moment."""
        wait = self.entries[r].act.call.wait
        return isinstance(wait, int) and self.entries[r].moment + wait <= moment

    def stop(self, r: int | None, word: str) -> None:
        """The request at a place waits no more."""
        if r is not None:
            self.leave(r)
            self.made[self.entries[r].act.key] = {"reply": word}

    def leave(self, r: int) -> None:
        """A place is open no more."""
        act = self.entries[r].act
        self.open[act.call.side, act.call.at].pop(r)
        if not act.call.kind.rests:
            self.waits.pop(act.key.client, None)

    def there(self, side: str, at: int) -> OrderedDict[int, bool]:
        """The open places of a side, oldest first."""
        return self.open.setdefault((side, at), OrderedDict())

    def arrive(self, place: int, act: Request, partners: tuple[int, ...]) -> None:
        """A request is settled, or its place is open."""
        call = act.call
        if partners or call.max is not None:
            self.meet_all(act, partners)
        elif call.side == "looking":
            self.made[act.key] = self.look(call)
        elif call.kind.rests:
            self.made[act.key] = {"reply": call.kind.unmet}
            self.there(call.side, call.at)[place] = True
        elif stays(call):
            self.there(call.side, call.at)[place] = True
            self.waits[act.key.client] = place
        else:
            self.made[act.key] = {"reply": call.kind.unmet if call.wait == "now" else "timedout"}

    def meet_all(self, act: Request, partners: tuple[int, ...]) -> None:
        """A request meets its partners, of which a drain may have none."""
        others = [self.entries[partner].act for partner in partners]
        for partner, other in zip(partners, others):
            self.leave(partner)
            self.meet(other, [act])
        self.meet(act, others)

    def meet(self, act: Request, others: list[Request]) -> None:
        """What a request is told that met others."""
        items, kind = [other.call.item for other in others], act.call.kind
        more: Members = {}
        if "max" in kind.members:
            more = {"texts": items}
        elif kind.side != "giving":
            more = {"item": items[0]}
        elif not kind.rests:
            more = self.named(act.key.client, others[0].key)
        self.made[act.key] = {"reply": kind.met, **more}

    def named(self, client: int, taker: Key) -> Members:
        """The consumer's key, as a client's session is told it."""
        members = {f"by_{name}": value for name, value in vars(taker).items() if name != "epoch"}
        return members if self.versions[client] == 2 else {}

    def look(self, call: Call) -> Members:
        """What a count or a peek is told."""
        items = self.there("giving", call.at)
        if call.word == "count":
            return {"reply": "counted", "items": len(items), "consumers": len(self.there("taking", call.at))}
        if not items:
            return {"reply": "empty"}
        return {"reply": "peeked", "item": self.entries[next(iter(items))].act.call.item}
