"""The audit again, with tables that are kept entry by entry: for accounts of many entries. It is compared with the
plain one wherever that is quick enough.

Before the first fault the entries are a legal account, and so each client has one session and at most one request that
waits, and an exchanger at most one.
"""
import heapq
from collections import OrderedDict
from dataclasses import dataclass
from itertools import islice

from tests.model.account import OTHER_SIDE, Cancel, Hello, Request, Tick, stays


@dataclass
class Session:
    incarnation: int
    last: int = 0
    waits: int | None = None


class Tables:
    """What is left of the entries so far."""

    def __init__(self, account):
        self.account = account
        self.moment = account.opened
        self.sessions = {}
        self.open = {}
        self.limits = []
        self.paired = set()

    def opposites(self, call):
        """The places that an arrival with this call might meet, oldest first."""
        return self.open.get((OTHER_SIDE[call.side], call.at), {})

    def is_overdue(self, moment):
        """Whether a request that waits has a limit at or below the moment."""
        while self.limits and not self.is_at(self.limits[0][1]):
            heapq.heappop(self.limits)
        return bool(self.limits) and self.limits[0][0] <= moment

    def is_at(self, place):
        """Whether the request at a place is still open."""
        call = self.account.entries[place].act.call
        return place in self.open.get((call.side, call.at), {})

    def fault(self, place, entry):
        """The first rule that an entry breaks, if it breaks one."""
        is_tick, overdue = isinstance(entry.act, Tick), self.is_overdue(entry.moment)
        if entry.moment < self.moment:
            return "M1"
        if overdue != is_tick:
            return "M3" if is_tick else "M2"
        return self.number_fault(entry.act) or self.pair_fault(place, entry)

    def number_fault(self, act):
        """The first rule on numbers that an act breaks, if it breaks one."""
        if isinstance(act, Tick):
            return None
        if isinstance(act, Hello):
            session = self.sessions.get(act.client)
            return "N1" if session and session.incarnation >= act.incarnation else None
        session = self.sessions.get(act.key.client)
        if not session or (act.key.epoch, act.key.incarnation) != (self.account.epoch, session.incarnation):
            return "N2"
        if session.waits is None:
            return None if act.key.number == session.last + 1 else "N3"
        return None if isinstance(act, Cancel) and act.key.number == session.last else "N3"

    def pair_fault(self, place, entry):
        """The first rule on pairs and swaps that an entry breaks, if it breaks one."""
        call = entry.act.call if isinstance(entry.act, Request) else None
        most, partners = call.may_name if call else 0, entry.partners
        rise = all(earlier < later for earlier, later in zip(partners, partners[1:]))
        if partners and (len(partners) > most or not rise or partners[-1] >= place or self.paired.intersection(partners)):
            return "P1"
        if not most:
            return None
        opposites, swaps = self.opposites(call), call.side == "exchanging"
        if any(partner not in opposites for partner in partners):
            return "S1" if swaps else "P2"
        if list(partners) != list(islice(opposites, len(partners))):
            return "P3"
        if len(partners) < min(most, len(opposites)):
            return "S2" if swaps else "P4"
        return None

    def add(self, place, entry):
        """Takes an entry that breaks no rule."""
        self.moment = entry.moment
        match entry.act:
            case Hello(client, incarnation):
                self.leave(client)
                self.sessions[client] = Session(incarnation)
            case Cancel(key):
                self.leave(key.client)
                self.sessions[key.client].last = key.number
            case Request(key, call):
                self.sessions[key.client].last = key.number
                self.arrive(place, entry, call)
            case Tick():
                while self.is_overdue(entry.moment):
                    self.leave(self.account.entries[self.limits[0][1]].act.key.client)

    def arrive(self, place, entry, call):
        """An arrival meets its partner, or is open where it stays."""
        if entry.partners:
            self.paired |= {place, *entry.partners}
            for partner in entry.partners:
                self.close(partner)
        elif stays(call):
            self.open.setdefault((call.side, call.at), OrderedDict())[place] = None
            if call.word != "put":
                self.sessions[entry.act.key.client].waits = place
            if isinstance(call.wait, int):
                heapq.heappush(self.limits, (entry.moment + call.wait, place))

    def leave(self, client):
        """What waits of a client does so no longer."""
        session = self.sessions.get(client)
        if session and session.waits is not None:
            self.close(session.waits)

    def close(self, place):
        """An arrival is open no longer."""
        act = self.account.entries[place].act
        del self.open[act.call.side, act.call.at][place]
        if self.sessions[act.key.client].waits == place:
            self.sessions[act.key.client].waits = None


def table_audit(account):
    """The least place at which a rule is broken, and the first rule there; none where the account is legal."""
    tables = Tables(account)
    for place, entry in enumerate(account.entries):
        rule = tables.fault(place, entry)
        if rule:
            return place, rule
        tables.add(place, entry)
    return None
