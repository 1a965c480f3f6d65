"""The audit of an account: twelve rules, each by its own sentence over the entries before a place, in their order
(docs/FORMATS.md, section 6). Any account has a verdict, legal or not."""
from functools import cached_property

from tests.model.account import (
    OTHER_SIDE, Cancel, Hello, Request, Tick, hellos, incarnation, last_number, open_at, overdue, waiting_of)


class Front:
    """An entry of an account, and the entries before it."""

    def __init__(self, account, place):
        self.account = account
        self.before = account.entries[:place]
        self.entry = account.entries[place]
        self.act = self.entry.act

    @property
    def side(self):
        """The side of an arrival; none of another entry."""
        return self.act.call.side if isinstance(self.act, Request) else None

    @property
    def queues(self):
        """Whether it gives or takes."""
        return self.side in ("giving", "taking")

    @property
    def exchanges(self):
        """Whether it is an arrival at an exchanger."""
        return self.side == "exchanging"

    @property
    def partners(self):
        """The places that it names."""
        return self.entry.partners

    @cached_property
    def opposites(self):
        """The open arrivals that it might meet, oldest first."""
        return open_at(self.before, OTHER_SIDE[self.side], self.act.call.at)

    @cached_property
    def unnamed(self):
        """Those of them that it does not name."""
        return [r for r in self.opposites if r not in self.partners]


def moment_falls(front):
    """The moment is below that of the place before, or of the opening."""
    return front.entry.moment < (front.before[-1].moment if front.before else front.account.opened)


def comes_too_late(front):
    """Something is due by its moment, which only a tick may find so."""
    return not isinstance(front.act, Tick) and overdue(front.before, front.entry.moment)


def ticks_for_nobody(front):
    """A tick finds nothing due by its moment."""
    return isinstance(front.act, Tick) and not overdue(front.before, front.entry.moment)


def hello_is_old(front):
    """A hello's client has said hello before with an incarnation as great or greater."""
    if not isinstance(front.act, Hello):
        return False
    earlier = hellos(front.before, front.act.client)
    return any(front.before[r].act.incarnation >= front.act.incarnation for r in earlier)


def is_of_no_session(front):
    """It has a key of another epoch, or of another incarnation than that of its client's last hello, or of no hello."""
    if not isinstance(front.act, (Request, Cancel)):
        return False
    key = front.act.key
    return key.epoch != front.account.epoch or incarnation(front.before, key.client) != key.incarnation


def number_is_wrong(front):
    """An arrival's number is not the next, or its session waits; or a cancel's is not what waits, and, where nothing
    waits, not the next."""
    if not isinstance(front.act, (Request, Cancel)):
        return False
    key = front.act.key
    waits = waiting_of(front.before, key.client)
    is_next = key.number == last_number(front.before, key.client) + 1
    if isinstance(front.act, Request):
        return not is_next or waits is not None
    return key != waits if waits else not is_next


def partners_are_taken(front):
    """It names partners and may have none, or not so many, or their places do not rise; or one of them is no earlier
    place, or is in a pair or swap already."""
    if not front.partners:
        return False
    if front.side not in OTHER_SIDE or len(front.partners) > front.act.call.may_name:
        return True
    if any(later <= earlier for earlier, later in zip(front.partners, front.partners[1:])):
        return True
    return any(is_taken(front.before, partner) for partner in front.partners)


def is_taken(before, partner):
    """Whether a place is none of these entries, or is in a pair or swap already."""
    if partner >= len(before):
        return True
    return bool(before[partner].partners) or any(partner in earlier.partners for earlier in before)


def partner_is_not_open(front):
    """It gives or takes, and one of its partners is nobody who may be met there."""
    return front.queues and any(partner not in front.opposites for partner in front.partners)


def partner_is_not_first(front):
    """It gives or takes, and passes over somebody who came before a partner and is none."""
    return front.queues and any(r < partner for partner in front.partners for r in front.unnamed)


def meets_too_few(front):
    """It gives or takes and might name more, and somebody of the other side of its queue whom it does not name may still
    be met."""
    return front.queues and len(front.partners) < front.act.call.may_name and bool(front.unnamed)


def swaps_with_another(front):
    """It exchanges, and its partner is nobody who may be met there."""
    return front.exchanges and any(partner not in front.opposites for partner in front.partners)


def swaps_with_nobody(front):
    """It exchanges alone, though somebody at its exchanger may still be met."""
    return front.exchanges and not front.partners and bool(front.opposites)


# The rules in their order. Each says whether it is broken at a place.
RULES = {
    "M1": moment_falls,
    "M2": comes_too_late,
    "M3": ticks_for_nobody,
    "N1": hello_is_old,
    "N2": is_of_no_session,
    "N3": number_is_wrong,
    "P1": partners_are_taken,
    "P2": partner_is_not_open,
    "P3": partner_is_not_first,
    "P4": meets_too_few,
    "S1": swaps_with_another,
    "S2": swaps_with_nobody,
}


def broken_rule(account, place):
    """The first rule that is broken at a place; none where all hold."""
    front = Front(account, place)
    return next((rule for rule, is_broken in RULES.items() if is_broken(front)), None)


def audit(account):
    """The least place at which a rule is broken, and the first rule there; none where the account is legal."""
    faults = ((place, broken_rule(account, place)) for place in range(len(account.entries)))
    return next((fault for fault in faults if fault[1]), None)
