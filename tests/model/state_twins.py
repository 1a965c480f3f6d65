"""Accounts with the same state: random changes of an account, some of which leave the state as it is. Two such
accounts have to go on alike (docs/MODEL.md, sections 7 and 9)."""
from dataclasses import replace

from tests.model.account import Account, Hello, Request
from tests.model.state import State
from tests.model.state_after import state_of
from tests.model.tables import table_audit


def needed(state):
    """What steps ask for of a state: all but the moments at which what waits came."""
    places = {where: tuple(replace(there, came=None) for there in places) for where, places in state.open.items()}
    return State(state.epoch, state.moment, state.length, places, state.clients)


class Twins:
    """Changes of an account."""

    def __init__(self, chance, account):
        self.chance = chance
        self.account = account
        self.needed = needed(state_of(account))

    def twin(self):
        """Another legal account with the same state, if some changes give one."""
        changed = self.account
        for _ in range(self.chance.choice([1, 1, 2, 3])):
            changed = self.change(changed)
        if changed == self.account or changed.opened > self.account.own_moment() or table_audit(changed):
            return None
        return changed if needed(state_of(changed)) == self.needed else None

    def change(self, account):
        """An account with one change."""
        if not account.entries:
            return account
        changes = [self.opening, self.moment, self.moment, self.item, self.version, self.keys, self.call]
        return self.chance.choice([*changes, self.order, self.order])(account)

    def opening(self, account):
        """Another opening moment."""
        return replace(account, opened=max(0, account.entries[0].moment - self.chance.choice([0, 0, 1, 2])))

    def place(self, account, kind):
        """The place of an entry of a kind, often of the last; none where none is there."""
        places = [j for j, entry in enumerate(account.entries) if isinstance(entry.act, kind)]
        return self.chance.choice([places[-1], self.chance.choice(places)]) if places else None

    def moment(self, account):
        """Another moment of an entry, often of the last arrival: that of a neighbour, or the next to its own."""
        j = self.place(account, self.chance.choice([object, Request, Request]))
        if j is None:
            return account
        moments = [account.opened, *(entry.moment for entry in account.entries)]
        near = [*moments[j : j + 3 : 2] * 2, moments[j + 1] - 1, moments[j + 1] + 1]
        return with_entry_at(account, j, moment=max(0, self.chance.choice(near)))

    def order(self, account):
        """Two neighbours change places."""
        if len(account.entries) < 2:
            return account
        j = self.chance.randrange(len(account.entries) - 1)
        entries, names = list(account.entries), {j: j + 1, j + 1: j}
        entries[j : j + 2] = entries[j + 1], entries[j]
        return Account(account.epoch, account.opened, tuple(
            replace(entry, partners=tuple(sorted(names.get(partner, partner) for partner in entry.partners)))
            for entry in entries))

    def item(self, account):
        """Another item of an arrival that has one."""
        j = self.place(account, Request)
        if j is None or account.entries[j].act.call.item is None:
            return account
        return with_call(account, j, replace(account.entries[j].act.call, item=self.chance.choice(["a", "b"])))

    def call(self, account):
        """The call of another arrival, in which the item stays."""
        j, k = self.place(account, Request), self.place(account, Request)
        if j is None:
            return account
        own, other = account.entries[j].act.call, account.entries[k].act.call
        return with_call(account, j, other if other.item is None else replace(other, item=own.item or other.item))

    def version(self, account):
        """The other version of a hello."""
        j = self.place(account, Hello)
        if j is None:
            return account
        hello = account.entries[j].act
        return with_entry_at(account, j, act=replace(hello, version=3 - hello.version))

    def keys(self, account):
        """Two arrivals change their keys."""
        j, k = self.place(account, Request), self.place(account, Request)
        if j is None:
            return account
        acts = [account.entries[place].act for place in (j, k)]
        account = with_entry_at(account, j, act=replace(acts[0], key=acts[1].key))
        return with_entry_at(account, k, act=replace(acts[1], key=acts[0].key))


def with_call(account, j, call):
    """The account with another call of an arrival."""
    return with_entry_at(account, j, act=replace(account.entries[j].act, call=call))


def with_entry_at(account, j, **members):
    """The account with other members of one entry."""
    entries = list(account.entries)
    entries[j] = replace(entries[j], **members)
    return replace(account, entries=tuple(entries))
