"""The account that a server prints: how it is read and written, and what must hold of it beside what was told."""
from collections.abc import Iterable, Mapping

from tests.model import lines
from tests.model.account import Account, Call, Cancel, Key, Request, reply
from tests.model.tables import table_audit
from tests.sockets.wire import Members, Wrong, demand


def read_account(text: bytes) -> Account:
    """The account whose lines these are; they must be the lines that are written of it."""
    try:
        account: Account = lines.read_account(text)
    except lines.BadLine as bad:
        raise Wrong(f"line {bad} of the account is bad") from None
    demand(lines.account_text(account) == text, "the account's lines are not written as they are to be")
    return account


def call_members(call: Call) -> Members:
    """The members of a call."""
    members: Members = {"call": call.word, call.kind.members[0]: call.at}
    more = {"item": call.item, "wait": call.wait, "max": call.max}
    return {**members, **{name: value for name, value in more.items() if value is not None}}


def account_fault(account: Account, asked: Mapping[Key, Members], told: Iterable[tuple[Key, Members]]) -> str | None:
    """What is wrong with an account, if something is: it must be legal, nothing may have arrived that was not asked,
    and each reply that was told must be the one that stands in it."""
    broken = table_audit(account)
    if broken:
        return f"place {broken[0]} breaks {broken[1]}"
    for entry in account.entries:
        if isinstance(entry.act, Request) and asked.get(entry.act.key) != call_members(entry.act.call):
            return f"{entry.act} was not asked"
        if isinstance(entry.act, Cancel) and entry.act.key not in asked:
            return f"{entry.act} was not asked"
    for key, members in told:
        if reply(account.entries, key) != members:
            return f"{key} was told {members}, and {reply(account.entries, key)} stands"
    return None
