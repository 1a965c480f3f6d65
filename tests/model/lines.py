"""Account lines (docs/FORMATS.md, section 6): how an account is written, and how lines are read as one."""
from functools import lru_cache

from tests.model.account import MAX_ENTRIES, MAX_MOMENT, Account, Entry, Tick
from tests.model.texts import MAX_IDENTIFIER, NoReading, demand, members_of, read_message, written

MAX_PARTNER = MAX_ENTRIES - 1


class BadLine(Exception):
    """The first line that has another form, by its number from 1."""


def account_text(account):
    """The lines of an account, whose bodies are compact."""
    lines = [b"epoch %d opened %d" % (account.epoch, account.opened), *map(entry_line, account.entries)]
    return b"".join(line + b"\n" for line in lines)


def entry_line(entry):
    """The line of an entry, without its LF."""
    partners = b",".join(b"%d" % partner for partner in entry.partners) or b"-"
    body = b"tick" if isinstance(entry.act, Tick) else written(members_of(entry.act)).encode()
    return b"%d %s %s" % (entry.moment, partners, body)


def read_account(text):
    """The account that the lines of a text are."""
    lines = text.split(b"\n")
    if not lines[-1]:
        lines.pop()
    head = read_line(1, read_head, lines[0] if lines else b"")
    entries = tuple(read_line(number, read_entry, line) for number, line in enumerate(lines[1:], 2))
    return Account(*head, entries)


def read_line(number, read, line):
    """What a line says, whose number is told where it says nothing, and where it is one entry line too many."""
    try:
        demand(number <= 1 + MAX_ENTRIES)
        return read(line)
    except NoReading as error:
        raise BadLine(number) from error


def read_head(line):
    """The epoch and the opening moment of a first line."""
    fields = line.split(b" ")
    demand(len(fields) == 4 and fields[0] == b"epoch" and fields[2] == b"opened")
    epoch = plain_number(fields[1], MAX_IDENTIFIER)
    demand(epoch >= 1)
    return epoch, plain_number(fields[3], MAX_MOMENT)


@lru_cache(maxsize=10_000)
def read_entry(line):
    """The entry of a line of three fields. White space about the JSON value belongs to the third."""
    fields = line.split(b" ", 2)
    demand(len(fields) == 3)
    moment, partners, body = fields
    return Entry(
        plain_number(moment, MAX_MOMENT),
        Tick() if body == b"tick" else read_message(body),
        () if partners == b"-" else tuple(plain_number(partner, MAX_PARTNER) for partner in partners.split(b",")),
    )


def plain_number(digits, most):
    """A number up to some most, whose digits have no zero in front."""
    demand(digits.isdigit() and len(digits) <= len(str(most)) and (digits == b"0" or digits[:1] != b"0"))
    demand(int(digits) <= most)
    return int(digits)
