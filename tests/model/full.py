"""Accounts of as many entries as there may be, by hand, each with its verdict."""
from tests.model.account import MAX_ENTRIES

HEAD = b"epoch 1 opened 0\n"
HELLO = b'0 - {"client":%d,"incarnation":1,"kind":"hello"}\n'
ITEM = b'0 - {"call":"put","client":1,"epoch":1,"incarnation":1,"item":"","kind":"request","number":%d,"queue":3}\n'
POLL = b'0 %s {"call":"take","client":2,"epoch":1,"incarnation":1,"kind":"request","number":1,"queue":3,"wait":"now"}'
DRAIN = b'0 %s {"call":"drain","client":2,"epoch":1,"incarnation":1,"kind":"request","max":16,"number":1,"queue":3}'
TAKE = b'0 - {"call":"take","client":%d,"epoch":1,"incarnation":1,"kind":"request","number":1,"queue":3,"wait":%d}\n'
CANCEL = b'0 - {"client":%d,"epoch":1,"incarnation":1,"kind":"cancel","number":1}\n'
TICK = b"0 - tick\n"
CROWD = MAX_ENTRIES // 3
# A number that has no divisor with CROWD in common: its multiples come to each client once.
STRIDE = 7_919
DAY = 86_400_000


def ticks():
    """Each entry breaks a rule; and one line more."""
    yield HEAD + MAX_ENTRIES * TICK, "fault 0 M3"
    yield HEAD + (MAX_ENTRIES + 1) * TICK, f"bad line {MAX_ENTRIES + 2}"


def items():
    """Items of one client, of which another takes one at the last place, or drains sixteen."""
    front = HEAD + HELLO % 1 + HELLO % 2 + b"".join(ITEM % number for number in range(1, MAX_ENTRIES - 2))
    last = MAX_ENTRIES - 1
    yield front + POLL % b"2", "legal"
    yield front + POLL % b"-", f"fault {last} P4"
    yield front + POLL % (b"%d" % (last - 1)), f"fault {last} P3"
    yield front + POLL % b"1", f"fault {last} P2"
    yield front + POLL % (b"%d" % last), f"fault {last} P1"
    oldest = [b"%d" % place for place in range(2, 19)]
    yield front + DRAIN % b",".join(oldest[:16]), "legal"
    yield front + DRAIN % b",".join(oldest[:15]), f"fault {last} P4"
    yield front + DRAIN % b",".join([*oldest[:15], oldest[16]]), f"fault {last} P3"
    yield front + DRAIN % b",".join([*oldest[:15], b"%d" % (last - 1)]), f"fault {last} P3"
    yield front + DRAIN % b",".join(oldest), f"fault {last} P1"


def crowd():
    """Far more clients than a book serves all wait, each with an earlier limit than the one before, and give up in
    another order: no rule is broken by it."""
    order = [turn * STRIDE % CROWD + 1 for turn in range(CROWD)]
    front = HEAD + b"".join(HELLO % client for client in range(1, CROWD + 1))
    front += b"".join(TAKE % (client, DAY - client) for client in range(1, CROWD + 1))
    whole = front + b"".join(CANCEL % client for client in order)
    yield whole, "legal"
    yield whole + TICK, f"fault {3 * CROWD} M3"
    yield whole + CANCEL % 1, f"fault {3 * CROWD} N3"
    yield front + HELLO % CROWD, f"fault {2 * CROWD} N1"


def full_texts():
    """Each text, with its verdict."""
    for make in [ticks, items, crowd]:
        yield from make()
