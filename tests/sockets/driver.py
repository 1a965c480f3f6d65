"""The driver of crowds: many clients at once at one server, what goes on beside them, and what must hold at its end of all
that they were told."""
import threading
from collections.abc import Callable, Iterable

from tests.model.account import Account
from tests.sockets.accounts import account_fault
from tests.sockets.judge import crowd_fault
from tests.sockets.ledger import Left, Ledger
from tests.sockets.programs import Served
from tests.sockets.standing import Replies
from tests.sockets.wire import PATIENCE, demand, together

# So many replies are looked up by the model's definition too, which takes as long as the account for each. Of more, as many
# as these.
MOST, SAMPLE = 1_000, 60
# What clients do, and what goes on beside them until an event is set.
Clients = Iterable[Callable[[], object]]
Beside = Callable[[threading.Event], object]


def drive(server: Served, ledger: Ledger, clients: Clients, *, beside: Iterable[Beside] = (), limit: float = 10 * PATIENCE,
          calm: Callable[[], object] | None = None, rest: Callable[[], Left] | None = None, end: Callable[[], object]) -> Account:
    """Drives a crowd to its end, and judges what all of it was told. Gives the account with which the server ended.

    All clients run at once, each in a thread, and so does what goes on `beside` them: it is given an event, which is set
    when the last client is done. Then all becomes `calm`; one client takes the `rest`, and gives what was left; and `end`
    sees that the server ends."""
    run_at_once(clients, beside, limit)
    if calm:
        calm()
    left = rest() if rest else None
    end()
    return judged(server, ledger, left)


def run_at_once(clients: Clients, beside: Iterable[Beside], limit: float) -> None:
    """Runs all clients at once, and what goes on beside them until these are done."""
    done = threading.Event()

    def all_clients() -> None:
        try:
            together(*clients, limit=limit)
        finally:
            done.set()

    together(all_clients, *(lambda part=part: part(done) for part in beside), limit=limit + PATIENCE)


def judged(server: Served, ledger: Ledger, left: Left | None = None) -> Account:
    """The account with which a server ends behind a crowd. It must be legal, also by `rv audit`; nothing may have arrived
    that no client asked; and each reply that was told must stand in it, also by `rv verify`. Where all was taken that was left,
    nothing may be lost, or be told to two."""
    fault = crowd_fault(ledger, left) if left is not None else None
    demand(not fault, f"{len(ledger.asked)} requests: {fault}")
    account, told = server.ended(), list(ledger.told.items())
    fault = account_fault(account, ledger.asked, told if len(told) <= MOST else told[:: len(told) // SAMPLE])
    demand(not fault, f"the account: {fault}")
    stand = Replies(account).made
    for key, members in told:
        demand(stand.get(key) == members, f"{key} was told {members}, and {stand.get(key)} stands")
    server.audited()
    server.verified(ledger.asked, told)
    return account
