"""A client of the rendezvous server `rv`.

Programs hand items to each other, and learn whether they were taken:

    from rendezvous import Session

    with Session("127.0.0.1:7411") as session:
        receipt = session.transfer(3, "a")  # waits until a consumer was assigned the item
        print(receipt.by)                   # the key of that consumer's request

A call repeats its request, under one key and over new connections, until it has its one reply. It never
returns a guess: what is not known is an exception with the request's key, and `Session.again` asks that very
request again.

A worker is a loop over `Session.items`, which another thread or a signal's handler ends by its `stop`:

    for job in session.items(3):
        work_at(job)

Each session has a client number of its own, which it leases among the programs of one user on one host. Hosts that share a
server part the numbers by RV_CLIENTS in their environments: 1-512 and 513-1024, say.

A server that is started anew without a store ends the session; `Session(address, renew=True)` then begins anew by itself.

`Session(address, record=FILE)`, or RV_RECORD in the environment, keeps a record of what the session was told: each reply has its
line in that file before its call returns.

`Session("rv://A:7411,B:7411")` has alternatives of one server, and `Session()` what RV_SERVER in the environment names.
`Shards(["A:7411", "B:7411"])` shares the queues and exchangers out over several servers.

The logger `rendezvous`, silent by default, has a warning where no connection can be made, the first time and when the reason
changes, where an epoch ended and where an outcome is not known; and for information each connection, loss, pause and refusal.

`rendezvous.aio` has the same session for asyncio. `rendezvous.replies` has the types of what a request came to.
"""
from .addresses import Server
from .errors import (
    AllLeased, Cancelled, EpochEnded, Full, Interrupted, Misused, NotAsked, NotRecorded, Refused, RendezvousError, Replaced,
    TimedOut, Unsettled)
from .course import Running
from .manner import Retry
from .replies import Counted, Key, Outcome, Receipt
from .session import Items, Session
from .shards import Shards
from .unclaimed import Unclaimed

__version__ = "3.3.0"

__all__ = [
    "AllLeased", "Cancelled", "Counted", "EpochEnded", "Full", "Interrupted", "Items", "Key", "Misused", "NotAsked",
    "NotRecorded", "Outcome", "Receipt", "Refused", "RendezvousError", "Replaced", "Retry", "Running", "Server", "Session",
    "Shards", "TimedOut", "Unclaimed", "Unsettled",
]
