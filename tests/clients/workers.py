"""Workers from the shell on a live server: each item's command runs once, and a failure names the request of its receipt."""
import re
import signal

import rendezvous as rv
from tests.clients.presence import account_of
from tests.sockets.hosts import Host, HostProgram
from tests.sockets.wire import PATIENCE, demand, until
from working import Working

QUEUE, ITEMS = "3", [f"item {number}" for number in range(40)]
# It prints its item, and fails where that ends in 7.
COMMAND = ["sh", "-c", 'echo "$1"; test "${1%7}" = "$1"', "sh"]
# What the signal is told to have met.
ENDINGS = ("stopped, and no item was taken", "stops after this command, or at once by a second signal",
           "an item came meanwhile; stops after its command, or at once by a second signal")
STOPPED = re.compile(f"rendezvous work: SIGTERM: ({'|'.join(ENDINGS)})")


def session(server):
    """A session of a number of its own, which waits long on a slow machine."""
    return rv.Session(("127.0.0.1", server.port), 1, 1, patience=PATIENCE, answer=PATIENCE / 2, connect_timeout=None)


def two_workers(program: str) -> str:
    """They share a queue until a SIGTERM. Each item is handed over to one of them, in order, and each failure is told with its
    receipt's consumer."""
    with Host(HostProgram(program)) as server, session(server) as giver:
        address = f"127.0.0.1:{server.port}"
        with Working(address, COMMAND, QUEUE) as first, Working(address, COMMAND, QUEUE) as second:
            until("both wait", lambda: giver.count(int(QUEUE)).consumers == 2)
            receipts = {item: giver.transfer(int(QUEUE), item) for item in ITEMS}
            for one in (first, second):
                one.process.send_signal(signal.SIGTERM)
            ended = [one.ends() for one in (first, second)]
        account_of(server)
    printed, said = ([text.splitlines() for text in texts] for texts in list(zip(*ended))[:2])
    places = [[ITEMS.index(item) for item in each] for each in printed]
    demand(sorted(sum(printed, [])) == sorted(ITEMS) and all(each == sorted(each) for each in places), f"they did {printed}")
    failed = [f"rendezvous work: item of request {'/'.join(map(str, receipts[item].by))}: the command ended with status 1"
              for item in ITEMS if item.endswith("7")]
    demand(sorted(line for line in sum(said, []) if not STOPPED.fullmatch(line)) == sorted(failed), f"they said {said}")
    demand([status for _, _, status in ended] == [0, 0], f"they ended by {ended}")
    return f"of {len(ITEMS)} items one did {len(printed[0])}"


def what_is_there(program: str) -> None:
    """A worker that waits for nothing does what is there, in order, and says by its status that the queue is empty."""
    with Host(HostProgram(program)) as server, session(server) as giver:
        for item in ITEMS[:5]:
            giver.put(int(QUEUE), item)
        with Working(f"127.0.0.1:{server.port}", ["cat"], QUEUE, "--wait", "0s", "--stdin") as one:
            demand(one.ends() == ("".join(ITEMS[:5]), "", 3), "it did something else")
        account_of(server)


CASES = [two_workers, what_is_there]
