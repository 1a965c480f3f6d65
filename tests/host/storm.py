"""A host beside thousands who send without end, pipeline, or take no answers: how long a good client's calls take, how soon the status
address answers, also beside thousands who say nothing there, and what memory the host has at most."""
from __future__ import annotations

import statistics
import time
import urllib.request

from tests.host.many import closing, connected
from tests.host.peers import QUEUE, kinds_of, peers
from tests.host.status import numbers
from tests.host.watch import memory, most_memory
from tests.model.account import Key
from tests.sockets.hosts import Host
from tests.sockets.programs import free_port
from tests.sockets.wire import Peer, demand, frame, hello, request, until, welcome

# The good client's calls, and its client number.
CALLS, GOOD = 1_000, 1
# The seconds for which peers connect and send before anything is measured, and the milliseconds that a call may take at the median
# and at worst, and an answer of the status address; there beside so many who say nothing, at worst of so many.
WARMING, MEDIAN, WORST, STATUS = 20, 5, 50, 100
SILENT, AMONG_SILENT, ASKED = 5_000, 1_000, 5
# The MiB of --memory, those by which the process may have more, and the seconds after which nobody's bytes are held.
MEMORY, MEMORIES, BESIDE, GONE = 256, (1, 16, 256), 40, 4


def milliseconds(peer: Peer) -> list[float]:
    """What each call of a good client took."""
    took = []
    for number in range(1, CALLS + 1):
        began = time.monotonic()
        peer.send(frame(request(Key(1, GOOD, 1, number), {"call": "count", "queue": QUEUE})))
        demand(b'"counted"' in (peer.hear() or b""), "a good client's call is not answered")
        took.append(1_000 * (time.monotonic() - began))
    return took


def looked_up(port: int) -> float:
    """The milliseconds of an answer of the status address."""
    began = time.monotonic()
    with urllib.request.urlopen(f"http://127.0.0.1:{port}/healthz", timeout=60) as answer:
        demand(answer.status == 200, f"the status address answers {answer.status}")
    return 1_000 * (time.monotonic() - began)


def beside_a_storm(program: str, count: int) -> str:
    """A good client's calls, the status address and memory are within their bounds beside all these peers."""
    status = free_port()
    options = ("--memory", str(MEMORY), "--status", f"127.0.0.1:{status}")
    with Host(program, options=options, keeps=False) as host, peers(host.port, kinds_of(count)):
        time.sleep(WARMING)
        with host.connect() as good:
            good.expect(hello(GOOD), welcome(GOOD))
            took = sorted(milliseconds(good))
        shown = max(looked_up(status) for _ in range(ASKED))
        most = most_memory(host.process.pid)
    told = (f"calls of {statistics.median(took):.1f} ms at the median and {took[-1]:.1f} at worst, the status address {shown:.1f} ms, "
            f"{most >> 10} KB at most")
    demand(statistics.median(took) <= MEDIAN and took[-1] <= WORST and shown <= STATUS, told)
    demand(most <= (MEMORY + BESIDE) << 20, told)
    return told


def memory_in_a_storm(program: str, count: int, mebibytes: int) -> str:
    """However much so many peers send, a host has no more than its --memory and what it may have beside; when they are gone it soon
    holds nothing of theirs."""
    status = free_port()
    options = ("--memory", str(mebibytes), "--status", f"127.0.0.1:{status}")
    with Host(program, options=options, keeps=False) as host:
        with peers(host.port, kinds_of(count)) as sent:
            time.sleep(WARMING)
            demand(all(sent().values()), f"of some kinds nothing was sent: {sent()}")
            held = int(numbers(status)["rv_buffer_bytes"])
        most = most_memory(host.process.pid)
        time.sleep(GONE)
        left = memory(host.process.pid)
        until("nothing is held", lambda: numbers(status)["rv_buffer_bytes"] == 0)
    told = (f"{most >> 10} KB at most, of which {held >> 10} were held of the peers; {left >> 10} KB {GONE} seconds after they left; they "
            f"sent {sum(sent().values()) >> 20} MiB")
    demand(most <= (mebibytes + BESIDE) << 20, told)
    return told


def status_beside_the_silent(program: str) -> str:
    """Whoever asks at the status address beside thousands who say nothing there is answered within a second."""
    status = free_port()
    with Host(program, options=("--status", f"127.0.0.1:{status}"), keeps=False) as host:
        host.greeted(GOOD).close()
        with closing(connected(status, SILENT)):
            took = [looked_up(status) for _ in range(ASKED)]
    told = f"beside {SILENT} who say nothing {', '.join(f'{one:.0f}' for one in took)} ms"
    demand(max(took) <= AMONG_SILENT, told)
    return told
