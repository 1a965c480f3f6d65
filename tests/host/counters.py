"""The faults that a host counts: each is made, and then its own number has risen, and no other one."""
from __future__ import annotations

import contextlib
import os
import re
from typing import Any

from tests.faults.system import HostileHost, System
from tests.host.hostile import ask_and_never_read
from tests.host.many import closing, connected, no_descriptors
from tests.host.memory import BEHIND, MORE, half_frame, wait_behind
from tests.host.moments import KEPT, QUESTIONS, is_silent
from tests.model.account import Key
from tests.host.status import numbers, shows
from tests.sockets.programs import free_port
from tests.sockets.wire import demand, frame, give, hello, request, together, until

# Connections that take the last descriptors.
CROWD = 20
# The MiB of --memory, and the seconds for which it may be full.
MEBIBYTE, FULL = 1, 1
# The clock fails once in so many times that it is read.
CLOCK = 3
# A put of an item whose line is long takes fewer growths than this; and so many are refused, turn after turn, where lines find
# no memory.
GROWTHS, REFUSALS, LONG = 200, 10, "\x01" * 512
FAULT = re.compile(r"rv_fault_(\w+)_total")
Faults = dict[str, int]


class Counting(HostileHost):
    """A host with a status address, in a system of its own."""

    def __init__(self, program: str, *options: str, **more: Any):
        self.status_port = free_port()
        super().__init__(program, System(), options=("--status", f"127.0.0.1:{self.status_port}", *options), **more)

    def faults(self) -> Faults:
        """The faults that it counted, by kind; those that never came are left out."""
        named = ((FAULT.fullmatch(name), count) for name, count in numbers(self.status_port).items())
        return {name[1]: int(count) for name, count in named if name and count}

    def counts(self, *wanted: Faults) -> None:
        """It comes to count one of these, and never another kind."""
        kinds = {kind for faults in wanted for kind in faults}

        def is_told() -> bool:
            told = self.faults()
            demand(told.keys() <= kinds, f"it counts {told}, and only {sorted(kinds)} came")
            return told in wanted

        until(f"it counts {wanted}", is_told)
        self.halt()


def idle_connections(program: str) -> None:
    """Who says nothing counts as idle, each once."""
    with Counting(program, "--idle", "1") as host, closing(connected(host.port, 2)):
        host.counts({"idle": 2})


def stalled_connections(program: str) -> None:
    """Half a frame, and a peer that takes no answer, count as stalls."""
    with Counting(program, "--stall", "1") as host:
        host.system.be(kept=KEPT)
        with host.connect() as half, host.connect(receive=KEPT) as deaf:
            half.send(half_frame(9))
            ask_and_never_read(deaf, 1, QUESTIONS)
            host.counts({"stall": 2})


def broken_connections(program: str) -> None:
    """A reset counts as a link that broke."""
    with Counting(program) as host:
        host.greeted(1).reset()
        host.counts({"link": 1})


def closed_for_memory(program: str) -> None:
    """What is held beyond --memory for as long as --stall counts by those that are closed."""
    with Counting(program, "--memory", str(MEBIBYTE), "--stall", str(FULL)) as host:
        held = [*BEHIND, MORE]
        with closing([host.greeted(client) for client in range(1, len(held) + 1)]) as peers:
            wait_behind(peers, held)
            shows(host.status_port, {"rv_connections": len(BEHIND), "rv_buffer_bytes": sum(held) - max(held),
                                     "rv_buffer_limit_bytes": MEBIBYTE << 20})
            host.counts({"most_held": 1})


def lacking_descriptors(program: str) -> None:
    """An accept for which no descriptor is left counts as that."""
    with Counting(program) as host:
        until("it tells its status", lambda: host.faults() == {})
        with no_descriptors(host.process.pid, host.port, CROWD):
            until("it is told", lambda: host.faults().get("descriptor", 0) > 0)
        kinds = host.faults().keys()
        demand(kinds == {"descriptor"}, f"descriptors lacked, and it counts {sorted(kinds)}")
        host.halt()


def failed_accepts(program: str) -> None:
    """Accepts that fail otherwise count apart from those that find no descriptor."""
    with Counting(program) as host:
        host.system.be(accept=1)
        with closing(connected(host.port, 1)):
            until("accepts fail", lambda: host.system.made("accept") >= CROWD)
            host.system.be()
            until("it is told", lambda: host.faults().get("accept", 0) > 0)
        kinds = host.faults().keys()
        demand(kinds <= {"accept", "descriptor"}, f"accepts failed, and it counts {sorted(kinds)}")
        host.halt()


def a_clock_that_fails(program: str) -> None:
    """A clock that can't be read counts as that."""
    with Counting(program) as host:
        host.system.be(clock=CLOCK)
        with host.greeted(1) as peer:
            until("the clock fails", lambda: bool(peer.ask(hello(1))) and host.system.made("clock") > 2 * CROWD)
        host.system.be()
        until("it is told", lambda: host.faults().get("clock", 0) > 0)
        kinds = host.faults().keys()
        demand(kinds == {"clock"}, f"the clock failed, and it counts {sorted(kinds)}")
        host.halt()


def lost_lines(program: str) -> None:
    """Where standard error takes no line, each line of the start that is said to a reader counts as lost."""
    with Counting(program) as host:
        until("it tells its status address", lambda: f"127.0.0.1:{host.status_port}/".encode() in host.said)
        if host.store is not None:
            host.told_start()
        said = host.said.count(b"\n")
    read, write = os.pipe()
    os.set_blocking(write, False)
    try:
        with contextlib.suppress(BlockingIOError):
            while True:
                os.write(write, b"x" * 4_096)
        with Counting(program, stderr=write) as host:
            until("it answers", lambda: is_answering(host))
            host.counts({"line": said})
    finally:
        os.close(read)
        os.close(write)


def is_answering(host: Counting) -> bool:
    """Whether the status address answers by now."""
    with contextlib.suppress(ConnectionError):
        return host.faults() is not None
    return False


def each_fault_has_its_number(program: str) -> None:
    """Each of eight kinds of faults is made at a host of its own, and that alone is counted there."""
    together(*(lambda stage=stage: stage(program) for stage in STAGES))


STAGES = [idle_connections, stalled_connections, broken_connections, closed_for_memory, lacking_descriptors, failed_accepts,
          a_clock_that_fails, lost_lines]

def want_of_memory(program: str) -> None:
    """A connection that finds no memory, and turns in which lines of the account find none, have a number each."""
    with Counting(program) as host:
        until("it answers", lambda: is_answering(host))
        host.system.be(growth=1)
        with closing(connected(host.port, 1)) as (peer,):
            peer.expect_end()
        host.system.be()
        host.counts({"memory": 1})
    with Counting(program) as host:
        demand(any(put_after_growths(host, calm) for calm in range(GROWTHS)), f"no line found no memory: {host.faults()}")
        host.halt()


def put_after_growths(host: Counting, calm: int) -> bool:
    """A client's put, for which the system grants so many growths and refuses all others until it is answered, ended, or refused
    in turn after turn; whether lines of the account found no memory then."""
    with host.greeted(1 + calm) as peer:
        before = host.system.made("growth")
        host.system.be(growth=1, calm=calm)
        peer.send(frame(request(Key(1, 1 + calm, 1, 1), give("put", LONG))))
        until("it meets an end", lambda: not is_silent(peer) or host.system.made("growth") >= before + REFUSALS)
        host.system.be()
    return host.faults().get("unwritten", 0) > 0


CASES = [each_fault_has_its_number, want_of_memory]
