"""Java's clients of live hosts that keep stores: shards over three of them, and the addresses of one."""
from __future__ import annotations

import contextlib
import pathlib
import tempfile
from collections.abc import Iterator, Sequence

from tests.clients.java_scenes import Program, playing
from tests.host.stored import StoreHost
from tests.model.account import Account, Request
from tests.sockets.programs import free_port
from tests.sockets.wire import demand

HOSTS = 3


@contextlib.contextmanager
def stores(program: str) -> Iterator[list[StoreHost]]:
    """Hosts that keep a store each."""
    with tempfile.TemporaryDirectory(prefix="rv-shards-") as folder, contextlib.ExitStack() as ends:
        yield [ends.enter_context(StoreHost(program, pathlib.Path(folder, str(each)))) for each in range(HOSTS)]


def does(scene: Program, lines: Sequence[str], wanted: Sequence[str]) -> None:
    """It must print these lines, in any order, for those that it is given."""
    for line in lines:
        scene.go(line)
    told = sorted(scene.line() for _ in wanted)
    demand(told == sorted(wanted), f"it prints {told}, not {sorted(wanted)}")


def queues(account: Account) -> list[int]:
    """The queues at which something was asked, in an account."""
    return [entry.act.call.at for entry in account.entries if isinstance(entry.act, Request)]


def a_server_that_is_killed(program: str) -> None:
    """Whoever uses the others never notices. What waited at it, and what is asked while it is away, goes on once it is there."""
    with stores(program) as hosts, playing("shards", 1) as scene:
        scene.go(" ".join(f"127.0.0.1:{host.port}" for host in hosts))
        does(scene, ["take 0", "take 1", "take 2"], [])
        for host in hosts:
            host.stands(1)
        hosts[1].kill()
        scene.go("put 4 late")
        does(scene, ["put 0 a"], ["put 0 a", "took 0 a"])
        does(scene, ["put 2 b"], ["put 2 b", "took 2 b"])
        for number in range(20):
            does(scene, [f"put 3 {number}"], [f"put 3 {number}"])
            does(scene, ["take 3"], [f"took 3 {number}"])
        hosts[1].start_again()
        does(scene, [], ["put 4 late"])
        does(scene, ["put 1 c"], ["put 1 c", "took 1 c"])
        does(scene, ["take 4"], ["took 4 late"])
        asked = [queues(host.ended()) for host in hosts]
        demand(asked == [[0, 0, *[3] * 40], [1, 4, 1, 4], [2, 2]], f"they were asked at {asked}")


def a_server_that_moves(program: str) -> None:
    """A take that waits goes on at the other address of its server."""
    with tempfile.TemporaryDirectory(prefix="rv-moves-") as folder, StoreHost(program, pathlib.Path(folder, "store")) as host, \
            playing("shards", 1) as scene:
        other = free_port()
        scene.go(f"127.0.0.1:{host.port},127.0.0.1:{other}")
        does(scene, ["take 0"], [])
        host.stands(1)
        host.start_again(lambda: setattr(host, "port", other))
        does(scene, ["put 0 a"], ["put 0 a", "took 0 a"])
        asked = queues(host.ended())
        demand(asked == [0, 0], f"it was asked at {asked}")


CASES = [a_server_that_is_killed, a_server_that_moves]
