"""The account's file: an empty one is taken, one that another host has taken is not, and a start that fails leaves it as it was; it
is told where it was removed, renamed or cut; and `ulimit -f` ends a host by a line."""
from __future__ import annotations

import contextlib
import os
import pathlib
import resource
import socket
import subprocess
import tempfile
from collections.abc import Callable, Mapping

from tests.faults.limits import front_agrees
from tests.faults.system import System
from tests.host.counters import Counting
from tests.host.status import numbers
from tests.model.account import Key
from tests.sockets.ledger import Asked, Told
from tests.sockets.hosts import Host, StoreProgram
from tests.sockets.programs import free_port
from tests.sockets.wire import PATIENCE, demand, frame, give, replied, request, together, until

HEAD = b"epoch 1 opened 0\n"
# The bytes that a file may have at most, and more than a line of a put has there.
MOST, LONG = 4_000, 400
# What is said of a file that isn't in its place.
SAID = b"looks that found the account removed, renamed or cut: "


def words_of(program: str, account: pathlib.Path, *more: str) -> list[str]:
    """The words of a host on a free port."""
    return [program, "host", "--listen", f"127.0.0.1:{free_port()}", "--epoch", "1", "--account", str(account), *more]


def ends(words: list[str], env: Mapping[str, str] | None = None,
         preexec_fn: Callable[[], None] | None = None) -> subprocess.CompletedProcess[bytes]:
    """A host that can't start: its status is 1, and it says why."""
    ran = subprocess.run(words, capture_output=True, timeout=PATIENCE, env=env, preexec_fn=preexec_fn)
    demand(ran.returncode == 1 and ran.stderr != b"", f"a start that has to fail: {ran}")
    return ran


def an_empty_file_is_taken(program: str) -> None:
    """An empty file that is there becomes the account, for one host alone: a second one is refused, and changes nothing."""
    with tempfile.TemporaryDirectory(prefix="rv-empty-") as folder:
        account = pathlib.Path(folder, "account")
        account.touch()
        with subprocess.Popen(words_of(program, account), stderr=subprocess.PIPE) as process:
            try:
                until("the first line is written", lambda: account.read_bytes() == HEAD)
                ends(words_of(program, account))
                # also where the file seems to be empty
                os.truncate(account, 0)
                ends(words_of(program, account))
                demand(account.read_bytes() == b"", "a host that was refused wrote to the account")
            finally:
                process.kill()


def a_start_that_fails(program: str) -> None:
    """Where the disk takes no line, or the status address is another's, a new file isn't there afterwards, and an empty one is
    still there, and empty."""
    system = System()
    with tempfile.TemporaryDirectory(prefix="rv-failed-") as folder, socket.create_server(("127.0.0.1", 0)) as other:
        taken = ("--status", f"127.0.0.1:{other.getsockname()[1]}")
        for room, more in ((0, ()), (1, ()), (len(HEAD) - 1, ()), (None, taken)):
            for was_there in (False, True):
                account = pathlib.Path(folder, "account")
                if was_there:
                    account.touch()
                system.be(disk=0 if room is None else 1 + room)
                ends(words_of(program, account, *more), env=system.env)
                demand(account.exists() == was_there, f"after a start that failed by {room} {more} the file was "
                                                      f"{was_there}, and is {account.exists()}")
                demand(not was_there or account.read_bytes() == b"", "an empty file has bytes after a start that failed")
                account.unlink(missing_ok=True)


def removed(account: pathlib.Path) -> None:
    account.unlink()


def renamed(account: pathlib.Path) -> None:
    account.rename(account.with_name("other"))


def another(account: pathlib.Path) -> None:
    """Another file of the same bytes stands in its place."""
    text = account.read_bytes()
    account.rename(account.with_name("other"))
    account.write_bytes(text)


def cut(account: pathlib.Path) -> None:
    os.truncate(account, len(HEAD))


def told(program: str, change: Callable[[pathlib.Path], None]) -> None:
    """Nothing is told of a file in its place; once it isn't, it is counted each second, and told at once."""
    with Counting(program) as host, host.greeted(1) as peer:
        for number in (1, 2):
            key = Key(1, 1, 1, number)
            peer.expect(request(key, give("put", "a")), replied(key, reply="done"))
            until("a second is over", lambda: numbers(host.status_port)["rv_uptime_seconds"] >= number + 1)
        demand(host.faults() == {} and SAID not in host.said, f"of a file in its place it counts {host.faults()}")
        change(host.file)
        until("it is told", lambda: SAID in host.said)
        key = Key(1, 1, 1, 3)
        peer.expect(request(key, give("put", "b")), replied(key, reply="done"))
        until("it is counted on", lambda: host.faults().get("account", 0) > 1)
        demand(host.faults().keys() == {"account"}, f"it counts {host.faults()}")
        demand(host.said.count(SAID) == 1, "it is told more than once a minute")


def not_in_its_place(program: str) -> None:
    """The account's file is removed, renamed, another, or cut: each at a host of its own. A store's isn't looked at for its
    length."""
    changes = [removed, renamed, another, *([] if isinstance(program, StoreProgram) else [cut])]
    together(*(lambda change=change: told(program, change) for change in changes))


def a_bound_of_files(program: str) -> None:
    """Under `ulimit -f` a host ends by a line, with status 1 and no signal, before a line that doesn't fit: all that was told stands
    in whole lines. Where not even the first line fits it doesn't start, and leaves no file."""
    with Host(program, preexec_fn=lambda: bounded(MOST)) as host:
        asked, replies = put_until_it_ends(host)
        status, text = host.status(), host.written()
        demand(status == 1 and b"ulimit -f" in host.said.splitlines()[-1], f"it ends with {status} and says {host.said!r}")
        demand(text.endswith(b"\n") and MOST - 2 * LONG < len(text) <= MOST, f"{len(text)} bytes were written, of {MOST}")
        front_agrees(text, asked, replies)
    with tempfile.TemporaryDirectory(prefix="rv-bounded-") as folder:
        account = pathlib.Path(folder, "account")
        ends(words_of(program, account), preexec_fn=lambda: bounded(len(HEAD) - 1))
        demand(not account.exists(), "a start that failed left a file")


def bounded(count: int) -> None:
    """A process may write files of so many bytes."""
    resource.setrlimit(resource.RLIMIT_FSIZE, (count, count))


def put_until_it_ends(host: Host) -> tuple[Asked, Told]:
    """A client puts one item after another, until the host ends: what it asked, and what it was told."""
    asked, replies = Asked(), Told()
    with contextlib.suppress(ConnectionError), host.greeted(1) as peer:
        for number in range(1, MOST):
            key = Key(1, 1, 1, number)
            asked[key] = give("put", "a" * number)
            peer.send(frame(request(key, asked[key])))
            got = peer.hear()
            if got is None:
                break
            demand(got == replied(key, reply="done"), f"{key} was answered {got!r}")
            replies.append((key, {"reply": "done"}))
    return asked, replies


CASES = [an_empty_file_is_taken, a_start_that_fails, not_in_its_place, a_bound_of_files]
