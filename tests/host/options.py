"""The words of `rv host` and `rv help`: each error with its status, and what help tells."""
from __future__ import annotations

import contextlib
import functools
import os
import pathlib
import re
import socket
import subprocess
import tempfile
import time
from collections.abc import Iterator

from tests import ROOT
from tests.sockets.programs import free_port
from tests.sockets.hosts import Host
from tests.sockets.wire import PATIENCE, demand, frame, hello, until

LISTEN = ["--listen", "127.0.0.1:0"]
# Each number's option, and its limits as they are told.
NUMBERS = {
    "epoch": "1 to 9,007,199,254,740,991", "epoch-above": "1 to 9,007,199,254,740,990", "clients": "1 to 65,536",
    "open": "1 to 100,000", "connections": "1 to 1,000,000", "connections-from": "1 to 1,000,000", "memory": "1 to 1,048,576", "idle": "1 to 31,536,000",
    "stall": "1 to 31,536,000",
}
# Texts that are no number within any of these limits.
NO_NUMBERS = ["0", "", "x", "-1", "1.0", " 1", "1 ", "0x1", "1" + "0" * 19, "1" + "0" * 30, "１"]
FLAGS = ["--listen", "--account", "--store", *(f"--{name}" for name in NUMBERS), "--new-epoch", "--status", "--status-name", "--quiet"]
COMMANDS = ["book", "play", "serve", "call", "record", "audit", "verify", "host", "version"]
# The version of the program, which is that of its clients.
VERSION = re.findall(r'^__version__ = "(.+)"$', (ROOT / "clients/python/src/rendezvous/__init__.py").read_text(), re.M)[0]


def ran(program: str, *words: str) -> subprocess.CompletedProcess[str]:
    """The program, run with these words to its end."""
    try:
        return subprocess.run([program, *words], input="", capture_output=True, text=True, timeout=PATIENCE)
    except subprocess.TimeoutExpired:
        demand(False, f"{words} did not end")
        raise


def refused(program: str, words: list[str], status: int, *said: str) -> None:
    """It must end so, print nothing, and say all of this on standard error."""
    got = ran(program, *words)
    demand((got.returncode, got.stdout) == (status, ""), f"{words}: {got}")
    for part in said:
        demand(part in got.stderr, f"{words} says {got.stderr!r}, without {part!r}")


def only(program: str, words: list[str], status: int, line: str) -> None:
    """It must end so, and say this one line."""
    got = ran(program, *words)
    demand((got.returncode, got.stdout, got.stderr) == (status, "", f"{line}\n"), f"{words}: {got}, not {line!r}")


def numbers(program: str) -> None:
    """Each number within its limits alone: else its option, what was given, and the limits are told."""
    for name, limits in NUMBERS.items():
        most = int(limits.partition(" to ")[2].replace(",", ""))
        for given in [*NO_NUMBERS, str(most + 1)]:
            only(program, ["host", *LISTEN, f"--{name}={given}"], 2, f"--{name} {given}: {limits}")


def limits_are_taken(program: str) -> None:
    """The least and the greatest that each number may be are taken: a host serves by them."""
    for name, limits in NUMBERS.items():
        for given in limits.replace(",", "").split(" to "):
            with Host(program, epoch=None, options=(f"--{name}={given}",)) as host:
                until(f"by --{name}={given} a hello is welcome", functools.partial(is_welcome, host))


def is_welcome(host: Host) -> bool:
    """Whether a hello is welcome."""
    return b'"kind":"welcome"' in answer_of(host)


def answer_of(host: Host) -> bytes:
    """What a hello is answered; nothing where its connection was ended as idle before it was sent."""
    with contextlib.suppress(ConnectionError), host.connect() as peer:
        peer.send(frame(hello(1)))
        return peer.hear() or b""
    return b""


def misspelt(program: str) -> None:
    """Misspelt, lacking, doubled and foreign words are told by clap's own words, with a hint where it has one."""
    refused(program, ["host"], 2, "--listen")
    refused(program, ["host", "--listen"], 2, "--listen")
    refused(program, ["host", "--lisen", "127.0.0.1:0"], 2, "--lisen", "--listen")
    refused(program, ["host", *LISTEN, "--acount", "x"], 2, "--acount", "--account")
    refused(program, ["host", *LISTEN, "--workers", "4"], 2, "--workers")
    refused(program, ["host", *LISTEN, "further"], 2, "further")
    refused(program, ["host", *LISTEN, *LISTEN], 2, "--listen")
    only(program, ["host", *LISTEN, "--epoch", "1", "--epoch-above", "1"], 2, "--epoch and --epoch-above: not both")
    only(program, ["host", *LISTEN, "--account", "a", "--store", "s"], 2, "--account and --store: not both")
    only(program, ["host", *LISTEN, "--new-epoch"], 2, "--new-epoch: only with --store")
    only(program, ["host", *LISTEN, "--new-epoch", "--account", "a"], 2, "--new-epoch: only with --store")


def addresses(program: str) -> None:
    """An address that is none, or can't be had, is told by its name."""
    for text in ["127.0.0.1", "127.0.0.1:", ":", "127.0.0.1:65536", "127.0.0.1:x", "[::1", "no.such.name.invalid:7411"]:
        refused(program, ["host", "--listen", text], 1, text)
    with listening() as port:
        only(program, ["host", "--listen", f"127.0.0.1:{port}"], 1, f"127.0.0.1:{port}: address in use")
    refused(program, ["host", "--listen", "192.0.2.1:7411"], 1, "192.0.2.1:7411: ")


@contextlib.contextmanager
def listening() -> Iterator[int]:
    """A port at which somebody listens."""
    with socket.create_server(("127.0.0.1", 0)) as other:
        yield other.getsockname()[1]


def accounts(program: str) -> None:
    """A file that is there is refused by its name, and stays as it is; so is one that can't be made."""
    with tempfile.TemporaryDirectory(prefix="rv-account-") as name:
        there = pathlib.Path(name, "account")
        there.write_text("what was there\n")
        refused(program, ["host", *LISTEN, "--account", str(there)], 1, f"{there}: ")
        demand(there.read_text() == "what was there\n", "a file that was there is changed")
        lacking = pathlib.Path(name, "lacking", "account")
        refused(program, ["host", *LISTEN, "--account", str(lacking)], 1, f"{lacking}: ")
        refused(program, ["host", *LISTEN, "--account", name], 1, f"{name}: ")


def help_tells(program: str) -> None:
    """`rv help` names the commands, and help of `host` names each of its options."""
    got = ran(program, "help")
    demand((got.returncode, got.stderr) == (0, ""), f"help: {got}")
    lacking = [name for name in COMMANDS if name not in got.stdout]
    demand(not lacking, f"rv help lacks {lacking}: {got.stdout}")
    for words in (["help", "host"], ["host", "--help"], ["host", "-h"]):
        got = ran(program, *words)
        lacking = [flag for flag in FLAGS if flag not in got.stdout]
        demand((got.returncode, got.stderr) == (0, "") and not lacking, f"{words} lacks {lacking}: {got}")
    for name in COMMANDS:
        got = ran(program, "help", name)
        demand((got.returncode, got.stderr) == (0, "") and "Usage" in got.stdout, f"help {name}: {got}")
    demand(ran(program, "help", "nothing").returncode == 2, "help of no command has another status than 2")


def its_version(program: str) -> None:
    """`rv version` tells the version of the program; with more words it is no command, and no option tells it."""
    got = ran(program, "version")
    demand((got.returncode, got.stdout, got.stderr) == (0, f"rv {VERSION}\n", ""), f"version: {got}")
    for words in (["version", "further"], ["version", "--help"], ["--version"], ["-V"], ["versions"]):
        only(program, words, 2, "command fault 1")


def its_first_lines(program: str) -> None:
    """Standard error tells the address, the epoch and how many connections there may be; --quiet tells nothing."""
    with Host(program, epoch=77) as host:
        until("it says where it listens", lambda: f"127.0.0.1:{host.port}".encode() in host.said)
        until("it tells the epoch and its connections", lambda: b"77" in host.said and b"10000" in host.said.replace(b",", b""))
        demand(b"authentication" not in host.said, f"at loopback it says {host.said!r}")
        host.ended()
    with Host(program, options=("--quiet",)) as host:
        host.greeted(1).close()
        host.ended()
        demand(host.said == b"", f"quiet, it says {host.said!r}")


def it_is_open_to_others(program: str) -> None:
    """Where other machines may reach it, it says that there is no authentication."""
    port = free_port()
    process = subprocess.Popen([program, "host", "--listen", f"0.0.0.0:{port}"], stderr=subprocess.PIPE)
    try:
        ends, said = time.monotonic() + PATIENCE, b""
        while b"authentication" not in said:
            demand(time.monotonic() < ends and process.poll() is None, f"it says {said!r}")
            said += os.read(process.stderr.fileno(), 4_096) if process.stderr else b""
    finally:
        process.kill()
        process.communicate()


CASES = [numbers, limits_are_taken, misspelt, addresses, accounts, help_tells, its_version, its_first_lines, it_is_open_to_others]
