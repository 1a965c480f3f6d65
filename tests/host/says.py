"""What a host says of itself on standard error, and to whom starts it at a terminal."""
from __future__ import annotations

import os
import pathlib
import pty
import re
import shutil
import subprocess
import tempfile
import threading
import time

from tests.host.many import closing, connected
from tests.sockets.hosts import Host
from tests.sockets.wire import PATIENCE, demand, until

# A time of HTTP's form, before a line.
TIME = re.compile(rb"(Mon|Tue|Wed|Thu|Fri|Sat|Sun), \d\d (\w{3}) \d{4} \d\d:\d\d:\d\d GMT ")
# What systemd sets for a service.
OF_SYSTEMD = ("INVOCATION_ID", "JOURNAL_STREAM")
# Idle connections of a round.
IDLE = 3


def without_systemd() -> dict[str, str]:
    """The environment of a process that systemd did not start."""
    return {name: value for name, value in os.environ.items() if name not in OF_SYSTEMD}


def lines_have_times(program: str) -> None:
    """Each line has its time in front, in UTC; under systemd, which adds its own, none has."""
    ways: list[tuple[dict[str, str], bool]] = [({}, True), *(({name: "8:1"}, False) for name in OF_SYSTEMD)]
    for more, has_time in ways:
        with Host(program, env={**without_systemd(), **more}) as host:
            host.greeted(1).close()
            host.ended()
            lines = host.said.splitlines()
            demand(len(lines) > 0 and all(bool(TIME.match(line)) == has_time for line in lines), f"with {more} it says {lines}")


def a_kind_of_fault_once(program: str) -> None:
    """What goes wrong again and again within a minute has one line of its kind."""
    began = time.monotonic()
    with Host(program, options=("--idle", "1")) as host:
        for _ in range(2):
            with closing(connected(host.port, IDLE)) as peers:
                for peer in peers:
                    peer.expect_end()
        host.ended()
        told = [line for line in host.said.splitlines() if b"idle" in line]
        most = 1 + int(time.monotonic() - began) // 60
        demand(1 <= len(told) <= most and re.search(rb"\d", TIME.sub(b"", told[0])), f"of idle connections it says {told}")


class Terminal:
    """A terminal, and what was shown there."""

    def __init__(self) -> None:
        self.keyboard, self.screen = pty.openpty()
        self.shown = b""
        threading.Thread(target=self.read, daemon=True).start()

    def read(self) -> None:
        try:
            while piece := os.read(self.keyboard, 4_096):
                self.shown += piece
        except OSError:
            return

    def close(self) -> None:
        os.close(self.screen)
        os.close(self.keyboard)


def as_it_is_told(program: str) -> None:
    """On a terminal it says how a first client connects: two commands, which, typed as they stand, hand an item over."""
    terminal = Terminal()
    try:
        with tempfile.TemporaryDirectory(prefix="rv-typed-") as folder, Host(program, stderr=terminal.screen) as host:
            until("it says how clients connect", lambda: terminal.shown.count(b"rv call") == 2)
            until("its last line is whole", lambda: terminal.shown.endswith(b"\n"))
            demand(f"127.0.0.1:{host.port}".encode() in terminal.shown, f"it shows {terminal.shown!r}")
            shutil.copy(program, pathlib.Path(folder, "rv"))
            typed = [line[line.index(b"echo"):].decode() for line in terminal.shown.splitlines() if b"rv call" in line]
            env = {**os.environ, "PATH": f"{folder}:{os.environ['PATH']}"}
            ran = [subprocess.Popen(line, shell=True, env=env, stdout=subprocess.PIPE, stderr=subprocess.PIPE) for line in typed]
            printed = [one.communicate(timeout=PATIENCE) for one in ran]
            demand(b'"item":"a"' in printed[0][0] and b'"reply":"received"' in printed[1][0], f"{typed} print {printed}")
    finally:
        terminal.close()


CASES = [lines_have_times, a_kind_of_fault_once, as_it_is_told]
