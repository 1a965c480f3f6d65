"""Tries the Debian package in a bare Debian, in a folder of its own, where nothing of the kit is: it is installed, its service's
program starts as the service starts it, a hand-over goes over it by the Python client's wheel, it starts again beside the account of
the last time, and it is removed, with nothing left behind. It needs root, for chroot, and listens on loopback alone.

A bare Debian is a folder that debootstrap makes, from the network, with Python and no more. One that is given is copied, not changed;
FOLDER that isn't there is made, and kept.

usage: python3 -m tests.package.tried PACKAGE [FOLDER]
"""
from __future__ import annotations

import argparse
import contextlib
import os
import pathlib
import re
import shlex
import shutil
import signal
import socket
import subprocess
import sys
import tempfile
import time
from typing import Iterator

from tests import ROOT

# What the package owns in the system.
UNIT, COMPACTS, OPTIONS, STATE = ("lib/systemd/system/rv.service", "lib/systemd/system/rv-compact.service", "etc/default/rv",
                                  "/var/lib/rv")
OWNED = ("usr/bin/rv", "usr/share/man/man1/rv.1.gz", UNIT, COMPACTS, "lib/systemd/system/rv-compact.timer", OPTIONS)
# A consumer that waits, and a producer that comes later: both are told of the other. It is told the address and their incarnation.
HAND_OVER = """
import sys, threading, time
from rendezvous import Session
took = []
def consume():
    with Session(sys.argv[1], client=2, incarnation=int(sys.argv[2])) as consumer:
        took.append(consumer.take(3))
thread = threading.Thread(target=consume)
thread.start()
with Session(sys.argv[1], client=1, incarnation=int(sys.argv[2])) as producer:
    receipt = producer.transfer(3, "a")
thread.join()
print(took[0], receipt.by.client)
"""
PATIENCE = 120
BARE = ("debootstrap", "--variant=minbase", "--include=python3", "bookworm")
# Pythons that may have setuptools and wheel.
PYTHONS = ("/usr/bin/python3", sys.executable)


def demand(holds: bool, what: str) -> None:
    """Ends the trial by what is wrong, if it is."""
    if not holds:
        sys.exit(f"FAILED: {what}")


def within(base: pathlib.Path, *words: str) -> str:
    """What a command in the bare system prints; it has to end well."""
    ran = subprocess.run(["chroot", str(base), *words], capture_output=True, text=True, timeout=PATIENCE)
    demand(ran.returncode == 0, f"{shlex.join(words)} ended by {ran.returncode}: {ran.stdout}{ran.stderr}")
    return ran.stdout


def wheel(room: pathlib.Path) -> pathlib.Path:
    """The Python client's wheel, built from its sources."""
    sources = room / "client"
    shutil.copytree(ROOT / "clients/python", sources)
    ask = "import sys, wheel\nfrom setuptools import build_meta\nprint(build_meta.build_wheel(sys.argv[1]))\n"
    tried = [subprocess.run([python, "-c", ask, str(room)], cwd=sources, capture_output=True) for python in PYTHONS]
    demand(any(ran.returncode == 0 for ran in tried), "no Python here has setuptools and wheel")
    found, = room.glob("*.whl")
    return found


def free_address() -> str:
    """An address of loopback that nobody listens at."""
    with socket.socket() as probe:
        probe.bind(("127.0.0.1", 0))
        return f"127.0.0.1:{probe.getsockname()[1]}"


def start_of(base: pathlib.Path) -> list[str]:
    """The commands of the unit's start, in the folder and with the options that it has there."""
    unit = (base / UNIT).read_text()
    before, = re.findall(r"^ExecStartPre=(.*)$", unit, re.M)
    serves, = re.findall(r"^ExecStart=(.*)$", unit, re.M)
    before = before.replace("$$", "$").replace("%%", "%")
    return ["chroot", str(base), "/bin/sh", "-c", f". /{OPTIONS} && cd {STATE} && {before} && exec {serves}"]


@contextlib.contextmanager
def started(base: pathlib.Path, address: str) -> Iterator[None]:
    """Runs the server as its unit does until the block ends, which begins once it listens."""
    host, _, port = address.rpartition(":")
    with subprocess.Popen(start_of(base), stdin=subprocess.DEVNULL, stderr=subprocess.PIPE, text=True) as server:
        try:
            for _ in range(PATIENCE * 10):
                demand(server.poll() is None, f"the server ended by {server.returncode}")
                with contextlib.suppress(OSError), socket.create_connection((host, int(port)), timeout=1):
                    break
                time.sleep(0.1)
            yield
            demand(server.poll() is None, f"the server ended by {server.returncode}")
        finally:
            server.send_signal(signal.SIGTERM)
            print(server.communicate()[1], end="", file=sys.stderr)


def hand_over(base: pathlib.Path, client: pathlib.Path, address: str, incarnation: int) -> None:
    """A hand-over between two clients that start in this incarnation."""
    told = within(base, "env", f"PYTHONPATH=/{client.name}", "python3", "-c", HAND_OVER, address, str(incarnation))
    demand(told == "a 2\n", f"the hand-over told {told!r}")


def compacted(base: pathlib.Path) -> None:
    """A checkpoint, by the command of the timer's unit, with the options that are there."""
    condition, = re.findall(r"^ExecCondition=(.*)$", (base / COMPACTS).read_text(), re.M)
    compacts, = re.findall(r"^ExecStart=(.*)$", (base / COMPACTS).read_text(), re.M)
    told = within(base, "/bin/sh", "-c", f". /{OPTIONS} && cd {STATE} && {condition} && {compacts}")
    demand(re.fullmatch(r"checkpoint after [1-9][0-9]* entries\n", told) is not None, f"the checkpoint told {told!r}")


def stored(base: pathlib.Path, client: pathlib.Path, address: str) -> None:
    """Two starts of the service as it is installed, a hand-over at each, and after it a checkpoint beside the server: the second one
    goes on in the epoch of the first."""
    (base / STATE[1:]).mkdir(mode=0o750)
    for incarnation in (1, 2):
        with started(base, address):
            hand_over(base, client, address, incarnation)
            compacted(base)
    store = base / STATE[1:] / "store"
    kept = sorted(path.name for path in store.glob("epoch-*.account"))
    demand(len(kept) == 1, f"the store has {kept}")
    demand(len([*store.glob("epoch-*.state")]) == 1, "the store hasn't one checkpoint")
    told = within(base, "rv", "verify", f"{STATE}/store")
    demand(re.fullmatch(r"legal\ncheckpoint [0-9]+ holds\n", told) is not None, f"of the store it is told {told!r}")
    shutil.rmtree(base / STATE[1:])


def served(base: pathlib.Path, client: pathlib.Path, address: str) -> None:
    """Three starts of the service, a hand-over at each. The second one lays the account of the first one aside; the third one finds an
    empty one, as a full disk leaves it, which isn't kept."""
    options = base / OPTIONS
    options.write_text(options.read_text().replace(f"--store {STATE}/store", f"--account {STATE}/account"))
    (base / STATE[1:]).mkdir(mode=0o750)
    for accounts, is_emptied in ((1, False), (2, False), (2, True)):
        if is_emptied:
            (base / STATE[1:] / "account").write_text("")
        with started(base, address):
            hand_over(base, client, address, incarnation=1)
        kept = sorted(os.listdir(base / STATE[1:]))
        demand(len(kept) == accounts and kept[0] == "account", f"the accounts are {kept}")
        for name in kept:
            demand(within(base, "rv", "verify", f"{STATE}/{name}") == "legal\n", f"the account {name} isn't legal")


def tried(package: pathlib.Path, base: pathlib.Path, room: pathlib.Path) -> None:
    """The whole trial in a bare system that is thrown away afterwards."""
    shutil.copy(package, base / "rv.deb")
    client = pathlib.Path(shutil.copy(wheel(room), base))
    demand(not any((base / name).exists() for name in OWNED), "the system had rv before")
    within(base, "dpkg", "--install", "/rv.deb")
    demand(all((base / name).is_file() for name in OWNED), "a file of the package isn't there")
    within(base, "rv", "help")
    address = free_address()
    options = base / OPTIONS
    options.write_text(options.read_text().replace("127.0.0.1:7411", address))
    stored(base, client, address)
    served(base, client, address)
    within(base, "dpkg", "--purge", "rv")
    demand(not any((base / name).exists() for name in OWNED), "a file of the package is left behind")
    demand((base / STATE[1:]).exists(), "the accounts went with the package")


def main() -> None:
    parser = argparse.ArgumentParser(prog="python3 -m tests.package.tried", description=__doc__,
                                     formatter_class=argparse.RawDescriptionHelpFormatter)
    parser.add_argument("package", metavar="PACKAGE", type=pathlib.Path)
    parser.add_argument("folder", metavar="FOLDER", type=pathlib.Path, nargs="?", help="default: one that is made for this trial")
    asked = parser.parse_args()
    demand(os.geteuid() == 0, "it needs root, for chroot")
    with tempfile.TemporaryDirectory(prefix="rv-package-") as folder:
        room = pathlib.Path(folder)
        bare = asked.folder or room / "bare"
        if not bare.exists():
            demand(shutil.which(BARE[0]) is not None, f"{BARE[0]} is missing: it is in Debian's package {BARE[0]}")
            made = subprocess.run([*BARE, str(bare)], capture_output=True, text=True)
            demand(made.returncode == 0, f"{BARE[0]} ended by {made.returncode}: {made.stdout[-1000:]}")
        subprocess.run(["cp", "--archive", str(bare), str(room / "base")], check=True)
        tried(asked.package, room / "base", room)
    print("the package was installed, served three hand-overs, and left nothing but its accounts behind")


if __name__ == "__main__":
    main()
