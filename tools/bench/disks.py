"""What the measurements need of a disk: on which file system a folder is, and what a sync costs there."""
from __future__ import annotations

import os
import pathlib
import statistics
import subprocess
import tempfile
import time

# File systems whose syncs store nothing.
IN_MEMORY = ("tmpfs", "ramfs")
# How many bytes are written before each sync, and how often.
WRITTEN, SYNCS = 128, 500


def file_system(folder: pathlib.Path) -> str:
    """The file system of a folder, which must be on a disk, and its device."""
    ran = subprocess.run(["findmnt", "-n", "-o", "FSTYPE,SOURCE", "-T", str(folder)], capture_output=True, text=True, check=True)
    kind, _, device = ran.stdout.partition(" ")
    if kind in IN_MEMORY:
        raise SystemExit(f"{folder} is on {kind}, where a sync costs nothing: name a folder on a disk")
    return f"{kind} on {device.strip()}"


def sync(folder: pathlib.Path) -> float:
    """The seconds of a small write with its fdatasync, over zeros that are stored: the middle one of many."""
    with tempfile.TemporaryFile(dir=folder, buffering=0) as file:
        os.pwrite(file.fileno(), bytes(WRITTEN * SYNCS), 0)
        os.fsync(file.fileno())
        return statistics.median(stored(file.fileno(), WRITTEN * number) for number in range(SYNCS))


def stored(file: int, at: int) -> float:
    """The seconds of one."""
    began = time.monotonic()
    os.pwrite(file, b"x" * WRITTEN, at)
    os.fdatasync(file)
    return time.monotonic() - began


def forget(path: pathlib.Path) -> None:
    """Has the system drop what it keeps in memory of a stored file, so that it is read from the disk."""
    file = os.open(path, os.O_RDONLY)
    os.posix_fadvise(file, 0, 0, os.POSIX_FADV_DONTNEED)
    os.close(file)
