"""What a host's process takes: memory, and time of the processor."""
from __future__ import annotations

import os
import pathlib
import re

TICKS = os.sysconf("SC_CLK_TCK")


def memory(pid: int) -> int:
    """The bytes of memory that a process has now."""
    return bytes_of(pid, "VmRSS")


def most_memory(pid: int) -> int:
    """The most bytes of memory that a process has had at once."""
    return bytes_of(pid, "VmHWM")


def bytes_of(pid: int, name: str) -> int:
    """The bytes that the system tells of a process under a name."""
    found = re.search(rf"^{name}:\s+(\d+) kB$", pathlib.Path(f"/proc/{pid}/status").read_text(), re.MULTILINE)
    return 1_024 * int(found[1]) if found else 0


def processor(pid: int) -> float:
    """The processor seconds that a process took so far."""
    return sum(own_and_system(pid))


def own_and_system(pid: int) -> tuple[float, float]:
    """The processor seconds that a process took so far: those of its own code, and those of the system for it."""
    own, system = pathlib.Path(f"/proc/{pid}/stat").read_text().rpartition(")")[2].split()[11:13]
    return int(own) / TICKS, int(system) / TICKS
