"""A fresh host with a status address, its metrics once a second, and the alerts that they raise."""
from __future__ import annotations

import contextlib
import http.client
import json
import pathlib
import re
import shutil
import subprocess
import tempfile
import threading
import time
from collections.abc import Callable, Iterator
from typing import Any

from tests import ROOT
from tests.host.status import JSON, numbers, page
from tests.sockets.hosts import Host
from tests.sockets.programs import free_port
from tests.sockets.wire import Wrong, demand, until

RULES = ROOT / "packaging/rv.rules.yml"
# The seconds that a reading may take before it counts as none; those of a day; and the growth of an account in a day, in bytes,
# the backlog in a second and the part of a limit above which the rules tell.
PATIENCE, DAY, GIGABYTE, BACKLOG, FULL = 3, 86_400, 10**9, 1, 0.8
# One turn in so many may be slow, and the count of those that aren't.
FEW, SLOW = 0.01, 'rv_turn_seconds_bucket{le="0.25"}'
Reading = dict[str, float]
# The names of alerts, each with further labels.
Alerts = dict[str, dict[str, str]]


class Readings:
    """The metrics by the second in which they were asked for, until the block ends; None where nothing was told."""

    def __init__(self, port: int):
        self.port, self.taken, self.done, self.began = port, dict[int, "Reading | None"](), threading.Event(), time.monotonic()
        self.thread = threading.Thread(target=self.take, daemon=True)

    def __enter__(self) -> Readings:
        self.thread.start()
        return self

    def __exit__(self, *_: object) -> None:
        self.done.set()
        self.thread.join()

    def take(self) -> None:
        """Takes one a second. A second that is over before the last one is told is left out."""
        while not self.done.is_set():
            second = int(time.monotonic() - self.began)
            self.taken[second] = self.read()
            self.done.wait(self.began + second + 1 - time.monotonic())

    def read(self) -> Reading | None:
        """One reading."""
        with contextlib.suppress(OSError, http.client.HTTPException, Wrong):
            return numbers(self.port, PATIENCE)
        return None

    def good(self) -> list[tuple[int, Reading]]:
        """Those that were told, with their seconds."""
        return [(second, reading) for second, reading in list(self.taken.items()) if reading]

    def series(self) -> list[dict[str, str]]:
        """All of them as promtool's series, of which one more tells whether there was an answer."""
        seconds = range(max(self.taken) + 1)
        rows = [self.taken.get(second, {}) for second in seconds]
        up = ["_" if row == {} else "0" if row is None else "1" for row in rows]
        told = [{"series": 'up{job="rv"}', "values": " ".join(up)}]
        for name in sorted({name for _, reading in self.good() for name in reading}):
            values = ["stale" if row is None else str(row.get(name, "_")) for row in rows]
            labels = name.replace("{", '{job="rv", ') if "{" in name else name + '{job="rv"}'
            told.append({"series": labels, "values": " ".join(values)})
        return told


def in_seconds(rules: str) -> str:
    """The rules with a second in place of each minute."""
    hours = re.sub(r"\b(\d+)h\b", lambda found: f"{60 * int(found[1])}m", rules)
    return re.sub(r"\b(\d+)m\b", r"\1s", hours)


def summaries() -> dict[str, str]:
    """Each alert with its summary."""
    return dict(re.findall(r'- alert: (\w+)$.*?summary: "([^"]*)"', RULES.read_text(), re.DOTALL | re.MULTILINE))


def wanted(second: int, alerts: Alerts) -> list[dict[str, Any]]:
    """Of each alert that it is raised in this second, or not."""
    tests: list[dict[str, Any]] = []
    for name, summary in summaries().items():
        test: dict[str, Any] = {"eval_time": f"{second}s", "alertname": name, "exp_alerts": []}
        if name in alerts:
            text = summary.replace("{{ $labels.queue }}", alerts[name].get("queue", ""))
            test["exp_alerts"] = [{"exp_labels": {"job": "rv", **alerts[name]}, "exp_annotations": {"summary": text}}]
        tests.append(test)
    return tests


def lacking() -> str | None:
    """What is missing to evaluate the rules, if something is."""
    return None if shutil.which("promtool") else "promtool is missing, of Debian's prometheus"


def evaluated(readings: Readings, marks: list[tuple[int, Alerts]]) -> None:
    """By promtool exactly these alerts must be raised in each marked second."""
    test = {"interval": "1s", "input_series": readings.series(),
            "alert_rule_test": [each for mark in marks for each in wanted(*mark)]}
    with tempfile.TemporaryDirectory(prefix="rv-alerts-") as name:
        folder = pathlib.Path(name)
        (folder / "rules.yml").write_text(in_seconds(RULES.read_text()))
        (folder / "test.yml").write_text(json.dumps({"rule_files": ["rules.yml"], "evaluation_interval": "1s", "tests": [test]}))
        ran = subprocess.run(["promtool", "test", "rules", folder / "test.yml"], capture_output=True, text=True, timeout=120)
    demand(ran.returncode == 0, f"promtool: {ran.stdout}{ran.stderr}")


def symptoms(first: tuple[int, Reading], last: tuple[int, Reading | None]) -> set[str]:
    """The alerts that two readings hint at, by the numbers which their expressions name."""
    (began, before), (ended, now) = first, last
    if now is None:
        return {"RvSilent"}
    seconds = max(1, ended - began)
    rises = {name: value - before[name] for name, value in now.items()}
    limits = [name for name in now if f"{name}_limit" in now]
    holds = {
        "RvAlmostFull": any(now[name] > FULL * now[f"{name}_limit"] for name in limits),
        "RvUnheard": now["rv_requests_unheard"] > 0,
        "RvBacklog": any(rise > BACKLOG * seconds for name, rise in rises.items() if name.startswith("rv_queue_items")),
        "RvPeerTakesNothing": rises["rv_fault_stall_total"] + rises["rv_fault_most_held_total"] > 0,
        "RvNoDescriptor": rises["rv_fault_descriptor_total"] > 0,
        "RvNoMemory": rises["rv_fault_memory_total"] + rises["rv_fault_unwritten_total"] > 0,
        "RvSlowTurns": FEW * rises["rv_turn_seconds_count"] < rises["rv_turn_seconds_count"] - rises[SLOW],
        "RvLinesDropped": rises["rv_fault_line_total"] > 0,
        "RvClockStands": rises["rv_fault_clock_total"] > 0,
        "RvAccountFile": rises["rv_fault_account_total"] > 0,
        "RvManyFromOne": rises["rv_fault_address_total"] > 0,
        "RvAccountGrows": rises["rv_account_bytes_total"] * DAY > GIGABYTE * seconds,
    }
    return {name for name, is_there in holds.items() if is_there}


class Stage:
    """A host, and what was demanded of the alerts while it ran."""

    def __init__(self, host: Host, port: int, readings: Readings):
        self.host, self.port, self.readings, self.marks = host, port, readings, list[tuple[int, Alerts]]()

    def status(self) -> dict[str, Any]:
        """What the page has."""
        told: dict[str, Any] = json.loads(page(self.port, "/status.json", JSON))
        return told

    def lasts(self, what: str, holds: Callable[[Reading | None], bool], count: int) -> None:
        """Waits until this holds of the last so many readings."""
        def is_so() -> bool:
            last = list(self.readings.taken.values())[-count:]
            return len(last) == count and all(map(holds, last))

        until(what, is_so)

    def span(self) -> tuple[tuple[int, Reading], tuple[int, Reading | None]]:
        """The first and the last reading, with their seconds."""
        return self.readings.good()[0], list(self.readings.taken.items())[-1]

    def raises(self, alerts: Alerts) -> None:
        """The numbers must hint at these alerts and at no other, and the rules must raise these and no other."""
        first, last = self.span()
        demand(symptoms(first, last) == set(alerts), f"the numbers hint at {symptoms(first, last)}, not {set(alerts)}")
        self.marks.append((last[0], alerts))

    def rise(self, name: str) -> str:
        """A number's first value and its last, as text."""
        first, last = (self.readings.good()[at][1][name] for at in (0, -1))
        return f"{name} {first} to {last}"


@contextlib.contextmanager
def staged(program: str, *options: str, **more: Any) -> Iterator[Stage]:
    """A stage. Behind its block the rules are evaluated, where that can be."""
    port = free_port()
    with Host(program, options=("--status", f"127.0.0.1:{port}", *options), **more) as host:
        until("it tells its status address", lambda: f"http://127.0.0.1:{port}/".encode() in host.said)
        with Readings(port) as readings:
            stage = Stage(host, port, readings)
            stage.lasts("its metrics are told", bool, 2)
            yield stage
    if stage.marks and not lacking():
        evaluated(readings, stage.marks)
