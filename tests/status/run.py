"""The page of a server's status in a browser, over a made-up status of its form, and the names of its numbers.

What needs Debian's chromium, or promtool of Debian's prometheus, is left out where that is missing.
"""
from __future__ import annotations

import json
import re
import subprocess
from typing import Dict, Iterator, List, Set

from tests import ROOT
from tests.cases import Case, Tool
from tests.clients import browser
from tests.status import busy, stages, standin

ROWS, TEXTS = ROOT / "crates/rv_status/specs/Rows.antt", ROOT / "crates/rv_status/specs/Texts.antt"
RULES = ROOT / "packaging/rv.rules.yml"
DASHBOARD = ROOT / "packaging/rv.dashboard.json"
# Metrics that the rows don't list: those of each queue, and the build.
QUEUES = {"rv_queue_items", "rv_queue_consumers", "rv_build_info"}
# What a text that a peer chose might try, were it markup.
MARKUP = "<img src=x onerror=document.title='bad'>"
BROWSER = Tool("the status page in a browser", browser.missing)
PROMTOOL = Tool("the metrics and alerts", stages.lacking)


def rows() -> List[List[str]]:
    """Each number's kind, name and meaning, as the definitions have them."""
    form = r'(counter|gauge)_row \(codes "(\w+)"\)\s+\(codes "([^"]+)"\)'
    return [list(found) for found in re.findall(form, ROWS.read_text())]


def histograms() -> List[List[str]]:
    """Each histogram's name and meaning, as the definitions have them."""
    return [list(found) for found in re.findall(r'histogram_text \(codes "(\w+)"\)\s+\(codes "([^"]+)"\)', TEXTS.read_text())]


def known() -> Set[str]:
    """The names of all metrics."""
    parts = {f"{name}_{part}" for name, _ in histograms() for part in ("bucket", "sum", "count")}
    return set(numbers()) | QUEUES | parts


def shown(status: busy.Status, *more: str) -> str:
    """The page over a status as the browser holds it; further words of the browser's may keep a picture."""
    with standin.serving(busy.text(status)) as (host, port):
        return str(browser.opened(f"http://{host}:{port}/", *more))


def table(page: str, name: str) -> str:
    """One table of a page, with its rows."""
    found = re.search(rf'<table id="{name}">(.*?)</table>', page, re.S)
    return found[1] if found else ""


def numbers() -> Dict[str, int]:
    """Each number's name, and a value."""
    return {name: 0 for _, name, _ in rows()}


def queries(node: object) -> Iterator[str]:
    """What a dashboard asks Prometheus."""
    if isinstance(node, dict):
        yield from (str(node[name]) for name in ("expr", "query") if isinstance(node.get(name), str))
    parts = node.values() if isinstance(node, dict) else node if isinstance(node, list) else ()
    for part in parts:
        yield from queries(part)


class Written(Case):
    """What is written of the page and of the dashboard."""

    def test_the_page_is_written(self) -> None:
        """The page that the crate has is the one of page/status.html, and it reads no number that isn't there."""
        ran = subprocess.run([ROOT / "tools/page.py", "--check"], capture_output=True, text=True)
        self.check("the page is written", ran.returncode == 0, ran.stderr.strip())
        names = [name for _, name, _ in rows()]
        read = set(re.findall(r"\bn\.(rv_\w+)", standin.PAGE.read_text()))
        self.check("the numbers are in the order of their names", len(names) >= 20 and names == sorted(names), names)
        self.check("the page reads numbers that there are", read and read <= set(names), read - set(names))
        kinds = re.search(r"const FAULTS = \{(.*?)\};", standin.PAGE.read_text(), re.S)
        told = re.findall(r"(\w+): \"", kinds[1]) if kinds else []
        wanted = [fault or refusal for fault, refusal in re.findall(r"\brv_(?:fault_(\w+)|(refused_\w+))_total\b", " ".join(names))]
        self.check("the page has words for each fault", sorted(told) == sorted(wanted), told)

    def test_the_dashboard_asks_what_there_is(self) -> None:
        """Each query of the dashboard names metrics that there are, each metric but the bound of another stands in one, and no two
        panels overlap."""
        board = json.loads(DASHBOARD.read_text())
        asked = [set(re.findall(r"\brv_\w+", query)) for query in queries(board)]
        read = set().union(*asked)
        self.check("it asks for what there is", read <= known(), read - known())
        self.check("it shows each metric", known() - read <= {"rv_status_connections"}, known() - read)
        self.check("each query names a metric", all(re.search(r"\brv_\w+|\bup\b|^prometheus$", query) for query in queries(board)))
        places = [(panel["gridPos"]["x"], panel["gridPos"]["y"]) for panel in board["panels"]]
        self.check("no two panels stand in one place", len(set(places)) == len(places) == len({panel["id"] for panel in board["panels"]}))


class Shown(Case):
    """The page in a browser."""

    def setUp(self) -> None:
        BROWSER.demand()

    def test_a_busy_server_is_shown(self) -> None:
        """Numbers, limits, at most 100 rows and how many more, and the words that end a request."""
        status = busy.busy({**numbers(), "rv_fault_descriptor_total": 17})
        page = shown(status, "--dump-dom")
        self.check("it is told that the server turns", "turning" in page and f"rv {busy.VERSION}, epoch 1785000000000" in page)
        self.check("connections are beside their limit", "<b" in page and "8,421" in page and "of 10,000" in page)
        waiting = table(page, "waiting")
        self.check("how long each waits", "<td>130 s" not in waiting and "<td>2 min" in waiting and "<td>31 s" in waiting)
        self.check("100 rows, and how many more", waiting.count("<tr") == 101 and "and 1,140 more" in waiting)
        client, incarnation = status["unheard"][0][3:5]
        words = f"rv call --connect ADDR --client {client} --incarnation {incarnation + 1}"
        self.check("the words that end a request", words in table(page, "unheard"), words)
        self.check("the fault is told", "<td>17</td>" in table(page, "faults") and "no descriptor was left" in table(page, "faults"))
        self.check("no fault is told that never came", "idle" not in table(page, "faults"))
        items = f"<td>{status['queues'][3][1]:,}</td>"
        self.check("the three queues that are used", table(page, "queues").count("<tr") == 4 and items in table(page, "queues"))
        self.check("the picture", page.count("<polyline") == 2 and "entries a second" in page)

    def test_texts_stay_texts(self) -> None:
        """Markup in a text is shown as it is."""
        status = busy.busy(numbers())
        status["waiting"][0][0] = MARKUP
        page = shown(status, "--dump-dom")
        self.check("no text becomes markup", "<img" not in page and "&lt;img src=x" in page and "<title>rv</title>" in page)

    def test_an_empty_server_is_shown(self) -> None:
        """A server that has just started has no row, no sample and no fault."""
        status = {"history": [], "numbers": numbers(), "queues": [[queue, 0, 0] for queue in range(64)], "unheard": [],
                  "version": busy.VERSION, "waiting": []}
        page = shown(status, "--dump-dom")
        self.check("all is empty", "turning" in page and "all are empty" in page and table(page, "waiting").count("none") == 1)


class Metrics(Case):
    """The metrics and alerts, by promtool."""

    def setUp(self) -> None:
        PROMTOOL.demand()

    def test_metrics_follow_the_conventions(self) -> None:
        """promtool finds nothing to say of the names, kinds and meanings."""
        text = "".join(f"# HELP {name} {meaning}\n# TYPE {name} {kind}\n{name} 1\n" for kind, name, meaning in rows())
        for name in ("rv_queue_items", "rv_queue_consumers"):
            text += f'# HELP {name} What waits.\n# TYPE {name} gauge\n{name}{{queue="0"}} 3\n{name}{{queue="63"}} 0\n'
        for name, meaning in histograms():
            text += f"# HELP {name} {meaning}\n# TYPE {name} histogram\n"
            text += f'{name}_bucket{{le="0.001"}} 1\n{name}_bucket{{le="+Inf"}} 2\n{name}_sum 0.25\n{name}_count 2\n'
        ran = subprocess.run(["promtool", "check", "metrics"], input=text, capture_output=True, text=True, timeout=60)
        self.check("promtool says nothing", ran.returncode == 0 and not ran.stdout + ran.stderr, ran.stdout + ran.stderr)

    def test_alerts_are_raised(self) -> None:
        """Each staged fault raises its alert, and no rule reads a number that isn't there."""
        read = set(re.findall(r"\brv_\w+", RULES.read_text()))
        self.check("the alerts read numbers that there are", read and read <= known(), read - known())
        ran = subprocess.run(["promtool", "test", "rules", ROOT / "tests/status/alerts.yml"], capture_output=True, text=True, timeout=60)
        self.check("each staged fault raises its alert", ran.returncode == 0, ran.stdout + ran.stderr)
