"""The status address of `rv host`: its pages, its numbers beside what was done, and those who ask there and mean no good."""
from __future__ import annotations

import contextlib
import http.client
import json
import re
import subprocess
import time
from typing import Any

from tests.host.hostile import beside_a_good_client, one_that_waits, still_waits
from tests.host.many import closing, connected, no_descriptors
from tests.host.options import LISTEN, VERSION, listening, only, refused
from tests.model.account import Key
from tests.sockets.hosts import Host
from tests.sockets.programs import Caller, free_port
from tests.sockets.wire import Peer, demand, drain, frame, give, hello, replied, request, swap, take, until

# A head has fewer bytes, and a connection lasts so many seconds at most; so many come in a flood.
HEAD, LONGEST, FLOOD = 4_096, 10, 1_000
# So many connections take the last descriptors, and so often a page is asked for then.
CROWD, OFTEN = 20, 5
# A request's bytes in a piece, and the seconds from one to the next: more than those between two visits. All is to be said in one.
PIECE, PAUSE, TO_ASK = 18, 0.05, 1
# Requests that are left alone, one more than a status shows, and for how many seconds; the queues of these, and of one that isn't.
LEFT, ALONE, QUEUE, OTHER = 101, 8, 6, 8
# The seconds that a test gives a number which is read off once a second, and a connection that is to end.
SOON = 30
# The bounds of histograms, in seconds, as RUNNING has them.
BOUNDS = {
    "rv_turn_seconds": "0.0005 0.001 0.0025 0.005 0.01 0.025 0.05 0.1 0.25 0.5 1 2.5 5 10".split(),
    "rv_answer_seconds": "0.001 0.005 0.01 0.05 0.1 0.25 0.5 1 5 10 30 300 3600 86400".split(),
}
# The words of calls.
CALLS = ("count", "drain", "peek", "put", "swap", "take", "transfer")
HTML, JSON, METRICS, PLAIN = "text/html", "application/json", "text/plain; version=0.0.4", "text/plain"


def asked(port: int, path: str, method: str = "GET", patience: float = SOON, host: str = "127.0.0.1") -> tuple[int, str, str]:
    """The status, the type and the body that are told for a path, asked for under this host's name."""
    link = http.client.HTTPConnection("127.0.0.1", port, timeout=patience)
    with contextlib.closing(link):
        link.request(method, path, headers={"Host": host})
        answer = link.getresponse()
        demand(answer.getheader("connection") == "close", f"{method} {path}: the connection is to stay")
        return answer.status, answer.getheader("content-type", ""), answer.read().decode()


def page(port: int, path: str, kind: str, method: str = "GET", status: int = 200, patience: float = SOON) -> str:
    """The body of a page, whose status and type must be these."""
    got, told, body = asked(port, path, method, patience)
    demand((got, told.startswith(kind)) == (status, True), f"{method} {path}: {got} {told}, not {status} {kind}")
    return body


def numbers(port: int, patience: float = SOON) -> dict[str, float]:
    """The metrics that are told, by name and labels."""
    return read_numbers(page(port, "/metrics", METRICS, patience=patience))


def read_numbers(text: str) -> dict[str, float]:
    """The metrics of a page, by name and labels: whole numbers, but for sums of seconds."""
    parts = (line.rpartition(" ") for line in text.splitlines() if not line.startswith("#"))
    return {name: int(value) if value.isdigit() else float(value) for name, _, value in parts}


def buckets(told: dict[str, float], name: str) -> dict[str, float]:
    """A histogram's counts by their bounds, which must be these, and rise to the count of all."""
    front = f'{name}_bucket{{le="'
    counts = {key.removeprefix(front).removesuffix('"}'): count for key, count in told.items() if key.startswith(front)}
    demand(list(counts) == [*BOUNDS[name], "+Inf"], f"{name} has the bounds {list(counts)}")
    demand(list(counts.values()) == sorted(counts.values()), f"the counts of {name} don't rise: {counts}")
    demand(counts["+Inf"] == told[f"{name}_count"], f"{name} counts {counts['+Inf']} and {told[f'{name}_count']}")
    return counts


def shows(port: int, wanted: dict[str, float]) -> None:
    """The metrics come to be these."""
    until(f"the metrics are {wanted}", lambda: wanted.items() <= numbers(port).items(), SOON)


def addresses(program: str) -> None:
    """An address for the status that is none, or can't be had, is told by its name, and no account is begun."""
    for text in ["127.0.0.1", ":", "127.0.0.1:65536", "[::1"]:
        refused(program, ["host", *LISTEN, "--status", text], 1, text)
    with listening() as port:
        only(program, ["host", *LISTEN, "--status", f"127.0.0.1:{port}"], 1, f"127.0.0.1:{port}: address in use")
    refused(program, ["host", *LISTEN, "--status"], 2, "--status")


def pages_by_path(program: str) -> None:
    """Four pages, a head of each alone, and refusals of all else; standard error tells the address."""
    port = free_port()
    with Host(program, options=("--status", f"127.0.0.1:{port}")) as host:
        until("it tells its status address", lambda: f"http://127.0.0.1:{port}/".encode() in host.said)
        demand("<html" in page(port, "/", HTML), "the page is no HTML")
        status = json.loads(page(port, "/status.json", JSON))
        members = ["history", "numbers", "queues", "unheard", "version", "waiting"]
        demand(sorted(status) == members, f"the status has {sorted(status)}")
        demand(status["version"] == VERSION, f"the version is {status['version']}")
        metrics = page(port, "/metrics", METRICS)
        demand(f'\nrv_build_info{{version="{VERSION}"}} 1\n' in metrics, "the build isn't told")
        demand(f", rv {VERSION}\n".encode() in host.said, f"it says {host.said!r}, without its version")
        demand("rv_uptime_seconds" in numbers(port), "no uptime is told")
        demand(page(port, "/healthz", PLAIN) == "turning\n", "it doesn't tell that it turns")
        demand(page(port, "/readyz", PLAIN) == "ready\n", "it doesn't tell that it is ready")
        for path, kind in [("/", HTML), ("/status.json", JSON), ("/metrics", METRICS), ("/healthz", PLAIN), ("/readyz", PLAIN)]:
            demand(page(port, path, kind, "HEAD") == "", f"a head of {path} has a body")
        page(port, "/status.json?a=b", JSON)
        for path in ["/status", "/metrics/", "/index.html", "/%2e%2e"]:
            page(port, path, PLAIN, status=404)
        for method in ["POST", "PUT", "DELETE", "OPTIONS"]:
            page(port, "/", PLAIN, method, 405)
        host.ended()


# Hosts under whose names a page is told, where the names are NAMES, and others.
NAMES, OWN, FOREIGN = "rv.example,box", [
    "127.0.0.1", "127.0.0.1:80", "10.1.2.3", "[::1]", "[::1]:7412", "[fe80::1:2]", "localhost", "LocalHost:1", "box", "box:80", "RV.Example",
], [
    "", "a", "evil.example", "evil.example:7412", "127.0.0.1.evil.example", "127.0.0.1.", "localhost.evil.example", "localhosts",
    "rv.example.com", "example", "rv", "boxes", "1.2.3", "0x7f.1", "256.1.1.1", "box.", "rv.example,box",
]


def pages_by_host(program: str) -> None:
    """A page is told under an address, `localhost` or a name that was given; to a page of another origin nothing is."""
    port = free_port()
    with Host(program, options=("--status", f"127.0.0.1:{port}", "--status-name", NAMES)) as host:
        until("it tells its status address", lambda: f"http://127.0.0.1:{port}/".encode() in host.said)
        for name in OWN:
            demand(asked(port, "/healthz", host=name)[0] == 200, f"nothing is told to {name!r}")
        for name in FOREIGN:
            for path, method in [("/", "GET"), ("/status.json", "GET"), ("/status.json", "HEAD"), ("/none", "GET"), ("/", "POST")]:
                told = asked(port, path, method, host=name)
                demand(told[0] == 421 and told[2] in ("", "no such host: --status-name\n"), f"{name!r} is told {told} for {path}")
        with contextlib.closing(visitor(port, b"GET /healthz HTTP/1.0\r\n\r\n")) as peer:
            demand(ends(peer, time.monotonic()).startswith(b"HTTP/1.0 200"), "HTTP/1.0 without a host is refused")
        host.ended()
    with Host(program, options=("--status", f"127.0.0.1:{port}")) as host:
        until("it tells its status address", lambda: f"http://127.0.0.1:{port}/".encode() in host.said)
        demand(asked(port, "/healthz", host="box")[0] == 421, "a name that wasn't given is answered")
        demand(asked(port, "/healthz", host="localhost")[0] == 200, "nothing is told to localhost")
        host.ended()


def readiness(program: str) -> None:
    """It isn't ready while clients, open places or connections are at their limit; it turns all the same."""
    port, told = free_port(), lambda: asked(port, "/readyz")[::2]
    limits = ("--clients", "2", "--open", "2", "--connections", "3")
    with Host(program, options=("--status", f"127.0.0.1:{port}", *limits)) as host:
        until("it is ready", lambda: told() == (200, "ready\n"), SOON)
        with host.greeted(1) as giver:
            for number in (1, 2):
                key = Key(1, 1, 1, number)
                giver.expect(request(key, give("put", "a", queue=5)), replied(key, reply="done"))
            until("open places are full", lambda: told() == (503, "full\n"), SOON)
            key = Key(1, 1, 1, 3)
            giver.expect(request(key, take("now", queue=5)), replied(key, reply="item", item="a"))
            until("open places are free", lambda: told() == (200, "ready\n"), SOON)
            with host.connect(), host.connect():
                until("connections are full", lambda: told() == (503, "full\n"), SOON)
                demand(page(port, "/healthz", PLAIN) == "turning\n", "it doesn't tell that it turns")
            until("connections are free", lambda: told() == (200, "ready\n"), SOON)
            with host.greeted(2):
                until("clients are full", lambda: told() == (503, "full\n"), SOON)
        host.ended()


def answers_are_counted(program: str) -> None:
    """Each answer that left is counted by its kind: refusals by their number, other answers by their word."""
    port = free_port()
    key = {number: Key(1, 1, 5, number) for number in range(1, 12)}
    with Host(program, options=("--status", f"127.0.0.1:{port}", "--clients", "2", "--open", "2")) as host:
        with host.greeted(1, 5) as peer, host.greeted(2), host.connect() as third:
            calls = [give("put", "a", queue=5), give("put", "\"reply\":\"done\"}", queue=5), {"call": "count", "queue": 5},
                     {"call": "peek", "queue": 5}, drain(3, queue=5), take("now", queue=5), give("transfer", "b", "now", queue=6)]
            for number, call in enumerate(calls, 1):
                peer.ask(request(key[number], call))
            peer.ask(request(key[8], take(1, queue=7)))
            wanted = {"done": 2, "counted": 1, "peeked": 1, "drained": 1, "empty": 1, "nobody": 1, "timed_out": 1}
            for body, code in [(b"{", 1), (request(Key(2, 1, 5, 1), calls[0]), 2), (request(Key(1, 9, 1, 1), calls[0]), 3),
                               (hello(1), 4), (request(key[7], calls[0]), 5), (request(key[8], calls[0]), 6),
                               (request(key[10], calls[0]), 8)]:
                demand(peer.told(body)["code"] == code, f"{body!r} isn't refused {code}")
            demand(third.told(hello(3))["code"] == 9, "a third client is welcome")
            told = {f"rv_told_{word}_total": count for word, count in wanted.items()}
            refused = {f"rv_refused_{name}_total": 1 for name in ("bad_text", "other_epoch", "no_session", "old_incarnation",
                       "old_number", "other_call", "gap", "clients_full")}
            shows(port, {**told, **refused, "rv_refused_busy_total": 0, "rv_refused_epoch_full_total": 0, "rv_told_item_total": 0})
            until("it says so", lambda: b"hellos of new clients refused 9 (--clients): 1\n" in host.said, SOON)
        host.ended()


def calls_are_counted(program: str) -> None:
    """Each request that arrives is counted by its call, and no repeat of it, no request that is refused, and no cancel."""
    port = free_port()
    calls = [give("put", "a", queue=5), give("put", "b", queue=5), {"call": "count", "queue": 5}, {"call": "peek", "queue": 5},
             drain(1, queue=5), take("now", queue=5), take("now", queue=5), take("now", queue=6), give("transfer", "c", "now", queue=6)]
    last = [give("put", "d", queue=7), swap("e", "forever"), swap("f", "forever")]
    with Host(program, options=("--status", f"127.0.0.1:{port}")) as host, host.greeted(1) as peer, host.greeted(2) as other:
        for number, call in enumerate(calls, 1):
            told = peer.ask(request(Key(1, 1, 1, number), call))
            demand(peer.ask(request(Key(1, 1, 1, number), call)) == told, f"a repeat of {call} is told something else")
            demand(peer.told(request(Key(1, 1, 1, number + 2), call))["code"] == 8, "a request that leaves one out isn't refused")
        # nothing is asked behind these three entries, so that all is counted once they are
        peer.ask(request(Key(1, 1, 1, len(calls) + 1), last[0]))
        peer.send(frame(request(Key(1, 1, 1, len(calls) + 2), last[1])))
        shows(port, {"rv_requests_waiting": 1})
        other.ask(request(Key(1, 2, 1, 1), last[2]))
        words = [call["call"] for call in (*calls, *last)]
        shows(port, {"rv_entries_total": 2 + len(words), **{f"rv_calls_{word}_total": words.count(word) for word in CALLS}})
        host.ended()


def times_are_told(program: str) -> None:
    """Each answer that left is observed once, and turns are; together they took no longer than the server has been there."""
    port, asked = free_port(), 50
    with Host(program, options=("--status", f"127.0.0.1:{port}")) as host:
        with host.greeted(1) as peer:
            for number in range(1, 1 + asked):
                key = Key(1, 1, 1, number)
                peer.expect(request(key, give("put", "a", queue=5)), replied(key, reply="done"))
        shows(port, {"rv_entries_total": 1 + asked, "rv_answer_seconds_count": 1 + asked})
        told = numbers(port)
        answers, turns = buckets(told, "rv_answer_seconds"), buckets(told, "rv_turn_seconds")
        demand(answers["+Inf"] == 1 + asked, f"{answers['+Inf']} answers are observed, not {1 + asked}")
        took, lasted = told["rv_turn_seconds_sum"], told["rv_uptime_seconds"] + 1
        demand(turns["+Inf"] > asked and 0 < took < lasted, f"{turns['+Inf']} turns took {took} of {lasted} seconds")
        host.ended()


def nothing_listens(program: str) -> None:
    """Without the option nothing listens but the server."""
    with Host(program) as host:
        host.greeted(1).close()
        demand(b"status" not in host.said, f"without a status address it says {host.said!r}")
        host.ended()


def a_worked_scene(program: str) -> None:
    """Three items in one queue, and a take in another whose worker was killed: it shows as without a connection."""
    port = free_port()
    with Host(program, options=("--status", f"127.0.0.1:{port}")) as host:
        wish = Key(1, 2, 7, 1)
        with host.greeted(1) as giver, host.greeted(2, 7) as worker:
            for number in range(1, 4):
                key = Key(1, 1, 1, number)
                giver.expect(request(key, give("put", "<b>", queue=5)), replied(key, reply="done"))
            worker.send(frame(request(wish, take("forever", queue=6))))
            shows(port, {"rv_connections": 2, "rv_requests_waiting": 1, "rv_requests_unheard": 0,
                         'rv_queue_items{queue="5"}': 3, 'rv_queue_consumers{queue="6"}': 1})
            worker.reset()
            shows(port, {"rv_connections": 1, "rv_requests_unheard": 1})
        shows(port, {"rv_connections": 0, "rv_connections_opened_total": host.made, "rv_clients": 2, "rv_open_places": 4,
                     "rv_entries_total": 6, "rv_epoch": host.epoch, "rv_clients_limit": 65_536,
                     "rv_connections_limit": 10_000, "rv_open_places_limit": 100_000,
                     "rv_account_bytes_total": host.counted()})
        until("the request is listed", lambda: listed(port) == [["take", 6, 2, 7, 1]], SOON)
        demand("<b>" not in page(port, "/status.json", JSON), "an item's text is told")
        host.ended()


def listed(port: int) -> list[list[Any]]:
    """The requests that no connection waits for, without their moments."""
    return [row[:2] + row[3:6] for row in unheard(port)]


def unheard(port: int) -> list[list[Any]]:
    """Their rows."""
    return list(json.loads(page(port, "/status.json", JSON))["unheard"])


def a_moment_begins_anew(program: str) -> None:
    """A request has the moment of the first look that found it with no connection, at each look, until one finds a connection."""
    port, wish = free_port(), Key(1, 2, 7, 1)
    with Host(program, options=("--status", f"127.0.0.1:{port}")) as host:
        moments = []
        for _ in range(2):
            with host.greeted(2, 7) as worker:
                worker.send(frame(request(wish, take("forever", queue=QUEUE))))
                shows(port, {"rv_requests_waiting": 1, "rv_requests_unheard": 0})
                until("a request with a connection isn't listed", lambda: not unheard(port), SOON)
            until("one with none is listed", lambda: len(unheard(port)) == 1, SOON)
            rows, seen = unheard(port), numbers(port)["rv_uptime_seconds"]
            until("it is looked at again", lambda: numbers(port)["rv_uptime_seconds"] > seen + 1, SOON)
            demand(unheard(port) == rows, f"its row {rows} came to be {unheard(port)}")
            moments.append(rows[0][6])
        demand(rows[0][2] <= moments[0] < moments[1], f"it arrived at {rows[0][2]} and was found alone at {moments}")
        host.ended()


def ended(program: str, host: Host, port: int, older: str) -> list[str]:
    """The lines of `rv end`, which must end all of this age."""
    words = ["end", "--status", f"127.0.0.1:{port}", "--connect", f"127.0.0.1:{host.port}", "--older", older]
    ran = subprocess.run([program, *words], capture_output=True, text=True, timeout=10 * SOON)
    demand((ran.returncode, ran.stderr) == (0, ""), f"rv end ends by {ran.returncode} and says {ran.stderr!r}")
    return ran.stdout.splitlines()


def the_dead_are_ended(program: str) -> None:
    """`rv end` ends all that were left alone for so long, also those that a status had no room for, and nobody else: then a transfer
    finds nobody."""
    port, clients = free_port(), range(3, 3 + LEFT)
    line = b'{"call":"take","queue":%d,"wait":"forever"}\n' % OTHER
    with (Host(program, options=("--status", f"127.0.0.1:{port}")) as host, host.greeted(1) as giver,
          Caller(program, host.port, 2, line) as living):
        with closing([host.connect() for _ in clients]) as peers:
            for client, peer in zip(clients, peers):
                peer.send(frame(hello(client, 7)) + frame(request(Key(1, client, 7, 1), take("forever", queue=QUEUE))))
            shows(port, {"rv_requests_waiting": LEFT + 1})
            for peer in peers:
                peer.reset()
        until("they are alone", lambda: numbers(port)["rv_requests_unheard"] >= LEFT, SOON)
        demand(not ended(program, host, port, "24h"), "who was just left alone is ended")
        left = numbers(port)["rv_uptime_seconds"]
        until("they are old", lambda: numbers(port)["rv_uptime_seconds"] > left + ALONE + 2, SOON + ALONE)
        lines = ended(program, host, port, f"{ALONE}s")
        wanted = {f"{client} 7 1 take {QUEUE} _ ended" for client in clients}
        told = {re.sub(r"\b\d+ ended$", "_ ended", line) for line in lines}
        # A caller asks anew each ten seconds: only one that was kept from it for as long as the others is ended too.
        stalled = told - wanted
        demand(told >= wanted and len(lines) == len(told), f"rv end prints {lines}")
        demand(stalled <= {f"2 1 1 take {OTHER} _ ended"}, f"it ends {stalled}")
        key = {number: Key(1, 1, 1, number) for number in (1, 2)}
        giver.expect(request(key[1], give("transfer", "a", "now", queue=QUEUE)), replied(key[1], reply="nobody"))
        if not stalled:
            giver.expect(request(key[2], give("transfer", "a", "now", queue=OTHER)), replied(key[2], reply="received"))
            living.judge(replied(Key(1, 2, 1, 1), reply="item", item="a") + b"\n")
        host.ended()


def visitor(port: int, data: bytes) -> Peer:
    """A connection to a status address, over which these bytes went."""
    peer = connected(port, 1)[0]
    peer.send(data)
    return peer


def ends(peer: Peer, began: float) -> bytes:
    """What comes until the connection ends, which it must soon behind its longest life."""
    with contextlib.suppress(ConnectionError):
        while peer.more():
            pass
    took = time.monotonic() - began
    demand(took < LONGEST + SOON, f"a connection to the status address lasted {took:.0f} seconds")
    return peer.got


def a_request_in_pieces(program: str) -> None:
    """A request that comes piece by piece, each of which the host can see alone, is answered as one that comes whole."""
    port, whole = free_port(), b"GET /healthz HTTP/1.1\r\nhost: [::1]\r\nconnection: close\r\n\r\n"
    with Host(program, options=("--status", f"127.0.0.1:{port}")) as host:
        until("it listens", lambda: f"127.0.0.1:{port}".encode() in host.said)
        until("it is answered in time", lambda: said_in_pieces(port, whole), SOON)
        host.ended()


def said_in_pieces(port: int, whole: bytes) -> bool:
    """Whether a request is said piece by piece within its time; then it must be answered."""
    began, answer = time.monotonic(), b""
    with contextlib.closing(visitor(port, b"")) as peer, contextlib.suppress(ConnectionError):
        for at in range(0, len(whole), PIECE):
            peer.send(whole[at : at + PIECE])
            time.sleep(PAUSE)
        took, answer = time.monotonic() - began, ends(peer, began)
        demand(took >= TO_ASK or answer.startswith(b"HTTP/1.1 200"), f"said within {took:.2f} seconds it is answered {answer!r}")
    return answer.startswith(b"HTTP/1.1 200")


def hostile_visitors(program: str) -> None:
    """Silence, half requests, long heads and a flood end within their time, and touch nobody; then a page is told again."""
    port = free_port()
    with beside_a_good_client(program, "--status", f"127.0.0.1:{port}") as host, one_that_waits(host) as waiting:
        until("it listens", lambda: f"127.0.0.1:{port}".encode() in host.said)
        began = time.monotonic()
        half = b"GET /status.json HTTP/1.1\r\nhost: 127.0.0.1\r\n"
        data = [b"", half, half + b"x-a: ", half + b"content-length: 5\r\n\r\n1", b"\0" * 9, (half + b"x: ").ljust(HEAD, b"a")]
        with closing([visitor(port, part) for part in data]) as peers:
            answers = [ends(peer, began) for peer in peers]
        demand(answers[0] == answers[1] == answers[2] == b"", f"half a request was answered: {answers[:3]}")
        wanted = [b"HTTP/1.1 413", b"HTTP/1.1 400", b"HTTP/1.1 431"]
        demand([answer[:12] for answer in answers[3:]] == wanted, f"refused by {[answer[:12] for answer in answers[3:]]}")
        with closing(connected(port, FLOOD)):
            still_waits(host, waiting)
            page(port, "/healthz", PLAIN)
        page(port, "/", HTML)


def told_without_descriptors(program: str) -> None:
    """Where no descriptor is left pages are told all the same, one after another, and among them that there is none."""
    port = free_port()
    with Host(program, options=("--status", f"127.0.0.1:{port}")) as host:
        shows(port, {"rv_fault_descriptor_total": 0})
        with no_descriptors(host.process.pid, host.port, CROWD):
            until("that is told", lambda: numbers(port)["rv_fault_descriptor_total"] > 0, SOON)
            for _ in range(OFTEN):
                page(port, "/healthz", PLAIN)
        shows(port, {"rv_connections": 0})
        host.ended()


CASES = [
    addresses, pages_by_path, pages_by_host, readiness, answers_are_counted, calls_are_counted, times_are_told, nothing_listens,
    a_worked_scene, a_moment_begins_anew, the_dead_are_ended, a_request_in_pieces, hostile_visitors, told_without_descriptors,
]
