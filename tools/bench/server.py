"""Measures `rv serve` by clients that put and take, beside `redis-server` by clients that push and pop, over as many
connections and by the same loop: each client is a process of its own, with one connection, and asks one request at a time,
or sixteen in one piece.

As a program, it is one such client: it connects, says so, waits for a line, and then tells its times.

usage: tools/bench/server.py rv|redis PORT CLIENT REQUESTS PIECE
"""
import array
import json
import os
import pathlib
import shutil
import socket
import subprocess
import sys
import tempfile
import time

ROOT = pathlib.Path(__file__).resolve().parents[2]
sys.dont_write_bytecode, sys.path[0] = True, str(ROOT)
from tests.sockets.programs import PATIENCE, Server, free_port  # noqa: E402

# Connections, the requests of each, and how many it asks in one piece. An epoch has room for 100,000 entries.
LOADS = [(1, 20_000, 1), (8, 10_000, 1), (1, 48_000, 16), (8, 12_000, 16)]
RUNS = 3
MOST_WORKERS = 8
# How many times a second the system counts a process's time.
TICKS = os.sysconf("SC_CLK_TCK")


def item(number):
    """The item of a put, as short as the keys are."""
    return f"item {number}"


class Rv:
    """A client of rv: it says hello, and puts an item into a queue of its own and takes it, again and again."""

    def __init__(self, client, requests):
        self.hello = self.frame({"client": client, "incarnation": 1, "kind": "hello"})
        self.requests = [self.request(client, number) for number in range(1, requests + 1)]

    def frame(self, members):
        body = json.dumps(members, sort_keys=True, separators=(",", ":")).encode()
        return len(body).to_bytes(2) + body

    def request(self, client, number):
        key = {"kind": "request", "client": client, "epoch": 1, "incarnation": 1, "number": number, "queue": client % 64}
        call = {"call": "put", "item": item(number)} if number % 2 else {"call": "take", "wait": "now"}
        return self.frame({**key, **call})

    def cut(self, data, answers):
        """Takes the whole answers off the front of what came, and gives the rest."""
        while len(data) >= 2 and len(data) >= (end := 2 + int.from_bytes(data[:2])):
            answers.append(data[:end])
            data = data[end:]
        return data

    def good(self, number, data):
        """Whether this is the answer to the request of a number; 0 is the hello."""
        members = json.loads(data[2:])
        if number == 0:
            return members["kind"] == "welcome"
        wanted = {"reply": "done"} if number % 2 else {"reply": "item", "item": item(number - 1)}
        return members["number"] == number and wanted.items() <= members.items()


class Redis:
    """A client of Redis: it pushes an item to a list of its own and pops it, again and again."""

    def __init__(self, client, requests):
        self.hello = b"*1\r\n$4\r\nPING\r\n"
        self.requests = [self.request(client, number) for number in range(1, requests + 1)]

    def request(self, client, number):
        words = ["LPUSH", f"queue {client}", item(number)] if number % 2 else ["RPOP", f"queue {client}"]
        return b"*%d\r\n" % len(words) + b"".join(b"$%d\r\n%s\r\n" % (len(word), word.encode()) for word in words)

    def cut(self, data, answers):
        """Takes the whole answers off the front of what came, and gives the rest."""
        while (line := data.find(b"\r\n")) >= 0:
            end = line + 2 if data[:1] != b"$" else line + 4 + int(data[1:line])
            if len(data) < end:
                break
            answers.append(data[:end])
            data = data[end:]
        return data

    def good(self, number, data):
        """Whether this is the answer to the request of a number; 0 is the ping."""
        text = item(number - 1).encode()
        return data == (b"+PONG\r\n" if number == 0 else b":1\r\n" if number % 2 else b"$%d\r\n%s\r\n" % (len(text), text))


KINDS = {"rv": Rv, "redis": Redis}


def client_main(kind, port, client, requests, piece):
    """Connects, says so, waits for a line, asks, and tells the moments of each piece and of its answers."""
    load = KINDS[kind](int(client), int(requests))
    connection = socket.create_connection(("127.0.0.1", int(port)), PATIENCE)
    connection.settimeout(4 * PATIENCE)
    connection.setsockopt(socket.IPPROTO_TCP, socket.TCP_NODELAY, 1)
    _, answers = ask_all(connection, load, [load.hello], 1)
    print("ready", flush=True)
    sys.stdin.readline()
    times, told = ask_all(connection, load, load.requests, int(piece))
    good = all(load.good(number, data) for number, data in enumerate(answers + told))
    sys.stdout.buffer.write(times.tobytes() if good else b"")


def ask_all(connection, load, requests, piece):
    """The moments, in nanoseconds, before the first request and behind the answers of each piece; and the answers."""
    clock, cut, send, receive = time.monotonic_ns, load.cut, connection.sendall, connection.recv
    pieces = [b"".join(requests[at : at + piece]) for at in range(0, len(requests), piece)]
    times, answers = array.array("q", [clock()]), []
    for number, asked in enumerate(pieces, 1):
        send(asked)
        data = cut(receive(65_536), answers)
        while len(answers) < number * piece:
            data = cut(data + receive(65_536), answers)
        times.append(clock())
    return times, answers


def load_once(kind, port, connections, requests, piece):
    """The seconds of a load by so many clients at once, and the seconds of each piece, sorted."""
    words = [[sys.executable, __file__, kind, *map(str, [port, client, requests, piece])]
             for client in range(1, connections + 1)]
    clients = [subprocess.Popen(own, stdin=subprocess.PIPE, stdout=subprocess.PIPE) for own in words]
    try:
        if any(client.stdout.readline() != b"ready\n" for client in clients):
            sys.exit(f"a client of {kind} did not connect")
        for client in clients:
            client.stdin.write(b"\n")
            client.stdin.flush()
        times = [array.array("q", client.communicate(timeout=300)[0]) for client in clients]
    finally:
        for client in clients:
            client.kill()
            client.wait()
    if not all(len(own) == requests // piece + 1 for own in times):
        sys.exit(f"a client of {kind} was answered wrongly")
    seconds = (max(own[-1] for own in times) - min(own[0] for own in times)) / 1e9
    return seconds, sorted((after - before) / 1e9 for own in times for before, after in zip(own, own[1:]))


def processor_seconds(pid):
    """The time of the processor that a process has taken so far, which hangs less on what else the machine does."""
    cells = pathlib.Path(f"/proc/{pid}/stat").read_text().rpartition(")")[2].split()
    return (int(cells[11]) + int(cells[12])) / TICKS


def load_of(pid, *load):
    """The seconds of a load, those of its pieces, and those of the processor that the server took for it."""
    before = processor_seconds(pid)
    return *load_once(*load), processor_seconds(pid) - before


def rv_load(program, connections, requests, piece):
    """A load of a server of rv that was just started."""
    with Server(program, workers=MOST_WORKERS, connections=connections + 1) as server:
        server.connect().close()
        return load_of(server.process.pid, "rv", server.port, connections, requests, piece)


def redis_load(program, connections, requests, piece):
    """A load of a server of Redis that was just started, and that keeps nothing on disk."""
    port = free_port()
    with tempfile.TemporaryDirectory() as folder:
        words = [program, "--port", str(port), "--bind", "127.0.0.1", "--save", "", "--appendonly", "no", "--dir", folder,
                 "--daemonize", "no", "--loglevel", "warning"]
        server = subprocess.Popen(words, stdin=subprocess.DEVNULL, stdout=subprocess.DEVNULL)
        try:
            wait_for(port)
            return load_of(server.pid, "redis", port, connections, requests, piece)
        finally:
            server.terminate()
            server.wait()


def wait_for(port):
    """Waits until somebody listens at a port."""
    ends = time.monotonic() + PATIENCE
    while True:
        try:
            socket.create_connection(("127.0.0.1", port), PATIENCE).close()
            return
        except ConnectionRefusedError:
            if time.monotonic() > ends:
                sys.exit("redis-server does not listen")
            time.sleep(0.01)


def figures(runs, count):
    """Requests a second, seconds at the median and at the 99th percentile, and those of the processor for a request:
    each the middle one of the runs."""
    middle = lambda values: sorted(values)[len(values) // 2]
    return (count / middle([seconds for seconds, _, _ in runs]), middle([each[len(each) // 2] for _, each, _ in runs]),
            middle([each[len(each) * 99 // 100] for _, each, _ in runs]), middle([taken for _, _, taken in runs]) / count)


def tell(name, rate, median, late, taken):
    print(f"  {name:9} {rate:7.0f} requests a second, {median * 1e6:.0f} µs at the median, "
          f"{late * 1e6:.0f} µs at the 99th percentile, {taken * 1e6:.1f} µs of the processor")


def beside_redis(program):
    """What the server takes, and Redis where it is installed. They run in turn, so that both meet the same machine."""
    redis = shutil.which("redis-server")
    if not redis:
        print("redis-server is missing: rv serve is measured alone")
    for connections, requests, piece in LOADS:
        count, ours, theirs = connections * requests, [], []
        for _ in range(RUNS):
            ours.append(rv_load(program, connections, requests, piece))
            theirs += [redis_load(redis, connections, requests, piece)] if redis else []
        how = "one at a time" if piece == 1 else f"{piece} in one piece"
        print(f"{connections} connection{'s' * (connections > 1)}, {count} requests, {how} on each:")
        rate, median, late, taken = figures(ours, count)
        tell("rv serve", rate, median, late, taken)
        if redis:
            other_rate, other_median, other_late, other_taken = figures(theirs, count)
            tell("redis", other_rate, other_median, other_late, other_taken)
            print(f"  ratio     rv serve takes {other_rate / rate:.2f} times the time of redis, "
                  f"{median / other_median:.2f} at the median, {late / other_late:.2f} at the 99th percentile, "
                  f"{taken / other_taken:.2f} of the processor")


if __name__ == "__main__":
    client_main(*sys.argv[1:])
