"""The Java client: how it is built for tests, its machine on the table of cases, and its calls over a
scripted server."""
import contextlib
import fcntl
import functools
import itertools
import json
import os
import pathlib
import shutil
import socket
import subprocess
import tempfile
import termios
import threading
import time
from collections.abc import Callable
from typing import Any

from scripted import (
    BY, HANG_UP, SILENCE, Scripted, body_from, bytes_of, old_server, received_by, refused, reply, waiting, welcome)
from tests import ROOT
from tests.sockets.wire import Wrong, demand, frame, until

FOLDER = ROOT / "clients/java/src"
# What JUnit's tests import.
JUNIT = ("import org.junit.", "import static org.junit.")
# Where Debian's JDKs are, and others that were installed beside them.
JDKS = pathlib.Path("/usr/lib/jvm")
GSON = pathlib.Path("/usr/share/java/gson.jar")
# What has a short program of Java begin soon, and use no more than one core for itself.
QUICK = ["-XX:TieredStopAtLevel=1", "-XX:+UseSerialGC", "-Xshare:auto"]
QUICK_COMPILER = [f"-J{word}" for word in QUICK]
# The variable that names the folders of classes that are built already, with colons between them.
CLASSES = "RV_CLASSES"
PATIENCE = 300
# A patience that ends in a case, in milliseconds: long enough for a slow machine to ask. Where it isn't, this is.
SHORT, ENOUGH = 3_000, 30_000
# How often what has to be done in time is tried.
TRIES = 5
# The patience of other sessions in milliseconds: long, but where clients are tried that never end.
LONG = 1_000 * int(os.environ.get("RV_PATIENCE", "60"))
# The members of a message, and what a scripted server does by them.
Members = dict[str, Any]
Deed = Callable[[Members], object]


def missing():
    """What the Java client lacks on this machine, if something: the compiler, or the library that reads
    JSON."""
    if not shutil.which("javac"):
        return "javac is missing, of Debian's default-jdk-headless"
    return None if GSON.exists() else f"{GSON} is missing, of Debian's libgoogle-gson-java"


def compiler(path, folder, *sources):
    """The words that compile these sources, with what stands in a path, into a folder."""
    return ["-Xlint:all", "-Werror", "--release", "17", "-cp", str(path), "-d", str(folder), *map(str, sources)]


@functools.lru_cache(maxsize=None)
def built():
    """The folder of the built classes but JUnit's tests, which is gone when this program ends."""
    demand(not missing(), missing())
    folder = tempfile.TemporaryDirectory(prefix="rv-java-")
    paths = [path for folder in (FOLDER, ROOT / "examples") for path in sorted(folder.rglob("*.java"))]
    sources = [path for path in paths if not any(word in path.read_text() for word in JUNIT)]
    words = ["javac", *QUICK_COMPILER, *compiler(GSON, folder.name, *sources)]
    ran = subprocess.run(words, capture_output=True, text=True, timeout=10 * PATIENCE)
    demand(ran.returncode == 0, f"javac says {ran.stdout} {ran.stderr}")
    return folder


def classes():
    """The folders of classes: those that the environment names, or else the one that is built here."""
    return os.environ.get(CLASSES) or built().name


def class_path() -> str:
    """Where classes are found, with those of the library."""
    return f"{classes()}:{GSON}"


def command(name, *words, jdk="java"):
    """The words that run a class."""
    return [jdk, *QUICK, "-cp", class_path(), name, *map(str, words)]


def the_java_process() -> None:
    """Each case of the table, by the machine in Java."""
    reads("rendezvous.CaseTable", ROOT / "clients/cases.jsonl", '"machine"')


def the_java_addresses() -> None:
    """Each case of the table of addresses, as Java reads it."""
    reads("rendezvous.AddressTable", ROOT / "clients/addresses.jsonl", '"address"')


def reads(name: str, table: pathlib.Path, member: str) -> None:
    """A class finds no fault in the cases of a table, those lines that have this member."""
    ran = subprocess.run(command(name, table), capture_output=True, text=True, timeout=PATIENCE)
    cases = sum(member in line for line in table.read_text().splitlines())
    demand((ran.stdout, ran.stderr) == (f"{cases} cases\n", ""), f"{ran.stdout[:1000]} {ran.stderr[:1000]}")


def in_time(case):
    """A case in which a patience or a time ends, behind which the client says less: where a machine was too slow to
    ask before, or an answer was on its way just then, it is tried again."""
    @functools.wraps(case)
    def tried(*given):
        for _ in range(TRIES - 1):
            with contextlib.suppress(Wrong):
                return case(*given)
        return case(*given)
    return tried


def in_patience(case):
    """A case that is given a patience too, which ends in it: a short one, and where a machine was too slow for that, a long one."""
    @functools.wraps(case)
    def tried(*given):
        with contextlib.suppress(Wrong):
            return case(*given, SHORT)
        return case(*given, ENOUGH)
    return tried


class Driver:
    """A Java program that does what it is told, line by line, by one thread at a time."""

    def __init__(self, name, **environment):
        self.process = subprocess.Popen(command(name), stdin=subprocess.PIPE, stdout=subprocess.PIPE, text=True,
                                        encoding="utf-8", env={**os.environ, **environment})
        self.lock = threading.Lock()

    def tell(self, line):
        """What it prints for a line."""
        with self.lock:
            self.process.stdin.write(line + "\n")
            self.process.stdin.flush()
            return self.process.stdout.readline().rstrip("\n")

    def expect(self, line, wanted):
        """It must print this for a line."""
        got = self.tell(line)
        demand(got == wanted, f"{line}: {got!r}, not {wanted!r}")


@contextlib.contextmanager
def driver(name="rendezvous.Driver", **environment):
    """A driver that ends with the block, with this environment beside its own."""
    made = Driver(name, **environment)
    try:
        yield made
    finally:
        made.process.kill()
        made.process.communicate()


@contextlib.contextmanager
def opened(java, *deeds, patience=LONG, version="", hello=welcome):
    """A scripted server that meets the hello so, with the driver's client 1."""
    with Scripted(hello, *deeds) as server:
        java.expect(f"open {server.port} 1 {patience} {version}".rstrip(), "result open")
        yield server


def asked(server):
    """What came, each as its kind, number and call."""
    return [(one["kind"], one.get("number"), one.get("call")) for one in server.heard]


def each_call(java: Driver) -> None:
    """Each call's members and result."""
    received = {1: reply("received"), 2: received_by(*BY)}
    calls = [("put a", reply("done"), {"call": "put", "item": "a"}, "done"),
             ("transfer a", received, {"call": "transfer", "item": "a", "wait": "forever"}, "received"),
             ("try a", reply("nobody"), {"call": "transfer", "item": "a", "wait": "now"}, "false"),
             ("try a", received, {"call": "transfer", "item": "a", "wait": "now"}, "true"),
             ("try a 0", reply("timedout"), {"call": "transfer", "item": "a", "wait": 0}, "false"),
             ("try a 1001", received, {"call": "transfer", "item": "a", "wait": 2}, "true"),
             ("take", reply("item", item="\u2028<ü"), {"call": "take", "wait": "forever"}, "\u2028<ü"),
             ("poll", reply("empty"), {"call": "take", "wait": "now"}, "null"),
             ("poll -5", reply("timedout"), {"call": "take", "wait": 0}, "null"),
             ("poll 5000000", reply("item", item=""), {"call": "take", "wait": 5000}, ""),
             ("peek", reply("peeked", item="a"), {"call": "peek"}, "a"),
             ("peek", reply("empty"), {"call": "peek"}, "null"),
             ("size", reply("counted", items=2, consumers=0), {"call": "count"}, "2"),
             ("consumers", reply("counted", items=0, consumers=3), {"call": "count"}, "3")]
    for version, (number, (line, answer, members, result)) in itertools.product((1, 2), enumerate(calls)):
        deed = answer[version] if isinstance(answer, dict) else answer
        with opened(java, deed, version=version) as server:
            java.expect(line, f"result {result}")
            key = {"epoch": 1, "client": 1, "incarnation": 1, "number": 1}
            wanted = {"kind": "request", "queue": 3, **key, **members}
            demand(server.heard[1] == wanted, f"call {number}: {server.heard[1]}, not {wanted}")
    with opened(java, reply("swapped", item="y"), reply("timedout")) as server:
        java.expect("exchange x", "result y")
        java.expect("exchange x 0", "threw TimeoutException")


def receipts(java: Driver) -> None:
    """A receipt has the transfer's key, and names the consumer that its reply names, in the reply's epoch."""
    ninth = lambda hello: welcome(hello, 9)
    calls = [("transfer-receipt a", "forever", "result {}"), ("try-receipt a", "now", "result Optional[{}]"),
             ("try-receipt a 1001", 2, "result Optional[{}]")]
    for line, wait, wanted in calls:
        with opened(java, received_by(2, 3, 4), hello=ninth) as server:
            java.expect("last", "result Optional.empty")
            java.expect(line, wanted.format("9/1/1/1 by 9/2/3/4"))
            java.expect("last", "result Optional[Receipt[key=9/1/1/1, by=Optional[9/2/3/4]]]")
            demand(server.heard[1]["wait"] == wait, f"{server.heard}")
        with opened(java, reply("received"), hello=ninth, version=1):
            java.expect(line, wanted.format("9/1/1/1 by nobody named"))
    with opened(java, reply("nobody"), reply("timedout"), reply("cancelled"), reply("done")):
        java.expect("try-receipt a", "result Optional.empty")
        java.expect("try-receipt a 0", "result Optional.empty")
        java.expect("transfer-receipt a", "threw CancellationException")
        java.expect("last", "result Optional[Cancelled[key=1/1/1/3]]")
        java.expect("put a", "result done")
        java.expect("last", "result Optional[Done[key=1/1/1/4]]")


@in_time
def an_unsettled_receipt(java: Driver) -> None:
    """Is told where the transfer is asked again."""
    with opened(java, HANG_UP, patience=SHORT) as server:
        server.otherwise = HANG_UP
        java.expect("transfer a", "threw Unsettled 1/1/1/1")
        java.expect("last", "result Optional.empty")
        server.otherwise = received_by(2, 3, 4)
        java.expect("again", "result Receipt[key=1/1/1/1, by=Optional[1/2/3/4]]")
        java.expect("last", "result Optional[Receipt[key=1/1/1/1, by=Optional[1/2/3/4]]]")


def what_is_no_receipt(java: Driver) -> None:
    """A reply that names a part of a consumer, names one where no receipt is told or the session is of the first
    version, or names none in one of the second, settles nothing."""
    whole = dict(zip(("by_client", "by_incarnation", "by_number"), (2, 3, 4)))
    bad = [reply("received", **{n: value for n, value in whole.items() if n != name}) for name in whole]
    odd = [("by_client", 0), ("by_incarnation", 2**53), ("by_number", 1.0), ("by_number", "1")]
    bad += [reply("received", **{**whole, name: value}) for name, value in odd]
    bad += [reply("received", **whole, by_epoch=1), reply("done", **whole), reply("received")]
    with opened(java, *behind(waiting, bad), received_by(2, 3, 4)) as server:
        java.expect("transfer-receipt a", "result 1/1/1/1 by 1/2/3/4")
        demand(len(server.heard) == 2 + 2 * len(bad), f"{len(server.heard)} frames came")
        demand(server.connections == 1 + len(bad), f"{server.connections} connections came")
    with opened(java, received_by(2, 3, 4), reply("received"), version=1) as server:
        java.expect("transfer-receipt a", "result 1/1/1/1 by nobody named")
        demand(server.connections == 2, f"{server.connections} connections came")


def behind(deed, others):
    """The others, each behind that deed."""
    return [one for other in others for one in (deed, other)]


def versions(java: Driver) -> None:
    """A session asks for version 2, or for the one that it is told, and only its own welcome counts."""
    hello = {"kind": "hello", "client": 1, "incarnation": 1}
    spoken: list[tuple[int | str, dict[str, int]]] = [("", {"version": 2}), (2, {"version": 2}), (1, {})]
    for version, said in spoken:
        other = {} if said else {"version": 2}
        others = [lambda asked, odd=odd: {"kind": "welcome", "epoch": 1, "client": 1, "incarnation": 1, **odd}
                  for odd in (other, {"version": 1}, {"version": 3}, {"version": "2"}, {"version": 2.0})]
        deeds = [*others[1:], welcome, reply("done")]
        with opened(java, *deeds, version=version, hello=others[0]) as server:
            java.expect("put a", "result done")
            hellos = [members for members in server.heard if members["kind"] == "hello"]
            demand(hellos == [{**hello, **said}] * (len(others) + 1), f"{hellos}")
    with opened(java, patience=SHORT, hello=lambda asked: {**welcome(asked), "client": 2}) as server:
        server.otherwise = lambda asked: {**welcome(asked), "client": 2}
        java.expect("put a", "threw NotAsked null")
        demand(len(server.heard) < 60, f"{len(server.heard)} hellos were said")


def other_versions(java: Driver) -> None:
    """A hello of another version than the session's is told so, and by which; and so is one that an old
    server does not know."""
    for current in (1, 2):
        with opened(java, version=3 - current, hello=refused(12, current=current)):
            java.expect("put a", f"threw Refused null 12 other version {current}")
            told = java.tell("words")
            demand(told.endswith(f"in this incarnation speaks {current}"), f"it says {told}")
    odd = [refused(12, current=odd) for odd in (0, 2, 3, "1")]
    with opened(java, *odd, welcome, refused(12, current=1), reply("done"), hello=refused(12)) as server:
        java.expect("put a", "result done")
        demand(len(server.heard) == 8, f"{len(server.heard)} frames came")
    with opened(java, welcome, reply("done"), hello=old_server):
        java.expect("put a", "threw Refused null 1 bad text")
        told = java.tell("words")
        demand("version 1 alone" in told, f"it says {told}")
        java.expect("put a", "result done")
    with opened(java, reply("received"), version=1, hello=old_server):
        java.expect("transfer-receipt a", "result 1/1/1/1 by nobody named")
    for version in (0, 3):
        java.expect(f"open 1 1 1 {version}", "threw IllegalArgumentException")


def texts(count: int, begins: int = 0) -> Deed:
    """A deed: the reply of a drain that took so many items, which are numbers."""
    return reply("drained", texts=[str(each) for each in range(begins, begins + count)])


def drains_by_steps(java: Driver) -> None:
    """Steps of at most 16, until one finds fewer or all that were asked for are there; the oldest first."""
    runs: list[tuple[str, list[Deed], list[int], int]] = [
        ("drain", [texts(16), texts(16, 16), texts(3, 32)], [16, 16, 16], 35),
        ("drain", [texts(16), texts(0)], [16, 16], 16), ("drain", [texts(0)], [16], 0),
        ("drain 2", [texts(2)], [2], 2), ("drain 16", [texts(16)], [16], 16),
        ("drain 17", [texts(16), texts(1, 16)], [16, 1], 17), ("drain 40", [texts(15)], [16], 15),
        ("drain 0", [], [], 0), ("drain -1", [], [], 0)]
    for line, deeds, most, count in runs:
        with opened(java, *deeds) as server:
            java.expect(line, f"result {count}")
            java.expect("drained", f"result [{', '.join(map(str, range(count)))}]")
            key = {"epoch": 1, "client": 1, "incarnation": 1}
            wanted = [{"kind": "request", **key, "number": number, "call": "drain", "queue": 3, "max": each}
                      for number, each in enumerate(most, 1)]
            demand(server.heard[1:] == wanted, f"{line}: {server.heard[1:]}, not {wanted}")


def a_drain_is_asked_under_one_key(java: Driver) -> None:
    """Over links that break, or bring what no drain gives, each step is asked until its list comes."""
    lists: list[object] = [["a"] * 17, ["a", 1], ["a", "x" * 513], "a", {}, None]
    bad: list[Deed] = [reply("drained", texts=one) for one in lists] + [reply("drained"), reply("item", item="a", texts=[])]
    full = ["\u0001" * 512] * 16
    long = lambda one: frame(json.dumps(reply("drained", texts=full)(one)).encode().ljust(65_535))
    for part in (bad[:4], bad[4:], [texts(3)]):
        with opened(java, long, HANG_UP, *part, refused(11), texts(2)) as server:
            java.expect("drain 18", "result 18")
            numbers = [number for _, number, _ in asked(server)]
            demand(numbers == [None, 1] + [2] * (len(part) + 3), f"{numbers}")
            demand(all(one == server.heard[2] for one in server.heard[2:]), "another request was sent")
            java.expect("drained", f"result [{', '.join([*full, '0', '1'])}]")
            demand(server.connections == 2 + len(part), f"{server.connections} connections came")


def a_step_that_fails(java: Driver) -> None:
    """What finished steps took is in the collection."""
    with opened(java, texts(16), reply("cancelled"), texts(1)):
        java.expect("drain", "threw CancellationException")
        java.expect("last", "result Optional[Cancelled[key=1/1/1/2]]")
        java.expect("drain", "result 1")
        java.expect("drained", f"result [{', '.join(map(str, [*range(16), 0]))}]")


@in_time
def a_step_without_room(java: Driver) -> None:
    """It fails where the patience ends; what finished steps took is in the collection."""
    with opened(java, texts(16), patience=SHORT) as server:
        server.otherwise = refused(10)
        java.expect("drain", "threw Full 1/1/1/2")
        java.expect("drained", f"result [{', '.join(map(str, range(16)))}]")


@in_time
def an_unsettled_step(java: Driver) -> None:
    """It is asked again for its items; what finished steps took is in the collection."""
    with opened(java, texts(16), patience=SHORT) as server:
        server.otherwise = HANG_UP
        java.expect("drain", "threw Unsettled 1/1/1/2")
        server.otherwise = texts(2, 16)
        java.expect("again", "result Drained[key=1/1/1/2, items=[16, 17]]")
        java.expect("drained", f"result [{', '.join(map(str, range(16)))}]")


def what_is_not_taken_in(java: Driver) -> None:
    """A collection that is full throws; the step's items are still the session's."""
    with opened(java, texts(3), reply("item", item="a")):
        java.expect("drain-into 2", "threw IllegalStateException")
        java.expect("last", "result Optional[Drained[key=1/1/1/1, items=[0, 1, 2]]]")
        java.expect("take", "result a")
        java.expect("last", "result Optional[Item[key=1/1/1/2, item=a]]")


def repeats_until_it_is_told(java: Driver) -> None:
    """Waiting, an answer to something else, a lost one, what is no frame and no answer."""
    bad = [welcome, b"\x00\x00", frame(b"[" * 65_535), frame(b"{}"), frame(b"\xff"),
           frame(b'{"kind":"refused","code":1.0}'), frame(b'{"code":12,"kind":"refused"}'),
           frame(b'{"code":13,"kind":"refused"}'), frame(b'{"code":1,"code":1,"kind":"refused"}')]
    deeds = [waiting, HANG_UP, *behind(waiting, bad), waiting, received_by(*BY)]
    with opened(java, *deeds) as server:
        java.expect("transfer a", "result received")
        demand(all(members == server.heard[1] for members in server.heard[1:]), "another request was sent")
        demand(len(server.heard) == 1 + len(deeds), f"{len(server.heard)} frames came")


@in_time
def an_unsettled_request(java: Driver) -> None:
    """The call ends by its key; the request is asked again."""
    with opened(java, waiting, patience=SHORT) as server:
        server.otherwise = HANG_UP
        java.expect("transfer a", "threw Unsettled 1/1/1/1 accepted")
        told = java.tell("words")
        demand("accepted, and never answered: " in told, f"it says {told}")
        java.expect("put a", "threw IllegalStateException")
        server.deeds, server.otherwise = [received_by(2, 3, 4), reply("done")], SILENCE
        java.expect("again", "result Receipt[key=1/1/1/1, by=Optional[1/2/3/4]]")
        java.expect("put a", "result done")
        java.expect("again", "threw IllegalStateException")


@in_time
def an_unsettled_request_that_is_given_up(java: Driver) -> None:
    """Its cancel is asked, and settles it."""
    with opened(java, patience=SHORT) as server:
        server.otherwise = HANG_UP
        java.expect("take", "threw Unsettled 1/1/1/1")
        server.otherwise = reply("cancelled")
        java.expect("giveup", "result Cancelled[key=1/1/1/1]")
        demand(asked(server)[-1] == ("cancel", 1, None), "no cancel came")
        java.expect("last", "result Optional[Cancelled[key=1/1/1/1]]")


@in_time
def no_room(java: Driver) -> None:
    """A request that is refused for want of room is tried as long as patience lasts, and then certainly isn't there."""
    with opened(java, patience=SHORT) as server:
        server.otherwise = refused(10)
        java.expect("put a", "threw Full 1/1/1/1")
        demand(len(server.heard) > 2 and server.connections == 1, f"{asked(server)}, {server.connections}")
        server.otherwise = reply("done")
        java.expect("put b", "result done")
        demand(server.heard[-1]["number"] == 1, f"{asked(server)}")


@in_time
def a_copy_under_way(java: Driver) -> None:
    """It may be there, though each later one is refused for want of room: the request is unsettled."""
    with opened(java, HANG_UP, patience=SHORT) as server:
        server.otherwise = refused(10)
        java.expect("put a", "threw Unsettled 1/1/1/1")
        demand(len(server.heard) > 3, "no refusal was taken in")
        server.otherwise = reply("done")
        java.expect("again", "result Done[key=1/1/1/1]")


@in_time
def no_room_for_a_client(java: Driver) -> None:
    """A hello that is refused for want of room, or of memory, is said as long as patience lasts, on one connection."""
    with opened(java, patience=SHORT, hello=refused(10)) as server:
        server.otherwise = refused(10)
        java.expect("put a", "threw Full null")
        server.otherwise = refused(11)
        java.expect("put a", "threw NotAsked null")
        demand(server.connections == 1, f"{server.connections} connections came")


def a_closed_connection_is_made_anew(java: Driver) -> None:
    """One that the peer closed while nothing was asked, or on which it said something: no copy of a request is lost."""
    with opened(java, reply("done"), reply("done"), reply("done")) as server:
        java.expect("put a", "result done")
        server.open[0].shutdown(socket.SHUT_RDWR)
        java.expect("put b", "result done")
        server.open[1].sendall(frame(b"{}"))
        # it has come where the system of its peer has acknowledged it
        until("the frame has come", lambda: not any(fcntl.ioctl(server.open[1], termios.TIOCOUTQ, bytes(4))))
        java.expect("put c", "result done")
        demand([number for _, number, _ in asked(server)] == [None, 1, 2, 3], f"{asked(server)}")
        demand(server.connections == 3, f"{server.connections} connections came")


@in_time
def nobody_listens(java: Driver) -> None:
    """What was not sent is told so, with the address and the system's reason."""
    java.expect("open 1 1 1000", "result open")
    java.expect("put a", "threw NotAsked null")
    java.expect("words", "result nothing was sent: 127.0.0.1:1: connection refused")
    java.expect("poll 1000", "threw NotAsked null")


@in_time
def a_first_hello(java: Driver) -> None:
    """A call before the first welcome ends within the time for that, long before its patience, and names the server and the
    reason; the log has it once, however often it was tried."""
    java.expect("connects 700", "result a time")
    java.tell("logged")
    java.expect(f"open 1 1 {LONG}", "result open")
    for logged in ("FINE 127.0.0.1:1: connection refused", ""):
        began = time.monotonic()
        java.expect("put a", "threw NotAsked null")
        demand(time.monotonic() - began < LONG / 2_000, "it ended by its patience")
        java.expect("words", "result nothing was sent: 127.0.0.1:1: connection refused")
        java.expect("logged refused", f"result [{logged}]")
    for deed in (SILENCE, b"SSH-2.0-OpenSSH_9.2\r\n"):
        with Scripted() as server:
            server.otherwise = deed
            java.expect(f"open {server.port} 1 {LONG}", "result open")
            java.expect("take", "threw NotAsked null")
            told = java.tell("words")
            demand(told.startswith(f"result nothing was sent: {server.address}: "), f"it says {told}")


def behind_the_welcome(java: Driver) -> None:
    """There the time for that counts no more; before it, none that is longer."""
    with opened(java, reply("done"), waiting, reply("item", item="a")):
        java.expect("put a", "result done")
        java.expect("kept", "result a session")
        java.expect("connects-no-more", "result a time")
        java.expect("take", "result a")
    with opened(java) as server:
        java.expect("kept", "result a session")
        java.expect("connects-no-more", "result a time")
        java.expect("take", "threw NotAsked null")
        demand(not server.heard, f"{asked(server)}")


def a_server_that_starts_meanwhile(java: Driver) -> None:
    """It is asked: a call goes on while the connection is refused."""
    with socket.socket() as holder:
        holder.bind(("127.0.0.1", 0))
        port = holder.getsockname()[1]
        java.expect(f"open {port} 1 {LONG}", "result open")
        java.expect("take-async", "result begun")
        until("a refused connection", lambda: f"127.0.0.1:{port}: connection refused" in java.tell("logged"))
        holder.listen()
        with contextlib.closing(holder.accept()[0]) as connection:
            for deed in (welcome, reply("item", item="a")):
                connection.sendall(bytes_of(deed(json.loads(body_from(connection)))))
            java.expect("join-async", "result a")


@in_time
def a_lower_epoch(java: Driver) -> None:
    """A server whose epoch is below the session's is named at once in the log, and in the exception; the session goes on."""
    java.tell("logged")
    with opened(java, patience=SHORT, hello=lambda one: welcome(one, 9)) as server:
        server.otherwise = refused(2, current=5)
        java.expect("put a", "threw Unsettled 9/1/1/1")
        words = f"{server.address}: the server is of the lower epoch 5, and the session of 9"
        told = java.tell("words")
        demand(words in told, f"it says {told}")
        java.expect("logged lower", f"result [FINE {words}]")
        server.otherwise = reply("done")
        java.expect("again", "result Done[key=9/1/1/1]")
        server.deeds = [refused(2, current=5), reply("done")]
        java.expect("put a", "result done")
        java.expect("logged lower", f"result [FINE {words}]")


@in_time
def shown(java: Driver) -> None:
    """What a session, its clients and a queue are shown as, whatever they do."""
    with opened(java, patience=SHORT, hello=lambda one: welcome(one, 9)) as server:
        begins = f"result RvSession[{server.address} client 1"
        java.expect("kept", "result a session")
        java.expect("shown", f"{begins} before its welcome]")
        server.otherwise = reply("done")
        java.expect("put a", "result done")
        java.expect("shown", f"{begins} epoch 9 idle]")
        clients = f"RvClients[{server.address}, 1 sessions, 0 running, 0 unsettled]"
        names = [f"{each} of {clients}" for each in ("RvTransferQueue 3", "RvExchanger 5", "RvConsumer of RvTransferQueue 3")]
        java.expect("shown all", f"result {', '.join(names)}")
        server.otherwise = SILENCE
        java.expect("take-async", "result begun")
        until("a take", lambda: len(server.heard) > 2)
        java.expect("shown", f"{begins} epoch 9 running take(3)]")
        java.expect("join-async", "threw Unsettled 9/1/1/2")
        java.expect("shown", f"{begins} epoch 9 unsettled take(3)]")
        server.otherwise = refused(3)
        java.expect("again kept", "threw EpochEnded 9/1/1/2 9")
        java.expect("shown", f"{begins} ended]")
        java.expect("close", "result closed")
        java.expect("shown", f"{begins} closed]")
        told = ", ".join(names).replace("1 sessions, 0 running, 0 unsettled", "0 sessions, 0 running, 0 unsettled, closed")
        java.expect("shown all", f"result {told}")


def interrupting(path, deed):
    """A deed: the driver's thread is interrupted while it waits for the answer, and then it is met so."""
    def meets(one):
        path.touch()
        until("an interrupt", lambda: not path.exists())
        return deed(one) if callable(deed) else deed
    return meets


def interrupts(java: Driver) -> None:
    """An interrupt is a cancel; a result that came before it is given; calls that do not wait go on."""
    with tempfile.TemporaryDirectory(prefix="rv-interrupt-") as folder:
        path = pathlib.Path(folder) / "now"
        silence = interrupting(path, SILENCE)
        deeds = [reply("done"), silence, reply("cancelled"), silence, reply("item", item="a")]
        with opened(java, *deeds) as server:
            java.expect("put a", "result done")
            java.expect(f"interrupt {path}", "result soon")
            java.expect("take", "threw InterruptedException")
            java.expect(f"interrupt {path}", "result soon")
            java.expect("take", "result a interrupted")
            wanted = [("request", 1, "put"), ("request", 2, "take"), ("cancel", 2, None),
                      ("request", 3, "take"), ("cancel", 3, None)]
            demand(asked(server)[1:] == wanted, f"{asked(server)}")
        with opened(java, reply("done"), interrupting(path, reply("done"))):
            java.expect("put a", "result done")
            java.expect(f"interrupt {path}", "result soon")
            java.expect("put a", "result done interrupted")
        with opened(java, interrupting(path, texts(16)), texts(3, 16)) as server:
            java.expect(f"interrupt {path}", "result soon")
            java.expect("drain", "result 19 interrupted")
            java.expect("drained", f"result [{', '.join(map(str, range(19)))}]")
            demand(len(server.heard) == 3, f"{asked(server)}")


@in_time
def a_timeout_is_kept(java: Driver) -> None:
    """Where a request is not answered behind the call's own time, it is cancelled."""
    java.expect("grace 2000", "result a grace")
    with opened(java, SILENCE, reply("cancelled"), SILENCE, reply("item", item="a")) as server:
        java.expect("poll 50000", "result null")
        java.expect("last", "result Optional[Cancelled[key=1/1/1/1]]")
        java.expect("poll 50000", "result a")
        demand([kind for kind, _, _ in asked(server)] == ["hello"] + ["request", "cancel"] * 2, f"{asked(server)}")
    with opened(java, SILENCE, reply("cancelled")):
        java.expect("exchange x 50000", "threw TimeoutException")


@in_time
def a_wait_is_no_silence(java: Driver) -> None:
    """Patience begins anew with each answer that the request waits."""
    def slow(one):
        time.sleep(1)
        return waiting(one)

    with opened(java, *[slow] * 4, reply("item", item="a"), patience=SHORT):
        java.expect("take", "result a")


def refusals(java: Driver) -> None:
    """What ends a call, what ends the session too, and what a repeat may change."""
    with opened(java, refused(1), reply("done")) as server:
        java.expect("put a", "threw Refused 1/1/1/1 1 bad text")
        java.expect("put b", "result done")
        demand([number for _, number, _ in asked(server)] == [None, 1, 1], f"{asked(server)}")
    ends = [(refused(5, last=3), "Refused 1/1/1/2 5 old number"), (refused(6), "Refused 1/1/1/2 6 other call"),
            (refused(7, open=1), "Refused 1/1/1/2 7 busy"), (refused(8, last=0), "EpochEnded 1/1/1/2 1"),
            (refused(3), "EpochEnded 1/1/1/2 1"), (refused(2, current=5), "NotAsked 1/1/1/2 5"),
            (refused(4, current=2), "Replaced 1/1/1/2 2")]
    for deed, wanted in ends:
        with opened(java, reply("done"), deed) as server:
            java.expect("put a", "result done")
            java.expect("put b", f"threw {wanted}")
            words = java.tell("words")
            demand(wanted != "EpochEnded 1/1/1/2 1" or "anew in the same epoch 1" in words, f"it says {words}")
            java.expect("put c", "threw IllegalStateException")
            demand(len(server.heard) == 3, f"{asked(server)}")
    faults = [refused(2, current=1), refused(4, current=1), refused(5, last=1), refused(7, open=1),
              refused(8, last=3), refused(9), refused(11)]
    for part in (faults[:4], faults[4:]):
        with opened(java, *part, reply("done")) as server:
            java.expect("put a", "result done")
            demand(len(server.heard) == 2 + len(part), f"{asked(server)}")
            demand(all(one == server.heard[1] for one in server.heard[1:]), f"{server.heard}")


def refused_hellos(java: Driver) -> None:
    """What ends a call at its hello, what ends the session too, and what a repeat may change."""
    with opened(java, refused(11), refused(10), refused(2, current=3), refused(4, current=1), refused(3), welcome,
                reply("done"), hello=refused(9)) as server:
        java.expect("put a", "threw Refused null 9 clients full")
        java.expect("put a", "result done")
        kinds = [kind for kind, _, _ in asked(server)]
        demand(kinds == ["hello"] * 7 + ["request"], f"{kinds}")
    with opened(java, hello=refused(4, current=2)):
        java.expect("put a", "threw Replaced null 2")
        java.expect("put a", "threw IllegalStateException")
    with opened(java, version=1, hello=refused(1)):
        java.expect("put a", "threw Refused null 1 bad text")


def what_is_left_out(java: Driver) -> None:
    """Calls that the profile has not, and items and places that no request may have."""
    with opened(java) as server:
        java.expect("left-out", "result 14")
        java.expect("bad", "result 10")
        java.expect("put " + "x" * 600, "threw IllegalArgumentException")
        java.expect("words", "result item above 512 bytes: 600")
        demand(not server.heard, "something was sent")


def whatever_is_let_in(_java: Driver) -> None:
    """An interrupt, a close, a lost link and an error, at each call of the link."""
    ran = subprocess.run(command("rendezvous.LetIn"), capture_output=True, text=True, timeout=PATIENCE)
    demand(ran.returncode == 0 and ran.stdout.endswith(" calls of a link\n"), f"{ran.stdout} {ran.stderr[-3000:]}")


TABLES = [the_java_process, the_java_addresses]
CASES = [each_call, receipts, an_unsettled_receipt, what_is_no_receipt, versions, other_versions, drains_by_steps,
         a_drain_is_asked_under_one_key, a_step_that_fails, a_step_without_room, an_unsettled_step,
         what_is_not_taken_in, repeats_until_it_is_told, an_unsettled_request, an_unsettled_request_that_is_given_up,
         no_room, a_copy_under_way, no_room_for_a_client, a_closed_connection_is_made_anew, nobody_listens,
         a_first_hello, behind_the_welcome, a_server_that_starts_meanwhile, a_lower_epoch, shown, interrupts,
         a_timeout_is_kept, a_wait_is_no_silence, refusals, refused_hellos, what_is_left_out, whatever_is_let_in]
