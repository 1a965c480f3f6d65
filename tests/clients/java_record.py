"""The record of Java's clients: its lines, who may share it, and what is thrown where it can't be written."""
import contextlib
import errno
import os
import pathlib
import tempfile
import threading

from record_lines import lines_of
from scripted import SILENCE, Scripted, frame, received_by, reply, waiting, welcome
from tests.clients import java
from tests.clients.java import opened
from tests.sockets.programs import PATIENCE
from tests.sockets.wire import demand, together, until
import rendezvous as rv

# Whatever stands in the environment of the tests, their programs begin without a record.
NOWHERE = {"RV_RECORD": ""}
FULL = "/dev/full"
# How many requests each of two programs asks that share a file.
SHARED = 300
# Calls, each with a reply and what the driver prints of it.
CALLS = [
    ("put a", reply("done"), "result done"), ("put a", reply("cancelled"), "threw CancellationException"),
    ("transfer a", received_by(7, 8, 9), "result received"),
    ("transfer-receipt a", received_by(7, 8, 9), "result 1/1/1/1 by 1/7/8/9"),
    ("try a", reply("nobody"), "result false"), ("try a 1001", reply("timedout"), "result false"),
    ("try-receipt a", received_by(7, 8, 9), "result Optional[1/1/1/1 by 1/7/8/9]"),
    ("take", reply("item", item="ä"), "result ä"), ("take", reply("cancelled"), "threw CancellationException"),
    ("poll", reply("empty"), "result null"), ("poll 1000", reply("timedout"), "result null"),
    ("peek", reply("peeked", item="a"), "result a"), ("size", reply("counted", items=2, consumers=3), "result 2"),
    ("consumers", reply("counted", items=2, consumers=3), "result 3"),
    ("drain 2", reply("drained", texts=["a", "b"]), "result 2"),
    ("exchange x", reply("swapped", item="y"), "result y"), ("exchange x 0", reply("timedout"), "threw TimeoutException"),
]


@contextlib.contextmanager
def recording(path=None, **environment):
    """A driver whose clients keep a record there, or none that is chosen; and the path of a file in a new folder."""
    with tempfile.TemporaryDirectory(prefix="rv-record-") as folder:
        file = pathlib.Path(folder, "record")
        with java.driver(**{**NOWHERE, **environment}) as driver:
            driver.expect(f"record {path or file}", "result chosen")
            yield driver, file


def one_line(path, server, deed):
    """The record has one line, of what was asked last and what was answered."""
    asked = server.heard[-1]
    wanted = [(asked, deed(asked))]
    demand(lines_of(path) == wanted, f"{lines_of(path)}, and not {wanted}")


def each_reply(_program: str) -> None:
    """Of each call it is one line, which is there when the call ends."""
    with recording() as (driver, path):
        for line, deed, said in CALLS:
            with opened(driver, waiting, deed) if line in ("transfer a", "take") else opened(driver, deed) as server:
                driver.expect(line, said)
                one_line(path, server, deed)
                path.unlink()


def byte_by_byte(_program: str) -> None:
    """Bodies stand as they were sent and as they came; LF in white space is a space, so that a line has one alone."""
    body = (b'{ "reply":\n"item",\t"item" : "\\u00e9\\n\xc3\xa9", "number":1,"kind":"reply",\r\n\n"client":1,"epoch":1,'
            b'"incarnation":1}\n ').ljust(65_535)
    with recording() as (driver, path), opened(driver, frame(body)):
        driver.expect("take", "result é")
        driver.process.stdout.readline()
        text = path.read_bytes()
        demand(text.endswith(b',"told":' + body.replace(b"\n", b" ") + b"}\n") and text.count(b"\n") == 1, f"{text[:300]}")
        demand(lines_of(path)[0].reply == {"reply": "item", "item": "é\né"}, f"{text[:300]}")


@java.in_patience
def what_is_no_reply(_program, patience):
    """A request that is unsettled has its line once it is asked again; one that was never answered has none."""
    with recording() as (driver, path):
        with opened(driver, waiting, patience=patience) as server:
            driver.expect("take", "threw Unsettled 1/1/1/1 accepted")
            demand(not path.exists(), "there is a record")
            server.otherwise = deed = reply("item", item="a")
            driver.expect("again", "result Item[key=1/1/1/1, item=a]")
            one_line(path, server, deed)


def where_it_can_not_be_written(_program: str) -> None:
    """What is thrown has the reply, whatever it is, and the system's word; the session goes on."""
    with tempfile.TemporaryDirectory(prefix="rv-record-") as folder:
        ways = {folder: errno.EISDIR, f"{folder}/none/record": None, **({FULL: errno.ENOSPC} if os.path.exists(FULL) else {})}
        for target, number in ways.items():
            path = pathlib.Path(folder, "record")
            path.unlink(missing_ok=True)
            with recording(path) as (driver, _), opened(driver, reply("done"), reply("item", item="a")):
                path.symlink_to(target)
                driver.expect("put a", "threw NotRecorded 1/1/1/1 Done[key=1/1/1/1]")
                said = driver.tell("words")
                demand(str(path) in said and (number is None or os.strerror(number) in said), f"it says {said}")
                driver.expect("last", "result Optional[Done[key=1/1/1/1]]")
                driver.expect("take", "threw NotRecorded 1/1/1/2 Item[key=1/1/1/2, item=a]")
                driver.expect("unclaimed", "result []")


def found_before_anything(_program: str) -> None:
    """A record that can't be written is told where clients are made, by its name: nothing is asked, and nothing stays behind."""
    with tempfile.TemporaryDirectory(prefix="rv-record-") as name, java.driver(**NOWHERE) as driver, Scripted() as server:
        folder = pathlib.Path(name)
        file, pipe, dangling = folder / "file", folder / "pipe", folder / "dangling"
        file.write_bytes(b"before\n")
        os.mkfifo(pipe, 0o600)
        dangling.symlink_to(folder / "none" / "record")
        before = sorted(folder.iterdir())
        ways = [(folder, "Is a directory"), (folder / "none" / "record", "there is no such folder"), (dangling, "there is no such folder"),
                (file / "record", "Not a directory"), (folder / ("x" * 300), "File name too long"),
                (pipe, "it is neither a file nor a character device")]
        for path, why in ways:
            driver.expect(f"record {path}", "result chosen")
            driver.expect(f"open {server.port} 1 1000", "threw UncheckedIOException")
            said = driver.tell("words")
            demand(said == f"result no record can be kept in {path}: {why}", f"it says {said}")
        for path in (file, folder / "new"):
            driver.expect(f"record {path}", "result chosen")
            driver.expect(f"open {server.port} 1 1000", "result open")
        demand(sorted(folder.iterdir()) == before and file.read_bytes() == b"before\n", f"{sorted(folder.iterdir())} is there")
        demand(not server.heard, f"{server.heard} was asked")


def it_goes_on(_program: str) -> None:
    """Once the file can be written, with the replies from then on, behind what stands there."""
    with recording() as (driver, path), opened(driver, reply("done"), reply("done"), reply("cancelled")):
        path.mkdir()
        driver.expect("put a", "threw NotRecorded 1/1/1/1 Done[key=1/1/1/1]")
        path.rmdir()
        path.write_bytes(b"")
        driver.expect("put b", "result done")
        driver.expect("put c", "threw CancellationException")
        demand([line.key.number for line in lines_of(path)] == [2, 3], f"{lines_of(path)}")


def at_cancel(deed):
    """Nothing is answered but a cancel."""
    return lambda asked: deed(asked) if asked["kind"] == "cancel" else SILENCE


def touched_at_a_take(server: Scripted, sign: pathlib.Path) -> None:
    """Makes a file once a take has come."""
    until("a take", lambda: len(server.heard) > 1)
    sign.touch()


def an_interrupt(_program: str) -> None:
    """It cancels the request, and the thread stays interrupted where the reply can't be recorded; else it is told as ever."""
    for is_written, said in [(True, "threw InterruptedException"),
                             (False, "threw NotRecorded 1/1/1/1 Cancelled[key=1/1/1/1] interrupted")]:
        with recording() as (driver, path), opened(driver) as server:
            server.otherwise, sign = at_cancel(reply("cancelled")), path.with_name("interrupt")
            if not is_written:
                path.mkdir()
            driver.expect(f"interrupt {sign}", "result soon")
            threading.Thread(target=touched_at_a_take, args=(server, sign)).start()
            driver.expect("take", said)
            demand(not is_written or len(lines_of(path)) == 1, "it is not recorded")


def futures(_program: str) -> None:
    """A future ends by the exception, which has the item. Of one that was cancelled the thread's handler is told, and nothing else
    has the item."""
    with recording() as (driver, path), opened(driver, reply("item", item="a")) as server:
        path.mkdir()
        driver.expect("take-async", "result begun")
        driver.expect("join-async", "threw NotRecorded 1/1/1/1 Item[key=1/1/1/1, item=a]")
        driver.expect("unclaimed", "result []")
        server.otherwise = at_cancel(reply("item", item="b"))
        driver.expect("take-async", "result begun")
        until("a take", lambda: len(server.heard) > 2)
        driver.expect("cancel-async", "result true")
        driver.expect("uncaught", "threw NotRecorded 1/1/1/2 Item[key=1/1/1/2, item=b]")
        driver.expect("unclaimed", "result []")
        driver.expect("join-async", "threw CancellationException")


def the_environment(_program: str) -> None:
    """It names the file, unless the program chooses one, or none."""
    with tempfile.TemporaryDirectory(prefix="rv-record-") as folder:
        named, chosen = pathlib.Path(folder, "named"), pathlib.Path(folder, "chosen")
        with java.driver(RV_RECORD=str(named)) as driver:
            for line, counts in [(None, (1, 0)), (f"record {chosen}", (1, 1)), ("record", (1, 1))]:
                if line:
                    driver.expect(line, "result chosen")
                with opened(driver, reply("done")):
                    driver.expect("put a", "result done")
                    got = len(lines_of(named)), len(lines_of(chosen))
                    demand(got == counts, f"{line}: {got} lines")


def beside_another_language(_program: str) -> None:
    """A program in Java and one in Python share a file: each line of both is there once, and whole."""
    text = "\u0001" * 512
    with recording() as (driver, path), Scripted() as server:
        server.otherwise = lambda came: (welcome if came["kind"] == "hello" else reply("drained", texts=[text] * 16))(came)
        driver.expect(f"open {server.port} 2 {java.LONG}", "result open")

        def by_python():
            with rv.Session(server.address, 1, 1, patience=PATIENCE, record=path, connect_timeout=None) as one:
                for _ in range(SHARED):
                    one.drain(3, 16)

        def by_java():
            for _ in range(SHARED):
                driver.expect("drain 16", "result 16")
        together(by_python, by_java)
        lines = lines_of(path)
    keys = {(line.key.client, line.key.number) for line in lines}
    wanted = {(client, number) for client in (1, 2) for number in range(1, SHARED + 1)}
    demand(len(lines) == 2 * SHARED and keys == wanted, f"{len(lines)} lines of {len(keys)} keys")


CASES = [each_reply, byte_by_byte, what_is_no_reply, where_it_can_not_be_written, found_before_anything,
         it_goes_on, an_interrupt, futures,
         the_environment, beside_another_language]
