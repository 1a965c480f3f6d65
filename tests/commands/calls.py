"""Runs the built program's `serve`, `call` and `record` from outside: their words, and a client against a server that
is scripted here, on 127.0.0.1."""
from __future__ import annotations

import contextlib
import fcntl
import mmap
import os
import pathlib
import select
import socket
import subprocess
import sys
import tempfile
import termios
import threading
import time
from collections.abc import Callable, Iterable, Iterator, Mapping, Sequence
from typing import Any, Tuple

from tests import ROOT
from tests.cases import Case

PATIENCE = 120
GREATEST = 9_007_199_254_740_991
HELLO = b'{"client":2,"incarnation":1,"kind":"hello"}'
WELCOME = b'{"client":2,"epoch":1,"incarnation":1,"kind":"welcome"}'
# The same of version 2.
SECOND, SECOND_WELCOME = (body.replace(b"}", b',"version":2}') for body in (HELLO, WELCOME))
TAKE_LINE = b'{"call":"take","queue":3,"wait":"forever"}'
PUT_LINE = b'{"call":"put","item":"a","queue":3}'
BAD_TEXT = b'{"code":1,"kind":"refused"}'
# What a run printed, what it said on standard error, and its status.
Ended = Tuple[bytes, bytes, int]


def take(number: int = 1) -> bytes:
    """The body of the take's request of this number."""
    return (b'{"call":"take","client":2,"epoch":1,"incarnation":1,"kind":"request","number":%d,"queue":3,'
            b'"wait":"forever"}' % number)


def waiting(number: int = 1) -> bytes:
    """The answer that the request of this number waits."""
    return b'{"client":2,"epoch":1,"incarnation":1,"kind":"waiting","number":%d}' % number


def item(text: bytes, number: int = 1, client: int = 2, incarnation: int = 1) -> bytes:
    """The reply that the request of this number got an item."""
    return (b'{"client":%d,"epoch":1,"incarnation":%d,"item":"%s","kind":"reply","number":%d,"reply":"item"}'
            % (client, incarnation, text, number))


def drained(texts: Iterable[bytes]) -> bytes:
    """The reply that the first request got these texts."""
    return (b'{"client":2,"epoch":1,"incarnation":1,"kind":"reply","number":1,"reply":"drained","texts":[%s]}'
            % b",".join(b'"%s"' % text for text in texts))


def frame(body: bytes) -> bytes:
    """A body behind its two length bytes."""
    return len(body).to_bytes(2, "big") + body


class Server:
    """Accepts one connection, answers each frame that comes by the next of its answers, and then closes. An answer
    is the bytes that are sent. It keeps the bodies that came."""

    def __init__(self, answers: Iterable[bytes]) -> None:
        self.answers, self.heard = list(answers), list[bytes]()
        self.listener = socket.create_server(("127.0.0.1", 0))
        self.listener.settimeout(PATIENCE)
        self.address = "127.0.0.1:%d" % self.listener.getsockname()[1]
        self.thread = threading.Thread(target=self.serve)
        self.thread.start()

    def serve(self) -> None:
        """Serves the one connection."""
        with self.listener:
            connection, _ = self.listener.accept()
        connection.settimeout(PATIENCE)
        # A client that closes with bytes unread resets the connection.
        with contextlib.suppress(ConnectionError), connection, connection.makefile("rb") as source:
            while head := source.read(2):
                self.heard.append(source.read(int.from_bytes(head, "big")))
                if not self.answers:
                    return
                connection.sendall(self.answers.pop(0))

    def ended(self) -> list[bytes]:
        """What it heard, once the connection is closed."""
        self.thread.join(PATIENCE)
        return self.heard


def call_words(address: str, client: int = 2, incarnation: int = 1, tries: int = 3, speak: int = 1) -> list[str]:
    """The words of a client."""
    words = {"--connect": address, "--client": client, "--incarnation": incarnation, "--tries": tries, "--speak": speak}
    return spelled("call", {option: str(value) for option, value in words.items()})


@contextlib.contextmanager
def one_client(answer: Callable[[socket.socket], None]) -> Iterator[str]:
    """A server for one connection, which `answer` is called with; its address."""
    listener = socket.create_server(("127.0.0.1", 0))
    listener.settimeout(PATIENCE)

    def serve() -> None:
        """Accepts it, and closes it behind the answer."""
        with listener:
            connection, _ = listener.accept()
        connection.settimeout(PATIENCE)
        with connection:
            answer(connection)

    thread = threading.Thread(target=serve)
    thread.start()
    yield "127.0.0.1:%d" % listener.getsockname()[1]
    thread.join(PATIENCE)


def record_words(path: pathlib.Path | str, address: str, **more: int) -> list[str]:
    """The words of a client that keeps a record."""
    return ["record", "--to", str(path), *call_words(address, **more)[1:]]


def entry(asked: bytes, told: bytes) -> bytes:
    """The line of a record."""
    return b'{"asked":%s,"told":%s}\n' % (asked, told)


def shown_lines() -> bytes:
    """The lines of the hand-over, as the page of the formats shows them."""
    page = (ROOT / "docs/FORMATS.md").read_bytes().split(b"\n## 9. ")[1]
    return page.split(b"\n```\n")[3] + b"\n"


def wait_for_a_full_pipe(process: subprocess.Popen[bytes]) -> None:
    """Waits until the program waits for room in a pipe; at most two seconds, where the system doesn't tell."""
    waits = pathlib.Path("/proc", str(process.pid), "wchan")
    ends = time.monotonic() + 2
    while time.monotonic() < ends and "pipe" not in waits.read_text():
        time.sleep(0.01)


SERVE = {"--listen": "127.0.0.1:0", "--epoch": "1", "--workers": "1", "--connections": "0"}
CALL = {"--connect": "127.0.0.1:1", "--client": "1", "--incarnation": "1", "--tries": "0", "--speak": "1"}


def spelled(word: str, options: Mapping[str, str]) -> list[str]:
    """The words of a command."""
    return [word, *(part for option in options.items() for part in option)]


class Calls(Case):
    """What each expects is set beforehand. No wait lasts longer than `PATIENCE` seconds."""

    def ran(self, words: Sequence[str], **streams: Any) -> Ended:
        """Runs the program with these words: its output, its words on standard error, and its status."""
        ran = subprocess.run([self.program, *words], capture_output=True, timeout=PATIENCE, **streams)
        return ran.stdout, ran.stderr, ran.returncode

    def judge_call(self, name: str, answers: Iterable[bytes], lines: Iterable[bytes], printed: Iterable[bytes], heard: list[bytes],
                   status: int = 1, tries: int = 3, speak: int = 1) -> None:
        """A client with these lines, against a server with these answers, must print and say this."""
        server = Server(answers)
        words = call_words(server.address, tries=tries, speak=speak)
        ran = self.ran(words, input=b"".join(line + b"\n" for line in lines))
        output = b"".join(line + b"\n" for line in printed)
        self.check_equal(name, (ran, server.ended()), ((output, b"", status), heard))

    def test_hand_over(self) -> None:
        """A take that waits, and then has an item; a line that says no call ends the run."""
        answers = [frame(WELCOME), frame(waiting()), frame(item(b"a"))]
        self.judge_call("a take and a bad line", answers, [TAKE_LINE, b"x"], [item(b"a"), b"bad line"], [HELLO, take(), take()])
        self.judge_call("a take alone", answers, [TAKE_LINE], [item(b"a")], [HELLO, take(), take()], status=0)
        self.judge_call("no line", [frame(WELCOME)], [], [], [HELLO], status=0)
        self.judge_call("a blank line", [frame(WELCOME)], [b"", TAKE_LINE], [b"bad line"], [HELLO])
        many = [frame(WELCOME)] + [frame(item(b"%d" % n, n)) for n in range(1, 51)]
        self.judge_call("numbers rise", many, 50 * [TAKE_LINE], [item(b"%d" % n, n) for n in range(1, 51)],
                        [HELLO] + [take(n) for n in range(1, 51)], status=0)

    def test_hellos(self) -> None:
        """What a hello meets."""
        refused = b'{"code":4,"current":2,"kind":"refused"}'
        self.judge_call("a hello that is refused", [frame(refused)], [TAKE_LINE], [b"refused 4"], [HELLO])
        self.judge_call("a peer that closes", [], [TAKE_LINE], [b"not welcome"], [HELLO])
        self.judge_call("no try", [], [TAKE_LINE], [b"not welcome"], [], tries=0)
        other = WELCOME.replace(b'"client":2', b'"client":3')
        self.judge_call("welcomes of another client", 3 * [frame(other)], [TAKE_LINE], [b"not welcome"], 3 * [HELLO])
        self.judge_call("a welcome after one of another", [frame(other), frame(WELCOME)], [], [], 2 * [HELLO], status=0)
        for name, answer in [("a bad length", b"\0\0"), ("no answer's body", frame(b"{}")), ("a message", frame(HELLO)),
                             ("a long body of no answer", frame(b"x" * 65_535))]:
            self.judge_call(f"a hello that gets {name}", [answer], [TAKE_LINE], [b"not welcome"], [HELLO])
        self.judge_call("a welcome with white space behind", [frame(WELCOME.ljust(65_535))], [], [], [HELLO], status=0)
        for name, answer in [("half a frame", b"\0\x37{"), ("half a length", b"\0"), ("nothing", b""),
                             ("a part of a long frame", b"\x10\1{"), ("a part of the longest", b"\xff\xff" + WELCOME),
                             ("rubbish", b"HTTP/1.1 400 Bad\r\n\r\n")]:
            self.judge_cut(f"a hello that gets {name}", answer)

    def test_versions(self) -> None:
        """What a hello of each version meets: a welcome of the other one is none of its own."""
        of_two = b'{"code":12,"current":%d,"kind":"refused"}'
        for speak, hello, own, other in [(1, HELLO, WELCOME, SECOND_WELCOME), (2, SECOND, SECOND_WELCOME, WELCOME)]:
            name = f"a hello of version {speak}"
            self.judge_call(f"{name} that is welcome", [frame(own)], [], [], [hello], status=0, speak=speak)
            self.judge_call(f"{name} and a take", [frame(own), frame(item(b"a"))], [TAKE_LINE], [item(b"a")], [hello, take()], status=0,
                            speak=speak)
            self.judge_call(f"{name} and welcomes of the other", 3 * [frame(other)], [TAKE_LINE], [b"not welcome"], 3 * [hello], speak=speak)
            self.judge_call(f"{name} and a welcome after one of the other", [frame(other), frame(own)], [], [], 2 * [hello], status=0,
                            speak=speak)
            self.judge_call(f"{name} in a session of the other", [frame(of_two % (3 - speak))], [TAKE_LINE], [b"refused 12"], [hello],
                            speak=speak)
            self.judge_call(f"{name} and a welcome in the middle", [frame(own), frame(other), frame(own), frame(item(b"a"))], [TAKE_LINE],
                            [item(b"a")], [hello, take(), take(), take()], status=0, speak=speak)
        for told in [b"1", b"3", b"0", b'"2"', b"2.0", b"null", b'2,"x":1']:
            wrong = SECOND_WELCOME.replace(b"2}", told + b"}")
            self.judge_call(f"a welcome of version {told!r}", [frame(wrong)], [TAKE_LINE], [b"not welcome"], [SECOND], speak=2)
        for body in [of_two % 0, of_two % 3, of_two.replace(b'"current":%d,', b""), of_two.replace(b"current", b"last") % 2,
                     (of_two % 2).replace(b"12", b"13")]:
            self.judge_call(f"a refusal {body!r}", [frame(body)], [TAKE_LINE], [b"not welcome"], [SECOND], speak=2)

    def test_receipts(self) -> None:
        """What a transfer is told that was received: of its consumer's key all members, or none."""
        line = b'{"call":"transfer","item":"a","queue":3,"wait":"forever"}'
        ask = b'{"call":"transfer","client":2,"epoch":1,"incarnation":1,"item":"a","kind":"request","number":1,"queue":3,"wait":"forever"}'
        told = b'{%s"client":2,"epoch":1,"incarnation":1,"kind":"reply","number":1,"reply":"received"}'
        names = b'"by_client":%d,"by_incarnation":%d,"by_number":%d,'
        for speak, hello, welcome in [(1, HELLO, WELCOME), (2, SECOND, SECOND_WELCOME)]:
            for by in [b"", names % (1, 1, 1), names % (2, 1, 1), names % (GREATEST, GREATEST, GREATEST)]:
                self.judge_call(f"received {by!r} in version {speak}", [frame(welcome), frame(told % by)], [line], [told % by], [hello, ask],
                                status=0, speak=speak)
        bad = [names % (0, 1, 1), names % (1, 0, 1), names % (1, 1, 0), names % (GREATEST + 1, 1, 1), b'"by_client":1,',
               b'"by_incarnation":1,"by_number":1,', b'"by_client":1,"by_number":1,', b'"by_epoch":1,' + names % (1, 1, 1),
               names.replace(b"%d", b'"%d"') % (1, 1, 1), names.replace(b"%d", b"%d.0") % (1, 1, 1), b'"item":"a",']
        for by in bad:
            self.judge_call(f"received {by!r}", [frame(SECOND_WELCOME), frame(told % by)], [line], [b"unsettled 1"], [SECOND, ask], speak=2)
        for other in [b"item", b"done", b"nobody"]:
            self.judge_call(f"{other!r} with a consumer", [frame(SECOND_WELCOME), frame(told.replace(b"received", other) % (names % (1, 1, 1)))],
                            [line], [b"unsettled 1"], [SECOND, ask], speak=2)

    def judge_cut(self, name: str, answer: bytes) -> None:
        """A server that sends a part of a frame to a hello, and closes."""
        def serve(connection: socket.socket) -> None:
            """Answers the one hello."""
            connection.recv(4_098)
            connection.sendall(answer)

        with one_client(serve) as address:
            ran = self.ran(call_words(address), input=TAKE_LINE)
        self.check_equal(name, ran, (b"not welcome\n", b"", 1))

    def test_calls(self) -> None:
        """What a request meets once the client is welcome."""
        first = [frame(WELCOME)]
        twice = [HELLO, take(), take(), take()]
        self.judge_call("tries that all wait", first + 3 * [frame(waiting())], 2 * [TAKE_LINE], [b"unsettled 1"], twice)
        stale = [item(b"b", 7), item(b"b", 1, client=3), b'{"code":5,"kind":"refused","last":3}']
        self.judge_call("another's answers", first + [frame(body) for body in stale], [TAKE_LINE], [b"unsettled 1"], twice)
        self.judge_call("another's answer, and then its own", first + [frame(stale[0]), frame(item(b"a"))], [TAKE_LINE],
                        [item(b"a")], [HELLO, take(), take()], status=0)
        self.judge_call("a peer that closes", first, [TAKE_LINE], [b"unsettled 1"], [HELLO, take()])
        self.judge_call("a peer that closes later", first + [frame(item(b"a"))], 2 * [TAKE_LINE], [item(b"a"), b"unsettled 2"],
                        [HELLO, take(), take(2)])
        for name, answer in [("a bad length", b"\0\0"), ("no answer's body", frame(b"[]")),
                             ("too many texts", frame(drained([b"a"] * 17))), ("no texts", frame(drained([]).replace(b"[]", b'"a"')))]:
            self.judge_call(f"a request that gets {name}", first + [answer], [TAKE_LINE], [b"unsettled 1"], [HELLO, take()])
        longest = b"x" * 512
        put = b'{"call":"put","client":2,"epoch":1,"incarnation":1,"item":"%s","kind":"request","number":1,"queue":3}' % longest
        done = b'{"client":2,"epoch":1,"incarnation":1,"kind":"reply","number":1,"reply":"done"}'
        self.judge_call("the longest items", first + [frame(done), frame(item(longest, 2))], [PUT_LINE.replace(b'"a"', b'"%s"' % longest), TAKE_LINE],
                        [done, item(longest, 2)], [HELLO, put, take(2)], status=0)
        for name, code, current, word in [("epoch", 2, 9, b"epoch ended 9"), ("incarnation", 4, 5, b"replaced 5")]:
            refused = b'{"code":%d,"current":%d,"kind":"refused"}' % (code, current)
            self.judge_call(f"a later {name}", first + [frame(refused)], 2 * [TAKE_LINE], [word], [HELLO, take()])

    def test_drains(self) -> None:
        """What a drain meets: texts, none, and the longest reply."""
        first, line = [frame(WELCOME)], b'{"call":"drain","max":16,"queue":3}'
        rows: list[tuple[str, list[bytes]]] = [
            ("two texts", [b"a", b""]), ("no text", []), ("the longest texts", [b"\\u0001" * 512] * 16)]
        asked = [HELLO, b'{"call":"drain","client":2,"epoch":1,"incarnation":1,"kind":"request","max":16,"number":1,"queue":3}']
        for name, texts in rows:
            self.judge_call(f"a drain that gets {name}", first + [frame(drained(texts))], [line], [drained(texts)], asked, status=0)
        self.judge_call("a drain of too many", first, [line.replace(b"16", b"17")], [b"bad line"], [HELLO])

    def test_printed_at_once(self) -> None:
        """A line is printed as soon as it is settled: it is there before the next request is answered."""
        released = threading.Event()

        def serve(connection: socket.socket) -> None:
            """Answers the hello and the first take, and the second once it is released."""
            with connection.makefile("rb") as source:
                for answer in [WELCOME, item(b"a"), item(b"b", 2)]:
                    source.read(int.from_bytes(source.read(2), "big"))
                    if answer == item(b"b", 2):
                        released.wait(PATIENCE)
                    connection.sendall(frame(answer))
                source.read(1)

        with one_client(serve) as address, subprocess.Popen(
                [self.program, *call_words(address)], stdin=subprocess.PIPE, stdout=subprocess.PIPE) as ran:
            assert ran.stdin and ran.stdout
            ran.stdin.write(TAKE_LINE + b"\n" + TAKE_LINE)
            ran.stdin.close()
            timer = threading.Timer(PATIENCE, ran.kill)
            timer.start()
            first = ran.stdout.readline()
            released.set()
            rest = ran.stdout.read()
            timer.cancel()
        wanted = item(b"a") + b"\n", item(b"b", 2) + b"\n", 0
        self.check_equal("a line that is printed at once", (first, rest, ran.returncode), wanted)

    def test_devices(self) -> None:
        """What faults of the standard streams do."""
        server = Server([frame(WELCOME), frame(item(b"a"))])
        with open("/dev/full", "wb", buffering=0) as full:
            ran = subprocess.run([self.program, *call_words(server.address)], input=TAKE_LINE, stdout=full,
                                 stderr=subprocess.PIPE, timeout=PATIENCE)
        wanted = b"run fault 2\n", 1, [HELLO, take()]
        self.check_equal("an output that is full", (ran.stderr, ran.returncode, server.ended()), wanted)
        server = Server([])
        directory = os.open("/", os.O_RDONLY)
        ended = self.ran(call_words(server.address), stdin=directory)
        os.close(directory)
        self.check_equal("an input that fails", (ended, server.ended()), ((b"", b"run fault 1\n", 1), []))

    def judge_recorded(self, name: str, path: pathlib.Path | str, answers: Iterable[bytes], lines: Iterable[bytes], ended: Ended,
                       heard: list[bytes], **streams: Any) -> None:
        """A client that keeps a record here, with these lines, against a server with these answers, must end and say this."""
        server = Server([frame(WELCOME), *map(frame, answers)])
        ran = self.ran(record_words(path, server.address), input=b"".join(line + b"\n" for line in lines), **streams)
        self.check_equal(name, (ran, server.ended()), (ended, heard))

    def test_records(self) -> None:
        """A record has a line for each reply and no other, whoever else appends to it."""
        with tempfile.TemporaryDirectory() as folder:
            path = pathlib.Path(folder) / "told"
            self.judge_recorded("a take that is recorded", path, [waiting(), item(b"a")], [TAKE_LINE], (item(b"a") + b"\n", b"", 0),
                                [HELLO, take(), take()])
            transfer = b'{"call":"transfer","item":"a","queue":3,"wait":"forever"}'
            received = b'{"client":1,"epoch":1,"incarnation":1,"kind":"reply","number":1,"reply":"received"}'
            server = Server([frame(WELCOME.replace(b"2", b"1")), frame(received)])
            ran = self.ran(record_words(path, server.address, client=1), input=transfer)
            server.ended()
            self.check_equal("a transfer that is recorded", ran, (received + b"\n", b"", 0))
            self.check_equal("the record of a hand-over", path.read_bytes(), shown_lines())
            path.unlink()
            self.judge_recorded("a record that ends with a word", path, [item(b"a"), item(b'\\"\\u0001', 2)], 2 * [TAKE_LINE] + [b"x"],
                                (item(b"a") + b"\n" + item(b'\\"\\u0001', 2) + b"\nbad line\n", b"", 1), [HELLO, take(), take(2)])
            self.check_equal("its lines", path.read_bytes(), entry(take(), item(b"a")) + entry(take(2), item(b'\\"\\u0001', 2)))
            path.unlink()
            self.judge_recorded("a reply in another form", path, [b" " + item(b"\\u0061")], [TAKE_LINE], (item(b"a") + b"\n", b"", 0),
                                [HELLO, take()])
            self.check_equal("its line", path.read_bytes(), entry(take(), item(b"a")))
            path.unlink()
            self.judge_recorded("no reply", path, [waiting()] * 3, [TAKE_LINE], (b"unsettled 1\n", b"", 1), [HELLO, take(), take(), take()])
            self.check_equal("its empty record", path.read_bytes(), b"")

    def test_records_that_fail(self) -> None:
        """A record that can't be opened is told before anything is asked; one that can't be written, behind the reply."""
        with socket.create_server(("127.0.0.1", 0)) as listener:
            listener.settimeout(0)
            address = "127.0.0.1:%d" % listener.getsockname()[1]
            for no_path, why in [("/dev/null/told", b"Not a directory (os error 20)"), ("/", b"Is a directory (os error 21)"),
                                 ("", b"No such file or directory (os error 2)")]:
                self.check_equal(f"no record at {no_path!r}", self.ran(record_words(no_path, address), input=TAKE_LINE),
                                 (b"", b"record %s: %s\n" % (no_path.encode(), why), 1))
            try:
                listener.accept()
                self.check_equal("nobody was asked", "somebody", "nobody")
            except BlockingIOError:
                self.check_equal("nobody was asked", "nobody", "nobody")
        self.judge_recorded("a record that is full", "/dev/full", [item(b"a"), item(b"b", 2)], 2 * [TAKE_LINE],
                            (item(b"a") + b"\n", b"record /dev/full: a write failed after 0 bytes of a line\n", 1), [HELLO, take()])
        with tempfile.TemporaryDirectory() as folder, open("/dev/full", "wb", buffering=0) as full:
            path = pathlib.Path(folder) / "told"
            server = Server([frame(WELCOME), frame(item(b"a"))])
            ran = subprocess.run([self.program, *record_words(path, server.address)], input=TAKE_LINE, stdout=full,
                                 stderr=subprocess.PIPE, timeout=PATIENCE)
            self.check_equal("an output that is full", (ran.stderr, ran.returncode, server.ended()), (b"run fault 2\n", 1, [HELLO, take()]))
            self.check_equal("and a record that is not", path.read_bytes(), entry(take(), item(b"a")))
            server = Server([frame(WELCOME), frame(item(b"a"))])
            ran = subprocess.run([self.program, *record_words("/dev/full", server.address)], input=TAKE_LINE, stdout=full,
                                 stderr=subprocess.PIPE, timeout=PATIENCE)
            wanted = b"record /dev/full: a write failed after 0 bytes of a line\n", 1, [HELLO, take()]
            self.check_equal("both full", (ran.stderr, ran.returncode, server.ended()), wanted)

    def test_record_in_a_full_pipe(self) -> None:
        """A line is appended by one write, before its reply is printed: to a named pipe with room for all but its last byte nothing is
        written, and nothing printed, until the pipe is read."""
        line = entry(take(), item(b"a"))
        with tempfile.TemporaryDirectory() as folder, open(os.path.join(folder, "lines"), "w+b") as lines:
            path = os.path.join(folder, "told")
            os.mkfifo(path)
            lines.write(TAKE_LINE)
            lines.seek(0)
            pipe = os.open(path, os.O_RDWR | os.O_NONBLOCK)
            filled = fcntl.fcntl(pipe, fcntl.F_SETPIPE_SZ, mmap.PAGESIZE) - len(line) + 1
            os.write(pipe, bytes(filled))
            server = Server([frame(WELCOME), frame(item(b"a"))])
            with subprocess.Popen([self.program, *record_words(path, server.address)], stdin=lines, stdout=subprocess.PIPE,
                                  stderr=subprocess.PIPE) as process:
                wait_for_a_full_pipe(process)
                early = select.select([process.stdout], [], [], 0)[0], int.from_bytes(
                    fcntl.ioctl(pipe, termios.FIONREAD, bytes(4)), sys.byteorder)
                os.read(pipe, filled)
                printed, said = process.communicate(timeout=PATIENCE)
            self.check_equal("a record in a full pipe", (early, printed, said, process.returncode, os.read(pipe, filled), server.ended()),
                             (([], filled), item(b"a") + b"\n", b"", 0, line, [HELLO, take()]))
            os.close(pipe)

    def test_words_of_records(self) -> None:
        """Words that name no record."""
        options = spelled("call", CALL)[1:]
        with tempfile.TemporaryDirectory() as folder:
            path = pathlib.Path(folder) / "told"
            to = ["--to", str(path)]
            for given in [["record"], ["record", "--to"], ["record", *to], ["record", *options], ["record", *options, *to],
                          ["record", f"--to={path}", *options], ["record", *to, *to, *options], ["records", *to, *options],
                          ["call", *to, *options], ["record", *to, *options[2:]], ["record", *to, "--help"],
                          ["record", *to, *options, "x"], ["record", *to, "call", *options],
                          ["record", *to, *spelled("serve", SERVE)[1:]]]:
                self.judge_no_command(given)
            self.check_equal("no record was made", path.exists(), False)
            self.judge_no_address("a record", ["record", *to, *options])
            self.check_equal("a record was made", path.read_bytes(), b"")

    def test_addresses(self) -> None:
        """Addresses where nobody listens, that are none, or that are taken."""
        with socket.create_server(("127.0.0.1", 0)) as taken:
            port = "127.0.0.1:%d" % taken.getsockname()[1]
            words = ["serve", "--listen", port, "--epoch", "1", "--workers", "1", "--connections", "0"]
            self.check_equal("a port that is taken", self.ran(words, input=b""), (b"", b"address fault\n", 1))
        with socket.socket() as holder:
            # It takes a port, so that nobody can listen there.
            holder.bind(("127.0.0.1", 0))
            port = "127.0.0.1:%d" % holder.getsockname()[1]
            self.check_equal("nobody listens at a port", self.ran(call_words(port), input=TAKE_LINE), (b"", b"address fault\n", 1))
        for address in ["", "127.0.0.1", "127.0.0.1:", ":1", "127.0.0.1:65536", "127.0.0.1:x", "256.0.0.1:80",
                        " ", "[::1", "a b:1"]:
            self.check_equal(f"nobody listens at {address!r}", self.ran(call_words(address), input=TAKE_LINE), (b"", b"address fault\n", 1))
        for address in ["", "127.0.0.1", "127.0.0.1:65536", "256.0.0.1:80"]:
            words = ["serve", "--listen", address, "--epoch", "1", "--workers", "1", "--connections", "0"]
            self.check_equal(f"nothing to listen at: {address!r}", self.ran(words, input=b""), (b"", b"address fault\n", 1))

    def judge_no_command(self, words: Sequence[str]) -> None:
        """These words must be no command."""
        self.check_equal(f"words {words}", self.ran(words, input=b""), (b"", b"command fault 1\n", 2))

    def test_words(self) -> None:
        """Words that name no command, and the limits of those that do."""
        no_number = ["", "-1", "+1", "1.0", "x", " 1", "1 ", "00000000000000000001", "18446744073709551616"]
        no_identifier = ["0", str(GREATEST + 1), *no_number]
        no_count = [str(2**32), *no_number]
        for word, options, limits in [
            ("serve", SERVE, {"--epoch": no_identifier, "--workers": ["0", "65", *no_number], "--connections": no_count}),
            ("call", CALL, {"--client": no_identifier, "--incarnation": no_identifier, "--tries": no_count,
                            "--speak": ["0", "3", "12", "21", *no_number]}),
        ]:
            for option in options:
                self.judge_no_command(spelled(word, {other: value for other, value in options.items() if other != option}))
                self.judge_no_command([*spelled(word, options), option, options[option]])
                self.judge_no_command([*spelled(word, options), option])
            for option, values in limits.items():
                for value in values:
                    self.judge_no_command(spelled(word, {**options, option: value}))
            self.judge_no_command([*spelled(word, options), "x"])
            self.judge_no_command([*spelled(word, options), "--help"])
            self.judge_no_command([word, "--help"])
            self.judge_no_command([word])
            self.judge_no_command([word, *spelled("book", {"--epoch": "1"})])
        self.judge_no_command(spelled("serve", CALL))
        self.judge_no_command(spelled("call", SERVE))
        self.judge_no_command(spelled("serves", SERVE))
        fits = {"--client": ["1", str(GREATEST), "0001"], "--incarnation": [str(GREATEST)],
                "--tries": ["0", str(2**32 - 1), "0000000000000000001"], "--speak": ["2", "02", "0000000000000000001"]}
        for option, values in fits.items():
            for value in values:
                self.judge_no_address(f"{option} {value}", spelled("call", {**CALL, option: value}))
        self.judge_no_address("options in another order", spelled("call", dict(reversed(CALL.items()))))
        self.judge_no_address("options with an equals sign", ["call", *(f"{option}={value}" for option, value in CALL.items())])
        fits = {"--epoch": [str(GREATEST)], "--workers": ["1", "64", "064"], "--connections": [str(2**32 - 1)]}
        for option, values in fits.items():
            for value in values:
                self.judge_no_address(f"{option} {value}", spelled("serve", {**SERVE, "--listen": "", option: value}))

    def judge_no_address(self, name: str, given: Sequence[str]) -> None:
        """These words must be a command, whose address is none."""
        self.check_equal(name, self.ran(given, input=b""), (b"", b"address fault\n", 1))
