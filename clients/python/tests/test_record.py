"""The record of what a session was told: its lines, who may share it, and what is raised where it can't be written."""
import asyncio
import contextlib
import errno
import json
import os
import pathlib
import signal
import subprocess
import sys
import tempfile
import threading
import unittest
from unittest import mock

from context import GENEROUS, Case, behind, impatient, is_free, key, leasing, raised_by, rv, session, unhurried
from let_in import handled
from record_lines import ending_of, lines_of
from rendezvous import aio, record
from scripted import HANG_UP, SILENCE, Scripted, frame, received_by, refused, reply, running_first, waiting, welcome
from test_aio import CALLS, cancelled, comes, made, run

FULL = "/dev/full"
# How many requests each of two processes asks that share a file, each with an item of the greatest length.
SHARED = 200
# A reply that is written as no server of ours writes it, with the key of request 1.
ODD = (b'{ "reply":\n"item",\t"item" : "\\u00e9\\n\xc3\xa9", "number":1,"kind":"reply",\r\n\n"client":1,"epoch":1,'
       b'"incarnation":1}\n ')


def calls():
    """Each call with each reply of it, by what asks it of a session."""
    for call, deeds in CALLS:
        for deed in deeds:
            if callable(deed):
                yield call, deed


def at_cancel(met):
    """A deed: the first request waits, and its cancel is met by this; each other request is done."""
    def answer(came):
        if came["kind"] == "cancel":
            return met(came)
        return SILENCE if came["number"] == 1 else reply("done")(came)
    return answer


class Recorded(Case):
    """A test with a folder for records."""

    def setUp(self):
        super().setUp()
        folder = tempfile.TemporaryDirectory(prefix="rv-record-")
        self.addCleanup(folder.cleanup)
        self.folder = pathlib.Path(folder.name)
        self.path = self.folder / "record"

    def turning(self, kind, server):
        """A session of this kind whose record turns bad once it is made: a folder is in its place."""
        if self.path.exists():
            self.path.rmdir()
        one = kind(server, record=self.path)
        self.path.mkdir()
        return one

    def told(self):
        """The replies that stand in the record, by the numbers of their requests."""
        return [(line.key.number, line.reply["reply"]) for line in lines_of(self.path)]


class Lines(Recorded):
    """What stands in a record."""

    def test_each_reply(self):
        """Of each call it is one line, which is there when the call ends, and has what that gives or raises."""
        for number, (call, deed) in enumerate(calls()):
            for ends in (self.waited_for, self.awaited):
                path = self.folder / f"{number}.{ends.__name__}"
                with self.subTest(call=number, ends=ends.__name__), Scripted(welcome, deed) as server:
                    value, raised, last = ends(server, call, path)
                    line, = lines_of(path)
                    self.assertEqual((value, raised), ending_of(line))
                    self.assertEqual((line.asked, line.told), (server.heard[1], deed(server.heard[1])))
                    self.assertEqual((last.key, line.key), (key(1), key(1)))

    def waited_for(self, server, call, path):
        """How a call ends in a session that waits, and what is its last outcome."""
        with session(server, record=path) as one:
            try:
                return call(one), None, one.last
            except rv.RendezvousError as fault:
                return None, type(fault), one.last

    def awaited(self, server, call, path):
        """The same in asyncio."""
        async def ends():
            async with made(server, record=path) as one:
                try:
                    return await call(one), None, one.last
                except rv.RendezvousError as fault:
                    return None, type(fault), one.last
        return run(ends())

    def test_byte_by_byte(self):
        """Bodies stand as they were sent and as they came; LF in white space is a space, so that a line has one alone."""
        for body in (ODD, ODD.ljust(65_535)):
            self.path.unlink(missing_ok=True)
            with Scripted(welcome, frame(body)) as server, session(server, record=self.path) as one:
                self.assertEqual(one.take(3), "é\né")
            sent = (b'{"call":"take","client":1,"epoch":1,"incarnation":1,"kind":"request","number":1,"queue":3,'
                    b'"wait":"forever"}')
            wanted = b'{"asked":' + sent + b',"told":' + body.replace(b"\n", b" ") + b"}\n"
            self.assertEqual(self.path.read_bytes(), wanted)
            self.assertEqual(lines_of(self.path)[0].told, json.loads(body))

    def test_what_is_no_reply(self):
        """Welcomes, refusals, and that a request waits are not recorded, nor is a call without a reply."""
        deeds = [welcome, refused(11), refused(1), waiting, HANG_UP, waiting]
        with Scripted(*deeds) as server, session(server, record=self.path) as one:
            with self.raises(rv.Refused):
                one.take(3)
            server.otherwise = running_first(lambda: self.assertFalse(self.path.exists()), reply("item", item="a"))
            self.assertEqual((one.take(3), self.told()), ("a", [(1, "item")]))

    @impatient()
    def test_once_it_is_known(self):
        """A request that an exception left unsettled has its line once it is asked again; one that was given up, its own body."""
        with Scripted(welcome) as server, session(server, record=self.path) as one:
            for number, gives in enumerate((one.again, one.give_up), 1):
                server.otherwise = HANG_UP
                with self.raises(rv.Unsettled):
                    one.take(3)
                self.assertEqual(len(self.told()), number - 1)
                server.otherwise = lambda came: (welcome if came["kind"] == "hello" else reply("cancelled"))(came)
                outcome = gives()
                line = lines_of(self.path)[-1]
                self.assertEqual((line.key, line.call), (outcome.key, {"call": "take", "queue": 3, "wait": "forever"}))
            self.assertEqual(self.told(), [(1, "cancelled"), (2, "cancelled")])

    def test_before_anybody_is_told(self):
        """When a line is written the session has not told the reply, nor the one before it otherwise."""
        with Scripted(welcome) as server, session(server, record=self.path) as one:
            server.otherwise, seen, append = reply("done"), [], record.Record.append

            def looks(kept, line):
                append(kept, line)
                seen.append((one.last and one.last.key.number, one.running is not None))
            with mock.patch.object(record.Record, "append", looks):
                one.put(3, "a")
                one.put(3, "b")
            self.assertEqual(seen, [(None, True), (1, True)])

    def test_one_write(self):
        """A line goes out whole, in one write behind all that stands there."""
        opened, wrote, opens, writes = [], [], os.open, os.write
        with Scripted(welcome) as server, session(server, record=self.path) as one:
            server.otherwise = reply("done")
            with mock.patch.object(record.os, "open", lambda *given: opened.append(given) or opens(*given)), \
                    mock.patch.object(record.os, "write", lambda *given: wrote.append(given[1]) or writes(*given)):
                one.put(3, "a" * 512)
        wrote = [piece for piece in wrote if piece != b"\0"]
        self.assertEqual([self.path.read_bytes()], wrote)
        self.assertEqual([flags & os.O_APPEND for _, flags, _ in opened], [os.O_APPEND])
        self.assertEqual([flags & os.O_TRUNC for _, flags, _ in opened], [0])


class Places(Recorded):
    """Which file it is."""

    def ask(self, **more):
        """A put by a session of a client."""
        with Scripted(welcome, reply("done")) as server, session(server, **more) as one:
            one.put(3, "a")

    def test_what_is_there_stays(self):
        """Lines of sessions before stay."""
        self.path.write_bytes(b"before\n")
        for _ in range(2):
            self.ask(record=str(self.path))
        self.assertEqual(self.path.read_bytes().split(b"\n")[0], b"before")
        self.assertEqual(self.path.read_bytes().count(b"\n"), 3)

    def test_the_environment(self):
        """It names the file, unless an argument does; an empty name is none."""
        other = self.folder / "other"
        with mock.patch.dict(os.environ, {"RV_RECORD": str(self.path)}):
            self.ask()
            self.assertEqual(self.told(), [(1, "done")])
            self.ask(record=other)
            self.assertEqual((len(self.told()), len(lines_of(other))), (1, 1))
            self.ask(record="")
        with mock.patch.dict(os.environ, {"RV_RECORD": ""}):
            self.ask()
        self.assertEqual((len(self.told()), sorted(os.listdir(self.folder))), (1, ["other", "record"]))

    def test_another_folder(self):
        """A path is that of the folder in which the session was made."""
        here = os.getcwd()
        self.addCleanup(os.chdir, here)
        os.chdir(self.folder)
        with Scripted(welcome, reply("done")) as server, session(server, record="record") as one:
            os.chdir(here)
            one.put(3, "a")
        self.assertEqual(self.told(), [(1, "done")])

    def test_a_file_that_is_moved_away(self):
        """A new one is made."""
        with Scripted(welcome) as server, session(server, record=self.path) as one:
            server.otherwise = reply("done")
            one.put(3, "a")
            self.path.rename(self.folder / "old")
            one.put(3, "b")
        self.assertEqual((self.told(), len(lines_of(self.folder / "old"))), ([(2, "done")], 1))

    def test_what_is_no_path(self):
        """It is told before anything is leased or asked."""
        for path in ("a\0b", 7):
            with self.raises((ValueError, TypeError)):
                rv.Session("127.0.0.1:1", 1, 1, record=path)

    def test_two_processes(self):
        """Each line of both is there once, and whole."""
        text = ("import sys\nfrom context import rv\nwith rv.Session(sys.argv[1], int(sys.argv[2]), 1) as one:\n"
                f"    for number in range({SHARED}):\n        one.put(3, chr(1) * 512)\n")
        with Scripted() as server:
            server.otherwise = lambda came: (welcome if came["kind"] == "hello" else reply("done"))(came)
            environment = {**os.environ, "RV_RECORD": str(self.path)}
            words = [[sys.executable, "-B", "-c", text, server.address, str(client)] for client in (1, 2)]
            ran = [subprocess.Popen(each, cwd=pathlib.Path(__file__).parent, env=environment) for each in words]
            self.assertEqual([each.wait(GENEROUS) for each in ran], [0, 0])
        lines = lines_of(self.path)
        keys = {(line.key.client, line.key.number) for line in lines}
        self.assertEqual((len(lines), keys), (2 * SHARED, {(c, n) for c in (1, 2) for n in range(1, SHARED + 1)}))


@contextlib.contextmanager
def nobody_special():
    """In the block, files' permissions count: the system's administrator is another user."""
    user = os.geteuid()
    if user == 0:
        os.seteuid(65_534)
    try:
        yield
    finally:
        if user == 0:
            os.seteuid(0)


class Before(Recorded):
    """A record that can't be written is found where the session is made: nothing is leased, asked or left behind."""

    def refused(self, path, number):
        """Each session says so, by the file's name, and the system's word."""
        with Scripted(welcome) as server:
            for kind in (rv.Session, aio.Session):
                with self.subTest(path=path, kind=kind.__module__), leasing() as clients:
                    before = sorted(self.folder.rglob("*"))
                    fault = raised_by(lambda: kind(server.address, record=path))
                    self.assertIsInstance(fault, OSError)
                    self.assertNotIsInstance(fault, rv.RendezvousError)
                    self.assertEqual((fault.errno, fault.filename), (number, str(path)))
                    self.assertEqual(sorted(self.folder.rglob("*")), before)
                    self.assertTrue(all(map(is_free, clients)))
            self.assertEqual(server.heard, [])

    def test_a_folder(self):
        """Where the file is to be; none where its folder is to be; and a file there."""
        self.refused(self.folder, errno.EISDIR)
        self.refused(self.folder / "none" / "record", errno.ENOENT)
        self.path.write_bytes(b"")
        self.refused(self.path / "record", errno.ENOTDIR)
        self.refused(self.folder / ("x" * 300), errno.ENAMETOOLONG)

    def test_without_permission(self):
        """A file that may not be written, and a folder where none may be made."""
        self.folder.chmod(0o755)
        locked = self.folder / "locked"
        locked.mkdir(mode=0o755)
        self.path.write_bytes(b"")
        self.path.chmod(0o444)
        if os.geteuid() != 0:
            locked.chmod(0o555)
        with nobody_special():
            self.refused(self.path, errno.EACCES)
            self.refused(locked / "record", errno.EACCES)

    def test_a_full_disk(self):
        """As far as it shows: a device, and a disk that has no room for a new file."""
        if not os.path.exists(FULL):
            return
        self.refused(FULL, errno.ENOSPC)
        with mock.patch.object(record.tempfile, "TemporaryFile", lambda **_: open(FULL, "wb", buffering=0)):
            self.refused(self.path, errno.ENOSPC)

    def test_by_the_environment(self):
        """So is one that the environment names."""
        with mock.patch.dict(os.environ, {"RV_RECORD": str(self.folder)}), Scripted(welcome) as server:
            for kind in (session, made):
                self.assertEqual(raised_by(lambda: kind(server)).filename, str(self.folder))
            self.assertEqual(server.heard, [])

    def test_what_is_left(self):
        """Of a record that can be written: what was there, or no file."""
        for text in (None, b"", b"before\n"):
            if text is not None:
                self.path.write_bytes(text)
            for kind in (session, made):
                with Scripted(welcome) as server:
                    one = kind(server, record=self.path)
                    self.assertEqual(self.path.read_bytes() if self.path.exists() else None, text)
                    self.assertEqual([path for path in self.folder.iterdir() if path != self.path], [])
                    run(one.close()) if kind is made else one.close()

    def test_a_pipe_that_nobody_reads(self):
        """It is told, and not waited for."""
        os.mkfifo(self.path)
        self.refused(self.path, errno.ENXIO)

    def test_a_pipe_that_somebody_reads(self):
        """So is that one, for its reader may go."""
        os.mkfifo(self.path)
        reader = os.open(self.path, os.O_RDONLY | os.O_NONBLOCK)
        self.addCleanup(os.close, reader)
        self.refused(self.path, errno.ENXIO)


class NotWritten(Recorded):
    """A reply that can't be recorded is in the exception, and the session goes on."""

    def not_recorded(self, fault, outcome, number):
        """It has the outcome, the line, and the system's word."""
        self.assertIsInstance(fault, OSError)
        self.assertEqual((type(fault), fault.outcome, fault.key, fault.errno), (rv.NotRecorded, outcome, outcome.key, number))
        self.assertIn(str(fault.filename), str(fault))
        told = json.loads(fault.line)["told"]
        self.assertEqual((told["number"], told["kind"]), (outcome.key.number, "reply"))

    def test_whatever_is_in_the_way(self):
        """A folder, one that is not there, or a full device, once the session is made."""
        ways = [(self.folder, errno.EISDIR), (self.folder / "none" / "record", errno.ENOENT)]
        for path, number in [*ways, *([(FULL, errno.ENOSPC)] if os.path.exists(FULL) else [])]:
            self.path.unlink(missing_ok=True)
            with self.subTest(path=path), Scripted(welcome) as server, session(server, record=self.path) as one:
                self.path.symlink_to(path)
                server.otherwise = reply("item", item="a")
                for each in (1, 2):
                    self.not_recorded(raised_by(lambda: one.take(3)), rv.replies.Item(key(each), "a"), number)
                self.assertEqual((one.unclaimed(), one.last.key), ([], key(2)))

    def test_it_goes_on(self):
        """Once the file can be written, with the replies from then on."""
        with Scripted(welcome, received_by(7, 8, 9), reply("done")) as server, self.turning(session, server) as one:
            fault = raised_by(lambda: one.transfer(3, "a"))
            self.not_recorded(fault, rv.Receipt(key(1), rv.Key(1, 7, 8, 9)), errno.EISDIR)
            self.path.rmdir()
            one.put(3, "b")
            self.assertEqual(self.told(), [(2, "done")])
            self.path.write_text(f"{fault.line}\n")
            self.assertEqual(ending_of(lines_of(self.path)[0])[0], fault.outcome)

    def test_a_line_that_is_cut(self):
        """A write that is cut short is told as a full disk."""
        write = os.write
        with Scripted(welcome, reply("done")) as server, session(server, record=self.path) as one:
            with mock.patch.object(record.os, "write", lambda file, text: write(file, text[:9]) if text[:1] == b"{"
                                   else write(file, text)):
                fault = raised_by(lambda: one.put(3, "a"))
        self.not_recorded(fault, rv.replies.Done(key(1)), errno.ENOSPC)
        self.assertEqual(self.path.read_bytes(), b'{"asked":')

    def test_whatever_the_reply(self):
        """It is raised in place of what the reply would give or raise, in both sessions."""
        for number, (call, deed) in enumerate(calls()):
            with self.subTest(call=number), Scripted(welcome, deed) as server, self.turning(session, server) as one:
                fault = raised_by(lambda: call(one))
                self.not_recorded(fault, one.last, errno.EISDIR)
            with self.subTest(call=number, awaited=True), Scripted(welcome, deed) as server:
                self.not_recorded(run(self.raised(server, call)), one.last, errno.EISDIR)

    async def raised(self, server, call):
        """What a call raises in asyncio."""
        async with self.turning(made, server) as one:
            try:
                return await call(one)
            except rv.RendezvousError as fault:
                return fault

    def test_a_loop(self):
        """An item that isn't recorded is in the exception, and the loop goes on behind it; a take that is cancelled ends it."""
        with Scripted(welcome) as server, session(server, record=self.path) as one:
            server.otherwise, jobs = reply("item", item="a"), one.items(3)
            self.path.mkdir()
            self.not_recorded(raised_by(lambda: next(jobs)), rv.replies.Item(key(1), "a"), errno.EISDIR)
            self.path.rmdir()
            self.assertEqual(next(jobs), "a")
            self.path.unlink()
            self.path.mkdir()
            server.otherwise = lambda came: reply("cancelled")(came) if came["kind"] == "cancel" else SILENCE
            threading.Thread(target=behind(server, 4, jobs.stop)).start()
            self.not_recorded(raised_by(lambda: next(jobs)), rv.replies.Cancelled(key(3)), errno.EISDIR)
            self.assertEqual(list(jobs), [])

    @impatient()
    def test_asked_again(self):
        """So does `again` raise it, and then nothing is unsettled."""
        with Scripted(welcome, HANG_UP) as server, self.turning(session, server) as one:
            with self.raises(rv.Unsettled):
                one.take(3)
            server.otherwise = lambda came: (welcome if came["kind"] == "hello" else reply("item", item="a"))(came)
            self.not_recorded(raised_by(one.again), rv.replies.Item(key(1), "a"), errno.EISDIR)
            self.assertIsInstance(raised_by(one.again), rv.Misused)

    @unhurried()
    def test_an_interrupt(self):
        """It has both: the outcome, and that it isn't recorded."""
        with Scripted(welcome) as server, self.turning(session, server) as one:
            server.otherwise = at_cancel(reply("cancelled"))
            press = behind(server, 2, lambda: os.kill(os.getpid(), signal.SIGINT))
            with handled(signal.SIGINT, signal.default_int_handler):
                with self.raises(rv.Interrupted, key=key(1), outcome=rv.replies.Cancelled(key(1))) as told:
                    threading.Thread(target=press).start()
                    one.take(3)
            self.not_recorded(told.raised.fault, rv.replies.Cancelled(key(1)), errno.EISDIR)
            self.assertIn("not in the record", str(told.raised))

    @unhurried()
    def hidden_behind(self, server, one):
        """A handler's exception ends a call, whose item came and isn't recorded."""
        def exits(*_):
            raise SystemExit("the program's own")
        server.otherwise = at_cancel(reply("item", item="a"))
        with handled(signal.SIGTERM, exits), self.raises(SystemExit):
            threading.Thread(target=behind(server, 2, lambda: os.kill(os.getpid(), signal.SIGTERM))).start()
            one.take(3)
        self.assertEqual([each.item for each in one.unclaimed()], ["a"])

    def test_what_a_handler_hides(self):
        """The next call raises it, once, and asks nothing; then the item stands in `unclaimed()` no more."""
        with Scripted(welcome) as server, self.turning(session, server) as one:
            self.hidden_behind(server, one)
            before = len(server.heard)
            self.not_recorded(raised_by(lambda: one.put(3, "b")), rv.replies.Item(key(1), "a"), errno.EISDIR)
            self.assertEqual((one.unclaimed(), len(server.heard)), ([], before))
            server.otherwise = reply("done")
            self.not_recorded(raised_by(lambda: one.put(3, "b")), rv.replies.Done(key(2)), errno.EISDIR)

    def test_a_claim_after_it(self):
        """So does what would give the item else: a claim, and a loop."""
        for gives in (lambda one: one.claim(one.unclaimed()[0]), lambda one: next(one.items(3))):
            with Scripted(welcome) as server, self.turning(session, server) as one:
                self.hidden_behind(server, one)
                self.not_recorded(raised_by(lambda: gives(one)), rv.replies.Item(key(1), "a"), errno.EISDIR)
                self.assertEqual(one.unclaimed(), [])
                with self.assertRaises(ValueError):
                    one.claim(rv.Unclaimed(key(1), "a", 3))

    def test_a_close_behind_it(self):
        """So does `close`, but where its block ends by another exception."""
        with Scripted(welcome) as server:
            one = self.turning(session, server)
            self.hidden_behind(server, one)
            self.not_recorded(raised_by(one.close), rv.replies.Item(key(1), "a"), errno.EISDIR)
            one.close()
        with Scripted(welcome) as server, self.raises(KeyError):
            with self.turning(session, server) as one:
                self.hidden_behind(server, one)
                raise KeyError
        self.assertEqual([each.item for each in one.unclaimed()], ["a"])


class Tasks(Recorded):
    """In asyncio, what a cancelled task's request came to."""

    def test_it_has_its_line(self):
        """Before anything else is asked, whether it was met or not."""
        async def asks(server):
            async with made(server, record=self.path) as one:
                await cancelled(one, lambda one: one.take(3), server, 2)
                await one.put(3, "a")
                return one.unclaimed()
        for met, wanted in ((reply("cancelled"), []), (reply("item", item="a"), ["a"])):
            self.path.unlink(missing_ok=True)
            with Scripted(welcome) as server:
                server.otherwise = at_cancel(met)
                left = run(asks(server))
            self.assertEqual([each.item for each in left], wanted)
            self.assertEqual([number for number, _ in self.told()], [1, 2])

    @unhurried()
    def test_where_it_has_none(self):
        """The next call raises that, once, with the item, which then stands nowhere else; so do `again`, `close` and `claim`."""
        async def asks(server, call):
            async with self.turning(made, server) as one:
                await cancelled(one, lambda one: one.take(3), server, 2)
                fault = await self.raised(call(one))
                return fault, one.unclaimed(), await self.raised(one.again()) if call is not closes else None

        async def closes(one):
            await one.close()

        async def claims(one):
            await comes("its outcome", lambda: one.last)
            one.claim(one.unclaimed()[0])
        for call in (lambda one: one.put(3, "a"), lambda one: one.take(3), lambda one: one.again(), closes, claims):
            with Scripted(welcome) as server:
                server.otherwise = at_cancel(reply("item", item="a"))
                fault, left, then = run(asks(server, call))
            self.assertEqual((type(fault), fault.outcome, left), (rv.NotRecorded, rv.replies.Item(key(1), "a"), []))
            self.assertIn(type(then), (rv.Misused, type(None)))

    async def raised(self, awaited):
        """What an awaited call raises."""
        try:
            await awaited
        except Exception as fault:
            return fault

    @unhurried()
    def test_a_block_that_ends_otherwise(self):
        """That is raised in place of what could not be recorded, whose item stands in `unclaimed()`."""
        left = []

        async def ends(server):
            async with self.turning(made, server) as one:
                left.append(one)
                await cancelled(one, lambda one: one.take(3), server, 2)
                raise KeyError
        with Scripted(welcome) as server, self.raises(KeyError):
            server.otherwise = at_cancel(reply("item", item="a"))
            run(ends(server))
        self.assertEqual([each.item for each in left[0].unclaimed()], ["a"])


if __name__ == "__main__":
    unittest.main()
