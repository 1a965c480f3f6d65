"""Workers: processes of `python3 -m rendezvous work`, on a server that does what a script says."""
import json
import os
import pathlib
import signal
import sys
import tempfile
import unittest
from unittest import mock

from context import GENEROUS, Case, asked, impatient, key, nobody, numbers, rv, session, until
from rendezvous import statuses, worker
from rendezvous.calls import Wait
from scripted import HANG_UP, SILENCE, Scripted, key_members, refused, reply, running_first, waiting, welcome
from working import IGNORED, Working

QUEUE = 3
# A command that prints each of its arguments, one that says that it has begun, waits for a line in a pipe, and prints its item, and
# one that says so and goes on for long.
PRINTS = [sys.executable, "-B", "-c", "import json, sys; print(json.dumps(sys.argv[1:]), flush=True)", "first"]
WAITS = ["sh", "-c", 'echo begun; read line < "$0"; echo "did $1"']
HOLDS = ["sh", "-c", f"echo begun; exec sleep {GENEROUS}"]
# What a command does whose item is none that it can do.
FAILS = ["sh", "-c", 'test "$1" != bad', "sh"]


def item(text):
    """A deed: this item."""
    return reply("item", item=text)


class Workers(Case):
    """What all of these tests ask."""

    def ran(self, deeds, command, *words, **environment):
        """What came of a worker on a server with these deeds, after the welcome, and the server."""
        with Scripted(welcome, *deeds) as server, Working(server.address, command, str(QUEUE), *words, **environment) as works:
            return works.ends(), server

    def request(self, server, place):
        """How a worker names the request that came there."""
        return "request " + "/".join(str(server.heard[place][name]) for name in ("epoch", "client", "incarnation", "number"))


class Loops(Workers):
    """One item after another."""

    def test_each_item_is_the_last_argument(self):
        """As it is, be there what may; the command's output is the worker's, and nothing else is there."""
        items = ["a b", "ü\n'$x'", "", "-n"]
        ended, server = self.ran([*map(item, items), reply("empty")], PRINTS, "--wait", "0s", LC_ALL="C", PYTHONUTF8="1")
        self.assertEqual(ended, ("".join(json.dumps(["first", one]) + "\n" for one in items), "", 3))
        self.assertEqual([(one["call"], one["queue"], one["wait"]) for one in server.heard[1:]], [("take", QUEUE, "now")] * 5)

    def test_on_standard_input(self):
        """Each byte, and no more; a command need not read it."""
        items = ["a\0b", "ü\n", ""]
        for command, printed in ((["cat"], "a\0bü\n"), (["true"], "")):
            ended, _ = self.ran([*map(item, items), reply("empty")], command, "--wait", "0s", "--stdin")
            self.assertEqual(ended, (printed, "", 3))

    def test_standard_input_is_empty(self):
        """Where the item is an argument."""
        ended, _ = self.ran([item("a"), reply("empty")], ["sh", "-c", "wc -c"], "--wait", "0s")
        self.assertEqual((ended[0].strip(), *ended[1:]), ("0", "", 3))

    def test_it_waits_in_pieces(self):
        """Without a time each take is asked anew now and then, so that a killed worker's ends."""
        ended, server = self.ran([reply("timedout"), reply("timedout"), item("a"), reply("cancelled")], ["echo"])
        self.assertEqual((ended[0], ended[2]), ("a\n", 5))
        self.assertEqual([one["wait"] for one in server.heard[1:]], [60_000] * 4)

    def test_a_script_without_an_interpreter(self):
        """A shell runs it, as from another shell."""
        with tempfile.TemporaryDirectory(prefix="rv-work-") as folder:
            script = pathlib.Path(folder, "script")
            script.write_text('echo "$0 $1 $2"\n')
            script.chmod(0o755)
            ended, _ = self.ran([item("a"), reply("empty")], [str(script), "first"], "--wait", "0s")
            self.assertEqual(ended, (f"{script} first a\n", "", 3))


class Failures(Workers):
    """A command that fails."""

    def test_it_goes_on(self):
        """The failure is told with the request that took the item, as its receipt has it, and without the item."""
        failing = [(FAILS, "the command ended with status 1"), (["sh", "-c", "kill -9 $$"], "the command was ended by SIGKILL")]
        for command, fault in failing:
            ended, server = self.ran([item("bad"), reply("empty")], command, "--wait", "0s")
            said = f"rendezvous work: item of {self.request(server, 1)}: {fault}\n"
            self.assertEqual((ended, len(server.heard)), (("", said, 3), 3))

    def test_it_ends(self):
        """Where that is asked for, by a status of its own; what ended well goes on."""
        ended, server = self.ran([item("good"), item("bad")], FAILS, "--stop-on-failure", "--show-items")
        said = f'rendezvous work: item of {self.request(server, 2)}: the command ended with status 1: "bad"\n'
        self.assertEqual((ended, len(server.heard)), (("", said, 123), 3))

    def test_no_argument_has_a_zero_byte(self):
        """It is told, and the loop goes on."""
        ended, server = self.ran([item("a\0b"), item("c"), reply("empty")], ["echo"], "--wait", "0s", "--show-items")
        fault = 'no argument has a zero byte: it needs --stdin: "a\\u0000b"'
        self.assertEqual(ended, ("c\n", f"rendezvous work: item of {self.request(server, 1)}: {fault}\n", 3))

    def test_it_cannot_be_started(self):
        """What could not be seen before ends the loop: it would lose all others."""
        with tempfile.TemporaryDirectory(prefix="rv-work-") as folder:
            script = pathlib.Path(folder, "script")
            script.write_text(f"#!{folder}/none\n")
            script.chmod(0o755)
            ended, server = self.ran([item("a")], [str(script)])
        said = f"rendezvous work: item of {self.request(server, 1)}: the command can't be started: No such file or directory\n"
        self.assertEqual((ended, len(server.heard)), (("", said, 123), 2))


class Ends(Workers):
    """What ends the loop, by its status."""

    def test_no_item_in_time(self):
        """Each take has that time anew."""
        ended, server = self.ran([item("a"), reply("timedout")], ["echo"], "--wait", "1m")
        self.assertEqual((ended, [one["wait"] for one in server.heard[1:]]), (("a\n", "", 4), [60_000] * 2))

    def test_it_was_cancelled(self):
        """By somebody else."""
        ended, server = self.ran([reply("cancelled")], ["echo"], "--wait", "1h")
        said = f"rendezvous work: {self.request(server, 1)}: cancelled by another program, and no item was taken\n"
        self.assertEqual(ended, ("", said, 5))

    def test_refusals(self):
        """By their names, and that another process has its client number."""
        ended, server = self.ran([item("a"), refused(4, current=2**53 - 1)], ["echo"])
        said = f"rendezvous work: replaced by incarnation {2**53 - 1} ({self.request(server, 2)})\n"
        self.assertEqual(ended, ("a\n", said, 7))
        with Scripted(refused(9)) as server, Working(server.address, ["echo"], str(QUEUE)) as works:
            self.assertEqual(works.ends(), ("", "rendezvous work: refused 9, clients full\n", 7))

    def test_an_epoch_that_ended(self):
        """Whether the take had an item is not known."""
        ended, server = self.ran([item("a"), waiting, refused(2, current=5)], ["echo"])
        said = f"the epoch ended, the server is of epoch 5 ({self.request(server, 2)}); whether it took an item is not known"
        self.assertEqual(ended, ("a\n", f"rendezvous work: {said}\n", 6))

    def test_no_server(self):
        """Nothing was asked."""
        with nobody() as (host, port), Working(f"rv://{host}:{port}?patience=0.1", ["echo"], "3") as works:
            printed, said, status = works.ends()
        self.assertEqual((printed, said, status),
                         ("", f"rendezvous work: nothing was asked: {host}:{port}: connection refused\n", 1))

    def test_it_is_not_known(self):
        """It is told how to ask for longer."""
        told = []
        with Scripted(welcome, waiting, HANG_UP) as server, impatient(), mock.patch.object(worker, "tell", told.append), \
                mock.patch.object(worker, "STOPS", ()), mock.patch.dict(os.environ, RV_CLIENTS="{0}-{0}".format(numbers()[0])):
            status = worker.worked(server.address, worker.Work(QUEUE, ("echo",)))
        self.assertEqual((status, len(told)), (6, 1))
        self.assertIn(self.request(server, 1), told[0])
        self.assertTrue(told[0].endswith("; whether it took an item is not known; a worker with patience=forever in its rv:// "
                                         "address goes on asking"), told)

    def test_statuses(self):
        """Of all that ends a call."""
        wanted = [(6, rv.Unsettled(key(1))), (6, rv.EpochEnded(key(1), 5)), (7, rv.Refused(key(1), 9)), (7, rv.Full(key(1))),
                  (7, rv.Replaced(None, 2)), (1, rv.NotAsked()), (1, rv.AllLeased(None, 1, 2)), (1, OSError(28, "none"))]
        self.assertEqual([(statuses.status_of(fault), fault) for _, fault in wanted], wanted)

    def test_a_record(self):
        """That can't be written, nothing is asked; one that lacks a reply has its item worked at, and the loop ends by that."""
        with tempfile.TemporaryDirectory(prefix="rv-work-") as folder:
            ended, server = self.ran([item("a")], ["echo"], RV_RECORD=f"{folder}/none/record")
            said = f"rendezvous work: {folder}/none/record: No such file or directory\n"
            self.assertEqual((ended, server.connections), (("", said, 1), 0))
            record = pathlib.Path(folder, "record")
            ended, server = self.ran([running_first(record.mkdir, item("a"))], ["echo"], RV_RECORD=str(record))
        said = f"rendezvous work: {self.request(server, 1)}: its reply is not in the record {record}: Is a directory\n"
        self.assertEqual((ended, len(server.heard)), (("a\n", said, 1), 2))


class Signals(Workers):
    """What ends the loop in good order, and at once."""

    def waits(self, server, *words):
        """A worker whose take waits."""
        return Working(server.address, ["echo"], str(QUEUE), *words)

    def test_while_it_waits(self):
        """Its take is cancelled; an item that came meanwhile is worked at."""
        came = "an item came meanwhile; stops after its command, or at once by a second signal"
        for number in (signal.SIGINT, signal.SIGTERM):
            for deed, printed, words in ((reply("cancelled"), "", "stopped, and no item was taken"), (item("a"), "a\n", came)):
                with Scripted(welcome, SILENCE, deed) as server, self.waits(server) as works:
                    until("a take", lambda: len(server.heard) == 2)
                    works.gets(number)
                    self.assertEqual(works.ends(), (printed, f"rendezvous work: {number.name}: {words}\n", 0))
                    self.assertEqual(server.heard[2:], [{"kind": "cancel", **key_members(server.heard[1])}])

    def test_before_a_welcome(self):
        """Nothing is asked."""
        with Scripted() as server, self.waits(server) as works:
            until("a hello", lambda: server.heard)
            works.gets(signal.SIGTERM)
            self.assertEqual(works.ends(), ("", "rendezvous work: SIGTERM: stopped, and no item was taken\n", 0))

    def test_while_a_command_runs(self):
        """The loop ends after it. The terminal's signal doesn't reach it."""
        for number in (signal.SIGINT, signal.SIGTERM):
            with tempfile.TemporaryDirectory(prefix="rv-work-") as folder, Scripted(welcome, item("a")) as server:
                pipe = os.path.join(folder, "pipe")
                os.mkfifo(pipe)
                held = os.open(pipe, os.O_RDWR)
                self.addCleanup(os.close, held)
                with Working(server.address, [*WAITS, pipe], str(QUEUE)) as works:
                    self.assertEqual(works.process.stdout.readline(), b"begun\n")
                    works.gets(number)
                    said = f"rendezvous work: {number.name}: stops after this command, or at once by a second signal\n"
                    self.assertEqual(works.process.stderr.readline().decode(), said)
                    os.write(held, b"go on\n")
                    self.assertEqual((works.ends(), len(server.heard)), (("did a\n", "", 0), 2))

    def test_a_second_one_while_a_command_runs(self):
        """Both end by it at once."""
        for number in (signal.SIGINT, signal.SIGTERM):
            with Scripted(welcome, item("a")) as server, Working(server.address, HOLDS, str(QUEUE)) as works:
                self.assertEqual(works.process.stdout.readline(), b"begun\n")
                works.gets(signal.SIGTERM)
                works.process.stderr.readline()
                works.gets(number)
                said = f"{number.name}: ended at once: item of {self.request(server, 1)}: its command got the signal too"
                # all that has its output has ended then
                self.assertEqual(works.ends(), ("", f"rendezvous work: {said}\n", -number))

    def test_a_second_one_while_it_waits(self):
        """What is known is told."""
        with Scripted(welcome) as server, self.waits(server) as works:
            until("a take", lambda: len(server.heard) == 2)
            works.gets(signal.SIGINT)
            until("a cancel", lambda: len(server.heard) == 3)
            works.gets(signal.SIGTERM)
            said = (f"rendezvous work: SIGTERM: ended at once: {self.request(server, 1)}: whether it took an item is not known\n")
            self.assertEqual(works.ends(), ("", said, -signal.SIGTERM))

    def test_a_signal_that_is_ignored(self):
        """Stays so, as beside a shell that waits for nobody."""
        with Scripted(welcome, SILENCE, reply("cancelled")) as server:
            works = self.waits(server)
            works.starter = IGNORED
            with works:
                until("a take", lambda: len(server.heard) == 2)
                works.gets(signal.SIGINT)
                works.gets(signal.SIGTERM)
                self.assertEqual(works.ends()[1:], ("rendezvous work: SIGTERM: stopped, and no item was taken\n", 0))


class BadWords(Workers):
    """What is told before anything is asked, in one line."""

    def told(self, words, server="127.0.0.1:1", **environment):
        """What it says of these words, and its status; it prints nothing."""
        works = Working(server, [], **environment)
        works.words = [*works.words[:works.words.index("work")], *words]
        with works:
            printed, said, status = works.ends()
        self.assertEqual(printed, "")
        return said, status

    def test_bad_words(self):
        """Each by its word."""
        folder = tempfile.mkdtemp(prefix="rv-work-")
        self.addCleanup(os.rmdir, folder)
        queues, times = ("64", "-1", "x", "", "1_0", "9" * 5_000), ("5", "0", "25h", "1d", "-1s", "1.5s", "1 s", "")
        of_path = [(["work", "3", "--", each], words) for each, words in (
            ("rv-no-such-command", "command not found: 'rv-no-such-command'"), (folder, f"no program that may be run: '{folder}'"),
            (f"{folder}/none", f"command not found: '{folder}/none'"), (__file__, f"no program that may be run: '{__file__}'"))]
        for words, fault in [
                *((["work", each, "--", "true"], "argument QUEUE: a whole number from 0 to 63: ") for each in queues),
                *((["work", "3", f"--wait={each}", "--", "true"], "argument --wait: a number and ms, s, m or h") for each in times),
                *of_path, (["work", "--", "true"], "the following arguments are required: QUEUE"),
                (["work", "3"], "no command: -- COMMAND"), (["work", "3", "--"], "no command: -- COMMAND"),
                (["work", "3", "true"], "unknown word 'true'"), (["work", "3", "--sto", "--", "true"], "unknown word '--sto'"),
                (["work", "3", "--connect", "a:", "--", "true"], "port of server 1, in the address 'a:'")]:
            with self.subTest(words=[word[:20] for word in words]):
                said, status = self.told(words)
                self.assertEqual((said.count("\n"), status), (1, 2), said)
                self.assertTrue(said.startswith(f"rendezvous work: {fault}"), said)

    def test_no_command_of_the_package(self):
        """It is told which there are."""
        for words in ([], ["walk"], ["3", "--", "true"]):
            said, status = self.told(words)
            self.assertEqual((said.count("\n"), status), (1, 2), said)
            self.assertTrue(said.startswith("rendezvous: "), said)

    def test_a_bad_environment(self):
        """Its variables too."""
        for name, value in (("RV_CLIENTS", "5"), ("RV_SERVER", "a")):
            said, status = self.told(["work", "3", "--", "true"], **{name: value})
            self.assertEqual((said.count("\n"), status), (1, 2), said)

    def test_an_address(self):
        """That is given wins over the environment's."""
        with Scripted(welcome, item("a"), reply("empty")) as server:
            with Working("127.0.0.1:1", ["echo"], "3", "--wait", "0s", "--connect", f"rv://{server.address}") as works:
                self.assertEqual(works.ends(), ("a\n", "", 3))


class Waits(Case):
    """Loops over items that end where none comes."""

    def test_a_wait_that_gives_none(self):
        """The loop has ended then, and asks no more."""
        for wait, told in ((Wait.NOW, "empty"), (60.0, "timedout")):
            with Scripted(welcome, reply("item", item="a"), reply(told)) as server, session(server) as one:
                loop = worker.Awaited(one, QUEUE, wait)
                self.assertEqual((list(loop), list(loop), loop.stop()), (["a"], [], False))
                self.assertEqual(asked(server)[1:], [("request", 1, "take"), ("request", 2, "take")])


if __name__ == "__main__":
    unittest.main()
