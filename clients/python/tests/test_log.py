"""What is logged of a session, line by line, and what never is."""
import contextlib
import logging
import pathlib
import subprocess
import sys
import unittest
from unittest import mock

from context import Case, nobody, rv
from scripted import HANG_UP, Scripted, refused, reply, waiting, welcome
from test_addresses import text_of
from test_restarts import ANEW, both
from test_words import Log

SOURCE = pathlib.Path(__file__).resolve().parents[1] / "src"
# A program that logs nothing by itself, and reaches nobody.
PROGRAM = """
import sys
from rendezvous import NotAsked, Session
try:
    Session(sys.argv[1], 1, 1, connect_timeout=0.2).take(3)
except NotAsked:
    print("told")
"""


class Raises(Log):
    """A handler that raises."""

    def emit(self, record):
        super().emit(record)
        raise RuntimeError("a handler's own")


@contextlib.contextmanager
def logging_of(kind, *deeds, log=Log, before=()):
    """A server of these deeds, a session that has it behind other servers, and the lines that are logged; pauses are none."""
    with Scripted(*deeds) as server, mock.patch("rendezvous.course.random.uniform", return_value=0.0):
        with log(least=logging.INFO) as logged, contextlib.closing(kind(text_of(*before, server.address))) as played:
            yield server, played, logged


class Lines(Case):
    """The lines of what comes to pass, in both sessions."""

    @both
    def test_a_link_that_breaks(self, kind):
        """Not reached, connected, lost, tried again and refused, each of its server; no item is there."""
        deeds = (welcome, HANG_UP, refused(10), reply("item", item="secret"))
        with nobody() as away, logging_of(kind, *deeds, before=[away]) as (server, played, log):
            self.assertEqual(played.ask(lambda one: one.take(3)), "secret")
            server.otherwise = reply("done")
            played.ask(lambda one: one.put(3, "a secret"))
        here, there = server.address, text_of(away)
        self.assertEqual(log.lines, [
            ("WARNING", f"{there}: connection refused"), ("INFO", f"{here}: connected"),
            ("INFO", f"{here}: lost: the connection ended"),
            ("WARNING", f"{there}: connection refused"), ("INFO", f"{here}: tried again in 0 ms"), ("INFO", f"{here}: connected"),
            ("INFO", f"{here}: refused 10, epoch full"), ("INFO", f"{here}: tried again in 0 ms")])

    @both
    def test_an_end_while_it_is_idle(self, kind):
        """It is logged, and so is the next connection."""
        with Scripted(reply("done")) as other, logging_of(kind, welcome) as (server, played, log):
            played.ask(lambda one: one.connect())
            server.__exit__()
            played.goes_to(other.address)
            played.ask(lambda one: one.put(3, "a"))
        self.assertEqual([level for level, _ in log.lines], ["INFO"] * 3)
        lines = [line.partition(": ")[2] for _, line in log.lines]
        self.assertEqual(lines, ["connected", "lost: closed meanwhile", "connected"])

    @both
    def test_an_epoch_that_ended(self, kind):
        """Its request's outcome is not known where it waited, and is where nobody can have met it."""
        for deeds in ([], [waiting]):
            with logging_of(kind, welcome, *deeds, ANEW) as (server, played, log):
                with self.raises(rv.EpochEnded if deeds else rv.NotAsked):
                    played.ask(lambda one: one.take(3))
                key = f"1/{played.one.client}/{played.one.incarnation}/1"
            doubt = [("WARNING", f"{server.address}: request {key}: outcome not known")]
            self.assertEqual(log.lines[1:], [
                ("INFO", f"{server.address}: refused 2, other epoch"),
                ("WARNING", f"{server.address}: the epoch ended, the server is of epoch 5"), *doubt[:len(deeds)]])

    @both
    def test_a_handler_that_raises(self, kind):
        """It ends no call, whatever it is told."""
        deeds = (welcome, HANG_UP, refused(10), reply("item", item="a"), waiting, ANEW)
        with logging_of(kind, *deeds, log=Raises) as (_, played, log):
            self.assertEqual(played.ask(lambda one: one.take(3)), "a")
            with self.raises(rv.EpochEnded):
                played.ask(lambda one: one.take(3))
        self.assertIn("outcome not known", log.lines[-1][1])

    def test_silence(self):
        """A program that sets nothing up sees no line."""
        with nobody() as away:
            words = [sys.executable, "-B", "-c", PROGRAM, text_of(away)]
            ran = subprocess.run(words, capture_output=True, text=True, env={"PYTHONPATH": str(SOURCE)})
        self.assertEqual((ran.stdout, ran.stderr), ("told\n", ""))


if __name__ == "__main__":
    unittest.main()
