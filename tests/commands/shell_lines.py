"""Runs `rv put QUEUE -` of the built program, which puts each line of standard input: at live hosts, and at servers that are scripted
here."""
from __future__ import annotations

import os
import tempfile
import time
import unittest
from collections.abc import Sequence

from tests.cases import Case
from tests.commands.shelling import (
    BAD_WORDS, DONE, GREATEST, NO_SERVER, NOBODY, REFUSED, UNKNOWN, Answer, AtOnce, Ran, Scripted, Shell, asked_so_far, check_unknown,
    cut, done, ended, keys_and_items, live, refuses, requests, still_waits, torn, welcomes, writes)
from tests.model.account import Key
from tests.names import cases_of
from tests.sockets.hosts import Host, HostProgram, StoreProgram
from tests.sockets.programs import Process, taken_port
from tests.sockets.wire import Members, key_of, members_of, replied, until

# How many lines are put at once.
MANY = 3_000
# The lines of an input in which the host is killed, and how many of them are told before each kill.
OVER_KILLS, KILLS = 100, (5, 30, 70)
# Inputs, and the items that they are.
INPUTS: list[tuple[bytes, list[str]]] = [
    (b"", []),
    (b"\n", [""]),
    (b"a", ["a"]),
    (b"a\n", ["a"]),
    (b"a\n\n", ["a", ""]),
    (b"\n\n a \n\nb", ["", "", " a ", "", "b"]),
    (b"a\r\n-\n--null\n--\n", ["a\r", "-", "--null", "--"]),
    (b"a\0b\t\x01\x7f\n\0\n", ["a\0b\t\x01\x7f", "\0"]),
    ("\ufeffa\n\u2028\u0085\n'\"`$\\".encode(), ["\ufeffa", "\u2028\u0085", "'\"`$\\"]),
    (("x" * 512 + "\n" + "\u00e9" * 256 + "\n" + "\U0001d11e" * 128).encode(), ["x" * 512, "\u00e9" * 256, "\U0001d11e" * 128]),
]
# Lines that are no items.
NO_ITEMS = {
    "a byte too long": b"x" * 513,
    "too long by its last character": ("x" * 511 + "\u00e9").encode(),
    "a hundred thousand bytes": b"x" * 100_000,
    "no byte of UTF-8": b"a\xff",
    "half a character": b"\xc3",
    "half of a pair": b"\xed\xa0\x80",
    "too many bytes of a character": b"\xc0\x80",
    "above all characters": b"\xf4\x90\x80\x80",
}
# What meets the second line at the connection of the first, so that it comes again over another one.
LOST: dict[str, list[Answer]] = {
    "the connection ends": [],
    "the hello is cut": [cut],
    "half a welcome": [torn(welcomes(), 20)],
    "no memory for the hello": [refuses(11)],
    "the request is cut": [welcomes(), cut],
    "half a reply": [welcomes(), torn(DONE, 30)],
    "all but a byte of a reply": [welcomes(), lambda asked: DONE(asked)[:-1]],
    "it waits": [welcomes(), still_waits],
    "another's reply": [welcomes(), lambda asked: DONE({**asked, "number": 2})],
    "no memory for the request": [welcomes(), refuses(11)],
}
# Connections that end at once, more than a command tries within its patience.
GONE: list[list[Answer]] = [[]] * 100
IMPATIENT = "rv://{}?patience=0.5"
# The patience, in seconds, after which a line comes late.
LATE = 3


def not_put(line: int) -> bytes:
    """What is told of a line that is no item."""
    return f"line {line}: no item, which is at most 512 bytes of UTF-8\n".encode()


def puts_first(puts: Process) -> None:
    """Gives the first line, which is told."""
    writes(puts, b"a\n")
    until("it is told, or it ends", lambda: puts.printed == b"done\n" or not puts.runs())


class Lines(Case):
    """Lines at live hosts."""

    def test_inputs(self) -> None:
        """A line ends before an LF or with the input, and is an item as it is."""
        with live(self.program) as (_, shell):
            for given, items in INPUTS:
                name = repr(given[:40])
                self.check_equal(f"{name} is put", shell.ran("put", "3", "-", given=given), done(b"done\n" * len(items)))
                self.check_drained(name, shell, items)

    def check_drained(self, name: str, shell: Shell, items: list[str]) -> None:
        """Checks that these items wait, in this order, and takes them."""
        ran = shell.ran("drain", "3", "--max", "16", "--json")
        self.check_equal(f"{name}: status", (ran.said, ran.status), (b"", 0 if items else NOBODY))
        self.check_equal(f"{name}: items", members_of(ran.printed.removesuffix(b"\n"))["texts"], items)

    def test_many(self) -> None:
        """Thousands of lines come in their order, each in an incarnation of its own, of one client."""
        items = ["" if number % 7 == 0 else f"line {number}" for number in range(MANY)]
        with live(self.program) as (host, shell):
            ran = shell.ran("put", "3", "-", given="\n".join(items).encode())
            keys = asked_so_far(host, MANY)
            came = keys_and_items(host)
        self.check_equal("what is printed", ran, done(b"done\n" * MANY))
        self.check("the items", [item for _, item in came] == items, "they are others, or in another order")
        self.check_equal("clients, numbers", {(key.client, key.number) for key in keys}, {(keys[0].client, 1)})
        incarnations = [key.incarnation for key in keys]
        self.check("growing", incarnations == sorted(set(incarnations)), "they don't grow")

    def test_forms(self) -> None:
        """Each reply is printed in the form that is asked for."""
        with live(self.program) as (host, shell):
            self.check_equal("zeros", shell.ran("put", "3", "-", "--null", given=b"a\n\nb"), done(b"done\0" * 3))
            ran = shell.ran("put", "--json", "--", "3", "-", given=b"c\nd\n")
            keys = asked_so_far(host, 5)[3:]
            self.check_equal("bodies", ran, done(b"".join(replied(key, reply="done") + b"\n" for key in keys)))

    def test_no_items(self) -> None:
        """A line that is none ends it: what came before it is there, and nothing of it or after it."""
        with live(self.program) as (host, shell):
            for name, line in NO_ITEMS.items():
                ran = shell.ran("put", "3", "-", given=b"a\n\n" + line + b"\nb\n")
                self.check_equal(f"{name}: told", ran, Ran(b"done\n" * 2, not_put(3), BAD_WORDS))
                self.check_drained(name, shell, ["a", ""])
            for line in [NO_ITEMS["a byte too long"], NO_ITEMS["half a character"]]:
                self.check_equal("the first", shell.ran("put", "3", "-", given=line + b"\na\n"), Ran(b"", not_put(1), BAD_WORDS))
                self.check_equal("the last", shell.ran("put", "3", "-", given=b"a\n" + line), Ran(b"done\n", not_put(2), BAD_WORDS))
                self.check_drained("before the last", shell, ["a"])
            with shell.began("put", "3", "-") as puts:
                writes(puts, b"a\n\xff\n")
                self.check_equal("before the input ends", ended(puts), Ran(b"done\n", not_put(2), BAD_WORDS))
            asked = [call.call.item for call in requests(host) if call.call.word == "put"]
        self.check_equal("no more was asked", set(asked), {"a", ""})

    def test_as_they_come(self) -> None:
        """From an input that stays open each line is put once it is there, and is told before the next is written."""
        with live(self.program) as (_, shell), shell.began("put", "3", "-") as puts:
            for number, pieces in enumerate([[b"a\n"], [b"\n"], [b"b", b" c\n"]], 1):
                for piece in pieces:
                    writes(puts, piece)
                until(f"line {number} is told, or it ends", lambda: len(puts.printed) >= 5 * number or not puts.runs())
                self.check_equal(f"{number} wait", shell.ran("count", "3"), done(b"%d 0\n" % number))
            writes(puts, b"d", ends=True)
            self.check_equal("all are told", ended(puts), done(b"done\n" * 4))
            self.check_drained("all of them", shell, ["a", "", "b c", "d"])

    def test_an_input_that_fails(self) -> None:
        """An input that can't be read is told, and nothing is put."""
        with tempfile.TemporaryDirectory(prefix="rv-lines-") as folder, live(self.program) as (host, shell):
            given = os.open(folder, os.O_RDONLY)
            try:
                with shell.began("put", "3", "-", stdin=given) as puts:
                    ran = ended(puts)
            finally:
                os.close(given)
            self.check_equal("it is told", (ran.printed, ran.status, ran.said.count(b"\n")), (b"", NO_SERVER, 1))
            self.check_equal("nothing is put", requests(host), [])

    def test_an_output_that_is_full(self) -> None:
        """The first reply that can't be printed ends it."""
        with live(self.program) as (host, shell), open("/dev/full", "wb", buffering=0) as full:
            ran = shell.ran("put", "3", "-", given=b"a\nb\n", stdout=full)
            self.check_equal("it is told", (ran.status, ran.said.count(b"\n")), (NO_SERVER, 1))
            self.check_equal("what is put", [item for _, item in keys_and_items(host)], ["a"])

    def test_no_server(self) -> None:
        """Where nobody listens that is told, also before the input has ended."""
        with taken_port() as port, Shell(self.program, f"127.0.0.1:{port}").began("put", "3", "-") as puts:
            ran = ended(puts)
        self.check_equal("it is told", (ran.printed, ran.status, ran.said.count(b"\n")), (b"", NO_SERVER, 1))

    def test_a_host_that_starts_again(self) -> None:
        """Between two lines a host may start again: at a store both are put in one epoch, and without one each in its own."""
        with Host(StoreProgram(self.program), None) as host:
            host.told_start()
            with Shell(self.program, f"127.0.0.1:{host.port}").began("put", "3", "-") as puts:
                puts_first(puts)
                host.start_again()
                writes(puts, b"b\nc", ends=True)
                self.check_equal("all are told", ended(puts), done(b"done\n" * 3))
            self.check_equal("each came once", [item for _, item in keys_and_items(host)], ["a", "b", "c"])
            host.ended()
        with Host(HostProgram(self.program)) as before:
            with Shell(self.program, f"127.0.0.1:{before.port}").began("put", "3", "-") as puts:
                puts_first(puts)
                before.kill()
                with Host(HostProgram(self.program), 2, port=before.port) as after:
                    writes(puts, b"b", ends=True)
                    self.check_equal("both are told", ended(puts), done(b"done\n" * 2))
                    self.check_equal("in the next epoch", [item for _, item in keys_and_items(after)], ["b"])

    def test_a_host_that_is_killed(self) -> None:
        """At a store a host may be killed whenever it is: each line is put once, in order, and told once."""
        items = [f"line {number}" for number in range(OVER_KILLS)]
        with Host(StoreProgram(self.program), None) as host:
            host.told_start()
            with Shell(self.program, f"127.0.0.1:{host.port}").began("put", "3", "-") as puts:
                writes(puts, "\n".join(items).encode(), ends=True)
                for count in KILLS:
                    until(f"{count} are told, or it ends", lambda: len(puts.printed) >= 5 * count or not puts.runs())
                    host.start_again()
                self.check_equal("all are told", ended(puts), done(b"done\n" * OVER_KILLS))
            self.check_equal("each came once", [item for _, item in keys_and_items(host)], items)
            host.ended()

    def test_a_host_that_ends(self) -> None:
        """A host that ends between two lines is tried again for the patience, and then it is told that there is none."""
        with Host(HostProgram(self.program)) as host:
            with Shell(self.program, f"rv://127.0.0.1:{host.port}?patience=0.5").began("put", "3", "-") as puts:
                puts_first(puts)
                host.kill()
                writes(puts, b"b\nc\n", ends=True)
                ran = ended(puts)
            self.check_equal("it is told", (ran.printed, ran.status, ran.said.count(b"\n")), (b"done\n", NO_SERVER, 1))


class ByScript(Case):
    """Lines at servers that are scripted."""

    def at_a_script(self, script: Sequence[Sequence[Answer]], given: bytes, form: str = "{}") -> tuple[Ran, list[list[Members]]]:
        """What comes of these lines at a script, and what was heard, by connections."""
        with Scripted(*script) as server:
            ran = Shell(self.program, form.format(server.address)).ran("put", "3", "-", given=given)
        return ran, server.heard

    def test_one_connection(self) -> None:
        """One connection is kept for all lines: for each a hello in a greater incarnation, and its put."""
        ran, (heard,) = self.at_a_script([[welcomes(7), DONE] * 4], b"a\n\nb\na")
        self.check_equal("all are told", ran, done(b"done\n" * 4))
        hellos, asked = heard[::2], heard[1::2]
        self.check_equal("hellos", [members["kind"] for members in hellos], ["hello"] * 4)
        client, incarnations = hellos[0]["client"], [members["incarnation"] for members in hellos]
        self.check_equal("growing", incarnations, sorted(set(incarnations)))
        wanted = [{"kind": "request", "epoch": 7, "client": client, "incarnation": incarnation, "number": 1, "call": "put", "queue": 3,
                   "item": item} for incarnation, item in zip(incarnations, ["a", "", "b", "a"])]
        self.check_equal("puts", asked, wanted)

    def test_lost(self) -> None:
        """After whatever settles nothing the same put comes again over another connection, and only then the next line."""
        for name, answers in LOST.items():
            script = [[welcomes(), DONE, *answers], [welcomes(), DONE] * 2]
            ran, heard = self.at_a_script(script, b"a\nb\nc\n")
            self.check_equal(f"{name}: what came of it", ran, done(b"done\n" * 3))
            self.check_equal(f"{name}: frames", [len(each) for each in heard], [2 + len(answers), 4])
            self.check_equal(f"{name}: the same comes again", heard[-1][: len(answers)], heard[0][2:])
            self.check_equal(f"{name}: in order", [heard[0][1]["item"], *(each["item"] for each in heard[-1][1::2])], ["a", "b", "c"])

    def test_lost_often(self) -> None:
        """The same at several connections, and at each line."""
        script: list[list[Answer]] = [
            [cut], [welcomes(), cut], [torn(welcomes(), 1)], [welcomes(), DONE, welcomes(), cut], [welcomes(), torn(DONE, 9)],
            [welcomes(), DONE, cut], [], [welcomes(), DONE]]
        ran, heard = self.at_a_script(script, b"a\nb\nc")
        self.check_equal("what came of it", ran, done(b"done\n" * 3))
        self.check_equal("frames", [len(each) for each in heard], [len(each) for each in script])
        asked = [members for each in heard for members in each if members["kind"] == "request"]
        self.check_equal("in order", [members["item"] for members in asked], ["a", "a", "b", "b", "b", "c"])
        self.check_equal("a key each", len({key_of(members) for members in asked}), 3)

    def test_not_known(self) -> None:
        """Once a line's put was cut it may have been met: what then is refused, or comes in another epoch, ends it, and tells nothing
        of that line. None after it is asked."""
        for name, answers in UNKNOWN.items():
            again = [*answers, *[DONE] * (4 - len(answers))]
            ran, heard = self.at_a_script([[welcomes(), DONE, welcomes(), cut], again], b"a\nb\nc\n")
            check_unknown(self, name, ran, key_of(heard[0][3]), b"done\n")
            self.check_equal(f"{name}: frames", [len(each) for each in heard], [4, len(answers)])

    def test_refused(self) -> None:
        """A refusal of a line that wasn't asked before ends it too."""
        ran, heard = self.at_a_script([[welcomes(), DONE, refuses(9)]], b"a\nb\nc\n")
        self.check_equal("refused: printed, status", (ran.printed, ran.status), (b"done\n", REFUSED))
        self.check("refused: said", ran.said.startswith(b"refused 9: ") and ran.said.count(b"\n") == 1, ran.said)
        self.check_equal("refused: frames", [len(each) for each in heard], [3])

    def test_an_old_incarnation(self) -> None:
        """The next incarnation after the one that the server has is taken, also by a later line, and those after it go on from there."""
        current = GREATEST - 9
        ran, (first, second) = self.at_a_script([[welcomes(), DONE, refuses(4, current=current)], [welcomes(), DONE] * 2], b"a\nb\nc\n")
        self.check_equal("all are told", ran, done(b"done\n" * 3))
        client = first[0]["client"]
        wanted = [(Key(1, client, current + 1, 1), "b"), (Key(1, client, current + 2, 1), "c")]
        self.check_equal("what was asked", [(key_of(asked), asked["item"]) for asked in second[1::2]], wanted)

    def test_gone(self) -> None:
        """A server that is gone for longer than the patience: a put that it got isn't known, one that it didn't get came to nothing."""
        ran, heard = self.at_a_script([[welcomes(), DONE, welcomes(), cut], *GONE], b"a\nb\nc\n", IMPATIENT)
        check_unknown(self, "it got it", ran, key_of(heard[0][3]), b"done\n")
        ran, heard = self.at_a_script([[welcomes(), DONE, cut], *GONE], b"a\nb\nc\n", IMPATIENT)
        self.check_equal("it didn't", (ran.printed, ran.status, ran.said.count(b"\n")), (b"done\n", NO_SERVER, 1))

    def test_a_line_that_comes_late(self) -> None:
        """The patience is for a server that is lost, and not for the input: a line that comes later than that is put over another
        connection too."""
        with Scripted([welcomes(), DONE], [welcomes(), DONE]) as server:
            with Shell(self.program, f"rv://{server.address}?patience={LATE}").began("put", "3", "-") as puts:
                puts_first(puts)
                time.sleep(LATE + 0.2)
                writes(puts, b"b\n", ends=True)
                self.check_equal("both are told", ended(puts), done(b"done\n" * 2))
        self.check_equal("what was put", [asked["item"] for _, asked in server.heard], ["a", "b"])

    def test_another_epoch(self) -> None:
        """A line that wasn't asked before is asked in whatever epoch comes."""
        ran, heard = self.at_a_script([[welcomes(1), DONE, cut], [welcomes(2), DONE]], b"a\nb")
        self.check_equal("both are told", ran, done(b"done\n" * 2))
        client = heard[0][0]["client"]
        keys = [Key(1, client, heard[0][0]["incarnation"], 1), Key(2, client, heard[0][2]["incarnation"], 1)]
        self.check_equal("keys", [key_of(heard[0][1]), key_of(heard[1][1])], keys)


def load_tests(_: unittest.TestLoader, suite: unittest.TestSuite, __: str | None) -> unittest.TestSuite:
    """The cases, side by side."""
    return AtOnce(cases_of(suite))
