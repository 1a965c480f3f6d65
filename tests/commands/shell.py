"""Runs `rv put`, `take`, `transfer`, `drain`, `count`, `peek` and `swap` of the built program, as a shell does, on 127.0.0.1: what
they print, say and end with, at live hosts and at servers that are scripted here.

Client numbers are leased of the whole machine, so that no case counts on one; cases run side by side.
"""
from __future__ import annotations

import os
import pathlib
import select
import shlex
import signal
import socket
import subprocess
import tempfile
import time
import unittest
from collections import Counter
from collections.abc import Sequence

from tests import left_out
from tests.cases import Case
from tests.commands import shell_crowd
from tests.commands.leasing import is_free, leased, place_of
from tests.commands.shelling import (
    BAD_WORDS, CANCELLED, DONE, GREATEST, ITEM, LAPSED, NAMELESS, NO_SERVER, NOBODY, NOT_KNOWN, REFUSED, TIMED_OUT, TOOK_PLACE,
    UNKNOWN, Answer, AtOnce, Ran, Scripted, Shell, account_of, asked_so_far, check_unknown, cut, done, ended, live, refuses, replies,
    requests, sends, still_waits, torn, welcomes)
from tests.model.account import Key, Request, reply
from tests.names import cases_of
from tests.sockets.hosts import Host, HostProgram, StoreProgram
from tests.sockets.programs import Process, is_socket, paths_in, taken_port
from tests.sockets.wire import PATIENCE, Members, Peer, cancel, frame, key_of, refused, replied, together, until, welcome

COMMANDS = ["put", "take", "transfer", "drain", "count", "peek", "swap", "bench"]
# The least client numbers, which a case takes; the tries until no other program of this machine is in the way.
LEAST, TRIES = 8, 20
# The server where none is named.
LOCAL_PORT = 7_411
# The loops of workers, and their items.
LOOPS, FILES = 3, 30
# Commands at one host, one after another: the words, what is printed, and the status.
IN_TURN: list[tuple[list[str], bytes, int]] = [
    (["peek", "3"], b"", NOBODY),
    (["count", "3"], b"0 0\n", TOOK_PLACE),
    (["drain", "3", "--max", "2"], b"", NOBODY),
    (["take", "3", "--wait", "0s"], b"", NOBODY),
    (["transfer", "3", "a", "--wait", "0s"], b"", NOBODY),
    (["take", "3", "--wait", "100ms"], b"", TIMED_OUT),
    (["transfer", "3", "a", "--wait", "100ms"], b"", TIMED_OUT),
    (["swap", "3", "a", "--wait", "100ms"], b"", TIMED_OUT),
    (["swap", "3", "a", "--wait", "0s"], b"", TIMED_OUT),
    (["put", "3", "a"], b"done\n", TOOK_PLACE),
    (["put", "03", "b"], b"done\n", TOOK_PLACE),
    (["put", "3", "c d", "--null"], b"done\0", TOOK_PLACE),
    (["put", "0", "e"], b"done\n", TOOK_PLACE),
    (["put", "63", "f"], b"done\n", TOOK_PLACE),
    (["count", "3"], b"3 0\n", TOOK_PLACE),
    (["count", "--null", "3"], b"3 0\0", TOOK_PLACE),
    (["peek", "3"], b"a\n", TOOK_PLACE),
    (["peek", "3", "--null"], b"a\0", TOOK_PLACE),
    (["take", "3"], b"a\n", TOOK_PLACE),
    (["drain", "3", "--max", "16"], b"b\nc d\n", TOOK_PLACE),
    (["take", "--wait", "24h", "0", "--null"], b"e\0", TOOK_PLACE),
    (["put", "63", "g"], b"done\n", TOOK_PLACE),
    (["put", "63", "h"], b"done\n", TOOK_PLACE),
    (["drain", "--max", "02", "63", "--null"], b"f\0g\0", TOOK_PLACE),
    (["drain", "63", "--max", "1"], b"h\n", TOOK_PLACE),
    (["count", "63"], b"0 0\n", TOOK_PLACE),
]
# Items, some of 512 bytes, and one of 513.
ITEMS = ["", " ", "a b ", "'\"`$\\", "a\n\nb\n", "\t\x01\x1f\x7f", "\u00e9" * 256, "\U0001d11e" * 128, "x" * 512, "done", "\u2028",
         "3", "rv"]
# These stand after two dashes.
DASHED = ["-x", "--json", "--", "-1"]
# Commands of which one dash is the item.
ONE_DASH: list[tuple[list[str], Members]] = [
    (["transfer", "3", "-", "--wait", "0s"], {"reply": "nobody"}), (["swap", "3", "-", "--wait", "0s"], {"reply": "timedout"})]
TOO_LONG = "\u00e9" * 256 + "x"
WAITS = ["", "5", "s", "5x", "5S", "5 s", " 5s", "+5s", "1.5s", "1e3s", "5sm", "25h", "86400001ms", "00000000000000000001s",
         "18446744073709551617s", "\u0665s", "5s\n", "now", "forever"]
TIME = "a number and ms, s, m or h, at most a day"
# Words of which it is told what is wrong, and the line that tells it.
TOLD: list[tuple[list[str], str]] = [
    *(([command, place, *more], f"QUEUE {place}: 0 to 63") for place in ["64", "77"] for command, *more in
      [["put", "a"], ["put", "-"], ["take"], ["transfer", "a"], ["drain", "--max", "1"], ["count"], ["peek"], ["bench"]]),
    *((["swap", place, "a"], f"EXCHANGER {place}: 0 to 63") for place in ["64", "77", "", "x", "+3"]),
    *((["count", place], f"QUEUE {place}: 0 to 63") for place in ["", "x", "+3", "3.0", "0x3", " 3", "18446744073709551616"]),
    *(([command, "3", TOO_LONG], f"ITEM {TOO_LONG}: at most 512 bytes") for command in ["put", "transfer", "swap"]),
    *((["take", "3", "--wait", wait], f"--wait {wait}: {TIME}") for wait in WAITS),
    *(([command, "3", "a", "--wait", "5x"], f"--wait 5x: {TIME}") for command in ["transfer", "swap"]),
    *((["drain", "3", "--max", most], f"--max {most}: 1 to 16") for most in ["0", "17", "", "x", "1.0"]),
    (["take", "3", "--null", "--json"], "--null and --json: not both"),
    (["put", "3", "a", "--json", "--null"], "--null and --json: not both"),
]
# A word that is one byte, which is no UTF-8.
NOT_UTF_8 = os.fsdecode(b"\xff")
# Words that are none of the command's.
WRONG: list[list[str]] = [
    ["put"], ["take"], ["transfer"], ["drain"], ["count"], ["peek"], ["swap"], ["bench"],
    ["put", "3"], ["transfer", "3"], ["swap", "3"], ["put", "3", "a", "b"], ["take", "3", "a"],
    ["count", "3", "4"], ["peek", "3", "4"], ["drain", "3"], ["drain", "3", "--max"], ["drain", "3", "--max", "1", "--max", "1"],
    ["put", "3", "a", "--wait", "1s"], ["count", "3", "--wait", "1s"], ["peek", "3", "--wait", "1s"], ["take", "3", "--wait"],
    ["take", "3", "--max", "1"], ["drain", "3", "--max", "1", "--wait", "1s"], ["take", "3", "--nul"], ["take", "3", "--null=1"],
    ["take", "3", "-x"], ["put", "3", "-x"], ["take", "--", "-1", "--null"], ["take", "3", "--client", "1"], ["put", "3", NOT_UTF_8],
    ["put", "3", "-", "a"], ["put", "3", "-", "--wait", "1s"], ["bench", "3", "4"], ["bench", "3", "--json"], ["bench", "3", "--null"],
    ["bench", "3", "--max", "1"], ["bench", "3", "--wait", "1s"],
]
# Addresses that are none, and their first fault; the address of a server that listens stands for the braces.
ADDRESSES_REFUSED = {
    "rv://{}?patience=x": "option patience", "{}?client=3": "port of server 1", "{}?": "port of server 1",
    "rv://{}?": "option 1 is empty", "rv://{}/": "port of server 1", "{}/": "port of server 1", "rv://": "host of server 1",
    ",{}": "host of server 1", "{},": "host of server 2", "127.0.0.1:1,{}?record=x": "port of server 2",
    "{0},{0}/": "port of server 2", "rv://{0},,{0}": "host of server 2", "rv://{}?client=1&x=1": "option x is unknown",
    "rv://{}?version=2&version=2": "option version twice",
}


def last_take(host: Host) -> Key:
    """The key of the last take that came."""
    return [asked.key for asked in requests(host) if asked.call.word == "take"][-1]


class Met(Case):
    """Commands at live hosts."""

    def test_in_turn(self) -> None:
        """Each command, one after another: what it prints in each form but JSON, and its status."""
        with live(self.program) as (_, shell):
            for words, printed, status in IN_TURN:
                self.check_equal(" ".join(words), shell.ran(*words), done(printed, status))

    def test_json(self) -> None:
        """The body of each reply, also of one that tells that nothing took place."""
        steps: list[tuple[list[str], Members, int]] = [
            (["put", "3", "a\n\"\u00e9"], {"reply": "done"}, TOOK_PLACE),
            (["count", "3"], {"reply": "counted", "items": 1, "consumers": 0}, TOOK_PLACE),
            (["peek", "3"], {"reply": "peeked", "item": "a\n\"\u00e9"}, TOOK_PLACE),
            (["take", "3"], {"reply": "item", "item": "a\n\"\u00e9"}, TOOK_PLACE),
            (["peek", "3"], {"reply": "empty"}, NOBODY),
            (["take", "3", "--wait", "0s"], {"reply": "empty"}, NOBODY),
            (["drain", "3", "--max", "3"], {"reply": "drained", "texts": []}, NOBODY),
            (["transfer", "3", "a", "--wait", "0s"], {"reply": "nobody"}, NOBODY),
            (["swap", "3", "a", "--wait", "10ms"], {"reply": "timedout"}, TIMED_OUT),
            (["take", "3", "--wait", "10ms"], {"reply": "timedout"}, TIMED_OUT),
        ]
        with live(self.program) as (host, shell):
            for number, (words, told, status) in enumerate(steps, 1):
                ran = shell.ran(*words, "--json")
                key = asked_so_far(host, number)[-1]
                self.check_equal(" ".join(words), ran, done(replied(key, **told) + b"\n", status))

    def test_odd_items(self) -> None:
        """Items are handed over byte for byte, and printed alone."""
        with live(self.program) as (_, shell):
            for item in [*ITEMS, *DASHED]:
                words = ["--", "3", item] if item in DASHED else ["3", item]
                self.check_equal(f"{item!r} is put", shell.ran("put", *words), done(b"done\n"))
                self.check_equal(f"{item!r} is there", shell.ran("peek", "3"), done(item.encode() + b"\n"))
                self.check_equal(f"{item!r} is taken", shell.ran("take", "3", "--null"), done(item.encode() + b"\0"))

    def test_a_transfer(self) -> None:
        """A transfer waits for a take, or a take for it: it prints the client, incarnation and number that took its item."""
        with live(self.program) as (host, shell), shell.began("transfer", "3", "a b") as giver:
            asked_so_far(host, 1)
            self.check_equal("the item", shell.ran("take", "3"), done(b"a b\n"))
            came, taker = ended(giver), last_take(host)
            self.check_equal("who took it", came, done(b"received %d %d 1\n" % (taker.client, taker.incarnation)))
            with shell.began("take", "3", "--json") as waits:
                asked_so_far(host, 3)
                self.check_equal("one waits", shell.ran("count", "3"), done(b"0 1\n"))
                given, came, taker = shell.ran("transfer", "3", "c", "--null", "--wait", "0s"), ended(waits), last_take(host)
                self.check_equal("who waited for it", given, done(b"received %d %d 1\0" % (taker.client, taker.incarnation)))
                self.check_equal("what came", came, done(replied(taker, reply="item", item="c") + b"\n"))

    def test_a_swap(self) -> None:
        """Two swaps print each the other's item."""
        with live(self.program) as (host, shell), shell.began("swap", "3", "a\n") as first:
            asked_so_far(host, 1)
            self.check_equal("the second", shell.ran("swap", "3", "b", "--null", "--wait", "1h"), done(b"a\n\0"))
            self.check_equal("the first", ended(first), done(b"b\n"))

    def test_who_asks(self) -> None:
        """Each request is of number 1, in an incarnation of the clock's microseconds and version 2."""
        with live(self.program) as (host, shell):
            before = time.time_ns() // 1_000
            shell.ran("put", "3", "a")
            after = time.time_ns() // 1_000
            said, asked = (entry.act for entry in account_of(host).entries)
            self.check_equal("a hello and a request", (said.version, asked.key), (2, Key(1, said.client, said.incarnation, 1)))
            self.check("by the clock", before <= said.incarnation <= after, f"{said} isn't between {before} and {after}")
            self.check("in the range", 1 <= said.client <= 1_024, said)

    def test_cancelled(self) -> None:
        """A take that another process of its client cancels."""
        with live(self.program) as (host, shell), shell.began("take", "3") as waits:
            key, = asked_so_far(host, 1)
            with host.connect() as peer:
                peer.expect(cancel(key), replied(key, reply="cancelled"))
            self.check_equal("it is told", ended(waits), done(b"", CANCELLED))

    def test_an_output_that_is_full(self) -> None:
        """A reply that can't be printed is told by the status, and by one line."""
        with live(self.program) as (_, shell), open("/dev/full", "wb", buffering=0) as full:
            shell.ran("put", "3", "a")
            ran = shell.ran("take", "3", stdout=full)
            self.check_equal("it is told", (ran.status, ran.said.count(b"\n")), (NO_SERVER, 1))

    def test_a_host_that_starts_again(self) -> None:
        """At a store a take waits on over its host's next start, and gets one item. Without one that start has another epoch, in
        which nothing is asked anew."""
        with Host(StoreProgram(self.program), None) as host:
            host.told_start()
            shell = Shell(self.program, f"127.0.0.1:{host.port}")
            with shell.began("take", "3") as waits:
                asked_so_far(host, 1)
                host.start_again()
                self.check_equal("the put", shell.ran("put", "3", "a"), done(b"done\n"))
                self.check_equal("the take", ended(waits), done(b"a\n"))
            self.check_equal("each came once", [asked.call.word for asked in requests(host)], ["take", "put"])
            host.ended()
        with Host(HostProgram(self.program)) as before:
            with Shell(self.program, f"127.0.0.1:{before.port}").began("take", "3") as waits:
                key, = asked_so_far(before, 1)
                before.kill()
                with Host(HostProgram(self.program), 2, port=before.port) as after:
                    check_unknown(self, "in another epoch", ended(waits), key)
                    self.check_equal("nothing is asked", requests(after), [])


def pauses(process: Process) -> bool:
    """Whether a command that has its client number sleeps."""
    folder = f"/proc/{process.process.pid}"
    try:
        state = pathlib.Path(folder, "stat").read_text().rpartition(")")[2].split()[0]
    except OSError:
        return False
    return state == "S" and any(map(is_socket, paths_in(f"{folder}/fd")))


def is_readable(listener: socket.socket) -> bool:
    """Whether a connection has come."""
    return bool(select.select([listener], [], [], 0)[0])


class Words(Case):
    """Words, and servers that are named."""

    def test_bad_words(self) -> None:
        """Words that are none of it: a status, and what is wrong, on standard error alone; nothing is sent."""
        with Scripted() as server:
            shell = Shell(self.program, server.address)
            for told, said in TOLD:
                self.check_equal(f"{told}", shell.ran(*told), Ran(b"", f"{said}\n".encode(), BAD_WORDS))
            for command, *words in WRONG:
                ran = shell.ran(command, *words)
                self.check_equal(f"{[command, *words]}", (ran.printed, ran.status, ran.said != b""), (b"", BAD_WORDS, True))
            twice = shell.ran("take", "3", "--connect", server.address)
            self.check_equal("two servers", (twice.printed, twice.status), (b"", BAD_WORDS))
        self.check_equal("nothing was sent", server.heard, [])

    def test_help(self) -> None:
        """Help is printed, and is no fault; it tells by which name a queue or an exchanger is given."""
        for command in COMMANDS:
            ran = Shell(self.program).ran(command, "--help")
            self.check_equal(f"{command} --help", (ran.said, ran.status), (b"", TOOK_PLACE))
            self.check(f"{command} --help tells", f"{command} ".encode() in ran.printed and b"--connect" in ran.printed, ran.printed)
            places = [place for place in (b"<QUEUE>", b"<EXCHANGER>") if place in ran.printed]
            self.check_equal(f"{command} --help's place", places, [b"<EXCHANGER>" if command == "swap" else b"<QUEUE>"])

    def test_servers(self) -> None:
        """The server is the one of the words, else the environment's, of several the first that listens."""
        with live(self.program) as (host, shell), taken_port() as port:
            up, down = str(shell.address), f"127.0.0.1:{port}"
            for address in [up, f"rv://{up}", f"{down},{up}", f"rv://{down},{up}", f"{down},{down},{up},{down}"]:
                named, nameless = Shell(self.program, address), Shell(self.program, RV_SERVER=address)
                self.check_equal(f"{address} is named", named.ran("put", "3", "a"), done(b"done\n"))
                self.check_equal(f"{address} is the environment's", nameless.ran("take", "3"), done(b"a\n"))
            both = Shell(self.program, up, RV_SERVER=down)
            self.check_equal("that of the words", both.ran("put", "3", "a"), done(b"done\n"))
            last = Shell(self.program, RV_SERVER=down)
            self.check_equal("the last word", last.ran("put", "3", "a", f"--connect={up}"), done(b"done\n"))
            self.check_equal("all came", len(requests(host)), 12)

    def test_no_server(self) -> None:
        """Where nobody listens that is told."""
        with taken_port() as port:
            down = f"127.0.0.1:{port}"
            shells = [Shell(self.program, down), Shell(self.program, f"{down},{down}"), Shell(self.program, RV_SERVER=f"rv://{down}")]
            for ran in together(*(lambda shell=shell: shell.ran("take", "3") for shell in shells)):
                self.check_equal("nobody", (ran.printed, ran.status, ran.said.count(b"\n")), (b"", NO_SERVER, 1))

    def test_a_server_that_starts(self) -> None:
        """One that doesn't listen yet is tried again for a second: of several tries one at least is so fast."""
        self.check("it is found", any(self.is_found() for _ in range(TRIES)))

    def is_found(self) -> bool:
        """Whether a server is found that begins to listen once a command has looked for it in vain."""
        with socket.socket() as server:
            server.bind(("127.0.0.1", 0))
            with Shell(self.program, "127.0.0.1:%d" % server.getsockname()[1]).began("count", "3") as counts:
                until("it pauses, or ends", lambda: pauses(counts) or not counts.runs())
                server.listen()
                until("it comes, or ends", lambda: is_readable(server) or not counts.runs())
                if not is_readable(server):
                    return False
                with Peer(server.accept()[0]) as peer:
                    peer.hear()
                    peer.send(frame(refused(9)))
                return ended(counts).status == REFUSED

    def test_addresses_refused(self) -> None:
        """Addresses that are none are bad words, also where a server before the fault listens; nothing is sent."""
        with Scripted() as server:
            for form, fault in ADDRESSES_REFUSED.items():
                address = form.format(server.address)
                for shell in [Shell(self.program, address), Shell(self.program, RV_SERVER=address)]:
                    name = f"{form} {'in the environment' if shell.address is None else 'named'}"
                    told = Ran(b"", f"address {address}: {fault}\n".encode(), BAD_WORDS)
                    self.check_equal(name, shell.ran("take", "3"), told)
        self.check_equal("nothing was sent", server.heard, [])

    def test_the_local_server(self) -> None:
        """Without a name, or an empty one in the environment, it is the one at the port of this machine, where that is free for
        this case."""
        try:
            local = socket.create_server(("127.0.0.1", LOCAL_PORT))
        except OSError as error:
            raise unittest.SkipTest(left_out.reason("the local server", str(error))) from None
        local.settimeout(PATIENCE)
        with local:
            for name, shell in [("nameless", Shell(self.program)), ("an empty name", Shell(self.program, RV_SERVER=""))]:
                with shell.began("put", "3", "a") as giver:
                    with Peer(local.accept()[0]) as peer:
                        hello = peer.hear() or b""
                        peer.send(frame(refused(9)))
                    self.check(f"{name}: a hello comes", b'"kind":"hello"' in hello, hello)
                    self.check_equal(f"{name}: it is refused", ended(giver).status, REFUSED)


def foreign(hello: Members) -> bytes:
    """The welcome of another client."""
    return frame(welcome(hello["client"] + 1, 1, hello["incarnation"], 2))


def of_another(asked: Members) -> bytes:
    """The reply of another number."""
    return ITEM({**asked, "number": 2})


# What meets a take at its first connection, so that it comes again.
BROKEN: dict[str, list[Answer]] = {
    "the hello is cut": [cut],
    "half a welcome": [torn(welcomes(), 20)],
    "a length of a welcome": [torn(welcomes(), 1)],
    "another's welcome": [foreign],
    "the request is cut": [welcomes(), cut],
    "half a reply": [welcomes(), torn(ITEM, 30)],
    "one byte of a reply": [welcomes(), torn(ITEM, 1)],
    "all but a byte of a reply": [welcomes(), lambda asked: ITEM(asked)[:-1]],
    "a bad length": [welcomes(), sends(b"\0\0")],
    "no answer's text": [welcomes(), sends(frame(b"{}"))],
    "it waits": [welcomes(), still_waits],
    "another's reply": [welcomes(), of_another],
}
# What meets it at its one connection, the status, and how the line on standard error begins.
AT_ONCE: dict[str, tuple[list[Answer], int, bytes]] = {
    "clients full": ([refuses(9)], REFUSED, b"refused 9: "),
    "another version": ([refuses(12, current=1)], REFUSED, b"refused 12: "),
    "an epoch that is full": ([welcomes(), refuses(10)], REFUSED, b"refused 10: "),
    "cancelled": ([welcomes(), replies(reply="cancelled")], CANCELLED, b""),
    "empty": ([welcomes(), replies(reply="empty")], NOBODY, b""),
    "timed out": ([welcomes(), LAPSED], TIMED_OUT, b""),
}


class ByScript(Case):
    """Commands at servers that are scripted."""

    def at_a_script(self, script: Sequence[Sequence[Answer]], *words: str) -> tuple[Ran, list[list[Members]]]:
        """What comes of a command at a script, and what was heard, by connections."""
        with Scripted(*script) as server:
            command, *more = words
            ran = Shell(self.program, server.address).ran(command, *more)
        return ran, server.heard

    def test_at_once(self) -> None:
        """Refusals and replies that end a command over its one connection."""
        for name, (answers, status, said) in AT_ONCE.items():
            ran, heard = self.at_a_script([answers], "take", "3", "--wait", "5s")
            self.check_equal(f"{name}: printed, status", (ran.printed, ran.status), (b"", status))
            self.check_equal(f"{name}: lines", ran.said.count(b"\n"), int(said != b""))
            self.check(f"{name}: said", ran.said.startswith(said), ran.said)
            self.check_equal(f"{name}: frames", [len(each) for each in heard], [len(answers)])

    def test_one_dash(self) -> None:
        """One dash is a put's standard input alone: to a transfer or swap it is an item."""
        for words, reply in ONE_DASH:
            ran, heard = self.at_a_script([[welcomes(), replies(**reply)]], *words)
            self.check_equal(f"{words}: printed, said", (ran.printed, ran.said), (b"", b""))
            self.check_equal(f"{words}: items", [each[1]["item"] for each in heard], ["-"])

    def test_broken(self) -> None:
        """After whatever settles nothing the same hello and request come over another connection, and the reply counts once."""
        for name, answers in BROKEN.items():
            ran, heard = self.at_a_script([answers, [welcomes(), ITEM]], "take", "3", "--wait", "5s")
            self.check_equal(f"{name}: what came of it", ran, done(b"a\n"))
            self.check_equal(f"{name}: frames", [len(each) for each in heard], [len(answers), 2])
            self.check_equal(f"{name}: the same comes again", heard[0], heard[-1][: len(answers)])

    def test_no_memory(self) -> None:
        """A request for which the server had no memory may have been taken in: it comes again too, and so does a hello."""
        for name, refused_first in (("the request", [welcomes(), refuses(11)]), ("the hello", [refuses(11)])):
            ran, heard = self.at_a_script([refused_first, [welcomes(), ITEM]], "take", "3", "--wait", "5s")
            self.check_equal(f"{name}: what came of it", ran, done(b"a\n"))
            self.check_equal(f"{name}: the same comes again", heard[1][: len(heard[0])], heard[0])

    def test_broken_often(self) -> None:
        """The same after several, of which some were cut before the request."""
        script: list[list[Answer]] = [
            [welcomes(7), cut], [cut], [welcomes(7), torn(DONE, 3)], [torn(welcomes(7), 2)], [welcomes(7), DONE]]
        ran, heard = self.at_a_script(script, "put", "3", "a", "--json")
        self.check_equal("frames", [len(each) for each in heard], [2, 1, 2, 1, 2])
        self.check_equal("the same each time", [each for each in heard if each != heard[0][: len(each)]], [])
        self.check_equal("what came of it", ran, done(replied(key_of(heard[0][1]), reply="done") + b"\n"))

    def test_not_known(self) -> None:
        """Once its request was cut it may have been met: what then is refused, or comes in another epoch, tells nothing of it."""
        for name, answers in UNKNOWN.items():
            again = [*answers, *[DONE] * (2 - len(answers))]
            ran, heard = self.at_a_script([[welcomes(), cut], again], "put", "3", "a")
            check_unknown(self, name, ran, key_of(heard[0][1]))
            self.check_equal(f"{name}: frames", [len(each) for each in heard], [2, len(answers)])

    def test_ended_at_once(self) -> None:
        """A request that is answered by the end of its epoch or incarnation didn't take place, or isn't known; it isn't asked again."""
        for name, refusal in [("an epoch that ended", refuses(2, current=2)), ("replaced", refuses(4, current=GREATEST))]:
            ran, heard = self.at_a_script([[welcomes(), refusal]], "put", "3", "a")
            self.check_equal(f"{name}: printed, lines", (ran.printed, ran.said.count(b"\n")), (b"", 1))
            self.check(f"{name}: status", ran.status in (NOT_KNOWN, REFUSED), ran)
            self.check_equal(f"{name}: frames", [len(each) for each in heard], [2])

    def test_a_lesser_epoch(self) -> None:
        """An older server at the address isn't asked either."""
        ran, heard = self.at_a_script([[welcomes(2), cut], [welcomes(1), DONE]], "put", "3", "a")
        check_unknown(self, "a lesser epoch", ran, key_of(heard[0][1]))
        self.check_equal("frames", [len(each) for each in heard], [2, 1])

    def test_how_to_ask_again(self) -> None:
        """The words of `rv call` that a line of an unknown outcome has ask the same again, in the same version."""
        for form in ["{}", "rv://{}?version=1", "rv://{}?version=2"]:
            with Scripted([welcomes(), cut], [refuses(9)], [welcomes(), DONE]) as server:
                said = Shell(self.program, form.format(server.address)).ran("put", "3", "a").said.decode()
                words = shlex.split(said[said.index("rv call ") :])
                asked = [server.address if word == "ADDR" else word for word in words[1:]]
                ran = subprocess.run([self.program, *asked], env=NAMELESS, capture_output=True,
                                     input=b'{"call":"put","item":"a","queue":3}\n', timeout=PATIENCE)
            self.check_equal(f"{form}: what was asked", server.heard[2:], server.heard[:1])
            self.check_equal(f"{form}: it is told", ran.stdout, replied(key_of(server.heard[0][1]), reply="done") + b"\n")

    def test_an_old_incarnation(self) -> None:
        """The next incarnation after the one that the server has is taken, if there is one."""
        ran, heard = self.at_a_script([[refuses(4, current=GREATEST - 2)], [welcomes(), ITEM]], "take", "3")
        self.check_equal("it is taken", ran, done(b"a\n"))
        (first,), (second, asked) = heard
        self.check_equal("the next hello", second, {**first, "incarnation": GREATEST - 1})
        self.check_equal("the request", key_of(asked), Key(1, first["client"], GREATEST - 1, 1))
        ran, heard = self.at_a_script([[refuses(4, current=GREATEST)]], "take", "3")
        self.check_equal("after the greatest", (ran.printed, ran.status, ran.said.count(b"\n")), (b"", NO_SERVER, 1))
        self.check_equal("nothing more is said", [each for each in heard[1:] if each], [])

    def test_long_waits(self) -> None:
        """A wait goes in pieces of ten seconds at most, each a request of its own."""
        waits: list[tuple[list[str], list[int]]] = [
            (["--wait", "25s"], [10_000, 10_000, 5_000]), (["--wait", "10s"], [10_000]), (["--wait", "10001ms"], [10_000, 1]),
            (["--wait", "1ms"], [1]), (["--wait", "1m"], [10_000] * 6)]
        for command in ["take", "transfer", "swap"]:
            own = ["3"] if command == "take" else ["3", "a"]
            for words, pieces in waits:
                ran, heard = self.at_a_script([[welcomes(), LAPSED]] * len(pieces), command, *own, *words)
                self.check_equal(f"{command} {words}", ran, done(b"", TIMED_OUT))
                self.check_pieces(f"{command} {words}", heard, pieces)

    def test_endless_waits(self) -> None:
        """Without a wait it goes on in such pieces until it is met."""
        received = replies(reply="received", by_client=7, by_incarnation=8, by_number=9)
        met: list[tuple[list[str], Answer, bytes]] = [
            (["take", "3"], ITEM, b"a\n"), (["transfer", "3", "a"], received, b"received 7 8 9\n"),
            (["swap", "3", "a"], replies(reply="swapped", item="b"), b"b\n"), (["take", "3", "--wait", "24h"], ITEM, b"a\n")]
        for words, answer, printed in met:
            ran, heard = self.at_a_script([*[[welcomes(), LAPSED]] * 12, [welcomes(), answer]], *words)
            self.check_equal(" ".join(words), ran, done(printed))
            self.check_pieces(" ".join(words), heard, [10_000] * 13)

    def check_pieces(self, name: str, heard: list[list[Members]], pieces: list[int]) -> None:
        """Checks the waits of what was heard, and that each piece is number 1 in a greater incarnation of one client."""
        kinds = [[members["kind"] for members in each] for each in heard]
        self.check_equal(f"{name}: a connection each", kinds, [["hello", "request"]] * len(pieces))
        self.check_equal(f"{name}: pieces", [each[1]["wait"] for each in heard], pieces)
        incarnations = [each[0]["incarnation"] for each in heard]
        self.check_equal(f"{name}: growing", incarnations, sorted(set(incarnations)))
        keys = [Key(1, heard[0][0]["client"], incarnation, 1) for incarnation in incarnations]
        self.check_equal(f"{name}: keys", [key_of(each[1]) for each in heard], keys)

    def test_pieces_that_break(self) -> None:
        """A piece that is cut comes again as it was; a new epoch between two pieces is asked as any other."""
        script: list[list[Answer]] = [[welcomes(), LAPSED], [welcomes(), cut], [welcomes(), LAPSED], [welcomes(2), ITEM]]
        ran, heard = self.at_a_script(script, "take", "3", "--wait", "25s")
        self.check_equal("it is taken", ran, done(b"a\n"))
        self.check_equal("waits", [each[1]["wait"] for each in heard], [10_000, 10_000, 10_000, 5_000])
        self.check_equal("the same again", heard[1], heard[2])
        self.check_equal("epochs", [each[1]["epoch"] for each in heard], [1, 1, 1, 2])
        ran, heard = self.at_a_script([*script[:2], [welcomes(2), ITEM]], "take", "3", "--wait", "25s")
        check_unknown(self, "a new epoch within a piece", ran, key_of(heard[1][1]))


class Leases(Case):
    """Client numbers, of which other programs of this machine may have some meanwhile."""

    def test_places(self) -> None:
        """The places of leases, as the page of the formats shows them."""
        shown = [(1_000, 1, "127.64.3.232", 61_001), (0, 4_095, "127.64.0.0", 65_095), (0, 4_096, "127.119.121.177", 61_000),
                 (1_000, GREATEST, "127.72.138.55", 65_095)]
        for user, number, *place in shown:
            self.check_equal(f"{user}, {number}", list(place_of(number, user)), place)

    def test_two_at_a_time(self) -> None:
        """Two takes that wait have two client numbers, whose leases nobody else gets until they end."""
        with live(self.program) as (host, shell), shell.began("take", "3") as first:
            one, = asked_so_far(host, 1)
            with shell.began("take", "3") as second:
                other = asked_so_far(host, 2)[1]
                self.check("two numbers", one.client != other.client, one)
                self.check_equal("both are leased", [is_free(one.client), is_free(other.client)], [False, False])
                for item in ["a", "b"]:
                    shell.ran("put", "3", item)
                self.check_equal("what they print", [ended(first), ended(second)], [done(b"a\n"), done(b"b\n")])

    def test_taken_numbers(self) -> None:
        """No number is used whose place somebody has, and the least of the others is."""
        holders = {number: holder for number in range(1, LEAST + 1) if (holder := leased(number))}
        found: list[tuple[int, int]] = []
        try:
            while len(found) < TRIES and not any(least == number for least, number in found):
                found.append(self.least_and_used())
        finally:
            for holder in holders.values():
                holder.close()
        used = {number for _, number in found}
        self.check_equal("none that is held", used.intersection(holders), set())
        self.check("the least that is free", found[-1][0] == found[-1][1], found)

    def least_and_used(self) -> tuple[int, int]:
        """The least number that is free, and the one that a command then uses."""
        least = next(number for number in range(1, 1_025) if is_free(number))
        with Scripted([refuses(9)]) as server:
            Shell(self.program, server.address).ran("count", "3")
        number: int = server.heard[0][0]["client"]
        return least, number


# A worker of a shell: it writes down each item once it is done.
LOOP = 'while item=$("$0" take 3 --wait 2s); do echo "$item" >> "$1"; done'


class Loops(Case):
    """Loops of a shell."""

    def test_workers(self) -> None:
        """Loops share a queue of files, and one is killed: the account tells each item as handed over once, each is done once, and at
        most one isn't, which the killed one had."""
        with live(self.program) as (host, shell), tempfile.TemporaryDirectory(prefix="rv-loops-") as folder:
            for number in range(FILES):
                shell.ran("put", "3", f"file {number}.txt")
            files = [pathlib.Path(folder, f"done {number}") for number in range(LOOPS)]
            for file in files:
                file.touch()
            loops = [self.loop(shell, file) for file in files]
            try:
                until("the first has done one, or ends", lambda: files[0].stat().st_size or not loops[0].runs())
                self.end(loops[0])
                self.check_equal("the others end", [(loop.status(), loop.said) for loop in loops[1:]], [(0, b"")] * (LOOPS - 1))
            finally:
                for loop in loops:
                    self.end(loop)
            self.judge(host, [file.read_text().splitlines() for file in files])

    def loop(self, shell: Shell, file: pathlib.Path) -> Process:
        """A loop, in a group of its own."""
        environment = {**NAMELESS, "RV_SERVER": str(shell.address)}
        return Process(["sh", "-c", LOOP, self.program, str(file)], env=environment, start_new_session=True)

    def end(self, loop: Process) -> None:
        """Ends a loop that still runs, with its command."""
        if loop.runs():
            os.killpg(loop.process.pid, signal.SIGKILL)
        loop.kill()

    def judge(self, host: Host, files: list[list[str]]) -> None:
        """Checks what was done, beside the account."""
        entries = account_of(host).entries
        told = [reply(entries, entry.act.key) for entry in entries if isinstance(entry.act, Request)]
        handed = [each["item"] for each in told if each and each["reply"] == "item"]
        items = [f"file {number}.txt" for number in range(FILES)]
        self.check_equal("each is handed over once", sorted(handed), sorted(items))
        written = [item for file in files for item in file]
        self.check_equal("each is done once", len(written), len(set(written)))
        missing = set(items) - set(written)
        self.check("all but one at most", len(missing) <= 1, missing)


class Crowds(Case):
    """Random commands, side by side."""

    is_random = True

    def test_side_by_side(self) -> None:
        """Random scripts at one host: by their account, what they printed and ended with is what was told, and their records have
        all of it."""
        hosts = self.fixture.many(2)
        for number in range(hosts):
            with tempfile.TemporaryDirectory(prefix="rv-records-") as folder, Host(HostProgram(self.program)) as host:
                ran = shell_crowd.commands_ran(Shell(self.program, f"127.0.0.1:{host.port}"), f"{self.seed} {number}", folder)
                account = host.ended()
                recorded = shell_crowd.keys_recorded(folder)
                found = list(shell_crowd.faults_of_records(self.program, str(host.file), folder))
            name = f"seed {self.seed}, host {number}"
            self.check_equal(f"{name}: what came of them", shell_crowd.told_by(ran), shell_crowd.told_by_account(account))
            self.check_faults((f"{name}: {fault}", fault) for fault in shell_crowd.faults_of_bodies(ran, account))
            self.check_equal(f"{name}: handed over twice", shell_crowd.handed_twice(ran), [])
            self.check_faults((f"{name}: {record}", fault) for record, fault in found)
            self.check_equal(f"{name}: a line each", recorded, Counter(asked.key for asked, _ in shell_crowd.replies_of(account)))
        self.told = f"{hosts * shell_crowd.SCRIPTS} scripts"


def load_tests(_: unittest.TestLoader, suite: unittest.TestSuite, __: str | None) -> unittest.TestSuite:
    """The cases, side by side, but for those of client numbers, which come after the others."""
    cases = list(cases_of(suite))
    last = [case for case in cases if isinstance(case, Leases)]
    return unittest.TestSuite([AtOnce(case for case in cases if case not in last), unittest.TestSuite(last)])
