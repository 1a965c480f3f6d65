"""Runs the shell's commands of the built program in sessions that their address and environment name: options, client numbers and
records; beside them what a terminal is told, and `rv bench`."""
from __future__ import annotations

import contextlib
import email.utils
import json
import os
import pathlib
import pty
import re
import select
import socket
import subprocess
import tempfile
import threading
import time
import unittest
import urllib.parse
from collections import Counter
from collections.abc import Sequence

from tests import ROOT
from tests.cases import Case
from tests.commands.leasing import held, is_free, leased
from tests.commands.shelling import (
    BAD_WORDS, DONE, ITEM, LAPSED, NO_SERVER, NOBODY, NOT_KNOWN, REFUSED, TIMED_OUT, TOOK_PLACE, Answer, AtOnce, Ran,
    Scripted, Shell, asked_so_far, cut, done, ended, live, refuses, replies, requests, welcomes)
from tests.names import cases_of
from tests.sockets.hosts import Host, HostProgram
from tests.sockets.programs import taken_port
from tests.sockets.wire import PATIENCE, Members, give, key_of, members_of, record_line, swap, take, together, until

ADDRESSES = ROOT / "clients/addresses.jsonl"
# The numbers that are leased where nothing is said: anybody may have one for long.
USUAL = range(1, 1_025)
# What a word of the environment isn't, which is to name client numbers.
NO_RANGES = ["", "1", "1-", "-5", "a-b", "0-5", "5-4", "1 - 5", "1-5 ", "1-2-3", "1-9007199254740992", "1-99999999999999999999", "1\u20135"]
# A word that is one byte, which is no UTF-8.
NOT_UTF_8 = os.fsdecode(b"\xff")
# Connections that end at once.
GONE: list[list[Answer]] = [[]] * 100
COUNTED = replies(reply="counted", items=0, consumers=0)
RECEIVED = replies(reply="received", by_client=7, by_incarnation=8, by_number=9)
# The lines of each of the commands that share a record.
SHARED = 50
# How often a number that was given up is used: at the first time, what lists this process's files can still have its lease.
TRIES = 5
# How many items a bench puts at once, with as many connections for those who take them.
AT_ONCE = 16
# What `rv bench` prints.
TABLE = re.compile(rb"a second +1 at a time +16 at once\nputs +(\d+) +(\d+)\ntakes +(\d+) +(\d+)\nhand-overs +(\d+) +(\d+)\n")
WAITING = re.compile(rb"waiting since (\w{3}, \d\d \w{3} \d{4} \d\d:\d\d:\d\d GMT)\r\n")
# Commands at a terminal: words, answers of their requests, one after another, and for how long each of them waits.
AT_TERMINALS: list[tuple[list[str], list[Answer], list[object]]] = [
    (["take", "3", "--wait", "25s"], [LAPSED] * 4, [1_000, 10_000, 10_000, 4_000]),
    (["take", "3"], [LAPSED, LAPSED, ITEM], [1_000, 10_000, 10_000]),
    (["transfer", "3", "a", "--wait", "1001ms"], [LAPSED, LAPSED], [1_000, 1]),
    (["swap", "3", "a"], [LAPSED, LAPSED, LAPSED, replies(reply="swapped", item="b")], [1_000, 10_000, 10_000, 10_000]),
    # not told
    (["take", "3", "--wait", "1s"], [LAPSED], [1_000]),
    (["take", "3", "--wait", "5ms"], [LAPSED], [5]),
    (["take", "3", "--wait", "0s"], [replies(reply="empty")], ["now"]),
    (["take", "3", "--wait", "1m"], [ITEM], [1_000]),
    (["transfer", "3", "a"], [RECEIVED], [1_000]),
]


def told_once(case: Case, name: str, ran: Ran, status: int, printed: bytes = b"") -> None:
    """Checks that a command ended so, and said one line."""
    case.check_equal(f"{name}: printed, status, lines", (ran.printed, ran.status, ran.said.count(b"\n")), (printed, status, 1))


class Addresses(Case):
    """Addresses, and their options."""

    def test_table(self) -> None:
        """Each case of the table: a fault is told by its text; without one the address is taken, and then its client number, or the
        environment's, is found to be leased: nothing is asked, and no record is made."""
        cases = [json.loads(line) for line in ADDRESSES.read_text(encoding="utf-8").splitlines()]
        for case in cases:
            if "fault" in case:
                self.check_told(case["address"], case["fault"])
            else:
                self.check_taken(case["address"], case["options"].get("client"))
        self.check("both come", {"fault" in case for case in cases} == {True, False}, cases)

    def check_told(self, address: str, fault: str) -> None:
        """Checks that the fault of an address is told, and so in the environment, unless it is empty there."""
        told = Ran(b"", f"address {address}: {fault}\n".encode(), BAD_WORDS)
        self.check_equal(f"{address!r}", Shell(self.program, address).ran("count", "3"), told)
        if address:
            self.check_equal(f"{address!r} in the environment", Shell(self.program, RV_SERVER=address).ran("count", "3"), told)

    def check_taken(self, address: str, client: int | None) -> None:
        """Checks that an address is taken, with this client number or none."""
        with held() as own, contextlib.ExitStack() as leases:
            number = client or min(own)
            if client in USUAL:
                # who has it otherwise may let it go: then nobody listens there
                if holder := leased(number):
                    leases.enter_context(holder)
            elif client:
                until(f"{client} is leased here", lambda: (holder := leased(number)) and leases.enter_context(holder))
            ran = Shell(self.program, address, RV_CLIENTS=f"{min(own)}-{min(own)}").ran("count", "3")
            told_once(self, f"{address!r}", ran, NO_SERVER)
            if number not in USUAL:
                self.check(f"{address!r}: its number is told", re.search(rf"\b{number}\b", ran.said.decode()), ran.said)

    def test_servers(self) -> None:
        """With options too the first server that listens is asked."""
        with live(self.program) as (_, shell), taken_port() as port:
            up, down = str(shell.address), f"127.0.0.1:{port}"
            for address in [f"rv://{up}?patience=5", f"rv://{down},{up}?version=2&patience=0.5", f"rv://{down},{down},{up},{down}?version=1"]:
                self.check_equal(address, Shell(self.program, address).ran("count", "3"), done(b"0 0\n"))

    def test_patience(self) -> None:
        """A server that is lost is tried again for the patience, and no longer."""
        script: list[list[Answer]] = [[welcomes(), cut], *GONE[:5], [welcomes(), DONE]]
        for patience in ["forever", "86400", "999999999.999999999"]:
            with Scripted(*script) as server:
                ran = Shell(self.program, f"rv://{server.address}?patience={patience}").ran("put", "3", "a")
            self.check_equal(f"{patience}: it is found", ran, done(b"done\n"))
        for patience in ["0.000000001", "0.5", "%30.1"]:
            with Scripted([welcomes(), cut], *GONE) as server:
                ran = Shell(self.program, f"rv://{server.address}?patience={patience}").ran("put", "3", "a")
            told_once(self, f"{patience}: it is gone", ran, NOT_KNOWN)

    def test_version(self) -> None:
        """In version 1 a hello names none, and a receipt no consumer."""
        forms: list[tuple[str, Members]] = [
            ("{}", {"version": 2}), ("rv://{}?version=2", {"version": 2}), ("rv://{}?version=1", {})]
        for form, version in forms:
            with Scripted([welcomes(), DONE]) as server:
                ran = Shell(self.program, form.format(server.address)).ran("put", "3", "a")
            hello = server.heard[0][0]
            self.check_equal(f"{form}: it is done", ran, done(b"done\n"))
            names = {name: hello[name] for name in hello if name not in ("client", "incarnation")}
            self.check_equal(f"{form}: its hello", names, {"kind": "hello", **version})
        with live(self.program) as (host, shell):
            first = Shell(self.program, f"rv://{shell.address}?version=1")
            for words, printed, status in [
                    (["put", "3", "a"], b"done\n", TOOK_PLACE), (["count", "3"], b"1 0\n", TOOK_PLACE),
                    (["peek", "3"], b"a\n", TOOK_PLACE), (["take", "3"], b"a\n", TOOK_PLACE),
                    (["drain", "3", "--max", "2"], b"", NOBODY), (["swap", "3", "a", "--wait", "1ms"], b"", TIMED_OUT)]:
                self.check_equal(f"version 1: {' '.join(words)}", first.ran(*words), done(printed, status))
            self.check_equal("version 1: lines", first.ran("put", "3", "-", given=b"a\nb"), done(b"done\n" * 2))
            self.check_equal("version 1: both", first.ran("drain", "3", "--max", "2"), done(b"a\nb\n"))
            for taker, giver, wanted in [(shell, first, b"received\n"), (first, shell, None)]:
                with taker.began("take", "3") as takes:
                    until("it waits", lambda: shell.ran("count", "3").printed == b"0 1\n")
                    given, came = giver.ran("transfer", "3", "c"), ended(takes)
                key = [asked.key for asked in requests(host) if asked.call.word == "take"][-1]
                receipt = wanted or b"received %d %d 1\n" % (key.client, key.incarnation)
                self.check_equal("handed over", (given, came), (done(receipt), done(b"c\n")))


class Numbers(Case):
    """Client numbers that are named."""

    def test_range(self) -> None:
        """The least free number of the environment's is leased, and used; where none is free that is told, and nothing is asked."""
        with live(self.program) as (host, shell), held(3) as holders:
            first, second, third = holders
            named = Shell(self.program, shell.address, RV_CLIENTS=f"{first}-{third}")
            holders[second].close()
            holders[third].close()
            with named.began("take", "3") as one:
                asked_so_far(host, 1)
                with named.began("take", "3") as other:
                    keys = asked_so_far(host, 2)
                    self.check_equal("the least that are free", [key.client for key in keys], [second, third])
                    self.check_equal("both are leased", [is_free(second), is_free(third)], [False, False])
                    ran = named.ran("put", "3", "a")
                    told_once(self, "none is free", ran, NO_SERVER)
                    told = [re.search(rf"\b{number}\b", ran.said.decode()) is not None for number in (first, third)]
                    self.check_equal("the range is told", told, [True, True])
                    self.check_equal("nothing is asked", len(requests(host)), 2)
                    shell.ran("put", "3", "-", given=b"a\nb")
                    self.check_equal("what comes", [ended(one), ended(other)], [done(b"a\n"), done(b"b\n")])
            holders[first].close()
            used = list[int]()
            for number in range(TRIES):
                self.check_equal(f"all are free, {number}", named.ran("put", "3", "c"), done(b"done\n"))
                used.append(requests(host)[-1].key.client)
            self.check("the least", used.count(first) >= TRIES - 1, used)

    def test_no_ranges(self) -> None:
        """A word that names no range is told; nothing is asked, nor is it where the greatest number alone is leased."""
        with Scripted() as server:
            for text in NO_RANGES:
                for words in [["take", "3"], ["put", "3", "-"]] if text else [["bench", "3"]]:
                    ran = Shell(self.program, server.address, RV_CLIENTS=text).ran(*words)
                    told = f"RV_CLIENTS {text}: FIRST-LAST, as 1-512\n".encode()
                    self.check_equal(f"{text!r}, {words[0]}", ran, Ran(b"", told, BAD_WORDS))
            told_once(self, "no UTF-8", Shell(self.program, server.address, RV_CLIENTS=NOT_UTF_8).ran("take", "3"), BAD_WORDS)
        self.check_equal("nothing was sent", server.heard, [])

    def test_client(self) -> None:
        """The number of an address is leased while its command runs, whatever the environment's are; where it is taken that is told,
        and nothing is asked."""
        with live(self.program) as (host, shell), held(2) as holders:
            client, other = holders
            holders[client].close()
            named = Shell(self.program, f"rv://{shell.address}?client={client}", RV_CLIENTS=f"{other}-{other}")
            with named.began("take", "3") as takes:
                key, = asked_so_far(host, 1)
                self.check_equal("it is used, and leased", (key.client, is_free(client)), (client, False))
                ran = named.ran("put", "3", "a")
                told_once(self, "it is taken", ran, NO_SERVER)
                self.check("its number is told", re.search(rf"\b{client}\b", ran.said.decode()), ran.said)
                self.check_equal("nothing is asked", len(requests(host)), 1)
                shell.ran("put", "3", "a")
                self.check_equal("what comes", ended(takes), done(b"a\n"))
            self.check("it is free again", is_free(client))


def lines_of(record: pathlib.Path) -> list[Members]:
    """The requests that a record has, in its order; each line must be whole."""
    *lines, rest = record.read_bytes().split(b"\n")
    return [json.loads(line)["asked"] for line in [*lines, *([rest] if rest else [])]]


class Records(Case):
    """Records of what commands are told."""

    def test_verified(self) -> None:
        """A record that the environment or the address names has a line for each reply of several commands, by which the account
        keeps each. The address's wins, and an empty name in the environment is none."""
        commands = [
            (["put", "3", "a\n\"\u00e9"], b""), (["count", "3"], b""), (["peek", "3", "--json"], b""), (["take", "3", "--null"], b""),
            (["take", "3", "--wait", "0s"], b""), (["take", "3", "--wait", "1ms"], b""), (["drain", "3", "--max", "3"], b""),
            (["transfer", "3", "b", "--wait", "0s"], b""), (["swap", "3", "b", "--wait", "1ms"], b""), (["peek", "3"], b""),
            (["put", "3", "-"], b"c\n\nd"), (["drain", "3", "--max", "2"], b""), (["drain", "3", "--max", "2"], b"")]
        for name in ["RV_RECORD", "record="]:
            with tempfile.TemporaryDirectory(prefix="rv \u00e4&% ") as folder, Host(HostProgram(self.program)) as host:
                record, other = pathlib.Path(folder, "told.jsonl"), pathlib.Path(folder, "other")
                address = f"127.0.0.1:{host.port}"
                named = f"rv://{address}?record={urllib.parse.quote(str(record))}"
                by_environment = Shell(self.program, address, RV_RECORD=str(record))
                shell = by_environment if name == "RV_RECORD" else Shell(self.program, named, RV_RECORD=str(other))
                for (command, *words), given in commands:
                    shell.ran(command, *words, given=given)
                Shell(self.program, address, RV_RECORD="").ran("count", "3")
                asked = [key_of(members) for members in lines_of(record)]
                self.check_equal(f"{name}: a line each", asked, [call.key for call in requests(host)][:-1])
                self.check_equal(f"{name}: of lines too", len(asked), len(commands) + 2)
                self.check_equal(f"{name}: no other", other.exists(), False)
                self.check_kept(name, host, record, len(asked))

    def check_kept(self, name: str, host: Host, record: pathlib.Path, count: int) -> None:
        """Checks, by the program's own word, that the account of a host, which ends, keeps so many lines of a record, and that there
        is no other."""
        host.ended()
        ran = subprocess.run([self.program, "verify", str(host.file), "--replies", str(record)], capture_output=True, timeout=PATIENCE)
        self.check_equal(f"{name}: verified", (ran.returncode, ran.stderr), (0, b""))
        kept = [b"legal", *(b"%d kept" % number for number in range(1, count + 1)), b"kept %d" % count]
        self.check_equal(f"{name}: each is kept", ran.stdout.splitlines()[: len(kept)], kept)

    def test_shared(self) -> None:
        """Commands that run at once, in both versions, may share a record: each line in it is whole, and kept."""
        with tempfile.TemporaryDirectory(prefix="rv-record-") as folder, Host(HostProgram(self.program)) as host:
            record = pathlib.Path(folder, "told.jsonl")
            address = f"rv://127.0.0.1:{host.port}?record={urllib.parse.quote(str(record))}&version="
            first, second = Shell(self.program, f"{address}1"), Shell(self.program, f"{address}2")
            for number, (taker, giver) in enumerate([(first, second), (second, first), (first, first), (second, second)]):
                with taker.began("take", "3") as takes:
                    asked_so_far(host, 2 * number + 1)
                    ran = giver.ran("transfer", "3", "a")
                    self.check_equal(f"hand-over {number}", (ran.status, ended(takes)), (TOOK_PLACE, done(b"a\n")))
            given = [f"{number}\n".encode() * SHARED for number in range(4)]
            for ran in together(*(lambda shell=shell, lines=lines: shell.ran("put", "4", "-", given=lines)
                                  for shell, lines in zip([first, second] * 2, given))):
                self.check_equal("lines at once", ran, done(b"done\n" * SHARED))
            self.check_equal("a line each", Counter(key_of(members) for members in lines_of(record)),
                             Counter(call.key for call in requests(host)))
            self.check_kept("shared", host, record, 8 + 4 * SHARED)

    def recorded(self, script: Sequence[Sequence[Answer]], *words: str, given: bytes = b"") -> tuple[Ran, list[list[Members]], bytes]:
        """What comes of a command at a script, what was heard, by connections, and the record."""
        with tempfile.TemporaryDirectory(prefix="rv-record-") as folder, Scripted(*script) as server:
            record = pathlib.Path(folder, "told.jsonl")
            command, *more = words
            ran = Shell(self.program, server.address, RV_RECORD=str(record)).ran(command, *more, given=given)
            server.close()
            return ran, server.heard, record.read_bytes()

    def test_pieces(self) -> None:
        """Each piece of a wait that ended is recorded, and then what comes."""
        script: list[list[Answer]] = [[welcomes(), LAPSED], [welcomes(), LAPSED], [welcomes(), LAPSED]]
        ran, heard, record = self.recorded(script, "take", "3", "--wait", "25s")
        self.check_equal("it lapses", ran, done(b"", TIMED_OUT))
        keys = [key_of(asked) for _, asked in heard]
        self.check_equal("its record", record, b"".join(
            record_line(key, take(wait), {"reply": "timedout"}) for key, wait in zip(keys, [10_000, 10_000, 5_000])))
        ran, heard, record = self.recorded([*script, [welcomes(), replies(reply="swapped", item="b\n")]], "swap", "5", "a\n")
        self.check_equal("it comes", ran, done(b"b\n\n"))
        told: list[Members] = [*[{"reply": "timedout"}] * 3, {"reply": "swapped", "item": "b\n"}]
        self.check_equal("its record", record, b"".join(
            record_line(key_of(asked), swap("a\n", 10_000), reply) for (_, asked), reply in zip(heard, told)))

    def test_lines(self) -> None:
        """Lines that are put have a line each, once each is settled."""
        script: list[list[Answer]] = [[welcomes(), DONE, welcomes(), cut], [welcomes(), DONE, welcomes(), refuses(10)]]
        ran, heard, record = self.recorded(script, "put", "3", "-", given=b"a\n\nb\n")
        told_once(self, "the third is refused", ran, REFUSED, b"done\n" * 2)
        keys = [key_of(heard[0][1]), key_of(heard[1][1])]
        self.check_equal("its record", record, b"".join(
            record_line(key, give("put", item), {"reply": "done"}) for key, item in zip(keys, ["a", ""])))

    def test_nothing_told(self) -> None:
        """What is refused or not known has no line."""
        for name, script, status in [("refused", [[welcomes(), refuses(10)]], REFUSED),
                                     ("not known", [[welcomes(), cut], [welcomes(2)]], NOT_KNOWN)]:
            ran, _, record = self.recorded(script, "put", "3", "a")
            told_once(self, name, ran, status)
            self.check_equal(f"{name}: the record", record, b"")

    def test_before_it_is_printed(self) -> None:
        """A reply stands in the record before it is printed: where nobody reads what is printed it stands there alone."""
        with tempfile.TemporaryDirectory(prefix="rv-record-") as folder, Scripted([welcomes(), ITEM]) as server:
            record = pathlib.Path(folder, "told.jsonl")
            end, printed = os.pipe()
            with os.fdopen(end, "rb") as reads, os.fdopen(printed, "wb", buffering=0) as full:
                os.set_blocking(printed, False)
                filled = 0
                for size in (4_096, 1):
                    while full.write(b"x" * size):
                        filled += size
                os.set_blocking(printed, True)
                shell = Shell(self.program, server.address, RV_RECORD=str(record))
                with shell.began("take", "3", stdout=printed) as takes:
                    full.close()
                    until("it is recorded, or ends", lambda: (record.exists() and record.read_bytes()) or not takes.runs())
                    key = key_of(server.heard[0][1])
                    self.check_equal("the record", record.read_bytes(), record_line(key, take(10_000), {"reply": "item", "item": "a"}))
                    self.check("it can't end", takes.runs(), takes.said)
                    self.check_equal("what is printed then", reads.read()[filled:], b"a\n")
                    self.check_equal("it ends", ended(takes), done(b""))

    def test_no_record(self) -> None:
        """A record that can't be opened is told, and nothing is asked; of one that can't be written the reply is printed, and no
        further line is put."""
        with tempfile.TemporaryDirectory(prefix="rv-record-") as folder:
            with Scripted() as server:
                for path in [f"{folder}/none/told.jsonl", folder]:
                    named = f"rv://{server.address}?record={urllib.parse.quote(path)}"
                    for shell in [Shell(self.program, named), Shell(self.program, server.address, RV_RECORD=path)]:
                        for words in [["put", "3", "a"], ["put", "3", "-"], ["take", "3"]]:
                            ran = shell.ran(*words, given=b"a\n")
                            told_once(self, f"{words} {path == folder}", ran, NO_SERVER)
                            self.check(f"{words}: why", ran.said.startswith(f"record {path}: ".encode()), ran.said)
            self.check_equal("nothing was sent", server.heard, [])
        with Scripted([welcomes(), DONE], [welcomes(), DONE]) as server:
            for words in [["put", "3", "a"], ["put", "3", "-"]]:
                ran = Shell(self.program, server.address, RV_RECORD="/dev/full").ran(*words, given=b"a\nb\n")
                told_once(self, f"{words}: full", ran, NO_SERVER, b"done\n")
                self.check(f"{words}: why", ran.said.startswith(b"record /dev/full: "), ran.said)
        self.check_equal("what was put", [[each["kind"] for each in heard] for heard in server.heard], [["hello", "request"]] * 2)


class Terminals(Case):
    """What is told where standard error is a terminal."""

    def at_a_terminal(self, answers: list[Answer], words: list[str]) -> tuple[Ran, list[list[Members]], list[bool]]:
        """What comes of a command at a terminal whose requests get these answers, over a connection each, and what it says there; what
        was heard; and at each request whether something was said before."""
        seen: list[bool] = []
        here, there = pty.openpty()
        with os.fdopen(here, "rb", buffering=0) as terminal:

            def looks(answer: Answer) -> Answer:
                def meet(asked: Members) -> bytes:
                    # what was said may still be on its way
                    seen.append(bool(select.select([terminal], [], [], PATIENCE if seen else 0)[0]))
                    return answer(asked)
                return meet

            with Scripted(*([welcomes(), looks(answer)] for answer in answers)) as server:
                try:
                    process = Shell(self.program, server.address).began(*words, stderr=there)
                finally:
                    os.close(there)
                with process:
                    ran = ended(process)
                said = b""
                # its end is a fault, once nobody has the other end
                with contextlib.suppress(OSError):
                    while piece := terminal.read(4_096):
                        said += piece
        return ran._replace(said=said), server.heard, seen

    def test_waits(self) -> None:
        """A call that waits is asked first for a second; if it waits on then, it is told once since when, before it is asked on."""
        for words, answers, pieces in AT_TERMINALS:
            name = " ".join(words)
            before = int(time.time())
            ran, heard, seen = self.at_a_terminal(answers, words)
            after = int(time.time())
            self.check_equal(f"{name}: pieces", [asked["wait"] for _, asked in heard], pieces)
            self.check_equal(f"{name}: told behind the first", seen, [False, *[True] * (len(pieces) - 1)])
            if len(pieces) == 1:
                self.check_equal(f"{name}: nothing is said", ran.said, b"")
            else:
                self.check_date(name, ran.said, before, after)
            self.check_equal(f"{name}: status", ran.status, {
                "timedout": TIMED_OUT, "empty": NOBODY}.get(members_of(answers[-1](heard[-1][1])[2:])["reply"], TOOK_PLACE))

    def check_date(self, name: str, said: bytes, before: int, after: int) -> None:
        """Checks that one line tells a moment between these, in seconds since 1970."""
        found = WAITING.fullmatch(said)
        self.check(f"{name}: one line", found, said)
        if found:
            date = email.utils.parsedate_to_datetime(found[1].decode())
            self.check_equal(f"{name}: its form", email.utils.format_datetime(date, usegmt=True).encode(), found[1])
            self.check(f"{name}: its moment", before <= date.timestamp() <= after, f"{found[1]!r} isn't from {before} to {after}")

    def test_no_terminal(self) -> None:
        """Where standard output alone is one, nothing is told, and each piece is of ten seconds."""
        here, there = pty.openpty()
        with os.fdopen(here, "rb", buffering=0), Scripted([welcomes(), LAPSED], [welcomes(), LAPSED]) as server:
            try:
                process = Shell(self.program, server.address).began("take", "3", "--wait", "11s", stdin=there, stdout=there)
            finally:
                os.close(there)
            with process:
                self.check_equal("nothing is told", ended(process), done(b"", TIMED_OUT))
        self.check_equal("pieces", [asked["wait"] for _, asked in server.heard], [10_000, 1_000])


class Beside(Scripted):
    """The same script, with its connections side by side. They come one after another."""

    def __init__(self, *script: Sequence[Answer]):
        super().__init__(*script)
        self.meetings: list[threading.Thread] = []

    def meet(self, connection: socket.socket) -> None:
        count = len(self.heard)
        meeting = threading.Thread(target=super().meet, args=(connection,), daemon=True)
        self.meetings.append(meeting)
        meeting.start()
        until("its place in the script is taken", lambda: len(self.heard) > count)

    def close(self) -> None:
        super().close()
        for meeting in self.meetings:
            meeting.join(PATIENCE)


class Benches(Case):
    """`rv bench`."""

    def test_a_table(self) -> None:
        """It prints one table, and leaves nothing behind; other queues stay as they are."""
        with Host(HostProgram(self.program), keeps=False) as host:
            shell = Shell(self.program, f"rv://127.0.0.1:{host.port}?version=1")
            shell.ran("put", "4", "a")
            ran = shell.ran("bench", "3")
            self.check_equal("it ends", (ran.said, ran.status), (b"", TOOK_PLACE))
            found = TABLE.fullmatch(ran.printed)
            self.check("its table", found, ran.printed)
            self.check_equal("its columns", len({len(line) for line in ran.printed.splitlines()}), 1)
            self.check_equal("nothing is left", [shell.ran("count", place).printed for place in ("3", "4")], [b"0 0\n", b"1 0\n"])
            host.halt()

    def test_a_busy_queue(self) -> None:
        """Where an item or a consumer waits it refuses, and nothing is put or taken."""
        busy = Ran(b"", b"QUEUE 3: items or consumers wait there\n", BAD_WORDS)
        with live(self.program) as (host, shell):
            shell.ran("put", "3", "a")
            self.check_equal("an item waits", shell.ran("bench", "3"), busy)
            self.check_equal("it is there", shell.ran("take", "3"), done(b"a\n"))
            with shell.began("take", "3") as takes:
                asked_so_far(host, 4)
                self.check_equal("a consumer waits", shell.ran("bench", "3"), busy)
                self.check_equal("it waits on", shell.ran("put", "3", "b"), done(b"done\n"))
                self.check_equal("what comes", ended(takes), done(b"b\n"))
            words = [asked.call.word for asked in requests(host)]
        self.check_equal("what was asked", words, ["put", "count", "take", "take", "count", "put"])

    def test_without_a_server(self) -> None:
        """Without a server, or where one is lost or refuses, that is told."""
        with taken_port() as port:
            told_once(self, "none listens", Shell(self.program, f"127.0.0.1:{port}").ran("bench", "3"), NO_SERVER)
        scripts: list[tuple[str, list[list[Answer]], int]] = [
            ("the count is refused", [[welcomes(), refuses(10)]], REFUSED),
            ("a client is refused", [[welcomes(), COUNTED], [refuses(9)]], REFUSED),
            ("a client isn't welcomed", [[welcomes(), COUNTED], [cut]], NO_SERVER),
            ("a put is lost", [[welcomes(), COUNTED], *([welcomes()] for _ in range(2 * AT_ONCE))], NO_SERVER)]
        for name, script, status in scripts:
            with Scripted(*script) as server:
                ran = Shell(self.program, server.address).ran("bench", "3")
            told_once(self, name, ran, status)
            self.check_equal(f"{name}: frames", [len(each) for each in server.heard], [len(answers) for answers in script])

    def test_another_item(self) -> None:
        """An item that somebody else put meanwhile is told, since it took it."""
        theirs = replies(reply="item", item="of somebody else")
        others = [[welcomes(), DONE] for _ in range(AT_ONCE - 1)] + [[welcomes()] for _ in range(AT_ONCE)]
        with Beside([welcomes(), COUNTED], [welcomes(), DONE, theirs], *others) as server:
            ran = Shell(self.program, server.address).ran("bench", "3")
        told_once(self, "it is told", ran, NO_SERVER)
        self.check("with the item", b"of somebody else" in ran.said, ran.said)
        self.check_equal("what was asked", [each.get("call") for each in server.heard[1]], [None, "put", "take"])

    def test_other_items(self) -> None:
        """Each item of others that its takes got is told, also one that comes after a reply that ends it."""
        scripts = [[welcomes(), DONE, replies(reply="item", item="theirs")], [welcomes(), DONE],
                   [welcomes(), DONE, replies(reply="item", item="another's")]]
        others = [[welcomes(), DONE] for _ in range(AT_ONCE - len(scripts))] + [[welcomes()] for _ in range(AT_ONCE)]
        with Beside([welcomes(), COUNTED], *scripts, *others) as server:
            ran = Shell(self.program, server.address).ran("bench", "3")
        self.check_equal("its status", (ran.printed, ran.status), (b"", NO_SERVER))
        items = sorted(line.rpartition(b": ")[2] for line in ran.said.splitlines())
        self.check_equal("each is told", items, [b"another's", b"theirs"])


def load_tests(_: unittest.TestLoader, suite: unittest.TestSuite, __: str | None) -> unittest.TestSuite:
    """The cases, side by side."""
    return AtOnce(cases_of(suite))
