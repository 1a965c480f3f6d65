#!/usr/bin/env python3
"""Measures a program on some 100,000 lines, beside a plain loop that reads and writes the same JSON, which STEPS has, and what a
hand-over costs in an empty book and in a full one. It fails where the full one takes twice the time. As many events of
`rv play` stand beside the lines of `rv book`. Then what a line costs in full tables, shape by shape, and beside it in those
of another program where one is given; it fails at 1.2 times the cost in nearly empty ones. Then audits of accounts, and
it fails where those are out of bounds; and what `rv serve` takes, beside `redis-server` where that is installed.

usage: tools/bench/bench.py PROGRAM STEPS [--old PROGRAM]
"""
import argparse
import contextlib
import json
import os
import pathlib
import subprocess
import sys
import tempfile

ROOT = pathlib.Path(__file__).resolve().parents[2]
sys.dont_write_bytecode, sys.path[0] = True, str(ROOT)
from tools.bench import audit  # noqa: E402
from tools.bench.lines import Asks, book_lines, hello, in_turn  # noqa: E402
from tools.bench.server import beside_redis  # noqa: E402
from tools.bench.tables import tables_beside  # noqa: E402

LINES = 100_000
MOST_RATIO = 2
CONSUMERS = 500
ITEMS = 50_000
CROWD = 1_000


def all_at_once():
    """A client puts as many items, and then takes them."""
    ask = Asks()
    yield hello(1)
    for _ in range(LINES // 2 - 1):
        yield ask.put(1)
    for _ in range(LINES // 2 - 1):
        yield ask.take(1, "now")


def one_waits():
    """Of many clients one at a time waits in take, and is met."""
    ask = Asks()
    for client in range(1, CONSUMERS + 2):
        yield hello(client)
    for turn in range(LINES // 2 - CONSUMERS):
        yield ask.take(turn % CONSUMERS + 1, "forever")
        yield ask.put(CONSUMERS + 1)


def all_wait():
    """As many clients all wait in take, and are met in turn; each waits again behind the others."""
    ask = Asks()
    for client in range(1, CONSUMERS + 2):
        yield hello(client)
    for client in range(1, CONSUMERS + 1):
        yield ask.take(client, "forever")
    for turn in range(LINES // 2 - 3 * CONSUMERS):
        yield ask.put(CONSUMERS + 1)
        yield ask.take(turn % CONSUMERS + 1, "forever")
    for _ in range(CONSUMERS):
        yield ask.put(CONSUMERS + 1)


def items(count):
    """Two clients, and items that lie in another queue."""
    ask = Asks()
    yield hello(1)
    yield hello(2)
    for _ in range(count):
        yield ask.put(1, queue=4)


def met_at_once(count):
    """Behind so many items, transfers of one client to another, who waits for each of them."""
    yield from items(count)
    ask = Asks()
    ask.numbers[1] = count
    for _ in range(LINES // 4 - 10):
        yield ask.take(2, "forever")
        yield ask.transfer(1)


def crowd():
    """Clients who say hello, of whom 1,000 wait a day at most in many queues, and items of the first: 90,000 entries."""
    ask = Asks()
    for client in range(1, CROWD + 3):
        yield hello(client)
    for client in range(3, CROWD + 3):
        yield ask(client, "take", 8 + client % 56, wait=86_400_000)
    for _ in range(90_000 - 2 * CROWD - 2):
        yield ask.put(1, queue=4)


def swapped(before):
    """Behind the lines before, two clients swap again and again, and each asks for its reply ten times more."""
    yield from before
    ask = Asks()
    if before:
        ask.numbers[1] = 90_000 - 2 * CROWD - 2
    else:
        yield hello(1)
        yield hello(2)
    for _ in range(LINES // 24):
        pair = [ask.swap(1), ask.swap(2)]
        yield from pair
        yield from pair * 10


def calls_of_a_play():
    """A client puts an item and takes it, again and again, over a link that loses nothing: three events a call."""
    yield "start 1 1"
    yield "server 0 0"
    yield "client 0"
    for call in range(1, LINES // 3):
        members = {"call": "put", "item": f"item {call}"} if call % 2 else {"call": "take", "wait": "now"}
        yield f"begin 1 {json.dumps({**members, 'queue': 3}, sort_keys=True, separators=(',', ':'))}"
        yield f"server {call} {call}"
        yield f"client {call}"


def refuse_none(words, path):
    """Ends where a line is refused: then the lines are not what is to be measured."""
    with open(path, "rb") as source:
        printed = subprocess.run(words, stdin=source, capture_output=True).stdout
    if any(word in printed for word in [b'"refused"', b"refused ", b"bad line", b"ignored"]):
        sys.exit("a line of the measurement is refused")


@contextlib.contextmanager
def written(words, lines):
    """A file with these lines, none of which the program refuses: its name, how many they are, and their bytes."""
    with tempfile.NamedTemporaryFile("w", suffix=".in") as file:
        count = 0
        for line in lines:
            file.write(f"{line}\n")
            count += 1
        file.flush()
        refuse_none(words, file.name)
        yield file.name, count, os.path.getsize(file.name)


def timed_lines(words, lines):
    """The least seconds that the lines take, the most bytes of memory, and how many lines they are."""
    with written(words, lines) as (path, count, _):
        return audit.seconds(words, path), audit.peak(words, path), count


def timed(words, messages):
    """The same of the lines of these messages."""
    return timed_lines(words, book_lines(messages))


def beside_plain(book, plain):
    """What the book and the plain loop take for the same lines."""
    with written(book, book_lines(in_turn(LINES))) as (path, lines, size):
        seconds, plain_seconds = audit.seconds_in_turn([book, plain], path)
        share, plain_share = (audit.peak(words, path) / lines for words in (book, plain))
    print(f"input            {lines} lines, {size} bytes")
    print(f"rv book          {lines / seconds:.0f} lines a second, peak memory {share:.0f} bytes a line")
    print(f"plain JSON loop  {lines / plain_seconds:.0f} lines a second, peak memory {plain_share:.0f} bytes a line")
    print(f"ratio            rv book takes {seconds / plain_seconds:.2f} times the plain loop's time")


def play_beside_book(program, book):
    """What events of a play take, and lines of the book that say and answer as much."""
    seconds, memory, events = timed_lines([program, "play"], calls_of_a_play())
    book_seconds, _, lines = timed(book, in_turn(LINES))
    ratio = (seconds / events) / (book_seconds / lines)
    print(f"rv play          {events / seconds:.0f} events a second, peak memory {memory / events:.0f} bytes an event, "
          f"{ratio:.2f} times the time of rv book's lines")


def beside_empty(book, name, empty, full, before=()):
    """What hand-overs take in an empty and in a full book; what fills it is taken off. Whether that is in bounds."""
    seconds, _, lines = timed(book, empty)
    full_seconds, _, full_lines = timed(book, full)
    fill_seconds, _, fill_lines = timed(book, before)
    speed, full_speed = lines / seconds, (full_lines - fill_lines) / (full_seconds - fill_seconds)
    ratio = speed / full_speed
    print(f"{name}: {speed:.0f} lines a second in an empty book, {full_speed:.0f} in a full one, ratio {ratio:.2f}")
    return ratio < MOST_RATIO


def main():
    parser = argparse.ArgumentParser()
    parser.add_argument("program")
    parser.add_argument("steps")
    parser.add_argument("--old", action="append", default=[])
    words = parser.parse_args()
    program = words.program
    book, plain = [program, "book", "--epoch", "1"], [words.steps, "json"]
    beside_plain(book, plain)
    play_beside_book(program, book)
    good = [
        beside_empty(book, "50,000 puts and then 50,000 polls", in_turn(LINES), all_at_once()),
        beside_empty(book, "500 clients that wait in take, met in turn", one_waits(), all_wait()),
        beside_empty(book, "a transfer met at once", met_at_once(0), met_at_once(ITEMS), items(ITEMS)),
        beside_empty(book, "a swap, and its repeats", swapped([]), swapped(list(crowd())), crowd()),
    ]
    flat = tables_beside([program, *words.old[:1]])
    audit.audits_beside_book(program)
    beside_redis(program)
    if not all(good):
        sys.exit(f"a full book takes {MOST_RATIO} times the time of an empty one, or more")
    sys.exit("a line costs more in full tables than it may" if not flat else 0)


main()
