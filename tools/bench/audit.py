"""Measures `rv audit` on accounts of four shapes, beside `rv book` on lines that make as many entries."""
import json
import os
import subprocess
import sys
import tempfile
import time

SIZES = [25_000, 50_000, 100_000]
RUNS = 5
# What an audit of the greatest account may take: so many times the book's time, and so many bytes an entry beside its
# line.
MOST_RATIO = 3
MOST_BYTES = 300
CLIENTS = 1_024
DAY = 86_400_000


def hello(client):
    """A client's hello."""
    return {"client": client, "incarnation": 1, "kind": "hello"}


def keyed(kind, client, number, **call):
    """A request or cancel of a client."""
    return {"kind": kind, "client": client, "epoch": 1, "incarnation": 1, "number": number, **call}


def put(client, number):
    return keyed("request", client, number, call="put", queue=3, item=f"item {number}")


def take(client, number, wait="now"):
    return keyed("request", client, number, call="take", queue=3, wait=wait)


def in_turn(count):
    """A client puts an item, another takes it, again and again."""
    yield hello(1), None
    yield hello(2), None
    for number in range(1, count // 2):
        yield put(1, number), None
        yield take(2, number), 2 * number


def all_at_once(count):
    """A client puts half as many items, and then another takes them."""
    yield hello(1), None
    yield hello(2), None
    for number in range(1, count // 2):
        yield put(1, number), None
    for number in range(1, count // 2):
        yield take(2, number), number + 1


def come_and_go(count):
    """As many clients as there may be wait in take for a day at most; one after the other gives up and waits anew."""
    numbers = [1] * (CLIENTS + 1)
    for client in range(1, CLIENTS + 1):
        yield hello(client), None
    for client in range(1, CLIENTS + 1):
        yield take(client, 1, DAY), None
    for turn in range((count - 3 * CLIENTS) // 2):
        client = turn * 389 % CLIENTS + 1
        yield keyed("cancel", client, numbers[client]), None
        numbers[client] += 1
        yield take(client, numbers[client], DAY), None
    for client in range(1, CLIENTS + 1):
        yield keyed("cancel", client, numbers[client]), None


def crowd(count):
    """Far more clients than a book serves all wait, each with an earlier limit than the one before, and give up in
    another order."""
    size = count // 3
    for client in range(1, count - 2 * size + 1):
        yield hello(client), None
    for client in range(1, size + 1):
        yield take(client, 1, DAY - count - client), None
    for turn in range(size):
        yield keyed("cancel", turn * 7_919 % size + 1, 1), None


# Those that the book makes, and one that it does not, beside the first of them.
SHAPES = [
    ("items met in turn", in_turn),
    ("items that wait and are then taken", all_at_once),
    ("1,024 waiting clients that come and go", come_and_go),
]
NO_BOOK = ("a crowd that waits and gives up", crowd)


def body_of(members):
    """A message's body."""
    return json.dumps(members, sort_keys=True, separators=(",", ":"))


def write_messages(entries, file):
    """Writes the lines that make the entries, each a moment after the one before."""
    for moment, (members, _) in enumerate(entries):
        file.write(f"{moment} {body_of(members)}\n")
    file.flush()


def write_account(entries, file):
    """Writes the lines of the account of these entries."""
    file.write("epoch 1 opened 0\n")
    for moment, (members, partner) in enumerate(entries):
        file.write(f"{moment} {'-' if partner is None else partner} {body_of(members)}\n")
    file.flush()


def start(words, path):
    """Starts a program on a file, whose output is dropped."""
    with open(path, "rb") as source:
        return subprocess.Popen(words, stdin=source, stdout=subprocess.DEVNULL)


def seconds_in_turn(programs, path):
    """The least seconds of some runs of each program, in turn: what else the machine does then falls on all of them."""
    took = [[] for _ in programs]
    for index in list(range(len(programs))) * RUNS:
        began = time.monotonic()
        start(programs[index], path).wait()
        took[index].append(time.monotonic() - began)
    return [min(runs) for runs in took]


def seconds(words, path):
    """The least seconds of some runs."""
    return seconds_in_turn([words], path)[0]


def peak(words, path):
    """The most bytes of memory that a run has at once, as the system tells it while the program runs."""
    most, child = 0, start(words, path)
    while child.poll() is None:
        with open(f"/proc/{child.pid}/status") as status:
            told = [line.split()[1] for line in status if line.startswith("VmHWM")]
        most = max(most, *map(int, told), 0)
        time.sleep(0.001)
    return most * 1024


def see_good(words, path):
    """Ends where a line is refused or the account is not legal: then they are not what is to be measured."""
    with open(path, "rb") as source:
        printed = subprocess.run(words, stdin=source, capture_output=True).stdout
    if b'"refused"' in printed or words[1] == "audit" and printed != b"legal\n":
        sys.exit(f"{' '.join(words)} on lines of the measurement printed {printed[:200]}")


def measure(program, make, made, count):
    """The seconds that an audit takes, and the book for as many entries, and the bytes of an entry: its line, and what
    is beside it."""
    book_words, audit_words = [program, "book", "--epoch", "1"], [program, "audit"]
    with tempfile.NamedTemporaryFile("w") as book, tempfile.NamedTemporaryFile("w") as account:
        write_messages(made(count), book)
        write_account(make(count), account)
        see_good(book_words, book.name)
        see_good(audit_words, account.name)
        line = os.path.getsize(account.name) / count
        memory = peak(audit_words, account.name) / count - line
        return seconds(audit_words, account.name), seconds(book_words, book.name), line, memory


def audits_beside_book(program):
    """Prints what audits take, and ends where one of the greatest accounts takes too much."""
    over = []
    for name, make, made in [*((name, make, make) for name, make in SHAPES), (*NO_BOOK, in_turn)]:
        first = None
        for count in SIZES:
            audit, book, line, memory = measure(program, make, made, count)
            first = first or audit / count
            print(f"rv audit, {name}: {count} entries in {audit:.3f} seconds, {audit / book:.2f} times the time of rv "
                  f"book, {audit / count / first:.2f} times that of an entry among {SIZES[0]}; peak memory {line:.0f} "
                  f"bytes a line, and {memory:.0f} beside it", flush=True)
        if audit > MOST_RATIO * book or memory > MOST_BYTES:
            over.append(name)
    if over:
        sys.exit(f"over {MOST_RATIO} times the time of rv book, or {MOST_BYTES} bytes an entry: {', '.join(over)}")
