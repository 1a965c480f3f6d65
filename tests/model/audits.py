"""Compares what `rv audit` and `rv verify` say of accounts with their verdicts: of those made by hand, and of random ones, most
of them spoilt, whose verdict the model gives."""
import os
import random
import subprocess
import tempfile
from collections import Counter
from concurrent.futures import ThreadPoolExecutor
from itertools import islice

from tests.model.broken import broken_texts
from tests.model.broken_lines import line_texts
from tests.model.full import full_texts
from tests.model.spoilt import make_texts
from tests.model.verdicts import KINDS, Unsure, kind_of, verdict

# How many texts are made of one book's account, and how many of them are at hand at a time.
TEXTS = 8
AT_HAND = 400
# A run of so many accounts has to meet each verdict.
FULL_RUN = 2_000
# The most entries of an account that `rv audit` reads.
MAX_ENTRIES = 100_000
# More digits than these Python doesn't read as a number.
MOST_DIGITS = 4_000
# The most seconds that one account may take, on a slow machine too.
MOST_SECONDS = 600


def hand_made():
    """Each account that is made by hand, with its name and its verdict."""
    for name, texts in [("form", line_texts()), ("account", broken_texts()), ("full account", full_texts())]:
        yield from ((f"{name} {number} by hand", *pair) for number, pair in enumerate(texts, 1))


def random_ones(seed, count):
    """So many random accounts, each with its name, and with its verdict as the model has it."""
    books = (make_texts(random.Random(f"{seed} {book}"), TEXTS) for book in range(count))
    for number, text in enumerate(islice((text for texts in books for text in texts), count), 1):
        yield f"account {number} of seed {seed}", text, verdict_or_fault(text)


def verdict_or_fault(text):
    """The verdict, or that the model's own audits differ: this no program says."""
    try:
        return verdict(text)
    except Unsure as unsure:
        return f"the model at odds with itself: {unsure}"


def what_it_said(program, text):
    """What the program prints for a text, with its status, and what it says on standard error."""
    try:
        ran = subprocess.run([program, "audit"], input=text, capture_output=True, timeout=MOST_SECONDS)
    except subprocess.TimeoutExpired:
        return b"", None, b"it took too long"
    return ran.stdout, ran.returncode, ran.stderr


def what_it_verified(program, text):
    """The same of `rv verify` on a file with this text."""
    with tempfile.NamedTemporaryFile() as file:
        file.write(text)
        file.flush()
        ran = subprocess.run([program, "verify", file.name], capture_output=True, timeout=MOST_SECONDS)
    return ran.stdout, ran.returncode, ran.stderr


def is_said(ran, expected):
    """Whether this is what the program has to print, and its status."""
    return ran == (f"{expected}\n".encode(), int(expected != "legal"), b"")


def is_past(text):
    """Whether `rv verify` may say another thing: where the end may be torn, or a place or the entries are past `rv audit`'s limits."""
    rows = [line.split(b" ") for line in text.split(b"\n")[1:]]
    places = [place for row in rows if len(row) > 1 for place in row[1].split(b",") if place.isdigit()]
    far = any(len(place) > MOST_DIGITS or int(place) >= MAX_ENTRIES for place in places)
    return far or not text.endswith(b"\n") or len(rows) > MAX_ENTRIES + 1


def told_of(program, text, expected):
    """What the program says of an account: `rv audit`, and where that is right, `rv verify`, if it has to say the same."""
    ran = what_it_said(program, text)
    return what_it_verified(program, text) if is_said(ran, expected) and not is_past(text) else ran


def first_difference(program, accounts):
    """How many accounts of each verdict were met, and the first that the program says something else of."""
    met, accounts = Counter(), iter(accounts)
    with ThreadPoolExecutor(os.cpu_count()) as several:
        while part := list(islice(accounts, AT_HAND)):
            runs = several.map(lambda account: told_of(program, *account[1:]), part)
            for account, ran in zip(part, runs):
                met[kind_of(account[2])] += 1
                if not is_said(ran, account[2]):
                    several.shutdown(wait=False, cancel_futures=True)
                    return met, (*account, ran)
    return met, None


def compare_audits(program, seed, count):
    """Compares those made by hand and so many random ones, in which each verdict is to be met; tells how often each was."""
    for accounts in [hand_made(), random_ones(seed, count)]:
        met, difference = first_difference(program, accounts)
        assert not difference, shown(*difference)
    missed = [kind for kind in KINDS if not met[kind]] if count >= FULL_RUN else []
    assert not missed, f"seed {seed}: none of the accounts is {', '.join(missed)}"
    return f"{count} accounts, each verdict as the model has it: " + ", ".join(f"{kind} {met[kind]}" for kind in KINDS)


def shown(name, text, expected, ran):
    """A difference with the account's lines, in words."""
    output, status, errors = ran
    lines = text.splitlines(keepends=True)
    more = [f"and {len(lines) - 200} lines more"] if len(lines) > 200 else []
    return "\n    ".join([f"{name}: expected {expected!r}, got {output[:200]!r}, status {status}, standard error {errors[:200]!r}",
                          *(f"{line[:5_000]!r}" for line in lines[:200]), *more])
