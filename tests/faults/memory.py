"""Books whose growths are refused at random: whatever was refused, all answers are those of an account that the lines
before can have left."""
import random
import subprocess

from tests.faults.system import System, file_of
from tests.model.account import Account
from tests.model.scripts import Script
from tests.model.steps import ticked, told
from tests.model.texts import NoReading, read_line
from tests.sockets.wire import demand

LINES, BOOKS = 60, 40
# Growths before the first line, about.
BEFORE = 100
NO_MEMORY = '{"code":11,"kind":"refused"}'
NO_BOOK = [(1, b"run fault 3\n"), (2, b"command fault 2\n")]
# More accounts than this are not followed further.
MOST_ACCOUNTS = 300


def left_by(account: Account, line: bytes) -> set[Account]:
    """The accounts that a line may leave that was told want of memory: it was not read; or its own entry had no room,
    and the tick before it stands; or its answer's text had none, and it stands."""
    try:
        tick = ticked(account, read_line(line)[0])
    except NoReading:
        return {account}
    return {account, tick, told(account, line)[0]}


def followed(lines: list[bytes], printed: list[str]) -> int:
    """How many lines were told want of memory, while all others are answered as one of the accounts has it."""
    accounts, refused = {Account(1, 0)}, 0
    for number, (line, answer) in enumerate(zip(lines, printed)):
        before = accounts
        if answer == NO_MEMORY:
            refused += 1
            accounts = set().union(*(left_by(account, line) for account in before))
        else:
            steps = [told(account, line) for account in before]
            accounts = {account for account, text in steps if text == answer}
        demand(accounts, f"line {number + 1} of {lines} is answered {answer} behind {printed[:number]}")
        if len(accounts) > MOST_ACCOUNTS:
            break
    return refused


def short_of_memory(program: str, seed: int) -> None:
    """Some books, each of random lines of its own."""
    refused = 0
    for book in range(BOOKS):
        chance = random.Random(f"memory {seed} {book}")
        script, system = Script(chance, 1), System(chance.randrange(2**31))
        # Some lines come again, as they do where a client was told want of memory.
        lines = [line for line in (script.line()[0] for _ in range(LINES)) for _ in range(chance.choice([1, 1, 2]))]
        system.be(growth=chance.choice([30, 100, 300]), calm=BEFORE)
        with file_of(b"".join(line + b"\n" for line in lines)) as given:
            ran = subprocess.run([program, "book", "--epoch", "1"], stdin=given, capture_output=True, env=system.env)
        end = (ran.returncode, ran.stderr)
        if end in NO_BOOK and not ran.stdout:
            continue
        printed = ran.stdout.decode().split("\n")[:-1]
        demand(end == (0, b"") and len(printed) == len(lines), f"{end}, {len(printed)} answers to {len(lines)} lines")
        refused += followed(lines, printed)
    demand(refused > BOOKS, f"{refused} lines in all were told want of memory")


CASES = [short_of_memory]
