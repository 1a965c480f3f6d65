"""The package's commands: `python3 -m rendezvous work QUEUE -- COMMAND [ARG ...]`."""
from __future__ import annotations

import argparse
import os
import re
import shutil
import signal
import sys
from typing import List, NoReturn, Optional, Sequence, Tuple, Union

from .calls import GREATEST_PLACE, GREATEST_WAIT, Wait
from .statuses import Status
from .worker import Work, worked

PYTHON = "python3 -m "
# How many milliseconds a unit of time has.
UNITS = {"ms": 1, "s": 1_000, "m": 60_000, "h": 3_600_000}
ENDS = """\
SIGINT and SIGTERM end it after the item that is there, if one is; a second one
ends it, and its command, at once. A failure is told on standard error, with
the request that took the item: the "by" of its receipt. A receipt says that the
item was handed over, not that the command ran: nobody else gets the item of a
worker that dies.

exit status:
  0    ended by SIGINT or SIGTERM
  1    no server, client number or record
  2    bad words
  3    the queue is empty, with --wait 0s
  4    timed out, with --wait
  5    cancelled by another program
  6    whether an item was taken is not known
  7    refused
  123  the command failed, with --stop-on-failure, or could not be started"""


class Parser(argparse.ArgumentParser):
    """Tells what is wrong in one line."""

    def error(self, message: str) -> NoReturn:
        self.exit(Status.BAD_WORDS, f"{self.prog.replace(PYTHON, '')}: {message} (see --help)\n")


def parser_of() -> Parser:
    """What reads the words before the command's."""
    made = Parser(prog=f"{PYTHON}rendezvous", description="Commands of the rendezvous server's clients.")
    commands = made.add_subparsers(title="commands", dest="command", metavar="COMMAND", required=True)
    work = commands.add_parser(
        "work", help="run a command for each item of a queue", epilog=ENDS, allow_abbrev=False,
        usage="%(prog)s [OPTION ...] QUEUE -- COMMAND [ARG ...]", formatter_class=argparse.RawDescriptionHelpFormatter,
        description="Takes one item after another and runs COMMAND [ARG ...] ITEM for each, with\nempty standard input.")
    work.add_argument("queue", metavar="QUEUE", type=queue_in, help=f"0 to {GREATEST_PLACE}")
    work.add_argument("--connect", metavar="ADDRESS",
                      help="HOST:PORT or rv://..; else what RV_SERVER says, or else 127.0.0.1:7411")
    work.add_argument("--stdin", action="store_true", help="COMMAND [ARG ...] reads the item from its standard input")
    work.add_argument("--wait", metavar="TIME", type=wait_in, default=Wait.FOREVER,
                      help="end where no item comes for so long: a number and ms, s, m or h; 0s waits for none")
    work.add_argument("--stop-on-failure", action="store_true", help="end where a command fails")
    work.add_argument("--show-items", action="store_true", help="tell a failure with its item")
    return made


def queue_in(text: str) -> int:
    """A queue's number."""
    if not re.fullmatch("[0-9]{1,19}", text) or int(text) > GREATEST_PLACE:
        raise argparse.ArgumentTypeError(f"a whole number from 0 to {GREATEST_PLACE}: {text!r:.100}")
    return int(text)


def wait_in(text: str) -> Union[Wait, float]:
    """How long an item is awaited, in seconds."""
    found = re.fullmatch("([0-9]{1,19})(ms|s|m|h)", text)
    if not found or int(found[1]) * UNITS[found[2]] > GREATEST_WAIT:
        raise argparse.ArgumentTypeError(f"a number and ms, s, m or h, as 60s, at most a day: {text!r:.100}")
    return int(found[1]) * UNITS[found[2]] / 1_000 or Wait.NOW


def parted(words: Sequence[str]) -> Tuple[List[str], Tuple[str, ...]]:
    """The words before the first `--`, and those after it."""
    place = words.index("--") if "--" in words else len(words)
    return list(words[:place]), tuple(words[place + 1:])


def command_fault(command: Sequence[str]) -> Optional[str]:
    """Why a command can't be started, as far as can be seen before it is."""
    if not command:
        return "no command: -- COMMAND [ARG ...] comes last"
    if shutil.which(command[0]) is not None:
        return None
    is_there = os.path.dirname(command[0]) and os.path.exists(command[0])
    return f"{'no program that may be run' if is_there else 'command not found'}: {command[0]!r:.200}"


def main(words: Sequence[str]) -> int:
    """Does what the words say, and gives the exit status."""
    if signal.getsignal(signal.SIGINT) is signal.default_int_handler:
        # until a worker handles it: nothing is taken before
        signal.signal(signal.SIGINT, signal.SIG_DFL)
    ours, command = parted(words)
    parser = parser_of()
    asked, others = parser.parse_known_args(ours)
    fault = f"unknown word {others[0]!r:.100}: the command comes after --" if others else command_fault(command)
    if fault:
        parser.exit(Status.BAD_WORDS, f"rendezvous work: {fault} (see --help)\n")
    return worked(asked.connect, Work(asked.queue, command, asked.wait, asked.stdin, asked.stop_on_failure, asked.show_items))


if __name__ == "__main__":
    sys.exit(main(sys.argv[1:]))
