"""A worker: takes items from a queue and runs a command for each, until a signal, a time or a fault ends it."""
from __future__ import annotations

import contextlib
import errno
import json
import os
import shutil
import signal
import subprocess
import time
from types import FrameType
from typing import List, NamedTuple, Optional, Tuple, Union

from .calls import Wait, made
from .errors import EpochEnded, NotRecorded, RendezvousError, Unsettled
from .replies import Cancelled, Item, Key
from .session import Items, Session
from .statuses import Status, status_of

# What ends the loop in good order, and at once where it comes again.
STOPS = (signal.SIGINT, signal.SIGTERM)
# A take is asked anew after so many seconds: one whose worker was killed gets no item for longer than that.
PRESENCE = 60.0
# What is told where a take has no outcome, and of how to ask it for longer.
NOT_KNOWN = "whether it took an item is not known"
PATIENTLY = "a worker with patience=forever in its rv:// address goes on asking"


class Work(NamedTuple):
    """What is to be done: the queue, the command for each item, how long one is awaited, whether the command reads it from its
    standard input, whether the first failure ends the loop, and whether a failure is told with its item."""

    queue: int
    command: Tuple[str, ...]
    wait: Union[Wait, float] = Wait.FOREVER
    on_stdin: bool = False
    stops_on_failure: bool = False
    shows_items: bool = False


class Stop(NamedTuple):
    """The first signal that came: its name, and whether an item was there by then, or came after it."""

    name: str
    held: bool


def worked(address: Optional[str], work: Work) -> int:
    """Works until something ends that, tells what is to be told, and gives the exit status. A worker has the process alone: the
    handlers of its signals stay."""
    try:
        session = Session(address, presence=PRESENCE)
    except ValueError as fault:
        tell(str(fault))
        return Status.BAD_WORDS
    except (RendezvousError, OSError) as fault:
        tell(f"{fault.filename}: {fault.strerror}" if isinstance(fault, OSError) and fault.filename else str(fault))
        return status_of(fault)
    with contextlib.closing(session):
        worker = Worker(session, work)
        for number in STOPS:
            if signal.getsignal(number) != signal.SIG_IGN:
                signal.signal(number, worker.signalled)
        return worker.run()


class Awaited(Items):
    """The items of a queue, until none comes within a wait."""

    def __init__(self, session: Session, queue: int, wait: Union[Wait, float]) -> None:
        super().__init__(session, queue)
        self._call, self._own = made("take", queue, wait), None if isinstance(wait, Wait) else wait

    def __next__(self) -> str:
        # a take that has no item gives none
        item: Optional[str] = super().__next__()
        if item is None:
            self.stop()
            raise StopIteration
        return item


class Worker:
    """The loop. `signalled` may come between any two of its steps: what it looks at is changed by single assignments."""

    def __init__(self, session: Session, work: Work) -> None:
        self._session, self._work = session, work
        self._items = Awaited(session, work.queue, work.wait)
        self._stop: Optional[Stop] = None
        # the request whose item is done with, and the command of the next one
        self._done: Optional[Key] = None
        self._process: "Optional[subprocess.Popen[bytes]]" = None
        # whether a command is being started, and the signal that came again meanwhile
        self._starts = False
        self._again: Optional[int] = None

    @property
    def _held(self) -> Optional[Key]:
        """The request whose item came and is not done with."""
        last = self._session.last
        return last.key if isinstance(last, Item) and last.key != self._done else None

    # ---- the loop

    def run(self) -> int:
        """Takes and works until something ends that, and gives the exit status."""
        ends: Optional[Status] = None
        while ends is None:
            ends = self._step()
        return ends

    def _step(self) -> Optional[Status]:
        """Takes an item and works at it; the status where that ends the loop."""
        began = time.monotonic()
        try:
            item = next(self._items, None)
        except NotRecorded as fault:
            tell(f"{named(fault.key)}: its reply is not in the record {fault.filename}: {fault.strerror}")
            if isinstance(fault.outcome, Item):
                self._work_at(fault.outcome.item)
            return Status.NO_SERVER
        except RendezvousError as fault:
            return ended_by(fault)
        return self._ended(time.monotonic() - began) if item is None else self._work_at(item)

    def _ended(self, waited: float) -> Status:
        """The status where the loop has ended by itself, after the last take waited so many seconds."""
        if self._stop is not None:
            if not self._stop.held:
                tell(f"{self._stop.name}: stopped, and no item was taken")
            return Status.DONE
        wait = self._work.wait
        # a take whose time is over is cancelled where the server is silent
        if isinstance(self._session.last, Cancelled) and (isinstance(wait, Wait) or waited < wait):
            tell(f"{named(self._session.last.key)}: cancelled by another program, and no item was taken")
            return Status.CANCELLED
        return Status.EMPTY if wait is Wait.NOW else Status.TIMED_OUT

    def _work_at(self, item: str) -> Optional[Status]:
        """Runs the command for an item, and tells a failure; the status where that ends the loop."""
        key = self._held
        if self._stop is not None and not self._stop.held:
            tell(f"{self._stop.name}: an item came meanwhile; stops after its command, or at once by a second signal")
            self._stop = self._stop._replace(held=True)
        ends: Optional[Status] = None
        try:
            fault = self._run(item)
        except OSError as refused:
            fault, ends = f"the command can't be started: {refused.strerror}", Status.COMMAND_FAILED
        if fault:
            shown = f": {json.dumps(item)}" if self._work.shows_items else ""
            tell(f"item of {named(key)}: {fault}{shown}")
            ends = Status.COMMAND_FAILED if self._work.stops_on_failure else ends
        self._done, self._process = key, None
        return ends

    def _run(self, item: str) -> str:
        """Runs the command for an item, and says what went wrong with it, if something did. An item is UTF-8 there too. OSError
        where the command can't be started."""
        text, on_stdin = item.encode(), self._work.on_stdin
        if not on_stdin and b"\0" in text:
            return "no argument has a zero byte: it needs --stdin"
        process = self._started([] if on_stdin else [text], subprocess.PIPE if on_stdin else subprocess.DEVNULL)
        process.communicate(text if on_stdin else None)
        return failure(process.returncode)

    def _started(self, more: List[bytes], stdin: int) -> "subprocess.Popen[bytes]":
        """Starts the command with these arguments more."""
        self._starts = True
        try:
            process = self._process = started([*map(os.fsencode, self._work.command), *more], stdin)
        finally:
            self._starts = False
        if self._again is not None:
            self._end(self._again)
        return process

    # ---- signals

    def signalled(self, number: int, _: Optional[FrameType]) -> None:
        """The first signal ends the loop after the item that is there or comes meanwhile, and the second one at once."""
        if self._stop is None:
            held = self._held is not None
            self._stop = Stop(name_of(number), held)
            self._items.stop()
            if held:
                tell(f"{name_of(number)}: stops after this command, or at once by a second signal")
        elif self._starts:
            self._again = number
        else:
            self._end(number)

    def _end(self, number: int) -> None:
        """Ends this process by a signal, which its command gets too, and tells what is known of the item."""
        key, process, unsettled = self._held, self._process, self._session.unsettled
        if key is None:
            words = "no item was taken" if unsettled is None else f"{named(unsettled)}: {NOT_KNOWN}"
        elif process is None:
            words = f"item of {named(key)}: its command was not started"
        elif process.returncode is None:
            with contextlib.suppress(OSError):
                os.killpg(process.pid, number)
            words = f"item of {named(key)}: its command got the signal too"
        else:
            words = f"item of {named(key)}: {failure(process.returncode) or 'its command has ended'}"
        tell(f"{name_of(number)}: ended at once: {words}")
        signal.signal(number, signal.SIG_DFL)
        os.kill(os.getpid(), number)
        # the first process of a container doesn't end by that
        os._exit(128 + number)


def started(words: List[bytes], stdin: int) -> "subprocess.Popen[bytes]":
    """Starts a command in a session of its own, so that no signal of the terminal's reaches it. A shell runs a script that names no
    interpreter, as `execvp` has it."""
    try:
        return subprocess.Popen(words, stdin=stdin, start_new_session=True)
    except OSError as fault:
        path = shutil.which(words[0])
        if fault.errno != errno.ENOEXEC or path is None:
            raise
        return subprocess.Popen([b"/bin/sh", path, *words[1:]], stdin=stdin, start_new_session=True)


# ---- words

def ended_by(fault: RendezvousError) -> Status:
    """The status of what ended a take, which is told."""
    words = str(fault)
    if isinstance(fault, (Unsettled, EpochEnded)):
        words += f"; {NOT_KNOWN}"
    if isinstance(fault, Unsettled):
        words += f"; {PATIENTLY}"
    tell(words)
    return status_of(fault)


def named(key: Optional[Key]) -> str:
    """A request's name, as a receipt has it."""
    return f"request {'/'.join(map(str, key or ()))}"


def name_of(number: int) -> str:
    """A signal's name; some have only a number."""
    try:
        return signal.Signals(number).name
    except ValueError:
        return f"signal {number}"


def failure(status: int) -> str:
    """What went wrong where a command ended so; nothing where it ended well."""
    if status < 0:
        return f"the command was ended by {name_of(-status)}"
    return f"the command ended with status {status}" if status else ""


def tell(words: str) -> None:
    """A line on standard error, in one write: a signal's handler may tell one while another is told."""
    with contextlib.suppress(OSError):
        os.write(2, f"rendezvous work: {words}\n".encode(errors="backslashreplace"))
