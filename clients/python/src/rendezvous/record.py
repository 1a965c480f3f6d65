"""A record of what clients were told: a file that gets a line for each reply before its call returns."""
from __future__ import annotations

import errno
import os
import stat
import tempfile
from typing import Optional, Union

from .calls import checked

VARIABLE = "RV_RECORD"
# How many bytes are tried where a file can be made.
ROOM = 4096
# How a record is opened: each write goes to its end, whoever wrote there meanwhile; and LF stays LF.
FLAGS = os.O_WRONLY | os.O_APPEND | os.O_CREAT | getattr(os, "O_BINARY", 0)

Path = Union[str, "os.PathLike[str]"]


class Record:
    """A file, to which lines are appended, each by one write. Any number of sessions and processes may share it."""

    def __init__(self, path: Path) -> None:
        named = os.fspath(path)
        checked("\0" not in named, f"a record is a file: {named!r}")
        self.path = os.path.abspath(named)

    def check(self) -> None:
        """An OSError, with its path, where no line can be written. It leaves what there is as it is: there need be no file, but
        one can be made."""
        try:
            self._try()
        except OSError as fault:
            raise OSError(fault.errno, os.strerror(fault.errno or errno.EIO), self.path) from fault

    def _try(self) -> None:
        """Writes nothing to the file, or a line's length to one without a name beside it, where it isn't there yet."""
        try:
            file = os.open(self.path, FLAGS & ~os.O_CREAT | getattr(os, "O_NONBLOCK", 0))
        except FileNotFoundError:
            with tempfile.TemporaryFile(dir=os.path.dirname(os.path.realpath(self.path)), buffering=0) as other:
                other.write(bytes(ROOM))
            return
        try:
            mode = os.fstat(file).st_mode
            if not stat.S_ISREG(mode) and not stat.S_ISCHR(mode):
                # a pipe that somebody reads now: to open it when nobody does any more would take for ever
                raise OSError(errno.ENXIO, "neither a file nor a character device")
            os.write(file, b"")
        finally:
            os.close(file)

    def append(self, line: bytes) -> None:
        """Appends a line to the file, which is made if need be. An OSError, with its path, where the line isn't written whole."""
        try:
            file = os.open(self.path, FLAGS, 0o666)
            try:
                written = os.write(file, line)
            finally:
                os.close(file)
        except OSError as fault:
            raise OSError(fault.errno, os.strerror(fault.errno or errno.EIO), self.path) from fault
        if written < len(line):
            raise OSError(errno.ENOSPC, f"only {written} of {len(line)} bytes were written", self.path)


def line_of(asked: bytes, told: bytes) -> bytes:
    """The line of a reply: the request's body and the reply's. In that LF is white space alone, for which a space stands."""
    return b'{"asked":%s,"told":%s}\n' % (asked, told.replace(b"\n", b" "))


def record_of(path: Optional[Path]) -> Optional[Record]:
    """The record in the file that is given, or else in the one that the environment names. Where that is empty there is none. An
    OSError where it can't be written."""
    named = os.environ.get(VARIABLE, "") if path is None else path
    if not isinstance(named, (str, os.PathLike)):
        raise TypeError(f"a record is a path: {named!r}")
    if not os.fspath(named):
        return None
    record = Record(named)
    record.check()
    return record
