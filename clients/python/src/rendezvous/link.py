"""One connection, which never waits by itself: frames of messages go out, frames of answers come in."""
from __future__ import annotations

import errno
import os
import socket
import struct
from typing import Any, List, Optional

from .addresses import Server
from .bodies import NoAnswer

# What a connect that is under way answers.
UNDER_WAY = (errno.EINPROGRESS, errno.EWOULDBLOCK, errno.EALREADY, errno.EINTR)
AT_ONCE = 65_536


def ways_to(server: Server) -> List[Any]:
    """The ways to a server, which are asked for anew each time."""
    try:
        return socket.getaddrinfo(*server, type=socket.SOCK_STREAM)
    except OSError as fault:
        raise OSError(fault.errno, f"{server}: {str(fault.strerror).lower()}") from fault


def frame_of(body: bytes) -> bytes:
    """A message, as it is sent: its body behind its length."""
    return struct.pack(">H", len(body)) + body


class Inbox:
    """What came in, in pieces, of which answers' bodies are made."""

    def __init__(self) -> None:
        self._came = b""

    def __bool__(self) -> bool:
        return bool(self._came)

    def add(self, piece: bytes) -> None:
        """The next piece."""
        self._came += piece

    def taken(self) -> Optional[bytes]:
        """The first body, if it is whole."""
        if len(self._came) < 2:
            return None
        end = 2 + struct.unpack(">H", self._came[:2])[0]
        if end == 2:
            raise NoAnswer("a frame of 0 bytes")
        if len(self._came) < end:
            return None
        body, self._came = self._came[2:end], self._came[end:]
        return body


class Link:
    """A connection to the server. It is being made until `connected`; then it takes a message's body, and gives its answer's.
    `used` tells whether something was said there.
    Every fault of it is an OSError or NoAnswer, and then it is of no more use."""

    def __init__(self, server: Server) -> None:
        self.server, self.connected, self.used = server, False, False
        self._ways = ways_to(server)
        self._out, self._inbox = b"", Inbox()
        self.socket = self._begin()

    def _begin(self) -> socket.socket:
        """Begins to connect by the next way to the server."""
        family, kind, protocol, _, where = self._ways.pop(0)
        made = socket.socket(family, kind, protocol)
        try:
            made.setblocking(False)
            made.setsockopt(socket.IPPROTO_TCP, socket.TCP_NODELAY, 1)
            code = made.connect_ex(where)
        except BaseException:
            made.close()
            raise
        if code not in (0, *UNDER_WAY):
            made.close()
            if not self._ways:
                raise OSError(code, f"{self.server}: {os.strerror(code).lower()}")
            return self._begin()
        return made

    def wants_to_write(self) -> bool:
        """Whether it waits for room to write, and not for something to read."""
        return not self.connected or bool(self._out)

    def go_on(self) -> Optional[bytes]:
        """Does what can be done at once, and gives an answer's body that has come whole."""
        if not self.connected:
            self._finish()
        elif self._out:
            self._write()
        else:
            return self._read()
        return None

    def _finish(self) -> None:
        """Ends a connect that was under way, or begins the next one."""
        code = self.socket.getsockopt(socket.SOL_SOCKET, socket.SO_ERROR)
        if code == 0:
            self.connected = True
        elif self._ways:
            self.socket.close()
            self.socket = self._begin()
        else:
            raise OSError(code, f"{self.server}: {os.strerror(code).lower()}")

    def say(self, body: bytes) -> None:
        """Begins to send a message."""
        self.used = True
        self._out = frame_of(body)
        self._write()

    def _write(self) -> None:
        """Sends what the connection takes."""
        try:
            self._out = self._out[self.socket.send(self._out):]
        except (BlockingIOError, InterruptedError):
            pass

    def _read(self) -> Optional[bytes]:
        """Reads what is there; an answer's body, if it is whole."""
        try:
            piece = self.socket.recv(AT_ONCE)
        except (BlockingIOError, InterruptedError):
            return None
        if not piece:
            raise NoAnswer("the connection ended")
        self._inbox.add(piece)
        return self._inbox.taken()

    def is_stale(self) -> bool:
        """Whether something is there though nothing is awaited: the peer's end, or an answer to nothing."""
        if not self.connected:
            return False
        try:
            return bool(self._inbox) or self.socket.recv(1, socket.MSG_PEEK) is not None
        except (BlockingIOError, InterruptedError):
            return False
        except OSError:
            return True

    def close(self) -> None:
        """Throws it away, also where a fork has it too."""
        try:
            self.socket.shutdown(socket.SHUT_RDWR)
        except OSError:
            pass
        self.socket.close()
