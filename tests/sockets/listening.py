"""A listener on a port of this machine, for what meets each connection in its own way."""
from __future__ import annotations

import socket
import threading
from typing import Self

from tests.sockets.wire import PATIENCE


class Listening:
    """Listens from `with` on until its end, at `address`, a text. Each connection that comes is handed to `meet`, one
    after another; behind the end none is."""

    def __init__(self) -> None:
        self.listener = socket.create_server(("127.0.0.1", 0))
        self.port = self.listener.getsockname()[1]
        self.address = f"127.0.0.1:{self.port}"

    def __enter__(self) -> Self:
        self.accepting = threading.Thread(target=self.accept, daemon=True)
        self.accepting.start()
        return self

    def __exit__(self, *_: object) -> None:
        self.close()

    def close(self) -> None:
        """Ends it, if it has not ended."""
        if self.listener.fileno() >= 0:
            self.listener.shutdown(socket.SHUT_RDWR)
            self.accepting.join(PATIENCE)
            self.listener.close()

    def accept(self) -> None:
        """Takes connections until the listener is closed."""
        while True:
            try:
                connection, _ = self.listener.accept()
            except OSError:
                return
            self.meet(connection)

    def meet(self, connection: socket.socket) -> None:
        """Serves one connection."""
        raise NotImplementedError
