"""Shards: queues and exchangers that several servers share out, with a session for each server that is used."""
from __future__ import annotations

import contextlib
from types import TracebackType
from typing import Any, Iterable, List, Optional, Type

from .addresses import Address
from .replies import Counted, Receipt
from .session import Items, Session
from .spread import Spread


class Shards(Spread[Session]):
    """Servers of which each has some queues and exchangers: of N addresses the first has 0, N, 2 N and so on, the second 1, N + 1
    and so on. Each client of these needs the same addresses in the same order.

    It has the calls of `Session`, each asked in a session of its server, which is made as it is used first, with `options`, the
    keyword arguments of a session. Each leases a number of its own, unless its address has one. What a session promises holds of
    each server alone: a server that is away ends only calls of its own queues and exchangers, and between calls to several there
    is no order. `session(queue)` is where `again`, `give_up`, `last` and `unsettled` are.
    """

    def __init__(self, addresses: Iterable[Address], **options: Any) -> None:
        super().__init__(Session, addresses, options)

    def __enter__(self) -> "Shards":
        return self

    def __exit__(self, kind: Optional[Type[BaseException]], fault: Optional[BaseException],
                 trace: Optional[TracebackType]) -> None:
        self._closed = True
        with contextlib.ExitStack() as ends:
            for one in self.used():
                ends.callback(one.__exit__, kind, fault, trace)

    def close(self) -> None:
        """Closes each session, as `Session.close` does."""
        self.__exit__(None, None, None)

    def put(self, queue: int, item: str, timeout: Optional[float] = None) -> None:
        """As `Session.put`."""
        self.session(queue).put(queue, item, timeout)

    def transfer(self, queue: int, item: str) -> Receipt:
        """As `Session.transfer`."""
        return self.session(queue).transfer(queue, item)

    def try_transfer(self, queue: int, item: str, timeout: Optional[float] = None) -> Optional[Receipt]:
        """As `Session.try_transfer`."""
        return self.session(queue).try_transfer(queue, item, timeout)

    def take(self, queue: int) -> str:
        """As `Session.take`."""
        return self.session(queue).take(queue)

    def poll(self, queue: int, timeout: Optional[float] = None) -> Optional[str]:
        """As `Session.poll`."""
        return self.session(queue).poll(queue, timeout)

    def items(self, queue: int) -> Items:
        """As `Session.items`."""
        return self.session(queue).items(queue)

    def drain(self, queue: int, max: int) -> List[str]:
        """As `Session.drain`."""
        return self.session(queue).drain(queue, max)

    def exchange(self, exchanger: int, item: str, timeout: Optional[float] = None) -> str:
        """As `Session.exchange`."""
        return self.session(exchanger).exchange(exchanger, item, timeout)

    def count(self, queue: int) -> Counted:
        """As `Session.count`."""
        return self.session(queue).count(queue)

    def peek(self, queue: int) -> Optional[str]:
        """As `Session.peek`."""
        return self.session(queue).peek(queue)
