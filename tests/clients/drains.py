"""Drains of both clients on a server: items of puts and of transfers, in order, and the longest answer."""
import rendezvous as rv
from tests.clients import java
from tests.clients.receipts import judged, session
from tests.sockets.hosts import serving
from tests.sockets.wire import demand, together, until

# An item of as many bytes as an item may have, each of which is written in six.
LONGEST = "\u0001" * 512


def both_drain_in_order(program: str) -> None:
    """Two clients give, by puts and by a transfer that waits; a third takes what is there, oldest first."""
    with serving(program, 4, 3) as server:
        with session(server, 1) as giver, session(server, 2) as waiter, session(server, 3) as taker:
            giver.put(3, "a")

            def drain():
                until("a transfer", lambda: giver.count(3).items == 2)
                giver.put(3, "c")
                return [taker.drain(3, most) for most in (2, 16, 1)]

            receipt, drained = together(lambda: waiter.transfer(3, "b"), drain)
        demand(drained == [["a", "b"], ["c"], []], f"it drained {drained}")
        demand(receipt == rv.Receipt(rv.Key(1, 2, 1, 1), rv.Key(1, 3, 1, 1)), f"{receipt}")
        judged(server)


def the_longest_answer(program: str) -> None:
    """Sixteen items of as many bytes as there may be, each in Python and in Java."""
    with serving(program, 2, 1 if java.missing() else 2) as server:
        with session(server, 1) as one:
            for _ in range(36):
                one.put(3, LONGEST)
            demand(one.drain(3, 16) == [LONGEST] * 16, "Python drained others")
            if java.missing():
                demand(one.drain(3, 16) + one.drain(3, 16) == [LONGEST] * 20, "Python drained others")
            else:
                in_java(server.port)
            left = one.count(3)
            demand((left.items, left.consumers) == (0, 0), "something is left")
        judged(server)


def in_java(port):
    """The 20 items that are left, in two steps."""
    with java.driver() as driver:
        driver.expect(f"open {port} 2 120000", "result open")
        driver.expect("drain 18", "result 18")
        driver.expect("drain", "result 2")
        driver.expect("drained", f"result [{', '.join([LONGEST] * 20)}]")
        driver.expect("drain", "result 0")


CASES = [both_drain_in_order, the_longest_answer]
