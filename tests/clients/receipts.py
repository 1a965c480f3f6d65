"""Receipts of both clients on a server: who is told which consumer received, by the versions of sessions."""
import rendezvous as rv
from tests.clients import java
from tests.model.tables import table_audit
from tests.sockets.hosts import serving
from tests.sockets.wire import demand, together


def session(server, number, incarnation=1, **more):
    """A session of a client. It waits long for each answer, so that a slow machine does not have it connect anew: the
    server ends after as many connections as there are sessions."""
    return rv.Session(("127.0.0.1", server.port), number, incarnation, patience=120, answer=60, connect_timeout=None, **more)


def judged(server):
    """The server ends behind its connections, and its account is legal."""
    account = server.ended()
    server.audited()
    fault = table_audit(account)
    demand(not fault, f"place {fault} of the account")


def handed_over(giver, taker, by):
    """The taker takes what the giver transfers, and the receipt names this consumer."""
    receipt, item = together(lambda: giver.transfer(3, "a"), lambda: taker.take(3))
    demand((receipt.by, item) == (by, "a"), f"{receipt}, {item}")


def of_each_version(program: str) -> None:
    """A session of version 2 is told who received its item, whatever version the consumer speaks; one of
    version 1 is not."""
    with serving(program, 6, 3) as server:
        with session(server, 1) as first, session(server, 2, version=1) as second, \
                session(server, 3) as third:
            handed_over(first, second, rv.Key(1, 2, 1, 1))
            handed_over(first, third, rv.Key(1, 3, 1, 1))
            handed_over(second, third, None)
        judged(server)


def one_version_a_session(program: str) -> None:
    """A hello in another version than its session's is refused; a greater incarnation may speak another."""
    with serving(program, 8, 6) as server:
        with session(server, 1), session(server, 2, version=1):
            for number, version in [(1, 1), (2, 2)]:
                fault = refused(server, number, version)
                told = (fault.number, fault.name, fault.current)
                demand(told == (12, "other version", 3 - version), f"{fault}")
        with session(server, 1, 2, version=1) as first, session(server, 2, 2) as second:
            handed_over(second, first, rv.Key(1, 1, 2, 1))
            handed_over(first, second, None)
        judged(server)


def refused(server, number, version):
    """What a hello in another version than its session's is told."""
    try:
        with session(server, number, version=version):
            pass
    except rv.Refused as fault:
        return fault
    return demand(False, f"client {number} is welcome in version {version}")


def between_python_and_java(program: str) -> None:
    """Python gives to Java and Java to Python, and each is told who received."""
    with serving(program, 4, 2) as server, session(server, 1) as one:
        with java.driver() as driver:
            driver.expect(f"open {server.port} 2 120000", "result open")
            receipt, taken = together(lambda: one.transfer(3, "a"), lambda: driver.tell("take"))
            demand((receipt.by, taken) == (rv.Key(1, 2, 1, 1), "result a"), f"{receipt}, {taken}")
            told, item = together(lambda: driver.tell("transfer-receipt b"), lambda: one.take(3))
            demand((told, item) == ("result 1/2/1/2 by 1/1/1/2", "b"), f"{told}, {item}")
        one.close()
        judged(server)


CASES = [of_each_version, one_version_a_session]
WITH_JAVA = [between_python_and_java]
