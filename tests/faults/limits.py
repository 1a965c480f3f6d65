"""A server that has no room for its account, few descriptors, or no threads."""
import os
import resource
import signal
import tempfile
from typing import Any

from tests.faults.system import HostileServer, System
from tests.model.account import Key
from tests.sockets.accounts import account_fault, read_account
from tests.sockets.ledger import Asked, Told
from tests.sockets.programs import Server
from tests.sockets.wire import Members, Peer, demand, frame, give, hello, replied, request, take, until

NO_ROOM = (1, b"run fault 2\n")
PUTS = 40
# Accepts that all fail.
ACCEPTS = 1_000


def a_talk(peer: Peer, client: int, count: int) -> tuple[Asked, Told]:
    """A client puts and takes so often; what it asked, and what it was told."""
    asked: Asked = {}
    told: Told = []
    for number in range(1, count + 1):
        key = Key(1, client, 1, number)
        call = give("put", f"item {number}") if number % 2 else take("now")
        reply: Members = {"reply": "done"} if number % 2 else {"reply": "item", "item": f"item {number - 1}"}
        peer.expect(request(key, call), replied(key, **reply))
        asked[key] = call
        told.append((key, reply))
    return asked, told


def ends_with(server: Server, wanted: tuple[int, bytes]) -> None:
    """The server must end with this status and these words."""
    got = (server.status(), server.said)
    demand(got == wanted, f"serve ended with {got}, not {wanted}")


def a_full_disk(program: str) -> None:
    """The account's printing fails at once; each client was told its replies before."""
    with open("/dev/full", "wb") as full, Server(program, workers=2, connections=1, stdout=full) as server:
        with server.greeted(1) as peer:
            a_talk(peer, 1, PUTS)
        ends_with(server, NO_ROOM)


def a_disk_that_fills(program: str) -> None:
    """So many bytes of the account have room: they are its front, and their whole lines agree with what was told. The
    clock can't be read, so each moment is 0, and each run's account has as many bytes."""
    system = System()
    system.be(clock=1)
    with HostileServer(program, system, workers=1, connections=1) as server:
        with server.greeted(1) as peer:
            asked, told = a_talk(peer, 1, PUTS)
        server.judged(asked, told)
        size = len(server.printed)
    for room in [0, 1, 16, 17, 18, 100, 1_000, size - 1, size]:
        with tempfile.TemporaryFile() as disk:
            def fills(room: int = room) -> None:
                signal.signal(signal.SIGXFSZ, signal.SIG_IGN)
                resource.setrlimit(resource.RLIMIT_FSIZE, (room, room))

            more: dict[str, Any] = {"stdout": disk, "preexec_fn": fills, "restore_signals": False}
            with HostileServer(program, system, workers=1, connections=1, **more) as server:
                with server.greeted(1) as peer:
                    asked, told = a_talk(peer, 1, PUTS)
                ends_with(server, NO_ROOM if room < size else (0, b""))
            disk.seek(0)
            printed = disk.read()
        demand(len(printed) == room, f"{len(printed)} bytes were printed where there is room for {room}")
        front_agrees(printed[: printed.rfind(b"\n") + 1], asked, told)


def front_agrees(printed: bytes, asked: Asked, told: Told) -> None:
    """Whole lines of an account's front must be legal, and have no reply but those that were told."""
    if printed:
        account = read_account(printed)
        arrived = [pair for pair in told if pair[0] in {getattr(entry.act, "key", None) for entry in account.entries}]
        fault = account_fault(account, asked, arrived)
        demand(not fault, f"the front of the account: {fault}")


def descriptors(server: Server) -> int:
    """How many descriptors a server has open."""
    return len(os.listdir(f"/proc/{server.process.pid}/fd"))


def few_descriptors(program: str) -> None:
    """What can't be accepted for want of a descriptor counts as a connection; those that are open are served on."""
    for room in (0, 1, 3):
        with Server(program, workers=5, connections=9) as server:
            first = server.greeted(1)
            until("the server accepts again", server.rests)
            least = descriptors(server)
            resource.prlimit(server.process.pid, resource.RLIMIT_NOFILE, (least + room, least + room))
            # The accept that waits already has its descriptor.
            peers = [first, *(server.greeted(client) for client in range(2, 2 + max(1, room)))]
            until("who comes later is refused", lambda: is_refused(server))
            demand(server.runs(), "serve ended before its connections did")
            asked: Asked = {}
            told: Told = []
            for client, peer in enumerate(peers, 1):
                talk = a_talk(peer, client, 6)
                asked, told = {**asked, **talk[0]}, told + talk[1]
                peer.close()
            account = server.judged(asked, told)
            demand(len(account.entries) == 7 * len(peers), f"the account has {len(account.entries)} entries")


def is_refused(server: Server) -> bool:
    """Whether a connection is refused, or ends with no answer."""
    try:
        with server.connect() as peer:
            peer.send(frame(hello(99)))
            return not peer.more()
    except ConnectionError:
        return True


def no_thread(program: str) -> None:
    """Where no thread can be started nothing is served, and the account is printed all the same."""
    for workers in (1, 5, 64):
        system = System()
        system.be(thread=1)
        with HostileServer(program, system, workers, connections=3) as server:
            ends_with(server, (1, b"serve fault 1\n"))
            demand(server.printed == b"epoch 1 opened 0\n", f"printed {server.printed!r}")
            demand(system.made("thread") >= workers, "a thread was not asked for")


def threads(server: Server) -> int:
    """How many threads a server has; none where it has ended."""
    try:
        return len(os.listdir(f"/proc/{server.process.pid}/task"))
    except OSError:
        return 0


def few_threads(program: str) -> None:
    """A worker that can't be started is left out; the others serve all connections, one after another at least."""
    for seed in range(1, 9):
        system = System(seed)
        system.be(thread=2)
        with HostileServer(program, system, workers=8, connections=6) as server:
            until("threads are started, or none was", lambda: not server.runs() or threads(server) > 1)
            if not server.runs():
                ends_with(server, (1, b"serve fault 1\n"))
                demand(server.printed == b"epoch 1 opened 0\n", f"printed {server.printed!r}")
                continue
            asked: Asked = {}
            told: Told = []
            for client in range(1, 7):
                with server.greeted(client) as peer:
                    talk = a_talk(peer, client, 6)
                asked, told = {**asked, **talk[0]}, told + talk[1]
            server.judged(asked, told)


def one_thread_less(program: str) -> None:
    """Whichever of the workers can't be started, the last one too: the others serve, as many connections at once as they are."""
    for workers, refused in [(2, 1), (3, 1), (3, 2), (2, 2), (3, 3), (64, 64)]:
        system = System()
        system.be(thread_at=refused)
        with HostileServer(program, system, workers, connections=workers) as server:
            peers = [server.greeted(client) for client in range(1, workers)]
            demand(system.made("thread") == 1, f"{system.made('thread')} threads of {workers} were refused")
            asked: Asked = {}
            told: Told = []
            for client, peer in enumerate(peers, 1):
                talk = a_talk(peer, client, 2)
                asked, told = {**asked, **talk[0]}, told + talk[1]
                peer.close()
            server.greeted(workers).close()
            server.judged(asked, told)


def accepts_that_fail(program: str) -> None:
    """Behind each accept that fails there is a pause. Here all of them end at once, and are counted."""
    system = System()
    system.be(accept=1, sleep=1)
    with HostileServer(program, system, workers=1, connections=ACCEPTS) as server:
        demand(server.ended().entries == (), "the account has entries")
    failed, pauses = system.made("accept"), system.made("sleep")
    demand(failed >= ACCEPTS and pauses >= ACCEPTS, f"{failed} accepts failed, and {pauses} pauses were made")


CASES = [a_full_disk, a_disk_that_fills, few_descriptors, no_thread, few_threads, one_thread_less,
         accepts_that_fail]
