"""A host in a system that lacks something: descriptors, space on the disk, memory, a reader of what it says, a clock that goes
on evenly."""
from __future__ import annotations

import fcntl
import os
import pathlib
import re
import resource
import signal
import subprocess
import tempfile
import threading
import time

from tests.faults.limits import a_talk, front_agrees
from tests.faults.system import HostileHost, System
from tests.host.many import closing, connected
from tests.model.account import Key
from tests.model.records import parted
from tests.sockets.ledger import Asked, Told
from tests.sockets.hosts import Host
from tests.sockets.plain import Looker, in_its_own_frame
from tests.sockets.wire import (
    PATIENCE, Peer, demand, frame, give, hello, replied, request, take, until, welcome)

# Puts and takes of a talk, and of a piece.
TALK, PIECE = 20, 16
# The bytes of an account's first line in epoch 1.
HEAD = len(b"epoch 1 opened 0\n")
# Of what a busy loop gets in so many seconds a host that lacks descriptors takes at most such a part, and some seconds. Within so
# many it is found asleep.
WATCHED, SHARE, SOME, ASLEEP = 1.0, 0.2, 0.05, 20
HOUR, DAY = 3_600, 86_400
# An epoch that no clock shows.
GREAT = 10**15
# So many seconds later a host has looked over its connections, and told what went wrong.
SETTLES = 2
# The status of `rv verify` where the end is torn.
TORN = 3


def processor(host: Host) -> float:
    """The processor seconds that the host took so far."""
    took = pathlib.Path(f"/proc/{host.process.pid}/stat").read_text().rpartition(")")[2].split()[11:13]
    return sum(map(int, took)) / os.sysconf("SC_CLK_TCK")


def spin(seconds: float) -> float:
    """The processor seconds that a busy loop got in so many seconds, as the machine's other work allows."""
    before, ends = time.process_time(), time.monotonic() + seconds
    while time.monotonic() < ends:
        pass
    return time.process_time() - before


def few_descriptors(program: str) -> None:
    """Where descriptors run out who is connected is served, and the host does nothing meanwhile; who waited to be accepted is,
    once some are free, with no further connection to wake it."""
    with Host(program) as host:
        first = host.greeted(1)
        until("the host rests", host.rests)
        open_now = len(os.listdir(f"/proc/{host.process.pid}/fd"))
        resource.prlimit(host.process.pid, resource.RLIMIT_NOFILE, (open_now + 2, open_now + 2))
        second, third = host.greeted(2), host.greeted(3)
        with closing([connected(host.port, 1)[0] for _ in range(3)]) as late:
            for client, peer in enumerate(late, 4):
                peer.send(frame(hello(client)))
            until("a host without descriptors sleeps", lambda: host.waits() is not None, ASLEEP)
            before, own = processor(host), spin(WATCHED)
            took = processor(host) - before
            demand(took < SOME + SHARE * own, f"a host without descriptors takes {took:.2f} seconds beside {own:.2f} of a busy loop")
            asked, told = a_talk(first, 1, TALK)
            second.close()
            third.close()
            for client, peer in enumerate(late[:2], 4):
                demand(peer.hear() == welcome(client), f"client {client} is not accepted when descriptors are free")
            first.close()
            demand(late[2].hear() == welcome(6), "the last one is not accepted when a descriptor is free")
        host.judged(asked, told)


def more_than_its_connections(program: str) -> None:
    """Who comes beyond --connections is served when another one goes."""
    with Host(program, options=("--connections", "3")) as host:
        peers = [host.greeted(client) for client in (1, 2, 3)]
        with closing([connected(host.port, 1)[0] for _ in range(3)]) as late:
            for client, (peer, old) in enumerate(zip(late, peers), 4):
                peer.send(frame(hello(client)))
                until("the host rests", host.rests)
                demand(host.accepted() == 3, f"{host.accepted()} connections are accepted")
                old.close()
                demand(peer.hear() == welcome(client), f"client {client} is not served in its turn")
        host.judged({}, [])


# ---- the disk

def a_disk_that_fills(program: str) -> str:
    """The disk takes so many bytes of the account, and then no more: the host ends by a line that says so, with status 1; all
    that was answered stands in whole lines, and `rv verify` tells a torn end."""
    rooms = [HEAD, HEAD + 1, HEAD + 40, *range(500, 3_500, 250)]
    texts = [filled(program, room) for room in rooms]
    torn = sum(ends_torn(program, text) for text in texts)
    demand(0 < torn < len(rooms), f"{torn} of {len(rooms)} accounts end torn")
    # where a cut falls in a line hangs on its moment, so that one before a line feed is made
    demand(not ends_torn(program, texts[-1][: texts[-1].rfind(b"\n")]), "a line without its line feed is torn")
    return f"{len(rooms)} disks, {torn} torn ends"


def talked(host: Host) -> tuple[Asked, Told]:
    """A client puts and takes one at a time, and then puts in one piece, for as long as the host answers: what it asked, and
    what it was told."""
    asked: Asked = {}
    told: Told = []
    try:
        with host.connect() as peer:
            peer.expect(hello(1), welcome(1))
            for number in range(1, 1 + TALK):
                ask_one(peer, number, asked, told)
            keys = [Key(1, 1, 1, number) for number in range(1 + TALK, 1 + TALK + PIECE)]
            asked.update((key, give("put", f"item {key.number}")) for key in keys)
            peer.send(b"".join(frame(request(key, asked[key])) for key in keys))
            for key in keys:
                got = peer.hear()
                if got is None:
                    break
                demand(got == replied(key, reply="done"), f"{key} was answered {got!r}")
                told.append((key, {"reply": "done"}))
    except ConnectionError:
        pass
    return asked, told


def ask_one(peer: Peer, number: int, asked: Asked, told: Told) -> None:
    """A put, or a take of what was put before it."""
    key = Key(1, 1, 1, number)
    asked[key] = give("put", f"item {number}") if number % 2 else take("now")
    reply: dict[str, object] = {"reply": "done"} if number % 2 else {"reply": "item", "item": f"item {number - 1}"}
    peer.send(frame(request(key, asked[key])))
    got = peer.hear()
    if got is None:
        raise ConnectionResetError("the connection ended")
    demand(got == replied(key, **reply), f"{key} was answered {got!r}")
    told.append((key, reply))


def filled(program: str, room: int) -> bytes:
    """A host whose disk takes so many bytes; what is written there."""
    system = System()
    system.be(disk=1 + room)
    with HostileHost(program, system) as host:
        asked, told = talked(host)
        status = host.status()
        last = host.said.splitlines()[-1:]
        demand(status == 1 and last and str(host.account).encode() in last[0],
               f"a host whose disk takes {room} bytes ends with {status} and says {host.said!r}")
        text = host.written()
        demand(len(text) == room, f"{len(text)} bytes were written where there is room for {room}")
        whole = text[: text.rfind(b"\n") + 1]
        stands = [pair for pair in told if b'"number":%d,' % pair[0].number in whole]
        demand(stands == told, f"with room for {room} bytes {len(told)} replies were told, and {len(stands)} stand")
        front_agrees(whole, asked, told)
        return text


def ends_torn(program: str, text: bytes) -> bool:
    """Whether the end of an account is torn, as `rv verify` must say of it."""
    torn = parted(text)[1]
    with tempfile.TemporaryDirectory(prefix="rv-filled-") as folder:
        account = pathlib.Path(folder, "account")
        account.write_bytes(text)
        ran = subprocess.run([program, "verify", str(account)], capture_output=True, timeout=PATIENCE)
    wanted = (b"legal\n" + b"torn end\n" * torn, TORN * torn)
    demand((ran.stdout, ran.returncode) == wanted,
           f"rv verify says {ran.stdout!r} with {ran.returncode} of {text[-200:]!r}: {ran.stderr!r}")
    return torn


def no_room_to_start(program: str) -> None:
    """A disk that doesn't take the account's first line ends the host before it listens."""
    for room in (0, 1, HEAD - 1):
        system = System()
        system.be(disk=1 + room)
        with tempfile.TemporaryDirectory(prefix="rv-full-") as folder:
            account = pathlib.Path(folder, "account")
            words = [program, "host", "--listen", "127.0.0.1:0", "--epoch", "1", "--account", str(account)]
            ran = subprocess.run(words, capture_output=True, timeout=PATIENCE, env=system.env)
            demand(ran.returncode == 1 and str(account).encode() in ran.stderr, f"a host with no room for a line: {ran}")


def killed(program: str) -> None:
    """Clients put for as long as it runs, and it is killed among them: whatever was told stands in the whole lines."""
    with Host(program) as host:
        told: Told = []
        asked: Asked = {}

        def put(client: int) -> None:
            try:
                with host.greeted(client) as peer:
                    for number in range(1, 10**6):
                        key = Key(1, client, 1, number)
                        asked[key] = give("put", f"{client}#{number}")
                        if peer.ask(request(key, asked[key])) == replied(key, reply="done"):
                            told.append((key, {"reply": "done"}))
            except Exception:
                return

        clients = [threading.Thread(target=put, args=(client,)) for client in range(1, 9)]
        for client in clients:
            client.start()
        until("some puts are answered", lambda: len(told) > 500)
        host.process.send_signal(signal.SIGKILL)
        for client in clients:
            client.join()
        host.kill()
        record = [(key, reply) for key, reply in told]
        host.account.write_bytes(re.sub(rb"[^\n]*\Z", b"", host.written()))
        host.audited()
        host.verified(asked, record)


# ---- the wall clock

def a_clock_that_jumps(program: str) -> None:
    """The wall clock goes back an hour, and forward a day: waits end when they are to, and not before, and moments go on."""
    system = System()
    with HostileHost(program, system) as host, Looker(host) as looker:
        asked: Asked = {}
        began = time.monotonic()
        with host.greeted(1) as waits, host.greeted(2) as giver, host.greeted(3) as short:
            for number, wall in enumerate((-HOUR, DAY, 0), 1):
                wish, gift, limit = (Key(1, client, 1, number) for client in (1, 2, 3))
                asked |= {wish: take(HOUR * 1_000), gift: give("put", "a"), limit: take(200, queue=5)}
                waits.send(frame(request(wish, asked[wish])))
                looker.sees(consumers=1)
                system.be(wall=wall)
                sent = time.monotonic()
                short.expect(request(limit, asked[limit]), replied(limit, reply="timedout"))
                took = time.monotonic() - sent
                demand(took > 0.198, f"a wait of 200 milliseconds ended after {took:.3f} seconds when the clock went {wall}")
                giver.expect(request(gift, asked[gift]), replied(gift, reply="done"))
                in_its_own_frame(waits, wish, asked[wish], reply="item", item="a")
        most = 1_000 * (time.monotonic() - began) + 1_000 * PATIENCE
        account = host.judged(asked | looker.asked, [])
        last = account.entries[-1].moment - account.opened
        demand(last < most, f"the last moment is {last}")


def epochs_by_the_clock(program: str) -> None:
    """Without --epoch it is the wall clock's milliseconds; above --epoch-above, where the clock is behind that."""
    system = System()
    for wall, above in [(0, None), (-HOUR, None), (DAY, None), (0, 1), (0, GREAT)]:
        system.be(wall=wall)
        before = time.time()
        options = () if above is None else ("--epoch-above", str(above))
        with HostileHost(program, system, epoch=None, options=options) as host, host.connect() as peer:
            epoch = peer.told(hello(1))["epoch"]
            after = time.time()
        if above == GREAT:
            demand(epoch == GREAT + 1, f"the epoch above {GREAT} is {epoch}")
        else:
            demand(1_000 * (before + wall) - 1 <= epoch <= 1_000 * (after + wall) + 1, f"{wall}: the epoch is {epoch}")


# ---- standard error

def nobody_reads_what_it_says(program: str) -> None:
    """Its standard error is a pipe that is full: it starts and serves all the same."""
    read, write = os.pipe()
    try:
        os.write(write, b"x" * fcntl.fcntl(write, fcntl.F_SETPIPE_SZ, 4_096))
        with Host(program, stderr=write) as host:
            with host.greeted(1) as peer, host.greeted(2) as other:
                asked, told = a_talk(peer, 1, TALK)
                other.send(frame(hello(2)))
                other.reset()
                time.sleep(SETTLES)
                peer.expect(hello(1), welcome(1))
            host.judged(asked, told)
    finally:
        os.close(read)
        os.close(write)


CASES = [few_descriptors, more_than_its_connections, a_disk_that_fills, no_room_to_start, killed, a_clock_that_jumps,
         epochs_by_the_clock, nobody_reads_what_it_says]
