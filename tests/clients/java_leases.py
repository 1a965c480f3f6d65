"""Client numbers that Java programs lease: beside another language, over starts, kills and clocks."""
import contextlib
import os
import pathlib
import shutil
import socket
import subprocess
import tempfile
import time

from context import is_free, numbers, place_of
from rendezvous import leases
from scripted import Scripted, refused, welcome
from tests.clients import java
from tests.clients.java_scenes import well
from tests.sockets.wire import demand, until


class Holder:
    """A Java program that leases numbers, line by line, in an environment of its own."""

    def __init__(self, clients, **more):
        environment = {**os.environ, "RV_CLIENTS": clients if isinstance(clients, str) else told_of(clients), **more}
        self.process = subprocess.Popen(java.command("rendezvous.LeaseHolder"), stdin=subprocess.PIPE, stdout=subprocess.PIPE,
                                        text=True, env=environment)

    def tell(self, line):
        """What it prints for a line."""
        self.process.stdin.write(line + "\n")
        self.process.stdin.flush()
        return self.process.stdout.readline().rstrip("\n")

    def leases(self, client, line="lease"):
        """It must lease this number next; gives the incarnation."""
        told = self.tell(line)
        demand(told.partition(" ")[0] == str(client), f"it leases {told!r}, not {client}")
        return int(told.partition(" ")[2])

    def ends(self):
        """Ends it at once."""
        self.process.kill()
        self.process.communicate()


def told_of(clients):
    """A range as the environment says it."""
    return f"{clients[0]}-{clients[-1]}"


@contextlib.contextmanager
def holding(clients, **more):
    """A holder that ends with the block."""
    holder = Holder(clients, **more)
    try:
        yield holder
    finally:
        holder.ends()


def micros():
    """The clock, as an incarnation."""
    return time.time_ns() // 1_000


def beside_another_language(_program: str) -> None:
    """A number that Python has, or any socket, is another's, and one that Java has is no other's; a new one has the clock's
    microseconds."""
    clients = numbers()
    mine = leases.leased(clients)
    with holding(clients) as holder, socket.socket(socket.AF_INET, socket.SOCK_DGRAM) as other:
        other.bind(place_of(clients[1]))
        before = micros()
        incarnation = holder.leases(clients[2])
        demand(before <= incarnation <= micros(), f"incarnation {incarnation} is not the clock's")
        demand(not is_free(clients[2]), f"{clients[2]} is free")
        third = leases.leased(clients)
        demand((mine.client, third.client) == (clients[0], clients[3]), f"Python leases {mine.client} and {third.client}")
        mine.close()
        demand(holder.leases(clients[0]) > incarnation, "an incarnation is used again")
        third.close()
    demand(all(map(is_free, clients)), "a number is not given back")


def between_programs(_program: str) -> None:
    """Two programs never have a number at a time, nor two copies of the classes in one; a number that is given back, or whose
    program was killed, is leased anew in a greater incarnation."""
    clients = numbers()[:4]
    with holding(clients) as one, holding(clients) as other:
        first = one.leases(clients[0])
        other.leases(clients[1])
        one.leases(clients[2], "other")
        one.leases(clients[3])
        none = f"NoClientNumber: all client numbers {clients[0]} to {clients[-1]} are leased"
        demand(other.tell("lease") == none, "there is another number")
        demand(one.tell("other") == none, "another copy has another number")
        demand(one.tell("back") == "back", "it is not given back")
        one.leases(clients[3], "other")
        one.ends()
        demand(is_free(clients[0]) and is_free(clients[2]), "a dead program has a number")
        demand(other.leases(clients[0]) > first, "an incarnation is used again")


def environments(_program: str) -> None:
    """A range that is none is told by its variable's name. Whatever else the environment says, and whatever is deleted, a number
    that is in use is no other program's."""
    for clients in ("", "5", "2-1", "0-9", "a-b", "1-9007199254740992"):
        with holding(clients) as holder:
            told = holder.tell("lease")
            demand(told.startswith("IllegalArgumentException: RV_CLIENTS"), f"{clients!r}: {told}")
    clients = numbers()
    with tempfile.TemporaryDirectory(prefix="rv-leases-") as name:
        runtime = pathlib.Path(name, "runtime")
        runtime.mkdir()
        places = {"XDG_RUNTIME_DIR": str(runtime), "TMPDIR": name, "HOME": name}
        with holding(clients, **places) as one:
            one.leases(clients[0])
            shutil.rmtree(runtime)
            runtime.mkdir()
            environments: list[dict[str, str]] = [places, {"XDG_RUNTIME_DIR": "", "TMPDIR": name}, {}]
            for environment in environments:
                with holding(clients, **environment) as other:
                    other.leases(clients[1])


def a_clock_that_stands_or_goes_back(_program: str) -> None:
    """Each incarnation is above all before it in its process."""
    with holding(numbers()) as holder:
        told = [int(holder.tell(moment)) for moment in ("5000", "5000", "4000", "0", "5004", "9000")]
        demand(told == [5_000, 5_001, 5_002, 5_003, 5_004, 9_000], f"{told}")


def short_jobs(_program: str) -> None:
    """Jobs one after another use one number, each in a greater incarnation; jobs at a time use one each."""
    clients = numbers()
    with Scripted() as server:
        server.otherwise = lambda asked: welcome(asked) if asked["kind"] == "hello" else taken(asked)
        for _ in range(3):
            ran = consumed(server, clients)
            demand((ran.stdout, ran.stderr) == ("took a\n" * 3, ""), f"{ran.stdout} {ran.stderr}")
        hellos = [one for one in server.heard if one["kind"] == "hello"]
        demand([one["client"] for one in hellos] == [clients[0]] * 3, f"{hellos}")
        incarnations = [one["incarnation"] for one in hellos]
        demand(sorted(set(incarnations)) == incarnations, f"{incarnations}")
        server.otherwise = lambda asked: well(asked) if asked["kind"] == "hello" else "silence"
        words, environment = java.command("Consumer", "127.0.0.1", server.port), {**os.environ, "RV_CLIENTS": told_of(clients)}
        jobs = [subprocess.Popen(words, env=environment, stdout=subprocess.DEVNULL, stderr=subprocess.DEVNULL) for _ in range(2)]
        try:
            until("two hellos", lambda: sum(one["kind"] == "hello" for one in server.heard) == 5)
        finally:
            for job in jobs:
                job.kill()
                job.wait()
        last = sorted(one["client"] for one in server.heard if one["kind"] == "hello")[3:]
        demand(last == [*clients[:2]], f"{server.heard[-4:]}")


def consumed(server, clients):
    """What the consumer of the examples prints that leases from a range."""
    return subprocess.run(java.command("Consumer", "127.0.0.1", server.port), capture_output=True, text=True,
                          timeout=java.PATIENCE, env={**os.environ, "RV_CLIENTS": told_of(clients)})


def taken(asked):
    """A deed: a take gets an item."""
    key = {name: asked[name] for name in ("client", "epoch", "incarnation", "number")}
    return {"kind": "reply", **key, "reply": "item", "item": "a"}


def ahead(count):
    """A deed: the server has an incarnation that is so much greater."""
    return lambda asked: refused(4, current=asked["incarnation"] + count)


def a_clock_that_was_set_back(_program: str) -> None:
    """The first hello of a leased number is refused: a greater one is said in the same call, before anything is asked. A second
    word of that kind, or one behind a welcome, is another program's: this one stops."""
    with Scripted(ahead(1_000), welcome, taken, taken, taken) as server:
        server.otherwise = refused(9)
        ran = consumed(server, numbers())
        demand((ran.stdout, ran.stderr) == ("took a\n" * 3, ""), f"{ran.stdout} {ran.stderr}")
        kinds = [one["kind"] for one in server.heard]
        demand(kinds == ["hello"] * 2 + ["request"] * 3 and server.connections == 1, f"{kinds}, {server.connections}")
        first, *others = [one["incarnation"] for one in server.heard]
        demand(others == [first + 1_001] * 4, f"{first}, {others}")
    for deeds, kinds in (([ahead(1_000), ahead(5)], ["hello"] * 2), ([refused(4, current=2**53 - 1)], ["hello"]),
                         ([welcome, taken, ahead(1_000)], ["hello", "request", "request"])):
        with Scripted(*deeds) as server:
            server.otherwise = refused(9)
            ran = consumed(server, numbers())
            demand("RvException$Replaced" in ran.stderr, f"{ran.stdout} {ran.stderr}")
            demand([one["kind"] for one in server.heard] == kinds, f"{server.heard}")


CASES = [beside_another_language, between_programs, environments, a_clock_that_stands_or_goes_back, short_jobs,
         a_clock_that_was_set_back]
