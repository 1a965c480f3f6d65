"""Scenes of the Java client over a scripted server, each in a program of its own: threads that end, interrupts,
closes, times, and what the machine runs out of."""
import contextlib
import json
import os
import pathlib
import queue
import socket
import subprocess
import tempfile
import threading

from scripted import HANG_UP, SILENCE, Scripted, received_by, refused, reply, waiting, welcome
from tests.clients import java
from tests.sockets.wire import demand, frame, until

# How long a scene may say nothing, in seconds.
LIMIT = int(os.environ.get("RV_PATIENCE", "120"))
STATE = "threw IllegalStateException: "
USED_UP = STATE + "more threads than the 2 clients"
BUSY = STATE + "a session asks one request at a time: another thread's call runs"


class Program:
    """A scene's Java program, which prints lines and waits for lines."""

    def __init__(self, scene, port, options):
        words = java.command("rendezvous.Scenes", scene, port)
        words[1:1] = options
        if scene == "no-descriptors":
            # a runtime in a container reads its limits now and then, by a descriptor of its own
            words[1:1] = ["-XX:-UseContainerSupport"]
            words = ["bash", "-c", 'ulimit -n 80 && exec "$@"', "bash", *words]
        self.process = subprocess.Popen(words, stdin=subprocess.PIPE, stdout=subprocess.PIPE, text=True,
                                        encoding="utf-8")
        self.lines = queue.Queue()
        threading.Thread(target=self.read, daemon=True).start()

    def read(self):
        """Keeps each line that it prints, and an end."""
        for line in self.process.stdout:
            self.lines.put(line.rstrip("\n"))
        self.lines.put("ends")

    def line(self):
        """The next line that it prints; or that it hangs."""
        try:
            return self.lines.get(timeout=LIMIT)
        except queue.Empty:
            return "hangs"

    def expect(self, *wanted):
        """It must print these lines next."""
        for line in wanted:
            got = self.line()
            demand(got == line, f"it prints {got!r}, not {line!r}")

    def go(self, line=""):
        """Gives it the line that it waits for."""
        self.process.stdin.write(line + "\n")
        self.process.stdin.flush()


class Meeting(Scripted):
    """A server that is well, and holds each request that gives this item until so many of them are there."""

    def __init__(self, item, count):
        super().__init__()
        self.otherwise, self.item, self.barrier = well, item, threading.Barrier(count)

    def deed_for(self, came):
        deed = super().deed_for(came)
        if came.get("item") == self.item:
            self.barrier.wait(LIMIT)
        return deed


@contextlib.contextmanager
def playing(scene, port, *options):
    """A scene that ends with the block."""
    program = Program(scene, port, options)
    try:
        yield program
    finally:
        program.process.kill()
        program.process.communicate()


@contextlib.contextmanager
def scripted(*deeds, otherwise=None):
    """A scripted server that is well behind its deeds, where nothing else is said."""
    with Scripted(*deeds) as server:
        server.otherwise = otherwise or well
        yield server


def well(asked):
    """A deed: what a server that is well tells."""
    if asked["kind"] == "hello":
        return welcome(asked)
    return reply("cancelled" if asked["kind"] == "cancel" else "done")(asked)


def lost(asked):
    """A deed: each request is lost."""
    return welcome(asked) if asked["kind"] == "hello" else HANG_UP


def prints(scene, wanted, *deeds, otherwise=None):
    """A scene that prints just these lines; what the server heard in it."""
    with scripted(*deeds, otherwise=otherwise) as server, playing(scene, server.port) as program:
        program.expect(*wanted, "ends")
        return server


def open_at(server):
    """How many connections are open at a server."""
    return sum(one.fileno() >= 0 for one in server.open)


@java.in_time
def a_dead_threads_unsettled_request(_program: str) -> None:
    """Anybody may settle it, and then its number is used again, by whichever threads put at a time."""
    with Meeting("d", 2) as server, playing("dead-unsettled", server.port) as program:
        server.otherwise = lost
        program.expect("threw Unsettled of 1/1/1/1", "threw Unsettled of 1/2/1/1", USED_UP, "[1/1/1/1, 1/2/1/1]")
        server.otherwise = well
        program.go()
        program.expect("gave Done[key=1/1/1/1]", "gave Cancelled[key=1/2/1/1]", "[]", *["gave done"] * 3, "ends")
        asked = sorted((one["client"], one["number"]) for one in server.heard if one["kind"] == "request")
        demand(asked[-1:] == [(2, 2)] and asked.count((1, 2)) == asked.count((1, 3)) == asked.count((2, 2)) == 1, f"{asked}")


def an_ended_session(_program: str) -> None:
    """Nobody gets it, neither a new thread nor its own, as long as there are other numbers."""
    wanted = ["threw EpochEnded of 1/1/1/1", "gave done", "gave done"]
    server = prints("dead-ended", wanted, welcome, HANG_UP, refused(2, current=5))
    demand([(one["client"], one.get("number")) for one in server.heard[3:]] == [(2, None), (2, 1), (2, 2)], "others")
    deeds = [welcome, HANG_UP, refused(2, current=5), welcome, reply("done"), refused(3)]
    ended = STATE + "the session has ended: start another"
    prints("ended", ["threw EpochEnded of 1/1/1/1", "gave done", "threw EpochEnded of 1/2/1/2", ended, USED_UP], *deeds)


def anew(epoch):
    """Deeds: the server was started anew in this epoch, and welcomes who comes."""
    return [refused(2, current=epoch), lambda asked: welcome(asked, epoch)]


# Each call of a scene, its answer and what it gives; the last ones only look.
COUNTED = reply("counted", items=1, consumers=2)
RESTARTED = [
    ("put", reply("done"), "done"), ("transfer", received_by(2, 3, 4), "Optional[{epoch}/2/3/4]"),
    ("tryTransfer", reply("nobody"), "false"), ("timed tryTransfer", reply("timedout"), "false"),
    ("take", reply("item", item="b"), "b"), ("poll", reply("item", item="b"), "b"),
    ("drainTo", reply("drained", texts=["b"]), "1"), ("exchange", reply("swapped", item="b"), "b"),
    ("takeAsync", reply("item", item="b"), "b"), ("size", COUNTED, "1"), ("isEmpty", COUNTED, "false"),
    ("getWaitingConsumerCount", COUNTED, "2"), ("hasWaitingConsumer", COUNTED, "true"), ("peek", reply("peeked", item="p"), "p")]
LOOKS = RESTARTED[9:]


def a_restart_before_each_call(_program: str) -> None:
    """Nobody met it, so it is asked again in a new session, in the new epoch."""
    epochs = range(2, 2 + len(RESTARTED))
    deeds = [deed for epoch, (_, answer, _) in zip(epochs, RESTARTED) for deed in (reply("done"), *anew(epoch), answer)]
    wanted = [f"{call} gave {gives.format(epoch=epoch)}" for epoch, (call, _, gives) in zip(epochs, RESTARTED)]
    server = prints("restarts", wanted, welcome, *deeds)
    requests = [(one["epoch"], one["number"]) for one in server.heard if one["kind"] == "request"]
    # the second request of an epoch, that one in the next one, and the put behind it
    told = [key for epoch in epochs for key in ((epoch - 1, 2 if epoch == 2 else 3), (epoch, 1), (epoch, 2))]
    demand(requests == [(1, 1), *told[:-1]], f"{requests}")


def a_restart_in_calls_that_look(_program: str) -> None:
    """They don't fail for it, also where a copy was lost, and where the server took the same epoch again."""
    for lost in (HANG_UP, refused(11)):
        deeds = [deed for epoch, (_, answer, _) in enumerate(LOOKS, 2) for deed in (lost, *anew(epoch), answer)]
        prints("restart-looks", [f"{call} gave {gives}" for call, _, gives in LOOKS], welcome, *deeds)
    deeds = [deed for _, answer, _ in LOOKS for deed in (HANG_UP, refused(3), welcome, answer)]
    prints("restart-looks", [f"{call} gave {gives}" for call, _, gives in LOOKS], welcome, *deeds)


def an_interrupt_behind_a_restart(_program: str) -> None:
    """Cancels the request of the new epoch."""
    with scripted(welcome, *anew(5), SILENCE) as server, playing("restart-interrupted", server.port) as program:
        until("a take in the new epoch", lambda: len(server.heard) == 4)
        program.go()
        program.expect("threw InterruptedException", "gave done", "ends")
        demand([one["kind"] for one in server.heard[4:]] == ["cancel", "request"], f"{server.heard}")


# What a session tells of its last outcome: at its begin, behind a take, and behind a put that ends so.
LAST = ["last gave Optional.empty", "take gave a", "last gave Optional[Item[key=1/1/1/1, item=a]]",
        "put threw {} of 1/1/1/2", "last gave Optional.empty"]


def the_last_outcome(_program: str) -> None:
    """Is that of the last settled request, and none where another was begun since."""
    prints("stale", [line.format("Refused") for line in LAST], welcome, reply("item", item="a"), refused(1))


@java.in_time
def no_outcome_where_there_is_no_room(_program: str) -> None:
    """Where a put is refused until the patience ends, none is the last."""
    deeds = [welcome, reply("item", item="a")]
    prints("stale-and-full", [line.format("Full") for line in LAST], *deeds, otherwise=refused(10))


def close_in_a_call(_program: str) -> None:
    """A take that waits ends by what is known of it, and nothing is asked after that. What is unsettled stays so."""
    for deeds, known in [((SILENCE,), "asked"), ((waiting, SILENCE), "accepted")]:
        with scripted(welcome, *deeds) as server, playing("close-in-a-call", server.port) as program:
            until("a take", lambda: len(server.heard) == 1 + len(deeds))
            program.go()
            program.expect(f"take gave Unsettled: {known}, and never answered: the session was closed (request 1/1/1/1)",
                           "put " + STATE + "the clients are closed", "[1/1/1/1]", "ends")
            demand(len(server.heard) == 1 + len(deeds), f"{server.heard}")


def a_close_after_a_cancel(_program: str) -> None:
    """Waits for what becomes of the cancel: the item that comes is unclaimed."""
    told = threading.Event()
    late = lambda asked: told.wait(2 * LIMIT) and reply("item", item="late")(asked)
    with scripted() as server, playing("close-and-cancel", server.port) as program:
        server.otherwise = silent_then(late)
        heard_of(server, 1)
        program.go()
        program.expect("cancel true")
        heard_of(server, 2)
        program.go()
        program.expect("closes")
        told.set()
        program.expect("gave an end, unclaimed [late], unsettled []", "ends")


def a_threads_last_outcome(_program: str) -> None:
    """Is none where its last call asked nothing, whatever the one before it told."""
    calls = ["threw InterruptedException", "threw IllegalArgumentException", "threw IllegalArgumentException",
             STATE + "the clients are closed"]
    prints("last", [line for number, call in enumerate(calls, 1) for line in (
        f"put gave done, last Optional[Done[key=1/1/1/{number}]]", f"{call}, last Optional.empty")])


def close_in_a_pause(_program: str) -> None:
    """A put that waits for its next try ends too, and no connection is made any more."""
    with socket.socket() as listener:
        listener.bind(("127.0.0.1", 0))
        with playing("close-in-a-pause", listener.getsockname()[1]) as program:
            program.expect("put gave NotAsked: nothing was sent: the session was closed")
            listener.listen()
            listener.settimeout(0.5)
            with contextlib.suppress(TimeoutError):
                demand(not listener.accept(), "a connection came")


def full_memory(_program: str) -> None:
    """An error in the midst of a frame throws the link away."""
    told, connections = threading.Event(), []

    def long(asked):
        told.wait(2 * LIMIT)
        return frame(json.dumps(reply("done")(asked)).encode().ljust(65_535))

    def counts(asked):
        connections.append((asked["kind"], server.connections))
        return reply("done")(asked)

    options = ["-Xmx24m", "-XX:+UseSerialGC", "-XX:-UseTLAB"]
    with scripted(welcome, long, counts, counts) as server, \
            playing("full-memory", server.port, *options) as program:
        until("a put", lambda: len(server.heard) == 2)
        program.go()
        program.expect("fills", "full")
        told.set()
        program.expect("put threw java.lang.OutOfMemoryError: Java heap space", "again gave Done[key=1/1/1/1]", "ends")
        demand(connections == [("request", 2)], f"{connections}")


def two_threads(_program: str) -> None:
    """A second thread is told that a call runs, which goes on."""
    told = threading.Event()
    holds = lambda asked: told.wait(2 * LIMIT) and reply("item", item="a")(asked)
    with scripted(welcome, holds) as server, playing("two-threads", server.port) as program:
        until("a take", lambda: len(server.heard) == 2)
        program.go()
        program.expect("unsettled gave false, []", f"again {BUSY}", f"give up {BUSY}", f"put {BUSY}")
        told.set()
        program.expect("take gave a", "ends")
        demand(len(server.heard) == 2, f"{server.heard}")


def cancelled_though_nobody_asked(_program: str) -> None:
    """Which each call tells by an exception."""
    prints("not-ordered", ["threw CancellationException"] * 12, welcome, *[reply("cancelled")] * 12)


def replies_that_a_call_cannot_have(_program: str) -> None:
    """Show that the link is out of step, and the call asks on."""
    drained = reply("drained", texts=[])
    told = [(reply("nobody"), reply("done"), "put gave done"),
            (reply("empty"), reply("item", item="a"), "take gave a"),
            (reply("timedout"), reply("empty"), "poll gave null"),
            (reply("timedout"), reply("nobody"), "tryTransfer gave false"), (reply("done"), drained, "drainTo gave 0"),
            (reply("peeked", item="p"), reply("swapped", item="s"), "exchange gave s"),
            (reply("nobody"), received_by(2, 3, 4), "transfer gave Optional[1/2/3/4]"),
            (reply("drained", texts=[]), reply("counted", items=1, consumers=2), "size gave 1")]
    deeds = [deed for wrong, right, _ in told for deed in (wrong, right)]
    server = prints("not-possible", [line for _, _, line in told], welcome, *deeds)
    demand(server.connections == 1 + len(told), f"{server.connections} connections came")


def for_ever(_program: str) -> None:
    """A time above a day is asked as for ever."""
    units = ["NANOSECONDS", "MICROSECONDS", "MILLISECONDS", "SECONDS", "MINUTES", "HOURS", "DAYS"]
    wanted = [f"{name} gave a" for name in [*units, "a day", "more"]]
    deeds = [*[reply("item", item="a")] * len(wanted), reply("timedout")]
    server = prints("for-ever", [*wanted, "no time gave null"], welcome, *deeds)
    waits = [one["wait"] for one in server.heard if one["kind"] == "request"]
    demand(waits == ["forever"] * 7 + [86_400_000, "forever", 0], f"{waits}")


@java.in_time
def a_long_time(_program: str) -> None:
    """One that is asked as for ever ends at its time, by a cancel."""
    server = prints("long-time", ["put gave Done[key=1/1/1/1]", "brief gave TimedOut[key=1/1/1/2]",
                                  "last gave Optional[Cancelled[key=1/1/1/2]]"], welcome, reply("done"), SILENCE)
    demand([one.get("wait") for one in server.heard if one.get("call") == "take"] == ["forever"], f"{server.heard}")


def connections_of_dead_threads(_program: str) -> None:
    """Are used by other threads, and closed where none asks by them for long."""
    with Meeting("a", 5) as server, playing("dead-threads", server.port) as program:
        program.expect(*["gave done"] * 5)

        def is_one_left():
            program.go()
            program.expect("gave done")
            return open_at(server) == 1

        until("one connection", is_one_left)
        demand(server.connections == 5, f"{server.connections} connections came")
        program.go("ends")
        until("no connection", lambda: open_at(server) == 0)


@java.in_time
def a_pooled_thread(_program: str) -> None:
    """Each task behind one that ended unsettled gets another session, and the unsettled one is there."""
    with scripted(otherwise=lost) as server, playing("pooled", server.port) as program:
        program.expect("threw Unsettled of 1/1/1/1")
        server.otherwise = well
        program.go()
        program.expect("gave done")
        program.go()
        program.expect("gave done")
        program.go()
        program.expect("[1/1/1/1]", "gave Done[key=1/1/1/1]", "[]", "gave done", "ends")
        asked = [(one["client"], one["number"]) for one in server.heard if one["kind"] == "request"]
        demand(asked[-4:] == [(2, 1), (2, 2), (1, 1), (1, 2)], f"{asked}")


def an_interrupt_in_the_hello(_program: str) -> None:
    """Ends the call at once: nothing was sent."""
    for deed in (HANG_UP, SILENCE):
        with scripted(otherwise=deed) as server, playing("interrupted-hello", server.port) as program:
            until("a hello", lambda: server.heard)
            program.go()
            program.expect("threw InterruptedException", "within 30 seconds")
            demand({one["kind"] for one in server.heard} == {"hello"}, f"{server.heard}")
            server.otherwise = well
            program.go()
            program.expect("gave done", "ends")


def an_interrupt_while_the_server_is_away(_program: str) -> None:
    """Ends the call within a second, by what is known."""
    for deed in (HANG_UP, SILENCE):
        with scripted(welcome, otherwise=deed) as server, playing("interrupted-hello", server.port) as program:
            until("a request", lambda: len(server.heard) > 1)
            program.go()
            program.expect("threw Unsettled of 1/1/1/1, interrupted", "within 30 seconds")
            program.go()
            program.expect(STATE + "more threads than the 1 clients", "ends")


@java.in_time
def an_interrupt_in_again(_program: str) -> None:
    """Is obeyed before anything is asked, and cancels what is asked."""
    with scripted(welcome, otherwise=HANG_UP) as server, playing("interrupted-again", server.port) as program:
        program.expect("take threw Unsettled of 1/1/1/1")
        count = len(server.heard)
        server.otherwise = lambda asked: SILENCE if asked["kind"] == "request" else well(asked)
        program.expect("again threw InterruptedException", "give up threw InterruptedException")
        until("a request again", lambda: len(server.heard) > count)
        program.go()
        program.expect("threw InterruptedException", "within 30 seconds", "Optional[Cancelled[key=1/1/1/1]]", "ends")
        demand([one["kind"] for one in server.heard[count:]] == ["request", "cancel"], f"{server.heard[count:]}")


def a_nested_answer(_program: str) -> None:
    """Is no answer, and the link is thrown away."""
    depth = 32_000
    body = b'{"kind":"waiting","x":' + b"[" * depth + b"]" * depth + b"}"
    server = prints("nested", ["put gave Done[key=1/1/1/1]"], welcome, frame(body))
    demand(server.connections == 2, f"{server.connections} connections came")


def exceptions_read_back(_program: str) -> None:
    """Have their keys and words."""
    prints("serialized", [
        "Unsettled of 1/2/3/4: accepted, and never answered: a (request 1/2/3/4)",
        "NotAsked of null: nothing was sent: a",
        "NotAsked of 1/2/3/4: nothing was asked: the server was started anew before the request came, and is of epoch 9 "
        "(request 1/2/3/4)",
        "Full of 1/2/3/4: the server has no room, and nothing is in the queue (request 1/2/3/4)",
        "EpochEnded of 1/2/3/4: the server was started anew in the same epoch 1 (request 1/2/3/4)",
        "Replaced of 1/2/3/4: replaced by incarnation 9 (request 1/2/3/4)",
        "Refused of 1/2/3/4: refused 12, other version: the client's session in this incarnation speaks 2 "
        "(request 1/2/3/4)"])


@java.in_time
def an_unresolved_host(_program: str) -> None:
    """Is looked up with each connection."""
    with tempfile.TemporaryDirectory(prefix="rv-hosts-") as folder, scripted() as server:
        hosts = pathlib.Path(folder) / "hosts"
        hosts.write_text("127.0.0.1 other.test\n")
        with playing("unresolved", server.port, f"-Djdk.net.hosts.file={hosts}") as program:
            program.expect("put NotAsked: nothing was sent: rendezvous.test: the host is not known")
            hosts.write_text("127.0.0.1 rendezvous.test\n")
            program.go()
            program.expect("put gave done", "ends")


def numbers_of_sessions(_program: str) -> None:
    """A session that could not be made uses up none, and there is no other limit than theirs."""
    bad = "threw IllegalArgumentException"
    server = prints("used-up", ["threw ArithmeticException"] * 2 + ["gave done", bad, bad, "gave null"])
    demand([one["client"] for one in server.heard] == [1, 1], f"{server.heard}")


def no_descriptors(_program: str) -> None:
    """A link that cannot be made leaves none of its descriptors behind."""
    with scripted() as server, playing("no-descriptors", server.port) as program:
        program.expect("put threw NotAsked of null", "put gave done")
        told = []
        for free in range(5):
            told.append(program.line())
            program.expect("left []")
        demand(told[0] == "put with 0 threw NotAsked of null", f"{told}")
        demand(told[4] == "put with 4 gave done", f"{told}")


def heard_of(server, count):
    """Waits until so many messages came beside the hellos."""
    until(f"message {count}", lambda: sum(one["kind"] != "hello" for one in server.heard) >= count)


def silent_then(*cancels):
    """A deed: requests have no answer, and the cancels these in turn."""
    left = list(cancels)
    return lambda asked: welcome(asked) if asked["kind"] == "hello" else SILENCE if asked["kind"] == "request" else left.pop(0)(asked)


def a_cancelled_take(_program: str) -> None:
    """Of a future takes nothing; an item that reached it is the next one, or stands in what is unclaimed."""
    late = [reply("item", item="late"), reply("item", item="later")]
    with scripted() as server, playing("cancelled-take", server.port) as program:
        server.otherwise = silent_then(*late)
        for count, told in [(1, "cancel true, take gave late"), (3, "poll gave later, unclaimed []")]:
            heard_of(server, count)
            program.go()
            program.expect(told)
        program.expect("ends")
        demand(len(server.heard) == 5, f"{server.heard}")


def a_cancelled_transfer(_program: str) -> None:
    """Of a future tells what became of it: cancelled, received, or nothing where nothing is heard."""
    with scripted() as server, playing("cancelled-transfer", server.port) as program:
        server.otherwise = silent_then(reply("cancelled"), received_by(2, 3, 4), lambda asked: SILENCE)
        for count, told in [(1, "cancel true, threw CancellationException"),
                            (3, "cancel false, gave Receipt[key=1/1/1/2, by=Optional[1/2/3/4]]"),
                            (5, "cancel false, threw Unsettled of 1/2/1/1")]:
            heard_of(server, count)
            program.go()
            program.expect(told)
        program.expect("[1/2/1/1]", "ends")


def a_consumer(_program: str) -> None:
    """Ends by a close and by an interrupt, behind the item that reached it before."""
    with scripted(welcome, reply("item", item="a")) as server, playing("consumer", server.port) as program:
        server.otherwise = silent_then(reply("item", item="b"), reply("cancelled"))
        program.expect("does a")
        heard_of(server, 2)
        program.go()
        program.expect("does b", "gave an end")
        heard_of(server, 4)
        program.go()
        program.expect("gave an end, interrupted", "ends")


def a_wait_in_pieces(_program: str) -> None:
    """Is a new request for each; where a cancel is told that the piece timed out, no other one is asked."""
    late, hour = reply("timedout"), 3_600_000
    with scripted(welcome, late, late, reply("item", item="a")) as server, playing("pieces", server.port) as program:
        server.otherwise = silent_then(late)
        program.expect("gave a")
        heard_of(server, 4)
        program.go()
        program.expect("threw InterruptedException", "ends")
        asked = [(one["kind"], one["number"], one.get("wait")) for one in server.heard[1:]]
        demand(asked == [*(("request", number, hour) for number in range(1, 5)), ("cancel", 4, None)], f"{asked}")


@java.in_time
def times(_program: str) -> None:
    """A call with a time ends behind it and a second, long before the patience of 100 seconds, with a silent server and none."""
    with scripted(welcome, reply("done"), otherwise=SILENCE) as server, playing("times", server.port) as program:
        for told, least, most in [("threw Unsettled of 1/1/1/2", 1_300, 60_000), ("threw NotAsked of null", 800, 60_000)]:
            program.expect(told)
            took = int(program.line())
            demand(least <= took < most, f"it took {took} milliseconds")
        program.expect("NotAsked: nothing was sent: 127.0.0.1:1: connection refused", "ends")


CASES = [
    a_dead_threads_unsettled_request, an_ended_session, a_restart_before_each_call, a_restart_in_calls_that_look,
    an_interrupt_behind_a_restart, the_last_outcome, no_outcome_where_there_is_no_room, a_threads_last_outcome, close_in_a_call,
    a_close_after_a_cancel, close_in_a_pause, full_memory, two_threads, cancelled_though_nobody_asked,
    replies_that_a_call_cannot_have, for_ever, a_long_time, connections_of_dead_threads, a_pooled_thread,
    an_interrupt_in_the_hello, an_interrupt_while_the_server_is_away, an_interrupt_in_again, a_nested_answer,
    exceptions_read_back, an_unresolved_host, numbers_of_sessions, no_descriptors, times, a_cancelled_take,
    a_cancelled_transfer, a_consumer, a_wait_in_pieces]
