"""A server that does what a script says: each frame that comes is met by the script's next deed."""
import json
import socket
import struct
import threading

SILENCE, HANG_UP = "silence", "hang up"
# A consumer of the greatest numbers.
BY = (2**53 - 1,) * 3


class Listening:
    """Listens on a port of this machine from `with` on until its end, at `address`, a text. Each connection that comes is
    handed to `meet`, one after another; behind the end none is."""

    def __init__(self):
        self.listener = socket.create_server(("127.0.0.1", 0))
        self.port = self.listener.getsockname()[1]
        self.address = f"127.0.0.1:{self.port}"

    def __enter__(self):
        self.accepting = threading.Thread(target=self.accept, daemon=True)
        self.accepting.start()
        return self

    def __exit__(self, *_):
        try:
            self.listener.shutdown(socket.SHUT_RDWR)
        except OSError:
            pass
        self.accepting.join()
        self.listener.close()

    def accept(self):
        """Takes connections until the listener is closed."""
        while True:
            try:
                connection, _ = self.listener.accept()
            except OSError:
                return
            self.meet(connection)

    def meet(self, connection):
        """What is done with a connection."""
        raise NotImplementedError


class Scripted(Listening):
    """`deeds` are, for each frame in turn over all connections: members or a list of members to answer, bytes to send as they
    are, `SILENCE`, `HANG_UP`, or a function of what came that gives one of these; behind all of them it is `otherwise`.
    `heard` has the members of each frame that came, `connections` how many were made."""

    def __init__(self, *deeds):
        super().__init__()
        self.deeds, self.heard, self.connections = list(deeds), [], 0
        self.lock, self.otherwise = threading.Lock(), SILENCE
        self.open = []

    def __exit__(self, *_):
        super().__exit__()
        for connection in self.open:
            hang_up(connection)

    def meet(self, connection):
        """Serves a connection in a thread of its own."""
        self.connections += 1
        self.open.append(connection)
        connection.setsockopt(socket.IPPROTO_TCP, socket.TCP_NODELAY, 1)
        threading.Thread(target=self.serve, args=(connection,), daemon=True).start()

    def serve(self, connection):
        """Meets each frame by a deed, until one closes the connection."""
        try:
            while True:
                body = body_from(connection)
                if body is None:
                    break
                deed = self.deed_for(json.loads(body))
                if deed == HANG_UP:
                    break
                if deed != SILENCE:
                    connection.sendall(bytes_of(deed))
        except OSError:
            pass
        connection.close()

    def deed_for(self, came):
        """The deed that meets what came."""
        with self.lock:
            # Who sees that it came may change what meets the next one.
            deed = self.deeds.pop(0) if self.deeds else self.otherwise
            self.heard.append(came)
            return deed(came) if callable(deed) else deed


def body_from(connection):
    """The next frame's body; None at the end."""
    head = connection.recv(2, socket.MSG_WAITALL)
    if len(head) < 2:
        return None
    return connection.recv(int.from_bytes(head, "big"), socket.MSG_WAITALL)


def hang_up(connection):
    """Ends a connection, also where another thread reads it."""
    try:
        connection.shutdown(socket.SHUT_RDWR)
    except OSError:
        pass
    connection.close()


def frame(body):
    """A body behind its length."""
    return struct.pack(">H", len(body)) + body


def bytes_of(deed):
    """What a deed sends."""
    if isinstance(deed, bytes):
        return deed
    answers = deed if isinstance(deed, list) else [deed]
    return b"".join(frame(json.dumps(answer, ensure_ascii=False).encode()) for answer in answers)


def welcome(asked, epoch=1):
    """The welcome to a hello, of its version."""
    return {**asked, "kind": "welcome", "epoch": epoch}


def old_server(asked):
    """What a server that knows no version says to a hello."""
    return refused(1) if "version" in asked else welcome(asked)


def key_members(asked):
    """The key's members of a request or cancel."""
    return {name: asked[name] for name in ("client", "epoch", "incarnation", "number")}


def reply(word, **more):
    """A deed: the reply to whatever request comes."""
    return lambda asked: {"kind": "reply", **key_members(asked), "reply": word, **more}


def received_by(client, incarnation, number):
    """A deed: the reply to a transfer that this consumer received."""
    return reply("received", by_client=client, by_incarnation=incarnation, by_number=number)


def waiting(asked):
    """A deed: that the request waits."""
    return {"kind": "waiting", **key_members(asked)}


def refused(code, **detail):
    """A deed: a refusal."""
    return {"kind": "refused", "code": code, **detail}


def twice(deed):
    """A deed: its answer, said twice."""
    return lambda asked: [deed(asked) if callable(deed) else deed] * 2


def running_first(before, deed):
    """A deed that does something else before."""
    return lambda asked: (before(), deed(asked) if callable(deed) else deed)[1]
