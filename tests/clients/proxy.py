"""A link that loses, repeats, cuts and delays, between clients and a server: it meddles with frames on their
way."""
import collections
import json
import random
import socket
import threading
import time

from tests.sockets.listening import Listening
from tests.sockets.wire import PATIENCE, frame

# What becomes of a frame, and how often. The server's answers know the first four alone.
FATES = {"pass": 80, "delay": 6, "lose": 4, "cut": 4, "twice": 4, "late": 2}
# What no client is refused whose server forgot nothing: no session, other call, busy, gap, other version.
FORGETFUL = (3, 6, 7, 8, 12)


class Proxy(Listening):
    """Listens on a port, and has a connection to the server for each of its own. While `calm`, it only hands
    on."""

    def __init__(self, server, seed, connections):
        super().__init__()
        self.server, self.chance, self.most = server, random.Random(seed), connections
        self.calm, self.met = False, dict.fromkeys(FATES, 0)
        self.ends, self.copies = [], []
        # the refusals that clients were sent, by their numbers
        self.refused = collections.Counter()

    def forgets(self):
        """The refusals that clients were sent of a server that forgot something."""
        return {code: count for code, count in self.refused.items() if code in FORGETFUL}

    def close(self):
        """Behind the end no connection to the server is made, and each late copy has come there."""
        self.calm = True
        super().close()
        for copy in list(self.copies):
            copy.join(PATIENCE)
        for end in self.ends:
            hang_up(end)

    def meet(self, near):
        """Gives a connection that comes one of its own to the server."""
        try:
            far = self.server.connect().socket
        except OSError:
            near.close()
            return
        for end in (near, far):
            end.setsockopt(socket.IPPROTO_TCP, socket.TCP_NODELAY, 1)
            end.settimeout(None)
        self.ends += [near, far]
        for pair in [(near, far, list(FATES)), (far, near, list(FATES)[:4])]:
            threading.Thread(target=self.carry, args=pair, daemon=True).start()

    def fate(self, fates):
        """What becomes of the next frame."""
        if self.calm or self.server.made > self.most:
            return "pass"
        fate = self.chance.choices(fates, [FATES[name] for name in fates])[0]
        self.met[fate] += 1
        return fate

    def carry(self, source, sink, fates):
        """Carries frames one way until the connection ends, or is ended."""
        try:
            while (body := body_of(source)) is not None:
                if b'"kind":"refused"' in body:
                    self.refused[json.loads(body)["code"]] += 1
                if not self.deliver(self.fate(fates), sink, frame(body)):
                    break
        except OSError:
            pass
        hang_up(source)
        hang_up(sink)

    def deliver(self, fate, sink, data):
        """Does with a frame what is its fate; whether the connection goes on."""
        if fate in ("lose", "cut"):
            sink.sendall(data[: self.chance.randrange(len(data)) if fate == "cut" else 0])
            return False
        if fate == "delay":
            time.sleep(self.chance.choice([0.001, 0.01, 0.05]))
        if fate == "late":
            self.copies.append(threading.Thread(target=self.later, args=(data,), daemon=True))
            self.copies[-1].start()
        sink.sendall(data * (2 if fate == "twice" else 1))
        return True

    def later(self, data):
        """Brings a copy of a frame to the server once more, over another connection."""
        try:
            with self.server.connect() as peer:
                time.sleep(self.chance.choice([0.01, 0.1, 0.5]))
                peer.send(data)
                peer.hear()
        except Exception:
            pass


def body_of(connection):
    """The next frame's body; None at the end, and where it is cut."""
    head = whole(connection, 2)
    return whole(connection, int.from_bytes(head, "big")) if len(head) == 2 else None


def whole(connection, count):
    """So many bytes, or those before the end."""
    got = b""
    while len(got) < count and (piece := connection.recv(count - len(got))):
        got += piece
    return got


def hang_up(end):
    """Ends a connection for whoever reads or writes there."""
    try:
        end.shutdown(socket.SHUT_RDWR)
    except OSError:
        pass
    end.close()
