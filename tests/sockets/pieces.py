"""Random frames, good ones and bad ones, cut into pieces; each answer must be that of the model."""
import random
import time
from collections.abc import Iterator

from tests.model.account import Account, Request, limit
from tests.model.scripts import Script
from tests.model.steps import told
from tests.model.texts import MAX_BODY_BYTES
from tests.sockets.hosts import serving
from tests.sockets.wire import Peer, demand, frame, together

CONNECTIONS, FRAMES = 12, 420
# The bytes of the smallest and of the greatest piece.
LEAST, MOST = 1, 70_000
# A request that waits alone is asked so often again, after so many milliseconds each.
PAUSES, PAUSE = 200, 5
# How many answers of one connection may be that a request waits: each takes about a second.
WAITS = 2
SHORT = [1, 1, 2, 3, 5, 10]
LONG: list[int | str] = [0, 0, "forever", 86_400_000]


class Talk(Script):
    """One connection's frames, each with its answer. The server's clock has no part in them: a request that waits alone
    is told that its limit came, in its own frame, or its limit is a day away."""

    def __init__(self, chance: random.Random, epoch: int):
        super().__init__(chance, epoch)
        self.waits = WAITS

    def wait(self) -> int | str:
        """A wait that ends at once, soon, or not within any test."""
        if self.odds(0.45):
            return "now"
        return self.chance.choice(SHORT) if self.odds(0.7) else self.chance.choice(LONG)

    def frame(self) -> tuple[bytes, bytes]:
        """A body and the answer to it."""
        while True:
            body = self.padded(self.body()[:MAX_BODY_BYTES] or b"x")
            account, now, answer = self.served(body)
            if b'"kind":"waiting"' in answer:
                if not self.waits:
                    continue
                self.waits -= 1
            self.account, self.now = account, now
            return body, answer

    def padded(self, body: bytes) -> bytes:
        """The body, now and then with white space behind it."""
        return body + b" " * self.chance.randint(0, MAX_BODY_BYTES - len(body)) if self.odds(0.03) else body

    def served(self, body: bytes) -> tuple[Account, int, bytes]:
        """The account after a frame, its moment, and the answer after as many pauses as there may be."""
        now = self.now + 1
        account, answer = told(self.account, b"%d %s" % (now, body))
        if '"kind":"waiting"' in answer:
            limits = [limit(account.entries, r) for r, entry in enumerate(account.entries) if isinstance(entry.act, Request)]
            soon = [moment for moment in limits if moment is not None and now < moment <= now + PAUSES * PAUSE]
            now = max(soon, default=now + PAUSES * PAUSE)
            account, answer = told(account, b"%d %s" % (now, body))
        return account, now, answer.encode()


def cut(chance: random.Random, data: bytes) -> Iterator[bytes]:
    """Pieces of all sizes, small ones as often as great ones."""
    at = 0
    while at < len(data):
        size = int(LEAST * (MOST / LEAST) ** chance.random())
        yield data[at : at + size]
        at += size


def send(chance: random.Random, peer: Peer, data: bytes) -> None:
    """Sends pieces; some wait for the one before to be read."""
    for piece in cut(chance, data):
        peer.send(piece)
        if chance.random() < 0.3:
            time.sleep(chance.choice([0, 0, 0.001, 0.003]))
    peer.end()


def hear(peer: Peer, talk: list[tuple[bytes, bytes]]) -> None:
    """Each frame must be answered as the model answers it, and then the connection must end."""
    for number, (body, wanted) in enumerate(talk):
        got = peer.hear()
        demand(got == wanted, f"frame {number}, {body!r}, was answered {got!r}, not {wanted!r}")
    peer.expect_end()


def one_connection(program: str, chance: random.Random) -> None:
    """One server, one connection and its frames."""
    epoch = chance.choice([1, 1, 7, 2**53 - 1])
    script = Talk(chance, epoch)
    talk = [script.frame() for _ in range(FRAMES)]
    data = b"".join(frame(body) for body, _ in talk)
    with serving(program, workers=1, connections=1, epoch=epoch) as server:
        with server.connect() as peer:
            together(lambda: send(chance, peer, data), lambda: hear(peer, talk))
        demand(shape(server.ended()) == shape(script.account), "the account has other entries than the model's")
        server.audited()


def shape(account: Account) -> list[tuple[object, object]]:
    """What an account has beside its moments."""
    return [(entry.act, entry.partners) for entry in account.entries]


def frames_in_pieces(program: str, seed: int) -> None:
    """Some connections at once, each to a server of its own."""
    together(*(lambda n=n: one_connection(program, random.Random(f"pieces {seed} {n}")) for n in range(CONNECTIONS)))


CASES = [frames_in_pieces]
