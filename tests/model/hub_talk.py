"""What the peers of a hub say: frames of messages, mostly good ones, that hang on what the hub's book is so far."""
import random

from tests.model.hub import EPOCH, Hub
from tests.model.scripts import Script
from tests.model.state import Waits
from tests.model.texts import MAX_BODY_BYTES, MAX_ITEM_BYTES, members_of_call, written

# How often a body is spoilt, by script.
SPOILT = [0, 0, 0.02, 0.2]
# How many peeks of a long item are more than may be held.
MANY_PEEKS = 130
LONG_ITEM = "é" * (MAX_ITEM_BYTES // 2)


class Talk:
    """Sessions of some clients, which may speak over several connections at once."""

    def __init__(self, chance: random.Random, hub: Hub, clients: int):
        self.chance, self.hub = chance, hub
        self.script = Script(chance, EPOCH, hub.terms.limits)
        self.clients = chance.sample(range(1, 2 * clients + 1), clients)
        self.spoilt = chance.choice(SPOILT)
        self.restarts = chance.choice([0.01, 0.05, 0.2])
        # Of each client the incarnation and number of its last request, while some of its frames are on their way, and
        # what it asked for under each key.
        self.ahead: dict[int, tuple[int, int]] = {}
        self.asked: dict[tuple[int, int, int], dict] = {}

    def odds(self, likelihood: float) -> bool:
        """True so often."""
        return self.chance.random() < likelihood

    def forget(self, client: int) -> None:
        """None of a client's frames is on its way."""
        self.ahead.pop(client, None)

    def burst(self, client: int) -> bytes:
        """Some frames of a client, now and then of another one, and now and then something that isn't a frame."""
        if self.odds(0.15):
            client = self.chance.choice(self.clients)
        kinds = [self.few, self.few, self.few, self.many, self.after_cancel, self.again, self.cut_off]
        bodies = self.chance.choices(kinds, [6, 6, 6, 1, 3, 3, 1])[0](client)
        octets = self.frames(bodies)
        if self.odds(0.02):
            octets += b"\0\0" + self.chance.randbytes(self.chance.randint(0, 5))
        return octets

    def frame(self, members: dict) -> bytes:
        """The frame of a message, whose body is spoilt now and then."""
        body = self.script.text(members).encode() if self.odds(0.3) else written(members).encode()
        if self.odds(self.spoilt):
            body = self.script.spoilt_body(body)
        body = body[:MAX_BODY_BYTES] or b"x"
        return len(body).to_bytes(2) + body

    # ---- bursts

    def few(self, client: int) -> list[dict]:
        """Some messages of a client, one after another."""
        return [self.message(client) for _ in range(self.chance.choice([1, 1, 1, 2, 3, 6]))]

    def asks(self, client: int, *calls: dict) -> bytes:
        """A client's greeting, and requests with these calls."""
        return self.frames([self.greeting(client), *(self.request(client, call) for call in calls)])

    def repeats(self, key: dict, call: dict) -> bytes:
        """A request once more."""
        return self.frames([{"kind": "request", **key, **call}])

    def ends(self, key: dict, other: int, queue: int) -> bytes:
        """What ends the wait of a request of this key in a queue: another client's put, a cancel, or a hello."""
        put = [self.greeting(other), self.request(other, self.put(queue, "c"))]
        hello = [self.hello(key["client"], key["incarnation"] + 1)]
        return self.frames(self.chance.choice([put, [{"kind": "cancel", **key}], hello]))

    def some(self, client: int) -> bytes:
        """Some messages of a client, one after another."""
        return self.frames(self.few(client))

    def frames(self, messages: list[dict]) -> bytes:
        """The frames of messages."""
        return b"".join(map(self.frame, messages))

    def many(self, client: int) -> list[dict]:
        """A hundred messages behind one that waits."""
        wait = self.take(self.chance.choice(self.script.queues), "forever")
        return [self.greeting(client), self.request(client, wait), *(self.message(client) for _ in range(100))]

    def after_cancel(self, client: int) -> list[dict]:
        """A cancel of what a client waits for, which somebody else's connection may do, and its next request behind it."""
        client = self.one_that_waits(client)
        return [{"kind": "cancel", **self.last_key(client)}, self.request(client, self.script.call())]

    def again(self, client: int) -> list[dict]:
        """A repeat of what a client waits for."""
        client = self.one_that_waits(client)
        state = self.hub.state.clients.get(client)
        call = members_of_call(state.request.call) if state and isinstance(state.request, Waits) else self.script.call()
        return [{"kind": "request", **self.last_key(client), **call}]

    def cut_off(self, client: int) -> list[dict]:
        """A hello of a greater incarnation of a client that waits."""
        client = self.one_that_waits(client)
        return [self.hello(client, self.incarnation(client) + 1), *self.few(client)]

    def take(self, queue: int, wait: str | int) -> dict:
        """The call of a take."""
        return {"call": "take", "queue": queue, "wait": wait}

    def put(self, queue: int, item: str) -> dict:
        """The call of a put."""
        return {"call": "put", "queue": queue, "item": item}

    # ---- messages

    def message(self, client: int) -> dict:
        """A message of a client."""
        if not self.incarnation(client) or self.odds(self.restarts):
            return self.greeting(client)
        if self.odds(0.06):
            return self.repeat(client)
        return self.cancel(client) if self.odds(0.06) else self.request(client, self.script.call())

    def greeting(self, client: int) -> dict:
        """A hello, mostly of the incarnation that the client has."""
        current = self.incarnation(client)
        return self.hello(client, current + (not current or self.odds(0.2)))

    def hello(self, client: int, incarnation: int) -> dict:
        """A client's hello in an incarnation."""
        versions: list[dict[str, int]] = [{}, {}, {"version": 2}]
        spoken = self.chance.choice(versions)
        self.ahead[client] = max(self.ahead.get(client, (0, 0)), (incarnation, 0))
        return {"kind": "hello", "client": client, "incarnation": incarnation, **spoken}

    def request(self, client: int, call: dict) -> dict:
        """A client's next request."""
        incarnation, number = self.last(client)
        key = self.key(client, incarnation, number + 1)
        self.ahead[client] = incarnation, number + 1
        self.asked[client, incarnation, number + 1] = call
        return {"kind": "request", **key, **call}

    def repeat(self, client: int) -> dict:
        """A client's last request again, or one before it, or one that was never asked."""
        key = self.last_key(client)
        key["number"] = max(1, key["number"] - self.chance.choice([0, 0, 0, 1, -2]))
        call = self.asked.get((client, key["incarnation"], key["number"])) or self.script.call()
        return {"kind": "request", **key, **call}

    def cancel(self, client: int) -> dict:
        """A cancel of a client's last request, or of its next one."""
        key = self.last_key(client)
        if self.odds(0.4):
            key["number"] += 1
            self.ahead[client] = key["incarnation"], key["number"]
        return {"kind": "cancel", **key}

    # ---- sessions

    def one_that_waits(self, client: int) -> int:
        """A client whose request waits, if there is one."""
        waiting = [there.key.client for there in self.hub.state.waiting()]
        return self.chance.choice(waiting or [client])

    def incarnation(self, client: int) -> int:
        """A client's incarnation, in the book or on its way; 0 before its first hello."""
        return self.last(client)[0]

    def last(self, client: int) -> tuple[int, int]:
        """The incarnation and number of a client's last request, in the book or on its way."""
        state = self.hub.state.clients.get(client)
        return max((state.incarnation, state.last) if state else (0, 0), self.ahead.get(client, (0, 0)))

    def last_key(self, client: int) -> dict:
        """The key of a client's last request, in the book or on its way, in its members."""
        incarnation, number = self.last(client)
        return self.key(client, max(1, incarnation), max(1, number))

    def key(self, client: int, incarnation: int, number: int) -> dict:
        """The members of a key, now and then of another epoch."""
        epoch = EPOCH + self.odds(0.005)
        return {"epoch": epoch, "client": client, "incarnation": max(1, incarnation), "number": number}
