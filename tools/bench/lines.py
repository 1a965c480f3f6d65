"""Lines of the measurements: what clients say, each line a moment after the one before."""
import json


def hello(client):
    """A client's hello."""
    return {"client": client, "incarnation": 1, "kind": "hello"}


class Asks:
    """Requests, each with its client's next number."""

    def __init__(self):
        self.numbers = {}

    def __call__(self, client, call, queue=3, **members):
        self.numbers[client] = number = self.numbers.get(client, 0) + 1
        key = {"client": client, "epoch": 1, "incarnation": 1, "number": number}
        return {"kind": "request", "call": call, "queue": queue, **key, **members}

    def put(self, client, queue=3):
        return self(client, "put", queue, item=f"item {self.numbers.get(client, 0)}")

    def take(self, client, wait):
        return self(client, "take", wait=wait)

    def transfer(self, client):
        return self(client, "transfer", item="an item", wait="now")

    def swap(self, client):
        asked = self(client, "swap", exchanger=5, item="an object", wait="forever")
        del asked["queue"]
        return asked


def in_turn(count):
    """A client puts an item and takes it, again and again, in about so many lines."""
    ask = Asks()
    yield hello(1)
    for _ in range(count // 2 - 1):
        yield ask.put(1)
        yield ask.take(1, "now")


def book_lines(messages):
    """The lines of messages, each a moment after the one before."""
    for moment, message in enumerate(messages):
        yield f"{moment} {json.dumps(message, sort_keys=True, separators=(',', ':'))}"
