"""A take that waits for long, on one connection, while the server says now and then that it waits."""
import time

import rendezvous as rv
from scripted import Scripted, reply, waiting, welcome
from tests.sockets.wire import demand


# How often it is tried where the machine was too slow for what is to happen within the patience.
TRIES = 5


def waits(seconds, pause, patience):
    """A take waits for so many seconds at a server that says `waiting` behind each pause; then it takes. It gives what is wrong,
    if something is, and the longest time between two words of the server."""
    began = time.monotonic()
    words = [began]

    def later(asked):
        if asked["kind"] == "hello":
            return welcome(asked)
        time.sleep(pause)
        words.append(time.monotonic())
        return (waiting if words[-1] < began + seconds else reply("item", item="a"))(asked)

    with Scripted() as server:
        server.otherwise = later
        try:
            with rv.Session(server.address, 1, 1, patience=patience, connect_timeout=None) as session:
                fault = None if session.take(3) == "a" else "it took another item"
        except rv.Unsettled as unsettled:
            fault = f"it was unsettled: {unsettled}"
        asked = [one for one in server.heard if one["kind"] == "request"]
        if server.connections != 1 or len(asked) < 2 or any(one != asked[0] for one in asked):
            fault = fault or f"over {server.connections} connections there came {asked[:3]}"
    words.append(time.monotonic())
    return fault, max(later - earlier for earlier, later in zip(words, words[1:]))


def a_take_waits_longer_than_its_patience() -> None:
    """Each word of the server's starts the patience anew."""
    patience = 3
    for _ in range(TRIES):
        fault, longest = waits(seconds=6, pause=0.5, patience=patience)
        if not fault or longest < patience / 2:
            break
    demand(not fault, fault)


def a_take_waits_ten_minutes() -> None:
    """By hand: the server says every ten seconds that the take waits."""
    fault, _ = waits(seconds=600, pause=10, patience=60)
    demand(not fault, fault)


CASES = [a_take_waits_longer_than_its_patience]
BY_HAND = [a_take_waits_ten_minutes]
