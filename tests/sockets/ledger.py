"""What clients asked, and what they were told."""
import threading

from tests.model.account import Key
from tests.sockets.wire import Members, demand

# What clients asked under each key, in the members of its call; and the replies that they were told, one after another.
Asked = dict[Key, Members]
Told = list[tuple[Key, Members]]
# The items that are left in each queue.
Left = dict[int, list[str]]


class Ledger:
    """What all clients asked, and the one reply to each key."""

    def __init__(self) -> None:
        self.lock = threading.Lock()
        self.asked: Asked = {}
        self.told: dict[Key, Members] = {}
        self.given_up: set[Key] = set()
        # The version of each key's session.
        self.spoken: dict[Key, int] = {}

    def ask(self, key: Key, call: Members, version: int = 1) -> None:
        with self.lock:
            demand(self.asked.setdefault(key, call) == call, f"{key} is asked with two calls")
            self.spoken[key] = version

    def tell(self, key: Key, reply: Members) -> None:
        """Keeps a reply; a second one must be the same."""
        with self.lock:
            before = self.told.setdefault(key, reply)
        demand(before == reply, f"{key} was told {before}, and then {reply}")

    def settle(self, key: Key, call: Members, reply: Members) -> None:
        """Keeps a call that was not asked before, and its reply."""
        with self.lock:
            demand(key not in self.asked, f"{key} was asked twice")
            self.asked[key], self.told[key] = call, reply
