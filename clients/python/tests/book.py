"""A tiny honest server: it keeps each client's last reply and its request that waits, and refuses what a right server
refuses. Each item that it gives is unlike each other."""
import collections
import threading

from scripted import SILENCE, Scripted, key_members, refused, welcome

# The queue, or the exchanger, of the scripts.
PLACE = 3


class Account:
    """What the book has of one client: the last number, the request that waits, and the replies and queues of all."""

    def __init__(self):
        self.last, self.waits, self.replies, self.places = 0, None, {}, {}

    def own_reply(self, number):
        """The reply to a request at the place of the scripts, or to its cancel; None where the number is another's."""
        return self.replies.get(number) if self.places.get(number, PLACE) == PLACE else None


class Book(Scripted):
    """`met` has how requests at `PLACE` are met, by client: a function of the request that gives the members of its reply,
    or None where it waits; `at_cancel` how a request that waits is met by its cancel. `heard_of` has what is done, once,
    when a request of a client came to `PLACE`. Requests elsewhere are counts."""

    def __init__(self):
        super().__init__()
        self.otherwise = self.answered
        self.accounts = collections.defaultdict(Account)
        self.met, self.at_cancel, self.heard_of = {}, {}, {}
        self.changed = threading.Condition()

    def answered(self, came):
        """The answer to what came."""
        self.heard.clear()
        if came["kind"] == "hello":
            return welcome(came)
        with self.changed:
            answer = self.found(came, self.accounts[came["client"]])
            self.changed.notify_all()
        if came["kind"] == "request" and place_of(came) == PLACE:
            self.heard_of.pop(came["client"], lambda: None)()
        return answer

    def found(self, came, account):
        """The answer to a request or a cancel."""
        number = came["number"]
        if number == account.last:
            return account.replies[number]
        if number < account.last:
            return refused(5, last=account.last)
        if account.waits is not None and number > account.waits:
            return refused(7, open=account.waits)
        if number > account.last + 1:
            return refused(8, last=account.last)
        return self.arrived(came, account)

    def arrived(self, came, account):
        """What a number that is not settled comes to."""
        client = came["client"]
        if came["kind"] == "cancel":
            meets = self.at_cancel.get(client) if account.waits else None
            return self.settled(came, account, meets(came) if meets else {"reply": "cancelled"})
        account.places[came["number"]] = place_of(came)
        meets = self.met[client] if place_of(came) == PLACE else counted
        members = None if account.waits else meets(came)
        if members is None:
            account.waits = came["number"]
            return SILENCE
        return self.settled(came, account, members)

    def settled(self, came, account, members):
        """The reply that a request has from now on."""
        account.waits, account.last = None, came["number"]
        account.replies[account.last] = {"kind": "reply", **key_members(came), **members}
        return account.replies[account.last]

    def has_come(self, client, number, patience):
        """Waits until a request waits or is settled; whether it is."""
        account = self.accounts[client]
        with self.changed:
            return self.changed.wait_for(lambda: account.last >= number or account.waits == number, patience)


def place_of(came):
    """The queue or the exchanger of a request."""
    return came.get("queue", came.get("exchanger"))


def counted(_):
    """The reply to a count."""
    return {"reply": "counted", "items": 1, "consumers": 2}


def named(word):
    """Meets a request by this word, with an item that names the request, where it has one."""
    def meets(came):
        item = "/".join(str(came[name]) for name in ("client", "number"))
        more = {"item": {"item": item}, "swapped": {"item": item}, "peeked": {"item": item}, "drained": {"texts": [item]},
                "received": dict(zip(("by_client", "by_incarnation", "by_number"), (came["client"], 5, came["number"])))}
        return {"reply": word, **more.get(word, {})}
    return meets


def waits(_):
    """Has a request wait."""
