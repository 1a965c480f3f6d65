"""Random clients by the rules of the machine, before a right server: what the machine tells must be true.

Copies come late or never, answers are lost, growths are refused, there is no room for a while, later
incarnations and epochs begin. The server is an account of the model. Each step of a machine is handed on as a
case, too.
"""
from tests.clients.machine_cases import COUNT, DRAIN, PEEK, PUT, machine, swap, take, transfer
from tests.clients.machine_rules import FRESH, can_wait, step
from tests.model import steps
from tests.model.account import Account, Cancel, Hello, Key, arrival_of, incarnation, reply, waiting_of
from tests.model.texts import members_of_call, read_message, written
from tests.sockets.wire import demand

CALLS = [PUT, COUNT, PEEK, DRAIN, transfer("forever"), transfer(5), transfer(0), transfer("now"),
         take("forever"), take(5), take("now"), swap("forever"), swap(5), swap(0)]
CLIENTS = 3
TURNS = 300
# In so many turns of a link that loses nothing a call that is given up ends.
FAIR = 8


def form_fault(members):
    """What no machine may be, if this one is it."""
    state, is_fresh = members["state"], {name: members[name] for name in FRESH} == FRESH
    words = ["nothing", *{"new": ["hello"], "outstanding": ["request", "cancel"]}.get(state, [])]
    rules = {
        "a key": (members["key"] is not None) <= (state in ("idle", "outstanding")),
        "a call": (members["call"] is not None) <= (state in ("new", "outstanding")),
        "no request": state != "outstanding" or None not in (members["key"], members["call"]),
        "counters": state == "outstanding" or is_fresh or state == "new" and not members["out"],
        "something flies": members["flying"] in words,
        "a copy that is not counted": state == "new" or members["flying"] == "nothing" or members["out"] > 0,
        "something was sent": members["sent"] or is_fresh or state == "new",
        "it waits": not members["accepted"] or can_wait(members["call"]) and not members["full"] and members["doubtful"],
        "a copy that is lost": members["giving_up"] or members["doubtful"]
                               or members["out"] <= (members["flying"] == "request"),
    }
    return next((name for name, holds in rules.items() if not holds), None)


class Walk:
    """A server, machines that speak to it, what each of them said last, and the copies that may come late."""

    def __init__(self, chance, hand_on):
        self.chance, self.hand_on = chance, hand_on
        self.account, self.moment, self.past = Account(1, 0), 0, []
        self.machines, self.said, self.late, self.told = [], {}, [], []
        self.full, self.short, self.lossy = (chance.choice([0, 0.1, 0.4]) for _ in range(3))
        self.is_lost = chance.random() < 0.2
        for client in range(1, CLIENTS + 1):
            self.start(client)

    def odds(self, likelihood):
        """True so often."""
        return self.chance.random() < likelihood

    def start(self, client):
        """A client starts in a greater incarnation; its earlier ones go on."""
        count = sum(one["client"] == client for one in self.machines)
        version = self.chance.choice([1, 2])
        self.machines.append(machine("new", client=client, incarnation=count + 1, version=version))

    def run(self):
        """Many turns, and then each call ends that is given up."""
        for _ in range(TURNS):
            self.turn()
        self.full = self.short = 0
        for place in range(len(self.machines)):
            self.finish(place)

    def turn(self):
        """Something happens."""
        if self.odds(0.01):
            self.start(self.chance.randint(1, CLIENTS))
        if self.odds(0.01):
            later = self.chance.choice([0, 1]) if self.is_lost else 1
            self.past.append(self.account)
            self.account = Account(self.account.epoch + later, 0)
        if self.late and self.odds(0.1):
            self.answer(self.late.pop(self.chance.randrange(len(self.late))))
        place = self.place()
        if self.odds(0.08):
            self.do(place, self.chance.choice(["give up", "expire"]))
        elif place in self.said:
            (self.lose if self.odds(self.lossy) else self.deliver)(place)
        else:
            self.speak(place)

    def place(self):
        """Where a machine stands, mostly one that has not ended; a client that has none starts anew."""
        going = [place for place, one in enumerate(self.machines) if one["state"] != "ended"]
        if len(going) < CLIENTS:
            self.start(self.chance.randint(1, CLIENTS))
        every = range(len(self.machines))
        return self.chance.choice(going if going and self.odds(0.95) else every)

    def speak(self, place):
        """A machine for which nothing flies is asked something, or speaks."""
        now = self.machines[place]
        is_free = now["call"] is None and (now["state"] == "new" or now["state"] == "idle" and now["key"])
        if is_free and self.odds(0.7) or self.odds(0.05):
            self.do(place, {"ask": self.chance.choice(CALLS)}, is_misuse=not is_free)
        else:
            self.do(place, "speak")

    def lose(self, place):
        """A connection is lost, with what flew: it came to the server, or comes later, or never."""
        message = self.said.pop(place)
        fate = self.chance.choice(["came", "late", "never"])
        if fate == "came":
            self.answer(message)
        if fate == "late":
            self.late.append(message)
        self.do(place, "lose")

    def deliver(self, place):
        """What flew comes to the server, and the answer back."""
        self.do(place, {"hear": self.answer(self.said.pop(place))})

    def answer(self, members):
        """What a right server answers to a message, where there may be no room, and no memory."""
        message = read_message(written(members).encode())
        self.moment += self.chance.randint(0, 3)
        if self.odds(self.short / 2):
            return steps.refused(11)
        if self.odds(self.full) and self.is_new(message):
            return steps.refused(10)
        self.account, answer = steps.step(self.account, self.moment, message)
        return steps.refused(11) if self.odds(self.short / 2) else answer

    def is_new(self, message):
        """Whether a message needs room of its own."""
        account = steps.ticked(self.account, self.moment)
        if isinstance(message, Hello):
            return not steps.hello_lines(account, message)
        is_kept = isinstance(message, Cancel) and waiting_of(account.entries, message.key.client)
        return not steps.key_lines(account, message) and not is_kept

    def do(self, place, event, is_misuse=False):
        """An event of a machine; what it tells must be true."""
        before = self.machines[place]
        came = step(before, event)
        self.hand_on({"machine": before, "event": event, **came})
        demand(came.get("misused", False) == is_misuse, f"{event} of {before} is {came}")
        if is_misuse:
            return
        self.machines[place] = came["becomes"]
        fault = form_fault(came["becomes"])
        demand(not fault, f"{fault}: {event} of {before} is {came}")
        if came["sends"]:
            self.said[place] = came["sends"]
        demand(came["tells"] or not came["drops"] or self.is_lost, f"{event} of {before} is a fault")
        if came["tells"]:
            self.told.append(came["tells"])
            demand(self.is_true(before, came["tells"]), f"{came['tells']} by {event} of {before}")

    def is_true(self, before, tells):
        """Whether it is true what a machine tells."""
        key = before["key"] and Key(**before["key"])
        word, current = tells["told"], tells.get("current")
        if word == "settled":
            return self.is_the_reply(before, key, tells["reply"])
        if word in ("full", "not asked"):
            return key is None or self.is_nowhere(key, before["key"])
        if word == "ended":
            is_so = current == self.account.epoch and (self.is_lost or current > key.epoch)
            return is_so and not (tells["unmet"] and self.may_be_met(key, before["key"]))
        if word == "replaced":
            return current == incarnation(self.account.entries, before["client"]) > before["incarnation"]
        return word in ("welcomed", "unsettled") or self.is_lost

    def is_the_reply(self, before, key, answer):
        """Whether the server has this reply for a key, and the call that arrived is that which was asked."""
        entries = self.account.entries
        kept = reply(entries, key)
        r = arrival_of(entries, key)
        arrived = before["call"] if r is None else members_of_call(entries[r].act.call)
        return kept is not None and steps.replied(key, kept) == answer and arrived == before["call"]

    def is_nowhere(self, key, members):
        """Whether no message of a key is at the server, or may come to it."""
        acts = [getattr(entry.act, "key", None) for entry in self.account.entries]
        on_their_way = [{name: message.get(name) for name in members} for message in self.late]
        return key not in acts and members not in on_their_way

    def may_be_met(self, key, members):
        """Whether a request of a key came to a server of any epoch, or is on its way."""
        late = [message for message in self.late if message["kind"] == "request" and message.items() >= members.items()]
        return bool(late) or any(arrival_of(account.entries, key) is not None for account in [*self.past, self.account])

    def finish(self, place):
        """Over a link that loses nothing a call that is given up ends."""
        for _ in range(FAIR):
            if self.machines[place]["call"] is not None:
                self.do(place, "give up")
            if place in self.said:
                self.deliver(place)
            elif self.machines[place]["call"] is not None:
                self.do(place, "speak")
        now = self.machines[place]
        demand(now["call"] is None and now["flying"] == "nothing", f"in the end there is {now}")
