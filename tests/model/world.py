"""The network world (docs/MODEL.md, sections 12 and 13): what one line of `rv play` does and prints, and what holds
of a world after every list of events. Each epoch's account is that of the steps."""
from dataclasses import dataclass, field

from tests.model.account import (
    Account, Call, Cancel, Hello, Key, Request, arrival_of, arrivals, is_open, met_with, open_at, reply)
from tests.model.audit import audit
from tests.model.steps import step
from tests.model.texts import (
    KEY, MAX_BODY_BYTES, MAX_IDENTIFIER, TAKER, NoReading, demand, read_call, read_json, written)

NO_SUCH_PACKET, NOT_IDLE, NOT_OUTSTANDING, NOT_GREATER, EPOCH_NOT_GREATER, NO_SUCH_CLIENT = range(1, 7)
# The replies after which nothing is handed over.
NOES = ("timedout", "cancelled", "nobody", "empty")


class Refused(Exception):
    """An event that changes nothing, by its refusal's number."""


@dataclass(frozen=True)
class New:
    client: int
    incarnation: int
    version: int = 1


@dataclass(frozen=True)
class Idle:
    """An idle process with its next key; none where the greatest number was used up."""

    next: Key | None


@dataclass(frozen=True)
class Outstanding:
    key: Key
    call: Call


@dataclass
class World:
    """What was ever opened, started, begun, held and sent, and the keys that were told to wait, each with the account that
    the step left. The last account is the present epoch's."""

    accounts: list = field(default_factory=lambda: [Account(1, 0)])
    started: list = field(default_factory=list)
    processes: dict = field(default_factory=dict)
    asked: list = field(default_factory=list)
    held: list = field(default_factory=list)
    to_server: list = field(default_factory=list)
    to_client: list = field(default_factory=list)
    waits: list = field(default_factory=list)

    def play(self, line):
        """The result of a line."""
        try:
            return self.event(*read_event(line))
        except NoReading:
            return "bad line"
        except Refused as refusal:
            return f"refused {refusal.args[0]}"

    def event(self, word, *fields):
        """What is seen of an event."""
        return getattr(self, f"do_{word}")(*fields)

    def send(self, message):
        """Sends a message, whose number is told."""
        self.to_server.append(message)
        return f"sent {len(self.to_server) - 1}"

    def process(self, client, kind, refusal):
        """The process of a client, which is to run and to be of a kind."""
        if client not in self.processes:
            raise Refused(NO_SUCH_CLIENT)
        process = self.processes[client]
        if not isinstance(process, kind) or process == Idle(None):
            raise Refused(refusal)
        return process

    def do_start(self, client, incarnation, version=1):
        if any(other == client and earlier >= incarnation for other, earlier in self.started):
            raise Refused(NOT_GREATER)
        self.started.append((client, incarnation))
        self.processes[client] = New(client, incarnation, version)
        return self.send(Hello(client, incarnation, version))

    def do_begin(self, client, call):
        key = self.process(client, Idle, NOT_IDLE).next
        self.processes[client] = Outstanding(key, call)
        self.asked.append((key, call))
        return self.send(Request(key, call))

    def do_resend(self, client):
        process = self.process(client, Outstanding, NOT_OUTSTANDING)
        return self.send(Request(process.key, process.call))

    def do_cancel(self, client):
        return self.send(Cancel(self.process(client, Outstanding, NOT_OUTSTANDING).key))

    def do_crash(self, client):
        if client not in self.processes:
            raise Refused(NO_SUCH_CLIENT)
        del self.processes[client]
        return "crashed"

    def do_server(self, packet, moment):
        if packet >= len(self.to_server):
            raise Refused(NO_SUCH_PACKET)
        message = self.to_server[packet]
        self.accounts[-1], answer = step(self.accounts[-1], moment, message)
        client = message.client if isinstance(message, Hello) else message.key.client
        self.to_client.append((client, answer))
        if answer["kind"] == "waiting":
            self.waits.append((key_of(answer), self.accounts[-1]))
        return f"answered {len(self.to_client) - 1} {written(answer)}"

    def do_client(self, packet):
        if packet >= len(self.to_client):
            raise Refused(NO_SUCH_PACKET)
        client, answer = self.to_client[packet]
        match self.processes.get(client):
            case New() as new:
                return self.welcomed(new, answer)
            case Outstanding(key, _):
                return self.heard(key, answer)
        return "ignored"

    def welcomed(self, new, answer):
        """What a new process makes of an answer."""
        if answer["kind"] == "refused":
            return f"turned away {answer['code']}"
        if answer["kind"] != "welcome" or not is_own(new, answer):
            return "ignored"
        self.processes[new.client] = Idle(Key(answer["epoch"], new.client, new.incarnation, 1))
        return "welcomed"

    def heard(self, key, answer):
        """What an outstanding process makes of an answer."""
        current = answer.get("current", 0)
        match answer.get("code"):
            case 2 if current > key.epoch:
                del self.processes[key.client]
                return f"ended {current}"
            case 4 if current > key.incarnation:
                del self.processes[key.client]
                return f"replaced {current}"
        if answer["kind"] != "reply" or key_of(answer) != key:
            return "ignored"
        self.held.append((key, reply_of(answer)))
        following = Key(key.epoch, key.client, key.incarnation, key.number + 1)
        self.processes[key.client] = Idle(following if key.number < MAX_IDENTIFIER else None)
        return f"settled {written(answer)}"

    def do_epoch(self, epoch):
        if epoch <= self.accounts[-1].epoch:
            raise Refused(EPOCH_NOT_GREATER)
        self.accounts.append(Account(epoch, 0))
        return f"opened {epoch}"

    def account_of(self, epoch):
        """The account of an epoch that was opened."""
        return next(account for account in self.accounts if account.epoch == epoch)

    def answered(self):
        """Each key and reply that was ever answered."""
        return [(key_of(answer), reply_of(answer)) for _, answer in self.to_client if answer["kind"] == "reply"]


def is_own(new, answer):
    """Whether a welcome is that of a new process: of its client, its incarnation and its version."""
    return {"version": 1, **answer}.items() >= vars(new).items()


def key_of(answer):
    """The key that an answer's members name."""
    return Key(*(answer[name] for name in KEY))


def reply_of(answer):
    """The members of an answer's reply."""
    return {name: value for name, value in answer.items() if name not in ("kind", *KEY)}


# ---- lines

def number(text):
    """A number of 1 to 19 digits."""
    demand(1 <= len(text) <= 19 and all(byte in b"0123456789" for byte in text))
    return int(text)


def identifier(text):
    """A client, an incarnation or an epoch."""
    demand(1 <= number(text) <= MAX_IDENTIFIER)
    return number(text)


def session(text):
    """An incarnation, and the version: the second where it stands behind, and else the first."""
    incarnation, space, version = text.partition(b" ")
    demand(not space or version == b"2")
    return identifier(incarnation), 2 if space else 1


def call_text(text):
    """The call that a call text says."""
    demand(1 <= len(text) <= MAX_BODY_BYTES)
    members = read_json(text)
    demand(isinstance(members, dict))
    return read_call(members)


def read_event(line):
    """The word and the fields of an event line."""
    word, _, rest = line.partition(b" ")
    first, space, second = rest.partition(b" ")
    match word:
        case b"start":
            return "start", identifier(first), *session(second)
        case b"begin":
            return "begin", identifier(first), call_text(second)
        case b"server":
            return "server", number(first), number(second)
    demand(not space)
    match word:
        case b"resend" | b"cancel" | b"crash" | b"epoch":
            return word.decode(), identifier(first)
        case b"client":
            return "client", number(first)
    raise NoReading


# ---- what holds of every world

def pairs(account):
    """The pairs and swaps of an account, each as its place and its two arrivals."""
    return [(p, partner) for p, entry in enumerate(account.entries) for partner in entry.partners]


def world_fault(world):
    """What a world breaks of the headline, if something."""
    for part in [two_replies, illegal, unassigned, after_a_no, disorder, no_wait]:
        fault = part(world)
        if fault:
            return f"{part.__name__}: {fault}"
    return None


def two_replies(world):
    """A key that was asked or held twice; what is held and not answered; what is answered and not the reply."""
    calls = dict(world.asked)
    if len(calls) < len(world.asked) or len({key for key, _ in world.held}) < len(world.held):
        return "a key was asked or held twice"
    answered = world.answered()
    for key, told in world.held:
        if (key, told) not in answered:
            return f"{key} holds {told}"
    for key, told in answered:
        if key not in calls or reply(world.account_of(key.epoch).entries, key) != told:
            return f"{key} was answered {told}"
    return None


def illegal(world):
    """An account that is not legal, or an arrival that was not asked."""
    for account in world.accounts:
        if audit(account):
            return f"epoch {account.epoch}: {audit(account)}"
        for r in arrivals(account.entries):
            act = account.entries[r].act
            if (act.key, act.call) not in world.asked:
                return f"{act} was not asked"
    return None


def unassigned(world):
    """A transfer that was received by nobody, or by another than it was told; or an item that is not its one giver's, or
    that a partner got else."""
    calls = dict(world.asked)
    for key, told in world.answered():
        if told["reply"] not in ("received", "item", "drained", "swapped"):
            continue
        account = world.account_of(key.epoch)
        r = arrival_of(account.entries, key)
        others = sorted(q if r == p else p for p, q in pairs(account) if r in (p, q))
        if len(others) != len(told.get("texts", [None])):
            return f"{key} was answered {told}, and is in {len(others)} pairs"
        keys = [account.entries[other].act.key for other in others]
        if told["reply"] == "received":
            if got_of(account, r, keys[0]) != calls[key].item or named(key, told) not in (None, keys[0]):
                return f"{key} was answered {told}, and {keys[0]} got {got_of(account, r, keys[0])}"
        elif texts_of(told) != (gave := [calls[other].item for other in keys]):
            return f"{key} was answered {told}, and was given {gave}"
    return None


def named(key, told):
    """The key of the consumer that the reply to a key names, which is of the same epoch; none where it names none."""
    return Key(key.epoch, *(told[name] for name in TAKER)) if told.keys() >= set(TAKER) else None


def texts_of(told):
    """The texts of a reply."""
    return told["texts"] if "texts" in told else [told["item"]]


def got_of(account, giver, taker):
    """What a taker got from a giver: its item, or of a drain's texts the one in the giver's place; none where it got
    none there."""
    places = met_with(account.entries, arrival_of(account.entries, taker))
    told = reply(account.entries, taker)
    return dict(zip(places, texts_of(told))).get(giver) if {"item", "texts"} & told.keys() else None


def after_a_no(world):
    """An arrival that was answered a no, and is in a pair."""
    for key, told in world.answered():
        entries = world.account_of(key.epoch).entries
        r = arrival_of(entries, key)
        looks = r is not None and entries[r].act.call.side == "looking"
        if told["reply"] in NOES and r is not None and not looks and met_with(entries, r):
            return f"{key} was answered {told}, and was met"
    return None


def disorder(world):
    """Two pairs of one queue whose takers do not follow their givers, unless one drain is both, or a giver that was
    passed over."""
    for account in world.accounts:
        by_queue = {}
        for p, q in pairs(account):
            call = account.entries[p].act.call
            if call.side != "exchanging":
                g, t = (p, q) if call.side == "giving" else (q, p)
                by_queue.setdefault(call.at, []).append((g, t, p))
        for queue, met in by_queue.items():
            fault = queue_disorder(account.entries, queue, sorted(met))
            if fault:
                return f"epoch {account.epoch}, queue {queue}: {fault}"
    return None


def queue_disorder(entries, queue, met):
    """What is out of order among the pairs of one queue, each a giver, a taker and a place, if something is."""
    for (_, t, p), (_, later_t, later_p) in zip(met, met[1:]):
        is_one_drain = t == later_t and entries[t].act.call.word == "drain"
        if not is_one_drain and t >= later_t or p > later_p:
            return f"places {p} and {later_p}"
    for g, _, p in met:
        paired = {giver for giver, _, place in met if place == p}
        if any(r < g and r not in paired for r in open_at(entries[:p], "giving", queue)):
            return f"place {p} passes one over"
    return None


def no_wait(world):
    """A key that was told to wait, and did not wait in the account that the step left."""
    for key, account in world.waits:
        r = arrival_of(account.entries, key)
        if r is None or account.entries[r].act.call.word == "put" or not is_open(account.entries, r):
            return f"{key} was told to wait"
    return None


def growth_fault(before, world):
    """What a later world does not extend of an earlier one's lists, if something. Its accounts are told by epoch."""
    asked, held, to_client, accounts = before
    grown = [(asked, world.asked), (held, world.held), (to_client, world.to_client)]
    grown += [(account.entries, world.account_of(account.epoch).entries) for account in accounts]
    return next((f"{front[-1:]} was lost" for front, whole in grown if whole[: len(front)] != front), None)


def lists_of(world):
    """What a world has so far, for `growth_fault`."""
    return list(world.asked), list(world.held), list(world.to_client), list(world.accounts)
