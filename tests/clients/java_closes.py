"""Takes of the Java client whose futures are cancelled, and whose clients are closed, at random moments, on a live host: by the
host's account each item is told once, by a future, as unclaimed, or by the key of its request, which is unsettled."""
from __future__ import annotations

import collections
import copy
import json
import subprocess
import time
from collections.abc import Callable
from typing import NamedTuple

from tests import ROOT
from tests.clients import java
from tests.model.account import Account, Call, Cancel, Entry, Hello, Key, Request
from tests.model.tables import table_audit
from tests.sockets.hosts import Host, HostProgram
from tests.sockets.standing import Replies
from tests.sockets.wire import demand

DOUBLE = HostProgram(ROOT / "tests/host/double.sh")
# So many takes are cancelled in the gate, at the double of the host, and in one epoch of the long form.
TAKES, FEW, EACH_EPOCH = 150, 5, 2_500
LIMIT = 1_200
# What a future that nobody cancelled may end by, where its clients are closed.
MAY_THROW = {"Unsettled", "NotAsked", "IllegalStateException"}


class Round(NamedTuple):
    """What the takes of clients told that were closed: the clients' numbers and incarnation, what futures gave and threw, and what
    stood unclaimed and unsettled after the close; and the items that their requests took by the account."""

    first: int
    most: int
    incarnation: int
    given: list
    unclaimed: list
    unsettled: list
    threw: list
    cancelled: int
    taken: dict

    @property
    def told(self):
        """The items that were told."""
        return self.given + self.unclaimed


class Book:
    """What an account says of each take that has an item, by client, incarnation and number."""

    def __init__(self, account):
        replies = Replies(account).made
        self.taken = {(key.client, key.incarnation, key.number): reply["item"]
                      for key, reply in replies.items() if reply["reply"] == "item"}
        self.by_client = collections.defaultdict(dict)
        for key, item in self.taken.items():
            self.by_client[key[:2]][key] = item

    def round(self, told):
        """A round that told this."""
        clients = range(told["first"], told["first"] + told["most"])
        taken = [self.by_client[client, told["incarnation"]] for client in clients]
        return Round(**told, taken={key: item for part in taken for key, item in part.items()})


# ---- the rules

def not_once(one):
    """An item was told to nobody, or twice."""
    counts = {key: one.told.count(item) + one.unsettled.count(list(key)) for key, item in one.taken.items()}
    return [f"{one.taken[key]} of {key} was told {count} times" for key, count in counts.items() if count != 1]


def false_item(one):
    """An item was told that no request of the round took."""
    return [f"{item} was told" for item in one.told if item not in one.taken.values()]


def false_key(one):
    """What is unsettled is of other clients."""
    return [f"{key} is unsettled" for key in one.unsettled
            if not (one.first <= key[0] < one.first + one.most and key[1] == one.incarnation)]


def false_end(one):
    """A future ended by what no close makes, or its request is unsettled, and does not stand there."""
    unsettled = one.threw.count("Unsettled")
    return [f"a future threw {name}" for name in one.threw if name not in MAY_THROW] + (
        [f"{unsettled} futures were unsettled, and {one.unsettled} stand"] if unsettled > len(one.unsettled) else [])


RULES = [not_once, false_item, false_key, false_end]


def faults_of(lines, account):
    """What is false in what a program told, by rule."""
    book, found = Book(account), collections.defaultdict(list)
    for line in lines:
        if "by" in line:
            key = tuple(line["by"])
            found["false_receipt"] += [f"{line} was told"] if book.taken.get(key) != line["item"] else []
        else:
            one = book.round(line)
            for rule in RULES:
                found[rule.__name__] += [f"{fault}: {one}" for fault in rule(one)]
    return {name: faults for name, faults in found.items() if faults}


# ---- the program

def an_epoch(program, seed, how_many, sums):
    """A host and its crowd: all that it told must be true by the account, which must be legal."""
    with Host(program) as server:
        server.connect().close()
        words = java.command("rendezvous.Closes", server.port, how_many, seed)
        ran = subprocess.run(words, capture_output=True, text=True, timeout=LIMIT)
        demand((ran.returncode, ran.stderr) == (0, ""), f"Java says {ran.stderr[:2000]}")
        account = server.ended()
    fault = table_audit(account)
    demand(not fault, f"place {fault} of the account")
    lines = list(map(json.loads, ran.stdout.splitlines()))
    found = faults_of(lines, account)
    demand(not found, "; ".join(f"{rule}, {len(faults)} times: {faults[:3]}" for rule, faults in found.items()))
    rounds = [line for line in lines if "given" in line]
    for name in ("given", "unclaimed", "unsettled"):
        sums[name] += sum(len(one[name]) for one in rounds)
    sums["cancelled"] += sum(one["cancelled"] for one in rounds)
    sums["closes"], sums["epochs"], sums["entries"] = (
        sums["closes"] + len(rounds), sums["epochs"] + 1, sums["entries"] + len(account.entries))


def cancelled_takes(program, seed, how_many=TAKES):
    """Of so many takes that are cancelled each item is told once, whenever their clients are closed."""
    sums, began = collections.Counter(), time.monotonic()
    while sums["cancelled"] < how_many:
        an_epoch(program, seed + sums["epochs"], min(EACH_EPOCH, how_many - sums["cancelled"]), sums)
        if how_many > EACH_EPOCH:
            print(f"{sums['epochs']} epochs, {sums['cancelled']} takes cancelled", flush=True)
    return f"{json.dumps(sums)}, {time.monotonic() - began:.0f} seconds, each item told once"


def at_the_double(_program, seed):
    """A few of them at the double of the host."""
    return cancelled_takes(DOUBLE, seed, FEW)


# ---- the rules, tried on lies

def written():
    """Lines that are true, and their account: of four takes of two rounds one gave its item, the item of one is unclaimed, one is
    unsettled, and one was cancelled."""
    take, keys = Call("take", 3, wait="forever"), [Key(1, 4, 1, 1), Key(1, 5, 1, 1), Key(1, 4, 2, 1), Key(1, 5, 2, 1)]
    hellos = [Entry(0, Hello(1, 1)), *(Entry(0, Hello(key.client, key.incarnation)) for key in keys[:2])]
    takes = [Entry(1, Request(key, take)) for key in keys[:2]]
    gives = [Entry(2, Request(Key(1, 1, 1, number), Call("put", 3, item=item)), partners)
             for number, item, partners in [(1, "a", (3,)), (2, "b", (4,)), (3, "c", ())]]
    later = [Entry(3, Hello(4, 2)), Entry(3, Hello(5, 2)), Entry(4, Request(keys[2], take), (7,)),
             Entry(4, Request(keys[3], take)), Entry(5, Cancel(keys[3]))]
    round_of = {"first": 4, "most": 2, "threw": [], "given": [], "unclaimed": [], "unsettled": [], "cancelled": 1}
    return Account(1, 0, (*hellos, *takes, *gives, *later)), [
        {**round_of, "incarnation": 1, "given": ["a"], "unclaimed": ["b"]},
        {**round_of, "incarnation": 2, "unsettled": [[4, 2, 1]], "threw": ["Unsettled", "NotAsked"]},
        {"item": "a", "by": [4, 1, 1]}]


LIES = [("not_once", 0, {"unclaimed": []}), ("not_once", 0, {"given": ["a", "a"]}), ("not_once", 0, {"given": ["a", "b"]}),
        ("not_once", 0, {"unsettled": [[5, 1, 1]]}), ("not_once", 1, {"unsettled": []}), ("not_once", 1, {"unclaimed": ["c"]}),
        ("false_item", 1, {"given": ["a"]}), ("false_item", 0, {"unclaimed": ["b", "d"]}),
        ("false_key", 1, {"unsettled": [[4, 2, 1], [4, 1, 1]]}), ("false_key", 1, {"unsettled": [[4, 2, 1], [6, 2, 1]]}),
        ("false_end", 1, {"threw": ["TimeoutException"]}), ("false_end", 1, {"threw": ["Unsettled", "Unsettled"]}),
        ("false_receipt", 2, {"item": "b"}), ("false_receipt", 2, {"by": [5, 2, 1]})]


def the_judge_finds_lies(_program, _seed):
    """The lines that are written down are true; with each of the lies they are not, and the lie's rule finds it."""
    account, lines = written()
    demand(not table_audit(account), f"{table_audit(account)}")
    demand(faults_of(lines, account) == {}, f"true lines: {faults_of(lines, account)}")
    for rule, place, lie in LIES:
        spoilt = copy.deepcopy(lines)
        spoilt[place].update(lie)
        demand(rule in faults_of(spoilt, account), f"{rule} does not find {lie}: {faults_of(spoilt, account)}")
    demand({rule for rule, _, _ in LIES} == {rule.__name__ for rule in RULES} | {"false_receipt"}, "a rule is not tried")


CASES: list[Callable[..., object]] = [the_judge_finds_lies, cancelled_takes, at_the_double]
