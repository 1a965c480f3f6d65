"""The table of cases: it is what the model and the rules make today; the Python machine does what it says, in
random plays too; and the program's own process does what the stories say."""
import itertools
import json
import random
import subprocess
from typing import Any

from rendezvous import replies
from rendezvous.errors import Misused
from rendezvous.machine import (
    Ask, EpochEnded, Expire, Flying, Full, GiveUp, Hear, Lose, Machine, NotAsked, Refused, Replaced, Settled,
    Speak, State, Unsettled, Welcomed, step)
from tests import ROOT
from tests.clients.machine_cases import machine
from tests.clients.machine_rules import can_have, can_wait
from tests.clients.machine_walk import Walk
from tests.clients.outcomes import WORDS as OUTCOME_WORDS
from tests.clients.stories import STORIES, table
from tests.model.account import Hello
from tests.model.answers import REPLIES
from tests.model.plays import Play
from tests.model.texts import TAKER, members_of, members_of_call
from tests.model.world import Idle, New, Outstanding, World
from tests.sockets.wire import demand

TABLE = ROOT / "clients/cases.jsonl"
TYPES = {word: outcome for outcome, word in OUTCOME_WORDS.items()}
WORDS = {"speak": Speak, "lose": Lose, "give up": GiveUp, "expire": Expire}


def lines(member):
    """The lines of the table that have this member."""
    every = [json.loads(line) for line in TABLE.read_text().splitlines()]
    return [line for line in every if member in line]


def cases():
    """The lines of stories."""
    return lines("story")


def is_fresh(_):
    """The table is what the model and the rules make today."""
    demand(TABLE.read_text() == table(), "tools/cases.py makes another table: run it")


# ---- the table's members and the Python machine's values

def key_of(members):
    """The key of these members; none for none."""
    return members and replies.Key(**members)


def machine_of(members):
    """The Python machine of these members."""
    return Machine(**{**members, "state": State(members["state"]), "flying": Flying(members["flying"]),
                      "key": key_of(members["key"])})


def machine_members(made):
    """The members of a Python machine."""
    return {name: getattr(made, name) for name in machine("new")} | {
        "state": made.state.value, "flying": made.flying.value, "key": made.key and made.key._asdict()}


def event_of(event):
    """The Python event of a table's."""
    if isinstance(event, str):
        return WORDS[event]()
    return Ask(event["ask"]) if "ask" in event else Hear(event["hear"])


def outcome_of(reply):
    """The Python outcome of a reply."""
    key, word = replies.Key(*(reply[name] for name in replies.Key._fields)), reply["reply"]
    given = {name: reply[name] for name in REPLIES[word]}
    if word == "received" and TAKER[0] in reply:
        given = {"by": replies.Key(key.epoch, *(reply[name] for name in TAKER))}
    if word == "drained":
        given = {"items": tuple(reply["texts"])}
    return TYPES[word](key, **given)


def told_of(tells):
    """What the Python machine is to tell; none for none."""
    if tells is None:
        return None
    key, current = key_of(tells.get("key")), tells.get("current")
    return {
        "welcomed": lambda: Welcomed(), "settled": lambda: Settled(outcome_of(tells["reply"])),
        "unsettled": lambda: Unsettled(key, tells["accepted"]), "not asked": lambda: NotAsked(),
        "full": lambda: Full(key), "refused": lambda: Refused(key, tells["code"], current),
        "ended": lambda: EpochEnded(key, current, tells["unmet"]), "replaced": lambda: Replaced(key, current),
    }[tells["told"]]()


def case_fault(case):
    """What the Python machine does otherwise than a case says, if something."""
    before = machine_of(case["machine"])
    try:
        came = step(before, event_of(case["event"]))
    except Misused as misused:
        return None if case.get("misused") else f"misused: {misused}"
    if case.get("misused"):
        return f"no misuse, but {came}"
    if machine_members(before) != case["machine"]:
        return "the machine that was given is another now"
    became = machine_members(came.machine)
    did = {"becomes": became, "sends": came.send, "tells": came.tell, "drops": came.drop}
    wanted = {**{name: case[name] for name in did}, "tells": told_of(case["tells"])}
    faults = [f"{name}: {did[name]}, not {wanted[name]}" for name in did if did[name] != wanted[name]]
    return "; ".join(faults)


def the_python_machine(_):
    """Each case of the machine, by the Python machine."""
    for case in lines("machine"):
        fault = case_fault(case)
        demand(not fault, f"{case}: {fault}")


def by_the_rules(_):
    """What random clients of a right server tell is true by the rules, to which the Python machine keeps."""
    for seed in range(60):
        Walk(random.Random(seed), check).run()


def check(case):
    """The Python machine must do what a case says."""
    fault = case_fault(case)
    demand(not fault, f"{case}: {fault}")


# ---- the machine keeps to the process of tests/model

def machines_of(process, version):
    """The Python machines, in their members, that a process of the model may be while something flies."""
    if isinstance(process, New):
        whose = {"client": process.client, "incarnation": process.incarnation, "version": process.version}
        waiting = [None, {"call": "count", "queue": 3}]
        return [machine("new", **whose, call=call, full=full, flying="hello")
                for call, full in itertools.product(waiting, [False, True])]
    call, key = members_of_call(process.call), process.key
    whose = {"client": key.client, "incarnation": key.incarnation, "version": version, "key": vars(key)}
    asked = [machine("outstanding", **whose, call=call, sent=True, flying=flying, giving_up=giving_up,
                     accepted=accepted, full=full, doubtful=doubtful, out=out)
             for flying, giving_up, accepted, full, doubtful, out in itertools.product(
                 ["request", "cancel"], [False, True], [False, True], [False, True], [False, True], [1, 2])]
    return [one for one in asked if not (one["accepted"] and (one["full"] or not one["doubtful"] or not can_wait(call)))
            and (one["giving_up"] or one["flying"] == "request")]


def hears(members, answer):
    """What comes of an answer that the machine of these members hears."""
    return step(machine_of(members), Hear(answer))


def heard_fault(members, answer, seen, after):
    """What the machine makes otherwise of an answer than the model's process, if something."""
    came = hears(members, answer)
    word, _, current = seen.partition(" ")
    following = vars(after.next) if isinstance(after, Idle) and after.next else None
    if isinstance(came.tell, Settled) or word == "settled":
        good = word == "settled" and can_have(members["call"], members["version"], answer)
        wanted = (Settled(outcome_of(answer)), State.IDLE, key_of(following))
        return None if good and (came.tell, came.machine.state, came.machine.key) == wanted else f"{came}"
    if members["state"] == "new":
        is_in = came.machine.state in (State.IDLE, State.OUTSTANDING)
        good = came.machine.key == key_of(following) if is_in else word != "welcomed"
        return None if good and is_in == (word == "welcomed") else f"{came}"
    told = {"ended": EpochEnded, "replaced": Replaced}.get(word)
    unmet = [not members["doubtful"] and int(current) > members["key"]["epoch"]] if word == "ended" else []
    wanted = (told(key_of(members["key"]), int(current), *unmet), State.ENDED, True) if told else None
    return None if wanted in (None, (came.tell, came.machine.state, came.drop)) else f"{came}"


def said(does, process, version, call):
    """What the machine says that does this, beside nothing that flies."""
    if does == "start":
        return step(machine_of({**machines_of(process, version)[0], "flying": "nothing"}), Speak()).send
    if does == "begin":
        whose = {"client": process.next.client, "incarnation": process.next.incarnation, "version": version}
        idle = machine("idle", **whose, key=vars(process.next))
        return step(step(machine_of(idle), Ask(members_of_call(call))).machine, Speak()).send
    sent = machine_of({**machines_of(process, version)[0], "flying": "nothing"})
    return step(step(sent, GiveUp()).machine if does == "cancel" else sent, Speak()).send


class Watched(World):
    """A world beside whose processes Python machines stand."""

    def play(self, line):
        """The result of a line, which the machines must keep to."""
        before, sent = dict(self.processes), len(self.to_server)
        seen = super().play(line)
        does = line.decode("utf-8", "replace").split(" ")[0]
        if len(self.to_server) > sent:
            self.compare_said(does, before)
        if does == "client" and seen.split(" ")[0] in OUTCOMES:
            self.compare_heard(line, seen, before)
        return seen

    def version(self, client):
        """The version of a client's newest session."""
        hellos = [message for message in self.to_server if isinstance(message, Hello)]
        return [hello.version for hello in hellos if hello.client == client][-1]

    def compare_said(self, does, before):
        """The message that was sent must be the machine's."""
        message = self.to_server[-1]
        client = message.client if does == "start" else message.key.client
        process = self.processes[client] if does == "start" else before[client]
        call = message.call if does == "begin" else None
        says = said(does, process, self.version(client), call)
        demand(says == members_of(message), f"{does}: it says {says}, not {members_of(message)}")

    def compare_heard(self, line, seen, before):
        """Whatever a machine was told before, the answer makes of it what it makes of the process."""
        client, answer = self.to_client[int(line.split(b" ")[1])]
        if not isinstance(before.get(client), (New, Outstanding)):
            return
        for members in machines_of(before[client], self.version(client)):
            fault = heard_fault(members, answer, seen, self.processes.get(client))
            demand(not fault, f"{members} hears {answer}, and the process is {seen}: {fault}")


OUTCOMES = ("welcomed", "turned", "settled", "ended", "replaced", "ignored")


def the_models_process(_):
    """In each story and in random plays the Python machine keeps to the process of the model."""
    for story in STORIES.values():
        world = Watched()
        for line in story:
            world.play(line.encode())
    for seed in range(60):
        play = Play(random.Random(seed))
        play.world = Watched()
        for _ in range(200):
            play.line()


def the_programs_process(program: str) -> None:
    """Each story, by `rv play`: the process there is that of rv_client."""
    stories: dict[str, list[dict[str, Any]]] = {}
    for case in cases():
        stories.setdefault(case["story"], []).append(case)
    for name, told in stories.items():
        given = "".join(case["play"] + "\n" for case in told).encode()
        ran = subprocess.run([program, "play"], input=given, capture_output=True, timeout=300)
        wanted = "".join(case["seen"] + "\n" for case in told).encode()
        demand((ran.stdout, ran.returncode) == (wanted, 0),
               f"{name}: rv play says {ran.stdout!r}, not {wanted!r}")


CASES = [is_fresh, the_python_machine, the_models_process, by_the_rules]
WITH_PROGRAM = [the_programs_process]
