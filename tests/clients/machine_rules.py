"""The machine of a client's session, as rules to be read: of its state's list the first that applies counts.

A machine, an event and what is told are JSON members, as in the table of cases. A rule is the word of an
event, when the rule applies, and what comes then: both are functions of the machine and of what the event
brings, which is a call, an answer or nothing.
"""
from tests.model.calls import KINDS
from tests.model.texts import KEY, MAX_IDENTIFIER, TAKER

# What is noted of one request, before anything is.
FRESH = {"giving_up": False, "sent": False, "out": 0, "accepted": False, "full": False, "doubtful": False}


# ---- when a rule applies

def where(**members):
    """Where the machine has these members."""
    return lambda machine, _given: machine.items() >= members.items()


def refused(codes, holds=lambda _machine, _answer: True):
    """Where the answer is a refusal of one of these codes, and this holds of the machine and of it."""
    return lambda machine, answer: answer.get("code") in codes and holds(machine, answer)


def epoch(machine):
    """The epoch of its key."""
    return machine["key"]["epoch"]


def number(machine):
    """The number of its key."""
    return machine["key"]["number"]


def is_own_welcome(machine, answer):
    """Where the answer is a welcome of its client, incarnation and version; no version is the first."""
    own = {name: machine[name] for name in ("client", "incarnation", "version")}
    return answer["kind"] == "welcome" and {"version": 1, **answer}.items() >= own.items()


def is_of_its_key(machine, answer):
    """Where all four parts of the answer's key are its own."""
    return {name: answer.get(name) for name in KEY} == machine["key"]


def is_its_reply(machine, answer):
    """Where the answer is a reply of its key that its call can have."""
    own = answer["kind"] == "reply" and is_of_its_key(machine, answer)
    return own and can_have(machine["call"], machine["version"], answer)


def is_its_wait(machine, answer):
    """Where its request is answered that it waits, and is one that can."""
    own = answer["kind"] == "waiting" and is_of_its_key(machine, answer)
    return own and machine["flying"] == "request" and can_wait(machine["call"])


def can_wait(call):
    """Whether a call can be told that it waits."""
    wait = call.get("wait", "now")
    return wait == "forever" or wait != "now" and wait > 0


def replies_of(call):
    """The words of the replies that a call can have."""
    kind, wait = KINDS[call["call"]], call.get("wait")
    unmet = "timedout" if isinstance(wait, int) else kind.unmet
    return [kind.met, "cancelled"] if wait == "forever" else [kind.met, unmet, "cancelled"]


def can_have(call, version, reply):
    """Whether a call can have a reply in this version: the second's receipts name the consumer."""
    if reply["reply"] not in replies_of(call):
        return False
    if reply["reply"] == "received":
        return all(name in reply for name in TAKER) == (version == 2)
    return reply["reply"] != "drained" or len(reply["texts"]) <= call["max"]


# ---- what comes of an event

def came(machine, sends=None, tells=None, drops=False):
    """What comes: the machine then, what is sent, what is told, and whether the connection goes."""
    return {"becomes": machine, "sends": sends, "tells": tells, "drops": drops}


def told(word, **members):
    """What is told, in the members of the table."""
    return {"told": word, **members}


def changes(tells=None, **members):
    """It has these members, and tells this."""
    return lambda machine, _given: came({**machine, **members}, tells=tells)


def idle(machine, key, tells):
    """It is idle at this key, and tells how its call ended."""
    return came({**machine, **FRESH, "state": "idle", "key": key, "call": None}, tells=tells)


def ended(machine, tells):
    """The session has ended, and its connection goes."""
    none = {"state": "ended", "key": None, "call": None, "flying": "nothing"}
    return came({**machine, **FRESH, **none}, tells=tells, drops=True)


def misuse(_machine, _given):
    """Nobody may ask this of it."""
    return {"misused": True}


def without_link(machine):
    """The machine, whose connection is gone: what became of a request that flew there is not known."""
    return {**machine, "flying": "nothing", "doubtful": machine["doubtful"] or machine["flying"] == "request"}


def loses(machine, _given):
    """Its connection is gone, and what was sent stays counted."""
    return came(without_link(machine))


def fault(machine, _answer):
    """The answer is of no use: the connection goes, and what was sent stays counted."""
    return came(without_link(machine), drops=True)


def says_hello(machine, _given):
    """It says its hello; the first version is not written."""
    version = {"version": machine["version"]} if machine["version"] > 1 else {}
    whose = {"client": machine["client"], "incarnation": machine["incarnation"]}
    return came({**machine, "flying": "hello"}, {"kind": "hello", **whose, **version})


def says_request(machine, _given):
    """It says its request: one copy more is out."""
    said = {**machine, "sent": True, "out": machine["out"] + 1, "flying": "request"}
    return came(said, {"kind": "request", **machine["key"], **machine["call"]})


def says_cancel(machine, _given):
    """It says its cancel: one copy more is out."""
    said = {**machine, "out": machine["out"] + 1, "flying": "cancel"}
    return came(said, {"kind": "cancel", **machine["key"]})


def keeps(machine, call):
    """The call waits for the welcome."""
    return came({**machine, "call": call, "full": False, "giving_up": False})


def begins(machine, call):
    """The call is its request, of which nothing is sent yet."""
    return came({**machine, **FRESH, "state": "outstanding", "call": call})


def is_welcomed(machine, answer):
    """It has a session: the call that waited is its first request, which it says at once."""
    whose = {"client": machine["client"], "incarnation": machine["incarnation"]}
    key = {"epoch": answer["epoch"], **whose, "number": 1}
    welcomed = {**machine, **FRESH, "key": key, "flying": "nothing"}
    if machine["call"] is None:
        return came({**welcomed, "state": "idle"}, tells=told("welcomed"))
    return says_request({**welcomed, "state": "outstanding"}, answer)


def is_turned_away(machine, answer):
    """Its hello is refused for good, and so is the call that waited."""
    why = told("refused", key=None, code=answer["code"], current=answer.get("current"))
    return came({**machine, "call": None, "flying": "nothing"}, tells=why, drops=True)


def was_not_asked(machine, _given):
    """No copy was sent, so its number is free."""
    return idle(machine, machine["key"], told("not asked"))


def had_no_room(machine, _given):
    """It was told last that there is no room, and each copy has its answer, so its number is free."""
    return idle(machine, machine["key"], told("full", key=machine["key"]))


def is_unsettled(machine, _given):
    """It is not known what becomes of its request."""
    return came(machine, tells=told("unsettled", key=machine["key"], accepted=machine["accepted"]))


def settles(machine, answer):
    """Its request is settled, and the next number is free, where there is one."""
    is_last = number(machine) == MAX_IDENTIFIER
    key = None if is_last else {**machine["key"], "number": number(machine) + 1}
    return idle({**machine, "flying": "nothing"}, key, told("settled", reply=answer))


def waits(machine, answer):
    """Its request waits: it says it again at once, or its cancel."""
    accepted = {**machine, "accepted": True, "full": False, "doubtful": True, "out": machine["out"] - 1, "flying": "nothing"}
    return (says_cancel if machine["giving_up"] else says_request)(accepted, answer)


def outlives_its_epoch(machine, answer):
    """The server has a later epoch. Nobody met its request where no copy of it may have come to a server of its own epoch."""
    return ended(machine, told("ended", key=machine["key"], current=answer["current"], unmet=not machine["doubtful"]))


def outlives_its_server(machine, _answer):
    """The server lost what it had, in the same epoch."""
    return ended(machine, told("ended", key=machine["key"], current=epoch(machine), unmet=False))


def is_replaced(machine, answer):
    """A greater incarnation has its client; a new one has no key to tell."""
    return ended(machine, told("replaced", key=machine["key"], current=answer["current"]))


def is_not_alone(machine, answer):
    """Another process uses its client and incarnation."""
    return ended(machine, told("refused", key=machine["key"], code=answer["code"], current=None))


def is_no_message(machine, answer):
    """This copy is no message. Where each other has its answer, its number is free."""
    out = machine["out"] - 1
    heard = {**machine, "out": out, "flying": "nothing"}
    why = told("refused", key=machine["key"], code=answer["code"], current=None)
    return idle(heard, machine["key"], why) if out == 0 else came(heard, tells=why)


def finds_no_room(machine, answer):
    """There is no room for this copy. Where each other has its answer, none of them is there; and where it gives up, its
    number is free."""
    out = machine["out"] - 1
    heard = {**machine, "out": out, "full": True, "doubtful": machine["doubtful"] and out > 0, "flying": "nothing"}
    return had_no_room(heard, answer) if machine["giving_up"] and heard["out"] == 0 else came(heard)


def finds_no_memory(machine, _answer):
    """There is no memory for this copy, or for its answer: it may have arrived."""
    return came({**without_link(machine), "out": machine["out"] - 1, "full": False})


# ---- the rules

NEW = [
    ("ask", where(call=None), keeps),
    ("ask", where(), misuse),
    ("speak", where(flying="nothing"), says_hello),
    ("speak", where(), misuse),
    ("lose", where(), loses),
    ("give up", where(), changes(told("not asked"), call=None)),
    ("expire", where(full=True), changes(told("full", key=None), call=None)),
    ("expire", where(), changes(told("not asked"), call=None)),
    ("hear", where(flying="nothing"), fault),
    ("hear", is_own_welcome, is_welcomed),
    ("hear", refused([4], lambda machine, answer: answer["current"] > machine["incarnation"]), is_replaced),
    ("hear", refused([1, 9]), is_turned_away),
    ("hear", refused([12], lambda machine, answer: answer["current"] != machine["version"]), is_turned_away),
    ("hear", refused([10]), changes(full=True, flying="nothing")),
    ("hear", refused([11]), changes(full=False, flying="nothing")),
    ("hear", where(), fault),
]
IDLE = [
    ("ask", where(key=None), misuse),
    ("ask", where(), begins),
    ("speak", where(flying="nothing"), changes()),
    ("speak", where(), misuse),
    ("lose", where(), loses),
    ("give up", where(), changes()),
    ("expire", where(), changes()),
    ("hear", where(), fault),
]
OUTSTANDING = [
    ("ask", where(), misuse),
    ("speak", where(flying="nothing", giving_up=True), says_cancel),
    ("speak", where(flying="nothing"), says_request),
    ("speak", where(), misuse),
    ("lose", where(), loses),
    ("give up", where(sent=False), was_not_asked),
    ("give up", where(full=True, out=0), had_no_room),
    ("give up", where(), changes(giving_up=True)),
    ("expire", where(sent=False), was_not_asked),
    ("expire", where(full=True, out=0), had_no_room),
    ("expire", where(), is_unsettled),
    ("hear", where(flying="nothing"), fault),
    ("hear", is_its_reply, settles),
    ("hear", is_its_wait, waits),
    ("hear", refused([2], lambda machine, answer: answer["current"] > epoch(machine)), outlives_its_epoch),
    ("hear", refused([4], lambda machine, answer: answer["current"] > machine["incarnation"]), is_replaced),
    ("hear", refused([3]), outlives_its_server),
    ("hear", refused([8], lambda machine, answer: answer["last"] < number(machine) - 1), outlives_its_server),
    ("hear", refused([5], lambda machine, answer: answer["last"] > number(machine)), is_not_alone),
    ("hear", refused([6], where(flying="request")), is_not_alone),
    ("hear", refused([7], lambda machine, answer: answer["open"] < number(machine)), is_not_alone),
    ("hear", refused([1], where(flying="request", accepted=False)), is_no_message),
    ("hear", refused([10], where(accepted=False)), finds_no_room),
    ("hear", refused([11]), finds_no_memory),
    ("hear", where(), fault),
]
ENDED = [("ask", where(), misuse), *IDLE[2:]]
RULES = {"new": NEW, "idle": IDLE, "outstanding": OUTSTANDING, "ended": ENDED}


def step(machine, event):
    """What comes of an event, by the first rule that applies. An event is a word, and what it brings."""
    [(word, given)] = event.items() if isinstance(event, dict) else [(event, None)]
    rules = [rule[1:] for rule in RULES[machine["state"]] if rule[0] == word]
    return next(then(machine, given) for applies, then in rules if applies(machine, given))
