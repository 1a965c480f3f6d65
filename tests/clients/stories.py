"""The table of cases: a client's process in stories, by that of tests/model, and its machine's cases.

A story is a list of play lines, each with the result that `rv play` must print for it. A line that starts,
begins, repeats, cancels or ends something, or brings an answer, is a case: what the process is, what comes,
what it becomes, and what it says. Behind the stories stand the cases of the machine that each client is.
"""
from tests.clients.machine_cases import machine_cases, text_of
from tests.model.texts import members_of, members_of_call, read_json
from tests.model.world import Idle, New, Outstanding, World

TAKE = '{"call":"take","queue":3,"wait":"forever"}'
POLL = '{"call":"take","queue":3,"wait":"now"}'
SHORT = '{"call":"take","queue":3,"wait":10}'
PUT = '{"call":"put","item":"a","queue":3}'
TRANSFER = '{"call":"transfer","item":"a","queue":3,"wait":"forever"}'
OTHER = '{"call":"transfer","item":"b","queue":3,"wait":"forever"}'
TRY = '{"call":"transfer","item":"a","queue":3,"wait":"now"}'
SWAP = '{"call":"swap","exchanger":63,"item":"%s","wait":"forever"}'
COUNT = '{"call":"count","queue":3}'
PEEK = '{"call":"peek","queue":3}'
DRAIN = '{"call":"drain","max":2,"queue":3}'
# Two clients that are welcome: packets 0 and 1 each way.
ONE = ["start 1 1", "server 0 0", "client 0"]
TWO = [*ONE, "start 2 1", "server 1 0", "client 1"]
# The same, where the first client's session is of version 2, or both are.
SECOND = ["start 1 1 2", *TWO[1:]]
SECONDS = [*SECOND[:3], "start 2 1 2", *SECOND[4:]]
STORIES = {
    "a put is done, and told twice": [*ONE, f"begin 1 {PUT}", "server 1 1", "client 1", "client 1"],
    "a process that is new does nothing else": ["start 1 1", f"begin 1 {PUT}", "resend 1", "cancel 1",
                                                "server 0 0",
                                                "client 0", "client 0", "resend 1", "cancel 1"],
    "nobody runs": ["begin 1 " + PUT, "resend 1", "cancel 1", "crash 1", "client 0"],
    "a hand-over": [*TWO, f"begin 1 {TRANSFER}", "server 2 1", "client 2", "resend 1", f"begin 1 {PUT}",
                    f"begin 2 {TAKE}", "server 3 2", "client 3", "server 4 3", "client 4", "client 2",
                    "client 4"],
    "nobody, empty, timed out": [*ONE, f"begin 1 {TRY}", "server 1 1", "client 1", f"begin 1 {POLL}",
                                 "server 2 1",
                                 "client 2", f"begin 1 {SHORT}", "server 3 1", "client 3", "server 3 11",
                                 "client 4"],
    "a swap": [*TWO, "begin 1 " + SWAP % "a", "server 2 1", "client 2", "begin 2 " + SWAP % "b", "server 3 2",
               "client 3", "server 2 3", "client 4"],
    "counted and peeked": [*ONE, f"begin 1 {PUT}", "server 1 1", "client 1", f"begin 1 {COUNT}", "server 2 1",
                           "client 2", f"begin 1 {PEEK}", "server 3 1", "client 3"],
    "a drain": [*TWO, f"begin 1 {PUT}", "server 2 1", "client 2", f"begin 1 {OTHER}", "server 3 1",
                f"begin 2 {DRAIN}", "server 4 2", "client 3", "client 4", "client 4", "server 4 3",
                "client 5", "server 3 4", "client 6", f"begin 2 {DRAIN}", "client 5", "server 5 5",
                "client 7"],
    "a drain cancelled before it came": [*ONE, f"begin 1 {DRAIN}", "cancel 1", "server 2 1", "server 1 2",
                                         "client 2", f"begin 1 {DRAIN}", "client 1"],
    "a drain is asked again": [*TWO, f"begin 1 {PUT}", "server 2 1", f"begin 2 {DRAIN}", "server 3 2",
                               "resend 2", "resend 2", "server 4 3", "client 4", "resend 2", "server 5 4",
                               "client 5"],
    "cancelled while it waits": [*ONE, f"begin 1 {TAKE}", "server 1 1", "client 1", "cancel 1", "server 2 2",
                                 "client 2", "client 2"],
    "cancelled before it came": [*ONE, f"begin 1 {TRANSFER}", "cancel 1", "server 2 1", "client 1",
                                 f"begin 1 {PUT}",
                                 "server 1 2", "client 2", "server 3 3", "client 3"],
    "cancelled too late": [*TWO, f"begin 1 {TRANSFER}", "server 2 1", f"begin 2 {TAKE}", "server 3 2",
                           "cancel 1",
                           "server 4 3", "client 4"],
    "the reply before, again": [*ONE, f"begin 1 {PUT}", "server 1 1", "client 1", f"begin 1 {COUNT}",
                                "client 1",
                                "server 1 2", "client 2", "server 2 3", "client 3"],
    "an old number": [*ONE, f"begin 1 {PUT}", "server 1 1", "client 1", f"begin 1 {COUNT}", "server 2 2",
                      "server 1 3", "client 3", "client 2"],
    "a welcome in between": [*ONE, f"begin 1 {PUT}", "server 0 1", "client 1", "server 1 1", "client 2"],
    "a welcome of an incarnation before": ["start 1 1", "server 0 0", "start 1 2", "client 0", "server 1 1",
                                           "client 1"],
    "a greater incarnation waits for its welcome": [*ONE, f"begin 1 {TAKE}", "server 1 1", "start 1 2",
                                                    "client 1",
                                                    "server 2 2", "server 1 3", "client 3", "client 2",
                                                    "client 3"],
    "the reply of an incarnation before": [*ONE, f"begin 1 {PUT}", "server 1 1", "start 1 2", "client 1",
                                           "server 2 2",
                                           "client 2", "client 1", f"begin 1 {COUNT}", "client 1",
                                           "server 3 3",
                                           "client 3"],
    "a refusal of an incarnation before": [*ONE, f"begin 1 {PUT}", "start 1 2", "server 2 1", "client 1",
                                           f"begin 1 {PUT}", "server 1 2", "client 2"],
    "a hello that comes late": ["start 1 1", "start 1 2", "server 1 0", "server 0 0", "client 1", "client 0"],
    "no session": [*ONE, "epoch 2", "start 1 2", f"begin 1 {PUT}", "server 1 0", "client 1"],
    "a later epoch ends it": [*ONE, f"begin 1 {TRANSFER}", "server 1 1", "epoch 2", "server 1 0", "client 2",
                              "client 2", f"begin 1 {PUT}", "resend 1"],
    "an idle process and a later epoch": [*ONE, f"begin 1 {PUT}", "server 1 1", "epoch 3", "server 1 0",
                                          "client 1",
                                          "client 2", f"begin 1 {PUT}", "server 2 0", "client 3"],
    "a new process and an epoch's refusal": [*ONE, f"begin 1 {PUT}", "epoch 2", "start 1 2", "server 1 0",
                                             "client 1",
                                             "server 2 0", "client 2", f"begin 1 {PUT}", "server 3 0",
                                             "client 3"],
    "an older epoch's refusal": [*ONE, f"begin 1 {PUT}", "epoch 2", "server 1 0", "start 1 2", "server 2 0",
                                 "client 2", f"begin 1 {PUT}", "client 1", "server 3 0", "client 3"],
    "a crash": [*ONE, f"begin 1 {PUT}", "crash 1", "server 1 1", "client 1", "resend 1", "start 1 1",
                "start 1 2"],
    "a stranger's answer": [*TWO, f"begin 1 {TAKE}", f"begin 2 {PUT}", "server 3 1", "client 2", "server 2 2",
                            "client 3"],
    "a receipt names the consumer": [*SECOND, f"begin 1 {TRANSFER}", "server 2 1", "client 2", "resend 1",
                                     f"begin 2 {TAKE}", "server 3 2", "server 4 3", "client 4", "server 3 4",
                                     "client 3", "client 5", "client 5"],
    "a receipt names who waited": [*SECOND, f"begin 2 {TAKE}", "server 2 1", f"begin 1 {TRY}", "server 3 2",
                                   "client 3", "server 3 3", "client 4"],
    "a receipt names the drain": [*SECONDS, f"begin 2 {POLL}", "server 2 1", "client 2", f"begin 1 {OTHER}",
                                  "server 3 1", f"begin 2 {DRAIN}", "server 4 2", "client 4", "server 3 3",
                                  "client 5"],
    "a receipt behind a cancel": [*SECOND, f"begin 1 {TRANSFER}", "server 2 1", f"begin 2 {TAKE}",
                                  "server 3 2", "cancel 1", "server 4 3", "client 4"],
    "only the giver is of version 1": ["start 1 1", *SECONDS[1:], f"begin 1 {TRANSFER}", "server 2 1",
                                       f"begin 2 {TAKE}", "server 3 2", "server 2 3", "client 4", "client 3"],
    "a greater incarnation in version 1": [*SECOND, f"begin 1 {TRANSFER}", "server 2 1", "start 1 2",
                                           "server 3 2", "client 0", "client 3", f"begin 1 {TRANSFER}",
                                           "server 4 2", f"begin 2 {TAKE}", "server 5 3", "server 4 3",
                                           "client 6"],
    "a greater incarnation in version 2": [*ONE, "start 1 2 2", "start 1 2", "server 1 0", "client 0",
                                           "client 1", f"begin 1 {TRY}", "server 2 1", "client 2"],
    "done, where it was not heard": [*ONE, f"begin 1 {PUT}", "server 1 1", "server 1 2", "resend 1",
                                     "server 2 3",
                                     "client 3", "client 2", "client 1"],
}


def process_members(process):
    """What a process is, in the members of the table."""
    if isinstance(process, New):
        return {"state": "new", **vars(process)}
    if isinstance(process, Idle):
        return {"state": "idle", "key": process.next and vars(process.next)}
    if isinstance(process, Outstanding):
        return {"state": "outstanding", "key": vars(process.key), "call": members_of_call(process.call)}
    return {"state": "ended"}


def client_of(line, world):
    """The client that a line is about; None for a line that is about none."""
    word, number = line.split(" ")[:2]
    if word == "client":
        return world.to_client[int(number)][0] if int(number) < len(world.to_client) else None
    return None if word in ("server", "epoch", "start") else int(number)


def case(line, world):
    """One line's case, and the world behind it."""
    client = client_of(line, world)
    before = process_members(world.processes.get(client))
    sent = len(world.to_server)
    seen = world.play(line.encode())
    made = {"play": line, "seen": seen}
    if line.startswith("start") and len(world.to_server) > sent:
        return {**made, **started(world, int(line.split(" ")[1]))}
    if client is None or line.startswith("crash"):
        return made
    made.update(process=before, becomes=process_members(world.processes.get(client)))
    if line.startswith("client"):
        made["comes"] = world.to_client[int(line.split(" ")[1])][1]
    else:
        made["does"] = line.split(" ")[0]
        if len(world.to_server) > sent:
            made["says"] = members_of(world.to_server[-1])
    if line.startswith("begin"):
        made["call"] = read_json(line.split(" ", 2)[2].encode())
    return made


def started(world, client):
    """The case of a process that has begun: it says its hello."""
    new = process_members(world.processes[client])
    return {"process": new, "does": "start", "says": members_of(world.to_server[-1]), "becomes": new}


def table():
    """All cases, each a line of JSON."""
    made = []
    for name, lines in STORIES.items():
        world = World()
        made += [{"story": name, **case(line, world)} for line in lines]
    return "".join([*map(text_of, made), *machine_cases()])
