"""Worked rows and worlds with sessions of version 2, with values that were set beforehand, written as those of `rows`; and
what version 2 leaves of version 1: its rows and worlds as they were, and the same of them in sessions of version 2."""
import hashlib
import re

from tests import ROOT
from tests.model.account import Account
from tests.model.rows import LATER_ROWS, LONG_ROWS, ROWS, WORLDS, pairs_of, play_pairs
from tests.model.steps import told
from tests.model.world import World

G = 2**53 - 1
# A session of version 2, and two of version 1.
MIXED = "hello 1/1 version 2 => welcome\nhello 2/1 => welcome\nhello 3/1 => welcome\n"
FULL_ROW = "messages of version 2, in full bytes"
NAMED_ROW = "the consumer that is named is the one that took the item"
BOTH_ROW = "one drain settles transfers of both versions, each in its own words"
ASKED = '{"call":"transfer","client":%d,"epoch":1,"incarnation":1,"item":"%s","kind":"request","number":%d,"queue":%d,"wait":"forever"}'
ASKED_A, ASKED_B = ASKED % (1, "a", 1, 3), ASKED % (2, "b", 2, 4)

# Name, epoch, lines.
VERSION_ROWS = [
    (FULL_ROW, 1, f"""
        line 0 {{"client":1,"incarnation":1,"kind":"hello","version":2}} => {{"client":1,"epoch":1,"incarnation":1,"kind":"welcome","version":2}}
        line 0 {{"client":2,"incarnation":1,"kind":"hello"}} => {{"client":2,"epoch":1,"incarnation":1,"kind":"welcome"}}
        line 0 {{"client":1,"incarnation":1,"kind":"hello"}} => {{"code":12,"current":2,"kind":"refused"}}
        line 0 {ASKED_A} => {{"client":1,"epoch":1,"incarnation":1,"kind":"waiting","number":1}}
        line 1 {{"call":"take","client":2,"epoch":1,"incarnation":1,"kind":"request","number":1,"queue":3,"wait":"now"}} => {{"client":2,"epoch":1,"incarnation":1,"item":"a","kind":"reply","number":1,"reply":"item"}}
        line 1 {ASKED_A} => {{"by_client":2,"by_incarnation":1,"by_number":1,"client":1,"epoch":1,"incarnation":1,"kind":"reply","number":1,"reply":"received"}}
        line 2 {ASKED_B} => {{"client":2,"epoch":1,"incarnation":1,"kind":"waiting","number":2}}
        line 2 {{"call":"drain","client":1,"epoch":1,"incarnation":1,"kind":"request","max":16,"number":2,"queue":4}} => {{"client":1,"epoch":1,"incarnation":1,"kind":"reply","number":2,"reply":"drained","texts":["b"]}}
        line 3 {ASKED_B} => {{"client":2,"epoch":1,"incarnation":1,"kind":"reply","number":2,"reply":"received"}}
        line 3 {{"client":2,"incarnation":1,"kind":"hello","version":2}} => {{"code":12,"current":1,"kind":"refused"}}
        line 3 {{"client":3,"incarnation":1,"kind":"hello","version":3}} => {{"code":1,"kind":"refused"}}
        line 3 {{"client":3,"incarnation":1,"kind":"hello","version":1}} => {{"code":1,"kind":"refused"}}
        line 4 {{"client":1,"incarnation":2,"kind":"hello"}} => {{"client":1,"epoch":1,"incarnation":2,"kind":"welcome"}}
        """),
    (NAMED_ROW, 1, MIXED + """
        1#1 transfer 3 "a" forever => waiting
        2#1 take 3 now => item "a"
        3#1 take 3 now => empty
        2#2 take 3 forever => waiting
        3#2 take 3 forever => waiting
        1#1 transfer 3 "a" forever => received 2#1
        cancel 1#1 => received 2#1
        @1 1#2 transfer 3 "b" forever => received 2#2
        @1 2#3 take 3 forever => waiting
        @1 1#2 transfer 3 "b" forever => received 2#2
        @2 1#3 transfer 3 "c" now => received 3#2
        @2 1#4 transfer 3 "d" 0 => received 2#3
        @2 1#5 transfer 3 "e" 0 => timedout
        @2 1#6 transfer 3 "f" now => nobody
        @2 2#4 take 3 now => empty
        @2 1#6 transfer 3 "f" now => nobody
        @3 1#7 put 3 "g" => done
        @3 2#5 take 3 now => item "g"
        @3 1#7 put 3 "g" => done
        """),
    (BOTH_ROW, 1, MIXED + """
        hello 4/7 version 2 => welcome
        1#1 transfer 3 "a" forever => waiting
        2#1 transfer 3 "b" forever => waiting
        4/7#1 transfer 3 "c" 10 => waiting
        3#1 put 3 "d" => done
        @1 3#2 drain 3 3 => drained "a" "b" "c"
        @1 3#3 drain 3 16 => drained "d"
        @2 1#1 transfer 3 "a" forever => received 3#2
        @2 2#1 transfer 3 "b" forever => received
        @20 4/7#1 transfer 3 "c" 10 => received 3#2
        @20 cancel 2#1 => received
        """),
    ("a session anew has a version of its own", 1, """
        hello 1/1 version 2 => welcome
        hello 2/1 => welcome
        1#1 transfer 3 "a" forever => waiting
        hello 1/2 => welcome
        2#1 take 3 now => empty
        1/2#1 transfer 3 "b" forever => waiting
        2#2 take 3 now => item "b"
        1/2#1 transfer 3 "b" forever => received
        hello 2/5 version 2 => welcome
        1/2#2 transfer 3 "c" forever => waiting
        2/5#1 take 3 forever => item "c"
        1/2#2 transfer 3 "c" forever => received
        hello 1/3 version 2 => welcome
        2/5#2 take 3 forever => waiting
        1/3#1 transfer 3 "d" forever => received 2/5#2
        hello 2/6 => welcome
        1/3#1 transfer 3 "d" forever => received 2/5#2
        1#1 transfer 3 "a" forever => refused 4 3
        """),
    ("refusals of hellos in their order", 1, """
        hello 1/2 version 2 => welcome
        hello 1/2 => refused 12 2
        hello 1/1 => refused 4 2
        hello 1/1 version 2 => refused 4 2
        hello 1/2 version 2 => welcome
        hello 1/3 => welcome
        hello 1/3 version 2 => refused 12 1
        hello 1/2 version 2 => refused 4 3
        hello 1/3 => welcome
        hello 1/4 version 2 => welcome
        hello 1/4 version 2 => welcome
        hello 1/4 version 1 => refused 1
        hello 1/4 version 3 => refused 1
        hello 1/4 version 0 => refused 1
        """),
    ("another version with the greatest number of clients", 1,
        "".join(f"hello {client}/1{' version 2' * (client % 2)} => welcome\n" for client in range(1, 1025)) + """
        hello 1/1 => refused 12 2
        hello 1024/1 version 2 => refused 12 1
        hello 1025/1 => refused 9
        hello 1025/1 version 2 => refused 9
        hello 1024/1 => welcome
        hello 1023/1 version 2 => welcome
        hello 1/2 => welcome
        hello 1024/2 version 2 => welcome
        hello 1024/1 version 2 => refused 4 2
        """),
    ("a hello of another version ends nothing, and time passes with it", 1, MIXED + """
        1#1 transfer 3 "a" 10 => waiting
        2#1 take 4 forever => waiting
        @9 hello 1/1 => refused 12 2
        @9 hello 2/1 version 2 => refused 12 1
        @9 1#1 transfer 3 "a" 10 => waiting
        @9 2#1 take 4 forever => waiting
        @10 hello 1/1 => refused 12 2
        1#1 transfer 3 "a" 10 => timedout
        1#2 transfer 4 "b" 0 => received 2#1
        2#1 take 4 forever => item "b"
        """),
    ("what is not received is told alike in both versions", 1, MIXED + """
        1#1 transfer 3 "a" forever => waiting
        @1 cancel 1#1 => cancelled
        @1 cancel 1#2 => cancelled
        @1 1#2 transfer 3 "a" forever => cancelled
        @1 1#3 swap 5 "x" forever => waiting
        @1 2#1 swap 5 "y" 5 => swapped "x"
        @1 1#3 swap 5 "x" forever => swapped "y"
        @2 1#4 take 3 forever => waiting
        @2 1#5 count 3 => refused 7 4
        @2 2#2 count 3 => counted 0 1
        @2 2#3 put 3 "b" => done
        @2 1#4 take 3 forever => item "b"
        @2 2#4 put 3 "c" => done
        @2 1#5 peek 3 => peeked "c"
        @2 1#6 drain 3 16 => drained "c"
        @2 1#5 peek 3 => refused 5 6
        """),
    ("the greatest numbers of an epoch and of a consumer", G, f"""
        hello 1/1 version 2 => welcome
        hello {G}/{G} version 2 => welcome
        1#1 transfer 63 "" forever => waiting
        {G}/{G}#1 take 63 now => item ""
        1#1 transfer 63 "" forever => {{"by_client":{G},"by_incarnation":{G},"by_number":1,"client":1,"epoch":{G},"incarnation":1,"kind":"reply","number":1,"reply":"received"}}
        """),
]

# A transfer of version 2 is told who took it, however late, and its client starts anew in version 1.
NAMED_PLAY = """
    start 1 1 2 => sent 0
    start 2 1 => sent 1
    server 0 0 => answered 0 welcome 1/1 version 2
    server 1 0 => answered 1 welcome 2/1
    client 0 => welcomed
    client 1 => welcomed
    begin 1 {"call":"transfer","item":"a","queue":3,"wait":"forever"} => sent 2
    server 2 1 => answered 2 1#1 waiting
    begin 2 {"call":"take","queue":3,"wait":"now"} => sent 3
    server 3 2 => answered 3 2#1 item "a"
    client 3 => settled 2#1 item "a"
    begin 2 {"call":"take","queue":3,"wait":"forever"} => sent 4
    server 4 3 => answered 4 2#2 waiting
    server 2 4 => answered 5 1#1 received 2#1
    client 2 => ignored
    client 5 => settled 1#1 received 2#1
    client 5 => ignored
    begin 1 {"call":"transfer","item":"b","queue":3,"wait":"now"} => sent 5
    server 5 5 => answered 6 1#2 received 2#2
    server 4 6 => answered 7 2#2 item "b"
    client 6 => settled 1#2 received 2#2
    client 7 => settled 2#2 item "b"
    start 1 1 2 => refused 4
    start 1 2 1 => bad line
    start 1 2 3 => bad line
    start 1 2 02 => bad line
    start 1 2 2 2 => bad line
    start 1 2 => sent 6
    client 0 => ignored
    server 6 7 => answered 8 welcome 1/2
    server 0 8 => answered 9 refused 4 2
    client 9 => turned away 4
    client 8 => welcomed
    begin 1 {"call":"transfer","item":"c","queue":3,"wait":"forever"} => sent 7
    server 7 8 => answered 10 1/2#1 waiting
    begin 2 {"call":"drain","max":2,"queue":3} => sent 8
    server 8 9 => answered 11 2#3 drained "c"
    server 7 9 => answered 12 1/2#1 received
    client 12 => settled 1/2#1 received
    """

# Each world's name, its lines with their results, the partners of each epoch's entries, and how many replies are held.
VERSION_WORLDS = [
    ("a receipt of version 2 over a link", list(play_pairs(NAMED_PLAY)),
     [[(), (), (), (2,), (), (4,), (), (), (7,)]], 5),
]

# The examples of version 1.
EXAMPLES = {"account": ["day", "drained", "items"], "in": ["drain", "first", "handover", "refusals", "waits"],
            "play": ["packets", "story"]}
# Sums over the lines and the answers of all rows and worlds of version 1, and over its examples, from before there was
# version 2.
FIRST_ROWS = "2782fc23c3e375aed989e1a32b6163610c360aad4e77f55833cd8c5e5e4b16de"
FIRST_EXAMPLES = "a891f5186494236577a1be3dd03a1822f1521bf4c3d5fb3da41dd3e4c4cb0c32"
TAKER = re.compile(r'\{"by_client":[1-9]\d*,"by_incarnation":[1-9]\d*,"by_number":[1-9]\d*,')


def first_faults():
    """That the lines and the answers of version 1 are no longer as they were, if they are not."""
    pairs = [pair for _, epoch, lines in [*ROWS, *LONG_ROWS] for pair in pairs_of(epoch, lines)]
    pairs += [pair for _, world, _, _ in WORLDS for pair in world]
    examples = {f"{name}.{end}" for given, names in EXAMPLES.items() for name in names for end in (given, "out")}
    for name, texts, wanted in [
        ("the rows of version 1", [f"{line}\n{answer}\n".encode() for line, answer in pairs], FIRST_ROWS),
        ("the examples of version 1", [(ROOT / "examples" / name).read_bytes() for name in sorted(examples)], FIRST_EXAMPLES),
    ]:
        found = hashlib.sha256(b"".join(texts)).hexdigest()
        yield f"{name} as they were", None if found == wanted else f"their sum is {found}"


def second(pairs):
    """Lines with each session of version 2, and what they are told but for the consumers that are named."""
    for line, answer in pairs:
        line = re.sub(r"^(start \d+ \d+)$", r"\1 2", line.replace('"kind":"hello"', '"kind":"hello","version":2'))
        yield line, answer.replace('"kind":"welcome"', '"kind":"welcome","version":2')


def unnamed(answer):
    """An answer without the consumer that it names, if it names one."""
    return TAKER.sub("{", answer) if '"reply":"received"' in answer else answer


def second_fault(pairs, answers):
    """What is wrong with the answers to lines of version 2, each but for a name that of version 1, if something is."""
    for (line, expected), got in zip(pairs, answers, strict=True):
        names = unnamed(got) != got
        if unnamed(got) != expected or names != ('"reply":"received"' in expected):
            return f"{line}: got {got}"
    return None


def second_row_fault(epoch, lines):
    """What is wrong with the model's answers to a row of version 1 with each session of version 2, if something is."""
    account, answers, pairs = Account(epoch, 0), [], list(second(pairs_of(epoch, lines)))
    for line, _ in pairs:
        account, answer = told(account, line.encode())
        answers.append(answer)
    return second_fault(pairs, answers)


def second_faults():
    """Each row and each world of version 1 by its name, with what is wrong where each session has version 2."""
    for name, epoch, lines in [*ROWS, *LATER_ROWS]:
        yield f"{name}, in version 2", second_row_fault(epoch, lines)
    for name, pairs, _, _ in WORLDS:
        world, pairs = World(), list(second(pairs))
        yield f"{name}, in version 2", second_fault(pairs, [world.play(line.encode()) for line, _ in pairs])
