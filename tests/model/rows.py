"""Worked rows: what each line is told, with values that were set beforehand. The model is tested by all of them but
the long ones, and the program by those whose messages it knows.

A row is lines `[@MOMENT] WHAT => ANSWER`; without @MOMENT the moment is 0. WHAT is `hello CLIENT/INCARNATION`, with
` version VERSION` behind it where that is told, `cancel KEY`, `KEY CALL`, or `line` and the line's text itself. KEY is
`CLIENT#NUMBER` with incarnation 1, or `CLIENT/INCARNATION#NUMBER`, and `EPOCH:` may stand before it. ANSWER is
`welcome`, `waiting`, `refused CODE DETAIL`, a reply's word and members (of `drained` its texts, of `received` the key
that it names), or `{..`, the text itself.
"""
import json
import re

from tests.model.account import Account, Key
from tests.model.answers import DETAILS
from tests.model.lines import account_text
from tests.model.steps import told
from tests.model.texts import written
from tests.model.verdicts import verdict
from tests.model.world import World, world_fault

TAKERS = range(1, 1025)
# Takes of all clients but the even ones, which are cancelled, are met in turn, each by the item that its put's number is.
MANY_TAKERS = "\n".join([
    *(f"hello {client}/1 => welcome" for client in TAKERS),
    *(f"{client}#1 take 3 forever => waiting" for client in TAKERS),
    *(f"cancel {client}#1 => cancelled" for client in TAKERS if client % 2 == 0),
    *(f'2#{number} put 3 "{number}" => done' for number in range(2, 514)),
    *(f'{2 * j + 1}#1 take 3 forever => item "{j + 2}"' for j in range(512)),
    "2#514 count 3 => counted 0 0",
])
THREE = "hello 1/1 => welcome\nhello 2/1 => welcome\nhello 3/1 => welcome\n"
LONGEST = '"' + 512 * "\\u0001" + '"'
# Three drains: of two items, of the one that is left, and of none; the first one's reply is told again.
DRAIN_ROW = "a drain, its repeat and what is left"
DRAIN_LINES = """
        1#1 put 3 "a" => done
        3#1 transfer 3 "b" forever => waiting
        1#2 put 3 "c" => done
        @1 2#1 drain 3 2 => drained "a" "b"
        @1 3#1 transfer 3 "b" forever => received
        @1 2#1 drain 3 2 => drained "a" "b"
        @2 2#2 drain 3 16 => drained "c"
        @2 2#3 drain 3 1 => drained
"""
# Where the account of those lines has its drains, with the second fields of their lines.
DRAIN_FIELDS = {6: "3,4", 7: "5", 8: "-"}
# What the audit tells of that account where the first of these fields is another one.
DRAIN_CHANGES = [("3,4", "legal"), ("3,5", "fault 6 P3"), ("3", "fault 6 P4"), ("4,3", "fault 6 P1")]
X512, X513 = '"' + 512 * "x" + '"', '"' + 513 * "x" + '"'

# Name, epoch, lines.
ROWS = [
    ("a poll gets the item", 1, """
        line 0 {"client":1,"incarnation":1,"kind":"hello"} => {"client":1,"epoch":1,"incarnation":1,"kind":"welcome"}
        hello 2/1 => {"client":2,"epoch":1,"incarnation":1,"kind":"welcome"}
        1#1 put 3 "a" => {"client":1,"epoch":1,"incarnation":1,"kind":"reply","number":1,"reply":"done"}
        2#1 take 3 now => {"client":2,"epoch":1,"incarnation":1,"item":"a","kind":"reply","number":1,"reply":"item"}
        """),
    ("a poll of nothing", 1, THREE + "2#1 take 3 now => empty"),
    ("a transfer waits for its consumer, and repeats get the replies again", 1, THREE + """
        1#1 transfer 3 "a" forever => waiting
        @5 2#1 take 3 forever => item "a"
        @6 1#1 transfer 3 "a" forever => received
        @7 2#1 take 3 forever => item "a"
        """),
    ("a transfer that does not wait", 1, THREE + """
        1#1 transfer 3 "a" now => nobody
        2#1 take 3 now => empty
        2#2 take 3 forever => waiting
        @1 1#2 transfer 3 "b" now => received
        @1 2#2 take 3 forever => item "b"
        """),
    ("a transfer that times out at its limit", 1, THREE + """
        1#1 transfer 3 "a" 10 => waiting
        @10 2#1 take 3 forever => waiting
        @10 1#1 transfer 3 "a" 10 => timedout
        """),
    ("zero milliseconds", 1, THREE + """
        2#1 take 3 0 => timedout
        1#1 transfer 3 "a" 0 => timedout
        """),
    ("puts and transfers in one order; count and peek", 1, THREE + """
        1#1 put 3 "a" => done
        1#2 put 3 "b" => done
        2#1 transfer 3 "c" forever => waiting
        @1 3#1 count 3 => counted 3 0
        @1 3#2 peek 3 => peeked "a"
        @2 cancel 2#1 => cancelled
        @3 3#3 take 3 now => item "a"
        @3 3#4 take 3 now => item "b"
        @3 3#5 take 3 now => empty
        @3 3#6 peek 3 => empty
        """),
    ("items in one order, and nobody gives up", 1, THREE + """
        1#1 put 3 "a" => done
        1#2 put 3 "b" => done
        2#1 transfer 3 "c" forever => waiting
        @1 3#1 count 3 => counted 3 0
        @1 3#2 peek 3 => peeked "a"
        @2 3#1 count 3 => refused 5 2
        @2 3#2 peek 3 => peeked "a"
        @3 3#3 take 3 now => item "a"
        @3 3#4 take 3 forever => item "b"
        @3 3#5 peek 3 => peeked "c"
        @3 2#1 transfer 3 "c" forever => waiting
        @4 3#6 take 3 now => item "c"
        @4 3#7 peek 3 => empty
        @4 3#8 count 3 => counted 0 0
        @5 2#1 transfer 3 "c" forever => received
        """),
    ("consumers in one order, and nobody gives up", 1, THREE + """
        1#1 take 3 forever => waiting
        2#1 take 3 forever => waiting
        @1 3#1 count 3 => counted 0 2
        @1 3#2 peek 3 => empty
        @1 3#3 count 4 => counted 0 0
        @2 3#4 put 3 "x" => done
        @2 3#5 count 3 => counted 0 1
        @3 3#6 transfer 3 "y" now => received
        @3 3#7 transfer 3 "z" now => nobody
        @4 1#1 take 3 forever => item "x"
        @4 2#1 take 3 forever => item "y"
        """),
    ("queues that know nothing of each other", 1, THREE + """
        1#1 transfer 3 "a" forever => waiting
        2#1 take 4 forever => waiting
        3#1 count 3 => counted 1 0
        3#2 count 4 => counted 0 1
        3#3 put 4 "b" => done
        2#1 take 4 forever => item "b"
        2#2 take 3 forever => item "a"
        1#1 transfer 3 "a" forever => received
        """),
    ("consumers in order", 1, THREE + """
        1#1 take 3 forever => waiting
        2#1 take 3 forever => waiting
        3#1 take 3 forever => waiting
        @1 cancel 2#1 => cancelled
        @1 2#2 count 3 => counted 0 2
        @2 2#3 put 3 "x" => done
        @2 2#4 put 3 "y" => done
        @3 1#1 take 3 forever => item "x"
        @3 3#1 take 3 forever => item "y"
        """),
    ("a cancel before arrival", 1, THREE + """
        cancel 1#1 => cancelled
        @1 1#1 transfer 3 "a" forever => cancelled
        @2 1#1 put 3 "z" => cancelled
        @3 2#1 take 3 forever => waiting
        """),
    ("a client starts anew", 1, THREE + """
        1#1 transfer 3 "a" forever => waiting
        @1 hello 1/2 => welcome
        @2 2#1 take 3 now => empty
        @3 1#1 transfer 3 "a" forever => refused 4 2
        @3 hello 1/1 => refused 4 2
        @4 hello 1/2 => welcome
        @4 1/9#1 put 3 "q" => refused 3
        @5 1/2#1 put 3 "b" => done
        @6 hello 1/3 => welcome
        @7 2#2 take 3 now => item "b"
        """),
    ("a consumer starts anew", 1, THREE + """
        1#1 take 3 forever => waiting
        2#1 take 3 forever => waiting
        @1 hello 1/2 => welcome
        @2 3#1 put 3 "a" => done
        @2 2#1 take 3 forever => item "a"
        @3 1/2#1 take 3 now => empty
        @3 1#1 take 3 forever => refused 4 2
        """),
    ("partners swap", 1, THREE + """
        1#1 swap 63 "a" forever => waiting
        @1 2#1 swap 63 "b" 5 => swapped "a"
        @2 1#1 swap 63 "a" forever => swapped "b"
        @2 3#1 swap 63 "c" 0 => timedout
        @2 3#2 swap 63 "c" now => refused 1
        """),
    ("a session's last number, and a hello anew", 1, """
        hello 1/1 => welcome
        1#1 put 3 "a" => done
        1#1 put 3 "a" => done
        1#1 put 3 "b" => refused 6
        1#3 put 3 "c" => refused 8 1
        hello 1/2 => welcome
        1#1 put 3 "a" => refused 4 2
        hello 1/1 => refused 4 2
        1/2#1 take 3 now => item "a"
        1/2#1 take 3 now => item "a"
        1/2#2 take 3 now => empty
        1/2#1 take 3 now => refused 5 2
        """),
    ("refusals in their order", 1, THREE + """
        1#1 put 3 "a" => done
        1#1 put 3 "b" => refused 6
        1#3 put 3 "c" => refused 8 1
        1#2 transfer 4 "t" forever => waiting
        1#2 transfer 5 "t" forever => refused 6
        1#3 put 3 "c" => refused 7 2
        1#9 put 3 "c" => refused 7 2
        1#1 put 3 "a" => refused 5 2
        cancel 1#1 => refused 5 2
        cancel 1#2 => cancelled
        cancel 1#4 => refused 8 2
        9#1 put 3 "a" => refused 3
        """),
    ("a session that waits is busy", 1, THREE + """
        1#1 put 3 "a" => done
        1#2 transfer 4 "t" forever => waiting
        1#2 transfer 5 "t" forever => refused 6
        1#2 transfer 4 "t" now => refused 6
        1#2 transfer 4 "u" forever => refused 6
        1#2 put 4 "t" => refused 6
        1#3 put 3 "c" => refused 7 2
        1#9 put 3 "c" => refused 7 2
        1#1 put 3 "a" => refused 5 2
        9#1 put 3 "a" => refused 3
        1#2 transfer 4 "t" forever => waiting
        hello 1/1 => welcome
        1#2 transfer 4 "t" forever => waiting
        2#1 take 4 now => item "t"
        1#2 transfer 4 "t" forever => received
        1#2 transfer 5 "t" forever => refused 6
        1#3 put 3 "c" => done
        """),
    ("limits of items and queues", 1, f"""
        hello 1/1 => welcome
        1#1 put 3 {X512} => done
        1#2 put 3 {X513} => refused 1
        1#2 put 64 "a" => refused 1
        1#2 put 3.0 "a" => refused 1
        1#2 put 63 "" => done
        """),
    ("limits of transfers, counts and peeks", 1, THREE + f"""
        1#1 transfer 3 {X513} forever => refused 1
        1#1 transfer 64 "a" forever => refused 1
        1#1 transfer 3.0 "a" forever => refused 1
        1#1 transfer 3 "a" later => refused 1
        1#1 transfer 3 "a" => refused 1
        1#1 transfer 3 "a" 86400001 => refused 1
        1#1 take 64 forever => refused 1
        1#1 take 3 Forever => refused 1
        1#1 take 3 => refused 1
        1#1 count 64 => refused 1
        1#1 count 3.0 => refused 1
        1#1 count 3 now => refused 1
        1#1 peek 64 => refused 1
        1#1 peek 3 forever => refused 1
        1#1 transfer 63 {X512} forever => waiting
        2#1 count 63 => counted 1 0
        2#2 peek 63 => peeked {X512}
        2#3 take 63 forever => item {X512}
        1#1 transfer 63 {X512} forever => received
        """),
    ("another epoch", 2, """
        1:1#1 put 3 "a" => refused 2 2
        2:1#1 put 3 "a" => refused 3
        hello 1/1 => welcome
        1:1#1 put 3 "a" => refused 2 2
        """),
    ("a transfer is met before its limit", 1, THREE + """
        1#1 transfer 3 "a" 10 => waiting
        @9 2#1 take 3 forever => item "a"
        @10 1#1 transfer 3 "a" 10 => received
        """),
    ("the greatest number of clients", 1, "".join(f"hello {client}/1 => welcome\n" for client in range(1, 1025)) + """
        hello 1025/1 => refused 9
        hello 1/2 => welcome
        """),
    ("a moment that falls counts as the book's own", 1, THREE + """
        1#1 transfer 3 "a" 10 => waiting
        @8 2#1 count 3 => counted 1 0
        @2 3#1 transfer 3 "b" 4 => waiting
        @9 2#2 take 3 now => item "a"
        @9 2#3 take 3 now => item "b"
        """),
    ("the greatest moment that a line can have", 1, THREE + """
        @9999999999999999999 1#1 transfer 3 "a" 10 => waiting
        @9999999999999999999 1#1 transfer 3 "a" 10 => waiting
        @9999999999999999999 2#1 take 3 now => item "a"
        @5 1#1 transfer 3 "a" 10 => received
        """),
    ("one tick ends all that is due, and leaves what is not", 1, THREE + """
        1#1 transfer 3 "a" 10 => waiting
        2#1 take 4 12 => waiting
        3#1 take 4 13 => waiting
        @12 1#1 transfer 3 "a" 10 => timedout
        @12 1#2 count 3 => counted 0 0
        @12 1#3 count 4 => counted 0 1
        @12 1#4 put 4 "b" => done
        @12 2#1 take 4 12 => timedout
        @12 3#1 take 4 13 => item "b"
        @13 3#1 take 4 13 => item "b"
        """),
    ("time passes with a message that is refused, and not with a body that is none", 1, THREE + """
        @100 9#1 put 3 "x" => refused 3
        1#1 transfer 3 "a" 10 => waiting
        line 100 {"client":0,"incarnation":1,"kind":"hello"} => refused 1
        @9 2#1 take 3 now => item "a"
        @9 1#2 transfer 3 "b" 10 => waiting
        @18 9#1 put 3 "x" => refused 3
        @17 1#2 transfer 3 "b" 10 => waiting
        @19 9#1 put 3 "x" => refused 3
        @9 2#2 take 3 now => empty
        1#2 transfer 3 "b" 10 => timedout
        """),
    ("what comes to a request at its limit comes too late", 1, THREE + """
        1#1 transfer 3 "a" 10 => waiting
        2#1 take 4 10 => waiting
        @9 1#2 count 3 => refused 7 1
        @10 cancel 1#1 => timedout
        @10 1#2 count 3 => counted 0 0
        @10 hello 2/2 => welcome
        @10 2/2#1 take 4 1 => waiting
        @11 1#3 transfer 4 "b" now => nobody
        @11 2/2#1 take 4 1 => timedout
        """),
    ("lines of another form", 1, """
        line 0 { "kind":"hello", "incarnation":1, "client":7 } => {"client":7,"epoch":1,"incarnation":1,"kind":"welcome"}
        line 0 {"client":1,"incarnation":1,"kind":"hello","x":1} => refused 1
        line 0 {"client":0,"incarnation":1,"kind":"hello"} => refused 1
        line 0 { => refused 1
        line 0  => refused 1
        line x {"client":1,"incarnation":1,"kind":"hello"} => refused 1
        line  => refused 1
        """),
    ("other forms of moments and spaces", 1, """
        line 0{"client":1,"incarnation":1,"kind":"hello"} => refused 1
        line  0 {"client":1,"incarnation":1,"kind":"hello"} => refused 1
        line 00000000000000000000 {"client":1,"incarnation":1,"kind":"hello"} => refused 1
        line 9999999999999999999  {"client":1,"incarnation":1,"kind":"hello"} => {"client":1,"epoch":1,"incarnation":1,"kind":"welcome"}
        """),
    ("an item with escapes", 1, r"""
        hello 1/1 => welcome
        1#1 put 3 "\u0001\"\\\u00e9" => done
        1#2 take 3 now => {"client":1,"epoch":1,"incarnation":1,"item":"\u0001\"\\é","kind":"reply","number":2,"reply":"item"}
        """),
    ("a drain takes the oldest items, of puts and transfers alike", 1, THREE + DRAIN_LINES + """
        @2 2#4 drain 3 17 => refused 1
        """),
    (DRAIN_ROW, 1, THREE + DRAIN_LINES),
    ("a drain, in full bytes", 1, """
        hello 1/1 => welcome
        hello 2/1 => welcome
        1#1 put 3 "a" => done
        1#2 put 3 "b" => done
        line 0 {"call":"drain","client":2,"epoch":1,"incarnation":1,"kind":"request","max":2,"number":1,"queue":3} => {"client":2,"epoch":1,"incarnation":1,"kind":"reply","number":1,"reply":"drained","texts":["a","b"]}
        line 0 {"call":"drain","client":2,"epoch":1,"incarnation":1,"kind":"request","max":2,"number":2,"queue":3} => {"client":2,"epoch":1,"incarnation":1,"kind":"reply","number":2,"reply":"drained","texts":[]}
        """),
    ("sixteen items at most, and what is left stays in order", 1, "hello 1/1 => welcome\nhello 2/1 => welcome\n"
        + "".join(f'1#{number} put 3 "{number}" => done\n' for number in range(1, 20)) + f"""
        2#1 drain 3 16 => drained {" ".join(f'"{number}"' for number in range(1, 17))}
        2#2 peek 3 => peeked "17"
        2#3 count 3 => counted 3 0
        2#4 drain 3 1 => drained "17"
        2#5 take 3 now => item "18"
        2#6 drain 3 16 => drained "19"
        2#7 drain 3 16 => drained
        2#1 drain 3 16 => refused 5 7
        """),
    ("a drain never waits, and leaves takes alone", 1, THREE + """
        1#1 take 3 forever => waiting
        2#1 drain 3 4 => drained
        2#2 count 3 => counted 0 1
        2#3 drain 4 4 => drained
        3#1 put 3 "a" => done
        1#1 take 3 forever => item "a"
        2#3 drain 4 4 => drained
        3#2 put 4 "b" => done
        2#3 drain 4 4 => drained
        2#3 drain 4 5 => refused 6
        2#3 drain 3 4 => refused 6
        2#3 take 4 now => refused 6
        cancel 2#3 => drained
        2#4 drain 4 5 => drained "b"
        """),
    ("a drain passes over what was ended, and settles what waited", 1, THREE + """
        1#1 transfer 3 "a" 10 => waiting
        2#1 transfer 3 "b" 20 => waiting
        3#1 put 3 "c" => done
        3#2 put 4 "d" => done
        @10 3#3 drain 3 16 => drained "b" "c"
        @10 1#1 transfer 3 "a" 10 => timedout
        @30 2#1 transfer 3 "b" 20 => received
        @30 cancel 2#1 => received
        @30 1#2 transfer 4 "e" forever => waiting
        @31 hello 1/2 => welcome
        @31 2#2 drain 4 16 => drained "d"
        @31 cancel 2#3 => cancelled
        @31 2#3 drain 4 16 => cancelled
        """),
    ("limits of drains", 1, f"""
        hello 1/1 => welcome
        1#1 drain 3 0 => refused 1
        1#1 drain 64 1 => refused 1
        1#1 drain 3.0 1 => refused 1
        1#1 drain 3 1.0 => refused 1
        1#1 drain 3 "1" => refused 1
        1#1 drain 3 now => refused 1
        1#1 drain 3 => refused 1
        1#1 put 63 {X512} => done
        1#2 put 63 {X512} => done
        1#3 drain 63 16 => drained {X512} {X512}
        """),
    ("the longest reply", 1, "hello 1/1 => welcome\n" + "".join(
        f"1#{number} put 3 {LONGEST} => done\n" for number in range(1, 18)) + f"""
        1#18 drain 3 16 => drained {" ".join([LONGEST] * 16)}
        1#19 drain 3 16 => drained {LONGEST}
        """),
]

# Rows of version 1 that came once there was another: they are no part of what must be as it was before that.
LATER_ROWS = [
    ("a swap at its limit, and one that is cancelled, have no partner", 1, THREE + """
        1#1 swap 5 "a" 10 => waiting
        @10 2#1 swap 5 "b" forever => waiting
        @10 1#1 swap 5 "a" 10 => timedout
        @11 cancel 2#1 => cancelled
        @12 3#1 swap 5 "c" 0 => timedout
        """),
    ("polls name the puts that they take", 1, """
        hello 1/1 => welcome
        hello 2/1 => welcome
        1#1 put 3 "a" => done
        2#1 take 3 now => item "a"
        hello 2/2 => welcome
        1#2 put 3 "b" => done
        1#3 put 3 "c" => done
        1#4 put 4 "d" => done
        2/2#1 take 3 now => item "b"
        2/2#2 take 3 now => item "c"
        2/2#3 take 3 now => empty
        1#5 put 3 "e" => done
        """),
    ("who waits is named by who comes", 1, THREE + """
        1#1 take 3 forever => waiting
        2#1 take 3 forever => waiting
        3#1 count 3 => counted 0 2
        3#2 peek 3 => empty
        3#3 put 3 "x" => done
        3#4 transfer 3 "y" now => received
        3#5 transfer 3 "z" now => nobody
        3#6 put 3 "u" => done
        1#2 transfer 3 "v" forever => waiting
        2#2 take 3 now => item "u"
        2#3 take 3 forever => item "v"
        2#4 take 3 forever => waiting
        """),
    ("a tick ends all that is due", 1, THREE + """
        1#1 transfer 3 "a" 10 => waiting
        2#1 take 5 4 => waiting
        @3 9#1 put 3 "q" => refused 3
        @10 3#1 take 3 forever => waiting
        @10 2#2 take 3 0 => timedout
        @12 1#1 transfer 3 "a" 10 => timedout
        @12 2#1 take 5 4 => refused 5 2
        """),
    ("a tick is recorded beside a refusal", 1, """
        hello 1/1 => welcome
        hello 2/1 => welcome
        @2 2#1 transfer 3 "c" 4 => waiting
        @5 9#1 put 3 "q" => refused 3
        @6 9#1 put 3 "q" => refused 3
        @5 2#1 transfer 3 "c" 4 => timedout
        @7 2#2 take 3 now => empty
        """),
    ("nothing is due behind the greatest moment", 1, """
        hello 1/1 => welcome
        hello 2/1 => welcome
        @9999999999999999999 2#1 take 3 1 => waiting
        @9999999999999999999 2#1 take 3 1 => waiting
        1#1 transfer 3 "a" 10 => received
        """),
    ("moments never fall", 1, """
        hello 1/1 => welcome
        @8 hello 2/1 => welcome
        @2 1#1 put 3 "a" => done
        @9 2#1 take 3 now => item "a"
        @9999999999999999999 2#2 take 3 now => empty
        """),
    ("a cancel is recorded where it ends a request", 1, """
        hello 1/1 => welcome
        hello 2/1 => welcome
        cancel 1#1 => cancelled
        cancel 1#1 => cancelled
        @1 1#2 take 3 forever => waiting
        @2 cancel 1#2 => cancelled
        @3 cancel 1#2 => cancelled
        @4 1#2 take 3 forever => cancelled
        @5 2#1 put 3 "x" => done
        @6 cancel 2#1 => done
        @6 cancel 2#9 => refused 8 1
        """),
    ("what takes no memory", 1, THREE + """
        1#1 transfer 3 "a" 10 => waiting
        2#1 take 4 forever => waiting
        3#1 put 5 "b" => done
        3#2 drain 5 2 => drained "b"
        @1 1#1 transfer 3 "a" 10 => waiting
        @1 3#2 drain 5 2 => drained "b"
        @1 hello 3/1 => welcome
        @2 cancel 2#1 => cancelled
        @3 2#1 take 4 forever => cancelled
        @10 3#2 drain 5 2 => drained "b"
        @11 1#1 transfer 3 "a" 10 => timedout
        @12 cancel 1#1 => timedout
        @13 cancel 3#9 => refused 8 2
        """),
]

# Rows that are too long for the model, which goes over all entries at each line.
LONG_ROWS = [
    ("1,024 clients wait in take, every second one is cancelled, and the others are met in turn", 1, MANY_TAKERS),
]

# A world from epoch 1: a transfer comes again and again, and its reply twice and late. There is one pair.
PLAY = """
    start 1 1 => sent 0
    start 2 1 => sent 1
    server 0 0 => answered 0 welcome 1/1
    server 1 0 => answered 1 welcome 2/1
    client 0 => welcomed
    client 1 => welcomed
    begin 1 {"call":"transfer","item":"a","queue":3,"wait":"forever"} => sent 2
    server 2 1 => answered 2 1#1 waiting
    server 2 1 => answered 3 1#1 waiting
    begin 2 {"call":"take","queue":3,"wait":"now"} => sent 3
    server 3 2 => answered 4 2#1 item "a"
    server 2 3 => answered 5 1#1 received
    client 5 => settled 1#1 received
    client 5 => ignored
    client 4 => settled 2#1 item "a"
    begin 1 {"call":"put","item":"b","queue":3} => sent 4
    client 5 => ignored
    server 2 4 => answered 6 1#1 received
    server 4 5 => answered 7 1#2 done
    server 2 6 => answered 8 refused 5 2
    client 8 => ignored
    client 6 => ignored
    client 7 => settled 1#2 done
    client 9 => refused 1
    resend 1 => refused 3
    crash 3 => refused 6
    start 1 1 => refused 4
    epoch 1 => refused 5
    """

# A client starts anew while its transfer is on the way, which comes first, and so is ended by the new start; and the
# next epoch ends what was begun in the one before.
ANEW = """
    start 1 1 => sent 0
    start 2 1 => sent 1
    server 0 0 => answered 0 welcome 1/1
    server 1 0 => answered 1 welcome 2/1
    client 0 => welcomed
    client 1 => welcomed
    begin 1 {"call":"transfer","item":"a","queue":3,"wait":"forever"} => sent 2
    crash 1 => crashed
    start 1 2 => sent 3
    server 2 1 => answered 2 1#1 waiting
    server 3 2 => answered 3 welcome 1/2
    server 2 3 => answered 4 refused 4 2
    begin 2 {"call":"take","queue":3,"wait":"now"} => sent 4
    server 4 4 => answered 5 2#1 empty
    client 2 => ignored
    client 4 => turned away 4
    client 3 => welcomed
    client 5 => settled 2#1 empty
    epoch 2 => opened 2
    begin 1 {"call":"put","item":"b","queue":3} => sent 5
    server 5 0 => answered 6 refused 2 2
    client 6 => ended 2
    resend 1 => refused 6
    """

# A drain comes twice, and its reply twice and late: the transfer that it took is received, and nothing is taken again.
DRAINED = """
    start 1 1 => sent 0
    start 2 1 => sent 1
    server 0 0 => answered 0 welcome 1/1
    server 1 0 => answered 1 welcome 2/1
    client 0 => welcomed
    client 1 => welcomed
    begin 1 {"call":"put","item":"a","queue":3} => sent 2
    server 2 1 => answered 2 1#1 done
    client 2 => settled 1#1 done
    begin 1 {"call":"transfer","item":"b","queue":3,"wait":"forever"} => sent 3
    server 3 1 => answered 3 1#2 waiting
    begin 2 {"call":"drain","max":17,"queue":3} => bad line
    begin 2 {"call":"drain","max":16,"queue":3} => sent 4
    server 4 2 => answered 4 2#1 drained "a" "b"
    server 4 3 => answered 5 2#1 drained "a" "b"
    server 3 4 => answered 6 1#2 received
    client 3 => ignored
    client 5 => settled 2#1 drained "a" "b"
    client 4 => ignored
    client 6 => settled 1#2 received
    """

# A request is sent again and cancelled, and each of its packets is answered by what stands then.
RESENT = """
    start 1 1 => sent 0
    server 0 0 => answered 0 welcome 1/1
    client 0 => welcomed
    begin 1 {"call":"take","queue":3,"wait":"forever"} => sent 1
    resend 1 => sent 2
    server 2 1 => answered 1 1#1 waiting
    client 1 => ignored
    cancel 1 => sent 3
    server 3 2 => answered 2 1#1 cancelled
    server 1 3 => answered 3 1#1 cancelled
    client 3 => settled 1#1 cancelled
    client 2 => ignored
    """

KEY = re.compile(r"(?:(\d+):)?(\d+)(?:/(\d+))?#(\d+)$")


def key_of(text, epoch):
    """The members of a key."""
    own, client, incarnation, number = KEY.match(text).groups()
    return vars(Key(int(own or epoch), int(client), int(incarnation or 1), int(number)))


def call_members(text):
    """The members of a call as a row writes it."""
    word, at, rest = (text + " ").split(" ", 2)
    members = {"call": word, "exchanger" if word == "swap" else "queue": json.loads(at)}
    rest = rest.strip()
    if word in ("put", "transfer", "swap"):
        item, end = json.JSONDecoder().raw_decode(rest)
        members["item"], rest = item, rest[end:].strip()
    if rest and word == "drain":
        members["max"] = rest if rest == "now" else json.loads(rest)
    elif rest:
        members["wait"] = int(rest) if rest.isdigit() else rest
    return members


def session_members(text):
    """The members that a hello and its welcome have of a session."""
    own, _, version = text.partition(" version ")
    client, incarnation = map(int, own.split("/"))
    return {"client": client, "incarnation": incarnation, **({"version": int(version)} if version else {})}


def line_of(what, moment, epoch):
    """The line that a row means, and the key members that its reply has."""
    if what.startswith("line "):
        return what.removeprefix("line "), {}
    first, rest = what.split(" ", 1)
    if first == "hello":
        members = session_members(rest)
        return f"{moment} {written({'kind': 'hello', **members})}", {"epoch": epoch, **members}
    key = key_of(rest if first == "cancel" else first, epoch)
    act = {"kind": "cancel"} if first == "cancel" else {"kind": "request", **call_members(rest)}
    return f"{moment} {written({**key, **act})}", key


def answer_of(text, key):
    """The text of the answer that a row means."""
    if text.startswith("{"):
        return text
    word, *rest = text.split(" ", 1)
    if word == "refused":
        code, *detail = map(int, rest[0].split())
        return written({"kind": "refused", "code": code, **({DETAILS[code]: detail[0]} if detail else {})})
    if word in ("welcome", "waiting"):
        return written({"kind": word, **key})
    members = {"reply": word}
    if word == "counted":
        members["items"], members["consumers"] = map(int, rest[0].split())
    elif word == "drained":
        members["texts"] = texts_of(rest[0] if rest else "")
    elif word == "received" and rest:
        taker = key_of(rest[0], key["epoch"])
        members.update((f"by_{name}", taker[name]) for name in ("client", "incarnation", "number"))
    elif rest:
        members["item"] = json.loads(rest[0])
    return written({"kind": "reply", **key, **members})


def texts_of(rest):
    """The texts that stand one behind the other."""
    texts = []
    while rest:
        text, end = json.JSONDecoder().raw_decode(rest)
        texts, rest = [*texts, text], rest[end:].strip()
    return texts


def pairs_of(epoch, lines):
    """The lines of a row, and the texts that answer them."""
    for row in filter(None, map(str.strip, lines.splitlines())):
        what, _, expected = row.rpartition("=>")
        moment, what = what.removeprefix("@").split(" ", 1) if row.startswith("@") else (0, what)
        line, key = line_of(what.removesuffix(" "), moment, epoch)
        yield line, answer_of(expected.strip(), key)


def result_of(text):
    """The result line that the row of a world means: a key and a reply, a welcome or a refusal stand for a body."""
    words = text.split(" ")
    before = {"answered": 2, "settled": 1}.get(words[0])
    if before is None:
        return text
    first, rest = words[before], " ".join(words[before + 1 :])
    if first == "welcome":
        body = answer_of("welcome", {"epoch": 1, **session_members(rest)})
    elif first == "refused":
        body = answer_of(f"refused {rest}", {})
    else:
        body = answer_of(rest, key_of(first, 1))
    return " ".join([*words[:before], body])


def play_pairs(play=PLAY):
    """The lines of a worked world, and their results."""
    for row in filter(None, map(str.strip, play.splitlines())):
        line, _, result = row.partition(" => ")
        yield line, result_of(result)


def again_pairs():
    """The worked world up to its last reply. Behind each event all packets that it has delivered come once more: first the
    messages, and then the answers, the later ones first, at the moment that was named last. The answer that a client's
    line names is the one that the world's own event got.

    A message that comes again is answered as the model answers it, and an answer that comes again is ignored."""
    pairs, world = list(play_pairs()), World()
    last = max(number for number, (_, result) in enumerate(pairs) if result.startswith("settled"))
    own, delivered, moment = {}, {"server": [], "client": []}, "0"
    for line, result in pairs[: last + 1]:
        word, packet, *rest = line.split(" ", 2)
        moment = rest[0] if word == "server" else moment
        if word == "server":
            own[result.split(" ")[1]] = str(len(world.to_client))
            result = " ".join([f"answered {len(world.to_client)}", *result.split(" ")[2:]])
        packet = own[packet] if word == "client" else packet
        line = " ".join([word, packet, *rest])
        world.play(line.encode())
        yield line, result
        if word in delivered and packet not in delivered[word]:
            delivered[word].append(packet)
        for packet in reversed(delivered["server"]):
            line = f"server {packet} {moment}"
            yield line, world.play(line.encode())
        for packet in reversed(delivered["client"]):
            world.play(f"client {packet}".encode())
            yield f"client {packet}", "ignored"


# Each world's name, its lines with their results, the partners of each epoch's entries, and how many replies are held.
WORLDS = [
    ("the worked world", list(play_pairs()), [[(), (), (), (2,), ()]], 3),
    ("the worked world, and all its packets again behind each event", list(again_pairs()), [[(), (), (), (2,), ()]], 3),
    ("a client that starts anew, and another epoch", list(play_pairs(ANEW)), [[()] * 5, []], 1),
    ("a drain over a link", list(play_pairs(DRAINED)), [[(), (), (), (), (2, 3)]], 3),
]

# The same of those that came once there was another version, as with LATER_ROWS.
LATER_WORLDS = [
    ("a request that is sent again, and cancelled", list(play_pairs(RESENT)), [[(), (), ()]], 1),
]


def world_row_fault(pairs, partners, held):
    """What is wrong with the model's results of a worked world, or with what is left, if something is."""
    world = World()
    for line, expected in pairs:
        got = world.play(line.encode())
        if got != expected:
            return f"{line}: got {got}"
    left = [[entry.partners for entry in account.entries] for account in world.accounts]
    if left != partners or len(world.held) != held or sum(result.startswith("settled") for _, result in pairs) != held:
        return f"left: {world.accounts}, {world.held}"
    said = [verdict(account_text(account)) for account in world.accounts]
    return world_fault(world) if set(said) == {"legal"} else f"an account breaks a rule: {said}"


def play_row_faults(worlds=WORLDS):
    """Each worked world by its name, with what is wrong with it, if something is."""
    for name, *world in worlds:
        yield name, world_row_fault(*world)


def row_fault(epoch, lines):
    """What is wrong with the model's answers to a row, if something is."""
    account = Account(epoch, 0)
    for line, expected in pairs_of(epoch, lines):
        account, got = told(account, line.encode())
        if got != expected:
            return f"{line}: got {got}"
    said = verdict(account_text(account))
    return None if said == "legal" else f"the account breaks a rule: {said}"


def row_faults(rows=(*ROWS, *LATER_ROWS)):
    """Each row by its name, with what is wrong with it, if something is."""
    for name, epoch, lines in rows:
        yield name, row_fault(epoch, lines)


def drain_texts():
    """The account of the drains, and the same with another list of partners; each with its verdict."""
    account = Account(1, 0)
    for line, _ in pairs_of(1, THREE + DRAIN_LINES):
        account, _ = told(account, line.encode())
    lines = account_text(account).decode().splitlines(keepends=True)
    for partners, expected in DRAIN_CHANGES:
        changed = lines[:]
        moment, _, body = lines[7].split(" ", 2)
        changed[7] = f"{moment} {partners} {body}"
        yield "".join(changed), expected


def drain_faults():
    """What is wrong with the account of the drains, or with its verdicts, if something is."""
    texts = list(drain_texts())
    lines = texts[0][0].splitlines()
    fields = {place: lines[place + 1].split(" ")[1] for place in DRAIN_FIELDS}
    yield "the partners of drains", None if fields == DRAIN_FIELDS else f"got {fields}"
    for text, expected in texts:
        found = verdict(text.encode())
        yield f"drains, {expected}", None if found == expected else f"{text}: got {found}"
