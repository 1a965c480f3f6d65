"""Runs the program for tests on lines worked by hand: events of a hub, JSON that is written back, and bodies that are read; and on
words and lines that it doesn't take. Those of a machine are in its crate.
"""
from __future__ import annotations

import subprocess

from tests.commands.judged import Judged

HUB = ["hub", "8", "4", "4", "500", "journal"]
HELLO = '{"client":1,"incarnation":1,"kind":"hello"}'
TAKE = '{"call":"take","client":1,"epoch":1,"incarnation":1,"kind":"request","number":1,"queue":3,"wait":20}'
PEEK = '{"call":"peek","client":1,"epoch":1,"incarnation":1,"kind":"request","number":1,"queue":3}'
WELCOME = '{"client":1,"epoch":1,"incarnation":1,"kind":"welcome"}'
TIMED_OUT = '{"client":1,"epoch":1,"incarnation":1,"kind":"reply","number":1,"reply":"timedout"}'
USAGE = b"""\
usage: rv_steps machine ENTRIES CLIENTS OPEN|none [anew | turns COUNT]
       rv_steps hub ENTRIES CLIENTS OPEN|none PATIENCE journal|none
       rv_steps json
       rv_steps bodies
       rv_steps journal FILE
with limits that a step may have
"""
# Words that name no task, or limits that no step may have.
OTHERS = ["", "machine 4 1", "machine 4 1 1 again", "machine 9007199254740992 1 1", "hub 8 4 4 500", "hub 8 4 4 500 yes", "json 1",
          "bodies 1", "journal", "journal 1 2"]


def framed(body: str) -> str:
    """The frame of a body, in hexadecimal digits."""
    return (len(body).to_bytes(2, "big") + body.encode()).hex()


# A client waits for 20 ms, and is told so when its entries are written.
EVENTS = f"""\
0 opened
0 came 0 {framed(HELLO)}{framed(TAKE)}
0 written 2
0 took 0 54
5 took 0 3
20 passed
0 written 3
20 ended 0
20 took 0 85
show 1000
"""
TOLD = f"""\
ok 0
0 open 0 0 0 1 -
= 0 - 0
ok 147
+ 0 - {HELLO}
+ 0 - {TAKE}
0 open 1 0 57 0 -
= 57 20 0
ok 0
0 open 1 0 57 0 {framed(WELCOME)}
= 57 20 0
ok 0
0 open 1 0 3 0 65227d
= 3 20 0
ok 0
0 open 1 0 0 0 -
= 0 20 0
ok 0
+ 20 - tick
0 open 0 0 85 1 -
= 85 - 0
ok 0
0 open 0 0 85 1 {framed(TIMED_OUT)}
= 85 - 0
ok 0
0 open 0 0 85 0 {framed(TIMED_OUT)}
= 85 - 0
ok 0
0 closed
= 0 - 0
shown
= 0 - 0
"""


class Steps(Judged):
    """Lines worked by hand, and what is told of each."""

    def judge_steps(self, name: str, words: list[str], lines: str, printed: str, said: bytes = b"", status: int = 0) -> None:
        """A run over lines must print this, say that on standard error, and end so."""
        ran = subprocess.run([self.steps, *words], input=lines.encode(), capture_output=True)
        self.judge(name, ran, printed.encode(), said, status)

    def test_events(self) -> None:
        """Events of a hub."""
        self.judge_steps("a hub's events", HUB, EVENTS, TOLD)
        self.judge_steps("a line that is no event", HUB, "0 opened\n0 open\n0 opened\n", "ok 0\n0 open 0 0 0 1 -\n= 0 - 0\n", b"a line says nothing\n", 2)

    def test_texts(self) -> None:
        """JSON that is written back."""
        self.judge_steps("JSON that is written back", ["json"], '0 {"a":1, "b":[]}\n', '{"a":1,"b":[]}\n')
        self.judge_steps("a line without a space", ["json"], "{}\n", "", b"Error: a line has no space\n", 1)

    def test_bodies(self) -> None:
        """Bodies that are read."""
        texts = ['{"kind":"hello","incarnation":1, "client":1}', WELCOME, '{"call":"peek","queue":3}', "{}", "{"]
        told = [f"{HELLO}\t2\t2", f"2\t{WELCOME}\t2", f"2\t2\t{PEEK}", "2\t2\t2", "1\t1\t1", "2\t2\t2"]
        hexes = [*(text.encode().hex() for text in texts), "-"]
        self.judge_steps("what bodies are read as", ["bodies"], "\n".join(hexes), "".join(f"{line}\n" for line in told))
        self.judge_steps("a line that is no body", ["bodies"], "7b7\n-\n", "", b"Error: a line is no body\n", 1)

    def test_other_words(self) -> None:
        """Words that name no task, or limits that no step may have."""
        for words in OTHERS:
            self.judge_steps(f"other words: {words}", words.split(), "", "", USAGE, 2)
