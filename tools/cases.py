#!/usr/bin/env python3
"""Writes the table of cases of a client's process and of its machine, clients/cases.jsonl.

Each line is a JSON object. First come the stories, by the process of tests/model: `story` and `play` with
`seen`, a line of `rv play` and its result; and, where the line is about a process, `process` and `becomes`,
with `comes` (an answer) or `does` (start, begin, resend or cancel) and `says` (the message that goes out).
Then come the cases of a client's machine, by the rules of tests/clients/machine_rules.py: `machine` and
`event`; and `becomes`, `sends` (a message), `tells` and `drops`, or `misused`, where nobody may ask this.

usage: tools/cases.py             writes the table anew
       tools/cases.py --print     prints it
"""
import pathlib
import sys

ROOT = pathlib.Path(__file__).resolve().parents[1]
sys.dont_write_bytecode, sys.path[0] = True, str(ROOT)
from tests.clients.stories import table  # noqa: E402

TABLE = ROOT / "clients/cases.jsonl"

if "--print" in sys.argv:
    sys.stdout.write(table())
else:
    TABLE.write_text(table())
