"""Keeps a screenshot of the status page in a browser: `python3 -m tests.status.picture FILE` of a made-up status, and with
`--program PROGRAM` of a busy host, which takes two minutes."""
from __future__ import annotations

import argparse
import os
import pathlib

from tests.status import busy, staged
from tests.status.run import numbers, shown


def main() -> None:
    parser = argparse.ArgumentParser(prog="python3 -m tests.status.picture", description=__doc__)
    parser.add_argument("file", type=pathlib.Path)
    parser.add_argument("--program", help="the program, of which a busy host is shown; default: a made-up status")
    asked = parser.parse_args()
    if asked.program:
        staged.picture(os.path.abspath(asked.program), asked.file)
    else:
        shown(busy.busy({**numbers(), "rv_fault_descriptor_total": 17}), f"--screenshot={asked.file.resolve()}")


if __name__ == "__main__":
    main()
