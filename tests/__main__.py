"""Runs the tests from outside: `python3 -m tests`, all of them, or those that are named."""
from __future__ import annotations

import argparse
import dataclasses
import os
import pathlib
import sys
import time

from tests import catalog, left_out
from tests.cases import Case
from tests.fixture import PROGRAM, STEPS, Fixture, any_seed
from tests.names import cases_of, readable
from tests.result import Result


def parser() -> argparse.ArgumentParser:
    """The words of the runner."""
    modules = "\n".join(f"  {module}" for module in catalog.MODULES)
    alone = "\n".join(f"  {module}" for module in catalog.BY_NAME)
    ends = f"modules with cases, in their order:\n{modules}\nand what runs by its name alone:\n{alone}"
    made = argparse.ArgumentParser(prog="python3 -m tests", description="Runs the tests of the program and of its clients from "
                                   "outside. The last line counts the checks.", epilog=ends,
                                   formatter_class=argparse.RawDescriptionHelpFormatter)
    made.add_argument("names", metavar="NAME", nargs="*",
                      help="a folder (commands), a module (commands.book), a class or a case of it, or the words of a case "
                      "('commands.book: items'); default: all")
    made.add_argument("--program", type=pathlib.Path, default=PROGRAM, help="default: the proved one, crates/rv_app/out/rv_app")
    made.add_argument("--steps", type=pathlib.Path, default=STEPS, help="the program for tests; default: crates/rv_steps/out/rv_steps")
    made.add_argument("--seed", type=int, default=any_seed(), help="of what is random; default: any")
    made.add_argument("--times", type=float, default=1, help="how many times as much of what is random is tried; default: 1")
    made.add_argument("--seconds", type=float, default=0, help="run what is random again with further seeds, for so long; default: once")
    made.add_argument("--only", default="", metavar="WORDS", help="only the cases with these words in their name")
    made.add_argument("--selftest", action="store_true", help="run in place of the tests what judges them: wrong programs must fail")
    made.add_argument("--wrong", default="", metavar="WORDS", help="with --selftest: only those wrong programs with these words")
    made.add_argument("--list", action="store_true", help="name the cases, and run none")
    made.add_argument("-v", "--verbose", action="store_true", help="tell also each check that passes")
    return made


def run(asked: catalog.Asked, result: Result) -> None:
    """Runs what is asked for, module by module, and tells what came of each."""
    for module, suite in asked.suites():
        passed, failed, began = result.passed, result.failed, time.monotonic()
        suite.run(result)
        took = time.monotonic() - began
        print(f"{module}: {result.passed - passed} passed, {result.failed - failed} failed, {took:.1f} seconds", flush=True)


def run_again(asked: catalog.Asked, result: Result, seconds: float) -> None:
    """Runs what is random again, with one further seed after another, for so long."""
    ends = time.monotonic() + seconds
    again = dataclasses.replace(asked, is_random=True)
    while time.monotonic() < ends:
        Case.fixture = dataclasses.replace(Case.fixture, seed=Case.fixture.seed + 1)
        print(f"seed {Case.fixture.seed}", flush=True)
        run(again, result)


def main() -> None:
    words = parser().parse_args()
    Case.fixture = Fixture(os.path.abspath(words.program), os.path.abspath(words.steps), words.seed, words.times, words.wrong)
    asked = catalog.Asked(tuple(words.names), words.only, words.selftest)
    if words.list:
        print(*(readable(case.id()) for _, suite in asked.suites() for case in cases_of(suite)), sep="\n")
        return
    if words.program == PROGRAM and not PROGRAM.exists() and not words.selftest:
        sys.exit(f"{PROGRAM} is missing: `make build` proves and builds it")
    print(f"seed {words.seed}", flush=True)
    result = Result(words.verbose)
    run(asked, result)
    if not result.testsRun:
        sys.exit("no case is named so: --list names them")
    run_again(asked, result, words.seconds)
    print(left_out.summary(result.left_out))
    print(f"{result.passed} passed, {result.failed} failed")
    sys.exit(not result.wasSuccessful())


# processes that try a wrong program read this file too
if __name__ == "__main__":
    main()
