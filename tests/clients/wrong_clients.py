"""Clients that are wrong: they have another body in them, which a test must find.

A test in Python is one of the client's own, which its runner finds in a copy of the clients and their tests, or a case of clients.run
there. A case of the Java client is one of those too, and is run with other classes in place of some that were built.
"""
from __future__ import annotations

import compileall
import concurrent.futures
import contextlib
import functools
import os
import pathlib
import py_compile
import shutil
import signal
import subprocess
import sys
import tempfile
from collections.abc import Callable, Iterable, Sequence
from typing import List, Tuple
from unittest import mock

from tests import ROOT, apart
from tests.__main__ import main as run_tests
from tests.cases import Case, SelfTest, Tool
from tests.clients import java
from tests.clients.wrong import Edit, WrongClient
from tests.clients.wrong_java import IN_JAVA
from tests.clients.wrong_python import IN_PYTHON, TESTS
from tests.sockets.wire import Wrong, demand

# What a case of the runner's takes, and what a test of the Python client does.
FOLDERS, CLIENT = ["clients", "examples", "tests"], ["clients/python"]
# What runs a case, and what it says at last where that passed.
RUNNER, PASSED = ["-B", "-m", "tests"], "\n1 passed, 0 failed\n"
PATIENCE = 1200
# What tells that nothing is waited for long, and the module that has the cases.
SHORT, LOADED = {"RV_PATIENCE": "20"}, ["tests.clients.run"]
# How many are run at once: those in Python mostly wait.
AT_ONCE = {"Python": 16, "Java": 8}
# What tells that a wrong client does not run at all.
BROKEN = ("SyntaxError", "NameError", "ImportError", "_FailedTest", "IndentationError", "javac says",
          "NoSuchMethodError", "NoSuchFieldError")
# What is said of a case where some edits are made, and whether it passes.
Said = Callable[[str, List[Edit]], Tuple[str, bool]]
# Cases of right clients.
RIGHT = {"Python": ["test_calls", "test_refusals"], "Java": ["clients.java: the java process", "clients.java: refusals"]}


def edited(edits):
    """The texts of the files that these edits change, by path."""
    texts = {}
    for file, old, new in edits:
        text = texts[file] if file in texts else (ROOT / file).read_text()
        demand(text.count(old) == 1, f"{file} has not once: {old}")
        texts[file] = text.replace(old, new)
    return texts


@functools.cache
def right():
    """The folder of a copy without edits, with the bytecode of the client and its tests, which is gone when this program ends.
    Bytecode goes by its source's hash: that of an edited file is not used."""
    folder = tempfile.TemporaryDirectory(prefix="rv-right-")
    for part in FOLDERS:
        shutil.copytree(ROOT / part, pathlib.Path(folder.name, part), ignore=shutil.ignore_patterns("__pycache__"))
    for part in CLIENT:
        compileall.compile_dir(pathlib.Path(folder.name, part), quiet=1,
                               invalidation_mode=py_compile.PycInvalidationMode.CHECKED_HASH)
    return folder


@contextlib.contextmanager
def copied(parts, edits):
    """The folder of a copy of these parts with these edits, which is gone behind the block."""
    with tempfile.TemporaryDirectory(prefix="rv-wrong-") as name:
        folder = pathlib.Path(name)
        for part in parts:
            shutil.copytree(pathlib.Path(right().name, part), folder / part)
        for file, text in edited(edits).items():
            (folder / file).write_text(text)
        yield folder


def compiled(compiler, folder, edits):
    """Compiles the files that these edits change, into a folder; gives what is wrong with that, if something is. An edit changes
    bodies alone, so that the classes of other files are as they were."""
    folder.mkdir()
    try:
        texts = edited(edits)
    except Wrong as wrong:
        return str(wrong)
    sources = [folder / pathlib.Path(file).name for file in texts]
    for source, text in zip(sources, texts.values()):
        source.write_text(text)
    return compiler.tell("\t".join(java.compiler(java.class_path(), folder, *sources)))


def ran(words, folder, edits, **more):
    """What a program of Python says, and whether it ends well. A wrong client waits not long for what never comes."""
    short = SHORT if edits else {}
    done = subprocess.run([sys.executable, *words], cwd=folder, capture_output=True, text=True, timeout=PATIENCE,
                          env={**os.environ, **short, **more})
    return done.stdout + done.stderr, done.returncode == 0


def is_case(name: str) -> bool:
    """Whether this names a case of clients.run, and no test of the Python client."""
    return ": " in name


def said_in_python(test, edits):
    """What a test of the Python client says where these edits are made, and whether it passes."""
    with copied(FOLDERS if is_case(test) else CLIENT, edits) as folder:
        if is_case(test):
            # so that a copy doesn't build what it has not changed
            built = {} if java.missing() else {java.CLASSES: java.classes()}
            told, ends = ran([*RUNNER, "--program", Case.fixture.program, test], folder, edits, **built)
            return told, ends and told.endswith(PASSED)
        told, ends = ran(["-B", "-m", "unittest", test], folder / TESTS, edits)
    return told, ends and told.endswith("\nOK\n") and "\nRan 0 " not in told


def said_in_java(wrongs: Sequence[WrongClient]) -> Said:
    """What tells the same of a case of the Java client, without an edit, or with those of one of these. All of these are compiled by
    one compiler, and their cases run from one process that has loaded them."""
    with tempfile.TemporaryDirectory(prefix="rv-wrong-") as name, java.driver("rendezvous.Compiles") as compiler:
        folders = [pathlib.Path(name, str(number)) for number in range(len(wrongs))]
        tried = [(Case.fixture.program, wrong.case, f"{folder}:{java.classes()}", compiled(compiler, folder, wrong.edits))
                 for wrong, folder in zip(wrongs, folders)]
        told = apart.each(said_of_classes, tried, AT_ONCE["Java"], SHORT, LOADED)
    said = {(wrong.case, *wrong.edits): one for wrong, one in zip(wrongs, told)}
    return lambda case, edits: said[case, *edits] if edits else said_as_it_is(case)


def said_as_it_is(case: str) -> tuple[str, bool]:
    """The same of a case of the Java client, without an edit."""
    told, ends = ran([*RUNNER, "--program", Case.fixture.program, case], ROOT, [], **{java.CLASSES: java.classes()})
    return told, ends and told.endswith(PASSED)


def said_of_classes(program: str, case: str, classes: str, fault: str) -> tuple[str, bool]:
    """The same of a case where these are the classes, unless something is wrong with them; this process runs it alone."""
    if fault:
        return fault, False
    os.environ[java.CLASSES] = classes
    signal.alarm(PATIENCE)
    with tempfile.TemporaryFile("w+") as said:
        for stream in (sys.stdout, sys.stderr):
            os.dup2(said.fileno(), stream.fileno())
        with mock.patch.object(sys, "argv", ["tests", "--program", program, case]):
            ends = ends_well(run_tests)
        sys.stdout.flush()
        said.seek(0)
        told = said.read()
    return told, ends and told.endswith(PASSED)


def ends_well(program: Callable[[], object]) -> bool:
    """Runs a program in this process, and tells whether it ends well."""
    try:
        program()
    except SystemExit as end:
        return not end.code
    return True


def is_found(said, wrong):
    """The test of a wrong client must fail, and not for want of a program that runs."""
    told, passes = said(wrong.case, wrong.edits)
    sign = f"FAILED: {wrong.case}: " if is_case(wrong.case) else "\nFAILED ("
    demand(not passes and sign in told, f"passes {wrong.case}: {told[-2000:]}")
    demand(not any(none in told for none in BROKEN), f"{wrong.case}: {told[-2000:]}")
    return told.rstrip("\n").rpartition("\n")[2]


def is_right(said, cases):
    """A client without an edit must pass all cases of these."""
    told, passes = said(cases, [])
    demand(passes, told[-2000:])


class WrongClients(SelfTest):
    """A client without an edit runs and passes, by some cases of each language; each wrong one is found."""

    def test_in_python(self) -> None:
        """The client in Python."""
        named = self.named("Python", IN_PYTHON)
        if not java.missing() and named:
            # so that they are not built by more than one thread
            java.classes()
        if named:
            # for the same reason
            right()
        self.judge_all("Python", named, said_in_python)

    def test_in_java(self) -> None:
        """The client in Java."""
        Tool("the Java client", java.missing).demand()
        java.classes()
        named = self.named("Java", IN_JAVA)
        self.judge_all("Java", named, said_in_java([given for *_, given in named if isinstance(given, WrongClient)]))

    def named(self, language: str, wrongs: Iterable[WrongClient]) -> list[tuple[str, Callable[..., object], object]]:
        """The clients in one language that are to be tried, the right ones first: each with its name and what judges it."""
        named: list[tuple[str, Callable[..., object], object]] = [
            (f"a right client in {language}, {cases}", is_right, cases) for cases in RIGHT[language]]
        named += [(f"a client in {language} that {wrong.does}", is_found, wrong) for wrong in wrongs]
        return [each for each in named if self.fixture.wrong in each[0]]

    def judge_all(self, language: str, named: Iterable[tuple[str, Callable[..., object], object]], said: Said) -> None:
        """Tries clients side by side, by what is said of them, since some of them wait long for what never comes."""
        with concurrent.futures.ThreadPoolExecutor(AT_ONCE[language]) as pool:
            tried = [(name, pool.submit(judge, said, given)) for name, judge, given in named]
            for name, one in tried:
                with self.subTest(name):
                    one.result()
