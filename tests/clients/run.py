"""Runs the clients in Python and Java: their machines on the table of cases, their calls over a scripted server and over
servers of the program, in crowds that are interrupted and killed."""
from __future__ import annotations

import functools
import unittest
from collections.abc import Callable, Iterable
from typing import Any

from tests.cases import Case, Scenario, SideBySide, Tool
from tests.clients import (
    browser, cancelled_tasks, crowds, drains, guide, installed, interrupted, interrupted_judged, java, java_closes, java_leases,
    java_packages, java_record, java_scenes, java_shards, long_waits, missing_tools, presence, python_page, python_tests, receipts,
    records, restarts, shards, table_cases, workers)

# What is left out where its tool is missing.
JAVA = Tool("the Java client", java.missing)
BROWSER = Tool("the pictures in a browser", browser.missing)
# The seconds for which the crowd asks, and the scripts that the JDK runs too.
CROWD, SCRIPTS = 15, 2_000


class InJava(SideBySide):
    """Cases of the Java client, whose classes are built first, so that they are not built by more than one thread."""

    def run(self, result: unittest.TestResult, debug: bool = False) -> unittest.TestResult:
        if self.countTestCases() and not java.missing():
            java.classes()
        return super().run(result, debug)


def by_a_driver(case: Callable[..., object]) -> Scenario:
    """A case of the Java client that is given a driver of it."""
    return Driven("clients", case)


class Driven(Scenario):
    """A case that is given a driver of the Java client."""

    def play(self) -> None:
        JAVA.demand()
        with java.driver() as driver:
            self.given = (driver,)
            super().play()


def scenario(case: Callable[..., object], *given: Any, tools: Iterable[Tool] = (), is_random: bool = False) -> Scenario:
    """A case of the clients."""
    return Scenario("clients", case, *given, tools=tools, is_random=is_random)


def python_package() -> Iterable[unittest.TestCase]:
    """The Python client's own tests, and what its package goes through."""
    yield python_tests.PythonTests("test_python_tests")
    for tool, cases in installed.CASES.items():
        lacks = Tool(f"the Python package by {tool}", functools.partial(installed.missing, tool))
        yield from (scenario(case, tools=[lacks]) for case in cases)


def java_alone(program: str) -> Iterable[unittest.TestCase]:
    """The cases of the Java client alone: of its package, and of its calls, scenes, leases and records."""
    yield from (scenario(case, tools=[JAVA]) for case in java.TABLES)
    for case, tool in java_packages.cases():
        yield scenario(case, program, tools=[JAVA, *filter(None, [tool])])
    yield from map(by_a_driver, java.CASES)
    alone: list[Callable[..., object]] = [*java_leases.CASES, *java_record.CASES, *java_scenes.CASES, *java_shards.CASES]
    yield from (scenario(case, program, tools=[JAVA]) for case in alone)


def java_beside_others(program: str, seed: int) -> Iterable[unittest.TestCase]:
    """The cases of the Java client beside that in Python and the JDK's classes."""
    yield scenario(crowds.beside_the_jdk, program, seed, Case.fixture.many(SCRIPTS), tools=[JAVA], is_random=True)
    beside_python: list[Callable[..., object]] = [*receipts.WITH_JAVA, *restarts.WITH_JAVA, *presence.WITH_JAVA]
    yield from (scenario(case, program, tools=[JAVA]) for case in beside_python)
    for case in java_closes.CASES:
        yield scenario(case, program, seed, tools=[JAVA], is_random=True)


def load_tests(_: unittest.TestLoader, suite: unittest.TestSuite, __: str | None) -> unittest.TestSuite:
    """The cases, some of which run side by side."""
    program, seed = Case.fixture.program, Case.fixture.seed
    suite.addTests(scenario(case, program) for case in table_cases.CASES + table_cases.WITH_PROGRAM)
    suite.addTest(SideBySide(python_package()))
    suite.addTests(scenario(case) for case in long_waits.CASES + interrupted_judged.CASES + records.CASES)
    suite.addTest(InJava(java_alone(program)))
    suite.addTests(java_beside_others(program, seed))
    suite.addTest(scenario(crowds.at_the_double))
    suite.addTest(scenario(crowds.a_crowd, program, seed, CROWD * Case.fixture.times, is_random=True))
    by_seed: list[Callable[..., object]] = [*interrupted.CASES, *cancelled_tasks.CASES, *presence.BY_SEED]
    suite.addTests(scenario(case, program, seed, is_random=True) for case in by_seed)
    others: list[Callable[..., object]] = [
        *receipts.CASES, *restarts.CASES, *shards.CASES, *drains.CASES, *presence.CASES, *python_page.CASES, *guide.CASES,
        *missing_tools.CASES, *workers.CASES]
    suite.addTests(scenario(case, program) for case in others)
    suite.addTests(scenario(case, program, tools=[BROWSER]) for case in browser.CASES)
    return suite
