"""The names of cases: `commands.book: items`, or `commands.book.Book.test_items`, as unittest has it."""
from __future__ import annotations

import unittest
from collections.abc import Iterator

PACKAGE = "tests."


def readable(identity: str) -> str:
    """The words for a case of this identity: its folder and module, and its own name without what stands for spaces."""
    folder, module, *_, own = identity.removeprefix(PACKAGE).split(".")
    return f"{folder}.{module}: {own.removeprefix('test_').replace('_', ' ')}"


def is_within(identity: str, asked: str) -> bool:
    """Whether a case is what is asked for: by its words, or in dots with its folder, module and class, or a front of these."""
    dotted = identity.removeprefix(PACKAGE)
    return asked == readable(identity) or f"{dotted}.".startswith(f"{asked}.")


def cases_of(suite: unittest.TestSuite) -> Iterator[unittest.TestCase]:
    """The cases of a suite, in their order."""
    for part in suite:
        if isinstance(part, unittest.TestSuite):
            yield from cases_of(part)
        else:
            yield part
