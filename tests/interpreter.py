"""What quickens processes in Python that tests start again and again: the interpreter, and modules of the tests with their bytecode."""
from __future__ import annotations

import compileall
import functools
import pathlib
import py_compile
import shutil
import sys
import tempfile

from tests import ROOT

# What the doubles of the program import of the tests.
PARTS = ("__init__.py", "host", "model", "sockets")
NO_SOURCES = shutil.ignore_patterns("__pycache__", "*.sh")


@functools.cache
def compiled() -> tempfile.TemporaryDirectory[str]:
    """The folder of a copy of these parts with their bytecode, which is gone when this program ends: none lies beside the sources."""
    folder = tempfile.TemporaryDirectory(prefix="rv-compiled-")
    to = pathlib.Path(folder.name, "tests")
    to.mkdir()
    for part in PARTS:
        source = ROOT / "tests" / part
        if source.is_dir():
            shutil.copytree(source, to / part, ignore=NO_SOURCES)
        else:
            shutil.copy(source, to / part)
    compileall.compile_dir(to, quiet=1, invalidation_mode=py_compile.PycInvalidationMode.UNCHECKED_HASH)
    return folder


def variables() -> dict[str, str]:
    """The variables by which the doubles' scripts find this interpreter and that copy."""
    return {"RV_PYTHON": sys.executable, "RV_COMPILED": compiled().name}
