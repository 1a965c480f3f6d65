"""Builds the library that is loaded before a program, so that memory, devices or the system fail it. Its source,
tests/faults/preload.c, tells its switches.

usage: python3 -m tests.faults.preload     builds out/preload.so
"""
from __future__ import annotations

import os
import pathlib
import shutil
import subprocess
import sys
import tempfile

SOURCE = pathlib.Path(__file__).resolve().with_suffix(".c")
LIBRARY = SOURCE.parents[2] / "out/preload.so"


def built(source: pathlib.Path = SOURCE, library: pathlib.Path = LIBRARY) -> None:
    """Builds a library, unless it is newer than its source."""
    if library.exists() and library.stat().st_mtime > source.stat().st_mtime:
        return
    if not shutil.which("cc"):
        sys.exit("cc is missing: it builds what lets memory, devices and the system fail a program")
    library.parent.mkdir(exist_ok=True)
    # Others may load it meanwhile, so it comes to its place whole.
    with tempfile.TemporaryDirectory(dir=library.parent) as folder:
        made = pathlib.Path(folder) / library.name
        subprocess.run(["cc", "-O1", "-shared", "-fPIC", "-o", made, source, "-ldl"], check=True)
        os.replace(made, library)


def switches(**given: object) -> dict[str, str]:
    """The variables that load the library before a program, with these switches."""
    return {"LD_PRELOAD": str(LIBRARY), **{f"FAULT_{name.upper()}": str(value) for name, value in given.items()}}


if __name__ == "__main__":
    built()
