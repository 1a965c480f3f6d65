"""The Python package as it is built, installed, typed and tested by the tools of its ecosystem, without a network."""
import functools
import json
import os
import pathlib
import re
import shutil
import subprocess
import sys
import tarfile
import tempfile
import zipfile

from scripted import Scripted, reply, welcome
from tests import ROOT
from tests.sockets.wire import demand

SOURCES = ROOT / "clients/python"
PATIENCE = 600
VERSION = "3.3.0"
# The interpreters whose packages are looked at: Debian's packages are of the first.
INTERPRETERS = ["/usr/bin/python3", sys.executable]
# What is imported to see that a tool is there, setuptools before pip as it wants to be, and Debian's packages that have it.
TOOLS = {"pip": "setuptools, ensurepip, pip, venv, wheel", "mypy": "mypy", "pytest": "pytest"}
DEBIANS = {"pip": "python3-pip, python3-venv", "mypy": "mypy", "pytest": "python3-pytest"}
# What is run by the interpreter of an environment; it is told the server's port.
ONCE = """
import json, rendezvous, sys
with rendezvous.Session(("127.0.0.1", int(sys.argv[1])), client=1, incarnation=1) as session:
    print(json.dumps([rendezvous.__file__, session.drain(3, 2)]))
"""
# What the backend is asked for the packed sources.
PACKS = "import sys\nfrom setuptools import build_meta\nbuild_meta.build_sdist(sys.argv[1])\n"
# A program of a user, whose types must hold.
TYPED = """
import pathlib
from typing import List, Optional
import rendezvous


def asks(session: rendezvous.Session) -> Optional[rendezvous.Key]:
    names: List[int] = [session.client, session.incarnation]
    items: List[str] = [session.take(3), *session.drain(3, max=len(names))]
    receipt: Optional[rendezvous.Receipt] = session.try_transfer(3, items[0], timeout=1.5)
    server: rendezvous.Server = session.address
    names.append(server.port)
    return receipt.by if receipt else None


def shares(addresses: List[str]) -> int:
    with rendezvous.Shards(addresses, retry=rendezvous.Retry(largest=1.0)) as shards:
        return shards.count(3).items


def records(folder: pathlib.Path) -> Optional[rendezvous.Outcome]:
    try:
        rendezvous.Session("127.0.0.1:7411", record=folder / "record").put(3, "a")
    except rendezvous.NotRecorded as fault:
        return fault.outcome
    return None
"""


def alone():
    """The environment without what it says to Python and pip."""
    return {name: value for name, value in os.environ.items() if not name.startswith(("PYTHON", "PIP", "PYENV"))}


@functools.lru_cache(maxsize=None)
def interpreter(tool):
    """An interpreter that has a tool; None where none has."""
    for python in INTERPRETERS if all(map(os.path.exists, INTERPRETERS)) else INTERPRETERS[1:]:
        if subprocess.run([python, "-c", f"import {TOOLS[tool]}"], capture_output=True, env=alone()).returncode == 0:
            return python
    return None


def missing(tool):
    """What this machine lacks for a tool, if something."""
    return None if interpreter(tool) else f"no Python here has all of {TOOLS[tool]}, of Debian's {DEBIANS[tool]}"


def ran(*words, folder):
    """What a command prints, which must end well and say nothing on standard error."""
    done = subprocess.run([*map(str, words)], capture_output=True, text=True, timeout=PATIENCE, env=alone(), cwd=folder)
    demand((done.returncode, done.stderr) == (0, ""), f"{words}: {done.stdout[-2000:]} {done.stderr[-2000:]}")
    return done.stdout


def copied(folder):
    """A copy of the sources, without what was built or kept there."""
    kept = shutil.ignore_patterns("__pycache__", "out", "*.egg-info", ".*_cache")
    return pathlib.Path(shutil.copytree(SOURCES, folder / "sources", ignore=kept))


def files_of(folder):
    """The files of a folder, by their paths there."""
    return {path.relative_to(folder).as_posix() for path in folder.rglob("*") if path.is_file()}


def pip_installs_it() -> None:
    """A new environment that sees the system's packages has the module, and what is told of the package, and uses it once; the
    build leaves nothing beside the sources but in the folders that git ignores."""
    with tempfile.TemporaryDirectory(prefix="rv-pip-") as name:
        folder = pathlib.Path(name)
        sources = copied(folder)
        before = files_of(sources)
        subprocess.run([interpreter("pip"), "-m", "venv", "--system-site-packages", folder / "env"], check=True,
                       capture_output=True, timeout=PATIENCE, env=alone())
        python = folder / "env/bin/python"
        pip = [python, "-m", "pip", "--disable-pip-version-check"]
        ran(*pip, "install", "--no-index", "--no-build-isolation", sources, folder=folder)
        shown = ran(*pip, "show", "rv-rendezvous", folder=folder)
        demand(f"Version: {VERSION}\n" in shown and "Requires: \n" in shown, f"pip shows {shown}")
        with Scripted(welcome, reply("drained", texts=["a", "b"])) as server:
            path, drained = json.loads(ran(python, "-c", ONCE, server.port, folder=folder))
        demand(drained == ["a", "b"], f"it drained {drained}")
        demand(pathlib.Path(path).is_relative_to(folder / "env"), f"{path} is not of the environment")
        demand(not (sources / "build").exists(), "the build left something behind")
        left = {path for path in files_of(sources) - before if not re.match(r"out/|src/[^/]+\.egg-info/", path)}
        demand(not left, f"the build left {left}")


def wheel_and_sources_are_whole() -> None:
    """The wheel has the package's modules and no other; the packed sources have the tests too, and make the same wheel."""
    modules = {f"rendezvous/{path}" for path in files_of(SOURCES / "src/rendezvous") if path.endswith((".py", "py.typed"))}
    with tempfile.TemporaryDirectory(prefix="rv-wheel-") as name:
        folder = pathlib.Path(name)
        first = wheel_of(copied(folder), folder / "first")
        packs = [interpreter("pip"), "-c", PACKS, folder / "packed"]
        subprocess.run(packs, check=True, cwd=folder / "sources", capture_output=True, timeout=PATIENCE, env=alone())
        [packed] = (folder / "packed").iterdir()
        demand(re.sub("-", "_", packed.name, count=1) == f"rv_rendezvous-{VERSION}.tar.gz", packed.name)
        with tarfile.open(packed) as archive:
            archive.extractall(folder / "unpacked")
        [unpacked] = (folder / "unpacked").iterdir()
        wanted = {path for path in files_of(SOURCES / "tests") if path.endswith(".py")}
        demand(files_of(unpacked / "tests") == wanted, f"the packed tests are {files_of(unpacked / 'tests')}")
        second = wheel_of(unpacked, folder / "second")
    told = {name for name in first if ".dist-info/" in name}
    demand(set(first) - told == modules, f"the wheel has {sorted(first)}")
    demand({name: first[name] for name in modules} == {name: second[name] for name in modules}, "the packed sources are others")
    demand(f"Version: {VERSION}" in first[f"rv_rendezvous-{VERSION}.dist-info/METADATA"].decode(), "it has another version")


def wheel_of(sources, folder):
    """The files of the wheel that pip makes, by name."""
    pip = [interpreter("pip"), "-m", "pip", "--disable-pip-version-check"]
    ran(*pip, "wheel", "--no-index", "--no-build-isolation", "--no-deps", "--wheel-dir", folder, sources, folder=sources.parent)
    with zipfile.ZipFile(folder / f"rv_rendezvous-{VERSION}-py3-none-any.whl") as wheel:
        return {name: wheel.read(name) for name in wheel.namelist()}


def mypy_says_nothing() -> None:
    """Of the package, by its own settings, and of a program that uses it; of one that uses it wrongly it does."""
    with tempfile.TemporaryDirectory(prefix="rv-mypy-") as name:
        folder = pathlib.Path(name)
        sources, user = copied(folder), folder / "user.py"
        mypy = [interpreter("mypy"), "-m", "mypy", "--cache-dir", folder / "cache"]
        told = ran(*mypy, folder=sources)
        demand(re.fullmatch(r"Success: no issues found in \d+ source files\n", told), told)
        user.write_text(TYPED)
        ran(*mypy, "--strict", "--config-file=", user, folder=sources / "src")
        user.write_text(TYPED.replace("List[str] = [", "List[int] = ["))
        done = subprocess.run([*map(str, [*mypy, "--strict", "--config-file=", user])], capture_output=True, text=True,
                              timeout=PATIENCE, env=alone(), cwd=sources / "src")
        demand(done.returncode == 1 and "List item 0 has incompatible type" in done.stdout, f"a wrong type is right: {done.stdout}")


def pytest_finds_each_test() -> None:
    """Those that Python's own runner finds, and no other."""
    finds = [interpreter("pytest"), "-B", "-m", "pytest", "-p", "no:cacheprovider", "--collect-only", "-q"]
    told = subprocess.run(finds, cwd=SOURCES, capture_output=True, text=True, timeout=PATIENCE, env=alone()).stdout
    found = {line.split("/")[-1].replace(".py::", ".").replace("::", ".") for line in told.splitlines() if "::" in line}
    lists = ("import unittest\n\ndef names(of):\n    for one in of:\n        yield from names(one) if hasattr(one, '__iter__')"
             " else [one.id()]\nprint(*names(unittest.defaultTestLoader.discover('tests')))")
    wanted = subprocess.run([sys.executable, "-B", "-c", lists], cwd=SOURCES, capture_output=True, text=True, timeout=PATIENCE)
    demand(found == set(wanted.stdout.split()) != set(), f"pytest alone: {found ^ set(wanted.stdout.split())}; {told[-2000:]}")


CASES = {"pip": [pip_installs_it, wheel_and_sources_are_whole], "mypy": [mypy_says_nothing], "pytest": [pytest_finds_each_test]}
