"""Builds the Debian package in a folder of its own, without a network, and looks at what it has.

What lacks its tool is left out, and told.
"""
from __future__ import annotations

import os
import pathlib
import shutil
import subprocess
import tarfile
import tempfile
from typing import ClassVar

from tests import ROOT
from tests.cases import Case, Tool
from tests.sockets.wire import demand

# What the package has for the system, with its mode; whatever else it has is its documentation.
UNITS = ("rv.service", "rv-compact.service", "rv-compact.timer")
FILES = {"./usr/bin/rv": 0o755, "./usr/share/man/man1/rv.1.gz": 0o644, "./etc/default/rv": 0o644,
         **{f"./lib/systemd/system/{unit}": 0o644 for unit in UNITS}}
DOCUMENTATION = "./usr/share/doc/rv/"
COMMANDS = ("book", "play", "audit", "serve", "host", "call", "record", "verify", "compact")
# How exposed systemd may find a service, of 100.
EXPOSURE = 15
PATIENCE = 300


def ran(*words: object, umask: int = 0o022) -> str:
    """What a command prints, which must end well."""
    done = subprocess.run([*map(str, words)], capture_output=True, text=True, timeout=PATIENCE, cwd=ROOT, umask=umask)
    demand(done.returncode == 0, f"{words[0]} ended by {done.returncode}: {done.stdout}{done.stderr}")
    return done.stdout + done.stderr


def settings(text: str) -> dict[str, str]:
    """The settings of a unit, or of a file of its environment: the last one of each name."""
    return dict(line.split("=", 1) for line in text.splitlines() if "=" in line and not line.startswith("#"))


class Built:
    """A package, and the tar beside it."""

    def __init__(self, program: str, folder: pathlib.Path, umask: int = 0o022):
        ran(ROOT / "tools/deb.py", program, folder, umask=umask)
        self.program, self.folder = program, folder
        self.package, = folder.glob("rv_*.deb")
        self.plain, = folder.glob("rv-*.tar.gz")

    def unpacked(self) -> pathlib.Path:
        """The files of the package."""
        root = self.folder / "root"
        if not root.exists():
            ran("dpkg-deb", "--extract", self.package, root)
        return root


# The tools that build it and look at it, and Debian's packages that have them.
BUILD = {"git": "git", "make": "make", "dpkg-buildpackage": "dpkg-dev", "dh": "debhelper"}
LOOK = {"dpkg-deb": "dpkg", "man": "man-db", "systemd-analyze": "systemd"}


def lacking(tools: dict[str, str]) -> str | None:
    """The first of these tools that is missing, if one is, with the package that has it."""
    return next((f"{tool} is missing, of Debian's {package}" for tool, package in tools.items() if not shutil.which(tool)), None)


class Package(Case):
    """What the package has, needs and tells."""

    built: ClassVar[Built]

    @classmethod
    def setUpClass(cls) -> None:
        Tool("the Debian package", lambda: lacking(BUILD)).demand()
        folder = cls.enterClassContext(tempfile.TemporaryDirectory(prefix="rv-package-"))
        cls.built = Built(cls.fixture.program, pathlib.Path(folder))

    def looks_by(self, tool: str) -> None:
        """Leaves out this case where the tool is missing by which it looks."""
        own = self.id().rpartition(".test_")[2].replace("_", " ")
        Tool(f"the Debian package, {own}", lambda: lacking({tool: LOOK[tool]})).demand()

    def test_its_files(self) -> None:
        """It has its files with their modes and the program as it was given; the tar has the same, all of them root's."""
        self.looks_by("dpkg-deb")
        with tarfile.open(self.built.plain) as archive:
            members = {member.name: member for member in archive.getmembers() if not member.isdir()}
            file = archive.extractfile("./usr/bin/rv")
            assert file, "the tar has no program"
            program = file.read()
        found = {name: member.mode for name, member in members.items() if not name.startswith(DOCUMENTATION)}
        demand(found == FILES, f"it has {found}")
        demand(all((member.uid, member.gid) == (0, 0) for member in members.values()), "a file isn't root's")
        demand(program == pathlib.Path(self.built.program).read_bytes(), "the program isn't the one that was given")
        listed = {line.split()[-1] for line in ran("dpkg-deb", "--contents", self.built.package).splitlines() if not line.startswith("d")}
        demand(listed == set(members), f"the package and the tar differ in {listed ^ set(members)}")

    def test_its_needs(self) -> None:
        """It needs libc alone."""
        self.looks_by("dpkg-deb")
        needs = ran("dpkg-deb", "--field", self.built.package, "Depends").strip()
        demand(needs.startswith("libc6 (>= ") and "," not in needs, f"it needs {needs}")

    def test_its_manual_page(self) -> None:
        """The page has a part for each command, and its first option."""
        self.looks_by("man")
        page = ran("man", "--warnings", "--local-file", self.built.unpacked() / "usr/share/man/man1/rv.1.gz")
        lacks = [name for name in COMMANDS if f"\n   rv {name}\n" not in page]
        demand(not lacks, f"it has no part for {lacks}")
        demand("--epoch-above" in page, "it lacks an option of rv host")
        demand("warning" not in page, f"man warns: {page[:500]}")

    def test_its_units(self) -> None:
        """systemd takes the units without a word, and finds their programs hardly exposed."""
        self.looks_by("systemd-analyze")
        root = self.built.unpacked()
        here = self.built.folder / "units"
        here.mkdir()
        for unit in UNITS:
            text = (root / "lib/systemd/system" / unit).read_text()
            (here / unit).write_text(text.replace("/usr/bin/rv", str(root / "usr/bin/rv")))
        said = ran("systemd-analyze", "verify", "--man=no", *(here / unit for unit in UNITS))
        told = [line for line in said.splitlines() if any(unit in line for unit in UNITS)]
        demand(not told, f"systemd says of them: {told}")
        for service in UNITS[:2]:
            ran("systemd-analyze", "security", "--offline=true", f"--threshold={EXPOSURE}", here / service)

    def test_its_checkpoints(self) -> None:
        """Both services have one user, state folder and store, so that a checkpoint is of what the server keeps, and is its to read."""
        units = [settings((self.built.unpacked() / "lib/systemd/system" / unit).read_text()) for unit in UNITS[:2]]
        serves, compacts = units
        alike = ("DynamicUser", "StateDirectory", "StateDirectoryMode", "WorkingDirectory", "UMask", "EnvironmentFile")
        differ = [name for name in alike if serves[name] != compacts[name]]
        demand(not differ, f"the services differ in {differ}")
        demand(compacts["User"] == "rv" and "User" not in serves, "the checkpoints' user isn't the one that systemd names by rv.service")
        options = settings((self.built.unpacked() / "etc/default/rv").read_text())
        demand(options["RV_OPTIONS"] == f'"--store {options["RV_STORE"]}"', f"the options are {options}")
        demand(compacts["Environment"] == f"RV_STORE={options['RV_STORE']}", "without the options the checkpoints are of another store")

    def test_the_same_bytes(self) -> None:
        """Another build, under another umask and of an older program, gives the same bytes, whose times are all one."""
        self.looks_by("dpkg-deb")
        folder = self.built.folder / "again"
        folder.mkdir()
        older = shutil.copy(self.built.program, folder / "rv")
        os.utime(older, (1, 1))
        again = Built(older, folder, umask=0o077)
        demand(again.package.read_bytes() == self.built.package.read_bytes(), "another build has other bytes")
        demand(again.plain.read_bytes() == self.built.plain.read_bytes(), "another build's tar has other bytes")
        with tarfile.open(self.built.plain) as archive:
            demand(len({member.mtime for member in archive.getmembers()}) == 1, "its files are of several times")
