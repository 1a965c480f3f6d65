#!/usr/bin/env python3
"""Packs a program into a Debian package, rv_VERSION_amd64.deb, and into a tar of the same files, rv-VERSION-amd64.tar.gz, by Debian's
own tools and with no network. The program goes in as it is. The version and all times are those of the commit: the same program
and commit give the same bytes.

usage: tools/deb.py PROGRAM [FOLDER]   (FOLDER: out, where they take the place of older ones)
"""
import email.utils
import gzip
import os
import pathlib
import shutil
import subprocess
import sys
import tempfile
import time
from typing import Dict, List, Tuple

ROOT = pathlib.Path(__file__).resolve().parents[1]
RELEASE = "0.1"
# What has to be there, and the package of Debian that has it.
TOOLS = {"git": "git", "make": "make", "dpkg-buildpackage": "dpkg-dev", "dh": "debhelper"}
CHANGELOG = """rv ({version}) unstable; urgency=medium

  * As of commit {commit}.

 -- The rv project <rv@localhost>  {date}
"""


def run(words: List[str], folder: pathlib.Path, **environment: str) -> bytes:
    """What a tool prints; if it fails, all that it said is told."""
    ran = subprocess.run(words, cwd=folder, env={**os.environ, **environment}, capture_output=True)
    if ran.returncode:
        sys.exit(f"{words[0]} ended by {ran.returncode}:\n{(ran.stdout + ran.stderr).decode(errors='replace')}")
    return ran.stdout


def commit() -> Tuple[str, int]:
    """The commit, with a word where files differ from it, and its time; in a tree that is no clone, none, a second behind the clock's beginning."""
    if not (ROOT / ".git").exists():
        return "none", 1
    name, moment = run(["git", "log", "-1", "--format=%h %ct"], ROOT).decode().split()
    differs = run(["git", "status", "--porcelain", "--untracked-files=no"], ROOT)
    return name + (".changed" if differs else ""), int(moment)


def prepared(program: pathlib.Path, source: pathlib.Path, name: str, moment: int) -> None:
    """Puts what is packed into a folder: the program, its manual page, and how Debian packs them."""
    shutil.copytree(ROOT / "debian", source / "debian")
    stamp = time.strftime("%Y%m%d%H%M%S", time.gmtime(moment))
    told = {"version": f"{RELEASE}+{stamp}.{name}", "commit": name, "date": email.utils.formatdate(moment)}
    (source / "debian/changelog").write_text(CHANGELOG.format(**told))
    shutil.copy(program, source / "rv")
    (source / "rv.1").write_bytes(run([str(ROOT / "tools/manual.py"), str(source / "rv")], ROOT))
    for path in source.rglob("*"):
        os.utime(path, (moment, moment))


def packed(program: pathlib.Path, room: pathlib.Path) -> pathlib.Path:
    """The package, made in a folder of its own."""
    name, moment = commit()
    prepared(program, room / "source", name, moment)
    fixed: Dict[str, str] = {"SOURCE_DATE_EPOCH": str(moment), "LC_ALL": "C.UTF-8", "TZ": "UTC"}
    run(["dpkg-buildpackage", "--build=binary", "--no-sign", "--no-check-builddeps"], room / "source", **fixed)
    package, = room.glob("rv_*.deb")
    return package


def plain_of(package: pathlib.Path, room: pathlib.Path) -> pathlib.Path:
    """The tar of the files of a package."""
    name, version, machine = package.stem.split("_")
    plain = room / f"{name}-{version}-{machine}.tar.gz"
    with open(plain, "wb") as target, gzip.GzipFile("", "wb", fileobj=target, mtime=0) as packing:
        packing.write(run(["dpkg-deb", "--fsys-tarfile", str(package)], room))
    return plain


def main() -> None:
    if len(sys.argv) not in (2, 3):
        sys.exit(__doc__.strip().split("\n")[-1])
    for tool, package in TOOLS.items():
        if not shutil.which(tool):
            sys.exit(f"{tool} is missing: it is in Debian's package {package}")
    folder = pathlib.Path(sys.argv[2]) if len(sys.argv) == 3 else ROOT / "out"
    folder.mkdir(exist_ok=True)
    with tempfile.TemporaryDirectory(prefix="rv-deb-") as name:
        room = pathlib.Path(name)
        made = packed(pathlib.Path(sys.argv[1]).resolve(), room)
        for older in [*folder.glob("rv_*_*.deb"), *folder.glob("rv-*-*.tar.gz")]:
            older.unlink()
        for path in (made, plain_of(made, room)):
            print(shutil.copy(path, folder))


main()
