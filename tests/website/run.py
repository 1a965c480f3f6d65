"""Makes the documents' pages in a folder of its own, and follows each of their links.

What lacks its tool is left out, and told.
"""
from __future__ import annotations

import os
import pathlib
import subprocess
import sys
import tempfile
from typing import ClassVar

from tests import ROOT
from tests.cases import Case, SelfTest, Tool
from tests.package.run import lacking, ran
from tests.sockets.wire import demand
from tests.website import links

MAKE = [sys.executable, "-B", "-m", "tools.website"]
# The tool that makes them, and Debian's package that has it.
GENERATOR = {"cmark-gfm": "cmark-gfm"}
STYLE = "website.css"
# Where documents are that have a page, and pictures that one of them shows.
DOCUMENTS = ("CONTRIBUTING.md", "docs/*.md", "clients/*/README.md", "crates/README.md", "crates/*/README.md", "tests/README.md")
PICTURES = ("docs/*.png", "docs/pictures/*.svg")
# A few pages with nothing wrong, and what may be wrong with them: the file, and its words that others take the place of.
WHOLE = {
    "index.html": '<html lang="en"><title>One</title><h1>One</h1><a href="two/2.html#end">2</a> '
                  '<a href="https://a.example">b</a></html>',
    "two/2.html": '<html lang="en"><title>Two</title><h1>Two</h1><h2 id="end">End</h2>'
                  '<a href="../index.html">1</a><img src="2.svg"></html>',
    "two/2.svg": "<svg/>",
}
SPOILT = [
    ("a file that isn't there", "index.html", "two/2.html#end", "two/3.html"),
    ("a folder", "index.html", "two/2.html#end", "two"),
    ("a heading that isn't there", "index.html", "#end", "#start"),
    ("a heading of a picture", "index.html", "two/2.html#end", "two/2.svg#end"),
    ("a file outside", "two/2.html", "../index.html", "../../index.html"),
    ("a file of the machine", "two/2.html", "../index.html", "file:///etc/hosts"),
    ("a picture that isn't there", "two/2.html", "2.svg", "3.svg"),
    ("a second heading of the first level", "index.html", "</html>", "<h1>Two</h1></html>"),
    ("no heading of the first level", "index.html", "h1>", "h2>"),
    ("no title", "index.html", "<title>One</title>", ""),
    ("an empty title", "index.html", "<title>One</title>", "<title> </title>"),
    ("another language", "index.html", ' lang="en"', ""),
    ("a piece that was dropped", "index.html", "</html>", "<!-- raw HTML omitted --></html>"),
    ("two headings of one id", "two/2.html", "</html>", '<h2 id="end">End</h2></html>'),
]


def beside(folder: pathlib.Path) -> list[str]:
    """The names of what is beside a folder, and of itself."""
    return sorted(path.name for path in folder.parent.iterdir())


def found(forms: tuple[str, ...]) -> set[str]:
    """The files of the repository of these forms."""
    return {str(path.relative_to(ROOT)) for form in forms for path in ROOT.glob(form)}


class Website(Case):
    """The pages."""

    folder: ClassVar[pathlib.Path]

    @classmethod
    def setUpClass(cls) -> None:
        Tool("the documents as pages", lambda: lacking(GENERATOR)).demand()
        room = cls.enterClassContext(tempfile.TemporaryDirectory(prefix="rv-site-"))
        cls.folder = pathlib.Path(room).resolve() / "site"
        ran(*MAKE, cls.folder)

    def test_each_page_is_whole(self) -> None:
        """Each of its links leads to a file there, and to a heading where it names one; it has one first heading and a title."""
        self.check_faults(links.faults(self.folder))

    def test_each_document_has_its_page(self) -> None:
        """Each document has a page in its folder, whose title is the document's first heading."""
        pages = {path.replace(".md", ".html") for path in found(DOCUMENTS)} | {"index.html"}
        lacks = sorted(name for name in pages if not (self.folder / name).is_file())
        demand(len(pages) > len(DOCUMENTS) and not lacks, f"there is no {lacks}")
        for name in sorted(found(DOCUMENTS)):
            heading = (ROOT / name).read_text(encoding="utf-8").partition("\n")[0].removeprefix("# ")
            title = links.Page(self.folder / name.replace(".md", ".html")).title
            demand(title == heading, f"the title of {name} is {title!r}")

    def test_each_picture_is_shown(self) -> None:
        """Each picture of the documents is shown by a page, and is the one of the repository."""
        pages = links.read(self.folder)
        shown = {(path.parent / picture).resolve() for path, page in pages.items() for picture in page.pictures}
        names = {str(path.relative_to(self.folder)) for path in shown}
        demand(names == found(PICTURES) != set(), f"the pages show {sorted(names)}")
        other = [name for name in names if (self.folder / name).read_bytes() != (ROOT / name).read_bytes()]
        demand(not other, f"other bytes than the repository's has {other}")

    def test_older_pages_make_way(self) -> None:
        """Pages take the place of older ones, and leave nothing beside them."""
        older = self.folder / "older.html"
        older.write_text("")
        ran(*MAKE, self.folder)
        demand(not older.exists() and (self.folder / STYLE).exists(), "an older page is still there")
        demand(beside(self.folder) == ["site"], f"there is {beside(self.folder)}")

    def test_another_folder_stays(self) -> None:
        """They take the place of no folder that has other files."""
        with tempfile.TemporaryDirectory(prefix="rv-site-") as room:
            folder = pathlib.Path(room) / "notes"
            folder.mkdir()
            (folder / "note").write_text("")
            told = subprocess.run([*MAKE, str(folder)], cwd=ROOT, capture_output=True, text=True)
            demand(told.returncode == 1 and "has no pages" in told.stderr, f"it ended by {told.returncode}: {told.stderr}")
            demand(beside(folder / "note") == ["note"] and beside(folder) == ["notes"], "it was changed")


class WithoutGenerator(Case):
    """Where the tool is missing that makes the pages."""

    def test_the_missing_tool_is_told(self) -> None:
        """One line names its package, and older pages stay."""
        with tempfile.TemporaryDirectory(prefix="rv-site-") as room:
            folder = pathlib.Path(room) / "site"
            folder.mkdir()
            (folder / STYLE).write_text("")
            told = subprocess.run([*MAKE, str(folder)], cwd=ROOT, capture_output=True, text=True, env={**os.environ, "PATH": room})
            demand(told.returncode == 1 and not told.stdout, f"it ended by {told.returncode}: {told.stdout}")
            demand(told.stderr == "cmark-gfm is missing: it is in Debian's package cmark-gfm\n", f"it says {told.stderr}")
            demand(beside(folder) == ["site"] and beside(folder / STYLE) == [STYLE], "something was written, or taken away")


class Spoilt(SelfTest):
    """What judges pages."""

    def test_wrong_pages(self) -> None:
        """Of pages with nothing wrong nothing is told; each thing that is wrong is."""
        self.check_equal("nothing wrong", dict(self.told_of(WHOLE)), {"index.html": "", "two/2.html": ""})
        for what, name, old, new in SPOILT:
            wrong = {**WHOLE, name: WHOLE[name].replace(old, new)}
            self.check(what, wrong != WHOLE and dict(self.told_of(wrong))[name], "nothing is told")

    @staticmethod
    def told_of(files: dict[str, str]) -> list[tuple[str, str]]:
        """What is told of these files."""
        with tempfile.TemporaryDirectory(prefix="rv-site-") as room:
            folder = pathlib.Path(room) / "site"
            for name, text in files.items():
                (folder / name).parent.mkdir(parents=True, exist_ok=True)
                (folder / name).write_text(text)
            (folder.parent / "index.html").write_text("")
            return list(links.faults(folder))
