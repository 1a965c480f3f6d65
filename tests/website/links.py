"""What is wrong with pages for a browser: links that lead nowhere, headings and titles that are missing, markup that was dropped."""
from __future__ import annotations

import collections
import pathlib
import re
from collections.abc import Iterator
from html.parser import HTMLParser
from urllib.parse import unquote

# What a converter writes in place of markup that it doesn't take over.
DROPPED = "raw HTML omitted"


class Page(HTMLParser):
    """What a page has: how many of each element, its links, ids and pictures, the words of its title, and its comments."""

    def __init__(self, path: pathlib.Path) -> None:
        super().__init__()
        self.elements: collections.Counter[str] = collections.Counter()
        self.ids: collections.Counter[str] = collections.Counter()
        self.links: list[str] = []
        self.pictures: list[str] = []
        self.language, self.title, self.comments = "", "", ""
        self.is_in_title = False
        self.feed(path.read_text(encoding="utf-8"))
        self.close()

    def handle_starttag(self, tag: str, attrs: list[tuple[str, str | None]]) -> None:
        given = {name: value or "" for name, value in attrs}
        self.elements[tag] += 1
        self.is_in_title = tag == "title"
        self.ids.update([given["id"]] if "id" in given else [])
        self.links += [given[name] for name in ("href", "src") if name in given]
        self.pictures += [given["src"]] if tag == "img" else []
        if tag == "html":
            self.language = given.get("lang", "")

    def handle_endtag(self, tag: str) -> None:
        self.is_in_title = False

    def handle_data(self, data: str) -> None:
        self.title += data.strip() if self.is_in_title else ""

    def handle_comment(self, data: str) -> None:
        self.comments += data


def read(folder: pathlib.Path) -> dict[pathlib.Path, Page]:
    """The pages of a folder, and of those within it."""
    return {path: Page(path) for path in sorted(folder.rglob("*.html"))}


def fault_of_link(folder: pathlib.Path, path: pathlib.Path, target: str, pages: dict[pathlib.Path, Page]) -> str | None:
    """What is wrong with a link of a page, if something is."""
    if re.match(r"https?://", target):
        return None
    name, _, anchor = target.partition("#")
    aim = (path.parent / unquote(name)).resolve() if name else path
    if re.match(r"[a-z]+:", target) or folder not in aim.parents:
        return f"{target} leads out of the folder"
    if not aim.is_file():
        return f"{target} leads to no file"
    if anchor and (aim not in pages or unquote(anchor) not in pages[aim].ids):
        return f"{target} leads to no heading"
    return None


def faults_of_page(page: Page) -> Iterator[str]:
    """What is wrong with a page by itself."""
    if page.elements["h1"] != 1:
        yield f"it has {page.elements['h1']} headings of the first level"
    if not page.title or page.elements["title"] != 1:
        yield "it has no title, or more than one"
    if page.language != "en":
        yield f"its language is {page.language!r}"
    if DROPPED in page.comments:
        yield "a piece of its document was dropped"
    yield from (f"the id {name} stands {count} times" for name, count in page.ids.items() if count > 1)


def faults(folder: pathlib.Path) -> Iterator[tuple[str, str]]:
    """What is wrong with each page of a folder, by its place there: nothing is an empty text."""
    folder = folder.resolve()
    pages = read(folder)
    for path, page in pages.items():
        of_links = filter(None, (fault_of_link(folder, path, target, pages) for target in page.links))
        yield str(path.relative_to(folder)), "; ".join([*faults_of_page(page), *of_links])
