"""Writes the documents as pages for a browser: README.md as index.html, and in the same folders as here each document and file that
links lead to from there. Debian's cmark-gfm makes HTML of Markdown. The pages need no script and no network.

usage: python3 -m tools.website [FOLDER]   (FOLDER: out/site; the pages take the place of older ones)
"""
import html
import os
import pathlib
import re
import shutil
import subprocess
import sys
import tempfile
from typing import Dict, Iterator, List, Optional
from urllib.parse import unquote

from tools.headings import anchors_of

ROOT = pathlib.Path(__file__).resolve().parents[1]
FIRST = ROOT / "README.md"
STYLE = ROOT / "tools/website.css"
GENERATOR = "cmark-gfm"
# A link or a picture within the documents: what stands before its file, and the file without an anchor.
LINK = re.compile(r'(<a href="|<img src=")(?![a-z]+:)([^"#]+)')
HEADING = re.compile(r"<h([1-6])>(.*)</h\1>")
# A piece of code in a line of text that is better not broken, as an option.
SHORT = re.compile(r"<code>([^<\n]{1,24})</code>")
PAGE = """<!DOCTYPE html>
<html lang="en">
<head>
<meta charset="utf-8">
<meta name="viewport" content="width=device-width, initial-scale=1">
<title>{title}</title>
<link rel="stylesheet" href="{style}">
</head>
<body>
<nav>
{navigation}
</nav>
<main>
{body}
</main>
</body>
</html>
"""


def plain(marked: str) -> str:
    """The words of a piece of HTML."""
    return html.unescape(re.sub(r"<[^>]*>", "", marked))


def converted(document: pathlib.Path) -> str:
    """A document as HTML, each heading with its anchor."""
    ran = subprocess.run([GENERATOR, "--extension", "table", document], capture_output=True, text=True, check=True)
    anchors = anchors_of(plain(heading[2]) for heading in HEADING.finditer(ran.stdout))
    body = HEADING.sub(lambda heading: f'<h{heading[1]} id="{next(anchors)}">{heading[2]}</h{heading[1]}>', ran.stdout)
    return SHORT.sub(r'<code class="short">\1</code>', body)


def listed(folder: pathlib.Path) -> str:
    """A folder as HTML: its files, each with a link."""
    names = [html.escape(path.name) for path in sorted(folder.iterdir())]
    items = "\n".join(f'<li><a href="{name}">{name}</a></li>' for name in names)
    return f"<h1>{folder.relative_to(ROOT)}</h1>\n<ul>\n{items}\n</ul>"


def is_copied(path: pathlib.Path) -> bool:
    """Whether a file goes in as it is: a picture, or one that is no text."""
    return path.is_file() and (path.suffix == ".svg" or b"\0" in path.read_bytes())


def converted_or_quoted(path: pathlib.Path) -> Optional[str]:
    """What the page of a document, of a folder or of another text shows; None for what is copied."""
    if is_copied(path):
        return None
    if path.is_dir():
        return listed(path)
    if path.suffix == ".md":
        return converted(path)
    return f"<h1>{path.relative_to(ROOT)}</h1>\n<pre><code>{html.escape(path.read_text(encoding='utf-8'))}</code></pre>"


def place(path: pathlib.Path) -> pathlib.Path:
    """Where a file of the repository, or its page, is among the pages."""
    here = path.relative_to(ROOT)
    if path == FIRST:
        return pathlib.Path("index.html")
    if path.is_dir():
        return here / "index.html"
    if is_copied(path):
        return here
    return here.with_suffix(".html") if path.suffix == ".md" else here.with_name(f"{here.name}.html")


def address(path: pathlib.Path, source: pathlib.Path) -> str:
    """The address of a file of the repository, from the page of another."""
    return html.escape(os.path.relpath(place(path), place(source).parent))


def aim(target: str, source: pathlib.Path) -> pathlib.Path:
    """The file of the repository that a link of a document, or of a folder's page, leads to."""
    folder = source if source.is_dir() else source.parent
    found = (folder / unquote(html.unescape(target))).resolve()
    if not found.exists() or ROOT not in found.parents:
        sys.exit(f"{source.relative_to(ROOT)}: {target} leads to no file of the repository")
    return found


def aims(body: str, source: pathlib.Path) -> List[pathlib.Path]:
    """The files that a page's links lead to, each once."""
    return list(dict.fromkeys(aim(link[2], source) for link in LINK.finditer(body)))


def gathered() -> Dict[pathlib.Path, Optional[str]]:
    """Each file that links lead to from the first document, with what its page shows; its links are those of the repository."""
    found: Dict[pathlib.Path, Optional[str]] = {}
    waiting = [FIRST]
    while waiting:
        path = waiting.pop()
        found[path] = body = converted_or_quoted(path)
        waiting += [other for other in aims(body or "", path) if other not in found and other not in waiting]
    return found


def title(body: str) -> str:
    """The words of a page's first heading."""
    heading = re.search(r"<h1[^>]*>(.*)</h1>", body)
    return html.escape(plain(heading[1])) if heading else ""


def navigation(source: pathlib.Path, bodies: Dict[pathlib.Path, str]) -> Iterator[str]:
    """The links on top of a page: the first document, and those that it links to."""
    for path in [FIRST, *aims(bodies[FIRST], FIRST)]:
        current = ' aria-current="page"' if path == source else ""
        if path.suffix == ".md":
            yield f'<a href="{address(path, source)}"{current}>{title(bodies[path])}</a>'


def write(folder: pathlib.Path) -> None:
    """Writes all pages into a new folder, with the style sheet, the pictures, and what else is copied."""
    found = gathered()
    bodies = {path: body for path, body in found.items() if body is not None}
    for path in found:
        (folder / place(path)).parent.mkdir(parents=True, exist_ok=True)
        if path not in bodies:
            shutil.copyfile(path, folder / place(path))
            continue
        body = LINK.sub(lambda link: link[1] + address(aim(link[2], path), path), bodies[path])
        style = os.path.relpath(STYLE.name, place(path).parent)
        page = PAGE.format(title=title(body), style=style, navigation="\n".join(navigation(path, bodies)), body=body.strip())
        (folder / place(path)).write_text(page, encoding="utf-8")
    shutil.copyfile(STYLE, folder / STYLE.name)


def main() -> None:
    if len(sys.argv) > 2:
        sys.exit(__doc__.strip().split("\n")[-1])
    if not shutil.which(GENERATOR):
        sys.exit(f"{GENERATOR} is missing: it is in Debian's package {GENERATOR}")
    folder = pathlib.Path(sys.argv[1]).resolve() if len(sys.argv) == 2 else ROOT / "out/site"
    if folder.exists() and not (folder / STYLE.name).is_file():
        sys.exit(f"{folder} is there, and has no pages that could be replaced")
    folder.parent.mkdir(parents=True, exist_ok=True)
    with tempfile.TemporaryDirectory(prefix="site-", dir=folder.parent) as name:
        room = pathlib.Path(name)
        write(room / "new")
        if folder.exists():
            folder.rename(room / "old")
        (room / "new").rename(folder)
    print(folder / "index.html")


if __name__ == "__main__":
    main()
