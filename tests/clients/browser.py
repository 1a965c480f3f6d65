"""The pictures as a browser shows them, with no window."""
import html
import pathlib
import re
import shutil
import subprocess
import tempfile

from tests import ROOT
from tests.sockets.wire import demand

PICTURES = ROOT / "docs/pictures"
NAMES = ("chromium", "chromium-browser", "google-chrome")
TEXT = re.compile(r"<text[^>]*>([^<]*)<")


def found():
    """The browser of this machine, if there is one."""
    return next(filter(None, map(shutil.which, NAMES)), None)


def missing():
    """What this machine lacks to show a picture, if something."""
    return None if found() else f"none of {', '.join(NAMES)} is there, as Debian's chromium is"


def words_of(text):
    """The words of a picture, in their order."""
    return [html.unescape(each) for each in TEXT.findall(text)]


def headless():
    """The words that start it with no window, also where shared memory is small."""
    return [found(), "--headless", "--no-sandbox", "--disable-gpu", "--disable-dev-shm-usage"]


def shown(page):
    """The page as the browser holds it, and what it said of it on its console."""
    with tempfile.TemporaryDirectory(prefix="rv-browser-", ignore_cleanup_errors=True) as profile:
        words = [*headless(), "--enable-logging=stderr",
                 f"--user-data-dir={profile}", "--dump-dom", page.as_uri()]
        ran = subprocess.run(words, capture_output=True, text=True, timeout=600)
    demand(ran.returncode == 0, f"{page.name}: the browser ended by {ran.returncode}: {ran.stderr}")
    return ran.stdout, [line for line in ran.stderr.splitlines() if ":CONSOLE" in line]


def opened(url, *more):
    """The page at an address as the browser holds it some seconds later; further words of the browser's may keep a picture."""
    with tempfile.TemporaryDirectory(prefix="rv-browser-", ignore_cleanup_errors=True) as profile:
        words = [*headless(), "--hide-scrollbars", f"--user-data-dir={profile}",
                 "--window-size=1200,1500", "--virtual-time-budget=5000", *more, url]
        return subprocess.run(words, capture_output=True, text=True, timeout=120, check=True).stdout


def a_browser_shows_each_picture(_):
    """Each picture is shown whole, with all its words, and no error; one that is cut off is told as wrong."""
    for page in sorted(PICTURES.glob("*.svg")):
        held, said = shown(page)
        demand("<parsererror" not in held and not said, f"{page.name}: {said or held[:600]}")
        words = words_of(page.read_text())
        demand(words and words_of(held) == words, f"{page.name}: the browser shows {words_of(held)}")
    with tempfile.TemporaryDirectory(prefix="rv-browser-") as folder:
        cut = pathlib.Path(folder) / "cut.svg"
        cut.write_text(page.read_text()[:-20])
        demand("<parsererror" in shown(cut)[0], "a picture that is cut off is shown as whole")


CASES = [a_browser_shows_each_picture]
