"""The page of the Python client: its programs run as they stand, beside each other."""
import os
import re
import signal
import subprocess
import sys

from context import numbers
from tests import ROOT
from tests.sockets.hosts import serving
from tests.sockets.wire import PATIENCE, demand

PAGE = ROOT / "clients/python/README.md"
ADDRESS = "127.0.0.1:7411"


def programs():
    """The page's programs: one that hands over, a worker on a thread, and one in asyncio."""
    return re.findall(r"^```python\n(.*?)^```$", PAGE.read_text(), re.M | re.S)


class Program:
    """A program of the page, which is ended at the end of its block."""

    def __init__(self, text, server, clients):
        address = f"127.0.0.1:{server.port}"
        demand(ADDRESS in text, f"it names another server: {text}")
        environment = {**os.environ, "PYTHONPATH": str(ROOT / "clients/python/src"), "PYTHONDONTWRITEBYTECODE": "1",
                       "RV_CLIENTS": f"{clients[0]}-{clients[-1]}"}
        words = [sys.executable, "-u", "-c", text.replace(ADDRESS, address)]
        self.process = subprocess.Popen(words, env=environment, text=True, stdout=subprocess.PIPE, stderr=subprocess.PIPE)

    def __enter__(self):
        return self

    def __exit__(self, *_):
        self.process.kill()
        self.process.communicate()

    def ends(self):
        """What it printed and said, and its status."""
        printed, said = self.process.communicate(timeout=PATIENCE)
        return printed, said, self.process.returncode


def the_page_of_python(program: str) -> None:
    """What one program hands over the other one does, whichever of the two workers it is; SIGTERM ends the one on a thread
    well."""
    gives, *workers = programs()
    demand(len(workers) == 2, f"the page has {len(workers)} workers")
    for worker in workers:
        clients = numbers()
        with serving(program, 8, 1_000) as server, Program(worker, server, clients) as works:
            with Program(gives, server, clients) as giver:
                printed, said, status = giver.ends()
                demand((said, status) == ("", 0), f"{status}: {said}")
                either = "|".join(map(str, clients[:2]))
                wanted = rf"received by Key\(epoch=1, client=({either}), incarnation=\d{{16,}}, number=1\)\n"
                demand(re.fullmatch(wanted, printed), printed)
            demand(works.process.stdout.readline() == "doing a\n", "the worker does something else")
            works.process.send_signal(signal.SIGTERM)
            printed, said, status = works.ends()
            ended = (0,) if "SIGTERM" in worker else (-signal.SIGTERM,)
            demand((printed, said) == ("", "") and status in ended, f"{status}: {printed} {said}")


CASES = [the_page_of_python]
