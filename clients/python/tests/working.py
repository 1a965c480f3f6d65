"""A process of `python3 -m rendezvous work`."""
import os
import pathlib
import subprocess
import sys

from context import GENEROUS, numbers, rv

# What starts it with SIGINT as it is from a terminal, whatever these tests were started with, and with SIGINT ignored.
BY_DEFAULT, IGNORED = ([sys.executable, "-B", "-c", "import os, signal, sys; signal.signal(signal.SIGINT, signal.%s); "
                        "os.execv(sys.argv[1], sys.argv[1:])" % handler] for handler in ("SIG_DFL", "SIG_IGN"))
SOURCES = str(pathlib.Path(rv.__file__).resolve().parent.parent)


class Working:
    """A worker's process, from `with` on until the block's end, in a group of its own as from a terminal. `words` stand before the
    command's."""

    def __init__(self, server, command, *words, **environment):
        clients = numbers()
        kept = {name: value for name, value in os.environ.items() if not name.startswith("RV_")}
        self.environment = {**kept, "PYTHONPATH": SOURCES, "RV_CLIENTS": f"{clients[0]}-{clients[-1]}",
                            "RV_SERVER": server, **environment}
        self.starter = BY_DEFAULT
        self.words = [sys.executable, "-B", "-W", "error", "-m", "rendezvous", "work", *words, "--", *command]

    def __enter__(self):
        self.process = subprocess.Popen([*self.starter, *self.words], env=self.environment, stdin=subprocess.DEVNULL,
                                        stdout=subprocess.PIPE, stderr=subprocess.PIPE, start_new_session=True)
        return self

    def __exit__(self, *_):
        self.process.kill()
        self.process.communicate()

    def gets(self, number):
        """It gets a signal, as from a terminal: each process of its group does."""
        os.killpg(self.process.pid, number)

    def ends(self):
        """What it printed and said, and its status."""
        printed, said = self.process.communicate(timeout=GENEROUS)
        return printed.decode(), said.decode(), self.process.returncode
