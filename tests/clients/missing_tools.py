"""What tests leave out for want of a tool: it is told by name in the line before a gate's last one."""
import json
import os
import pathlib
import subprocess
import sys
import tempfile

from tests import ROOT
from tests.sockets.wire import demand

# A gate of the commands that it is told.
GATE = """
import json, sys
from tools.outside import count, finish
finish([count(words) for words in json.loads(sys.argv[1])])
"""
# The cases of the Java package, where there is Maven and no JUnit.
NO_JUNIT = """
import pathlib, unittest
from tests.clients import java_packages
java_packages.shutil.which, java_packages.SETTINGS = str, pathlib.Path("/")
java_packages.JARS = [pathlib.Path("/none/junit-jupiter-api.jar")]
try:
    java_packages.MAVEN.demand()
except unittest.SkipTest as skipped:
    print(f"left out: {skipped}")
print("1 passed, 0 failed")
"""
# What runs cases, one of each kind that needs a tool.
RUN = [sys.executable, "-B", "-m", "tests"]
NEED_TOOLS = ["status.run", "package.run", "website.run", "clients.java: the java process",
              "clients.browser: a browser shows each picture"]
ALL_IS_THERE = ["echo", "1 passed, 0 failed"]


def last_lines(*commands):
    """The last two lines of a gate of these commands, where no tool but what runs them is on the PATH."""
    with tempfile.TemporaryDirectory(prefix="rv-tools-") as name:
        for tool, path in [("python3", sys.executable), ("echo", "/bin/echo")]:
            (pathlib.Path(name) / tool).symlink_to(path)
        words = [sys.executable, "-B", "-c", GATE, json.dumps([list(map(str, words)) for words in commands])]
        ran = subprocess.run(words, cwd=ROOT, capture_output=True, text=True, timeout=600, env={**os.environ, "PATH": name})
    demand(ran.returncode == 0, f"{ran.stdout[-3000:]}{ran.stderr[-2000:]}")
    return ran.stdout.splitlines()[-2:]


def what_is_left_out_is_told(program: str) -> None:
    """Each thing that these tests leave out, once, with the tool; with all tools, that nothing was."""
    told, _ = last_lines([*RUN, "--program", program, *NEED_TOOLS], [*RUN, "--selftest", "clients.wrong_clients: in java"],
                         [sys.executable, "-B", "-c", NO_JUNIT])
    demand(told.startswith("left out for want of a tool: "), told)
    for what, tool in [
        ("the status page in a browser", "chromium"), ("the metrics and alerts", "promtool is missing"),
        ("the Debian package", "git is missing"), ("the documents as pages", "cmark-gfm is missing"),
        ("the pictures in a browser", "chromium"),
        ("the Java client", "javac is missing"), ("the Java package by Maven", "junit-jupiter-api.jar is missing"),
    ]:
        parts = [part for part in told.partition(": ")[2].split("; ") if part.startswith(f"{what} (")]
        demand(len(parts) == 1 and tool in parts[0], f"{what} is told {len(parts)} times: {told}")
    demand(last_lines(ALL_IS_THERE, ALL_IS_THERE) == ["nothing was left out for want of a tool", "2 passed, 0 failed"],
           "it does not tell that nothing was left out")


CASES = [what_is_left_out_is_told]
