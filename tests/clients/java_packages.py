"""The Java client as Maven makes it, its tests of JUnit, and what only a later JDK has."""
import contextlib
import functools
import os
import pathlib
import re
import shutil
import subprocess
import tempfile
import xml.etree.ElementTree
import zipfile

from context import numbers
from tests import ROOT
from tests.cases import Tool
from tests.clients import java
from tests.sockets.programs import Server
from tests.sockets.wire import demand

SETTINGS = pathlib.Path("/etc/maven/settings-debian.xml")
# What the JUnit tests of a client need of Debian's packages, and what starts them.
JARS = [pathlib.Path("/usr/share/java") / f"{name}.jar" for name in (
    "junit-jupiter-api", "junit-jupiter-params", "junit-platform-commons", "opentest4j", "apiguardian-api")]
STARTS = [pathlib.Path("/usr/share/java") / f"{name}.jar" for name in (
    "junit-jupiter-engine", "junit-platform-console", "junit-platform-engine", "junit-platform-launcher",
    "junit-platform-reporting", "picocli", "univocity-parsers", "opentest4j-reporting-events", "opentest4j-reporting-schema")]
LIMIT = 1_800
# What a terminal takes for colours, which Maven writes at its end wherever it writes to.
COLOURS = re.compile(r"\x1b\[[\d;]*m")
# A program of a new user's, with nothing but the jars.
USER = """
import rendezvous.*;
public class User {
    public static void main(String[] words) throws Exception {
        try (RvClients clients = RvClients.builder("127.0.0.1", Integer.parseInt(words[0])).build()) {
            RvTransferQueue queue = new RvTransferQueue(clients, 3);
            var taken = queue.takeAsync();
            System.out.println(queue.transferReceipt("a").by().isPresent() + " " + taken.join());
        }
    }
}
"""


def maven_missing():
    """What Maven's build lacks on this machine, if something."""
    if not shutil.which("mvn"):
        return "mvn is missing, of Debian's maven-debian-helper"
    if not SETTINGS.exists():
        return f"{SETTINGS} is missing, of Debian's maven-debian-helper"
    return junit_missing(JARS)


def junit_missing(jars):
    """Which of these jars is missing, if one is."""
    lacking = [path.name for path in jars if not path.exists()]
    return f"{lacking[0]} is missing, of Debian's junit5" if lacking else None


def console_missing():
    """What is missing to start JUnit's tests without Maven."""
    return junit_missing(JARS + STARTS)


@functools.lru_cache(maxsize=None)
def later_jdk():
    """The `java` of a JDK of 21 or later; None where there is none."""
    for release in sorted(java.JDKS.glob("*/release")):
        version = re.search(r'JAVA_VERSION="(\d+)', release.read_text())
        program = release.parent / "bin/java"
        if version and int(version[1]) >= 21 and program.exists():
            return str(program)
    return None


@contextlib.contextmanager
def runtime(program):
    """The environment of tests: client numbers are leased from a range of their own, and the program is this one."""
    clients = numbers()
    yield {**os.environ, "RV_CLIENTS": f"{clients[0]}-{clients[-1]}", "RV_PROGRAM": program, "MAVEN_OPTS": " ".join(java.QUICK)}


def maven_builds_it(program: str) -> str:
    """Maven builds the client with no network and without a word, runs its tests, and makes the jars of its classes, its
    sources and its Javadoc, with which a program runs."""
    with tempfile.TemporaryDirectory(prefix="rv-maven-") as name, runtime(program) as environment:
        folder = pathlib.Path(name) / "java"
        shutil.copytree(ROOT / "clients/java", folder, ignore=shutil.ignore_patterns("target"))
        ran = subprocess.run(["mvn", "-o", "-q", "-B", "package"], cwd=folder, capture_output=True, text=True, timeout=LIMIT,
                             env=environment)
        said = COLOURS.sub("", ran.stdout + ran.stderr).strip()
        demand(ran.returncode == 0 and not said, f"Maven says {said[-3000:]}")
        count = tests_of(folder)
        for kind, wanted in [("", ".class"), ("-sources", ".java"), ("-javadoc", ".html")]:
            [jar] = (path for path in folder.glob("target/*.jar") if re.fullmatch(rf"rendezvous-[\d.]+{kind}\.jar", path.name))
            files = zipfile.ZipFile(jar).namelist()
            demand(f"rendezvous/RvTransferQueue{wanted}" in files, f"{jar.name} has {files}")
            demand(not any("Test" in file for file in files), f"{jar.name} has tests")
        used(folder, program, environment)
    return f"{count} tests"


def it_is_built_without_maven(_program: str) -> None:
    """`build` compiles the client and a program that uses it, of a user who has nothing of Maven's."""
    with tempfile.TemporaryDirectory(prefix="rv-build-") as name:
        user = pathlib.Path(name, "User.java")
        user.write_text(USER)
        ran = built(name, user, HOME=name, PATH=os.environ["PATH"])
        demand((ran.returncode, ran.stdout, ran.stderr) == (0, "", ""), f"{ran.stdout} {ran.stderr}")
        lacking = [each for each in ("User.class", "rendezvous/RvTransferQueue.class") if not pathlib.Path(name, each).exists()]
        demand(not lacking, f"it did not make {lacking}")


def what_a_build_lacks_is_told(_program: str) -> None:
    """In one line: Gson, for both ways to build, and Maven for that by Maven."""
    with tempfile.TemporaryDirectory(prefix="rv-build-") as name:
        for tool in ("dirname", "javac", "sh"):
            pathlib.Path(name, tool).symlink_to(str(shutil.which(tool)))
        ways: list[tuple[list[str], dict[str, str], str]] = [
            ([name], {"GSON": "/none/gson.jar"}, "/none/gson.jar is missing: Debian's package libgoogle-gson-java has it"),
            ([], {"GSON": "/none/gson.jar"}, "/none/gson.jar is missing: Debian's package libgoogle-gson-java has it"),
            ([], {}, "mvn is missing: Debian's package maven-debian-helper has it"),
        ]
        for words, variables, told in ways:
            ran = built(*words, PATH=name, **variables)
            demand((ran.returncode, ran.stdout, ran.stderr) == (1, "", f"{told}\n"), f"{words}: {ran.stdout} {ran.stderr}")


def built(*words, **environment):
    """What comes of the client's own `build`."""
    return subprocess.run([ROOT / "clients/java/build", *words], capture_output=True, text=True, timeout=LIMIT, env=environment)


def tests_of(folder):
    """How many tests Maven ran: those of each file that has some."""
    ran = 0
    for report in folder.glob("target/surefire-reports/*.xml"):
        suite = xml.etree.ElementTree.parse(report).getroot()
        demand(not int(suite.get("skipped")), f"{report.name} has tests that were skipped")
        ran += int(suite.get("tests"))
    named = {path.stem for path in folder.glob("src/test/java/rendezvous/*Test.java")}
    reports = {path.stem.rpartition(".")[2] for path in folder.glob("target/surefire-reports/*.xml")}
    demand(named == reports, f"Maven ran {sorted(reports)}, and not {sorted(named)}")
    return ran


def used(folder, program, environment):
    """A program that has nothing but the jars runs at a server."""
    (folder / "User.java").write_text(USER)
    [jar] = (path for path in folder.glob("target/*.jar") if re.fullmatch(r"rendezvous-[\d.]+\.jar", path.name))
    with Server(program, 8, 4) as server:
        words = ["java", *java.QUICK, "-cp", f"{jar}:{java.GSON}", str(folder / "User.java"), str(server.port)]
        ran = subprocess.run(words, capture_output=True, text=True, timeout=LIMIT, env=environment)
        demand((ran.stdout, ran.stderr) == ("true a\n", ""), f"{ran.stdout} {ran.stderr}")


def tests_of_junit(program: str) -> str:
    """The tests of JUnit, where there is no Maven."""
    with tempfile.TemporaryDirectory(prefix="rv-junit-") as name, runtime(program) as environment:
        path = ":".join(map(str, [java.GSON, *JARS]))
        sources = [str(path) for path in sorted(java.FOLDER.rglob("*.java"))]
        words = ["javac", *java.QUICK_COMPILER, "-Xlint:all,-path", "-Werror", "--release", "17", "-cp", path]
        built = subprocess.run([*words, "-d", name, *sources], capture_output=True, text=True, timeout=LIMIT)
        demand(built.returncode == 0, f"javac says {built.stdout} {built.stderr}")
        words = ["java", *java.QUICK, "-cp", f"{name}:{path}:{':'.join(map(str, STARTS))}",
                 "org.junit.platform.console.ConsoleLauncher", "--disable-banner", "--details", "tree",
                 "--scan-classpath", name]
        ran = subprocess.run(words, cwd=ROOT / "clients/java", capture_output=True, text=True, timeout=LIMIT, env=environment)
        found = re.search(r"\[ +(\d+) tests successful", ran.stdout)
        demand(ran.returncode == 0 and found and int(found[1]) > 0, f"{ran.stdout[-5000:]} {ran.stderr[-2000:]}")
        demand("[         0 tests skipped" in ran.stdout, "tests were skipped")
        assert found
    return f"{found[1]} tests"


def virtual_threads(_program: str) -> None:
    """Ten thousand virtual threads share sixteen sessions and connections, and futures run on virtual threads; a close waits for
    those that are cancelled; and ten thousand have a session each, all of them at a time."""
    words = java.command("rendezvous.VirtualThreads", jdk=later_jdk())
    ran = subprocess.run(words, capture_output=True, text=True, timeout=LIMIT)
    wanted = ["11000 requests, 1000 items, no more sessions than 16", "16 cancelled, 16 unclaimed, 0 unsettled",
              "10000 sessions, 10000 items"]
    demand((ran.stdout.splitlines(), ran.stderr) == (wanted, ""), f"{ran.stdout} {ran.stderr}")


def jdk_missing():
    """What this machine lacks for virtual threads, if something."""
    return None if later_jdk() else f"no JDK of 21 or later is in {java.JDKS}"


MAVEN = Tool("the Java package by Maven", maven_missing)
JUNIT = Tool("the Java client's own tests", console_missing)
LATER_JDK = Tool("Java's virtual threads", jdk_missing)


def cases():
    """The cases, each with the tool that it needs beside Java's: Maven runs the tests of JUnit too, where it is there."""
    without_maven = [(tests_of_junit, JUNIT)] if maven_missing() else []
    return [(it_is_built_without_maven, None), (what_a_build_lacks_is_told, None), (maven_builds_it, MAVEN), *without_maven,
            (virtual_threads, LATER_JDK)]
