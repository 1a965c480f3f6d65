"""The guide: its blocks run one after another, as a script, and print what it shows; its pictures are
fresh."""
import os
import pathlib
import re
import shutil
import subprocess
import tempfile
import xml.dom.minidom

from context import numbers
from tests import ROOT, left_out
from tests.clients import java
from tests.clients.table_cases import cases
from tests.sockets.programs import free_port
from tests.sockets.wire import demand

GUIDE = ROOT / "docs/GUIDE.md"
# The port of the guide, in whose place a free one is taken.
PORT = "7411"
# What is printed behind each block.
END = "---- end of a block"
# The block of the pool, its jobs, and those that kill a worker; what its lines may say in between, and of a lost job.
POOL, JOBS, DEADLY = "pool.py", [f"job {number}" for number in range(1, 6)], ("job 2", "job 3")
OFFERED = re.compile("job [1-5] was received by nobody, and is offered again|worker [12] died, and is started anew")
LOST = re.compile("was lost with its worker, which ended by 1")
# What a client logs that comes before its server listens: in Python, and in Java.
EARLY = re.compile(r"^(?:.* rendezvous\.RvSession \w+\nWARNING: )?127\.0\.0\.1:\d+: connection refused\n", re.M)
PICTURES = {
    "link": [["play", "examples/demo.play", "examples/demo.out"], None],
    "account": [["account"], "examples/day.account"],
}


def blocks():
    """The blocks of the guide that are typed, each with its words of the first line and what is shown behind
    it."""
    found = re.findall(r"^```(.*)\n((?:.*\n)*?)```$", GUIDE.read_text(), re.M)
    return [(info.split(), text,
             found[number + 1][1] if number + 1 < len(found) and not found[number + 1][0] else "")
            for number, (info, text) in enumerate(found) if info.split()[:1] == ["sh"]]


def begin_soon(folder):
    """Puts Java's compiler and its runtime into a folder, which do there what they do elsewhere, but begin sooner."""
    for name, words in [("javac", java.QUICK_COMPILER), ("java", java.QUICK)]:
        tool = folder / name
        tool.write_text(f'#!/bin/sh\nexec {shutil.which(name)} {" ".join(words)} "$@"\n')
        tool.chmod(0o700)


def the_guide(program: str) -> None:
    """Each block that is not marked as typed by hand prints what is shown behind it."""
    lacking, port = java.missing(), str(free_port())
    if lacking:
        left_out.tell("the guide's blocks in Java", lacking)
    with tempfile.TemporaryDirectory(prefix="rv-guide-") as name:
        folder = pathlib.Path(name)
        for part in ("clients", "examples", "tools"):
            (folder / part).symlink_to(ROOT / part)
        (folder / "bin").mkdir()
        (folder / "bin/rv").symlink_to(program)
        if not lacking:
            begin_soon(folder / "bin")
        path = f"{folder / 'bin'}:{os.environ['PATH']}"
        environment = {**os.environ, "PATH": path, "PYTHONPATH": f"{folder}/clients/python/src"}
        environment["PYTHONDONTWRITEBYTECODE"], environment["RV_SERVER"] = "1", f"127.0.0.1:{port}"
        environment["TMPDIR"], clients = str(folder / "bin"), numbers()
        environment["RV_CLIENTS"] = f"{clients[0]}-{clients[-1]}"
        there = {path.name for path in folder.iterdir()}
        typed = [(text.replace(PORT, port), shown) for info, text, shown in blocks()
                 if "hand" not in info and not ("java" in info and lacking)]
        run_script(typed, folder, environment)
        demand({path.name for path in folder.iterdir()} == there, f"the guide leaves {sorted(folder.iterdir())}")


def is_of_pool(text):
    """Whether the pool may print this. It tells each job as received, in order, and then once as done or lost. Which worker
    comes back first is the system's: so a job may be offered more often, and one of those that kill may go to a worker that was
    started anew."""
    lines = [line for line in text.splitlines() if not OFFERED.fullmatch(line)]
    received, ends, verdict = lines[:5], lines[5:-1], lines[-1:]
    ended = {line[:5]: LOST.sub("lost", line[6:]) for line in ends}
    kinds = [{"is done"} | ({"lost"} if job in DEADLY else set()) for job in JOBS]
    return received == [f"{job} was received" for job in JOBS] and verdict == ["legal"] and len(ends) == len(JOBS) and all(
        ended.get(job) in kind for job, kind in zip(JOBS, kinds))


def run_script(typed, folder, environment):
    """The blocks, in one shell, must print what is shown behind each, and say nothing on standard error but that a server doesn't
    listen yet."""
    script = "".join(f"{text}echo '{END}'\n" for text, _ in typed)
    ran = subprocess.run(["bash", "-c", script], cwd=folder, env=environment, capture_output=True, text=True,
                         timeout=1_200)
    for (text, shown), printed in zip(typed, ran.stdout.split(f"{END}\n")):
        alike = is_of_pool(printed) and is_of_pool(shown) if POOL in text else printed == shown
        demand(alike, f"{text}\nprinted\n{printed}\nand not\n{shown}\n{ran.stderr}")
    demand(ran.stdout.count(END) == len(typed) and not EARLY.sub("", ran.stderr), f"the script said {ran.stderr}")


def the_pictures(_):
    """Each picture is what tools/draw.py makes today, and is well formed."""
    for name, (words, given) in PICTURES.items():
        source = (ROOT / given).read_bytes() if given else b""
        ran = subprocess.run([ROOT / "tools/draw.py", *words], cwd=ROOT, input=source, capture_output=True,
                             timeout=300)
        kept = (ROOT / f"docs/pictures/{name}.svg").read_bytes()
        demand((ran.stdout, ran.stderr) == (kept, b""),
               f"{name}.svg is not what tools/draw.py makes: {ran.stderr!r}")
        xml.dom.minidom.parseString(kept)


def a_marked_fault(_):
    """The place of a fault is marked, also in an account that is not legal."""
    lines = (ROOT / "examples/items.account").read_text()
    wrong = lines[:lines.rindex("1 2 ")] + "1 3 " + lines[lines.rindex("1 2 ") + 4:]
    for partner in (wrong, wrong.replace("1 3 ", "1 0 "), wrong.replace("1 3 ", "1 99 ")):
        ran = subprocess.run([ROOT / "tools/draw.py", "account", "--mark", "4"], input=partner.encode(),
                             capture_output=True, timeout=300)
        demand(ran.returncode == 0 and b"#c0392b" in ran.stdout, f"{ran.stderr!r}")
        xml.dom.minidom.parseString(ran.stdout)


def a_receipt_in_pictures(_):
    """The picture of a play tells whose request a receipt names, and that of an account which hellos are of
    version 2."""
    story = [case for case in cases() if case["story"] == "a receipt names the consumer"]
    with tempfile.TemporaryDirectory(prefix="rv-draw-") as name:
        files = [pathlib.Path(name) / part for part in ("play", "seen")]
        for file in files:
            file.write_text("".join(case[file.name] + "\n" for case in story))
        shown = subprocess.run([ROOT / "tools/draw.py", "play", *files], capture_output=True, text=True,
                               timeout=300)
    account = (ROOT / "examples/received.account").read_text()
    drawn = subprocess.run([ROOT / "tools/draw.py", "account"], input=account, capture_output=True, text=True,
                           timeout=300)
    for ran, words in [(shown, ["hello 1/1 v2", "received by 2/1/1"]), (drawn, ["hello 1 v2", "hello 2"])]:
        demand(not ran.stderr and all(f">{each}<" in ran.stdout for each in words), f"{words}: {ran.stderr}")
        xml.dom.minidom.parseString(ran.stdout)


def drawn(*words, account):
    """The picture of an account, which is well formed; nothing is said on standard error."""
    ran = subprocess.run([ROOT / "tools/draw.py", "account", *words], input=account, capture_output=True, text=True, timeout=300)
    demand(ran.returncode == 0 and not ran.stderr, f"{words}: {ran.stderr}")
    xml.dom.minidom.parseString(ran.stdout)
    return ran.stdout


def parts_of_accounts(_):
    """Of an account a window is drawn, or what one queue has to do with, and how many entries are left out between."""
    day = (ROOT / "examples/day.account").read_text()
    for words, there, left_out in [
        ([], ["hello 1", "swap &quot;x&quot;", "put &quot;c&quot;", "tick", "cancel"], []),
        (["--queue", "3"], ["take", "transfer &quot;b&quot;", "tick", "queue 3", "… 3 …", "… 4 …"], ["hello 1", "cancel", "queue 4"]),
        (["--from", "7", "--to", "8"], ["swap &quot;x&quot;", "exchanger 5"], ["take", "tick", "queue 3"]),
        (["--from", "99"], ["epoch 1 opened 0"], ["hello 1"]),
    ]:
        shown = re.findall(r"<text[^>]*>([^<]*)<", drawn(*words, account=day))
        demand(set(there) <= set(shown) and not set(left_out) & set(shown), f"{words}: {shown}")


def many_entries(_):
    """Of an epoch's 99,999 puts, each of which is looked for to the end, a picture is there long before the time is over."""
    call = '"call":"put","client":1,"epoch":1,"incarnation":1,"item":"a","kind":"request"'
    lines = ['epoch 1 opened 0', '0 - {"client":1,"incarnation":1,"kind":"hello"}',
             *(f'0 - {{{call},"number":{number},"queue":3}}' for number in range(1, 100_000))]
    picture = drawn("--to", "1000", account="".join(f"{line}\n" for line in lines))
    width = int(re.search(r'width="(\d+)"', picture)[1])
    demand(width < 20_000, f"it is {width} pixels wide")


def wrong_words_of_draw(_):
    """Words that mean nothing are answered by the usage, and no account by a line that says so."""
    for words in [[], ["play"], ["play", "one"], ["account", "--queue"], ["account", "--queue", "x"], ["account", "--to", "-1"],
                  ["account", "3"], ["accounts"]]:
        ran = subprocess.run([ROOT / "tools/draw.py", *words], input="", capture_output=True, text=True, timeout=300)
        demand(ran.returncode == 1 and not ran.stdout and ran.stderr.startswith("usage: tools/draw.py"), f"{words}: {ran.stderr}")
    ran = subprocess.run([ROOT / "tools/draw.py", "account"], input="", capture_output=True, text=True, timeout=300)
    demand(ran.returncode == 1 and ran.stderr == "there is no account on standard input\n", ran.stderr)


def the_demo(program: str) -> None:
    """What `make demo` tells of the play, and that its account is the audited one."""
    ran = subprocess.run([ROOT / "tools/demo.py", program], capture_output=True, text=True, timeout=300)
    demand(ran.returncode == 0 and not ran.stderr, f"{ran.returncode}: {ran.stdout}{ran.stderr}")
    for line in ['client 1 asks: transfer "a" into queue 3, and waits ... which comes late',
                 '    the server gets client 2\'s take, and answers: item "a" ... which is lost',
                 '    client 1 gets: received, by client 2\'s request 1',
                 '    client 1: transfer "b" into queue 3, if somebody is there now: nobody',
                 '    3     9 ms  client 2: take from queue 3, and waits; it meets place 2',
                 "The auditor's word on it: legal"]:
        demand(line in ran.stdout.splitlines(), f"{line!r} is not in\n{ran.stdout}")
    picture = pathlib.Path(ran.stdout.strip().splitlines()[-1].removeprefix("A picture of it: "))
    demand(picture.read_bytes() == (ROOT / "docs/pictures/link.svg").read_bytes(), "the demo draws another picture")
    shutil.rmtree(picture.parent)


def a_demo_of_a_wrong_program(_):
    """A program that plays otherwise is told as it plays, and its account is found to be another than was audited."""
    with tempfile.TemporaryDirectory(prefix="rv-demo-") as name:
        wrong = pathlib.Path(name) / "rv"
        results = (ROOT / "examples/demo.out").read_text().replace('"item":"a","kind":"reply"', '"item":"z","kind":"reply"')
        wrong.write_text(f"#!/bin/sh\n[ $1 = audit ] && echo legal && exit\ncat <<'END'\n{results}END\n")
        wrong.chmod(0o700)
        ran = subprocess.run([ROOT / "tools/demo.py", wrong], capture_output=True, text=True, timeout=300)
    demand(ran.returncode == 1 and 'item "z"' in ran.stdout and "That is not the account" in ran.stderr, ran.stdout + ran.stderr)


def stand_in(folder, said):
    """The environment in which `rt` is a script of this text."""
    rt = pathlib.Path(folder) / "rt"
    rt.write_text(f"#!/bin/sh\n{said}")
    rt.chmod(0o700)
    return {**os.environ, "PATH": f"{folder}:{os.environ['PATH']}"}


def a_demo_with_no_proof(_):
    """Where no proved program fits, the code is compiled as it is; of what `rt` says nothing is shown, unless it fails."""
    played = f"{ROOT}/examples/demo.out"
    for said, status, there in [
        (f"echo noise >&2\ncase $3$4 in *play) cat {played};; *audit) echo legal;; *) echo stand-in;; esac\n", 0, "make install"),
        ("[ $1 = version ] && echo stand-in && exit\necho it broke >&2\nexit 1\n", 1, ""),
    ]:
        with tempfile.TemporaryDirectory(prefix="rv-demo-") as name:
            ran = subprocess.run([ROOT / "tools/demo.py"], env={**stand_in(name, said), "TMPDIR": name}, capture_output=True,
                                 text=True, timeout=300)
        demand((ran.returncode, ran.stderr) == (status, "it broke\n" if status else ""), ran.stdout + ran.stderr)
        demand("compiled as it is written" in ran.stdout and there in ran.stdout, ran.stdout)


def crates_of(program):
    """The crates of the repository that a program is made of, itself one of them, by crates.txt."""
    lines = [line.partition(":") for line in (ROOT / "crates.txt").read_text(encoding="utf-8").splitlines() if ":" in line and line[0] != "#"]
    stands_on = {name.split()[0]: below.split() for name, _, below in lines}
    found, to_see = set(), [program]
    while to_see:
        crate = to_see.pop()
        if crate in stands_on and crate not in found:
            found.add(crate)
            to_see += stands_on[crate]
    return found


def the_progress_of_an_installation(_):
    """While crates are proved, each that ends is told, with how many there are; what went wrong is told behind them."""
    count, names = len(crates_of("rv_app")), ["rv_json", "rv_text", "rv_machine", "rv_hub", "rv_world"]
    said = ("case $1 in version) echo stand-in;; run) echo it broke; exit 1;;\n"
            f"all) for crate in {' '.join(names)} rv_tests; do echo == $crate; done;; esac\n")
    with tempfile.TemporaryDirectory(prefix="rv-build-") as name:
        ran = subprocess.run([ROOT / "tools/build.py", "rv_app"], env=stand_in(name, said), capture_output=True, text=True, timeout=300)
    first, *ended, last = ran.stderr.splitlines()
    demand(first.startswith(f"proving {count} crates, ") and last == "it broke" and ran.returncode == 1, ran.stderr)
    for number, crate in enumerate(names, 1):
        demand(any(line.startswith(f"{crate} ended; {number} of {count} crates proved in ") for line in ended), ran.stderr)
    demand("min still" in ended[len(names) - 1] and "rv_tests ended" not in ran.stderr and "building rv_app" in ended, ran.stderr)


def the_hand_over(program: str) -> None:
    """What `make run` shows of a hand-over between two programs."""
    ran = subprocess.run([ROOT / "tools/handover.py", program], capture_output=True, text=True, timeout=300)
    demand(ran.returncode == 0 and not ran.stderr, f"{ran.returncode}: {ran.stdout}{ran.stderr}")
    for line in ["    second was received, as request 2 of its consumer", "    took third", "The auditor's word on it: legal"]:
        demand(line in ran.stdout.splitlines(), f"{line!r} is not in\n{ran.stdout}")


CASES = [the_pictures, a_marked_fault, a_receipt_in_pictures, parts_of_accounts, many_entries, wrong_words_of_draw, the_demo,
         a_demo_of_a_wrong_program, a_demo_with_no_proof, the_progress_of_an_installation, the_hand_over, the_guide]
