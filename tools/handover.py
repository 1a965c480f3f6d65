#!/usr/bin/env python3
"""Runs a hand-over between two programs: a server, a producer and a consumer in Python, what each was told, the server's
account, and the auditor's word on it. The server goes on until it is killed.

usage: tools/handover.py PROGRAM
"""
import os
import pathlib
import socket
import subprocess
import sys
import tempfile

ROOT = pathlib.Path(__file__).resolve().parents[1]
sys.dont_write_bytecode, sys.path[0] = True, str(ROOT)
from tools.story import entry_words  # noqa: E402

# The programs of the two clients, in the order in which they start.
CLIENTS = ("consumer", "producer")

# How many seconds any of the programs may take, before it counts as hung.
PATIENCE = 120


def free_address():
    """An address of this machine that nobody listens at."""
    with socket.socket() as found:
        found.bind(("127.0.0.1", 0))
        return f"127.0.0.1:{found.getsockname()[1]}"


def begin(words):
    """Starts a program, of which what it prints is kept."""
    environment = {**os.environ, "PYTHONPATH": str(ROOT / "clients/python/src"), "PYTHONDONTWRITEBYTECODE": "1"}
    return subprocess.Popen(words, env=environment, stdout=subprocess.PIPE, text=True)


def printed(process, name):
    """What a program printed, which has to end well."""
    lines, _ = process.communicate(timeout=PATIENCE)
    if process.returncode:
        sys.exit(f"{name} ended by {process.returncode}")
    return lines.splitlines()


def hand_over(program, address, account):
    """What a server's two clients printed. The server writes its account, and is killed once both have ended."""
    options = ["--listen", address, "--account", account]
    print(f"A server:      rv host {' '.join(options)}")
    running = {"server": subprocess.Popen([program, "host", "--quiet", *options])}
    try:
        for name in CLIENTS:
            print(f"A {name}:    python3 examples/clients/{name}.py {address}", flush=True)
            running[name] = begin([sys.executable, ROOT / f"examples/clients/{name}.py", address])
        return {name: printed(running[name], name) for name in CLIENTS}
    finally:
        for process in running.values():
            process.kill()
            process.wait()


def main():
    if len(sys.argv) != 2:
        sys.exit(__doc__.strip().split("\n")[-1])
    program = str(pathlib.Path(sys.argv[1]).resolve())
    with tempfile.TemporaryDirectory(prefix="rv-handover-") as folder:
        account = pathlib.Path(folder) / "account.txt"
        told = hand_over(program, free_address(), str(account))
        text = account.read_text()
    for name in CLIENTS:
        print(f"\nThe {name} prints:")
        print("\n".join(f"    {line}" for line in told[name]))
    head, *entries = text.splitlines()
    print("\nThe server's account, which is all that it did, by place and moment:")
    opened = int(head.split(" ")[-1])
    print("\n".join(f"    {place}  {entry_words(line, opened)}" for place, line in enumerate(entries)))
    audit = subprocess.run([program, "audit"], input=text, stdout=subprocess.PIPE, text=True)
    print(f"The auditor's word on it: {audit.stdout.strip()}")
    sys.exit(audit.returncode)


main()
