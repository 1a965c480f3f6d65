"""Tests of the program and of the clients, which run them from outside: `python3 -m tests`. Modules are named from here on
everywhere, as tests.model.account."""
import pathlib

ROOT = pathlib.Path(__file__).resolve().parents[1]
