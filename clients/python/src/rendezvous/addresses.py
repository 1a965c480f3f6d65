"""Addresses: the servers that a text names, each an alternative of the others, and what it says of their sessions."""
from __future__ import annotations

import math
import os
import re
from typing import Any, Callable, Container, Dict, Mapping, NamedTuple, Optional, Tuple, Union
from urllib.parse import unquote_to_bytes

from .bodies import GREATEST, GREATEST_VERSION

VARIABLE, NEAREST = "RV_SERVER", "127.0.0.1:7411"
SCHEME = "rv://"
# A host: its name or numbers, or of version 6, which may have a zone. A server whose host is in brackets, and what is after them.
NAME = r"[^\s\0/?#&,:\[\]@%]+"
HOST, SIXTH = re.compile(NAME), re.compile(rf"[0-9A-Fa-f]*:[0-9A-Fa-f]*:[0-9A-Fa-f:.]*(%{NAME})?")
BRACKETED = re.compile(r"\[([^\]]*)\](.*)", re.DOTALL)
# Whole numbers are written without a sign and zeros before them; seconds with as many digits as each language keeps.
WHOLE, SECONDS = re.compile(r"[1-9][0-9]{0,15}"), re.compile(r"[0-9]{1,9}(\.[0-9]{1,9})?")
GREATEST_PORT = 65_535
# A mark of a byte that names none.
NO_BYTE = re.compile("%(?![0-9A-Fa-f]{2})")

Address = Union[str, Tuple[str, int]]


class Server(NamedTuple):
    """Where a server listens."""

    host: str
    port: int

    def __str__(self) -> str:
        """As an address has it."""
        return f"[{self.host}]:{self.port}" if ":" in self.host else f"{self.host}:{self.port}"


class Options(NamedTuple):
    """What an address says of a session; None where it says nothing. A patience of `inf` is for ever."""

    patience: Optional[float] = None
    record: Optional[str] = None
    client: Optional[int] = None
    version: Optional[int] = None


class Target(NamedTuple):
    """What an address names: servers, which are tried in turn, and options."""

    servers: Tuple[Server, ...]
    options: Options = Options()


def target_of(address: Optional[Address]) -> Target:
    """What an address names. Where none is given, that is the environment's, or else a server's of this host."""
    if address is None:
        address = os.environ.get(VARIABLE) or NEAREST
    if not isinstance(address, str):
        return Target((server_of(address),))
    try:
        return read(address)
    except ValueError as fault:
        raise ValueError(f"{fault}, in the address {address!r:.100}") from None


def server_of(pair: Tuple[str, int]) -> Server:
    """The server of an address that is a pair."""
    if not isinstance(pair, (tuple, list)):
        raise TypeError(f"an address is a text, as host:port, or a pair of both: {pair!r}")
    if len(pair) != 2:
        raise ValueError(f"an address is a pair of a host and a port: {pair!r}")
    host, port = pair
    if not isinstance(host, str) or type(port) is not int:
        raise TypeError(f"an address is a pair of a text and a whole number: {pair!r}")
    if not (HOST.fullmatch(host) or SIXTH.fullmatch(host)) or not 0 < port <= GREATEST_PORT:
        raise ValueError(f"an address is a pair of a host and a port from 1 to {GREATEST_PORT}: {pair!r:.100}")
    return Server(host, port)


# ---- an address as a text, whose first fault is told by its place

def read(text: str) -> Target:
    """What a text names."""
    if not text.startswith(SCHEME):
        return Target(servers_in(text))
    servers, asks, options = text[len(SCHEME):].partition("?")
    return Target(servers_in(servers), options_in(options) if asks else Options())


def servers_in(text: str) -> Tuple[Server, ...]:
    """The servers that a text lists."""
    return tuple(server_in(each, f"server {place}") for place, each in enumerate(text.split(","), 1))


def server_in(text: str, place: str) -> Server:
    """The server that a text is."""
    bracketed = BRACKETED.fullmatch(text)
    if bracketed:
        host, rest, form = bracketed[1], bracketed[2], SIXTH
    else:
        host, colon, port = text.rpartition(":") if ":" in text else (text, "", "")
        rest, form = colon + port, HOST
    if not form.fullmatch(host):
        raise ValueError(f"host of {place}")
    found = whole_in(rest[1:], GREATEST_PORT) if rest.startswith(":") else None
    if found is None:
        raise ValueError(f"port of {place}")
    return Server(host, found)


def options_in(text: str) -> Options:
    """The options that a text lists."""
    found: Dict[str, Any] = {}
    for place, each in enumerate(text.split("&"), 1):
        name, _, value = each.partition("=")
        check_name(name, place, found)
        found[name] = READERS[name](decoded(value))
        if found[name] is None:
            raise ValueError(f"option {name}")
    return Options(**found)


def check_name(name: str, place: int, before: Container[str]) -> None:
    """An option's name is one of those that there are, and was not there before."""
    if not name:
        raise ValueError(f"option {place} is empty")
    if name not in READERS:
        raise ValueError(f"option {name} is unknown")
    if name in before:
        raise ValueError(f"option {name} twice")


def decoded(value: str) -> str:
    """An option's value without its marks of bytes; empty, as none may be, where those are no UTF-8."""
    try:
        return "" if NO_BYTE.search(value) else unquote_to_bytes(value).decode()
    except UnicodeError:
        return ""


# ---- values, None where it is none

def whole_in(value: str, greatest: int) -> Optional[int]:
    """A whole number from 1 on."""
    return int(value) if WHOLE.fullmatch(value) and int(value) <= greatest else None


def seconds_in(value: str) -> Optional[float]:
    """A time above zero, which may have no end."""
    if value == "forever":
        return math.inf
    return (float(value) or None) if SECONDS.fullmatch(value) else None


def path_in(value: str) -> Optional[str]:
    """A file's path."""
    return value if value and "\0" not in value else None


READERS: Mapping[str, Callable[[str], Union[float, str, None]]] = {
    "patience": seconds_in, "record": path_in, "client": lambda value: whole_in(value, GREATEST),
    "version": lambda value: whole_in(value, GREATEST_VERSION),
}
