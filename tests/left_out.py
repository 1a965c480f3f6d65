"""What a test leaves out for want of a tool: the line by which it tells that, and the line by which a gate tells all of them."""
from __future__ import annotations

import re
from collections.abc import Iterable

LINE = re.compile(r"left out: ([^:\n]+): (.+)\n?")


def tell(what: str, why: str) -> None:
    """Tells what is left out, and which tool is missing for it."""
    print(f"left out: {reason(what, why)}", flush=True)


def reason(what: str, why: str) -> str:
    """Why a case is skipped: what is left out, and which tool is missing for it."""
    return f"{what}: {why}"


def heard(line: str) -> str | None:
    """What a line tells to be left out; None if it is another line."""
    found = LINE.fullmatch(line)
    return f"{found[1]} ({found[2]})" if found else None


def summary(found: Iterable[str]) -> str:
    """The line that tells all that was heard, each thing once."""
    told = "; ".join(dict.fromkeys(found))
    return f"left out for want of a tool: {told}" if told else "nothing was left out for want of a tool"
