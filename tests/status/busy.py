"""What a busy server would tell of itself: a made-up status, in the form of `/status.json`."""
from __future__ import annotations

import json
from typing import Any, Dict, List

Status = Dict[str, Any]

# The version of its build, in the form of one.
VERSION = "3.14.1"
# So long the made-up server is up, in seconds, and so often it takes a sample of itself.
UP, SAMPLE = 86_400, 10
SAMPLES = 61
# Entries a second, before and behind the moment at which a producer began to go twice as fast as its consumers.
CALM, HURRIED = 180, 540
HURRY = 30
# An entry's line in the account has about so many bytes.
ENTRY_BYTES = 130
# So many milliseconds after its arrival a request was first found with no connection.
ALONE = 2_000


def history() -> List[List[int]]:
    """The samples of the last ten minutes: seconds since the start, entries, open places, bytes of the account."""
    rows, entries, places = [], 9_000_000, 400
    for number in range(SAMPLES):
        hurries = number >= HURRY
        wave = (number * 7919) % 37
        entries += SAMPLE * ((HURRIED if hurries else CALM) + wave)
        places += 300 + wave if hurries else wave - 18
        rows.append([UP - SAMPLE * (SAMPLES - 1 - number), entries, places, entries * ENTRY_BYTES])
    return rows


def waiting(count: int) -> List[List[Any]]:
    """So many requests that wait, a second apart: call, queue or exchanger, milliseconds of the arrival, client, incarnation,
    number."""
    calls = ["take", "transfer", "swap"]
    return [[calls[number % 3], number % 8, 1_000 * (UP - count + number), 11 + number, 1 + number % 3, 40 + number]
            for number in range(count)]


def busy(numbers: Dict[str, int]) -> Status:
    """The status of a server with these numbers, beside others that a busy one has."""
    samples = history()
    entries, places, account = samples[-1][1:]
    rows = waiting(130)
    told = {"rv_uptime_seconds": UP, "rv_epoch": 1_785_000_000_000, "rv_entries_total": entries, "rv_open_places": places,
            "rv_open_places_limit": 100_000, "rv_connections": 8_421, "rv_connections_limit": 10_000, "rv_clients": 9_120,
            "rv_clients_limit": 65_536, "rv_buffer_bytes": 71_303_168, "rv_buffer_limit_bytes": 268_435_456,
            "rv_requests_waiting": 1_240, "rv_requests_unheard": 3, "rv_account_bytes_total": account}
    return {"history": samples, "numbers": {**numbers, **told},
            "queues": [[queue, places if queue == 3 else 0, 12 if queue in (1, 5) else 0] for queue in range(64)],
            "unheard": [[*row, row[2] + ALONE] for row in rows[2:60:20]], "version": VERSION, "waiting": rows}


def text(status: Status) -> bytes:
    """Its bytes, as the server writes them: no white space, members in the order of their names."""
    return json.dumps(status, separators=(",", ":"), sort_keys=True).encode()
