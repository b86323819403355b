"""Reads lines that nobody judged, as far as they can be drawn.

The lines before the one that is refused come from the program, as it read them. What lies behind
was read by nobody: here each is taken for what it seems to say, and is drawn as not judged.
"""

import json
from typing import Any

Event = dict[str, Any]

MAX_LINE_LENGTH = 65_536
MAX_TIME = 10**15
MAX_NUMBER = 2**62 - 1
MAX_SIZE = 65_527
MAX_WORD = 2**64 - 1
SPACES = ("initial", "handshake", "app")
METRICS = (
    "window",
    "ssthresh",
    "bytes_in_flight",
    "latest_rtt",
    "min_rtt",
    "smoothed_rtt",
    "rttvar",
)
OF_A_SPACE = ("sent", "ack", "lost", "timer", "discard")


def read(line: bytes) -> Event | None:
    """What a line seems to say; None where that cannot be drawn."""
    if len(line) > MAX_LINE_LENGTH:
        return None
    try:
        said = json.loads(line.decode("utf-8"))
    except (ValueError, RecursionError):
        return None
    return said if isinstance(said, dict) and is_drawable(said) else None


def is_integer(value: object, least: int, most: int) -> bool:
    """Whether a value is an integer in a range."""
    return isinstance(value, int) and not isinstance(value, bool) and least <= value <= most


def is_drawable(said: Event) -> bool:
    """Whether an object has what the diagrams need of its event."""
    kind = said.get("event")
    if kind == "header":
        return True
    if not isinstance(kind, str) or not is_integer(said.get("time"), 0, MAX_TIME):
        return False
    if kind in OF_A_SPACE and said.get("space") not in SPACES:
        return False
    match kind:
        case "sent":
            return is_packet(said)
        case "ack" | "lost":
            return are_ranges(said.get("ranges"))
        case "timer":
            return said.get("kind") in ("loss", "pto")
        case "metrics":
            return all(is_integer(said.get(name, 0), 0, MAX_WORD) for name in METRICS)
    return kind in ("discard", "confirmed", "keys")


def is_packet(said: Event) -> bool:
    """Whether an object says a packet."""
    is_numbered = is_integer(said.get("number"), 0, MAX_NUMBER)
    return is_numbered and is_integer(said.get("size"), 1, MAX_SIZE)


def are_ranges(value: object) -> bool:
    """Whether a value is a list of ranges of packet numbers."""
    return isinstance(value, list) and bool(value) and all(map(is_range, value))


def is_range(value: object) -> bool:
    """Whether a value is a range of packet numbers."""
    if not isinstance(value, list) or len(value) != 2:
        return False
    low, high = value
    return is_integer(high, 0, MAX_NUMBER) and is_integer(low, 0, high)
