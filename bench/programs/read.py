#!/usr/bin/env python3
"""Reads a trace by Python's `json` and looks at the kinds of its values. It judges no range and no
rule, and prints how many lines the trace has. The exit status is 1 where a line is not in the
format."""

import argparse
import json
import sys
from collections.abc import Callable
from pathlib import Path
from typing import Any

BUFFER = 1 << 20
Kind = Callable[[Any], bool]


def is_integer(value: Any) -> bool:
    """An integer that has no sign. A boolean is none."""
    return type(value) is int and value >= 0


def is_string(value: Any) -> bool:
    """A string."""
    return isinstance(value, str)


def is_boolean(value: Any) -> bool:
    """A boolean."""
    return isinstance(value, bool)


def are_ranges(value: Any) -> bool:
    """A list of lists of two integers."""
    return isinstance(value, list) and all(
        isinstance(it, list) and len(it) == 2 and is_integer(it[0]) and is_integer(it[1])
        for it in value
    )


INTEGERS_OF_METRICS = (
    "window",
    "ssthresh",
    "bytes_in_flight",
    "latest_rtt",
    "min_rtt",
    "smoothed_rtt",
    "rttvar",
)
Kinds = dict[str, Kind]
TIME: Kinds = {"time": is_integer}
PLACE: Kinds = {**TIME, "space": is_string}
# Of each kind of line the keys that must be there, and those that may be.
KINDS: dict[str, tuple[Kinds, Kinds]] = {
    "header": (
        {"version": is_integer, "role": is_string, "max_datagram_size": is_integer},
        {"max_ack_delay": is_integer, "initial_rtt": is_integer, "initial_window": is_integer},
    ),
    "sent": (
        {
            **PLACE,
            "number": is_integer,
            "size": is_integer,
            "eliciting": is_boolean,
            "in_flight": is_boolean,
        },
        {"leave": is_string},
    ),
    "ack": ({**PLACE, "ranges": are_ranges}, {"delay": is_integer, "limited": is_boolean}),
    "lost": ({**PLACE, "ranges": are_ranges}, {}),
    "timer": ({**PLACE, "kind": is_string}, {}),
    "discard": (PLACE, {}),
    "confirmed": (TIME, {}),
    "keys": (TIME, {}),
    "metrics": (TIME, {key: is_integer for key in INTEGERS_OF_METRICS}),
}


def has_kinds(line: Any) -> bool:
    """Whether the values of a line are of the kinds that its event asks for."""
    if not isinstance(line, dict) or line.get("event") not in KINDS:
        return False
    required, optional = KINDS[line["event"]]
    return all(key in line and is_kind(line[key]) for key, is_kind in required.items()) and all(
        key not in line or is_kind(line[key]) for key, is_kind in optional.items()
    )


def main() -> None:
    """Prints how many lines the trace has, each of which was read."""
    parser = argparse.ArgumentParser(description=__doc__)
    parser.add_argument("file", metavar="FILE", type=Path, help="the trace")
    path = parser.parse_args().file
    count = 0
    with path.open(encoding="utf-8", newline="\n", buffering=BUFFER) as trace:
        for count, line in enumerate(trace, 1):
            if not has_kinds(json.loads(line)):
                sys.exit(f"line {count} is not in the format")
    print(f"lines {count}")


if __name__ == "__main__":
    main()
