"""Which fault a line behind the header has, as docs/format.md judges it.

Reports name the fault of the first line that is not good. `--all` goes on past rules of conduct, so
that a line that cannot be read may come behind what a report says; its fault is looked for here.
"""

import json
import math
from collections.abc import Callable
from typing import NamedTuple

import structs
from constants import (
    MAX_LINE_LENGTH,
    MAX_PACKET_NUMBER,
    MAX_PACKET_SIZE,
    MAX_TIME,
    METRICS,
    SPACES,
)

MAX_DEPTH = 127
Said = dict[str, object]


class UndecidedError(Exception):
    """A second header that has a fault of its own, which is not looked for."""


class Key(NamedTuple):
    """A key of an event: whether a value is of its kind, and one of that kind in range."""

    name: str
    is_of_kind: Callable[[object], bool]
    is_in_range: Callable[[object], bool] = lambda _: True
    is_required: bool = True


def is_integer(value: object) -> bool:
    """Whether a value is an integer of 64 bits; others were read as other numbers."""
    return isinstance(value, int) and not isinstance(value, bool)


def is_ranges(value: object) -> bool:
    """Whether a value is a list of lists of two integers."""
    return isinstance(value, list) and all(
        isinstance(it, list) and len(it) == 2 and all(map(is_integer, it)) for it in value
    )


def are_in_range(value: object) -> bool:
    """Whether a list of pairs of integers has one, and only such that are ranges."""
    pairs = value if isinstance(value, list) else []
    return bool(pairs) and all(low <= high <= MAX_PACKET_NUMBER for low, high in pairs)


def integer(name: str, least: int, most: int, *, is_required: bool = True) -> Key:
    """A key whose value is an integer in this range."""

    def is_in_range(value: object) -> bool:
        return isinstance(value, int) and least <= value <= most

    return Key(name, is_integer, is_in_range, is_required)


def boolean(name: str, *, is_required: bool = True) -> Key:
    """A key whose value is true or false."""
    return Key(name, lambda value: isinstance(value, bool), is_required=is_required)


def word(name: str, *words: str, is_required: bool = True) -> Key:
    """A key whose value is one of these words."""
    return Key(name, lambda it: isinstance(it, str), lambda it: it in words, is_required)


TIME = integer("time", 0, MAX_TIME)
SPACE = word("space", *SPACES)
RANGES = Key("ranges", is_ranges, are_in_range)
# The keys of each event beside `event`, in the order of docs/format.md.
TABLES = {
    "sent": (
        TIME,
        SPACE,
        integer("number", 0, MAX_PACKET_NUMBER),
        integer("size", 1, MAX_PACKET_SIZE),
        boolean("eliciting"),
        boolean("in_flight"),
        word("leave", "window", "probe", "recovery", is_required=False),
    ),
    "ack": (
        TIME,
        SPACE,
        RANGES,
        integer("delay", 0, 2**64 - 1, is_required=False),
        boolean("limited", is_required=False),
    ),
    "lost": (TIME, SPACE, RANGES),
    "timer": (TIME, word("kind", "loss", "pto"), SPACE),
    "discard": (TIME, word("space", "initial", "handshake")),
    "confirmed": (TIME,),
    "keys": (TIME,),
    "metrics": (TIME, *(integer(it, 0, 2**64 - 1, is_required=False) for it in METRICS)),
}


def fault_of(line: bytes) -> str | None:
    """The fault of a line behind a header, as a report names it; None where it has none."""
    if len(line) > MAX_LINE_LENGTH:
        return "F8 line-too-long"
    if not line.strip(b" \t\r"):
        return None
    try:
        value = json_of(line)
    except (ValueError, RecursionError):
        return "F1 not-json"
    if not isinstance(value, dict):
        return "F2 not-object"
    return fault_of_said({key: it for key, it in value.items() if it is not None})


def fault_of_said(said: Said) -> str | None:
    """The fault of a line that says this."""
    kind = said.get("event")
    if kind is None:
        return "F3 missing event"
    if not isinstance(kind, str):
        return "F4 wrong-kind event"
    if kind == "header":
        return fault_of_header(said)
    return fault_of_event(TABLES[kind], said) if kind in TABLES else "F6 unknown-event"


def fault_of_event(table: tuple[Key, ...], said: Said) -> str | None:
    """The fault of an event, by the rounds of docs/format.md."""
    missing = [key.name for key in table if key.is_required and key.name not in said]
    if missing:
        return f"F3 missing {missing[0]}"
    present = [(key, said[key.name]) for key in table if key.name in said]
    wrong = [key.name for key, value in present if not key.is_of_kind(value)]
    if wrong:
        return f"F4 wrong-kind {wrong[0]}"
    out = [key.name for key, value in present if not key.is_in_range(value)]
    if out:
        return f"F5 out-of-range {out[0]}"
    is_clash = said["event"] == "sent" and said["eliciting"] and not said["in_flight"]
    return "F9 flags-clash" if is_clash else None


def fault_of_header(said: Said) -> str:
    """The fault of a second header, which stands at a wrong place. UndecidedError where it has a
    fault of its own."""
    version = said.get("version")
    keys = structs.HEADER_KEYS.get(version, set()) if isinstance(version, int) else set()
    try:
        structs.header({key: value for key, value in said.items() if key in keys})
    except structs.NoStructError:
        raise UndecidedError("a second header has a fault of its own") from None
    return "F7 header-place"


# JSON.


def json_of(line: bytes) -> object:
    """What a line is as JSON. ValueError where it is none."""
    value: object = json.loads(
        line.decode(),
        parse_int=integer_of,
        parse_float=number_of,
        parse_constant=number_of,
        object_pairs_hook=object_of,
    )
    json.dumps(value, ensure_ascii=False).encode()
    if depth_of(value) > MAX_DEPTH:
        raise ValueError("it nests too deep")
    return value


def object_of(pairs: list[tuple[str, object]]) -> Said:
    """An object of these members. ValueError where one has half a character."""
    json.dumps(pairs, ensure_ascii=False).encode()
    return dict(pairs)


def integer_of(digits: str) -> int | float:
    """An integer, or another number where it is below 0 or more than 64 bits hold."""
    is_other = digits.startswith("-") or int(digits) >= 2**64
    return number_of(digits) if is_other else int(digits)


def number_of(text: str) -> float:
    """A number. ValueError where it is past the range of numbers."""
    number = float(text)
    if not math.isfinite(number):
        raise ValueError(text)
    return number


def depth_of(value: object) -> int:
    """How many lists and objects lie within each other."""
    match value:
        case dict():
            return 1 + max(map(depth_of, value.values()), default=0)
        case list():
            return 1 + max(map(depth_of, value), default=0)
    return 0
