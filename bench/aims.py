"""What the comparison aims at. The ratios are those of processor time."""

from collections.abc import Callable
from typing import NamedTuple

from comparing import PACKETS, Row, processor
from connections import AS_WRITTEN

BYTES_OF_A_PACKET = 200
BYTES = 8_000_000
# Of a line, by the name of a trace, in the form `sorted` where it is made.
INSTRUCTIONS = {
    "steady": 1_300,
    "mixed": 1_300,
    "receiver": 1_700,
    "receiver-32": 2_800,
    "32-ranges": 2_800,
    "receiver-32-bare": 4_500,
    "unacknowledged": 1_100,
    "handshake": 1_300,
    "quic-go-reno-loss": 1_900,
    "ngtcp2-reno-loss": 1_900,
    "quinn-loss": 1_900,
}
# Of a line of `steady` and `mixed`, and of one of `32-ranges`, by the name of its form.
OF_FORMS = {
    "spaces": (1_900, 2_500),
    "time-first": (1_900, 2_500),
    "shuffled": (1_900, 2_500),
    "crlf": (1_900, 2_500),
    "unknown": (2_000, 2_700),
    "numbers": (2_000, 2_700),
    "nested": (2_000, 2_700),
    "escapes": (2_000, 2_700),
    "utf-8": (2_000, 2_700),
    "nulls": (2_500, 3_200),
    "slog": (2_500, 3_200),
}
# Of a file that has a header and no event.
INSTRUCTIONS_OF_A_FILE = 15_000
# Of an event that is handed to the library for C as a struct.
NANOSECONDS_OF_AN_EVENT = 100
QUICK_FORMS = ("sorted", "format")
OTHER_FORMS = ("spaces", "unknown")


def is_million(row: Row) -> bool:
    """The trace of a million packets, of which none is acknowledged."""
    return row.shape == "unacknowledged" and row.lines == PACKETS + 1


def ratio(row: Row) -> float | None:
    """How many times as fast as `serde_json` the auditor is."""
    return row.ratio(processor)


def bytes_of_a_packet(row: Row) -> float:
    """The auditor's memory for each packet of a trace of packets alone."""
    return row.peak / (row.lines - 1)


class Aim(NamedTuple):
    """What is to hold, of which rows, of which value, and its bound, which the value reaches or
    stays under."""

    text: str
    is_asked: Callable[[Row], bool]
    value: Callable[[Row], float | None]
    bound: float
    is_least: bool = True


def is_quick(row: Row, *shapes: str) -> bool:
    """A trace of some shapes in a form that most loggers write; of a million packets there is one
    aim alone."""
    return row.shape in shapes and row.form in QUICK_FORMS and not is_million(row)


AIMS = (
    Aim(
        "at least 6 times as fast as serde_json: steady, mixed, handshake, receiver and "
        "unacknowledged, sorted and format",
        lambda it: is_quick(it, "steady", "mixed", "handshake", "receiver", "unacknowledged"),
        ratio,
        6,
    ),
    Aim(
        "at least 5 times as fast: 32-ranges, receiver-32 and all-lost, sorted and format",
        lambda it: is_quick(it, "32-ranges", "receiver-32", "all-lost"),
        ratio,
        5,
    ),
    Aim(
        "at least 5 times as fast: logs of real stacks",
        lambda it: it.form == AS_WRITTEN,
        ratio,
        5,
    ),
    Aim(
        "at least 3 times as fast: receiver-32-bare, sorted and format",
        lambda it: is_quick(it, "receiver-32-bare"),
        ratio,
        3,
    ),
    Aim(
        "at least 4 times as fast: all shapes, spaces and unknown",
        lambda it: it.form in OTHER_FORMS,
        ratio,
        4,
    ),
    Aim("at least 4 times as fast: unacknowledged with a million packets", is_million, ratio, 4),
    Aim(
        "under 200 bytes a packet: unacknowledged with a million packets",
        is_million,
        bytes_of_a_packet,
        BYTES_OF_A_PACKET,
        False,
    ),
    Aim(
        "under 8 MB: steady, mixed and 32-ranges",
        lambda it: it.shape in ("steady", "mixed", "32-ranges"),
        lambda it: it.peak / 1e6,
        BYTES / 1e6,
        False,
    ),
)


def worst_of(aim: Aim, rows: list[Row]) -> tuple[float, Row] | None:
    """The value that is farthest from being within the bound, and its row; None where nothing was
    measured."""
    values = [
        (value, row)
        for row in rows
        if aim.is_asked(row)
        for value in [aim.value(row)]
        if value is not None
    ]
    if not values:
        return None
    choice = min if aim.is_least else max
    return choice(values, key=lambda it: it[0])


def said_of(aim: Aim, rows: list[Row]) -> str:
    """Whether an aim is met, and by what."""
    worst = worst_of(aim, rows)
    if worst is None:
        return f"not measured: {aim.text}"
    value, row = worst
    is_met = value >= aim.bound if aim.is_least else value < aim.bound
    return f"{'met' if is_met else 'missed'}: {aim.text} ({value:.2f}, {row.shape} {row.form})"
