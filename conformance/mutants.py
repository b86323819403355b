"""Mutated traces of the corpus, each made from a number alone, its seed."""

import functools
import json
import random
from collections.abc import Callable
from pathlib import Path
from typing import Any

from constants import MAX_PACKET_SIZE, MAX_TIME
from runners import FOLDER
from sender import Event
from trials import short_traces

Lines = list[bytes]
Mutation = Callable[[Lines, random.Random], None]

TRACES: Path = FOLDER / "traces"
# An auditor that asks all events again at each one is given these traces too.
MAX_LINES = 60
# The limits of the format's numbers, and what lies beside them.
LIMITS = (
    0,
    1,
    2,
    3,
    1000,
    1200,
    25000,
    MAX_PACKET_SIZE,
    2**32,
    MAX_TIME,
    2**62,
    2**63,
    2**64,
)
EDGES = sorted({limit + beside for limit in LIMITS for beside in (-1, 0, 1)})
# fmt: off
WORDS = (
    "initial", "handshake", "app", "loss", "pto", "window", "probe", "recovery", "client", "server",
    "header", "sent", "ack", "lost", "timer", "discard", "confirmed", "keys", "metrics", "other",
    "us", "ns", "newreno", "reported", "must", "may", "numbers", "packets",
)
KEYS = (
    "delay", "limited", "leave", "size", "number", "time", "space", "ranges", "window", "ssthresh",
    "initial_rtt", "unit", "packet_threshold", "timer_early_us", "loss_by_number",
    "threshold_counts", "reset_rtt", "latest_rtt_less_delay", "time_threshold_eighths",
    "recovery_by_order", "extra",
)
OTHER_VALUES: tuple[Any, ...] = (
    None, True, False, 1.0, 1e300, -1, "5", [], {}, [[]], [[0]], [[0, 0]], [[0, 1.5]],
)
# fmt: on
# For a key that a line has not.
NEW_VALUES: tuple[Any, ...] = ("app", True, 1, 1200, [[0, 1]])
BYTES = b'{}[]",:\\ \t\r\n0019-.eE\x00\x7f\x80\xc3\xff'
# How rarely a value gets one of another kind.
CHANCE_OF_OTHER_KIND = 0.04


@functools.cache
def traces() -> list[Lines]:
    """The lines of the short traces, in the order of their names."""
    found = [path.read_bytes().splitlines(keepends=True) for path in short_traces(TRACES)]
    return [lines for lines in found if 0 < len(lines) <= MAX_LINES]


def mutant(seed: int) -> bytes:
    """The mutated trace of a seed."""
    chance = random.Random(seed)
    lines = list(chance.choice(traces()))
    for _ in range(chance.choice((1, 1, 1, 2, 3, 6))):
        (mutation,) = chance.choices(list(MUTATIONS), list(MUTATIONS.values()))
        if lines:
            mutation(lines, chance)
    return b"".join(lines[:MAX_LINES])


# Lines.


def drop_line(lines: Lines, chance: random.Random) -> None:
    """A line is gone."""
    del lines[chance.randrange(len(lines))]


def double_line(lines: Lines, chance: random.Random) -> None:
    """A line stands at another place too."""
    lines.insert(chance.randrange(len(lines) + 1), chance.choice(lines))


def swap_lines(lines: Lines, chance: random.Random) -> None:
    """Two lines change their places."""
    one, other = (chance.randrange(len(lines)) for _ in range(2))
    lines[one], lines[other] = lines[other], lines[one]


def take_line(lines: Lines, chance: random.Random) -> None:
    """A line of another trace, at some place."""
    lines.insert(chance.randrange(len(lines) + 1), chance.choice(chance.choice(traces())))


def go_on_as_another(lines: Lines, chance: random.Random) -> None:
    """The end of another trace in the place of the end."""
    other = chance.choice(traces())
    lines[chance.randrange(len(lines) + 1) :] = other[chance.randrange(len(other) + 1) :]


# Bytes.


def change_byte(lines: Lines, chance: random.Random) -> None:
    """A byte is another, or one of its bits."""
    place = chance.randrange(len(lines))
    line = bytearray(lines[place])
    at = chance.randrange(len(line))
    line[at] = chance.choice((chance.choice(BYTES), line[at] ^ 1 << chance.randrange(8)))
    lines[place] = bytes(line)


def add_bytes(lines: Lines, chance: random.Random) -> None:
    """A byte comes in, once or many times."""
    place = chance.randrange(len(lines))
    line = lines[place]
    at = chance.randrange(len(line) + 1)
    added = bytes([chance.choice(BYTES)]) * chance.choice((1, 1, 2, 130))
    lines[place] = line[:at] + added + line[at:]


def drop_bytes(lines: Lines, chance: random.Random) -> None:
    """Some bytes of a line are gone."""
    place = chance.randrange(len(lines))
    line = lines[place]
    at = chance.randrange(len(line))
    lines[place] = line[:at] + line[at + chance.choice((1, 1, 2, 10, 1000)) :] or b"\n"


# Values.


def change_event(change: Callable[[Event, random.Random], None]) -> Mutation:
    """A mutation that changes what one line says, where that is an object."""

    def mutate(lines: Lines, chance: random.Random) -> None:
        place = chance.randrange(len(lines))
        said = object_of(lines[place])
        if said:
            change(said, chance)
            lines[place] = json.dumps(said, separators=(",", ":")).encode() + b"\n"

    return mutate


def object_of(line: bytes) -> Event | None:
    """What a line says; None where it is no object."""
    try:
        said = json.loads(line.decode())
    except ValueError:
        return None
    return said if isinstance(said, dict) else None


def change_value(said: Event, chance: random.Random) -> None:
    """A key has another value."""
    key = chance.choice(list(said))
    said[key] = other_value(said[key], chance)


def add_key(said: Event, chance: random.Random) -> None:
    """A key comes in, or has another value."""
    key = chance.choice(KEYS)
    said[key] = other_value(said.get(key, chance.choice(NEW_VALUES)), chance)


def drop_key(said: Event, chance: random.Random) -> None:
    """A key is gone."""
    del said[chance.choice(list(said))]


def other_value(value: Any, chance: random.Random) -> Any:
    """Mostly another value of the same kind."""
    if chance.random() < CHANCE_OF_OTHER_KIND:
        return chance.choice(OTHER_VALUES)
    match value:
        case bool():
            return not value
        case int():
            return other_number(value, chance)
        case str():
            return chance.choice(WORDS)
        case [_, *_] if all(isinstance(pair, list) and len(pair) == 2 for pair in value):
            return other_ranges(value, chance)
    return value


def other_number(value: Any, chance: random.Random) -> Any:
    """A number that is near, twice or half as large, or at an edge; what is no number stays."""
    if not isinstance(value, int):
        return value
    near = value + chance.choice((-1, 1, chance.randint(-5, 5), chance.randint(-1200, 1200)))
    return chance.choice((near, near, near, value * 2, value // 2, chance.choice(EDGES)))


def other_ranges(given: list[list[Any]], chance: random.Random) -> list[list[Any]]:
    """The ranges with a number changed, one left out, doubled or divided, or in another order."""
    ranges = [list(pair) for pair in given]
    place = chance.randrange(len(ranges))
    low, high = ranges[place]
    match chance.randrange(6):
        case 0 | 1 as end:
            ranges[place][end] = other_number(ranges[place][end], chance)
        case 2:
            ranges.insert(chance.randrange(len(ranges) + 1), [low, high])
        case 3 if isinstance(low, int) and isinstance(high, int):
            middle = (low + high) // 2
            ranges[place : place + 1] = [[low, middle], [middle + chance.choice((0, 1)), high]]
        case 4:
            del ranges[place]
        case _:
            chance.shuffle(ranges)
    return ranges


def shift_times(lines: Lines, chance: random.Random) -> None:
    """The times from a line on are later or earlier."""
    far = chance.randint(-200_000, 200_000), chance.randint(0, 3_000_000)
    by = chance.choice((-1, 1, *far))
    for place in range(chance.randrange(len(lines)), len(lines)):
        said = object_of(lines[place])
        if said and isinstance(said.get("time"), int):
            said["time"] += by
            lines[place] = json.dumps(said).encode() + b"\n"


# How often each comes.
MUTATIONS: dict[Mutation, int] = {
    drop_line: 3,
    double_line: 2,
    swap_lines: 2,
    take_line: 3,
    go_on_as_another: 2,
    change_byte: 2,
    add_bytes: 1,
    drop_bytes: 1,
    change_event(change_value): 12,
    change_event(add_key): 2,
    change_event(drop_key): 2,
    shift_times: 5,
}
