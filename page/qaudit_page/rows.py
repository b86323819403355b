"""The rows that qaudit-why writes of a trace, as columns."""

import json
import pickle
from collections import deque
from collections.abc import Iterable, Iterator
from concurrent.futures import Future, ProcessPoolExecutor
from concurrent.futures.process import BrokenProcessPool
from dataclasses import dataclass, field
from itertools import compress, islice
from mmap import mmap
from operator import itemgetter

from .failure import Failure
from .program import PIECE, Object, Run
from .said import TIMERS, Said, said_of
from .streams import given, workers_of
from .texts import runs

# The amounts of a state and their keys in a row, for the unit of its times.
AMOUNTS = {
    "window": "window_bytes",
    "ssthresh": "ssthresh_bytes",
    "in_flight": "in_flight_bytes",
    "latest_rtt": "latest_rtt_{}",
    "min_rtt": "min_rtt_{}",
    "smoothed_rtt": "smoothed_rtt_{}",
    "rttvar": "rttvar_{}",
    "pto_count": "pto_count",
    "deadline": "deadline_{}",
}
# How many pieces are read before the first of them is wanted, and the room for each.
AHEAD = 8
ROOM = 2 * PIECE


@dataclass
class State:
    """The state behind each line that has a row."""

    line: list[int] = field(default_factory=list)
    amounts: dict[str, list[int | None]] = field(
        default_factory=lambda: {name: [] for name in AMOUNTS}
    )
    # The kind and the space of the timer that is set, as with lines that say timers; 3 for none.
    timer: bytearray = field(default_factory=bytearray)
    # How many packets are owed, and which, by the row.
    owed: list[int] = field(default_factory=list)
    owed_text: dict[int, str] = field(default_factory=dict)

    def extend(self, later: "State") -> None:
        """The states of rows behind these."""
        begin = len(self.line)
        self.line.extend(later.line)
        for name, values in later.amounts.items():
            self.amounts[name].extend(values)
        self.timer.extend(later.timer)
        self.owed.extend(later.owed)
        self.owed_text.update({begin + place: text for place, text in later.owed_text.items()})


@dataclass
class Rows:
    """Some rows: what their lines say, and the states behind them."""

    said: Said
    state: State


def columns_of(rows: list[Object]) -> Rows:
    """Rows as columns. KeyError, TypeError or ValueError where one is no row."""
    held = list(map(itemgetter("state"), rows))
    state = State(line=list(map(itemgetter("line"), rows)))
    unit = "ns" if held and "latest_rtt_ns" in held[0] else "us"
    amounts = itemgetter(*(key.format(unit) for key in AMOUNTS.values()))
    for name, values in zip(AMOUNTS, zip(*map(amounts, held), strict=True), strict=False):
        state.amounts[name] = list(values)
    state.timer.extend(map(TIMERS.__getitem__, map(itemgetter("set_kind", "set_space"), held)))
    owing = list(map(itemgetter("owed"), held))
    state.owed = [sum(high - low + 1 for low, high in owed) if owed else 0 for owed in owing]
    for place in compress(range(len(owing)), owing):
        state.owed_text[place] = f"{held[place]['owed_space']} {runs(owing[place])}"
    return Rows(said_of(list(map(itemgetter("event"), rows))), state)


def read(lines: bytes) -> Rows:
    """Lines that the program wrote, a row each."""
    try:
        rows: list[Object] = json.loads(b"[" + lines.rstrip(b"\n").replace(b"\n", b",") + b"]")
    except ValueError as fault:
        raise Failure(f"qaudit-why wrote rows that are not JSON: {fault}") from fault
    return columns_of(rows)


def read_at(begin: int, size: int) -> int | Rows:
    """Reads the lines at a place of the memory that a process was given, and puts the rows there.
    Their size; or the rows, if they have no room."""
    memory = given()
    rows = read(memory[begin : begin + size])
    data = pickle.dumps(rows)
    if len(data) > ROOM:
        return rows
    memory[begin : begin + len(data)] = data
    return len(data)


def rows_by(run: Run, readers: int) -> Iterator[Rows]:
    """The rows of a run with `--rows`, some at a time. All but the first few are read by so many
    other processes, where that is not 0."""
    pieces = run.pieces()
    if not readers:
        yield from map(read, pieces)
        return
    yield from map(read, islice(pieces, 1))
    try:
        second = next(pieces, None)
        if second is None:
            return
        with mmap(-1, AHEAD * ROOM) as places, workers_of(readers, places) as pool:
            yield read(second)
            yield from ahead(pool, places, pieces)
    except (BrokenProcessPool, OSError) as fault:
        raise Failure(f"a process that reads the rows failed: {fault}") from fault


def ahead(pool: ProcessPoolExecutor, places: mmap, pieces: Iterable[bytes]) -> Iterator[Rows]:
    """The rows of each piece, in order, while some behind it are worked on.

    A piece lies in memory that is shared, and so do its rows: if a process dies, the other end of
    a pipe that is full, or has a part of an object, would wait for ever.
    """
    begun: deque[tuple[int, Future[int | Rows]]] = deque()

    def first() -> Rows:
        begin, reading = begun.popleft()
        found = reading.result()
        if isinstance(found, Rows):
            return found
        rows: Rows = pickle.loads(places[begin : begin + found])
        return rows

    for number, piece in enumerate(pieces):
        begin = number % AHEAD * ROOM
        if len(piece) <= ROOM:
            places[begin : begin + len(piece)] = piece
            begun.append((begin, pool.submit(read_at, begin, len(piece))))
        else:
            begun.append((begin, pool.submit(read, piece)))
        if len(begun) == AHEAD:
            yield first()
    while begun:
        yield first()
