"""A trace as columns: its lines, the state behind those that were judged, and what became of each
packet by the lines."""

from array import array
from bisect import bisect_left
from collections.abc import Iterable, Sequence

from .failure import Failure
from .lenient import SPACES, Event, read
from .rows import Rows, State
from .said import NO_SPACE, NO_TIME, Mark, Said, said_of

BLANK, OTHER = "b", "u"
# How many lines that were not judged are read at once.
MANY = 2_000


class Numbers:
    """The packets of a space in the order of their numbers, to be marked once each."""

    def __init__(self) -> None:
        self.numbers: list[int] = []
        self.packets: list[int] = []
        # Of each packet, the next one that may be without the mark.
        self.nexts: dict[str, list[int]] = {"acked": [], "lost": []}
        # How many were there when the keys were discarded.
        self.discarded = 0

    def add(self, number: int, packet: int) -> None:
        """A packet; one whose number is not above those before it has no fate."""
        if not self.numbers or number > self.numbers[-1]:
            self.numbers.append(number)
            self.packets.append(packet)

    def mark(self, mark: str, low: int, high: int) -> list[int]:
        """The packets with numbers from low to high that had no such mark; they have it then."""
        chain, found = self.nexts[mark], []
        chain.extend(range(len(chain), len(self.numbers) + 1))
        place = first_unmarked(chain, bisect_left(self.numbers, low))
        while place < len(self.numbers) and self.numbers[place] <= high:
            found.append(self.packets[place])
            chain[place] = place + 1
            place = first_unmarked(chain, place + 1)
        return found

    def discard(self) -> list[int]:
        """The packets since the keys were last discarded."""
        found = self.packets[self.discarded :]
        self.discarded = len(self.packets)
        return found


def first_unmarked(chain: list[int], place: int) -> int:
    """The first place from this one on that leads to itself, to which all on the way lead then."""
    root = place
    while chain[root] != root:
        root = chain[root]
    while chain[place] != root:
        chain[place], place = root, chain[place]
    return root


class Packets:
    """A row for each packet that was sent, which are no more than there are lines."""

    def __init__(self, lines: int) -> None:
        self.line: list[int] = []
        self.space: list[int] = []
        self.number: list[int] = []
        self.size: list[int] = []
        self.flags: list[int] = []
        # The lines that acknowledged it, declared it lost, and discarded its space; 0 for none.
        self.acked = [0] * lines
        self.lost = [0] * lines
        self.gone = [0] * lines


class Trace:
    """The columns of a trace, whose lines are numbered from 1."""

    def __init__(self, data: bytes) -> None:
        self.lines = data.split(b"\n")
        if self.lines[-1] == b"":
            self.lines.pop()
        count = len(self.lines)
        self.header: Event = {}
        self.unit = "us"
        self.kind = bytearray(OTHER.encode() * count)
        self.time = array("q", bytes(8 * count))
        self.space = bytearray([NO_SPACE]) * count
        self.packets = Packets(count)
        self.numbers = [Numbers() for _ in SPACES]
        # The line and the greatest number of each acknowledgment.
        self.acks: list[tuple[int, int]] = []
        # The lines of those acknowledgments that say that the sender was limited.
        self.limited: list[int] = []
        self.metrics: list[tuple[int, list[int | None]]] = []
        self.state = State()
        self.now = 0
        # The first line of which nothing is known yet.
        self.next_line = 1

    # Lines.

    def blank(self, line: int) -> None:
        """A blank line, or one that cannot be read."""
        is_blank = not self.lines[line - 1].strip(b" \t\r")
        self.kind[line - 1] = ord(BLANK if is_blank else OTHER)
        self.time[line - 1] = self.now
        self.next_line = line + 1

    def take(self, lines: Sequence[int], said: Said) -> None:
        """What lines say, with the lines between them, which say nothing."""
        if not lines:
            return
        self.write(lines, self.times_of(said), said)
        packets, begin, sent = self.packets, len(self.packets.line), 0
        packets.line.extend(map(lines.__getitem__, said.place))
        packets.space.extend(map(said.space.__getitem__, said.place))
        packets.number.extend(said.number)
        packets.size.extend(said.size)
        packets.flags.extend(said.flags)
        for mark in said.marks:
            self.add(begin + sent, begin + mark.sent)
            sent = mark.sent
            self.mark(lines[mark.place], mark)
        self.add(begin + sent, len(packets.line))
        self.limited.extend(lines[place] for place in said.limited)
        self.metrics.extend((lines[place], values) for place, values in said.metrics)

    def times_of(self, said: Said) -> list[int]:
        """The times of lines: that of a header is the one before it."""
        times = said.time
        if said.header is not None:
            times = times.copy()
            for place, time in enumerate(times):
                if time == NO_TIME:
                    times[place] = times[place - 1] if place else self.now
        return times

    def write(self, lines: Sequence[int], times: list[int], said: Said) -> None:
        """The kind, the time and the space of lines."""
        first, last = self.next_line, lines[-1]
        if last > len(self.lines):
            raise IndexError(last)
        if last - first + 1 == len(lines):
            self.kind[first - 1 : last] = said.kind
            self.time[first - 1 : last] = array("q", times)
            self.space[first - 1 : last] = said.space
        else:
            for line, kind, time, space in zip(lines, said.kind, times, said.space, strict=True):
                while self.next_line < line:
                    self.blank(self.next_line)
                self.kind[line - 1], self.space[line - 1] = kind, space
                self.now = self.time[line - 1] = time
                self.next_line = line + 1
        self.now, self.next_line = times[-1], last + 1

    def add(self, first: int, end: int) -> None:
        """Packets, so that they can be marked."""
        packets, numbers = self.packets, self.numbers
        for packet in range(first, end):
            numbers[packets.space[packet]].add(packets.number[packet], packet)

    def mark(self, line: int, mark: Mark) -> None:
        """Notes the line that says first what became of packets."""
        if mark.kind == "discard":
            self.discard(line, mark.space)
            return
        packets, numbers = self.packets, self.numbers[mark.space]
        ends, name = (packets.acked, "acked") if mark.kind == "ack" else (packets.lost, "lost")
        for low, high in mark.ranges:
            for packet in numbers.mark(name, low, high):
                ends[packet] = line
        if mark.kind == "ack":
            self.acks.append((line, max(high for _, high in mark.ranges)))

    def discard(self, line: int, space: int) -> None:
        """What is neither acknowledged nor lost of a space goes with its keys."""
        packets = self.packets
        for packet in self.numbers[space].discard():
            if not packets.acked[packet] and not packets.lost[packet]:
                packets.gone[packet] = line

    # Rows.

    def take_rows(self, rows: Rows) -> None:
        """What rows say, and the states behind them."""
        if rows.said.header is not None:
            self.header = rows.said.header
            self.unit = self.header.get("unit", "us")
        self.take(rows.state.line, rows.said)
        self.state.extend(rows.state)

    def read_rest(self, first_unjudged: int | None) -> None:
        """The lines behind the last row. From the first unjudged one on they are read as they seem;
        those before it say nothing."""
        end = len(self.lines) + 1
        begin = end if first_unjudged is None else max(self.next_line, first_unjudged)
        for first in range(begin, end, MANY):
            lines = range(first, min(first + MANY, end))
            events = [(line, read(self.lines[line - 1])) for line in lines]
            drawn = [(line, event) for line, event in events if event is not None]
            self.take([line for line, _ in drawn], said_of([event for _, event in drawn]))
        while self.next_line < end:
            self.blank(self.next_line)


def trace_of(data: bytes, rows: Iterable[Rows]) -> Trace:
    """The columns of the bytes of a trace up to the last of its rows, which come some at a time."""
    trace = Trace(data)
    try:
        for piece in rows:
            trace.take_rows(piece)
    except (KeyError, TypeError, ValueError, IndexError, AttributeError) as fault:
        text = f"qaudit-why wrote an unknown row after line {trace.next_line - 1}: {fault!r}"
        raise Failure(text) from fault
    return trace
