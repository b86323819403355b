"""How long a sender was silent and how late its timers were, from the rows of a trace."""

from collections.abc import Iterator
from dataclasses import dataclass
from heapq import heappop, heappush
from itertools import accumulate
from typing import NamedTuple

from .facts import SET_FOR
from .lenient import SPACES
from .said import ELICITING, KINDS, NO_SPACE, OF_LOSS
from .texts import NANOSECONDS, NANOSECONDS_IN_A_MILLISECOND, size, span
from .trace import BLANK, OTHER, Trace

# Lines without a time of their own; a report has one, but nothing happens at it.
TIMELESS = frozenset(map(ord, (KINDS["header"], BLANK, OTHER)))
REPORT = ord(KINDS["metrics"])
APP = SPACES.index("app")
MOST_SILENCES = 10


@dataclass(frozen=True)
class Silence:
    """A time in which nothing happened while something was in flight or a timer was set, in the
    unit of the trace."""

    # The line that ended it, or the last report in it.
    line: int
    long: int
    in_flight: int
    # What the timer was set for, as `State.timer` says it, and how long the silence went on past
    # its deadline; 0 where it did not.
    timer: int
    over: int
    # The last row before its end, whose state it ended in.
    row: int

    def text(self, unit: str) -> str:
        """In words, without how long it was."""
        flying = f"{size(self.in_flight)} in flight" if self.in_flight else "nothing in flight"
        if self.timer == NO_SPACE:
            return f"{flying}, no timer was set"
        over = f"{span(self.over, unit)} past the" if self.over else "not past the"
        return f"{flying}, {over} {name_of(self.timer)}"


class Longest:
    """The longest silences so far, and the one that goes on."""

    def __init__(self) -> None:
        self.kept: list[tuple[int, int, Silence]] = []
        self.current: Silence | None = None
        # What is not longer than this is not kept.
        self.least = 0

    def keep(self) -> None:
        """Keeps the one that went on, if there is one."""
        if self.current is not None:
            heappush(self.kept, (self.current.long, -self.current.line, self.current))
        if len(self.kept) > MOST_SILENCES:
            heappop(self.kept)
        self.current = None
        self.least = self.kept[0][0] if len(self.kept) == MOST_SILENCES else 0


class Late(NamedTuple):
    """An event before which a timer that packets set should have fired: its line, how late it was,
    and how long that timer runs."""

    line: int
    amount: int
    timeout: int


def name_of(timer: int) -> str:
    """What a timer is set for, in words."""
    return f"{SET_FOR['loss' if timer >= OF_LOSS else 'pto']} of {SPACES[timer % OF_LOSS]}"


class Clock:
    """What the timer is set for, and since when."""

    def __init__(self) -> None:
        self.set_for: tuple[int, int | None] = (NO_SPACE, None)
        self.since = 0

    def after(self, timer: int, deadline: int | None, time: int) -> None:
        """What it is set for after an event."""
        if (timer, deadline) != self.set_for:
            self.set_for, self.since = (timer, deadline), time

    def late_by(self, time: int) -> int:
        """How long before a time it should have fired; 0 where it is not set."""
        deadline = self.set_for[1]
        return 0 if deadline is None else max(0, time - max(deadline, self.since))


def longest_silences(trace: Trace, unjudged: int | None) -> list[Silence]:
    """The longest silences, of those that are equally long the first. One that went on past a
    report is one. The first line that was not judged may end one."""
    kinds, times, timers = trace.kind, trace.time, trace.state.timer
    deadlines, flying = trace.state.amounts["deadline"], trace.state.amounts["in_flight"]
    clock, longest = Clock(), Longest()
    begin, in_flight, timer = 0, 0, NO_SPACE
    lines, count = followed_by(trace, unjudged), len(trace.state.line)
    for row, line in enumerate(lines):
        kind = kinds[line - 1]
        if kind in TIMELESS:
            continue
        time = times[line - 1]
        if time - begin > longest.least and (in_flight or timer != NO_SPACE):
            longest.least = time - begin
            late = clock.late_by(time)
            longest.current = Silence(line, longest.least, in_flight, timer, late, row - 1)
        if row < count and kind != REPORT:
            if longest.current is not None:
                longest.keep()
            timer = timers[row]
            clock.after(timer, deadlines[row], time)
            begin, in_flight = time, flying[row] or 0
    longest.keep()
    return [silence for _, _, silence in sorted(longest.kept, reverse=True)]


def late_timers(trace: Trace, unjudged: int | None = None) -> Iterator[Late]:
    """The events before which a timer of packets should have fired, as V18 finds them. The first
    line that was not judged may be one."""
    times, timers, deadlines = trace.time, trace.state.timer, trace.state.amounts["deadline"]
    awaited: list[bool] = []
    # What the timer is set for before a line, and since when.
    timer, deadline, since = NO_SPACE, None, 0
    lines, count = followed_by(trace, unjudged), len(trace.state.line)
    for row, line in enumerate(lines):
        time = times[line - 1]
        if deadline is not None and time > deadline and time > since:
            awaited = awaited or awaited_early(trace)
            if timer >= APP and timer != NO_SPACE or awaited[row - 1]:
                late = time - max(deadline, since)
                yield Late(line, late, timeout_of(trace, row - 1))
        if row < count and (deadlines[row] != deadline or timers[row] != timer):
            timer, deadline, since = timers[row], deadlines[row], time


def followed_by(trace: Trace, unjudged: int | None) -> list[int]:
    """The lines that have rows, and the first that was not judged, if there is one."""
    lines = [*trace.state.line]
    if unjudged is not None and unjudged <= len(trace.lines):
        lines.append(unjudged)
    return lines


def are_short(trace: Trace, most: int) -> bool:
    """Whether each timer that was late by so much at most was late by less than its timeout."""
    return all(it.amount < it.timeout for it in late_timers(trace) if it.amount <= most)


def awaited_early(trace: Trace) -> list[bool]:
    """Of each row, whether ack-eliciting packets of the Initial or the Handshake space are awaited
    after it. Without them a client's timer there is that against a deadlock."""
    packets = trace.packets
    changes = [0] * (len(trace.lines) + 1)
    for place, line in enumerate(packets.line):
        if packets.space[place] == APP or not packets.flags[place] & ELICITING:
            continue
        ends = (packets.acked[place], packets.lost[place], packets.gone[place])
        changes[line] += 1
        changes[min(filter(None, ends), default=0)] -= 1
    # Those that never end were taken off at the line 0, which there is not.
    changes[0] = 0
    awaited = list(accumulate(changes))
    return [awaited[line] > 0 for line in trace.state.line]


def timeout_of(trace: Trace, row: int) -> int:
    """How long the timer runs that is set after a row: the loss delay (RFC 9002, 6.1.2), or the
    probe timeout with its doubling (6.2.1)."""
    amounts, timer = trace.state.amounts, trace.state.timer[row]
    latest, smoothed, rttvar, doubled = (
        amounts[name][row] or 0 for name in ("latest_rtt", "smoothed_rtt", "rttvar", "pto_count")
    )
    granularity = millisecond(trace.unit)
    if timer >= OF_LOSS:
        return max((9 * max(latest, smoothed) + 7) // 8, granularity)
    delay = int(trace.header.get("max_ack_delay", 0)) if timer == APP else 0
    return (smoothed + max(4 * rttvar, granularity) + delay) << doubled


def millisecond(unit: str) -> int:
    """How many units of time are a millisecond, the granularity of timers. None runs shorter."""
    return NANOSECONDS_IN_A_MILLISECOND // NANOSECONDS[unit]
