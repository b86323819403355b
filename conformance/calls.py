"""Sequences of calls of the library for C, each with what it has to return.

A sequence is made from its seed alone. It hands in a trace of the corpus: pieces of any length and
events as structs, in the order of the trace, and among them calls that have nothing to do or may
not be made there: an event inside a line, an event that no line can say, a verdict before there is
one, two ends, and pieces, events and ends behind the end.

What each call has to return is worked out here from the trace and its report: include/qaudit.h says
it in words. Where a sequence ends early, the report is that of sender.py for the lines so far.
"""

import json
import random
from collections.abc import Iterator
from functools import cache
from pathlib import Path
from typing import NamedTuple

from sender import Event, report_of
from structs import command_of
from trials import fixed_at

OPEN, FIXED, FINISHED, CLOSED, OUT_OF_RANGE, INSIDE_LINE = 0, 1, 2, 4, 5, 7
# Events that no line can say: of no bytes, of the application's keys, of no ranges, of a range that
# falls, and at a time, in a space and with a number that are none.
OUT_OF_RANGE_EVENTS = (
    b"sent 0 0 0 2 0 1 1",
    b"discard 0 2",
    b"lost 0 2 0",
    b"ack 0 0 2 0 1 5 4",
    b"confirmed 1000000000000001",
    b"keys 18446744073709551615",
    b"timer 0 2 0",
    b"sent 0 4611686018427387904 1200 2 0 1 1",
)
# An event that fits, wherever it is.
EVENT = b"confirmed 0"
LONGEST = 600
SHORTEST_OF_LONG = 4096
# So many calls behind the end of a trace, at most.
BEHIND = 6


class Given(NamedTuple):
    """A trace of the corpus, its report, and after how many bytes its verdict is fixed."""

    data: bytes
    report: bytes
    fixed: int | None


@cache
def given_by(trace: Path) -> Given:
    """A trace of the corpus with its report."""
    data, report = trace.read_bytes(), trace.with_suffix(".report").read_bytes()
    return Given(data, report, fixed_at(data, report))


class Call(NamedTuple):
    """A command of library.c, and what it has to write."""

    command: bytes
    answer: bytes


class Handed:
    """What was handed in of a trace so far, and what a handle answers then."""

    def __init__(self, given: Given) -> None:
        self.given = given
        self.at = 0
        self.report: bytes | None = None
        self.is_finished = False

    @property
    def phase(self) -> int:
        """How far it is."""
        if self.report is None:
            return OPEN
        return FINISHED if self.is_finished else FIXED

    @property
    def rest(self) -> bytes:
        """What was not handed in yet."""
        return self.given.data[self.at :]

    @property
    def is_between_lines(self) -> bool:
        """Whether the next byte begins a line."""
        return self.at == 0 or self.given.data[self.at - 1 : self.at] == b"\n"

    def take(self, count: int) -> int:
        """Takes the next bytes of the trace, and returns how far it is then."""
        if self.phase == OPEN:
            self.at += count
            if self.given.fixed is not None and self.at >= self.given.fixed:
                self.report = self.given.report
        return self.phase

    def answer_of_event(self, otherwise: int) -> int:
        """What an event returns that is not taken."""
        if self.phase != OPEN:
            return self.phase
        return otherwise if self.is_between_lines else INSIDE_LINE

    @property
    def may_end(self) -> bool:
        """Whether the report is known here of a trace that ends."""
        return not self.rest or self.is_between_lines

    def finish(self) -> int:
        """Says that nothing follows."""
        if self.report is None:
            self.report = self.given.report if not self.rest else report_of_lines(self.taken)
        self.is_finished = True
        return self.phase

    @property
    def taken(self) -> list[bytes]:
        """The lines that were handed in, all of which are good."""
        return self.given.data[: self.at].split(b"\n")[:-1]


def report_of_lines(lines: list[bytes]) -> bytes:
    """The report of good lines."""
    said: list[tuple[int, Event]] = [
        (number, json.loads(line)) for number, line in enumerate(lines, 1) if line.strip()
    ]
    if not said:
        return b"unreadable line %d F7 header-place\n" % (len(lines) + 1)
    return report_of(said[0][1], said[1:]).encode()


def sequence(seed: int, traces: list[Path]) -> Iterator[Call]:
    """The calls of a sequence."""
    chance = random.Random(seed)
    handed = Handed(given_by(chance.choice(traces)))
    if chance.random() < 0.05:
        yield Call(b"status 0", status(CLOSED))
        yield Call(chance.choice((b"finish 0", EVENT)), status(CLOSED))
    yield Call(b"open 0", status(OPEN))
    ends_early = chance.random() < 0.2
    while handed.rest and handed.phase == OPEN:
        if ends_early and handed.may_end and chance.random() < 0.05:
            break
        yield from step(handed, chance)
    if not handed.may_end:
        yield feed(handed, len(handed.rest))
    yield Call(b"finish 0", status(handed.finish()))
    for _ in range(chance.randrange(BEHIND)):
        yield from step(handed, chance)
    yield verdict(handed)
    yield Call(b"close 0", b"")


def step(handed: Handed, chance: random.Random) -> Iterator[Call]:
    """A call: mostly the next piece of the trace, or its next event."""
    draw = chance.random()
    if draw < 0.04:
        yield Call(b"status 0", status(handed.phase))
    elif draw < 0.08:
        yield verdict(handed)
    elif draw < 0.12:
        command = chance.choice(OUT_OF_RANGE_EVENTS)
        yield Call(command, status(handed.answer_of_event(OUT_OF_RANGE)))
    elif draw < 0.16 and (handed.phase != OPEN or not handed.is_between_lines):
        yield Call(EVENT, status(handed.answer_of_event(OPEN)))
    elif draw < 0.2 and handed.phase != OPEN:
        yield Call(b"finish 0", status(handed.finish()))
    elif draw < 0.7 and handed.phase == OPEN and handed.is_between_lines:
        yield event_or_line(handed)
    else:
        most = LONGEST if len(handed.given.data) < SHORTEST_OF_LONG else SHORTEST_OF_LONG
        yield feed(handed, min(len(handed.rest), chance.randrange(most)))


def event_or_line(handed: Handed) -> Call:
    """The next line as a struct, where one says it."""
    line, end, _ = handed.rest.partition(b"\n")
    command = command_of(line) if end else None
    if command is None:
        return feed(handed, len(line + end))
    return Call(command.rstrip(b"\n"), status(handed.take(len(line + end))))


def feed(handed: Handed, count: int) -> Call:
    """The next bytes."""
    piece = handed.rest[:count]
    return Call(b"feed %d\n%b" % (len(piece), piece), status(handed.take(count)))


def verdict(handed: Handed) -> Call:
    """The verdict, where there is one."""
    text = handed.report or b""
    return Call(b"verdict 0", b"report %d\n%b" % (len(text), text))


def status(number: int) -> bytes:
    """What is written of a status."""
    return b"%d\n" % number


def commands(calls: list[Call]) -> bytes:
    """The calls as library.c reads them: each ends with LF, but bytes that are fed."""
    return b"".join(
        call.command if call.command.startswith(b"feed ") else call.command + b"\n"
        for call in calls
    )
