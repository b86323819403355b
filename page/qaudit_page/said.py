"""What lines say, as columns, so that a process that reads rows hands on numbers and no objects."""

from collections.abc import Sequence
from dataclasses import dataclass, field
from itertools import compress
from operator import itemgetter
from typing import NamedTuple

from .lenient import METRICS, SPACES, Event

NO_SPACE = 3
# Beside the space of a line: that a timer is the one for losses.
OF_LOSS = 4
# How it is written what a timer is set for.
TIMERS: dict[tuple[str | None, str | None], int] = {
    (None, None): NO_SPACE,
    **{("pto", name): space for space, name in enumerate(SPACES)},
    **{("loss", name): space + OF_LOSS for space, name in enumerate(SPACES)},
}
SPACE_OF = {name: space for space, name in enumerate(SPACES)}
# How the kind of a line is written, a character a line.
KINDS = {
    "header": "h",
    "sent": "s",
    "ack": "a",
    "lost": "l",
    "timer": "t",
    "discard": "d",
    "confirmed": "c",
    "keys": "k",
    "metrics": "m",
}
CODES = {name: ord(kind) for name, kind in KINDS.items()}
ELICITING, IN_FLIGHT, PROBE, RECOVERY = 1, 2, 4, 8
LEAVES = {"probe": PROBE, "recovery": RECOVERY}
# Lines that say what became of packets.
MARKS = ("ack", "lost", "discard")
# The time of a header, which says none.
NO_TIME = -1


class Mark(NamedTuple):
    """An acknowledgment, a loss or a discard: its kind, its place among the lines, its space, its
    ranges, and how many packets come before it."""

    kind: str
    place: int
    space: int
    ranges: list[list[int]]
    sent: int


@dataclass
class Said:
    """What some lines say. A place is that of a line among them, from 0 on."""

    kind: bytes
    time: list[int]
    space: bytearray
    header: Event | None = None
    # Of each packet that was sent.
    place: list[int] = field(default_factory=list)
    number: list[int] = field(default_factory=list)
    size: list[int] = field(default_factory=list)
    flags: list[int] = field(default_factory=list)
    marks: list[Mark] = field(default_factory=list)
    # The acknowledgments that say that the sender was limited.
    limited: list[int] = field(default_factory=list)
    metrics: list[tuple[int, list[int | None]]] = field(default_factory=list)


def said_of(events: Sequence[Event]) -> Said:
    """What events say. KeyError, TypeError or ValueError where one is none."""
    names = list(map(itemgetter("event"), events))
    said = Said(bytes(map(CODES.__getitem__, names)), [], bytearray([NO_SPACE]) * len(names))
    if "header" in names:
        pairs = zip(names, events, strict=True)
        said.time = [NO_TIME if name == "header" else it["time"] for name, it in pairs]
    else:
        said.time = list(map(itemgetter("time"), events))
    said.place = list(compress(range(len(names)), map("sent".__eq__, names)))
    packets = [events[place] for place in said.place]
    said.number = list(map(itemgetter("number"), packets))
    said.size = list(map(itemgetter("size"), packets))
    said.flags = list(map(flags_of, packets))
    for place, name in zip(said.place, map(itemgetter("space"), packets), strict=True):
        said.space[place] = SPACE_OF[name]
    others = compress(range(len(names)), map("sent".__ne__, names))
    for before, place in enumerate(others):
        add(said, place, events[place], place - before)
    return said


def flags_of(packet: Event) -> int:
    """What a packet is: the sum of its flags."""
    flags = ELICITING if packet.get("eliciting") is True else 0
    flags += IN_FLIGHT if packet.get("in_flight") is True else 0
    leave = packet.get("leave")
    return flags + (LEAVES.get(leave, 0) if isinstance(leave, str) else 0)


def add(said: Said, place: int, event: Event, sent: int) -> None:
    """What a line says that is no packet, with so many packets before it."""
    name = event["event"]
    if name == "header":
        said.header = event
    elif name == "metrics":
        said.metrics.append((place, [event.get(it) for it in METRICS]))
    elif name == "timer":
        said.space[place] = TIMERS[event["kind"], event["space"]]
    elif name in MARKS:
        space = said.space[place] = SPACE_OF[event["space"]]
        ranges = [] if name == "discard" else event["ranges"]
        said.marks.append(Mark(name, place, space, ranges, sent))
        if name == "ack" and event.get("limited") is True:
            said.limited.append(place)
