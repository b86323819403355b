"""The first line at which two runs part: at which their events differ, apart from times."""

import json
from collections.abc import Iterator
from dataclasses import dataclass
from itertools import zip_longest
from typing import Any

from .conversion import object_of
from .facts import SET_FOR
from .lenient import SPACES, Event
from .texts import count, html, plural, size
from .trace import Trace

# The values of an event that are times, and so are other ones in each run.
TIMES = frozenset(("time", "delay", "latest_rtt", "min_rtt", "smoothed_rtt", "rttvar"))
# The keys that a logger has for itself begin so.
OWN = "x_"
# So many characters of an event are shown, if it is none that the format has.
MOST = 200
SHOWN_RANGES = 4


@dataclass(frozen=True)
class Parting:
    """How two runs differ: how many of their events are alike, and the lines of the first ones
    that are not; None for a run that ends before that."""

    alike: int
    lines: tuple[int | None, int | None]
    # The keys of the headers whose values differ.
    keys: tuple[str, ...] = ()

    @property
    def are_alike(self) -> bool:
        """Whether no event differs."""
        return self.lines == (None, None)


def parting_of(first: Trace, second: Trace) -> Parting:
    """The first event at which two runs part. Headers are compared by themselves."""
    alike, keys = 0, differing(header_of(first), header_of(second))
    for one, other in zip_longest(events_of(first), events_of(second)):
        if one is None or other is None or one[1] != other[1]:
            return Parting(alike, (one and one[0], other and other[0]), keys)
        alike += 1
    return Parting(alike, (None, None), keys)


def header_of(trace: Trace) -> Event:
    """The header of a trace as it was written."""
    return object_of(trace.lines[trace.state.line[0] - 1]) if trace.header else {}


def differing(first: Event, second: Event) -> tuple[str, ...]:
    """The keys whose values differ in two headers."""
    return tuple(
        key
        for key in {**first, **second}
        if not key.startswith(OWN) and first.get(key) != second.get(key)
    )


def events_of(trace: Trace) -> Iterator[tuple[int, str | bytes]]:
    """The lines of a trace that say something, but for the header, each with what it says apart
    from times."""
    header = trace.state.line[0] if trace.header else 0
    firsts = first_numbers(trace)
    for line, text in enumerate(trace.lines, 1):
        if text.strip(b" \t\r") and line != header:
            yield line, compared_by(text, firsts)


def first_numbers(trace: Trace) -> dict[str, int]:
    """The number of the first packet of each space. A sender may begin at any, as some do by
    chance."""
    packets = trace.packets
    firsts: dict[str, int] = {}
    for space, number in zip(packets.space, packets.number, strict=True):
        firsts.setdefault(SPACES[space], number)
    return firsts


def compared_by(text: bytes, firsts: dict[str, int]) -> str | bytes:
    """What a line says apart from times, in one form; of what is no object, its bytes."""
    said = timeless(object_of(text))
    try:
        return json.dumps(from_first(said, firsts), sort_keys=True) if said else text
    except RecursionError:
        return text


def from_first(said: Event, firsts: dict[str, int]) -> Event:
    """An event with its packet numbers counted from the first of its space."""
    first = firsts.get(str(said.get("space")), 0)
    number, ranges = said.get("number"), said.get("ranges")
    if number is not None and is_whole(number):
        return {**said, "number": number - first}
    if isinstance(ranges, list) and all(isinstance(it, list) for it in ranges):
        ends = [[end - first if is_whole(end) else end for end in it] for it in ranges]
        return {**said, "ranges": ends}
    return said


def is_whole(value: Any) -> bool:
    """Whether a value is a whole number, which true and false are not."""
    return isinstance(value, int) and not isinstance(value, bool)


def timeless(said: Event) -> Event:
    """An event without its times and what a logger says for itself."""
    return {
        key: value
        for key, value in said.items()
        if key not in TIMES and not key.startswith(OWN)
    }


# In words.


def section_of(
    parting: Parting, traces: tuple[Trace, Trace], names: tuple[str, str], runs: tuple[str, str]
) -> str:
    """Where two runs part, with both lines, each a link by what the page calls the run."""
    headers = f" The headers differ in {html(', '.join(parting.keys))}." if parting.keys else ""
    if parting.are_alike:
        events = plural(parting.alike, "event")
        told = f"<b>The runs are alike</b> in all {events}, apart from times."
        return f'<p id="parting">{told}{headers}</p>'
    rows = "".join(
        f"<dt>{html(name)}</dt> <dd>{line_of(line, trace, run)}</dd> "
        for line, trace, name, run in zip(parting.lines, traces, names, runs, strict=True)
    )
    are = "event is" if parting.alike == 1 else "events are"
    told = f"{count(parting.alike)} {are} alike, apart from times. <b>Then the runs part.</b>"
    return f'<div id="parting"><p>{told}{headers}</p> <dl>{rows}</dl></div>'


def line_of(line: int | None, trace: Trace, run: str) -> str:
    """A line of a run in words, with a link to it."""
    if line is None:
        return "the run has ended"
    words = html(words_of(trace.lines[line - 1]))
    return f'<a href="#{run}={line}">line {count(line)}</a>: {words}'


def words_of(text: bytes) -> str:
    """What a line says, apart from times, as it was written if it is no event of the format."""
    said = timeless(object_of(text))
    try:
        match said.get("event"):
            case "sent":
                return sent_words(said)
            case "ack" | "lost" as kind:
                what = "acknowledged" if kind == "ack" else "declared lost"
                return f"{what}: {said['space']} {ranges_of(said['ranges'])}{rest_of(said)}"
            case "timer":
                return f"fired: {SET_FOR[said['kind']]} of {said['space']}{rest_of(said)}"
            case "discard":
                return f"{said['space']} keys discarded{rest_of(said)}"
            case "confirmed" | "keys" as kind:
                return {"confirmed": "handshake confirmed", "keys": "Handshake keys"}[kind]
            case "header" | "metrics" as kind:
                return f"{kind}{rest_of(said)}"
    except (KeyError, TypeError, ValueError, RecursionError):
        pass
    shown = text.decode("utf-8", "backslashreplace")
    return shown if len(shown) <= MOST else f"{shown[:MOST]} .."


def sent_words(said: Event) -> str:
    """A packet in words."""
    told = [f"sent: {said['space']} {said['number']}", size(said["size"])]
    if not said.get("eliciting"):
        told.append("not ack-eliciting")
    if said.get("leave", "window") != "window":
        told.append({"probe": "a probe", "recovery": "on entry to recovery"}[said["leave"]])
    return ", ".join(told)


def ranges_of(ranges: list[list[int]]) -> str:
    """Ranges of packet numbers, of many the first ones."""
    shown = [str(low) if low == high else f"{low}-{high}" for low, high in ranges[:SHOWN_RANGES]]
    more = len(ranges) - len(shown)
    return ", ".join(shown) + (f" and {plural(more, 'range')} more" if more else "")


def rest_of(said: Event) -> str:
    """The other values of an event, as they are written."""
    known = ("event", "space", "ranges", "kind")
    told = [f"{key} {said[key]}" for key in said if key not in known]
    return f", {', '.join(told)}"[: MOST + 2] if told else ""
