"""What the script of a page draws: columns of a part of a trace, packed."""

import base64
import json
import zlib
from bisect import bisect_left, bisect_right
from collections.abc import Callable, Iterable, Iterator, Sequence
from concurrent.futures import ThreadPoolExecutor
from dataclasses import dataclass
from itertools import chain, compress
from operator import itemgetter, sub
from typing import Any, cast

from .departures import Departures, departures_of
from .failure import Failure, Status
from .held import needed
from .lenient import METRICS, SPACES
from .program import Object, Verdict
from .rows import AMOUNTS
from .said import ELICITING
from .texts import count, decoded
from .timers import late_timers
from .trace import Trace

# What a page takes; docs/page.md has what it costs.
MAX_LINES = 500_000
MAX_BYTES = 100_000_000
# Of a line that is longer than any that is read, as much is shown.
MAX_SHOWN = 65_536
SHOWN_OF_LONG = 2_000
# The greatest integer that a script holds exactly, with all below it.
EXACT = 2**53 - 1
NOTHING = -1
DIGITS = bytes(range(48, 58)) + bytes(246)
# How well columns and lines are deflated: above this nothing is gained.
LEVEL = 8


@dataclass(frozen=True)
class Part:
    """The lines that are shown, the first and the last."""

    first: int
    last: int

    def has(self, line: int) -> bool:
        """Whether a line is shown."""
        return self.first <= line <= self.last


def part_of(trace: Trace, verdict: Verdict, first: int | None, last: int | None) -> Part:
    """The part that is asked for. Failure where it has no line, or more than a page takes."""
    total = len(trace.lines)
    part = Part(first or 1, min(last or total, total))
    if total and part.first > part.last:
        text = f"there is no line from {part.first} to {last or total}: the trace has {total}"
        raise Failure(text, Status.UNSHOWN)
    if fits(trace, part):
        return part
    smaller = part_that_fits(trace, verdict, part)
    text = (
        f"lines {count(part.first)} to {count(part.last)} are more than a page takes,"
        f" {count(MAX_LINES)} lines and {count(MAX_BYTES)} bytes:"
        f" --from {smaller.first} --to {smaller.last} would do"
    )
    raise Failure(text, Status.UNSHOWN)


def shown_bytes(line: bytes) -> int:
    """How many bytes of a line a page has."""
    return len(line) + 1 if len(line) <= MAX_SHOWN else SHOWN_OF_LONG


def are_short(lines: list[bytes]) -> bool:
    """Whether all lines are shown whole."""
    return max(map(len, lines), default=0) <= MAX_SHOWN


def fits(trace: Trace, part: Part) -> bool:
    """Whether a page takes a part of a trace."""
    lines = trace.lines[part.first - 1 : part.last]
    size = sum(map(len, lines)) + len(lines) if are_short(lines) else sum(map(shown_bytes, lines))
    return len(lines) <= MAX_LINES and size <= MAX_BYTES


def part_that_fits(trace: Trace, verdict: Verdict, part: Part) -> Part:
    """A part that a page takes, about the line of the verdict, or from the first line on."""
    middle = verdict.line if part.has(verdict.line) else part.first
    low = high = middle
    room = MAX_BYTES - shown_bytes(trace.lines[middle - 1])
    while high - low + 1 < MAX_LINES:
        is_before = low > part.first and (middle - low <= high - middle or high == part.last)
        line = low - 1 if is_before else high + 1
        room -= shown_bytes(trace.lines[line - 1]) if line <= part.last else MAX_BYTES
        if room < 0:
            break
        low, high = min(low, line), max(high, line)
    return Part(low, high)


# Columns.


def shown_of(part: Part, rows: Sequence[Any], line: Callable[[Any], int] | None = None) -> slice:
    """Which of some rows are shown; their lines rise, and are the rows where none is asked for."""
    return slice(bisect_left(rows, part.first, key=line), bisect_right(rows, part.last, key=line))


def differences(values: Iterable[int]) -> list[int]:
    """Each value less the one before it."""
    listed = values if isinstance(values, list) else list(values)
    return list(map(sub, listed, chain((0,), listed)))


def present(values: Sequence[int | None]) -> tuple[Sequence[int], bool]:
    """Values with -1 for none, and whether a script holds all of them exactly."""
    try:
        held = cast(Sequence[int], values)
        return held, max(held, default=0) <= EXACT
    except TypeError:
        # One of them is none.
        held = [NOTHING if it is None else it for it in values]
        return held, max(held, default=0) <= EXACT


def column(values: Sequence[int | None]) -> Object:
    """A column that a script can hold: what it would round is there as digits too."""
    held, is_held = present(values)
    if is_held:
        return {"by": differences(held), "exact": {}}
    return {"by": differences(min(it, EXACT) for it in held), "exact": exact(values)}


def exact(values: Sequence[int | None]) -> dict[int, str]:
    """The digits of those values that a script does not hold exactly, by their places."""
    return {place: str(it) for place, it in enumerate(values) if it and it > EXACT}


def digits(codes: bytes | bytearray) -> str:
    """Codes below ten, a digit each."""
    return codes.translate(DIGITS).decode()


def state_of(trace: Trace, part: Part) -> Object:
    """The state behind the lines of a part that have a row."""
    state = trace.state
    rows = shown_of(part, state.line)
    lines = state.line[rows]
    amounts = {name: state.amounts[name][rows] for name in AMOUNTS}
    deadlines = amounts.pop("deadline")
    found: Object = {name: column(values) for name, values in amounts.items()}
    found["deadline"] = remaining(trace, lines, deadlines)
    found["line"] = differences(lines)
    found["timer"] = digits(state.timer[rows])
    found["owed"] = differences(state.owed[rows])
    owed = state.owed_text.items()
    found["owed_text"] = {
        row - rows.start: text for row, text in owed if rows.start <= row < rows.stop
    }
    return found


def remaining(trace: Trace, lines: list[int], deadlines: Sequence[int | None]) -> Object:
    """How long after each line the timer is set for, which repeats where deadlines rise."""
    times = trace.time
    dues, is_held = present(deadlines)
    pairs = zip(lines, dues if is_held else [min(due, EXACT) for due in dues], strict=True)
    after = [0 if due == NOTHING else due - times[line - 1] for line, due in pairs]
    return {"by": differences(after), "exact": {} if is_held else exact(deadlines)}


def packets_of(trace: Trace, part: Part) -> Object:
    """The packets of a part, behind those from before it that were not ended there."""
    packets = trace.packets
    shown = shown_of(part, packets.line)
    before = [place for place in range(shown.start) if is_open_at(trace, part, place)]

    def kept(values: list[int]) -> list[int]:
        return [values[place] for place in before] + values[shown]

    lines, numbers, spaces = kept(packets.line), kept(packets.number), kept(packets.space)
    # Numbers count from the least of their space, and so stay exact where they are great.
    least = [
        min(compress(numbers, map(space.__eq__, spaces)), default=0) for space in range(len(SPACES))
    ]
    found: Object = {
        "line": differences(lines),
        "space": digits(bytes(spaces)),
        "least": [str(number) for number in least],
        "number": column(list(map(sub, numbers, map(least.__getitem__, spaces)))),
        "size": differences(kept(packets.size)),
        # A digit in base 16 each.
        "flags": bytes(kept(packets.flags)).hex()[1::2],
        "before": [trace.time[line - 1] for line in lines[: len(before)]],
    }
    for name in ("acked", "lost", "gone"):
        ends = zip(kept(getattr(packets, name)), lines, strict=False)
        found[name] = [end - line if end else 0 for end, line in ends]
    return found


def is_open_at(trace: Trace, part: Part, place: int) -> bool:
    """Whether a packet that was sent before a part is open where it begins."""
    packets = trace.packets
    ends = [it for it in (packets.acked[place], packets.lost[place], packets.gone[place]) if it]
    is_awaited = bool(packets.flags[place] & ELICITING)
    return min(ends) >= part.first if ends else is_awaited


def acks_of(trace: Trace, part: Part, least: list[int]) -> Object:
    """The greatest number of each acknowledgment, from the least of its space that is shown."""
    acks = trace.acks[shown_of(part, trace.acks, itemgetter(0))]
    found: Object = {"line": differences(line for line, _ in acks)}
    spaces = [trace.space[line - 1] for line, _ in acks]
    from_least = [
        max(0, greatest - least[space]) for (_, greatest), space in zip(acks, spaces, strict=True)
    ]
    return found | {"greatest": column(from_least)}


def metrics_of(trace: Trace, part: Part) -> Object:
    """The reported values, a column each."""
    reports = trace.metrics[shown_of(part, trace.metrics, itemgetter(0))]
    found: Object = {"line": differences(line for line, _ in reports)}
    for place, name in enumerate(METRICS):
        found[name] = column([values[place] for _, values in reports])
    return found


def told_of(verdict: Verdict, unit: str) -> Object:
    """What a diagram has of a verdict."""
    return {
        "kind": verdict.kind,
        "line": verdict.line,
        "rule": verdict.rule,
        "name": verdict.name,
        "field": verdict.said.get("field"),
        "deadline": verdict.said.get(f"deadline_{unit}"),
    }


def marked(kind: Departures, part: Part) -> Object:
    """The departures of a kind that are marked in the diagrams of a part."""
    lines = differences(line for line in kind.lines if part.has(line))
    return {"rule": kind.rule, "name": kind.name, "field": kind.field, "lines": lines}


def held_of(held: bytearray, trace: Trace, verdict: Verdict, part: Part) -> Object:
    """What held the sender back after each row of a part; the events that came after a deadline,
    and by how much; and how many bytes have to be left in a window that is not full."""
    late = [it for it in late_timers(trace, verdict.first_unjudged) if part.has(it.line)]
    return {
        "after": digits(held[shown_of(part, trace.state.line)]),
        "line": differences(it.line for it in late),
        "late": [it.amount for it in late],
        "needed": needed(trace),
    }


def payload(trace: Trace, verdict: Verdict, part: Part, held: bytearray) -> Object:
    """All that the script of a page draws, but for the text of the lines."""
    lines = slice(part.first - 1, part.last)
    header, packets = trace.header, packets_of(trace, part)
    return {
        "first": part.first,
        "count": max(0, part.last - part.first + 1),
        "total": len(trace.lines),
        "unit": trace.unit,
        "unjudged": verdict.first_unjudged,
        "max_ack_delay": header.get("max_ack_delay", 0),
        "timer_late_us": header.get("timer_late_us"),
        "verdict": told_of(verdict, trace.unit),
        "end": told_of(verdict.end, trace.unit) if verdict.end is not verdict else None,
        "departures": [marked(kind, part) for kind in departures_of(verdict)],
        "kind": trace.kind[lines].decode(),
        "space": digits(trace.space[lines]),
        "time": differences(trace.time[lines]),
        "state": state_of(trace, part),
        "held": held_of(held, trace, verdict, part),
        "packets": packets,
        "acks": acks_of(trace, part, list(map(int, packets["least"]))),
        "metrics": metrics_of(trace, part),
    }


def shown(line: bytes) -> str:
    """A line as text; the beginning of one that is too long."""
    if len(line) <= MAX_SHOWN:
        return decoded(line)
    return f"{decoded(line[:SHOWN_OF_LONG])} .. ({count(len(line))} bytes, cut here)"


def text_of(trace: Trace, part: Part) -> str:
    """The lines of a part as one text."""
    lines = trace.lines[part.first - 1 : part.last]
    return decoded(b"\n".join(lines)) if are_short(lines) else "\n".join(map(shown, lines))


def packed(*parts: str) -> str:
    """Text, deflated and in base64, so that nothing in it can end an element of the page."""
    return packed_of(parts)


def packed_of(parts: Iterable[str]) -> str:
    """The same of a text in parts, each of which is deflated while the next one is made."""
    deflating = zlib.compressobj(LEVEL)
    with ThreadPoolExecutor(1) as pool:
        begun = [pool.submit(deflating.compress, encoded(part)) for part in parts]
        data = b"".join(it.result() for it in begun) + deflating.flush()
    return base64.b64encode(data).decode("ascii")


def encoded(text: str) -> bytes:
    """The bytes of a text."""
    return text.encode("utf-8", "backslashreplace")


def json_of(columns: Object) -> Iterator[str]:
    """An object as JSON, a member of a member at a time."""
    before = "{"
    for name, value in columns.items():
        yield f"{before}{json.dumps(name)}:"
        if isinstance(value, dict) and value:
            inner = "{"
            for key, column in value.items():
                yield f"{inner}{json.dumps(key)}:{json.dumps(column, separators=(',', ':'))}"
                inner = ","
            yield "}"
        else:
            yield json.dumps(value, separators=(",", ":"))
        before = ","
    yield "}"
