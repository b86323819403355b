"""What an accepted verdict rests on, as `qaudit-why` tells it behind the verdict: what the header
allowed, what the sender chose, what was guessed, and how the trace ends.

It is worked out from docs/why.md ("What accepted says, and what it does not") by the sender of
sender.py, and shares nothing with the proved program: where the two write the same bytes, two
readings of the page agree.
"""

import json
from collections.abc import Iterator
from typing import NamedTuple

from amounts import bytes_text, in_bytes, time_text
from caveats import is_guessed
from constants import METRICS, METRICS_IN_BYTES, NANOSECONDS_IN_A_MICROSECOND, Rule
from sender import Deadline, Event, Sender
from sources import source_of

Object = dict[str, object]

# The key of the header by which a rule allows more.
KEYS: dict[str, str] = {
    Rule.PAST_WINDOW: "window_overshoot",
    Rule.TIMER_EARLY: "timer_early_us",
    Rule.TIMER_LATE: "timer_late_us",
    Rule.COLLAPSE_MISSING: "report_slack_bytes",
    **{
        f"{Rule.METRIC} {name}": (
            "report_slack_bytes" if name in METRICS_IN_BYTES else "report_slack_us"
        )
        for name in METRICS
    },
}
# The rules in their order, as a report names them.
IN_ORDER = (
    Rule.PAST_WINDOW,
    Rule.TIMER_EARLY,
    *(f"{Rule.METRIC} {name}" for name in METRICS),
    Rule.TIMER_LATE,
    Rule.COLLAPSE_MISSING,
)
# The words for what a timer is set for, where it is late.
TIMERS = {"pto": "pto", "loss": "loss timer"}
# The keys by which the model is another than the RFC's, in the order of the header, and the value
# that each has otherwise.
CHOICES = {
    "refresh_min_rtt": False,
    "window": "newreno",
    "sample_eliciting_only": False,
    "packet_threshold": 3,
    "loss_by_number": "must",
    "threshold_counts": "numbers",
    "reset_rtt": False,
    "latest_rtt_less_delay": False,
    "time_threshold_eighths": 9,
    "recovery_by_order": False,
}
OF_CHOICES = {
    "refresh_min_rtt": "by choice: persistent congestion refreshes min_rtt"
    " (refresh_min_rtt)",
    "window": 'not compared: the window and ssthresh (window "reported")',
    "sample_eliciting_only": "by choice: RTT samples of ack-eliciting packets only"
    " (sample_eliciting_only)",
    "packet_threshold": "by choice: a packet threshold of {} (packet_threshold)",
    "loss_by_number": "by choice: packets past the threshold may be spared"
    ' (loss_by_number "may")',
    "threshold_counts": "by choice: the packet threshold counts packets"
    ' (threshold_counts "packets")',
    "reset_rtt": "by choice: persistent congestion resets the RTT (reset_rtt)",
    "latest_rtt_less_delay": "by choice: the latest RTT is kept less the peer's delay"
    " (latest_rtt_less_delay)",
    "time_threshold_eighths": "by choice: a time threshold of {}/8 (time_threshold_eighths)",
    "recovery_by_order": "by choice: recovery goes by the order of the lines"
    " (recovery_by_order)",
}


class Allowance(NamedTuple):
    """By how much an event went past a rule that the header lets it pass."""

    line: int
    what: str
    amount: int


class Late(NamedTuple):
    """A timer that should have fired before an event, and by how long."""

    line: int
    due: Deadline
    amount: int


class Rest:
    """What the verdict on a trace rests on, which is shown each event before and after the sender
    follows it."""

    def __init__(self, header: Event, sender: Sender, lines: list[bytes]) -> None:
        self.header = {key: value for key, value in header.items() if value is not None}
        self.sender = sender
        self.is_in_nanoseconds = self.settled("unit", "us") == "ns"
        # The deadline, and since when it is that.
        self.due: Deadline | None = None
        self.since = 0
        self.last_time: int | None = None
        self.guesses = [at for at, line in enumerate(lines, 1) if is_guessed(line)]
        self.allowed: list[Allowance] = []
        self.lates: list[Late] = []

    def settled(self, key: str, default: object) -> object:
        """What the header says at a key of version 3, or with `timer_late_us`, `refresh_min_rtt`
        and the two slacks of version 2; a default where it leaves it out."""
        of_two = ("timer_late_us", "refresh_min_rtt", "report_slack_us", "report_slack_bytes")
        least = 2 if key in of_two else 3
        return self.header.get(key, default) if self.header["version"] >= least else default

    def before(self, line: int, event: Event) -> None:
        """Takes what the header allows an event of a line, which breaks no rule."""
        for what, amount in self.amounts(event):
            if amount > 0:
                self.allowed.append(Allowance(line, what, amount))
        due = self.sender.packet_deadline()
        amount = self.late_by(event)
        if due is not None and amount > 0:
            self.lates.append(Late(line, due, amount))

    def after(self, event: Event) -> None:
        """The sender has followed the event."""
        due = self.sender.deadline()
        if due is None or due != self.due:
            self.since = event["time"]
        self.due, self.last_time = due, event["time"]

    # The amounts.

    def amounts(self, event: Event) -> Iterator[tuple[str, int]]:
        """By how much an event goes past each rule that a header may let it pass."""
        sender = self.sender
        match event["event"]:
            case "sent" if event["in_flight"] and event.get("leave", "window") == "window":
                above = sender.bytes_in_flight + event["size"] - sender.window
                yield Rule.PAST_WINDOW, above
            case "timer":
                due = sender.deadline()
                yield Rule.TIMER_EARLY, due.time - event["time"] if due else 0
            case "metrics":
                yield from self.of_values(event)
        yield Rule.TIMER_LATE, self.late_by(event)
        if event["event"] == "metrics" and sender.is_other_window(event):
            most = sender.settings.minimum_window + (sender.acked_since_collapse or 0)
            is_collapsed = sender.acked_since_collapse is not None
            yield Rule.COLLAPSE_MISSING, event["window"] - most if is_collapsed else 0

    def of_values(self, event: Event) -> Iterator[tuple[str, int]]:
        """How far each reported value is from the sender's, where it is compared."""
        for name in METRICS:
            held = self.sender.total(name)
            if name in event and held is not None and self.sender.is_compared(name):
                yield f"{Rule.METRIC} {name}", abs(event[name] - held)

    def late_by(self, event: Event) -> int:
        """How long before the event a timer that packets set should have fired."""
        due = self.sender.packet_deadline()
        return 0 if due is None else int(max(event["time"] - max(due.time, self.since), 0))

    # What is told of it.

    @property
    def is_strict(self) -> bool:
        """Whether nothing was allowed."""
        return not self.allowed

    def rows(self) -> Iterator[tuple[str, list[Allowance]]]:
        """The rules that were passed, in their order, with each time."""
        for what in IN_ORDER:
            found = [it for it in self.allowed if it.what == what]
            if found:
                yield what, found

    def limit_of(self, what: str) -> int | None:
        """How much the header allows, as it says it; None where it sets no limit."""
        if what == Rule.PAST_WINDOW:
            return None
        limit = self.settled(KEYS[what], None if what == Rule.TIMER_LATE else 0)
        assert limit is None or isinstance(limit, int)
        return limit

    def choices(self) -> list[str]:
        """The keys by which the model is another, in the order of the header."""
        return [key for key, usual in CHOICES.items() if self.settled(key, usual) != usual]

    # As text.

    def text(self) -> bytes:
        """The lines behind the verdict."""
        return "".join(f"  {line}\n" for line in self.lines()).encode()

    def lines(self) -> Iterator[str]:
        """The lines behind the verdict, without what stands around each."""
        for what, found in self.rows():
            if what == Rule.TIMER_LATE and self.limit_of(what) is None:
                yield self.longest()
            else:
                yield f"allowed by the header: {self.row(what, found)}"
        for key in self.choices():
            yield OF_CHOICES[key].format(self.header[key])
        if self.guesses:
            yield f"guessed by the converter: {self.guessed()}"
        due = self.sender.deadline()
        if self.sender.bytes_in_flight or due:
            timer = "no timer is set"
            if due:
                timer = f"the {due.kind} timer of {due.space} due at {self.time(due.time)}"
            yield f"at the end: {self.sender.bytes_in_flight} bytes in flight, {timer}"

    def guessed(self) -> str:
        """How many lines were guessed, and the first of them."""
        first, *others = self.guesses
        if not others:
            return f"line {first}"
        return f"{len(self.guesses)} lines, the first is line {first}"

    def longest(self) -> str:
        """The timer that was the most late, the first of such."""
        late = max(self.lates, key=lambda it: it.amount)
        past = f"{self.time(late.amount)} past the {TIMERS[late.due.kind]} of {late.due.space}"
        return f"late timers: no limit in the header; at most {past}, at line {late.line}"

    def row(self, what: str, found: list[Allowance]) -> str:
        """How often a rule was passed, where, by how much, and by which key."""
        amounts = [it.amount for it in found]
        most = bytes_text(max(amounts)) if in_bytes(what) else self.time(max(amounts))
        limit = self.limit_of(what)
        key = KEYS[what] if limit is None else f"{KEYS[what]} {limit}"
        if len(found) == 1:
            return f"{what} once, line {found[0].line}, by {most} ({key})"
        where = f"{len(found)} times, lines {found[0].line} to {found[-1].line}"
        return f"{what} {where}, by at most {most} ({key})"

    def time(self, value: int) -> str:
        """A time as people read it, exact."""
        return time_text(value, is_in_nanoseconds=self.is_in_nanoseconds)

    @property
    def unit(self) -> str:
        """The unit of times."""
        return "ns" if self.is_in_nanoseconds else "us"

    # As members of an object.

    def members(self) -> Object:
        """The members behind those of the verdict."""
        guesses = {"count": len(self.guesses), "first": self.guesses[0]} if self.guesses else None
        return {
            "allowed": [*self.objects()],
            "choices": self.choices(),
            "guesses": guesses,
            "last": self.last(),
        }

    def objects(self) -> Iterator[Object]:
        """An object for each rule that was passed, in their order."""
        for what, found in self.rows():
            rule, name, *values = what.split(" ")
            unit = "bytes" if in_bytes(what) else self.unit
            limit = self.limit_of(what)
            if limit is not None and unit == "ns":
                limit *= NANOSECONDS_IN_A_MICROSECOND
            yield {
                "rule": rule,
                "name": name,
                **{"field": it for it in values},
                **source_of(what).members,
                "by": KEYS[what],
                f"limit_{unit}": limit,
                "count": len(found),
                "first": found[0].line,
                "last": found[-1].line,
                f"greatest_{unit}": max(it.amount for it in found),
            }

    def last(self) -> Object | None:
        """How the trace ends; None without an event."""
        if self.last_time is None:
            return None
        due = self.sender.deadline()
        return {
            f"time_{self.unit}": self.last_time,
            "in_flight_bytes": self.sender.bytes_in_flight,
            "set_kind": due.kind if due else None,
            "set_space": due.space if due else None,
            f"deadline_{self.unit}": due.time if due else None,
        }


def rest_of(trace: bytes) -> Rest:
    """What the verdict on an accepted trace rests on."""
    lines = trace.split(b"\n")
    there = [(at, line) for at, line in enumerate(lines, 1) if line.strip(b" \t\r")]
    header = json.loads(there[0][1])
    sender = Sender({key: value for key, value in header.items() if value is not None})
    rest = Rest(header, sender, lines)
    for at, line in there[1:]:
        said = json.loads(line)
        event = {key: value for key, value in said.items() if value is not None}
        rest.before(at, event)
        sender.follow(event)
        rest.after(event)
    return rest
