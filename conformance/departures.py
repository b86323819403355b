"""What `qaudit-why --all` writes of a trace: each kind of departure from the rules of conduct, how
the trace ends, and a table of all departures.

A rule of conduct says what a sender should have done, and an event that breaks no other rule is
followed all the same. The facts come from the sender of sender.py, and of a line that cannot be
read from the report of its trace; where such a line comes behind what the report says, from
faults.py. It shares nothing with the proved program.

`python3 conformance/departures.py TRACE` writes the text of a trace to standard output.
`departures.py --write` writes traces/NAME.all for the traces that STORED names.
"""

import argparse
import sys
from collections.abc import Iterator
from dataclasses import dataclass, field
from pathlib import Path
from typing import NamedTuple

import caveats
from allowed import Rest
from constants import METRICS, METRICS_IN_BYTES, MOST_DOUBLINGS, OF_CONDUCT, Rule
from faults import fault_of
from objects import Facts, Object, broken, owed_at_end, unit_of, unreadable
from names import shown_name
from sender import Event, Sender
from sources import rule_of
from why import (
    Verdict,
    accepted,
    breaks,
    due_of,
    head_of,
    not_read,
    packets_due_of,
    refused_end,
    said_by,
    verdict_of,
    why,
    with_place,
)

FOLDER = Path(__file__).resolve().parent

# Traces whose texts are kept as files: those of each rule of conduct, which go on behind it or not,
# of other rules, and of each other verdict.
STORED = (
    "anti-deadlock",
    "broken-and-allowed",
    "collapse-missing",
    "collapse-missing-and-a-late-timer",
    "collapse-missing-twice",
    "departure-and-a-loss-owed-at-the-end",
    "departure-and-then-a-key-missing",
    "departure-and-then-a-loss-set",
    "departure-and-then-a-second-header",
    "departure-and-then-no-json",
    "departures-in-nanoseconds",
    "departures-of-each-rule-of-conduct",
    "differing-min-rtt",
    "differing-rttvar",
    "differing-ssthresh",
    "differing-window-with-a-time-beside",
    "early-timer-and-a-probe-owed",
    "early-timers-are-doubled",
    "early-timers-past-64-bits",
    "early-timers-past-the-fortieth-doubling",
    "eleventh-past-window",
    "empty-input",
    "end-while-loss-owed",
    "first-differing-field",
    "handshake-probe-without-timer",
    "handshake-timer-early",
    "late-and-past-the-window",
    "late-event-and-a-collapse-missing",
    "loss-set-partial",
    "loss-timer-early",
    "nanoseconds-past-slack",
    "no-event",
    "overshoot-past-a-halved-window",
    "probe-owed",
    "probe-past-allowance",
    "probe-without-pto",
    "quinn-growth-before-the-loss",
    "quinn-handshake-loss-too-late",
    "quinn-sends-alone",
    "recovery-without-entry",
    "reported-by-newreno",
    "reported-window-with-a-time-beside",
    "second-recovery-packet",
    "sent-after-the-deadline",
    "several-departures",
    "ssthresh-where-none",
    "time-back",
    "timer-late",
    "two-departures-at-one-event",
    "two-logs-joined",
)
# The kinds of departures, as a report names their rules, in the order of the rules.
KINDS = tuple(
    it
    for rule in OF_CONDUCT
    for it in ([f"{rule} {name}" for name in METRICS] if rule == Rule.METRIC else [str(rule)])
)
IN_BYTES = (
    Rule.PAST_WINDOW,
    Rule.PAST_PROBE,
    Rule.COLLAPSE_MISSING,
    *(f"{Rule.METRIC} {name}" for name in METRICS_IN_BYTES),
)


class Departure(NamedTuple):
    """A rule of conduct that an event broke, as a report names it, and by how much."""

    line: int
    what: str
    amount: int | None


class First(NamedTuple):
    """What is written of the first departure of a kind, and its line."""

    line: int
    text: bytes


@dataclass
class Course:
    """What came of a trace: its verdict once departures are passed over, the departures, how many
    events were followed, and what is written of the first departure of each kind and of the end.
    Beside its text the end of a trace whose lines were followed is there as an object. Of a trace
    that ends as one that is accepted `rest` has what that rests on (allowed.py), and `is_strict`
    says that nothing was allowed."""

    verdict: str = "accepted"
    departures: list[Departure] = field(default_factory=list)
    events: int = 0
    unit: str = "us"
    firsts: list[First] = field(default_factory=list)
    end: bytes = b""
    ending: Object = field(default_factory=dict)
    rest: bytes = b""
    is_strict: bool = True

    @property
    def word(self) -> str:
        """The verdict by which the exit status goes."""
        is_whole = self.verdict == "accepted" and not self.departures
        return "accepted" if is_whole else self.verdict.replace("accepted", "refused")


def text_of(name: str, trace: bytes, report: str) -> bytes:
    """What is written of a trace whose report is this, under a name."""
    return written(name, course_of(name, trace, report))


def written(name: str, course: Course) -> bytes:
    """What is written of a course."""
    firsts = b"".join(it.text for it in course.firsts)
    return firsts + end_of(course) + table_text(name, course) + course.rest


def end_of(course: Course) -> bytes:
    """What is written of the end of a course: nothing where it is accepted but for departures."""
    is_told = course.verdict != "accepted" or not course.departures
    return course.end if is_told else b""


def table_text(name: str, course: Course) -> bytes:
    """The table of a course."""
    return "".join(table_of(name, course)).encode()


# Courses.


def course_of(name: str, trace: bytes, report: str) -> Course:
    """What comes of a trace whose report is this."""
    if verdict_of(report).word == "unreadable":
        # Nothing above that line breaks a rule.
        return Course("unreadable", end=why(name, trace, report))
    return Follower(name, trace.split(b"\n")).course()


class Follower:
    """Follows the events of a trace past departures."""

    def __init__(self, name: str, lines: list[bytes]) -> None:
        self.name = name
        self.lines = lines
        header = next(it for it in lines if is_said(it))
        self.sender = Sender(said_by(header))
        self.found = Course(unit=unit_of(said_by(header)))
        self.facts = Facts(self.sender, self.found.unit)
        self.rest = Rest(said_by(header), self.sender, lines)

    def course(self) -> Course:
        """What comes of the trace."""
        numbers = [number for number, line in enumerate(self.lines, 1) if is_said(line)]
        last = numbers[0]
        for number in numbers[1:]:
            if self.is_end(number):
                return self.ended()
            last = number
        if self.sender.owed:
            head = head_of(self.name, last, "refused", Rule.OWED_AT_END)
            facts: Object = {"line": last} | owed_at_end(self.facts)
            end = caveats.Refusal(last, Rule.OWED_AT_END, b"")
            behind = caveats.text_of(self.lines, end)
            self.end_as("refused", head + refused_end(self.sender) + behind, facts)
        else:
            events = self.sender.events
            facts = {"events": events} | self.rest.members()
            self.end_as("accepted", accepted(self.name, events), facts)
            self.found.rest, self.found.is_strict = self.rest.text(), self.rest.is_strict
        return self.ended()

    def ended(self) -> Course:
        """What came of the trace, once no event is followed any more."""
        self.found.events = self.sender.events
        return self.found

    def end_as(self, verdict: str, text: bytes, facts: Object) -> None:
        """The trace ends with this verdict."""
        self.found.verdict, self.found.end = verdict, text
        self.found.ending = {"verdict": verdict} | facts

    def is_end(self, number: int) -> bool:
        """Whether a line ends the trace; follows what it says where it does not."""
        line = self.lines[number - 1]
        fault = fault_of(line)
        if fault is not None:
            verdict = Verdict("unreadable", number, fault, is_headed=True)
            facts = {"line": number} | unreadable(verdict, self.lines)
            self.end_as("unreadable", not_read(self.name, verdict, self.lines), facts)
            return True
        event = said_by(line)
        rules = list(self.sender.broken(event))
        unborne = next((it for it in rules if not is_borne(self.sender, it)), None)
        if unborne is not None:
            facts = {"line": number} | broken(self.facts, event, unborne)
            refusal = caveats.Refusal(number, unborne, line)
            behind = caveats.text_of(self.lines[: number - 1], refusal)
            text = self.text_of(number, event, "refused", unborne)
            self.end_as("refused", text + behind, facts)
            return True
        for what in rules:
            self.depart(number, event, what)
        if not rules:
            self.rest.before(number, event)
        self.sender.follow(event)
        self.rest.after(event)
        return False

    def depart(self, number: int, event: Event, what: str) -> None:
        """Takes a rule that an event of a line breaks."""
        if all(it.what != what for it in self.found.departures):
            text = self.text_of(number, event, "departure", what)
            self.found.firsts.append(First(number, text))
        amount = amount_of(self.sender, event, what)
        self.found.departures.append(Departure(number, what, amount))

    def text_of(self, number: int, event: Event, word: str, what: str) -> bytes:
        """What is written of a rule that an event of a line breaks."""
        line = with_place(number, self.lines[number - 1])
        return head_of(self.name, number, word, what) + breaks(self.sender, event, what, line)


def is_said(line: bytes) -> bool:
    """Whether a line is not blank, or is too long for it."""
    return bool(line.strip(b" \t\r")) or fault_of(line) is not None


def is_borne(sender: Sender, what: str) -> bool:
    """Whether an event is followed that breaks this rule. An early timer is one only as long as its
    timeout can be doubled."""
    rule, _ = rule_of(what)
    can_double = rule != Rule.TIMER_EARLY or sender.pto_count < MOST_DOUBLINGS
    return rule in OF_CONDUCT and can_double


def amount_of(sender: Sender, event: Event, what: str) -> int | None:
    """By how much an event breaks a rule; None where that is no amount."""
    settings = sender.settings
    match rule_of(what):
        case Rule.PAST_WINDOW, _:
            return int(sender.bytes_in_flight + event["size"] - sender.window)
        case Rule.PAST_PROBE, _ if sender.probe_spent is not None:
            return int(sender.probe_spent + event["size"] - settings.probe_allowance)
        case Rule.TIMER_EARLY, _:
            return int(due_of(sender).time - event["time"])
        case Rule.METRIC, name:
            held = sender.total(name)
            return None if held is None else abs(event[name] - held)
        case Rule.TIMER_LATE, _:
            return int(event["time"] - max(packets_due_of(sender).time, sender.due_since))
        case Rule.COLLAPSE_MISSING, _:
            most = settings.minimum_window + (sender.acked_since_collapse or 0)
            return int(event["window"] - most)
    return None


# The table.


def table_of(name: str, course: Course) -> Iterator[str]:
    """The lines of the table of a course; none where it has no departures."""
    if not course.departures:
        return
    yield f"{shown_name(name)}: departs {times(len(course.departures))} in {course.events} events\n"
    for what in KINDS:
        found = [it for it in course.departures if it.what == what]
        if found:
            yield f"  {what}: {row_of(what, found, course.unit)}\n"


def row_of(what: str, found: list[Departure], unit: str) -> str:
    """How often a kind of departure came, where, and by how much."""
    is_once = len(found) == 1
    first, last = found[0].line, found[-1].line
    where = f"once, line {first}" if is_once else f"{times(len(found))}, lines {first} to {last}"
    amounts = [it.amount for it in found if it.amount is not None]
    if not amounts:
        return where
    most = f"{max(amounts)} {unit_of_amount(what, unit)}"
    return f"{where}, by {most}" if is_once else f"{where}, by at most {most}"


def unit_of_amount(what: str, unit: str) -> str:
    """The unit of by how much a kind departs, in a trace whose times have this unit."""
    return "bytes" if what in IN_BYTES else unit


def times(count: int) -> str:
    """So many times."""
    return "once" if count == 1 else f"{count} times"


# Files.


def text_of_file(path: Path) -> bytes:
    """The text of the trace in a file, by its report."""
    return text_of(path.name, path.read_bytes(), path.with_suffix(".report").read_text())


def write(traces: Path) -> None:
    """Writes each file of texts anew."""
    for name in STORED:
        trace = traces / f"{name}.trace"
        trace.with_suffix(".all").write_bytes(text_of_file(trace))


def main() -> int:
    """Writes the text of a trace, or the files."""
    parser = argparse.ArgumentParser(
        description=__doc__, formatter_class=argparse.RawDescriptionHelpFormatter
    )
    group = parser.add_mutually_exclusive_group(required=True)
    group.add_argument("--write", action="store_true", help="write traces/NAME.all anew")
    text = "a trace, beside which its report lies"
    group.add_argument("trace", metavar="TRACE", type=Path, nargs="?", help=text)
    arguments = parser.parse_args()
    if arguments.write:
        write(FOLDER / "traces")
    else:
        sys.stdout.buffer.write(text_of_file(arguments.trace))
    return 0


if __name__ == "__main__":
    sys.exit(main())
