"""What the machine holds behind each line of a trace, as JSON, a row a line.

A row has the number of the line, what the line says as docs/format.md writes it (its keys in
ascending order, each with its value), and the state behind it. The state is that of the sender of
sender.py, which shares nothing with the proved program: where the two write the same bytes, two
readings of the RFC agree, line by line.

`python3 conformance/rows.py TRACE` writes the rows of a trace to standard output, of a trace of
the corpus up to the line that its report names. Any other trace is judged by sender.py, and its
lines are only as good as Python's reader of JSON finds them. `rows.py --write` writes
traces/NAME.rows for the traces that STORED names.
"""

import argparse
import json
import sys
from collections.abc import Iterator
from pathlib import Path

from constants import METRICS, Rule
from departures import Course, course_of
from objects import named, runs_of_numbers, unit_of
from sender import Event, Sender
from why import said_by, verdict_of

FOLDER = Path(__file__).resolve().parent
Object = dict[str, object]

# Traces whose rows are kept as files: each kind of event, each space, each version, nanoseconds,
# what is owed and free, persistent congestion, and each verdict.
STORED = (
    "ack-while-loss-owed",
    "all-choices-of-version-3",
    "anti-deadlock",
    "anti-deadlock-early",
    "anti-deadlock-keys-handshake",
    "app-pto",
    "blank-lines-past-a-piece",
    "collapse-at-the-bound",
    "collapse-by-a-named-packet",
    "collapse-missing-by-a-loss-timer",
    "discard-of-app",
    "eleventh-past-window",
    "empty-input",
    "end-while-loss-owed",
    "first-differing-field",
    "free-and-one-too-near",
    "free-in-nanoseconds",
    "handshake-loss-twice",
    "loss-set-partial",
    "loss-timer-early",
    "no-event",
    "nanoseconds-app-pto",
    "probe-owed",
    "quic-go-first-flight",
    "quinn-handshake-loss",
    "timer-late",
    "two-logs-joined",
)
# Traces whose rows with `--all` are kept: each rule of conduct, each way to end past departures,
# persistent congestion that a report does not have, nanoseconds, and traces without departures.
STORED_ALL = (
    "app-pto",
    "departure-and-a-loss-owed-at-the-end",
    "departure-and-then-a-loss-set",
    "departure-and-then-no-json",
    "departures-in-nanoseconds",
    "departures-of-each-rule-of-conduct",
    "early-timers-past-64-bits",
    "empty-input",
    "handshake-timer-early",
    "late-event-and-a-collapse-missing",
    "loss-timer-early",
    "several-departures",
    "time-back",
    "two-departures-at-one-event",
)
SUFFIX, SUFFIX_ALL = ".rows", ".all.rows"


def followed(trace: bytes, last: int | None) -> Iterator[tuple[int, Sender, Event]]:
    """The lines of a trace before this one, or all: number, sender behind it, and what it says."""
    sender = None
    for number, line in enumerate(trace.split(b"\n"), 1):
        if number == last:
            return
        if not line.strip(b" \t\r"):
            continue
        event = said_by(line)
        if sender is None:
            sender = Sender(event)
        else:
            sender.follow(event)
        yield number, sender, event


def rows_of(trace: bytes, last: int | None) -> Iterator[bytes]:
    """The rows of the lines of a trace before this one, or of all."""
    for row in objects_of(trace, last):
        yield json.dumps(row, separators=(",", ":")).encode() + b"\n"


def objects_of(trace: bytes, last: int | None) -> Iterator[Object]:
    """The rows of the lines of a trace before this one, or of all, as objects."""
    unit = "us"
    for number, sender, event in followed(trace, last):
        if event["event"] == "header":
            unit, said = unit_of(event), header_written(event, sender)
        else:
            said = event_written(event)
        yield {"line": number, "event": said, "state": state_of(sender, unit)}


def state_of(sender: Sender, unit: str) -> Object:
    """What a sender holds; a key ends with the unit of its amount."""
    due = sender.deadline()
    is_owed = sender.detection is not None and sender.owed > 0
    return {
        "events": sender.events,
        "window_bytes": sender.window,
        "ssthresh_bytes": sender.ssthresh,
        "in_flight_bytes": sender.bytes_in_flight,
        **{f"{name}_{unit}": sender.total(name) for name in METRICS[3:]},
        "pto_count": sender.pto_count,
        "owed_space": sender.detection.space if sender.detection and is_owed else None,
        "owed": runs_of_numbers(sender.owed_numbers),
        "set_kind": due.kind if due else None,
        "set_space": due.space if due else None,
        f"deadline_{unit}": due.time if due else None,
    }


# What a line says, as it is written.


def event_written(event: Event) -> Object:
    """The keys of an event, each with its value, but for reported values that are not there."""
    usual: dict[str, Object] = {
        "sent": {"leave": "window"},
        "ack": {"delay": 0, "limited": False},
    }
    keys = {
        "sent": ("eliciting", "in_flight", "number", "size", "space"),
        "ack": ("ranges", "space"),
        "lost": ("ranges", "space"),
        "timer": ("kind", "space"),
        "discard": ("space",),
        "metrics": METRICS,
    }
    kind: str = event["event"]
    wanted = {"event", "time", *keys.get(kind, ()), *usual.get(kind, {})}
    said = usual.get(kind, {}) | {key: event[key] for key in wanted if key in event}
    return dict(sorted(said.items()))


def header_written(header: Event, sender: Sender) -> Object:
    """The keys of a header that its version has, each with its value."""
    settings = sender.settings
    said: Object = {
        "event": "header",
        "initial_rtt": settings.initial_rtt,
        "initial_window": settings.initial_window,
        "max_ack_delay": settings.max_ack_delay,
        "max_datagram_size": settings.max_datagram_size,
        "role": header["role"],
        "version": header["version"],
    }
    if header["version"] >= 2:
        said |= {
            "refresh_min_rtt": settings.refreshes_min_rtt,
            "report_slack_bytes": settings.slack_bytes,
            "report_slack_us": settings.slack_in_time // settings.microsecond,
        }
        if settings.timer_late is not None:
            said["timer_late_us"] = settings.timer_late // settings.microsecond
    if header["version"] >= 3:
        said |= {
            "latest_rtt_less_delay": settings.keeps_rtt_less_delay,
            "loss_by_number": "may" if settings.may_spare else "must",
            "packet_threshold": settings.packet_threshold,
            "recovery_by_order": settings.recovers_by_order,
            "reset_rtt": settings.resets_rtt,
            "sample_eliciting_only": settings.samples_eliciting_only,
            "threshold_counts": "packets" if settings.counts_packets else "numbers",
            "time_threshold_eighths": int(8 * settings.time_threshold),
            "timer_early_us": settings.timer_early // settings.microsecond,
            "unit": unit_of(header),
            "window": "reported" if settings.is_window_reported else "newreno",
            "window_overshoot": settings.may_overshoot,
        }
    return dict(sorted(said.items()))


# Where the rows end.


def first_not_good(trace: bytes, report: str) -> int | None:
    """The line before which the rows of a trace end whose report is this; None for all lines."""
    verdict = verdict_of(report)
    is_whole = verdict.word == "accepted" or verdict.what == Rule.OWED_AT_END
    return None if is_whole else verdict.line


def first_not_followed(trace: bytes, report: str, course: Course) -> int | None:
    """The line before which the rows of a trace end with `--all`, of which this comes; None for
    all lines."""
    if not course.departures:
        return first_not_good(trace, report)
    end = course.ending
    is_whole = end["verdict"] == "accepted" or named(Rule.OWED_AT_END).items() <= end.items()
    return None if is_whole else int(str(end["line"]))


def rows_past(trace: bytes, report: str, course: Course) -> bytes:
    """The rows with `--all` of a trace whose report is this, and of which this comes."""
    return b"".join(rows_of(trace, first_not_followed(trace, report, course)))


def judged(trace: bytes) -> int | None:
    """The first line that sender.py does not follow, or that is not JSON."""
    sender = None
    for number, line in enumerate(trace.split(b"\n"), 1):
        if not line.strip(b" \t\r"):
            continue
        try:
            event = said_by(line)
            if sender is None:
                sender = Sender(event)
            elif sender.first_broken(event):
                return number
            else:
                sender.follow(event)
        except (ValueError, KeyError, TypeError, AttributeError, RecursionError):
            return number
    return None


def rows_text(path: Path) -> bytes:
    """The rows of the trace in a file."""
    trace, report = path.read_bytes(), path.with_suffix(".report")
    is_told = report.exists()
    last = first_not_good(trace, report.read_text()) if is_told else judged(trace)
    return b"".join(rows_of(trace, last))


def rows_text_past(path: Path) -> bytes:
    """The rows with `--all` of the trace in a file, by its report."""
    trace, report = path.read_bytes(), path.with_suffix(".report").read_text()
    return rows_past(trace, report, course_of(path.name, trace, report))


def write(traces: Path) -> None:
    """Writes each file of rows anew."""
    for name in STORED:
        trace = traces / f"{name}.trace"
        trace.with_suffix(SUFFIX).write_bytes(rows_text(trace))
    for name in STORED_ALL:
        trace = traces / f"{name}.trace"
        trace.with_suffix(SUFFIX_ALL).write_bytes(rows_text_past(trace))


def main() -> int:
    """Writes the rows of a trace, or the files."""
    parser = argparse.ArgumentParser(
        description=__doc__, formatter_class=argparse.RawDescriptionHelpFormatter
    )
    group = parser.add_mutually_exclusive_group(required=True)
    group.add_argument("--write", action="store_true", help="write the files of rows anew")
    group.add_argument("trace", metavar="TRACE", type=Path, nargs="?", help="a trace")
    text = "go on past departures, of a trace beside which its report lies"
    parser.add_argument("--all", action="store_true", help=text)
    arguments = parser.parse_args()
    text_of = rows_text_past if arguments.all else rows_text
    if arguments.write:
        write(FOLDER / "traces")
    else:
        sys.stdout.buffer.write(text_of(arguments.trace))
    return 0


if __name__ == "__main__":
    sys.exit(main())
