"""What `qaudit-why --all --json` writes of a trace: one JSON object on a line.

It begins with the members that `qaudit-why --json` writes (objects.py). Behind them stand all
departures from the rules of conduct, as departures.py finds them:

- `events`, how many events were followed, where there are departures;
- `departures`, a list of an object for each kind, in the order of the table of departures.py:
  `rule`, `name` and, of a metric, `field`; `requirement` and `section` (sources.py); `count`;
  `first` and `last`, the lines; the greatest amount, as `greatest_bytes`, `greatest_us` or
  `greatest_ns`, where the kind has one; and `lines`, the lines of the first thousand, in order;
- `end`, where there are departures, how the trace ends past them: the members that objects.py has
  for such an end, without `file`.

It shares nothing with the proved program.

`python3 conformance/departure_objects.py TRACE` writes the object of a trace to standard output.
`departure_objects.py --write` writes traces/NAME.all.json for the traces that STORED names.
"""

import argparse
import sys
from collections.abc import Iterator
from pathlib import Path

from departures import KINDS, Course, Departure, course_of, unit_of_amount
from objects import Object, line_of, named, object_of

FOLDER = Path(__file__).resolve().parent
SUFFIX = ".all.json"
# Of a kind the lines of so many departures are named.
MOST_LINES = 1_000

# Traces whose objects are kept as files: each rule of conduct, each way to end, with departures and
# without, several at one event, and nanoseconds.
STORED = (
    "anti-deadlock",
    "broken-and-allowed",
    "collapse-missing",
    "departure-and-a-loss-owed-at-the-end",
    "departure-and-then-a-key-missing",
    "departure-and-then-a-loss-set",
    "departure-and-then-a-second-header",
    "departure-and-then-no-json",
    "departures-in-nanoseconds",
    "departures-of-each-rule-of-conduct",
    "differing-min-rtt",
    "differing-window-with-a-time-beside",
    "early-timers-are-doubled",
    "early-timers-past-64-bits",
    "early-timers-past-the-fortieth-doubling",
    "empty-input",
    "end-while-loss-owed",
    "first-differing-field",
    "late-and-past-the-window",
    "late-event-and-a-collapse-missing",
    "loss-set-partial",
    "no-event",
    "probe-without-pto",
    "quinn-growth-before-the-loss",
    "recovery-without-entry",
    "reported-by-newreno",
    "reported-window-with-a-time-beside",
    "several-departures",
    "ssthresh-where-none",
    "two-departures-at-one-event",
    "two-logs-joined",
)


def text_of(name: str, trace: bytes, report: str, course: Course, around: Object) -> bytes:
    """The line of a trace under a name whose report is this, and of which this comes, with the
    member of the rows before (around.py), where they are wanted."""
    return line_of(object_of(name, trace, report) | around | members_of(course))


def members_of(course: Course) -> Object:
    """What stands behind the members of the verdict."""
    if not course.departures:
        return {"departures": []}
    rows = list(rows_of(course))
    return {"events": course.events, "departures": rows, "end": course.ending}


def rows_of(course: Course) -> Iterator[Object]:
    """An object for each kind of departure, in the order of the rules."""
    for what in KINDS:
        found = [it for it in course.departures if it.what == what]
        if found:
            yield row_of(what, found, course.unit)


def row_of(what: str, found: list[Departure], unit: str) -> Object:
    """How often a kind of departure came, where, and by how much."""
    lines = [it.line for it in found]
    row = named(what) | {"count": len(found), "first": lines[0], "last": lines[-1]}
    amounts = [it.amount for it in found if it.amount is not None]
    if amounts:
        row |= {f"greatest_{unit_of_amount(what, unit)}": max(amounts)}
    return row | {"lines": lines[:MOST_LINES]}


# Files.


def text_of_file(path: Path) -> bytes:
    """The line of the trace in a file, by its report."""
    trace, report = path.read_bytes(), path.with_suffix(".report").read_text()
    return text_of(path.name, trace, report, course_of(path.name, trace, report), {})


def write(traces: Path) -> None:
    """Writes each file of objects anew."""
    for name in STORED:
        trace = traces / f"{name}.trace"
        trace.with_suffix(SUFFIX).write_bytes(text_of_file(trace))


def main() -> int:
    """Writes the object of a trace, or the files."""
    parser = argparse.ArgumentParser(
        description=__doc__, formatter_class=argparse.RawDescriptionHelpFormatter
    )
    group = parser.add_mutually_exclusive_group(required=True)
    group.add_argument("--write", action="store_true", help=f"write traces/NAME{SUFFIX} anew")
    text = "a trace, beside which its report lies"
    group.add_argument("trace", metavar="TRACE", type=Path, nargs="?", help=text)
    arguments = parser.parse_args()
    if arguments.write:
        write(FOLDER / "traces")
    else:
        sys.stdout.buffer.write(text_of_file(arguments.trace))
    return 0


if __name__ == "__main__":
    sys.exit(main())
