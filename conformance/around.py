"""The rows that stand before what `qaudit-why --around N` tells of a trace, in the words of
docs/why.md.

In a text a row has the number of a line, its kind and time, and the state of the machine behind it;
in an object it is the row of rows.py. The state is that of the sender of sender.py, which shares
nothing with the proved program.
"""

from collections import deque
from collections.abc import Iterator

from constants import METRICS_IN_MICROSECONDS
from departures import Course, end_of, table_text
from objects import Object
from rows import first_not_followed, first_not_good, followed, objects_of
from sender import Sender
from why import verdict_of

HEADING = "  before it:\n"
# The values of a row, in their order.
VALUES = ("window", "bytes_in_flight", "ssthresh", *METRICS_IN_MICROSECONDS, "pto_count", "owed")


def rows_behind(trace: bytes, report: str, count: int) -> bytes:
    """What stands behind the text of a trace whose report is this: nothing where it is accepted,
    and else the last rows before its end, up to so many."""
    if verdict_of(report).word == "accepted":
        return b""
    return rows_before(trace, first_not_good(trace, report), count)


def member_of(trace: bytes, report: str, count: int) -> Object:
    """The member that stands behind those of the verdict in the object of a trace whose report is
    this: an empty list where it is accepted, and none where no rows are asked for."""
    if count == 0:
        return {}
    if verdict_of(report).word == "accepted":
        return {"around": []}
    return {"around": list(deque(objects_of(trace, first_not_good(trace, report)), count))}


def all_text(name: str, trace: bytes, report: str, course: Course, count: int) -> bytes:
    """The text of all departures of a trace whose report is this, and of which this comes, with up
    to so many rows behind each that is told with its facts, and behind the end."""
    firsts = (it.text + rows_before(trace, it.line, count) for it in course.firsts)
    is_whole = course.verdict == "accepted"
    last = first_not_followed(trace, report, course)
    rows = b"" if is_whole else rows_before(trace, last, count)
    return b"".join(firsts) + end_of(course) + rows + table_text(name, course) + course.rest


def rows_before(trace: bytes, last: int | None, count: int) -> bytes:
    """The last rows, up to so many, of the lines of a trace before this one, or of all."""
    rows = deque(rows_of(trace, last), count)
    return (HEADING + "".join(rows)).encode() if rows else b""


def rows_of(trace: bytes, last: int | None) -> Iterator[str]:
    """The rows of the lines of a trace before this one, or of all."""
    for number, sender, event in followed(trace, last):
        at = "" if event["event"] == "header" else f" at {event['time']}"
        yield f"  line {number} {event['event']}{at}:{values(sender)}{timer(sender)}\n"


def values(sender: Sender) -> str:
    """The totals behind a line."""
    known = ((name, sender.total(name)) for name in VALUES)
    return "".join(f" {name} {'none' if it is None else it}" for name, it in known)


def timer(sender: Sender) -> str:
    """What the timer is set for."""
    due = sender.deadline()
    return f" timer {due.kind} {due.space} {due.time}" if due else " no timer"
