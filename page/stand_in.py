#!/usr/bin/env python3
"""A stand-in for the program qaudit-why, made of the second machine of conformance/.

It knows `--json` and `--rows` of standard input, each with `--all` and without: of a trace of the
corpus by its report, and of any other by what sender.py makes of it, whose lines are only as good
as Python's reader of JSON finds them up to the first violation. The tests of pages run it if no
program that was proved is named.
"""

import os
import sys
from collections.abc import Iterator
from pathlib import Path

CONFORMANCE = Path(__file__).resolve().parents[1] / "conformance"
sys.path.insert(0, str(CONFORMANCE))

import departure_objects  # noqa: E402
from departures import Course, course_of  # noqa: E402
from objects import object_line  # noqa: E402
from rows import first_not_followed, first_not_good, rows_of  # noqa: E402
from sender import Sender, report  # noqa: E402
from why import said_by  # noqa: E402

FOLDERS = ("traces", "real/traces")
STATUS = {"accepted": 0, "refused": 1, "unreadable": 2}
HEADERLESS = "unreadable line {} F7 header-place\n"


def report_of(trace: bytes) -> str:
    """The report of a trace."""
    for folder in FOLDERS:
        for file in (CONFORMANCE / folder).glob("*.trace"):
            if file.stat().st_size == len(trace) and file.read_bytes() == trace:
                return file.with_suffix(".report").read_text()
    return judged(trace)


def judged(trace: bytes) -> str:
    """The report that sender.py comes to."""
    sender, last = None, 0
    lines = trace.split(b"\n")
    for number, line in enumerate(lines, 1):
        if not line.strip(b" \t\r"):
            continue
        try:
            event = said_by(line.decode("utf-8").encode())
            if sender is None:
                sender = Sender(event)
                continue
            rule = sender.first_broken(event)
        except (ValueError, KeyError, TypeError, AttributeError, RecursionError):
            fault = f"unreadable line {number} F1 not-json"
            return report(fault, sender) if sender else f"{fault}\n"
        if rule:
            return report(f"refused line {number} {rule}", sender)
        sender.follow(event)
        last = number
    if sender is None:
        return HEADERLESS.format(len(lines) + (lines[-1] != b""))
    verdict = f"refused line {last} V17 owed-at-end" if sender.owed else "accepted"
    return report(verdict, sender)


def written(options: frozenset[str], trace: bytes) -> tuple[Iterator[bytes], str]:
    """What is written of a trace, some at a time, and the verdict by which the run ends."""
    said = report_of(trace)
    course = course_of("-", trace, said) if "--all" in options else None
    if "--rows" in options:
        return rows_of(trace, last_of(trace, said, course)), word_of(said, course)
    if course is None:
        return iter([object_line("-", trace, said)]), word_of(said, course)
    return iter([departure_objects.text_of("-", trace, said, course, {})]), word_of(said, course)


def last_of(trace: bytes, said: str, course: Course | None) -> int | None:
    """The line before which the rows of a trace end; None for all lines."""
    if course is None:
        return first_not_good(trace, said)
    return first_not_followed(trace, said, course)


def word_of(said: str, course: Course | None) -> str:
    """The verdict by which a run ends."""
    return said.split()[0] if course is None else course.word


def main() -> int:
    """Writes what is asked for."""
    *words, name = sys.argv[1:] or [""]
    options = frozenset(words)
    if name != "-" or options - {"--all"} not in ({"--json"}, {"--rows"}):
        return os.EX_USAGE
    pieces, word = written(options, sys.stdin.buffer.read())
    for piece in pieces:
        sys.stdout.buffer.write(piece)
    return STATUS[word]


if __name__ == "__main__":
    sys.exit(main())
