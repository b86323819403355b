"""What an auditor must write of a trace, if it gives this verdict: the rows and totals are those of
sender.py, and so is the verdict if all lines can be read."""

import json
import re

from sender import Event, Sender, report, report_of
from texts import row

FAULTS = {
    "F1": "not-json",
    "F2": "not-object",
    "F3": "missing",
    "F4": "wrong-kind",
    "F5": "out-of-range",
    "F6": "unknown-event",
    "F7": "header-place",
    "F8": "line-too-long",
    "F9": "flags-clash",
    "F10": "version",
    "F11": "too-many-lines",
}
WITH_A_KEY = ("F3", "F4", "F5")
FORM = re.compile(r"(refused|unreadable) line ([1-9][0-9]*) ([VF][0-9]+) ([a-z-]+)(?: ([a-z_]+))?")

# What comes of a line that cannot be read, if a verdict says that it was.
NOT_READ = (ValueError, KeyError, TypeError)

# What a line says, with its number.
Said = tuple[int, Event]


def rows_and_report(trace: bytes, text: str) -> tuple[str, str]:
    """The rows and the report of a trace, of which a report says this. ValueError where it has no
    form that there is, and one of NOT_READ if it takes a line that cannot be read."""
    verdict = text.split("\n", 1)[0]
    lines = trace.removesuffix(b"\n").split(b"\n")
    is_unreadable = verdict.startswith("unreadable")
    is_accepted = verdict == "accepted"
    last = len(lines) if is_accepted else line_of(verdict, len(lines)) - is_unreadable
    numbered = enumerate(lines[:last], 1)
    said = [(number, said_by(line)) for number, line in numbered if line.strip(b" \t\r")]
    if not said:
        return "", verdict + "\n"
    if is_unreadable:
        rows, sender = rows_of(said)
        return rows, report(verdict, sender)
    (_, header), *events = said
    wanted = report_of(header, events)
    refused = re.match("refused line ([0-9]+) (?!V17)", wanted)
    admitted = [pair for pair in said if not refused or pair[0] < int(refused[1])]
    return rows_of(admitted)[0], wanted


def line_of(verdict: str, lines: int) -> int:
    """The line that a verdict names."""
    form = FORM.fullmatch(verdict)
    if not form:
        raise ValueError("no verdict")
    word, line, number, name, key = form.groups()
    has_key = number in WITH_A_KEY
    if word == "unreadable" and (FAULTS.get(number) != name or has_key != (key is not None)):
        raise ValueError("no fault")
    if int(line) > lines + (number == "F7"):
        raise ValueError("no line")
    return int(line)


def said_by(line: bytes) -> Event:
    """What a line says; a key that is null is absent."""
    said = json.loads(line.decode())
    if not isinstance(said, dict):
        raise TypeError(f"{line!r} is no object")
    return {key: value for key, value in said.items() if value is not None}


def rows_of(said: list[Said]) -> tuple[str, Sender]:
    """The rows of lines that are admitted, and the sender that followed them."""
    (first, header), *events = said
    sender = Sender(header)
    rows = [row(first, header["event"], sender.total)]
    for number, event in events:
        rule = sender.first_broken(event)
        if rule:
            raise ValueError(f"line {number} breaks {rule}")
        sender.follow(event)
        rows.append(row(number, event["event"], sender.total))
    return "".join(rows), sender
