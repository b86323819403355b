#!/usr/bin/env python3
"""Compares what docs/format.md says of a log that lost lines with traces that lost one.

Each line is dropped from the real traces that are accepted, one at a time, and sender.py judges
what is left. The table of the page has to name each rule that is found, and only these; what it
says of most of them has to be so of more than half. Headers have the limit for late timers that
qlog-to-trace sets.
"""

import copy
import json
import re
import unittest
from collections import Counter, defaultdict
from collections.abc import Iterator
from typing import NamedTuple

from constants import Rule
from runners import FOLDER
from sender import Event, Sender

PAGE = FOLDER.parent / "docs" / "format.md"
REAL = FOLDER / "real" / "traces"
HEADING = "### A log that lost lines"
# Of reports, which mostly change nothing, one of so many is dropped.
REPORTS = 8
TIMER_LATE = 200_000
NOTHING = "nothing"
# What a row names: a rule, with the value if it is about one, or that nothing is seen.
NAMED = re.compile(r"\b(nothing|V16 of another value|V16 `\w+`|V\d+)")
OTHER_VALUE = "V16 of another value"
# The rows of the table.
ROWS = {
    "sent in flight": "`sent`, in flight",
    "sent": "`sent`, not in flight",
    "ack": "`ack`",
    "lost": "`lost`",
    "timer loss": "`timer` of a loss",
    "timer pto": "`timer` of a probe timeout",
    "metrics": "`metrics`",
    "confirmed": "`confirmed`",
    "discard": "`discard`",
    "keys": "`keys`",
}


class Row(NamedTuple):
    """What the page says of a kind of line."""

    mostly: set[str]
    sometimes: set[str]


def rows_of(page: str) -> dict[str, Row]:
    """The rows of the table, by their first column."""
    part = page.partition(HEADING)[2].partition("\n#")[0]
    cells = [line.strip("| ").split(" | ") for line in part.splitlines() if line.startswith("|")]
    found = {}
    for first, mostly, *sometimes in cells[2:]:
        names = [set(NAMED.findall(text)) for text in (mostly, "".join(sometimes))]
        found[first] = Row(*names)
    return found


def kind_of(event: Event) -> str:
    """Which row of the table is about a line."""
    kind = str(event["event"])
    if kind == "timer":
        return f"timer {event['kind']}"
    return "sent in flight" if kind == "sent" and event["in_flight"] else kind


def events_of(trace: str) -> list[Event]:
    """What the lines of a trace say."""
    lines = [json.loads(line) for line in trace.splitlines() if line.strip()]
    return [{key: it for key, it in line.items() if it is not None} for line in lines]


def accepted() -> Iterator[tuple[Sender, list[Event]]]:
    """The senders of the real traces that are accepted, with a limit for late timers, and what
    they do."""
    for path in sorted(REAL.glob("*.trace")):
        if path.with_suffix(".report").read_text().startswith("accepted\n"):
            header, *events = events_of(path.read_text())
            yield Sender(header | {"timer_late_us": TIMER_LATE}), events


def first_broken(sender: Sender, events: list[Event]) -> str:
    """The first rule that events break, as a report names it, or nothing."""
    for event in events:
        rule = sender.first_broken(event)
        if rule:
            return str(rule)
        sender.follow(event)
    return Rule.OWED_AT_END if sender.owed else NOTHING


def outcome_of(rule: str, row: Row) -> str:
    """A rule in the words of a row."""
    number, *rest = rule.split()
    if number != "V16":
        return number
    named = f"{number} `{rest[-1]}`"
    return named if named in row.mostly | row.sometimes else OTHER_VALUE


class LostLines(unittest.TestCase):
    """What is said of lines that are missing."""

    def test_the_table(self) -> None:
        rows = rows_of(PAGE.read_text())
        self.assertEqual(set(rows), set(ROWS.values()))
        found: dict[str, Counter[str]] = defaultdict(Counter)
        for sender, events in accepted():
            for place, event in enumerate(events):
                kind = ROWS[kind_of(event)]
                if kind != ROWS["metrics"] or place % REPORTS == 0:
                    rule = first_broken(copy.deepcopy(sender), events[place + 1 :])
                    found[kind][outcome_of(rule, rows[kind])] += 1
                self.assertIsNone(sender.first_broken(event))
                sender.follow(event)
        for kind, row in rows.items():
            with self.subTest(kind):
                outcomes = found[kind]
                self.assertEqual(set(outcomes), row.mostly | row.sometimes)
                most = sum(count for name, count in outcomes.items() if name in row.mostly)
                self.assertGreater(2 * most, outcomes.total())


if __name__ == "__main__":
    unittest.main()
