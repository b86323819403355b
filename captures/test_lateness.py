#!/usr/bin/env python3
"""Compares the table of captures/lateness with deadlines of small traces that are known."""

import json
import subprocess
import sys
import tempfile
import unittest
from pathlib import Path
from typing import Any

LATENESS = Path(__file__).parent / "lateness"
Line = dict[str, Any]
HEADER = {"event": "header", "version": 2, "role": "client", "max_datagram_size": 1200}
FIRST = {"event": "sent", "time": 0, "space": "initial", "number": 0, "size": 1200}
FIRST |= {"eliciting": True, "in_flight": True}
# Of a first packet.
TIMEOUT = 999_000


def timer(late: int, timeout: int = TIMEOUT) -> Line:
    """A probe timeout that is late."""
    return {"event": "timer", "time": timeout + late, "kind": "pto", "space": "initial"}


def table_of(*traces: list[Line], words: tuple[str, ...] = ()) -> list[str]:
    """The rows that are printed for traces, behind the heads."""
    with tempfile.TemporaryDirectory() as folder:
        for number, lines in enumerate(traces):
            text = "".join(f"{json.dumps(line)}\n" for line in lines)
            (Path(folder) / f"{number}.trace").write_text(text)
        command = [sys.executable, str(LATENESS), *words, folder]
        end = subprocess.run(command, capture_output=True, text=True, check=True)
        return end.stdout.replace(folder, "FOLDER").splitlines()[2:]


class Lateness(unittest.TestCase):
    """How late timers are."""

    def test_a_row_for_each_kind(self) -> None:
        limited = HEADER | {"timer_late_us": 5_000, "x_dialect": "ngtcp2"}
        traces = [[limited, FIRST, timer(it)] for it in (0, 1_000, 5_000, 7_000)]
        self.assertEqual(
            table_of(*traces, [HEADER, FIRST, timer(40_000)]),
            [
                "| ngtcp2 | 4 | 3 | 5.0 | 7.0 | 5 | 1 |",
                "| none: logged as a trace | 1 | 1 | 40.0 | 40.0 |  | 0 |",
            ],
        )

    def test_a_deadline_counts_once_by_its_last_event(self) -> None:
        report = {"event": "metrics", "time": TIMEOUT + 2_000}
        rows = table_of([HEADER, FIRST, report, timer(3_000)], words=("--above", "2.9"))
        self.assertEqual(rows[0], "| none: logged as a trace | 1 | 1 | 3.0 | 3.0 |  | 0 |")
        told = "  FOLDER/0.trace line 4 timer pto: 3.0 past the pto of initial"
        self.assertEqual(rows[1:], [told])

    def test_nothing_counts_from_a_line_on_that_breaks_another_rule(self) -> None:
        again = FIRST | {"time": TIMEOUT + 2_000}
        other = timer(4_000) | {"space": "app"}
        for lines in ([again, timer(9_000)], [other, timer(9_000)]):
            rows = table_of([HEADER, FIRST, *lines])
            self.assertEqual(rows, ["| none: logged as a trace | 1 | 0 |  |  |  | 0 |"])

    def test_nanoseconds(self) -> None:
        header = HEADER | {"version": 3, "unit": "ns"}
        rows = table_of([header, FIRST, timer(1_500_000, TIMEOUT * 1000)])
        self.assertEqual(rows, ["| none: logged as a trace | 1 | 1 | 1.5 | 1.5 |  | 0 |"])


if __name__ == "__main__":
    unittest.main()
