#!/usr/bin/env python3
"""Shows that conformance/rows passes a program that writes the rows of rows.py, and fails what
writes others."""

import json
import unittest

from rows import event_written, judged
from runners import FOLDER
from testing import RunnerCase, script
from why import said_by

TRACES = FOLDER / "traces"
# Writes the rows beside a trace, but for what is changed in them.
TELLS = """
import sys
words = {options!r}
assert sys.argv[1:len(words) + 1] == words
rows = open(sys.argv[-1].replace(".trace", {suffix!r})).read()
sys.stdout.write({change})
sys.stderr.write({error!r})
sys.exit({status})
"""


class OfForm(RunnerCase):
    """The runner over a corpus of one trace, and over no simulated sender."""

    runner = "rows"
    form = "ROWS"
    name = "quinn-handshake-loss"
    status = 0

    def setUp(self) -> None:
        super().setUp()
        self.script = script(FOLDER / "rows")
        self.asked = getattr(self.script, self.form)
        for suffix in ("trace", "report"):
            data = (TRACES / f"{self.name}.{suffix}").read_bytes()
            self.write_files("traces", self.name, {suffix: data})
        self.trace = self.corpus / "traces" / f"{self.name}.trace"
        rows = self.script.told_of_file(self.asked, self.trace).rows
        self.trace.with_suffix(self.asked.suffix).write_bytes(rows)

    def failure(self, change: str = "rows", error: str = "", status: int | None = None) -> str:
        """How a program fails that writes rows with a change; empty where it passes."""
        how = {"options": list(self.asked.options), "suffix": self.asked.suffix}
        how |= {"change": change, "error": error}
        self.write_program(TELLS.format(status=self.status if status is None else status, **how))
        result = self.script.result_of_trace(self.asked, str(self.program), self.trace)
        return str(result.failure)

    def assert_each_fails(self, *changes: str) -> None:
        """Each of these changes is seen."""
        for change in changes:
            with self.subTest(change):
                self.assertNotEqual(self.failure(change), "")


class Rows(OfForm):
    """Runs with `--rows`."""

    def test_right_rows_pass(self) -> None:
        self.assertEqual(self.failure(), "")

    def test_other_rows_fail(self) -> None:
        self.assert_each_fails(
            "''",
            "rows + rows[-1]",
            "rows[:rows.rindex('{\"line\"')]",
            "rows.replace('\"window_bytes\":12320', '\"window_bytes\":12321', 1)",
            'rows.replace(\'"set_space":"app"\', \'"set_space":"initial"\', 1)',
            "rows.replace(',\"pto_count\"', ', \"pto_count\"', 1)",
            "rows.replace('\"line\":5', '\"line\":6', 1)",
        )

    def test_another_end_fails(self) -> None:
        self.assertNotEqual(self.failure(status=1), "")
        self.assertNotEqual(self.failure(error="x"), "")

    def test_a_line_is_named(self) -> None:
        change = "rows.replace('\"pto_count\":1', '\"pto_count\":2', 1)"
        self.assertTrue(self.failure(change).startswith("line 7 is "))


class RowsPast(OfForm):
    """Runs with `--rows --all`."""

    form = "ROWS_PAST"
    name = "departure-and-then-no-json"
    status = 2

    def test_right_rows_pass(self) -> None:
        self.assertEqual(self.failure(), "")

    def test_rows_up_to_the_first_departure_fail(self) -> None:
        self.assert_each_fails("''", "rows[:rows.rindex('{\"line\"')]", "rows + rows[-1]")

    def test_another_end_fails(self) -> None:
        for status in (0, 1):
            self.assertNotEqual(self.failure(status=status), "")
        self.assertNotEqual(self.failure(error="x"), "")

    def test_each_end_has_its_rows(self) -> None:
        """By hand: how many lines are followed."""
        for name, count in (
            ("departure-and-then-no-json", 13),
            ("departure-and-then-a-loss-set", 14),
            ("departure-and-a-loss-owed-at-the-end", 14),
            ("eleventh-past-window", 12),
            ("time-back", 2),
            ("two-logs-joined", 2),
            ("empty-input", 0),
        ):
            with self.subTest(name):
                told = self.script.told_of_file(self.asked, TRACES / f"{name}.trace")
                self.assertEqual(told.rows.count(b"\n"), count)

    def test_a_row_behind_a_departure(self) -> None:
        """The window is the machine's, and what was sent past it is in flight."""
        told = self.script.told_of_file(self.asked, TRACES / "eleventh-past-window.trace")
        state = json.loads(told.rows.splitlines()[-1])["state"]
        self.assertEqual((state["window_bytes"], state["in_flight_bytes"]), (12_000, 13_200))


class Written(unittest.TestCase):
    """What a row says of its line."""

    def test_lines_are_written_as_the_format_says(self) -> None:
        met = 0
        for kind in ("sent", "ack", "lost", "timer", "discard", "confirmed", "keys", "metrics"):
            lines = (FOLDER / "lines" / f"{kind}.lines").read_bytes().split(b"\n")
            said = (FOLDER / "lines" / f"{kind}.said").read_bytes().split(b"\n")
            for line, answer in zip(lines, said, strict=False):
                if answer.startswith(b"{"):
                    met += 1
                    written = event_written(said_by(line))
                    self.assertEqual(list(written.items()), list(said_by(answer).items()))
        self.assertGreater(met, 300)

    def test_a_trace_without_a_report_is_judged(self) -> None:
        data = (TRACES / "eleventh-past-window.trace").read_bytes()
        self.assertEqual(judged(data), 12)
        self.assertEqual(judged(data + b"x"), 12)
        self.assertIsNone(judged(data.rsplit(b"\n", 2)[0]))
        self.assertEqual(judged(b"x"), 1)


if __name__ == "__main__":
    unittest.main()
