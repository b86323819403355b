"""Logs that nobody would write."""

import contextlib
import io
import json
import random
import subprocess
import sys
import tempfile
import time
import unittest
from itertools import islice
from pathlib import Path
from unittest import mock

from . import hostile
from .hostile import VALUES, cases, each_value, failure_of, failure_of_end, seeds
from .made import (
    FOLDER,
    PROGRAM,
    TOP,
    End,
    converted,
    document,
    header,
    metrics,
    received,
    sent,
    sequence,
)

# isort: split
import figures  # noqa: E402
from testing import script  # noqa: E402


EVIL = "\x1b[31m\u202e\U000e0041\u3164"
SHOWN = "\\u{1b}[31m\\u{202e}\\u{e0041}\\u{3164}"
CASES = 100
LONGEST = 1 << 20


class Limits(unittest.TestCase):
    """What is refused, and with which words."""

    def check(self, text: str | bytes, why: str) -> None:
        """It gives no trace, and one line that says why."""
        end = End(text)
        self.assertEqual((end.status, end.errors), (2, f"qlog-to-trace: LOG: {why}\n"))

    def long_event(self, length: int) -> str:
        """An event, as JSON of so many characters."""
        event = sent(0, 0)
        event["padding"] = ""
        event["padding"] = "x" * (length - len(json.dumps(event)))
        return json.dumps(event)

    def test_a_record_of_a_mebibyte(self) -> None:
        first = sequence(header(), [], "")
        marked = sequence(header(), [])
        # A mark is no part of a record, and the line feed of one that has another mark is.
        self.assertEqual(End(first + self.long_event(LONGEST) + "\n").status, 0)
        self.assertEqual(End(f"{marked}\x1e{self.long_event(LONGEST - 1)}\n").status, 0)
        long = self.long_event(LONGEST + 1) + "\n"
        self.check(first + long, "line 2: a record of more than 1,048,576 bytes")
        self.check(f"{marked}\x1e{long[:-1]}", "line 2: a record of more than 1,048,576 bytes")
        long = self.long_event(LONGEST) + "\n"
        self.check(f"{marked}\x1e{long}", "line 2: a record of more than 1,048,576 bytes")
        lines = long.replace('"padding": "', '"padding":\n"')
        self.check(f"{marked}\x1e{lines}", "line 2: a record of more than 1,048,576 bytes")

    def test_an_event_of_a_mebibyte(self) -> None:
        text = document(header(), [])
        for length, status in ((LONGEST, 0), (LONGEST + 1, 2)):
            end = End(text.replace('"events": [', '"events": [' + self.long_event(length)))
            self.assertEqual(end.status, status, end.errors)
        self.assertIn("a record of more than 1,048,576 bytes", end.errors)

    def test_nesting_and_digits(self) -> None:
        # The record is a list or an object too.
        for depth, status in ((127, 0), (128, 2), (3000, 2)):
            event = {**sent(0, 0), "padding": "deep"}
            text = document(header(), [event]).replace('"deep"', "[" * depth + "]" * depth)
            end = End(text)
            self.assertEqual(end.status, status)
        self.assertRegex(end.errors, r"^qlog-to-trace: LOG: byte \d+: it nests too deep\n$")
        for number in ("9" * 5000, "1e" + "9" * 5000):
            text = document(header(), [event]).replace('"deep"', number)
            self.assertEqual(End(text).status, 0)

    def test_what_is_beside_the_events(self) -> None:
        long = json.dumps({"title": ["x" * 1_000] * 17_000, "traces": []})
        self.check(long, "byte 10: more than 16,777,216 bytes beside the records")
        spaces = " " * (1 << 24)
        end = End("{" + spaces + '"traces":[]}')
        self.assertEqual(end.status, 2)
        self.assertIn(": more than 16,777,216 bytes beside the records\n", end.errors)
        self.check("{", "it has no traces")

    def test_many_traces_with_many_keys_take_little_memory(self) -> None:
        keys = ",".join(f'"{number}":1' for number in range(900))
        traces = ",".join(["{}"] * 90_000)
        with tempfile.NamedTemporaryFile() as file:
            file.write(f'{{{keys},"traces":[{traces}]}}'.encode())
            file.flush()
            command = f"ulimit -v 200000; '{sys.executable}' '{PROGRAM}' {file.name}"
            ended = subprocess.run(
                ["bash", "-c", command], capture_output=True, text=True, check=False
            )
        self.assertEqual(ended.returncode, 2, ended.stderr)
        self.assertIn("its vantage point is no client", ended.stderr)

    def test_counts_of_probe_timeouts(self) -> None:
        for count, status in ((32, 0), (33, 2)):
            events = [sent(0, 0), metrics(0, pto_count=0)]
            end = converted([*events, sent(9, 1), metrics(9, pto_count=count)])
            self.assertEqual(end.status, status)
        self.assertIn("packet_sent: pto_count rises to 33 at once", end.errors)


class Times(unittest.TestCase):
    """What takes no longer than as much of what costs nothing."""

    MANY = 10_000

    def seconds(self, text: str) -> float:
        """What a log takes of processor time."""
        began = time.process_time()
        self.assertEqual(End(text).status, 0)
        return time.process_time() - began

    def test_ranges_of_numbers_that_were_never_sent(self) -> None:
        flight = [sent(number, number) for number in range(self.MANY)]
        far = [received(self.MANY + it, [[10**6, 10**9]]) for it in range(self.MANY)]
        near = [received(self.MANY + it, [[it, it]]) for it in range(self.MANY)]
        costly, plain = (self.seconds(sequence(header(), flight + it)) for it in (far, near))
        self.assertLess(costly, 3 * plain)

    def test_reports_that_fit_no_packets(self) -> None:
        flight = [sent(number, number) for number in range(self.MANY)]
        odd, right = (
            [
                event
                for it in range(self.MANY, 2 * self.MANY)
                for event in (sent(it, it), metrics(it, bytes_in_flight=size or 1200 * it + 1200))
            ]
            for size in (601, 0)
        )
        head = header(name="quic-go")
        costly, plain = (self.seconds(sequence(head, flight + it)) for it in (odd, right))
        self.assertLess(costly, 3 * plain)


class Terminals(unittest.TestCase):
    """Nothing of others is written to a terminal as it is."""

    def test_what_a_log_says(self) -> None:
        head = header()
        head["common_fields"]["time_format"] = EVIL
        end = End(sequence(head, [sent(0, 0)]))
        self.assertEqual(end.errors, f"qlog-to-trace: LOG: time_format is {SHOWN}\n")

    def test_names(self) -> None:
        with tempfile.TemporaryDirectory() as folder:
            path = Path(folder) / f"{EVIL}.qlog"
            path.write_bytes(b"")
            words = [sys.executable, str(PROGRAM), str(path)]
            ended = subprocess.run(words, capture_output=True, text=True, check=False)
        self.assertEqual(ended.returncode, 2)
        self.assertEqual(ended.stderr, f"qlog-to-trace: {folder}/{SHOWN}.qlog: empty\n")

    def test_a_long_text_is_cut(self) -> None:
        head = header()
        head["common_fields"]["time_format"] = "x" * 100_000
        end = End(sequence(head, [sent(0, 0)]))
        self.assertLess(len(end.errors), 4_020)
        self.assertTrue(end.errors.endswith("xxx ..\n"))


class Cases(unittest.TestCase):
    """Some of those of `fuzz`."""

    def test_cases(self) -> None:
        for case in islice(cases(1), CASES):
            self.assertIsNone(failure_of(case), case.name)

    def test_each_field_has_each_value(self) -> None:
        logs = seeds()[:1]
        found = each_value(logs, random.Random(1))
        fields = {way for _, way, _ in found}
        self.assertEqual(len(found), len(fields) * len(VALUES))
        self.assertGreater(len(fields), 50)
        log, way, text = next(it for it in found if it[2] == "null")
        value = log.with_value(way, text)
        self.assertNotEqual(value.data, log.text(log.value))
        self.assertIn("null", value.name)

    def test_a_case_that_takes_long_is_seen(self) -> None:
        def spin(_: object) -> None:
            while True:
                pass

        case = next(cases(1))
        for slow, limits in ((spin, (0.1, 60.0)), (lambda _: time.sleep(60), (60.0, 0.1))):
            with (
                mock.patch.object(hostile, "End", slow),
                mock.patch.object(hostile, "SECONDS", limits[0]),
                mock.patch.object(hostile, "SECONDS_OF_WAITING", limits[1]),
            ):
                self.assertIn("seconds of processor time", failure_of(case) or "")

    def test_failures_are_seen(self) -> None:
        end = converted([sent(0, 0)])
        self.assertIsNone(failure_of_end(end))
        for text in ('"size":1200', '"time":0'):
            other = converted([sent(0, 0)])
            other.text = other.text.replace(text, '"size":-1')
            self.assertIn("line 2: F", failure_of_end(other) or "")
        for errors, why in (
            ("Traceback\n", "a line of others"),
            ("qlog-to-trace: LOG: \x1b\n", "what cannot be printed"),
        ):
            other.errors = errors
            self.assertIn(why, failure_of_end(other) or "")


# A row of a run that did not say what it took of the processors.
UNCOUNTED = "| `c` | 7 | 60:00 |  | 2 | 1, 2 | 0 |  | 2026-11-27 | abc |\n"


class Fuzz(unittest.TestCase):
    """The program that tries them."""

    def setUp(self) -> None:
        self.fuzz = script(FOLDER / "fuzz")
        self.folder = Path(self.enterContext(tempfile.TemporaryDirectory()))
        self.before = figures.BEGIN + figures.END
        (self.folder / "docs").mkdir()
        (self.folder / figures.PAGE).write_text(f"Before.\n{self.before}After.\n")

    def said(self, *words: str) -> tuple[int, str]:
        """Its status, and what it prints."""
        command = [sys.executable, str(FOLDER / "fuzz"), *words]
        ended = subprocess.run(command, capture_output=True, text=True, check=False)
        self.assertEqual(ended.stderr, "")
        return ended.returncode, ended.stdout

    def test_cases_and_processes(self) -> None:
        parts = self.fuzz.parts_of(self.fuzz.arguments(["--cases", "5", "--jobs", "2"]))
        self.assertEqual([(it.number, it.seed, it.cases) for it in parts], [(0, 1, 3), (1, 2, 2)])
        status, text = self.said("--cases", "5", "--jobs", "2")
        self.assertEqual(status, 0)
        self.assertRegex(text, r"^5 passed, 0 failed, in \d+ seconds\n$")

    def test_minutes(self) -> None:
        (part,) = self.fuzz.parts_of(self.fuzz.arguments(["--minutes", "2"]))
        self.assertEqual((part.cases, part.seconds), (None, 120))
        status, text = self.said("--minutes", "0.01")
        self.assertEqual(status, 0)
        self.assertRegex(text, r"^\d+ passed, 0 failed, in \d seconds\n$")

    def test_a_failure(self) -> None:
        self.fuzz.failure_of = lambda _: "wrong"
        self.fuzz.resource.setrlimit = lambda *_: None
        part = self.fuzz.Part(0, 1, 7, 2, None, self.folder / "kept")
        output = io.StringIO()
        with contextlib.redirect_stdout(output):
            tally = self.fuzz.tried(part)
        self.assertEqual((tally.cases, tally.failed), (2, 2))
        self.assertRegex(output.getvalue(), r"^seed 7, case 1, .*: wrong\nseed 7, case 2, ")
        names = sorted(path.name for path in (self.folder / "kept").iterdir())
        self.assertEqual(names, ["7-1.qlog", "7-2.qlog"])

    def test_figures(self) -> None:
        rows = [
            figures.Figures("b", 1_234, 61.4, 90, [7, 8], 0, "abc"),
            figures.Figures("a", 1, 3_600, 1_800, [1], 2, "abc with changes"),
            figures.Figures("b", 9, 1, 0.6, [7], 0, "def"),
            figures.Figures("b", 3, 1, 0.6, [60], 0, "def"),
            figures.Figures("b", 5, 2, 3.4, [7, 8], 1, "ghi", figures.Branches(1_999, 20_000)),
        ]
        page = f"Before.\n{self.before}After.\n"
        page = page.replace(figures.END, f"{UNCOUNTED}{figures.END}")
        for row in rows:
            page = figures.with_row(page, row)
        day = rows[0].row().split(" | ")[-2]
        table = (
            f"| `a` | 1 | 60:00 | 30:00 | 1 | 1 | 2 |  | {day} | abc with changes |\n"
            f"| `b` | 9 | 0:01 | 0:01 | 1 | 7 | 0 |  | {day} | def |\n"
            f"| `b` | 5 | 0:02 | 0:03 | 2 | 7, 8 | 1 | 1,999 of 20,000 | {day} | ghi |\n"
            f"| `b` | 3 | 0:01 | 0:01 | 1 | 60 | 0 |  | {day} | def |\n"
            f"{UNCOUNTED}"
        )
        told = "In all, by the processors: 0.5 hours of `a`, 0.0 hours of `b`.\n"
        text = f"{figures.HEAD}{table}\n{told}\n"
        wanted = f"Before.\n{figures.BEGIN}{text}{figures.END}After.\n"
        self.assertEqual(page, wanted)
        first = f"| `b` | 1,234 | 1:01 | 1:30 | 2 | 7, 8 | 0 |  | {day} | abc |\n"
        self.assertEqual(first, rows[0].row())
        said = "No run here says what it took of the processors.\n"
        self.assertEqual(figures.hours_of([UNCOUNTED]), said)
        with self.assertRaises(figures.NoPlaceError):
            figures.with_row("Before.\n", rows[0])

    def test_the_page_has_a_place_for_them(self) -> None:
        page = (TOP / figures.PAGE).read_text()
        self.assertIn("`b`", figures.with_row(page, figures.Figures("b", 1, 1, 1, [1], 0, "abc")))


if __name__ == "__main__":
    unittest.main()
