#!/usr/bin/env python3
"""Shows that the sender of sender.py gives the reports of the corpus, and that conformance/simulate
passes what is right and fails what is not."""

import json
import subprocess
import sys
import unittest
from pathlib import Path

import sender
from runners import FOLDER
from sender import Event
from testing import new_folder, write_program

SIMULATE = FOLDER / "simulate"
ACCEPTS_ALL = """
import sys
sys.stdin.buffer.read()
print("accepted")
"""
# Gives one report for any trace.
TELLS = """
import sys
sys.stdin.buffer.read()
sys.stdout.write({report!r})
sys.stderr.write({error!r})
sys.exit({status})
"""


def simulate(*arguments: object) -> subprocess.CompletedProcess[str]:
    """Runs the simulator with these arguments."""
    words = [sys.executable, str(SIMULATE), *map(str, arguments)]
    return subprocess.run(words, capture_output=True, text=True, timeout=60, check=False)


def events_of(trace: bytes) -> tuple[Event, list[tuple[int, Event]]]:
    """The header of a trace that can be read, and its events with their lines, up to a line that is
    no JSON."""
    said_by_lines: list[tuple[int, Event]] = []
    for line, text in enumerate(trace.split(b"\n"), 1):
        if not text.strip():
            continue
        try:
            said_by_lines.append((line, json.loads(text)))
        except ValueError:
            break
    (_first, header), *events = said_by_lines
    return header, events


class TheSender(unittest.TestCase):
    """The sender gives the reports of the corpus, which were written by hand but for real logs."""

    def test_corpus(self) -> None:
        traces = [
            it
            for folder in (FOLDER, FOLDER / "real")
            for it in sorted((folder / "traces").glob("*.trace"))
            if not it.with_suffix(".report").read_text().startswith("unreadable")
        ]
        self.assertGreater(len(traces), 50)
        for trace in traces:
            with self.subTest(trace.stem):
                header, events = events_of(trace.read_bytes())
                self.assertEqual(
                    sender.report_of(header, events), trace.with_suffix(".report").read_text()
                )


class TheSimulator(unittest.TestCase):
    """What passes and what fails."""

    def program(self, text: str) -> Path:
        """A program of this text in a folder of its own."""
        path = new_folder(self) / "program"
        write_program(path, text)
        return path

    def report_of(self, seed: int) -> str:
        """The report of the trace of a seed."""
        return simulate("--show", seed).stderr

    def run_one(self, seed: int, text: str) -> subprocess.CompletedProcess[str]:
        """Runs the simulator with a program of this text over the trace of one seed."""
        return simulate("--first", seed, "--count", 1, self.program(text))

    def test_a_trace_is_the_seed_s(self) -> None:
        self.assertEqual(simulate("--show", 7).stdout, simulate("--show", 7).stdout)
        self.assertNotEqual(simulate("--show", 7).stdout, simulate("--show", 8).stdout)

    def test_right(self) -> None:
        report = self.report_of(0)
        self.assertTrue(report.startswith("accepted\n"))
        ran = self.run_one(0, TELLS.format(report=report, error="", status=0))
        self.assertEqual((ran.returncode, ran.stdout), (0, "1 passed, 0 failed\n"))

    def test_other_totals(self) -> None:
        ran = self.run_one(
            0,
            TELLS.format(report=self.report_of(0).replace("owed 0", "owed 1"), error="", status=0),
        )
        self.assertEqual(ran.returncode, 1)
        self.assertIn("0 passed, 1 failed", ran.stdout)

    def test_other_status(self) -> None:
        ran = self.run_one(0, TELLS.format(report=self.report_of(0), error="", status=1))
        self.assertEqual(ran.returncode, 1)

    def test_something_on_standard_error(self) -> None:
        ran = self.run_one(0, TELLS.format(report=self.report_of(0), error="warning", status=0))
        self.assertEqual(ran.returncode, 1)

    def test_one_that_accepts_all(self) -> None:
        ran = simulate("--count", 4, self.program(ACCEPTS_ALL))
        self.assertEqual(ran.returncode, 1)
        self.assertIn("FAILED", ran.stdout)

    def test_nothing_to_run(self) -> None:
        self.assertEqual(simulate("--count", 3).returncode, 1)
        self.assertEqual(simulate("--count", 0, self.program(ACCEPTS_ALL)).returncode, 1)


if __name__ == "__main__":
    unittest.main()
