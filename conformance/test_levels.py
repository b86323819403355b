#!/usr/bin/env python3
"""Shows that conformance/levels passes the tables as they are, and finds a level that is swapped, a
section or a sentence that differs, and a page with another table.

Each test has copies of the two files in a temporary folder.
"""

import shutil
import subprocess
import sys
import unittest
from pathlib import Path

from runners import FOLDER
from testing import new_folder, script

DEFINED = Path("crates/qa_explain/specs/text/Sources.antt")
PAGE = Path("docs/why.md")
TOP = FOLDER.parent
BOTH_PASS = (0, "2 passed, 0 failed\n")


class Levels(unittest.TestCase):
    """The check over copies."""

    def setUp(self) -> None:
        self.folder = new_folder(self)
        for it in (DEFINED, PAGE):
            (self.folder / it).parent.mkdir(parents=True)
            shutil.copy(TOP / it, self.folder / it)

    def change(self, path: Path, old: str, new: str) -> None:
        """Replaces the first of a text in a file."""
        text = (self.folder / path).read_text(encoding="utf-8")
        self.assertIn(old, text)
        (self.folder / path).write_text(text.replace(old, new, 1), encoding="utf-8")

    def run_check(self, *words: str) -> tuple[int, str]:
        """How the check ends, and what it prints."""
        command = [sys.executable, str(FOLDER / "levels"), *words, str(self.folder)]
        ended = subprocess.run(command, capture_output=True, text=True, check=False)
        return ended.returncode, ended.stdout + ended.stderr

    def assert_names(self, rule: str) -> None:
        """The check names a rule at which the two readings differ."""
        status, told = self.run_check()
        self.assertEqual(status, 1)
        self.assertIn(f"conformance/sources.py has something else for {rule}\n", told)

    def test_as_they_are(self) -> None:
        self.assertEqual(self.run_check(), BOTH_PASS)

    def test_each_rule_and_each_value_has_a_row(self) -> None:
        levels = script(FOLDER / "levels")
        self.assertEqual(len(levels.NAMES), 25)
        self.assertEqual(
            sorted(map(levels.key_of, levels.NAMES)), sorted(levels.defined(self.folder))
        )

    def test_a_level_is_swapped(self) -> None:
        self.change(DEFINED, "row level.Should", "row level.Must")
        self.assert_names("V10 ack-unsent")

    def test_a_level_of_a_value_is_swapped(self) -> None:
        place = '(codes "RFC 9002, 5.1")'
        self.change(DEFINED, f"row level.Described {place}", f"row level.Must {place}")
        self.assert_names("V16 metric latest_rtt")

    def test_another_section(self) -> None:
        self.change(DEFINED, 'RFC 9002, 7.6.2"', 'RFC 9002, 7.6.1"')
        self.assert_names("V19 collapse-missing")

    def test_another_sentence(self) -> None:
        self.change(DEFINED, "the times of a trace do not fall.", "times do not fall.")
        self.assert_names("V1 time-back")

    def test_a_row_is_missing(self) -> None:
        self.change(DEFINED, "source rule.TimeBack =", "source rule.Other =")
        self.assert_names("V1 time-back, Other")

    def test_a_page_with_another_level(self) -> None:
        self.change(PAGE, "| V10 ack-unsent | SHOULD |", "| V10 ack-unsent | MUST |")
        status, told = self.run_check()
        self.assertEqual(status, 1)
        self.assertIn("FAILED docs/why.md: has another table", told)
        self.assertEqual(self.run_check("--write"), BOTH_PASS)
        self.assertEqual(
            (self.folder / PAGE).read_text(encoding="utf-8"),
            (TOP / PAGE).read_text(encoding="utf-8"),
        )


if __name__ == "__main__":
    unittest.main()
