#!/usr/bin/env python3
"""Shows that conformance/unproved passes a program that writes the reports, and fails others.

A stand-in for `rt` answers for each case what a file beside it says.
"""

import os
import subprocess
import sys
import unittest

from runners import FOLDER
from testing import new_folder, write_program

RT = """\
import pathlib, sys
assert sys.argv[1:3] == ["try", "--cases"] and sys.argv[4:] == ["--", "check"]
folder = pathlib.Path(sys.argv[3])
for case in sorted(folder.iterdir()):
    if case.suffix != ".stdout":
        assert case.with_name(case.name + ".stdout").exists()
        print(case.read_text(), end="")
print("cases=2 ended=2 proved=no")
"""
RIGHT = "case={} run=ended status={} runners=1 output=expected proved=no\n"


class UnprovedTest(unittest.TestCase):
    """The runner over a corpus of two traces, each of which is what `rt` says of it."""

    def setUp(self) -> None:
        self.corpus = new_folder(self)
        self.write("traces", "one", RIGHT.format("one", 0), "accepted\n")
        self.write("real/traces", "one", RIGHT.format("real-one", 1), "refused line 2 V1\n")
        (self.corpus / "kit").mkdir()
        write_program(self.corpus / "kit/rt", RT)

    def write(self, folder: str, name: str, trace: str, report: str) -> None:
        """Writes a trace and its report."""
        (self.corpus / folder).mkdir(parents=True, exist_ok=True)
        (self.corpus / folder / f"{name}.trace").write_text(trace)
        (self.corpus / folder / f"{name}.report").write_text(report)

    def run_runner(self, jobs: int = 1) -> tuple[int, list[str]]:
        """The exit status of the runner, and the lines that it prints."""
        command = [sys.executable, FOLDER / "unproved", "--jobs", str(jobs), self.corpus]
        path = f"{self.corpus / 'kit'}:{os.environ['PATH']}"
        ended = subprocess.run(
            list(map(str, command)),
            env={**os.environ, "PATH": path},
            capture_output=True,
            text=True,
            check=False,
        )
        self.assertEqual(ended.stderr, "")
        return ended.returncode, ended.stdout.splitlines()

    def test_all_are_right(self) -> None:
        for jobs in (1, 2, 5):
            self.assertEqual(self.run_runner(jobs), (0, ["2 passed, 0 failed"]))

    def test_what_is_wrong(self) -> None:
        for said in (
            RIGHT.format("one", 1),
            RIGHT.format("one", 0).replace("expected", "differs"),
            RIGHT.format("one", 0).replace("ended", "fault"),
            RIGHT.format("another", 0),
            "",
        ):
            self.write("traces", "one", said, "accepted\n")
            status, lines = self.run_runner()
            self.assertEqual((status, lines[-1]), (1, "1 passed, 1 failed"))
            self.assertTrue(lines[0].startswith("FAILED one: "), lines)

    def test_a_program_that_is_not_built(self) -> None:
        write_program(self.corpus / "kit/rt", "print('src/main.rt:1: error')\n")
        status, lines = self.run_runner()
        self.assertEqual(status, 1)
        wanted = "FAILED rt try: ran nothing: src/main.rt:1: error"
        self.assertEqual(lines, [wanted, "0 passed, 1 failed"])


if __name__ == "__main__":
    unittest.main()
