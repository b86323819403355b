"""The program that compares a native converter with this one, with converters that are none."""

import json
import subprocess
import sys
import unittest
from pathlib import Path
from unittest import mock

from .made import FOLDER, TOP, header, metrics, received, sent, sequence

sys.path.append(str(TOP / "conformance"))

from testing import new_folder, script, write_program  # noqa: E402

COMPARE = FOLDER / "compare"
# It converts as this converter does, and then does what is put in.
RIGHT = f"""import contextlib, io, sys
sys.path.insert(0, {str(FOLDER)!r})
from qlog_to_trace.command import main
output = io.StringIO()
with contextlib.redirect_stdout(output), contextlib.redirect_stderr(io.StringIO()):
    status = main(sys.argv[1:])
trace = output.getvalue()
{{}}
sys.stdout.write(trace)
sys.exit(status)
"""
EVENTS = [sent(0, 0), received(50, [[0]]), metrics(50, latest_rtt=50, min_rtt=50, smoothed_rtt=50)]


class Compare(unittest.TestCase):
    """What it says of programs, and how it ends."""

    def setUp(self) -> None:
        self.folder = new_folder(self)
        self.logs = self.folder / "logs"
        self.logs.mkdir()
        (self.logs / "a.qlog").write_text(sequence(header(), EVENTS))
        (self.logs / "b.sqlog").write_text(sequence(header(role="network"), EVENTS))
        self.program = self.folder / "program"

    def said(self, body: str, *words: str) -> tuple[int, list[str]]:
        """Its exit status and lines over a program that does this, too."""
        write_program(self.program, RIGHT.format(body))
        command = [sys.executable, COMPARE, "--native", self.program, *words, self.logs]
        ended = subprocess.run(list(map(str, command)), capture_output=True, text=True, check=False)
        self.assertEqual(ended.stderr, "")
        return ended.returncode, ended.stdout.splitlines()

    def test_a_right_program(self) -> None:
        # A log that gives a trace and one that gives none, in four ways each.
        self.assertEqual(self.said(""), (0, ["8 alike, 0 differ"]))

    def test_a_line_that_differs(self) -> None:
        body = "trace = trace.replace('\"size\":1200', '\"size\":1201')"
        kept = self.folder / "kept"
        status, lines = self.said(body, "--keep", str(kept))
        self.assertEqual((status, lines[-1]), (1, "4 alike, 4 differ"))
        first, native, reference = lines[:3]
        self.assertEqual(first, f"{self.logs / 'a.qlog'}:")
        self.assertRegex(native, r"^  native, status 0, line 2: \{.*\"size\":1201,.*\}\\n$")
        self.assertRegex(reference, r"^  reference, status 0, line 2: \{.*\"size\":1200,.*\}\\n$")
        (log,) = kept.iterdir()
        self.assertEqual(log.read_bytes(), (self.logs / "a.qlog").read_bytes())

    def test_lines_that_are_not_there(self) -> None:
        status, lines = self.said("trace = trace[:-3]")
        self.assertEqual(status, 1)
        self.assertRegex(lines[1], r'^  native, status 0, line 4: .*"time":5000$')
        status, lines = self.said("trace = ''")
        self.assertEqual(lines[1], "  native, status 0, line 1: no such line")

    def test_statuses_that_differ(self) -> None:
        status, lines = self.said("status = 3 if status else 0")
        self.assertEqual((status, lines[-1]), (1, "4 alike, 4 differ"))
        told = "status 3, line 1: no such line", "status 2, line 1: no such line"
        self.assertEqual(lines[1:3], [f"  native, {told[0]}", f"  reference, {told[1]}"])

    def test_logs_that_both_refuse(self) -> None:
        (self.logs / "a.qlog").write_text(json.dumps({"constants": {}, "events": []}))
        (self.logs / "b.sqlog").write_bytes(b"\x1f\x8b\x08")
        self.assertEqual(self.said(""), (0, ["8 alike, 0 differ"]))

    def test_mutations(self) -> None:
        words = ("--mutations", "12", "--jobs", "2")
        self.assertEqual(self.said("", *words), (0, ["20 alike, 0 differ"]))
        compare = script(COMPARE)
        part = compare.Part(Path(), (), (self.logs / "a.qlog",), 0, 1, 12, 1, None)
        names = [case.name for case, _ in zip(compare.mutations(part), range(12), strict=False)]
        self.assertEqual(len([it for it in names if "torn at" in it]), 2, names)
        self.assertEqual(len([it for it in names if "records are" in it]), 4, names)

    def test_a_program_that_does_not_end(self) -> None:
        compare = script(COMPARE)
        write_program(self.program, "while True:\n    pass\n")
        with mock.patch.object(compare, "SECONDS", 0.2):
            self.assertEqual(compare.by_native(self.program, []), (b"", None))


if __name__ == "__main__":
    unittest.main()
