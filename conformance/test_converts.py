#!/usr/bin/env python3
"""Shows that conformance/converts passes a converter that is right, and fails others.

A stand-in for the converter answers with its arguments and the log, in capitals.
"""

import unittest

from testing import RunnerCase

# Reads the log that is named, or standard input if there is none, and writes it in capitals. It
# says its arguments, and ends with 2 if the log has a 0.
HONEST = """
import os, sys
words = sys.argv[1:]
is_named = bool(words) and words[-1].endswith(".qlog")
path = words.pop() if is_named else 0
name = path or "standard input"
{before}
if words == ["--version"]:
    os.write(1, b"1.0\\n")
    sys.exit(0)
data = b""
with open(path, "rb", buffering=0) as log:
    while piece := log.read(4096):
        data += piece
        {piece}
os.write(1, data.upper(){trace})
os.write(2, f"it: {{name}}: {{words}}\\n".encode())
sys.exit({status})
"""
STATUS = "2 if b'0' in data else 0"


class ConvertsTest(RunnerCase):
    """The runner over a corpus of three cases, one of them of two logs."""

    runner = "converts"

    def setUp(self) -> None:
        super().setUp()
        self.write()
        self.write_case("log", qlog=b"a log", trace=b"A LOG", error=b"it: standard input: []\n")
        said = b"it: standard input: ['-x', '-y']\n"
        two = {"qlog": b"0@", "each": b"\n", "args": b"-x\n-y\n", "status": b"2\n"}
        self.write_case("two", trace=b"0", error=said, **two)
        self.write_case("version", args=b"--version\n", trace=b"1.0\n")

    def write(
        self, before: str = "", piece: str = "", trace: str = "", status: str = STATUS
    ) -> None:
        """Writes a converter, with what it does besides."""
        self.write_program(HONEST.format(before=before, piece=piece, trace=trace, status=status))

    def write_case(self, name: str, **files: bytes) -> None:
        """Writes the files of a case."""
        self.write_files("converted", name, {"about": b"what it shows\n", **files})

    def test_a_right_one(self) -> None:
        self.assert_passes(5)

    def test_several_logs(self) -> None:
        said = b"it: standard input: []\n"
        self.write_case("log", qlog=b"@", each=b"a log\nA log", trace=b"A LOG", error=2 * said)
        self.assert_passes(7)

    def test_what_is_wrong(self) -> None:
        for fault in ({"trace": "+ b' '"}, {"status": "1"}, {"before": "os.write(2, b'x')"}):
            self.write(**fault)
            names = ["log by a pipe", "log by name", "two 1 by a pipe", "two 1 by name"]
            failures = [line.split(":")[0].removeprefix("FAILED ") for line in self.lines(1)[:-1]]
            self.assertLessEqual(set(names), set(failures), fault)

    def test_what_it_shows_is_told(self) -> None:
        self.write(trace="+ b'!'")
        wanted = "standard output: line 1 is b'A LOG!' and not b'A LOG' (what it shows)"
        self.assertIn(f"FAILED log by name: {wanted}", self.lines(1))

    def test_a_log_in_pieces(self) -> None:
        self.write(piece="break")
        self.assert_fails("log by a pipe")

    def test_standard_input_that_is_read(self) -> None:
        self.write(before="os.read(0, 1) if is_named or words == ['--version'] else 0")
        self.assert_fails("log by name", "two 1 by name", "version")

    def test_another_name(self) -> None:
        self.write(before="name = 'standard input'")
        self.assert_fails("log by name", "two 1 by name")

    def test_files_of_no_case(self) -> None:
        self.write_files("converted", "other", {"trace": b""})
        self.write_files("converted", "log", {"report": b""})
        self.assert_fails("log.report", "other.trace")

    def test_no_cases(self) -> None:
        for path in (self.corpus / "converted").iterdir():
            path.unlink()
        self.assertEqual(self.lines(1), ["0 passed, 0 failed"])


if __name__ == "__main__":
    unittest.main()
