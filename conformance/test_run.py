#!/usr/bin/env python3
"""Shows that conformance/run and large pass what is right and fail what is not.

Each test gives a runner a small corpus of its own and a fake program, both in a temporary folder.
"""

import json
import unittest
from typing import Any
from unittest import mock

from constants import MAX_LINE_LENGTH
from runners import FOLDER
from testing import RunnerCase, script
from texts import report

TRACE = b"a line\nanother line\n"
REPORT = b"accepted\nevents 0\n"
EXPLANATION = b"line 1 header\n" + REPORT

# Reads to the end of its input, and writes the report if all of it came.
HONEST = """
import os, sys
if sys.argv[1:] not in (["check"], ["explain"]):
    sys.stderr.write("usage\\n")
    sys.exit(64)
read = b""
while True:
    piece = os.read(0, 4096)
    if not piece:
        break
    read += piece
right = {report!r} if sys.argv[1] == "check" else {explanation!r}
os.write(1, right if read == {trace!r} else b"unreadable line 1 F1 not-json\\n")
sys.exit({status})
"""
# Takes the first piece for the whole input.
READS_ONCE = """
import os, sys
whole = os.read(0, 4096) == {trace!r}
os.write(1, {report!r} if whole else b"unreadable line 1 F1 not-json\\n")
sys.exit(0 if whole else 2)
"""
# Reads lines to the end of its input, and says of each how many bytes it has.
SAYS_LENGTHS = """
import sys
for line in sys.stdin.buffer:
    print(len(line.rstrip(b"\\n")))
sys.stderr.write("{write}")
sys.exit({status})
"""
# Writes each file that it is given with a line of its name before, and the number of the error
# where it cannot.
WRITES_FILES = """
import os, sys
for name in sys.argv[1:]:
    try:
        with open(name, "rb") as file:
            os.write(1, os.fsencode(name) + b"\\n" + file.read())
    except OSError as error:
        sys.stderr.write(f"{error.errno}\\n")
"""
# The report of a trace without events, in which another number of them may stand.
_VERDICT, _NO_EVENTS, TOTALS_OF_START = report("accepted").split(b"\n", 2)
# Reads line by line, to the first that is no blank one; a header may be followed by any events.
READS_LINES = (
    f"""
import sys
TOTALS = {TOTALS_OF_START.decode()!r}
"""
    + """
def verdict(lines):
    number = 0
    for line in lines:
        number += 1
        if len(line.rstrip(b"\\n")) > 65536:
            return "unreadable line %d F8 line-too-long\\n" % number, 2
        if line.startswith(b"{}"):
            return "unreadable line %d F3 missing event\\n" % number, 2
        if line.strip():
            return "accepted\\nevents %d\\n" % sum(1 for more in lines if more.strip()) + TOTALS, 0
"""
)
ANSWERS = """
text, status = verdict({lines})
sys.stdout.write(text)
sys.exit(status)
"""
USAGE_CASE: dict[str, Any] = {
    "name": "no-arguments",
    "arguments": [],
    "input": {"file": ""},
    "status": 64,
    "stdout": "",
    "stderr": "usage\n",
}


class AuditorTest(RunnerCase):
    def setUp(self) -> None:
        super().setUp()
        self.write_program(self.honest())
        self.write_trace("one", TRACE, REPORT)
        self.write_cases([USAGE_CASE])

    def honest(
        self, report: bytes = REPORT, explanation: bytes = EXPLANATION, status: int = 0
    ) -> str:
        """A program that answers the trace so."""
        return HONEST.format(trace=TRACE, report=report, explanation=explanation, status=status)

    def write_trace(
        self, name: str, trace: bytes | None, report: bytes | None, explanation: bytes | None = None
    ) -> None:
        """Writes a trace of the corpus, and what must be written for it."""
        files = {"trace": trace, "report": report, "explain": explanation}
        self.write_files("traces", name, files)

    def write_cases(self, cases: list[dict[str, Any]]) -> None:
        """Writes the cases of streams.json."""
        (self.corpus / "streams.json").write_text(json.dumps({"cases": cases}))

    def test_right_program(self) -> None:
        self.assert_passes(3)

    def test_long_trace_is_run_once(self) -> None:
        self.write_program("import os\nos.write(1, b'accepted\\n')")
        self.write_trace("one", b" " * 4097, b"accepted\n")
        self.write_cases([{**USAGE_CASE, "status": 0, "stdout": "accepted\n", "stderr": ""}])
        self.assert_passes(2)

    def test_no_program(self) -> None:
        self.program.unlink()
        self.assert_fails(str(self.program))

    def test_empty_corpus(self) -> None:
        for path in (self.corpus / "traces").iterdir():
            path.unlink()
        (self.corpus / "traces").rmdir()
        (self.corpus / "streams.json").unlink()
        self.assert_fails("traces", "streams.json")

    def test_no_trace(self) -> None:
        for path in (self.corpus / "traces").iterdir():
            path.unlink()
        self.assert_fails("traces")

    def test_no_case(self) -> None:
        self.write_cases([])
        self.assert_fails("streams.json")

    def test_cases_that_are_no_json(self) -> None:
        (self.corpus / "streams.json").write_text("{")
        self.assert_fails("streams.json")

    def test_trace_without_report(self) -> None:
        self.write_trace("two", TRACE, None)
        self.assert_fails("traces/two")

    def test_report_without_trace(self) -> None:
        self.write_trace("two", None, REPORT)
        self.assert_fails("traces/two")

    def test_right_explanation(self) -> None:
        self.write_trace("one", TRACE, REPORT, EXPLANATION)
        self.assert_passes(5)

    def test_wrong_explanation(self) -> None:
        self.write_trace("one", TRACE, REPORT, EXPLANATION)
        self.write_program(self.honest(explanation=REPORT))
        self.assert_fails("traces/one explained", "traces/one explained byte by byte")

    def test_explanation_without_trace(self) -> None:
        self.write_trace("two", None, None, EXPLANATION)
        self.assert_fails("traces/two explained")

    def test_report_without_verdict(self) -> None:
        self.write_trace("one", TRACE, b"")
        self.assert_fails("traces/one")

    def test_wrong_report(self) -> None:
        self.write_program(self.honest(report=b"accepted\nevents 1\n"))
        self.assert_fails("traces/one", "traces/one byte by byte")

    def test_report_with_a_byte_too_many(self) -> None:
        self.write_program(self.honest(report=REPORT + b"\n"))
        self.assert_fails("traces/one", "traces/one byte by byte")

    def test_wrong_status(self) -> None:
        self.write_program(self.honest(status=1))
        self.assert_fails("traces/one", "traces/one byte by byte")

    def test_text_on_standard_error(self) -> None:
        self.write_program("import sys\nsys.stderr.write('noise')\n" + self.honest())
        self.write_cases([{**USAGE_CASE, "stderr": "noiseusage\n"}])
        self.assert_fails("traces/one", "traces/one byte by byte")

    def test_program_that_reads_once(self) -> None:
        self.write_program(READS_ONCE.format(trace=TRACE, report=REPORT))
        self.write_cases(
            [{**USAGE_CASE, "status": 2, "stdout": "unreadable line 1 F1 not-json\n", "stderr": ""}]
        )
        self.assert_fails("traces/one byte by byte")

    def test_wrong_status_of_a_case(self) -> None:
        self.write_cases([{**USAGE_CASE, "status": 0}])
        self.assert_fails("streams/no-arguments")

    def test_wrong_error_of_a_case(self) -> None:
        self.write_cases([{**USAGE_CASE, "stderr": "usage"}])
        self.assert_fails("streams/no-arguments")

    def test_wrong_output_of_a_case(self) -> None:
        self.write_cases([{**USAGE_CASE, "stdout": "usage\n"}])
        self.assert_fails("streams/no-arguments")

    def assert_cases_pass(self, count: int) -> None:
        """So many cases of streams.json pass; the trace of the corpus need not."""
        *failures, last = self.lines(1)
        self.assertFalse([line for line in failures if line.startswith("FAILED streams/")], last)
        self.assertTrue(last.startswith(f"{count} passed"), last)

    def assert_case_passes(self, program: str, case: dict[str, Any]) -> None:
        """One case passes with this program; the trace of the corpus need not."""
        self.write_program(program)
        self.write_cases([{**USAGE_CASE, "status": 0, "stdout": "", "stderr": "", **case}])
        self.write_trace("one", TRACE, REPORT)
        self.assert_cases_pass(1)

    def test_wanted_output_in_parts(self) -> None:
        text = f"first\n{REPORT.decode()}last\n"
        self.assert_case_passes(
            f"print({text!r}, end='')", {"stdout": ["first\n", {"report": "one"}, "last\n"]}
        )

    def test_wrong_output_in_parts(self) -> None:
        self.write_program(self.honest())
        self.write_cases(
            [
                {
                    **USAGE_CASE,
                    "arguments": ["check"],
                    "status": 2,
                    "stdout": [{"report": "one"}],
                    "stderr": "",
                }
            ]
        )
        self.assert_fails("streams/no-arguments")

    def test_files_reach_the_program(self) -> None:
        text = "text of a\n\udcfe\n"
        self.assert_case_passes(
            WRITES_FILES,
            {
                "arguments": ["a", "b", "c", "\udcff", "d", "e"],
                "files": {
                    "a": {"file": text},
                    "b": {"trace": "one"},
                    "c": {"link": "a"},
                    "\udcff": {"file": ""},
                    "d": "directory",
                },
                "stdout": f"a\n{text}b\n{TRACE.decode()}c\n{text}\udcff\n",
                "stderr": "21\n2\n",
            },
        )

    def test_files_of_another_case_are_gone(self) -> None:
        self.write_program(
            "import os, sys\nif sys.argv[1:] == ['check']: os.write(1, b'accepted\\n')\n"
            "else: print(os.listdir())"
        )
        case = {**USAGE_CASE, "status": 0, "stderr": ""}
        self.write_trace("one", TRACE, b"accepted\n")
        self.write_cases(
            [
                {**case, "name": "file", "files": {"a": {"file": ""}}, "stdout": "['a']\n"},
                {**case, "name": "none", "stdout": "[]\n"},
            ]
        )
        self.assert_passes(4)

    def test_file_without_a_right_to_read_it(self) -> None:
        case = {"arguments": ["a"], "files": {"a": "no right to read"}, "stderr": "13\n"}
        self.write_cases([{**USAGE_CASE, "status": 0, "stdout": "", **case}])
        self.write_program(WRITES_FILES)
        self.write_trace("one", TRACE, b"accepted\n")
        *lines, _last = self.lines(1)
        of_the_case = [line for line in lines if "streams/" in line]
        skipped = "this user reads every file, and may not give that up"
        self.assertIn(of_the_case, [[], [f"SKIPPED streams/no-arguments: {skipped}"]])

    def test_program_that_reads_without_a_right(self) -> None:
        self.write_program("import os\nos.chmod('a', 0o600)\n" + WRITES_FILES)
        self.write_cases(
            [
                {
                    **USAGE_CASE,
                    "arguments": ["a"],
                    "files": {"a": "no right to read"},
                    "status": 0,
                    "stdout": "",
                    "stderr": "13\n",
                }
            ]
        )
        *lines, _last = self.lines(1)
        self.assertEqual(len([line for line in lines if "streams/" in line]), 1, lines)

    def test_failing_streams_reach_the_program(self) -> None:
        write = (
            "import os\ntry:\n os.write({}, b'x')\n"
            "except OSError as error:\n os._exit(error.errno)\n"
        )
        cases = [("closed", 9), ("read-only", 9), ("full", 28), ("nobody reads", 32)]
        for stream, number in (("output", 1), ("error", 2)):
            self.write_program(write.format(number))
            other = {
                "stdout": "",
                "stderr": "",
                {"output": "stdout", "error": "stderr"}[stream]: None,
            }
            self.write_cases(
                [
                    {**USAGE_CASE, **other, "name": kind, stream: kind, "status": status}
                    for kind, status in cases
                ]
            )
            self.write_trace("one", TRACE, b"accepted\n")
            self.assert_cases_pass(4)

    def test_reset_connection_reaches_the_program(self) -> None:
        self.write_program(
            "import os\nread = b''\ntry:\n while True:\n  read += os.read(0, 4096) or os._exit(1)\n"
            "except OSError as error:\n os.write(1, read)\n os._exit(error.errno)\n"
        )
        case = {**USAGE_CASE, "status": 104, "stderr": ""}
        self.write_cases(
            [
                {**case, "name": text, "input": {"reset": text}, "stdout": text}
                for text in ("", "a line", "x" * 100000)
            ]
        )
        self.assert_cases_pass(3)

    def test_streams_that_fail_once_reach_the_program(self) -> None:
        self.write_program(
            "import os\nfailed = 0\ntry:\n os.read(0, 9)\nexcept OSError:\n failed += 1\n"
            "for stream in (1, 2):\n"
            " try:\n  os.write(stream, b'lost')\n except OSError:\n  failed += 1\n"
            "os.write(1, os.read(0, 9) + os.read(0, 9))\nos.write(2, b'told')\nos._exit(failed)\n"
        )
        case = {
            **USAGE_CASE,
            "input": {"fails once": "a line"},
            "output": "fails once",
            "error": "fails once",
        }
        self.write_cases([{**case, "status": 3, "stdout": "a line", "stderr": "told"}])
        self.assert_cases_pass(1)

    def test_program_that_writes_again(self) -> None:
        self.write_program(
            "import os\nfor _ in range(2):\n"
            " try:\n  os.write(1, b'again')\n  break\n except OSError:\n  pass\n"
        )
        self.write_cases(
            [{**USAGE_CASE, "output": "fails once", "status": 0, "stdout": "", "stderr": ""}]
        )
        *failures, _last = self.lines(1)
        self.assertIn("FAILED streams/no-arguments: standard output b'again', wanted b''", failures)

    def test_repeated_text_reaches_the_program(self) -> None:
        repeated = {
            "repeated": {"before": "first\n", "text": "ab", "times": 40000, "behind": "\nlast"}
        }
        whole = "first\n" + "ab" * 40000 + "\nlast"
        self.assert_case_passes(
            "import os\nwhile True:\n read = os.read(0, 4096)\n os.write(1, read) or os._exit(0)",
            {"input": repeated, "stdout": whole},
        )
        self.assert_case_passes(
            WRITES_FILES, {"arguments": ["a"], "files": {"a": repeated}, "stdout": "a\n" + whole}
        )

    def test_files_in_folders_reach_the_program(self) -> None:
        self.assert_case_passes(
            WRITES_FILES,
            {
                "arguments": ["b/c/a", "../a", "./d"],
                "files": {
                    "a": {"file": "above\n"},
                    "b/b/c/a": {"file": "below\n"},
                    "b/d": "directory",
                },
                "folder": "b",
                "stdout": "b/c/a\nbelow\n../a\nabove\n",
                "stderr": "21\n",
            },
        )

    def test_long_path_reaches_the_program(self) -> None:
        path = {"before": "b/", "text": "d" * 99 + "/", "times": 40, "behind": "e" * 93}
        self.assert_case_passes(
            WRITES_FILES,
            {
                "texts": {"PATH": path},
                "arguments": ["PATH", "PATHe"],
                "files": {"PATH": {"file": "found\n"}},
                "stdout": ["PATH\n", "found\n"],
                "stderr": "36\n",
            },
        )

    def test_program_that_reads_an_input_that_is_held(self) -> None:
        case = {**USAGE_CASE, "status": 0, "stderr": "", "seconds": 2}
        self.write_program("import os\nos.read(0, 1)")
        self.write_cases(
            [
                {**case, "name": "bytes", "input": {"held": "a line"}},
                {**case, "name": "nothing", "input": {"held": ""}},
            ]
        )
        of_cases = [line for line in self.lines(1) if line.startswith("FAILED streams/")]
        self.assertEqual(
            of_cases,
            [
                "FAILED streams/bytes: left of standard input b' line', wanted b'a line'",
                "FAILED streams/nothing: killed, for it took too long",
            ],
        )

    def test_program_that_reads_no_input_that_is_held(self) -> None:
        case = {**USAGE_CASE, "status": 0, "stderr": "", "seconds": 2}
        self.write_program("")
        self.write_cases([{**case, "input": {"held": text}} for text in ("a line", "")])
        self.assert_cases_pass(2)

    def test_input_that_would_block_reaches_the_program(self) -> None:
        self.write_program(
            "import os\nos.write(1, os.read(0, 9))\ntry:\n os.read(0, 9)\n"
            "except OSError as error:\n os._exit(error.errno)\n"
        )
        case = {**USAGE_CASE, "stdout": "a line", "stderr": "", "seconds": 2}
        self.write_cases([{**case, "status": 11, "input": {"would block": "a line"}}])
        self.assert_cases_pass(1)

    def test_limit_of_memory_reaches_the_program(self) -> None:
        self.assert_case_passes(
            "import resource\nprint(resource.getrlimit(resource.RLIMIT_DATA)[0])",
            {"memory": 1 << 30, "stdout": "1073741824\n"},
        )
        refused = "try:\n print(len(bytes(1 << 30)))\nexcept MemoryError:\n print('refused')"
        self.assert_case_passes(refused, {"memory": 1 << 28, "stdout": "refused\n"})

    def test_case_that_takes_too_long(self) -> None:
        self.write_program(
            "import sys, time\nif len(sys.argv) == 1:\n time.sleep(1000)\n" + self.honest()
        )
        self.write_cases([{**USAGE_CASE, "seconds": 0.5}])
        self.assert_fails("streams/no-arguments")

    def test_program_that_stops_reading(self) -> None:
        self.write_program("import os\nos.read(0, 1)\nos.write(1, b'accepted\\n')")
        self.write_trace("one", TRACE, b"accepted\n")
        case = {**USAGE_CASE, "status": 0, "stdout": "accepted\n", "stderr": ""}
        self.write_cases(
            [{**case, "input": {"repeated": {"text": "ab", "times": 10**12}}, "seconds": 30}]
        )
        self.assert_passes(3)


class LinesTest(RunnerCase):
    part = ("--lines",)

    def setUp(self) -> None:
        super().setUp()
        self.write_program(SAYS_LENGTHS.format(write="", status=0))
        self.write_lines("one", b"a line\n\n\xff\n", b"6\n0\n1\n")

    def write_lines(self, name: str, lines: bytes | None, said: bytes | None) -> None:
        """Writes a file of lines, and the answers to them."""
        self.write_files("lines", name, {"lines": lines, "said": said})

    def assert_fails_with(self, *failures: str) -> None:
        """The one file fails in both its runs, for these reasons."""
        *printed, last = self.lines(1)
        self.assertEqual(
            printed,
            [f"FAILED lines/one{run}: {'; '.join(failures)}" for run in ("", " byte by byte")],
        )
        self.assertEqual(last, "0 passed, 2 failed")

    def test_right_program(self) -> None:
        self.assert_passes(2)

    def test_traces_are_not_run(self) -> None:
        self.write_files("traces", "one", {"trace": TRACE, "report": REPORT})
        self.assert_passes(2)

    def test_long_file_is_run_once(self) -> None:
        self.write_lines("one", b" " * 4096 + b"\n", b"4096\n")
        self.assert_passes(1)

    def test_no_program(self) -> None:
        self.program.unlink()
        self.assert_fails(str(self.program))

    def test_no_lines(self) -> None:
        for path in (self.corpus / "lines").iterdir():
            path.unlink()
        self.assert_fails("lines")

    def test_no_folder(self) -> None:
        for path in (self.corpus / "lines").iterdir():
            path.unlink()
        (self.corpus / "lines").rmdir()
        self.assert_fails("lines")

    def test_lines_without_answers(self) -> None:
        self.write_lines("two", b"a line\n", None)
        self.assert_fails("lines/two")

    def test_answers_without_lines(self) -> None:
        self.write_lines("two", None, b"6\n")
        self.assert_fails("lines/two")

    def test_wrong_answer(self) -> None:
        self.write_lines("one", b"a line\n\n\xff\n", b"6\n1\n2\n")
        self.assert_fails_with("line 2 b'': b'0', wanted b'1'")

    def test_answer_too_many(self) -> None:
        self.write_lines("one", b"a line\n\n\xff\n", b"6\n0\n")
        self.assert_fails_with("answers: 3, wanted 2", "line 3 b'\\xff': b'1', wanted b''")

    def test_answer_too_few(self) -> None:
        self.write_lines("one", b"a line\n", b"6\n0\n")
        self.assert_fails_with("answers: 1, wanted 2", "line 2 b'': b'', wanted b'0'")

    def test_last_answer_without_its_end(self) -> None:
        self.write_lines("one", b"a line\n", b"6")
        self.assert_fails_with("answers: 1, wanted 0", "line 2 b'': b'', wanted nothing")

    def test_wrong_status(self) -> None:
        self.write_program(SAYS_LENGTHS.format(write="", status=3))
        self.assert_fails_with("status 3, wanted 0")

    def test_text_on_standard_error(self) -> None:
        self.write_program(SAYS_LENGTHS.format(write="noise", status=0))
        self.assert_fails_with("standard error b'noise', wanted b''")

    def test_program_that_reads_once(self) -> None:
        self.write_program("import os\nfor line in os.read(0, 4096).splitlines(): print(len(line))")
        self.assert_fails("lines/one byte by byte")


class LargeTest(RunnerCase):
    runner = "large"

    def setUp(self) -> None:
        super().setUp()
        text = b"unreadable line 1 F3 missing event\n"
        files: dict[str, bytes | None] = {"trace": b"{}", "report": text, "explain": text}
        self.write_files("traces", "greatest-totals", files)
        first_loss: dict[str, bytes | None] = {"trace": b"a header\n", "report": report("accepted")}
        self.write_files("traces", "first-loss", first_loss)

    def write_reader(self, lines: str) -> None:
        """A program that judges the lines that this expression gives."""
        self.write_program(READS_LINES + ANSWERS.format(lines=lines))

    def test_right_program(self) -> None:
        self.write_reader("sys.stdin.buffer")
        self.more = (
            "blank-lines",
            "blank-lines-explained",
            "longest-line-by-bytes",
            "too-long-line-by-bytes",
            "long-lines-by-bytes",
            "many-events",
            "never-acknowledged",
        )
        self.assert_passes(7)

    def test_program_whose_window_does_not_grow(self) -> None:
        self.write_reader("sys.stdin.buffer")
        large = script(FOLDER / "large")
        # With no limit, for an interpreter takes more memory than that.
        failure = large.run([str(self.program), "check"], large.acknowledged_one_by_one())
        self.assertTrue(failure.startswith("standard output"), failure)

    def test_program_that_takes_more_than_the_least_memory(self) -> None:
        self.write_reader("sys.stdin.buffer")
        self.more = ("acknowledged-one-by-one",)
        failure, _last = self.lines(1)
        self.assertTrue(
            failure.startswith("FAILED large/acknowledged-one-by-one: status"), failure
        )

    def test_no_program(self) -> None:
        self.assert_fails(str(self.program))

    def test_no_such_case(self) -> None:
        self.write_reader("sys.stdin.buffer")
        self.more = ("other",)
        self.assert_fails("large/other")

    def test_program_that_keeps_its_input(self) -> None:
        self.write_reader("iter(sys.stdin.buffer.readlines())")
        self.more = ("blank-lines", "blank-lines-explained")
        self.assert_fails("large/blank-lines", "large/blank-lines-explained")

    def test_program_that_takes_long_for_a_byte(self) -> None:
        self.write_program(
            READS_LINES
            + "import time\n"
            + "while len(sys.stdin.buffer.peek(1)) == 1 and time.process_time() < 1.2: pass\n"
            + ANSWERS.format(lines="sys.stdin.buffer")
        )
        self.more = ("longest-line-by-bytes",)
        failure, _last = self.lines(1)
        self.assertTrue(failure.endswith(" seconds of processor time"), failure)

    def test_program_that_takes_longer_for_the_bytes_of_a_long_line(self) -> None:
        self.write_program(
            READS_LINES
            + """
import time
def slowly(lines):
    for line in lines:
        end = time.process_time() + 0.5 * (len(line) > 60000)
        while time.process_time() < end: pass
        yield line
"""
            + ANSWERS.format(lines="slowly(sys.stdin.buffer)")
        )
        large = script(FOLDER / "large")
        # Of one long line, for each byte takes long.
        with mock.patch.object(large, "BYTES_OF_LINES", MAX_LINE_LENGTH + 1):
            failure = large.as_quick_as_short_lines(str(self.program))
        self.assertTrue(failure.endswith(" times the processor time of short lines"), failure)

    def test_program_that_counts_no_event(self) -> None:
        self.write_reader("iter([sys.stdin.buffer.readline()])")
        self.more = ("many-events",)
        failure, _last = self.lines(1)
        self.assertTrue(failure.startswith("FAILED large/many-events: standard output"), failure)


if __name__ == "__main__":
    unittest.main()
