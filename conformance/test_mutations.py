#!/usr/bin/env python3
"""Shows that conformance/mutations and malicious pass what is right and fail what is not."""

import collections
import random
import unittest
from typing import Any

import mutants
from constants import MAX_LINE_LENGTH
from processes import Outcome, status_of
from runners import FOLDER
from testing import new_folder, script, write_program
from texts import header, ranged

mutations, malicious = script(FOLDER / "mutations"), script(FOLDER / "malicious")


def written(name: str) -> tuple[bytes, Outcome, Outcome]:
    """What `check` and what `explain` writes for a trace of the corpus, and the trace."""
    paths = (FOLDER / "traces" / f"{name}.{kind}" for kind in ("trace", "report", "explain"))
    trace, report, explanation = (path.read_bytes() for path in paths)
    status = status_of(report)
    return trace, Outcome(status, report, b""), Outcome(status, explanation, b"")


class MutantsTest(unittest.TestCase):
    def test_seed_makes_one_trace(self) -> None:
        self.assertEqual(mutants.mutant(7), mutants.mutant(7))
        self.assertGreater(len({mutants.mutant(seed) for seed in range(100)}), 80)

    def test_mutations_change_something(self) -> None:
        lines = (FOLDER / "traces" / "first-loss.trace").read_bytes().splitlines(keepends=True)
        for mutate in mutants.MUTATIONS:
            made = set()
            for seed in range(20):
                others = list(lines)
                mutate(others, random.Random(seed))
                made.add(b"".join(others))
            self.assertGreater(len(made), 5, mutate)


class JudgeTest(unittest.TestCase):
    """The judge of what auditors write, on traces of the corpus that were explained by hand."""

    def test_right(self) -> None:
        for name in ("first-loss", "greatest-totals", "handshake-with-keys"):
            trace, checked, explained = written(name)
            self.assertEqual(mutations.failure_of(trace, checked, explained, checked), "", name)

    def test_report_before_a_header(self) -> None:
        for trace, text in (
            (b"", b"unreadable line 1 F7 header-place\n"),
            (b"\n{", b"unreadable line 2 F1 not-json\n"),
        ):
            outcome = Outcome(2, text, b"")
            self.assertEqual(mutations.failure_of(trace, outcome, outcome, None), "")

    def assert_fails(self, part: str, name: str = "first-loss", **others: Outcome) -> None:
        """Of a right outcome and these others this is said."""
        trace, checked, explained = written(name)
        outcomes = {"checked": checked, "explained": explained, "other": checked, **others}
        failure = mutations.failure_of(trace, **outcomes)
        self.assertIn(part, failure)

    def test_wrong_totals(self) -> None:
        _trace, checked, _explained = written("first-loss")
        wrong = checked._replace(output=checked.text().replace(b"rttvar 50000", b"rttvar 50001"))
        self.assert_fails("standard output", checked=wrong)
        self.assert_fails("standard output", other=wrong)

    def test_wrong_totals_of_what_cannot_be_read(self) -> None:
        _trace, checked, _explained = written("greatest-totals")
        wrong = checked._replace(output=checked.text().replace(b"\nowed 100", b"\nowed 99"))
        self.assert_fails("standard output", "greatest-totals", checked=wrong)

    def test_wrong_row(self) -> None:
        _trace, _checked, explained = written("first-loss")
        wrong = explained._replace(output=explained.text()[1:])
        self.assert_fails("standard output", explained=wrong)

    def test_wrong_status_and_error(self) -> None:
        _trace, checked, explained = written("first-loss")
        self.assert_fails("status 1, wanted 0", checked=checked._replace(status=1))
        self.assert_fails("standard error", explained=explained._replace(error=b"noise"))

    def test_crash(self) -> None:
        self.assert_fails("no verdict", checked=Outcome(-11, b"", b""))

    def test_verdict_without_a_form(self) -> None:
        for text in (
            b"accepted \n",
            b"refused line 0 V1 time-back\n",
            b"refused line 99 V1 time-back\n",
            b"unreadable line 2 F2 not-json\n",
            b"unreadable line 2 F3 missing\n",
            b"unreadable line 2 F1 not-json key\n",
        ):
            outcome = Outcome(status_of(text), text, b"")
            trace, _checked, _explained = written("first-loss")
            self.assertNotEqual(mutations.failure_of(trace, outcome, outcome, None), "", text)

    def test_fault_behind_a_line_that_breaks_a_rule(self) -> None:
        trace = (
            b"".join((FOLDER / "traces" / "time-back.trace").read_bytes().splitlines(keepends=True))
            + b"{\n"
        )
        outcome = Outcome(2, b"unreadable line 4 F1 not-json\n", b"")
        self.assertIn(
            "line 3 breaks V1 time-back", mutations.failure_of(trace, outcome, outcome, None)
        )

    def test_event_that_there_is_not(self) -> None:
        trace, checked, explained = written("first-loss")
        trace += b'{"event":"pto","time":1000000}\n'
        self.assertIn("no event pto", mutations.failure_of(trace, checked, explained, None))

    def test_verdicts_that_are_missing(self) -> None:
        some = {"accepted": 500, "refused V1": 500}
        self.assertEqual(mutations.missing_verdicts(collections.Counter(some)), ["unreadable"])
        self.assertEqual(mutations.missing_verdicts(collections.Counter({"accepted": 5})), [])


class MaliciousTest(unittest.TestCase):
    def setUp(self) -> None:
        self.program = new_folder(self) / "program"

    def failure(self, body: str, case: Any, seconds: float = 4.0) -> str:
        """What is said of a program that reads all and then does this."""
        start = "import sys, time\nread = sys.stdin.buffer.read()"
        write_program(self.program, f"{start}\n{body}\n")
        case = case._replace(seconds=seconds)
        failure: str = malicious.Running(str(self.program)).failure_of(case, "case")
        return failure

    def test_cases(self) -> None:
        lines = dict(malicious.cases_of_lines())
        length = len(header()) + 8 * (MAX_LINE_LENGTH + 1)
        report = lines["string"].report.decode()
        right = f"sys.stdout.write({report!r})\nassert len(read) == {length}"
        self.assertEqual(self.failure(right, lines["string"]), "")
        self.assertIn("wanted 2", self.failure(right, lines["no-json-quotes"]))
        self.assertIn("standard output", self.failure("", lines["string"]))

    def test_program_that_takes_long(self) -> None:
        case = malicious.Case([b""], b"accepted\n")
        slow = "print('accepted')\nwhile time.process_time() < 0.5: pass"
        self.assertEqual(self.failure(slow, case), "")
        self.assertIn("seconds of processor time", self.failure(slow, case, seconds=0.4))

    def test_program_that_takes_long_for_one_of_two(self) -> None:
        costly, plain = (malicious.Case([text], b"accepted\n") for text in (b"costly", b""))
        pair = malicious.Pair(costly, plain, "plain")
        body = (
            "import sys, time\nend = 0.1 + {} * len(sys.stdin.buffer.read())\n"
            "print('accepted')\n"
        )
        for more, wanted in ((0.01, ""), (0.2, " times the processor time of plain")):
            loop = "while time.process_time() < end: pass\n"
            write_program(self.program, body.format(more) + loop)
            failure = malicious.Running(str(self.program)).failure_of_pair(pair, "pair")
            self.assertTrue(failure.endswith(wanted) and bool(failure) == bool(wanted), failure)
        write_program(self.program, "print('refused')")
        failure = malicious.Running(str(self.program)).failure_of_pair(pair, "pair")
        self.assertIn("standard output b'refused\\n'", failure)

    def test_totals_of_losses_are_steady(self) -> None:
        few, more = (
            malicious.totals_behind([header(), *malicious.lossy(1, losses)])
            for losses in (malicious.STEADY, malicious.STEADY + 50)
        )
        self.assertEqual({**few, "events": 6 * (malicious.STEADY + 50)}, more)

    def test_program_that_needs_a_larger_stack(self) -> None:
        case = malicious.Case([b""], b"accepted\n")
        limit = (
            "import resource\nlimit, _hard = resource.getrlimit(resource.RLIMIT_STACK)\n"
            "print('accepted' if limit == 1 << 20 else '')"
        )
        self.assertEqual(self.failure(limit, case), "")

    def test_lines_are_of_the_greatest_length(self) -> None:
        for name, case in malicious.cases_of_lines():
            longest = max(len(line) for line in b"".join(case.pieces).split(b"\n"))
            self.assertLessEqual(longest, MAX_LINE_LENGTH, name)
            self.assertGreater(longest, 59_000, name)
        for pairs in ([(0, 0)] * 20000, [(number, number) for number in range(20000)]):
            length = len(ranged("ack", 0, pairs))
            self.assertTrue(MAX_LINE_LENGTH - 20 < length <= MAX_LINE_LENGTH + 1, length)


if __name__ == "__main__":
    unittest.main()
