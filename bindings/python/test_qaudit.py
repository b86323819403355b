#!/usr/bin/env python3
"""Tests qaudit.py over the conformance corpus, and by hand."""

import threading
import unittest
from pathlib import Path

from qaudit import Allowance, Auditor, Header, Progress, QauditError

TRACES = Path(__file__).resolve().parent.parent.parent / "conformance" / "traces"


class Corpus(unittest.TestCase):
    def test_each_report_is_that_of_the_corpus(self) -> None:
        traces = sorted(TRACES.glob("*.trace"))
        self.assertTrue(traces)
        for trace in traces:
            data, report = trace.read_bytes(), trace.with_suffix(".report").read_text()
            for piece in (1, 7, 4096):
                if len(data) > 65536 and piece < 4096:
                    continue
                with self.subTest(trace=trace.stem, piece=piece), Auditor() as auditor:
                    for at in range(0, len(data), piece):
                        if auditor.feed(data[at : at + piece]) is not Progress.OPEN:
                            break
                    auditor.finish()
                    self.assertEqual(auditor.report(), report)


class Reasons(unittest.TestCase):
    def test_each_reason_is_that_of_the_corpus(self) -> None:
        reasons = sorted(TRACES.glob("*.why"))
        self.assertTrue(reasons)
        for reason in reasons:
            trace = reason.with_suffix(".trace")
            wanted = reason.read_bytes().replace(trace.name.encode(), b"-", 1)
            with self.subTest(trace=trace.stem), Auditor(recorded=True) as auditor:
                auditor.feed(trace.read_bytes())
                auditor.finish()
                self.assertEqual(auditor.why().encode(), wanted)
                self.assertEqual(auditor.around(0), auditor.why())
                self.assertTrue(auditor.around(3).encode().startswith(wanted))

    def test_an_event_is_its_line(self) -> None:
        auditor = Auditor(Header(role="server", max_datagram_size=1200), recorded=True)
        for number in range(11):
            auditor.sent(number, "app", number, 1200)
        line = '{"eliciting":true,"event":"sent","in_flight":true,"leave":"window","number":10,'
        line += '"size":1200,"space":"app","time":10}'
        first, said, *_ = auditor.why().splitlines()
        self.assertTrue(first.startswith("-:12: refused V7 past-window: packet 10 of app"), first)
        self.assertEqual(said, f"  12 | {line}")
        rows = [line for line in auditor.around(2).splitlines() if line.startswith("  line ")]
        heads = [row.split(":")[0] for row in rows]
        self.assertEqual(heads, ["  line 10 sent at 8", "  line 11 sent at 9"])
        self.assertRaises(QauditError, lambda: auditor.around(2**16))

    def test_what_was_allowed(self) -> None:
        header = Header(role="server", max_datagram_size=1200, report_slack_us=10)
        auditor = Auditor(header, recorded=True)
        auditor.metrics(0, smoothed_rtt=333_007)
        auditor.metrics(1, smoothed_rtt=333_002)
        wanted = Allowance(16, "metric", "smoothed_rtt", "report_slack_us", 2, 2, 3, 7, 10)
        self.assertEqual(auditor.allowed(), [wanted])
        self.assertTrue(auditor.why().startswith("-: accepted"), auditor.why())

    def test_nothing_is_recorded_unless_asked_for(self) -> None:
        auditor = Auditor(Header(role="server", max_datagram_size=1200))
        auditor.timer(0, "pto", "app")
        self.assertEqual((auditor.why(), auditor.around(3), auditor.allowed()), ("", "", []))


class Events(unittest.TestCase):
    def test_a_full_window(self) -> None:
        auditor = Auditor(Header(role="server", max_datagram_size=1200))
        for number in range(10):
            self.assertIs(auditor.sent(number, "app", number, 1200), Progress.OPEN)
        self.assertIs(auditor.sent(10, "app", 10, 1200), Progress.FIXED)
        self.assertEqual(auditor.first_line(), "refused line 12 V7 past-window")
        verdict = auditor.verdict()
        assert verdict is not None
        self.assertEqual((verdict.kind, verdict.line, verdict.code), ("refused", 12, 7))
        self.assertEqual(verdict.name, "past-window")

    def test_events_of_each_kind(self) -> None:
        auditor = Auditor(Header(role="client", max_datagram_size=1200))
        auditor.sent(0, "initial", 0, 1200)
        auditor.ack(100_000, "initial", [(0, 0)])
        auditor.keys(100_000)
        auditor.discard(100_001, "initial")
        auditor.confirmed(100_002)
        auditor.discard(100_003, "handshake")
        self.assertIs(auditor.metrics(100_004, latest_rtt=100_000), Progress.OPEN)
        verdict = auditor.finish()
        assert verdict.totals is not None
        self.assertEqual((verdict.kind, verdict.totals["events"]), ("accepted", 7))

    def test_a_reported_value_is_named(self) -> None:
        auditor = Auditor(Header(role="server", max_datagram_size=1200))
        self.assertIs(auditor.metrics(0, min_rtt=7), Progress.FIXED)
        verdict = auditor.verdict()
        assert verdict is not None
        self.assertEqual((verdict.name, verdict.subject), ("metric", "min_rtt"))

    def test_late_events(self) -> None:
        auditor = Auditor(Header(role="client", max_datagram_size=1200))
        auditor.sent(0, "initial", 0, 1200)
        for time, call in enumerate((auditor.keys, auditor.confirmed), 10**15 - 5):
            self.assertIs(call(time), Progress.OPEN)
        self.assertIs(auditor.discard(10**15 - 3, "initial"), Progress.OPEN)
        self.assertIs(auditor.keys(10**15), Progress.OPEN)
        self.assertEqual(auditor.finish().kind, "accepted")

    def test_threads_share_an_auditor(self) -> None:
        auditor = Auditor(Header(role="server", max_datagram_size=1200))

        def report() -> None:
            for _ in range(1_000):
                auditor.metrics(0)
                auditor.report()

        threads = [threading.Thread(target=report) for _ in range(4)]
        for thread in threads:
            thread.start()
        for thread in threads:
            thread.join()
        verdict = auditor.finish()
        assert verdict.totals is not None
        self.assertEqual((verdict.kind, verdict.totals["events"]), ("accepted", 4_000))

    def test_what_is_not_taken(self) -> None:
        auditor = Auditor(Header(role="server", max_datagram_size=1200))
        for wrong in (
            lambda: auditor.lost(0, "app", []),
            lambda: auditor.discard(0, "app"),
            lambda: auditor.sent(2**64, "app", 0, 1200),
            lambda: auditor.ack(0, "app", [(1, 0)]),
        ):
            self.assertRaises(QauditError, wrong)
        auditor.feed(b"{")
        self.assertRaises(QauditError, lambda: auditor.keys(0))
        auditor.close()
        self.assertRaises(QauditError, lambda: auditor.keys(0))


if __name__ == "__main__":
    unittest.main()
