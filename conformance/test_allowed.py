"""Tests of allowed.py: what accepted verdicts rest on, worked out by hand."""

import json
import unittest

from allowed import Rest, rest_of
from departures import course_of
from runners import FOLDER
from sender import Sender, report_of
from structs import THIRD_KEYS

TRACES = FOLDER / "traces"
# A header that allows nothing, in version 3.
STRICT = {
    "version": 3,
    "window_overshoot": False,
    "timer_early_us": 0,
    "timer_late_us": 0,
    "report_slack_us": 0,
    "report_slack_bytes": 0,
}
# What stands below the verdict of a trace, without the two spaces before each line.
BELOW = {
    "header-alone": "",
    "guessed-and-accepted": """\
guessed by the converter: 3 lines, the first is line 3
at the end: 3600 bytes in flight, no timer is set
""",
    "guessed-once-and-accepted": """\
guessed by the converter: line 3
at the end: 2400 bytes in flight, no timer is set
""",
    # Nine packets of 1200 bytes leave 1200 of a window of 12000, and 2211 more go out. The first
    # acknowledgment leaves 13211 - 1400 = 11811 bytes of a window of 13200.
    "allowed-past-window": """\
allowed by the header: V7 past-window 2 times, lines 11 to 13, by at most 1011 bytes \
(window_overshoot)
at the end: 13211 bytes in flight, no timer is set
""",
    "early-loss-timer": """\
allowed by the header: V13 timer-early once, line 5, by 1 ms (timer_early_us 1000)
""",
    # After one sample of 100 ms the variation is 50 ms; the window of 12000 was halved.
    "allowed-of-each-value": """\
allowed by the header: V16 metric window once, line 8, by 7 bytes (report_slack_bytes 7)
allowed by the header: V16 metric ssthresh once, line 8, by 1 byte (report_slack_bytes 7)
allowed by the header: V16 metric bytes_in_flight once, line 8, by 2 bytes (report_slack_bytes 7)
allowed by the header: V16 metric latest_rtt once, line 8, by 3 us (report_slack_us 5)
allowed by the header: V16 metric min_rtt once, line 8, by 1 us (report_slack_us 5)
allowed by the header: V16 metric smoothed_rtt once, line 8, by 5 us (report_slack_us 5)
allowed by the header: V16 metric rttvar once, line 8, by 4 us (report_slack_us 5)
at the end: 2400 bytes in flight, the loss timer of app due at 112.5 ms
""",
    # A timeout of 20 + 4 * 10 + 20 ms.
    "silence-past-a-pto": """\
late timers: no limit in the header; at most 5.92 s past the pto of app, at line 13
""",
    "silence-within-a-limit": """\
allowed by the header: V18 timer-late once, line 13, by 5.92 s (timer_late_us 6000000)
""",
    "timer-on-time-by-a-limit-of-zero": "",
    # Its deadline, 80 ms, is set when the handshake is confirmed, at 100 ms.
    "late-since-confirmed": """\
late timers: no limit in the header; at most 0.3 ms past the pto of app, at line 4
""",
    "late-and-within-the-slack": """\
allowed by the header: V16 metric smoothed_rtt once, line 8, by 4 us (report_slack_us 5)
allowed by the header: V18 timer-late 2 times, lines 8 to 9, by at most 0.1 ms (timer_late_us 200)
""",
    # Two datagrams of 1200 bytes, and 700 that were acknowledged.
    "collapse-within-the-slack": """\
allowed by the header: V19 collapse-missing once, line 9, by 40 bytes (report_slack_bytes 50)
not compared: the window and ssthresh (window "reported")
""",
    "each-choice": """\
by choice: persistent congestion refreshes min_rtt (refresh_min_rtt)
not compared: the window and ssthresh (window "reported")
by choice: RTT samples of ack-eliciting packets only (sample_eliciting_only)
by choice: a packet threshold of 4 (packet_threshold)
by choice: packets past the threshold may be spared (loss_by_number "may")
by choice: the packet threshold counts packets (threshold_counts "packets")
by choice: persistent congestion resets the RTT (reset_rtt)
by choice: the latest RTT is kept less the peer's delay (latest_rtt_less_delay)
by choice: a time threshold of 10/8 (time_threshold_eighths)
by choice: recovery goes by the order of the lines (recovery_by_order)
""",
    "allowed-in-nanoseconds": """\
allowed by the header: V16 metric latest_rtt once, line 6, by 2 us (report_slack_us 2)
allowed by the header: V16 metric smoothed_rtt once, line 4, by 750 ns (report_slack_us 2)
late timers: no limit in the header; at most 1.5 us past the pto of app, at line 5
""",
}
# The members behind `events`.
MEMBERS = {
    "header-alone": {"allowed": [], "choices": [], "guesses": None, "last": None},
    "guessed-and-accepted": {
        "allowed": [],
        "choices": [],
        "guesses": {"count": 3, "first": 3},
        "last": {
            "time_us": 3,
            "in_flight_bytes": 3600,
            "set_kind": None,
            "set_space": None,
            "deadline_us": None,
        },
    },
    "allowed-past-window": {
        "allowed": [
            {
                "rule": "V7",
                "name": "past-window",
                "requirement": "MUST",
                "section": "RFC 9002, 7",
                "by": "window_overshoot",
                "limit_bytes": None,
                "count": 2,
                "first": 11,
                "last": 13,
                "greatest_bytes": 1011,
            }
        ],
        "choices": [],
        "guesses": None,
        "last": {
            "time_us": 100,
            "in_flight_bytes": 13211,
            "set_kind": None,
            "set_space": None,
            "deadline_us": None,
        },
    },
    "allowed-in-nanoseconds": {
        "allowed": [
            {
                "rule": "V16",
                "name": "metric",
                "field": "latest_rtt",
                "requirement": "described",
                "section": "RFC 9002, 5.1",
                "by": "report_slack_us",
                "limit_ns": 2000,
                "count": 1,
                "first": 6,
                "last": 6,
                "greatest_ns": 2000,
            },
            {
                "rule": "V16",
                "name": "metric",
                "field": "smoothed_rtt",
                "requirement": "described",
                "section": "RFC 9002, 5.3",
                "by": "report_slack_us",
                "limit_ns": 2000,
                "count": 1,
                "first": 4,
                "last": 4,
                "greatest_ns": 750,
            },
            {
                "rule": "V18",
                "name": "timer-late",
                "requirement": "described",
                "section": "RFC 9002, 6.1.2, 6.2.1",
                "by": "timer_late_us",
                "limit_ns": None,
                "count": 1,
                "first": 5,
                "last": 5,
                "greatest_ns": 1500,
            },
        ],
        "choices": [],
        "guesses": None,
        "last": {
            "time_ns": 80001500,
            "in_flight_bytes": 0,
            "set_kind": None,
            "set_space": None,
            "deadline_ns": None,
        },
    },
}


class BelowTest(unittest.TestCase):
    """What is written below the verdict."""

    def test_text(self) -> None:
        """Each row of the table of docs/why.md, and each choice, as worked out by hand."""
        for name, text in BELOW.items():
            with self.subTest(name):
                wanted = "".join(f"  {line}\n" for line in text.splitlines())
                found = rest_of((TRACES / f"{name}.trace").read_bytes())
                self.assertEqual(found.text().decode(), wanted)

    def test_members(self) -> None:
        """The same as members, in their order."""
        for name, members in MEMBERS.items():
            with self.subTest(name):
                found = rest_of((TRACES / f"{name}.trace").read_bytes())
                self.assertEqual(json.dumps(found.members()), json.dumps(members))

    def test_broken(self) -> None:
        """What is allowed at an event that breaks a rule does not count."""
        trace = TRACES / "broken-and-allowed.trace"
        course = course_of(
            trace.name, trace.read_bytes(), trace.with_suffix(".report").read_text()
        )
        self.assertEqual(
            course.rest,
            b"  allowed by the header: V16 metric rttvar once, line 9, by 3 us"
            b" (report_slack_us 5)\n"
            b"  at the end: 2400 bytes in flight, the loss timer of app due at 112.5 ms\n",
        )
        self.assertFalse(course.is_strict)


class TimeTest(unittest.TestCase):
    """Times as people read them."""

    def test_units(self) -> None:
        """Each unit, at its edges, exact and without zeros at the end."""
        for unit, time, text in (
            ("us", 0, "0 us"),
            ("us", 99, "99 us"),
            ("us", 100, "0.1 ms"),
            ("us", 800, "0.8 ms"),
            ("us", 999999, "999.999 ms"),
            ("us", 1000000, "1 s"),
            ("us", 5920000, "5.92 s"),
            ("us", 60000001, "60.000001 s"),
            ("us", 10**27 + 1, "1000000000000000000000.000001 s"),
            ("ns", 0, "0 ns"),
            ("ns", 999, "999 ns"),
            ("ns", 1000, "1 us"),
            ("ns", 99050, "99.05 us"),
            ("ns", 100000, "0.1 ms"),
            ("ns", 999999999, "999.999999 ms"),
            ("ns", 1000000001, "1.000000001 s"),
        ):
            header = {"version": 3, "role": "server", "max_datagram_size": 1200, "unit": unit}
            with self.subTest(text):
                self.assertEqual(Rest(header, Sender(header), []).time(time), text)


class StrictTest(unittest.TestCase):
    """What nothing allowed means."""

    def test_nothing_allowed_is_strict(self) -> None:
        """An accepted trace at which nothing was allowed is accepted under a header that allows
        nothing, too."""
        tried = 0
        for trace in (*TRACES.glob("*.trace"), *(FOLDER / "real" / "traces").glob("*.trace")):
            if not trace.with_suffix(".report").read_text().startswith("accepted\n"):
                continue
            data = trace.read_bytes()
            if not rest_of(data).is_strict:
                continue
            lines = [json.loads(line) for line in data.split(b"\n") if line.strip(b" \t\r")]
            header, *events = [{k: v for k, v in it.items() if v is not None} for it in lines]
            if header["version"] < 3:
                header = {k: v for k, v in header.items() if k not in THIRD_KEYS}
            if header["version"] < 2:
                header.pop("refresh_min_rtt", None)
            with self.subTest(trace.name):
                report = report_of(header | STRICT, list(enumerate(events, 2)))
                self.assertEqual(report.splitlines()[0], "accepted")
            tried += 1
        self.assertGreater(tried, 100)


if __name__ == "__main__":
    unittest.main()
