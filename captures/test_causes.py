#!/usr/bin/env python3
"""Compares the causes that causes.py finds with those that docs/findings.md names.

They were found by reading the traces of conformance/real and the sources of their senders. A trace
that is not in the table below has a cause that no question of causes.py asks for.
"""

import json
import subprocess
import sys
import unittest
from pathlib import Path
from typing import Any

from causes import CAUSES, cause_of

Said = dict[str, Any]
HERE = Path(__file__).parent
REAL = HERE.parent / "conformance" / "real"
LESS_THE_DELAY = "V16: `latest_rtt` is less the delay"
PROBE = "V16: a probe timeout takes packets out of flight"
FROM_THE_MINIMUM = "V16: `rttvar` is taken from the minimum"
HANDSHAKE = "V3: packets of the handshake are declared lost"
AGE = "whole milliseconds decide whether a packet is old enough"
PADDED = "V16: a padded ACK is not in flight"
NOTHING_NEW = "V3: a loss is declared at an acknowledgment of nothing new"
ROUNDED = "V16: whole milliseconds decide whether the delay is subtracted"
NOT_TAKEN = "V16: a sample is not taken"
NAMED = {
    "quic-go-probe": PROBE,
    "quic-go-reno-probe": PROBE,
    "quic-go-0.59-probe": "V2: a probe timeout takes packets out of flight",
    "quic-go-sample": NOT_TAKEN,
    "ngtcp2-sample": NOT_TAKEN,
    "quic-go-latest": LESS_THE_DELAY,
    "quic-go-cubic-latest": LESS_THE_DELAY,
    "aioquic-latest": LESS_THE_DELAY,
    "neqo-153-latest": LESS_THE_DELAY,
    "aioquic-rttvar": FROM_THE_MINIMUM,
    "aioquic-minimum": FROM_THE_MINIMUM,
    "aioquic-crypto-lost": HANDSHAKE,
}
# A packet, its acknowledgment 20 ms later, and another packet.
SAMPLES = """\
{"event":"header","version":2,"role":"client","max_datagram_size":1200,"max_ack_delay":2000,\
"report_slack_us":100}
{"event":"sent","time":0,"space":"app","number":0,"size":1200,"eliciting":true,"in_flight":true}
{"event":"ack","time":20000,"space":"app","ranges":[[0,0]],"delay":0}
{"event":"sent","time":20000,"space":"app","number":1,"size":1200,"eliciting":true,"in_flight":true}
"""

PADDED_ACK = """\
{"event":"sent","time":20000,"space":"app","number":2,"size":40,"eliciting":false,"in_flight":true}
"""


def verdict_on(trace: bytes) -> str:
    """The first line of the report on a trace."""
    audit = [sys.executable, str(HERE / "audit.py")]
    report = subprocess.run(audit, input=trace, capture_output=True, check=True).stdout
    return report.decode().partition("\n")[0]


def cause_behind_sample(
    rule: str,
    delay: int,
    reported: dict[str, int],
    before: dict[str, int] | None = None,
    dialect: str = "generic",
) -> str:
    """The cause where a report behind a second sample, of 23 ms, is refused."""
    earlier = {"event": "metrics", "time": 20000, **(before or {})}
    ack = {"event": "ack", "time": 43000, "space": "app", "ranges": [[1, 1]], "delay": delay}
    report = {"event": "metrics", "time": 43000, **reported}
    samples = SAMPLES.replace('"version":2', f'"version":2,"x_dialect":"{dialect}"')
    trace = samples + "".join(json.dumps(line) + "\n" for line in (earlier, ack, report))
    return cause_of(trace.encode(), f"refused line 7 {rule}")


class Causes(unittest.TestCase):
    """Causes of real traces, and each question on both sides."""

    def test_real_traces(self) -> None:
        """Each refused trace has the cause that the findings name, or its rule alone."""
        for path in sorted((REAL / "traces").glob("*.trace")):
            trace = path.read_bytes()
            verdict = verdict_on(trace)
            rule = verdict if verdict == "accepted" else verdict.split(" ", 3)[3]
            with self.subTest(path.stem):
                self.assertEqual(cause_of(trace, verdict), NAMED.get(path.stem, rule))

    def test_delay_explains_the_sample(self) -> None:
        """A report that is less the delay, or the limited one, within the slack; others are not."""
        rule = "V16 metric latest_rtt"
        less = (19900, 20100, 20900, 21100)
        for reported in (*less, 19899, 20101, 20899, 21101):
            with self.subTest(reported):
                found = cause_behind_sample(rule, 3000, {"latest_rtt": reported})
                self.assertEqual(found, LESS_THE_DELAY if reported in less else rule)

    def test_sample_is_no_less_than_the_minimum(self) -> None:
        """A report of the minimum, which the delay would pass, after the same one; and others."""
        rule = "V16 metric latest_rtt"
        for latest, minimum, delay, cause in (
            (21000, 21000, 3000, LESS_THE_DELAY),
            (21000, 21000, 1000, NOT_TAKEN),
            (21000, 20000, 3000, NOT_TAKEN),
        ):
            before = {"latest_rtt": latest, "min_rtt": minimum}
            said = {"latest_rtt": latest}
            for dialect, named in (("quic-go-0.59", cause), ("ngtcp2", NOT_TAKEN)):
                with self.subTest(minimum=minimum, delay=delay, dialect=dialect):
                    found = cause_behind_sample(rule, delay, said, before, dialect)
                    self.assertEqual(found, named)

    def test_sample_is_not_taken(self) -> None:
        """A report that has the sample from before, though it also fits another cause."""
        rule, reported = "V16 metric latest_rtt", {"latest_rtt": 20000}
        found = cause_behind_sample(rule, 3000, reported, before=reported)
        self.assertEqual(found, NOT_TAKEN)
        found = cause_behind_sample(rule, 3000, reported, before={"latest_rtt": 20001})
        self.assertEqual(found, LESS_THE_DELAY)

    def test_minimum_and_smoothed(self) -> None:
        """A variation that only the distance from the minimum explains, and one of both."""
        rule, reported = "V16 metric rttvar", {"latest_rtt": 23000, "rttvar": 1500}
        for smoothed, cause in ((22000, FROM_THE_MINIMUM), (20000, rule)):
            last = {"rttvar": 1000, "smoothed_rtt": smoothed, "min_rtt": 20000}
            with self.subTest(smoothed):
                self.assertEqual(cause_behind_sample(rule, 0, reported, before=last), cause)

    def test_whole_milliseconds(self) -> None:
        """A sample that is the minimum and the delay within a millisecond, and one that is not."""
        rule = "V16 metric rttvar"
        for delay, cause in ((2000, ROUNDED), (4000, ROUNDED), (1000, rule), (5000, rule)):
            with self.subTest(delay):
                self.assertEqual(cause_behind_sample(rule, delay, {"rttvar": 1}), cause)

    def test_padded_ack(self) -> None:
        """A report without the bytes of an ACK that was padded, and one of other bytes."""
        rule = "V16 metric bytes_in_flight"
        for reported, cause in ((1200, PADDED), (1199, rule), (0, rule)):
            report = {"event": "metrics", "time": 43000, "bytes_in_flight": reported}
            trace = f"{SAMPLES}{PADDED_ACK}{json.dumps(report)}\n".encode()
            with self.subTest(reported):
                self.assertEqual(cause_of(trace, f"refused line 6 {rule}"), cause)

    def test_padded_ack_and_window(self) -> None:
        """A packet that has room if the padded ACK is left out as in the report, and others."""
        rule, named = "V7 past-window", "V7: a padded ACK is not in flight"
        packet = SAMPLES.splitlines()[-1].replace('"number":1', '"number":3')
        cases = ((1200, 1201, named), (1200, 1200, rule), (1240, 1201, rule))
        for reported, window, cause in cases:
            report = {"event": "metrics", "time": 20000, "window": window}
            report |= {"bytes_in_flight": reported}
            trace = f"{SAMPLES}{PADDED_ACK}{json.dumps(report)}\n{packet}\n".encode()
            with self.subTest(reported=reported, window=window):
                self.assertEqual(cause_of(trace, f"refused line 7 {rule}"), cause)

    def test_padded_ack_is_refused(self) -> None:
        """The padded ACK is itself what passes the window."""
        trace = f"{SAMPLES}{PADDED_ACK}".encode()
        found = cause_of(trace, "refused line 5 V7 past-window")
        self.assertEqual(found, "V7: a padded ACK is not in flight")

    def test_handshake_is_declared_lost(self) -> None:
        """With nothing that shows it, or an acknowledgment some time before; others by the rule."""
        rule = "V3 loss-not-owed"
        packets = SAMPLES.replace("app", "handshake")
        ack = packets.splitlines()[2]
        for space, before, time, cause in (
            ("handshake", packets, 43000, HANDSHAKE),
            ("handshake", f"{packets}{ack}\n", 43000, HANDSHAKE),
            ("handshake", f"{packets}{ack}\n", 20000, NOTHING_NEW),
            ("app", SAMPLES, 43000, rule),
        ):
            lost = {"event": "lost", "time": time, "space": space, "ranges": [[1, 1]]}
            trace = f"{before}{json.dumps(lost)}\n"
            with self.subTest(space=space, time=time):
                line = len(trace.splitlines())
                self.assertEqual(cause_of(trace.encode(), f"refused line {line} {rule}"), cause)

    def test_probed_packet_is_not_declared_lost(self) -> None:
        """One of before the probe timeout, by a sender of which that is known, and others."""
        first, packet, _, later = SAMPLES.splitlines()
        known: Said = {"dialect": "quic-go-0.59", "sent": 0, "ranges": [[1, 1]]}
        cases: tuple[tuple[Said, bool], ...] = (
            ({}, True),
            ({"dialect": "ngtcp2"}, False),
            ({"sent": 60000}, False),
            ({"ranges": [[0, 0]]}, False),
        )
        for changed, are_named in cases:
            said = known | changed
            header = json.loads(first) | {"x_dialect": said["dialect"]}
            lost = json.loads(packet) | {"time": said["sent"]}
            timer = {"event": "timer", "time": 50000, "kind": "pto", "space": "app"}
            probe = json.loads(later) | {"time": 61000}
            ack = {"event": "ack", "time": 90000, "space": "app", "ranges": said["ranges"]}
            report = {"event": "metrics", "time": 90000}
            part = {"event": "lost", "time": 90000, "space": "app", "ranges": [[7, 7]]}
            for rule, lines in (
                ("V2 loss-owed", (header, timer, lost, probe, ack, report)),
                ("V4 loss-set", (header, timer, lost, probe, ack, part)),
                ("V17 owed-at-end", (header, timer, lost, probe, ack)),
            ):
                trace = "".join(json.dumps(line) + "\n" for line in lines)
                found = cause_of(trace.encode(), f"refused line {len(lines)} {rule}")
                cause = f"{rule.split()[0]}: a probe timeout takes packets out of flight"
                with self.subTest(rule=rule, **changed):
                    self.assertEqual(found, cause if are_named else rule)

    def test_acknowledgment_of_nothing_new(self) -> None:
        """The last event acknowledges nothing new in the space of the loss; others."""
        rule = "V3 loss-not-owed"
        lines = SAMPLES.splitlines()
        again = json.dumps(json.loads(lines[2]) | {"time": 20500})
        for before, space, cause in (
            ([*lines, again], "app", NOTHING_NEW),
            ([*lines, again], "initial", rule),
            (lines, "app", rule),
            ([*lines[:3], again, lines[3]], "app", rule),
        ):
            lost = {"event": "lost", "time": 20500, "space": space, "ranges": [[1, 1]]}
            trace = "\n".join([*before, json.dumps(lost)])
            with self.subTest(space=space, lines=len(before)):
                found = cause_of(trace.encode(), f"refused line {len(before) + 1} {rule}")
                self.assertEqual(found, cause)

    def test_age_by_whole_milliseconds(self) -> None:
        """A packet whose age is the loss delay within two, and others."""
        for rule in ("V2 loss-owed", "V3 loss-not-owed", "V4 loss-set"):
            for rtt, time, cause in (
                (24000, 49000, AGE),
                (24000, 45000, AGE),
                (24000, 49500, rule),
                (24000, 50000, rule),
                (24000, 44000, rule),
            ):
                wanted = f"{rule[:2]}: {AGE}" if cause is AGE else rule
                with self.subTest(rule=rule, time=time):
                    self.assertEqual(self.cause_of_age(rule, rtt, time), wanted)

    def test_times_that_are_guessed(self) -> None:
        """One that the converter puts earlier is no sign of a log with finer times."""
        guess = ["time: part of a millisecond earlier, so that a packet is not lost yet"]
        cases: tuple[tuple[Said, str], ...] = (
            ({"x_guess": guess}, f"V2: {AGE}"),
            ({}, "V2 loss-owed"),
        )
        for said, cause in cases:
            early = {"event": "metrics", "time": 20001, **said}
            lines = SAMPLES.splitlines()
            packet = json.loads(lines[-1]) | {"number": 2, "time": 21000}
            lines[-1] = json.dumps(json.loads(lines[-1]) | {"time": 21000})
            ack = {"event": "ack", "time": 50000, "space": "app", "ranges": [[2, 2]], "delay": 0}
            report = {"event": "metrics", "time": 50000, "latest_rtt": 24000}
            added = [json.dumps(it) for it in (early, packet, ack, report)]
            trace = "\n".join([*lines[:-1], added[0], lines[-1], *added[1:]])
            with self.subTest(**said):
                self.assertEqual(cause_of(trace.encode(), "refused line 8 V2 loss-owed"), cause)

    def cause_of_age(self, rule: str, rtt: int, time: int) -> str:
        """The cause where packet 1, of 20 ms, lies below an acknowledged one of a later time."""
        packet = json.loads(SAMPLES.splitlines()[-1]) | {"number": 2}
        ack = {"event": "ack", "time": time, "space": "app", "ranges": [[2, 2]], "delay": 0}
        report = {"event": "metrics", "time": time, "latest_rtt": rtt, "smoothed_rtt": rtt - 1000}
        trace = SAMPLES + "".join(json.dumps(line) + "\n" for line in (packet, ack, report))
        return cause_of(trace.encode(), f"refused line 7 {rule}")

    def test_no_delay(self) -> None:
        """Without a delay nothing is subtracted."""
        for rule in ("V16 metric latest_rtt", "V16 metric rttvar"):
            reported = {rule.split()[-1]: 1}
            with self.subTest(rule):
                self.assertEqual(cause_behind_sample(rule, 0, reported), rule)

    def test_not_refused(self) -> None:
        """What is no refusal is its own cause."""
        for verdict in ("accepted", "not converted", "unreadable line 2 F1 not-json"):
            self.assertEqual(cause_of(b"", verdict), verdict)

    def test_every_cause_is_seen(self) -> None:
        """No cause is left out of these tests."""
        named = {cause for questions in CAUSES.values() for _, cause in questions}
        others = (PADDED, ROUNDED, NOTHING_NEW)
        seen = {name.partition(": ")[2] for name in (*NAMED.values(), *others)} | {AGE}
        self.assertEqual(named, seen)


if __name__ == "__main__":
    unittest.main()
