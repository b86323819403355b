"""Files that are no log, logs that lack what a trace needs, and logs of several connections."""

import gzip
import json
import lzma
import re
import unittest
from typing import Any

from .made import (
    End,
    Event,
    converted,
    document,
    header,
    lost,
    metrics,
    received,
    sent,
    sequence,
)

EVENTS = [sent(1, 0), received(20, [[0]]), sent(21, 1)]


def of_group(event: Event, group: str) -> Event:
    """An event of one of several connections."""
    return event | {"group_id": group}


def of_path(event: Event, path: int) -> Event:
    """An event of one of several paths."""
    return event | {"data": event["data"] | {"path_id": path}}


def without_frames(event: Event) -> Event:
    """A packet of which the log has no frames."""
    return event | {"data": {key: it for key, it in event["data"].items() if key != "frames"}}


def compressed(name: str, command: str) -> str:
    """What is said of a log that a program has compressed, as a pattern."""
    return re.escape(f"compressed by {name}: use {command} FILE | qlog-to-trace")


class NoLogs(unittest.TestCase):
    """Files that are something else, and logs that do not say enough."""

    def refused(self, text: str | bytes, reason: str) -> None:
        """The log gives no trace, and one line that says why."""
        end = End(text)
        self.assertEqual((end.status, end.text), (2, ""))
        self.assertRegex(end.errors, f"^qlog-to-trace: LOG: {reason}.*\n$")

    def test_other_files(self) -> None:
        log = sequence(header(), EVENTS)
        self.refused(gzip.compress(log.encode()), compressed("gzip", "zcat"))
        self.refused(lzma.compress(log.encode()), compressed("xz", "xzcat"))
        self.refused(b"\x28\xb5\x2f\xfd" + log.encode(), compressed("zstd", "zstdcat"))
        self.refused(b'{"constants": {', "a netlog of Chromium, which is not read here")
        self.refused(b"BZh" + log.encode(), compressed("bzip2", "bzcat"))
        self.refused(b"\xef\xbb\xbf" + log.encode(), "it begins with a byte order mark")
        self.refused(b"\xd4\xc3\xb2\xa1\x02\x00", "a capture of packets and no log")
        self.refused(b"\n\r\r\n\x6c\x00M<+\x1a", "a capture of packets and no log")
        self.refused(converted(EVENTS).text, "this is already a trace, as qaudit reads it")

    def test_values_that_are_taken_for_no_other(self) -> None:
        three = sequence(header(), [*EVENTS[:1], received(20, [[0, 5, 9]])])
        self.refused(three, "line 3: packet_received: a range of 3 numbers")
        end = converted([*EVENTS[:1], received(20, [[0]], delay=True)])
        self.assertEqual(end.status, 2)
        self.assertIn("line 3: packet_received: ack_delay is no number", end.errors)

    def test_packets_without_frames(self) -> None:
        no_frames = [without_frames(event) for event in EVENTS]
        why = "each packet_sent is without its frames: which packets are ack-eliciting is not in"
        self.refused(sequence(header(), no_frames), why)
        why = "each packet_received is without its frames: no acknowledgment is in this log"
        self.refused(sequence(header(), [EVENTS[0], no_frames[1]]), why)

    def test_quinn_is_told_of_hooks(self) -> None:
        no_frames = [without_frames(event) for event in EVENTS]
        why = "each packet_sent is without its frames: .* quinn logs none; hooks in its recovery"
        self.refused(sequence(header(name="quinn"), no_frames), why)

    def test_losses_that_do_not_say_their_space(self) -> None:
        event = {"time": 30, "name": "recovery:packet_lost", "data": {"packet_number": 0}}
        self.refused(sequence(header(), [*EVENTS, event]), "line 5: packet_lost: no packet_type")

    def test_losses_that_are_named_together(self) -> None:
        packets = [{"packet_type": "1RTT", "packet_number": number} for number in (0, 1)]
        event = {"time": 20, "name": "recovery:packets_lost", "data": {"packets": packets}}
        events = [*(sent(0, n) for n in range(5)), received(20, [[2, 4]]), event]
        end = converted(events, name="something")
        self.assertEqual(end.kinds[-2:], ["ack", "lost"])
        self.assertEqual(end.only("lost")[0]["ranges"], [[0, 1]])


class BrokenRecords(unittest.TestCase):
    """Records that are no JSON in the middle of a log (RFC 7464, section 2.3)."""

    def with_record(self, record: str) -> End:
        """A log that has this record behind its first acknowledgment."""
        report = metrics(20, congestion_window=20_000, latest_rtt=19, smoothed_rtt=19, min_rtt=19)
        first = sequence(header(name="something"), [*EVENTS[:2], report])
        rest = sequence(header(), [sent(21, 1), metrics(21, bytes_in_flight=1200)])
        return End(first + f"\x1e{record}\n" + rest.partition("\n")[2])

    def test_one_that_has_nothing_of_recovery_is_passed_over(self) -> None:
        end = self.with_record('{"time":20,"name":"http:frame_created","data":{"a}')
        self.assertEqual(end.kinds, ["header", "sent", "ack", "metrics", "sent", "metrics"])
        self.assertEqual(end.lines[-1]["window"], 20_000)
        self.assertRegex(end.errors, "LOG: line 5: not JSON: .*; the record is passed over\n$")

    def test_what_broken_metrics_said_is_not_known(self) -> None:
        end = self.with_record('{"time":20,"name":"recovery:metrics_updated","data":{"cong}')
        self.assertEqual(end.kinds, ["header", "sent", "ack", "sent", "metrics"])
        self.assertNotIn("window", end.lines[-1])
        self.assertIn("LOG: line 5: not JSON", end.errors)

    def test_a_log_ends_at_one_that_may_say_what_was_sent(self) -> None:
        end = self.with_record('{"time":20,"name":"transport:packet_sent","data":{"header":{"}')
        self.assertEqual((end.status, end.kinds), (0, ["header", "sent"]))
        self.assertRegex(end.errors, "LOG: not JSON: .* at line 5; the trace ends there\n$")

    def test_many_are_counted(self) -> None:
        broken = "\x1e{\"name\":\"x\n" * 9
        first = sequence(header(), EVENTS[:1])
        rest = sequence(header(), EVENTS[1:]).partition("\n")[2]
        errors = End(first + broken + rest).errors
        self.assertEqual(errors.count("\n"), 4)
        self.assertIn("9 such records are passed over", errors)


class Torn(unittest.TestCase):
    """The last group of a torn log, of which more may have followed."""

    def ended(self, events: list[Event], **head: str) -> list[str]:
        """What a log gives that is torn behind these events."""
        end = End(sequence(header(**head), [*events, sent(99, 99)])[:-30])
        self.assertIn("torn off at line", end.errors)
        return end.kinds

    def test_an_acknowledgment_whose_losses_may_be_missing(self) -> None:
        packets = [sent(0, n) for n in range(5)]
        report = metrics(20, congestion_window=7000)
        for events, name in (
            ([received(20, [[2, 4]]), report], "something"),
            ([received(20, [[2, 4]]), lost(20, 0)], "something"),
            ([lost(20, 1), lost(20, 0)], "ngtcp2"),
        ):
            self.assertEqual(self.ended(packets + events, name=name), ["header"] + ["sent"] * 5)
        shown = [lost(20, 0), metrics(20, latest_rtt=20, smoothed_rtt=20)]
        kinds = self.ended(packets + shown, name="quic-go", schema="0.3")
        self.assertEqual(kinds, ["header"] + ["sent"] * 5)

    def test_packets_whose_metrics_may_be_missing(self) -> None:
        events = [sent(0, 0), sent(0, 1), metrics(0, bytes_in_flight=1200)]
        self.assertEqual(self.ended(events, name="quic-go"), ["header", "sent", "sent"])


class Closing(unittest.TestCase):
    """The packet by which the connection closes is not judged."""

    def test_it_is_left_out(self) -> None:
        frames = ("connection_close", "padding")
        closing = [sent(5, 1, size=40, frames=frames), metrics(5, bytes_in_flight=1240)]
        for before in ([sent(0, 0)], [sent(0, 0), metrics(0, bytes_in_flight=1200)]):
            found = converted([*before, *closing, sent(9, 2)])
            self.assertEqual(found.only("sent"), converted(before).only("sent"))
            self.assertEqual(found.kinds[-1], "metrics" if len(before) > 1 else "sent")


class Several(unittest.TestCase):
    """Logs of several connections."""

    def test_connections_by_their_group(self) -> None:
        log = [of_group(event, group) for event in EVENTS for group in ("a", "b")]
        log[1] = of_group(sent(1, 0, size=999), "b")
        for words, size in (
            ((), 1200),
            (("--connection", "1"), 1200),
            (("--connection", "2"), 999),
        ):
            end = converted(log, *words)
            self.assertEqual(end.kinds, ["header", "sent", "ack", "sent"])
            self.assertEqual(end.only("sent")[0]["size"], size)
            self.assertIn("LOG: it has 2 connections or paths; this is number ", end.errors)

    def test_paths(self) -> None:
        log = [of_path(event, path) for event in EVENTS for path in (0, 1)]
        end = converted(log)
        self.assertEqual(end.kinds, ["header", "sent", "ack", "sent"])
        self.assertIn("it has 2 connections or paths; this is number 1", end.errors)

    def test_one_connection_is_told_of_by_nothing(self) -> None:
        self.assertEqual(converted([of_group(event, "a") for event in EVENTS]).errors, "")

    def test_traces(self) -> None:
        traces: list[dict[str, Any]] = [
            header(role=role) | {"events": [sent(0, 0, size=size)]}
            for role, size in (("server", 1001), ("client", 1002), ("server", 1003))
        ]
        text = json.dumps({"traces": traces})
        for words, size, count in (
            ((), 1001, 3),
            (("--connection", "2"), 1002, 3),
            (("--vantage", "server", "--connection", "2"), 1003, 2),
        ):
            end = End(text, *words)
            self.assertEqual(end.only("sent")[0]["size"], size)
            self.assertIn(f"LOG: it has {count} traces; this is number ", end.errors)
        self.assertEqual(End(text, "--vantage", "client").errors, "")

    def test_a_connection_that_is_not_there(self) -> None:
        two = [of_group(event, group) for event in EVENTS for group in ("a", "b")]
        traces = json.dumps({"traces": [header() | {"events": EVENTS}] * 2})
        for text, number, reason in (
            (sequence(header(), two), "3", "it has 2 connections or paths, and no number 3"),
            (sequence(header(), two), "0", "it has 2 connections or paths, and no number 0"),
            (sequence(header(), EVENTS), "2", "it has 1 connections or paths, and no number 2"),
            (document(header(), EVENTS), "2", "it has 1 connections or paths, and no number 2"),
            (traces, "3", "it has 2 traces, and no number 3"),
        ):
            end = End(text, "--connection", number)
            self.assertEqual((end.status, end.text), (2, ""))
            self.assertIn(f"LOG: {reason}\n", end.errors)
