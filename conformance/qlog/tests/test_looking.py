"""Logs that no dialect names, and logs that are in another order than their dialect's."""

import unittest
from typing import Any

from .made import End, Event, converted, lost, metrics, received, sent

PACKETS = 8


def round_trips(count: int, order: str, **more: Any) -> list[Event]:
    """So many round trips: eight packets, of which the first is lost."""
    events: list[Event] = []
    for turn in range(count):
        first, start = turn * PACKETS, turn * 100
        for number in range(PACKETS):
            flight = metrics(start, bytes_in_flight=1200 * (number + 1))
            events += [sent(start, first + number), flight]
        ack = received(start + 50, [[first + 1, first + 7]])
        loss, report = lost(start + 50, first), metrics(start + 50, bytes_in_flight=0, **more)
        events += {
            "behind": [ack, loss, report],
            "losses before": [loss, ack, report],
            "before": [loss, report, ack],
        }[order]
    return events


def samples(count: int, order: str) -> list[Event]:
    """So many packets with round-trip times of their own, in reports of nothing else."""
    events: list[Event] = []
    for turn in range(count):
        start, rtt = 1000 * turn, 50 + 10 * turn
        ack = received(start + rtt, [[turn]], delay=4)
        report = metrics(start + rtt, latest_rtt=rtt, smoothed_rtt=rtt, min_rtt=rtt)
        events.append(sent(start, turn))
        events += {"behind": [ack, report], "before": [report, ack]}[order]
    return events


def found(end: End) -> list[str]:
    """What --notes says was found."""
    return [line for line in end.errors.splitlines() if line.startswith("found: ")]


class Orders(unittest.TestCase):
    """The order of a log that no dialect names is found by counting."""

    def test_each_order_gives_the_same_trace(self) -> None:
        texts = {
            "behind": "losses and metrics come after the packet_received",
            "losses before": "losses come before the packet_received that shows them",
            "before": "losses and metrics come before the packet_received",
        }
        expected = converted(round_trips(3, "behind"), name="something").text
        for order, text in texts.items():
            end = converted(round_trips(3, order), "--notes", name="something")
            self.assertEqual(end.text, expected, order)
            self.assertEqual(end.kinds[-3:], ["ack", "lost", "metrics"])
            self.assertIn(text, found(end)[0])

    def test_a_log_of_which_too_little_says_its_order(self) -> None:
        end = converted(round_trips(1, "before"), "--notes", name="something")
        self.assertIn("come after the packet_received", found(end)[0])

    def test_zeros_that_are_left_out(self) -> None:
        events = round_trips(3, "behind", smoothed_rtt=50, min_rtt=50, latest_rtt=50)
        without = [
            event | {"data": {key: it for key, it in event["data"].items() if it != 0}}
            for event in events
        ]
        end = converted(without, "--notes", name="something")
        self.assertIn("found: a value that metrics leave out: it is as it was, or 0", found(end))
        self.assertEqual(end.lines[-1]["bytes_in_flight"], 0)
        kept = converted(events, "--notes", name="something")
        self.assertIn("found: a value that metrics leave out: it is as it was", found(kept))
        self.assertEqual(kept.lines[-1]["bytes_in_flight"], 0)


class Clocks(unittest.TestCase):
    """How fine the clock of a log is decides how far off its reports may be."""

    def slack(self, rtt: float, variance: float, shift: float = 0) -> tuple[int, int]:
        """The slack of reports and of timers, of a log with such values."""
        values = {"latest_rtt": rtt, "smoothed_rtt": rtt, "min_rtt": rtt, "rtt_variance": variance}
        events = round_trips(4, "behind", **values)
        moved = [event | {"time": event["time"] + shift} for event in events]
        line = converted(moved, name="something").lines[0]
        return line["report_slack_us"], line["timer_early_us"]

    def test_clocks(self) -> None:
        self.assertEqual(self.slack(50, 25), (2_000, 3_000))
        # The sender's own clock has whole milliseconds, and its variance is exact.
        self.assertEqual(self.slack(50, 12.5), (10, 10))
        # Its clock is finer than the log's.
        self.assertEqual(self.slack(50.25, 12.5), (2_000, 3_000))
        self.assertEqual(self.slack(50.25, 12.5, 0.125), (10, 10))


class OtherOrders(unittest.TestCase):
    """A log that was misread says so, and not that its sender is wrong."""

    def test_a_dialect_of_another_order_is_read_in_the_order_of_the_log(self) -> None:
        expected = converted(round_trips(6, "behind"), name="quic-go")
        self.assertEqual(expected.errors, "")
        end = converted(round_trips(6, "before"), name="quic-go")
        self.assertEqual(end.lines[1:], expected.lines[1:])
        note = end.lines[0]["x_note"][0]
        self.assertIn("its order is not that of quic-go: losses and metrics come before", note)
        self.assertEqual(end.errors, f"qlog-to-trace: LOG: {note}\n")

    def test_a_dialect_of_the_new_order_too(self) -> None:
        expected = converted(round_trips(6, "before"), name="quic-go", schema="0.3")
        self.assertEqual(expected.errors, "")
        for order in ("behind", "losses before"):
            end = converted(round_trips(6, order), name="quic-go", schema="0.3")
            self.assertEqual(end.lines[1:], expected.lines[1:])
            self.assertIn("its order is not that of quic-go-0.50", end.errors)

    def test_round_trip_times_say_it_if_no_bytes_in_flight_do(self) -> None:
        expected = converted(samples(7, "behind"), name="quic-go")
        self.assertEqual(expected.errors, "")
        end = converted(samples(7, "before"), name="quic-go")
        self.assertEqual(end.lines[1:], expected.lines[1:])
        self.assertIn("its order is not that of quic-go: losses and metrics", end.errors)
        unknown = [converted(samples(7, it), "--notes", name="x") for it in ("behind", "before")]
        self.assertEqual(unknown[0].text, unknown[1].text)
        self.assertIn("; round-trip times after 6, before 0)", found(unknown[0])[0])
        self.assertIn("; round-trip times after 0, before 7)", found(unknown[1])[0])

    def test_a_round_trip_time_less_the_delay_is_of_its_packet(self) -> None:
        events = samples(7, "before")
        for event in events:
            if "latest_rtt" in event["data"]:
                event["data"]["latest_rtt"] -= 4
        self.assertIn("its order is not that", converted(events, name="quic-go").errors)

    def test_losses_alone_do_not_say_that_a_dialect_is_wrong(self) -> None:
        end = converted(round_trips(6, "behind"), name="ngtcp2")
        self.assertNotIn("x_note", end.lines[0])

    def test_reports_that_agree_with_no_order(self) -> None:
        events = round_trips(6, "behind")
        for number, event in enumerate(events):
            if "bytes_in_flight" in event["data"]:
                event["data"]["bytes_in_flight"] += 1200 * (number * number % 7)
        for name in ("quic-go", "something"):
            end = converted(events, name=name)
            note = end.lines[0]["x_note"][-1]
            self.assertRegex(note, "of 6 reports beside acknowledgments [0-2] agree with the pack")
            self.assertIn("not the sender's", note)
            self.assertIn(note, end.errors)

    def test_round_trip_times_that_agree_with_no_order(self) -> None:
        events = samples(7, "behind")
        for event in events:
            if "latest_rtt" in event["data"]:
                event["data"]["latest_rtt"] += 30
        note = converted(events, name="quic-go").lines[0]["x_note"][-1]
        self.assertIn("of 6 reports of latest_rtt 0 agree with the times of the packets", note)

    def test_a_log_that_is_read_right_has_no_note(self) -> None:
        for name, order in (("quic-go", "behind"), ("ngtcp2", "losses before")):
            end = converted(round_trips(6, order), name=name)
            self.assertNotIn("x_note", end.lines[0])
            self.assertEqual(end.errors, "")
