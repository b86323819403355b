"""Values that a log may not have: it is refused before a line of its trace is written."""

import json
import unittest
from typing import Any

from .made import End, Event, converted, header, lost, metrics, parameters, received, sent, sequence

FIRST = [sent(0, 0), received(50, [[0]])]


def with_value(event: Event, value: Any, *way: str | int) -> Event:
    """An event with another value at the end of a way of keys; without the key for ..."""
    parent: Any = event["data"]
    for key in way[:-1]:
        parent = parent[key]
    parent[way[-1]] = value
    if value is ...:
        del parent[way[-1]]
    return event


def with_ack(event: Event, **values: Any) -> Event:
    """An event of a packet with an ACK frame."""
    event["data"]["frames"].append({"frame_type": "ack", "acked_ranges": [[0]], **values})
    return event


class Strictness(unittest.TestCase):
    """What is refused, and what is not."""

    def check(self, event: Event, status: int) -> None:
        """A log in which this event comes last ends so, and has no line if it is refused."""
        end = converted([*FIRST, event])
        self.assertEqual((end.status, bool(end.text)), (status, status == 0), (event, end.errors))

    def test_sizes(self) -> None:
        for value, status in (
            *((1200, 0), ("1200", 0), ("1200.0", 0), ("+1.2e3", 0), ("12000e-1", 0), (65_527, 0)),
            *((0, 2), (65_528, 2), (1200.5, 2), (-1, 2), (True, 2), ([1200], 2), ("1_200", 2)),
            *(("", 2), (" 1200", 2), ("x", 2)),
        ):
            self.check(sent(60, 1, size=value), status)
            came = received(60, [[0]])
            came["data"]["raw"] = {"length": value}
            self.check(came, status if value != "" else 2)
        # A packet that came need not say its size, and another key may say it.
        self.check(with_value(received(60, [[0]]), {"length": None}, "raw"), 0)
        self.check(with_value(with_value(sent(60, 1), 0, "raw", "length"), 9, "packet_size"), 0)

    def test_numbers(self) -> None:
        for value, status in (
            *((7, 0), ("7", 0), ("7.", 0), (".7e1", 0), (7.0, 0), ((1 << 62) - 1, 0)),
            *((1 << 62, 2), (7.5, 2), (None, 2), (..., 2), (False, 2), ("seven", 2), ("\u0667", 2)),
        ):
            for event in (sent(60, 1), received(60, [[0]]), lost(60, 1)):
                self.check(with_value(event, value, "header", "packet_number"), status)

    def test_acknowledgments(self) -> None:
        for key, value, status in (
            *(("acked_ranges", [["1", "2.0"]], 0), ("acked_ranges", None, 0)),
            *(("acked_ranges", [[2, 1]], 2), ("acked_ranges", [[0, 0.5]], 2)),
            *(("acked_ranges", "0", 2), ("ack_delay", "0.25", 0), ("ack_delay", -1, 0)),
            *(("ack_delay", "soon", 2), ("ack_delay", 10**13, 2), ("ack_delay", True, 2)),
            *(("ce", 1, 0), ("ce", False, 0), ("ce", -1, 2), ("ce", 0.5, 2)),
        ):
            # Also in a packet that is sent.
            for event in (received(60, [[0]]), sent(60, 1)):
                self.check(with_ack(event, **{key: value}), status)

    def test_reports(self) -> None:
        for key, value, status in (
            *(("latest_rtt", "1.5", 0), ("latest_rtt", -1, 0), ("latest_rtt", [1], 2)),
            *(("smoothed_rtt", "x", 2), ("rtt_variance", True, 2), ("min_rtt", 10**13, 2)),
            *(("congestion_window", "1e4", 0), ("congestion_window", 1.5, 2)),
            *(("bytes_in_flight", -1, 2), ("ssthresh", (1 << 64) - 1, 0), ("ssthresh", 1 << 64, 2)),
            *(("pto_count", 0.5, 2), ("pto_count", None, 0)),
        ):
            self.check(metrics(60, **{key: value}), status)

    def test_the_first_of_several_windows_counts(self) -> None:
        reports: list[tuple[dict[str, Any], int]] = [
            ({"cwnd": 1, "congestion_window": 14_000}, 14_000),
            ({"current_cwnd": 1, "cwnd": 15_000}, 15_000),
            ({"cwnd": "wide", "congestion_window": 16_000}, 16_000),
            ({"congestion_window": None, "cwnd": 17_000}, 17_000),
        ]
        for values, window in reports:
            found = converted([*FIRST, metrics(60, **values)], name="quic-go").only("metrics")
            self.assertEqual(found[-1]["window"], window, values)

    def test_a_count_of_probe_timeouts_is_one_of_a_report(self) -> None:
        state = {"new": "slow_start", "pto_count": "many"}
        event = {"time": 60, "name": "recovery:congestion_state_updated", "data": state}
        self.check(event, 0)

    def test_parameters(self) -> None:
        for key, value, status in (
            *(("max_ack_delay", "25.5", 0), ("max_ack_delay", 16_384, 2)),
            *(("ack_delay_exponent", 20, 0), ("ack_delay_exponent", 21, 2)),
            ("ack_delay_exponent", 2.5, 2),
        ):
            self.check(parameters(**{key: value}) | {"time": 60}, status)

    def test_times(self) -> None:
        for value, status in (
            *((60.5, 0), ("60.5", 0), ("6050e-2", 0), (-5, 0), (1e12, 0)),
            *(("x", 2), (None, 2), (True, 2), ("1e41", 2), ("0e41", 2)),
            # The nanoseconds of it have 64 bits.
            (9_223_372_036_854.775807, 0),
            ("9223372036854.775808", 2),
        ):
            self.check({"time": value, "name": "transport:unknown", "data": {}}, status)

    def test_names_of_types(self) -> None:
        for kind, count in (
            *(("1RTT", 2), ("1-rtt", 2), ("0_RTT", 2), ("INITIAL", 2), ("HandShake", 2)),
            *(("1--rtt", 1), ("hand_shake", 1), ("in-itial", 1), ("", 1), (5, 1), ("1rtt ", 1)),
        ):
            event = with_value(sent(60, 1), kind, "header", "packet_type")
            self.assertEqual(len(converted([*FIRST, event]).only("sent")), count, kind)
        # The sign for kelvin is no letter of ASCII, though its small letter is.
        for kind, is_ack in (("ACK", True), ("ac\u212a", False), (["ack"], False)):
            event = with_value(received(60, [[0]]), kind, "frames", 0, "frame_type")
            self.assertEqual(len(converted([*FIRST, event]).only("ack")), 1 + is_ack, kind)

    def test_a_packet_of_no_space_is_not_read(self) -> None:
        for event in (sent(60, -1, size="x"), received(60, [[5, 4]])):
            other = with_value(event, "version_negotiation", "header", "packet_type")
            self.check(with_value(other, 5, "frames"), 0)

    def test_other_connections_are_not_read(self) -> None:
        first, second = ({**it, "group_id": "a"} for it in FIRST)
        for event in (sent(60, -1), {**lost(60, 1), "name": "recovery:packets_lost"}):
            end = converted([first, second, {**event, "group_id": "b"}])
            self.assertEqual((end.status, end.kinds), (0, ["header", "sent", "ack"]))
            self.check(event, 2)

    def test_groups_are_as_they_are_written(self) -> None:
        for groups, count in (
            *(((1, "1"), 2), ((None, None), 2), ((1, 1.0), 1), ((True, None), 2), (("1", "01"), 1)),
        ):
            events = [{**sent(0, at), "group_id": it} for at, it in enumerate(groups)]
            self.assertEqual(len(converted(events).only("sent")), count, groups)


class Texts(unittest.TestCase):
    """Texts that are not JSON."""

    LOG = sequence(header(), [sent(0, 0), sent(1, 1)])

    def test_a_text_without_its_end_is_torn_off(self) -> None:
        # Wherever the fault is, and also where another text follows.
        event = json.dumps(sent(2, 2))
        for text in (event[:-1], "}" + event, "packet", "\\", event + "x"):
            for last in ("", "\x1e{}\n"):
                end = End(f"{self.LOG}\x1e{text}{last}")
                self.assertEqual((end.status, len(end.only("sent"))), (0, 2), text)
                self.assertIn("torn off at line 4; the trace ends there", end.errors)
            end = End(f"{self.LOG}\x1e{text}\n")
            self.assertEqual((end.status, len(end.only("sent"))), (0, 2), text)
            self.assertIn("not JSON", end.errors)
        whole = End(f"{self.LOG}\x1e{event}")
        self.assertEqual((whole.errors, len(whole.only("sent"))), ("", 3))

    def test_a_first_text_without_its_end(self) -> None:
        for text, why in (
            ('\x1e{"a":5}}', "line 1: torn off"),
            ('\x1e{"a":5}}\n', "line 1: not JSON"),
            ('\x1e{"trace": x', "line 1: torn off"),
        ):
            end = End(text)
            self.assertEqual((end.status, end.text), (2, ""))
            self.assertIn(why, end.errors)

    def test_what_is_no_text(self) -> None:
        for text in (r'"\ud800"', r'"\udc00\ud800"', "NaN", "-Infinity", "[" * 200 + "]" * 200):
            record = f'{{"name":"http:packet_created","data":{text}}}'
            end = End(f"{self.LOG}\x1e{record}\n\x1e{json.dumps(sent(2, 2))}\n")
            self.assertEqual((end.status, len(end.only("sent"))), (0, 2), text)
        record = '{"name":"http:packet_created","data":"\\ud83d\\ude00"}'
        end = End(f"{self.LOG}\x1e{record}\n\x1e{json.dumps(sent(2, 2))}\n")
        self.assertEqual((end.errors, len(end.only("sent"))), ("", 3))

    def test_a_log_that_is_torn_behind_its_closing(self) -> None:
        # What came by then is whole.
        closing = received(5, [[0]], frames=("connection_close",))
        for events in ([sent(0, 0), closing], [sent(0, 0), closing, sent(9, 1)]):
            end = End(sequence(header(), events)[:-1] + '\n\x1e{"time')
            self.assertEqual((end.status, end.kinds), (0, ["header", "sent", "ack"]))


if __name__ == "__main__":
    unittest.main()
