"""Timers that expire, and losses that are none."""

import unittest
from typing import Any

from .made import Event, converted, lost, metrics, received, sent

FIRST = [sent(0, 0, "initial"), metrics(0, pto_count=0, bytes_in_flight=1200)]


def expired(time: float, kind: str, **more: Any) -> Event:
    """A timer that expired."""
    data = {"event_type": "expired", "timer_type": kind, **more}
    return {"time": time, "name": "recovery:loss_timer_updated", "data": data}


def repeated(time: float, number: int, kind: str = "1RTT") -> Event:
    """A packet that a probe repeats."""
    event = lost(time, number, kind)
    event["data"]["trigger"] = "pto_expired"
    return event


class TimersWithoutASpace(unittest.TestCase):
    """Timers that do not say for which packet number space they were set."""

    def test_a_probe_timeout_is_that_of_a_space_with_packets_in_flight(self) -> None:
        found = converted([*FIRST, expired(300, "pto"), metrics(300, pto_count=1)])
        self.assertEqual(found.kinds[-1], "timer")
        timer = found.only("timer")[0]
        self.assertEqual((timer["kind"], timer["space"]), ("pto", "initial"))
        self.assertIn("space of a timer", timer["x_guess"][0])

    def test_a_loss_timer_is_that_of_what_it_found(self) -> None:
        events = [sent(0, 0, "handshake"), sent(0, 1, "handshake"), sent(0, 0)]
        events += [received(10, [[1]], "handshake"), expired(13, "ack"), lost(13, 0, "handshake")]
        found = converted(events, name="neqo")
        self.assertEqual(found.kinds[-3:], ["ack", "timer", "lost"])
        timer = found.only("timer")[0]
        self.assertEqual((timer["kind"], timer["space"]), ("loss", "handshake"))

    def test_a_timer_of_no_known_kind_is_what_it_did(self) -> None:
        events = [sent(0, 0), sent(0, 1), received(10, [[1]])]
        for did, kinds in (
            ([lost(13, 0)], ["ack", "timer", "lost"]),
            ([metrics(13, pto_count=1)], ["ack", "timer"]),
            ([sent(13, 2)], ["ack", "sent"]),
        ):
            end = converted([*events, expired(13, "other"), *did], name="neqo")
            self.assertEqual(end.kinds[-len(kinds) :], kinds)
            is_told = "left out 1: a timer of another kind" in end.errors
            self.assertEqual(is_told, "timer" not in kinds)

    def test_a_timer_whose_count_comes_later_is_one(self) -> None:
        later = [expired(300, "pto"), sent(300, 1, "initial"), metrics(300, pto_count=1)]
        kinds = converted([*FIRST, *later], name="something").kinds
        self.assertEqual(kinds[-2:], ["timer", "sent"])

    def test_a_timer_that_had_been_moved_is_none(self) -> None:
        counted = [*FIRST, expired(300, "pto"), metrics(300, pto_count=1)]
        for timer, more in (("ack", [sent(310, 1)]), ("pto", [sent(310, 1)])):
            end = converted([*counted, expired(310, timer), *more], name="neqo")
            self.assertEqual(end.kinds[-2:], ["timer", "sent"])
            self.assertIn("left out 1: a timer that had been moved", end.errors)


class LossesThatAreNone(unittest.TestCase):
    """Packets that a log names as lost, and that stay or never were in flight."""

    def test_what_a_probe_repeats_stays_in_flight(self) -> None:
        events = [*FIRST, expired(300, "pto"), metrics(300, pto_count=1)]
        events += [repeated(300, 0, "initial"), sent(300, 1, "initial")]
        events += [metrics(300, bytes_in_flight=2400)]
        end = converted(events, "--notes", name="neqo")
        self.assertEqual(end.kinds[-3:], ["timer", "sent", "metrics"])
        self.assertFalse([line for line in end.lines if "x_forgot" in line])
        self.assertIn("left out 1: a packet_lost by pto_expired", end.errors)

    def test_a_packet_that_is_not_in_flight_is_not_declared_lost(self) -> None:
        events = [sent(0, 0), sent(0, 1, frames=("ack",)), *(sent(0, n) for n in range(2, 6))]
        events += [received(10, [[4, 5]]), lost(10, 0), lost(10, 1)]
        end = converted(events, "--notes", name="neqo")
        self.assertEqual(end.only("lost")[0]["ranges"], [[0, 0]])
        self.assertIn("left out 1: a loss of a packet that is not in flight", end.errors)

    def test_a_timer_for_packets_that_are_not_in_flight_is_none(self) -> None:
        events = [sent(0, 0, frames=("ack",)), sent(0, 1), received(10, [[1]])]
        timer = expired(13, "ack", packet_number_space="application_data")
        for name, found in (("quic-go", [timer, lost(13, 0)]), ("ngtcp2", [lost(13, 0)])):
            end = converted([*events, *found, sent(14, 2)], "--notes", name=name)
            self.assertEqual(end.kinds, ["header", "sent", "sent", "ack", "sent"])
            self.assertIn("left out 1: a loss of a packet that is not in flight", end.errors)
            told = "left out 1: a loss timer that found only packets that are not in flight"
            self.assertEqual(told in end.errors, name == "quic-go")


class ValuesOfFirefox(unittest.TestCase):
    """Sizes without their padding, and delays as on the wire."""

    def test_sizes_are_those_by_which_the_bytes_in_flight_grow(self) -> None:
        events = [sent(0, 0, "initial", 989), metrics(0, bytes_in_flight=1200)]
        events += [sent(1, 0, "handshake", 86), metrics(1, bytes_in_flight=86)]
        # The log has the size of the datagram so far.
        events += [sent(1, 0, size=260), metrics(1, bytes_in_flight=260)]
        # An ACK frame, and PADDING that is not logged.
        events += [sent(2, 1, size=50, frames=("ack",)), metrics(2, bytes_in_flight=1260)]
        found = converted(events, name="neqo", role="client").only("sent")
        self.assertEqual([line["size"] for line in found], [1200, 86, 174, 1000])
        self.assertEqual([line["in_flight"] for line in found], [True] * 4)
        self.assertEqual([line["eliciting"] for line in found], [True] * 3 + [False])
        self.assertIn("by which the bytes in flight grew", found[0]["x_guess"][0])

    def test_delays_are_multiplied(self) -> None:
        ours = {"owner": "remote", "ack_delay_exponent": 4, "max_ack_delay": 25}
        parameters = {"time": 0, "name": "transport:parameters_set", "data": ours}
        none: list[Event] = []
        for name, first, delay in (
            ("neqo", none, 3344),
            ("neqo", [parameters], 6688),
            ("something", [parameters], 418),
        ):
            events = [*first, sent(0, 0), received(20, [[0]], delay=0.418)]
            self.assertEqual(converted(events, name=name).only("ack")[0]["delay"], delay)
