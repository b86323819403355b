"""What the parts of a millisecond decide that a log cuts off."""

import unittest

from .made import End, Event, converted, lost, metrics, received, sent


def report(time: int, latest: int, smoothed: int, variation: int) -> Event:
    """A report of the round-trip time. The lowest is 50 milliseconds in all of these logs."""
    values = {"smoothed_rtt": smoothed, "rtt_variance": variation, "congestion_window": 12000}
    return metrics(time, latest_rtt=latest, min_rtt=50, **values)


def with_a_delay(latest: int, smoothed: int, variation: int, *, is_cut: bool = True) -> End:
    """What a log gives whose third sample has a delay of 10 milliseconds, by its last report.

    The second sample is 52 milliseconds by the times of the log. If its times are cut, that can be
    51 milliseconds and a part of one for the sender.
    """
    second = 51 if is_cut else 52
    return converted(
        [
            *(sent(0, 0), received(50, [[0]]), report(50, 50, 50, 25)),
            *(sent(60, 1), received(112, [[1]]), report(112, second, 50, 18)),
            *(sent(120, 2), received(120 + latest, [[2]], delay=10)),
            report(120 + latest, latest, smoothed, variation),
        ]
    )


class Delays(unittest.TestCase):
    """Whether the delay is subtracted from a sample: 60 or 59 milliseconds, 50 and 10."""

    def test_a_delay_that_was_not_subtracted(self) -> None:
        ack = with_a_delay(60, 51, 16).only("ack")[2]
        self.assertEqual(ack["delay"], 10_001)
        self.assertIn("delay", ack["x_guess"][0])

    def test_a_delay_that_was_subtracted(self) -> None:
        self.assertEqual(with_a_delay(60, 50, 14).only("ack")[2]["delay"], 10_000)
        ack = with_a_delay(59, 50, 14).only("ack")[2]
        self.assertEqual(ack["delay"], 9_000)
        self.assertIn("delay", ack["x_guess"][0])

    def test_a_delay_that_is_far_from_the_edge(self) -> None:
        for latest in (56, 64):
            for smoothed, variation in ((51, 16), (50, 14)):
                ack = with_a_delay(latest, smoothed, variation).only("ack")[2]
                self.assertEqual(ack["delay"], 10_000)

    def test_a_sender_with_a_clock_of_milliseconds(self) -> None:
        for latest in (59, 60):
            for smoothed, variation in ((51, 16), (50, 14)):
                ack = with_a_delay(latest, smoothed, variation, is_cut=False).only("ack")[2]
                self.assertEqual(ack["delay"], 10_000)


def with_an_age(first: int, *events: Event, second: int = 117, is_cut: bool = True) -> End:
    """What a log gives with two packets in flight, of which the second is acknowledged at 167.

    The loss delay is 9/8 of 57 milliseconds and a part of one: 64 and a part, or 65.
    """
    latest = 59 if is_cut else 60
    return converted(
        [
            *(sent(0, 0), received(60, [[0]]), report(60, latest, 59, 29)),
            *(sent(first, 1), sent(second, 2)),
            *events,
            *(received(167, [[2]]), report(167, 167 - second, 57, 24)),
            *(sent(170, 3), received(240, [[3]])),
        ]
    )


class Ages(unittest.TestCase):
    """Whether a packet is old enough to be lost, by the time of the acknowledgment."""

    def test_a_packet_that_is_not_lost(self) -> None:
        ack = with_an_age(102).only("ack")[1]
        self.assertEqual(ack["time"], 166_001)
        self.assertIn("time", ack["x_guess"][0])

    def test_a_packet_that_is_lost(self) -> None:
        found = with_an_age(102, lost(167, 1))
        self.assertEqual(found.only("ack")[1]["time"], 167_000)
        self.assertEqual(found.only("lost")[0]["time"], 167_000)

    def test_a_packet_that_is_far_from_the_edge(self) -> None:
        for first in (96, 106):
            self.assertEqual(with_an_age(first).only("ack")[1]["time"], 167_000)

    def test_a_time_does_not_go_back(self) -> None:
        at_once = received(167, None, frames=("ping",)), metrics(167, congestion_window=13000)
        self.assertEqual(with_an_age(102, *at_once).only("ack")[1]["time"], 167_000)

    def test_a_sample_that_is_longer_than_the_mean(self) -> None:
        # Were the acknowledgment earlier, so would be the loss delay.
        self.assertEqual(with_an_age(102, second=107).only("ack")[1]["time"], 167_000)

    def test_a_sender_with_a_clock_of_milliseconds(self) -> None:
        self.assertEqual(with_an_age(102, is_cut=False).only("ack")[1]["time"], 167_000)

    def test_a_loss_timer(self) -> None:
        found = converted(
            [
                *(sent(0, 0), received(60, [[0]]), report(60, 59, 59, 29)),
                *(sent(102, 1), sent(103, 2), sent(117, 3)),
                *(received(160, [[3]]), report(160, 43, 57, 25)),
                *(lost(167, 1), sent(168, 4), received(240, [[4]])),
            ]
        )
        timer = found.only("timer")[0]
        self.assertEqual((timer["kind"], timer["time"]), ("loss", 166_001))
        self.assertEqual(found.only("lost")[0]["time"], 167_000)


if __name__ == "__main__":
    unittest.main()
