"""What a log shows that no trace can say: a line on standard error says so."""

import unittest

from .made import Event, converted, lost, metrics, received, sent
from .test_timers import expired

RTT = metrics(100, latest_rtt=100, smoothed_rtt=100, min_rtt=100, rtt_variance=50)


def told(events: list[Event], text: str) -> bool:
    """Whether the converter says it of a log, whose packets are all in the trace."""
    end = converted(events, name="something")
    packets = [it for it in events if it["name"].endswith("packet_sent")]
    assert len(end.only("sent")) == len(packets)
    return text in end.errors


class Limits(unittest.TestCase):
    """Each is told where it is seen, and not elsewhere."""

    def test_marks(self) -> None:
        for count, is_told in ((0, False), (1, True)):
            ack = received(100, [[0]])
            ack["data"]["frames"][0] |= {"ect0": 1, "ect1": 0, "ce": count}
            self.assertEqual(told([sent(0, 0), ack], "acknowledgments report CE marks"), is_told)

    def test_a_clock_that_is_cut(self) -> None:
        for name, is_told in (("OpenSSL/3.6.5", True), ("something", False)):
            errors = converted([sent(0, 0), received(100, [[0]])], name=name).errors
            self.assertEqual("each difference of its times is cut" in errors, is_told)

    def test_another_delay_of_the_peer(self) -> None:
        for frame, is_told in (("ping", False), ("ack_frequency", True)):
            events = [sent(0, 0, frames=(frame,)), received(100, [[0]])]
            self.assertEqual(told(events, "ACK_FREQUENCY frames change the peer's"), is_told)

    def test_another_time_threshold(self) -> None:
        first = [sent(5, 0), sent(6, 1), received(106, [[1]]), RTT]
        for times, is_told in (((118.5,), False), ((130.5,), True), ((130.5, 118.5), False)):
            events = list(first)
            for number, time in enumerate(times):
                start, at = number * 1000, number * 2 + 2
                events += [sent(start + 205, at), sent(start + 206, at + 1)]
                events += [received(start + 306, [[at + 1]]), expired(start + 205 + time, "ack")]
                events += [lost(start + 205 + time, at)]
            text = "its loss timers fire later than at the time threshold"
            self.assertEqual(told(events, text), is_told)

    def test_a_packet_of_the_tick_of_a_loss(self) -> None:
        for time, is_told in ((50, True), (51, False)):
            events = [*(sent(0, n) for n in range(5)), received(50, [[1, 4]]), lost(50, 0)]
            events += [sent(time, 5), *(sent(60, n) for n in range(6, 10))]
            events += [received(110, [[6, 9]]), lost(110, 5)]
            self.assertEqual(told(events, "was sent in the same tick"), is_told)
