"""Where losses, metrics and keys stand beside the packets that cause them."""

import unittest

from .made import End, Event, converted, lost, metrics, received, sent

FIVE = [it for n in range(5) for it in (sent(n, n), metrics(n, bytes_in_flight=1200 * (n + 1)))]
# A sample, and what is in flight once packets 2 to 4 are acknowledged and 0 and 1 are lost.
REPORT = {"latest_rtt": 20, "min_rtt": 20, "smoothed_rtt": 20, "bytes_in_flight": 0}


def discarded(time: float, key: str) -> Event:
    """Keys that are gone."""
    return {"time": time, "name": "security:key_discarded", "data": {"key_type": key}}


def new_quic_go(events: list[Event], schema: str = "0.3", role: str = "server") -> End:
    """A log of quic-go since 0.50."""
    return converted(events, name="quic-go", schema=schema, role=role)


class PacketsThatComeLast(unittest.TestCase):
    """Logs that have packet_received behind all that it caused, as those of quic-go since 0.50."""

    def test_losses_and_metrics_stand_before_the_packet(self) -> None:
        shown = [lost(24.1, 0), lost(24.1, 1), metrics(24.2, **REPORT), received(24.5, [[2, 4]])]
        found = new_quic_go([*FIVE, *shown, sent(25, 5)])
        self.assertEqual(found.kinds[-4:], ["ack", "lost", "metrics", "sent"])
        # The time at which the frames were handled, and not that at which the line was written.
        self.assertEqual(found.only("ack")[0]["time"], 24100)
        self.assertEqual(found.only("lost")[0]["ranges"], [[0, 1]])
        self.assertFalse([line for line in found.lines if "x_forgot" in line])

    def test_metrics_of_packets_stay_with_them(self) -> None:
        first = [sent(0, 0), sent(0, 1), metrics(0, bytes_in_flight=1200)]
        first += [metrics(0, bytes_in_flight=2400)]
        ack = [metrics(20, **REPORT | {"bytes_in_flight": 1200}), received(20.5, [[0]])]
        found = new_quic_go(first + ack)
        self.assertEqual(found.kinds, ["header", "sent", "sent", "metrics", "ack", "metrics"])
        self.assertEqual([it["bytes_in_flight"] for it in found.only("metrics")], [2400, 1200])

    def test_losses_of_a_timer_have_no_packet(self) -> None:
        data = {"event_type": "expired", "timer_type": "ack"}
        data |= {"packet_number_space": "application_data"}
        expired = {"time": 30, "name": "recovery:loss_timer_updated", "data": data}
        ack = [metrics(21, **REPORT | {"bytes_in_flight": 1200}), received(21.5, [[1, 4]])]
        timer = [expired, lost(30, 0), metrics(30, bytes_in_flight=0, congestion_window=20000)]
        found = new_quic_go([*FIVE, *ack, *timer, received(31, None, frames=("ping",))])
        self.assertEqual(found.kinds[-5:], ["ack", "metrics", "timer", "lost", "metrics"])

    def test_keys_that_go_between_the_metrics_of_a_datagram(self) -> None:
        first = [sent(0, 0, "initial", 300), metrics(0, bytes_in_flight=300)]
        datagram = [sent(40, 0, "handshake", 100), sent(40, 0, "1RTT", 200)]
        datagram += [metrics(40.1, bytes_in_flight=400), discarded(40.2, "client_initial_secret")]
        datagram += [metrics(40.3, bytes_in_flight=300)]
        found = new_quic_go(first + datagram, role="client")
        self.assertEqual(found.kinds[3:], ["sent", "sent", "discard", "metrics"])
        self.assertEqual(found.lines[-1]["bytes_in_flight"], 300)

    def test_keys_that_a_packet_takes_stand_behind_it(self) -> None:
        keys = discarded(20.1, "server_handshake_secret")
        ack = [metrics(20, **REPORT), keys, received(20.5, [[0, 4]], frames=("handshake_done",))]
        found = new_quic_go([*FIVE, *ack], role="client")
        self.assertEqual(found.kinds[-4:], ["ack", "metrics", "confirmed", "discard"])


class ValuesThatAreLeftOut(unittest.TestCase):
    """What metrics do not say."""

    EVENTS = [sent(0, 0), metrics(0, congestion_window=40960, bytes_in_flight=1200)]
    ACK = [metrics(20, latest_rtt=20, smoothed_rtt=20, min_rtt=20), received(20.1, [[0]])]

    SCHEMA = "urn:ietf:params:qlog:file:sequential"

    def test_a_value_that_changed_and_is_left_out_is_0(self) -> None:
        line = new_quic_go(self.EVENTS + self.ACK, self.SCHEMA).lines[-1]
        self.assertEqual((line["bytes_in_flight"], line["window"]), (0, 40960))

    def test_a_value_that_may_be_0_is_not_said(self) -> None:
        again = [metrics(30, smoothed_rtt=21), received(30.1, [[0]])]
        line = new_quic_go(self.EVENTS + self.ACK + again, self.SCHEMA).lines[-1]
        self.assertEqual((line["time"], line["smoothed_rtt"]), (30_000, 21_000))
        self.assertNotIn("bytes_in_flight", line)

    def test_a_value_that_did_not_change_is_said_again(self) -> None:
        self.assertEqual(new_quic_go(self.EVENTS + self.ACK).lines[-1]["bytes_in_flight"], 1200)

    def test_a_value_that_the_sender_has_not_is_not_said(self) -> None:
        report = metrics(20, latest_rtt=20, smoothed_rtt=20, min_rtt=20, congestion_window=9000)
        reset = metrics(30, smoothed_rtt=333, congestion_window=2400)
        events = [sent(0, 0), sent(1, 1), received(20, [[0]]), report, received(30, [[1]]), reset]
        line = converted(events, name="ngtcp2").lines[-1]
        self.assertEqual(set(line) - {"x_guess"}, {"event", "time", "smoothed_rtt", "window"})
