"""The qlogs of netlogs, and the traces that these give."""

import json
import unittest
from typing import Any

from made_netlogs import REAL, End, Event, acked, event, lost, netlog, sent

from netlog_to_qlog.netlog import looked_at

# Which events of a netlog can say a record, by its name and by whether it has an ACK frame.
FROM: dict[tuple[str, bool], tuple[str, ...]] = {
    ("transport:packet_sent", False): ("PACKET_SENT",),
    ("transport:packet_sent", True): ("PACKET_SENT",),
    ("transport:packet_received", True): ("ACK_FRAME_RECEIVED",),
    ("transport:packet_received", False): (
        "UNAUTHENTICATED_PACKET_HEADER_RECEIVED",
        "HANDSHAKE_DONE_FRAME_RECEIVED",
        "CONNECTION_CLOSE_FRAME_SENT",
        "CONNECTION_CLOSE_FRAME_RECEIVED",
    ),
    ("transport:parameters_set", False): ("TRANSPORT_PARAMETERS_RECEIVED",),
    ("recovery:packet_lost", False): ("PACKET_LOST",),
}


class Netlogs(unittest.TestCase):
    """They are read as the qlogs of their sessions."""

    FIVE = [it for number in range(1, 6) for it in sent((number - 1) / 8, number)]

    def test_packets_and_acknowledgments(self) -> None:
        parameters = "[Server max_idle_timeout 30000 max_ack_delay 17 ack_delay_exponent 3]"
        told = event("TRANSPORT_PARAMETERS_RECEIVED", 0, quic_transport_parameters=parameters)
        end = End(netlog(told, self.FIVE, acked(20, 1, 5, 3, delay=750)))
        head = end.lines[0]
        self.assertEqual((head["role"], head["max_ack_delay"]), ("client", 17_000))
        self.assertEqual((head["window"], head["loss_by_number"]), ("reported", "may"))
        self.assertEqual((head["initial_window"], head["max_datagram_size"]), (4294967295, 1250))
        packet = end.only("sent")[1]
        self.assertEqual((packet["number"], packet["size"], packet["time"]), (2, 1250, 125))
        ack = end.only("ack")[0]
        self.assertEqual((ack["ranges"], ack["delay"]), ([[1, 2], [4, 5]], 750))
        self.assertEqual(ack["time"], 20_000)
        self.assertEqual((end.qlog.errors, end.trace.errors), ("", ""))

    def test_losses_that_an_acknowledgment_shows(self) -> None:
        head, ack = acked(20, 2, 5)
        for events in (
            [head, ack, lost(20.7, 1), *sent(21, 6)],
            [head, lost(20.7, 1), ack, *sent(21, 6)],
        ):
            end = End(netlog(self.FIVE, events))
            self.assertEqual(end.kinds[-3:], ["ack", "lost", "sent"])
            # The time at which the losses were found, which is finer.
            self.assertEqual([line["time"] for line in end.lines[-3:-1]], [20_700, 20_700])
            self.assertEqual(end.only("lost")[0]["ranges"], [[1, 1]])

    def test_losses_that_a_timer_finds(self) -> None:
        end = End(netlog(self.FIVE, acked(20, 2, 3), lost(25.5, 1), sent(25.6, 6)))
        self.assertEqual(end.kinds[-4:], ["ack", "timer", "lost", "sent"])
        self.assertEqual([line["time"] for line in end.lines[-4:-1]], [20_000, 25_500, 25_500])

    def test_a_probe_timeout_passes_over_a_number(self) -> None:
        probe = sent(300, 7, transmission_type="PTO_RETRANSMISSION")
        for first in (probe, sent(300, 7)):
            second = sent(301, 8, transmission_type="PTO_RETRANSMISSION")
            end = End(netlog(self.FIVE, first, second, sent(302, 9)))
            self.assertEqual(end.kinds[-4:], ["timer", "sent", "sent", "sent"])
            self.assertEqual(end.only("timer")[0]["time"], 300_000)
            self.assertIn("a packet is its probe", end.only("timer")[0]["x_guess"][0])

    def test_the_next_probe_timeout_is_another(self) -> None:
        again: Event = {"transmission_type": "PTO_RETRANSMISSION"}
        # Two packets of a timeout, and one of the next.
        probes = [sent(300, 7, **again), sent(301, 8, **again), sent(900, 10, **again)]
        end = End(netlog(self.FIVE, *probes))
        self.assertEqual(end.kinds[6:], ["timer", "sent", "sent", "timer", "sent"])
        self.assertEqual([line["time"] for line in end.only("timer")], [300_000, 900_000])

    def test_packets_of_another_path_are_left_out(self) -> None:
        end = End(netlog(self.FIVE, sent(5, 6, "PATH_CHALLENGE"), sent(6, 7, "ACK")))
        self.assertEqual([line["number"] for line in end.only("sent")], [1, 2, 3, 4, 5, 7])
        self.assertFalse(end.only("sent")[-1]["in_flight"])
        told = "netlog-to-qlog: LOG: left out 1: packets that probe another path\n"
        self.assertEqual(end.qlog.errors, told)

    def test_the_handshake(self) -> None:
        level: Event = {"encryption_level": "ENCRYPTION_INITIAL"}
        form: Event = {"header_format": "IETF_QUIC_LONG_HEADER_PACKET"}
        form["long_header_type"] = "HANDSHAKE"
        events = [*sent(0, 1, **level), event("UNAUTHENTICATED_PACKET_HEADER_RECEIVED", 9, **form)]
        level = {"encryption_level": "ENCRYPTION_HANDSHAKE"}
        events += [*sent(10, 2, **level), event("HANDSHAKE_DONE_FRAME_RECEIVED", 30)]
        events += [*sent(31, 3), event("CONNECTION_CLOSE_FRAME_SENT", 40), *sent(41, 4)]
        kinds = ["header", "sent", "keys", "discard", "sent", "confirmed", "discard", "sent"]
        self.assertEqual(End(netlog(events)).kinds, kinds)

    def test_a_retry_shows_by_initial_packets_that_go_out_again(self) -> None:
        level: Event = {"encryption_level": "ENCRYPTION_INITIAL"}
        again: Event = {**level, "transmission_type": "HANDSHAKE_RETRANSMISSION"}
        first, second = sent(0, 1, "CRYPTO", **level), sent(20, 2, "CRYPTO", **again)
        came = event("PACKET_RECEIVED", 20, size=131)
        end = End(netlog(first, came, second, sent(40, 3)))
        self.assertEqual([line["number"] for line in end.only("sent")], [2, 3])
        self.assertIn("the trace begins after the Retry at line 3", end.trace.errors)
        # A packet with a header is none.
        head = acked(20, 1, 1)[0]
        end = End(netlog(first, came, head, second))
        self.assertEqual([line["number"] for line in end.only("sent")], [1, 2])

    def test_its_time_threshold_is_ten_eighths(self) -> None:
        self.assertEqual(End(netlog(self.FIVE)).lines[0]["time_threshold_eighths"], 10)

    def test_numbers_as_texts_and_with_fractions(self) -> None:
        # A netlog has large numbers as strings; of a fraction nothing counts.
        for number, wanted in (("2", 2), (2.0, 2), (2.9, 2), ("4611686018427387903", 2**62 - 1)):
            end = End(netlog(sent(0, 1), sent(1, 2, packet_number=number)))
            self.assertEqual(end.only("sent")[1]["number"], wanted)

    def test_a_torn_netlog(self) -> None:
        text = netlog(self.FIVE, acked(20, 1, 5), sent(21, 6))[:-60]
        end = End(text)
        # The last acknowledgment may not be whole, so it is left out, as of each torn log.
        self.assertEqual(end.kinds, ["header"] + ["sent"] * 5)
        at = text.rindex('{"type"')
        told = f"netlog-to-qlog: LOG: torn off at byte {at}; the qlog is torn off too\n"
        self.assertEqual(end.qlog.errors, told)
        self.assertIn("torn off at line ", end.trace.errors)

    def test_what_gives_no_qlog(self) -> None:
        number: Event = {"packet_number": None}
        far = netlog(sent(0, 1, sent_time_us=str(2**63 - 1)))
        at = far.rindex('{"type"')
        for text, reason in (
            (netlog(event("URL_REQUEST_START_JOB", 0)), "a netlog without packets of QUIC"),
            ('{"constants":{},"events":[]}', "a netlog without logEventTypes"),
            (netlog(sent(0, 1, **number)), "a netlog without packet_number in an event"),
            (netlog(sent(0, 1, packet_number="x")), "a netlog without packet_number in an event"),
            (netlog(sent(0, 1, packet_number=True)), "a netlog without packet_number in an event"),
            (far, f"byte {at}: time is out of range"),
            ('{"traces":[]}', "no netlog of Chromium"),
            ("", "empty"),
        ):
            with self.subTest(reason):
                end = End(text)
                self.assertEqual((end.qlog.status, end.qlog.text), (2, ""))
                self.assertTrue(end.qlog.errors.startswith(f"netlog-to-qlog: LOG: {reason}"))
                self.assertEqual(end.qlog.errors.count("\n"), 1)


class Sessions(unittest.TestCase):
    """Each session is a connection."""

    FIVE = Netlogs.FIVE
    # It begins before the other, in whose records it has its own, and ends after it.
    OTHER = [sent(-3, 1, source=7, size=1001), acked(30, 1, 1, source=7)]
    BOTH = netlog(OTHER[0], FIVE, acked(20, 1, 5), OTHER[1])

    def test_the_one_with_most_packets_is_the_first(self) -> None:
        end = End(self.BOTH)
        self.assertEqual({line["size"] for line in end.only("sent")}, {1250})
        told = (
            "LOG: it has 2 connections or paths; this is number 1, another by qlog-to-trace"
            " --connection N\n"
        )
        self.assertEqual(end.trace.errors, f"qlog-to-trace: {told}")
        other = End(self.BOTH, "--connection", "2")
        self.assertEqual([line["size"] for line in other.only("sent")], [1001])

    def test_each_has_the_trace_that_it_has_by_itself(self) -> None:
        for number, events in (("1", [self.FIVE, acked(20, 1, 5)]), ("2", self.OTHER)):
            by_itself = End(netlog(*events))
            found = End(self.BOTH, "--connection", number)
            self.assertGreater(len(found.lines), 2)
            self.assertEqual(found.lines, by_itself.lines)

    def test_one_that_cannot_be_read_is_left_out(self) -> None:
        bad = sent(0, 1, source=7, size="x")
        end = End(netlog(bad, self.FIVE))
        self.assertEqual(len(end.only("sent")), 5)
        told = "a netlog without size in an event that has one; the session is left out"
        self.assertEqual(end.qlog.errors, f"netlog-to-qlog: LOG: {told}\n")
        self.assertEqual(end.trace.errors, "")

    def test_what_is_left_out_of_each(self) -> None:
        probe = sent(5, 6, "PATH_CHALLENGE")
        end = End(netlog(self.OTHER[0], self.FIVE, probe))
        told = "connection 1: left out 1: packets that probe another path"
        self.assertEqual(end.qlog.errors, f"netlog-to-qlog: LOG: {told}\n")


class Real(unittest.TestCase):
    """Each netlog of conformance/real/traces gives a trace that says what the one beside it does,
    and each line is from a record that can say it."""

    def test_the_trace_beside_it(self) -> None:
        paths = sorted(REAL.glob("*.netlog"))
        self.assertTrue(paths)
        for path in paths:
            lines = path.with_suffix(".trace").read_text().splitlines()
            header, *expected = map(json.loads, lines)
            words = ["--format", str(header["version"]), "--timer-late", "no"]
            for key in ("latest_rtt_less_delay", "recovery_by_order"):
                answer = "yes" if header.get(key) else "no"
                words += [f"--{key.replace('_', '-')}", answer]
            words += ["--threshold-counts", header.get("threshold_counts", "numbers")]
            found, *rest = End(path.read_bytes(), *words).lines
            with self.subTest(path.name):
                self.assertEqual(rest, expected)
                self.assertEqual({**found, **header}, found)

    def test_each_record_is_of_an_event_that_can_say_it(self) -> None:
        for path in sorted(REAL.glob("*.netlog")):
            data, found = path.read_bytes(), list[tuple[str, str]]()
            with path.open("rb") as file:
                looked_at(file).write(lambda text, place: found.append((text, place)))
            names = json.loads(data)["constants"]["logEventTypes"].items()
            types = {number: name.removeprefix("QUIC_SESSION_") for name, number in names}
            self.assertGreater(len(found), 20)
            for text, place in found[1:]:
                record = json.loads(text.removeprefix("\x1e"))
                at = data[int(place.removeprefix("byte ")) :].decode()
                said = json.JSONDecoder().raw_decode(at)[0]
                with self.subTest(path.name, place=place):
                    self.check(record, types[said["type"]], said.get("params", {}))

    def check(self, record: Any, name: str, params: Any) -> None:
        """An event can say a record."""
        data = record["data"]
        frames = [it["frame_type"] for it in data.get("frames", [])]
        self.assertIn(name, FROM[record["name"], "ack" in frames])
        if name in ("PACKET_SENT", "PACKET_LOST"):
            number = data["header"]["packet_number"]
            self.assertEqual(number, int(params["packet_number"]))
        if name == "PACKET_SENT":
            self.assertEqual(data["raw"]["length"], params["size"])


if __name__ == "__main__":
    unittest.main()
