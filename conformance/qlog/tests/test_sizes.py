"""Sizes that a log does not have."""

import unittest
from typing import Any

from .made import Event, converted, metrics, received, sent


def packet(number: int, frames: list[dict[str, Any]], **header: str) -> Event:
    """A packet of which the log has the frames and their lengths."""
    named = {"packet_type": "1RTT", "packet_number": number, "dcid": "0011223344556677", **header}
    data = {"header": named, "frames": frames}
    return {"time": number, "name": "transport:packet_sent", "data": data}


def stream(offset: int, number: int = 0, length: int = 4) -> dict[str, Any]:
    """A STREAM frame without a length, as OpenSSL logs it."""
    frame = {"frame_type": "stream", "stream_id": number, "offset": offset, "length": length}
    return frame | {"explicit_length": False, "payload_length": 0}


def sizes(events: list[Event]) -> list[int]:
    """The sizes of the packets of a log of OpenSSL."""
    found = converted(events, name="OpenSSL/3.6.5 (x)")
    return [line["size"] for line in found.only("sent")]


class ByFrames(unittest.TestCase):
    """Sizes by the headers and the frames (RFC 9000, sections 16 and 17)."""

    def test_a_packet_of_a_short_header(self) -> None:
        # Flags 1, ID 8, number 4, the frame 1, tag 16.
        found = converted([packet(0, [{"frame_type": "ping", "length": 1}])], name="OpenSSL/3.6.5")
        self.assertEqual(found.only("sent")[0]["size"], 30)
        self.assertIn("size: by the header", found.only("sent")[0]["x_guess"][0])

    def test_a_packet_of_a_long_header(self) -> None:
        crypto = {"frame_type": "crypto", "offset": 0, "payload_length": 300, "length": 4}
        # Flags 1, version 4, IDs with their lengths 9 and 3, length 2, number 4, tag 16.
        handshake = packet(0, [crypto], packet_type="handshake", scid="abcd")
        self.assertEqual(sizes([handshake]), [39 + 304])
        token: Any = {"raw": {"data": "00" * 70}}
        initial = packet(0, [crypto], packet_type="initial", scid="abcd", token=token)
        # The token and its length, of two bytes.
        self.assertEqual(sizes([initial]), [39 + 304 + 72])

    def test_frames_without_a_length_fill_their_packets(self) -> None:
        # The data of the second begins 9 bytes behind that of the first, and of the last nothing
        # says how long it is.
        offsets = (0, 9, 1174, 2339)
        log = [packet(number, [stream(offset)]) for number, offset in enumerate(offsets)]
        self.assertEqual(sizes(log), [33 + 9, 1198, 1198, 33])

    def test_data_that_is_sent_again_says_nothing_of_the_next(self) -> None:
        offsets = (0, 1165, 0, 2330, 3495)
        log = [packet(number, [stream(offset)]) for number, offset in enumerate(offsets)]
        self.assertEqual(sizes(log), [1198, 1198, 1198, 1198, 33])

    def test_each_stream_goes_on_by_itself(self) -> None:
        log = [packet(0, [stream(0)]), packet(1, [stream(0, 4)]), packet(2, [stream(20)])]
        log += [packet(3, [stream(1185)])]
        self.assertEqual(sizes(log), [53, 33, 1198, 33])


class Probes(unittest.TestCase):
    """A probe of OpenSSL keeps a byte for a PING, which the data behind it does not fill then."""

    FULL = 1165

    def log(self, came: int) -> list[Event]:
        """Packets 0 to 5, of which 3 is one byte short; an acknowledgment comes before one."""
        log = [packet(it, [stream(it * self.FULL - (it > 3))]) for it in range(6)]
        for event, time in zip(log, (0, 0, 50, 900, 960, 960), strict=True):
            event["time"] = time
        first, second = received(50, [[0]]), received(log[came]["time"], [[0, 2]])
        return [*log[:2], first, *log[2:came], second, *log[came:]]

    def test_a_probe_that_no_packet_came_before(self) -> None:
        found = converted(self.log(4), name="OpenSSL/3.5.9")
        self.assertEqual(found.kinds[5:8], ["timer", "sent", "ack"])
        timer, probe = found.lines[5:7]
        self.assertEqual((timer["time"], timer["kind"], timer["space"]), (900_000, "pto", "app"))
        self.assertIn("room for a PING", timer["x_guess"][0])
        self.assertEqual((probe["size"], probe["leave"]), (1197, "probe"))

    def test_a_probe_is_not_in_the_tick_of_the_packet_before(self) -> None:
        log = self.log(4)
        log[4]["time"] = log[3]["time"]
        found = converted(log, name="OpenSSL/3.5.9")
        self.assertEqual(found.only("timer"), [])

    def test_a_packet_may_have_to_elicit_for_a_packet_that_came(self) -> None:
        found = converted(self.log(3), name="OpenSSL/3.5.9")
        self.assertEqual(found.only("timer"), [])
        self.assertEqual(found.only("sent")[3]["size"], 1197)


class ByOtherValues(unittest.TestCase):
    """Sizes by the payload and by the header."""

    def without_length(self, **values: Any) -> list[Event]:
        """A packet without raw.length."""
        event = sent(0, 0)
        event["data"]["raw"] = values.pop("raw", None)
        event["data"]["header"] |= values
        return [event]

    def test_by_the_length_of_the_payload(self) -> None:
        log = self.without_length(raw={"payload_length": 1000}, dcid="00112233")
        self.assertEqual(converted(log).only("sent")[0]["size"], 1 + 4 + 4 + 1000 + 16)

    def test_by_the_length_in_the_header(self) -> None:
        log = self.without_length(length=1180)
        self.assertEqual(converted(log).only("sent")[0]["size"], 1180)

    def test_a_size_that_is_guessed_is_that_by_which_the_bytes_in_flight_grew(self) -> None:
        said: list[dict[str, Any]] = [{"raw": {"payload_length": 1170}}, {"length": 1180}]
        for values in said:
            log = [*self.without_length(**values), metrics(0, bytes_in_flight=1200)]
            log += [received(5, [[0]])]
            self.assertEqual(converted(log).only("sent")[0]["size"], 1200)

    def test_packets_of_a_datagram_that_is_padded(self) -> None:
        # The size of the second is that of the datagram so far, and its bytes are reported first.
        datagram = [sent(0, 0, "initial", 163), sent(0, 0, "0RTT", 504)]
        datagram += [metrics(0, bytes_in_flight=341), metrics(0, bytes_in_flight=1252)]
        found = converted(datagram, name="neqo", role="client")
        self.assertEqual([line["size"] for line in found.only("sent")], [911, 341])
        self.assertEqual(found.kinds, ["header", "sent", "sent", "metrics"])

    def test_packets_of_a_datagram_with_one_report(self) -> None:
        # The bytes of the Initial packet are gone with its keys once the report is written.
        datagram = [sent(0, 0, "initial", 99), sent(0, 0, "handshake", 194)]
        found = converted([*datagram, metrics(0, bytes_in_flight=95)], name="neqo", role="client")
        self.assertEqual([line["size"] for line in found.only("sent")], [99, 95])
        self.assertEqual(found.kinds, ["header", "sent", "discard", "sent", "metrics"])

    def test_nothing_says_it(self) -> None:
        end = converted(self.without_length())
        self.assertEqual((end.status, end.text), (2, ""))
        self.assertIn("packet_sent: no raw.length", end.errors)
