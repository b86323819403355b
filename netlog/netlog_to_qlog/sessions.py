"""The events of one QUIC session of Chromium, read as records of a qlog.

A netlog has packets that are sent and declared lost in microseconds, packets that come in
milliseconds, and frames as events of their own: those of a packet that is sent stand before it. No
window, no bytes in flight, no round-trip times and no timers are in it.
"""

import math
import re
from bisect import bisect_left, insort
from collections.abc import Iterator
from typing import Any, NamedTuple

from .errors import Unusable

TYPE_OF_LEVEL = {
    "ENCRYPTION_INITIAL": "initial",
    "ENCRYPTION_HANDSHAKE": "handshake",
    "ENCRYPTION_ZERO_RTT": "0RTT",
    "ENCRYPTION_FORWARD_SECURE": "1RTT",
}
TYPE_OF_HEADER = {"INITIAL": "initial", "HANDSHAKE": "handshake", "ZERO_RTT_PROTECTED": "0RTT"}
LONG_HEADER = "IETF_QUIC_LONG_HEADER_PACKET"
PROBE = "PTO_RETRANSMISSION"
AGAIN = "HANDSHAKE_RETRANSMISSION"
# Frames of packets that go over another path.
FRAMES_OF_PATHS = {"path_challenge", "path_response", "padding"}
# Losses that are found so long behind an acknowledgment, in microseconds, are not shown by it: its
# own time is cut to a millisecond.
LATE = 3_000
FRAME_SENT, FRAME_RECEIVED = "_FRAME_SENT", "_FRAME_RECEIVED"
PACKET = "packet_number"
# Events that tell of a packet that came.
OF_RECEIVED = (
    "UNAUTHENTICATED_PACKET_HEADER_RECEIVED",
    "BUFFERED_UNDECRYPTABLE_PACKET",
    "DROPPED_UNDECRYPTABLE_PACKET",
)
# Events behind which no loss belongs to the acknowledgment before.
BOUNDARIES = (
    "PACKET_SENT",
    "PACKET_RECEIVED",
    "ACK_FRAME_RECEIVED",
    "UNAUTHENTICATED_PACKET_HEADER_RECEIVED",
    "HANDSHAKE_DONE_FRAME_RECEIVED",
    "CONNECTION_CLOSE",
    "CLOSED",
)
# What a whole number is below, and how many microseconds a time is below.
LIMIT = 1 << 63
LIMIT_OF_TIMES = LIMIT // 1_000
# A number in a string, as a netlog has large ones.
NUMBER = re.compile(r"-?[0-9]{1,20}")
DELAY = re.compile(r"\bmax_ack_delay ([0-9]{1,20})")
# So many parts of a list are not taken out one by one.
MANY = 16
# No packet has more frames; and the names of frames have fewer characters.
MOST_FRAMES, LONGEST_NAME = 2_000, 64
UNKNOWN_FRAME = "unknown"
Values = dict[str, Any]
Ranges = list[list[int]]


def number_of(values: Values, key: str) -> int:
    """A whole number, which a netlog may write as a string."""
    said = values.get(key)
    value = float("nan")
    if isinstance(said, str) and NUMBER.fullmatch(said):
        value = int(said)
    elif isinstance(said, int | float) and not isinstance(said, bool):
        value = said
    if not math.isfinite(value) or abs(int(value)) >= LIMIT:
        raise Unusable(f"a netlog without {key} in an event that has one")
    return int(value)


def ranges_of(values: Values) -> Ranges:
    """The ranges of an ACK frame, by its ends and what is missing between."""
    low, high = number_of(values, "smallest_observed"), number_of(values, "largest_observed")
    found, start = [], low
    listed = values.get("missing_packets") or []
    if not isinstance(listed, list):
        raise Unusable("a netlog whose missing_packets are no list")
    missing = sorted(number_of({"missing_packets": it}, "missing_packets") for it in listed)
    for gap in [*missing, high + 1]:
        if start < gap:
            found.append([start, gap - 1])
        start = max(start, gap + 1)
    return found


class Record(NamedTuple):
    """A record: where in the netlog it is from, its time in microseconds, its name and its data."""

    place: str
    time: int
    name: str
    data: Values


class Ack(NamedTuple):
    """An acknowledgment: where it is in the netlog, its time in microseconds, the ranges and the
    delay."""

    place: str
    time: int
    ranges: Ranges
    delay: int


class Loss(NamedTuple):
    """A packet that was declared lost: where in the netlog, when in microseconds, its number."""

    place: str
    time: int
    number: int


class Numbers:
    """Packet numbers in ascending order."""

    def __init__(self) -> None:
        self._all: list[int] = []

    def __contains__(self, number: int) -> bool:
        place = bisect_left(self._all, number)
        return self._all[place : place + 1] == [number]

    def add(self, number: int) -> None:
        """One more, if it is not there yet."""
        if not self._all or number > self._all[-1]:
            self._all.append(number)
        elif number not in self:
            insort(self._all, number)

    def take(self, ranges: Ranges) -> None:
        """Takes out those that are in these ranges, which ascend and are apart."""
        parts = [
            slice(bisect_left(self._all, low), bisect_left(self._all, high + 1))
            for low, high in ranges
        ]
        if len(parts) <= MANY:
            for part in reversed(parts):
                del self._all[part]
            return
        gone = {number for part in parts for number in self._all[part]}
        self._all = [number for number in self._all if number not in gone]


class Session:
    """The events of one QUIC session, as records of a qlog."""

    def __init__(self) -> None:
        # The frames of the packet that is sent next.
        self._frames: list[str] = []
        # Of which type the packet is whose frames come.
        self._received = "initial"
        # The acknowledgment and the losses that wait for one another.
        self._ack: Ack | None = None
        self._lost: list[Loss] = []
        # What is in flight, for a loss does not say of which space it is.
        self._in_flight: dict[str, Numbers] = {}
        # All spaces count on from one another.
        self._last_number: int | None = None
        # Whether a packet came of which no header is logged, as of a Retry.
        self._is_bare = False
        # Packets of other paths, which are left out.
        self.of_paths = 0
        # Where the event is that is looked at.
        self._place = ""

    def records(
        self, place: str, name: str, milliseconds: int, values: Values
    ) -> Iterator[Record]:
        """What an event gives, and what waited for it."""
        self._place, time = place, milliseconds * 1_000
        if name == "PACKET_LOST":
            found, number = number_of(values, "detection_time_us"), number_of(values, PACKET)
            self._lost.append(Loss(place, found, number))
            return
        if name.startswith(BOUNDARIES):
            yield from self._settled(name == "ACK_FRAME_RECEIVED")
        if name == "PACKET_RECEIVED" or name.startswith(OF_RECEIVED):
            self._is_bare = name == "PACKET_RECEIVED"
        if name == "ACK_FRAME_RECEIVED":
            yield from self._on_ack(time, values)
        elif name == "PACKET_SENT":
            yield from self._on_sent(values)
        elif name == "UNAUTHENTICATED_PACKET_HEADER_RECEIVED":
            yield from self._on_header(time, values)
        elif name == "TRANSPORT_PARAMETERS_RECEIVED":
            yield self._parameters(time, values)
        elif name == "HANDSHAKE_DONE_FRAME_RECEIVED":
            yield self._packet_received(time, {"frame_type": "handshake_done"})
        elif name in ("CONNECTION_CLOSE_FRAME_SENT", "CONNECTION_CLOSE_FRAME_RECEIVED"):
            yield self._packet_received(time, {"frame_type": "connection_close"})
        elif name == "COALESCED_PACKET_SENT":
            self._frames = []
        elif name.endswith(FRAME_SENT) and len(self._frames) < MOST_FRAMES:
            self._frames.append(kind_of_frame(name.removesuffix(FRAME_SENT)))

    def rest(self) -> Iterator[Record]:
        """What still waits at the end."""
        yield from self._settled(False)

    def _on_ack(self, time: int, values: Values) -> Iterator[Record]:
        delay = number_of(values, "delta_time_largest_observed_us")
        self._ack = Ack(self._place, time, ranges_of(values), delay)
        if self._lost:
            # Losses that stand right before an acknowledgment are shown by it.
            yield from self._settled(False)

    def _settled(self, is_ack: bool) -> Iterator[Record]:
        """The acknowledgment and the losses that wait: together, if the one can show the others."""
        if self._ack is None:
            # What follows decides whose the losses are.
            if self._lost and not is_ack:
                yield from self._losses(None)
            return
        ack, self._ack = self._ack, None
        kind, time = self._received, ack.time
        is_shown = bool(self._lost) and self._lost[-1].time - time < LATE
        if is_shown:
            time = self._lost[-1].time
        delay = in_milliseconds(ack.delay)
        frame = {"frame_type": "ack", "ack_delay": delay, "acked_ranges": ack.ranges}
        yield self._packet_received(time, frame, ack.place)
        self._in_flight.get(kind, Numbers()).take(ack.ranges)
        if self._lost:
            yield from self._losses(kind if is_shown else None)

    def _losses(self, kind: str | None) -> Iterator[Record]:
        for place, time, number in self._lost:
            found = kind or self._kind_of(number)
            self._in_flight.get(found, Numbers()).take([[number, number]])
            header = {"packet_type": found, PACKET: number}
            yield Record(place, time, "recovery:packet_lost", {"header": header})
        self._lost = []

    def _kind_of(self, number: int) -> str:
        """The type of the packet in flight that has this number, the last type first."""
        kinds = reversed(list(TYPE_OF_LEVEL.values()))
        return next((it for it in kinds if number in self._in_flight.get(it, Numbers())), "1RTT")

    def _on_sent(self, values: Values) -> Iterator[Record]:
        kind = TYPE_OF_LEVEL.get(str(values.get("encryption_level")), "1RTT")
        number, size = number_of(values, PACKET), number_of(values, "size")
        is_behind_gap = self._last_number is not None and number > self._last_number + 1
        self._last_number = number
        # A packet whose frames are not logged is one that asks for an acknowledgment.
        frames, self._frames = self._frames or [UNKNOWN_FRAME], []
        if set(frames) <= FRAMES_OF_PATHS and set(frames) != {"padding"}:
            self.of_paths += 1
            return
        time = number_of(values, "sent_time_us")
        if self._is_bare and kind == "initial" and values.get("transmission_type") == AGAIN:
            # All that it had sent goes out again at once.
            self._is_bare = False
            retry = {"header": {"packet_type": "retry"}}
            yield Record(self._place, time, "transport:packet_received", retry)
        self._in_flight.setdefault(kind, Numbers()).add(number)
        data: Values = {
            "header": {"packet_type": kind, PACKET: number},
            "raw": {"length": size},
            "frames": [{"frame_type": it} for it in frames],
        }
        # At a probe timeout the sender passes over a number.
        if values.get("transmission_type") == PROBE or is_behind_gap:
            data["trigger"] = "pto_probe"
        yield Record(self._place, time, "transport:packet_sent", data)

    def _on_header(self, time: int, values: Values) -> Iterator[Record]:
        kind = str(values.get("long_header_type"))
        is_long = values.get("header_format") == LONG_HEADER
        self._received = TYPE_OF_HEADER.get(kind, "1RTT") if is_long else "1RTT"
        if self._received == "handshake":
            yield self._packet_received(time, {"frame_type": "crypto"})

    def _packet_received(self, time: int, frame: Values, place: str = "") -> Record:
        # Its number is not logged.
        header = {"packet_type": self._received, PACKET: 0}
        data: Values = {"header": header, "frames": [frame]}
        return Record(place or self._place, time, "transport:packet_received", data)

    def _parameters(self, time: int, values: Values) -> Record:
        found = DELAY.search(str(values.get("quic_transport_parameters")))
        data: Values = {"owner": "remote"}
        if found:
            data["max_ack_delay"] = int(found[1])
        return Record(self._place, time, "transport:parameters_set", data)


def kind_of_frame(name: str) -> str:
    """The kind of a frame as a qlog has it."""
    is_name = name.isascii() and len(name) <= LONGEST_NAME
    return name.lower() if is_name else UNKNOWN_FRAME


def in_milliseconds(microseconds: int) -> float:
    """A time or a duration as a qlog has it. Of those that a trace can have no digit is lost."""
    return microseconds / 1_000
