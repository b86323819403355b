"""The events of a qlog, by whatever names and in whatever units its draft has them."""

from collections.abc import Iterable, Iterator
from functools import lru_cache
from typing import Any, NamedTuple

from .errors import Unusable
from .forms import BROKEN_METRICS, Record, object_at
from .numbers import LIMIT_OF_TIMES, NoNumberError, duration, instant, says, whole, written

NANOSECONDS = {"ns": 1, "us": 1_000, "ms": 1_000_000}
# By how many places the point moves to make nanoseconds of a unit.
PLACES = {"ns": 0, "us": 3, "ms": 6}
# The types of packets by the names of all drafts; each other name is that of another type.
TYPES = {
    "initial": "initial",
    "handshake": "handshake",
    "0rtt": "0rtt",
    "0-rtt": "0rtt",
    "0_rtt": "0rtt",
    "1rtt": "1rtt",
    "1-rtt": "1rtt",
    "1_rtt": "1rtt",
    "retry": "retry",
}
OTHER_TYPE = "other"
SPACE_OF_PACKET = {
    "initial": "initial",
    "handshake": "handshake",
    "0rtt": "app",
    "1rtt": "app",
}
SPACE_OF_NAME = {
    "initial": "initial",
    "handshake": "handshake",
    "application_data": "app",
    "application": "app",
    "appdata": "app",
    "app": "app",
}
SPACES = ("initial", "handshake", "app")
# All other events are passed over, also where they stand within a group.
NAMES = {
    "packet_sent",
    "packet_received",
    "packet_lost",
    "packets_lost",
    "metrics_updated",
    "recovery_parameters_set",
    "congestion_state_updated",
    "loss_timer_updated",
    "key_updated",
    "key_retired",
    "key_discarded",
    "parameters_set",
}
# Metrics that cannot be read: what they said is not known any more.
UNKNOWN_METRICS = "unknown_metrics"
# Names of later drafts for the same.
OTHER_NAMES = {
    "recovery_metrics_updated": "metrics_updated",
    "timer_updated": "loss_timer_updated",
    "recovery:parameters_set": "recovery_parameters_set",
    "transport_parameters_set": "parameters_set",
    "metric_update": "metrics_updated",
}
# Frames that do not make a packet ack-eliciting (RFC 9002, section 2).
QUIET_FRAMES = {"ack", "ack_ecn", "padding", "connection_close", "application_close"}
ACK_FRAMES = ("ack", "ack_ecn")
# Names of the forms of times in several drafts: whether each counts from the one before.
IS_DELTA = {
    "delta": True,
    "delta_time": True,
    "relative_to_previous_event": True,
    "relative": False,
    "relative_time": False,
    "relative_to_epoch": False,
    "absolute": False,
    "time": False,
}
RTTS = {
    "latest_rtt": "latest_rtt",
    "min_rtt": "min_rtt",
    "smoothed_rtt": "smoothed_rtt",
    "rtt_variance": "rttvar",
}
# The first of these that is there counts.
WINDOWS = ("congestion_window", "cwnd", "current_cwnd")
# Nanoseconds of ten years: no connection is so old, so a time that is greater counts from an epoch.
LEAST_OF_EPOCH = 10 * 365 * 24 * 3600 * 10**9
GREATEST_PACKET_NUMBER = (1 << 62) - 1
GREATEST_SIZE = 65527
GREATEST_BYTES = (1 << 64) - 1

Ranges = list[list[int]]


class Ack(NamedTuple):
    """An ACK frame: its ranges in their order, its delay in nanoseconds as the log has it, and how
    many packets it says that were marked by ECN-CE."""

    ranges: Ranges
    delay: int
    marks: int


class Event:
    """An event: its time in nanoseconds from the start, its name without a category, its data.

    What its data say is read once it is asked for. The first reading asks for all of it, so that a
    log is refused before a line of its trace is written.
    """

    __slots__ = (
        "index",
        "place",
        "time",
        "places",
        "name",
        "data",
        "header",
        "packet_type",
        "space",
        "connection",
        "is_size_guessed",
        "is_padded",
        "keeps_room",
        "_frames",
        "_kinds",
        "_acks",
        "_size",
        "_metrics",
        "_count",
    )

    def __init__(self, place: str, time: int, name: str, data: dict[str, Any]) -> None:
        self.place, self.time, self.name, self.data = place, time, name, data
        # Which of the events of the log it is.
        self.index = 0
        # The connection and path of which it is, if it names one.
        self.connection: object = None
        # How many zeros of nanoseconds its durations have.
        self.places = PLACES["ms"]
        # The header of the packet; some logs have its keys beside.
        header = data.get("header")
        self.header: dict[str, Any] = header if isinstance(header, dict) else data
        kind = self.header.get("packet_type")
        if not says(kind):
            kind = first_said(data.get("packet_type"), data.get("type"))
        # The type of the packet, however it is written, if one is said.
        self.packet_type = None if kind is None else type_of_packet(kind)
        self.space = SPACE_OF_PACKET.get(self.packet_type or "")
        # What was asked for once.
        self._frames: list[dict[str, Any]] | None = None
        self._kinds: list[str] | None = None
        self._acks: list[Ack] | None = None
        self._metrics: dict[str, int] | None = None
        # The count of probe timeouts of a report that was joined with this one.
        self._count: int | None = None
        # The size of the packet, once it was asked for or found by other values.
        self._size: int | None = None
        self.is_size_guessed = False
        # Whether it has PADDING that is not logged.
        self.is_padded = False
        # Whether its data ends one byte before the packet is full, since a PING had to have room.
        self.keeps_room = False

    def error(self, reason: str) -> Unusable:
        """What is wrong with the event."""
        return Unusable(f"{self.name}: {reason}", self.place)

    def integer(
        self, value: Any, what: str, greatest: int = GREATEST_PACKET_NUMBER, least: int = 0
    ) -> int:
        """A whole number that a log may write as a string or with a fraction of 0."""
        number = value if type(value) is int else self._whole(value, what)
        if not least <= number <= greatest:
            raise self.error(f"{what} is {number}")
        return number

    def _whole(self, value: Any, what: str) -> int:
        if value is None:
            raise self.error(f"no {what}")
        try:
            return whole(value)
        except NoNumberError as error:
            raise self.error(f"{what} is {error}") from error

    def duration(self, value: Any, what: str) -> int:
        """A duration in nanoseconds, rounded down."""
        return self.scaled(value, what, self.places)

    def scaled(self, value: Any, what: str, places: int) -> int:
        """A number that need not be whole, with so many of the digits behind its point."""
        try:
            return duration(value, places)
        except NoNumberError as error:
            raise self.error(f"{what} is {error}") from error

    # Packets.

    def check_packet(self) -> None:
        """Reads what a packet of a space says, whether it is used or not."""
        _ = self.number, self.has_size, self.acks

    @property
    def number(self) -> int:
        """The packet number."""
        number = self.header.get("packet_number")
        number = self.data.get("packet_number") if number is None else number
        return self.integer(number, "packet_number")

    @property
    def _said_size(self) -> Any:
        raw = self.data.get("raw")
        length = raw.get("length") if isinstance(raw, dict) else None
        if says(length):
            return length
        found = first_said(self.header.get("packet_size"), self.data.get("packet_size"))
        return length if found is None else found

    @property
    def has_size(self) -> bool:
        """Whether the size of the packet is known."""
        if self._size is None:
            said = self._said_size
            if said is None:
                return False
            self._size = self.integer(said, "raw.length", GREATEST_SIZE, 1)
        return True

    @property
    def size(self) -> int:
        """The size of the packet."""
        if self._size is None and not self.has_size:
            raise self.error("no raw.length")
        assert self._size is not None
        return self._size

    @size.setter
    def size(self, size: int) -> None:
        self._size = size

    @property
    def frames(self) -> list[dict[str, Any]]:
        """The frames of the packet."""
        if self._frames is None:
            frames = self.data.get("frames")
            frames = frames if says(frames) else []
            if not isinstance(frames, list) or not all(isinstance(it, dict) for it in frames):
                raise self.error("frames is no list of objects")
            self._frames = frames
        return self._frames

    @property
    def frame_types(self) -> list[str]:
        """The kinds of its frames, in their order."""
        if self._kinds is None:
            self._kinds = [kind_of_frame(it) for it in self.frames]
        return self._kinds

    @property
    def acks(self) -> list[Ack]:
        """Its ACK frames, if it is of a space."""
        if self._acks is None:
            kinds = zip(self.frames, self.frame_types, strict=True) if self.space else ()
            self._acks = [self._ack(it) for it, kind in kinds if kind in ACK_FRAMES]
        return self._acks

    def _ack(self, frame: dict[str, Any]) -> Ack:
        delay, marks = frame.get("ack_delay"), frame.get("ce")
        return Ack(
            self._ranges(frame),
            self.duration(delay, "ack_delay") if says(delay) else 0,
            self.integer(marks, "ce") if says(marks) else 0,
        )

    def _ranges(self, frame: dict[str, Any]) -> Ranges:
        found = []
        pairs = frame.get("acked_ranges")
        pairs = pairs if says(pairs) else []
        if not isinstance(pairs, list):
            raise self.error("acked_ranges is no list")
        for pair in pairs:
            ends = pair if isinstance(pair, list) and pair else [pair]
            if len(ends) > 2:
                raise self.error(f"a range of {len(ends)} numbers")
            low, high = self.integer(ends[0], "a range"), self.integer(ends[-1], "a range")
            if low > high:
                raise self.error(f"the range {low} to {high}")
            found.append([low, high])
        return found

    @property
    def is_eliciting(self) -> bool:
        """Whether it is ack-eliciting."""
        return not QUIET_FRAMES.issuperset(self.frame_types)

    @property
    def is_in_flight(self) -> bool:
        """Whether it counts to the bytes in flight."""
        return self.is_eliciting or self.is_padded or "padding" in self.frame_types

    @property
    def is_closing(self) -> bool:
        """Whether it closes the connection."""
        return "connection_close" in self.frame_types

    # Other events.

    def metrics(self) -> dict[str, int]:
        """The values of a metrics_updated by the names of the format, RTTs in nanoseconds."""
        if self._metrics is None:
            self._metrics = self._read_metrics()
        return self._metrics

    def _read_metrics(self) -> dict[str, int]:
        data = self.data
        found = {
            name: self.duration(data[key], key)
            for key, name in RTTS.items()
            if data.get(key) is not None
        }
        window = next((it for it in WINDOWS if data.get(it) is not None), WINDOWS[0])
        bytes_of = {"window": window, "ssthresh": "ssthresh", "bytes_in_flight": "bytes_in_flight"}
        found |= {
            name: self.integer(data[key], key, GREATEST_BYTES)
            for name, key in bytes_of.items()
            if data.get(key) is not None
        }
        # The greatest integer stands for no threshold.
        if found.get("ssthresh", 0) > GREATEST_PACKET_NUMBER:
            del found["ssthresh"]
        return found

    def join(self, before: "Event") -> None:
        """Takes what a report before it says, and it does not."""
        self._metrics = before.metrics() | self.metrics()
        self._count = before.pto_count()

    @property
    def has_sample(self) -> bool:
        """Whether a metrics_updated has a sample of the round-trip time."""
        values = self.metrics()
        return bool(values.get("latest_rtt") or values.get("smoothed_rtt"))

    def pto_count(self) -> int | None:
        """The count of probe timeouts, if it is a metrics_updated that has one."""
        count = self.data.get("pto_count") if self.name == "metrics_updated" else None
        return self._count if count is None else self.integer(count, "pto_count")

    @property
    def has_only_pto_count(self) -> bool:
        """Whether a metrics_updated says nothing but that."""
        return set(self.data) == {"pto_count"}

    @property
    def has_expired(self) -> bool:
        """Whether it says that the loss detection timer fired."""
        return self.name == "loss_timer_updated" and self.data.get("event_type") == "expired"

    @property
    def is_probe(self) -> bool:
        """Whether a packet says or shows that a probe timeout sent it."""
        return self.keeps_room or self.data.get("trigger") == "pto_probe"

    @property
    def has_ping_of_handshake(self) -> bool:
        """Whether it is an Initial or Handshake packet with a PING: one of 1-RTT may be that of a
        program, or keep the connection alive."""
        return self.space in ("initial", "handshake") and "ping" in self.frame_types

    @property
    def repeats(self) -> bool:
        """Whether a packet_lost names what a probe sends again, which is no loss."""
        is_expired = self.data.get("trigger") == "pto_expired"
        return is_expired and self.name == "packet_lost" and self.space is not None

    def key_space(self) -> str | None:
        """The space of whose keys it speaks."""
        kind = self.data.get("key_type")
        if not isinstance(kind, str):
            return None
        return next((space for space in ("initial", "handshake") if space in kind), None)

    @property
    def retires_keys(self) -> bool:
        """Whether it says that keys are gone."""
        return self.name in ("key_retired", "key_discarded")

    @property
    def tells_of_keys(self) -> bool:
        """Whether it says that keys came or are gone."""
        return self.retires_keys or self.name == "key_updated"


def first_said(*values: Any) -> Any:
    """The first of some values that says anything, if one does."""
    return next((it for it in values if says(it)), None)


@lru_cache(maxsize=256)
def small(name: str) -> str:
    """A name in small letters. One with letters other than those of ASCII is none that is known."""
    return name.lower() if name.isascii() else name


def kind_of_frame(frame: dict[str, Any]) -> str:
    """The kind of a frame in one manner of writing; empty if it is no text."""
    kind = first_said(frame.get("frame_type"), frame.get("type"))
    return small(kind) if isinstance(kind, str) else ""


def type_of_packet(kind: Any) -> str:
    """The type of a packet in one manner of writing."""
    return TYPES.get(small(kind), OTHER_TYPE) if isinstance(kind, str) else OTHER_TYPE


class Times:
    """The times of a log: what they count from and in which unit they are."""

    def __init__(self, header: dict[str, Any]) -> None:
        fields = header.get("event_fields")
        fields = fields if says(fields) else []
        if not isinstance(fields, list):
            raise Unusable("event_fields is no list")
        self.fields = [it if isinstance(it, str) else "" for it in fields]
        said = object_at(header, "common_fields").get("time_format")
        form = said if says(said) else self._form_of_field()
        if not isinstance(form, str) or form not in IS_DELTA:
            raise Unusable(f"time_format is {form}")
        self._is_delta = IS_DELTA[form]
        self._is_absolute = form in ("absolute", "time", "relative_to_epoch")
        unit = object_at(header, "configuration").get("time_units", "ms")
        if not isinstance(unit, str) or unit not in PLACES:
            raise Unusable(f"time_units is {unit}")
        self.places = PLACES[unit]
        # The time of the event before.
        self._last = 0
        self._start: int | None = None

    def _form_of_field(self) -> str:
        """The first drafts have it in the name of a field."""
        return next((it for it in self.fields if it in IS_DELTA), "absolute")

    @property
    def last(self) -> int:
        """The time of the event before; 0 if there is none, or if it is before the start."""
        return max(self._last, 0)

    def next(self, value: Any) -> int:
        """The time of the next event; 0 if it is before the start."""
        found = instant(value, self.places)
        if self._start is None:
            # The first may count from an epoch also where the others count from the one before.
            self._start = found if self._is_absolute or found >= LEAST_OF_EPOCH else 0
            found -= self._start
        elif self._is_delta:
            found += self._last
        else:
            found -= self._start
        self._last = min(max(found, -LIMIT_OF_TIMES), LIMIT_OF_TIMES - 1)
        return self.last


def member_of(record: Record, fields: list[str]) -> dict[str, Any] | None:
    """A record as an object; the first drafts write lists whose fields the header names."""
    if isinstance(record.value, list):
        return dict(zip(fields, record.value, strict=False))
    return record.value if isinstance(record.value, dict) else None


@lru_cache(maxsize=256)
def known_name(name: str) -> str | None:
    """The name of an event without its category, as most drafts have it; nothing for another."""
    name = OTHER_NAMES.get(name) or name.rpartition(":")[2]
    name = OTHER_NAMES.get(name, name)
    return name if name in NAMES else None


def time_of(member: dict[str, Any], record: Record, times: Times) -> int:
    """The time of an event, by whatever key."""
    value = member.get("time")
    if value is None:
        value = next((member[key] for key in IS_DELTA if key in member), 0)
    try:
        return times.next(value)
    except NoNumberError as error:
        raise Unusable(f"time is {error}", record.place) from error


def event_of(record: Record, times: Times) -> Event | None:
    """The event of a record, or nothing where the record is none that matters."""
    if record.value is BROKEN_METRICS:
        return Event(record.place, times.last, UNKNOWN_METRICS, {})
    member = member_of(record, times.fields)
    if member is None:
        return None
    name = member.get("name")
    if not says(name):
        event = member.get("event")
        name = event if says(event) else member.get("event_type")
    if not isinstance(name, str):
        return None
    time = time_of(member, record, times)
    known = known_name(name)
    if known is None:
        return None
    data = member.get("data")
    event = Event(record.place, time, known, data if isinstance(data, dict) else {})
    event.places = times.places
    if "group_id" in member or "path_id" in event.data:
        # What tells apart connections in one trace, and the paths of multipath QUIC.
        group, path = member.get("group_id"), event.data.get("path_id")
        event.connection = f"{written(group)} {written(path)}"
    return event


def events_of(records: Iterable[Record], header: dict[str, Any]) -> Iterator[Event]:
    """The events of which a trace tells, with their times counted from the start of the log."""
    times = Times(header)
    for index, record in enumerate(records):
        event = event_of(record, times)
        if event is not None:
            event.index = index
            yield event


def losses_of(event: Event) -> Iterator[Event]:
    """A loss for each packet that a packets_lost names."""
    packets = event.data.get("packets")
    if not isinstance(packets, list) or not all(isinstance(it, dict) for it in packets):
        raise event.error("it names no packets, so no trace can be made of this log")
    for header in packets:
        lost = Event(event.place, event.time, "packet_lost", {"header": header})
        lost.index = event.index
        yield lost


def each_loss(events: Iterable[Event]) -> Iterator[Event]:
    """The events, with one for each packet that is lost."""
    for event in events:
        if event.name == "packets_lost":
            yield from losses_of(event)
        else:
            yield event
