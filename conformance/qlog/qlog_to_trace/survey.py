"""The first reading of a log: what has to be known before the first line is written."""

from collections.abc import Iterable
from dataclasses import dataclass

from .dialects import Dialect
from .errors import Unusable
from .events import NANOSECONDS, UNKNOWN_METRICS, Event
from .looking import DEFAULT_DELAY_EXPONENT, Looking
from .notes import Guess
from .sizes import Sizes
from .validation import LEAST_DATAGRAM, Validation

# What fits in an Ethernet frame. A part of the window that is larger, and larger than each packet,
# is of a window of more datagrams.
USUAL_DATAGRAM = 1500
GREATEST_DELAY_EXPONENT = 20
# RFC 9000, 18.2: values of 2^14 ms and more are invalid.
GREATEST_MAX_ACK_DELAY = ((1 << 14) - 1) * NANOSECONDS["ms"]
# How many digits of the time threshold behind its point count: it is in millionths.
DIGITS_OF_THRESHOLD = 6
# Parameters of recovery, by their keys in the header.
RECOVERY_PARAMETERS = {
    "max_datagram_size": "max_datagram_size",
    "initial_congestion_window": "initial_window",
    "reordering_threshold": "packet_threshold",
}
# Why a log needs the frames of packets.
WHY_FRAMES = {
    "packet_sent": "which packets are ack-eliciting is not in this log, so it gives no trace",
    "packet_received": "no acknowledgment is in this log, so it gives no trace",
}


@dataclass(frozen=True)
class Retry:
    """The Retry that a client took in, behind which its trace begins (RFC 9002, 6.3)."""

    index: int
    # What is said of it.
    told: str
    # The last numbers that were sent before it, by space.
    numbers: dict[str, int]


def estimate_of(event: Event) -> tuple[int | None, int | None]:
    """The smoothed RTT and its variation that a report has."""
    values = event.metrics()
    return values.get("smoothed_rtt"), values.get("rttvar")


class Survey:
    """What the header and the second reading need. All packets are checked here."""

    def __init__(self, events: Iterable[Event], dialect: Dialect, role: str) -> None:
        self._role = role
        self.sizes = Sizes(dialect.full_packet)
        self.looking = Looking()
        self.validation = Validation(role)
        self.retry: Retry | None = None
        self._last_numbers: dict[str, int] = {}
        # Where Initial packets go, as long as none has come, and the round-trip time so far.
        self._destination: str | None = None
        self._smoothed = 0
        # Whether each time is a whole millisecond.
        self.has_milliseconds = True
        # Nanoseconds.
        self.max_ack_delay: int | None = None
        self.first_smoothed: int | None = None
        # The smoothed RTT and its variation before a sample, whether they were others since, and
        # whether they came back.
        self._may_reset_rtt = dialect.may_reset_rtt
        self._first_estimate: tuple[int | None, int | None] | None = None
        self._has_estimate = self.has_reset_rtt = False
        self.first_window: int | None = None
        self.largest_size = 0
        # What recovery:parameters_set says, by the keys of the header.
        self.recovery: dict[str, int] = {}
        # In millionths.
        self.time_threshold: int | None = None
        # By how many bits a delay on the wire is shifted.
        self.delay_exponent = DEFAULT_DELAY_EXPONENT
        # Whether the count of probe timeouts follows a timer at once, and whether the log names as
        # lost what probes repeat.
        self.counts_at_timers = self._is_after_timer = self.has_repeats = False
        # The spaces of whose discard the log tells.
        self.retired: set[str] = set()
        self.has_timers = False
        # Whether it counts probe timeouts, and the highest count.
        self.has_pto_counts = False
        self.highest_pto_count = 0
        # Whether a congestion window is logged, and whether a time is no whole microsecond.
        self.has_window = self.has_nanoseconds = False
        # Whether packets were marked by CE, and whether the peer was asked for another delay.
        self.has_marks = self.has_ack_frequency = False
        # Places of events.
        self.first_handshake_received: int | None = None
        self.handshake_done: int | None = None
        self.last_crypto_before_done: int | None = None
        self._has_received = self._has_ack = False
        # Events of packets with and without frames.
        self._with_frames: set[str] = set()
        self._without_frames: set[str] = set()
        for event in events:
            self._see(event)
        self._check(dialect)

    @property
    def has_cut_times(self) -> bool:
        """Whether its times are those of the sender without the parts of a millisecond."""
        return self.has_milliseconds and self.looking.samples.cut > 0

    def _check(self, dialect: Dialect) -> None:
        """Whether a trace can be made of the log."""
        if self.largest_size == 0:
            raise Unusable("no packet_sent of a QUIC packet with a size")
        for name, why in WHY_FRAMES.items():
            if name in self._without_frames - self._with_frames:
                advice = f". {dialect.advice}" if dialect.advice else ""
                raise Unusable(f"each {name} is without its frames: {why}{advice}")

    def _see(self, event: Event) -> None:
        if event.name == UNKNOWN_METRICS:
            return
        if event.time % NANOSECONDS["ms"]:
            self.has_milliseconds = False
            if event.time % NANOSECONDS["us"]:
                self.has_nanoseconds = True
        if event.name == "packet_sent":
            self._see_sent(event)
        elif event.name == "packet_received":
            self._see_received(event)
        elif event.name == "metrics_updated":
            self._see_metrics(event)
        elif event.name == "packet_lost":
            self._see_lost(event)
        elif event.name == "parameters_set":
            self._see_parameters(event)
        elif event.name == "recovery_parameters_set":
            self._see_recovery(event)
        elif event.retires_keys:
            self.retired.add(event.key_space() or "")
        elif event.has_expired:
            self.has_timers = self._is_after_timer = True
        self.looking.see(event)
        self.validation.see(event)

    def _see_lost(self, event: Event) -> None:
        if event.space:
            assert event.number >= 0
            self.has_repeats |= event.repeats
        elif event.packet_type is None:
            raise event.error("no packet_type, so it does not say of which space the packet is")

    def _see_parameters(self, event: Event) -> None:
        delay = event.data.get("max_ack_delay")
        if event.data.get("owner", event.data.get("initiator")) != "remote":
            return
        if delay is not None:
            found = event.duration(delay, "max_ack_delay")
            if found > GREATEST_MAX_ACK_DELAY:
                raise event.error(f"max_ack_delay is {delay}")
            self.max_ack_delay = found
        exponent = event.data.get("ack_delay_exponent")
        if exponent is not None:
            what = "ack_delay_exponent"
            self.delay_exponent = event.integer(exponent, what, GREATEST_DELAY_EXPONENT)

    def _see_recovery(self, event: Event) -> None:
        rtt = event.data.get("initial_rtt")
        if rtt is not None:
            self.recovery["initial_rtt"] = event.duration(rtt, "initial_rtt")
        for name, key in RECOVERY_PARAMETERS.items():
            if event.data.get(name) is not None:
                self.recovery[key] = event.integer(event.data[name], name)
        threshold = event.data.get("time_threshold")
        if threshold is not None:
            what = "time_threshold"
            self.time_threshold = event.scaled(threshold, what, DIGITS_OF_THRESHOLD)

    def _see_sent(self, event: Event) -> None:
        self._is_after_timer = False
        if event.space is None:
            return
        event.check_packet()
        self._see_destination(event)
        self._last_numbers[event.space] = event.number
        self._see_frames(event)
        if not event.has_size:
            self.sizes.see(event)
        self.largest_size = max(self.largest_size, event.size)
        self.has_ack_frequency |= "ack_frequency" in event.frame_types
        if self.handshake_done is None and "handshake_done" in event.frame_types:
            self.handshake_done = event.index

    def _see_destination(self, event: Event) -> None:
        """A client that sends Initial packets elsewhere before a packet came has taken in a Retry
        (RFC 9000, section 7.2)."""
        if event.space != "initial" or self._role != "client" or self._has_received:
            return
        said = event.header.get("dcid")
        destination = said if isinstance(said, str) else None
        if self._destination not in (None, destination) and self.retry is None:
            told = f"a Retry that is not in the log, at {event.place}"
            self.retry = Retry(event.index - 1, told, dict(self._last_numbers))
            # It may have measured what it assumes from there on (RFC 9002, 6.3).
            if self._smoothed:
                self.recovery["initial_rtt"] = self._smoothed
        self._destination = destination

    def _see_received(self, event: Event) -> None:
        self._is_after_timer = False
        if event.space is None:
            # A client takes in one Retry at most (RFC 9000, section 17.2.5.2).
            if event.packet_type == "retry" and self._role == "client" and self.retry is None:
                told = f"the Retry at {event.place}"
                self.retry = Retry(event.index, told, dict(self._last_numbers))
            return
        event.check_packet()
        self._has_received = True
        self._see_frames(event)
        for ack in event.acks:
            self._has_ack = True
            self.has_marks |= ack.marks > 0
        if event.space != "handshake":
            return
        if self.first_handshake_received is None:
            self.first_handshake_received = event.index
        if self.handshake_done is None and "crypto" in event.frame_types:
            self.last_crypto_before_done = event.index

    def _see_frames(self, event: Event) -> None:
        if "frames" not in event.data:
            self._without_frames.add(event.name)
        elif event.name not in self._with_frames:
            self._with_frames.add(event.name)

    def _see_metrics(self, event: Event) -> None:
        values, count = event.metrics(), event.pto_count()
        self.has_window |= "window" in values
        if count is not None:
            self.has_pto_counts = True
            self.highest_pto_count = max(self.highest_pto_count, count)
            self.counts_at_timers |= self._is_after_timer
        if self._has_ack:
            self._see_reset(event)
            return
        self._smoothed = values.get("smoothed_rtt", self._smoothed)
        if self.first_window is None and values.get("window"):
            self.first_window = values["window"]
        # A report with a sample may stand before the packet that gave it.
        if self.first_smoothed is None and not values.get("latest_rtt"):
            self.first_smoothed = values.get("smoothed_rtt") or None
            self._first_estimate = estimate_of(event)

    def _see_reset(self, event: Event) -> None:
        if not self._may_reset_rtt or self.has_reset_rtt:
            return
        estimate = estimate_of(event)
        if None in estimate:
            return
        is_first = estimate == self._first_estimate
        self.has_reset_rtt = self._has_estimate and is_first
        self._has_estimate |= not is_first

    def max_datagram_size(self, initial_datagrams: int) -> tuple[int, Guess]:
        """The part of the first window, where no packet was larger; else the largest packet."""
        window = self.first_window or 0
        part, rest = divmod(window, initial_datagrams)
        greatest = max(self.largest_size, USUAL_DATAGRAM)
        if rest == 0 and max(self.largest_size, LEAST_DATAGRAM) <= part <= greatest:
            return part, Guess.DATAGRAM_BY_WINDOW
        if self.largest_size < LEAST_DATAGRAM:
            return LEAST_DATAGRAM, Guess.DATAGRAM_LEAST
        return self.largest_size, Guess.DATAGRAM_BY_PACKET
