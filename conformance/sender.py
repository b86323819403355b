"""A sender of RFC 9002, after the pseudocode of its appendices A and B.

It judges and follows the events of a trace as docs/machine.md says, and shares nothing with the
proved program: it holds what the pseudocode holds, packets leave its dictionaries when they are
acknowledged or lost, and bytes in flight are added and taken off. Where the two give the same
reports, two readings of the standard agree.

An event is the dictionary that its line says. All values have to be in the ranges of
docs/format.md.
"""

import math
from collections.abc import Iterable, Iterator
from dataclasses import dataclass, field
from fractions import Fraction
from itertools import takewhile
from typing import Any, NamedTuple

from constants import (
    DEFAULT_MAX_ACK_DELAY,
    INITIAL_WINDOW_BYTES,
    K_GRANULARITY,
    K_INITIAL_RTT,
    K_INITIAL_WINDOW,
    K_LOSS_REDUCTION_FACTOR,
    K_MINIMUM_WINDOW,
    K_PACKET_THRESHOLD,
    K_PERSISTENT_CONGESTION_THRESHOLD,
    K_TIME_THRESHOLD,
    METRICS,
    METRICS_IN_BYTES,
    NANOSECONDS_IN_A_MICROSECOND,
    OF_THE_CONTROLLER,
    PROBE_DATAGRAMS,
    SPACES,
    Rule,
)

Event = dict[str, Any]
# The first and the last number of each.
Ranges = list[list[int]]

TOTALS = ("events", *METRICS, "pto_count", "owed")
KINDS_OF_A_SPACE = ("sent", "ack", "discard")


class Packet(NamedTuple):
    """A packet that was sent, and how many were sent before it over all spaces (A.1.1)."""

    place: int
    time: int
    number: int
    size: int
    is_eliciting: bool
    is_in_flight: bool


class Deadline(NamedTuple):
    """What the loss detection timer is set for."""

    time: int
    kind: str
    space: str


class Counted(NamedTuple):
    """How far a number lies below the largest acknowledged one, by the packets that were sent with
    a higher number up to that, and how many of them the packet threshold asks for (6.1.1)."""

    number: int
    up_to: int
    packets: int
    packet_threshold: int


class Entry(NamedTuple):
    """An entry into recovery: its time, and how many packets had been sent by then."""

    time: int
    sent: int


class Detection(NamedTuple):
    """What is kept of the last event, where it looked for losses: its time and space, the packets
    that it found lost, the bytes in flight that it newly acknowledged, and the entry into recovery
    as it was before. What persistent congestion is judged by is that of its own sample: when the
    first one was taken, and how far apart lost packets have to be."""

    time: int
    space: str
    lost: list[Packet]
    acked_bytes: int
    recovery: Entry | None
    first_rtt_sample: int | None
    congestion_duration: int


@dataclass
class Space:
    """What a sender holds of a packet number space (A.3).

    Packets leave `sent` once they are acknowledged, found lost or discarded; `by_number` has all
    that were ever sent."""

    sent: dict[int, Packet] = field(default_factory=dict)
    by_number: dict[int, Packet] = field(default_factory=dict)
    largest_acked: int | None = None
    last_eliciting_time: int | None = None
    is_discarded: bool = False


class Settings:
    """What a header says, with a value for each key that it leaves out. Times are in its unit."""

    def __init__(self, header: Event) -> None:
        options = header if header["version"] >= 2 else {}
        choices = header if header["version"] >= 3 else {}
        self.is_in_nanoseconds = choices.get("unit") == "ns"
        self.microsecond = NANOSECONDS_IN_A_MICROSECOND if self.is_in_nanoseconds else 1
        self.granularity = K_GRANULARITY * self.microsecond
        self.is_server = header["role"] == "server"
        self.max_datagram_size: int = header["max_datagram_size"]
        self.max_ack_delay = self.time_of(header, "max_ack_delay", DEFAULT_MAX_ACK_DELAY)
        self.initial_rtt = self.time_of(header, "initial_rtt", K_INITIAL_RTT)
        self.initial_window: int = header.get(
            "initial_window", default_window(self.max_datagram_size)
        )
        limit: int | None = options.get("timer_late_us")
        self.timer_late = None if limit is None else limit * self.microsecond
        self.refreshes_min_rtt: bool = options.get("refresh_min_rtt") or False
        self.slack_in_time = (options.get("report_slack_us") or 0) * self.microsecond
        self.slack_bytes: int = options.get("report_slack_bytes") or 0
        self.is_window_reported = choices.get("window") == "reported"
        self.may_overshoot: bool = choices.get("window_overshoot") or False
        self.samples_eliciting_only: bool = choices.get("sample_eliciting_only") or False
        self.packet_threshold: int = choices.get("packet_threshold") or K_PACKET_THRESHOLD
        self.timer_early = (choices.get("timer_early_us") or 0) * self.microsecond
        self.may_spare = choices.get("loss_by_number") == "may"
        self.counts_packets = choices.get("threshold_counts") == "packets"
        self.resets_rtt: bool = choices.get("reset_rtt") or False
        self.keeps_rtt_less_delay: bool = choices.get("latest_rtt_less_delay") or False
        eighths: int | None = choices.get("time_threshold_eighths")
        self.time_threshold = K_TIME_THRESHOLD if eighths is None else Fraction(eighths, 8)
        self.recovers_by_order: bool = choices.get("recovery_by_order") or False

    def time_of(self, header: Event, key: str, microseconds: int) -> int:
        """The time that a header has under a key, or this one where it leaves it out."""
        time: int = header.get(key, microseconds * self.microsecond)
        return time

    @property
    def minimum_window(self) -> int:
        """The least window of congestion control, in bytes (section 7.2)."""
        return K_MINIMUM_WINDOW * self.max_datagram_size

    @property
    def probe_allowance(self) -> int:
        """How many bytes a probe timeout allows (section 6.2.4)."""
        return PROBE_DATAGRAMS * self.max_datagram_size

    def slack_of(self, metric: str) -> int:
        """By how much a reported value may differ from the sender's."""
        return self.slack_bytes if metric in METRICS_IN_BYTES else self.slack_in_time


def default_window(max_datagram_size: int) -> int:
    """The initial window that section 7.2 recommends."""
    least = K_MINIMUM_WINDOW * max_datagram_size
    return min(K_INITIAL_WINDOW * max_datagram_size, max(INITIAL_WINDOW_BYTES, least))


# Ranges of packet numbers.


def named(ranges: Ranges, numbers: Iterable[int]) -> set[int]:
    """Those of the numbers that ranges name."""
    return {number for number in numbers if any(low <= number <= high for low, high in ranges)}


def count_of(ranges: Ranges) -> int:
    """How many numbers ranges name, which can be too many to be listed."""
    count, above = 0, 0
    for low, high in sorted(ranges):
        count += max(high + 1 - max(low, above), 0)
        above = max(above, high + 1)
    return count


def are_all(ranges: Ranges, numbers: Iterable[int]) -> bool:
    """Whether each number of the ranges is one of these."""
    return count_of(ranges) == len(named(ranges, numbers))


class Sender:
    """The state of a sender after the events that it followed."""

    def __init__(self, header: Event) -> None:
        self.settings = Settings(header)
        self.spaces = {name: Space() for name in SPACES}
        self.place = 0
        self.events = 0
        self.last_time = 0
        self.latest_rtt = 0
        self.min_rtt = 0
        self.smoothed_rtt = self.settings.initial_rtt
        self.rttvar = self.smoothed_rtt // 2
        self.first_rtt_sample: int | None = None
        # NewReno's, which goes on where the window is the one that is reported.
        self.congestion_window = self.settings.initial_window
        self.slow_start_threshold: int | None = None
        self.reported_window = self.settings.initial_window
        self.recovery: Entry | None = None
        self.bytes_in_flight = 0
        self.pto_count = 0
        # The time of the last event that sets the timer.
        self.last_set: int | None = None
        self.probe_spent: int | None = None
        self.probe_due: str | None = None
        self.recovery_spent: int | None = None
        self.owed_numbers: set[int] = set()
        self.detection: Detection | None = None
        self.acknowledged_places: set[int] = set()
        self.is_confirmed = False
        self.is_handshake_acknowledged = False
        self.has_keys = False
        # The bytes in flight newly acknowledged since persistent congestion was established, that
        # event's own included, until a report has another window.
        self.acked_since_collapse: int | None = None
        # Since when the deadline is what it is; kept only where timers have a limit.
        self.due_since = 0

    # What is computed from the state.

    @property
    def window(self) -> int:
        """The congestion window by which packets are judged."""
        is_reported = self.settings.is_window_reported
        return self.reported_window if is_reported else self.congestion_window

    @property
    def ssthresh(self) -> int | None:
        """The slow start threshold, where the window is NewReno's."""
        return None if self.settings.is_window_reported else self.slow_start_threshold

    @property
    def owed(self) -> int:
        """How many packets were found lost and are not declared lost."""
        return len(self.owed_numbers)

    @property
    def free(self) -> list[Packet]:
        """The packets that the next Lost line may name or not: those that lie behind by number and
        are young, where the last event looked for losses."""
        if self.detection is None or not self.settings.may_spare:
            return []
        space = self.spaces[self.detection.space]
        return [it for it in self.below_largest(space) if self.is_far_behind(space, it)]

    @property
    def is_validated(self) -> bool:
        """Whether the peer has validated the sender's address (A.8)."""
        return self.settings.is_server or self.is_handshake_acknowledged or self.is_confirmed

    @property
    def pto_base(self) -> int:
        """The probe timeout before the peer's delay, where the PTO count is 0 (section 6.2.1)."""
        return self.smoothed_rtt + max(4 * self.rttvar, self.settings.granularity)

    @property
    def loss_delay(self) -> int:
        """At which age a packet is past the time threshold (section 6.1.2), rounded up."""
        longest_rtt = max(self.latest_rtt, self.smoothed_rtt)
        parts = math.ceil(self.settings.time_threshold * longest_rtt)
        return max(parts, self.settings.granularity)

    def total(self, name: str) -> int | None:
        """A total by its name in a report; None where there is none yet."""
        value: int | None = getattr(self, name)
        return value

    def totals(self) -> list[str]:
        """The lines of a report below its verdict."""
        values = ((name, self.total(name)) for name in TOTALS)
        return [f"{name} {'none' if value is None else value}" for name, value in values]

    # The loss detection timer (A.8).

    def loss_deadline(self) -> Deadline | None:
        """The earliest time at which a packet is past the time threshold."""
        found = []
        for name in self.spaces:
            time = self.loss_time(name)
            if time is not None:
                found.append(Deadline(time, "loss", name))
        return earliest(found)

    def loss_time(self, name: str) -> int | None:
        """When the first packet of a space will be past the time threshold."""
        times = [it.time for it in self.below_largest(self.spaces[name])]
        return min(times) + self.loss_delay if times else None

    def below_largest(self, space: Space) -> list[Packet]:
        """The packets in flight of a space below its largest acknowledged number."""
        largest = -1 if space.largest_acked is None else space.largest_acked
        return [it for it in space.sent.values() if it.is_in_flight and it.number < largest]

    def pto_deadline(self) -> Deadline | None:
        """The earliest probe timeout of the spaces that await an acknowledgment."""
        found = []
        for name, space in self.spaces.items():
            awaits = any(it.is_eliciting for it in space.sent.values())
            is_confirmed = name != "app" or self.is_confirmed
            if awaits and is_confirmed and space.last_eliciting_time is not None:
                peer_delay = self.settings.max_ack_delay if name == "app" else 0
                after = (self.pto_base + peer_delay) * 2**self.pto_count
                found.append(Deadline(space.last_eliciting_time + after, "pto", name))
        return earliest(found)

    def anti_deadlock(self) -> Deadline | None:
        """The timer of a client that is not validated (section 6.2.2.1)."""
        if self.is_validated or self.last_set is None:
            return None
        time = self.last_set + self.pto_base * 2**self.pto_count
        return Deadline(time, "pto", "handshake" if self.has_keys else "initial")

    def packet_deadline(self) -> Deadline | None:
        """What the timer is set for by the packets that were sent."""
        return self.loss_deadline() or self.pto_deadline()

    def deadline(self) -> Deadline | None:
        """What the timer is set for."""
        return self.packet_deadline() or self.anti_deadlock()

    # The rules.

    def first_broken(self, event: Event) -> str | None:
        """The first rule that the event breaks, as a report names it."""
        return next(self.broken(event), None)

    def broken(self, event: Event) -> Iterator[str]:
        """All rules that the event breaks, in their order, as a report names them: V16 once for
        each value that differs."""
        yield from self.broken_by_any(event)
        if self.is_timer_late(event["time"]):
            yield Rule.TIMER_LATE
        if self.is_collapse_missing(event):
            yield Rule.COLLAPSE_MISSING

    def broken_by_any(self, event: Event) -> Iterator[str]:
        """The rules that the event breaks, but for those about late timers and collapses."""
        kind = event["event"]
        if event["time"] < self.last_time:
            yield Rule.TIME_BACK
        if self.owed and kind != "lost":
            yield Rule.LOSS_OWED
        if kind in KINDS_OF_A_SPACE and self.spaces[event["space"]].is_discarded:
            yield Rule.SPACE_GONE
        yield from self.broken_by_kind(kind, event)

    def broken_by_kind(self, kind: str, event: Event) -> Iterator[str]:
        """The rules about one kind of event that the event breaks."""
        match kind:
            case "sent":
                yield from self.broken_by_sent(event)
            case "ack":
                yield from self.broken_by_ack(event)
            case "lost":
                yield from self.broken_by_lost(event)
            case "timer":
                yield from self.broken_by_timer(event)
            case "discard":
                yield from self.broken_by_discard(event)
            case "metrics":
                yield from self.broken_by_metrics(event)

    def broken_by_lost(self, event: Event) -> Iterator[str]:
        """The rules about losses that a Lost line breaks."""
        may_name = self.owed_numbers | {it.number for it in self.free}
        if self.detection is None or not may_name or event["space"] != self.detection.space:
            yield Rule.LOSS_NOT_OWED
        ranges = event["ranges"]
        names_each = named(ranges, self.owed_numbers) == self.owed_numbers
        if not names_each or not are_all(ranges, may_name):
            yield Rule.LOSS_SET

    def broken_by_sent(self, event: Event) -> Iterator[str]:
        """The rules about packets that are sent that this one breaks."""
        if any(number >= event["number"] for number in self.spaces[event["space"]].by_number):
            yield Rule.NUMBER_NOT_HIGHER
        leave, size = event.get("leave", "window"), event["size"]
        if not event["in_flight"]:
            return
        if leave == "window" and self.is_past_window(size):
            yield Rule.PAST_WINDOW
        if leave == "probe" and not self.may_probe(size):
            yield Rule.PAST_PROBE
        if leave == "recovery" and self.recovery_spent != 0:
            yield Rule.PAST_RECOVERY

    def is_past_window(self, size: int) -> bool:
        """Whether there is no room for a packet of this size (section 7)."""
        if self.settings.may_overshoot:
            return self.bytes_in_flight >= self.window
        return self.bytes_in_flight + size > self.window

    def may_probe(self, size: int) -> bool:
        """Whether a probe of this size is within what the last probe timeout allows."""
        spent = self.probe_spent
        return spent is not None and spent + size <= self.settings.probe_allowance

    def broken_by_ack(self, event: Event) -> Iterator[str]:
        """Whether an acknowledgment names a number that was never sent."""
        if not are_all(event["ranges"], self.spaces[event["space"]].by_number):
            yield Rule.ACK_UNSENT

    def broken_by_timer(self, event: Event) -> Iterator[str]:
        """The rules about timers that this one breaks."""
        due = self.deadline()
        if due is None:
            yield Rule.TIMER_NOT_SET
        elif (event["kind"], event["space"]) != (due.kind, due.space):
            yield Rule.TIMER_OTHER
        if due is not None and event["time"] + self.settings.timer_early < due.time:
            yield Rule.TIMER_EARLY
        if event["kind"] == "pto" and self.probe_due:
            yield Rule.PROBE_OWED

    def broken_by_discard(self, event: Event) -> Iterator[str]:
        """Whether the Handshake space is discarded too early."""
        if event["space"] == "handshake" and not self.is_confirmed:
            yield Rule.NOT_CONFIRMED

    def broken_by_metrics(self, event: Event) -> Iterator[str]:
        """The reported values that are not the sender's."""
        for name in METRICS:
            value = event.get(name)
            if value is not None and self.is_compared(name) and self.differs(name, value):
                yield f"{Rule.METRIC} {name}"

    def is_compared(self, name: str) -> bool:
        """Whether a reported value is compared: not a window that the sender reports, nor its
        ssthresh."""
        return not (self.settings.is_window_reported and name in OF_THE_CONTROLLER)

    def differs(self, name: str, reported: int) -> bool:
        """Whether a reported value differs from the sender's by more than the header allows."""
        held = self.total(name)
        return held is None or abs(reported - held) > self.settings.slack_of(name)

    def is_timer_late(self, time: int) -> bool:
        """Whether a timer should have fired before this time, by the limit of the header."""
        if self.settings.timer_late is None:
            return False
        due = self.packet_deadline()
        return due is not None and time > max(due.time, self.due_since) + self.settings.timer_late

    def is_collapse_missing(self, event: Event) -> bool:
        """Whether the first other window behind persistent congestion is more than two datagrams
        and what has been acknowledged since (section 7.6.2)."""
        if not self.is_other_window(event) or self.acked_since_collapse is None:
            return False
        most = self.settings.minimum_window + self.acked_since_collapse
        reported: int = event["window"]
        return reported > most + self.settings.slack_bytes

    def is_other_window(self, event: Event) -> bool:
        """Whether the event reports another window than the one that is in force."""
        reported = event.get("window") if event["event"] == "metrics" else None
        is_reported = self.settings.is_window_reported and reported is not None
        return is_reported and reported != self.window

    # What each event changes.

    def follow(self, event: Event) -> None:
        """Takes an event that breaks no rule."""
        has_limit = self.settings.timer_late is not None
        before, detection = self.deadline() if has_limit else None, self.detection
        self.change_by(event["event"], event)
        if self.detection is detection:
            # It counts for the event behind it alone.
            self.detection = None
        if has_limit and self.deadline() != before:
            self.due_since = event["time"]
        self.events += 1
        self.last_time = event["time"]

    def change_by(self, kind: str, event: Event) -> None:
        """What an event of this kind changes. ValueError where there is no such kind."""
        match kind:
            case "sent":
                self.on_sent(event)
            case "ack":
                self.on_ack(event)
            case "lost":
                self.on_declared_lost(event)
            case "timer":
                self.on_timer(event)
            case "discard":
                self.on_discard(event)
            case "confirmed":
                # The handshake is confirmed (RFC 9001, section 4.1.2).
                self.is_confirmed = True
            case "keys":
                self.has_keys = True
            case "metrics":
                self.on_report(event)
            case _:
                raise ValueError(f"there is no event {kind}")

    def on_sent(self, event: Event) -> None:
        """OnPacketSent (A.5, B.4)."""
        space = self.spaces[event["space"]]
        packet = Packet(
            self.place,
            event["time"],
            event["number"],
            event["size"],
            event["eliciting"],
            event["in_flight"],
        )
        self.place += 1
        space.sent[packet.number] = space.by_number[packet.number] = packet
        self.has_keys |= event["space"] == "handshake"
        if packet.is_eliciting:
            space.last_eliciting_time = packet.time
            if self.probe_due == event["space"]:
                self.probe_due = None
        if packet.is_in_flight:
            self.count_in_flight(packet, event.get("leave", "window"))

    def count_in_flight(self, packet: Packet, leave: str) -> None:
        """Counts the bytes of a packet in flight, and what it takes of an allowance."""
        self.bytes_in_flight += packet.size
        self.last_set = packet.time
        if leave == "probe" and self.probe_spent is not None:
            self.probe_spent += packet.size
        if leave == "recovery" and self.recovery_spent is not None:
            self.recovery_spent += 1

    def on_ack(self, event: Event) -> None:
        """OnAckReceived (A.7), with the losses before the growth."""
        name, now = event["space"], event["time"]
        space = self.spaces[name]
        acknowledged = named(event["ranges"], space.by_number)
        self.is_handshake_acknowledged |= name == "handshake"
        self.acknowledged_places |= {space.by_number[number].place for number in acknowledged}
        largest = -1 if space.largest_acked is None else space.largest_acked
        space.largest_acked = max(acknowledged | {largest})
        numbers = sorted(acknowledged & space.sent.keys())
        newly_acked = [space.sent.pop(number) for number in numbers]
        if not newly_acked:
            return
        acked_bytes = sum(it.size for it in newly_acked if it.is_in_flight)
        self.bytes_in_flight -= acked_bytes
        last = newly_acked[-1]
        asked = [last] if self.settings.samples_eliciting_only else newly_acked
        if last.number == max(acknowledged) and any(it.is_eliciting for it in asked):
            self.update_rtt(now, now - last.time, event.get("delay", 0))
        if self.acked_since_collapse is not None:
            self.acked_since_collapse += acked_bytes
        self.detect_losses(name, now, now, acked_bytes)
        is_app_limited = event.get("limited", False)
        if not is_app_limited:
            for packet in newly_acked:
                self.on_packet_acked(packet)
        if self.is_validated:
            self.pto_count = 0
        self.last_set, self.probe_due = now, None

    def update_rtt(self, now: int, sample: int, ack_delay: int) -> None:
        """UpdateRtt (A.7)."""
        self.latest_rtt = sample
        if self.first_rtt_sample is None:
            self.first_rtt_sample = now
            self.min_rtt = self.smoothed_rtt = sample
            self.rttvar = sample // 2
            return
        self.min_rtt = min(self.min_rtt, sample)
        if self.is_confirmed:
            ack_delay = min(ack_delay, self.settings.max_ack_delay)
        adjusted = sample - ack_delay if sample >= self.min_rtt + ack_delay else sample
        if self.settings.keeps_rtt_less_delay:
            self.latest_rtt = adjusted
        self.rttvar = (3 * self.rttvar + abs(self.smoothed_rtt - adjusted)) // 4
        self.smoothed_rtt = (7 * self.smoothed_rtt + adjusted) // 8

    def detect_losses(self, name: str, as_of: int, now: int, acked_bytes: int = 0) -> None:
        """DetectAndRemoveLostPackets (A.10), as of a time."""
        space = self.spaces[name]
        lost = self.past_threshold(space, as_of)
        self.owed_numbers = {it.number for it in lost}
        detection = Detection(
            time=now,
            space=name,
            lost=lost,
            acked_bytes=acked_bytes,
            recovery=self.recovery,
            first_rtt_sample=self.first_rtt_sample,
            congestion_duration=self.congestion_duration,
        )
        self.detection = detection
        self.remove_lost(space, lost)
        if lost:
            self.on_packets_lost(lost, detection)

    def past_threshold(self, space: Space, as_of: int) -> list[Packet]:
        """The packets of a space that are past a threshold, and so are lost (section 6.1): past
        that of time alone where those past the other may be spared."""
        delay, may_spare = self.loss_delay, self.settings.may_spare
        return [
            it
            for it in self.below_largest(space)
            if as_of - it.time >= delay or (not may_spare and self.is_far_behind(space, it))
        ]

    def is_far_behind(self, space: Space, packet: Packet) -> bool:
        """Whether a packet is past the packet threshold (section 6.1.1)."""
        largest = -1 if space.largest_acked is None else space.largest_acked
        return self.distance(space, packet.number, largest) >= self.settings.packet_threshold

    def distance(self, space: Space, number: int, largest: int) -> int:
        """How far a number lies below another: in numbers (A.10), or in the packets of the space
        that were sent with a higher number up to the other, whether in flight or not."""
        if not self.settings.counts_packets:
            return largest - number
        # Numbers are sent in rising order (V6).
        later = takewhile(lambda it: it > number, reversed(space.by_number))
        return sum(1 for it in later if it <= largest)

    def counted(self, name: str, number: int) -> Counted | None:
        """How far a number of a space lies below the largest acknowledged one by the packets; None
        where the packet threshold counts numbers, and where nothing was acknowledged."""
        space = self.spaces[name]
        largest = space.largest_acked
        if largest is None or not self.settings.counts_packets:
            return None
        packets = self.distance(space, number, largest)
        return Counted(number, largest, packets, self.settings.packet_threshold)

    def remove_lost(self, space: Space, lost: list[Packet]) -> None:
        """Takes lost packets out of flight."""
        for packet in lost:
            del space.sent[packet.number]
            self.bytes_in_flight -= packet.size

    def on_packets_lost(self, lost: list[Packet], detection: Detection) -> None:
        """OnPacketsLost (B.8), for the packets of a detection."""
        if not all(self.is_in_recovery(it) for it in lost):
            self.on_congestion_event(detection.time)
        if self.is_persistent(lost, detection):
            self.congestion_window = self.settings.minimum_window
            self.recovery = None
            self.acked_since_collapse = detection.acked_bytes
            self.on_disruption()

    def on_disruption(self) -> None:
        """What the header has a sender do with its estimate at persistent congestion, once the
        sample of the event has counted (section 5.2)."""
        if self.settings.resets_rtt:
            self.min_rtt = 0
            self.smoothed_rtt = self.settings.initial_rtt
            self.rttvar = self.smoothed_rtt // 2
            self.first_rtt_sample = None
        elif self.settings.refreshes_min_rtt:
            self.min_rtt = self.latest_rtt

    def on_congestion_event(self, now: int) -> None:
        """OnCongestionEvent (B.6), of packets not all of which were sent by the last entry."""
        self.recovery, self.recovery_spent = Entry(now, self.place), 0
        self.slow_start_threshold = math.floor(K_LOSS_REDUCTION_FACTOR * self.congestion_window)
        self.congestion_window = max(self.slow_start_threshold, self.settings.minimum_window)

    def is_in_recovery(self, packet: Packet) -> bool:
        """InCongestionRecovery (B.5): whether a packet was sent no later than the last entry. Where
        the order of the lines decides, that is before it, whatever its time (section 7.3.2)."""
        if self.recovery is None:
            return False
        if self.settings.recovers_by_order:
            return packet.place < self.recovery.sent
        return packet.time <= self.recovery.time

    @property
    def congestion_duration(self) -> int:
        """How far apart packets have to be for persistent congestion (section 7.6.1)."""
        timeout = self.pto_base + self.settings.max_ack_delay
        return K_PERSISTENT_CONGESTION_THRESHOLD * timeout

    def is_persistent(self, lost: list[Packet], detection: Detection) -> bool:
        """Whether lost packets of a detection establish persistent congestion (section 7.6.2)."""
        first_sample, duration = detection.first_rtt_sample, detection.congestion_duration
        if first_sample is None:
            return False
        ends = [it for it in lost if it.is_eliciting and it.time > first_sample]
        return any(
            last.time - first.time > duration and not self.is_acknowledged_between(first, last)
            for first in ends
            for last in ends
        )

    def is_acknowledged_between(self, first: Packet, last: Packet) -> bool:
        """Whether a packet of any space that was sent between the two was acknowledged."""
        return any(first.place < place < last.place for place in self.acknowledged_places)

    def on_packet_acked(self, packet: Packet) -> None:
        """OnPacketAcked (B.5)."""
        if not packet.is_in_flight or self.is_in_recovery(packet):
            return
        threshold = self.slow_start_threshold
        if threshold is None or self.congestion_window < threshold:
            self.congestion_window += packet.size
        else:
            datagram = self.settings.max_datagram_size
            self.congestion_window += datagram * packet.size // self.congestion_window

    def on_declared_lost(self, event: Event) -> None:
        """The packets that were found lost are declared lost, and those of the free ones that are
        named beyond them. These count as if the detection had found them all at once, with recovery
        as it was before."""
        self.owed_numbers = set()
        numbers = named(event["ranges"], (it.number for it in self.free))
        more = [it for it in self.free if it.number in numbers]
        if self.detection is not None and more:
            self.remove_lost(self.spaces[event["space"]], more)
            self.recovery = self.detection.recovery
            self.on_packets_lost([*self.detection.lost, *more], self.detection)

    def on_timer(self, event: Event) -> None:
        """OnLossDetectionTimeout (A.9)."""
        self.last_set = event["time"]
        if event["kind"] == "loss":
            self.detect_losses(event["space"], self.looks_at(event), event["time"])
            return
        self.pto_count += 1
        self.probe_spent, self.probe_due = 0, event["space"]

    def looks_at(self, event: Event) -> int:
        """As of when a loss timer looks for losses: the time for which it is set where it is
        early, but no later than the header allows."""
        now: int = event["time"]
        due = self.loss_time(event["space"])
        return now if due is None else max(now, min(due, now + self.settings.timer_early))

    def on_report(self, event: Event) -> None:
        """A report changes nothing, but for the window where it is the one that is reported."""
        if self.is_other_window(event):
            self.reported_window = event["window"]
            self.acked_since_collapse = None

    def on_discard(self, event: Event) -> None:
        """OnPacketNumberSpaceDiscarded (A.11, B.9)."""
        space = self.spaces[event["space"]]
        self.bytes_in_flight -= sum(it.size for it in space.sent.values() if it.is_in_flight)
        space.sent.clear()
        space.is_discarded = True
        self.has_keys |= event["space"] == "initial"
        self.pto_count, self.last_set, self.probe_due = 0, event["time"], None


def earliest(deadlines: list[Deadline]) -> Deadline | None:
    """The earliest of deadlines in the order of their spaces; of equal times the first counts."""
    return min(deadlines, key=lambda it: it.time) if deadlines else None


def report_of(header: Event, events: list[tuple[int, Event]]) -> str:
    """The report of a header and of events with the numbers of their lines."""
    sender, last_line = Sender(header), 0
    for line, event in events:
        rule = sender.first_broken(event)
        if rule:
            return report(f"refused line {line} {rule}", sender)
        sender.follow(event)
        last_line = line
    is_complete = sender.owed == 0
    verdict = "accepted" if is_complete else f"refused line {last_line} {Rule.OWED_AT_END}"
    return report(verdict, sender)


def report(verdict: str, sender: Sender) -> str:
    """A report: the verdict and the totals."""
    return "".join(f"{line}\n" for line in [verdict, *sender.totals()])
