"""Why a log is refused, as far as its trace shows it: a name for what the refused line is about.

Each cause is a question to the lines before the refused one and to that line. It is a sign and no
proof: that a value fits another formula does not say that the sender has that formula. What fits no
question is named by the rule.
"""

import json
from collections.abc import Callable, Iterator
from dataclasses import dataclass, field
from typing import Any

Event = dict[str, Any]

# The rule that is judged after the last event.
AT_THE_END = "V17"
# `refused line 12 V7 past-window`, and behind V16 `metric latest_rtt`.
WORDS_OF_REFUSAL = 3
MICROSECONDS_IN_A_MILLISECOND = 1000
# By how many microseconds a value that is computed from rounded ones may be off.
ROUNDED = 2
# By how many an age may be off from the loss delay, if the times of both are cut to a millisecond.
ROUNDED_AGE = 2 * MICROSECONDS_IN_A_MILLISECOND
UNITS_IN_A_MICROSECOND = {"us": 1, "ns": 1000}
# Of `max_ack_delay`, where a header has none.
LONGEST_DELAY_US = 25000
HANDSHAKE_SPACES = ("initial", "handshake")


@dataclass
class Sample:
    """A sample of the round-trip time by the log's times, and the delay that came with it."""

    latest: int
    minimum: int
    delay: int


@dataclass
class Before:
    """What the lines before the refused one leave: packets, the last sample, the last reports."""

    unit: int = 1
    slack: int = 0
    longest_delay: int = 0
    in_whole_milliseconds: bool = True
    sent: dict[tuple[str, int], Event] = field(default_factory=dict)
    in_flight: int = 0
    sample: Sample | None = None
    reports: dict[str, int] = field(default_factory=dict)
    timers: list[str] = field(default_factory=list)
    # When the last probe timeout fired.
    probed_at: int = -1
    # Whether the log is one of quic-go.
    is_quic_go: bool = False
    last_kind: str = "header"
    last_time: int = 0
    # Whether packets left the bytes in flight with no event.
    has_forgotten: bool = False
    # The space of an acknowledgment of nothing new, if that is the last event.
    nothing_new_in: str = ""
    # The largest number of each space that was acknowledged.
    largest: dict[str, int] = field(default_factory=dict)

    def take(self, event: Event) -> None:
        """Goes on by a line."""
        kind = event["event"]
        if kind == "header":
            self.unit = UNITS_IN_A_MICROSECOND[event.get("unit", "us")]
            self.is_quic_go = str(event.get("x_dialect")).startswith("quic-go")
            self.slack = event.get("report_slack_us", 0) * self.unit
            self.longest_delay = event.get("max_ack_delay", LONGEST_DELAY_US * self.unit)
            # A log in nanoseconds has whole milliseconds only if they are exact.
            self.in_whole_milliseconds = self.unit == 1
        elif event["time"] % (MICROSECONDS_IN_A_MILLISECOND * self.unit) and not is_guessed(event):
            self.in_whole_milliseconds = False
        taker = getattr(self, f"_take_{kind}", None)
        if taker:
            taker(event)
        if kind not in ("header", "metrics"):
            self.last_kind, self.last_time = kind, event["time"]
        if kind not in ("ack", "metrics"):
            self.nothing_new_in = ""

    def _take_sent(self, event: Event) -> None:
        self.sent[event["space"], event["number"]] = event
        if event["in_flight"]:
            self.in_flight += event["size"]

    def _take_ack(self, event: Event) -> None:
        largest = max(last for _, last in event["ranges"])
        self.largest[event["space"]] = max(largest, self.largest.get(event["space"], largest))
        newest = self.sent.get((event["space"], largest))
        new = [packet for key, packet in self.sent.items() if is_named(key, event)]
        self.nothing_new_in = "" if new else event["space"]
        if newest and any(packet["eliciting"] for packet in new):
            latest = event["time"] - newest["time"]
            minimum = min(latest, self.sample.minimum) if self.sample else latest
            self.sample = Sample(latest, minimum, event.get("delay", 0))
        self._take_lost(event)

    def _take_lost(self, event: Event) -> None:
        gone = [key for key in self.sent if is_named(key, event)]
        for key in gone:
            packet = self.sent.pop(key)
            self.in_flight -= packet["size"] if packet["in_flight"] else 0

    def _take_discard(self, event: Event) -> None:
        self._take_lost({"space": event["space"], "ranges": [[0, 1 << 62]]})

    def _take_timer(self, event: Event) -> None:
        self.timers.append(event["kind"])
        if event["kind"] == "pto":
            self.probed_at = event["time"]

    def _take_metrics(self, event: Event) -> None:
        self.reports |= reported_by(event)
        self.has_forgotten |= "x_forgot" in event


def is_guessed(event: Event) -> bool:
    """Whether the time of an event is not the log's."""
    return any(guess.startswith("time: ") for guess in event.get("x_guess", []))


def reported_by(event: Event) -> dict[str, int]:
    """The values that a report has."""
    return {key: value for key, value in event.items() if isinstance(value, int)}


def is_named(key: tuple[str, int], event: Event) -> bool:
    """Whether a packet is one of those that a line names."""
    space, number = key
    ranges = event["ranges"]
    return space == event["space"] and any(first <= number <= last for first, last in ranges)


def is_sample_left_out(before: Before, event: Event) -> bool:
    """Whether the reported sample is still the one of the report before."""
    return before.sample is not None and event["latest_rtt"] == before.reports.get("latest_rtt")


def is_less_the_delay(before: Before, event: Event) -> bool:
    """Whether the delay explains by how much the reported sample is less than that of the log."""
    sample = before.sample
    if not sample or not sample.delay:
        return False
    delays = (sample.delay, min(sample.delay, before.longest_delay))
    reported = event["latest_rtt"]
    return any(abs(sample.latest - delay - reported) <= before.slack for delay in delays)


def is_less_to_the_minimum(before: Before, event: Event) -> bool:
    """Whether the minimum is reported, which is what the delay would leave or more."""
    sample, reported = before.sample, int(event["latest_rtt"])
    if not sample or not before.is_quic_go or reported != before.reports.get("min_rtt"):
        return False
    return before.slack < sample.latest - reported <= sample.delay + before.slack


def is_probe_forgotten(before: Before, event: Event) -> bool:
    """Whether less is reported in flight than is, after a probe timeout."""
    return "pto" in before.timers and int(event["bytes_in_flight"]) < before.in_flight


def is_probed_packet_owed(before: Before, event: Event) -> bool:
    """Whether packets left the bytes in flight after a probe timeout, whose loss is then owed."""
    is_less = int(event.get("bytes_in_flight", before.in_flight)) < before.in_flight
    is_gone = is_less or before.has_forgotten or is_left_out(before, event)
    return "pto" in before.timers and is_gone


def is_left_out(before: Before, event: Event) -> bool:
    """Whether a packet is not declared lost that such a sender may have taken out of flight: one of
    before its probe timeout that is below the largest acknowledged number."""
    named = event if event["event"] == "lost" else {"space": "", "ranges": []}
    return before.is_quic_go and any(
        packet["in_flight"] and packet["time"] <= before.probed_at and not is_named(key, named)
        for key, packet in before.sent.items()
        if key[1] < before.largest.get(key[0], 0)
    )


def padded_in_flight(before: Before) -> int:
    """The bytes in flight of packets that have PADDING and elicit no acknowledgment."""
    bare = (packet for packet in before.sent.values() if not packet["eliciting"])
    return sum(int(packet["size"]) for packet in bare if packet["in_flight"])


def is_padding_forgotten(before: Before, event: Event) -> bool:
    """Whether what is not reported in flight are just these."""
    padded = padded_in_flight(before)
    return padded > 0 and before.in_flight - int(event["bytes_in_flight"]) == padded


def is_padding_in_the_way(before: Before, event: Event) -> bool:
    """Whether the packet is one of these, or has room if they are left out, as in the report."""
    padded = padded_in_flight(before)
    others = before.in_flight - padded
    are_left_out = padded > 0 and before.reports.get("bytes_in_flight") == others
    return not event["eliciting"] or are_left_out and others < before.reports.get("window", 0)


def variation(last: dict[str, int], distance: int) -> int:
    """`rttvar` behind a sample at this distance (RFC 9002, 5.3)."""
    return (3 * last["rttvar"] + distance) // 4


def is_from_the_minimum(before: Before, event: Event) -> bool:
    """Whether `rttvar` is that of the distance between sample and minimum, and not the RFC's."""
    last = before.reports
    now = last | reported_by(event)
    if not {"rttvar", "smoothed_rtt"} <= last.keys() or not {"latest_rtt", "min_rtt"} <= now.keys():
        return False
    from_minimum = variation(last, abs(now["latest_rtt"] - now["min_rtt"]))
    from_smoothed = variation(last, abs(now["latest_rtt"] - last["smoothed_rtt"]))
    rounded = ROUNDED * before.unit
    off = abs(now["rttvar"] - from_minimum)
    return off <= rounded < abs(now["rttvar"] - from_smoothed)


def is_rounded(before: Before, _: Event) -> bool:
    """Whether the log's whole milliseconds decide if the delay is subtracted (RFC 9002, 5.3)."""
    sample = before.sample
    if not sample or not before.in_whole_milliseconds or not sample.delay:
        return False
    return abs(sample.latest - sample.minimum - sample.delay) <= MICROSECONDS_IN_A_MILLISECOND


def is_age_rounded(before: Before, event: Event) -> bool:
    """Whether the log's whole milliseconds decide if a packet is old enough to be lost (RFC 9002,
    6.1.2): there is one whose age is the loss delay, as far as such times say it."""
    values = before.reports | reported_by(event)
    longest = max(values.get("latest_rtt", 0), values.get("smoothed_rtt", 0))
    if not before.in_whole_milliseconds or not longest:
        return False
    ages = (
        before.last_time - int(packet["time"])
        for (space, number), packet in before.sent.items()
        if packet["in_flight"] and number < before.largest.get(space, 0)
    )
    return any(abs(age - longest * 9 / 8) <= ROUNDED_AGE * before.unit for age in ages)


def is_at_nothing_new(before: Before, event: Event) -> bool:
    """Whether a loss is declared at an acknowledgment of nothing new (A.7 looks for none there)."""
    return before.nothing_new_in != "" and event.get("space") == before.nothing_new_in


def is_declared_unasked(before: Before, event: Event) -> bool:
    """Whether packets of the handshake are declared lost with no acknowledgment and no timer."""
    is_later = before.last_kind == "ack" and before.last_time < event["time"]
    is_unasked = is_later or before.last_kind not in ("ack", "timer")
    return event.get("space") in HANDSHAKE_SPACES and is_unasked


# For what a rule refuses: the questions in their order, and what a yes means.
Question = Callable[[Before, Event], bool]
LESS = "`latest_rtt` is less the delay"
PROBED = "a probe timeout takes packets out of flight"
OLD_ENOUGH = "whole milliseconds decide whether a packet is old enough"
CAUSES: dict[str, list[tuple[Question, str]]] = {
    "V16 metric latest_rtt": [
        (is_less_to_the_minimum, LESS),
        (is_sample_left_out, "a sample is not taken"),
        (is_less_the_delay, LESS),
    ],
    "V16 metric bytes_in_flight": [
        (is_padding_forgotten, "a padded ACK is not in flight"),
        (is_probe_forgotten, PROBED),
    ],
    "V16 metric rttvar": [
        (is_rounded, "whole milliseconds decide whether the delay is subtracted"),
        (is_from_the_minimum, "`rttvar` is taken from the minimum"),
    ],
    "V16 metric smoothed_rtt": [
        (is_rounded, "whole milliseconds decide whether the delay is subtracted")
    ],
    "V7 past-window": [(is_padding_in_the_way, "a padded ACK is not in flight")],
    "V2 loss-owed": [(is_probed_packet_owed, PROBED), (is_age_rounded, OLD_ENOUGH)],
    "V3 loss-not-owed": [
        (is_declared_unasked, "packets of the handshake are declared lost"),
        (is_at_nothing_new, "a loss is declared at an acknowledgment of nothing new"),
        (is_age_rounded, OLD_ENOUGH),
    ],
    "V4 loss-set": [(is_probed_packet_owed, PROBED), (is_age_rounded, OLD_ENOUGH)],
    "V17 owed-at-end": [(is_probed_packet_owed, PROBED)],
}


def events_of(trace: bytes) -> Iterator[tuple[int, Event]]:
    """The lines of a trace with their numbers."""
    for number, line in enumerate(trace.split(b"\n"), 1):
        if line.strip():
            yield number, json.loads(line)


def cause_of(trace: bytes, verdict: str) -> str:
    """What a verdict says in a table: `accepted`, a cause, the rule, or what went wrong."""
    words = verdict.split()
    if words[0] != "refused":
        return verdict
    refused, rule = int(words[2]), " ".join(words[WORDS_OF_REFUSAL:])
    before = Before()
    for number, event in events_of(trace):
        if number == refused:
            if rule.startswith(AT_THE_END):
                before.take(event)
            named = (cause for asks, cause in CAUSES.get(rule, []) if asks(before, event))
            return next((f"{words[WORDS_OF_REFUSAL]}: {cause}" for cause in named), rule)
        before.take(event)
    return rule
