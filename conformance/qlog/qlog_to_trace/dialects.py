"""What is known of the stacks: what their logs leave out, and what is taken in its place.

A new stack is one more entry of DIALECTS. The one named `generic` is for all others.
"""

from dataclasses import dataclass, replace
from enum import Enum
from typing import Any

MICROSECONDS_OF_INITIAL_RTT = 333_000
# How late a timer may be, in microseconds. On a busy computer timers are up to 110 ms late, and
# stalls are longer than 230 ms (captures/lateness). Where a log does not show each probe timeout it
# may be more: of one that does not show, the next one is late by a probe timeout.
TIMER_LATE = 200_000
TIMER_LATE_UNSEEN = 500_000


class Limited(Enum):
    """How it is known that the sender had not used its window (RFC 9002, 7.8)."""

    BY_STATE = "the congestion state application_limited"
    BY_WINDOW = "a window that an acknowledgment left as it was"
    NEVER = "not at all"


class Absent(Enum):
    """What it means that metrics do not have a value that was reported before."""

    SAME = "it is as it was"
    SAME_OR_ZERO = "it is as it was, or 0"
    NONE = "the sender has none"


@dataclass(frozen=True)
class Dialect:
    """A kind of log. Times are in microseconds."""

    name: str
    # It is of this kind where its title or the name of its vantage point has one of these.
    marks: tuple[str, ...] = ()
    # Where several have the same mark, its qlog_version or file_schema begins with one of these.
    schemas: tuple[str, ...] = ("",)
    # Whether logs of it were converted and audited; if not, it is as the documentation says.
    is_tried: bool = False
    # The RTT before a sample, where the log does not say it.
    initial_rtt: int | None = None
    # How many datagrams the first window has.
    initial_datagrams: int = 10
    # Sizes leave out padding, and are those by which the bytes in flight grow.
    sizes_by_growth: bool = False
    # The delay of acknowledgments is as on the wire, not yet multiplied (RFC 9000, 19.3).
    delay_is_encoded: bool = False
    # Its times are read after the event, on a busy computer by milliseconds.
    is_read_late: bool = False
    # Each difference of its times is cut to a whole millisecond.
    cuts_times: bool = False
    # What to do where its logs give no trace.
    advice: str = ""
    # How large a packet is that a frame without a length fills.
    full_packet: int = 1200
    # packet_lost stands before the packet_received that shows the loss.
    losses_stand_before: bool = False
    # The metrics after a packet that was sent stand before it.
    metrics_stand_before: bool = False
    # packet_received stands behind all that it caused.
    received_stands_last: bool = False
    # What a value means that metrics leave out.
    absent: Absent = Absent.SAME
    # Whether timers that expire are logged; where it is not known, by whether the log has one.
    logs_timers: bool | None = None
    # Nothing tells of a probe timeout but a PING that is sent.
    probes_by_ping: bool = False
    # A packet says by its trigger that it is the probe of a timeout.
    probes_by_trigger: bool = False
    # A packet of a probe leaves a byte free that was kept for a PING.
    probes_by_room: bool = False
    # The sender's window is not logged, and not that of NewReno, so none is judged.
    hides_window: bool = False
    # A packet whose number this divides has a PING behind an ACK frame of several ranges, so that
    # the frame is acknowledged; that is no probe.
    packets_between_pings: int | None = None
    # Spaces in which the sender subtracts the peer's delay.
    delay_spaces: tuple[str, ...] = ("handshake", "app")
    limited: Limited = Limited.BY_STATE
    # How far off reports can be.
    slack_us: int = 10
    slack_bytes: int = 0
    # The rest is of version 3 of the format alone. The unit of the trace; where it is not known,
    # nanoseconds if some time of the log has them.
    unit: str | None = None
    # Packets past the window, and samples of ack-eliciting packets alone: what a sender is known to
    # do, so that the rest of it can be audited.
    window_overshoot: bool = False
    sample_eliciting_only: bool = False
    packet_threshold: int = 3
    # Whether persistent congestion may reset the estimate of the round-trip time. It does where the
    # log shows the values of before the first sample again.
    may_reset_rtt: bool = False
    # The latest round-trip time is kept less the peer's delay.
    latest_rtt_less_delay: bool = False
    # A loss and the packet that is sent after it have one time, so that the order tells them apart.
    # In a log of whole milliseconds they often have.
    recovery_by_order: bool = False
    # In eighths of the round-trip time.
    time_threshold_eighths: int = 9
    # Whether a packet so many numbers behind may be spared, as where the threshold adapts.
    # Said only where the window is a reported one.
    may_spare: bool = False
    # Whether the packet threshold counts packets, so that a number that was skipped does not count.
    counts_packets: bool = False
    # How early a timer can be by the log, since its times are rounded or read late.
    timer_early_us: int = 10
    # How late a timer may be.
    timer_late_us: int = TIMER_LATE


GENERIC = Dialect("generic")

# 0.29: a JSON text a line, draft-02, times with six decimals, read after the event. Metrics
# have changes alone. Before a sample all RTT values are 0 and the probe timeout is 200 ms,
# three times 66.667 ms. latest_rtt is the sample without the peer's delay, smoothed_rtt and
# rtt_variance are whole microseconds. No ssthresh. PADDING is not logged. Packets of one
# datagram are all logged before the metrics of the first. The timer of a client with nothing in
# flight is not logged.
QUIC_GO = Dialect(
    "quic-go",
    ("quic-go",),
    ("draft",),
    is_tried=True,
    initial_rtt=66_666,
    initial_datagrams=32,
    is_read_late=True,
    logs_timers=True,
    delay_spaces=("app",),
    slack_us=1_000,
    window_overshoot=True,
    sample_eliciting_only=True,
    latest_rtt_less_delay=True,
    timer_early_us=3_000,
)

# 0.50: JSON-SEQ, 0.3. packet_received is logged after its frames were handled, so it stands behind
# the losses and metrics that it caused, and key_discarded between the metrics of the packets of one
# datagram. The rest is as in 0.29.
QUIC_GO_0_50 = replace(QUIC_GO, name="quic-go-0.50", schemas=("0.",), received_stands_last=True)

# 3.6: JSON-SEQ, 0.3, delta times of which the first is the time of day. Each is cut to a whole ms,
# so that the clock of the log loses up to one an event, unless the sender's own has whole ms. No
# sizes, no metrics, no timers, no keys. A STREAM frame without a length fills its packet, but for
# the two bytes of that length, and one that a probe keeps for a PING. A probe that does not fill
# its packet shows only before an acknowledgment, by a PING. NewReno.
OPENSSL = Dialect(
    "openssl",
    ("openssl/",),
    is_tried=True,
    cuts_times=True,
    full_packet=1_198,
    logs_timers=False,
    probes_by_room=True,
    limited=Limited.NEVER,
    unit="us",
    window_overshoot=True,
    timer_early_us=3_000,
    timer_late_us=TIMER_LATE_UNSEEN,
)

DIALECTS = (
    QUIC_GO,
    QUIC_GO_0_50,
    # 0.59: the schema of 0.4, and values of 0 are left out. All packets are kept until they are
    # acknowledged, so that there is a sample where the largest is not ack-eliciting.
    replace(
        QUIC_GO_0_50,
        name="quic-go-0.59",
        schemas=("urn:",),
        absent=Absent.SAME_OR_ZERO,
        sample_eliciting_only=False,
        counts_packets=True,
    ),
    # 0.12: JSON-SEQ, 0.3, all times in whole ms, rounded down. No timers and no keys. Metrics have
    # all values. The delay of Initial and Handshake acknowledgments is logged as 0. The packet
    # threshold is the greater of 3 and half of the packets in flight. Since 1.11 persistent
    # congestion resets the RTT.
    Dialect(
        "ngtcp2",
        ("ngtcp2",),
        is_tried=True,
        losses_stand_before=True,
        absent=Absent.NONE,
        logs_timers=False,
        limited=Limited.BY_WINDOW,
        slack_us=2_000,
        slack_bytes=64,
        unit="us",
        window_overshoot=True,
        sample_eliciting_only=True,
        may_reset_rtt=True,
        may_spare=True,
        timer_early_us=3_000,
    ),
    # 1.2: one JSON object, 0.3, times of the wall clock, in which the digits behind the microsecond
    # are those of a float. No timers, no PTO count and no key_retired of the Initial space. Metrics
    # have what changed. Before a sample the probe timeout is 200 ms. packet_lost has its type and
    # number beside and not in a header. A packet is no greater than the rest of the window.
    Dialect(
        "aioquic",
        ("aioquic",),
        is_tried=True,
        initial_rtt=66_666,
        metrics_stand_before=True,
        logs_timers=False,
        probes_by_ping=True,
        packets_between_pings=8,
        delay_spaces=("initial", "handshake", "app"),
        limited=Limited.NEVER,
        slack_us=1_000,
        slack_bytes=64,
        unit="us",
        latest_rtt_less_delay=True,
        timer_early_us=1_000,
    ),
    OPENSSL,
    # As Firefox 153 runs it: JSON-SEQ, 0.3, times with six decimals, those of the loop that handles
    # events. recovery:parameters_set has the initial RTT. Metrics have what changed. A size leaves
    # out padding, or is that of the datagram so far. Timers have no space, and expire also where
    # they had been moved. packet_lost names what a probe repeats, too. latest_rtt is the sample
    # less the delay.
    Dialect(
        "neqo",
        ("neqo",),
        is_tried=True,
        sizes_by_growth=True,
        delay_is_encoded=True,
        logs_timers=True,
        slack_us=1_000,
        latest_rtt_less_delay=True,
        recovery_by_order=True,
        timer_early_us=1_000,
    ),
    # The netlog of Chromium 156 (Google quiche): no window, no metrics, no timers. CUBIC. Packets
    # come at whole ms, and leave and are lost at microseconds. A probe timeout passes over a
    # number. The time threshold is 5/4. Losses may stand behind the acknowledgment or before it.
    Dialect(
        "chromium",
        ("netlog of chromium",),
        is_tried=True,
        initial_rtt=100_000,
        logs_timers=False,
        probes_by_trigger=True,
        hides_window=True,
        limited=Limited.NEVER,
        unit="us",
        may_spare=True,
        time_threshold_eighths=10,
        timer_early_us=3_000,
    ),
    # By their documentation: JSON-SEQ of the Rust crate `qlog`, 0.3, times in ms with fractions;
    # metrics have what changed.
    Dialect(
        "quinn",
        ("quinn",),
        advice="quinn logs none; hooks in its recovery code give a trace (docs/stacks.md)",
        slack_us=1_000,
        slack_bytes=1_200,
        timer_early_us=1_000,
    ),
    Dialect("quiche", ("quiche",), slack_us=1_000, slack_bytes=1_200, timer_early_us=1_000),
    # By its documentation: one JSON object, events as lists, times in microseconds. Its losses name
    # no packets, so a log with losses gives no trace.
    Dialect("mvfst", ("mvfst",), slack_us=1_000, timer_early_us=1_000),
    GENERIC,
)

BY_NAME = {dialect.name: dialect for dialect in DIALECTS}


def dialect_of(header: dict[str, Any]) -> Dialect:
    """The dialect that a log names in its title or at its vantage point."""
    vantage = header.get("vantage_point")
    name = vantage.get("name") if isinstance(vantage, dict) else vantage
    said = (header.get("title"), header.get("description"), name, header.get("code_version"))
    texts = [it.lower() for it in said if isinstance(it, str)]
    schemas = (header.get("file_schema"), header.get("qlog_version"))
    schema = next((it for it in schemas if isinstance(it, str) and it), "")
    marked = [it for it in DIALECTS if any(mark in text for mark in it.marks for text in texts)]
    fitting = [it for it in marked if schema.startswith(it.schemas)]
    return next(iter(fitting or marked), GENERIC)
