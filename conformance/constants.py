"""The constants of RFC 9002, the limits of the trace format, and its words, once for all programs
here. Times are in microseconds, sizes in bytes."""

from enum import StrEnum
from fractions import Fraction

# Loss detection (RFC 9002, A.2), by the names that the RFC has for them.

K_PACKET_THRESHOLD = 3
K_TIME_THRESHOLD = Fraction(9, 8)
K_GRANULARITY = 1_000
K_INITIAL_RTT = 333_000

# Congestion control (B.1). The windows are in datagrams of the greatest size.

K_INITIAL_WINDOW = 10
# kInitialWindow has no more bytes, or two datagrams where they are more.
INITIAL_WINDOW_BYTES = 14_720
K_MINIMUM_WINDOW = 2
K_LOSS_REDUCTION_FACTOR = Fraction(1, 2)
K_PERSISTENT_CONGESTION_THRESHOLD = 3

# What the RFCs give without a name.

# So many datagrams a probe timeout allows (RFC 9002, section 6.2.4).
PROBE_DATAGRAMS = 2
# Where the peer sends none (RFC 9000, section 18.2).
DEFAULT_MAX_ACK_DELAY = 25_000

NANOSECONDS_IN_A_MICROSECOND = 1_000

# The limits of docs/format.md.

MAX_TIME = 10**15
MAX_PACKET_NUMBER = 2**62 - 1
MAX_PACKET_SIZE = 65_527
# Of a line, without its LF.
MAX_LINE_LENGTH = 65_536

# The words of docs/format.md.

SPACES = ("initial", "handshake", "app")
METRICS_IN_BYTES = ("window", "ssthresh", "bytes_in_flight")
METRICS_IN_MICROSECONDS = ("latest_rtt", "min_rtt", "smoothed_rtt", "rttvar")
METRICS = (*METRICS_IN_BYTES, *METRICS_IN_MICROSECONDS)
# Those that congestion control sets.
OF_THE_CONTROLLER = ("window", "ssthresh")
# The totals in a row of `explain`.
OF_ROWS = ("window", "bytes_in_flight", "smoothed_rtt", "rttvar", "pto_count", "owed")


class Rule(StrEnum):
    """A rule, as a report names it. Behind METRIC stands the field."""

    TIME_BACK = "V1 time-back"
    LOSS_OWED = "V2 loss-owed"
    LOSS_NOT_OWED = "V3 loss-not-owed"
    LOSS_SET = "V4 loss-set"
    SPACE_GONE = "V5 space-gone"
    NUMBER_NOT_HIGHER = "V6 number-not-higher"
    PAST_WINDOW = "V7 past-window"
    PAST_PROBE = "V8 past-probe"
    PAST_RECOVERY = "V9 past-recovery"
    ACK_UNSENT = "V10 ack-unsent"
    TIMER_NOT_SET = "V11 timer-not-set"
    TIMER_OTHER = "V12 timer-other"
    TIMER_EARLY = "V13 timer-early"
    PROBE_OWED = "V14 probe-owed"
    NOT_CONFIRMED = "V15 not-confirmed"
    METRIC = "V16 metric"
    OWED_AT_END = "V17 owed-at-end"
    TIMER_LATE = "V18 timer-late"
    COLLAPSE_MISSING = "V19 collapse-missing"


# Rules of conduct: what a sender should have done. `--all` goes on past them.
OF_CONDUCT = (
    Rule.PAST_WINDOW,
    Rule.PAST_PROBE,
    Rule.PAST_RECOVERY,
    Rule.TIMER_EARLY,
    Rule.PROBE_OWED,
    Rule.METRIC,
    Rule.TIMER_LATE,
    Rule.COLLAPSE_MISSING,
)
# Past early timers only as long as so many probe timeouts have not doubled the timeout.
MOST_DOUBLINGS = 40
