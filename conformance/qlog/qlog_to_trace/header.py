"""The header of a trace."""

from dataclasses import dataclass
from typing import Any

from .dialects import MICROSECONDS_OF_INITIAL_RTT, TIMER_LATE_UNSEEN, Dialect
from .errors import Unusable
from .events import GREATEST_SIZE, NANOSECONDS
from .lines import Lines
from .notes import Guess, Limit, Notes, Omission
from .survey import Survey
from .validation import LEAST_DATAGRAM

# The ranges of the header's keys.
GREATEST_INITIAL_RTT = 10**12
GREATEST_WINDOW = (1 << 32) - 1
PACKET_THRESHOLDS = range(3, 65_536)
# The time threshold (RFC 9002, 6.1.2) in eighths of the round-trip time, that of a header that
# names none, and how a log may round it.
EIGHTHS = range(9, 33)
DEFAULT_EIGHTHS = 9
MILLIONTHS = 1_000_000
ROUNDING_OF_THRESHOLD = MILLIONTHS // 100
# What a header says if nothing says another: RFC 9000, 18.2, for the peer's delay, and RFC 9002,
# 7.2, for the window.
DEFAULT_MAX_ACK_DELAY = 25 * NANOSECONDS["ms"]
INITIAL_DATAGRAMS, BYTES_OF_INITIAL_WINDOW = 10, 14_720
# Of the keys `window` and `loss_by_number`.
REPORTED = "reported"
MAY = "may"
# In place of a number of microseconds.
NO_LIMIT = "no"
# RFC 9002, 6.2.1 and 6.2.2: the first probe timeout, in initial round-trip times.
RTTS_OF_FIRST_TIMEOUT = 3
# RFC 9002, 6.2.1: how often smoothed_rtt and rttvar are in a probe timeout, and beyond which count
# of timeouts a sender has given up.
RTTS_OF_TIMEOUT = 1 + 4
MOST_TIMEOUTS = 32


@dataclass(frozen=True)
class Choices:
    """What the user of the converter says of the header."""

    version: int = 3
    # Keys of the header that take the place of those of the dialect.
    options: tuple[tuple[str, int | str], ...] = ()


def options_of(dialect: Dialect, survey: Survey, choices: Choices, notes: Notes) -> dict[str, Any]:
    """The version, and the options of the versions behind the first."""
    found: dict[str, Any] = {"version": choices.version}
    said = dict(choices.options)
    if choices.version >= 2:
        late = said.pop("timer_late_us", None)
        late = limit_of(dialect, survey, notes) if late is None else late
        found |= {} if late in (None, NO_LIMIT) else {"timer_late_us": late}
        found |= {
            "refresh_min_rtt": False,
            "report_slack_us": dialect.slack_us,
            "report_slack_bytes": dialect.slack_bytes,
        }
    if choices.version >= 3:
        by_log = "ns" if survey.has_nanoseconds else "us"
        # By which controller a sender has its window is its own choice (RFC 9002, section 7).
        has_window = survey.has_window or dialect.hides_window
        window = said.get("window", REPORTED if has_window else "newreno")
        if window != REPORTED and said.get("loss_by_number") == MAY:
            raise Unusable("its losses may be declared only if it has a reported window")
        threshold = survey.recovery.get("packet_threshold")
        if threshold not in PACKET_THRESHOLDS:
            threshold = dialect.packet_threshold
        found |= {
            "unit": dialect.unit or by_log,
            "window": window,
            "window_overshoot": dialect.window_overshoot,
            "sample_eliciting_only": dialect.sample_eliciting_only,
            "packet_threshold": threshold,
            "timer_early_us": dialect.timer_early_us,
            "loss_by_number": MAY if dialect.may_spare and window == REPORTED else "must",
            "threshold_counts": "packets" if dialect.counts_packets else "numbers",
            "reset_rtt": survey.has_reset_rtt,
            "latest_rtt_less_delay": dialect.latest_rtt_less_delay,
            "time_threshold_eighths": eighths_of(survey, dialect),
            "recovery_by_order": dialect.recovery_by_order or survey.has_milliseconds,
        }
    return found | said


def eighths_of(survey: Survey, dialect: Dialect) -> int:
    """The time threshold that the log says, if a header can say it, else that of the dialect."""
    said = survey.time_threshold
    if said is None:
        return dialect.time_threshold_eighths
    eighths = (8 * said + MILLIONTHS // 2) // MILLIONTHS
    is_said = eighths in EIGHTHS and not is_other(said, eighths)
    return eighths if is_said else dialect.time_threshold_eighths


def is_other(threshold: int, eighths: int) -> bool:
    """Whether a time threshold, in millionths, is another than this many eighths, however a log
    rounds it."""
    return abs(8 * threshold - eighths * MILLIONTHS) > 8 * ROUNDING_OF_THRESHOLD


def limit_of(dialect: Dialect, survey: Survey, notes: Notes) -> int | None:
    """How late a timer may be, in microseconds, if the log lets it be judged."""
    by_packets = (dialect.probes_by_ping, dialect.probes_by_room, dialect.probes_by_trigger)
    by_log = (dialect.logs_timers, survey.has_timers, survey.has_pto_counts)
    limit = dialect.timer_late_us
    if not any(by_packets) and not any(by_log):
        limit = max(limit, TIMER_LATE_UNSEEN)
        notes.findings.append(
            f"no probe timeouts; of one that does not show, the next one is late, so timers may be"
            f" {limit} microseconds late"
        )
    off = deadline_is_off_by(dialect, survey)
    if off > limit:
        limit = off
        notes.findings.append(
            f"whole milliseconds, and {survey.highest_pto_count} probe timeouts in a row, each of"
            f" which doubles by how much the deadline is off, so timers may be {limit} microseconds"
            " late"
        )
    if is_past(dialect, survey, limit):
        notes.omit(Omission.LIMIT)
        return None
    return limit


def deadline_is_off_by(dialect: Dialect, survey: Survey) -> int:
    """By how much the deadline of the last probe timeout in a row can be off in a log of whole
    milliseconds, in microseconds: each round-trip time in it is off by the slack at most."""
    count = min(survey.highest_pto_count, MOST_TIMEOUTS)
    if not survey.has_milliseconds or not count:
        return 0
    return RTTS_OF_TIMEOUT * dialect.slack_us << (count - 1)


def is_past(dialect: Dialect, survey: Survey, limit: int) -> bool:
    """Whether a server that may not send is silent for longer than a probe timeout and a limit."""
    rtt = survey.recovery.get("initial_rtt", survey.first_smoothed)
    if not rtt:
        rtt = (dialect.initial_rtt or MICROSECONDS_OF_INITIAL_RTT) * NANOSECONDS["us"]
    validation = survey.validation
    late = max(
        validation.longest_silence - RTTS_OF_FIRST_TIMEOUT * rtt,
        validation.longest_silence_behind_ack,
    )
    return late > limit * NANOSECONDS["us"]


def initial_rtt_of(dialect: Dialect, survey: Survey, notes: Notes) -> int | None:
    """The round-trip time before a sample, in nanoseconds, if something says it."""
    said = survey.recovery.get("initial_rtt")
    if said:
        return said
    if dialect.initial_rtt is not None:
        notes.guess(Guess.INITIAL_RTT)
        return dialect.initial_rtt * NANOSECONDS["us"]
    return survey.first_smoothed


def said_rtt(lines: Lines, rtt: int | None) -> int:
    """The round-trip time before a sample as a header says it: its default for one that it cannot
    say."""
    if rtt and lines.in_unit(rtt) and rtt <= GREATEST_INITIAL_RTT:
        return lines.in_unit(rtt)
    return lines.in_unit(MICROSECONDS_OF_INITIAL_RTT * NANOSECONDS["us"])


def initial_window_of(
    dialect: Dialect, survey: Survey, options: dict[str, Any], notes: Notes
) -> int:
    """The first window, by what the log says; 0 if it says none."""
    if dialect.hides_window and options.get("window") == REPORTED:
        notes.guess(Guess.HIDDEN_WINDOW)
        return GREATEST_WINDOW
    return survey.recovery.get("initial_window", survey.first_window or 0)


def said_window(size: int, window: int) -> int:
    """The first window as a header of this datagram size says it: its default for one that it
    cannot say."""
    if 2 * size <= window <= GREATEST_WINDOW:
        return window
    return min(INITIAL_DATAGRAMS * size, max(BYTES_OF_INITIAL_WINDOW, 2 * size))


def datagram_size_of(dialect: Dialect, survey: Survey, notes: Notes) -> int:
    """The size of datagrams, as the log says it or by what it has."""
    said = survey.recovery.get("max_datagram_size", 0)
    if LEAST_DATAGRAM <= said <= GREATEST_SIZE:
        return said
    size, guess = survey.max_datagram_size(dialect.initial_datagrams)
    notes.guess(guess)
    return size


def warn(dialect: Dialect, survey: Survey, options: dict[str, Any], notes: Notes) -> None:
    """What the log says of the sender's choices, and a header cannot."""
    said = survey.recovery.get("packet_threshold", options.get("packet_threshold"))
    if said != options.get("packet_threshold"):
        notes.warnings.append(
            f"its reordering_threshold is {said}, which the header does not say; losses by number"
            " may be refused"
        )
    if dialect.cuts_times:
        notes.limits.add(Limit.CUT_CLOCK)
    if survey.has_marks:
        notes.limits.add(Limit.MARKS)
    if survey.has_ack_frequency:
        notes.limits.add(Limit.ACK_FREQUENCY)
    threshold = survey.time_threshold
    eighths = options.get("time_threshold_eighths", DEFAULT_EIGHTHS)
    if threshold is None:
        threshold = dialect.time_threshold_eighths * MILLIONTHS // 8
    if is_other(threshold, eighths):
        notes.warnings.append(
            f"its time_threshold is {threshold / MILLIONTHS:.4g}, and that of the header"
            f" {eighths}/8; losses by time may be refused"
        )


def write_header(
    lines: Lines, notes: Notes, role: str, dialect: Dialect, survey: Survey, options: dict[str, Any]
) -> int:
    """Writes the header; gives the datagram size."""
    size = datagram_size_of(dialect, survey, notes)
    delay = survey.max_ack_delay
    if delay is None:
        notes.guess(Guess.NO_MAX_ACK_DELAY)
        delay = DEFAULT_MAX_ACK_DELAY
    line: dict[str, Any] = {
        "role": role,
        "max_datagram_size": size,
        "max_ack_delay": lines.in_unit(delay),
        "initial_rtt": said_rtt(lines, initial_rtt_of(dialect, survey, notes)),
        "initial_window": said_window(size, initial_window_of(dialect, survey, options, notes)),
    }
    if options["version"] >= 3 and not survey.has_window and options["window"] != REPORTED:
        notes.guess(Guess.NO_WINDOW)
    told = {"x_note": notes.of_header} if notes.of_header else {}
    lines.header(line | options | {"x_dialect": dialect.name} | told)
    warn(dialect, survey, options, notes)
    return size
