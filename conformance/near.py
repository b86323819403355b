"""Which key of a line a wrong key is probably meant to be, in the words of docs/why.md.

The tables are those of docs/format.md and docs/why.md, written down here anew; nothing is shared
with the proved program.
"""

import json

from constants import METRICS

# Longer names are near no key.
LONGEST = 40
# The keys of a header, by the version that brought them.
HEADER_KEYS = {
    1: (
        "event",
        "version",
        "role",
        "max_datagram_size",
        "max_ack_delay",
        "initial_rtt",
        "initial_window",
    ),
    2: ("timer_late_us", "refresh_min_rtt", "report_slack_us", "report_slack_bytes"),
    3: (
        "unit",
        "window",
        "window_overshoot",
        "sample_eliciting_only",
        "packet_threshold",
        "timer_early_us",
        "loss_by_number",
        "threshold_counts",
        "reset_rtt",
        "latest_rtt_less_delay",
        "time_threshold_eighths",
        "recovery_by_order",
    ),
}
# The keys of the other kinds of lines, in the order of their tables.
KEYS = {
    "sent": ("event", "time", "space", "number", "size", "eliciting", "in_flight", "leave"),
    "ack": ("event", "time", "space", "ranges", "delay", "limited"),
    "lost": ("event", "time", "space", "ranges"),
    "timer": ("event", "time", "kind", "space"),
    "discard": ("event", "time", "space"),
    "confirmed": ("event", "time"),
    "keys": ("event", "time"),
    "metrics": ("event", "time", *METRICS),
}
# Names that other tools have.
OF_EVENTS = {"ts": "time", "timestamp": "time"}
OF_SPACES = {**OF_EVENTS, "pn_space": "space", "packet_number_space": "space"}
OTHERS = {
    "header": {
        "initial_cwnd": "initial_window",
        "init_cwnd": "initial_window",
        "mss": "max_datagram_size",
        "mtu": "max_datagram_size",
        "max_udp_payload_size": "max_datagram_size",
        "ack_delay_max": "max_ack_delay",
        "rtt": "initial_rtt",
        "init_rtt": "initial_rtt",
    },
    "sent": {
        **OF_SPACES,
        "pn": "number",
        "packet_number": "number",
        "length": "size",
        "bytes": "size",
        "ack_eliciting": "eliciting",
    },
    "ack": {**OF_SPACES, "ack_delay": "delay"},
    "lost": OF_SPACES,
    "timer": OF_SPACES,
    "discard": OF_SPACES,
    "confirmed": OF_EVENTS,
    "keys": OF_EVENTS,
    "metrics": {
        **OF_EVENTS,
        "cwnd": "window",
        "congestion_window": "window",
        "ss_thresh": "ssthresh",
        "inflight": "bytes_in_flight",
        "in_flight": "bytes_in_flight",
        "rtt": "latest_rtt",
        "rtt_min": "min_rtt",
        "srtt": "smoothed_rtt",
        "rtt_var": "rttvar",
        "rtt_variance": "rttvar",
        "rttvariance": "rttvar",
    },
}


def keys_of_kind(kind: str, version: int) -> tuple[str, ...]:
    """The keys of a line of a kind, in the order of its table, under a header of a version."""
    if kind != "header":
        return KEYS[kind]
    return tuple(key for first in range(1, version + 1) for key in HEADER_KEYS[first])


def edits(one: str, other: str) -> int:
    """How many characters are put in, taken out or changed to make one of another."""
    row = list(range(len(other) + 1))
    for i, a in enumerate(one, 1):
        above, row[0] = row[0], i
        for j, b in enumerate(other, 1):
            above, row[j] = row[j], min(row[j] + 1, row[j - 1] + 1, above + (a != b))
    return row[-1]


def near(name: str, kind: str, version: int) -> str | None:
    """The key of a line of a kind that a name is probably meant for."""
    if len(name.encode("utf-8", "surrogatepass")) > LONGEST:
        return None
    if name in OTHERS[kind]:
        return OTHERS[kind][name]
    for most in (1, 2):
        for key in keys_of_kind(kind, version):
            if edits(name, key) <= most and edits(name, key) < len(key) // 2:
                return key
    return None


def names_in(line: bytes) -> list[str]:
    """The keys of the object of a line, in the order of their bytes."""
    return sorted(json.loads(line), key=lambda key: key.encode("utf-8", "surrogatepass"))


def meant(line: bytes, missing: str) -> str | None:
    """The key of a line that stands there in place of one that is missing."""
    kind = json.loads(line).get("event")
    if not isinstance(kind, str) or kind not in OTHERS:
        return None
    strange = (it for it in names_in(line) if it not in keys_of_kind(kind, 3))
    return next((it for it in strange if near(it, kind, 3) == missing), None)
