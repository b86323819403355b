"""Where each rule comes from: how strong the RFC is there, its section, and what it says.

It is written from RFC 9000, 9001 and 9002, and shares nothing with the proved program, whose table
is in crates/qa_explain/specs/text/Sources.antt. If some cases of a rule have another level, its
sentence names them with theirs.
"""

from enum import StrEnum
from typing import NamedTuple

from constants import Rule

FORMAT = "This format"


class Level(StrEnum):
    """How strong the RFC is: by its keyword, or by where it has the rule."""

    MUST = "MUST"
    MUST_NOT = "MUST NOT"
    SHOULD = "SHOULD"
    DESCRIBED = "described"
    EXAMPLE = "example"
    FORMAT = "format"

    @property
    def requirement(self) -> str:
        """What programs call it: a MUST NOT is a MUST."""
        return Level.MUST.value if self == Level.MUST_NOT else self.value


class Source(NamedTuple):
    """A level, the section, and the sentence."""

    level: Level
    section: str
    statement: str

    @property
    def line(self) -> str:
        """As a line of a text."""
        if self.level == Level.FORMAT:
            return f"{self.section}: {self.statement}"
        return f"{self.section}, {self.level}: {self.statement}"

    @property
    def members(self) -> dict[str, object]:
        """As members of an object."""
        return {"requirement": self.level.requirement, "section": self.section}


SOURCES = {
    Rule.TIME_BACK: Source(Level.FORMAT, FORMAT, "the times of a trace do not fall."),
    Rule.LOSS_OWED: Source(
        Level.FORMAT,
        FORMAT,
        "a loss that was found (RFC 9002, 6.1) is declared before anything else happens.",
    ),
    Rule.LOSS_NOT_OWED: Source(
        Level.DESCRIBED,
        "RFC 9002, 6.1",
        "a packet is declared lost if it meets the conditions there. At a probe timeout 6.2"
        " forbids it (MUST NOT), and 6.2.4 permits it instead of a probe (MAY), which this model"
        " does not have.",
    ),
    Rule.LOSS_SET: Source(
        Level.DESCRIBED,
        "RFC 9002, 6.1",
        "a packet is declared lost if it meets the conditions there. This format: one line names"
        " all of them.",
    ),
    Rule.SPACE_GONE: Source(
        Level.DESCRIBED,
        "RFC 9002, 6.4",
        "packets of discarded keys are neither sent nor acknowledged. Initial packets MUST NOT be"
        " sent then (RFC 9001, 4.9.1).",
    ),
    Rule.NUMBER_NOT_HIGHER: Source(
        Level.MUST, "RFC 9000, 12.3", "increase the packet number within a space."
    ),
    Rule.PAST_WINDOW: Source(
        Level.MUST_NOT,
        "RFC 9002, 7",
        "send past the congestion window: the reported one, or else the window of NewReno, as"
        " this model has it.",
    ),
    Rule.PAST_PROBE: Source(
        Level.MUST_NOT,
        "RFC 9002, 7",
        "send past the congestion window, except for two full datagrams at a probe timeout (6.2.4,"
        " MAY). This format counts their bytes.",
    ),
    Rule.PAST_RECOVERY: Source(
        Level.MUST_NOT,
        "RFC 9002, 7",
        "send past the congestion window, except for one packet at an entry into recovery"
        " (7.3.2).",
    ),
    Rule.ACK_UNSENT: Source(
        Level.SHOULD,
        "RFC 9000, 13.1",
        "close the connection if a packet is acknowledged that was not sent. The mistake is the"
        " peer's, or the log's.",
    ),
    Rule.TIMER_NOT_SET: Source(
        Level.EXAMPLE,
        "RFC 9002, A.8",
        "no timer is set if no ack-eliciting packet is in flight, except at a client until it is"
        " validated. One for application data MUST NOT be set before the handshake is confirmed"
        " (6.2.1).",
    ),
    Rule.TIMER_OTHER: Source(
        Level.EXAMPLE,
        "RFC 9002, A.8",
        "the timer is set for the earliest loss, or else for the earliest probe timeout. It MUST"
        " NOT be set for a probe timeout if it is for a loss, and MUST be for the earlier of"
        " Initial and Handshake (6.2.1).",
    ),
    Rule.TIMER_EARLY: Source(
        Level.DESCRIBED,
        "RFC 9002, 6.1.2, 6.2.1",
        "the deadline is a loss delay, or the PTO that each expiration doubles (MUST), after a"
        " packet was sent. With none in flight it counts as in A.8 (example).",
    ),
    Rule.PROBE_OWED: Source(
        Level.MUST,
        "RFC 9002, 6.2.4",
        "send an ack-eliciting packet in the space when a probe timeout expires. Instead a sender"
        " MAY mark packets as lost, which this model does not have.",
    ),
    Rule.NOT_CONFIRMED: Source(
        Level.DESCRIBED,
        "RFC 9001, 4.9",
        "keys cannot be discarded before both sides have all handshake messages of their level:"
        " the handshake keys not before the handshake is confirmed (4.9.2).",
    ),
    Rule.OWED_AT_END: Source(
        Level.FORMAT,
        FORMAT,
        "a loss that was found (RFC 9002, 6.1) is declared before the trace ends.",
    ),
    Rule.TIMER_LATE: Source(
        Level.DESCRIBED,
        "RFC 9002, 6.1.2, 6.2.1",
        "a timer is set for that deadline. This format: it is late by no more than the header"
        " allows. A.8 expects timers that wake up late.",
    ),
    Rule.COLLAPSE_MISSING: Source(
        Level.MUST,
        "RFC 9002, 7.6.2",
        "reduce the window to the minimum after persistent congestion: two datagrams here (7.2,"
        " RECOMMENDED). For controllers other than NewReno 7 refers to RFC 8085.",
    ),
}
# The same for the values of reports (V16).
VALUE_SOURCES = {
    "window": Source(
        Level.DESCRIBED,
        "RFC 9002, 7.3, 7.6",
        "slow start and congestion avoidance as in B.5; half after a loss (7.3.2, MUST), the"
        " minimum after persistent congestion (7.6.2, MUST).",
    ),
    "ssthresh": Source(
        Level.MUST,
        "RFC 9002, 7.3.2",
        "set the slow start threshold to half of the window at the entry into recovery.",
    ),
    "bytes_in_flight": Source(
        Level.DESCRIBED,
        "RFC 9002, 2",
        "packets are in flight until they are acknowledged, declared lost or discarded. Probes"
        " count (7.5, MUST), discarded packets do not (6.4, MUST).",
    ),
    "latest_rtt": Source(
        Level.DESCRIBED,
        "RFC 9002, 5.1",
        "the time from when the largest packet of the ACK was sent to the ACK, with no delay taken"
        " off, unless latest_rtt_less_delay says so.",
    ),
    "min_rtt": Source(
        Level.MUST,
        "RFC 9002, 5.2",
        "take the lesser of min_rtt and latest_rtt, with no delay taken off. It SHOULD begin again"
        " after persistent congestion, which it does here if refresh_min_rtt says so, and MAY at"
        " other times.",
    ),
    "smoothed_rtt": Source(
        Level.DESCRIBED, "RFC 9002, 5.3", "7/8 of smoothed_rtt, and 1/8 of adjusted_rtt."
    ),
    "rttvar": Source(
        Level.DESCRIBED,
        "RFC 9002, 5.3",
        "3/4 of rttvar, and 1/4 of how far adjusted_rtt is from smoothed_rtt before this sample (as"
        " in A.7).",
    ),
}


def rule_of(what: str) -> tuple[Rule, str]:
    """The rule that a report names so, and its field; empty where it has none."""
    number, name, *field = what.split(" ")
    return Rule(f"{number} {name}"), "".join(field)


def source_of(what: str) -> Source:
    """Where a rule comes from that a report names so."""
    rule, field = rule_of(what)
    return VALUE_SOURCES[field] if rule == Rule.METRIC else SOURCES[rule]
