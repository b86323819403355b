"""What each rule forbids and what each fault of a line is, in a sentence."""

from typing import NamedTuple

from .program import Object
from .texts import html

# How strong the RFC is, by its keyword or by where it has a rule, and what programs call that.
MUST, MUST_NOT, SHOULD = "MUST", "MUST NOT", "SHOULD"
DESCRIBED, EXAMPLE, FORMAT = "described", "example", "format"
REQUIREMENTS = (MUST, SHOULD, DESCRIBED, EXAMPLE, FORMAT)
OF_FORMAT = "trace format"
METRIC = "V16"
# What --fail-on takes.
ANY = "any"
FAIL_ON = (MUST.lower(), SHOULD.lower(), ANY)


class Meaning(NamedTuple):
    """A rule or a fault: its name, its sentence, its section, and how strong the RFC is there."""

    name: str
    sentence: str
    section: str
    level: str = FORMAT

    @property
    def source(self) -> str:
        """Where it comes from, in words."""
        return self.section if self.level == FORMAT else f"{self.section}, {self.level}"


# fmt: off
RULES = {
    "V1": Meaning("time-back", "Time goes back.", OF_FORMAT),
    "V2": Meaning("loss-owed", "Something else happened after a loss was detected and before it"
                  " was declared.",
                  OF_FORMAT),
    "V3": Meaning("loss-not-owed", "Packets were declared lost in a space that had none detected"
                  " as lost.",
                  "RFC 9002, 6.1", DESCRIBED),
    "V4": Meaning("loss-set", "The packets that were declared lost are not those that were"
                  " detected as lost.",
                  "RFC 9002, 6.1", DESCRIBED),
    "V5": Meaning("space-gone", "A packet number space was used after its keys had been"
                  " discarded.",
                  "RFC 9002, 6.4", DESCRIBED),
    "V6": Meaning("number-not-higher", "A packet number is not above all that were sent in its"
                  " space.",
                  "RFC 9000, 12.3", MUST),
    "V7": Meaning("past-window", "A packet was sent for which the congestion window has no room.",
                  "RFC 9002, 7", MUST_NOT),
    "V8": Meaning("past-probe", "A packet was sent as a probe past the two datagrams that a probe"
                  " timeout allows.",
                  "RFC 9002, 7", MUST_NOT),
    "V9": Meaning("past-recovery", "A packet was sent as the one that an entry into recovery"
                  " allows, and the entry is spent or there was none.",
                  "RFC 9002, 7", MUST_NOT),
    "V10": Meaning("ack-unsent", "An acknowledgment covers a packet that was never sent.",
                   "RFC 9000, 13.1", SHOULD),
    "V11": Meaning("timer-not-set", "A timer fired although no timer is set.",
                   "RFC 9002, A.8", EXAMPLE),
    "V12": Meaning("timer-other", "A timer fired that is not the one that is set.",
                   "RFC 9002, A.8", EXAMPLE),
    "V13": Meaning("timer-early", "A timer fired before its deadline.",
                   "RFC 9002, 6.1.2, 6.2.1", DESCRIBED),
    "V14": Meaning("probe-owed", "A probe timeout fired while the probe of the one before it was"
                   " due.",
                   "RFC 9002, 6.2.4", MUST),
    "V15": Meaning("not-confirmed", "Handshake keys were discarded before the handshake was"
                   " confirmed.",
                   "RFC 9001, 4.9", DESCRIBED),
    "V16": Meaning("metric", "A reported value differs from the model's.", "RFC 9002, 2, 5, 7",
                   DESCRIBED),
    "V17": Meaning("owed-at-end", "The trace ends before a detected loss is declared.",
                   OF_FORMAT),
    "V18": Meaning("timer-late", "An event comes later after the deadline of a timer than the"
                   " header allows.",
                   "RFC 9002, 6.1.2, 6.2.1", DESCRIBED),
    "V19": Meaning("collapse-missing", "The window was not reduced after persistent congestion.",
                   "RFC 9002, 7.6.2", MUST),
}
# Of the values of a report (V16): the section, and how strong the RFC is there.
VALUES = {
    "window": ("RFC 9002, 7.3, 7.6", DESCRIBED),
    "ssthresh": ("RFC 9002, 7.3.2", MUST),
    "bytes_in_flight": ("RFC 9002, 2", DESCRIBED),
    "latest_rtt": ("RFC 9002, 5.1", DESCRIBED),
    "min_rtt": ("RFC 9002, 5.2", MUST),
    "smoothed_rtt": ("RFC 9002, 5.3", DESCRIBED),
    "rttvar": ("RFC 9002, 5.3", DESCRIBED),
}
FAULTS = {
    "F1": Meaning("not-json", "The line is not JSON.", OF_FORMAT),
    "F2": Meaning("not-object", "The line is JSON, but no object.", OF_FORMAT),
    "F3": Meaning("missing", "A key that has to be there is missing.", OF_FORMAT),
    "F4": Meaning("wrong-kind", "The value of a key is of another kind.", OF_FORMAT),
    "F5": Meaning("out-of-range", "The value of a key is out of its range.", OF_FORMAT),
    "F6": Meaning("unknown-event", "The key event names no event of the format.", OF_FORMAT),
    "F7": Meaning("header-place", "The header comes first, and once.", OF_FORMAT),
    "F8": Meaning("line-too-long", "The line has more than 65,536 bytes.", OF_FORMAT),
    "F9": Meaning("flags-clash", "A packet is said to be ack-eliciting and not in flight.",
                  OF_FORMAT),
    "F10": Meaning("version", "The version of the format is unknown.", OF_FORMAT),
    "F11": Meaning("too-many-lines", "The trace has more lines than can be numbered.", OF_FORMAT),
}
# fmt: on
# In place of a rule, of a log that gives no trace.
NOT_CONVERTED = "log"
LOGS = {NOT_CONVERTED: Meaning("not-converted", "The log gives no trace.", "qlog-to-trace")}
MEANINGS = {**RULES, **FAULTS, **LOGS}


def meaning_at(rule: str, field: str = "") -> Meaning | None:
    """What a rule or a fault is, V16 at a field; None where it is unknown."""
    meaning = MEANINGS.get(rule)
    if meaning is None or rule != METRIC or field not in VALUES:
        return meaning
    section, level = VALUES[field]
    return meaning._replace(section=section, level=level)


def meaning_of(rule: str, field: str = "") -> str:
    """The sentence of a rule or a fault with its source, as HTML; empty where it is unknown."""
    meaning = meaning_at(rule, field)
    if meaning is None:
        return ""
    return f'{html(meaning.sentence)} <span class="source">{html(meaning.source)}</span>'


def is_counted(requirement: str, fail_on: str) -> bool:
    """Whether a violation of this requirement is a failure, by what --fail-on says. A line that
    cannot be read has none, and always is."""
    counted = {MUST.lower(): (MUST,), SHOULD.lower(): (MUST, SHOULD)}.get(fail_on)
    return not requirement or counted is None or requirement in counted


def requirement_of(said: Object) -> str:
    """How strong the RFC is at a rule, as a program says it, or this table if it is older; empty of
    a line that cannot be read."""
    if "rule" not in said:
        return ""
    meaning = meaning_at(str(said["rule"]), str(said.get("field", "")))
    level = FORMAT if meaning is None else meaning.level
    return str(said.get("requirement", MUST if level == MUST_NOT else level))
