"""What an accepted verdict rests on: what the header of the trace allowed, what it chooses, and
what was guessed, as `qaudit-why --json` lists them."""

from collections.abc import Callable
from dataclasses import dataclass

from .failure import Failure
from .program import Object, Verdict
from .texts import NANOSECONDS, count, plural, size, span
from .timers import millisecond

# The rules that a header may let a sender pass, of which this one is about late timers.
TIMER_LATE = "V18"
METRIC = "V16"
GUESSES = "guesses"
UNKNOWN = "unknown"
# The choices of a header in words, and those of them that RFC 9002 does not leave to a sender.
CHOICES = {
    "refresh_min_rtt": "persistent congestion refreshes min_rtt, as RFC 9002, 5.2 recommends",
    "window": "the window is the reported one; its growth and ssthresh were not compared",
    "sample_eliciting_only": "RTT samples of ack-eliciting packets only, against RFC 9002, 5.1",
    "packet_threshold": "a packet threshold of {}; RFC 9002, 6.1.1 recommends 3",
    "loss_by_number": "packets past the packet threshold may be spared (RFC 9002, 6.1.1)",
    "threshold_counts": "the packet threshold counts packets that were sent (RFC 9002, 6.1.1)",
    "reset_rtt": "persistent congestion resets the RTT, as RFC 9002, 5.2 lets a sender do",
    "latest_rtt_less_delay": "the delay is taken off latest_rtt, against RFC 9002, 5.1",
    "time_threshold_eighths": "a time threshold of {}/8; RFC 9002, 6.1.2 recommends 9/8",
    "recovery_by_order": "recovery goes by the order of the lines (RFC 9002, 7.3.2)",
}
DEVIATING = frozenset(("sample_eliciting_only", "latest_rtt_less_delay"))


@dataclass(frozen=True)
class Ground:
    """One thing that a verdict rests on: a short name, what it is called, what there is to say, and
    the first line that it is about; 0 for no line."""

    name: str
    title: str
    told: str
    line: int

    @property
    def text(self) -> str:
        """All of it in words."""
        return f"{self.title}: {self.told}"


@dataclass(frozen=True)
class Basis:
    """All that a verdict rests on, and whether that is more than RFC 9002 leaves to a sender and to
    the timers of a real machine."""

    grounds: tuple[Ground, ...] = ()
    is_amber: bool = False

    @property
    def names(self) -> list[str]:
        """The short names, each once."""
        return list(dict.fromkeys(it.name for it in self.grounds))

    @property
    def is_known(self) -> bool:
        """Whether the program says what the verdict rests on."""
        return UNKNOWN not in self.names

    @property
    def is_allowed(self) -> bool:
        """Whether the header allowed something, and not only lines were guessed."""
        return any(it.name in DEVIATING or it.name.startswith("V") for it in self.grounds)


def basis_of(
    verdict: Verdict, header: Object, line: int, are_short: Callable[[int], bool]
) -> Basis:
    """What an accepted verdict rests on; nothing for another.

    The header stands on a line. Late timers are asked for only if nothing else decides: whether
    each of those that were late by so much at most was late by less than its own timeout.
    """
    said = verdict.said
    if verdict.kind != "accepted":
        return Basis()
    if "allowed" not in said:
        told = "this qaudit-why is older than the page, and does not list it"
        return Basis((Ground(UNKNOWN, "What the verdict rests on is not known", told, 0),), True)
    try:
        allowed, choices, guesses = said["allowed"], said["choices"], said["guesses"]
        late = [greatest(it) for it in allowed if it["rule"] == TIMER_LATE]
        grounds = [*map(of_rule, allowed)]
        grounds += [of_choice(key, header, line) for key in choices]
        grounds += [of_guesses(guesses)] if guesses else []
        is_amber = (
            len(late) < len(allowed)
            or bool(guesses)
            or not DEVIATING.isdisjoint(choices)
            or not all(is_grain(*it) or are_short(it[0]) for it in late)
        )
    except (KeyError, TypeError, ValueError, AttributeError, StopIteration) as fault:
        raise Failure(f"qaudit-why wrote an unknown object for accepted: {fault!r}") from fault
    # Reports can differ in seven values, and so come last.
    return Basis(tuple(sorted(grounds, key=lambda it: it.name == METRIC)), is_amber)


def greatest(said: Object) -> tuple[int, str]:
    """The largest amount that was allowed, and its unit."""
    unit = next(it for it in ("bytes", *NANOSECONDS) if f"greatest_{it}" in said)
    return int(said[f"greatest_{unit}"]), unit


def shown(amount: int, unit: str) -> str:
    """An amount in words."""
    return size(amount) if unit == "bytes" else span(amount, unit)


def of_rule(said: Object) -> Ground:
    """What the header allowed of a rule, or of a value of reports."""
    amount, unit = greatest(said)
    times, first, last = int(said["count"]), int(said["first"]), int(said["last"])
    most = shown(amount, unit)
    if times == 1:
        told = f"once, at line {count(first)}, by {most}"
    else:
        where = f"lines {count(first)} to {count(last)}"
        told = f"{count(times)} times, {where}, by at most {most}"
    rule = str(said["rule"])
    title = " ".join(filter(None, (rule, str(said["name"]), said.get("field"))))
    return Ground(rule, title, f"{told} ({limit(said, unit)})", first)


def limit(said: Object, unit: str) -> str:
    """By which key the header allows it, and how much."""
    key, most = str(said["by"]), said[f"limit_{unit}"]
    if most is not None:
        return f"{key} allows {shown(int(most), unit)}"
    return f"no {key} in the header" if said["rule"] == TIMER_LATE else f"{key} allows it"


def of_choice(key: str, header: Object, line: int) -> Ground:
    """A choice of the header."""
    told = CHOICES.get(key, "another choice of the sender")
    return Ground(key, key, told.format(header.get(key)), line)


def of_guesses(said: Object) -> Ground:
    """How many lines were guessed."""
    times, first = int(said["count"]), int(said["first"])
    lines = f"{plural(times, 'line')}, the first is line {count(first)}"
    told = f"line {count(first)}" if times == 1 else lines
    return Ground(GUESSES, "guessed by the converter", told, first)


def is_grain(amount: int, unit: str) -> bool:
    """Whether a timer that is late by this is late by less than its timeout, however short."""
    return amount < millisecond(unit)
