"""The amounts by which a line is refused, from the object that `qaudit-why --json` writes."""

from collections.abc import Callable

from .failure import Failure
from .program import Object
from .texts import Ranges, count, milliseconds, runs, size

Facts = list[tuple[str, str]]
SET_FOR = {"loss": "loss timer", "pto": "probe timeout"}


class Amounts:
    """The amounts of a refusal, in the unit of its times."""

    def __init__(self, said: Object, unit: str) -> None:
        self.said, self.unit = said, unit

    def number(self, key: str) -> int:
        """An amount without a unit."""
        value = self.said[key]
        return value if isinstance(value, int) else 0

    def has(self, key: str) -> bool:
        """Whether there is an amount at a key."""
        return self.said.get(key) is not None

    def time(self, key: str) -> int:
        """A time by its key without the unit."""
        return self.number(f"{key}_{self.unit}")

    def shown(self, key: str) -> str:
        """A time in milliseconds."""
        return milliseconds(self.time(key), self.unit)

    def after(self, amount: int) -> str:
        """A length of time."""
        return milliseconds(amount, self.unit)

    def numbers(self, key: str) -> str:
        """Runs of packet numbers."""
        ranges: Ranges = self.said[key]
        return runs(ranges)

    def packet(self) -> str:
        """The packet of the line."""
        return f"{self.said['space']} {self.number('number')}, {size(self.number('size_bytes'))}"


def facts_of(said: Object, unit: str) -> Facts:
    """The amounts that decide of what is refused or cannot be read."""
    try:
        return told_of(said, unit)
    except (KeyError, TypeError, ValueError, AttributeError, StopIteration) as fault:
        raise Failure(
            f"qaudit-why wrote an unknown object for {said['verdict']}: {fault!r}"
        ) from fault


def told_of(said: Object, unit: str) -> Facts:
    """The same; the errors of Python where something is missing."""
    of_rule: dict[str, Callable[[Amounts], Facts]] = {
        "V1": of_time_back,
        "V2": of_losses,
        "V3": of_losses,
        "V4": of_losses,
        "V6": of_numbers,
        "V7": of_window,
        "V8": of_probe,
        "V9": of_recovery,
        "V10": of_numbers,
        "V11": of_timer,
        "V12": of_timer,
        "V13": of_early,
        "V14": of_timer,
        "V16": of_report,
        "V17": of_losses,
        "V18": of_late,
        "V19": of_collapse,
    }
    rule = said.get("rule")
    if isinstance(rule, str):
        amounts = Amounts(said, unit)
        return of_event(amounts) + (of_rule[rule](amounts) if rule in of_rule else [])
    if "key" in said:
        return [("key", str(said["key"])), ("its value has to be", str(said["wanted"]))]
    return []


def of_event(amounts: Amounts) -> Facts:
    """What the event is, of every rule."""
    said = amounts.said
    if "event" not in said:
        return []
    told = [("event", str(said["event"])), ("at", amounts.shown("time"))]
    if "number" in said:
        return [("packet", amounts.packet()), ("at", amounts.shown("time"))]
    if "kind" in said:
        told[0] = ("fired", f"{SET_FOR[str(said['kind'])]} of {said['space']}")
    elif "space" in said:
        told[0] = ("event", f"{said['event']} of {said['space']}")
    return told


def of_time_back(amounts: Amounts) -> Facts:
    """By how much time goes back."""
    back = amounts.time("before") - amounts.time("time")
    return [("the event before is at", amounts.shown("before")), ("back by", amounts.after(back))]


def of_losses(amounts: Amounts) -> Facts:
    """What is owed and free, and how a Lost line differs."""
    said, told = amounts.said, []
    owed = f"{said['owed_space']} {amounts.numbers('owed')}" if said["owed"] else "nothing"
    told.append(("owed", owed))
    told += counted(said, "owed")
    if amounts.has("free"):
        free = f"{said['free_space']} {amounts.numbers('free')}" if said["free"] else "nothing"
        told.append(("free to be declared", free))
    for key, label in (("unnamed", "owed and not named"), ("unowed", "named and not owed")):
        if said.get(key):
            told.append((label, amounts.numbers(key)))
    return told + counted(said, "unowed")


def counted(said: Object, key: str) -> Facts:
    """How many packets were sent after each of these, if the header says that the packet threshold
    counts packets."""
    return [
        (
            f"packets sent after {it['number']}, up to {it['up_to']}",
            f"{it['packets']} (packet_threshold {it['packet_threshold']})",
        )
        for it in said.get(f"{key}_counted") or []
    ]


def of_numbers(amounts: Amounts) -> Facts:
    """The number that decides."""
    if amounts.has("greatest_sent"):
        return [("highest sent in its space", str(amounts.number("greatest_sent")))]
    return [("never sent", f"{amounts.said['space']} {amounts.number('unsent')}")]


def of_window(amounts: Amounts) -> Facts:
    """How far past the window a packet goes."""
    flying, window = amounts.number("in_flight_bytes"), amounts.number("window_bytes")
    packet = amounts.number("size_bytes")
    if amounts.said.get("window_overshoot"):
        before = f"{size(flying)}, which leaves nothing of the window"
        return [("in flight before it", before), ("window", size(window))]
    total = flying + packet
    return [
        ("in flight with it", f"{count(flying)} + {count(packet)} = {size(total)}"),
        ("window", size(window)),
        ("past it by", size(total - window)),
    ]


def of_probe(amounts: Amounts) -> Facts:
    """What a probe timeout allows, and what was spent."""
    if not amounts.has("spent_bytes"):
        would = size(amounts.number("allowance_bytes"))
        return [("probe timeouts before it", "none"), ("one would allow", would)]
    spent, packet = amounts.number("spent_bytes"), amounts.number("size_bytes")
    allowed = amounts.number("allowance_bytes")
    return [
        (
            "sent since the last probe timeout",
            f"{count(spent)} + {count(packet)} =" f" {size(spent + packet)}",
        ),
        ("allowed", size(allowed)),
        ("past it by", size(spent + packet - allowed)),
    ]


def of_recovery(amounts: Amounts) -> Facts:
    """How many recovery packets were sent."""
    if not amounts.has("spent_packets"):
        return [("entries into recovery before it", "none")]
    spent = str(amounts.number("spent_packets"))
    return [("recovery packets since the last entry", spent), ("allowed", "1")]


def set_for(amounts: Amounts) -> Facts:
    """What the timer is set for."""
    name = SET_FOR[str(amounts.said["set_kind"])]
    deadline = amounts.shown("deadline")
    return [("the timer is set for", f"{name} of {amounts.said['set_space']}, {deadline}")]


def of_timer(amounts: Amounts) -> Facts:
    """What else is due."""
    if amounts.has("set_kind"):
        return set_for(amounts)
    if amounts.has("probe_space"):
        return [("probe due since a probe timeout of", str(amounts.said["probe_space"]))]
    return [("the timer is set for", "nothing")]


def of_early(amounts: Amounts) -> Facts:
    """By how much a timer is early, and how its deadline comes about."""
    since, due = amounts.time("counts_from"), amounts.time("deadline")
    told = [("early by", amounts.shown("early"))]
    if amounts.time("allowed"):
        told.append(("allowed", amounts.shown("allowed")))
    told.append(
        (
            "deadline",
            f"{amounts.after(since)} + {amounts.after(due - since)} = {amounts.after(due)}",
        )
    )
    if amounts.said["counts_from"] == "packet":
        packet = f"packet {amounts.number('packet')} of {amounts.said['set_space']} was sent"
        greater = max(("latest_rtt", "smoothed_rtt"), key=amounts.time)
        eighths = amounts.number("time_threshold_eighths")
        basis = f"{eighths}/8 of {greater} {amounts.shown(greater)}"
        return [*told, ("counted from", f"when {packet}"), ("loss delay", basis)]
    since_what = {
        "ack-eliciting packet": f"the last ack-eliciting packet of {amounts.said['set_space']}",
        "timer set": "when the timer was set",
    }[str(amounts.said["counts_from"])]
    basis = (
        f"2^{amounts.number('pto_count')} * (smoothed_rtt {amounts.shown('smoothed_rtt')} +"
        f" max(4 * rttvar {amounts.shown('rttvar')}, 1 ms) +"
        f" max_ack_delay {amounts.shown('max_ack_delay')})"
    )
    return [*told, ("counted from", since_what), ("probe timeout", basis)]


def of_report(amounts: Amounts) -> Facts:
    """Each value that differs."""
    told: Facts = []
    for it in amounts.said["differences"]:
        name = str(it["field"])
        unit = next(key for key in it if key.startswith("reported_")).removeprefix("reported_")
        shown = {
            what: None
            if it[f"{what}_{unit}"] is None
            else size(it[f"{what}_{unit}"])
            if unit == "bytes"
            else amounts.after(it[f"{what}_{unit}"])
            for what in ("reported", "held", "difference", "slack")
        }
        held = shown["held"] or "none"
        differs = f", {shown['difference']} apart" if shown["difference"] else ""
        allowed = f", {shown['slack']} allowed" if it[f"slack_{unit}"] else ""
        told.append(
            (name, f"reported {shown['reported']}, expected {held}" f"{differs}{allowed}")
        )
    return told


def of_late(amounts: Amounts) -> Facts:
    """By how much an event is late."""
    return [
        *set_for(amounts),
        ("set so since", amounts.shown("set_since")),
        ("late by", amounts.shown("late")),
        ("allowed", amounts.shown("allowed")),
    ]


def of_collapse(amounts: Amounts) -> Facts:
    """By how much a window is too great behind persistent congestion."""
    parts = [amounts.number(f"{key}_bytes") for key in ("least", "acknowledged", "slack")]
    least, acknowledged, slack = map(count, parts)
    reported = amounts.number("reported_window_bytes")
    return [
        ("window reported", size(reported)),
        (
            "at most",
            f"{least} (two datagrams) + {acknowledged} (acknowledged since) +"
            f" {slack} (slack) = {size(sum(parts))}",
        ),
        ("past it by", size(reported - sum(parts))),
    ]
