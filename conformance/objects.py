"""Why a trace is refused or cannot be read, as a JSON object, by the tables of docs/why.md.

The facts come from the sender of sender.py, and of a line that cannot be read from its report. It
shares nothing with the proved program: where the two write the same bytes, two readings of the
page agree.
"""

import json
from collections.abc import Iterable

from allowed import rest_of
from constants import (
    K_MINIMUM_WINDOW,
    METRICS,
    METRICS_IN_BYTES,
    Rule,
)
from names import escaped_in_json
from sender import Deadline, Event, Ranges, Sender
from sources import rule_of, source_of
from why import (
    OF_A_WINDOW,
    WANTED,
    Verdict,
    due_of,
    first_outside,
    packets_due_of,
    runs_of,
    said_by,
    verdict_of,
    without,
)

Object = dict[str, object]


def object_line(name: str, trace: bytes, report: str) -> bytes:
    """The line of a trace whose report is this, under a name."""
    return line_of(object_of(name, trace, report))


def line_of(found: Object) -> bytes:
    """An object on a line, without white space, and with nothing that is hidden."""
    text = json.dumps(found, separators=(",", ":"), ensure_ascii=False)
    return escaped_in_json(text).encode() + b"\n"


def object_of(name: str, trace: bytes, report: str) -> Object:
    """The object of a trace whose report is this, under a name."""
    verdict = verdict_of(report)
    front: Object = {"file": name, "verdict": verdict.word}
    if verdict.word == "accepted":
        events = next(it for it in report.splitlines() if it.startswith("events "))
        return front | {"events": int(events.split()[1])} | rest_of(trace).members()
    lines = trace.split(b"\n")
    front |= {"line": verdict.line}
    if verdict.word == "unreadable":
        return front | unreadable(verdict, lines)
    return front | refused(verdict, lines)


def unreadable(verdict: Verdict, lines: list[bytes]) -> Object:
    """What is wrong with a line."""
    number, name, *key = verdict.what.split(" ")
    found: Object = {"fault": number, "name": name}
    if key:
        is_of_a_header = json.loads(lines[verdict.line - 1]).get("event") == "header"
        is_a_choice = key == ["window"] and is_of_a_header
        found |= {"key": key[0], "wanted": OF_A_WINDOW if is_a_choice else WANTED[key[0]]}
    return found | {"behind_header": verdict.is_headed}


def refused(verdict: Verdict, lines: list[bytes]) -> Object:
    """The rule that is broken, the event and the facts; of the end of a trace the facts alone."""
    said = ((at, said_by(line)) for at, line in enumerate(lines, 1) if line.strip())
    header = next(said)[1]
    facts = Facts(Sender(header), unit_of(header))
    for at, event in said:
        if at == verdict.line and verdict.what != Rule.OWED_AT_END:
            return broken(facts, event, verdict.what)
        facts.sender.follow(event)
    return owed_at_end(facts)


def broken(facts: "Facts", event: Event, what: str) -> Object:
    """A rule that an event breaks, as a report names it, the event, and the facts before it."""
    return named(what) | facts.of_event(event) | facts.of_rule(event, rule_of(what)[0])


def owed_at_end(facts: "Facts") -> Object:
    """The rule that a trace breaks which ends so, and the facts."""
    return named(Rule.OWED_AT_END) | facts.of_owed()


def named(what: str) -> Object:
    """A rule that a report names so, its field where it has one, and where it comes from."""
    rule, field = rule_of(what)
    number, name = rule.split(" ")
    found: Object = {"rule": number, "name": name}
    return found | ({"field": field} if field else {}) | source_of(what).members


def unit_of(header: Event) -> str:
    """The unit of the times of a trace."""
    unit: str = header.get("unit") or "us" if header["version"] >= 3 else "us"
    return unit


class Facts:
    """The facts of a refusal, by the sender before it. A key ends with the unit of its amount."""

    def __init__(self, sender: Sender, unit: str) -> None:
        self.sender = sender
        self.unit = unit

    def times(self, **amounts: int | None) -> Object:
        """Amounts in the unit of the trace's times."""
        return {f"{key}_{self.unit}": amount for key, amount in amounts.items()}

    def of_event(self, event: Event) -> Object:
        """What an event is."""
        found: Object = {"event": event["event"]} | self.times(time=event["time"])
        found |= {key: event[key] for key in ("kind", "space", "number") if key in event}
        return found | ({"size_bytes": event["size"]} if "size" in event else {})

    def of_rule(self, event: Event, rule: Rule) -> Object:
        """The facts of a rule."""
        match rule:
            case Rule.TIME_BACK:
                return self.times(before=self.sender.last_time)
            case Rule.LOSS_OWED:
                return self.of_owed()
            case Rule.LOSS_NOT_OWED:
                first = event["ranges"][0][0]
                unowed = self.of_counted("unowed_counted", event["space"], first)
                return self.of_owed() | self.of_free() | unowed
            case Rule.LOSS_SET:
                named = self.of_named(event["space"], event["ranges"])
                return self.of_owed() | self.of_free() | named
            case Rule.NUMBER_NOT_HIGHER | Rule.ACK_UNSENT:
                return self.of_numbers(event, rule)
            case Rule.PAST_WINDOW | Rule.PAST_PROBE | Rule.PAST_RECOVERY:
                return self.of_leave(rule)
            case Rule.TIMER_OTHER:
                return self.of_due(due_of(self.sender))
            case Rule.TIMER_EARLY:
                return self.of_early(event, due_of(self.sender))
            case Rule.PROBE_OWED:
                return {"probe_space": self.sender.probe_due}
            case Rule.METRIC:
                return {"differences": list(self.of_report(event))}
            case Rule.TIMER_LATE:
                return self.of_late(event, packets_due_of(self.sender))
            case Rule.COLLAPSE_MISSING:
                return self.of_collapse(event)
        return {}

    def of_owed(self) -> Object:
        """What is owed."""
        sender = self.sender
        space = sender.detection.space if sender.detection and sender.owed else None
        owed: Object = {"owed_space": space, "owed": runs_of_numbers(sender.owed_numbers)}
        if space is None:
            return owed
        return owed | self.of_counted("owed_counted", space, min(sender.owed_numbers))

    def of_counted(self, key: str, space: str, number: int) -> Object:
        """How far a number lies below the largest acknowledged one, where packets are counted."""
        counted = self.sender.counted(space, number)
        return {key: [counted._asdict()]} if counted else {}

    def of_free(self) -> Object:
        """What is free, where the header lets the sender spare packets."""
        sender = self.sender
        if not sender.settings.may_spare:
            return {"free_space": None, "free": None}
        space = sender.detection.space if sender.detection else None
        return {"free_space": space, "free": runs_of_numbers(it.number for it in sender.free)}

    def of_named(self, space: str, ranges: Ranges) -> Object:
        """How the ranges of a Lost line differ from what it may name."""
        owed = self.sender.owed_numbers
        unnamed = (n for n in owed if not any(low <= n <= high for low, high in ranges))
        may_name = owed | {it.number for it in self.sender.free}
        unowed = without(ranges, may_name)
        named: Object = {"unnamed": runs_of_numbers(unnamed), "unowed": unowed}
        return named | (self.of_counted("unowed_counted", space, unowed[0][0]) if unowed else {})

    def of_numbers(self, event: Event, rule: Rule) -> Object:
        """What was sent in the space of an event."""
        numbers = self.sender.spaces[event["space"]].by_number
        if rule == Rule.NUMBER_NOT_HIGHER:
            return {"greatest_sent": max(numbers)}
        return {"unsent": first_outside(event["ranges"], set(numbers))}

    def of_leave(self, rule: Rule) -> Object:
        """What a packet may take, and what was taken before it."""
        sender, settings = self.sender, self.sender.settings
        if rule == Rule.PAST_WINDOW:
            return {
                "in_flight_bytes": sender.bytes_in_flight,
                "window_bytes": sender.window,
                "window_overshoot": settings.may_overshoot,
            }
        if rule == Rule.PAST_PROBE:
            return {"allowance_bytes": settings.probe_allowance, "spent_bytes": sender.probe_spent}
        return {"spent_packets": sender.recovery_spent}

    def of_due(self, due: Deadline) -> Object:
        """What the timer is set for."""
        return {"set_kind": due.kind, "set_space": due.space} | self.times(deadline=due.time)

    def of_early(self, event: Event, due: Deadline) -> Object:
        """What the timer is set for and why then, and by how much it fired early."""
        allowed = self.sender.settings.timer_early
        off_by = self.times(early=due.time - event["time"], allowed=allowed)
        return self.of_due(due) | off_by | self.of_basis(due)

    def of_basis(self, due: Deadline) -> Object:
        """Why a deadline is what it is."""
        sender = self.sender
        if due.kind == "loss":
            space = sender.spaces[due.space]
            first = min(sender.below_largest(space), key=lambda it: it.place)
            origin = {"counts_from": "packet"} | self.times(counts_from=first.time)
            rtts = self.times(latest_rtt=sender.latest_rtt, smoothed_rtt=sender.smoothed_rtt)
            eighths = int(8 * sender.settings.time_threshold)
            told = {"packet": first.number} | rtts | {"time_threshold_eighths": eighths}
            return origin | told
        what, since, peer_delay = "timer set", sender.last_set, 0
        if sender.packet_deadline() is not None:
            what = "ack-eliciting packet"
            since = sender.spaces[due.space].last_eliciting_time
            peer_delay = sender.settings.max_ack_delay if due.space == "app" else 0
        timeout = self.times(
            smoothed_rtt=sender.smoothed_rtt, rttvar=sender.rttvar, max_ack_delay=peer_delay
        )
        origin = {"counts_from": what} | self.times(counts_from=since)
        return origin | timeout | {"pto_count": sender.pto_count}

    def of_late(self, event: Event, due: Deadline) -> Object:
        """What the timer is set for and since when, and by how much an event comes late."""
        sender = self.sender
        late = event["time"] - max(due.time, sender.due_since)
        off_by = self.times(late=late, allowed=sender.settings.timer_late)
        return self.of_due(due) | self.times(set_since=sender.due_since) | off_by

    def of_report(self, event: Event) -> Iterable[Object]:
        """Each reported value that is compared and differs."""
        sender = self.sender
        for name in METRICS:
            value = event.get(name)
            if value is not None and sender.is_compared(name) and sender.differs(name, value):
                unit = "bytes" if name in METRICS_IN_BYTES else self.unit
                held = sender.total(name)
                yield {
                    "field": name,
                    f"reported_{unit}": value,
                    f"held_{unit}": held,
                    f"difference_{unit}": None if held is None else abs(value - held),
                    f"slack_{unit}": sender.settings.slack_of(name),
                }

    def of_collapse(self, event: Event) -> Object:
        """The reported window, and the greatest that is right behind persistent congestion."""
        settings = self.sender.settings
        return {
            "reported_window_bytes": event["window"],
            "least_bytes": K_MINIMUM_WINDOW * settings.max_datagram_size,
            "acknowledged_bytes": self.sender.acked_since_collapse,
            "slack_bytes": settings.slack_bytes,
        }


def runs_of_numbers(numbers: Iterable[int]) -> Ranges:
    """Numbers as runs."""
    return runs_of([[number, number] for number in numbers])
