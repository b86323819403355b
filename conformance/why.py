"""Why a trace is refused or cannot be read, in the words of docs/why.md.

The facts come from the sender of sender.py, and of a line that cannot be read from its report. It
shares nothing with the proved program: where the two write the same bytes, two readings of the
page agree.
"""

import json
from collections.abc import Iterable
from typing import NamedTuple

import caveats
from allowed import rest_of
from amounts import bytes_text, time_text
from constants import (
    K_MINIMUM_WINDOW,
    MAX_LINE_LENGTH,
    METRICS,
    METRICS_IN_BYTES,
    Rule,
)
from names import shown_name
from near import meant
from sender import Deadline, Event, Ranges, Sender
from sources import rule_of, source_of

SHOWN_BYTES = 200
# Where in a log a line is from, by the converter.
PLACE = "x_place"
SHOWN_RUNS = 16
SHOWN_OF_STRING = 40
MICROSECONDS_IN_A_MILLISECOND = 1000
# By so many units of a trace a time may be off by a rounding.
ROUNDING = 10

# What an event did, where the amounts do not stand in the sentence.
DEEDS = {
    Rule.LOSS_OWED: "came while a loss was owed",
    Rule.LOSS_NOT_OWED: "came where nothing is owed in its space",
    Rule.LOSS_SET: "names other packets than those owed",
    Rule.SPACE_GONE: "came after the keys of its space were discarded",
    Rule.NUMBER_NOT_HIGHER: "is not above all that were sent in its space",
    Rule.PAST_PROBE: "goes past what a probe timeout allows",
    Rule.PAST_RECOVERY: "goes past what an entry into recovery allows",
    Rule.ACK_UNSENT: "covers a packet that was never sent",
    Rule.TIMER_NOT_SET: "fired at {time}, where no timer is set",
    Rule.TIMER_OTHER: "fired at {time}, where another is set",
    Rule.PROBE_OWED: "fired at {time}, while a probe was owed",
    Rule.NOT_CONFIRMED: "came before the handshake was confirmed",
    Rule.COLLAPSE_MISSING: "has too great a window behind persistent congestion",
}
BOOLEAN = "true or false"
U64 = "an integer from 0 to 18446744073709551615"
TIME = "an integer from 0 to 1000000000000000"
KINDS = "the string header, sent, ack, lost, timer, discard, confirmed, keys or metrics"
VERSIONS = "the integer 1, 2 or 3"
# What the value of a key has to be.
WANTED = {
    "event": KINDS,
    "version": VERSIONS,
    "role": "the string client or server",
    "unit": "the string us or ns",
    "max_datagram_size": "an integer from 1200 to 65527",
    "max_ack_delay": "an integer from 0 to 16383000, or to 16383000000 where the unit is ns",
    "initial_rtt": "an integer from 1 to 1000000000, or to 1000000000000 where the unit is ns",
    "initial_window": "an integer from twice max_datagram_size to 4294967295",
    "timer_late_us": TIME,
    "refresh_min_rtt": BOOLEAN,
    "report_slack_us": "an integer from 0 to 1000000000",
    "report_slack_bytes": "an integer from 0 to 4294967295",
    "window_overshoot": BOOLEAN,
    "sample_eliciting_only": BOOLEAN,
    "packet_threshold": "an integer from 3 to 65535",
    "loss_by_number": "the string must, or may where window is reported",
    "threshold_counts": "the string numbers or packets",
    "reset_rtt": BOOLEAN,
    "latest_rtt_less_delay": BOOLEAN,
    "time_threshold_eighths": "an integer from 9 to 32",
    "recovery_by_order": BOOLEAN,
    "timer_early_us": "an integer from 0 to 1000000000",
    "time": TIME,
    "space": "the string initial, handshake or app; to discard, initial or handshake",
    "number": "an integer from 0 to 4611686018427387903",
    "size": "an integer from 1 to 65527",
    "eliciting": BOOLEAN,
    "in_flight": BOOLEAN,
    "leave": "the string window, probe or recovery",
    "ranges": "a list of ranges [lo,hi], lo not above hi and hi at most 4611686018427387903",
    "delay": U64,
    "limited": BOOLEAN,
    "kind": "the string loss or pto",
    **dict.fromkeys(METRICS, U64),
}
OF_A_WINDOW = "the string newreno or reported"
FAULTS_OF_A_KEY = {
    "missing": "the key {key} is missing, whose value is {wanted}",
    "wrong-kind": "the value of {key} is of another kind than {wanted}",
    "out-of-range": "the value of {key} is other than {wanted}",
}
FAULTS = {
    "not-json": "the line is not JSON",
    "not-object": "the line is JSON, but no object",
    "unknown-event": f"the string at event names no event; it has to be {KINDS}",
    "line-too-long": f"the line has more than {MAX_LINE_LENGTH} bytes",
    "flags-clash": "an ack-eliciting packet is in flight, and in_flight is false",
    "version": f"the version has to be {VERSIONS}",
    "too-many-lines": "a trace has at most 4294967295 lines",
}
UNSHOWN = ("line-too-long", "too-many-lines")
QLOG = (b'"qlog_version"', b'"qlog_format"', b'"file_schema"')


class Verdict(NamedTuple):
    """The first line of a report, and whether a header stands before the line that it names."""

    word: str
    line: int
    what: str
    is_headed: bool


def verdict_of(report: str) -> Verdict:
    """The verdict of a report."""
    first, *totals = report.splitlines()
    word, *rest = first.split(" ", 3)
    if word == "accepted":
        return Verdict(word, 0, "", is_headed=True)
    return Verdict(word, int(rest[1]), rest[2], bool(totals))


def why(name: str, trace: bytes, report: str) -> bytes:
    """What is written of a trace whose report is this, under a name."""
    verdict = verdict_of(report)
    lines = trace.split(b"\n")
    if verdict.word == "accepted":
        events = next(it for it in report.splitlines() if it.startswith("events "))
        return accepted(name, int(events.split()[1])) + rest_of(trace).text()
    if verdict.word == "unreadable":
        return not_read(name, verdict, lines)
    head = head_of(name, verdict.line, verdict.word, verdict.what)
    return head + refused(verdict, lines) + caveats.text_of(*refusal_of(verdict, lines))


def refusal_of(verdict: Verdict, lines: list[bytes]) -> tuple[list[bytes], caveats.Refusal]:
    """The good lines before a refusal, and the refusal."""
    if verdict.what == Rule.OWED_AT_END:
        return lines, caveats.Refusal(verdict.line, verdict.what, b"")
    before = lines[: verdict.line - 1]
    return before, caveats.Refusal(verdict.line, verdict.what, lines[verdict.line - 1])


def accepted(name: str, events: int) -> bytes:
    """The line of a trace that is accepted with so many events."""
    return f"{shown_name(name)}: accepted, {events} events\n".encode()


def not_read(name: str, verdict: Verdict, lines: list[bytes]) -> bytes:
    """What is written of a trace one of whose lines cannot be read."""
    is_there = verdict.line <= len(lines) and lines[verdict.line - 1] != b""
    line = lines[verdict.line - 1] if is_there else None
    head = head_of(name, verdict.line, verdict.word, verdict.what)
    return head + unreadable(verdict, line)


def head_of(name: str, line: int, word: str, what: str) -> bytes:
    """What a text begins with that is about a line of a trace."""
    return f"{shown_name(name)}:{line}: {word} {what}: ".encode()


def shown(number: int, line: bytes) -> bytes:
    """A line with its number; the first bytes of one that is long."""
    end = b" ..\n" if len(line) > SHOWN_BYTES else b"\n"
    return f"  {number} | ".encode() + printed(line[:SHOWN_BYTES]) + end


def with_place(number: int, line: bytes) -> bytes:
    """A line that breaks a rule as it is shown, and where in a log it is from."""
    return shown(number, line) + caveats.remarks("  in the log: ", PLACE, line)


# Lines that cannot be read.


def unreadable(verdict: Verdict, line: bytes | None) -> bytes:
    """What is wrong with a line, the line, and what the file may be."""
    _, fault, *key = verdict.what.split(" ")
    if fault in UNSHOWN:
        line = None
    text = sentence_of(verdict, fault, key, line).encode() + value_of(fault, key, line) + b"\n"
    if line is None:
        return text
    hint = "" if verdict.is_headed else hint_of(line)
    file_hint = f"  Hint: {hint}\n".encode() if hint else b""
    return text + shown(verdict.line, line) + key_hint(fault, key, line) + file_hint


def key_hint(fault: str, key: list[str], line: bytes) -> bytes:
    """What stands in a line in place of a key that is missing."""
    name = meant(line, key[0]) if fault == "missing" else None
    if name is None:
        return b""
    front = b"  Hint: the key " + printed(name.encode("utf-8", "surrogatepass")[:SHOWN_OF_STRING])
    return front + f" stands there; is it {key[0]}?\n".encode()


def sentence_of(verdict: Verdict, fault: str, key: list[str], line: bytes | None) -> str:
    """What is wrong with a line."""
    if key:
        is_of_a_header = line is not None and json.loads(line).get("event") == "header"
        wanted = OF_A_WINDOW if key == ["window"] and is_of_a_header else WANTED[key[0]]
        return FAULTS_OF_A_KEY[fault].format(key=key[0], wanted=wanted)
    if fault != "header-place":
        return FAULTS[fault]
    if verdict.is_headed:
        return "a header stands before this one: are these two logs, one behind the other?"
    if line is not None:
        return "the first line that is not blank has to be the header"
    return "the input is empty" if verdict.line == 1 else "the input has only blank lines"


def value_of(fault: str, key: list[str], line: bytes | None) -> bytes:
    """The wrong value, which stands at a key."""
    key_of = {"unknown-event": "event", "version": "version"}
    if fault in ("wrong-kind", "out-of-range"):
        key_of[fault] = key[0]
    if line is None or fault not in key_of:
        return b""
    value = json.loads(line, parse_int=integer_or_other)[key_of[fault]]
    return b": it is " + value_text(value)


def integer_or_other(digits: str) -> int | float:
    """An integer, or another number where it is below 0 or more than 64 bits hold."""
    return float(digits) if digits.startswith("-") or int(digits) >= 2**64 else int(digits)


def value_text(value: object) -> bytes:
    """A value, where it is an integer, a string or a truth value, and else what it is."""
    match value:
        case bool():
            return b"true" if value else b"false"
        case int():
            return str(value).encode()
        case str():
            data = value.encode()
            end = b'" ..' if len(data) > SHOWN_OF_STRING else b'"'
            return b'"' + printed(data[:SHOWN_OF_STRING]) + end
        case list():
            return b"a list"
        case dict():
            return b"an object"
    return b"a number that is no integer from 0 to 18446744073709551615"


def printed(data: bytes) -> bytes:
    """Bytes with a question mark for each that is no printable ASCII."""
    return bytes(it if 32 <= it <= 126 else ord("?") for it in data)


def hint_of(line: bytes) -> str:
    """What a file may be whose first line is this, which cannot be read."""
    hints = (
        (line.startswith(b"\x1f\x8b"), unpacked_by("gzip", "zcat")),
        (line.startswith(b"\x28\xb5\x2f\xfd"), unpacked_by("zstd", "zstdcat")),
        (line.startswith(b"\xfd7zXZ\0"), unpacked_by("xz", "xzcat")),
        (line.startswith(b"\xef\xbb\xbf"), "the file begins with a byte order mark; leave it"
         " out."),
        (line.startswith(b"\x1e"), "the file is a JSON text sequence (RFC 7464), as qlog writes;"
         " qlog-to-trace reads it."),
        (any(it in line for it in QLOG), "the file is a qlog file; qlog-to-trace makes traces of"
         " it."),
        (line.startswith((b"\xff\xfe", b"\xfe\xff")) or b"\0" in line, "the file seems to be"
         " UTF-16; write it as UTF-8."),
        (line.startswith(b"["), "the file is a JSON array; a trace has one object on each line."),
        (line.startswith(b"{") and b"}" not in line, "the object goes over several lines; a trace"
         " has one on each line."),
    )
    return next((text for holds, text in hints if holds), "")


def unpacked_by(name: str, command: str) -> str:
    """How a trace, or a log, is read that a program has compressed."""
    return (
        f"the file is compressed by {name}. Use {command} FILE | qaudit-why for a trace,"
        f" {command} FILE | qlog-to-trace | qaudit-why for a qlog."
    )


# Events that break a rule.


def refused(verdict: Verdict, lines: list[bytes]) -> bytes:
    """Why an event is refused, or the end of a trace."""
    said = ((number, said_by(line)) for number, line in enumerate(lines, 1) if line.strip())
    sender = Sender(next(said)[1])
    if verdict.what == Rule.OWED_AT_END:
        for _, event in said:
            sender.follow(event)
        return refused_end(sender)
    for number, event in said:
        if number == verdict.line:
            return breaks(sender, event, verdict.what, with_place(number, lines[number - 1]))
        sender.follow(event)
    raise ValueError("the report names no line of an event")


def refused_end(sender: Sender) -> bytes:
    """Why a trace is refused that ends after what a sender followed."""
    source = source_of(Rule.OWED_AT_END).line
    return f"the trace ends while a loss is owed\n{owed_of(sender)}  {source}\n".encode()


def breaks(sender: Sender, event: Event, what: str, line: bytes) -> bytes:
    """How an event breaks a rule that a report names so, its line as it is shown, the facts of the
    sender before it, and the source."""
    rule, field = rule_of(what)
    rounding = rounding_of(sender, event, field) if rule == Rule.METRIC else ""
    below = facts_of(sender, event, rule) + f"  {source_of(what).line}\n{rounding}"
    return f"{breach_of(sender, event, rule, field)}\n".encode() + line + below.encode()


def breach_of(sender: Sender, event: Event, rule: Rule, field: str) -> str:
    """What an event did that breaks a rule."""
    match rule:
        case Rule.METRIC:
            return report_of(sender, event, field)
        case Rule.TIMER_LATE:
            due, limit = packets_due_of(sender), sender.settings.timer_late
            late = time_of(sender, event["time"] - max(due.time, sender.due_since))
            return f"no timer for {late} past its deadline (limit {time_of(sender, limit or 0)})"
    return f"{subject_of(event)} {deed_of(sender, event, rule)}"


def time_of(sender: Sender, time: int) -> str:
    """A time as people read it."""
    return time_text(time, is_in_nanoseconds=sender.settings.is_in_nanoseconds)


def report_of(sender: Sender, event: Event, field: str) -> str:
    """What is reported, what the model has, and how far that is apart."""

    def text(value: int) -> str:
        return bytes_text(value) if field in METRICS_IN_BYTES else time_of(sender, value)

    value, held = event[field], sender.total(field)
    if held is None:
        return f"reported {field} {text(value)}, the model has none"
    slack = sender.settings.slack_of(field)
    allowed = f", {text(slack)} allowed" if slack else ""
    apart = f"{text(abs(value - held))} apart{allowed}"
    return f"reported {field} {text(value)}, the model has {text(held)} ({apart})"


def rounding_of(sender: Sender, event: Event, field: str) -> str:
    """A hint where a time is off by no more than a rounding."""
    held = sender.total(field)
    if held is None or field in METRICS_IN_BYTES:
        return ""
    millisecond = MICROSECONDS_IN_A_MILLISECOND * sender.settings.microsecond
    apart = abs(event[field] - held)
    if apart < millisecond and event[field] % millisecond == 0:
        return (
            "  Hint: the log may have whole milliseconds."
            ' "report_slack_us":1000 allows for that.\n'
        )
    if apart > ROUNDING:
        return ""
    if sender.settings.is_in_nanoseconds:
        return '  Hint: this may be a rounding. See "report_slack_us".\n'
    return (
        '  Hint: this may be a rounding. Log nanoseconds ("unit":"ns"),'
        ' or see "report_slack_us".\n'
    )


def said_by(line: bytes) -> Event:
    """What a line says; a key whose value is null is absent."""
    keys: Event = json.loads(line)
    return {key: value for key, value in keys.items() if value is not None}


def subject_of(event: Event) -> str:
    """What an event is."""
    match event["event"]:
        case "sent":
            return f"packet {event['number']} of {event['space']}"
        case "ack":
            return f"the acknowledgment of {event['space']}"
        case "lost":
            return f"the lost line of {event['space']}"
        case "timer":
            return f"the {event['kind']} timer of {event['space']}"
        case "discard":
            return f"the discard of {event['space']}"
        case "confirmed":
            return "the confirmation of the handshake"
        case "keys":
            return "the line of the handshake keys"
    return "the report"


def deed_of(sender: Sender, event: Event, rule: Rule) -> str:
    """What an event did that breaks a rule, behind what it is."""
    time, settings = time_of(sender, event["time"]), sender.settings
    match rule:
        case Rule.TIME_BACK:
            before = time_of(sender, sender.last_time or 0)
            return f"is at {time}, before the event before it at {before}"
        case Rule.PAST_WINDOW if settings.may_overshoot:
            return f"is sent where the bytes in flight have reached the window of {sender.window}"
        case Rule.PAST_WINDOW:
            total = sender.bytes_in_flight + event["size"]
            return f"takes the bytes in flight to {total}, past the window of {sender.window}"
        case Rule.TIMER_EARLY:
            early = time_of(sender, due_of(sender).time - event["time"])
            allowed = settings.timer_early
            allowance = f" ({time_of(sender, allowed)} allowed)" if allowed else ""
            return f"fired {early} early, at {time}{allowance}"
    return DEEDS[rule].format(time=time)


def facts_of(sender: Sender, event: Event, rule: Rule) -> str:
    """The facts of a rule, a line each."""
    lines = "".join(f"  {it}\n" for it in facts(sender, event, rule))
    if rule in (Rule.LOSS_NOT_OWED, Rule.LOSS_SET):
        return owed_of(sender) + free_of(sender) + lines
    return owed_of(sender) + lines if rule == Rule.LOSS_OWED else lines


def facts(sender: Sender, event: Event, rule: Rule) -> Iterable[str]:
    """The facts of a rule beside what is owed."""
    match rule:
        case Rule.LOSS_SET:
            may_name = sender.owed_numbers | {it.number for it in sender.free}
            yield from differences_of(event["ranges"], sender.owed_numbers, may_name)
            for low, _ in without(event["ranges"], may_name)[:1]:
                yield from counted_of(sender, event["space"], low)
        case Rule.LOSS_NOT_OWED:
            yield from counted_of(sender, event["space"], event["ranges"][0][0])
        case Rule.NUMBER_NOT_HIGHER:
            greatest = max(sender.spaces[event["space"]].by_number)
            yield f"greatest sent: {event['space']} {greatest}"
        case Rule.ACK_UNSENT:
            first = first_outside(event["ranges"], set(sender.spaces[event["space"]].by_number))
            yield f"{event['space']} {first} was never sent"
        case Rule.PAST_WINDOW | Rule.PAST_PROBE | Rule.PAST_RECOVERY:
            yield leave_of(sender, event, rule)
        case Rule.PROBE_OWED:
            yield f"no ack-eliciting packet followed the probe timeout of {sender.probe_due}"
        case Rule.TIMER_OTHER:
            yield f"set: {set_for(due_of(sender))}"
        case Rule.TIMER_EARLY:
            yield deadline_of(sender, due_of(sender))
        case Rule.TIMER_LATE:
            due, limit = packets_due_of(sender), sender.settings.timer_late
            times = f"since {sender.due_since}; limit {limit}; this event at {event['time']}"
            yield f"set: {set_for(due)}, {times}"
        case Rule.METRIC:
            yield from reported(sender, event)
        case Rule.COLLAPSE_MISSING:
            yield collapse_of(sender, event)


# Packet numbers.


def runs_text(runs: Ranges) -> str:
    """Runs, but for how many there are beyond those that are shown."""
    texts = [f" {low}" if low == high else f" {low}-{high}" for low, high in runs[:SHOWN_RUNS]]
    more = len(runs) - SHOWN_RUNS
    return "".join(texts) + (f" and {more} more runs" if more > 0 else "")


def runs_of(ranges: Ranges) -> Ranges:
    """The same numbers, in as few ranges as there can be, which rise."""
    runs: Ranges = []
    for low, high in sorted(ranges):
        if runs and low <= runs[-1][1] + 1:
            runs[-1][1] = max(runs[-1][1], high)
        else:
            runs.append([low, high])
    return runs


def without(ranges: Ranges, numbers: Iterable[int]) -> Ranges:
    """The numbers of ranges that are not among these."""
    left = runs_of(ranges)
    for number in sorted(numbers):
        parts: Ranges = []
        for low, high in left:
            if low <= number <= high:
                parts += [it for it in ([low, number - 1], [number + 1, high]) if it[0] <= it[1]]
            else:
                parts.append([low, high])
        left = parts
    return left


def differences_of(ranges: Ranges, owed: set[int], may_name: set[int]) -> Iterable[str]:
    """How ranges differ from the numbers that are owed, and from those that they may name."""
    unnamed = [n for n in owed if not any(low <= n <= high for low, high in ranges)]
    unowed = without(ranges, may_name)
    if unnamed:
        yield "owed but not named:" + runs_text(runs_of([[n, n] for n in unnamed]))
    if unowed:
        yield "named but not owed:" + runs_text(unowed)


def first_outside(ranges: Ranges, numbers: set[int]) -> int:
    """The least number of the ranges that is not among these."""
    for low, high in sorted(ranges):
        for number in range(low, high + 1):
            if number not in numbers:
                return number
    raise ValueError("each number is among them")


def owed_of(sender: Sender) -> str:
    """What is owed."""
    if not sender.owed:
        return "  nothing is owed\n"
    runs = runs_of([[number, number] for number in sender.owed_numbers])
    space = sender.detection.space if sender.detection else ""
    lines = "".join(f"  {it}\n" for it in counted_of(sender, space, min(sender.owed_numbers)))
    return f"  owed: {space}{runs_text(runs)}\n{lines}"


def counted_of(sender: Sender, space: str, number: int) -> Iterable[str]:
    """How far a number lies below the largest acknowledged one, where packets are counted."""
    counted = sender.counted(space, number)
    if counted:
        threshold = f"packet_threshold {counted.packet_threshold}"
        yield f"packets sent after {number}, up to {counted.up_to}: {counted.packets} ({threshold})"


def free_of(sender: Sender) -> str:
    """What is free, where the header lets the sender spare packets."""
    if not sender.settings.may_spare:
        return ""
    if sender.detection is None or not sender.free:
        return "  nothing is free\n"
    runs = runs_of([[it.number, it.number] for it in sender.free])
    return f"  free: {sender.detection.space}{runs_text(runs)}\n"


# Leave to send.


def leave_of(sender: Sender, event: Event, rule: Rule) -> str:
    """What a packet may take, and what was taken before it."""
    size, settings = event["size"], sender.settings
    if rule == Rule.PAST_WINDOW:
        total = sender.bytes_in_flight + size
        may = ", which the last packet may overshoot" if settings.may_overshoot else ""
        return f"in flight {sender.bytes_in_flight} + {size} = {total}, window {sender.window}{may}"
    if rule == Rule.PAST_PROBE:
        if sender.probe_spent is None:
            return "no probe timeout yet"
        spent = f"since the last probe timeout, spent {sender.probe_spent}"
        return f"allowed {settings.probe_allowance} {spent}, this packet {size}"
    if sender.recovery_spent is None:
        return "no entry into recovery yet"
    return f"packets by leave of recovery since the last entry: {sender.recovery_spent}"


# Deadlines.


def due_of(sender: Sender) -> Deadline:
    """What the timer is set for. ValueError where it is not set."""
    due = sender.deadline()
    if due is None:
        raise ValueError("no timer is set")
    return due


def packets_due_of(sender: Sender) -> Deadline:
    """What the timer is set for by packets. ValueError where it is not."""
    due = sender.packet_deadline()
    if due is None:
        raise ValueError("no timer is set by packets")
    return due


def set_for(due: Deadline) -> str:
    """What the timer is set for, and when."""
    return f"{due.kind} {due.space} at {due.time}"


def deadline_of(sender: Sender, due: Deadline) -> str:
    """A deadline, and what it is the sum of."""
    front = f"deadline {due.time} ="
    if due.kind == "loss":
        first = min(sender.below_largest(sender.spaces[due.space]), key=lambda it: it.place)
        what = f"packet {first.number} of {due.space} was sent"
        delay = due.time - first.time
        return f"{front} {first.time} ({what}) + {delay} ({rtt_of(sender, delay)})"
    if sender.packet_deadline() is not None:
        since = sender.spaces[due.space].last_eliciting_time
        what = f"the last ack-eliciting packet of {due.space} was sent"
        peer_delay = sender.settings.max_ack_delay if due.space == "app" else 0
    else:
        since, what, peer_delay = sender.last_set, "the timer was set", 0
    if since is None:
        raise ValueError("no timer is set")
    timeout = (
        f"(2^{sender.pto_count} * (smoothed_rtt {sender.smoothed_rtt} + max(4 * rttvar"
        f" {sender.rttvar}, kGranularity) + max_ack_delay {peer_delay}))"
    )
    return f"{front} {since} ({what}) + {due.time - since} {timeout}"


def rtt_of(sender: Sender, delay: int) -> str:
    """What makes a loss delay."""
    longest = max(sender.latest_rtt, sender.smoothed_rtt)
    eighths = int(8 * sender.settings.time_threshold)
    if 8 * delay >= eighths * longest + 8:
        return "kGranularity"
    is_smoothed = sender.latest_rtt < sender.smoothed_rtt
    return f"{eighths}/8 of {'smoothed_rtt' if is_smoothed else 'latest_rtt'} {longest}"


# Reported values.


def reported(sender: Sender, event: Event) -> Iterable[str]:
    """A line of each reported value that is compared and differs."""
    for name in METRICS:
        value = event.get(name)
        if value is None or not sender.is_compared(name) or not sender.differs(name, value):
            continue
        held, slack = sender.total(name), sender.settings.slack_of(name)
        if held is None:
            yield f"{name}: reported {value}, the model has none"
        else:
            gap = f"difference {abs(value - held)}, slack {slack}"
            yield f"{name}: reported {value}, the model has {held}, {gap}"


def collapse_of(sender: Sender, event: Event) -> str:
    """The reported window, and the greatest that is right behind persistent congestion."""
    least = K_MINIMUM_WINDOW * sender.settings.max_datagram_size
    acked, slack = sender.acked_since_collapse, sender.settings.slack_bytes
    if acked is None:
        raise ValueError("there is no persistent congestion")
    sums = f"{least} (two datagrams) + {acked} (acknowledged since) + {slack} (slack)"
    return f"window reported {event['window']}, at most {sums} = {least + acked + slack}"
