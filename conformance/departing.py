"""Traces of senders that depart from the rules of conduct again and again, each made from its seed.

The sender and what happens to it by chance are those of `simulate`, whose own traces end behind
their first mistake. Here about a quarter of the events break rules of conduct, and no others; the
sender takes them and goes on. At the end some traces break another rule, have a line that cannot be
read, or owe a loss, and lines follow that nobody may look at.
"""

from functools import cache
from typing import Any, NamedTuple

from constants import MAX_LINE_LENGTH, Rule
from departures import KINDS, is_borne
from faults import UndecidedError, fault_of
from runners import FOLDER, simulate
from sender import Event, Sender, report, report_of
from why import said_by

MAX_EVENTS = 80
SHARE = 0.25
# Rules of the other kind, by which a trace may end.
OTHERS = (
    Rule.TIME_BACK,
    Rule.LOSS_NOT_OWED,
    Rule.NUMBER_NOT_HIGHER,
    Rule.ACK_UNSENT,
    Rule.TIMER_OTHER,
)
# Lines that cannot be read, beside those of lines/ that say one of these.
BAD = (
    b"{",
    b"5",
    b"[]",
    b'{"event":"other","time":1}',
    b'{"time":1}',
    b"x" * (MAX_LINE_LENGTH + 1),
)
KINDS_OF_LINES = ("sent", "ack", "lost", "timer", "discard", "confirmed", "keys", "metrics")
MAX_LENGTH = 300


class Case(NamedTuple):
    """A trace and its report."""

    trace: bytes
    report: str


def case_of(seed: int) -> Case:
    """The trace of a seed, and its report."""
    made = simulate()
    simulation = made.Simulation(seed)
    events, chance = events_of(simulation), simulation.chance
    lines: list[bytes] = made.trace_of([simulation.header, *events], chance)
    behind: list[bytes] = []
    if chance.random() < 0.3:
        fault = chance.choice(list(bad_lines()))
        behind = [chance.choice(bad_lines()[fault]), made.line_of(events[0], chance)]
    return Case(b"\n".join([*lines, *behind]) + b"\n", strict_report(lines, behind))


@cache
def bad_lines() -> dict[str, list[bytes]]:
    """Lines that cannot be read behind a header, by their faults."""
    found: dict[str, list[bytes]] = {}
    files = (FOLDER / "lines" / f"{kind}.lines" for kind in KINDS_OF_LINES)
    lines = (it for file in files for it in file.read_bytes().split(b"\n"))
    for line in (*BAD, *(it for it in lines if len(it) <= MAX_LENGTH)):
        try:
            fault = fault_of(line)
        except UndecidedError:
            continue
        if fault is not None:
            found.setdefault(fault, []).append(line)
    return found


def events_of(simulation: Any) -> list[Event]:
    """Events some of which depart, and at times one that breaks another rule."""
    chance, events = simulation.chance, []
    may_collapse = simulation.settings.is_window_reported
    for _ in range(chance.randint(1, MAX_EVENTS)):
        if may_collapse and chance.random() < 0.05:
            events += simulation.run_to_collapse()
            events += departing(simulation, Rule.COLLAPSE_MISSING)
        is_departing = chance.random() < SHARE
        events += departing(simulation, chance.choice(KINDS)) if is_departing else simulation.run(1)
    events += simulation.run_until(owes=chance.random() < 0.1, max_events=MAX_EVENTS)
    if chance.random() < 0.3:
        wrong = simulation.mistake(chance.choice(OTHERS))
        events += [wrong, *events[:2]] if wrong else []
    return events


def departing(simulation: Any, wanted: str) -> list[Event]:
    """An event that breaks rules of conduct alone, most often this one, where chance finds one; the
    sender takes it."""
    sender = simulation.sender
    event: Event | None = simulation.mistake(wanted)
    rules = list(sender.broken(event)) if event else []
    if event is None or not rules or not all(is_borne(sender, it) for it in rules):
        return []
    sender.follow(event)
    return [event]


def strict_report(lines: list[bytes], behind: list[bytes]) -> str:
    """The report of lines that can be read and of one behind them that cannot, if any."""
    numbered = [(n, line) for n, line in enumerate(lines, 1) if line.strip(b" \t\r")]
    (_, header), *events = [(n, said_by(line)) for n, line in numbered]
    found = report_of(header, events)
    if not behind or found.startswith("refused") and Rule.OWED_AT_END not in found:
        return found
    sender = Sender(header)
    for _, event in events:
        sender.follow(event)
    return report(f"unreadable line {len(lines) + 1} {fault_of(behind[0])}", sender)
