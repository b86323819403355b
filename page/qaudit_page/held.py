"""What held a sender back after each line of a trace, by the state after it. docs/page.md has the
same definitions in words."""

from enum import IntEnum

from .lenient import SPACES
from .said import ELICITING, IN_FLIGHT, KINDS, OF_LOSS
from .texts import plural, size
from .timers import name_of
from .trace import Trace

ACK, SENT, FIRED, DISCARD = (ord(KINDS[name]) for name in ("ack", "sent", "timer", "discard"))
# The least that a datagram may have at most, if no header says it.
LEAST_DATAGRAM = 1_200
# What a line says of the sender, if anything: it sent, it heard an acknowledgment, and that it had
# nothing more to send then.
NEITHER, SENDS, HEARS, LIMITED = range(4)


class Held(IntEnum):
    """What held a sender back. Of several the last one counts."""

    ROOM = 0
    TIMER = 1
    LIMITED = 2
    WINDOW = 3
    PROBE = 4
    LOSS = 5


def needed(trace: Trace) -> int:
    """How many bytes the window has to have left so that it is not full: a datagram, or one byte
    if the header lets the sender overshoot it."""
    if trace.header.get("window_overshoot") is True:
        return 1
    return int(trace.header.get("max_datagram_size", LEAST_DATAGRAM))


def held_after(trace: Trace) -> bytearray:
    """What held the sender back after each row, a code of `Held` each."""
    state, least = trace.state, needed(trace)
    amounts = state.amounts
    columns = (amounts["window"], amounts["in_flight"], amounts["pto_count"], state.timer)
    held = bytearray(
        Held.WINDOW
        if (window or 0) - (flying or 0) < least
        else Held.TIMER
        if timer >= OF_LOSS or (doubled and timer < len(SPACES))
        else Held.ROOM
        for window, flying, doubled, timer in zip(*columns, strict=True)
    )
    for row in limited(trace):
        held[row] = max(held[row], Held.LIMITED)
    for row in probe_owed(trace):
        held[row] = Held.PROBE
    for row, owed in enumerate(state.owed):
        if owed:
            held[row] = Held.LOSS
    return held


# Application limited.


def limited(trace: Trace) -> list[int]:
    """The rows after which the log says that the sender was limited: the acknowledgment before
    them says it, and nothing in flight was sent since, or the one after them says it, and nothing
    in flight is sent before."""
    if not trace.limited:
        return []
    said = said_by_line(trace)
    lines = trace.state.line
    found = bytearray(len(lines))
    for rows, is_back in ((range(len(lines)), False), (range(len(lines) - 1, -1, -1), True)):
        last = NEITHER
        for row in rows:
            what = said[lines[row]]
            # What a line says is of the time after it, and of the time before it.
            if is_back and last == LIMITED:
                found[row] = 1
            last = what or last
            if not is_back and last == LIMITED:
                found[row] = 1
    return [row for row, is_limited in enumerate(found) if is_limited]


def said_by_line(trace: Trace) -> bytearray:
    """What each line says, by its number."""
    said = bytearray(len(trace.lines) + 1)
    for line, flags in zip(trace.packets.line, trace.packets.flags, strict=True):
        if flags & IN_FLIGHT:
            said[line] = SENDS
    for line, _ in trace.acks:
        said[line] = HEARS
    for line in trace.limited:
        said[line] = LIMITED
    return said


# A probe that is owed.


def probe_owed(trace: Trace) -> list[int]:
    """The rows after which a probe is owed (RFC 9002, 6.2.4): there was a probe timeout, and since
    then no ack-eliciting packet of its space was sent, nothing was newly acknowledged and no space
    was discarded."""
    kind, space, lines = trace.kind, trace.space, trace.state.line
    fired = [
        row
        for row, line in enumerate(lines)
        if kind[line - 1] == FIRED and space[line - 1] < OF_LOSS
    ]
    if not fired:
        return []
    sent, newly = eliciting_lines(trace), newly_acknowledging(trace)
    found = []
    for place, first in enumerate(fired):
        end = fired[place + 1] if place + 1 < len(fired) else len(lines)
        of = space[lines[first] - 1]
        for row in range(first, end):
            line = lines[row]
            is_probe = line in sent and space[line - 1] == of
            if is_probe or line in newly or kind[line - 1] == DISCARD:
                break
            found.append(row)
    return found


def eliciting_lines(trace: Trace) -> set[int]:
    """The lines of the packets that are ack-eliciting."""
    packets = trace.packets
    pairs = zip(packets.line, packets.flags, strict=True)
    return {line for line, flags in pairs if flags & ELICITING}


def newly_acknowledging(trace: Trace) -> set[int]:
    """The lines that acknowledge a packet which had not been declared lost."""
    packets = trace.packets
    pairs = zip(packets.acked, packets.lost, strict=True)
    return {acked for acked, lost in pairs if acked and not 0 < lost < acked}


# In words.


def words(trace: Trace, held: int, row: int) -> str:
    """What held the sender back after a row."""
    state = trace.state
    amounts = state.amounts
    room = (amounts["window"][row] or 0) - (amounts["in_flight"][row] or 0)
    left = f"{size(room)} of the window left"
    match held:
        case Held.LOSS:
            return f"a loss is owed: {state.owed_text[row]} is to be declared lost first"
        case Held.PROBE:
            return "a probe is owed since the last probe timeout"
        case Held.WINDOW:
            return f"window full: {fullness(trace, room)}"
        case Held.LIMITED:
            return f"application limited, as the log says, {left}"
        case Held.TIMER:
            return f"waiting for the {name_of(state.timer[row])}{in_a_row(trace, row)}, {left}"
    return f"room in the window and nothing sent, {left}"


def fullness(trace: Trace, room: int) -> str:
    """How full a window is."""
    if room < 0:
        return f"{size(-room)} past it"
    if room == 0:
        return "nothing left"
    return f"{size(room)} left, a datagram has {size(needed(trace))}"


def in_a_row(trace: Trace, row: int) -> str:
    """How many probe timeouts came in a row, if the timer is for another one."""
    doubled = trace.state.amounts["pto_count"][row]
    if trace.state.timer[row] >= OF_LOSS or not doubled:
        return ""
    return f" after {plural(doubled, 'probe timeout')} in a row"
