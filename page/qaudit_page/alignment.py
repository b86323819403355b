"""How two traces come onto one axis of time: by their handshake if they are the two ends of a
connection, and else by their first packets."""

from bisect import bisect_left, bisect_right
from dataclasses import dataclass
from typing import NamedTuple

from .lenient import SPACES
from .texts import NANOSECONDS, count, milliseconds, plural
from .trace import Trace

INITIAL = SPACES.index("initial")
ROLES = frozenset(("client", "server"))


@dataclass(frozen=True)
class Alignment:
    """How much later the second of two traces is drawn than its clock says, in nanoseconds, and
    how that was found, in words."""

    shift: int
    text: str


class Order(NamedTuple):
    """Of how many acknowledgments an end heard, and before how many of these the other end had
    sent nothing, since the packet that they acknowledge, in which they could have come."""

    heard: int
    early: int


class End:
    """A trace as one of two that are aligned, with its times in nanoseconds."""

    def __init__(self, trace: Trace, name: str) -> None:
        self.trace, self.name = trace, name
        self.sent = [self.time(line) for line in trace.packets.line]

    def time(self, line: int) -> int:
        """The time of a line."""
        return self.trace.time[line - 1] * NANOSECONDS[self.trace.unit]

    def initials(self) -> list[int]:
        """The packets of the Initial space, by their places."""
        packets = self.trace.packets
        return [place for place, space in enumerate(packets.space) if space == INITIAL]

    def first_answer(self) -> tuple[int, int] | None:
        """When the first Initial packet was sent of those that the first acknowledgment of one
        covers, and when that came; None where none came."""
        acked = self.trace.packets.acked
        answered = [place for place in self.initials() if acked[place]]
        if not answered:
            return None
        line = min(acked[place] for place in answered)
        sent = min(self.sent[place] for place in answered if acked[place] == line)
        return sent, self.time(line)

    def first_sent(self, *, arrives: bool) -> int | None:
        """When its first Initial packet was sent, or the first that was not declared lost."""
        lost = self.trace.packets.lost
        places = [place for place in self.initials() if not (arrives and lost[place])]
        return self.sent[places[0]] if places else None


def are_both_ends(first: Trace, second: Trace) -> bool:
    """Whether one trace is of a client and the other of a server."""
    return {first.header.get("role"), second.header.get("role")} == ROLES


def alignment_of(first: End, second: End) -> Alignment:
    """How the second of two traces is aligned with the first."""
    if not are_both_ends(first.trace, second.trace):
        return by_first_packets(first, second, "")
    is_client = first.trace.header.get("role") == "client"
    client, server = (first, second) if is_client else (second, first)
    found = by_handshake(client, server)
    if found is None:
        told = "These traces do not have the packets of one handshake. "
        return by_first_packets(first, second, told)
    later, words = found
    shift = later if is_client else -later
    order = order_of(first, second, shift)
    return Alignment(shift, f"{moved(second, shift)} {words} {order}")


def by_handshake(client: End, server: End) -> tuple[int, str] | None:
    """How much later a server's trace has to be drawn so that its first packet lies half way
    between the client's and the acknowledgment that the client heard first, and that in words;
    None where there are no such packets, or in no such order."""
    answer = client.first_answer()
    begins, arrives = server.first_sent(arrives=False), server.first_sent(arrives=True)
    if answer is None or begins is None or arrives is None:
        return None
    # What the server sent first came after the first of these and before the second.
    low, high = answer[0] - begins, answer[1] - arrives
    if low > high:
        return None
    half = milliseconds((high - low) // 2, "ns")
    asked = f"the Initial packet of {client.name} that it answers"
    if begins == arrives:
        words = f"is half way between {asked} and the acknowledgment of that: {half} from each."
    else:
        words = (
            f"is {half} after {asked}, and the first one that was not lost {half} before the"
            " acknowledgment of that."
        )
    return (low + high) // 2, f"So the first packet of {server.name} {words}"


def by_first_packets(first: End, second: End, told: str) -> Alignment:
    """An alignment by the first packets that both sent."""
    if not first.sent or not second.sent:
        return Alignment(0, f"{told}Both have the times of their own clocks: one sent no packet.")
    shift = first.sent[0] - second.sent[0]
    words = "So both send their first packet at once."
    return Alignment(shift, f"{told}{moved(second, shift)} {words}")


def moved(end: End, shift: int) -> str:
    """By how much a trace is drawn later or earlier."""
    if not shift:
        return f"{end.name} has the times of its own clock."
    way = "later" if shift > 0 else "earlier"
    return f"{end.name} is drawn {milliseconds(abs(shift), 'ns')} {way} than its clock says."


# What one end heard, and the other sent.


def order_of(first: End, second: End, shift: int) -> str:
    """Whether the acknowledgments that either end heard are in order with what the other sent."""
    orders = [heard_in_order(first, second, shift), heard_in_order(second, first, -shift)]
    heard, early = (sum(values) for values in zip(*orders, strict=True))
    if not early:
        return f"All {plural(heard, 'acknowledgment')} then follow a packet in which they can come."
    told = f"Of {plural(heard, 'acknowledgment')}, {count(early)} then follow no packet in which"
    doubt = " These may be the ends of two connections." if 2 * early > heard else ""
    return f"{told} they can come: the log does not have it, or the clocks drift.{doubt}"


def heard_in_order(end: End, other: End, shift: int) -> Order:
    """The acknowledgments that an end heard and that acknowledge something, against the packets of
    the other end, which are drawn this much later."""
    latest: dict[int, int] = {}
    for place, line in enumerate(end.trace.packets.acked):
        if line and place < len(end.sent):
            latest[line] = max(latest.get(line, 0), end.sent[place])
    sent = sorted(time + shift for time in other.sent)
    early = sum(
        bisect_left(sent, since) == bisect_right(sent, end.time(line))
        for line, since in latest.items()
    )
    return Order(len(latest), early)
