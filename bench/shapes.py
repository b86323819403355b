"""The shapes of long traces, each a sender's log that goes on for ever.

A shape yields rounds, and a trace may end behind any of them: no loss is owed there. Times and
packet numbers begin so high that all lines of a kind are about as long at the end as at the
beginning. So the cost of reading a line does not grow, and what grows is the auditor's.
"""

import itertools
from collections import deque
from collections.abc import Callable, Iterable, Iterator
from typing import Any, NamedTuple

import conformance_path  # noqa: F401
from constants import DEFAULT_MAX_ACK_DELAY, K_GRANULARITY
from forms import Form, Span, Writer

Round = list[bytes]

FIRST_TIME = 1_000_000_000
FIRST_NUMBER = 100_000_000
# Microseconds between two events. Ten steps are less than the least age at which a packet is lost.
STEP = 50
SIZE = 1200
# Of packets that have to fit many times into a window of two datagrams.
SMALL = 100
INITIAL_WINDOW = 12_000
# A window into which all packets of a trace fit.
WIDE_WINDOW = 4_294_967_295
RANGES = 32
FEW_RANGES = 6
# Pairs of packets that go well between two losses, where a receiver repeats its ranges.
PAIRS_BETWEEN_GAPS = 8
SPACES = (b"initial", b"handshake", b"app")

HEADER = (
    b'{"event":"header","version":1,"role":"server","max_datagram_size":1200,"initial_window":%d}'
)
PACKET = b'{"event":"sent","time":%d,"space":"%s","number":%d,"size":%d'
SENT = PACKET + b',"eliciting":true,"in_flight":true}'
SENT_ALONE = PACKET + b',"eliciting":false,"in_flight":false}'
BY_WINDOW = SENT[:-1] + b',"leave":"window"}'
PROBE = SENT[:-1] + b',"leave":"probe"}'
ACK = b'{"event":"ack","time":%d,"space":"%s","ranges":%s}'
DELAYED = ACK[:-1] + b',"delay":25}'
APP_LIMITED = ACK[:-1] + b',"delay":0,"limited":true}'
LOST = b'{"event":"lost","time":%d,"space":"app","ranges":%s}'
LOSS_TIMER = b'{"event":"timer","time":%d,"kind":"loss","space":"app"}'
PTO = b'{"event":"timer","time":%d,"kind":"pto","space":"%s"}'
DISCARD = b'{"event":"discard","time":%d,"space":"%s"}'
CONFIRMED = b'{"event":"confirmed","time":%d}'
KEYS = b'{"event":"keys","time":%d}'
METRICS = (
    b'{"event":"metrics","time":%d,"window":%d,"bytes_in_flight":%d,'
    b'"latest_rtt":%d,"min_rtt":%d,"smoothed_rtt":%d}'
)


class Log:
    """Makes the lines of events, each a step later than the one before."""

    def __init__(self, form: Form) -> None:
        self.writer = Writer(form)
        self.time = FIRST_TIME

    def event(self, template: bytes, *values: Any) -> bytes:
        """An event with these values behind its time."""
        self.time += STEP
        return self.writer.line(template, self.time, *values)

    def sent(
        self, number: int, size: int = SIZE, space: bytes = b"app", template: bytes = SENT
    ) -> bytes:
        """A packet is sent."""
        return self.event(template, space, number, size)

    def ack(self, ranges: Iterable[Span], space: bytes = b"app", template: bytes = ACK) -> bytes:
        """An acknowledgment comes."""
        return self.event(template, space, self.writer.ranges(ranges))

    def lost(self, ranges: Iterable[Span]) -> bytes:
        """Packets of application data are declared lost."""
        return self.event(LOST, self.writer.ranges(ranges))

    def until(self, time: int) -> None:
        """Nothing happens before this time, which is when the next event is."""
        self.time = time - STEP


def plain(log: Log) -> Iterator[Round]:
    """An acknowledgment for every two packets, which names all packets so far."""
    for number in itertools.count(FIRST_NUMBER, 2):
        yield [log.sent(number), log.sent(number + 1), log.ack([(FIRST_NUMBER, number + 1)])]


def one_open(log: Log) -> Iterator[Round]:
    """The plain shape behind a packet that is not in flight and never acknowledged."""
    yield [log.sent(FIRST_NUMBER - 1, template=SENT_ALONE)]
    yield from plain(log)


def unacknowledged(log: Log) -> Iterator[Round]:
    """Packets in flight, and no acknowledgment ever."""
    for number in itertools.count(FIRST_NUMBER):
        yield [log.sent(number, SMALL)]


def not_in_flight(log: Log) -> Iterator[Round]:
    """Packets that are not in flight, and no acknowledgment ever."""
    for number in itertools.count(FIRST_NUMBER):
        yield [log.sent(number, template=SENT_ALONE)]


def half_open(log: Log) -> Iterator[Round]:
    """Every second packet only acknowledges, is lost, and so stays open to the end."""
    for number in itertools.count(FIRST_NUMBER, 2):
        alone = log.sent(number, template=SENT_ALONE)
        yield [alone, log.sent(number + 1), log.ack([(number + 1, number + 1)])]


def lost_acks(log: Log) -> Iterator[Round]:
    """Of each nine packets one only acknowledges and is lost. Those behind it are acknowledged."""
    for number in itertools.count(FIRST_NUMBER, 9):
        lines = [log.sent(number, template=SENT_ALONE)]
        for at in range(number + 1, number + 9, 2):
            lines += [log.sent(at), log.sent(at + 1), log.ack([(number + 1, at + 1)])]
        yield lines


def many_ranges(log: Log) -> Iterator[Round]:
    """Every second packet is lost, so that an acknowledgment names 32 ranges of one packet."""
    named: deque[Span] = deque(maxlen=RANGES)
    owed: list[Span] = []
    for number in itertools.count(FIRST_NUMBER, 2):
        named.appendleft((number + 1, number + 1))
        lines = [log.sent(number, SMALL), log.sent(number + 1, SMALL), log.ack(named)]
        yield lines + [log.lost([span]) for span in owed]
        owed = [(number, number)]


def skipped(log: Log) -> Iterator[Round]:
    """Every second number is skipped, and all packets are acknowledged."""
    for number in itertools.count(FIRST_NUMBER, 4):
        ranges = [(number + 2, number + 2), (number, number)]
        yield [log.sent(number), log.sent(number + 2), log.ack(ranges)]


def last_of(log: Log, count: int) -> Iterator[Round]:
    """Of so many packets the last is acknowledged. Those that are three or more below it are lost,
    and the two between are lost at the next acknowledgment."""
    owed: list[Span] = []
    for number in itertools.count(FIRST_NUMBER, count):
        last = number + count - 1
        packets = [log.sent(it, SMALL) for it in range(number, number + count)]
        yield [*packets, log.ack([(last, last)]), log.lost([*owed, (number, last - 3)])]
        owed = [(last - 2, last - 1)]


def lost(log: Log) -> Iterator[Round]:
    """Of four packets three are lost."""
    return last_of(log, 4)


def all_lost(log: Log) -> Iterator[Round]:
    """All packets are lost but one of sixteen, without which no loss would be seen."""
    return last_of(log, 16)


def lost_after(log: Log) -> Iterator[Round]:
    """The same behind a packet that is not in flight and never acknowledged."""
    yield [log.sent(FIRST_NUMBER - 1, template=SENT_ALONE)]
    yield from all_lost(log)


def pair(log: Log, number: int, first: int, old: Iterable[Span]) -> Round:
    """Two packets, and an acknowledgment of all from a number on, with older ranges behind it."""
    packets = [log.sent(number), log.sent(number + 1)]
    return [*packets, log.ack([(first, number + 1), *old], template=DELAYED)]


def repeating(log: Log, ranges: int) -> Iterator[Round]:
    """An acknowledgment for every two packets that repeats older ranges, as receivers write it: of
    so many ranges the first alone says anything new. Of each twenty packets one is lost."""
    old: deque[Span] = deque(maxlen=ranges - 1)
    first = number = FIRST_NUMBER
    while True:
        for _ in range(PAIRS_BETWEEN_GAPS):
            yield pair(log, number, first, old)
            number += 2
        old.appendleft((first, number - 1))
        first = number + 1
        lines = pair(log, number, first, old) + pair(log, number + 2, first, old)
        yield [*lines, log.lost([(number, number)])]
        number += 4


def receiver(log: Log) -> Iterator[Round]:
    """Six ranges, of which five are old."""
    return repeating(log, FEW_RANGES)


def receiver_32(log: Log) -> Iterator[Round]:
    """32 ranges, of which 31 are old."""
    return repeating(log, RANGES)


def receiver_32_bare(log: Log) -> Iterator[Round]:
    """The same behind a packet that is not in flight and never acknowledged."""
    yield [log.sent(FIRST_NUMBER - 1, template=SENT_ALONE)]
    yield from repeating(log, RANGES)


def three_spaces(log: Log) -> Iterator[Round]:
    """The three spaces in turn, with an acknowledgment for every two packets of each."""
    for number in itertools.count(FIRST_NUMBER, 2):
        packets = [log.sent(number + place, space=space) for place in range(2) for space in SPACES]
        yield packets + [log.ack([(FIRST_NUMBER, number + 1)], space) for space in SPACES]


# A transfer in which all goes well but for a loss now and then.

# So many packets go well between two losses.
PACKETS_BETWEEN_LOSSES = 40


def smooth(log: Log, number: int, since: int) -> Round:
    """Two packets are acknowledged, with all since the last loss."""
    return [
        log.sent(number),
        log.sent(number + 1),
        log.ack([(since, number + 1)], template=DELAYED),
    ]


def lost_by_packet_threshold(log: Log, number: int) -> Round:
    """The first of four packets is lost, since it is three below the last."""
    return [
        log.sent(number),
        log.sent(number + 1),
        log.ack([(number + 1, number + 1)], template=DELAYED),
        log.sent(number + 2),
        log.sent(number + 3),
        log.ack([(number + 1, number + 3)], template=DELAYED),
        log.lost([(number, number)]),
    ]


def lost_by_time_threshold(log: Log, number: int) -> Round:
    """The first of two packets is lost, since its timer fires."""
    packets = [log.sent(number), log.sent(number + 1)]
    due = log.time - STEP + K_GRANULARITY
    ack = log.ack([(number + 1, number + 1)], template=DELAYED)
    log.until(due)
    return [*packets, ack, log.event(LOSS_TIMER), log.lost([(number, number)])]


def lost_at_the_end(log: Log, number: int) -> Round:
    """Two packets are lost and nothing follows them, so that a probe timeout fires. The
    acknowledgment of its two probes shows both losses."""
    packets = [log.sent(number), log.sent(number + 1)]
    log.until(log.time + STEP + K_GRANULARITY + DEFAULT_MAX_ACK_DELAY)
    return [
        *packets,
        log.event(PTO, b"app"),
        log.sent(number + 2, template=PROBE),
        log.sent(number + 3, template=PROBE),
        log.ack([(number + 2, number + 3)], template=DELAYED),
        log.lost([(number, number + 1)]),
    ]


def steady(log: Log) -> Iterator[Round]:
    """An acknowledgment for every two packets, and now and then a loss: by number, by time, at the
    end of a flight."""
    yield [log.event(CONFIRMED)]
    number = FIRST_NUMBER
    for losing, packets in itertools.cycle(
        [(lost_by_packet_threshold, 4), (lost_by_time_threshold, 2), (lost_at_the_end, 4)]
    ):
        end = number + PACKETS_BETWEEN_LOSSES
        for it in range(number, end, 2):
            yield smooth(log, it, number)
        yield losing(log, end)
        number = end + packets


# A handshake that goes on and on, with all kinds of lines but losses.

ROUNDS_BETWEEN_TIMEOUTS = 8
# From the last packet of a space to its acknowledgment.
ROUND_TRIP = 3 * STEP


class Numbers(dict[bytes, int]):
    """The next number of each space."""

    def take(self, space: bytes) -> int:
        """The next number of a space, which is taken by that."""
        self[space] += 1
        return self[space] - 1

    def taken(self, space: bytes) -> list[Span]:
        """All numbers of a space that were taken."""
        return [(FIRST_NUMBER, self[space] - 1)]


def in_turn(log: Log, numbers: Numbers) -> Round:
    """Two packets of each space, their acknowledgments, and a report."""
    packets = [
        log.sent(numbers.take(space), space=space, template=BY_WINDOW)
        for _ in range(2)
        for space in SPACES
    ]
    acks = [log.ack(numbers.taken(space), space, APP_LIMITED) for space in SPACES]
    return [
        *packets,
        *acks,
        log.event(METRICS, INITIAL_WINDOW, 0, ROUND_TRIP, ROUND_TRIP, ROUND_TRIP),
    ]


def probed(log: Log, numbers: Numbers) -> Round:
    """Two Initial packets are not acknowledged before a probe was sent. Then the keys of the
    Handshake space are said to be there."""
    packets = [log.sent(numbers.take(b"initial"), space=b"initial") for _ in range(2)]
    log.until(log.time + ROUND_TRIP + K_GRANULARITY)
    timer = log.event(PTO, b"initial")
    probe = log.sent(numbers.take(b"initial"), space=b"initial", template=PROBE)
    log.until(log.time + ROUND_TRIP)
    return [
        *packets,
        timer,
        probe,
        log.ack(numbers.taken(b"initial"), b"initial", APP_LIMITED),
        log.event(KEYS),
    ]


def mixed(log: Log) -> Iterator[Round]:
    """The three spaces in turn, with reports, probe timeouts, and lines of the handshake."""
    numbers = Numbers((space, FIRST_NUMBER) for space in SPACES)
    while True:
        for _ in range(ROUNDS_BETWEEN_TIMEOUTS):
            yield in_turn(log, numbers)
        yield probed(log, numbers)


def end_of_handshake(log: Log) -> Round:
    """The handshake is confirmed, and its keys are discarded."""
    return [log.event(CONFIRMED), log.event(DISCARD, b"initial"), log.event(DISCARD, b"handshake")]


# Pairs of packets of application data in a short connection.
PAIRS_OF_A_REPLY = 10


def short_connection(log: Log) -> Iterator[Round]:
    """A server's connection from its first packet to the last acknowledgment of a short reply, with
    numbers and times that begin at 0."""
    log.until(0)
    yield [
        log.sent(0, space=b"initial"),
        *(log.sent(number, space=b"handshake") for number in range(2)),
        log.ack([(0, 0)], b"initial"),
        log.ack([(0, 1)], b"handshake"),
        *end_of_handshake(log),
        *itertools.chain.from_iterable(
            pair(log, number, 0, []) for number in range(0, 2 * PAIRS_OF_A_REPLY, 2)
        ),
    ]


def no_ending(_log: Log) -> Round:
    """A trace ends behind any round."""
    return []


class Shape(NamedTuple):
    """A name, what makes the rounds, the window at the start, and the last round of a trace."""

    name: str
    rounds: Callable[[Log], Iterator[Round]]
    initial_window: int = INITIAL_WINDOW
    ending: Callable[[Log], Round] = no_ending


UNACKNOWLEDGED = Shape("unacknowledged", unacknowledged, WIDE_WINDOW)
MANY_RANGES = Shape("32-ranges", many_ranges)
# Whose growth is measured.
SHAPES = (
    Shape("plain", plain),
    Shape("one-open", one_open),
    UNACKNOWLEDGED,
    Shape("not-in-flight", not_in_flight),
    Shape("half-open", half_open),
    Shape("lost-acks", lost_acks),
    MANY_RANGES,
    Shape("skipped", skipped),
    Shape("lost", lost),
    Shape("lost-after", lost_after),
    Shape("three-spaces", three_spaces),
)
# Which are compared with other readers.
STEADY = Shape("steady", steady)
MIXED = Shape("mixed", mixed, ending=end_of_handshake)
ALL_LOST = Shape("all-lost", all_lost)
RECEIVERS = (
    Shape("receiver", receiver),
    Shape("receiver-32", receiver_32),
    Shape("receiver-32-bare", receiver_32_bare),
)
# One connection, which connections.py has audited again and again.
HANDSHAKE = Shape("handshake", short_connection)
COMPARED = (STEADY, MIXED, MANY_RANGES, UNACKNOWLEDGED, ALL_LOST, *RECEIVERS)


def header_of(shape: Shape, form: Form) -> bytes:
    """The line of the header."""
    return Writer(form).line(HEADER, shape.initial_window)


def rounds_of(shape: Shape, form: Form, least: int) -> Iterator[Round]:
    """The rounds of a shape until there are at least so many events, and the ending."""
    log, events = Log(form), 0
    for lines in shape.rounds(log):
        yield lines
        events += len(lines)
        if events >= least:
            break
    yield shape.ending(log)
