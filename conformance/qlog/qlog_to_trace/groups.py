"""Events that belong together: a packet or a timer, and what the log says of it beside it."""

from collections import deque
from collections.abc import Callable, Iterable, Iterator
from dataclasses import dataclass, field
from enum import Enum, auto
from itertools import takewhile

from .dialects import Dialect
from .events import UNKNOWN_METRICS, Event
from .order import PacketFirst

BESIDE_SENT = ("metrics_updated", UNKNOWN_METRICS, "loss_timer_updated", "congestion_state_updated")
BESIDE_TIMER = (*BESIDE_SENT, "packet_lost")


class Kind(Enum):
    """What a group is about."""

    SENT = auto()
    RECEIVED = auto()
    LOST = auto()
    TIMER = auto()
    OTHER = auto()


@dataclass
class Group:
    """Events that belong together."""

    kind: Kind
    # The packets of a datagram that was sent; else one event, or the losses of a detection.
    events: list[Event]
    # What stands beside them: metrics, states, losses.
    beside: list[Event] = field(default_factory=list)
    # The losses that stand before a packet that came.
    lost_before: list[Event] = field(default_factory=list)

    @property
    def first(self) -> Event:
        """The event that it is about, or the first of them."""
        return self.events[0]

    @property
    def is_closing(self) -> bool:
        """Whether a packet of it closes the connection."""
        if self.kind is not Kind.SENT and self.kind is not Kind.RECEIVED:
            return False
        return any([event.is_closing for event in self.events])

    def without_end(self) -> "Group | None":
        """What is sure of the last group of a torn log, of which more may have followed."""
        return Group(self.kind, self.events) if self.kind is Kind.SENT else None

    def before_closing(self) -> "Group":
        """The packets before the one that closes the connection, without what was said then."""
        kept = takewhile(lambda event: not event.is_closing, self.events)
        return Group(self.kind, list(kept))


def is_sent(event: Event | None) -> bool:
    """Whether it is a packet that was sent."""
    return event is not None and event.name == "packet_sent" and event.space is not None


class Ahead:
    """The events, of which the next may be looked at before they are taken."""

    def __init__(self, events: Iterable[Event]) -> None:
        self._events = iter(events)
        self._kept: deque[Event] = deque()

    def peek(self, place: int = 0) -> Event | None:
        """The next event, or one behind it; nothing at the end."""
        if not place and self._kept:
            return self._kept[0]
        while len(self._kept) <= place:
            event = next(self._events, None)
            if event is None:
                return None
            self._kept.append(event)
        return self._kept[place]

    def take(self) -> Event:
        """The next event, of which `peek` said that it is there."""
        return self._kept.popleft()


class Groups:
    """The groups of a log, up to the packet that closes the connection.

    What a connection does once it is closing is no part of loss recovery, and neither is the packet
    by which it closes: it may go out whatever the window is.
    """

    def __init__(
        self, events: Iterable[Event], dialect: Dialect, is_torn: Callable[[], bool]
    ) -> None:
        if dialect.received_stands_last:
            events = PacketFirst().over(events, is_torn)
        self._ahead = Ahead(events)
        self._dialect = dialect
        # Whether the log is torn off, once its end was read.
        self._is_torn = is_torn
        self._is_closed = False

    def __iter__(self) -> Iterator[Group]:
        last: Group | None = None
        for group in self._to_closing():
            if last:
                yield last
            last = group
        if last and not self._is_closed and self._is_torn():
            last = last.without_end()
        if last:
            yield last

    def _to_closing(self) -> Iterator[Group]:
        while self._ahead.peek():
            group = self._group(self._ahead.take())
            is_closing = group.is_closing
            if is_closing and group.kind is Kind.SENT:
                group = group.before_closing()
            if group.events:
                yield group
            if is_closing:
                self._is_closed = True
                return

    def _group(self, event: Event) -> Group:
        if event.name == "metrics_updated" and self._stands_before_sent(event, 0):
            return Group(Kind.SENT, [self._ahead.take()], [event])
        if is_sent(event):
            return self._sent(event)
        if event.name == "packet_received" and event.space:
            names = BESIDE_SENT if self._dialect.losses_stand_before else BESIDE_TIMER
            return Group(Kind.RECEIVED, [event], self._beside(names))
        if event.name == "packet_lost" and event.space:
            return self._lost(event)
        if event.has_expired:
            return Group(Kind.TIMER, [event], self._beside(BESIDE_TIMER))
        return Group(Kind.OTHER, [event])

    def _stands_before_sent(self, event: Event, place: int) -> bool:
        """Whether metrics are those of the packet behind them."""
        return (
            self._dialect.metrics_stand_before
            and event.name == "metrics_updated"
            and is_sent(self._ahead.peek(place))
        )

    def _sent(self, event: Event) -> Group:
        """A packet; further ones of its datagram stand before the metrics of the first."""
        if self._dialect.metrics_stand_before:
            return Group(Kind.SENT, [event])
        packets = [event]
        while is_sent(self._ahead.peek()) and not self._may_be_probe():
            packets.append(self._ahead.take())
        return Group(Kind.SENT, packets, self._beside(BESIDE_SENT))

    def _may_be_probe(self) -> bool:
        """Whether the next packet, which is sent, may be that of a probe timeout."""
        event = self._ahead.peek()
        if event is None:
            return False
        return event.is_probe or (self._dialect.probes_by_room and event.has_ping_of_handshake)

    def _lost(self, event: Event) -> Group:
        if not self._dialect.losses_stand_before:
            return Group(Kind.LOST, [event], self._beside(("packet_lost", "metrics_updated")))
        lost = [event]
        while self._goes_on(lost[-1]):
            lost.append(self._ahead.take())
        following = self._ahead.peek()
        if following and following.name == "packet_received" and following.space == event.space:
            received = self._ahead.take()
            beside = self._beside(("metrics_updated",))
            return Group(Kind.RECEIVED, [received], beside, lost)
        return Group(Kind.LOST, lost)

    def _goes_on(self, last: Event) -> bool:
        """Whether the next is a loss of the same detection, which names packets downwards."""
        event = self._ahead.peek()
        return (
            event is not None
            and event.name == "packet_lost"
            and event.space == last.space
            and event.number < last.number
        )

    def _beside(self, names: Iterable[str]) -> list[Event]:
        """The events that follow with these names, but for a timer that fires."""
        found: list[Event] = []
        while True:
            event = self._ahead.peek()
            if event is None or event.name not in names or event.has_expired:
                return found
            if self._stands_before_sent(event, 1):
                return found
            found.append(self._ahead.take())
