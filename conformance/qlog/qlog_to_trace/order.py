"""Events in the order in which things happened, for logs that have another."""

from collections.abc import Callable, Iterable, Iterator

from .events import Event

# What an acknowledgment causes, and a log may say before the packet that brought it.
CAUSED = ("metrics_updated", "packet_lost", "congestion_state_updated")


class PacketFirst:
    """Puts a packet that came before the losses, metrics and keys that its frames caused.

    Some stacks log packet_received only after they handled its frames. What follows packets that
    were sent stays with them: a packet in flight has at most one report, without a sample. Timers
    that are only set are left out.
    """

    def __init__(self) -> None:
        # What waits for the packet that caused it.
        self._held: list[Event] = []
        # How many packets in flight were sent whose metrics are still to come, and these so far.
        self._awaited = 0
        self._of_sent: Event | None = None
        # Whether what follows was caused by a timer.
        self._is_timed = False

    def over(self, events: Iterable[Event], is_torn: Callable[[], bool]) -> Iterator[Event]:
        """The same events, each packet before what it caused."""
        for event in events:
            if event.name == "packet_sent":
                if self._held or self._of_sent:
                    yield from self._flushed()
                self._is_timed = False
                self._awaited += event.space is not None and event.is_in_flight
                yield event
            elif event.name == "packet_received":
                yield from self._received(event)
            elif event.has_expired:
                yield from self._flushed()
                self._awaited, self._is_timed = 0, True
                yield event
            elif event.name == "metrics_updated":
                yield from self._metrics(event)
            elif event.name != "loss_timer_updated":
                yield from self._other(event)
        # At the end of a torn log the packet is missing for which they wait.
        if is_torn():
            self._held = []
        yield from self._flushed()

    def _flushed(self) -> Iterator[Event]:
        """Lets go what waited, where no packet came for it."""
        self._is_timed = False
        yield from self._merged()
        yield from self._held
        self._held = []

    def _merged(self) -> Iterator[Event]:
        """The metrics of packets that were sent."""
        if self._of_sent:
            yield self._of_sent
        self._of_sent = None

    def _received(self, event: Event) -> Iterator[Event]:
        self._awaited = 0
        if not event.acks:
            yield from self._flushed()
        self._is_timed = False
        yield from self._merged()
        if self._held:
            event.time = min(event.time, self._held[0].time)
        yield event
        yield from self._held
        self._held = []

    def _metrics(self, event: Event) -> Iterator[Event]:
        if event.has_only_pto_count or (self._is_timed and not event.has_sample):
            yield event
        elif self._awaited and not event.has_sample:
            self._awaited -= 1
            if self._of_sent:
                event.join(self._of_sent)
            self._of_sent = event
            if not self._awaited:
                yield from self._merged()
        else:
            self._is_timed = False
            self._held.append(event)

    def _other(self, event: Event) -> Iterator[Event]:
        """Losses, states and keys. Keys that go between the metrics of one datagram's packets go
        before all of these, since the last of them no longer counts what went."""
        is_caused = event.name in CAUSED and not self._is_timed
        if event.name == "congestion_state_updated":
            is_caused = is_caused and not self._awaited
        if is_caused or (self._held and event.tells_of_keys):
            self._held.append(event)
        else:
            yield event
