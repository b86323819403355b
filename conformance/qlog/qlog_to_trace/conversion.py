"""The second reading of a log: the lines of its events."""

from collections import defaultdict
from collections.abc import Callable, Iterable, Iterator
from fractions import Fraction

from .dialects import Absent, Dialect, Limited
from .events import NANOSECONDS, SPACE_OF_NAME, SPACES, UNKNOWN_METRICS, Ack, Event
from .flight import Bare, Flight, as_ranges
from .groups import Group, Groups, Kind
from .handshake import Handshake
from .lines import RTTS, Lines, guessed, span
from .notes import Guess, Limit, Notes, Omission
from .rounding import EARLIER, PARTS_OF_RTT, Age, Delays
from .survey import Retry, Survey

# RFC 9002, 6.1: kPacketThreshold, and 6.2.4: packets of a probe.
PACKET_THRESHOLD = 3
DATAGRAMS_OF_PROBE = 2
# Losses that are later than this behind a packet are those of a timer. Nanoseconds.
GAP_OF_LOSSES = 1_000_000
# Loss timers that are all later than this part of the round-trip time go by another threshold, if
# they are later by more than what a program takes (nanoseconds).
LATE_BY_TIME = Fraction(6, 5)
LATE_BY_PROGRAM = 10_000_000
# The greatest integer that a line can say.
LONGEST_DELAY = (1 << 64) - 1
# How many probe timeouts there may be at once by a log's count. The timeout doubles each time.
MOST_TIMEOUTS = 32
KINDS_OF_TIMER = {"ack": "loss", "loss": "loss", "loss_timeout": "loss", "pto": "pto"}


def behind(retry: Retry, events: Iterable[Event], notes: Notes) -> Iterator[Event]:
    """The events behind a Retry, without the losses of packets that were sent before it."""
    count = 0
    is_told = False
    for event in events:
        if event.index <= retry.index:
            count += event.name == "packet_sent" and event.space is not None
            continue
        if not is_told:
            told = f"the trace begins after {retry.told}; packets before it: {count}"
            notes.warnings.append(told)
            is_told = True
        is_lost = event.name == "packet_lost" and event.space is not None
        if is_lost and event.number <= retry.numbers.get(str(event.space), -1):
            notes.omit(Omission.LOSS_BEFORE_RETRY)
            continue
        yield event


def detections(events: list[Event], gap: int) -> Iterator[list[Event]]:
    """Losses, with what stands among them, by the times at which they were found."""
    found: list[Event] = []
    last: Event | None = None
    for event in events:
        if event.name == "packet_lost":
            if last and event.time - last.time > gap:
                yield found
                found = []
            last = event
        found.append(event)
    if found:
        yield found


class Conversion:
    """Writes the lines of a trace, group by group."""

    def __init__(
        self, dialect: Dialect, role: str, survey: Survey, lines: Lines, notes: Notes, datagram: int
    ) -> None:
        self._dialect, self._survey, self._lines, self._notes = dialect, survey, lines, notes
        told = dialect.logs_timers
        self._logs_timers = survey.has_timers if told is None else told
        self._datagram = datagram
        # Whether sizes are those by which the bytes in flight grow.
        self._settles_sizes = dialect.sizes_by_growth or survey.sizes.are_guessed
        # How far behind a packet its losses may be logged.
        self._gap = 0 if survey.has_milliseconds else GAP_OF_LOSSES
        self._flight = Flight()
        self._bare = Bare()
        self._handshake = Handshake(role, survey, lines, self._flight, notes)
        self._delays = Delays()
        # The latest values of each metric, RTTs in nanoseconds, and the place of the last record.
        self._metrics: dict[str, int] = {}
        self._has_sample, self._metrics_at = False, ""
        self._state: str | None = None
        self._pto_count = 0
        # Bytes that the last probe timeout still allows, and packets until an acknowledgment comes.
        self._probe_left = 0
        self._probes_left = 0
        # When the last probe timeout fired.
        self._last_timer = 0
        # Whether the window fell, and whether a packet came, since the last packet that was sent.
        self._has_fallen = self._has_come = False
        # When losses were last declared.
        self._last_loss: int | None = None
        # Whether all loss timers found packets at a later time than that of the RFC.
        self._are_timers_late: bool | None = None
        # Whether packets are judged by the window that was reported last.
        self.is_window_reported = False
        # The window of the last report.
        self._told_window = survey.first_window
        # The largest number of a space that was acknowledged.
        self._largest: dict[str, int] = {}
        # When the last ack-eliciting packet of a space was sent.
        self._last_eliciting: dict[str, int] = {}

    def convert(self, events: Iterable[Event], is_torn: Callable[[], bool]) -> None:
        """Writes all lines behind the header."""
        acts = {
            Kind.SENT: self._on_sent,
            Kind.RECEIVED: self._on_received,
            Kind.LOST: self._on_lost,
            Kind.TIMER: self._on_timer,
            Kind.OTHER: self._on_other,
        }
        if self._survey.sizes.are_guessed:
            events = self._survey.sizes.over(events)
        if self._survey.has_repeats:
            events = self._without_repeats(events)
        if self._survey.retry:
            events = behind(self._survey.retry, events, self._notes)
        for group in Groups(events, self._dialect, is_torn):
            acts[group.kind](group)
        if self._are_timers_late:
            self._notes.limits.add(Limit.TIME_THRESHOLD)

    def _without_repeats(self, events: Iterable[Event]) -> Iterator[Event]:
        """The events without the packets that a probe repeats, which stay in flight."""
        for event in events:
            if event.repeats:
                self._notes.omit(Omission.LOSS_OF_PROBE)
            else:
                yield event

    # What the log says beside packets.

    def _take_metrics(self, events: Iterable[Event]) -> bool:
        """Takes what metrics say; whether they say more than a PTO count.

        A line of the PTO count alone says nothing of the rest; one of anything else, that the rest
        is as it was.
        """
        found = False
        before = self._metrics.get("window")
        for event in events:
            if event.name == "congestion_state_updated":
                self._state = str(event.data.get("new"))
            if event.name == UNKNOWN_METRICS:
                self._metrics.clear()
                self._metrics_at = event.place
            if event.name != "metrics_updated":
                continue
            count = event.pto_count()
            self._pto_count = self._pto_count if count is None else count
            if not event.has_only_pto_count:
                found = True
                self._metrics_at = event.place
                self._take_values(event.metrics())
        self._has_sample = self._has_sample or self._metrics.get("min_rtt", 0) > 0
        if before is not None and self._metrics.get("window", before) < before:
            self._has_fallen = True
        return found

    def _take_values(self, values: dict[str, int]) -> None:
        """Takes the values of one event, by what those mean that it leaves out."""
        if self._dialect.absent is Absent.NONE:
            for key in self._metrics.keys() - values.keys():
                del self._metrics[key]
        elif self._dialect.absent is Absent.SAME_OR_ZERO:
            self._metrics.pop("bytes_in_flight", None)
        self._metrics |= values

    def _take_zero(self) -> None:
        """Bytes in flight that are left out although some left are 0, where 0 is left out."""
        if self._dialect.absent is Absent.SAME_OR_ZERO:
            self._metrics.setdefault("bytes_in_flight", 0)

    def _report(self, time: int) -> None:
        """A report of all values that are known. Before a sample a log says 0, or nothing."""
        known = {
            key: value
            for key, value in self._metrics.items()
            if self._has_sample or key not in RTTS
        }
        if known:
            self._lines.metrics(time, self._metrics_at, known)
            self._told_window = known.get("window", self._told_window)

    def _tell_window(self, time: int) -> None:
        """A report of the window alone where it is another than the one that was told.

        A log may tell of a change only behind the next packet, which is judged by it.
        """
        window = self._metrics.get("window")
        if not self.is_window_reported or window is None:
            return
        if window != self._told_window:
            self._lines.metrics(time, self._metrics_at, {"window": window})
            self._told_window = window

    def _write_lost(self, event: Event, lost: Iterable[Event]) -> None:
        """The Lost line of each space, at the time of an event."""
        spaces: dict[str, list[Event]] = defaultdict(list)
        for it in lost:
            if it.name != "packet_lost" or not it.space:
                continue
            if self._bare.has(it.space, it.number):
                self._notes.omit(Omission.LOSS_NOT_IN_FLIGHT)
                continue
            spaces[it.space].append(it)
            if self._flight.time_of(it.space, it.number) == self._last_loss:
                self._notes.limits.add(Limit.SAME_TICK)
        if spaces:
            self._last_loss = event.time
        for space, events in spaces.items():
            numbers = [it.number for it in events]
            place = span(events[0].place, events[-1].place)
            self._lines.event("lost", event.time, place, space=space, ranges=as_ranges(numbers))
            self._flight.take(space, numbers)

    # Packets that are sent.

    def _on_sent(self, group: Group) -> None:
        first, last = group.events[0], group.events[-1]
        self._guess_probes(group)
        self._has_come = False
        is_reported = self._take_metrics(group.beside)
        reported = self._metrics.get("bytes_in_flight")
        if is_reported and reported is not None and self._settles_sizes:
            self._settle_group(group)
        if self._handshake.awaits_discard:
            added = sum(event.size for event in group.events if event.is_in_flight)
            self._handshake.settle(first, reported, added)
        is_late = False
        for event in group.events:
            is_late |= self._handshake.before_sent(event, reported if is_reported else None)
            self._tell_window(event.time)
            self._write_sent(event)
        if is_reported:
            self._forget(last)
            self._report(max(last.time, *(it.time for it in group.beside)))
        if is_late:
            self._handshake.discard("initial", last)

    def _settle_group(self, group: Group) -> None:
        """Takes the growth of the bytes in flight for sizes that the log does not have.

        A datagram is padded once all of its packets are there, so that what it adds to the Initial
        packet, the first of them, is reported last.
        """
        packets = [event for event in group.events if event.is_in_flight] or group.events
        metrics = (it.metrics() for it in group.beside if it.name == "metrics_updated")
        reported = [it["bytes_in_flight"] for it in metrics if "bytes_in_flight" in it]
        if len(packets) == 1:
            reported = reported[-1:]
        elif self._dialect.sizes_by_growth:
            packets = sorted(packets, key=lambda event: event.space == "initial")
        if len(packets) != len(reported):
            if self._dialect.sizes_by_growth:
                self._settle_datagram(group.events)
            return
        befores = [self._flight.bytes, *reported[:-1]]
        for event, before, now in zip(packets, befores, reported, strict=True):
            self._settle_size(event, now - before)

    def _settle_datagram(self, packets: list[Event]) -> None:
        """Takes sizes that are those of the datagram so far for what each packet adds."""
        sizes = [event.size for event in packets]
        for before, event, size in zip(packets, packets[1:], sizes, strict=False):
            if event.space != before.space and event.size > size:
                event.size -= size
                self._notes.guess(Guess.SIZE_BY_GROWTH)

    def _settle_size(self, event: Event, growth: int) -> None:
        """Takes a growth for the size of a packet, if that is asked for and is likely."""
        is_asked = self._dialect.sizes_by_growth or event.is_size_guessed
        if not is_asked or growth == event.size:
            return
        if 0 < growth <= max(self._datagram, event.size):
            event.size, event.is_padded = growth, True
            if not event.is_size_guessed:
                self._notes.guess(Guess.SIZE_BY_GROWTH)
            event.is_size_guessed = False

    def _guess_probes(self, group: Group) -> None:
        """Probe timeouts that a log without timers shows by its count, or by a PING."""
        if self._logs_timers:
            return
        if self._dialect.probes_by_trigger:
            is_next = group.first.time > self._last_timer + LATE_BY_PROGRAM
            if group.first.is_probe and (self._probes_left <= 0 or is_next):
                self._notes.guess(Guess.PROBE_BY_TRIGGER)
                self._write_timer(group.first, "pto", str(group.first.space))
            return
        if self._dialect.probes_by_room:
            last = self._last_eliciting.get(str(group.first.space), -1)
            guess = self._guess_of_probe(group.first)
            if guess and not self._has_come and group.first.time > last:
                self._notes.guess(guess)
                self._write_timer(group.first, "pto", str(group.first.space))
            return
        if self._dialect.probes_by_ping:
            if any(self._is_ping_of_probe(event) for event in group.events):
                self._notes.guess(Guess.PROBE_BY_PING)
                self._write_timer(group.first, "pto", self._probed_space())
            return
        counts = (event.pto_count() for event in group.beside)
        count = next((it for it in counts if it is not None), self._pto_count)
        if count - self._pto_count > MOST_TIMEOUTS:
            raise group.first.error(f"pto_count rises to {count} at once")
        for _ in range(count - self._pto_count):
            self._notes.guess(Guess.PROBE_BY_COUNT)
            self._write_timer(group.first, "pto", self._probed_space())

    def _guess_of_probe(self, event: Event) -> Guess | None:
        """By what a packet is a probe where one keeps room for a PING, or has it.

        It has one for other causes too, but not as long as nothing was acknowledged.
        """
        if event.is_probe:
            return Guess.PROBE_BY_ROOM
        awaits = event.space in self._last_eliciting and not self._largest
        return Guess.PROBE_BY_PING if event.has_ping_of_handshake and awaits else None

    def _is_ping_of_probe(self, event: Event) -> bool:
        every = self._dialect.packets_between_pings
        if "ping" not in event.frame_types:
            return False
        if event.space == "app" and not self._flight.bytes:
            # No probe timeout is set, so the PING is that of a program.
            return False
        has_ranges = any(len(ack.ranges) > 1 for ack in event.acks)
        return every is None or event.number % every != 0 or not has_ranges

    def _write_sent(self, event: Event) -> None:
        space, number, size = event.space, event.number, event.size
        assert space
        if event.is_size_guessed:
            self._notes.guess(Guess.SIZE)
        is_eliciting, is_in_flight = event.is_eliciting, event.is_in_flight
        self._lines.event(
            "sent",
            event.time,
            event.place,
            space=space,
            number=number,
            size=size,
            eliciting=is_eliciting,
            in_flight=is_in_flight,
            leave=self._leave(size) if is_in_flight else "window",
        )
        if is_in_flight:
            self._flight.add(space, number, size, event.time)
            self._probes_left -= 1
        else:
            self._bare.add(space, number)
        if is_eliciting:
            self._last_eliciting[space] = event.time

    def _leave(self, size: int) -> str:
        """By a probe if one is allowed, else by the window if it has room, else by recovery."""
        is_first, self._has_fallen = self._has_fallen, False
        if self._probe_left >= size:
            self._probe_left -= size
            self._notes.guess(Guess.LEAVE_PROBE)
            return "probe"
        window = self._metrics.get("window")
        if is_first and window is not None and self._flight.bytes + size > window:
            self._notes.guess(Guess.LEAVE_RECOVERY)
            return "recovery"
        return "window"

    def _probed_space(self) -> str:
        """The space whose probe timeout is the first, where the log does not name it."""
        delay = self._survey.max_ack_delay or 0
        due = [
            (self._last_eliciting[space] + (delay if space == "app" else 0), order, space)
            for order, space in enumerate(SPACES)
            if self._flight.has(space)
            and space in self._last_eliciting
            and (space != "app" or self._handshake.is_confirmed)
        ]
        if due:
            return min(due)[2]
        return "handshake" if self._handshake.has_keys else "initial"

    def _forget(self, event: Event) -> None:
        """Bytes that left with no event: quic-go takes packets out of flight that it probes for."""
        missing = self._flight.bytes - self._metrics.get("bytes_in_flight", self._flight.bytes)
        if missing <= 0:
            return
        found = self._flight.first_of_sum(missing)
        if found is None:
            self._notes.omit(Omission.FLIGHT_DIFFERS)
            return
        space, numbers = found
        place, forgot = guessed(event.place), as_ranges(numbers)
        self._lines.event("metrics", event.time, place, x_forgot=forgot, x_space=space)
        self._flight.take(space, numbers)
        self._notes.omit(Omission.LEFT_FLIGHT, len(numbers))

    # Packets that come.

    def _on_received(self, group: Group) -> None:
        event, lost = group.first, group.lost_before
        self._has_come = True
        later = self._not_shown(group)
        if lost and not self._is_shown(lost, event, group.beside):
            self._lost_alone(lost)
            lost = []
        if event.space == "handshake":
            self._handshake.take_keys(event)
        held, in_flight = dict(self._metrics), self._flight.bytes
        is_reported = self._take_metrics(group.beside)
        lost = lost or [it for it in group.beside if it.name == "packet_lost" and it.space]
        if self._handshake.awaits_discard:
            self._settle_received(event, lost)
        for ack in event.acks:
            self._write_ack(event, ack, held, lost)
            lost = []
        self._lost_alone(lost)
        if is_reported and self._flight.bytes < in_flight:
            self._take_zero()
        if "handshake_done" in event.frame_types:
            self._handshake.on_done(event)
        if is_reported:
            times = [it.time for it in group.beside if it.name == "metrics_updated"]
            self._report(max(event.time, *times))
        elif held != self._metrics:
            self._report(event.time)
        self._handshake.after_received(event)
        if not later:
            return
        for found in detections(later, self._gap):
            self._lost_alone(found)

    def _not_shown(self, group: Group) -> list[Event]:
        """Takes from a packet that came what stands behind it and begins with a loss that no
        acknowledgment of it can show, where the log has no timers."""
        if self._logs_timers:
            return []
        tops = [high for ack in group.first.acks for _, high in ack.ranges]
        for place, it in enumerate(group.beside):
            if it.name == "packet_lost" and not self._can_be_shown(it, group.first, tops):
                later = group.beside[place:]
                del group.beside[place:]
                return later
        return []

    def _can_be_shown(self, lost: Event, received: Event, tops: list[int]) -> bool:
        """By a number that is far enough below, or by its age if it was found at the same time."""
        space = received.space
        if lost.space != space:
            return False
        is_far = any(lost.number + PACKET_THRESHOLD <= top for top in tops)
        if lost.time - received.time > self._gap and not is_far:
            return False
        return lost.number < max([*tops, self._largest.get(space or "", 0)])

    def _settle_received(self, event: Event, lost: list[Event]) -> None:
        """The discards that are due, by what leaves with an acknowledgment and its losses."""
        space = event.space
        assert space
        gone = {
            (space, number)
            for ack in event.acks
            for number in self._flight.named(space, ack.ranges)
        }
        gone |= {(str(it.space), it.number) for it in lost}
        change = -sum(self._flight.size_of(at, number) for at, number in gone)
        self._handshake.settle(event, self._metrics.get("bytes_in_flight"), change)

    def _write_ack(
        self, event: Event, ack: Ack, held: dict[str, int], lost: list[Event]
    ) -> None:
        space, ranges = event.space, ack.ranges
        assert space
        if space in self._handshake.gone or not ranges:
            what = Omission.ACK_OF_NOTHING if not ranges else Omission.ACK_OF_GONE_SPACE
            self._notes.omit(what)
            return
        top = max(high for _, high in ranges)
        sent = self._flight.time_of(space, top) if self._flight.size_of(space, top) else None
        self._flight.take(space, self._flight.named(space, ranges))
        smoothed = self._metrics.get("smoothed_rtt", 0)
        time = event.time
        if sent is None or max(time - sent, 0) < smoothed:
            time = self._moment(event, space, top, lost)
        delay = self._delay(event, ack)
        if sent is not None and self._dialect.is_read_late:
            time = self._arrival(time, sent, delay, held)
        if sent is not None and self._survey.has_cut_times:
            delay = self._settled(max(time - sent, 0), delay, held)
        self._lines.event(
            "ack",
            time,
            event.place,
            space=space,
            ranges=ranges,
            delay=self._lines.in_unit(delay),
            limited=self._is_limited(held.get("window")) and not lost,
        )
        self._probes_left = 0
        self._largest[space] = max(top, self._largest.get(space, 0))
        self._write_lost(event, lost)

    def _moment(self, event: Event, space: str, top: int, lost: Iterable[Event]) -> int:
        """The time of an acknowledgment or a loss timer, in nanoseconds.

        In a log whose times are cut it is part of a millisecond earlier, if a packet that is not
        declared lost then is only by that younger than the loss delay.
        """
        rtt = max(self._metrics.get("latest_rtt", 0), self._metrics.get("smoothed_rtt", 0))
        earlier = event.time - EARLIER
        if not self._survey.has_cut_times or not rtt or not self._lines.may_be(earlier):
            return event.time
        gone = {it.number for it in lost if it.name == "packet_lost" and it.space == space}
        for number, sent in self._flight.below(space, top):
            age = Age(max(event.time - sent, 0), rtt, self._dialect.time_threshold_eighths)
            if age.is_young:
                break
            if age.is_open and number not in gone:
                self._notes.guess(Guess.MOMENT)
                return earlier
        return event.time

    def _arrival(self, time: int, sent: int, delay: int, held: dict[str, int]) -> int:
        """When an acknowledgment came, in nanoseconds, in a log whose times are read late.

        If the sample by the log is longer than the reported one, by more than the delay that may
        have been taken off, then the log is late by that.
        """
        latest = self._metrics.get("latest_rtt", 0)
        is_new = latest != held.get("latest_rtt", 0)
        late = time - sent - latest
        least = self._dialect.slack_us * NANOSECONDS["us"] + delay
        is_late = is_new and least < late <= LATE_BY_PROGRAM
        if not is_late or not self._lines.may_be(sent + latest):
            return time
        self._notes.guess(Guess.ARRIVAL)
        return sent + latest

    def _delay(self, event: Event, ack: Ack) -> int:
        """The delay of an acknowledgment by the log, in nanoseconds, if it is no longer than a line
        can say; else the longest."""
        if event.space not in self._dialect.delay_spaces:
            return 0
        shift = self._survey.delay_exponent if self._dialect.delay_is_encoded else 0
        return min(ack.delay << shift, LONGEST_DELAY)

    def _settled(self, latest: int, delay: int, held: dict[str, int]) -> int:
        """The delay by which a sample was computed, as the reports before and after it show."""
        longest = self._survey.max_ack_delay if self._handshake.is_confirmed else None
        settled = self._delays.settled(latest, delay, longest, (held, self._metrics))
        if settled != delay:
            self._notes.guess(Guess.DELAY)
        return settled

    def _is_limited(self, before: int | None) -> bool:
        """Whether the sender had not used its window."""
        if self._dialect.limited is Limited.BY_STATE:
            return self._state == "application_limited"
        if self._dialect.limited is Limited.NEVER or before is None:
            return False
        is_same = self._metrics.get("window") == before
        if is_same:
            self._notes.guess(Guess.LIMITED_BY_WINDOW)
        return is_same

    def _is_shown(self, lost: list[Event], received: Event, beside: list[Event]) -> bool:
        """Whether an acknowledgment shows losses, by number or by age at the RTT behind it."""
        ranges = [pair for ack in received.acks for pair in ack.ranges]
        if not ranges or received.time != lost[0].time:
            return False
        top = max(high for _, high in ranges)
        numbers = [event.number for event in lost]
        if numbers[0] > top or any(low <= it <= high for it in numbers for low, high in ranges):
            return False
        values = beside[-1].metrics() if beside else {}
        rtt = max(values.get("latest_rtt", 0), values.get("smoothed_rtt", 0))
        space = str(lost[0].space)
        parts = self._dialect.time_threshold_eighths * rtt
        ages = [max(received.time - self._flight.time_of(space, it), 0) for it in numbers]
        return any(
            number + PACKET_THRESHOLD <= top or PARTS_OF_RTT * age >= parts
            for number, age in zip(numbers, ages, strict=True)
        )

    # Losses and timers.

    def _on_lost(self, group: Group) -> None:
        lost = [*group.events, *group.beside]
        for found in [lost] if self._logs_timers else detections(lost, self._gap):
            self._lost_alone(found)

    def _lost_alone(self, lost: list[Event]) -> None:
        """Losses that no acknowledgment shows: those of a timer, where the log has no timers.

        The loss timer is set for packets below an acknowledged number alone. Some senders declare
        others lost too, at a probe timeout or when they send again, and for these nothing stands in
        front of the Lost line.
        """
        if not lost:
            return
        first = next(self._in_flight(lost), None)
        space = str(first.space) if first else ""
        if first and not self._logs_timers and first.number < self._largest.get(space, 0):
            self._notes.guess(Guess.LOSS_TIMER)
            time = self._moment(first, space, self._largest[space], lost)
            self._write_timer(first, "loss", space, time)
        elif first:
            self._notes.omit(Omission.LOSS_OF_NOTHING)
        self._after_timer(lost[0], lost)

    def _in_flight(self, events: Iterable[Event]) -> Iterator[Event]:
        """The losses among events, but for those of packets that are not in flight."""
        for event in events:
            if event.name == "packet_lost" and event.space:
                if not self._bare.has(event.space, event.number):
                    yield event

    def _on_timer(self, group: Group) -> None:
        event = group.first
        has_losses = any(it.name == "packet_lost" for it in group.beside)
        lost = list(self._in_flight(group.beside))
        is_counted = any(it.pto_count() is not None for it in group.beside)
        kind = KINDS_OF_TIMER.get(str(event.data.get("timer_type")))
        if kind is None and (has_losses or is_counted):
            kind = "loss" if has_losses else "pto"
        if kind is None:
            self._notes.omit(Omission.OTHER_TIMER)
        elif kind == "loss" and has_losses and not lost:
            self._notes.omit(Omission.BARE_TIMER)
        elif not lost and (kind == "loss" or (self._survey.counts_at_timers and not is_counted)):
            self._notes.omit(Omission.IDLE_TIMER)
        else:
            if lost:
                self._see_age(lost[0])
            self._write_timer(event, kind, self._space_of_timer(event, kind, lost))
        self._after_timer(event, group.beside)

    def _see_age(self, lost: Event) -> None:
        """How old the packet is that a loss timer found."""
        rtt = max(self._metrics.get("latest_rtt", 0), self._metrics.get("smoothed_rtt", 0))
        sent = self._flight.time_of(str(lost.space), lost.number)
        if rtt and sent:
            age, parts = lost.time - sent, self._dialect.time_threshold_eighths * rtt
            is_past = PARTS_OF_RTT * (age - LATE_BY_PROGRAM) > parts
            is_late = age > rtt * LATE_BY_TIME and is_past
            self._are_timers_late = is_late and self._are_timers_late is not False

    def _space_of_timer(self, event: Event, kind: str, lost: list[Event]) -> str:
        """The space that the log names, else that of what the timer did."""
        space = SPACE_OF_NAME.get(str(event.data.get("packet_number_space")))
        if space:
            return space
        self._notes.guess(Guess.TIMER_SPACE)
        return str(lost[0].space) if kind == "loss" and lost else self._probed_space()

    def _write_timer(
        self, event: Event, kind: str, space: str, time: int | None = None
    ) -> None:
        time = event.time if time is None else time
        self._lines.event("timer", time, event.place, kind=kind, space=space)
        if kind == "pto":
            self._probe_left = DATAGRAMS_OF_PROBE * self._datagram
            self._probes_left = DATAGRAMS_OF_PROBE
            self._last_timer = event.time
            if not self._logs_timers:
                self._pto_count += 1

    def _after_timer(self, event: Event, beside: list[Event]) -> None:
        """The losses that a timer found, if it was one, and the values behind them."""
        self._write_lost(event, beside)
        if self._take_metrics(beside):
            self._report(max(it.time for it in beside))

    def _on_other(self, group: Group) -> None:
        event = group.first
        if event.name in ("key_updated", "key_retired", "key_discarded"):
            self._handshake.on_keys_event(event)
        elif self._take_metrics([event]):
            self._report(event.time)
