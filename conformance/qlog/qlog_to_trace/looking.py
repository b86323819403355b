"""What the first reading finds by counting: in which order a log is, and how fine its clock is."""

from collections import Counter
from dataclasses import dataclass, replace
from enum import Enum

from .dialects import Absent, Dialect
from .events import NANOSECONDS, Event
from .flight import Flight
from .lines import RTTS

# By how many bits a delay on the wire is shifted, if its sender does not say.
DEFAULT_DELAY_EXPONENT = 3
# Of how many events the order is found. All of a log would take long and say no more.
EVENTS_LOOKED_AT = 5_000
# How many reports or losses there have to be for a finding, how many where a dialect says another,
# and how many times as many as there are against it.
LEAST = 2
LEAST_AGAINST_DIALECT = 5
MANY = 2
# A log with more reports that agree with no order than this part was likely misread.
PART_APART = 0.5
# By how many bytes stacks round what they report, and how far off a sample of the round-trip time
# may be by the times of a log (nanoseconds).
ROUNDING_OF_BYTES = 64
ROUNDING_OF_TIMES = 2 * NANOSECONDS["ms"]
# How many values a clock is judged by, and how far off reports and timers are by one of whole ms.
LEAST_VALUES = 8
SLACK_OF_MILLISECONDS = 2_000
EARLY_OF_MILLISECONDS = 3_000


class Order(Enum):
    """Where losses and reports stand beside the packet that came and caused them."""

    BEHIND = "losses and metrics come after the packet_received that caused them"
    LOSSES_BEFORE = "losses come before the packet_received that shows them, metrics after it"
    BEFORE = "losses and metrics come before the packet_received that caused them"


def order_of(dialect: Dialect) -> Order:
    """The order that a dialect takes."""
    if dialect.received_stands_last:
        return Order.BEFORE
    return Order.LOSSES_BEFORE if dialect.losses_stand_before else Order.BEHIND


def in_order(dialect: Dialect, order: Order) -> Dialect:
    """The dialect with another order."""
    return replace(
        dialect,
        received_stands_last=order is Order.BEFORE,
        losses_stand_before=order is Order.LOSSES_BEFORE,
    )


def against(ones: int, others: int, least: int) -> bool | None:
    """Whether it is the ones and not the others, if there are enough of either."""
    if ones >= max(least, MANY * others):
        return True
    return False if others >= max(least, MANY * ones) else None


class Tracker:
    """Whether the bytes in flight that are reported change as those of the packets do."""

    def __init__(self) -> None:
        self._before = self._last = (0, 0)

    def agrees(self, reported: int, counted: int) -> bool:
        """Whether both changed alike since the report before."""
        self._before, self._last = self._last, (reported, counted)
        return self._is_alike()

    def amend(self, counted: int) -> None:
        """Counts the packet behind the last report too, if that one was of it."""
        kept = self._last
        if not self._is_alike():
            self._last = (kept[0], counted)
            if not self._is_alike():
                self._last = kept

    def _is_alike(self) -> bool:
        reported = self._last[0] - self._before[0]
        counted = self._last[1] - self._before[1]
        return abs(reported - counted) <= ROUNDING_OF_BYTES


@dataclass(frozen=True)
class Sample:
    """A round-trip time by the times of a log, and the delay that a sender may subtract from it."""

    latest: int
    delay: int

    def agrees(self, reported: int) -> bool:
        """Whether a report may be of this sample."""
        return self.distance(reported) <= ROUNDING_OF_TIMES

    def distance(self, reported: int) -> int:
        """How far a report is from this sample, with the delay or without it. Some logs have it as
        it is on the wire."""
        delays = (0, self.delay, self.delay << DEFAULT_DELAY_EXPONENT)
        return min(abs(self.latest - it - reported) for it in delays)


class Samples:
    """Whether the round-trip times that are reported are those of the packet before the report, or
    of the one behind it."""

    def __init__(self) -> None:
        # Reports that agree with the packet before them alone, with the one behind them alone, with
        # either, and with none.
        self.behind = self.before = self.either = self.neither = 0
        # Reports that agree with the packet before them, and are not its sample to the last digit.
        self.cut = 0
        self._last: Sample | None = None
        # The last value that was reported, and whether it awaits the sample behind it.
        self._reported = 0
        self._is_awaited = False

    @property
    def count(self) -> int:
        """How many reports there are between two samples."""
        return self.behind + self.before + self.either + self.neither

    def report(self, reported: int) -> None:
        """A report. One that repeats the value of the report before says nothing."""
        self._is_awaited = reported != self._reported
        self._reported = reported

    def take(self, sample: Sample) -> None:
        """A packet that gives a sample."""
        if self._is_awaited:
            is_behind = self._last is not None and self._last.agrees(self._reported)
            is_before = sample.agrees(self._reported)
            is_exact = self._last is not None and self._last.distance(self._reported) == 0
            self.cut += is_behind and not is_exact
            self.either += is_behind and is_before
            self.behind += is_behind and not is_before
            self.before += is_before and not is_behind
            self.neither += not is_before and not is_behind
        self._is_awaited, self._last = False, sample


@dataclass
class Counts:
    """What was counted."""

    # Acknowledgments with a report beside them; the reports that agree behind, and before.
    acknowledgments: int = 0
    behind: int = 0
    before: int = 0
    # Losses nearer to the packet before them, and nearer to the one behind.
    losses_behind: int = 0
    losses_before: int = 0
    # Reports that say 0 bytes in flight, and that leave it out where nothing is in flight any more.
    zeros: int = 0
    zeros_left_out: int = 0


class Looking:
    """Looks at the first events of a log."""

    def __init__(self) -> None:
        self.counts = Counts()
        self.samples = Samples()
        self._left = EVENTS_LOOKED_AT
        self._flight = Flight()
        self._behind, self._before = Tracker(), Tracker()
        # The last report, as long as no packet came behind it, and the bytes in flight at it.
        self._report: tuple[int, int] | None = None
        # Whether an acknowledgment awaits its report, and whether it had one before it.
        self._is_awaited = self._is_counted = False
        self._bytes_reported = 0
        # The last packet with an acknowledgment, and the largest number in it.
        self._received: tuple[Event, int] | None = None
        self._lost: list[Event] = []
        # How often values were whole milliseconds, and how often not.
        self._whole: Counter[str] = Counter()
        self._parts: Counter[str] = Counter()

    def see(self, event: Event) -> None:
        """Looks at the next event."""
        if self._left == 0:
            return
        self._left -= 1
        if event.name == "metrics_updated":
            self._see_metrics(event)
        elif event.name == "packet_sent" and event.space:
            is_reported = self._report is not None
            self._settle()
            self._is_awaited, self._received, self._lost = False, None, []
            if event.is_in_flight:
                self._flight.add(event.space, event.number, event.size, event.time)
                if is_reported:
                    self._behind.amend(self._flight.bytes)
                    self._before.amend(self._flight.bytes)
        elif event.name == "packet_received" and event.space:
            self._see_received(event, event.space)
        elif event.name == "packet_lost" and event.space and not event.repeats:
            self._flight.take(event.space, [event.number])
            self._lost.append(event)
        elif event.retires_keys and event.key_space():
            self._flight.clear(str(event.key_space()))

    def _settle(self) -> None:
        """A report that no packet follows is of the time at which it stands."""
        if self._report:
            self._before.agrees(*self._report)
        self._report = None

    def _see_metrics(self, event: Event) -> None:
        values = event.metrics()
        for key in RTTS:
            if values.get(key):
                (self._parts if values[key] % NANOSECONDS["ms"] else self._whole)[key] += 1
        if values.get("latest_rtt"):
            self.samples.report(values["latest_rtt"])
        reported = values.get("bytes_in_flight")
        if reported is None:
            is_left_out = bool(values and self._bytes_reported and not self._flight.bytes)
            self.counts.zeros_left_out += is_left_out
            return
        self._settle()
        self._bytes_reported = reported
        self.counts.zeros += reported == 0
        is_alike = self._behind.agrees(reported, self._flight.bytes)
        if self._is_awaited:
            self.counts.acknowledgments += not self._is_counted
            self.counts.behind += is_alike
        self._is_awaited = False
        self._report = reported, self._flight.bytes

    def _see_received(self, event: Event, space: str) -> None:
        ranges = [pair for ack in event.acks for pair in ack.ranges]
        held = self._flight.bytes
        new = self._flight.named(space, ranges)
        self._see_sample(event, space, new)
        self._flight.take(space, new)
        if self._flight.bytes != held:
            self._is_awaited, self._is_counted = True, bool(self._report)
            if self._report:
                self.counts.acknowledgments += 1
                self.counts.before += self._before.agrees(self._report[0], self._flight.bytes)
                self._report = None
        if ranges:
            top = max(high for _, high in ranges)
            self._see_losses(event, top)
            self._received = (event, top)
        self._lost = []

    def _see_sample(self, event: Event, space: str, new: list[int]) -> None:
        """The round-trip time of the largest packet, if that is newly acknowledged."""
        tops = [max(high for _, high in ack.ranges) for ack in event.acks if ack.ranges]
        if not new or max(new) not in tops:
            return
        latest = max(event.time - self._flight.time_of(space, max(new)), 0)
        self.samples.take(Sample(latest, max(ack.delay for ack in event.acks)))

    def _see_losses(self, event: Event, top: int) -> None:
        """To which of two packets the losses between them are nearer, unless a timer found them."""
        for lost in self._lost:
            distances = [NANOSECONDS["ms"]] * 2
            for place, found in enumerate((self._received, (event, top))):
                if found is None:
                    continue
                packet, highest = found
                if packet.space == lost.space and lost.number < highest:
                    distances[place] = abs(packet.time - lost.time)
            self.counts.losses_behind += distances[0] < distances[1]
            self.counts.losses_before += distances[1] < distances[0]

    # What was found.

    def _are_before(self, least: int) -> bool | None:
        """Whether reports stand before the packet that caused them: by the bytes in flight, or if
        these do not say it, by the round-trip times."""
        found = against(self.counts.before, self.counts.behind, least)
        return against(self.samples.before, self.samples.behind, least) if found is None else found

    def _order(self, taken: Order, least: int) -> Order:
        """The order of the log, or the one that is taken, where too little of it says another."""
        counts = self.counts
        reports = self._are_before(least)
        losses = against(counts.losses_before, counts.losses_behind, least)
        if reports is None:
            reports = taken is Order.BEFORE
        if losses is None:
            losses = taken is Order.LOSSES_BEFORE
        if reports:
            return Order.BEFORE
        return Order.LOSSES_BEFORE if losses else Order.BEHIND

    def doubt(self) -> str | None:
        """What to say if most reports agree with the packets in no order."""
        counts, samples = self.counts, self.samples
        by_bytes = max(counts.behind, counts.before)
        by_times = samples.either + max(samples.behind, samples.before)
        sent = f"reports beside acknowledgments {by_bytes} agree with the packets that were sent"
        times = f"reports of latest_rtt {by_times} agree with the times of the packets"
        found = ((counts.acknowledgments, by_bytes, sent), (samples.count, by_times, times))
        for count, agree, told in found:
            if count >= LEAST_AGAINST_DIALECT and agree < count * PART_APART:
                return (
                    f"of {count} {told}: the log may be misread, and a refusal be the reading's and"
                    " not the sender's"
                )
        return None

    def corrected(self, dialect: Dialect) -> Dialect:
        """A dialect that the log names, in the order of the log where its reports say another.

        Losses by themselves do not: in the tick of a clock they are often as near to the one packet
        as to the other.
        """
        taken = order_of(dialect)
        reports = self._are_before(LEAST_AGAINST_DIALECT)
        if reports is None or reports is (taken is Order.BEFORE):
            return dialect
        return in_order(dialect, self._order(taken, LEAST_AGAINST_DIALECT))

    def dialect(self, generic: Dialect, has_milliseconds: bool) -> Dialect:
        """The dialect of a log that names none."""
        found = in_order(generic, self._order(order_of(generic), LEAST))
        if self.counts.zeros_left_out and not self.counts.zeros:
            found = replace(found, absent=Absent.SAME_OR_ZERO)
        has_whole = sum(self._whole.values()) >= LEAST_VALUES and not self._parts
        if has_whole or (has_milliseconds and self._parts["latest_rtt"]):
            found = replace(found, slack_us=SLACK_OF_MILLISECONDS)
        if has_milliseconds and found.slack_us == SLACK_OF_MILLISECONDS:
            found = replace(found, timer_early_us=EARLY_OF_MILLISECONDS)
        return found

    def told(self, dialect: Dialect, has_milliseconds: bool) -> list[str]:
        """What was found, for people."""
        counts = self.counts
        told = [
            f"{order_of(dialect).value} (acknowledgments with a report: {counts.acknowledgments},"
            f" of which agree after {counts.behind}, before {counts.before};"
            f" losses after {counts.losses_behind}, before {counts.losses_before};"
            f" round-trip times after {self.samples.behind}, before {self.samples.before})",
            f"a value that metrics leave out: {dialect.absent.value}",
        ]
        times = "whole milliseconds" if has_milliseconds else "finer than milliseconds"
        told.append(f"its times are {times}; reports may be off by {dialect.slack_us} microseconds")
        return told
