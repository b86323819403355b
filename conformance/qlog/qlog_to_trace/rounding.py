"""What is decided by the parts of a millisecond that a log cuts off.

A sender subtracts the delay of an acknowledgment unless that would leave less than the minimum
(RFC 9002, 5.3), and declares a packet lost once it is as old as the loss delay (6.1.2). If the two
sides are equal but for what the log cut off, its numbers can decide this the other way than the
sender did. What the log says next shows how the sender decided. Then the delay, or the time of the
acknowledgment, is written so that it is decided likewise: it differs from the log's by what may
have been cut off.
"""

from dataclasses import dataclass

from .events import NANOSECONDS

MILLISECOND = NANOSECONDS["ms"]
# A sample and the minimum are each off by less than a millisecond, and so is the delay.
CUT_OFF = 2 * MILLISECOND
# What was cut off a value is taken to be half of what it can be.
HALF = MILLISECOND // 2
# How much nearer to the reports the other decision has to be.
NEARER = MILLISECOND // 2
# How much earlier than the log's a time may be: both ends of an age are cut to a millisecond.
EARLIER = MILLISECOND - NANOSECONDS["us"]
# By how much a packet may be younger or older than the loss delay by the log, and be the other.
YOUNGER, OLDER = MILLISECOND // 2, 3 * MILLISECOND
# RFC 9002, 6.1.2: kTimeThreshold is in so many parts of the round-trip time.
PARTS_OF_RTT = 8
VALUES = {"smoothed_rtt", "rttvar"}


@dataclass(frozen=True)
class Sample:
    """A round-trip time and the minimum by the times of the log, and the delay as it counts."""

    latest: int
    minimum: int
    delay: int

    @property
    def is_subtracted(self) -> bool:
        """Whether the delay is subtracted by these numbers."""
        return self.latest >= self.minimum + self.delay

    def distance(self, before: dict[str, int], after: dict[str, int], is_subtracted: bool) -> int:
        """How far what follows from the reports before is from the report after it."""
        adjusted = max(0, self.latest - self.delay) if is_subtracted else self.latest
        held = before["smoothed_rtt"] + HALF
        smoothed = (7 * held + adjusted) // 8
        rttvar = (3 * (before["rttvar"] + HALF) + abs(held - adjusted)) // 4
        off = abs(smoothed - after["smoothed_rtt"] - HALF)
        return off + abs(rttvar - after["rttvar"] - HALF)

    def is_otherwise(self, before: dict[str, int], after: dict[str, int]) -> bool:
        """Whether the reports show that the sender decided the other way."""
        if not VALUES <= before.keys() & after.keys():
            return False
        if abs(self.latest - self.minimum - self.delay) > CUT_OFF:
            return False
        here = self.distance(before, after, self.is_subtracted)
        return self.distance(before, after, not self.is_subtracted) + NEARER < here


class Delays:
    """The delays of acknowledgments, with the minimum of the samples so far."""

    def __init__(self) -> None:
        self._minimum: int | None = None

    def settled(
        self, latest: int, delay: int, longest: int | None, reports: tuple[dict[str, int], ...]
    ) -> int:
        """The delay that decides as the reports before and after an acknowledgment show.

        `longest` is what counts of a delay at most, once the handshake is confirmed.
        """
        before, after = reports
        held = self._minimum
        self._minimum = latest if held is None else min(held, latest)
        if held is None:
            return delay
        counted = delay if longest is None else min(delay, longest)
        sample = Sample(latest, self._minimum, counted)
        if not sample.is_otherwise(before, after):
            return delay
        most = latest - self._minimum
        other = most + NANOSECONDS["us"] if sample.is_subtracted else most
        return delay if longest is not None and other > longest else max(other, 0)


@dataclass(frozen=True)
class Age:
    """How old a packet is at some time, the round-trip time by which it is lost, and at how many
    eighths of it."""

    age: int
    rtt: int
    eighths: int

    @property
    def over(self) -> int:
        """By how much it is older than the loss delay."""
        return self.age - self.rtt * self.eighths // PARTS_OF_RTT

    @property
    def is_young(self) -> bool:
        """Whether it is younger, whatever was cut off."""
        return self.over < -YOUNGER

    @property
    def is_open(self) -> bool:
        """Whether it is younger or older by what was cut off."""
        return not self.is_young and self.over <= OLDER
