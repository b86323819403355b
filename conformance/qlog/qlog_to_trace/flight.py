"""The packets in flight, as the log tells of them."""

from bisect import bisect_left, bisect_right, insort
from collections.abc import Iterable, Iterator
from itertools import islice

from .events import SPACES, Ranges

# So many numbers are not taken out of a list one by one.
MANY = 16
# How many packets may leave without an event. A sender that probes for packets takes out a few.
FIRST = 1_000


def as_ranges(numbers: Iterable[int]) -> Ranges:
    """Numbers as ranges, in ascending order."""
    ranges: Ranges = []
    for number in sorted(set(numbers)):
        if ranges and ranges[-1][1] == number - 1:
            ranges[-1][1] = number
        else:
            ranges.append([number, number])
    return ranges


def joined(ranges: Ranges) -> Ranges:
    """The same numbers in ranges that do not overlap, in ascending order."""
    found: Ranges = []
    for low, high in sorted(ranges):
        if found and low <= found[-1][1]:
            found[-1][1] = max(found[-1][1], high)
        else:
            found.append([low, high])
    return found


class Numbers:
    """Numbers in ascending order: those of a range are found without a look at all of them."""

    def __init__(self) -> None:
        self._all: list[int] = []

    def __contains__(self, number: int) -> bool:
        place = bisect_left(self._all, number)
        return place < len(self._all) and self._all[place] == number

    def __iter__(self) -> Iterator[int]:
        return iter(self._all)

    def add(self, number: int) -> None:
        """One more, which is not there yet."""
        if self._all and number < self._all[-1]:
            insort(self._all, number)
        else:
            self._all.append(number)

    def within(self, ranges: Ranges) -> list[int]:
        """Those that are in some range, ascending."""
        found: list[int] = []
        for low, high in joined(ranges):
            found += self._all[bisect_left(self._all, low) : bisect_right(self._all, high)]
        return found

    def take(self, gone: list[int]) -> None:
        """Takes out some of them."""
        if len(gone) > MANY:
            without = set(gone)
            self._all = [number for number in self._all if number not in without]
            return
        for number in gone:
            del self._all[bisect_left(self._all, number)]


class Bare:
    """The last packets of each space that were sent and are not in flight."""

    KEPT = 4_096

    def __init__(self) -> None:
        self._numbers: dict[str, dict[int, None]] = {space: {} for space in SPACES}

    def add(self, space: str, number: int) -> None:
        """A packet was sent."""
        numbers = self._numbers[space]
        numbers[number] = None
        if len(numbers) > self.KEPT:
            del numbers[next(iter(numbers))]

    def has(self, space: str, number: int) -> bool:
        """Whether it is one of them."""
        return number in self._numbers[space]


class Flight:
    """Sizes and times of the packets in flight by space and number, and their sum."""

    def __init__(self) -> None:
        # Sizes, and when they were sent.
        self._packets: dict[str, dict[int, tuple[int, int]]] = {space: {} for space in SPACES}
        self._numbers = {space: Numbers() for space in SPACES}
        self._bytes = dict.fromkeys(SPACES, 0)
        # The bytes in flight.
        self.bytes = 0

    def bytes_of(self, space: str) -> int:
        """The bytes in flight of a space."""
        return self._bytes[space]

    def add(self, space: str, number: int, size: int, time: int) -> None:
        """A packet was sent."""
        self.take(space, [number])
        self._numbers[space].add(number)
        self._packets[space][number] = (size, time)
        self._bytes[space] += size
        self.bytes += size

    def take(self, space: str, numbers: Iterable[int]) -> int:
        """Packets leave; how many bytes they had."""
        packets = self._packets[space]
        gone = [number for number in dict.fromkeys(numbers) if number in packets]
        total = sum([packets.pop(number)[0] for number in gone])
        self._numbers[space].take(gone)
        self._bytes[space] -= total
        self.bytes -= total
        return total

    def clear(self, space: str) -> None:
        """The keys of a space are gone."""
        self.take(space, list(self._packets[space]))

    def size_of(self, space: str, number: int) -> int:
        """The size of a packet in flight; 0 for another."""
        return self._packets[space].get(number, (0, 0))[0]

    def time_of(self, space: str, number: int) -> int:
        """When a packet in flight was sent; 0 for another."""
        return self._packets[space].get(number, (0, 0))[1]

    def below(self, space: str, top: int) -> Iterator[tuple[int, int]]:
        """The packets in flight of a space that are below a number, ascending, and when they were
        sent."""
        packets = self._packets[space]
        for number in self._numbers[space]:
            if number >= top:
                return
            yield number, packets[number][1]

    def named(self, space: str, ranges: Ranges) -> list[int]:
        """The packets in flight whose numbers are in some range, ascending."""
        return self._numbers[space].within(ranges)

    def first_of_sum(self, total: int) -> tuple[str, list[int]] | None:
        """A space and its first packets that have just so many bytes together, if there are any;
        no more than FIRST."""
        for space, packets in self._packets.items():
            taken, held = [], 0
            for number in islice(self._numbers[space], FIRST):
                if held >= total:
                    break
                taken.append(number)
                held += packets[number][0]
            if held == total:
                return space, taken
        return None

    def has(self, space: str) -> bool:
        """Whether a packet of the space is in flight."""
        return bool(self._packets[space])
