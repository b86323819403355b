"""Lines and reports as bytes, for traces that are made up."""

import itertools
from collections.abc import Callable, Iterable, Iterator, Mapping
from types import MappingProxyType

from constants import MAX_LINE_LENGTH, OF_ROWS

Range = tuple[int, int]

# The totals of a header that leaves out what it may, with datagrams of 1,200 bytes.
START: Mapping[str, object] = MappingProxyType(
    {
        "events": 0,
        "window": 12_000,
        "ssthresh": "none",
        "bytes_in_flight": 0,
        "latest_rtt": 0,
        "min_rtt": 0,
        "smoothed_rtt": 333_000,
        "rttvar": 166_500,
        "pto_count": 0,
        "owed": 0,
    }
)


def report(verdict: str, totals: Mapping[str, object] = START, **others: object) -> bytes:
    """A report with these totals, but for some others."""
    rows = (f"{name} {value}" for name, value in {**totals, **others}.items())
    return "".join(f"{line}\n" for line in (verdict, *rows)).encode()


def row(number: int, kind: str, value_of: Callable[[str], object] = START.get) -> str:
    """The row of a line of this number, behind which the totals are these."""
    totals = (f" {name} {value_of(name)}" for name in OF_ROWS)
    return f"line {number} {kind}{''.join(totals)}\n"


def header(role: str = "server", more: str = "", version: int = 1) -> bytes:
    """A header; here as below `more` has the keys behind those that each line of its kind has."""
    start = f'{{"event":"header","version":{version},"role":"{role}","max_datagram_size":1200'
    return f"{start}{more}}}\n".encode()


def sent(
    number: int,
    time: int = 0,
    space: str = "app",
    size: int = 1200,
    *,
    is_in_flight: bool = True,
    more: str = "",
) -> bytes:
    """A packet, which is ack-eliciting and in flight, or neither."""
    flag = "true" if is_in_flight else "false"
    return (
        f'{{"event":"sent","time":{time},"space":"{space}","number":{number},"size":{size},'
        f'"eliciting":{flag},"in_flight":{flag}{more}}}\n'
    ).encode()


def ranged(event: str, time: int, ranges: Iterable[Range]) -> bytes:
    """An `ack` or `lost` line of as many of these ranges as it has room for."""
    front = b'{"event":"%s","time":%d,"space":"app","ranges":' % (event.encode(), time)
    room = MAX_LINE_LENGTH - len(front) - 1
    return front + filled((b"[%d,%d]" % pair for pair in ranges), b"[]", room) + b"}\n"


def bare(number: int) -> bytes:
    """A packet that is not in flight."""
    return sent(number, size=1, is_in_flight=False)


def acknowledged(first: int, count: int) -> Iterator[bytes]:
    """Packets of these numbers, each acknowledged a microsecond after it is sent and before the
    next is."""
    for number in range(first, first + count):
        yield sent(number, 2 * number) + ranged("ack", 2 * number + 1, [(number, number)])


def report_of_acknowledged(count: int, others: int = 0) -> bytes:
    """The report of so many of them, and of other events that change nothing: in slow start each
    adds its size to the window, and each sample of the round-trip time is a microsecond, so that
    its variation is 0."""
    return report(
        "accepted",
        events=2 * count + others,
        window=12000 + 1200 * count,
        latest_rtt=1,
        min_rtt=1,
        smoothed_rtt=1,
        rttvar=0,
    )


def timer(time: int, space: str = "initial") -> bytes:
    """A probe timeout."""
    return b'{"event":"timer","time":%d,"kind":"pto","space":"%s"}\n' % (time, space.encode())


def filled(items: Iterable[bytes], brackets: bytes, room: int) -> bytes:
    """As many of these items as there is room for, with commas between and brackets around."""
    kept, length = [], len(brackets)
    for item in items:
        length += len(item) + 1
        if length > room:
            break
        kept.append(item)
    return brackets[:1] + b",".join(kept) + brackets[1:]


def at_once(lines: Iterable[bytes], count: int = 1000) -> Iterator[bytes]:
    """The same lines, so many in a piece."""
    iterator = iter(lines)
    while piece := b"".join(itertools.islice(iterator, count)):
        yield piece
