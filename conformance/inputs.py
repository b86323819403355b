"""The inputs of conformance/fuzz_library, as fuzz_library.c reads them: those with which it begins,
and those that it keeps, which conformance/library tries again."""

import itertools
import json
from collections.abc import Iterable, Iterator

from runners import FOLDER, traces_of
from structs import commands_of

# No input is longer, and none that is kept.
LONGEST = 16_384
LONGEST_KEPT = 1_024
# A line for each, the shortest first, with each byte as Python writes it in a text.
KEPT = FOLDER / "fuzz_library.inputs"
ESCAPES = "unicode_escape"
# By which each byte is a character of its own.
BYTES = "latin-1"
# How fuzz_library.c comes to refuse memory.
REFUSING = ("-Wl,--wrap=malloc", "-Wl,--wrap=realloc")
# The number of a command in fuzz_library.c.
# fmt: off
CALLS = {
    b"feed": 0, b"header": 1, b"sent": 2, b"ack": 3, b"lost": 4, b"timer": 5, b"discard": 6,
    b"confirmed": 7, b"keys": 8, b"metrics": 9,
}
# fmt: on
OPEN, FINISH, TELL = bytes([10]), bytes([12]), bytes([13])
OPEN_RECORDED, REASON, ALLOWED, REFUSE, MANY_SENT = (bytes([15, which]) for which in range(5))
# In so many allocations one is refused, and a reason has so many rows.
REFUSED_WITHIN = 100
ROWS = 3
# More packets than a trace of 16 KB has, and than the ledger keeps behind one that is open; and how
# many of these there are.
PACKETS, STRAYS = 1_500, 100
FIRST_LINES = (
    '{"event":"header","version":3,"role":"server","max_datagram_size":1200,"window":"reported"}',
    '{"event":"metrics","time":0,"window":1000000000}',
)
# Of the fields of a struct, how many at its end are flags, a byte each.
FLAGS = {b"header": 8, b"sent": 2, b"metrics": 7}


# Calls.


def number(value: int) -> bytes:
    """A number as fuzz_library.c reads it."""
    if value < 0xE0:
        return bytes([value])
    place = next(it for it in range(3) if value < 1 << (16 << it))
    return bytes([0xE0 + place]) + value.to_bytes(2 << place, "little")


def call(command: bytes) -> bytes:
    """A command of structs.py as fuzz_library.c reads it."""
    line, _, rest = command.partition(b"\n")
    word, *texts = line.split()
    values = [int(it) for it in texts]
    if word == b"feed":
        return bytes([0]) + number(values[0]) + rest
    flags = FLAGS.get(word, 0)
    front, back = values[: len(values) - flags], values[len(values) - flags :]
    if word == b"ack":
        # The flag of an acknowledgment stands before its ranges.
        front, back = values[:3], values[3:4]
        later = b"".join(map(number, values[4:]))
    else:
        later = b""
    return bytes([CALLS[word]]) + b"".join(map(number, front)) + bytes(back) + later


def inputs_of(trace: bytes) -> Iterator[bytes]:
    """A trace as it is fed, as calls, and as calls that are recorded, with an allocation refused
    before or after them."""
    yield b"\0\7" + trace
    calls = b"".join(map(call, commands_of(trace)))
    yield b"\1" + OPEN + calls + TELL + FINISH + TELL
    # Another one in each trace.
    refused = REFUSE + bytes([len(trace) % REFUSED_WITHIN, 1])
    asked = REASON + number(ROWS) + ALLOWED + FINISH + TELL
    yield b"\1" + refused + OPEN_RECORDED + calls + asked
    yield b"\1" + OPEN_RECORDED + calls + refused + asked


def many(time: int, numbers: range, is_eliciting: bool = True) -> bytes:
    """Calls that send packets with these numbers."""
    flag = json.dumps(is_eliciting)
    packet = f'"number":{numbers[0]},"size":1200,"eliciting":{flag},"in_flight":{flag}'
    sent = of_line(f'{{"event":"sent","time":{time},"space":"app",{packet}}}')
    return MANY_SENT + sent[1:] + number(len(numbers)) + bytes([numbers.step])


def ack(time: int, *ranges: tuple[int, int]) -> bytes:
    """A call that acknowledges packets."""
    said = f'"time":{time},"space":"app","ranges":{json.dumps(ranges)},"delay":0'
    return of_line(f'{{"event":"ack",{said}}}')


def of_line(line: str) -> bytes:
    """The call that hands in a line of a trace."""
    *_, last = commands_of("".join(f"{it}\n" for it in (*FIRST_LINES, line)).encode())
    return call(last)


def many_open() -> Iterator[bytes]:
    """Calls with more open packets than a trace of their length has, of which some are then
    acknowledged."""
    numbers = range(0, 2 * PACKETS, 2)
    acknowledged = (numbers[::3], numbers[1::2], numbers[-1:], numbers[:1])
    for some, is_eliciting in itertools.product(acknowledged, (True, False)):
        answer = ack(1, *((it, it) for it in some))
        yield many(0, numbers, is_eliciting) + answer + answer


def many_settled() -> Iterator[bytes]:
    """Calls with open packets that nothing waits for, and so many settled ones behind them that
    they are set aside; then some are acknowledged."""
    strays, settled = range(STRAYS), range(STRAYS, STRAYS + PACKETS)
    more = range(settled.stop, settled.stop + PACKETS)
    sent = many(0, strays, is_eliciting=False)
    for moment, them in ((1, settled), (3, more)):
        sent += many(moment, them) + ack(moment + 1, (them[0], them[-1]))
    for first, last in ((0, 0), (STRAYS // 2, STRAYS - 2), (0, more[-1])):
        yield sent + ack(5, (first, last))


def first_inputs() -> dict[str, bytes]:
    """The traces as inputs, by a name, but for those that are too long, and calls with many
    packets."""
    begun = b"\1" + OPEN + b"".join(map(of_line, FIRST_LINES))
    of_many = enumerate(itertools.chain(many_open(), many_settled()))
    of_traces = {
        f"{trace.stem}-{kind}": data
        for trace in traces_of(FOLDER)
        for kind, data in enumerate(inputs_of(trace.read_bytes()))
        if len(data) <= LONGEST
    }
    return of_traces | {f"many-{which}": begun + calls + FINISH + TELL for which, calls in of_many}


# Inputs that are kept.


def kept_inputs() -> list[bytes]:
    """The inputs that are kept."""
    return [line.decode(ESCAPES).encode(BYTES) for line in KEPT.read_bytes().splitlines()]


def keep(inputs: Iterable[bytes]) -> None:
    """Keeps these inputs in the place of those before."""
    lines = [it.decode(BYTES).encode(ESCAPES) + b"\n" for it in sorted(inputs, key=by_length)]
    KEPT.write_bytes(b"".join(lines))


def is_trace(data: bytes) -> bool:
    """Whether an input is a trace, and not calls."""
    return data[:1] == b"" or data[0] % 2 == 0


def trace_of(data: bytes) -> bytes:
    """The trace that an input is; the size of a piece is before it."""
    return data[2:]


def by_length(data: bytes) -> tuple[int, bytes]:
    """The place of an input among others: the shortest is first."""
    return len(data), data
