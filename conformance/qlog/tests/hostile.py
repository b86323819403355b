"""Logs that nobody would write: real ones in which a value, a byte or the end is another."""

import contextlib
import json
import random
import signal
import sys
import traceback
from collections.abc import Iterator
from pathlib import Path
from types import FrameType
from typing import Any, NamedTuple

from .made import TOP, End

sys.path.append(str(TOP / "conformance"))

from faults import fault_of  # noqa: E402
from structs import NoStructError, header  # noqa: E402

REAL = TOP / "conformance" / "real" / "traces"
MARK = b"\x1e"
# Of a log so many records are kept, so that a case takes milliseconds.
RECORDS = 60
# How much processor time a case may take, and how long if it waits for something: on a busy
# computer it waits for a processor too.
SECONDS = 5.0
SECONDS_OF_WAITING = 120.0
# Texts that take the place of a value; some are no JSON.
VALUES = (
    *("null", "true", "false", "0", "-1", "1", "1.5", "-0.0", '""', '"x"', "[]", "{}", "[[]]"),
    *("18446744073709551615", "18446744073709551616", "4611686018427387904", "65528", "1e40"),
    *("1000000000000000000", "1e999999999", "1e-999999999", '"1e999999999"', "NaN", "Infinity"),
    *("9" * 5000, f'"{"9" * 5000}"', f"0.{'9' * 5000}", f'"{"x" * 70_000}"'),
    *(f"{'[' * 3000}{']' * 3000}", "[" * 3000, '{"a":' * 3000, "[[0,1000000000000000000]]"),
    *("[[5,1]]", "[[1,2,3]]", "[[-1,2]]", '[["a","b"]]', "[1,2]", '[{"a":1}]', '{"length":5}'),
    *(r'"\u001b[31m\u0007"', r'"\u202e\u2066"', r'"\udb40\udc41"', r'"\ud800"', r'"a\nb"'),
    *('"packet_sent"', '"transport:packet_sent"', '"recovery:metrics_updated"', '"1RTT"'),
    *('"initial"', '"retry"', '"0RTT"', '"ack"', '"expired"', '"pto"', '"delta"', '"relative"'),
    # Numbers that are written otherwise, and texts that are none.
    *("-0", "1e3", "1200.0", "12000e-1", "1e-1", "0e99", "9007199254740993", "20e-1", "0.0000001"),
    *('"7"', '"+7"', '"7.0"', '"7."', '".5e1"', '" 7"', '"7_0"', '"\u0667"', '"0x7"', '"nan"'),
    *('"INITIAL"', '"1-rtt"', '"hand_shake"', '"ac\u212a"', r'"\ud83d\ude00"', r'"a\ud83d"'),
    f"{'[' * 127}{']' * 127}",
)
# Bytes that are put in somewhere.
BYTES = (b"\x00", b"\x1b[2J", b"\xff", b"\xed\xa0\x80", MARK, b"\n", b'"', b"{", b"}", b"[", b",")
# What stands for a value until the log is written.
PLACE = "\u0001place\u0001"


# Keys and indexes that lead to a value of a log.
Way = tuple[str | int, ...]


class Case(NamedTuple):
    """A log, and how it came about."""

    name: str
    data: bytes


class TooSlowError(Exception):
    """A case takes too long."""


class Seed:
    """A log whose values can be others."""

    def __init__(self, path: Path) -> None:
        self.name = path.name
        data = path.read_bytes()
        first = data.partition(b"\n")[0]
        self.is_marked = data.startswith(MARK)
        self.is_sequence = self.is_marked or b'"traces"' not in data[:400] and self._is_whole(first)
        if self.is_sequence:
            texts = data.split(MARK) if self.is_marked else data.split(b"\n")
            self.value: Any = [json.loads(it) for it in texts if it.strip()][:RECORDS]
        else:
            self.value = json.loads(data)
            place = self.value if "events" in self.value else self.value["traces"][0]
            place["events"] = place["events"][:RECORDS]

    def mixed(self, chance: random.Random) -> Case:
        """A log whose records are in another order, left out or twice there, or have a value of
        another."""
        value = json.loads(json.dumps(self.value))
        records, told = self._records(value), []
        ways = [way for way, _ in ways_into(records)]
        for _ in range(chance.choice((1, 2, 4, 8))):
            at, change = chance.randrange(len(records)), chance.randrange(5)
            told.append((at, change))
            match change:
                case 0:
                    records.insert(max(at - chance.choice((1, 1, 2, 5, 20)), 0), records.pop(at))
                case 1:
                    records.insert(at, json.loads(json.dumps(records[at])))
                case 2 if len(records) > 1:
                    del records[at]
                case _:
                    self._copy_value(records, ways, chance)
        return Case(f"{self.name}: records are changed: {told}"[:300], self.text(value))

    def _records(self, value: Any) -> list[Any]:
        """The records of a log, and of one of many texts its head."""
        if self.is_sequence:
            records = value
        else:
            records = (value if "events" in value else value["traces"][0])["events"]
        assert isinstance(records, list)
        return records

    @staticmethod
    def _copy_value(records: list[Any], ways: list[Way], chance: random.Random) -> None:
        """Gives a key the value that it has elsewhere."""
        way = chance.choice(ways)
        others = [it for it in ways if it[-1] == way[-1]]
        with contextlib.suppress(LookupError, TypeError):
            other: Any = records
            for key in chance.choice(others):
                other = other[key]
            parent: Any = records
            for key in way[:-1]:
                parent = parent[key]
            parent[way[-1]] = json.loads(json.dumps(other))

    def torn(self, chance: random.Random) -> Case:
        """A log that ends within a record, or near the end of one."""
        data = self.text(self.value)
        marks = [at for at in range(len(data)) if data[at : at + 1] in (b"\n", MARK, b"}")]
        near = chance.choice(marks) + chance.choice((-1, 0, 1, 2)) if marks else 0
        place = near if chance.random() < 0.5 else chance.randrange(len(data))
        return Case(f"{self.name}: torn at byte {place}", data[: max(place, 0)])

    @staticmethod
    def _is_whole(text: bytes) -> bool:
        try:
            json.loads(text)
        except ValueError:
            return False
        return True

    def text(self, value: Any) -> bytes:
        """The log as bytes."""
        if not self.is_sequence:
            return json.dumps(value).encode()
        mark = MARK if self.is_marked else b""
        return b"".join(mark + json.dumps(it).encode() + b"\n" for it in value)

    def fields(self, chance: random.Random) -> list[Way]:
        """A way to each field: to one of those that have the same keys on the way, and the same
        name of the event."""
        found: dict[Way, list[Way]] = {}
        for way, kind in ways_into(self.value):
            found.setdefault(kind, []).append(way)
        return [chance.choice(ways) for ways in found.values()]

    def with_value(self, way: Way, text: str) -> Case:
        """A case with this text in place of a value."""
        value = json.loads(json.dumps(self.value))
        parent: Any = value
        for key in way[:-1]:
            parent = parent[key]
        parent[way[-1]] = PLACE
        data = self.text(value).replace(json.dumps(PLACE).encode(), text.encode(), 1)
        return Case(f"{self.name}: {'.'.join(map(str, way))} is {text}"[:300], data)

    def mutated(self, chance: random.Random) -> Case:
        """A case."""
        if chance.random() < 0.2:
            return self._with_other_bytes(chance)
        value = json.loads(json.dumps(self.value))
        told = []
        for _ in range(chance.choice((1, 1, 1, 2, 4))):
            told.append(self._change(value, chance))
        data = self.text(value)
        for _, text in told:
            data = data.replace(json.dumps(PLACE).encode(), text.encode(), 1)
        return Case(f"{self.name}: {told}"[:300], data)

    def _change(self, value: Any, chance: random.Random) -> tuple[str, str]:
        """Puts another value somewhere, or takes one away."""
        parent: Any = value
        key: Any = None
        path = ""
        found = chance.randrange(len(value)) if isinstance(value, list) and value else None
        if found is not None and chance.random() < 0.95:
            parent, key = value, found
        while True:
            child = parent if key is None else parent[key]
            keys: Any = ()
            if isinstance(child, dict | list):
                keys = list(child) if isinstance(child, dict) else range(len(child))
            if not keys or (key is not None and chance.random() < 0.15):
                break
            parent, key = child, chance.choice(keys)
            path += f".{key}"
        if key is None:
            return path, ""
        if chance.random() < 0.1:
            del parent[key]
            return f"without {path}", ""
        text = chance.choice(VALUES)
        parent[key] = PLACE
        return path, text

    def _with_other_bytes(self, chance: random.Random) -> Case:
        """A torn log, or one with a byte more or less."""
        data = self.text(self.value)
        place = chance.randrange(len(data))
        match chance.randrange(5):
            case 0:
                return Case(f"{self.name}: torn at byte {place}", data[:place])
            case 1:
                return Case(f"{self.name}: without byte {place}", data[:place] + data[place + 1 :])
            case 2:
                return Case(f"{self.name}: from byte {place} on", data[place:])
            case 3:
                end = place + chance.choice((1, 2, 10, 1_000, 100_000))
                name = f"{self.name}: white space from byte {place} to {end}"
                return Case(name, data[:place] + b" " * (end - place) + data[end:])
        more = chance.choice(BYTES)
        return Case(f"{self.name}: {more!r} at byte {place}", data[:place] + more + data[place:])


def ways_into(value: Any, way: Way = (), kind: Way = ()) -> Iterator[tuple[Way, Way]]:
    """The way to each value within a value, and its kind: without indexes, and with the name of an
    event."""
    if isinstance(value, dict):
        name = str(value.get("name") or value.get("type") or "")
        for key, member in value.items():
            yield (*way, key), (*kind, name, key)
            yield from ways_into(member, (*way, key), (*kind, name, key))
    elif isinstance(value, list):
        for index, member in enumerate(value):
            yield (*way, index), (*kind, "")
            yield from ways_into(member, (*way, index), (*kind, ""))


def seeds() -> list[Seed]:
    """The real logs."""
    return [Seed(path) for path in sorted(REAL.glob("*.qlog"))]


def each_value(logs: list[Seed], chance: random.Random) -> list[tuple[Seed, Way, str]]:
    """Each field of each log with each value, in an order by chance."""
    found = [(log, way, text) for log in logs for way in log.fields(chance) for text in VALUES]
    chance.shuffle(found)
    return found


def cases(
    seed: int, part: int = 0, parts: int = 1, logs: list[Seed] | None = None
) -> Iterator[Case]:
    """Cases without an end, of these logs or of the real ones. Every second one is of a field that
    is given a value, as long as there are some. Of these it is one part of so many; the seed of a
    part is that of the first and its number."""
    logs, chance = seeds() if logs is None else logs, random.Random(seed)
    for log, way, text in each_value(logs, random.Random(seed - part))[part::parts]:
        yield log.with_value(way, text)
        yield chance.choice(logs).mutated(chance)
    while True:
        yield chance.choice(logs).mutated(chance)


def too_slow(_: int, __: FrameType | None) -> None:
    """What the alarm does."""
    raise TooSlowError


@contextlib.contextmanager
def in_time() -> Iterator[None]:
    """Raises TooSlowError if what is done within takes too long."""
    timers = (
        (signal.SIGPROF, signal.ITIMER_PROF, SECONDS),
        (signal.SIGALRM, signal.ITIMER_REAL, SECONDS_OF_WAITING),
    )
    for number, timer, seconds in timers:
        signal.signal(number, too_slow)
        signal.setitimer(timer, seconds)
    try:
        yield
    finally:
        for _, timer, _ in timers:
            signal.setitimer(timer, 0)


def failure_of(case: Case) -> str | None:
    """How the converter fails on a case; nothing if it does not."""
    try:
        with in_time():
            end = End(case.data)
    except TooSlowError:
        return f"it takes more than {SECONDS} seconds of processor time, or waits for something"
    except BaseException:
        return traceback.format_exc()
    return failure_of_end(end)


def failure_of_end(end: End) -> str | None:
    """What is wrong with how the converter has ended; nothing if it is right."""
    told = end.errors.splitlines()
    if not all(line.startswith("qlog-to-trace: LOG: ") for line in told):
        return f"a line of others on standard error: {end.errors!r}"
    if not end.errors.replace("\n", "").isprintable():
        return f"what cannot be printed on standard error: {end.errors!r}"
    if end.status == 2:
        return None if len(told) == 1 else f"status 2 with {len(told)} lines on standard error"
    return f"status {end.status}" if end.status else fault_of_trace(end.text.encode())


def fault_of_trace(trace: bytes) -> str | None:
    """Why a trace cannot be read; nothing if it can."""
    first, *lines = trace.splitlines()
    said = {key: it for key, it in json.loads(first).items() if it is not None}
    try:
        header({key: it for key, it in said.items() if key != "event" and not key.startswith("x_")})
    except NoStructError:
        return f"a header that cannot be read: {first!r}"
    for number, line in enumerate(lines, 2):
        fault = fault_of(line)
        if fault:
            return f"line {number}: {fault}: {line[:300]!r}"
    return None
