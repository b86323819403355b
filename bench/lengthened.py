"""Logs of real stacks, made longer: the records of the application data are repeated with later
times and higher packet numbers, so that they are written as the stack writes them."""

import json
from collections.abc import Iterator
from dataclasses import dataclass
from pathlib import Path
from typing import Any

REAL = Path(__file__).resolve().parent.parent / "conformance/real/traces"
RECORD_SEPARATOR = b"\x1e"
# The types of packets whose records are not repeated, as stacks write them.
EARLIER = ("initial", "handshake", "retry", "0RTT", "zerortt")
NAMES_REPEATED = ("packet_sent", "packet_received", "packet_lost", "metrics_updated")


@dataclass(frozen=True)
class Shape:
    """A log of a stack that is made longer."""

    name: str
    # The file of conformance/real/traces.
    log: str


SHAPES = (
    Shape("quic-go", "quic-go-0.59-loss.qlog"),
    Shape("ngtcp2", "ngtcp2-1.24-cubic-loss.qlog"),
    Shape("openssl", "openssl-3.6-loss.qlog"),
    Shape("neqo", "neqo-153-latest.qlog"),
    Shape("aioquic", "aioquic-rttvar.qlog"),
)


def header_of(record: dict[str, Any]) -> dict[str, Any]:
    """The header of the packet of a record, if it is of one."""
    header = record.get("data", {}).get("header")
    return header if isinstance(header, dict) else {}


def is_repeated(record: Any) -> bool:
    """Whether a record is one of the application data."""
    if not isinstance(record, dict):
        return False
    name = str(record.get("name", "")).rpartition(":")[2]
    kind = str(header_of(record).get("packet_type", "")).lower()
    return name in NAMES_REPEATED and not kind.startswith(tuple(it.lower() for it in EARLIER))


def closes(record: Any) -> bool:
    """Whether a record is of a packet that closes the connection. Such packets are left out, since
    nothing after them is converted."""
    data = record.get("data") if isinstance(record, dict) else None
    frames = data.get("frames") if isinstance(data, dict) else None
    return any(it.get("frame_type") == "connection_close" for it in frames or [])


def number_of(value: Any) -> int:
    """A packet number, which some stacks write as a string."""
    return int(value)


def span_of(records: list[dict[str, Any]]) -> int:
    """How many packet numbers the records of one name reach over, at most."""
    numbers: dict[str, list[int]] = {}
    for record in records:
        found = header_of(record).get("packet_number")
        if found is not None:
            numbers.setdefault(str(record.get("name")), []).append(number_of(found))
    return max((max(it) - min(it) + 1 for it in numbers.values()), default=1)


class Repeating:
    """Some records again and again, each time later and with higher numbers."""

    def __init__(self, records: list[dict[str, Any]], is_delta: bool) -> None:
        self._texts = [json.dumps(it, separators=(",", ":")) for it in records]
        self._numbers = span_of(records)
        times = [it["time"] for it in records if "time" in it]
        self._duration = 0 if is_delta or not times else max(times) - min(times) + 1

    def time(self, number: int) -> Iterator[dict[str, Any]]:
        """The records of one time, by its number from 1."""
        for text in self._texts:
            record = json.loads(text)
            if "time" in record:
                # Whole milliseconds stay whole, as a stack writes them.
                record["time"] = round(record["time"] + number * self._duration, 6)
            self._shift(record, number * self._numbers)
            yield record

    @staticmethod
    def _shift(record: dict[str, Any], by: int) -> None:
        header = header_of(record)
        if "packet_number" in header:
            header["packet_number"] = number_of(header["packet_number"]) + by
        for frame in record["data"].get("frames") or []:
            ranges = frame.get("acked_ranges")
            if ranges:
                frame["acked_ranges"] = [[number_of(it) + by for it in pair] for pair in ranges]


def written(record: Any, mark: bytes) -> bytes:
    """A record as a text of a log."""
    return mark + json.dumps(record, separators=(",", ":")).encode() + b"\n"


class Sequence:
    """A log of many texts."""

    def __init__(self, content: bytes) -> None:
        self._mark = RECORD_SEPARATOR if content.startswith(RECORD_SEPARATOR) else b""
        texts = content.split(RECORD_SEPARATOR if self._mark else b"\n")
        values = (json.loads(text) for text in texts if text.strip())
        self._values = [it for it in values if not closes(it)]

    def parts(self) -> Iterator[bytes]:
        """The log, and then its records again and again."""
        yield b"".join(written(it, self._mark) for it in self._values)
        repeated = [it for it in self._values[1:] if is_repeated(it)]
        head = self._values[0].get("trace", self._values[0])
        form = head.get("common_fields", {}).get("time_format")
        repeating = Repeating(repeated, form in ("delta", "relative_to_previous_event"))
        number = 0
        while True:
            number += 1
            yield b"".join(written(it, self._mark) for it in repeating.time(number))

    def end(self) -> bytes:
        """What ends the log."""
        return b""


class Document:
    """A log that is one object with one trace."""

    def __init__(self, content: bytes) -> None:
        self._value = json.loads(content)

    def parts(self) -> Iterator[bytes]:
        """The log, and then its records again and again. Its list of events comes last."""
        trace = self._value["traces"][0]
        events = [it for it in trace["events"] if not closes(it)]
        rest = {key: value for key, value in trace.items() if key != "events"}
        document = {key: value for key, value in self._value.items() if key != "traces"}
        head = json.dumps(document)[:-1] + ', "traces": [' + json.dumps(rest)[:-1] + ', "events": ['
        yield (head + ", ".join(json.dumps(it) for it in events)).encode()
        repeating = Repeating([it for it in events if is_repeated(it)], is_delta=False)
        number = 0
        while True:
            number += 1
            yield "".join(", " + json.dumps(it) for it in repeating.time(number)).encode()

    def end(self) -> bytes:
        """What ends the log."""
        return b"]}]}"


def lengthened(shape: Shape, path: Path, size: int) -> int:
    """Writes a log of at least so many bytes, and returns how many it has."""
    content = (REAL / shape.log).read_bytes()
    log = Document(content) if content.lstrip().startswith(b'{"qlog_format": "JSON"') else None
    form: Document | Sequence = log or Sequence(content)
    length = 0
    with path.open("wb") as file:
        for part in form.parts():
            length += file.write(part)
            if length >= size:
                break
        length += file.write(form.end())
    return length
