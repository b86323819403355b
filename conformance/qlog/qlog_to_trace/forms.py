"""The forms in which a qlog is written: one JSON object, JSON-SEQ, and a JSON text a line."""

from collections.abc import Iterator
from collections.abc import Sequence as Several
from typing import Any, BinaryIO, NamedTuple

from .cutter import Cutter
from .errors import Unusable
from .scanner import LONGEST_RECORD, PIECE, decoded, reason_of

RECORD_SEPARATOR = b"\x1e"
# What a record may name that decides what follows it; metrics decide only what is reported.
NAMES_THAT_MATTER = (b"packet", b"timer", b"key_", b"parameters_set")
BROKEN_METRICS = {"name": "metrics that are no JSON"}


class Record(NamedTuple):
    """A value of a log, and the place where it begins, for people."""

    place: str
    value: Any


def object_at(header: dict[str, Any], key: str) -> dict[str, Any]:
    """The object at a key of a header; an empty one where there is none."""
    value = header.get(key)
    if value is None:
        return {}
    if not isinstance(value, dict):
        raise Unusable(f"{key} is no object")
    return value


class Headers(Several[dict[str, Any]]):
    """The headers of traces, each with what the log says of all. They are joined when one is asked
    for, since thousands of traces with a thousand keys each would fill the memory."""

    def __init__(self, shared: dict[str, Any], found: list[dict[str, Any]]) -> None:
        self._shared, self._found = shared, found

    def __len__(self) -> int:
        return len(self._found)

    def __getitem__(self, index: Any) -> Any:
        return self._shared | self._found[index]


class Form:
    """A log of one form, which can be read again and again."""

    def __init__(self, file: BinaryIO) -> None:
        self.file = file
        # Where the log is torn off, once its end was read.
        self.torn_at: str | None = None
        # Records that are no JSON: what is wrong with the one at which the log is torn, and with
        # those that were passed over.
        self.break_of_record: str | None = None
        self.passed_over: list[str] = []

    def headers(self) -> Several[dict[str, Any]]:
        """What the log says of each of its traces beside their events."""
        raise NotImplementedError

    def events(self, index: int) -> Iterator[Record]:
        """The events of a trace."""
        raise NotImplementedError

    def position(self) -> int:
        """How many bytes were read since the log was last begun."""
        return self.file.tell()


class Sequence(Form):
    """A header and then events: JSON-SEQ, where each begins with 0x1E, or one in each line."""

    def __init__(self, file: BinaryIO) -> None:
        super().__init__(file)
        file.seek(0)
        self.is_marked = file.read(1) == RECORD_SEPARATOR

    def headers(self) -> Several[dict[str, Any]]:
        """The one header."""
        first = next(self._records(), None)
        if first is None:
            raise Unusable("no record")
        header = first.value
        if not isinstance(header, dict):
            raise Unusable("the first record is no object", first.place)
        return [header | object_at(header, "trace")]

    def events(self, index: int) -> Iterator[Record]:
        """All records behind the header."""
        records = self._records()
        next(records, None)
        return records

    def _records(self) -> Iterator[Record]:
        """The records; one that is no JSON ends them, unless nothing of recovery is in it."""
        self.torn_at, self.break_of_record, self.passed_over = None, None, []
        is_first = True
        for number, text in self._texts():
            place = f"line {number}"
            try:
                value = decoded(text)
            except (ValueError, RecursionError) as error:
                if is_first:
                    why = reason_of(error) if is_whole(text) else "torn off"
                    raise Unusable(why, place) from error
                value = self._broken(place, text, error)
                if self.torn_at:
                    return
            is_first = False
            yield Record(place, value)

    def _broken(self, place: str, text: bytes, error: Exception) -> object:
        """What stands for a record that is no JSON, as RFC 7464, section 2.3 goes on behind one."""
        if not is_whole(text):
            self.torn_at = place
        elif any(name in text for name in NAMES_THAT_MATTER):
            self.torn_at, self.break_of_record = place, reason_of(error)
        else:
            self.passed_over.append(f"{place}: {reason_of(error)}")
            return BROKEN_METRICS if b"metrics" in text else None
        return None

    def _texts(self) -> Iterator[tuple[int, bytes]]:
        """The text of each record, with the number of its first line."""
        number = 1
        for text in self._pieces():
            if text.strip():
                yield number, text
            number += text.count(b"\n")

    def _pieces(self) -> Iterator[bytes]:
        """What is between two marks: each with its LF, if that is the mark, and without 0x1E, which
        marks where a record begins."""
        mark = RECORD_SEPARATOR if self.is_marked else b"\n"
        self.file.seek(0)
        line, rest = 1, b""
        while piece := self.file.read(PIECE):
            *texts, rest = (rest + piece).split(mark)
            for text in texts:
                self._check(text, line)
                yield text if self.is_marked else text + mark
                line += text.count(b"\n") + (not self.is_marked)
            self._check(rest, line)
        yield rest

    @staticmethod
    def _check(text: bytes, line: int) -> None:
        """Whether a record is as long as one may be."""
        if len(text) > LONGEST_RECORD:
            raise Unusable(f"a record of more than {LONGEST_RECORD:,} bytes", f"line {line}")


def is_whole(text: bytes) -> bool:
    """Whether the end of a record is in the log."""
    return text.endswith(b"\n")


class Document(Form):
    """One JSON object with a list of traces, each with a list of events."""

    def __init__(self, file: BinaryIO) -> None:
        super().__init__(file)
        # How many traces are before those that have headers: of a key that comes twice the last one
        # counts.
        self._before = 0

    def headers(self) -> Several[dict[str, Any]]:
        """The header of each trace, wherever its keys stand; its events are passed over."""
        cutter = Cutter(self.file)
        for _ in cutter.records():
            pass
        try:
            shared = decoded(cutter.skeleton)
        except (ValueError, RecursionError) as error:
            raise Unusable(f"beside its events it is {reason_of(error)}") from error
        traces = shared.pop("traces", [])
        if not isinstance(traces, list) or not all(isinstance(it, dict) for it in traces):
            raise Unusable("traces is no list of objects")
        self._before = max(cutter.traces - len(traces), 0)
        return Headers(shared, traces)

    def events(self, index: int) -> Iterator[Record]:
        """The events of the trace with this index."""
        self.torn_at = None
        cutter, trace = Cutter(self.file), self._before + index + 1
        for cut in cutter.records():
            if cut.trace != trace:
                continue
            place = f"byte {cut.place}"
            try:
                value = decoded(cut.text)
            except (ValueError, RecursionError) as error:
                raise Unusable(reason_of(error), place) from error
            yield Record(place, value)
        if cutter.torn_at is not None:
            self.torn_at = f"byte {cutter.torn_at}"
