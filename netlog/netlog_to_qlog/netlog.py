"""The qlog of a netlog of Chromium: JSON-SEQ, with each QUIC session as a connection of it.

`chromium --log-net-log=FILE --net-log-capture-mode=Everything` writes a netlog.
"""

import json
import re
from collections import Counter
from collections.abc import Callable, Iterable, Iterator
from typing import Any, BinaryIO, NamedTuple

from .errors import Torn, Unusable
from .scanner import LONGEST_RECORD, Scanner
from .sessions import LIMIT_OF_TIMES, Record, Session, Values, in_milliseconds, number_of

MARK = re.compile(rb'\s*\{\s*"constants"')
PREFIX = "QUIC_SESSION_"
SENT = PREFIX + "PACKET_SENT"
# How many sessions a netlog has at most, so that they fit in memory.
MOST_SESSIONS = 50_000
RECORD_SEPARATOR = "\x1e"
# By its title a converter knows where it comes from.
HEADER: Values = {
    "qlog_version": "0.3",
    "qlog_format": "JSON-SEQ",
    "title": "netlog of Chromium",
    "trace": {
        "vantage_point": {"type": "client"},
        "common_fields": {"time_format": "relative"},
    },
}
# A record that says nothing of a connection but that it is there.
NAMED = ("transport:parameters_set", {"owner": "local"})
ENCODER = json.JSONEncoder(separators=(",", ":"))
START = "byte 0"

# What takes each text of the qlog, and where in the netlog it is from.
Take = Callable[[str, str], None]


def is_netlog(first: bytes) -> bool:
    """Whether a file begins as a netlog does."""
    return MARK.match(first) is not None


class Happening(NamedTuple):
    """An event of a netlog: where it is, its name, its source, and all of it."""

    place: str
    name: str
    source: object
    member: Values


class Connection:
    """A session as a connection of the qlog, whose times count from its first record."""

    def __init__(self) -> None:
        self.session = Session()
        self._start: int | None = None
        # Why it is left out, if it cannot be read.
        self.fault: Unusable | None = None

    def texts(self, number: int, records: Iterable[Record]) -> Iterator[tuple[str, str]]:
        """Records as texts of the connection of this number, each with its place."""
        for place, time, name, data in records:
            if abs(time) >= LIMIT_OF_TIMES:
                raise Unusable("time is out of range", place)
            if self._start is None:
                self._start = time
            yield text_of(time - self._start, name, number, data), place


def text_of(microseconds: int, name: str, number: int, data: Values) -> str:
    """A record of a qlog."""
    record = {"time": in_milliseconds(microseconds), "name": name, "group_id": str(number)}
    return marked(record | {"data": data})


def marked(record: Values) -> str:
    """A record as it stands in a file of the form JSON-SEQ."""
    return f"{RECORD_SEPARATOR}{ENCODER.encode(record)}\n"


class Netlog:
    """A netlog, which is read twice: a fault in it is found before anything is written."""

    def __init__(self, file: BinaryIO) -> None:
        self._file = file
        # Where it is torn off, once its end was read.
        self.torn_at: str | None = None
        # Why sessions are left out, and what is left out of others.
        self.left_out: list[str] = []
        # The number of each session by its source: the one with most packets is the first.
        self._numbers: dict[object, int] = {}

    def look(self) -> None:
        """Reads it, and finds its sessions."""
        sent: Counter[object] = Counter()
        found: dict[object, Connection] = {}
        for happening in self._happenings():
            if happening.name == SENT:
                sent[happening.source] += 1
            connection = found.setdefault(happening.source, Connection())
            if len(found) > MOST_SESSIONS:
                raise Unusable(f"a netlog of more than {MOST_SESSIONS:,} sessions")
            tried(connection, happening)
        if not sent:
            raise Unusable("a netlog without packets of QUIC: it needs --net-log-capture-mode")
        faults = [fault for it in sent if (fault := found[it].fault)]
        if len(faults) == len(sent):
            raise faults[0]
        self.left_out = [f"{fault}; the session is left out" for fault in faults]
        whole = [source for source, _ in sent.most_common() if not found[source].fault]
        self._numbers = {source: number for number, source in enumerate(whole, 1)}
        self.left_out += [
            of_paths(number if len(whole) > 1 else None, count)
            for source, number in self._numbers.items()
            if (count := found[source].session.of_paths)
        ]

    def write(self, take: Take) -> None:
        """Reads it again, and writes the qlog, whose last record is torn off if the netlog is."""
        connections = {source: Connection() for source in self._numbers}
        take(marked(HEADER), START)
        if len(connections) > 1:
            # A converter counts connections in the order in which they come first.
            for number in self._numbers.values():
                take(text_of(0, NAMED[0], number, NAMED[1]), START)
        for happening in self._happenings():
            source = happening.source
            if source in connections:
                records = records_of(connections[source], happening)
                self._take(take, connections[source], source, records)
        for source, connection in connections.items():
            self._take(take, connection, source, connection.session.rest())
        if self.torn_at:
            take(f"{RECORD_SEPARATOR}{{", self.torn_at)

    def _take(
        self, take: Take, connection: Connection, source: object, records: Iterable[Record]
    ) -> None:
        for text, place in connection.texts(self._numbers[source], records):
            take(text, place)

    def _happenings(self) -> Iterator[Happening]:
        """The events of QUIC sessions."""
        self.torn_at = None
        self._file.seek(0)
        scanner = Scanner(self._file)
        names: dict[object, str] = {}
        try:
            for key in scanner.members():
                if key == "constants":
                    names = names_of(scanner.value())
                elif key != "events":
                    scanner.value()
                else:
                    yield from members(scanner, names)
        except Torn:
            self.torn_at = scanner.place()


def members(scanner: Scanner, names: dict[object, str]) -> Iterator[Happening]:
    """The events of QUIC sessions in the list at the cursor."""
    for _ in scanner.elements():
        place = scanner.next_place()
        member = scanner.value(LONGEST_RECORD)
        if not isinstance(member, dict):
            continue
        source = member.get("source")
        source = str(source.get("id")) if isinstance(source, dict) else None
        name = names.get(str(member.get("type")), "")
        if name.startswith(PREFIX):
            yield Happening(place, name, source, member)


def names_of(constants: object) -> dict[object, str]:
    """The names of events by their numbers."""
    types = constants.get("logEventTypes") if isinstance(constants, dict) else None
    if not isinstance(types, dict):
        raise Unusable("a netlog without logEventTypes in its constants")
    return {str(number): name for name, number in types.items()}


def records_of(connection: Connection, happening: Happening) -> Iterator[Record]:
    """What an event gives."""
    values: Any = happening.member.get("params")
    values = values if isinstance(values, dict) else {}
    time = number_of(happening.member, "time")
    name = happening.name.removeprefix(PREFIX)
    return connection.session.records(happening.place, name, time, values)


def tried(connection: Connection, happening: Happening) -> None:
    """Reads an event, to find what is wrong with it."""
    if connection.fault:
        return
    try:
        for _ in connection.texts(0, records_of(connection, happening)):
            pass
    except Unusable as fault:
        connection.fault = fault


def of_paths(number: int | None, count: int) -> str:
    """What is told of packets that are left out."""
    where = f"connection {number}: " if number else ""
    return f"{where}left out {count}: packets that probe another path"


def looked_at(file: BinaryIO) -> Netlog:
    """The netlog in a file, with its sessions."""
    netlog = Netlog(file)
    netlog.look()
    return netlog
