"""What is audited: a trace as it is, or the trace that the converter makes of a log.

What a file is, is seen by its first bytes and its first line, and not by its name.
"""

import re
from dataclasses import dataclass
from pathlib import Path
from typing import IO, BinaryIO, cast

from .conversion import object_of
from .converter import Asked, trace_of
from .failure import Failure, NoTraceError, reason_of
from .files import as_text, beginning, contents, opened_again
from .netlogs import Qlog
from .texts import visible
from .unpacking import (
    Changed,
    NoMemory,
    NoProgram,
    Unusable,
    decompressed,
    is_netlog,
    unchanged,
)

# How the names of logs end.
ENDINGS = (".qlog", ".sqlog", ".netlog", ".netlog.json")
# So much of a file says what it is: as long a first line is read by the converter.
BEGINNING = 2**20
WHITE = b" \t\r\n"
# Begins each record of a log of the form JSON-SEQ.
RECORD_SEPARATOR = b"\x1e"
# How files begin that are neither a log nor a trace, of which the converter says what they are:
# bzip2, a zip archive, a byte order mark, captures of packets.
KINDS_OF_FILE = (
    b"BZh",
    b"PK\x03\x04",
    b"\xef\xbb\xbf",
    b"\xd4\xc3\xb2\xa1",
    b"\x0a\x0d\x0d\x0a",
)
# The keys that tell a log, in an object that is no event of a trace.
MARKS = ("trace", "qlog_format", "file_schema", "serialization_format", "qlog_version", "traces")
# The same in an object of which the first line is only a part. That of a trace begins with `event`.
MARKED = re.compile(
    rb'"(?:qlog_version|qlog_format|file_schema|serialization_format|traces)"[ \t\r\n]*:'
)
EVENT = re.compile(rb'\{[ \t\r\n]*"event"')


@dataclass(frozen=True)
class Taken:
    """A trace; and if it was made of a log, what of that is not in it, and what else the converter
    says."""

    data: bytes
    is_log: bool = False
    lacks: tuple[str, ...] = ()
    told: tuple[str, ...] = ()


def taken(path: Path | None, asked: Asked) -> Taken:
    """The trace of a file, or of standard input, which may be a log. It is opened once, and read
    several times: none if it changes meanwhile."""
    name = as_text(path)
    with opened_again(path) as file:
        try:
            with unchanged(file):
                if is_log(beginning(file, name, BEGINNING)):
                    return converted(file, name, asked)
                return Taken(contents(file, name, is_shown=asked.is_shown))
        except Changed as fault:
            raise Failure(f"{name}: {fault}") from fault
        except OSError as fault:
            raise Failure(f"cannot read {name}: {reason_of(fault)}") from fault


def is_log(first: bytes) -> bool:
    """Whether a file that begins so is for the converter: a log, or what is neither a log nor a
    trace, if its first bytes tell what it is."""
    text = first.lstrip(WHITE)
    if text.startswith(RECORD_SEPARATOR) or is_netlog(text):
        return True
    said = object_of(text.partition(b"\n")[0])
    if said:
        return "event" not in said and any(mark in said for mark in MARKS)
    if text.startswith(b"{"):
        return EVENT.match(text) is None and MARKED.search(text) is not None
    return first.startswith(KINDS_OF_FILE)


def converted(file: IO[bytes], name: str, asked: Asked) -> Taken:
    """The trace of a log."""
    try:
        file.seek(0)
        with decompressed(cast(BinaryIO, file)) as log:
            if is_netlog(log.read(BEGINNING)):
                return converted_netlog(log, name, asked)
            data, told = trace_of(log, name, asked)
    except (NoMemory, NoProgram) as fault:
        raise Failure(f"{name}: {fault}") from fault
    except Unusable as fault:
        raise NoTraceError(name, visible(str(fault))) from fault
    except OSError as fault:
        raise Failure(f"cannot read {name}: {reason_of(fault)}") from fault
    except MemoryError as fault:
        raise Failure(f"{name}: out of memory") from fault
    return Taken(data, is_log=True, lacks=told.lacks, told=told.others)


def converted_netlog(log: BinaryIO, name: str, asked: Asked) -> Taken:
    """The trace of the qlog of a netlog."""
    with Qlog(log) as qlog:
        try:
            data, told = trace_of(qlog.file, name, asked)
        except NoTraceError as fault:
            raise NoTraceError(name, qlog.in_netlog(fault.reason)) from fault
        lacks, others = (tuple(map(qlog.in_netlog, it)) for it in told)
        trace = qlog.trace_in_netlog(data)
    return Taken(trace, is_log=True, lacks=lacks, told=qlog.left_out + others)
