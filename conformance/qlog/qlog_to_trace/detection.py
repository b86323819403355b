"""Which form a log has, by its first bytes."""

import re
from typing import BinaryIO

from .errors import Unusable
from .forms import RECORD_SEPARATOR, Document, Form, Sequence
from .scanner import LONGEST_RECORD, decoded

MARKS_OF_SEQUENCE = ("trace", "qlog_format", "file_schema", "serialization_format")
# How a netlog of Chromium begins.
NETLOG = re.compile(rb'\s*\{\s*"constants"')
# By their first bytes, files that are no log that can be read.
KINDS_OF_FILE = {
    b"\x1f\x8b": "compressed by gzip: use zcat FILE | qlog-to-trace",
    b"\xfd7zXZ\x00": "compressed by xz: use xzcat FILE | qlog-to-trace",
    b"\x28\xb5\x2f\xfd": "compressed by zstd: use zstdcat FILE | qlog-to-trace",
    b"BZh": "compressed by bzip2: use bzcat FILE | qlog-to-trace",
    b"PK\x03\x04": "a zip archive: unpack it first",
    b"\xef\xbb\xbf": "it begins with a byte order mark, which JSON has not: take it off first",
    b"\xd4\xc3\xb2\xa1": "a capture of packets and no log",
    b"\x0a\x0d\x0d\x0a": "a capture of packets and no log",
}


def form_of(file: BinaryIO) -> Form:
    """The form of a log, by its first bytes."""
    file.seek(0)
    # A mark may have an LF.
    marked = file.read(max(map(len, KINDS_OF_FILE)))
    for mark, kind in KINDS_OF_FILE.items():
        if marked.startswith(mark):
            raise Unusable(kind)
    file.seek(0)
    first = file.readline(LONGEST_RECORD)
    if not first:
        raise Unusable("empty")
    if first.startswith(RECORD_SEPARATOR):
        return Sequence(file)
    if NETLOG.match(first):
        raise Unusable("a netlog of Chromium, which is not read here")
    try:
        header = decoded(first)
    except (ValueError, RecursionError):
        header = None
    if not isinstance(header, dict):
        return Document(file)
    if header.get("event") == "header":
        raise Unusable("this is already a trace, as qaudit reads it")
    is_sequence = "traces" not in header and any(mark in header for mark in MARKS_OF_SEQUENCE)
    return Sequence(file) if is_sequence else Document(file)
