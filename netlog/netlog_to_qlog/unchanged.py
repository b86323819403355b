"""A file that is read more than once, which has to have the same each time."""

import hashlib
import os
from collections.abc import Iterator
from contextlib import contextmanager
from typing import IO, NamedTuple

from .streams import COPIED_AT_ONCE


class Changed(Exception):
    """A file has something else than when it was opened."""

    def __init__(self) -> None:
        super().__init__("the file changed while it was read")


class State(NamedTuple):
    """What a file has, and when that was written."""

    size: int
    time: int
    digest: bytes


def state_of(number: int) -> State:
    """The state of an open file, whose place stays as it is."""
    found, digest, at = os.fstat(number), hashlib.blake2b(), 0
    while at < found.st_size:
        piece = os.pread(number, min(COPIED_AT_ONCE, found.st_size - at), at)
        if not piece:
            break
        digest.update(piece)
        at += len(piece)
    return State(found.st_size, found.st_mtime_ns, digest.digest())


@contextmanager
def unchanged(file: IO[bytes]) -> Iterator[None]:
    """Changed if a file is another at the end of this than it was at the beginning, whatever was
    found in it. It may be closed meanwhile."""
    number = os.dup(file.fileno())
    try:
        before = state_of(number)
        try:
            yield
        except Exception as fault:
            if state_of(number) != before:
                raise Changed from fault
            raise
        if state_of(number) != before:
            raise Changed
    finally:
        os.close(number)
