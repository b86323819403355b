"""Files that are read whole, and written whole or not at all."""

import errno
import io
import os
import tempfile
from collections.abc import Iterator
from pathlib import Path
from typing import IO, BinaryIO, cast

from .failure import Failure, NoTraceError, Status, reason_of
from .streams import put
from .unpacking import NoMemory, NoProgram, Unusable, unpacked

MAX_INPUT = 2**30
# Of what a page shows, whose lines are all in memory.
MAX_SHOWN = 2**28
MAX_LINES = 2_000_000
COPIED_AT_ONCE = 2**20
# How the name of a file begins that will take the place of another.
BESIDE = ".qaudit-"
STANDARD_INPUT = "standard input"
STDIN = 0


def name_of(path: Path | None) -> str:
    """The name of a file without its folder, as text."""
    return STANDARD_INPUT if path is None else as_text(Path(path.name))


def as_text(path: Path | None) -> str:
    """A path as text, as it was given."""
    name = STANDARD_INPUT if path is None else str(path)
    return os.fsencode(name).decode("utf-8", "backslashreplace")


def opened(path: Path | None) -> IO[bytes]:
    """A file to be read, or standard input."""
    try:
        return os.fdopen(os.dup(STDIN), "rb") if path is None else path.open("rb")
    except OSError as fault:
        raise Failure(f"cannot open {as_text(path)}: {reason_of(fault)}") from fault


def opened_again(path: Path | None) -> IO[bytes]:
    """A file that can be read again and again, from its beginning: a copy of a pipe."""
    file = opened(path)
    try:
        if file.seekable() and file.tell() == 0:
            return file
        with file:
            return copy_of(file, as_text(path))
    except OSError as fault:
        raise Failure(f"cannot read {as_text(path)}: {reason_of(fault)}") from fault


def copy_of(file: IO[bytes], name: str) -> IO[bytes]:
    """A copy of what a pipe has."""
    copy, left = tempfile.TemporaryFile(), MAX_INPUT
    try:
        for piece in pieces(file):
            left -= len(piece)
            if left < 0:
                text = f"{name} has more than {MAX_INPUT:,} bytes, too many for a pipe"
                raise Failure(text, Status.UNSHOWN)
            copy.write(piece)
        copy.seek(0)
    except BaseException:
        copy.close()
        raise
    return copy


def pieces(file: IO[bytes]) -> Iterator[bytes]:
    """What a pipe has, some at a time."""
    while piece := file.read(COPIED_AT_ONCE):
        yield piece
        if len(piece) < COPIED_AT_ONCE and file.isatty():
            # A person says only once that there is no more.
            return
    if piece is None:
        # A pipe that would have a reader wait has not ended.
        raise OSError(errno.EAGAIN, os.strerror(errno.EAGAIN))


def read(path: Path | None, *, is_shown: bool = False) -> bytes:
    """The bytes of a file, or of standard input, decompressed if they are compressed."""
    with opened_again(path) as file:
        return contents(file, as_text(path), is_shown=is_shown)


def beginning(file: IO[bytes], name: str, most: int) -> bytes:
    """The first bytes of an open file, decompressed if they are compressed."""
    held = io.BytesIO()
    try:
        with unpacked(cast(BinaryIO, file)) as plain:
            # By one `read` they would take as much memory as there may be of them.
            while piece := plain.read(min(COPIED_AT_ONCE, most - held.tell())):
                held.write(piece)
            return held.getvalue()
    except (NoMemory, NoProgram) as fault:
        raise Failure(f"{name}: {fault}") from fault
    except Unusable as fault:
        raise NoTraceError(name, str(fault)) from fault
    except OSError as fault:
        raise Failure(f"cannot read {name}: {reason_of(fault)}") from fault


def contents(file: IO[bytes], name: str, *, is_shown: bool = False) -> bytes:
    """The bytes of an open file, decompressed if they are compressed. A page shows fewer than can
    be audited."""
    most = MAX_SHOWN if is_shown else MAX_INPUT
    data = beginning(file, name, most + 1)
    if len(data) > most:
        text = f"{name} has more than {most:,} bytes: cut it into parts"
        raise Failure(text, Status.UNSHOWN)
    if is_shown and data.count(b"\n") > MAX_LINES:
        text = f"{name} has more than {MAX_LINES:,} lines: cut it into parts"
        raise Failure(text, Status.UNSHOWN)
    return data


def write(path: Path | None, text: str) -> None:
    """Writes a file, which is then whole, or standard output."""
    data = text.encode("utf-8", "backslashreplace")
    try:
        if path is None:
            put(data)
        else:
            replace(path, data)
    except OSError as fault:
        where = "standard output" if path is None else as_text(path)
        raise Failure(f"cannot write {where}: {reason_of(fault)}") from fault


def replace(path: Path, data: bytes) -> None:
    """Writes beside a file and takes its place, so that no half of it is ever seen. Of a link that
    is the file to which it leads."""
    if path.exists() and not path.is_file():
        # A pipe or a device has no beside.
        path.write_bytes(data)
        return
    path = Path(os.path.realpath(path))
    handle, name = tempfile.mkstemp(prefix=BESIDE, dir=path.parent)
    beside = Path(name)
    try:
        with os.fdopen(handle, "wb") as file:
            file.write(data)
            file.flush()
            os.fsync(handle)
        mask = os.umask(0)
        os.umask(mask)
        beside.chmod(path.stat().st_mode if path.exists() else 0o666 & ~mask)
        beside.replace(path)
    except BaseException:
        beside.unlink(missing_ok=True)
        raise
