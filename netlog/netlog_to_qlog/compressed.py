"""Files that are compressed by gzip, xz or zstd, which their first bytes show."""

import io
import lzma
import os
import shutil
import subprocess
import tempfile
import zlib
from collections.abc import Callable, Iterator
from contextlib import AbstractContextManager, contextmanager, nullcontext
from typing import IO, TYPE_CHECKING, BinaryIO, NamedTuple

from .errors import NoMemory, NoProgram, Unusable
from .streams import COPIED_AT_ONCE

if TYPE_CHECKING:
    from _typeshed import WriteableBuffer

# How many times as long a log may be once it is unpacked, and how long any may be. Of the logs that
# were looked at none was 30 times as long.
MOST_TIMES = 200
ALWAYS = 1 << 26
NAMES = {b"\x1f\x8b": "gzip", b"\xfd7zXZ\x00": "xz", b"\x28\xb5\x2f\xfd": "zstd"}
# How many bytes of a file are decompressed at once.
PIECE = 1 << 17
# What is after zlib's window size for a stream with the header and the sums of gzip.
WITH_HEADER = 16
# By how many bytes at a time a stream of xz may be followed by zeros.
XZ_PADDING = 4


def decompressed(file: BinaryIO) -> BinaryIO:
    """A log as it was before it was compressed: in a temporary file, or the same file if it is not
    compressed. The file is closed if it is."""
    if not compression_of(file):
        return file
    copy: BinaryIO = tempfile.TemporaryFile()  # type: ignore[assignment]
    with file:
        most = max(ALWAYS, MOST_TIMES * file.seek(0, os.SEEK_END))
        try:
            with unpacked(file) as packed:
                copy_some(packed, copy, most)
        except BaseException:
            copy.close()
            raise
    copy.seek(0)
    return copy


def compression_of(file: BinaryIO) -> str:
    """By what a file is compressed; empty if it is not. It is at its beginning then."""
    file.seek(0)
    first = file.read(max(map(len, NAMES)))
    file.seek(0)
    return next((name for mark, name in NAMES.items() if first.startswith(mark)), "")


@contextmanager
def unpacked(file: BinaryIO) -> Iterator[IO[bytes]]:
    """Reads a file from its beginning, decompressed if it is compressed. What is read of it may end
    in Unusable."""
    name = compression_of(file)
    try:
        with read_by(name, file) as packed:
            yield packed
    except (EOFError, lzma.LZMAError, zlib.error) as error:
        raise Unusable(f"broken or not whole, as {name} data") from error
    except MemoryError as error:
        if not name:
            raise
        raise NoMemory(f"it takes more memory than there is, as {name} data") from error


def read_by(name: str, file: BinaryIO) -> AbstractContextManager[IO[bytes]]:
    """Reads a file by what it was compressed with."""
    if name in FORMATS:
        return io.BufferedReader(Streams(file, FORMATS[name]), PIECE)
    return by_zstd(file) if name else nullcontext(file)


class Gzip:
    """Decodes a member of gzip, as an LZMADecompressor does a stream of xz: with its header and its
    sums, which zlib checks."""

    def __init__(self) -> None:
        self._member = zlib.decompressobj(zlib.MAX_WBITS + WITH_HEADER)
        self.needs_input = True

    @property
    def eof(self) -> bool:
        """Whether it is decoded to its end."""
        return self._member.eof

    @property
    def unused_data(self) -> bytes:
        """What came after its end."""
        return self._member.unused_data

    def decompress(self, data: bytes, most: int) -> bytes:
        """Some of what it says, with more of it if it needs that."""
        said = self._member.decompress(self._member.unconsumed_tail + data, most)
        self.needs_input = not self._member.unconsumed_tail and len(said) < most
        return said


Decoder = Gzip | lzma.LZMADecompressor


class Format(NamedTuple):
    """How streams of a format are decoded, and whether so many zeros may come after one of them,
    before what follows."""

    decoder: Callable[[], Decoder]
    may_follow: Callable[[int, bytes], bool]


# As the programs gzip and xz have it: zeros end a file of gzip, and fill up one of xz.
FORMATS = {
    "gzip": Format(Gzip, lambda zeros, rest: not (zeros and rest)),
    "xz": Format(
        lambda: lzma.LZMADecompressor(lzma.FORMAT_XZ), lambda zeros, _: zeros % XZ_PADDING == 0
    ),
}


class Streams(io.RawIOBase):
    """What the streams of a file say, which come one after another up to its end. EOFError if one
    of them is not whole, or something else is there: the modules gzip and lzma of Python pass over
    some of that."""

    def __init__(self, file: BinaryIO, form: Format) -> None:
        self._file, self._form = file, form
        self._decoder = form.decoder()
        # What is read of the file, and not given to the decoder.
        self._left = b""

    def readable(self) -> bool:
        """It is only read."""
        return True

    def readinto(self, buffer: "WriteableBuffer") -> int:
        """Reads some bytes; none at the end."""
        view = memoryview(buffer)
        while not self._decoder.eof or self._begins_another():
            is_wanting = self._decoder.needs_input
            more = self._more() if is_wanting else b""
            said = self._decoder.decompress(more, len(view))
            if said:
                view[: len(said)] = said
                return len(said)
            if is_wanting and not more and not self._decoder.eof:
                raise EOFError
        return 0

    def _more(self) -> bytes:
        """Some of the file that was not given to the decoder."""
        more, self._left = self._left, b""
        return more or self._file.read(PIECE)

    def _begins_another(self) -> bool:
        """Whether another stream comes after the one that has ended."""
        if isinstance(self._decoder, lzma.LZMADecompressor):
            check_is_known(self._decoder)
        zeros, rest = 0, self._decoder.unused_data or self._file.read(PIECE)
        while rest:
            self._left = rest.lstrip(b"\0")
            zeros += len(rest) - len(self._left)
            if self._left:
                break
            rest = self._file.read(PIECE)
        if not self._form.may_follow(zeros, self._left):
            raise EOFError
        if self._left:
            self._decoder = self._form.decoder()
        return bool(self._left)


def check_is_known(stream: lzma.LZMADecompressor) -> None:
    """LZMAError if nothing could say whether a stream is as it was written."""
    if not lzma.is_check_supported(stream.check):
        raise lzma.LZMAError


def copy_some(packed: IO[bytes], copy: BinaryIO, most: int) -> None:
    """Copies what is no longer than this."""
    left = most
    while piece := packed.read(COPIED_AT_ONCE):
        left -= len(piece)
        if left < 0:
            raise Unusable(f"unpacked it has more than {most:,} bytes: unpack it first")
        copy.write(piece)


@contextmanager
def by_zstd(file: BinaryIO) -> Iterator[IO[bytes]]:
    """Decompresses by the program zstd, for Python 3.11 cannot."""
    program = shutil.which("zstd")
    if program is None:
        raise NoProgram("compressed by zstd, which needs the program zstd: install it")
    # What was read ahead is read again.
    os.lseek(file.fileno(), 0, os.SEEK_SET)
    command = [program, "--decompress", "--stdout", "--quiet"]
    with subprocess.Popen(
        command, stdin=file, stdout=subprocess.PIPE, stderr=subprocess.DEVNULL
    ) as running:
        if running.stdout is None:
            raise ValueError("standard output is not captured")
        is_read = False
        try:
            yield running.stdout
            is_read = not running.stdout.read(1)
        finally:
            if not is_read:
                running.kill()
    if is_read and running.returncode:
        raise EOFError
