"""Compressed files that are damaged: each is read if the program of its format finds it whole, and
else it is unreadable. `DAMAGED=1000 python3 -m unittest test_damaged` tries so many of each format.
"""

import gzip
import lzma
import os
import random
import shutil
import subprocess
import sys
import tempfile
import unittest
import zlib
from collections import Counter
from collections.abc import Callable
from pathlib import Path
from typing import BinaryIO, cast

from made_netlogs import HERE

sys.path.append(str(HERE))

from netlog_to_qlog.compressed import compression_of, unpacked  # noqa: E402
from netlog_to_qlog.errors import Unusable  # noqa: E402

DAMAGED = int(os.environ.get("DAMAGED", "48"))
SEED = 20_261_201
MISSING = [it for it in ("gzip", "xz", "zstd") if shutil.which(it) is None]
TEXT = b"".join(b'{"event":"sent","time":%d,"number":%d}\n' % (7 * it, it) for it in range(300))
PARTS = (TEXT[:4_000], TEXT[4_000:])
# Of a header of gzip: there is a sum of it, more fields, a name, and a comment.
WITH_SUM, WITH_FIELDS, WITH_NAME, WITH_COMMENT = 2, 4, 8, 16


def read_of(data: bytes) -> bytes | None:
    """What is read of a file; None if it is unreadable."""
    with tempfile.TemporaryFile() as file:
        file.write(data)
        file.flush()
        try:
            with unpacked(cast(BinaryIO, file)) as plain:
                return plain.read()
        except Unusable:
            return None


def told_by(program: str, data: bytes) -> bytes | None:
    """What the program of a format reads of a file; None if it does not find it whole."""
    tested = subprocess.run([program, "-t"], input=data, capture_output=True, check=False)
    if tested.returncode:
        return None
    return subprocess.run([program, "-dc"], input=data, capture_output=True, check=True).stdout


def by_gzip(data: bytes, flags: int) -> bytes:
    """A member of gzip whose header has what these flags say."""
    head = b"\x1f\x8b\x08" + bytes([flags]) + b"\0\0\0\0\0\x03"
    head += b"\x04\0abcd" if flags & WITH_FIELDS else b""
    head += b"name\0" if flags & WITH_NAME else b""
    head += b"words\0" if flags & WITH_COMMENT else b""
    head += (zlib.crc32(head) & 0xFFFF).to_bytes(2, "little") if flags & WITH_SUM else b""
    return head + gzip.compress(data, mtime=0)[10:]


def by_xz(data: bytes, check: int) -> bytes:
    """A stream of xz with such a sum."""
    return lzma.compress(data, check=check)


def by_zstd(data: bytes, *words: str) -> bytes:
    """A frame of zstd."""
    command = ["zstd", "--quiet", "--stdout", *words]
    return subprocess.run(command, input=data, capture_output=True, check=True).stdout


def wholes_of(program: str) -> list[tuple[bytes, bytes]]:
    """Two parts in each way in which a format writes them."""
    if program == "gzip":
        flags = (0, WITH_SUM, WITH_FIELDS | WITH_NAME, WITH_SUM | WITH_COMMENT)
        return [(by_gzip(PARTS[0], it), by_gzip(PARTS[1], it)) for it in flags]
    if program == "xz":
        checks = (lzma.CHECK_NONE, lzma.CHECK_CRC32, lzma.CHECK_CRC64, lzma.CHECK_SHA256)
        return [(by_xz(PARTS[0], it), by_xz(PARTS[1], it)) for it in checks]
    return [
        (by_zstd(PARTS[0], *words), by_zstd(PARTS[1], *words)) for words in ((), ("--no-check",))
    ]


def flipped(data: bytes, chance: random.Random) -> bytes:
    """With one bit another."""
    at = chance.randrange(len(data))
    return data[:at] + bytes([data[at] ^ 1 << chance.randrange(8)]) + data[at + 1 :]


def without(data: bytes, chance: random.Random) -> bytes:
    """Without a few bytes."""
    at = chance.randrange(len(data))
    return data[:at] + data[at + chance.randint(1, 20) :]


def overwritten(data: bytes, chance: random.Random) -> bytes:
    """With a few bytes of zeros, or of anything."""
    at, many = chance.randrange(len(data)), chance.randint(1, 40)
    new = chance.choice((bytes(many), chance.randbytes(many)))
    return data[:at] + new + data[at + many :]


def cut(data: bytes, chance: random.Random) -> bytes:
    """Cut short."""
    return data[: chance.randrange(len(data))]


def inserted(data: bytes, chance: random.Random) -> bytes:
    """With bytes more."""
    at = chance.randrange(len(data) + 1)
    return data[:at] + chance.randbytes(chance.randint(1, 12)) + data[at:]


def as_it_is(data: bytes, _: random.Random) -> bytes:
    """Not damaged."""
    return data


HARMS: tuple[Callable[[bytes, random.Random], bytes], ...] = (
    flipped,
    flipped,
    without,
    overwritten,
    cut,
    inserted,
    as_it_is,
)


def after(chance: random.Random) -> bytes:
    """What may come after a stream: nothing, zeros, or anything."""
    some = chance.randbytes(chance.randint(1, 9))
    return chance.choice((b"", b"", bytes(chance.randint(1, 12)), some))


def damaged(program: str, chance: random.Random) -> bytes:
    """A file of one or two streams, one of which is damaged, or followed by what is none."""
    first, second = chance.choice(wholes_of(program))
    where = chance.randrange(3)
    harm = chance.choice(HARMS)
    first = harm(first, chance) if where == 0 else first
    second = b"" if where == 2 else harm(second, chance) if where == 1 else second
    return first + after(chance) + second + after(chance)


@unittest.skipIf(MISSING, f"not installed: {', '.join(MISSING)}")
class Damaged(unittest.TestCase):
    """Files that may be damaged."""

    def check(self, program: str, data: bytes) -> bool:
        """A file is read as the program of its format reads it; whether it is."""
        wanted, found = told_by(program, data), read_of(data)
        if found != wanted:
            kept = Path(tempfile.gettempdir()) / f"damaged.{program}"
            kept.write_bytes(data)
            self.fail(f"{kept} is {'not ' if found is None else ''}read")
        return found is not None

    def check_many(self, program: str) -> None:
        """So many of a format."""
        chance, seen = random.Random(SEED), Counter[bool]()
        while seen.total() < DAMAGED:
            data = damaged(program, chance)
            with tempfile.TemporaryFile() as file:
                file.write(data)
                # What does not begin as its format does is read as it is.
                if compression_of(cast(BinaryIO, file)) == program:
                    seen[self.check(program, data)] += 1
        self.assertGreater(min(seen[False], seen[True]), DAMAGED // 12)

    def test_gzip(self) -> None:
        self.check_many("gzip")

    def test_xz(self) -> None:
        self.check_many("xz")

    def test_zstd(self) -> None:
        self.check_many("zstd")

    def test_each_byte_of_a_second_stream(self) -> None:
        """Python's module lzma passes over a stream in which it sees damage at once."""
        for program in ("gzip", "xz"):
            first, second = wholes_of(program)[1]
            step = max(1, len(second) // DAMAGED)
            for at in range(0, len(second), step):
                changed = second[:at] + bytes([second[at] ^ 255]) + second[at + 1 :]
                self.check(program, first + changed)

    def test_zeros_after_and_between_streams(self) -> None:
        for program in ("gzip", "xz"):
            first, second = wholes_of(program)[0]
            for many in range(10):
                for data in (first + bytes(many) + second, first + second + bytes(many)):
                    self.check(program, data)

    def test_flags_of_gzip(self) -> None:
        """Python's module gzip passes over those that nobody has given a meaning."""
        for flag in range(8):
            data = bytearray(by_gzip(TEXT, 0))
            data[3] ^= 1 << flag
            self.check("gzip", bytes(data))

    def test_a_sum_of_xz_that_nothing_here_can_compute(self) -> None:
        data = bytearray(by_xz(b"", lzma.CHECK_CRC32))
        # Of the header and of the end: the kind of the sum, and the sums of these.
        data[7] = data[-3] = 2
        data[8:12] = zlib.crc32(data[6:8]).to_bytes(4, "little")
        data[-12:-8] = zlib.crc32(data[-8:-2]).to_bytes(4, "little")
        self.assertFalse(self.check("xz", bytes(data)))

    def test_large_pieces(self) -> None:
        """Streams of more than is decoded at once, with more after them than is read at once."""
        data = random.Random(SEED).randbytes(300_000) + bytes(3_000_000)
        for program, packed in (("gzip", by_gzip(data, 0)), ("xz", by_xz(data, lzma.CHECK_CRC32))):
            self.assertTrue(self.check(program, packed + packed + bytes(400_000)))
            self.assertFalse(self.check(program, packed + packed[:-1]))


if __name__ == "__main__":
    unittest.main()
