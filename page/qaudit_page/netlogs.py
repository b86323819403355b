"""The qlog of a netlog of Chromium, and where in the netlog the lines of its trace are from."""

import re
import tempfile
from array import array
from contextlib import ExitStack
from typing import IO, BinaryIO

from .unpacking import looked_at

# The line of a qlog, in what the converter says of it, and in the place of a line of a trace.
LINE = re.compile(r"\bline ([0-9]+)")
PLACE = re.compile(rb',"x_place":"([a-z0-9 ]*)"')
# How long a line of a trace may be.
LONGEST_LINE = 65_536


class Qlog:
    """The qlog of a netlog, in a file that is closed with it."""

    def __init__(self, netlog: BinaryIO) -> None:
        found = looked_at(netlog)
        # What of the netlog is not in it.
        self.left_out = tuple(found.left_out)
        # At which byte of the netlog each line of it is from.
        self._bytes = array("Q")
        with ExitStack() as closing:
            self.file: IO[bytes] = closing.enter_context(tempfile.TemporaryFile())
            found.write(self._take)
            self.file.flush()
            self._closing = closing.pop_all()

    def __enter__(self) -> "Qlog":
        return self

    def __exit__(self, *_: object) -> None:
        self._closing.close()

    def _take(self, text: str, place: str) -> None:
        self.file.write(text.encode())
        self._bytes.append(int(place.removeprefix("byte ")))

    def in_netlog(self, text: str) -> str:
        """A text with the places in the netlog for those in the qlog."""
        return LINE.sub(self._byte, text)

    def _byte(self, found: re.Match[str]) -> str:
        number = int(found[1])
        is_line = 1 <= number <= len(self._bytes)
        return f"byte {self._bytes[number - 1]}" if is_line else found[0]

    def trace_in_netlog(self, trace: bytes) -> bytes:
        """A trace with the places in the netlog."""
        return b"".join(map(self._line_in_netlog, trace.splitlines(keepends=True)))

    def _line_in_netlog(self, line: bytes) -> bytes:
        moved = PLACE.sub(self._place, line)
        # A line that has no room for its place has none.
        return moved if len(moved) <= LONGEST_LINE else PLACE.sub(b"", line)

    def _place(self, found: re.Match[bytes]) -> bytes:
        place = self.in_netlog(found[1].decode())
        return f',"x_place":"{place}"'.encode()
