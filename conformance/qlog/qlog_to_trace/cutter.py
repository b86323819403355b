"""The records of a log that is one JSON object, each with its place, and the log without them.

Only the brackets, keys, colons and commas are looked at of the object, of its list at the key
`traces`, of each object in that list, and of the list at the key `events` of each of these. Any
other value, and so each record, is only followed to its end: whether it is JSON shows once it is
read. A value that does not end takes in all that follows, and the log is then torn off where it
begins. Keys are compared as they are written.
"""

import re
from collections.abc import Iterator
from typing import BinaryIO, NamedTuple

from .errors import Torn, Unusable
from .scanner import LONGEST_RECORD, PIECE, WHITE

# How many bytes a log has beside its records at most.
LONGEST_SKELETON = 1 << 24
LONG_SKELETON = f"more than {LONGEST_SKELETON:,} bytes beside the records"
LONG_RECORD = f"a record of more than {LONGEST_RECORD:,} bytes"
TRACES, EVENTS = '"traces"', '"events"'
STRING = re.compile(r'"[^"\\]*+(?:\\.[^"\\]*+)*+"', re.DOTALL)
# A number, `true`, `false` or `null`, up to what ends it.
SCALAR = re.compile(r"[^ \t\r\n,}\]]*+")
# What there is before a bracket that is in no string.
TO_BRACKET = re.compile(r'[^"\[\]{}]*+(?:"[^"\\]*+(?:\\.[^"\\]*+)*+"[^"\[\]{}]*+)*+', re.DOTALL)


class Cut(NamedTuple):
    """A record: the number of its trace, from 1, the byte at which it begins, and its bytes."""

    trace: int
    place: int
    text: bytes


class Cutter:
    """Cuts a log once, from its beginning. Each of its bytes is a character here."""

    def __init__(self, file: BinaryIO) -> None:
        self._file = file
        self._text = ""
        self._at = 0
        # How many bytes of the log are before the text.
        self._passed = 0
        self._is_ended = False
        # Where the key or the value begins that is being read, if one is.
        self._begin: int | None = None
        # How many traces began.
        self.traces = 0
        # The log without its records so far, how long it is, and what closes its open brackets; up
        # to the last value that is whole, and what closed the brackets then.
        self._kept: list[str] = []
        self._length = 0
        self._open: list[str] = []
        self._whole = (0, "")
        # The byte at which the log is torn off, once it was read.
        self.torn_at: int | None = None

    @property
    def skeleton(self) -> bytes:
        """The log without its records, once it was read: up to its last whole value if it is torn
        off."""
        count, closers = self._whole
        return ("".join(self._kept[:count]) + closers).encode("latin-1")

    def records(self) -> Iterator[Cut]:
        """The records of all traces. Unusable comes at what cannot be there in such a log."""
        file = self._file
        file.seek(0)
        try:
            first = self._peek()
        except Torn:
            raise Unusable("nothing but white space") from None
        if first != "{":
            raise Unusable("neither JSON-SEQ nor a JSON text a line nor one JSON object", "byte 0")
        try:
            yield from self._document()
        except Torn:
            self.torn_at = self._place() if self._begin is None else self._begin
            return
        self._end()

    def _document(self) -> Iterator[Cut]:
        for key in self._members():
            if key == TRACES and self._peek() == "[":
                yield from self._traces()
            else:
                self._keep_value()

    def _traces(self) -> Iterator[Cut]:
        for _ in self._elements():
            if self._peek() != "{":
                self._keep_value()
                continue
            self.traces += 1
            for key in self._members():
                if key == EVENTS and self._peek() == "[":
                    yield from self._events()
                else:
                    self._keep_value()

    def _events(self) -> Iterator[Cut]:
        for _ in self._elements(are_kept=False):
            place, text = self._place(), self._value(LONGEST_RECORD, LONG_RECORD)
            yield Cut(self.traces, place, text.encode("latin-1"))

    def _end(self) -> None:
        """There has to be nothing behind the object."""
        try:
            self._peek()
        except Torn:
            return
        raise self._unexpected()

    # Brackets, keys, colons and commas.

    def _members(self) -> Iterator[str]:
        """Stops at each value of the object at the cursor, with its key as it is written; who asks
        takes the value."""
        self._enter("{", "}")
        if self._leaves("}"):
            return
        while True:
            if self._peek() != '"':
                raise self._unexpected()
            key = self._kept_value()
            self._take(":")
            self._peek()
            yield key
            if self._leaves("}"):
                return
            self._take(",")

    def _elements(self, *, are_kept: bool = True) -> Iterator[None]:
        """Stops at each element of the list at the cursor; who asks takes it."""
        self._enter("[", "]")
        self._peek(is_kept=are_kept)
        if self._leaves("]"):
            return
        while True:
            yield
            self._peek(is_kept=are_kept)
            if self._leaves("]"):
                return
            self._take(",", is_kept=are_kept)
            self._peek(is_kept=are_kept)

    def _enter(self, mark: str, closer: str) -> None:
        self._take(mark)
        self._open.append(closer)
        self._note_whole()

    def _leaves(self, closer: str) -> bool:
        """Goes behind the bracket that closes, if it is the next."""
        if self._peek() != closer:
            return False
        self._take(closer)
        self._open.pop()
        self._note_whole()
        return True

    def _take(self, mark: str, *, is_kept: bool = True) -> None:
        """Goes behind this mark, which has to be the next."""
        if self._peek() != mark:
            raise self._unexpected()
        self._at += 1
        if is_kept:
            self._count(1)
            self._kept.append(mark)

    def _keep_value(self) -> None:
        self._kept_value()
        self._note_whole()

    def _kept_value(self) -> str:
        """A value beside the records, which is kept."""
        value = self._value(LONGEST_SKELETON - self._length, LONG_SKELETON)
        self._count(len(value))
        self._kept.append(value)
        return value

    def _count(self, length: int) -> None:
        """Counts what is beside the records."""
        self._length += length
        if self._length > LONGEST_SKELETON:
            raise self._error(LONG_SKELETON)

    def _note_whole(self) -> None:
        self._whole = (len(self._kept), "".join(reversed(self._open)))

    # Values.

    def _value(self, longest: int, why: str) -> str:
        """The value at the cursor, which is then behind it, if it has no more bytes."""
        first = self._text[self._at]
        if first in ",:}]":
            raise self._unexpected()
        self._begin = self._place()
        while True:
            end = self._end_of_value(first)
            if (end or len(self._text)) - self._at > longest:
                raise self._error(why)
            if end:
                break
            if not self._more():
                raise Torn
        value = self._text[self._at : end]
        self._at, self._begin = end, None
        return value

    def _end_of_value(self, first: str) -> int:
        """Where the value at the cursor ends; 0 if its end is not there yet."""
        if first in "{[":
            return self._end_of_nested()
        found = (STRING if first == '"' else SCALAR).match(self._text, self._at)
        if not found or (first != '"' and found.end() == len(self._text)):
            return 0
        return found.end()

    def _end_of_nested(self) -> int:
        depth, at = 0, self._at
        while True:
            found = TO_BRACKET.match(self._text, at)
            at = found.end() if found else len(self._text)
            if at == len(self._text) or self._text[at] == '"':
                return 0
            depth += 1 if self._text[at] in "{[" else -1
            at += 1
            if not depth:
                return at

    # The cursor.

    def _peek(self, *, is_kept: bool = True) -> str:
        """The next character that is no white space, at which the cursor then is. White space
        between records does not count."""
        while True:
            white = WHITE.match(self._text, self._at)
            end = white.end() if white else self._at
            self._count((end - self._at) * is_kept)
            self._at = end
            if self._at < len(self._text):
                return self._text[self._at]
            if not self._more():
                raise Torn

    def _more(self) -> bool:
        """Takes a further piece, of the size of what is there if it can be used; whether there was
        one."""
        if self._is_ended:
            return False
        rest = self._text[self._at :]
        piece = self._file.read(max(PIECE, len(rest)))
        self._is_ended = not piece
        self._passed += self._at
        self._text, self._at = rest + piece.decode("latin-1"), 0
        return not self._is_ended

    def _place(self) -> int:
        """The byte at which the cursor is."""
        return self._passed + self._at

    def _error(self, reason: str) -> Unusable:
        return Unusable(reason, f"byte {self._place()}")

    def _unexpected(self) -> Unusable:
        return self._error(f"not JSON: {self._text[self._at]!r} is not expected here")
