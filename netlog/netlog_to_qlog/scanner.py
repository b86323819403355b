"""JSON that is read from a file, a value at a time, without the whole of it in memory."""

import codecs
import json
import re
from collections.abc import Iterator
from typing import Any, BinaryIO, NoReturn

from .errors import Torn, Unusable

PIECE = 1 << 18
# A text that makes no value by then never will; and how long an event may be.
LONGEST_VALUE = 1 << 24
LONGEST_RECORD = 1 << 20
# How many keys an object has that is read a value at a time.
MOST_KEYS = 1_000
WHITE = re.compile(r"[ \t\r\n]*")
# An error this near to the end may be one of a literal, a number or an escape that was cut.
LONGEST_TOKEN = 6
# An integer with more digits than any that counts is read as a float, if need be infinite.
MOST_DIGITS = 20


def no_constant(name: str) -> NoReturn:
    """Refuses NaN and Infinity, which Python reads and JSON has not."""
    raise ValueError(f"{name} is no JSON")


def integer_of(text: str) -> int | float:
    """An integer of JSON."""
    return int(text) if len(text) <= MOST_DIGITS else float(text)


DECODER = json.JSONDecoder(parse_int=integer_of, parse_constant=no_constant)


def reason_of(error: Exception) -> str:
    """Why a text is no value, for people."""
    if isinstance(error, RecursionError):
        return "it nests too deep"
    return f"not JSON: {error}"


def is_torn(error: json.JSONDecodeError) -> bool:
    """Whether the text is the beginning of a value."""
    return error.msg.startswith("Unterminated") or len(error.doc) - error.pos <= LONGEST_TOKEN


class Scanner:
    """A cursor over JSON text that comes from a file in pieces."""

    def __init__(self, file: BinaryIO) -> None:
        self._file = file
        self._decoder = codecs.getincrementaldecoder("utf-8")()
        self._text = ""
        self._at = 0
        # How many bytes stand before the character at `_counted`.
        self._bytes = 0
        self._counted = 0
        self._is_ended = False

    def place(self) -> str:
        """Where the cursor is, for people."""
        self._bytes += len(self._text[self._counted : self._at].encode())
        self._counted = self._at
        return f"byte {self._bytes}"

    def next_place(self) -> str:
        """Where the next value begins, for people."""
        self.peek()
        return self.place()

    def error(self, reason: str) -> Unusable:
        """What is wrong at the cursor."""
        return Unusable(reason, self.place())

    def _more(self, longest: int = LONGEST_VALUE) -> bool:
        """Takes a further piece, of the size of what is there if it can be used; whether there was
        one."""
        if self._is_ended:
            return False
        self._check(len(self._text), longest)
        self.place()
        rest = self._text[self._at :]
        piece = self._file.read(max(PIECE, min(len(rest), longest - len(rest))))
        self._is_ended = not piece
        try:
            self._text = rest + self._decoder.decode(piece)
        except UnicodeDecodeError as error:
            raise self.error(f"not UTF-8, within the {PIECE} bytes from here") from error
        self._at = self._counted = 0
        return not self._is_ended

    def _check(self, end: int, longest: int) -> None:
        """Whether a value that ends here, or later, is as long as it may be."""
        if end - self._at > longest:
            raise self.error(f"a value of more than {longest:,} characters")

    def peek(self) -> str:
        """The next character that is no white space, at which the cursor then is."""
        while True:
            white = WHITE.match(self._text, self._at)
            self._at = white.end() if white else self._at
            if self._at < len(self._text):
                return self._text[self._at]
            if not self._more():
                raise Torn

    def take(self, mark: str) -> None:
        """Goes behind this mark, which has to be the next."""
        if self.peek() != mark:
            raise self.error(f"`{mark}` expected")
        self._at += 1

    def value(self, longest: int = LONGEST_VALUE) -> Any:
        """The value at the cursor, which is then behind it."""
        self.peek()
        while True:
            try:
                found, end = DECODER.raw_decode(self._text, self._at)
            except json.JSONDecodeError as error:
                if not is_torn(error):
                    raise self.error(f"not JSON: {error.msg}") from error
            except (ValueError, RecursionError) as error:
                raise self.error(reason_of(error)) from error
            else:
                # A number may go on in the next piece.
                if end < len(self._text) or self._is_ended:
                    self._check(end, longest)
                    self._at = end
                    return found
            if not self._more(longest):
                return self._last_value()

    def _last_value(self) -> Any:
        """The value at the cursor, where no text follows."""
        try:
            found, self._at = DECODER.raw_decode(self._text, self._at)
        except json.JSONDecodeError as error:
            raise Torn from error
        return found

    def elements(self) -> Iterator[None]:
        """Stops at each element of the list at the cursor; who asks has to take its value."""
        self.take("[")
        if self.peek() == "]":
            self._at += 1
            return
        while True:
            yield
            if self.peek() == "]":
                self._at += 1
                return
            self.take(",")

    def members(self) -> Iterator[str]:
        """Stops at each value of the object at the cursor, with its key; who asks takes it."""
        self.take("{")
        if self.peek() == "}":
            self._at += 1
            return
        count = 0
        while True:
            if self.peek() != '"':
                raise self.error("a key expected")
            count += 1
            if count > MOST_KEYS:
                raise self.error(f"an object of more than {MOST_KEYS:,} keys")
            key = str(self.value())
            self.take(":")
            yield key
            if self.peek() == "}":
                self._at += 1
                return
            self.take(",")
