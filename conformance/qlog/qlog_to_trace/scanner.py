"""JSON: a text as its value."""

import json
import re
from typing import Any, NoReturn

from .numbers import Numeral, integer_of

PIECE = 1 << 18
# How long an event may be.
LONGEST_RECORD = 1 << 20
WHITE = re.compile(r"[ \t\r\n]*")
# How deep lists and objects are within one another at most.
DEEPEST = 128
# A string, or a bracket outside of one; and what a backslash begins in a string.
STRING_OR_BRACKET = re.compile(r'"[^"\\]*(?:\\.[^"\\]*)*"|[\[\]{}]', re.DOTALL)
ESCAPE = re.compile(r"\\(?:u([0-9a-fA-F]{4})|.)")
HIGH_SURROGATES, LOW_SURROGATES = range(0xD800, 0xDC00), range(0xDC00, 0xE000)


def no_constant(name: str) -> NoReturn:
    """Refuses NaN and Infinity, which Python reads and JSON has not."""
    raise ValueError(f"{name} is no JSON")


DECODER = json.JSONDecoder(parse_float=Numeral, parse_int=integer_of, parse_constant=no_constant)


def decoded(text: bytes) -> Any:
    """The value of a text, all of which is JSON. ValueError or RecursionError comes if it is not,
    or nests too deep."""
    words = text.decode()
    value = DECODER.decode(words)
    check(words)
    return value


def check(text: str) -> None:
    """Whether a text, which Python takes for JSON, nests no deeper than it may, and has no half of
    a character that UTF-16 writes in two."""
    if text.count("[") + text.count("{") > DEEPEST and depth_of(text) > DEEPEST:
        raise RecursionError
    if "\\u" in text and has_lone_surrogate(text):
        raise ValueError("a surrogate by itself")


def depth_of(text: str) -> int:
    """How deep lists and objects are within one another in a text that is JSON."""
    depth = deepest = 0
    for token in STRING_OR_BRACKET.findall(text):
        if token in "[{":
            depth += 1
            deepest = max(deepest, depth)
        elif token in "]}":
            depth -= 1
    return deepest


def has_lone_surrogate(text: str) -> bool:
    """Whether the strings of a text that is JSON escape half of a character."""
    # Where the other half has to be.
    awaited = None
    for found in ESCAPE.finditer(text):
        unit = int(found[1], 16) if found[1] else 0
        if awaited is not None and (found.start() != awaited or unit not in LOW_SURROGATES):
            return True
        if awaited is None and unit in LOW_SURROGATES:
            return True
        awaited = found.end() if unit in HIGH_SURROGATES else None
    return awaited is not None


def reason_of(error: Exception) -> str:
    """Why a text is no value, for people."""
    if isinstance(error, RecursionError):
        return "it nests too deep"
    return f"not JSON: {error}"
