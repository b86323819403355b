"""Amounts and foreign text for people, as text and as HTML."""

import re
from collections.abc import Iterable
from html import escape

NANOSECONDS = {"us": 1_000, "ns": 1}
NANOSECONDS_IN_A_MILLISECOND = 1_000_000
NANOSECONDS_IN_A_SECOND = 1_000_000_000
SHOWN_RUNS = 16
# What Python calls printable and nobody sees: fillers, selectors of variations, tags.
UNSEEN = re.compile(
    "[\u034f\u115f\u1160\u17b4\u17b5\u180b-\u180f\u2800\u3164\ufe00-\ufe0f\uffa0"
    "\U000e0100-\U000e01ef]"
)

Ranges = list[list[int]]


def count(value: int) -> str:
    """A number with its thousands apart."""
    return f"{value:,}"


def plural(number: int, noun: str) -> str:
    """A number of things."""
    return f"{count(number)} {noun}" + ("" if number == 1 else "s")


def milliseconds(value: int, unit: str) -> str:
    """A time as milliseconds, with all of its digits."""
    sign, amount = ("-" if value < 0 else ""), abs(value) * NANOSECONDS[unit]
    whole, rest = divmod(amount, NANOSECONDS_IN_A_MILLISECOND)
    digits = f".{rest:06}".rstrip("0") if rest else ""
    return f"{sign}{whole:,}{digits} ms"


def span(value: int, unit: str) -> str:
    """A length of time with all of its digits: in seconds from one on, and else in milliseconds."""
    amount = value * NANOSECONDS[unit]
    if amount < NANOSECONDS_IN_A_SECOND:
        return milliseconds(value, unit)
    whole, rest = divmod(amount, NANOSECONDS_IN_A_SECOND)
    digits = f".{rest:09}".rstrip("0") if rest else ""
    return f"{whole:,}{digits} s"


def size(value: int) -> str:
    """A number of bytes."""
    return f"{count(value)} B"


def runs(ranges: Ranges) -> str:
    """Runs of packet numbers."""
    shown = [str(low) if low == high else f"{low}-{high}" for low, high in ranges[:SHOWN_RUNS]]
    more = len(ranges) - len(shown)
    return ", ".join(shown) + (f" and {plural(more, 'run')} more" if more else "")


def visible(text: str) -> str:
    """Text with an escape for each character that is not seen when it is printed."""
    return "".join(
        char if (char.isprintable() and not UNSEEN.match(char)) else f"\\u{{{ord(char):x}}}"
        for char in text
    )


def harmless(text: str) -> str:
    """Text for a line that a CI system may read, in which nothing begins what it takes for a
    command: `##` does in any place, `::` only at the beginning of a line."""
    return visible(text).replace("##", "#\\u{23}")


def html(text: str) -> str:
    """Text of others as HTML, in an element or in an attribute with quotes."""
    return escape(visible(text), quote=True)


def link(line: int, text: str) -> str:
    """A link to a line of the page."""
    return f'<a href="#line={line}">{html(text)}</a>'


def pairs(rows: Iterable[tuple[str, str]]) -> str:
    """Names with their values."""
    return "".join(f"<div><dt>{html(a)}</dt> <dd>{html(b)}</dd></div>" for a, b in rows)


def decoded(line: bytes) -> str:
    """The bytes of a line as text, with an escape for each byte that is not UTF-8."""
    return line.decode("utf-8", "backslashreplace")
