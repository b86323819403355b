"""Where in the log a line of a trace comes from, as the converter says at the key `x_place`."""

import re
from collections.abc import Iterable
from typing import NamedTuple

from .conversion import object_of
from .texts import count

KEY = "x_place"
FORM = re.compile(r"(guessed at )?(line|byte) ([0-9]{1,18})(?: to (?:line|byte) ([0-9]{1,18}))?")
LINE = "line"


class Place(NamedTuple):
    """The record that a line is from, by the line or the byte of the log at which it begins; the
    last one if there are several; and whether the line was guessed there, since no record says
    it."""

    unit: str
    first: int
    last: int
    is_guessed: bool

    @property
    def line(self) -> int:
        """The line of the log; 0 if its places are bytes."""
        return self.first if self.unit == LINE else 0

    @property
    def text(self) -> str:
        """In words, as `line 812 of the log`."""
        where = f"{self.unit} {count(self.first)}"
        if self.last != self.first:
            where = f"{self.unit}s {count(self.first)} to {count(self.last)}"
        where += " of the log"
        return f"no record; guessed at {where}" if self.is_guessed else where


def place_of(line: bytes) -> Place | None:
    """The place of a line of a trace; None if it has none."""
    said = object_of(line).get(KEY)
    found = FORM.fullmatch(said) if isinstance(said, str) else None
    if found is None:
        return None
    guessed, unit, first, last = found.groups()
    return Place(unit, int(first), int(last or first), guessed is not None)


def places_of(data: bytes, lines: Iterable[int]) -> dict[int, Place]:
    """The places of some lines of a trace, those that have one."""
    wanted = set(lines) - {0}
    # What comes after the last of them is not cut into lines.
    texts = data.split(b"\n", max(wanted, default=0))
    found = {it: place_of(texts[it - 1]) for it in wanted if it <= len(texts)}
    return {line: place for line, place in found.items() if place}
