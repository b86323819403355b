"""Numbers, which a log may write as strings, with a point or an exponent. None is rounded before
its last step, however many digits it has."""

import re
from typing import Any

# Perhaps a sign, digits, perhaps with a point, and perhaps an exponent.
NUMBER = re.compile(r"([+-]?)([0-9]*)(?:\.([0-9]*))?(?:[eE]([+-]?)([0-9]+))?")
# How many digits a number has at most that is in some range, and what stands for a larger one.
MOST_DIGITS = 20
TOO_LARGE: int = 10**MOST_DIGITS
# By how many places an exponent moves the point that moves it further: no text is so long.
FAR = 10**18
# How many places the first digit of a time or a duration is from the point at most.
MOST_PLACES = 40
# What a whole number is below, and how many nanoseconds a time is below and a duration has at most.
LIMIT = 1 << 64
LIMIT_OF_TIMES = 1 << 63
LONGEST_DURATION = 10**18


class NoNumberError(ValueError):
    """A value is not the number that it has to be, as the text says."""


class Numeral:
    """A number of a log as its text, unless that is a short one of digits alone."""

    __slots__ = ("text",)

    def __init__(self, text: str) -> None:
        self.text = text

    def __repr__(self) -> str:
        return self.text


def integer_of(text: str) -> int | Numeral:
    """An integer of JSON."""
    is_plain = len(text) <= MOST_DIGITS and not text.startswith("-")
    return int(text) if is_plain else Numeral(text)


def written(value: Any) -> str:
    """The text of a number, which may be in a string; of other values none."""
    if type(value) is int:
        return str(value)
    if isinstance(value, Numeral):
        return value.text
    return value if isinstance(value, str) else ""


def says(value: Any) -> bool:
    """Whether a value says anything: null, false, 0 and what is empty do not."""
    if isinstance(value, Numeral):
        return bool(value.text.lower().partition("e")[0].strip("-0."))
    return bool(value)


class Digits:
    """The digits of a number, and how many of them are before its point, once its exponent has
    moved that."""

    __slots__ = ("is_negative", "all", "point")

    def __init__(self, text: str) -> None:
        found = NUMBER.fullmatch(text)
        sign, front, behind, sign_of_exponent, exponent = found.groups("") if found else [""] * 5
        self.all: str = front + behind
        if not self.all:
            raise NoNumberError("no number")
        self.is_negative = sign == "-"
        places = places_of(exponent)
        self.point = len(front) + (-places if sign_of_exponent == "-" else places)

    def before_point(self, places: int = 0) -> int:
        """The number that they write before the point, which is moved to the right by so many
        places."""
        end = max(self.point + places, 0)
        front = self.all[:end].lstrip("0")
        zeros = max(end - len(self.all), 0)
        if not front:
            return 0
        is_short = len(front) + zeros <= MOST_DIGITS
        return int(front + "0" * zeros) if is_short else TOO_LARGE

    @property
    def are_whole(self) -> bool:
        """Whether all digits behind the point are 0."""
        return not self.all[max(self.point, 0) :].strip("0")

    @property
    def are_near(self) -> bool:
        """Whether the first that is not 0 is near the point."""
        zeros = len(self.all) - len(self.all.lstrip("0"))
        return abs(self.point - min(zeros + 1, len(self.all))) <= MOST_PLACES


def places_of(exponent: str) -> int:
    """By how many places an exponent moves the point."""
    digits = exponent.lstrip("0")
    return FAR if len(digits) >= len(str(FAR)) else int(digits or 0)


def whole(value: Any) -> int:
    """The whole number of 64 bits that a value is; -0 is 0."""
    digits = Digits(written(value))
    number = digits.before_point()
    if not digits.are_whole or number >= LIMIT or (digits.is_negative and number):
        raise NoNumberError("no whole number of 64 bits")
    return number


def near(text: str) -> Digits:
    """The digits of a number, if the first of them is near the point."""
    digits = Digits(text)
    if not digits.are_near:
        raise NoNumberError("a number of too many digits")
    return digits


def scaled(value: Any, places: int) -> int:
    """A number with so many of the digits behind its point, and without the rest."""
    if type(value) is int:
        return int(value * 10**places)
    digits = near(written(value))
    size = digits.before_point(places)
    return -size if digits.is_negative else size


def instant(value: Any, places: int) -> int:
    """The nanoseconds of a time in a unit that has so many zeros of them, rounded toward zero."""
    size = scaled(value, places)
    if abs(size) >= LIMIT_OF_TIMES:
        raise NoNumberError("out of range")
    return size


def duration(value: Any, places: int) -> int:
    """The nanoseconds of a duration in a unit that has so many zeros of them, rounded down; 0 if it
    is negative."""
    size = max(scaled(value, places), 0)
    if size > LONGEST_DURATION:
        raise NoNumberError("out of range")
    return size
