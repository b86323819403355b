"""Amounts as `qaudit-why` writes them on the first line of a refusal: bytes, and exact times in the
unit that reads best (docs/why.md)."""

from constants import METRICS_IN_BYTES, NANOSECONDS_IN_A_MICROSECOND, Rule

# The rules whose amounts are bytes, beside the values of reports that are.
IN_BYTES = (Rule.PAST_WINDOW, Rule.COLLAPSE_MISSING)


def in_bytes(what: str) -> bool:
    """Whether the amounts of a rule, as a report names it, are bytes, and else times."""
    return what in IN_BYTES or what.split(" ")[-1] in METRICS_IN_BYTES


def bytes_text(number: int) -> str:
    """So many bytes."""
    return "1 byte" if number == 1 else f"{number} bytes"


def time_text(value: int, *, is_in_nanoseconds: bool) -> str:
    """A time as people read it, exact."""
    nanoseconds = value if is_in_nanoseconds else value * NANOSECONDS_IN_A_MICROSECOND
    if nanoseconds == 0:
        return "0 ns" if is_in_nanoseconds else "0 us"
    for least, whole, name in (
        (10**9, 10**9, "s"),
        (10**5, 10**6, "ms"),
        (10**3, 10**3, "us"),
        (1, 1, "ns"),
    ):
        if nanoseconds >= least:
            return f"{quotient(nanoseconds, whole)} {name}"
    raise ValueError(f"{value} is below 0")


def quotient(number: int, whole: int) -> str:
    """A number of parts as so many whole, of which each has a power of ten: exact, and without
    zeros at its end."""
    digits = f"{number % whole:0{len(str(whole)) - 1}d}".rstrip("0") if number % whole else ""
    return f"{number // whole}{'.' if digits else ''}{digits}"
