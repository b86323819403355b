"""What is wrong with an input."""


class Unusable(Exception):
    """An input that gives nothing, with the line or the byte at which that was seen."""

    def __init__(self, reason: str, place: str | None = None) -> None:
        super().__init__(f"{place}: {reason}" if place else reason)


class NoProgram(Unusable):
    """An input that can be read only by a program that is not installed."""


class NoMemory(Unusable):
    """An input that takes more memory than there is."""


class Torn(Exception):
    """The input ends within a value."""
