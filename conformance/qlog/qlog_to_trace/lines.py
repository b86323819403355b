"""The lines of a trace."""

from collections.abc import Callable
from typing import Any

from .errors import Unusable
from .events import NANOSECONDS
from .notes import Guess, Notes

Line = dict[str, Any]
GREATEST_TIME = 10**15
RTTS = ("latest_rtt", "min_rtt", "smoothed_rtt", "rttvar")
# The key of a line that says where in the log its record is, and what begins the place of a line of
# which there is no record.
PLACE = "x_place"
GUESSED = "guessed at"


def guessed(place: str) -> str:
    """The place of a line of which the log has no record: that of the record beside it."""
    return f"{GUESSED} {place}"


def span(first: str, last: str) -> str:
    """The place of a line that several records say."""
    return first if first == last else f"{first} to {last}"


class Lines:
    """Hands on lines, with times in the unit of the trace that do not go back."""

    def __init__(
        self, write: Callable[[Line], None], notes: Notes, unit: str, *, has_places: bool = False
    ) -> None:
        self._write, self._notes = write, notes
        # Whether each line says where in the log the record begins that it is from.
        self._has_places = has_places
        self._unit, self._divisor = unit, NANOSECONDS[unit]
        self._time = 0

    def in_unit(self, nanoseconds: int) -> int:
        """A time or a duration as the trace has it, rounded down."""
        return nanoseconds // self._divisor

    def may_be(self, nanoseconds: int) -> bool:
        """Whether the next line may have this time."""
        return self.in_unit(nanoseconds) >= self._time

    def header(self, line: Line) -> None:
        """The first line."""
        self._write({"event": "header", **line, **self._notes.for_next_line()})

    def event(self, event: str, nanoseconds: int, place: str, /, **keys: Any) -> None:
        """The line of an event, and the place in the log of the record that it is from."""
        time = self.in_unit(nanoseconds)
        if time < self._time:
            self._notes.guess(Guess.TIME_BACK)
            time = self._time
        if time > GREATEST_TIME:
            last = f"{GREATEST_TIME} {self._unit}"
            raise Unusable(f"it goes on past {last}, the last time of a trace")
        self._time = time
        if self._has_places:
            keys[PLACE] = guessed(place) if self._notes.guess_next_line else place
        self._write({"event": event, "time": time, **keys, **self._notes.for_next_line()})

    def metrics(self, nanoseconds: int, place: str, values: dict[str, int]) -> None:
        """A report, of RTTs in nanoseconds."""
        said = {key: self.in_unit(it) if key in RTTS else it for key, it in values.items()}
        self.event("metrics", nanoseconds, place, **said)
