"""Which of the connections in a log is converted."""

from collections.abc import Iterable, Iterator

from .errors import Unusable
from .events import Event


class Connections:
    """The connections and paths that the events of one trace name, of which one is chosen.

    Events that name none belong to each of them.
    """

    def __init__(self, chosen: int) -> None:
        # Which one, from 1 on.
        self._chosen = chosen
        self._numbers: dict[object, int] = {}

    @property
    def count(self) -> int:
        """How many there are, once the log was read."""
        return len(self._numbers)

    def over(self, events: Iterable[Event]) -> Iterator[Event]:
        """The events of the one that is chosen."""
        for event in events:
            if event.connection is None:
                yield event
                continue
            number = self._numbers.setdefault(event.connection, len(self._numbers) + 1)
            if number == self._chosen:
                yield event


def chosen_of(count: int, asked: int | None, what: str) -> int:
    """Which of so many is converted, if it is there."""
    if asked is not None and not 1 <= asked <= count:
        raise Unusable(f"it has {count} {what}, and no number {asked}")
    return asked or 1


def others(count: int, chosen: int, what: str) -> str:
    """What is told where there are others."""
    is_number = f"it has {count} {what}; this is number {chosen}"
    return f"{is_number}, another by qlog-to-trace --connection N"
