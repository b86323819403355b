"""What the programs took for a trace."""

from collections.abc import Callable
from typing import NamedTuple

from usage import Usage

ROUNDS = 3
# In the longest trace, in which no packet is acknowledged.
PACKETS = 1_000_000
AUDITOR = "qaudit"
PEER = "serde_json"
Measure = Callable[[Usage], float]


def processor(usage: Usage) -> float:
    """The processor time of a run, of the program and of the system for it."""
    return usage.seconds


def clock(usage: Usage) -> float:
    """The time that went by."""
    return usage.wall_seconds


class Row(NamedTuple):
    """A trace, and what each program took for it in each round."""

    shape: str
    form: str
    bytes: int
    lines: int
    rounds: list[dict[str, Usage]]

    @property
    def megabytes(self) -> float:
        """The size of the trace."""
        return self.bytes / 1e6

    def seconds(self, name: str, measure: Measure) -> float:
        """The least time that a program took."""
        return min(measure(it[name]) for it in self.rounds)

    def ratio(self, measure: Measure) -> float | None:
        """How many times as long as the auditor the program on `serde_json` took, if there is
        one."""
        if PEER not in self.rounds[0]:
            return None
        return self.seconds(PEER, measure) / self.seconds(AUDITOR, measure)

    @property
    def peak(self) -> int:
        """The greatest peak of the auditor's memory, in bytes."""
        return max(it[AUDITOR].kibibytes for it in self.rounds) * 1024
