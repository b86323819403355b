"""Violations that are known, in a file: by case, stacks, rule and field."""

import json
from collections.abc import Iterable
from dataclasses import dataclass
from pathlib import Path
from typing import Any, NamedTuple

from .failure import NO_RECORD, Failure
from .files import as_text, read
from .violations import Violation

# The form of the file.
VERSION = 1


class Known(NamedTuple):
    """A violation that is known. Two traces of one case and the same stacks share it."""

    case: str
    stacks: str
    rule: str
    name: str
    field: str

    @property
    def text(self) -> str:
        """In words, as `loss (quinn → ngtcp2): V16 metric rttvar`."""
        told = " ".join(filter(None, (self.rule, self.name, self.field)))
        return f"{self.case} ({self.stacks}): {told}"


class Seen(NamedTuple):
    """A violation in a trace: the key of the trace, and the violation as a known one would be."""

    key: str
    violation: Violation
    as_known: Known


def known_by(case: str, stacks: str, violation: Violation) -> Known:
    """A violation as it is looked for among the known ones."""
    return Known(case, stacks, violation.rule, violation.name, violation.field)


@dataclass(frozen=True)
class Compared:
    """What a run has seen beside what was known."""

    new: list[Seen]
    # Known ones that are not in the traces of their case any more, and those whose case has no
    # trace in this run.
    gone: list[Known]
    absent: list[Known]

    def lines(self) -> list[str]:
        """What there is to say, a line for each."""
        new = [f"{it.key}: new violation {it.violation.where}" for it in self.new]
        gone = [f"{it.text} is known, and not seen any more" for it in self.gone]
        absent = [f"{it.text} is known, and there is no trace of it" for it in self.absent]
        return new + gone + absent


def compared(
    seen: Iterable[Seen], places: Iterable[tuple[str, str]], known: set[Known]
) -> Compared:
    """Compares what a run has seen, over traces at these places, with what is known."""
    seen, places = list(seen), set(places)
    found = {it.as_known for it in seen}
    missing = sorted(known - found)
    return Compared(
        [it for it in seen if it.as_known not in known],
        [it for it in missing if (it.case, it.stacks) in places],
        [it for it in missing if (it.case, it.stacks) not in places],
    )


def written(seen: Iterable[Seen]) -> str:
    """The file that makes known what a run has seen."""
    listed = [it._asdict() for it in sorted({it.as_known for it in seen})]
    lines = ",\n".join(json.dumps(it, ensure_ascii=False) for it in listed)
    text = f"\n{lines}\n" if listed else ""
    return f'{{"version": {VERSION}, "known": [{text}]}}\n'


def known_in(path: Path) -> set[Known]:
    """What a file says is known."""
    try:
        said: Any = json.loads(read(path))
        if said["version"] != VERSION:
            raise ValueError("another version")
        return {Known(*(str(it[name]) for name in Known._fields)) for it in said["known"]}
    except NO_RECORD as fault:
        text = f"{as_text(path)} is not what qaudit-matrix --write-known writes: {fault}"
        raise Failure(text) from fault
