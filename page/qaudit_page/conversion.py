"""What says that a refusal may be due to the conversion of a log, and not to its sender."""

import json

from .lenient import METRICS
from .program import Object, Verdict

# Up to which line a refusal is early, how many values of its report have to differ, and more than
# what part of them.
FIRST_LINES = 20
LEAST_VALUES = 2
MOST = 0.5


def object_of(line: bytes) -> Object:
    """What a line says; nothing where it is no object."""
    try:
        said = json.loads(line)
    except (ValueError, RecursionError):
        return {}
    return said if isinstance(said, dict) else {}


def notes_of(lines: list[bytes], verdict: Verdict) -> list[str]:
    """What the converter says of the log, and what the verdict says of the conversion."""
    header = object_of(next((line for line in lines if line.strip()), b""))
    notes = header.get("x_note")
    told = [note for note in notes if isinstance(note, str)] if isinstance(notes, list) else []
    told = list(map(said_of_log, told))
    early = early_report(lines, verdict) if "x_dialect" in header else None
    return [*told, early] if early else told


def said_of_log(note: str) -> str:
    """What the converter says of a log, as it is shown."""
    return f"The converter says of the log: {note}"


def early_report(lines: list[bytes], verdict: Verdict) -> str | None:
    """What to say of a report among the first lines if most of its values differ.

    No sender is known that departs so; logs that were read in another order than their own do.
    """
    if verdict.rule != "V16" or not 0 < verdict.line <= min(FIRST_LINES, len(lines)):
        return None
    said = object_of(lines[verdict.line - 1])
    differ = len(verdict.said.get("differences", []))
    reported = sum(said.get(name) is not None for name in METRICS)
    if differ < LEAST_VALUES or differ <= reported * MOST:
        return None
    return (
        f"{differ} of the {reported} values of this report differ, and it is one of the first"
        " lines of the trace. So the log was probably misread: it may be in another order than"
        " qlog-to-trace took, and then the refusal says nothing of the sender. With --notes"
        " qlog-to-trace says in which order it read the log."
    )
