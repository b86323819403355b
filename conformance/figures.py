"""The table of docs/proofs.md that says for how long programs were tried on inputs by chance.

Each of these programs writes its own row, at the end of a run that is told to; others stay.
"""

import os
import resource
import subprocess
from collections.abc import Sequence
from dataclasses import dataclass
from datetime import UTC, datetime
from pathlib import Path
from typing import NamedTuple

TOP = Path(__file__).resolve().parent.parent
PAGE = Path("docs/proofs.md")
BEGIN = "<!-- conformance/qlog/fuzz and conformance/fuzz_library put what follows here -->\n"
END = "<!-- up to here -->\n"
HEAD = """
| Program | Cases | Minutes | Of processors | Processes | Seeds | Found | Branches | Date | Commit |
|---|---:|---:|---:|---:|---|---:|---:|---|---|
"""
MINUTE = 60
HOUR = 3_600


class NoPlaceError(Exception):
    """The page has no place for the table."""


class Branches(NamedTuple):
    """How many branches have a counter, and how many of those a run reached."""

    reached: int
    counted: int

    def __str__(self) -> str:
        return f"{self.reached:,} of {self.counted:,}"


@dataclass(frozen=True)
class Figures:
    """What a run of a program came to."""

    program: str
    cases: int
    # By the clock, and of processors: those of a busy machine give less than the clock says.
    seconds: float
    processor_seconds: float
    seeds: Sequence[int]
    findings: int
    commit: str
    # None where the program has no counters.
    branches: Branches | None = None

    def row(self) -> str:
        """Its row in the table."""
        seeds = ", ".join(map(str, self.seeds))
        date = datetime.now(UTC).date().isoformat()
        return (
            f"| `{self.program}` | {self.cases:,} | {time_of(self.seconds)} "
            f"| {time_of(self.processor_seconds)} | {len(self.seeds)} | {seeds} "
            f"| {self.findings} | {self.branches or ''} | {date} | {self.commit} |\n"
        )


def time_of(seconds: float) -> str:
    """Minutes and seconds."""
    minutes, rest = divmod(round(seconds), MINUTE)
    return f"{minutes}:{rest:02}"


def processor_seconds() -> float:
    """What the processes that this one waited for took of the processors."""
    spent = resource.getrusage(resource.RUSAGE_CHILDREN)
    return spent.ru_utime + spent.ru_stime


def told_by_git(*words: str) -> str:
    """What git says of this repository."""
    command = ["git", "-C", str(TOP), *words]
    return subprocess.run(command, capture_output=True, text=True, check=True).stdout.strip()


def commit_of(*folders: str) -> str:
    """The commit that these folders are of, with a word if they have changes."""
    commit = told_by_git("rev-parse", "--short", "HEAD")
    is_changed = told_by_git("status", "--porcelain", "--", *folders)
    return f"{commit} with changes" if is_changed else commit


def key_of(row: str) -> tuple[str, list[int]]:
    """The program of a row, and its seeds."""
    cells = row.split(" | ")
    return cells[0], [int(seed) for seed in cells[5].split(", ")]


def hours_of(rows: Sequence[str]) -> str:
    """For how long each program had a processor, all runs together that say it."""
    seconds: dict[str, int] = {}
    for row in rows:
        program, _, _, time, *_ = row.removeprefix("| ").split(" | ")
        if time:
            minutes, rest = map(int, time.split(":"))
            seconds[program] = seconds.get(program, 0) + minutes * MINUTE + rest
    if not seconds:
        return "No run here says what it took of the processors.\n"
    told = (f"{it / HOUR:.1f} hours of {program}" for program, it in seconds.items())
    return f"In all, by the processors: {', '.join(told)}.\n"


def with_row(page: str, figures: Figures) -> str:
    """The page with a row for this run, in place of one of the program with the same seeds."""
    before, begin, rest = page.partition(BEGIN)
    table, end, after = rest.partition(END)
    if not begin or not end:
        raise NoPlaceError(f"{PAGE} has no place for the table: {BEGIN.strip()}")
    rows = [line for line in table.splitlines(True) if line.startswith("| `")]
    key = key_of(figures.row())
    all_rows = sorted([*(it for it in rows if key_of(it) != key), figures.row()], key=key_of)
    return f"{before}{BEGIN}{HEAD}{''.join(all_rows)}\n{hours_of(all_rows)}\n{END}{after}"


def record(figures: Figures) -> None:
    """Writes the row, at once or not at all."""
    path = TOP / PAGE
    beside = path.with_name(f".{path.name}.{os.getpid()}")
    beside.write_text(with_row(path.read_text(), figures))
    beside.replace(path)
