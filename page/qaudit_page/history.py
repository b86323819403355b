"""How verdicts went over several runs, say one a night: a table of the runs, and for each rule and
each case a picture of how many traces came to what."""

import os
import re
from collections import Counter
from collections.abc import Callable, Iterable
from pathlib import Path
from typing import NamedTuple

from .failure import Failure
from .files import as_text, name_of
from .folders import Folder
from .matrix import CLASSES, KINDS, Result, place_of, results_in
from .texts import count, html, plural

# Of many runs the last ones are shown: so many in the table, and so many in the pictures.
MOST_ROWS = 30
MOST_COLUMNS = 120
# The sizes of a picture in pixels.
TALL, WIDEST, NARROWEST = 28, 12, 2
# Of what is new or gone in a run, so many are listed.
MOST_LISTED = 20
BROKEN = ("refused", "unreadable")
Pattern = re.Pattern[str] | None
Counts = Counter[str]


class Night(NamedTuple):
    """A run: what it is called, and the results."""

    name: str
    results: list[Result]

    @property
    def broken(self) -> set[tuple[str, str]]:
        """The violations: of each trace that has one, the first, without its line."""
        return {(it.key, it.told) for it in self.results if it.kind in BROKEN}


class Earlier(NamedTuple):
    """The runs before this one, and what was passed over among them."""

    nights: list[Night]
    passed_over: list[str]


def runs_in(folder: Path, but: Path | None) -> Earlier:
    """The runs whose results are in a folder, by the names of the files, but for one file."""
    if not folder.is_dir():
        raise Failure(f"{as_text(folder)} is no directory")
    looked = Folder(folder, lambda name: name.endswith(".json"), is_deep=False)
    if not looked.is_whole:
        raise Failure(looked.told[0])
    left_out = os.path.realpath(but) if but else None
    files = [it for it in looked.files if os.path.realpath(it) != left_out]
    nights = [Night(name_of(it).removesuffix(".json"), results_in(it)[0]) for it in files]
    return Earlier(nights, looked.told)


# HTML.


def history(nights: list[Night], named: Pattern) -> str:
    """The section of a page about several runs, the last of which is this one."""
    drawn = nights[-MOST_COLUMNS:]
    title = f"<h2>Over {plural(len(nights), 'run')}</h2>"
    by_rule = pictures(drawn, lambda it: f"{it.rule} {it.name}" if it.rule else None)
    by_case = pictures(drawn, lambda it: place_of(it.key, named)[0])
    first, last = html(drawn[0].name), html(drawn[-1].name)
    span = f"A column is a run, from {first} to {last}; its height is the number of traces."
    return (
        f'{title}{table_of(nights)}<p id="columns">{span}</p>'
        f'<div class="scroll">{section("rules-over-runs", "rule or fault", by_rule)}</div>'
        f'<div class="scroll">{section("cases-over-runs", "case", by_case)}</div>'
    )


def table_of(nights: list[Night]) -> str:
    """The runs as a table, the last one first: how many traces came to what, and which violations
    are new and which are gone since the run before."""
    names = ("run", "traces", *KINDS, "new violations", "gone violations")
    head = "".join(f'<th scope="col">{name}</th>' for name in names)
    pairs = list(zip([None, *nights], nights, strict=False))[-MOST_ROWS:]
    rows = "".join(row_of(before, night) for before, night in reversed(pairs))
    left = len(nights) - len(pairs)
    more = f"<p>{plural(left, 'earlier run')} not listed here.</p>" if left else ""
    table = f"<thead><tr>{head}</tr></thead><tbody>{rows}</tbody>"
    return f'<div class="scroll"><table id="nights" class="nights">{table}</table></div>{more}'


def row_of(before: Night | None, night: Night) -> str:
    """A run in the table."""
    kinds = Counter(it.word for it in night.results)
    told = "".join(f"<td>{number_of(kinds, kind)}</td>" for kind in KINDS)
    changes = "<td></td><td></td>"
    if before is not None:
        new, gone = night.broken - before.broken, before.broken - night.broken
        changes = f"<td>{listed(new)}</td><td>{listed(gone)}</td>"
    name, traces = html(night.name), count(len(night.results))
    return f'<tr><th scope="row">{name}</th><td>{traces}</td>{told}{changes}</tr>'


def number_of(kinds: Counts, kind: str) -> str:
    """How many came to a verdict, in its colour."""
    number = kinds[kind]
    return f'<b class="{CLASSES.get(kind, kind)}">{count(number)}</b>' if number else "0"


def listed(violations: set[tuple[str, str]]) -> str:
    """How many violations these are, and which, folded."""
    if not violations:
        return "0"
    ordered = sorted(violations)
    items = "".join(f"<li>{html(key)}: {html(told)}</li>" for key, told in ordered[:MOST_LISTED])
    more = len(ordered) - MOST_LISTED
    items += f"<li>{count(more)} more</li>" if more > 0 else ""
    return f"<details><summary>{count(len(ordered))}</summary><ul>{items}</ul></details>"


def section(name: str, of: str, rows: str) -> str:
    """A table with a picture in each row."""
    names = (of, "over the runs", "last run")
    head = "".join(f'<th scope="col">{it}</th>' for it in names)
    table = f"<thead><tr>{head}</tr></thead><tbody>{rows}</tbody>"
    return f'<table id="{name}" class="pictures">{table}</table>' if rows else ""


def pictures(nights: list[Night], group: Callable[[Result], str | None]) -> str:
    """A row for each group of traces, with how many of it came to what in each run."""
    counts: dict[str, list[Counts]] = {}
    for place, night in enumerate(nights):
        for result in night.results:
            name = group(result)
            if name is not None:
                found = counts.setdefault(name, [Counter() for _ in nights])
                found[place][result.word] += 1
    most = max((it.total() for found in counts.values() for it in found), default=1)
    return "".join(picture_row(name, counts[name], most) for name in sorted(counts))


def picture_row(name: str, counts: list[Counts], most: int) -> str:
    """A group of traces: its name, its picture, and the last run in numbers."""
    last = ", ".join(f"{number_of(counts[-1], kind)} {kind}" for kind in KINDS if counts[-1][kind])
    return (
        f'<tr><th scope="row">{html(name)}</th><td>{picture(counts, most)}</td>'
        f"<td>{last or 'none'}</td></tr>"
    )


def picture(counts: list[Counts], most: int) -> str:
    """A column for each run: how many traces came to which verdict, above each other. The highest
    column of all pictures is as high as a picture."""
    wide = max(NARROWEST, min(WIDEST, 240 // len(counts)))
    paths = []
    for place, kind in enumerate(KINDS):
        below = [sum(it[lower] for lower in KINDS[:place]) for it in counts]
        bars = zip(range(len(counts)), below, (it[kind] for it in counts), strict=True)
        drawn = "".join(bar(at * wide, low, high, most, wide - 1) for at, low, high in bars)
        if drawn:
            paths.append(f'<path class="{CLASSES.get(kind, kind)}" d="{drawn}"/>')
    width, told = wide * len(counts), html(in_words(counts))
    return (
        f'<svg width="{width}" height="{TALL}" role="img" aria-label="{told}">'
        f"<title>{told}</title>{''.join(paths)}</svg>"
    )


def bar(left: int, below: int, number: int, most: int, wide: int) -> str:
    """A part of a column as a piece of a path; empty for nothing."""
    if not number:
        return ""
    low, high = (TALL - round(it / most * TALL, 1) for it in (below, below + number))
    return f"M{left} {low:g}V{high:g}h{wide}V{low:g}z"


def in_words(counts: Iterable[Counts]) -> str:
    """What a picture shows: of each verdict how many there were in the first and in the last run,
    and at most."""
    listed = list(counts)
    told = []
    for kind in KINDS:
        numbers = [it[kind] for it in listed]
        if any(numbers):
            told.append(f"{kind}: {numbers[0]} to {numbers[-1]}, at most {max(numbers)}")
    return "; ".join(told)
