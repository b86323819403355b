"""A page of two traces: the two ends of a connection, or two runs of one stack."""

import re
from dataclasses import replace
from pathlib import Path
from typing import NamedTuple

from .alignment import Alignment, End, alignment_of, are_both_ends
from .failure import Failure, NoTraceError
from .files import as_text, name_of
from .library import dygraphs, licence, resource, script_of_pair
from .page import Told, Wanted, html_of_lines, told_of
from .parting import Parting, parting_of, section_of
from .payload import packed
from .program import find
from .template import filled, policy, template
from .texts import NANOSECONDS_IN_A_MILLISECOND, html, visible

# What begins the ids of the elements of a run, and its links.
RUNS = ("first", "second")
# What a run has in markup: ids, and links to its lines. In what is foreign no quote is left.
OURS = re.compile(r' id="(?=[a-z])| href="#line=')
# An id in a style, before what is done with it.
STYLED = re.compile(r"#([a-z][a-z-]+)(?=[^;}]*\{)")

Names = tuple[str, str]


class Opening(NamedTuple):
    """The lines at which two runs open, 0 for none, and which of them says what is seen."""

    lines: tuple[int, int]
    of: int


def names_of(first: Path, second: Path) -> Names:
    """What two traces are called, so that they can be told apart."""
    for named in (name_of, as_text):
        if named(first) != named(second):
            return named(first), named(second)
    return f"{name_of(first)} (first)", f"{name_of(second)} (second)"


def page_of_two(wanted: Wanted, paths: tuple[Path, Path]) -> str:
    """The page of two traces, with what is wanted of each."""
    library, program = dygraphs(wanted.dygraphs), find(wanted.program)
    names = names_of(*paths)
    first, second = (
        run_of(program, replace(wanted, trace=path, title=name))
        for path, name in zip(paths, names, strict=True)
    )
    return written(wanted.title or " and ".join(names), library, (first, second))


def run_of(program: str, wanted: Wanted) -> Told:
    """What there is to say of one of two traces."""
    try:
        return told_of(program, wanted, wanted.taken())
    except NoTraceError:
        raise
    except Failure as failure:
        raise Failure(f"{wanted.name}: {failure}", failure.status) from failure


def written(title: str, library: str, runs: tuple[Told, Told]) -> str:
    """The whole page."""
    traces = runs[0].trace, runs[1].trace
    names = runs[0].wanted.name, runs[1].wanted.name
    parting = None if are_both_ends(*traces) else parting_of(*traces)
    alignment = alignment_of(*map(End, traces, names))
    style = style_of_two(resource("page.css")) + resource("pair.css")
    own, loader = script_of_pair(), resource("script/load.js")
    between = f'<p id="aligned">{html(alignment.text)}</p>'
    return filled(
        template("pair.html"),
        POLICY=policy([loader, library, own], [style]),
        TITLE=html(title),
        VERDICTS=html("; ".join(run.title for run in runs)),
        STYLE=style,
        BETWEEN=(section_of(parting, traces, names, RUNS) if parting else "") + between,
        LICENCE=html_of_lines(licence()),
        LIBRARY=packed(library),
        SCRIPT=packed(own),
        LOADER=loader,
        **elements(runs),
        **blocks(runs, alignment, opening_of(runs, parting)),
    )


def elements(runs: tuple[Told, Told]) -> dict[str, str]:
    """What each run has in the page without a script, by the places of the template."""
    parts = {
        "HEADS": "pairhead.html",
        "STRIPS": "pairstrip.html",
        "RUNS": "pairrun.html",
        "TABLES": "pairlines.html",
    }
    texts = [run.texts() | {"NAME": html(run.wanted.name)} for run in runs]
    pairs = list(zip(texts, RUNS, strict=True))
    return {
        place: "".join(named(filled(template(part), **text), run) for text, run in pairs)
        for place, part in parts.items()
    }


def named(markup: str, run: str) -> str:
    """The markup of a run with its name before the ids and in the links."""
    return OURS.sub(lambda it: f' id="{run}-' if "id" in it[0] else f' href="#{run}=', markup)


def style_of_two(style: str) -> str:
    """The style of a page for two runs: what it has for an id it has for that of either run."""
    return STYLED.sub(lambda it: f":is({', '.join(f'#{run}-{it[1]}' for run in RUNS)})", style)


def blocks(runs: tuple[Told, Told], alignment: Alignment, opening: Opening) -> dict[str, str]:
    """What the script draws of each run, by the places of the template."""
    found: dict[str, str] = {}
    shifts = (0, alignment.shift / NANOSECONDS_IN_A_MILLISECOND)
    for place, (run, name) in enumerate(zip(runs, RUNS, strict=True)):
        more = {
            "title": visible(run.wanted.name),
            "shift": shifts[place],
            "opens": opening.lines[place],
            "zooms": opening.of == place,
        }
        data, lines = run.packed(more)
        found |= {f"{name.upper()}_DATA": data, f"{name.upper()}_LINES": lines}
    return found


def opening_of(runs: tuple[Told, Told], parting: Parting | None) -> Opening:
    """Where two runs open: at the lines at which they part; the ends of a connection as each does
    by itself, and what is seen is about the first of these lines."""
    opens = runs[0].opens, runs[1].opens
    if parting is None or parting.are_alike:
        return Opening(opens, 0 if opens[0] else 1)
    first, second = parting.lines
    return Opening((first or opens[0], second or opens[1]), 0 if first else 1)
