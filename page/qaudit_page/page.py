"""A page of a trace: one HTML file with its script, its style and its data."""

import json
from dataclasses import dataclass
from pathlib import Path

from .banner import MARKS, banner, kind_of, title_of
from .collector import without_collector
from .conversion import notes_of, said_of_log
from .converter import Asked
from .departures import section_of
from .facts import Facts, facts_of
from .failure import Failure
from .files import name_of
from .grounds import Basis, basis_of
from .held import held_after
from .library import dygraphs, licence, resource, script
from .logs import Taken, taken
from .payload import Part, json_of, packed, packed_of, part_of, payload, shown, text_of
from .places import place_of
from .program import (
    PAST,
    STRICT,
    Mode,
    Object,
    Run,
    UnknownOptionError,
    Verdict,
    find,
    verdict_by,
)
from .rows import rows_by
from .silences import section_of as silences_of
from .streams import Aside
from .template import filled, policy, template
from .texts import count, html, milliseconds, pairs, plural
from .timers import Silence, are_short, longest_silences
from .trace import Trace, trace_of

# Of the line of the verdict, as many characters stand above the diagrams.
MAX_QUOTE = 4_000
NO_EVENTS = b"hbu"


@dataclass(frozen=True)
class Wanted:
    """What a page is to show."""

    trace: Path | None
    program: Path | None = None
    dygraphs: Path | None = None
    title: str | None = None
    first: int | None = None
    last: int | None = None
    # How many processes read rows beside this one.
    readers: int = 2
    # How a log is converted.
    asked: Asked = Asked(is_shown=True)

    @property
    def name(self) -> str:
        """The title of the page."""
        return self.title or name_of(self.trace)

    def taken(self) -> Taken:
        """The trace, which is made of a log if the file is one."""
        return taken(self.trace, self.asked)


@dataclass(frozen=True)
class Made:
    """A page, with the verdict on its trace, what that rests on where it is accepted, and what is
    said of the conversion of the log."""

    text: str
    verdict: Verdict
    basis: Basis
    notes: list[str]
    # What the page is of.
    taken: Taken


def page_of(wanted: Wanted) -> Made:
    """The page of a trace, or of a log."""
    library, program, given = dygraphs(wanted.dygraphs), find(wanted.program), wanted.taken()
    told = told_of(program, wanted, given)
    return Made(written(told, library), told.verdict, told.basis, told.notes, given)


def told_of(program: str, wanted: Wanted, given: Taken) -> "Told":
    """What a page has to say of a trace, once a program has audited it."""
    verdict, trace = audited(program, given.data, wanted.readers)
    told = Told(wanted, trace, verdict, part_of(trace, verdict, wanted.first, wanted.last))
    told.of_log = given.lacks + given.told
    return told


def basis_by(trace: Trace, verdict: Verdict) -> Basis:
    """What a trace rests on that is accepted, or that is but for departures."""
    header = trace.state.line[0] if trace.header else 0
    return basis_of(verdict.end, trace.header, header, lambda most: are_short(trace, most))


def audited(program: str, data: bytes, readers: int) -> tuple[Verdict, Trace]:
    """What a program says of a trace: past departures, where it knows how to go on."""
    try:
        return audited_as(PAST, program, data, readers)
    except UnknownOptionError:
        return audited_as(STRICT, program, data, readers)


def audited_as(mode: Mode, program: str, data: bytes, readers: int) -> tuple[Verdict, Trace]:
    """What a program says of a trace that is asked in this way."""
    with Run(program, mode.verdict, data) as judging, Run(program, mode.rows, data) as telling:
        with without_collector():
            try:
                trace = trace_of(data, rows_by(telling, readers))
            except Failure:
                # What is wrong with the verdict, if anything, tells more.
                verdict_by(judging)
                raise
            verdict = verdict_by(judging)
            trace.read_rest(verdict.first_unjudged)
            return verdict, trace


class Told:
    """What a page has to say of a trace, before it is made."""

    def __init__(self, wanted: Wanted, trace: Trace, verdict: Verdict, part: Part) -> None:
        self.wanted, self.trace, self.verdict, self.part = wanted, trace, verdict, part
        self.lines = Aside(lambda: packed(text_of(trace, part)))
        self.basis = basis_by(trace, verdict)
        self.silences = longest_silences(trace, verdict.first_unjudged)
        self.silence = self.silences[0] if self.silences else None
        self.opens = opening_of(verdict, self.basis, self.silence, trace)
        self.held = held_after(trace)
        self.notes = notes_of(trace.lines, verdict)
        # What the converter says of the log, if the trace is not the file that was given.
        self.of_log: tuple[str, ...] = ()

    @property
    def title(self) -> str:
        """The verdict in a few words."""
        return title_of(self.verdict, self.basis)

    def texts(self) -> dict[str, str]:
        """What is seen without a script, by the places of the template."""
        trace, verdict, basis = self.trace, self.verdict, self.basis
        kind = kind_of(verdict, basis)
        return {
            "KIND": kind,
            "MARK": MARKS[kind],
            "BANNER": banner(verdict, basis, self.silence, trace.unit),
            "FACTS": pairs([*facts_of(verdict.said, trace.unit), *origin(trace, verdict)]),
            "CONVERTED": notes_shown(self.notes, self.of_log),
            "QUOTE": quote(trace, verdict),
            "DEPARTURES": section_of(verdict, basis, trace.unit),
            "SILENCES": silences_of(self.silences, trace, self.held),
            "OVERVIEW": pairs(overview(self.wanted, trace, verdict, self.part)),
            "OPTIONS": pairs(options(trace)),
        }

    def packed(self, more: Object) -> tuple[str, str]:
        """What the script draws, with what else it is to know, and the lines."""
        columns = payload(self.trace, self.verdict, self.part, self.held)
        return packed_of(json_of(columns | more)), self.lines.result()


def written(told: Told, library: str) -> str:
    """The whole page."""
    data, text = told.packed({"opens": told.opens})
    style, own, loader = resource("page.css"), script(), resource("script/load.js")
    return filled(
        template("page.html"),
        POLICY=policy([loader, library, own], [style]),
        TITLE=html(told.wanted.name),
        VERDICT_TEXT=html(told.title),
        STYLE=style,
        LICENCE=html_of_lines(licence()),
        DATA=data,
        LINES=text,
        LIBRARY=packed(library),
        SCRIPT=packed(own),
        LOADER=loader,
        **told.texts(),
    )


def opening_of(verdict: Verdict, basis: Basis, silence: Silence | None, trace: Trace) -> int:
    """The line about which a page opens; 0 for the whole run, where nothing is said against it.

    An accepted trace whose verdict rests on something opens about the end of its longest silence,
    if most of that was past its deadline, and else about the first line after the header on which
    the verdict rests.
    """
    if verdict.kind != "accepted":
        return verdict.line
    if not basis.is_amber:
        return 0
    header = trace.state.line[0] if trace.state.line else 0
    lines = [it.line for it in basis.grounds if it.line > header]
    if silence and (silence.over * 2 > silence.long or not lines):
        return silence.line
    return lines[0] if lines else 0


def html_of_lines(text: str) -> str:
    """A text of several lines as HTML."""
    return "\n".join(html(line) for line in text.splitlines())


def notes_shown(notes: list[str], of_log: tuple[str, ...]) -> str:
    """What has to be known of the conversion, and what else the converter says of a log, of which
    the first is seen at once."""
    shown = [f'<p class="note">{html(note)}</p>' for note in notes]
    first, *more = [it for it in map(said_of_log, of_log) if it not in notes] or [""]
    if more:
        rest = "".join(f"<p>{html(note)}</p>" for note in more)
        head = f"<summary>{html(first)} ({len(more)} more)</summary>"
        shown.append(f'<details class="note">{head}{rest}</details>')
    elif first:
        shown.append(f'<p class="note">{html(first)}</p>')
    return "".join(shown)


def origin(trace: Trace, verdict: Verdict) -> Facts:
    """Where in the log the line of the verdict comes from, if the trace says so."""
    if not 0 < verdict.line <= len(trace.lines):
        return []
    place = place_of(trace.lines[verdict.line - 1])
    return [("from", place.text)] if place else []


def quote(trace: Trace, verdict: Verdict) -> str:
    """The line of the verdict as it stands in the trace."""
    if not 0 < verdict.line <= len(trace.lines):
        return ""
    text = shown(trace.lines[verdict.line - 1])
    more = f" .. ({count(len(text))} characters)" if len(text) > MAX_QUOTE else ""
    line = f'<span class="number">{verdict.line}</span> {html(text[:MAX_QUOTE])}{more}'
    return f'<p class="quote" id="quote"><code>{line}</code></p>'


def overview(wanted: Wanted, trace: Trace, verdict: Verdict, part: Part) -> Facts:
    """What the trace is, in numbers."""
    drawn = [
        time for time, kind in zip(trace.time, trace.kind, strict=True) if kind not in NO_EVENTS
    ]
    packets = trace.packets
    judged = trace.state.line
    file = name_of(wanted.trace)
    told = [("file", file)] if file != wanted.name else []
    told.append(("lines", count(len(trace.lines))))
    if verdict.end.kind != "accepted" and judged:
        told.append(("judged", f"up to line {count(judged[-1])}"))
    span = max(drawn) - min(drawn) if drawn else 0
    told.append(("span", milliseconds(span, trace.unit)))
    acked, lost = sum(map(bool, packets.acked)), sum(map(bool, packets.lost))
    sent = plural(len(packets.line), "packet")
    told.append(("sent", f"{sent}, {count(acked)} acknowledged, {count(lost)} declared lost"))
    if (part.first, part.last) != (1, len(trace.lines)):
        told.append(("shown", f"lines {count(part.first)} to {count(part.last)}"))
    return told


def options(trace: Trace) -> Facts:
    """What the header says."""
    keys = [key for key in trace.header if key != "event"]
    return [(key, json.dumps(trace.header[key])) for key in keys]
