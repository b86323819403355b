"""A table of many traces: a row for each case, a column for each stack, and what is new."""

import json
import os
import re
from collections import Counter
from dataclasses import dataclass, field, replace
from pathlib import Path
from typing import Any
from urllib.parse import quote

from .banner import AMBER, MARKS
from .conversion import FIRST_LINES, notes_of, object_of
from .converter import Asked
from .failure import NO_RECORD, Failure, NoTraceError, Status, why
from .files import as_text, read, write
from .grounds import Basis, Ground, basis_of
from .library import resource
from .logs import Taken, taken
from .page import Wanted, audited, page_of
from .places import Place, places_of
from .program import Verdict, find, verdict_of, whole_verdict_of
from .rules import REQUIREMENTS, requirement_of
from .template import filled, policy
from .texts import count, html, plural
from .timers import are_short
from .violations import Violation, not_converted, violations_of

OTHER = "other"
FAILED = "failed"
ACCEPTED = "accepted"
UNREADABLE = "unreadable"
WITH_ALLOWANCES = "accepted with allowances"
NOTE_OF_ALLOWANCES = (
    f"<p>{WITH_ALLOWANCES.capitalize()}: the verdict rests on what the cell lists, such as rules"
    " that the header of the trace relaxes, or lines that were guessed. The page of a trace has the"
    " amounts and the lines.</p>"
)
KINDS = (ACCEPTED, WITH_ALLOWANCES, "refused", UNREADABLE, FAILED)
# The classes of verdicts in the style, if they are others than their words.
CLASSES = {WITH_ALLOWANCES: AMBER}
# The form of the file of verdicts that later ones are compared with.
VERSION = 1
RECORDED = (
    "key",
    "kind",
    "line",
    "rule",
    "name",
    "requirement",
    "fault",
    "page",
    "is_doubtful",
    "with_allowances",
    "rests_on",
    "place",
    "log_lacks",
    "log_notes",
)


@dataclass(frozen=True)
class Result:
    """What became of one trace. `key` names it, in this run and in others."""

    key: str
    kind: str
    # The line, the rule and its name; what failed, where that is why there is no verdict.
    line: int = 0
    rule: str = ""
    name: str = ""
    fault: str = ""
    # How strong the RFC is at that rule; empty where there is none.
    requirement: str = ""
    # Where its page lies.
    page: str = ""
    # Whether a page of it was asked for, and could not be made or written.
    is_page_lost: bool = False
    # Whether it is refused, and the conversion of its log may be the cause.
    is_doubtful: bool = False
    # The path of the trace, as the system has it, and every violation in it, if they were asked
    # for.
    trace: str = ""
    violations: tuple[Violation, ...] = ()
    # What an accepted verdict rests on, and whether that is more than RFC 9002 leaves to a sender.
    grounds: tuple[Ground, ...] = ()
    with_allowances: bool = False
    # Whether the file is a log, what of it is not in its trace, what else the converter says, and
    # where in it the lines are from that are named here.
    is_log: bool = False
    log_lacks: tuple[str, ...] = ()
    log_notes: tuple[str, ...] = ()
    places: dict[int, Place] = field(default_factory=dict)

    @property
    def file(self) -> str:
        """The path of the trace as text."""
        return as_text(Path(self.trace))

    @property
    def place(self) -> str:
        """Where in the log the line of the verdict is from, in words; empty if nothing says it."""
        place = self.places.get(self.line)
        return place.text if place else ""

    @property
    def rests_on(self) -> list[str]:
        """What the verdict rests on, by the short names."""
        return Basis(self.grounds).names

    @property
    def word(self) -> str:
        """The verdict in a word, by which results are counted."""
        return WITH_ALLOWANCES if self.with_allowances else self.kind

    @property
    def told(self) -> str:
        """The verdict without the line, which moves as a trace grows."""
        return " ".join(filter(None, (self.word, self.rule, self.name)))


@dataclass(frozen=True)
class Job:
    """A trace, its key, and what is to be done with it."""

    trace: Path
    key: str
    page: Path | None = None
    program: Path | None = None
    dygraphs: Path | None = None
    # Whether every violation is wanted, and not only the first.
    is_whole: bool = False
    # How a log is converted.
    asked: Asked = Asked()
    # Whether it was found in a directory, where a pipe is not waited for.
    is_found: bool = False


def judged(job: Job) -> Result:
    """Audits a trace, and writes its page where one is asked for."""
    try:
        if job.is_found:
            check_is_file(job.trace, "open")
        found = looked_at(job) if job.page is None else shown_on(job, job.page)
        violations = violations_of(found.verdict) if job.is_whole else ()
    except NoTraceError as failure:
        return unconverted(job, failure)
    except Exception as fault:
        # It costs this trace, and not the others.
        return unshown(job, fault)
    verdict, basis = found.verdict, found.basis
    is_accepted = verdict.kind == ACCEPTED
    grounds = basis.grounds if is_accepted else ()
    lines = [verdict.line, *(it.line for it in violations), *(it.line for it in grounds)]
    return Result(
        job.key,
        verdict.kind,
        verdict.line,
        verdict.rule,
        verdict.name,
        requirement=requirement_of(verdict.said),
        page=str(job.page or ""),
        is_doubtful=verdict.kind == "refused" and bool(found.notes),
        trace=str(job.trace),
        violations=violations,
        grounds=grounds,
        with_allowances=is_accepted and basis.is_amber,
        is_log=found.taken.is_log,
        log_lacks=found.taken.lacks,
        log_notes=found.taken.told,
        places=places_of(found.taken.data, lines),
    )


def check_is_file(path: Path, verb: str) -> None:
    """Failure if a path is one of something that is no file, as it may have become meanwhile."""
    if path.exists() and not path.is_file():
        raise Failure(f"cannot {verb} {as_text(path)}: it is no regular file")


@dataclass(frozen=True)
class Found:
    """What a trace comes to: the verdict, what it rests on, and what is said of the conversion."""

    verdict: Verdict
    basis: Basis
    notes: list[str]
    # What was audited.
    taken: Taken


def looked_at(job: Job) -> Found:
    """What a trace comes to of which no page is wanted."""
    program, given = find(job.program), taken(job.trace, job.asked)
    data = given.data
    verdict = (whole_verdict_of if job.is_whole else verdict_of)(program, data)
    lines = data.split(b"\n", FIRST_LINES)
    at = next((place for place, line in enumerate(lines, 1) if line.strip()), 0)
    header = object_of(lines[at - 1])

    def short(most: int) -> bool:
        # The rows cost more than the verdict, and few verdicts hang on them.
        return are_short(audited(program, data, readers=0)[1], most)

    return Found(verdict, basis_of(verdict, header, at, short), notes_of(lines, verdict), given)


def shown_on(job: Job, page: Path) -> Found:
    """What a trace comes to whose page is written."""
    check_is_file(page, "write")
    # Other traces have the other processors.
    asked = job.asked._replace(is_shown=True)
    wanted = Wanted(job.trace, job.program, job.dygraphs, job.key, readers=0, asked=asked)
    made = page_of(wanted)
    write(page, made.text)
    return Found(made.verdict, made.basis, made.notes, made.taken)


def unshown(job: Job, fault: Exception) -> Result:
    """What became of a trace that has no page: its verdict, where there is one."""
    if job.page is None:
        return Result(job.key, FAILED, fault=why(fault), trace=str(job.trace))
    found = judged(replace(job, page=None))
    if found.fault:
        return found
    # One that is more than a page takes has none; else something failed.
    is_lost = not isinstance(fault, Failure) or fault.status == Status.FAULT
    return replace(found, fault=f"no page: {why(fault)}", is_page_lost=is_lost)


def unconverted(job: Job, failure: NoTraceError) -> Result:
    """What became of a log that gives no trace, as the converter says it."""
    violation = not_converted(failure.reason)
    return Result(
        job.key,
        UNREADABLE,
        rule=violation.rule,
        name=violation.name,
        fault=failure.reason,
        trace=str(job.trace),
        violations=(violation,) if job.is_whole else (),
        is_log=True,
    )


# Where each trace stands in the table.


def pattern(text: str) -> re.Pattern[str]:
    """A pattern such as CLIENT_SERVER_CASE or SERVER_CLIENT/CASE: a word in capitals is any text
    without a slash, and all else stands for itself. ValueError where it has no CASE, or one twice.
    """
    parts = re.split(r"([A-Z]+)", text)
    names = [part.lower() for part in parts[1::2]]
    if "case" not in names or len(set(names)) < len(names):
        raise ValueError("a pattern has CASE in it, and each word in capitals once")
    made = "".join(
        f"(?P<{part.lower()}>[^/]+?)" if place % 2 else re.escape(part)
        for place, part in enumerate(parts)
    )
    return re.compile(rf"(?:.*/)?{made}(?:/.*)?")


def place_of(key: str, named: re.Pattern[str] | None) -> tuple[str, str]:
    """The row and the column of a trace: its case, and its stacks."""
    match = named.fullmatch(key) if named else None
    if match is None:
        return key, OTHER
    parts = match.groupdict()
    case = parts.pop("case")
    return case, " \u2192 ".join(parts.values()) or OTHER


# What is new.


@dataclass(frozen=True)
class Before:
    """The verdicts of an earlier run by the keys of the traces, and the keys of those accepted of
    which it does not say whether with allowances."""

    told: dict[str, str]
    unclear: frozenset[str] = frozenset()


@dataclass(frozen=True)
class Change:
    """A trace whose verdict is another than before; an empty text stands for no trace."""

    key: str
    before: str
    now: str

    @property
    def is_worse(self) -> bool:
        """Whether something is refused that was not, or by another rule."""
        return bool(self.now) and not self.now.startswith(ACCEPTED)

    @property
    def is_allowed(self) -> bool:
        """Whether it is now accepted with allowances, and was not."""
        return self.now == WITH_ALLOWANCES

    @property
    def is_told(self) -> bool:
        """Whether a person has to hear of it: it is worse, or is accepted with allowances where it
        was not, or without them where it was."""
        is_strict = self.now == ACCEPTED and self.before == WITH_ALLOWANCES
        return self.is_worse or self.is_allowed or is_strict

    @property
    def text(self) -> str:
        """In words."""
        return f"{self.key}: {self.now}, before {self.before or 'not there'}"


def changes_of(results: list[Result], before: Before) -> list[Change]:
    """The traces whose verdict is another than before, the worse ones first, and then those newly
    accepted with allowances."""
    now = {it.key: now_of(it, before) for it in results}
    changes = [
        Change(key, before.told.get(key, ""), now.get(key, ""))
        for key in sorted(before.told.keys() | now.keys())
        if before.told.get(key, "") != now.get(key, "")
    ]
    return sorted(changes, key=lambda it: (not it.is_worse, not it.is_allowed))


def now_of(result: Result, before: Before) -> str:
    """A verdict as it is compared with the one before."""
    is_unclear = result.kind == ACCEPTED and result.key in before.unclear
    return ACCEPTED if is_unclear else result.told


def recorded(results: list[Result], named: re.Pattern[str] | None) -> str:
    """The results as JSON."""
    listed = []
    for result in results:
        case, stacks = place_of(result.key, named)
        told = {name: getattr(result, name) for name in RECORDED}
        listed.append({**told, "case": case, "stacks": stacks})
    return json.dumps({"version": VERSION, "traces": listed}, indent=1) + "\n"


def told_before(path: Path) -> Before:
    """The verdicts of a run before."""
    results, lacking = results_in(path)
    unclear = lacking & {it.key for it in results if it.kind == ACCEPTED}
    told: dict[str, set[str]] = {}
    for it in results:
        told.setdefault(it.key, set()).add(it.told)
    # A key that an older version gave to two traces says nothing of either.
    once = {key: next(iter(said)) for key, said in told.items() if len(said) == 1}
    return Before(once, frozenset(unclear))


def results_in(path: Path) -> tuple[list[Result], set[str]]:
    """The results of a run before, and the keys of those that do not say whether a trace was
    accepted with allowances."""
    try:
        said: Any = json.loads(read(path))
        if said["version"] != VERSION:
            raise ValueError("another version")
        results = [result_of(it) for it in said["traces"]]
        return results, {it["key"] for it in said["traces"] if "with_allowances" not in it}
    except NO_RECORD as fault:
        text = f"{as_text(path)} is not what qaudit-matrix --json writes: {fault}"
        raise Failure(text) from fault


def result_of(said: Any) -> Result:
    """A result as it was recorded."""
    key, kind, rule, name = (str(said[it]) for it in ("key", "kind", "rule", "name"))
    return Result(key, kind, int(said["line"]), rule, name, with_allowances=is_allowed(said))


def is_allowed(said: Any) -> bool:
    """Whether a trace was accepted with allowances, where a record says so."""
    return bool(said.get("with_allowances", False))


# The table.


def table(
    results: list[Result],
    named: re.Pattern[str] | None,
    beside: Path,
    since: str,
    nights: str = "",
) -> str:
    """The page with the table, which will lie in a folder, with what is new, and how it went over
    several runs."""
    style = resource("matrix.css")
    total = Counter(result.word for result in results)
    return filled(
        resource("matrix.html"),
        POLICY=policy([], [style]),
        STYLE=style,
        TITLE=plural(len(results), "trace"),
        SUM=counted(total),
        NOTE=NOTE_OF_ALLOWANCES if total[WITH_ALLOWANCES] else "",
        CHANGES=since,
        TABLE=cells(results, named, beside),
        RULES=rules(results),
        NIGHTS=nights,
    )


def counted(by_kind: Counter[str]) -> str:
    """How many came to which verdict, each in its colour."""
    return ", ".join(
        f'<b class="{CLASSES.get(kind, kind)}">{count(by_kind[kind])} {kind}</b>'
        for kind in KINDS
        if by_kind[kind]
    )


def changes_shown(changes: list[Change], before: Before) -> str:
    """What is new and what is gone since the run before."""
    note = f"<p>{html(unclear_note(before))}</p>" if before.unclear else ""
    title = f"<h2>Since the run before</h2>{note}"
    if not changes:
        return f"{title}<p>No verdict is another.</p>"
    head = "<thead><tr><th>trace</th><th>before</th><th>now</th></tr></thead>"
    rows = "".join(
        f'<tr class="{class_of(it)}"><th>{html(it.key)}</th>'
        f"<td>{html(it.before) or 'not there'}</td><td>{html(it.now) or 'not there'}</td></tr>"
        for it in changes
    )
    worse, allowed = sum(it.is_worse for it in changes), sum(it.is_allowed for it in changes)
    told = [f"{plural(worse, 'trace')} newly refused or by another rule"]
    told += [f"{count(allowed)} newly {WITH_ALLOWANCES}"] if allowed else []
    told += [f"{len(changes) - worse - allowed} other"]
    return f'{title}<p>{", ".join(told)}</p><table class="changes">{head}{rows}</table>'


def class_of(change: Change) -> str:
    """The class of a change, by which it has a colour."""
    return "worse" if change.is_worse else "allowed" if change.is_allowed else "better"


def unclear_note(before: Before) -> str:
    """What to say of a record that does not have which traces were accepted with allowances."""
    traces = plural(len(before.unclear), "accepted trace")
    return f"The earlier results do not list allowances of {traces}; these are not compared."


def cells(results: list[Result], named: re.Pattern[str] | None, beside: Path) -> str:
    """The table of cases by stacks."""
    by_place: dict[tuple[str, str], list[Result]] = {}
    for result in results:
        by_place.setdefault(place_of(result.key, named), []).append(result)
    cases = sorted({case for case, _ in by_place})
    columns = sorted({stacks for _, stacks in by_place})
    head = "".join(f'<th scope="col">{html(stacks)}</th>' for stacks in columns)
    rows = [f'<thead><tr><th></th>{head}<th scope="col">all</th></tr></thead><tbody>']
    for case in cases:
        shown = [by_place.get((case, stacks), []) for stacks in columns]
        told = "".join(f"<td>{''.join(cell(it, beside) for it in here)}</td>" for here in shown)
        kinds = Counter(it.word for here in shown for it in here)
        rows.append(f'<tr><th scope="row">{html(case)}</th>{told}<td>{counted(kinds)}</td></tr>')
    sums = [
        Counter(it.word for (_, at), here in by_place.items() if at == stacks for it in here)
        for stacks in columns
    ]
    foot = "".join(f"<td>{counted(it)}</td>" for it in sums)
    rows.append(f'</tbody><tfoot><tr><th scope="row">all</th>{foot}<td></td></tr></tfoot>')
    return "".join(rows)


def cell(result: Result, beside: Path) -> str:
    """A trace in the table: a sign, a word, the first rule and its line, and a link to its page, at
    that line."""
    kind = CLASSES.get(result.word, result.kind)
    told = f"{MARKS.get(kind, '!')} {result.word}"
    if result.with_allowances:
        told += f"<small>{html(', '.join(result.rests_on))}</small>"
    if result.rule:
        told += f"<small>{html(result.rule)} {html(result.name)}{html(where(result))}</small>"
    told += "".join(f"<small>{html(it)}</small>" for it in result.log_lacks)
    if result.is_doubtful:
        told += "<small>its log may be misread</small>"
    if result.fault:
        told += f"<small>{html(result.fault[:200])}</small>"
    title = "&#10;".join(map(html, (result.key, *result.log_notes)))
    about = f'class="{kind}" title="{title}"'
    if not result.page:
        return f"<span {about}>{told}</span>"
    link = quote(os.path.relpath(os.fsencode(result.page), os.fsencode(beside)))
    at = f"#line={result.line}" if result.line else ""
    return f'<a {about} href="{html(link)}{at}">{told}</a>'


def where(result: Result) -> str:
    """The line of a verdict, and where in the log that is from."""
    if not result.line:
        return ""
    return f", line {count(result.line)}" + (f" ({result.place})" if result.place else "")


def rules(results: list[Result]) -> str:
    """How many traces break each rule first, and how strong the RFC is there, or have each fault;
    and how many there are of each strength."""
    by_rule = Counter((f"{it.rule} {it.name}", it.requirement) for it in results if it.rule)
    ordered = sorted(by_rule.items(), key=lambda it: (-it[1], it[0]))
    rows = [
        f'<tr><th scope="row">{html(rule)}</th><td>{html(requirement)}</td><td>{number}</td></tr>'
        for (rule, requirement), number in ordered
    ]
    by_level = Counter(it.requirement for it in results)
    rows += [
        f'<tr><th scope="row">all</th><td>{it}</td><td>{by_level[it]}</td></tr>'
        for it in REQUIREMENTS
        if by_level[it]
    ]
    return "".join(rows)
