"""The command qaudit-matrix."""

import argparse
import os
import re
import sys
from collections.abc import Iterable, Iterator
from pathlib import Path
from typing import NoReturn, TypeVar

from . import logs
from .ci import Listed, annotations, junit, sarif
from .command import Parser, add_shared, interrupted
from .converter import Asked, check
from .failure import Failure, Status, reason_of
from .files import as_text, write
from .history import Earlier, Night, history, runs_in
from .known import Known, Seen, compared, known_by, known_in
from .known import written as known_text
from .library import dygraphs
from .matrix import (
    ACCEPTED,
    FAILED,
    Before,
    Change,
    Job,
    Result,
    changes_of,
    changes_shown,
    pattern,
    place_of,
    recorded,
    table,
    told_before,
    unclear_note,
)
from .pool import Pool
from .program import find
from .rules import ANY, FAIL_ON, is_counted
from .search import Search
from .streams import ended, say
from .texts import count, plural

DESCRIPTION = """\
Audits many traces and logs, and writes an HTML table of their verdicts to standard output. In a
directory it finds each file, at any depth, that ends in .trace, .qlog, .sqlog, .netlog or
.netlog.json, and with .gz, .xz or .zst after that. A log beside its own trace (x.sqlog and x.trace)
is left out: the trace counts. Logs are converted by qlog-to-trace."""
ENDING = """\
The exit status is 0 if all are accepted, 1 if one is refused, 2 if one cannot be read, 3 if a file,
a directory, a page or a program failed, and 64 if the arguments are wrong. With --against it is 0
if nothing is refused that was not before, and 1 if something is, or by another rule. With --known
it is 0 if every violation is known, and 1 if one is new. With --fail-on must or should violations
of what the RFC says more weakly are shown, but do not make it 1."""
NAME = "qaudit-matrix"
WIDTH = 40
# Of what is passed over, and of pages that are not written, so many have a line.
MOST_SAID = 20
# How many processes may be started for each processor.
MOST_A_CORE = 4
# What this run is called among earlier ones, if it has no file.
THIS_RUN = "this run"
BAD_IN_NAMES = re.compile(r"[^A-Za-z0-9._-]+")
T = TypeVar("T")


def a_pattern(text: str) -> re.Pattern[str]:
    """A pattern of names."""
    try:
        return pattern(text)
    except ValueError as fault:
        raise argparse.ArgumentTypeError(str(fault)) from fault


def arguments() -> argparse.Namespace:
    """What the command is told."""
    parser = Parser(prog=NAME, description=DESCRIPTION, epilog=ENDING)
    text = (
        "how traces are named without .trace or .sqlog, such as CLIENT_SERVER_CASE: CASE makes the"
        " rows"
    )
    parser.add_argument("--pattern", type=a_pattern, metavar="PATTERN", help=text)
    text = "a directory for a page of each trace, with links from the table"
    parser.add_argument("--pages", type=Path, metavar="DIR", help=text)
    text = "also writes the verdicts as JSON, for a later --against"
    parser.add_argument("--json", type=Path, metavar="FILE", help=text)
    text = "what --json wrote in an earlier run: shows what is new and what is gone"
    parser.add_argument("--against", type=Path, metavar="OLD.json", help=text)
    text = "a directory of what --json wrote in earlier runs: shows how it went over these"
    parser.add_argument("--history", type=Path, metavar="DIR", help=text)
    text = "violations that are known, by case, stacks, rule and field: only new ones fail"
    parser.add_argument("--known", type=Path, metavar="FILE", help=text)
    text = "writes all violations of this run into the file of --known"
    parser.add_argument("--write-known", action="store_true", help=text)
    text = "which violations fail: of a MUST, of a MUST or a SHOULD, or any (default: any)"
    parser.add_argument("--fail-on", choices=FAIL_ON, default=ANY, help=text)
    text = "writes JUnit XML: a test case for each trace"
    parser.add_argument("--junit", type=Path, metavar="FILE", help=text)
    text = "writes SARIF 2.1.0: a result for each violation, at its line"
    parser.add_argument("--sarif", type=Path, metavar="FILE", help=text)
    text = "prints an annotation for each violation, as GitHub Actions shows it; needs --output"
    parser.add_argument("--annotate", action="store_true", help=text)
    text = "the file for the table (default: standard output)"
    parser.add_argument("--output", type=Path, metavar="FILE", help=text)
    text = f"how many traces at a time, at most {MOST_A_CORE} per core (default: one per core)"
    parser.add_argument("--jobs", type=int, default=cores(), metavar="N", help=text)
    add_shared(parser)
    text = "traces or logs, or directories of them"
    parser.add_argument("traces", type=Path, metavar="TRACE|LOG|DIRECTORY", nargs="+", help=text)
    given = parser.parse_args()
    if given.write_known and not given.known:
        parser.error("--write-known needs --known FILE")
    if given.annotate and not given.output:
        parser.error("--annotate needs --output FILE, since it prints on standard output")
    return given


def cores() -> int:
    """How many processors this process may use."""
    return len(os.sched_getaffinity(0))


def workers(wanted: int, traces: int) -> int:
    """How many processes are started if so many are wanted for so many traces."""
    return max(1, min(wanted, MOST_A_CORE * cores(), traces))


def is_whole(given: argparse.Namespace) -> bool:
    """Whether every violation is wanted, and not only the first of each trace."""
    is_for_ci = given.known or given.junit or given.sarif or given.annotate
    return bool(is_for_ci or given.fail_on != ANY)


class Free:
    """Names, each of which is given once. The first that wants one of those that are kept has it
    as it is."""

    def __init__(self, kept: Iterable[str]) -> None:
        self._kept, self._given = set(kept), set[str]()
        # With which number a name is tried next.
        self._next: dict[str, int] = {}

    def name(self, wanted: str, numbered: str) -> str:
        """The name that is wanted, or else that with a number."""
        found, number = wanted, self._next.get(wanted, 2)
        while found in self._given or (found in self._kept and found != wanted):
            found, number = numbered.format(wanted, number), number + 1
        self._next[wanted] = number
        self._given.add(found)
        return found


def jobs_of(given: argparse.Namespace, search: Search) -> list[Job]:
    """A job for each trace; no two have one key or one page."""
    # A name that a file has is never the key of another one that has to be told from its like.
    keys, pages = Free(name for _, name in search.found), Free([])
    jobs, named = [], set(given.traces)
    for trace, name in search.found:
        key, page = keys.name(name, "{} ({})"), None
        if given.pages:
            plain = BAD_IN_NAMES.sub("-", name).strip("-.")[:150] or "trace"
            page = given.pages / f"{pages.name(plain, '{}-{}')}.html"
        asked = Asked(given.converter, given.convert)
        is_found = trace not in named
        job = Job(trace, key, page, given.program, given.dygraphs, is_whole(given), asked, is_found)
        jobs.append(job)
    return jobs


def shown(results: Iterable[T], total: int) -> Iterator[T]:
    """The results as they come, and on a terminal a bar of how far they are."""
    is_shown = sys.stderr.isatty()
    try:
        for place, result in enumerate(results, 1):
            if is_shown:
                done = WIDTH * place // total
                bar = "#" * done + "." * (WIDTH - done)
                print(f"\r[{bar}] {place} of {total}", end="", file=sys.stderr, flush=True)
            yield result
    finally:
        if is_shown and total:
            print(file=sys.stderr)


def results_of(given: argparse.Namespace, search: Search) -> list[Result]:
    """What became of each trace."""
    find(given.program)
    check(Asked(given.converter, given.convert))
    if given.pages:
        dygraphs(given.dygraphs)
        try:
            given.pages.mkdir(parents=True, exist_ok=True)
        except OSError as fault:
            text = f"cannot make {as_text(given.pages)}: {reason_of(fault)}"
            raise Failure(text) from fault
    jobs = jobs_of(given, search)
    if not jobs:
        endings = ", ".join(logs.ENDINGS)
        raise Failure(f"there is no trace: no file in the directories ends in .trace, {endings}")
    pool = Pool(jobs, workers(given.jobs, len(jobs)))
    found = dict(shown(pool.results(), len(jobs)))
    return [found[place] for place in range(len(jobs))]


def is_failure(result: Result, fail_on: str) -> bool:
    """Whether a trace fails: it is not accepted, and a violation in it is strong enough."""
    if fail_on == ANY or result.kind != "refused":
        return result.kind != ACCEPTED
    return any(is_counted(it.requirement, fail_on) for it in result.violations)


def status_of(
    results: list[Result],
    changes: list[Change] | None,
    new: list[Seen] | None,
    fail_on: str,
) -> Status:
    """The worst of all verdicts that count, or whether anything that does is worse than before or
    not known."""
    failing = {it.key: it.kind for it in results if is_failure(it, fail_on)}
    if FAILED in failing.values():
        return Status.FAULT
    if changes is not None or new is not None:
        is_worse = any(it.is_worse and it.key in failing for it in changes or [])
        is_new = any(is_counted(it.violation.requirement, fail_on) for it in new or [])
        return Status.REFUSED if is_worse or is_new else Status.WRITTEN
    if "unreadable" in failing.values():
        return Status.UNSHOWN
    return Status.REFUSED if failing else Status.WRITTEN


def tell(changes: list[Change], before: Before) -> None:
    """A line on standard error for each trace that is worse than before, or newly accepted with
    allowances or without, and one if the run before does not say that."""
    for it in changes:
        if it.is_told:
            say(NAME, it.text)
    if before.unclear:
        say(NAME, unclear_note(before))


def say_some(lines: Iterable[str]) -> None:
    """Lines on standard error, of many the first ones."""
    told = list(lines)
    for line in told[:MOST_SAID]:
        say(NAME, line)
    if len(told) > MOST_SAID:
        say(NAME, f"and {count(len(told) - MOST_SAID)} more like the line before")


class Ci:
    """What the options for CI ask for."""

    def __init__(self, given: argparse.Namespace) -> None:
        self.given = given
        self.known: set[Known] | None = None
        if given.known and not given.write_known:
            self.known = known_in(given.known)

    def place(self, result: Result) -> tuple[str, str]:
        """The case and the stacks of a trace."""
        return place_of(result.key, self.given.pattern)

    def write(self, results: list[Result]) -> list[Seen] | None:
        """Writes all files, and says what is new or gone. Returns the new violations, or None if
        nothing says which are known."""
        given = self.given
        seen = [
            Seen(result.key, it, known_by(*self.place(result), it))
            for result in results
            for it in result.violations
        ]
        failed = sum(result.kind == FAILED for result in results)
        if given.write_known and failed:
            text = f"{plural(failed, 'trace')} failed, so {as_text(given.known)} is not written"
            raise Failure(text)
        if given.write_known:
            write(given.known, known_text(seen))
            self.known = {it.as_known for it in seen}
        listed = Listed(results, self.place, self.known, given.fail_on)
        if given.junit:
            write(given.junit, junit(listed))
        if given.sarif:
            write(given.sarif, sarif(listed))
        if given.annotate:
            write(None, annotations(listed))
        if self.known is None:
            return None
        found = compared(seen, map(self.place, results), self.known)
        for line in found.lines():
            say(NAME, line)
        return found.new


def searched(given: argparse.Namespace) -> Search:
    """What there is to audit, with a line on standard error for what is passed over."""
    search = Search(given.traces)
    say_some(search.passed_over)
    if search.note:
        say(NAME, search.note)
    return search


def main() -> Status:
    """Writes the table."""
    given = arguments()
    changes, since = None, ""
    try:
        before = told_before(given.against) if given.against else None
        earlier = runs_in(given.history, given.json) if given.history else Earlier([], [])
        say_some(earlier.passed_over)
        ci, search = Ci(given), searched(given)
        results = results_of(given, search)
        if before is not None:
            changes = changes_of(results, before)
            since = changes_shown(changes, before)
        beside = given.output.parent if given.output else Path()
        nights = ""
        if given.history:
            name = given.json.stem if given.json else THIS_RUN
            nights = history([*earlier.nights, Night(name, results)], given.pattern)
        write(given.output, table(results, given.pattern, beside, since, nights))
        if given.json:
            write(given.json, recorded(results, given.pattern))
        new = ci.write(results)
    except Failure as failure:
        say(NAME, str(failure))
        return failure.status
    if before is not None:
        tell(changes or [], before)
    lost = [it for it in results if it.is_page_lost]
    say_some(f"{it.file}: {it.fault}" for it in lost)
    if lost or not search.is_whole:
        return Status.FAULT
    return status_of(results, changes, new, given.fail_on)


def program() -> NoReturn:
    """Runs the command and ends."""
    try:
        status = ended(NAME, main)
    except KeyboardInterrupt:
        interrupted()
    sys.exit(status)  # type: ignore[arg-type]
