"""Runs copies of a program, each with allocations, reads or writes that fail or move few bytes."""

import argparse
import contextlib
import errno
import itertools
import os
import struct
import subprocess
import tempfile
from collections.abc import Callable, Iterator
from pathlib import Path
from types import TracebackType
from typing import NamedTuple, Self

from around import member_of, rows_behind
from constants import MAX_LINE_LENGTH
from objects import line_of, object_of
from processes import Outcome, Words, differences, joined, status_of
from runners import Parser, Result, Results, tell_of, thinned
from silent import warnings_of
from why import why

ALL = 2**62
# The traces that are tried at each place, which are those that `run` gives byte by byte.
MAX_TRACE = 4096
# Of a longer one less is tried, where a program is not asked to try all.
MAX_SHORT_TRACE = 256
# The name of it, where a program says why.
STANDARD_INPUT = "-"
# What a program here reads at once.
PIECE = 4096
ANSWER = struct.Struct("7l")


# Copies of a program.


class Trial(NamedTuple):
    """What happens to a copy. Its allocations, its reads, and its writes to standard output are
    counted from 1, and 0 stands for none of them; a greatest number of bytes of 0 is no limit."""

    refused_from: int = 0
    refused_to: int = 0
    max_read: int = 0
    # How many bytes of the input a read may bring up to, and only a later one may go on from.
    read_cut: int = 0
    failing_read: int = 0
    max_write: int = 0
    failing_write: int = 0
    # Of a read or a write that fails; where it is 0, that call moves no byte.
    error: int = errno.EIO


class Run(NamedTuple):
    """How a copy ended, how often it allocated and was refused it, read, and wrote to standard
    output, and how much processor time it took."""

    outcome: Outcome
    allocations: int
    refusals: int
    reads: int
    writes: int
    seconds: float


UNDISTURBED = Trial()
REQUEST = struct.Struct(f"{len(UNDISTURBED)}l")


class NotHeldError(Exception):
    """The library was not loaded before the program, or ended with it."""


class Held:
    """A program that is held where its own code begins, so that copies of it can be run at once."""

    def __init__(
        self, library: Path, command: list[str], data: bytes = b"", folder: Path | None = None
    ) -> None:
        self.files = [os.memfd_create(name) for name in ("input", "output", "error")]
        asked, self.requests = os.pipe()
        self.answers, answered = os.pipe()
        theirs = (asked, answered, *self.files)
        environment = {
            "LD_PRELOAD": str(library),
            # What is linked before the copies are made is not linked in each.
            "LD_BIND_NOW": "1",
            "TRIAL_DESCRIPTORS": " ".join(map(str, theirs)),
        }
        self.child = subprocess.Popen(
            command,
            stdin=subprocess.DEVNULL,
            stdout=subprocess.DEVNULL,
            cwd=folder,
            env=environment,
            pass_fds=theirs,
        )
        os.close(asked)
        os.close(answered)
        self.feed(data)

    def __enter__(self) -> Self:
        return self

    def __exit__(
        self,
        _kind: type[BaseException] | None,
        _error: BaseException | None,
        _trace: TracebackType | None,
    ) -> None:
        for descriptor in (self.requests, self.answers, *self.files):
            os.close(descriptor)
        self.child.wait()

    def feed(self, data: bytes) -> None:
        """Gives the later copies these bytes on standard input."""
        os.truncate(self.files[0], 0)
        written = 0
        while written < len(data):
            written += os.pwrite(self.files[0], data[written:], written)

    def run(self, trial: Trial = UNDISTURBED) -> Run:
        """Runs a copy."""
        with contextlib.suppress(BrokenPipeError):
            os.write(self.requests, REQUEST.pack(*trial))
        answer = os.read(self.answers, ANSWER.size)
        if len(answer) < ANSWER.size:
            raise NotHeldError("the program is not linked with the C library at run time")
        status, allocations, refusals, reads, writes, written, microseconds = ANSWER.unpack(answer)
        _input, output, error = self.files
        texts = os.pread(output, written, 0), os.pread(error, os.fstat(error).st_size, 0)
        outcome = Outcome(os.waitstatus_to_exitcode(status), *texts)
        return Run(outcome, allocations, refusals, reads, writes, microseconds / 1e6)


def compiled(folder: Path) -> Path:
    """The library that is loaded before a program: the one that TRIAL_LIBRARY names, or else one
    that is compiled into a folder."""
    if "TRIAL_LIBRARY" in os.environ:
        return Path(os.environ["TRIAL_LIBRARY"])
    library = folder / "trial.so"
    source = Path(__file__).resolve().parent / "trial.c"
    compiler = os.environ.get("CC", "cc")
    command: Words = [compiler, "-shared", "-fPIC", "-O", "-o", library, source, "-ldl"]
    subprocess.run(command, check=True)
    return library


# Auditors.


class Command(NamedTuple):
    """A command that is given a trace, what the report of that is, how it ends where nothing fails,
    and what it writes at once, which is the report where nothing else is said."""

    name: str
    arguments: list[str]
    data: bytes
    report: bytes
    whole: Outcome
    at_once: bytes | None = None

    def rows(self) -> list[bytes]:
        """The rows that stand before what is written at once."""
        last = self.report if self.at_once is None else self.at_once
        return self.whole.text().removesuffix(last).splitlines(keepends=True)


# Traces that a program that says why is also given with options: one with warnings, one with lines
# before its refusal, and one with a hint; and how many lines before are asked for.
WITH_OPTIONS = ("silent-keys", "loss-timer-early", "misspelled-key")
LINES_BEFORE = 2


class Auditor(NamedTuple):
    """A program that audits traces, the library that is loaded before it, and what it writes to
    standard error."""

    program: str
    library: Path
    subcommands: tuple[str, ...] = ("check", "explain")
    out_of_memory: bytes = b"qaudit: out of memory\n"
    read_fault: bytes = b"qaudit: read fault: standard input\n"
    write_fault: bytes = b"qaudit: write fault\n"
    # What it may write where there is no memory for its arguments.
    no_arguments: bytes = out_of_memory

    def explains(self) -> bool:
        """Whether it has subcommands, and so explains traces and takes files."""
        return "explain" in self.subcommands

    def held(self, arguments: list[str], data: bytes = b"", folder: Path | None = None) -> Held:
        """The program with these arguments, held."""
        return Held(self.library, [self.program, *arguments], data, folder)

    def commands(self, trace: Path) -> Iterator[Command]:
        """A trace of the corpus, given to each subcommand, or to a program that has none and says
        why. What `explain` writes is asked of the program where it lies nowhere."""
        data, report = trace.read_bytes(), trace.with_suffix(".report").read_bytes()
        if not self.subcommands:
            text = why(STANDARD_INPUT, data, report.decode())
            whole = Outcome(status_of(report), text, b"")
            yield Command(f"why {trace.stem}", [], data, report, whole, text)
            if trace.stem in WITH_OPTIONS:
                yield with_options(trace.stem, data, report)
                yield as_object(trace.stem, data, report)
        for word in self.subcommands:
            wanted = trace.with_suffix(".explain" if word == "explain" else ".report")
            text = wanted.read_bytes() if wanted.exists() else self.written([word], data)
            whole = Outcome(status_of(report), text, b"")
            yield Command(f"{word} {trace.stem}", [word], data, report, whole)

    def written(self, arguments: list[str], data: bytes) -> bytes:
        """What it writes where nothing fails."""
        with self.held(arguments, data) as held:
            return held.run().outcome.text()


def with_options(name: str, data: bytes, report: bytes) -> Command:
    """A trace that is told of with the lines before, and with its warnings on standard error."""
    rows = rows_behind(data, report.decode(), LINES_BEFORE)
    text = why(STANDARD_INPUT, data, report.decode()) + rows
    told = warnings_of(STANDARD_INPUT, data, report.decode())
    arguments = ["--warn", "--around", str(LINES_BEFORE)]
    whole = Outcome(status_of(report), text, told)
    return Command(f"why {name} {' '.join(arguments)}", arguments, data, report, whole, text)


def as_object(name: str, data: bytes, report: bytes) -> Command:
    """A trace that is told of as an object, with the lines before."""
    members = member_of(data, report.decode(), LINES_BEFORE)
    text = line_of(object_of(STANDARD_INPUT, data, report.decode()) | members)
    arguments = ["--json", "--around", str(LINES_BEFORE)]
    whole = Outcome(status_of(report), text, b"")
    return Command(f"why {name} {' '.join(arguments)}", arguments, data, report, whole, text)


def silent(program: str, library: Path) -> Auditor:
    """An auditor that takes no arguments and writes no messages."""
    return Auditor(program, library, ("check",), b"", b"", b"", b"")


def that_says_why(program: str, library: Path) -> Auditor:
    """A program that says why, of standard input."""
    messages = (
        f"qaudit-why: {fault}\n".encode()
        for fault in (
            f"out of memory: {STANDARD_INPUT}",
            f"read fault: {STANDARD_INPUT}",
            f"write fault: {STANDARD_INPUT}",
            "out of memory: arguments",
        )
    )
    return Auditor(program, library, (), *messages)


def reads_wanted(command: Command, at_once: int = PIECE) -> int:
    """How many reads of so many bytes a run makes: none after the verdict is fixed, and else up to
    the end."""
    fixed = fixed_at(command.data, command.report)
    return -(-len(command.data) // at_once) + 1 if fixed is None else -(-fixed // at_once)


def fixed_at(data: bytes, report: bytes) -> int | None:
    """After how many bytes of a trace its verdict is fixed; None where only the end fixes it."""
    first, *_totals = report.split(b"\n")
    words = first.split()
    if words[0] == b"accepted" or b"V17" in words:
        return None
    lines = data.split(b"\n")
    number = int(words[2])
    start = sum(len(line) + 1 for line in lines[: number - 1])
    if b"F8" in words:
        return start + MAX_LINE_LENGTH + 1
    return start + len(lines[number - 1]) + 1 if number < len(lines) else None


# Two files of one trace.

FILES = ("a", "b")


class TwoFiles(NamedTuple):
    """Two files of one trace, what `check` writes of each before its report, and the report."""

    data: bytes
    headings: list[bytes]
    report: bytes

    @property
    def whole(self) -> Outcome:
        """How `check` ends where nothing fails."""
        text = b"".join(heading + self.report for heading in self.headings)
        return Outcome(status_of(self.report), text, b"")


def two_files(trace: Path, folder: Path) -> TwoFiles:
    """Writes two files of a trace of the corpus into a folder."""
    data, report = trace.read_bytes(), trace.with_suffix(".report").read_bytes()
    for name in FILES:
        (folder / name).write_bytes(data)
    return TwoFiles(data, [b"file %s\n" % name.encode() for name in FILES], report)


# Trying.


class Setup(NamedTuple):
    """What is tried: an auditor, on traces of a folder, of which some may be named; a folder for
    its files; and how far the places are from each other that are tried."""

    auditor: Auditor
    traces: Path
    folder: Path
    names: list[str]
    every: int

    def trace(self, name: str) -> Path:
        """A trace by its name."""
        return self.traces / f"{name}.trace"


def short_traces(folder: Path) -> Iterator[Path]:
    """The traces of a folder that are tried at each place."""
    return (path for path in sorted(folder.glob("*.trace")) if path.stat().st_size <= MAX_TRACE)


def parser_of(
    text: str | None, *, may_be_silent: bool = False, is_sweep: bool = False, names: str = ""
) -> Parser:
    """The parser of a program that tries an auditor; `names` says what may be named behind the
    corpus, if anything may. A sweep tries many places, and can leave some out."""
    parser = Parser(text)
    parser.set_defaults(traces=False, reasons=False, names=[], every=1)
    group = parser.add_mutually_exclusive_group()
    if may_be_silent:
        about = "PROGRAM takes no arguments and writes no message, and is given traces alone"
        group.add_argument("--traces", action="store_true", help=about)
    if names:
        about = "PROGRAM has no subcommands and says why, as `reasons` has it"
        group.add_argument("--reasons", action="store_true", help=about)
    if is_sweep:
        parser.add_every()
    parser.add_program()
    parser.add_corpus()
    if names:
        parser.add_argument("names", metavar="NAME", nargs="*", help=names)
    return parser


def auditor_of(given: argparse.Namespace, library: Path) -> Auditor:
    """The program, of the kind that the arguments say that it is."""
    if given.reasons:
        return that_says_why(given.program, library)
    return silent(given.program, library) if given.traces else Auditor(given.program, library)


def try_all(given: argparse.Namespace, tries: Callable[[Setup], Results]) -> int:
    """Tries a program, as its arguments say, and returns the exit status."""

    def results() -> Results:
        with tempfile.TemporaryDirectory() as name:
            folder = Path(name)
            auditor, traces = auditor_of(given, compiled(folder)), given.corpus / "traces"
            setup = Setup(auditor, traces, folder, given.names, given.every)
            yield from held_tries(setup, tries)

    return tell_of([given.program], results)


def refused(allocations: int, every: int, name: str) -> Iterator[int]:
    """Which of so many allocations are refused, and then all that there should not be."""
    tried = thinned(range(1, allocations + 1), every, name)
    return itertools.chain(tried, itertools.count(allocations + 1))


def held_tries(setup: Setup, tries: Callable[[Setup], Results]) -> Results:
    """What these tries yield, up to where the program cannot be held."""
    try:
        yield from tries(setup)
    except NotHeldError as error:
        yield Result(setup.auditor.program, str(error))


def unlike(run: Run, wanted: Outcome, **counts: int) -> str:
    """How a run differs from what it must do, and from how often it must read or write."""
    had = run._asdict()
    others = (
        f"{had[name]} {name}, wanted {count}"
        for name, count in counts.items()
        if had[name] != count
    )
    failure = differences(run.outcome, wanted, is_memory_refused=run.refusals > 0)
    return joined([failure, *others])
