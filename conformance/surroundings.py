"""Faults of the machine around the programs: streams, files and limits that a program finds.

Each case is a command of a shell in a folder with a good input. The status, standard error and what
it writes must be as wanted, within limits of memory, processes and time.
"""

import contextlib
import errno
import os
import shlex
import signal
import subprocess
import sys
import time
from collections.abc import Iterator
from pathlib import Path
from typing import NamedTuple

from processes import Outcome, Words, joined, shown
from runners import FOLDER, Result, Results

TOP = FOLDER.parent
TRACE = FOLDER / "traces" / "window-full.trace"
LOG = FOLDER / "real" / "traces" / "ngtcp2-past-window.qlog"
NETLOG = FOLDER / "real" / "traces" / "chromium-156-loss.netlog"
TRACE_NAME, LOG_NAME, NETLOG_NAME = "a.trace", "a.qlog", "a.netlog"
# By the name of an input, one of its kind that takes more memory than there is, and what it is.
LARGE = {
    LOG_NAME: ("large.qlog", '{{"title":[{}],"traces":[]}}'),
    NETLOG_NAME: ("large.netlog", '{{"constants":[{}],"events":[]}}'),
}
SECONDS = 60
# Of memory, in the units of `ulimit -v`, and of processes.
KILOBYTES, PROCESSES = 3_000_000, 4_000
# Twenty megabytes, and ten, in which Python does not start.
LITTLE, TOO_LITTLE_FOR_PYTHON = 20_480, 10_240
LITTLE_OF_PYTHON = 150_000
GIBIBYTE = 1 << 30
OPEN_FILES, MOST_OPEN = 1_000, 1_100
MANY_FILES, FEW_OPEN = 1_000, 64
# Of a program that is not in Python, which takes them in a second.
VERY_MANY_FILES = 20_000
# How often a program is stopped and goes on while it reads.
STOPS = 20
NO_LOG = "byte 0: neither JSON-SEQ nor a JSON text a line nor one JSON object"
NO_NETLOG = "no netlog of Chromium"
# Programs that say nothing if nobody reads on.
SILENT = ("qlog-to-trace", "netlog-to-qlog")
TOO_LONG = "more than 1,073,741,824 bytes, the limit for a stream: name a file instead"
TOO_LARGE = "has more than 268,435,456 bytes: cut it into parts"


class Program(NamedTuple):
    """A program, the name of its input, and what it says: where standard output fails, by the
    reason, of a missing file, and of zeros without an end, with the status of that."""

    name: str
    command: Words
    input: str
    unwritten: str
    unread: str
    zeros: tuple[int, str]
    # Whether it reads standard input, and takes several files.
    reads_input: bool = True
    takes_several: bool = False
    is_python: bool = True
    # What it says of a file of zeros, if that is not what it says of zeros without an end.
    sparse: tuple[int, str] | None = None
    # What it writes before the text of one of several files, and behind those of so many good ones.
    before_each: str = ""
    behind_all: str = ""

    @property
    def label(self) -> str:
        """What its cases are called: the converter is there twice."""
        is_native = self.name == "qlog-to-trace" and not self.is_python
        return f"native-{self.name}" if is_native else self.name

    def reason(self, number: int) -> str:
        """How it says why a write failed, by the number of the error."""
        text = os.strerror(number)
        return text.lower() if self.is_python else f"{text} (os error {number})"

    def says(self, text: str) -> bytes:
        """A line on standard error."""
        return f"{self.name}: {text}\n".encode() if text else b""

    def of_files(self, usual: bytes, count: int) -> bytes:
        """What it writes of so many files, if it writes this of one alone."""
        return (self.before_each.encode() + usual) * count + self.behind_all.format(count).encode()


class Case(NamedTuple):
    """What follows the program's name in a shell, and how that must end; None is not compared, but
    that a status of None is any but 0. Last, how much memory there is, and what the shell does
    before."""

    name: str
    words: str
    status: int | None
    error: bytes | None = b""
    output: bytes | None = None
    kilobytes: int = KILOBYTES
    before: str = ""


# How standard output fails: what the shell does before, and with the program, and the error.
REASONS = {
    "full-disk": ("", "> /dev/full", errno.ENOSPC),
    "no-output": ("", ">&-", errno.EBADF),
    "closed-pipe": ("exec 9> >(exec true); wait $!", ">&9", errno.EPIPE),
}


class Built(NamedTuple):
    """The programs in Rattle."""

    qaudit: str
    why: str
    converter: str


def programs(built: Built, folder: Path) -> list[Program]:
    """All of them, over copies of a trace and of logs that are put into the folder."""
    for source, name in ((TRACE, TRACE_NAME), (LOG, LOG_NAME), (NETLOG, NETLOG_NAME)):
        (folder / name).write_bytes(source.read_bytes())
    (folder / "dygraphs.js").write_text('x.VERSION = "2.2.1"\n')
    python, page, unwritten = sys.executable, TOP / "page", "cannot write standard output: {}"
    options = ["--program", built.why, "--dygraphs", str(folder / "dygraphs.js")]
    missing = "cannot open none: no such file"
    return [
        *natives(built, unwritten, missing),
        Program(
            *("qaudit-page", [python, str(page / "qaudit-page"), *options], TRACE_NAME),
            *(unwritten, missing, (2, f"/dev/zero {TOO_LARGE}")),
        ),
        Program(
            *("qaudit-matrix", [python, str(page / "qaudit-matrix"), *options], TRACE_NAME),
            *(unwritten, "", (3, "")),
            reads_input=False,
            takes_several=True,
        ),
        Program(
            *("qlog-to-trace", [python, str(FOLDER / "qlog" / "qlog-to-trace")], LOG_NAME),
            *(unwritten, missing, (2, f"/dev/zero: {NO_LOG}")),
        ),
        Program(
            *("netlog-to-qlog", [python, str(TOP / "netlog" / "netlog-to-qlog")], NETLOG_NAME),
            *(unwritten, missing, (2, f"/dev/zero: {NO_NETLOG}")),
        ),
    ]


def natives(built: Built, unwritten: str, missing: str) -> list[Program]:
    """Those in Rattle."""
    none, fault = "cannot open none", f"write fault: {TRACE_NAME}"
    return [
        Program(
            *("qaudit", [built.qaudit, "check"], TRACE_NAME, "write fault", none, (2, "")),
            takes_several=True,
            is_python=False,
            before_each=f"file {TRACE_NAME}\n",
        ),
        Program(
            *("qaudit-why", [built.why], TRACE_NAME, fault, none, (2, "")),
            takes_several=True,
            is_python=False,
            behind_all="{0} traces: {0} accepted, 0 refused, 0 unreadable\n",
        ),
        Program(
            *("qlog-to-trace", [built.converter], LOG_NAME, unwritten, missing),
            (3, f"/dev/zero: {TOO_LONG}"),
            is_python=False,
            sparse=(2, "/dev/zero: byte 0: no JSON object with a list of traces"),
        ),
    ]


class Tries(NamedTuple):
    """A program that is tried in a folder, and what it writes for a good input."""

    program: Program
    folder: Path
    usual: bytes

    def cases(self) -> Iterator[Case]:
        """All faults that a shell can make."""
        yield from self.of_output()
        yield from self.of_errors()
        yield from self.of_files()
        yield from self.of_limits()

    def of_output(self) -> Iterator[Case]:
        """Standard output fails."""
        for name, (before, to, number) in REASONS.items():
            is_silent = self.program.name in SILENT and name == "closed-pipe"
            reason = self.program.reason(number)
            says = self.program.says("" if is_silent else self.program.unwritten.format(reason))
            yield Case(name, f"{self.program.input} {to}", 3, says, before=before)

    def of_errors(self) -> Iterator[Case]:
        """Standard error fails: the status is what it is else."""
        missing, unread = "none", self.program.says(self.program.unread)
        yield Case("missing-file", missing, 3, unread)
        for name, to in (("no-errors", "2>&-"), ("full-errors", "2> /dev/full")):
            yield Case(name, f"{self.program.input} {to}", 0, b"", self.usual)
            yield Case(f"{name}-and-a-missing-file", f"{missing} {to}", 3)
            yield Case(f"{name}-and-a-full-disk", f"{self.program.input} > /dev/full {to}", 3)
            yield Case(f"{name}-and-wrong-arguments", f"--none {to}", os.EX_USAGE)

    def of_files(self) -> Iterator[Case]:
        """Files that are none."""
        for name, path in (("zeros-without-end", "/dev/zero"), ("sparse-file", "sparse")):
            is_file = path != "/dev/zero"
            status, says = (self.program.sparse if is_file else None) or self.program.zeros
            yield Case(name, path, status, self.program.says(says.replace("/dev/zero", path)))
            if self.program.takes_several and not self.program.is_python:
                yield Case(f"{name}-among-several", f"{self.program.input} {path}", status)
        make = f"rm -f fifo; mkfifo fifo; {{ cat {self.program.input} > fifo & }}"
        yield Case("fifo", "fifo", 0, b"", before=make)
        if self.program.reads_input:
            yield Case("fifo-as-input", f"< <(cat {self.program.input})", 0, b"")

    def of_limits(self) -> Iterator[Case]:
        """Many open files, and little memory."""
        usual, given = self.usual, self.program.input
        numbers = f"n = 10; n < {OPEN_FILES + 10}; n++"
        opened = f'for (({numbers})); do eval "exec $n< /dev/null"; done'
        limit = f"ulimit -n {MOST_OPEN}; {opened}"
        yield Case("many-open-files", given, 0, b"", usual, before=limit)
        if self.program.takes_several:
            is_python = self.program.is_python
            count = MANY_FILES if is_python else VERY_MANY_FILES
            written = None if is_python else self.program.of_files(usual, count)
            # A word of a command has no more than 128 KiB, which the names have together.
            names = f"$(printf '{given} %.0s' {{1..{count}}})"
            yield Case("many-files", names, 0, b"", written, before=f"ulimit -n {FEW_OPEN}")
        if self.program.is_python:
            # Python itself does not start, and says so in its own words.
            yield Case("little-memory", given, None, None, b"", TOO_LITTLE_FOR_PYTHON)
            yield self.of_large_file()
        else:
            yield Case("little-memory", given, 0, b"", usual, LITTLE)

    def of_large_file(self) -> Case:
        """A program in Python has too little memory for a file. What makes a table of many has
        one: such a file costs itself, and not the table."""
        given = self.program.input
        large, _ = LARGE.get(given, ("large", ""))
        if self.program.takes_several:
            return Case("out-of-memory", large, 3, b"", None, LITTLE_OF_PYTHON)
        named = f"{large}: " if given in LARGE else ""
        says = self.program.says(f"{named}out of memory")
        return Case("out-of-memory", large, 3, says, b"", LITTLE_OF_PYTHON)

    def failure_of(self, case: Case) -> str:
        """How a command differs."""
        command = shlex.join(map(str, self.program.command))
        limits = f"ulimit -v {case.kilobytes} -u {PROCESSES} -f {GIBIBYTE >> 10}"
        text = "; ".join(filter(None, [case.before, limits, f"exec {command} {case.words}"]))
        return differences(run(["bash", "-c", text], self.folder), case)

    def stopped(self) -> str:
        """How a run differs that is stopped again and again while its input comes, by a FIFO of
        the name of the input."""
        folder = self.folder / "pipes"
        folder.mkdir(exist_ok=True)
        fifo = folder / self.program.input
        fifo.unlink(missing_ok=True)
        os.mkfifo(fifo)
        process = started([*self.program.command, fifo.name], folder)
        data = (self.folder / self.program.input).read_bytes()
        size = -(-len(data) // STOPS)
        with os.fdopen(opened_by(process, fifo), "wb", buffering=0) as pipe:
            for at in range(0, len(data), size):
                process.send_signal(signal.SIGSTOP)
                process.send_signal(signal.SIGWINCH)
                with contextlib.suppress(BrokenPipeError):
                    pipe.write(data[at : at + size])
                process.send_signal(signal.SIGCONT)
                time.sleep(0.01)
        return differences(outcome_of(process), Case("", "", 0, b"", self.usual))


def opened_by(process: subprocess.Popen[bytes], fifo: Path) -> int:
    """The end of a FIFO that is written to, once the program reads the other."""
    while True:
        try:
            place = os.open(fifo, os.O_WRONLY | os.O_NONBLOCK)
        except OSError as error:
            if error.errno != errno.ENXIO:
                raise
            if process.poll() is not None:
                return os.open(os.devnull, os.O_WRONLY)
            time.sleep(0.01)
        else:
            os.set_blocking(place, True)
            return place


def differences(outcome: Outcome, case: Case) -> str:
    """How an outcome differs from what is wanted."""
    if outcome.status is None:
        return "killed, for it took too long"
    found = []
    if outcome.status == 0 if case.status is None else outcome.status != case.status:
        wanted = "not 0" if case.status is None else case.status
        found.append(f"status {outcome.status}, wanted {wanted}")
    for what, had, want in (
        ("standard error", outcome.error, case.error),
        ("standard output", outcome.output, case.output),
    ):
        if want is not None and had != want:
            found.append(f"{what} {shown(had)}, wanted {shown(want)}")
    return joined(found)


def started(command: Words, folder: Path) -> subprocess.Popen[bytes]:
    """A program that has nothing on standard input, with a group of its own."""
    return subprocess.Popen(
        command,
        cwd=folder,
        stdin=subprocess.DEVNULL,
        stdout=subprocess.PIPE,
        stderr=subprocess.PIPE,
        start_new_session=True,
    )


def outcome_of(process: subprocess.Popen[bytes]) -> Outcome:
    """How a program ends. Where it takes too long all are killed that it has started, for they hold
    its output open."""
    try:
        output, error = process.communicate(timeout=SECONDS)
    except subprocess.TimeoutExpired:
        os.killpg(process.pid, signal.SIGKILL)
        process.communicate()
        return Outcome(None, b"", b"")
    return Outcome(process.returncode, output, error)


def run(command: Words, folder: Path) -> Outcome:
    """How a program ends."""
    return outcome_of(started(command, folder))


def results(built: Built, folder: Path, names: list[str]) -> Results:
    """The result of each case, or of those of the programs that are named."""
    for name, size in (("sparse", 4 * GIBIBYTE), ("large", GIBIBYTE >> 2)):
        with (folder / name).open("wb") as file:
            file.truncate(size)
    for name, text in LARGE.values():
        (folder / name).write_text(text.format(",".join(["{}"] * 4_000_000)))
    for program in programs(built, folder):
        if names and program.name not in names:
            continue
        usual = run([*program.command, program.input], folder)
        failure = differences(usual, Case("", "", 0)) or ("" if usual.output else "no output")
        yield Result(f"surroundings/{program.label}/usual", failure)
        if failure:
            continue
        tries = Tries(program, folder, usual.text())
        for case in tries.cases():
            name = f"surroundings/{program.label}/{case.name}"
            yield Result(name, tries.failure_of(case))
        yield Result(f"surroundings/{program.label}/interrupted-calls", tries.stopped())
