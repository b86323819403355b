"""What the program qaudit-why says of a trace: its verdict with the facts, and its rows."""

import contextlib
import json
import os
import shutil
import subprocess
import sys
import tempfile
from collections.abc import Iterator, Sequence
from dataclasses import dataclass
from pathlib import Path
from typing import IO, Any, NamedTuple, Self

from .failure import Failure, reason_of

NAME = "qaudit-why"
VERDICTS = ("accepted", "refused", "unreadable")
# How many bytes of what it writes are read at once, about two thousand rows.
PIECE = 800_000
SHOWN = 300

# What JSON says; each value is looked at before it is used.
Object = dict[str, Any]


class Mode(NamedTuple):
    """How a program is asked: the options for the verdict with its facts, and for the rows."""

    verdict: tuple[str, ...]
    rows: tuple[str, ...]


# Past departures from the rules of conduct, or up to the first line that is refused.
PAST = Mode(("--all", "--json"), ("--rows", "--all"))
STRICT = Mode(("--json",), ("--rows",))


class UnknownOptionError(Failure):
    """A program has not the options that it is asked with."""


@dataclass(frozen=True)
class Verdict:
    """What `--json` says of a trace, alone or with `--all`."""

    said: Object

    @property
    def kind(self) -> str:
        """Accepted, refused or unreadable."""
        return str(self.said["verdict"])

    @property
    def line(self) -> int:
        """The line that is refused or cannot be read; 0 where all is accepted."""
        return int(self.said.get("line", 0))

    @property
    def rule(self) -> str:
        """The rule or the fault, as V7."""
        return str(self.said.get("rule", self.said.get("fault", "")))

    @property
    def name(self) -> str:
        """The name of the rule or the fault, with the field or the key that it is about."""
        about = self.said.get("field", self.said.get("key"))
        return str(self.said.get("name", "")) + (f" {about}" if about else "")

    @property
    def end(self) -> "Verdict":
        """How the trace ends once departures are passed over: this verdict where none are."""
        end = self.said.get("end")
        return Verdict(end) if isinstance(end, dict) else self

    @property
    def first_unjudged(self) -> int | None:
        """The first line that has no row; None where all have, as at the end of a trace."""
        end = self.end
        is_whole = end.kind == "accepted" or end.rule == "V17"
        return None if is_whole else end.line

    @property
    def text(self) -> str:
        """The verdict as the program `qaudit` writes it."""
        if self.kind == "accepted":
            return self.kind
        return f"{self.kind} line {self.line} {self.rule} {self.name}"


def find(given: Path | None, name: str = NAME, option: str = "--program") -> str:
    """The path of a program: the one that is given, or on the path, or beside this command."""
    if given is not None:
        found = shutil.which(str(given.absolute()))
    else:
        beside = Path(sys.argv[0]).resolve().parent / name
        found = shutil.which(name) or shutil.which(str(beside))
    if found is None:
        raise Failure(f"there is no program {given or name}; {option} names one")
    return found


def temporary(data: bytes = b"") -> IO[bytes]:
    """A temporary file that has this, to be read from its beginning."""
    try:
        file: IO[bytes] = tempfile.TemporaryFile()
        try:
            file.write(data)
            file.seek(0)
        except BaseException:
            discard(file)
            raise
    except OSError as fault:
        raise Failure(f"cannot write a temporary file: {reason_of(fault)}") from fault
    return file


def discard(file: IO[bytes]) -> None:
    """Closes a file that does not take what it holds."""
    with contextlib.suppress(OSError):
        file.close()


class Running:
    """A program whose output is read. If that ends before its time, so does the program."""

    def __init__(
        self, words: Sequence[str], stdin: IO[bytes] | int, passed: tuple[int, ...] = ()
    ) -> None:
        self.program = words[0]
        self._errors: IO[bytes] = temporary()
        try:
            self.process = subprocess.Popen(
                words, stdin=stdin, stdout=subprocess.PIPE, stderr=self._errors, pass_fds=passed
            )
        except OSError as fault:
            raise Failure(f"cannot run {self.program}: {fault.strerror}") from fault

    def __enter__(self) -> Self:
        return self

    def __exit__(self, *_: object) -> None:
        self.output.close()
        self._errors.close()
        if self.process.poll() is None:
            self.process.kill()
        self.process.wait()

    @property
    def output(self) -> IO[bytes]:
        """What the program writes."""
        if self.process.stdout is None:
            raise ValueError("standard output is not captured")
        return self.process.stdout

    def told(self, most: int = SHOWN) -> str:
        """The beginning of what it wrote on standard error, once it has ended."""
        self._errors.seek(0)
        return self._errors.read(most).decode("utf-8", "backslashreplace").strip()


def ending_of(status: int) -> str:
    """How a process ended that ended as it should not."""
    return f"ended with status {status}" if status > 0 else f"was killed by {-status}"


class Run(Running):
    """A run of qaudit-why over the bytes of a trace, which it has on standard input."""

    def __init__(self, program: str, options: tuple[str, ...], data: bytes) -> None:
        self.options = " ".join(options)
        with temporary(data) as file:
            super().__init__([program, *options, "-"], file)

    def pieces(self) -> Iterator[bytes]:
        """What it writes, some whole lines at a time, and that it ended with a verdict."""
        begun = b""
        while piece := self.output.read(PIECE):
            lines, end, rest = piece.rpartition(b"\n")
            if end:
                yield begun + lines + end
                begun = rest
            else:
                begun += rest
        if begun:
            yield begun
        self.end()

    def end(self) -> None:
        """Failure where the program did not end with a verdict; another where it does not know the
        options."""
        status = self.process.wait()
        if status == os.EX_USAGE:
            text = f"{self.program} has no {self.options}: a newer {NAME} is needed"
            raise UnknownOptionError(text)
        if status not in range(len(VERDICTS)):
            told = f"{self.options} {ending_of(status)}: {self.told()}"
            raise Failure(f"{self.program} {told}")


def verdict_by(run: Run) -> Verdict:
    """What a run with `--json` says."""
    text = b"".join(run.pieces())
    try:
        said = json.loads(text)
    except ValueError:
        said = None
    if not is_verdict(said) or not is_verdict(said.get("end", said)):
        raise Failure(f"{run.program} wrote no verdict: {text[:SHOWN]!r}")
    return Verdict(said)


def is_verdict(said: object) -> bool:
    """Whether an object has a verdict."""
    return isinstance(said, dict) and said.get("verdict") in VERDICTS


def verdict_of(program: str, data: bytes) -> Verdict:
    """What the program says of the bytes of a trace."""
    with Run(program, STRICT.verdict, data) as run:
        return verdict_by(run)


def whole_verdict_of(program: str, data: bytes) -> Verdict:
    """The same with every violation, if the program can go on after one."""
    try:
        with Run(program, PAST.verdict, data) as run:
            return verdict_by(run)
    except UnknownOptionError:
        return verdict_of(program, data)
