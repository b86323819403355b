"""What the programs here share beside what they run: their arguments, what they tell, and how they
end."""

import argparse
import importlib.machinery
import importlib.util
import os
import subprocess
import sys
import zlib
from collections.abc import Callable, Container, Iterable, Iterator, Sequence
from pathlib import Path
from types import ModuleType
from typing import NamedTuple, NoReturn

from processes import is_program

FOLDER = Path(__file__).resolve().parent
# A program has so long for a trace, or for all traces of the corpus.
SECONDS = 60
ENDING = """\
A line is printed for each failure, and last how many passed and failed. The exit status is 0 where
all passed, 1 where something failed or nothing was tried, and 64 where the arguments are wrong."""


# Arguments.


class Parser(argparse.ArgumentParser):
    """Reads the arguments of a program, whose text at its head is what `--help` says of it."""

    def __init__(self, text: str | None, ending: str = ENDING) -> None:
        super().__init__(
            prog="/".join(Path(sys.argv[0]).absolute().parts[-2:]),
            description=text,
            epilog=ending,
            formatter_class=argparse.RawDescriptionHelpFormatter,
        )

    def error(self, message: str) -> NoReturn:
        """Ends the program with the status that wrong arguments have everywhere here."""
        self.print_usage(sys.stderr)
        self.exit(os.EX_USAGE, f"{self.prog}: {message}\n")

    def add_program(self) -> None:
        """The program that is run."""
        text = "the program that is run"
        self.add_argument("program", metavar="PROGRAM", type=absolute, help=text)

    def add_every(self) -> None:
        """How far the places are from each other that are tried of many."""
        text = (
            "tries only each Nth place of each trace or log, with the first, the last, and those"
            " around each LF; without it each place is tried"
        )
        self.add_argument("--every", metavar="N", type=at_least_one, default=1, help=text)

    def add_corpus(self) -> None:
        """The folder with the traces, which may be left out."""
        text = (
            "a folder with traces/ and everything else here; it is this one if none is given"
        )
        self.add_argument(
            "corpus", metavar="CORPUS", type=Path, nargs="?", default=FOLDER, help=text
        )


def at_least_one(text: str) -> int:
    """A number that is not 0."""
    number = int(text)
    if number < 1:
        raise ValueError
    return number


def absolute(path: str) -> str:
    """A path that is the same in every folder."""
    return str(Path(path).absolute())


# Results.


class Result(NamedTuple):
    """What was tried, and how it failed: empty where it passed, None where it was skipped."""

    name: str
    failure: str | None = ""


Results = Iterator[Result]


def tell(results: Iterable[Result]) -> int:
    """Prints a line for each failure and for each that was skipped, and then how many passed and
    failed. Returns the exit status: 1 where something failed, or nothing passed."""
    passed = failed = 0
    for name, failure in results:
        if failure is None:
            print(f"SKIPPED {name}: this user reads every file, and may not give that up")
        elif failure:
            failed += 1
            print(f"FAILED {name}: {failure}", flush=True)
        else:
            passed += 1
    print(f"{passed} passed, {failed} failed")
    return 0 if passed and not failed else 1


def tell_of(programs: Iterable[str], results: Callable[[], Iterable[Result]]) -> int:
    """Tells of results, or which of the programs there is not. Returns the exit status."""
    missing = [program for program in programs if not is_program(program)]
    if missing:
        return tell(Result(program, "is no program that can be run") for program in missing)
    return tell(results())


# What is left out of many places.


def thinned(
    places: Sequence[int], every: int, name: str, ends: Container[int] = ()
) -> list[int]:
    """Each Nth of some places, with the first, the last, and those at the end of a line. Which is
    the first of each Nth depends on a name, so that traces that are alike have others."""
    start, last = zlib.crc32(name.encode()) % every, len(places) - 1
    return [
        place
        for at, place in enumerate(places)
        if at % every == start or at in (0, last) or place in ends
    ]


def around_lf(text: bytes) -> set[int]:
    """The places of each LF of a text, counted from 1, with those before and behind them."""
    ends = (at for at, byte in enumerate(text, 1) if byte == ord(b"\n"))
    return {place for end in ends for place in (end - 1, end, end + 1)}


# What programs are run over.


def traces_of(corpus: Path) -> list[Path]:
    """The traces of the corpus, those of real stacks among them."""
    folders = (corpus / "traces", corpus / "real" / "traces")
    return [trace for folder in folders for trace in sorted(folder.glob("*.trace"))]


def is_log(data: bytes) -> bool:
    """Whether bytes begin as a log does: JSON-SEQ, or a key of a log in the first line. In a file
    they are converted by `qaudit-why`, and on standard input they are a trace."""
    return data.startswith(b"\x1e") or b'"qlog_' in data.partition(b"\n")[0]


def simulate() -> ModuleType:
    """The program `simulate` as a module."""
    if "simulate" in sys.modules:
        return sys.modules["simulate"]
    loader = importlib.machinery.SourceFileLoader("simulate", str(FOLDER / "simulate"))
    spec = importlib.util.spec_from_loader("simulate", loader)
    if spec is None:
        raise ImportError("there is no simulate")
    module = importlib.util.module_from_spec(spec)
    sys.modules["simulate"] = module
    loader.exec_module(module)
    return module


def result_of_run(
    name: str, command: list[str], folder: Path, text: bytes, status: int | None
) -> Result:
    """Whether a command that is run in a folder writes this text, nothing on standard error, and
    ends with this status."""
    ended = subprocess.run(
        command,
        cwd=folder,
        stdin=subprocess.DEVNULL,
        capture_output=True,
        timeout=SECONDS,
        check=False,
    )
    if ended.stdout != text:
        return Result(name, difference(ended.stdout, text))
    if ended.stderr:
        return Result(name, f"{ended.stderr!r} on standard error")
    is_right = ended.returncode == status
    return Result(name, "" if is_right else f"the exit status is {ended.returncode}")


def difference(written: bytes, text: bytes) -> str:
    """The first line in which two texts differ."""
    lines, others = written.split(b"\n"), text.split(b"\n")
    for place, (line, other) in enumerate(zip(lines, others, strict=False), 1):
        if line != other:
            return f"line {place} is {line!r} and not {other!r}"
    return f"{len(lines) - 1} lines were written, and not {len(others) - 1}"
