"""The programs that read a trace: the auditor, and those it is compared with."""

import shutil
import subprocess
import sys
from collections.abc import Callable
from pathlib import Path
from typing import NamedTuple

from traces import Trace
from usage import Run, run, run_to_nowhere

FOLDER = Path(__file__).resolve().parent / "programs"
# Where Debian's packages of Rust crates are installed.
CRATES = "/usr/share/cargo/registry"
PACKAGE = "librust-serde-json-dev"
LINES_OF_A_BUILD_FAILURE = 6


class MissingError(Exception):
    """A program to compare with cannot be built here. It says what is missing."""


class WrongAnswerError(Exception):
    """A program did not say of a trace what it has to say."""


def one_file(trace: Trace) -> list[str]:
    """A file that has all lines of a trace."""
    return [str(trace.whole or trace.path)]


class Reader(NamedTuple):
    """A name, the command, to which the files of the trace are added, and what it has to write
    first."""

    name: str
    command: list[str]
    answer: Callable[[Trace], str]
    runs: Callable[[list[str]], Run] = run
    files: Callable[[Trace], list[str]] = one_file


def count_of_lines(trace: Trace) -> str:
    """What the readers here write that only read."""
    return f"lines {trace.lines}\n"


def accepted(trace: Trace) -> str:
    """What the auditor writes first: of several files it names the first one before."""
    name = f"file {trace.path}\n" if trace.times > 1 else ""
    return f"{name}accepted\nevents {trace.events // trace.times}\n"


def auditor(program: str) -> Reader:
    """The auditor. It has to accept the trace with all its events."""
    return Reader("qaudit", [program, "check"], accepted, files=lambda trace: trace.files)


def cat() -> Reader:
    """What moves the bytes and looks at none."""
    return Reader("cat", ["cat"], lambda _trace: "", run_to_nowhere)


def python() -> Reader:
    """Python's `json`."""
    return Reader("Python json", [sys.executable, str(FOLDER / "read.py")], count_of_lines)


def serde(folder: str, crates: str) -> Reader:
    """The crate `serde_json`, whose program is built in a folder, from the crates in another."""
    return Reader("serde_json", [built(Path(folder) / "serde", crates)], count_of_lines)


def built(folder: Path, crates: str) -> str:
    """Builds the program on `serde_json` from the crates that are installed, without a network."""
    for tool in ("cargo", "rustc"):
        if shutil.which(tool) is None:
            raise MissingError(f"there is no {tool} on the path")
    if not list(Path(crates).glob("serde_json-*")):
        raise MissingError(
            f"there is no crate serde_json in {crates} (on Debian: apt-get install {PACKAGE})"
        )
    shutil.copytree(FOLDER / "serde", folder)
    sources = [
        'source.crates-io.replace-with="installed"',
        f'source.installed.directory="{crates}"',
    ]
    options = [word for it in sources for word in ("--config", it)]
    build = ["cargo", "build", "--release", "--offline", "--target-dir", "target", *options]
    done = subprocess.run(build, cwd=folder, capture_output=True, text=True, check=False)
    if done.returncode != 0:
        last = done.stderr.strip().splitlines()[-LINES_OF_A_BUILD_FAILURE:]
        raise MissingError("\n    ".join(["cargo did not build its program:", *last]))
    return str(folder / "target" / "release" / "read")


def versions(crates: str) -> str:
    """What the program on `serde_json` is built of and by."""
    compiler = subprocess.run(
        ["rustc", "--version"], capture_output=True, text=True, check=False
    ).stdout.strip()
    return ", ".join([compiler, *sorted(it.name for it in Path(crates).glob("serde_json-*"))])


def ran(reader: Reader, trace: Trace) -> Run:
    """Runs a program over a trace, and looks at its answer."""
    done = reader.runs([*reader.command, *reader.files(trace)])
    if done.status != 0 or not done.text.startswith(reader.answer(trace)):
        raise WrongAnswerError(f"{reader.name}: status {done.status}, {done.text.splitlines()[:2]}")
    return done
