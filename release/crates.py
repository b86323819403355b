"""The crates that programs are made of, and about how long it takes to prove them."""

import heapq
import json
from collections.abc import Iterable
from dataclasses import dataclass
from pathlib import Path

from machine import lanes

TOP = Path(__file__).resolve().parent.parent
LIST = "crates.txt"
# What `make build` proves.
PROGRAMS = ("qaudit", "qaudit_why", "qlog_to_trace")
# Measured by `prove --write-seconds`.
SECONDS = Path("release/seconds.json")
# What a crate needs of its folder to be proved, built and run.
PARTS = ("src", "specs", "proofs", "stdin", "stdout", "args", "status", "data")
# A kit whose gate takes no names of crates, and proves everything again each time: what another kit
# keeps, it cannot be told to leave.
WITHOUT_NAMES = "rattle-kit-13b"
# As long as no crate was measured: 32 minutes for the 53,000 lines of `qaudit`, in an earlier run.
SECONDS_OF_A_LINE = 0.036


class Stopped(Exception):
    """Why nothing was done, or why it failed, in words for the user."""


def takes_names(kit: str) -> bool:
    """Whether the gate of a kit, which `rt version` names, can be told which crates it is to prove,
    and to use nothing that it kept."""
    return kit.split()[:1] != [WITHOUT_NAMES]


@dataclass(frozen=True)
class Crate:
    """A crate: its line in crates.txt, and the crates of this repository that it uses."""

    name: str
    line: str
    below: tuple[str, ...]


def all_crates(top: Path) -> dict[str, Crate]:
    """The crates that crates.txt lists, by name."""
    lines = [line.partition("#")[0].strip() for line in (top / LIST).read_text().splitlines()]
    heads = {line.partition(":")[0].split()[0]: line for line in lines if ":" in line}
    return {
        name: Crate(name, line, tuple(it for it in line.partition(":")[2].split() if it in heads))
        for name, line in heads.items()
    }


def crates_of(programs: Iterable[str], top: Path) -> list[Crate]:
    """The crates that programs are made of, each after those that it uses."""
    listed, found = all_crates(top), dict[str, Crate]()

    def add(name: str, above: tuple[str, ...]) -> None:
        if name in above:
            raise Stopped(f"{LIST}: {name} uses itself")
        for below in listed[name].below:
            add(below, (*above, name))
        found[name] = listed[name]

    for program in programs:
        if program not in listed:
            raise Stopped(f"{LIST} does not list {program}")
        add(program, ())
    return list(found.values())


def source_lines(crate: Crate, top: Path) -> int:
    """How many lines a crate has to be proved."""
    folder = top / "crates" / crate.name
    sources = (path for part in PARTS[:3] for path in (folder / part).rglob("*"))
    return sum(path.read_bytes().count(b"\n") for path in sources if path.is_file())


def processor_seconds(crates: list[Crate], top: Path) -> dict[str, float]:
    """The seconds of processor time that each crate takes: as measured, or else by its lines, at
    the mean of the measured ones."""
    file = top / SECONDS
    measured: dict[str, float] = json.loads(file.read_text()) if file.exists() else {}
    lines = {crate.name: source_lines(crate, top) for crate in crates}
    known = [name for name in lines if name in measured]
    total = sum(lines[name] for name in known)
    rate = sum(measured[name] for name in known) / total if total else SECONDS_OF_A_LINE
    return {name: measured.get(name, rate * lines[name]) for name in lines}


def longest_chains(crates: list[Crate], seconds: dict[str, float]) -> dict[str, float]:
    """Of each crate, the seconds of the longest chain of crates that begins with it and goes up."""
    chains = dict(seconds)
    for crate in reversed(crates):
        for below in crate.below:
            chains[below] = max(chains[below], seconds[below] + chains[crate.name])
    return chains


def elapsed(crates: list[Crate], seconds: dict[str, float], at_a_time: int) -> float:
    """About how many seconds pass until all crates are proved, each after those that it uses.

    Each takes one processor, as with RT_JOBS, and the one with the longest chain above it goes
    first.
    """
    chains = longest_chains(crates, seconds)
    waiting = sorted(crates, key=lambda crate: -chains[crate.name])
    proved: set[str] = set()
    running: list[tuple[float, str]] = []
    now = 0.0
    while waiting or running:
        ready = [crate for crate in waiting if proved.issuperset(crate.below)]
        for crate in ready[: at_a_time - len(running)]:
            heapq.heappush(running, (now + seconds[crate.name], crate.name))
            waiting.remove(crate)
        now, name = heapq.heappop(running)
        proved.add(name)
    return now


def minutes(crates: list[Crate], top: Path) -> int:
    """About how many minutes it takes to prove the crates from nothing here, at least one."""
    return max(1, round(elapsed(crates, processor_seconds(crates, top), lanes()) / 60))


def in_words(count: int, word: str) -> str:
    """A number with its word, as `1 crate` or `22 crates`."""
    return f"{count} {word}{'' if count == 1 else 's'}"
