"""Runs a command, and says which crates its processes work on, and how long."""

import os
import queue
import subprocess
import threading
import time
from collections.abc import Iterator
from dataclasses import dataclass, field
from pathlib import Path

PROC = Path("/proc")
TICKS = os.sysconf("SC_CLK_TCK")
# The prover has this before the name of the crate among its arguments.
NAME = b"--crate-name"
# And this in a path among them, if it tries must-fail edits or makes what they begin with.
OF_EDITS = b"rt-edits-"
# No line is empty.
END = ""
# Places in /proc/PID/stat, counted from the one after the name in brackets.
PARENT, USER_TICKS, SYSTEM_TICKS = 1, 11, 12


@dataclass(frozen=True)
class Process:
    """A process as /proc shows it: its parent, its seconds of processor time, its crate, and
    whether it is for must-fail edits."""

    parent: int
    seconds: float
    crate: str
    is_for_edits: bool


def crate_in(arguments: list[bytes]) -> str:
    """The crate that a command line names; none if it is not the prover's."""
    named = NAME in arguments[:-1]
    return arguments[arguments.index(NAME) + 1].decode() if named else ""


def processes() -> dict[int, Process]:
    """The processes that run, by their numbers."""
    found = {}
    for folder in PROC.glob("[0-9]*"):
        try:
            stat = (folder / "stat").read_text().rpartition(")")[2].split()
            arguments = (folder / "cmdline").read_bytes().split(b"\0")
        except OSError:
            # It has ended.
            continue
        seconds = (int(stat[USER_TICKS]) + int(stat[SYSTEM_TICKS])) / TICKS
        is_for_edits = any(OF_EDITS in it for it in arguments)
        process = Process(int(stat[PARENT]), seconds, crate_in(arguments), is_for_edits)
        found[int(folder.name)] = process
    return found


def is_below(number: int, ancestor: int, all_of_them: dict[int, Process]) -> bool:
    """Whether a process was started by another, or by one that this one started."""
    while number in all_of_them and number != ancestor:
        number = all_of_them[number].parent
    return number == ancestor


@dataclass
class Watch:
    """What was seen of the processes of a command: of each crate when its first one began, its
    seconds of processor time, those of them for must-fail edits, and which run now."""

    began: dict[str, float] = field(default_factory=dict)
    seconds: dict[tuple[str, int], float] = field(default_factory=dict)
    running: list[str] = field(default_factory=list)
    for_edits: set[int] = field(default_factory=set)

    def look(self, ancestor: int, now: float) -> None:
        """Looks at the processes below one."""
        found = processes()
        self.running = []
        for number, process in found.items():
            if process.crate and is_below(number, ancestor, found):
                self.began.setdefault(process.crate, now)
                self.seconds[process.crate, number] = process.seconds
                if process.is_for_edits:
                    self.for_edits.add(number)
                if process.crate not in self.running:
                    self.running.append(process.crate)

    def processor_seconds(self, of_edits: bool | None = None) -> dict[str, float]:
        """The seconds of processor time of each crate, as far as they were seen: of its must-fail
        edits, of all else, or of both."""
        totals: dict[str, float] = {}
        for (crate, number), seconds in self.seconds.items():
            if of_edits in (None, number in self.for_edits):
                totals[crate] = totals.get(crate, 0.0) + seconds
        return totals


class Command:
    """A command whose lines are read while its processes are watched. Its environment is given."""

    def __init__(self, words: list[str], folder: Path, names: dict[str, str]) -> None:
        self.watch = Watch()
        self.process = subprocess.Popen(
            words,
            cwd=folder,
            env=names,
            stdout=subprocess.PIPE,
            stderr=subprocess.STDOUT,
            text=True,
        )

    def lines(self, interval: float) -> Iterator[str | None]:
        """The lines that it writes, as they come, and None after each interval without one."""
        said: queue.Queue[str] = queue.Queue()
        threading.Thread(target=self.read_into, args=(said,), daemon=True).start()
        try:
            while (line := self.next_line(said, interval)) != END:
                yield line
        except BaseException:
            # An interrupt, after which the command would run on.
            self.process.terminate()
            raise
        finally:
            self.process.wait()

    def next_line(self, said: "queue.Queue[str]", interval: float) -> str | None:
        """Looks at the processes, and returns the next line; None if there is none for a while."""
        self.watch.look(self.process.pid, time.monotonic())
        try:
            return said.get(timeout=interval)
        except queue.Empty:
            return None

    def read_into(self, said: "queue.Queue[str]") -> None:
        """Puts each line into a queue, and END after the last one."""
        assert self.process.stdout is not None
        with self.process.stdout as output:
            for line in output:
                said.put(line)
        said.put(END)
