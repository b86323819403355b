"""Runs a program and says what it took."""

import os
import select
import signal
import subprocess
import sys
import tempfile
import time
from pathlib import Path
from typing import NamedTuple

# Between two looks at the memory of a program that runs.
MILLISECONDS_OF_A_LOOK = 2


class Usage(NamedTuple):
    """What a run took: seconds of processor time, seconds by the clock, and the peak of its memory
    in kibibytes."""

    seconds: float
    wall_seconds: float
    kibibytes: int


class Run(NamedTuple):
    """The exit status of a program, what it wrote to standard output, and what it took."""

    status: int
    text: str
    usage: Usage


def end_in_order() -> None:
    """From now on a signal to end deletes temporary folders first, as an interrupt does."""
    signal.signal(signal.SIGTERM, lambda *_: sys.exit(128 + signal.SIGTERM))


def peak_of(process: int) -> int:
    """The peak of a program's resident memory so far, in kibibytes; 0 where it has ended."""
    for line in Path(f"/proc/{process}/status").read_text().splitlines():
        if line.startswith("VmHWM:"):
            return int(line.split()[1])
    return 0


def peak_until_end(process: int) -> int:
    """Waits for the end of a child, which can still be waited for then, and returns its peak of
    resident memory.

    That is looked up while the child runs, since that of `wait4` counts this program's memory from
    before the start."""
    peak = peak_of(process)
    handle = os.pidfd_open(process)
    ends = select.poll()
    ends.register(handle, select.POLLIN)
    while not ends.poll(MILLISECONDS_OF_A_LOOK):
        peak = max(peak, peak_of(process))
    os.close(handle)
    return peak


def used_by(child: subprocess.Popen[bytes], start: float) -> Usage:
    """Waits for a program and returns what it took since its start."""
    peak = peak_until_end(child.pid)
    wall_seconds = time.perf_counter() - start
    _process, status, usage = os.wait4(child.pid, 0)
    child.returncode = os.waitstatus_to_exitcode(status)
    return Usage(usage.ru_utime + usage.ru_stime, wall_seconds, peak)


def run(command: list[str]) -> Run:
    """Runs a program and keeps what it writes to standard output."""
    with tempfile.TemporaryFile() as output:
        start = time.perf_counter()
        child = subprocess.Popen(command, stdin=subprocess.DEVNULL, stdout=output)
        usage = used_by(child, start)
        output.seek(0)
        return Run(child.returncode, output.read().decode(errors="replace"), usage)


def run_to_nowhere(command: list[str], *, is_silent: bool = False) -> Run:
    """Runs a program whose standard output is /dev/null, and its standard error too if it is to be
    silent."""
    start = time.perf_counter()
    error = subprocess.DEVNULL if is_silent else None
    child = subprocess.Popen(
        command, stdin=subprocess.DEVNULL, stdout=subprocess.DEVNULL, stderr=error
    )
    usage = used_by(child, start)
    return Run(child.returncode, "", usage)
