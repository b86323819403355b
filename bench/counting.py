"""Counts the instructions of a run of the auditor, by valgrind's callgrind."""

import re
import shutil
import subprocess

from readers import WrongAnswerError, auditor
from traces import Trace

COLLECTED = re.compile(r"Collected : (\d+)")
MISSING = "there is no valgrind to count by (on Debian: apt-get install valgrind)"


def can_count() -> bool:
    """Whether valgrind is there."""
    return shutil.which("valgrind") is not None


def count(program: str, trace: Trace) -> int:
    """The instructions that the auditor takes for a trace, which it has to accept."""
    reader = auditor(program)
    command = ["valgrind", "--tool=callgrind", "--callgrind-out-file=/dev/null"]
    done = subprocess.run(
        [*command, *reader.command, *reader.files(trace)],
        capture_output=True,
        text=True,
        check=False,
    )
    collected = COLLECTED.search(done.stderr)
    is_right = done.returncode == 0 and done.stdout.startswith(reader.answer(trace))
    if not is_right or collected is None:
        last = done.stderr.splitlines()[-1:]
        raise WrongAnswerError(f"status {done.returncode}, {done.stdout.splitlines()[:2]}, {last}")
    return int(collected[1])
