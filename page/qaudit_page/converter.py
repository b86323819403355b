"""The program qlog-to-trace, which makes a trace of a log."""

import argparse
import os
import re
import shlex
import subprocess
from pathlib import Path
from typing import IO, NamedTuple

from .failure import Failure, NoTraceError, Status
from .files import MAX_INPUT, MAX_LINES, MAX_SHOWN
from .program import PIECE, Running, ending_of, find
from .texts import count, visible

NAME = "qlog-to-trace"
OPTION = "--converter"
# How it ends on a log: with a trace, or because the log gives none.
WRITTEN, NO_TRACE = 0, 2
# How much of what it says is read.
MOST_TOLD = 1 << 20
# What it says of what is in the log and not in the trace.
LACKING = re.compile(
    r"(?:; the record is passed over|such records are passed over|; the trace ends there"
    r"|, another by qlog-to-trace --connection N)$"
)
# What it adds to a reason if it has written lines before. Nobody sees these here.
WRITTEN_BEFORE = re.compile(r"; the trace ends after its line [0-9]+$")


class Asked(NamedTuple):
    """How a log is converted: by which program, with which options, and whether for a page."""

    program: Path | None = None
    options: tuple[str, ...] = ()
    is_shown: bool = False


class Told(NamedTuple):
    """What the converter says of a log: what of it is not in the trace, and what else."""

    lacks: tuple[str, ...]
    others: tuple[str, ...]


def options_of(text: str = "") -> tuple[str, ...]:
    """Options of the converter, as they are given to a command in one word."""
    try:
        return tuple(shlex.split(text))
    except ValueError as fault:
        raise argparse.ArgumentTypeError(f"{text!r}: {fault}") from fault


def check(asked: Asked) -> None:
    """Failure if the converter does not take these options, which an empty log shows."""
    if not asked.options:
        return
    program = find(asked.program, NAME, OPTION)
    words = [program, "--places", *asked.options, os.devnull]
    with Running(words, subprocess.DEVNULL) as running:
        while running.output.read(PIECE):
            pass
        status = running.process.wait()
        if status == NO_TRACE:
            return
        told = running.told(MOST_TOLD)
    if status not in (WRITTEN, os.EX_USAGE):
        raise Failure(f"{program} {ending_of(status)}: {told}")
    options = shlex.join(asked.options)
    reason = reason_in(told) if status else "no option for a log"
    raise Failure(f"{NAME} {options}: {reason}", Status.USAGE)


def reason_in(told: str) -> str:
    """Why arguments are refused: the line with the name of the program, or the first one."""
    lines = told.splitlines() or [""]
    named = [it.removeprefix(f"{NAME}: ") for it in lines if it.startswith(f"{NAME}: ")]
    return visible((named or lines)[0])


def trace_of(log: IO[bytes], name: str, asked: Asked) -> tuple[bytes, Told]:
    """The trace that the converter makes of an open log, and what it says of it."""
    # It opens the log again, and reads it as often as it needs.
    number = log.fileno()
    path = f"/dev/fd/{number}"
    program = find(asked.program, NAME, OPTION)
    words = [program, "--places", *asked.options, path]
    with Running(words, subprocess.DEVNULL, (number,)) as running:
        data = taken_from(running.output, name, is_shown=asked.is_shown)
        status = running.process.wait()
        lines = running.told(MOST_TOLD).splitlines()
    begin = f"{NAME}: {path}: "
    said = [visible(it.removeprefix(begin)) for it in lines if it.startswith(begin)]
    if status == NO_TRACE and said:
        raise NoTraceError(name, WRITTEN_BEFORE.sub("", said[-1]))
    if status != WRITTEN:
        why = said[-1] if said else " ".join(map(visible, lines))
        raise Failure(f"{name}: {program} {ending_of(status)}: {why}")
    notes = [visible(it) for it in lines if not it.startswith(begin)]
    lacks = tuple(it for it in said if LACKING.search(it))
    return data, Told(lacks, tuple(it for it in [*said, *notes] if it not in lacks))


def taken_from(output: IO[bytes], name: str, *, is_shown: bool) -> bytes:
    """A trace that the converter writes, if it is not more than can be audited, or shown."""
    pieces = []
    most = MAX_SHOWN if is_shown else MAX_INPUT
    lines = MAX_LINES if is_shown else MAX_INPUT
    while piece := output.read(PIECE):
        pieces.append(piece)
        most -= len(piece)
        lines -= piece.count(b"\n")
        if lines < 0 or most < 0:
            what = f"than {count(MAX_LINES)} lines" if lines < 0 else "bytes than can be taken"
            raise Failure(f"{name} gives a trace of more {what}", Status.UNSHOWN)
    return b"".join(pieces)
