"""The standard streams, each of which may be closed, full, or read by nobody."""

import errno
import os
import re
import sys
from typing import BinaryIO

COPIED_AT_ONCE = 1 << 20
OUTPUT, ERRORS = 1, 2
# How many characters of a message are shown at most.
MOST_TOLD = 4_000
# What Python calls printable and nobody sees: fillers and selectors of variations.
UNSEEN = re.compile(
    "[\u034f\u115f\u1160\u17b4\u17b5\u180b-\u180f\u2800\u3164\ufe00-\ufe0f\uffa0"
    "\U000e0100-\U000e01ef]"
)


class OutputError(Exception):
    """Standard output takes no more."""

    def __init__(self, fault: OSError) -> None:
        reason = fault.strerror or str(fault)
        super().__init__(f"cannot write standard output: {reason[:1].lower()}{reason[1:]}")


def prepare() -> None:
    """Lets messages go nowhere if standard error is closed."""
    if sys.stderr is None:
        sys.stderr = open(os.devnull, "w")


def silence(number: int) -> None:
    """From now on what is written to a stream goes nowhere, and so does what it still holds."""
    nowhere = os.open(os.devnull, os.O_WRONLY)
    if nowhere != number:
        os.dup2(nowhere, number)
        os.close(nowhere)


def visible(text: str) -> str:
    """Text of others with an escape for each character that is not printed, if need be cut."""
    shown = "".join(
        it if it.isprintable() and not UNSEEN.match(it) else f"\\u{{{ord(it):x}}}"
        for it in text[:MOST_TOLD]
    )
    return f"{shown} .." if len(text) > MOST_TOLD else shown


def say(text: str) -> None:
    """Writes text to standard error, if it takes any."""
    try:
        sys.stderr.write(text)
        sys.stderr.flush()
    except OSError:
        silence(ERRORS)


def write(text: str) -> None:
    """Writes text to standard output, which may hold it back."""
    try:
        if sys.stdout is None:
            raise OSError(errno.EBADF, os.strerror(errno.EBADF))
        sys.stdout.write(text)
    except BrokenPipeError:
        silence(OUTPUT)
        raise
    except OSError as error:
        raise failed(error) from error


def put(text: str) -> None:
    """Writes text to standard output, with what that still holds."""
    write(text)
    try:
        sys.stdout.flush()
    except BrokenPipeError:
        silence(OUTPUT)
        raise
    except OSError as error:
        raise failed(error) from error


def failed(error: OSError) -> OutputError:
    """What comes if standard output takes no more. What it holds goes nowhere then."""
    if sys.stdout is not None:
        silence(OUTPUT)
    return OutputError(error)


def standard_input() -> BinaryIO:
    """The bytes of standard input."""
    if sys.stdin is None:
        raise OSError(errno.EBADF, os.strerror(errno.EBADF))
    return sys.stdin.buffer


def copied(source: BinaryIO, copy: BinaryIO) -> None:
    """Copies all that a stream has. One that would make who reads it wait is no end of it."""
    while piece := source.read(COPIED_AT_ONCE):
        copy.write(piece)
    if piece is None:
        raise OSError(errno.EAGAIN, os.strerror(errno.EAGAIN))
