"""How the commands end."""

from enum import IntEnum
from os import EX_USAGE


class Status(IntEnum):
    """The exit status of a command."""

    WRITTEN = 0
    # Of a table: a trace is refused, or newly refused.
    REFUSED = 1
    # A trace that no page can be made of.
    UNSHOWN = 2
    # A file, a stream or a program that is needed failed or is missing.
    FAULT = 3
    USAGE = EX_USAGE


# How reading a record fails that is none: it has other JSON, too deep, or too large a number.
NO_RECORD = (LookupError, TypeError, AttributeError, ValueError, RecursionError, OverflowError)


def reason_of(fault: OSError) -> str:
    """Why a file could not be used."""
    if isinstance(fault, FileNotFoundError):
        return "no such file"
    text = fault.strerror or str(fault)
    return text[:1].lower() + text[1:]


def why(fault: Exception) -> str:
    """What failed, whatever it is, for one line."""
    if isinstance(fault, Failure):
        return str(fault)
    if isinstance(fault, MemoryError):
        return "out of memory"
    if isinstance(fault, OSError):
        name = "" if fault.filename is None else f"{fault.filename}: "
        return f"{name}{reason_of(fault)}"
    return f"{type(fault).__name__}: {fault}"


class Failure(Exception):
    """Why nothing is written, in one line, and the status that tells of it."""

    def __init__(self, text: str, status: Status = Status.FAULT) -> None:
        super().__init__(text)
        self.status = status


class NoTraceError(Failure):
    """A file that gives no trace: a log, as the converter says it, or an archive that is not
    whole."""

    def __init__(self, name: str, reason: str) -> None:
        super().__init__(f"{name}: {reason}", Status.UNSHOWN)
        self.reason = reason
