"""What a program does that converts a file, beside converting it: how it takes arguments and its
input, what it says, and how it ends. The reference of qlog-to-trace is such a program too."""

import argparse
import gc
import signal
import sys
import tempfile
from collections.abc import Callable
from pathlib import Path
from typing import IO, BinaryIO, NoReturn

from . import streams
from .streams import OutputError, visible

BAD_INPUT = 2
FAILED = 3
WRONG_ARGUMENTS = 64
STANDARD_INPUT = "standard input"


class Parser(argparse.ArgumentParser):
    """Ends with the status that qaudit has for wrong arguments."""

    def error(self, message: str) -> None:  # type: ignore[override]
        self.print_usage(sys.stderr)
        self.exit(WRONG_ARGUMENTS, f"{self.prog}: {visible(message)}\n")

    def _print_message(self, message: str, file: IO[str] | None = None) -> None:
        if file is sys.stderr:
            streams.say(message)
        else:
            streams.put(message)


class Program:
    """The program of this name."""

    def __init__(self, name: str) -> None:
        self.name = name

    def complain(self, text: str) -> None:
        """One line on standard error."""
        streams.say(f"{self.name}: {visible(text)}\n")

    def opened(self, wanted: str | None) -> BinaryIO:
        """The input, which is copied if it cannot be read twice."""
        source: BinaryIO = streams.standard_input() if wanted is None else Path(wanted).open("rb")
        if wanted is None and source.isatty():
            self.complain(f"reading {STANDARD_INPUT}")
        if source.seekable():
            return source
        copy: BinaryIO = tempfile.TemporaryFile()  # type: ignore[assignment]
        streams.copied(source, copy)
        copy.seek(0)
        return copy

    def convert(self, wanted: str | None, write: Callable[[str], int]) -> int:
        """Has the input converted by a function, which takes its name for people; the exit
        status."""
        name = wanted or STANDARD_INPUT
        try:
            return write(name)
        except BrokenPipeError:
            # Who has read enough reads no more, as an auditor whose verdict is fixed, so this is no
            # mistake to tell of. Nothing may be written there at the end of the program either.
            streams.silence(streams.OUTPUT)
        except FileNotFoundError:
            self.complain(f"cannot open {name}: no such file")
        except OSError as error:
            self.complain(f"{name}: {error.strerror}")
        except OutputError as error:
            self.complain(str(error))
        return FAILED

    def run(self, main: Callable[[], int]) -> NoReturn:
        """Runs the command and ends."""
        # Values of JSON make no cycles, so there is nothing to look for among them.
        gc.disable()
        streams.prepare()
        if signal.getsignal(signal.SIGINT) is signal.default_int_handler:
            # Ctrl-C ends it at once and quietly, also while it waits for input.
            signal.signal(signal.SIGINT, signal.SIG_DFL)
        try:
            status = main()
        except OutputError as error:
            self.complain(str(error))
            status = FAILED
        except BrokenPipeError:
            status = FAILED
        sys.exit(status)
