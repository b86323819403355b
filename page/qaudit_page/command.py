"""The command qaudit-page."""

import argparse
import os
import signal
import sys
from pathlib import Path
from typing import IO, NoReturn

from .converter import NAME as CONVERTER
from .converter import Asked, check, options_of
from .failure import Failure, Status
from .files import STANDARD_INPUT, STDIN, write
from .page import Wanted, page_of
from .pair import page_of_two
from .streams import ended, say
from .texts import harmless
from .version import version

DESCRIPTION = """\
Makes a page of a trace or of a log: one HTML file with the verdict of qaudit and diagrams of the
run. It opens in any browser, without a server or a network. Two of them come onto one time axis:
the client and the server of a connection, or two runs of one stack. A qlog, or a netlog of
Chromium, is converted by qlog-to-trace."""
# So many traces a page has at most.
MOST_TRACES = 2
ENDING = """\
The exit status is 0 if the page is written, 2 if the trace is more than a page takes or a log gives
no trace, 3 if a file, a program or dygraphs is missing or failed, and 64 for wrong arguments."""


class Parser(argparse.ArgumentParser):
    """Reads arguments; wrong ones have the status that they have in all programs here."""

    def error(self, message: str) -> NoReturn:
        """Ends the program."""
        self.print_usage(sys.stderr)
        self.exit(Status.USAGE, f"{self.prog}: {harmless(message)}\n")

    def _print_message(self, message: str, file: IO[str] | None = None) -> None:
        if file is sys.stderr:
            print(message, end="", file=file)
        else:
            write(None, message)


def line(text: str) -> int:
    """The number of a line."""
    number = int(text)
    if number < 1:
        raise argparse.ArgumentTypeError("lines are numbered from 1")
    return number


def add_shared(parser: argparse.ArgumentParser) -> None:
    """The options that both commands have."""
    text = f"options of {CONVERTER} for each log, as in --convert='--connection 2'"
    parser.add_argument("--convert", type=options_of, default=(), metavar="OPTIONS", help=text)
    text = f"path to {CONVERTER} (default: the one on the path, or next to this command)"
    parser.add_argument("--converter", type=Path, metavar="FILE", help=text)
    text = "path to dygraphs 2.2 (default: the one from Debian's libjs-dygraphs)"
    parser.add_argument("--dygraphs", type=Path, metavar="FILE", help=text)
    text = "path to qaudit-why (default: the one on the path, or next to this command)"
    parser.add_argument("--program", type=Path, metavar="FILE", help=text)
    told = f"%(prog)s {version()}"
    text = "prints the version and ends"
    parser.add_argument("--version", action="version", version=told, help=text)


def arguments() -> argparse.Namespace:
    """What the command is told."""
    parser = Parser(prog="qaudit-page", description=DESCRIPTION, epilog=ENDING)
    text = "the first line to show, of each trace"
    parser.add_argument("--from", dest="first", type=line, metavar="N", help=text)
    text = "the last line to show, of each trace"
    parser.add_argument("--to", dest="last", type=line, metavar="N", help=text)
    text = "the title of the page (default: the name of the file, or of both)"
    parser.add_argument("--title", metavar="TEXT", help=text)
    text = "the file to write (default: standard output)"
    parser.add_argument("--output", type=Path, metavar="FILE", help=text)
    add_shared(parser)
    text = (
        "the trace or the log, which gzip, xz or zstd may have compressed (default: standard"
        " input), or two: both ends of a connection, or two runs"
    )
    parser.add_argument("traces", type=Path, metavar="TRACE|LOG", nargs="*", help=text)
    given = parser.parse_args()
    if len(given.traces) > MOST_TRACES:
        parser.error(f"a page has one trace or {MOST_TRACES}, and not {len(given.traces)}")
    return given


def text_of(given: argparse.Namespace) -> str:
    """The page of one trace, or of two."""
    check(Asked(given.converter, given.convert))
    trace, *more = given.traces or [None]
    wanted = Wanted(
        trace,
        given.program,
        given.dygraphs,
        given.title,
        given.first,
        given.last,
        asked=Asked(given.converter, given.convert, is_shown=True),
    )
    return page_of_two(wanted, (trace, more[0])) if more else page_of(wanted).text


def main() -> Status:
    """Writes the page."""
    given = arguments()
    if not given.traces and os.isatty(STDIN):
        print(f"qaudit-page: reading {STANDARD_INPUT}", file=sys.stderr)
    try:
        write(given.output, text_of(given))
    except Failure as failure:
        say("qaudit-page", str(failure))
        return failure.status
    return Status.WRITTEN


def interrupted() -> NoReturn:
    """Ends this process as Ctrl-C does, so that a shell sees it."""
    signal.signal(signal.SIGINT, signal.SIG_DFL)
    os.kill(os.getpid(), signal.SIGINT)
    sys.exit(Status.FAULT)


def program() -> NoReturn:
    """Runs the command and ends."""
    try:
        status = ended("qaudit-page", main)
    except KeyboardInterrupt:
        interrupted()
    sys.exit(status)  # type: ignore[arg-type]
