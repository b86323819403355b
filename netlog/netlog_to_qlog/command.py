"""The command netlog-to-qlog."""

import argparse
from typing import BinaryIO

from . import streams
from .compressed import decompressed
from .errors import Unusable
from .netlog import Netlog, is_netlog, looked_at
from .program import BAD_INPUT, FAILED, Parser, Program
from .scanner import LONGEST_RECORD
from .unchanged import Changed, unchanged
from .version import version

PROGRAM = Program("netlog-to-qlog")

DESCRIPTION = """Turns a netlog of Chromium into a qlog that `qlog-to-trace` reads.

Each QUIC session is a connection of the qlog, the one with most packets the first. The netlog may
be compressed by gzip, xz or zstd. If its end is torn off, so is that of the qlog, and a line on
standard error says so."""
EPILOG = """The exit status is 0 for a qlog, 2 if the input gives none, 3 if a file or a stream
failed, and 64 for wrong arguments."""


class Version(argparse.Action):
    """Prints the version of the program."""

    def __call__(
        self,
        parser: argparse.ArgumentParser,
        namespace: argparse.Namespace,
        values: object,
        option_string: str | None = None,
    ) -> None:
        streams.put(f"{parser.prog} {version()}\n")
        parser.exit()


def arguments() -> argparse.ArgumentParser:
    """What may stand on the command line."""
    parser = Parser(prog=PROGRAM.name, description=DESCRIPTION, epilog=EPILOG)
    parser.formatter_class = argparse.RawDescriptionHelpFormatter
    about = "the netlog (default: standard input)"
    parser.add_argument("file", nargs="?", metavar="FILE", help=about)
    parser.add_argument("--version", action=Version, nargs=0, help="prints the version and ends")
    return parser


def check(file: BinaryIO) -> None:
    """Whether a file is a netlog."""
    file.seek(0)
    first = file.read(LONGEST_RECORD)
    if not is_netlog(first):
        raise Unusable("no netlog of Chromium" if first else "empty")


def converted(source: BinaryIO) -> Netlog:
    """Writes the qlog of an open netlog to standard output. It is read twice, so it may not change
    meanwhile."""
    with unchanged(source), decompressed(source) as file:
        streams.put("")
        check(file)
        netlog = looked_at(file)
        netlog.write(lambda text, _: streams.write(text))
        streams.put("")
    return netlog


def write_qlog(wanted: str | None, name: str) -> int:
    """Writes the qlog of a netlog to standard output; the exit status."""
    try:
        netlog = converted(PROGRAM.opened(wanted))
    except Changed as fault:
        PROGRAM.complain(f"{name}: {fault}")
        return FAILED
    except MemoryError:
        PROGRAM.complain(f"{name}: out of memory")
        return FAILED
    except Unusable as fault:
        PROGRAM.complain(f"{name}: {fault}")
        return BAD_INPUT
    for told in netlog.left_out:
        PROGRAM.complain(f"{name}: {told}")
    if netlog.torn_at:
        PROGRAM.complain(f"{name}: torn off at {netlog.torn_at}; the qlog is torn off too")
    return 0


def main(words: list[str] | None = None) -> int:
    """Runs the command; the exit status."""
    wanted = arguments().parse_args(words).file
    return PROGRAM.convert(wanted, lambda name: write_qlog(wanted, name))


def program() -> None:
    """Runs the command and ends."""
    PROGRAM.run(main)
