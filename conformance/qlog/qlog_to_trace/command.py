"""The command line."""

import argparse
import json
import sys
from collections.abc import Iterator, Sequence
from dataclasses import dataclass, replace
from typing import BinaryIO, TextIO

from netlog_to_qlog import streams
from netlog_to_qlog.program import BAD_INPUT, FAILED, Parser, Program
from netlog_to_qlog.streams import OutputError
from netlog_to_qlog.version import version

from .connections import Connections, chosen_of, others
from .conversion import Conversion
from .detection import form_of
from .dialects import BY_NAME, DIALECTS, GENERIC, Dialect, dialect_of
from .errors import Unusable
from .events import Event, Times, each_loss, events_of
from .forms import Form
from .header import DEFAULT_EIGHTHS, NO_LIMIT, Choices, options_of, write_header
from .lines import PLACE, Line, Lines
from .looking import order_of
from .notes import Notes
from .survey import Survey

PROGRAM = Program("qlog-to-trace")
ROLES = ("client", "server")
# The versions of the format of traces.
FORMATS = (1, 2, 3)
# From how many bytes on a line of progress is worth its place, and how many events lie between two.
LARGE = 20_000_000
EVENTS_OF_PROGRESS = 20_000
# How many records are told of that are no JSON.
MOST_OF_RECORDS = 3
TRACES, CONNECTIONS = "traces", "connections or paths"
LONGEST_LINE = 65_536
# The keys of a line are in the order of their bytes, so that those which begin with `x_` are last.
ENCODER = json.JSONEncoder(separators=(",", ":"), sort_keys=True)

DESCRIPTION = """Turns the qlog of one QUIC connection into a trace that `qaudit check` reads.

Reads qlog 0.3 and 0.4 and drafts before them: one JSON object, JSON-SEQ, or a JSON text a
line. Each guess is at the key `x_guess` of its line, which qaudit ignores. A log whose end is
torn off is converted up to there, and a line on standard error says so."""
EPILOG = """The exit status is 0 for a trace, 2 if the input gives none, 3 if a file or a stream
failed, and 64 for wrong arguments."""


class Version(argparse.Action):
    """Prints the version of the program. With a number it is the older name of --format."""

    def __call__(
        self,
        parser: argparse.ArgumentParser,
        namespace: argparse.Namespace,
        values: object,
        option_string: str | None = None,
    ) -> None:
        if values is None:
            streams.put(f"{parser.prog} {version()}\n")
            parser.exit()
        if values not in [str(it) for it in FORMATS]:
            parser.error(f"argument --version: {values} is none of {FORMATS}; --format sets it")
        namespace.format = int(str(values))


def arguments() -> argparse.ArgumentParser:
    """What may stand on the command line."""
    parser = Parser(prog=PROGRAM.name, description=DESCRIPTION, epilog=EPILOG)
    parser.formatter_class = argparse.RawDescriptionHelpFormatter
    add = parser.add_argument
    add("file", nargs="?", metavar="FILE", help="the qlog (default: standard input)")
    add(
        "--format",
        type=int,
        choices=FORMATS,
        default=FORMATS[-1],
        help=f"trace format version (default: {FORMATS[-1]})",
    )
    add(
        "--version",
        action=Version,
        nargs="?",
        help="prints the version and ends; with a number it is --format",
    )
    add("--vantage", choices=ROLES, help="which side, if the log has both or says neither")
    add(
        "--connection",
        type=natural,
        metavar="N",
        help="which connection, trace or path, from 1 on, if the log has several",
    )
    names = [dialect.name for dialect in DIALECTS]
    add("--dialect", choices=names, help="the kind of log, if the log does not say it")
    add("--notes", action="store_true", help="count the guesses on standard error")
    text = "say at the key x_place of each line where in the log its record begins"
    add("--places", action="store_true", help=text)
    group = parser.add_argument_group(
        "keys of the header", "They replace what is known of the kind of log."
    )
    for key in KEYS:
        key.add_to(group)
    return parser


def natural(text: str) -> int:
    """A whole number from 0."""
    value = int(text)
    if value < 0:
        raise ValueError(text)
    return value


def limit(text: str) -> int | str:
    """A whole number from 0, or none."""
    return text if text == NO_LIMIT else natural(text)


@dataclass(frozen=True)
class Key:
    """A key of the header that the command line may say."""

    option: str
    name: str
    # The version of the format that brought it.
    version: int
    # The strings that it may have. Without any it is `yes` or `no`, or a number of these.
    values: tuple[str, ...] = ()
    numbers: range | None = None
    # An older name of an option that is a number, or `no` for none.
    older: str = ""

    def add_to(self, group: argparse._ArgumentGroup) -> None:
        """Makes an option of it."""
        about = f"{self.name}, of version {self.version}"
        if self.older:
            names, about, unit = (self.option, self.older), f"{about}, or no", "MICROSECONDS"
            group.add_argument(*names, dest=self.name, type=limit, metavar=unit, help=about)
        elif self.numbers is not None:
            group.add_argument(self.option, dest=self.name, type=natural, metavar="N", help=about)
        else:
            values = self.values or tuple(YES_OR_NO)
            group.add_argument(self.option, dest=self.name, choices=values, help=about)

    def value_of(self, args: argparse.Namespace) -> int | str | None:
        """What the arguments say, if they do."""
        said: int | str | None = getattr(args, self.name)
        is_answer = isinstance(said, str) and self.numbers is None
        return YES_OR_NO.get(str(said), said) if is_answer else said


YES_OR_NO = {"yes": True, "no": False}
KEYS = (
    Key("--timer-late", "timer_late_us", 2, numbers=range(10**15 + 1), older="--timer-late-us"),
    Key("--refresh-min-rtt", "refresh_min_rtt", 2),
    Key("--slack-us", "report_slack_us", 2, numbers=range(10**9 + 1)),
    Key("--slack-bytes", "report_slack_bytes", 2, numbers=range(1 << 32)),
    Key("--unit", "unit", 3, ("us", "ns")),
    Key("--window", "window", 3, ("newreno", "reported")),
    Key("--window-overshoot", "window_overshoot", 3),
    Key("--sample-eliciting-only", "sample_eliciting_only", 3),
    Key("--packet-threshold", "packet_threshold", 3, numbers=range(3, 65_536)),
    Key("--timer-early-us", "timer_early_us", 3, numbers=range(10**9 + 1)),
    Key("--loss-by-number", "loss_by_number", 3, ("must", "may")),
    Key("--threshold-counts", "threshold_counts", 3, ("numbers", "packets")),
    Key("--reset-rtt", "reset_rtt", 3),
    Key("--latest-rtt-less-delay", "latest_rtt_less_delay", 3),
    Key("--time-threshold-eighths", "time_threshold_eighths", 3, numbers=range(9, 33)),
    Key("--recovery-by-order", "recovery_by_order", 3),
)


def choices_of(args: argparse.Namespace) -> Choices:
    """What the arguments say of the header."""
    said = ((key.name, key.value_of(args)) for key in KEYS)
    options = tuple((name, value) for name, value in said if value is not None)
    return Choices(args.format, options)


def wrong_in(args: argparse.Namespace) -> str | None:
    """What is wrong with arguments that each are right."""
    for key in KEYS:
        value = key.value_of(args)
        if value is None:
            continue
        if key.version > args.format:
            return f"{key.option} needs --format {key.version}"
        if key.numbers is not None and value != NO_LIMIT and value not in key.numbers:
            return f"{key.option} is {key.numbers.start} to {key.numbers.stop - 1}"
    return None


class Progress:
    """One line on a terminal that says how far a large log was read."""

    def __init__(self, form: Form, size: int, terminal: TextIO | None) -> None:
        self._form, self._size = form, size
        is_shown = terminal is not None and size >= LARGE and terminal.isatty()
        self._stream = terminal if is_shown else None

    def over(self, events: Iterator[Event], what: str) -> Iterator[Event]:
        """The same events, with progress on the way."""
        for number, event in enumerate(events):
            if self._stream and number % EVENTS_OF_PROGRESS == 0:
                part = 100 * self._form.position() // self._size
                self._stream.write(f"\r{what} {part:3} %")
                self._stream.flush()
            yield event
        if self._stream:
            self._stream.write("\r" + " " * (len(what) + 6) + "\r")


def role_of(header: dict[str, object]) -> str | None:
    """Of which endpoint a trace is, if its header can be read and says it."""
    try:
        Times(header)
    except Unusable:
        return None
    vantage = header.get("vantage_point")
    kind, flow = vantage, None
    if isinstance(vantage, dict):
        kind, flow = vantage.get("type"), vantage.get("flow")
    if kind == "network":
        kind = flow
    return str(kind) if kind in ROLES else None


def choose(
    headers: Sequence[dict[str, object]], asked: str | None, number: int | None
) -> tuple[int, str, int]:
    """Which trace of a log, its role, and how many there are of which it could be."""
    if not headers:
        raise Unusable("it has no traces")
    roles = [role_of(header) for header in headers]
    fitting = [at for at, role in enumerate(roles) if role is not None and asked in (None, role)]
    if not fitting and asked is not None and None in roles:
        fitting = [roles.index(None)]
    if not fitting and asked is not None:
        raise Unusable(f"no trace of a {asked} is in it")
    if not fitting:
        text = "its vantage point is no client or server: say which by qlog-to-trace --vantage"
        raise Unusable(text)
    chosen = chosen_of(len(fitting), number, TRACES) if len(fitting) > 1 else 1
    index = fitting[chosen - 1]
    return index, roles[index] or asked or "", len(fitting)


class Converter:
    """Converts one log. How far it is, is told on a terminal if one is named."""

    def __init__(
        self,
        file: BinaryIO,
        args: argparse.Namespace,
        output: TextIO,
        terminal: TextIO | None = None,
    ) -> None:
        self._form = form_of(file)
        self._args = args
        self._output = output
        self.notes = Notes()
        # How many lines of the trace were written.
        self.written = 0
        headers = self._form.headers()
        if len(headers) == 1:
            # What is wrong with it is told; of several traces it is one that nobody can mean.
            Times(headers[0])
        self._index, self._role, self._traces = choose(headers, args.vantage, args.connection)
        self._header = headers[self._index]
        # Of several traces --connection says which; of one trace, which of its connections.
        asked = None if self._traces > 1 else args.connection
        self._chosen = 1 if asked is None else asked
        # Whether events name connections, once the log was read.
        self._has_connections = False
        file.seek(0, 2)
        self._progress = Progress(self._form, file.tell(), terminal)

    def _events(self, what: str) -> Iterator[Event]:
        events = events_of(self._form.events(self._index), self._header)
        return self._progress.over(events, what)

    @property
    def lacks(self) -> list[str]:
        """What of the log is not in its trace, once it is written: records, its end, others of its
        connections."""
        form = self._form
        told = [f"{it}; the record is passed over" for it in form.passed_over[:MOST_OF_RECORDS]]
        if len(form.passed_over) > MOST_OF_RECORDS:
            told.append(f"{len(form.passed_over)} such records are passed over")
        if form.torn_at:
            what = form.break_of_record or "torn off"
            told.append(f"{what} at {form.torn_at}; the trace ends there")
        return told + self.notes.others

    def _write(self, line: Line) -> None:
        text = ENCODER.encode(line)
        if len(text) > LONGEST_LINE and PLACE in line:
            # The place is no reason that a log gives no trace.
            text = ENCODER.encode({key: value for key, value in line.items() if key != PLACE})
        if len(text) > LONGEST_LINE:
            raise Unusable(f"a line of {len(text)} bytes; a trace has {LONGEST_LINE} at most")
        try:
            self._output.write(text + "\n")
        except BrokenPipeError:
            raise
        except OSError as error:
            raise OutputError(error) from error
        self.written += 1

    def convert(self) -> None:
        """Reads the log twice, and writes the trace."""
        choices = choices_of(self._args)
        dialect = self._dialect()
        survey = self._survey(dialect)
        dialect = self._looked_at(dialect, survey)
        options = options_of(dialect, survey, choices, self.notes)
        unit, has_places = options.get("unit", "us"), self._args.places
        lines = Lines(self._write, self.notes, unit, has_places=has_places)
        size = write_header(lines, self.notes, self._role, dialect, survey, options)
        eighths = options.get("time_threshold_eighths", DEFAULT_EIGHTHS)
        dialect = replace(dialect, time_threshold_eighths=eighths)
        conversion = Conversion(dialect, self._role, survey, lines, self.notes, size)
        conversion.is_window_reported = options.get("window") == "reported"
        events = self._events("converted")
        if self._has_connections:
            events = Connections(self._chosen).over(events)
        conversion.convert(each_loss(events), lambda: self._form.torn_at is not None)

    def _survey(self, dialect: Dialect) -> Survey:
        """The first reading, and what it says of connections."""
        connections = Connections(self._chosen)
        events = connections.over(self._events("looked at"))
        try:
            survey = Survey(each_loss(events), dialect, self._role)
        except Unusable:
            chosen_of(max(connections.count, 1), self._chosen, CONNECTIONS)
            if self._form.break_of_record:
                raise Unusable(self._form.break_of_record, self._form.torn_at) from None
            raise
        chosen_of(max(connections.count, 1), self._chosen, CONNECTIONS)
        self._has_connections = connections.count > 0
        if self._traces > 1:
            chosen = self._args.connection or 1
            self.notes.others.append(others(self._traces, chosen, TRACES))
        if connections.count > 1:
            self.notes.others.append(others(connections.count, self._chosen, CONNECTIONS))
        return survey

    def _looked_at(self, dialect: Dialect, survey: Survey) -> Dialect:
        """The dialect, with what the first reading found."""
        looking = survey.looking
        if dialect is GENERIC:
            found = looking.dialect(dialect, survey.has_milliseconds)
            self.notes.findings = looking.told(found, survey.has_milliseconds)
        else:
            found = looking.corrected(dialect)
            if found is not dialect:
                self.notes.misread(
                    f"its order is not that of {dialect.name}: {order_of(found).value};"
                    " it is read so"
                )
        if doubt := looking.doubt():
            self.notes.misread(doubt)
        return found

    def _dialect(self) -> Dialect:
        asked = self._args.dialect
        return BY_NAME[asked] if asked else dialect_of(self._header)


def write_trace(args: argparse.Namespace, name: str) -> int:
    """Writes the trace of a log to standard output; the exit status."""
    converter = None
    try:
        with PROGRAM.opened(args.file) as file:
            streams.put("")
            converter = Converter(file, args, sys.stdout, sys.stderr)
            converter.convert()
            streams.put("")
    except (Unusable, MemoryError) as error:
        written = converter.written if converter else 0
        rest = f"; the trace ends after its line {written}" if written else ""
        is_fault = isinstance(error, MemoryError)
        PROGRAM.complain(f"{name}: {'out of memory' if is_fault else error}{rest}")
        return FAILED if is_fault else BAD_INPUT
    for told in converter.lacks + converter.notes.told():
        PROGRAM.complain(f"{name}: {told}")
    if args.notes:
        for note in converter.notes.lines():
            streams.say(f"{note}\n")
    return 0


def main(words: list[str] | None = None) -> int:
    """Runs the command; the exit status."""
    parser = arguments()
    args = parser.parse_args(words)
    wrong = wrong_in(args)
    if wrong:
        parser.error(wrong)
    return PROGRAM.convert(args.file, lambda name: write_trace(args, name))


def program() -> None:
    """Runs the command and ends."""
    PROGRAM.run(main)
