"""The forms in which a trace is written: the same events, in lines that differ in the order of
their keys, in white space, in how they end, or by keys that the format does not know.

A template is a line in the order of docs/format.md and without white space, with `%d` and `%s` for
what differs from line to line. Its values have no commas.
"""

import itertools
import random
from collections.abc import Callable, Iterable
from operator import itemgetter
from typing import Any, NamedTuple

import conformance_path  # noqa: F401
from constants import METRICS

Span = tuple[int, int]
# The keys of a line, with their quotes, and the values.
Fields = list[tuple[bytes, bytes]]

# How many orders of its keys a kind of line has in turn, where they are shuffled.
SHUFFLES = 7
# The keys that a line may leave out, by its kind.
OPTIONAL: dict[bytes, tuple[str, ...]] = {
    b'"sent"': ("leave",),
    b'"ack"': ("delay", "limited"),
    b'"metrics"': METRICS,
}


def as_it_is(fields: Fields) -> list[Fields]:
    """The order of docs/format.md."""
    return [fields]


def in_ascending_order(fields: Fields) -> list[Fields]:
    """Keys in ascending order."""
    return [sorted(fields)]


def with_time_first(fields: Fields) -> list[Fields]:
    """The time before all other keys, if there is one."""
    return [sorted(fields, key=lambda it: it[0] != b'"time"')]


def shuffled(fields: Fields) -> list[Fields]:
    """Some orders by chance, the same ones in each run."""
    chance = random.Random(len(fields))
    return [chance.sample(fields, len(fields)) for _ in range(SHUFFLES)]


class Form(NamedTuple):
    """A name, and how a line is written. Each line of a kind has one of the orders and one of the
    keys before and behind the others, in turn."""

    name: str
    orders: Callable[[Fields], list[Fields]] = as_it_is
    comma: bytes = b","
    colon: bytes = b":"
    end: bytes = b"\n"
    before: bytes = b""
    behind: tuple[bytes, ...] = (b"",)
    has_nulls: bool = False


SORTED = Form("sorted", orders=in_ascending_order)
FORMAT = Form("format")
# Whose lines are compared with other readers.
FORMS = (
    SORTED,
    FORMAT,
    # As Python's `json.dumps` writes where nothing else is asked for.
    Form("spaces", comma=b", ", colon=b": "),
    Form("unknown", behind=(b',"note":"seen"', b',"serial":4711')),
)
# As loggers write that think of something else than this format.
STYLES = (
    Form("time-first", orders=with_time_first),
    Form("shuffled", orders=shuffled),
    Form("crlf", end=b"\r\n"),
    Form("nulls", has_nulls=True),
    Form("numbers", behind=(b',"note":1250000.5', b',"serial":-7')),
    Form("nested", behind=(b',"note":{"path":[0,{"ecn":null}],"name":"up"}',)),
    Form("escapes", behind=(b',"note":"no \\"reply\\" yet"', b',"serial":"\\u00e9\\/"')),
    Form("utf-8", behind=(',"note":"größer"'.encode(),)),
    # As Go's `slog` writes, whose own keys come first.
    Form("slog", before=b'"level":"INFO","msg":"recovery","source":"conn.go:812",'),
)
ALL_FORMS = (*FORMS, *STYLES)


def fields_of(template: bytes) -> Fields:
    """The keys and values of a template."""
    fields = [it.partition(b":") for it in template[1:-1].split(b",")]
    return [(key, value) for key, _colon, value in fields]


def with_nulls(fields: Fields) -> Fields:
    """The keys and values, with null at each key that was left out."""
    said = dict(fields)
    keys = [f'"{it}"'.encode() for it in OPTIONAL.get(said[b'"event"'], ())]
    return fields + [(key, b"null") for key in keys if key not in said]


class Template:
    """A template in a form."""

    def __init__(self, form: Form, template: bytes) -> None:
        fields = fields_of(template)
        # The values that come one after another when a line is filled.
        self.differing = [it for it in fields if b"%" in it[1]]
        orders = form.orders(with_nulls(fields) if form.has_nulls else fields)
        self.ways = itertools.cycle(
            [
                (self.text(form, order, behind), self.picked(order))
                for order, behind in itertools.product(orders, form.behind)
            ]
        )

    def text(self, form: Form, order: Fields, behind: bytes) -> bytes:
        """The line in an order of its keys, with what stands behind them."""
        members = form.comma.join(key + form.colon + value for key, value in order)
        return b"{" + form.before + members + behind + b"}" + form.end

    def picked(self, order: Fields) -> Callable[[tuple[Any, ...]], Any]:
        """Picks the values of a line in an order of its keys."""
        return itemgetter(*(self.differing.index(it) for it in order if it in self.differing))

    def filled(self, values: tuple[Any, ...]) -> bytes:
        """The line with these values."""
        text, picked = next(self.ways)
        line: bytes = text % picked(values)
        return line


class Writer:
    """Writes lines in a form."""

    def __init__(self, form: Form) -> None:
        self.form = form
        self.templates: dict[bytes, Template] = {}

    def line(self, template: bytes, *values: Any) -> bytes:
        """The line of a template and its values, of which there is one at least."""
        if template not in self.templates:
            self.templates[template] = Template(self.form, template)
        return self.templates[template].filled(values)

    def ranges(self, spans: Iterable[Span]) -> bytes:
        """Ranges as a line has them."""
        pair = b"[%d" + self.form.comma + b"%d]"
        return b"[" + self.form.comma.join([pair % span for span in spans]) + b"]"
