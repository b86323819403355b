"""Traces and pages for the tests, and what is in a page."""

import base64
import json
import os
import sys
import tempfile
import unittest
import zlib
from html.parser import HTMLParser
from pathlib import Path
from typing import Any

PAGE = Path(__file__).resolve().parents[1]
PROJECT = PAGE.parent
TRACES = PROJECT / "conformance" / "traces"
STAND_IN = PAGE / "stand_in.py"
# The program that the commands run in tests: one that was proved where the environment names it.
PROGRAM = Path(os.environ.get("QAUDIT_WHY", STAND_IN)).resolve()
# The converter of logs, likewise; without one the reference in Python converts them.
REFERENCE = PROJECT / "conformance" / "qlog"
CONVERTER = Path(os.environ.get("QLOG_TO_TRACE", REFERENCE / "qlog-to-trace")).resolve()
PROGRAMS = ("--program", str(PROGRAM), "--converter", str(CONVERTER))
sys.path += [str(PROJECT / "conformance"), str(REFERENCE)]

import departure_objects  # noqa: E402
from departures import course_of  # noqa: E402
from objects import object_line  # noqa: E402
from rows import first_not_followed, first_not_good, rows_of  # noqa: E402

from qaudit_page.library import PLACE, dygraphs  # noqa: E402
from qaudit_page.page import Told, Wanted, written  # noqa: E402
from qaudit_page.pair import written as written_of_two  # noqa: E402
from qaudit_page.payload import part_of  # noqa: E402
from qaudit_page.program import Verdict  # noqa: E402
from qaudit_page.rows import columns_of  # noqa: E402
from qaudit_page.trace import Trace, trace_of  # noqa: E402
from stand_in import judged  # noqa: E402

LIBRARY = dygraphs(None) if PLACE.exists() else "// no dygraphs"
NO_LIBRARY = "" if PLACE.exists() else "Debian's package libjs-dygraphs is not installed"
HEADER = '{"event":"header","version":1,"role":"server","max_datagram_size":1200}'


def sent(number: int, time: int = 0, space: str = "app", size: int = 1200, more: str = "") -> str:
    """A packet that is ack-eliciting."""
    return (
        f'{{"event":"sent","time":{time},"space":"{space}","number":{number},"size":{size},'
        f'"eliciting":true,"in_flight":true{more}}}'
    )


def acked(time: int, *ranges: tuple[int, int], space: str = "app") -> str:
    """An acknowledgment."""
    listed = json.dumps([list(pair) for pair in ranges])
    return f'{{"event":"ack","time":{time},"space":"{space}","ranges":{listed}}}'


def joined(*lines: str) -> bytes:
    """Lines as a trace."""
    return "".join(f"{line}\n" for line in lines).encode()


def report_of(path: Path) -> str:
    """The report of a trace of the corpus."""
    return path.with_suffix(".report").read_text()


def told(data: bytes, report: str, *, is_strict: bool) -> tuple[bytes, int | None]:
    """The object of a trace, and the first line that has no row, by the second machine: past
    departures, or as of a program that does not go on."""
    if is_strict:
        return object_line("-", data, report), first_not_good(data, report)
    course = course_of("-", data, report)
    said = departure_objects.text_of("-", data, report, course, {})
    return said, first_not_followed(data, report, course)


def seen(
    data: bytes, report: str | None = None, *, is_strict: bool = False
) -> tuple[Trace, Verdict]:
    """A trace as a page has it, by the second machine."""
    said, last = told(data, report or judged(data), is_strict=is_strict)
    verdict = Verdict(json.loads(said))
    rows = [json.loads(row) for row in rows_of(data, last)]
    # In pieces, as from a program.
    pieces = [columns_of(rows[place : place + 7]) for place in range(0, len(rows), 7)]
    trace = trace_of(data, pieces)
    trace.read_rest(verdict.first_unjudged)
    return trace, verdict


def made(data: bytes, report: str | None = None, *, is_strict: bool = False, **wanted: Any) -> str:
    """The page of a trace."""
    trace, verdict = seen(data, report, is_strict=is_strict)
    fields: dict[str, Any] = {"trace": Path("made.trace"), **wanted}
    asked = Wanted(**fields)
    part = part_of(trace, verdict, asked.first, asked.last)
    return written(Told(asked, trace, verdict, part), LIBRARY)


def made_of_two(first: bytes, second: bytes, *names: str) -> str:
    """The page of two traces."""
    runs = []
    for data, name in zip((first, second), names or ("first.trace", "second.trace"), strict=True):
        trace, verdict = seen(data)
        part = part_of(trace, verdict, None, None)
        runs.append(Told(Wanted(Path(name), title=name), trace, verdict, part))
    return written_of_two("two traces", LIBRARY, (runs[0], runs[1]))


class InFolder(unittest.TestCase):
    """A test that has a folder of its own."""

    def setUp(self) -> None:
        self.folder = Path(self.enterContext(tempfile.TemporaryDirectory()))

    def file(self, name: str, data: bytes) -> Path:
        """A file with these bytes."""
        path = self.folder / name
        path.write_bytes(data)
        return path


class Page(HTMLParser):
    """What is in a page."""

    def __init__(self, text: str) -> None:
        super().__init__(convert_charrefs=True)
        self.tags: list[tuple[str, dict[str, str | None]]] = []
        self.open: list[str] = []
        self.by_id: dict[str, str] = {}
        self.texts: dict[str, list[str]] = {}
        # Of the table of departures, the texts of each row but the head.
        self.cells: list[list[str]] = []
        self.feed(text)
        self.close()

    def handle_starttag(self, tag: str, attrs: list[tuple[str, str | None]]) -> None:
        """An element begins."""
        found = dict(attrs)
        self.tags.append((tag, found))
        if tag not in ("meta", "input", "br"):
            self.open.append(found.get("id") or tag)
        if "departures" in self.open and tag == "tr":
            self.cells.append([])
        if self.is_in_row() and tag in ("td", "th") and found.get("scope") != "col":
            self.cells[-1].append("")

    def handle_endtag(self, tag: str) -> None:
        """An element ends."""
        self.open.pop()

    def handle_data(self, data: str) -> None:
        """Text, which belongs to all elements that are open."""
        for name in self.open:
            self.by_id[name] = self.by_id.get(name, "") + data
        if self.is_in_row() and self.cells[-1] and "summary" not in self.open:
            self.cells[-1][-1] += data
        if self.open:
            self.texts.setdefault(self.open[-1], []).append(data)

    def is_in_row(self) -> bool:
        """Whether a row of the table of departures is open."""
        return "departures" in self.open and "tr" in self.open and bool(self.cells)

    def policy(self) -> str:
        """The policy of the page."""
        metas = [attributes for tag, attributes in self.tags if tag == "meta"]
        return next(it["content"] or "" for it in metas if "http-equiv" in it)

    def data(self) -> Any:
        """The columns."""
        return json.loads(unpacked(self.by_id["data"]))

    def rows(self) -> list[tuple[str, ...]]:
        """The table of all departures, a tuple of texts for each kind: its rule, what it is, how
        often it came, by how much at most, and the lines."""
        return [tuple(" ".join(cell.split()) for cell in row) for row in self.cells if row]

    def lines(self) -> list[str]:
        """The lines."""
        return unpacked(self.by_id["text"]).split("\n")


def unpacked(text: str) -> str:
    """What was packed."""
    return zlib.decompress(base64.b64decode(text)).decode()


def summed(differences: list[int]) -> list[int]:
    """The values whose differences these are."""
    total, values = 0, []
    for difference in differences:
        total += difference
        values.append(total)
    return values


def values_of(column: Any) -> list[int | None]:
    """The values of a column, exactly."""
    values = [None if it == -1 else it for it in summed(column["by"])]
    for place, digits in column["exact"].items():
        values[int(place)] = int(digits)
    return values
