"""The places in the log of the lines of a trace, by --places."""

import json
import re
import unittest
from pathlib import Path
from typing import Any

from qlog_to_trace.forms import RECORD_SEPARATOR
from qlog_to_trace.scanner import DECODER

from .made import (
    TOP,
    End,
    converted,
    document,
    header,
    lost,
    metrics,
    received,
    sent,
    sequence,
)
from .test_timers import expired

REAL = TOP / "conformance" / "real" / "traces"
PLACE = re.compile(r"(guessed at )?(line|byte) (\d+)(?: to (line|byte) (\d+))?")
# The events of a log that a line can be from, without their categories. Keys are there once a
# Handshake packet came, or by an event of their own.
FROM: dict[str, tuple[str, ...]] = {
    "sent": ("packet_sent",),
    "ack": ("packet_received",),
    "lost": ("packet_lost",),
    "timer": ("loss_timer_updated", "timer_updated"),
    "metrics": ("metrics_updated", "recovery_metrics_updated", "metric_update"),
    "keys": ("packet_received", "key_updated"),
    "confirmed": ("key_discarded", "key_retired"),
    "discard": ("key_discarded", "key_retired"),
}
FIVE = [sent(0, number) for number in range(5)]
LOST = [*FIVE, received(50, [[4, 4]]), lost(50, 0), lost(50, 1)]
# How many ranges a line has room for that has no place.
MANY = 4_675


def places(end: End, kind: str) -> list[str | None]:
    """The places of the lines of a kind."""
    return [line.get("x_place") for line in end.only(kind)]


class Made(unittest.TestCase):
    """Logs that are made here."""

    def test_none_is_said_if_nobody_asks(self) -> None:
        plain, told = converted(LOST, name="something"), converted(LOST, "--places", name="x")
        self.assertNotIn("x_place", plain.text)
        for line in told.lines:
            self.assertEqual("x_place" in line, line["event"] != "header")
            line.pop("x_place", None)
        self.assertEqual(told.lines, converted(LOST, name="x").lines)

    def test_lines(self) -> None:
        end = converted(LOST, "--places", name="something")
        self.assertEqual(places(end, "sent"), [f"line {it}" for it in range(2, 7)])
        self.assertEqual(places(end, "ack"), ["line 7"])
        self.assertEqual(places(end, "lost"), ["line 8 to line 9"])

    def test_bytes(self) -> None:
        text = document(header("something"), LOST, indent=1)
        end = End(text, "--places")
        starts = [int(str(it).removeprefix("byte ")) for it in places(end, "sent")]
        found = [json.JSONDecoder().raw_decode(text, it)[0] for it in starts]
        self.assertEqual(found, FIVE)

    def test_a_report_is_from_its_own_record(self) -> None:
        values = {"latest_rtt": 50, "smoothed_rtt": 50, "min_rtt": 50, "rtt_variance": 25}
        events = [sent(0, 0), metrics(0, bytes_in_flight=1200), received(50, [[0, 0]])]
        events += [metrics(50, **values, bytes_in_flight=0), metrics(60, pto_count=0)]
        end = converted(events, "--places", name="something")
        self.assertEqual(places(end, "metrics"), ["line 3", "line 5"])

    def test_what_no_record_says(self) -> None:
        """A probe timeout that only a PING shows, and keys that go unsaid."""
        events = [sent(0, 0, "initial"), sent(200, 1, "initial", frames=("ping", "padding"))]
        events += [received(250, [[0, 1]], "initial"), received(251, None, "handshake")]
        events += [sent(252, 0, "handshake")]
        end = converted(events, "--places", name="aioquic", role="client")
        self.assertEqual(places(end, "timer"), ["guessed at line 3"])
        self.assertEqual(places(end, "discard"), ["guessed at line 6"])
        self.assertEqual(places(end, "keys"), ["line 5"])
        # A value that is guessed is no guessed line.
        probe = end.only("sent")[1]
        self.assertEqual((probe["x_place"], "x_guess" in probe), ("line 3", True))

    def test_a_timer_of_the_log(self) -> None:
        events = [*FIVE, received(50, [[3, 3]]), expired(60, "ack"), lost(60, 2)]
        end = converted(events, "--places", name="something")
        self.assertEqual((places(end, "timer"), places(end, "lost")), (["line 8"], ["line 9"]))

    def test_a_line_without_room(self) -> None:
        ranges = [[10_000 + 2 * number] * 2 for number in range(MANY)]
        log = sequence(header("something"), [sent(0, 10_000), received(50, ranges)])
        (line,) = End(log).text.splitlines()[2:]
        self.assertLess(65_536 - len(line), len(',"x_place":"line 3"'))
        end = End(log, "--places")
        self.assertEqual((end.status, places(end, "ack")), (0, [None]))


def record_at(log: Path, unit: str, number: int) -> Any:
    """The record of a log that begins at a line or a byte."""
    data = log.read_bytes()
    if unit == "byte":
        # Byte and character are one, or not far apart.
        return DECODER.raw_decode(data[number:].decode("utf-8", "replace"))[0]
    text = data.split(b"\n")[number - 1]
    return json.loads(text.removeprefix(RECORD_SEPARATOR))


def name_of(record: Any) -> str:
    """The name of the event of a record, without its category."""
    return str(record.get("name") or record["event"]).rpartition(":")[2]


def number_in(record: Any) -> int:
    """The number of the packet of a record."""
    data = record["data"]
    return int(data.get("header", data).get("packet_number", data.get("packet_number")))


class Real(unittest.TestCase):
    """In each log of a real stack, at the place of a line there is a record that can say it."""

    def check(self, log: Path, line: Any) -> str:
        """A line of a trace; what it was found to be from."""
        match = PLACE.fullmatch(str(line["x_place"]))
        assert match, line
        guessed, unit, number, *_, last = match.groups()
        found = record_at(log, unit, int(number))
        name, kind = name_of(found), line["event"]
        if guessed:
            self.assertIn(kind, ("timer", "discard", "confirmed", "metrics"), line)
            return "guessed"
        self.assertIn(name, FROM[kind], line)
        if kind == "sent":
            self.assertEqual(number_in(found), line["number"])
        if kind == "lost":
            for at in (number, last or number):
                lost = number_in(record_at(log, unit, int(at)))
                self.assertTrue(any(low <= lost <= high for low, high in line["ranges"]), line)
        return str(kind)

    def test_each_line_has_its_record(self) -> None:
        for path in sorted(REAL.glob("*.qlog")):
            end = End(path.read_bytes(), "--places")
            with self.subTest(path.name):
                kinds = {self.check(path, line) for line in end.lines[1:]}
                self.assertLessEqual({"sent", "ack"}, kinds)


if __name__ == "__main__":
    unittest.main()
