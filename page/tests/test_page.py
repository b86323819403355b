"""The HTML of pages, by a parser, and the command that writes them."""

import base64
import hashlib
import json
import os
import re
import subprocess
import sys
import tempfile
import unittest
from pathlib import Path
from typing import Any
from unittest import mock

from tests.made import (
    HEADER,
    LIBRARY,
    NO_LIBRARY,
    PAGE,
    PROGRAM,
    STAND_IN,
    TRACES,
    Page,
    acked,
    joined,
    made,
    report_of,
    seen,
    sent,
    summed,
    unpacked,
)

from sources import SOURCES, VALUE_SOURCES

from qaudit_page import payload, rows
from qaudit_page.departures import departures_of, section_of
from qaudit_page.failure import Failure, Status
from qaudit_page.grounds import Basis
from qaudit_page.program import PAST, Run, Verdict
from qaudit_page.rows import AMOUNTS, Rows, rows_by
from qaudit_page.rules import FAULTS, OF_FORMAT, RULES, VALUES, meaning_at, requirement_of
from qaudit_page.texts import milliseconds, runs

COMMAND = PAGE / "qaudit-page"
# Of an object, what is no amount, or is told in other words.
UNTOLD = {
    "file",
    "verdict",
    "line",
    "rule",
    "name",
    "field",
    "requirement",
    "section",
    "event",
    "fault",
    "behind_header",
    "window_overshoot",
    "counts_from",
    "free_space",
    "owed_space",
    # Of all departures.
    "events",
    "departures",
    "end",
}
EVIL = (
    "</script><script>window.pwned=1</script><img src=x onerror=window.pwned=2>\"'&"
    "\u2028\u202e\x00\x1b[2J"
)
EMPTY = "unreadable line 1 F7 header-place\n"


def knows_all(program: Path) -> bool:
    """Whether a program goes past departures."""
    for options in (PAST.verdict, PAST.rows):
        command = [str(program), *options, "-"]
        ended = subprocess.run(command, input=b"", capture_output=True, timeout=60, check=False)
        if ended.returncode == Status.USAGE:
            return False
    return True


def told(page: Page) -> str:
    """The amounts of a page."""
    return " ".join(page.by_id.get("facts", "").split())


def missing(said: dict[str, Any], unit: str, text: str) -> list[str]:
    """The amounts of an object that a text does not have."""
    absent = []
    for key, value in said.items():
        for shown in shown_of(key, value, unit):
            if not re.search(rf"(?<![\d,.]){re.escape(shown)}(?![\d])", text):
                absent.append(f"{key} {shown}")
    return absent


def shown_of(key: str, value: Any, unit: str) -> list[str]:
    """How an amount stands in a page."""
    if key in UNTOLD or value in (None, False, [], 0) and not key.startswith(("time_", "spent")):
        return []
    if value is None:
        return ["none"]
    if key == "differences" or key.endswith("_counted"):
        return [
            it
            for one in value
            for name, amount in one.items()
            for it in shown_of(name, amount, unit)
        ]
    if key.endswith("_bytes"):
        return [f"{value:,}"]
    if key.endswith(f"_{unit}"):
        # Of the two round-trip times that a loss delay goes by the greater is told.
        is_one_of_two = key in (f"latest_rtt_{unit}", f"smoothed_rtt_{unit}")
        return [] if is_one_of_two else [milliseconds(value, unit)]
    if isinstance(value, list):
        return [runs(value)]
    words = {"pto": "probe timeout", "loss": "loss timer"} if key.endswith("kind") else {}
    return [words.get(str(value), str(value))]


class Corpus(unittest.TestCase):
    """The pages of the corpus."""

    def test_each_rule_and_fault_names_its_amounts_and_its_line(self) -> None:
        met = set()
        for path in sorted(TRACES.glob("*.trace")):
            report = report_of(path)
            if report.startswith("accepted"):
                continue
            trace, verdict = seen(path.read_bytes(), report)
            page = Page(made(path.read_bytes(), report, trace=path))
            met.add(verdict.rule)
            with self.subTest(path.stem):
                self.assertEqual(missing(verdict.said, trace.unit, told(page)), [])
                self.assertIn(f"line {verdict.line:,}", page.by_id["p"])
                self.assertIn(f"{verdict.rule} {verdict.name}", page.by_id["p"])
                meaning = meaning_at(verdict.rule, str(verdict.said.get("field", "")))
                assert meaning is not None
                self.assertIn(meaning.sentence, page.by_id["p"])
                self.assertIn(meaning.source, page.by_id["p"])
        self.assertEqual(met, (RULES.keys() | FAULTS.keys()) - {"F11"})

    def test_names_are_those_of_the_rows_of_the_pages(self) -> None:
        names = {
            **{rule: it.name for rule, it in RULES.items()},
            **{fault: it.name for fault, it in FAULTS.items()},
        }
        machine = (PAGE.parent / "docs" / "machine.md").read_text()
        form = (PAGE.parent / "docs" / "format.md").read_text()
        for number, name in names.items():
            with self.subTest(number):
                page = machine if number.startswith("V") else form
                self.assertRegex(page, rf"{number}\b[^\n]*{name}")

    def test_levels_are_those_of_the_second_reading(self) -> None:
        found = {f"{rule} {it.name}": (it.section, it.level) for rule, it in RULES.items()}
        metric = found.pop("V16 metric")
        self.assertEqual(metric, ("RFC 9002, 2, 5, 7", "described"))
        found |= {f"V16 metric {name}": it for name, it in VALUES.items()}
        wanted = {str(rule): it for rule, it in SOURCES.items()}
        wanted |= {f"V16 metric {name}": it for name, it in VALUE_SOURCES.items()}
        self.assertEqual(found.keys(), wanted.keys())
        for name, source in wanted.items():
            with self.subTest(name):
                section = OF_FORMAT if source.level == "format" else source.section
                self.assertEqual(found[name], (section, source.level))
                number, kind, *field = name.split(" ")
                said = {"rule": number, "name": kind} | {"field": it for it in field}
                self.assertEqual(requirement_of(said), source.level.requirement)
                other = said | {"requirement": "SHOULD"}
                self.assertEqual(requirement_of(other), "SHOULD")

    def test_a_window_that_is_passed(self) -> None:
        data = joined(HEADER, *(sent(n) for n in range(10)), sent(10, 0, size=1252))
        page = Page(made(data))
        self.assertIn("12,000 + 1,252 = 13,252 B", told(page))
        self.assertIn("past it by 1,252 B", told(page))
        self.assertIn('"number":10', page.by_id["quote"])

    def test_the_verdict_stands_without_script(self) -> None:
        path = TRACES / "quinn-growth-before-the-loss.trace"
        text = made(path.read_bytes(), report_of(path))
        plain = re.sub(r"<script.*?</script>", "", text, flags=re.DOTALL)
        page = Page(plain)
        self.assertIn("Refused at line 84: V16 metric window.", page.by_id["p"])
        self.assertIn("14,560 B", told(page))
        self.assertIn('"window":14560', page.by_id["quote"])
        self.assertIn("max_ack_delay", page.by_id["options"])

    def test_accepted_and_empty(self) -> None:
        page = Page(made(joined(HEADER, sent(0))))
        self.assertIn("Accepted.", page.by_id["p"])
        self.assertNotIn("quote", page.by_id)
        page = Page(made(b"", EMPTY))
        self.assertEqual(page.data()["count"], 0)
        self.assertIn("F7 header-place", page.by_id["p"])


class Departures(unittest.TestCase):
    """The table of all departures."""

    def page(self, name: str, **more: Any) -> Page:
        """The page of a trace of the corpus."""
        path = TRACES / f"{name}.trace"
        return Page(made(path.read_bytes(), report_of(path), **more))

    def test_rows_by_hand(self) -> None:
        page = self.page("several-departures")
        window, timer = RULES["V7"], RULES["V13"]
        self.assertEqual(
            page.rows(),
            [
                (
                    "V7 past-window",
                    f"{window.sentence} {window.source}",
                    "4",
                    "1,740 B",
                    "13 15 17 22",
                ),
                ("V13 timer-early", f"{timer.sentence} {timer.source}", "1", "0.2 ms", "24"),
            ],
        )
        links = [found["href"] for tag, found in page.tags if tag == "a"]
        # The verdict, the longest silence, and the table; then come the silences.
        self.assertEqual(links[:7], [f"#line={line}" for line in (13, 24, 13, 15, 17, 22, 24)])
        told_of_all = " ".join(page.by_id["departures"].split())
        by_level = "(4 MUST, 1 described)"
        self.assertIn(f"The sender breaks rules 5 times in 22 events {by_level}.", told_of_all)
        self.assertIn("Everything else in the trace follows RFC 9002.", told_of_all)

    def test_the_verdict_stays_the_first_departure(self) -> None:
        page = self.page("several-departures")
        self.assertIn("Refused at line 13: V7 past-window.", page.by_id["p"])
        self.assertIn("12,000 + 1,200 = 13,200 B", told(page))
        self.assertNotIn("judged", page.by_id["overview"])

    def test_each_way_to_end(self) -> None:
        for name, words, line in (
            ("departure-and-then-a-loss-set", "the trace is refused at line 15: V4 loss-set.", 14),
            (
                "departure-and-a-loss-owed-at-the-end",
                "the trace is refused at line 14: V17 owed-at-end.",
                14,
            ),
            (
                "departure-and-then-no-json",
                "the trace cannot be read at line 15: F1 not-json.",
                13,
            ),
            (
                "departure-and-then-a-key-missing",
                "the trace cannot be read at line 14: F3 missing ranges.",
                13,
            ),
            (
                "early-timers-past-the-fortieth-doubling",
                "the trace is refused at line 83: V13 timer-early.",
                82,
            ),
        ):
            with self.subTest(name):
                page = self.page(name)
                self.assertIn(f"After that {words}", " ".join(page.by_id["departures"].split()))
                self.assertIn(f"judged up to line {line}", page.by_id["overview"])

    def test_the_end_has_its_amounts(self) -> None:
        page = self.page("departure-and-then-a-loss-set")
        self.assertIn("owed and not named 2", " ".join(page.by_id["departures"].split()))

    def test_amounts_past_64_bits(self) -> None:
        page = self.page("early-timers-past-64-bits")
        self.assertEqual(page.rows()[0][3], "1,649,267,441,663,999,999.999 ms")

    def test_of_many_lines_most_are_folded(self) -> None:
        page = self.page("quinn-growth-before-the-loss")
        rows = {row[0]: row for row in page.rows()}
        self.assertEqual(rows["V16 metric window"][2], "833")
        self.assertEqual(len(rows["V16 metric window"][4].split()), 833)
        more = [text for text in page.texts["summary"] if text.endswith(" more")]
        self.assertEqual(more[:3], ["73 more", "821 more", "821 more"])

    def test_of_more_than_a_thousand_the_first_are_named(self) -> None:
        data = joined(HEADER, *(sent(n) for n in range(1015)))
        page = Page(made(data))
        (row,) = page.rows()
        self.assertEqual((row[0], row[2]), ("V7 past-window", "1,005"))
        self.assertEqual(row[4].split()[-1], "1,011")
        self.assertIn("988 more, of 1,005 in all", page.by_id["departures"])
        self.assertEqual(len(page.data()["departures"][0]["lines"]), 1000)

    def test_without_departures_there_is_none(self) -> None:
        for name in ("app-pto", "loss-set-partial", "no-event"):
            with self.subTest(name):
                page = self.page(name)
                self.assertNotIn("departures", page.by_id)
                self.assertIsNone(page.data()["end"])
        self.assertNotIn("departures", self.page("several-departures", is_strict=True).by_id)

    def test_names_are_no_markup(self) -> None:
        data = joined(HEADER, *(sent(n) for n in range(11)))
        trace, verdict = seen(data)
        kind = verdict.said["departures"][0] | {"name": EVIL}
        end = {"verdict": "refused", "line": 9, "rule": "V0", "name": EVIL}
        evil = Verdict(verdict.said | {"departures": [kind], "end": end})
        text = section_of(evil, Basis(), trace.unit)
        self.assertNotIn("<img", text)
        self.assertNotIn("<script", text)
        self.assertEqual(text.count("&lt;img"), 2)

    def test_unknown_departures_are_a_failure(self) -> None:
        for said in ({}, {"rule": "V7"}, 5, {"rule": "V7", "name": "x", "count": 1, "lines": [[]]}):
            verdict = Verdict({"verdict": "refused", "line": 2, "departures": [said]})
            with self.subTest(said), self.assertRaisesRegex(Failure, "unknown violations"):
                departures_of(verdict)


class Safety(unittest.TestCase):
    """Traces that mean harm, in the HTML."""

    def test_policy(self) -> None:
        text = made(joined(HEADER, sent(0)))
        page = Page(text)
        policy = page.policy()
        self.assertTrue(policy.startswith("default-src 'none'; "))
        self.assertNotIn("unsafe", policy)
        scripts = re.findall(r"<script>(.*?)</script>", text, flags=re.DOTALL)
        styles = re.findall(r"<style>(.*?)</style>", text, flags=re.DOTALL)
        self.assertEqual((len(scripts), len(styles)), (1, 1))
        drawing = [unpacked(page.by_id[name]) for name in ("library", "diagrams")]
        for inline in scripts + drawing + styles:
            digest = hashlib.sha256(inline.encode()).digest()
            self.assertIn(f"'sha256-{base64.b64encode(digest).decode()}'", policy)
        for _, attributes in page.tags:
            self.assertFalse({"style", "onclick", "onload", "src"} & attributes.keys())

    def test_nothing_of_a_trace_is_markup(self) -> None:
        quiet = Page(made(joined(HEADER, sent(0))))
        line = json.dumps({"event": "sent", "note": EVIL}, ensure_ascii=False)
        evil = Page(
            made(joined(HEADER, line, f"<b>{EVIL}"), title=EVIL, trace=Path(f"a{EVIL[9:20]}"))
        )
        tags = [
            tag for tag, _ in evil.tags if tag not in ("div", "dt", "dd", "a", "code", "span", "p")
        ]
        wanted = [
            tag for tag, _ in quiet.tags if tag not in ("div", "dt", "dd", "a", "code", "span", "p")
        ]
        self.assertEqual(tags, wanted)
        self.assertIn("\\u{202e}", evil.by_id["h1"])
        self.assertIn(EVIL.splitlines()[0][:40], evil.by_id["quote"])

    def test_what_is_not_seen_is_escaped(self) -> None:
        data = (
            joined(HEADER) + b'{"a":"\xff\xe2\x80\xae\x00\xe2\x80\xa8\xe3\x85\xa4\xed\xa0\x80"}\n'
        )
        text = made(data)
        quote = Page(text).by_id["quote"]
        for shown in ("\\xff", "\\u{202e}", "\\u{0}", "\\u{2028}", "\\u{3164}", "\\xed\\xa0\\x80"):
            self.assertIn(shown, quote)
        for char in "\x00\u202e\u2028\u3164":
            self.assertNotIn(char, text)

    def test_a_name_put_in_as_it_is_would_be_seen(self) -> None:
        with mock.patch("qaudit_page.page.html", str):
            page = Page(made(joined(HEADER), title=EVIL))
        self.assertIn("img", [tag for tag, _ in page.tags])

    def test_a_long_line_is_cut(self) -> None:
        data = joined(HEADER) + b"x" * 10_000_000 + b"\n"
        text = made(data)
        self.assertLess(len(text), 400_000)
        self.assertIn("10,000,000 bytes, cut here", Page(text).by_id["quote"])

    def test_acknowledgments_of_all_numbers_cost_little(self) -> None:
        every = acked(5, *[(0, 2**62 - 1)] * 2000)
        data = joined(HEADER, *(sent(n, n) for n in range(400)), *[every] * 400)
        packets = Page(made(data)).data()["packets"]
        self.assertEqual(len(packets["acked"]), 400)


class Conversions(unittest.TestCase):
    """What the converter of logs says of a log that it may have misread."""

    def test_its_note_is_shown(self) -> None:
        note = "its order is another </p><script>"
        shown = "The converter says of the log: its order is another &lt;/p&gt;&lt;script&gt;</p>"
        noted: list[tuple[dict[str, Any], bool]] = [({"x_note": [note, 5]}, True), ({}, False)]
        for said, is_shown in (*noted, ({"x_note": note}, False)):
            header = json.dumps(json.loads(HEADER) | said)
            text = made(joined("", header, sent(0)))
            self.assertEqual(shown in text, is_shown)
            self.assertEqual("The converter says" in text, is_shown)

    def report(self, *differing: str, packets: int = 2, **of_header: Any) -> str:
        """The page of a trace that ends with a report in which so many values are wrong."""
        header = {**json.loads(HEADER), **of_header}
        values = {"bytes_in_flight": 1200 * packets, "smoothed_rtt": 333_000, "rttvar": 166_500}
        said = {key: it + (key in differing) for key, it in values.items()}
        line = {"event": "metrics", "time": 0, **said}
        packets_sent = (sent(number) for number in range(packets))
        return made(joined(json.dumps(header), *packets_sent, json.dumps(line)))

    def test_an_early_report_of_which_most_values_differ(self) -> None:
        converted: dict[str, Any] = {"x_dialect": "quic-go"}
        page = self.report("bytes_in_flight", "rttvar", **converted)
        shown = "2 of the 3 values of this report differ, and it is one of the first lines"
        self.assertIn(f'<p class="note">{shown}', page)
        self.assertIn("it may be in another order than qlog-to-trace took", page)
        for other in (
            # By a logger, and not by the converter.
            self.report("bytes_in_flight", "rttvar"),
            # One value alone, as of a sender that departs.
            self.report("rttvar", **converted),
            self.report(**converted),
            self.report("bytes_in_flight", "rttvar", packets=20, **converted),
        ):
            self.assertNotIn("values of this report differ", other)


class Limits(unittest.TestCase):
    """What a page takes."""

    def part(self, data: bytes, first: int | None = None, last: int | None = None) -> Any:
        """The part of a trace that is shown."""
        return payload.part_of(*seen(data), first, last)

    def test_parts(self) -> None:
        data = joined(HEADER, *(sent(n) for n in range(5)))
        self.assertEqual(self.part(data), payload.Part(1, 6))
        self.assertEqual(self.part(data, 2, 99), payload.Part(2, 6))
        with self.assertRaisesRegex(Failure, "no line from 7"):
            self.part(data, 7)

    def test_too_many_lines(self) -> None:
        data = joined(
            HEADER, *(sent(n) for n in range(10)), sent(10), *(sent(n) for n in range(40))
        )
        with mock.patch("qaudit_page.payload.MAX_LINES", 10):
            with self.assertRaisesRegex(Failure, r"--from 7 --to 16 would do") as caught:
                self.part(data)
            self.assertEqual(caught.exception.status, 2)
            self.assertEqual(self.part(data, 7, 16), payload.Part(7, 16))

    def test_too_many_bytes(self) -> None:
        data = joined(HEADER, *(sent(n, n) for n in range(9)))
        with mock.patch("qaudit_page.payload.MAX_BYTES", 350):
            with self.assertRaisesRegex(Failure, "--from 1 --to 3 would do"):
                self.part(data)


def row(line: int) -> str:
    """A row, as the program writes it."""
    state: dict[str, Any] = {key.format("us"): line for key in AMOUNTS.values()}
    owed = [[line - 1, line]] if line % 1_000 == 0 else []
    state |= {"owed": owed, "owed_space": "app", "set_kind": "pto", "set_space": "app"}
    said = {"event": "keys", "time": line, "space": "app"}
    return json.dumps({"line": line, "event": said, "state": state})


HERE, READ = os.getpid(), rows.read


def read_here(lines: bytes) -> Rows:
    """Reads rows in this process; another one ends."""
    if os.getpid() != HERE:
        os._exit(1)
    return READ(lines)


class LongTraces(unittest.TestCase):
    """The rows of a long trace, most of which other processes read."""

    def setUp(self) -> None:
        folder = tempfile.TemporaryDirectory()
        self.addCleanup(folder.cleanup)
        self.program, self.told = Path(folder.name, "program"), Path(folder.name, "rows")
        self.program.write_text(f"#!/bin/sh\ncat {self.told}\n")
        self.program.chmod(0o755)

    def rows(self, lines: list[str], readers: int) -> list[Rows]:
        """What is read of lines that a program writes."""
        self.told.write_text("".join(f"{line}\n" for line in lines))
        with Run(str(self.program), (), b"") as run:
            return list(rows_by(run, readers))

    def test_each_row_stands_in_its_order(self) -> None:
        lines = [row(line) for line in range(1, 30_001)]
        alone = self.rows(lines, 0)
        self.assertGreater(len(alone), rows.AHEAD + 2)
        read = [line for piece in alone for line in piece.state.line]
        self.assertEqual(read, list(range(1, 30_001)))
        for readers in (1, 3):
            self.assertEqual(self.rows(lines, readers), alone)

    def test_states_are_joined(self) -> None:
        state = rows.State()
        for piece in self.rows([row(line) for line in range(1, 9_001)], 2):
            state.extend(piece.state)
        self.assertEqual(state.amounts["window"], list(range(1, 9_001)))
        self.assertEqual(state.owed_text[1_999], "app 1999-2000")
        self.assertEqual((sum(state.owed), len(state.owed_text), len(state.timer)), (18, 9, 9_000))

    def test_what_is_no_row_behind_many(self) -> None:
        lines = [row(line) for line in range(1, 20_001)]
        for readers in (0, 2):
            with self.assertRaisesRegex(Failure, "rows that are not JSON"):
                self.rows([*lines, "{"], readers)
            with self.assertRaises(KeyError):
                self.rows([*lines, '{"line":20001}'], readers)

    def test_a_reader_that_ends(self) -> None:
        told = "a process that reads the rows failed"
        with mock.patch.object(rows, "read", read_here), self.assertRaisesRegex(Failure, told):
            self.rows([row(line) for line in range(1, 20_001)], 2)


@unittest.skipIf(NO_LIBRARY, NO_LIBRARY)
class Commands(unittest.TestCase):
    """The command."""

    def setUp(self) -> None:
        self.folder = tempfile.TemporaryDirectory()
        self.addCleanup(self.folder.cleanup)
        self.page = Path(self.folder.name, "page.html")

    def run_command(self, *words: object, program: object = PROGRAM, data: bytes = b"") -> Any:
        """How the command ends."""
        arguments = [sys.executable, str(COMMAND), "--program", str(program), *map(str, words)]
        return subprocess.run(arguments, input=data, capture_output=True, timeout=60, check=False)

    def fails(self, status: int, text: str, *words: object, **more: Any) -> None:
        """The command fails with a line that has a text, and writes nothing."""
        ended = self.run_command(*words, **more)
        self.assertEqual(ended.returncode, status, ended.stderr)
        self.assertIn(text, ended.stderr.decode())
        self.assertEqual(ended.stderr.count(b"\n"), 1)
        self.assertEqual(ended.stdout, b"")
        self.assertFalse(self.page.exists())

    def test_a_file_is_written(self) -> None:
        ended = self.run_command("--output", self.page, TRACES / "timer-late.trace")
        self.assertEqual((ended.returncode, ended.stdout, ended.stderr), (0, b"", b""))
        page = Page(self.page.read_text())
        self.assertIn("V18 timer-late", page.by_id["p"])
        self.assertEqual(page.by_id["h1"], "timer-late.trace")
        self.assertIn("Permission is hereby granted", page.by_id["pre"])
        self.assertEqual([it.name for it in self.page.parent.iterdir()], ["page.html"])

    def test_standard_input(self) -> None:
        data = (TRACES / "timer-late.trace").read_bytes()
        ended = self.run_command("--title", "A <title>", data=data)
        self.assertEqual(ended.returncode, 0, ended.stderr)
        page = Page(ended.stdout.decode())
        self.assertEqual(page.by_id["h1"], "A <title>")
        self.assertIn("standard input", page.by_id["overview"])

    def test_what_is_missing(self) -> None:
        trace = TRACES / "timer-late.trace"
        self.fails(3, "there is no program /nowhere", trace, program="/nowhere")
        self.fails(3, "no program /no\\u{a}\\u{1b}where", trace, program="/no\n\x1bwhere")
        gone = "no/such.trace"
        self.fails(3, f"cannot open {gone}: no such file\n", "--output", self.page, gone)
        self.fails(3, "libjs-dygraphs", "--dygraphs", "/nowhere.js", trace)
        gone = "/nowhere/page.html"
        self.fails(3, f"cannot write {gone}: no such file\n", "--output", gone, trace)
        self.fails(2, "there is no line from 100", "--from", 100, trace)

    def test_more_than_a_page_takes(self) -> None:
        for data, told_of in (
            (joined(HEADER) + b"\n" * 600_000, "--from 1 --to 500000 would do"),
            (joined(HEADER) + (b" " * 60_000 + b"\n") * 1_800, "--from 1 --to 1667 would do"),
        ):
            trace = Path(self.folder.name, "long.trace")
            trace.write_bytes(data)
            self.fails(2, told_of, "--output", self.page, trace)
            trace.unlink()

    def test_another_library(self) -> None:
        other = Path(self.folder.name, "other.js")
        for text, told_of in (
            ("var a;", "is not dygraphs"),
            ('D.VERSION="2.1.0";', "is dygraphs 2.1"),
        ):
            other.write_text(text)
            self.fails(3, told_of, "--dygraphs", other, TRACES / "timer-late.trace")

    def test_a_program_without_rows(self) -> None:
        old = Path(self.folder.name, "old")
        old.write_text(
            '#!/bin/sh\n[ "$1" = --json ] && echo \'{"file":"-","verdict":"accepted",'
            '"events":1}\' && exit 0\necho usage >&2\nexit 64\n'
        )
        old.chmod(0o755)
        self.fails(3, f"{old} has no --rows", TRACES / "timer-late.trace", program=old)

    def test_a_program_that_goes_past_departures(self) -> None:
        trace = TRACES / "several-departures.trace"
        wanted = made(trace.read_bytes(), report_of(trace), trace=trace)
        for program in {STAND_IN, PROGRAM} if knows_all(PROGRAM) else {STAND_IN}:
            ended = self.run_command("--output", self.page, trace, program=program)
            self.assertEqual((ended.returncode, ended.stderr), (0, b""))
            page = Page(self.page.read_text())
            self.assertEqual([row[0] for row in page.rows()], ["V7 past-window", "V13 timer-early"])
            self.assertEqual(summed(page.data()["state"]["line"])[-1], 28)
            self.assertEqual(page.data(), Page(wanted).data())

    def test_a_program_that_does_not(self) -> None:
        """The page is that of before: what lies behind the first departure was not judged."""
        old = Path(self.folder.name, "old")
        for refused in ('case "$*" in *--all*)', 'case "$*" in *--rows*--all*)'):
            old.write_text(
                f'#!/bin/sh\n{refused} echo usage >&2; exit 64;; esac\nexec "{PROGRAM}" "$@"\n'
            )
            old.chmod(0o755)
            trace = TRACES / "several-departures.trace"
            ended = self.run_command("--output", self.page, trace, program=old)
            self.assertEqual((ended.returncode, ended.stderr), (0, b""))
            text = self.page.read_text()
            strict = made(trace.read_bytes(), report_of(trace), trace=trace, is_strict=True)
            self.assertEqual(Page(text).data(), Page(strict).data())
            self.assertNotIn("departures", Page(text).by_id)

    def test_a_program_that_fails(self) -> None:
        broken = Path(self.folder.name, "broken")
        for text, told_of in (
            ("exit 3", "ended with status 3"),
            ("kill -9 $$", "was killed by 9"),
            ("echo 5", "wrote no verdict"),
        ):
            broken.write_text(f"#!/bin/sh\n{text}\n")
            broken.chmod(0o755)
            self.fails(3, told_of, TRACES / "timer-late.trace", program=broken)
        said = (
            '{"file":"-","verdict":"refused","line":2,"rule":"V7","name":"past-window",'
            '"requirement":"MUST","section":"RFC 9002, 7"}'
        )
        asked = 'case "$*" in *--json*)'
        broken.write_text(f"#!/bin/sh\n{asked} echo '{said}';; esac\nexit 1\n")
        self.fails(3, "an unknown object", TRACES / "timer-late.trace", program=broken)
        broken.write_text(
            '#!/bin/sh\n[ "$1" = --rows ] && echo \'{"line":1}\' && exit 0\n'
            'echo \'{"verdict":"accepted","events":1}\'\n'
        )
        self.fails(3, "wrote an unknown row", TRACES / "timer-late.trace", program=broken)

    def test_no_half_page_is_left(self) -> None:
        self.page.write_text("the page of yesterday")
        trace = TRACES / "timer-late.trace"
        words = f"ulimit -f 20; exec '{sys.executable}' '{COMMAND}' --program '{PROGRAM}'"
        line = f"{words} --output '{self.page}' '{trace}'"
        ended = subprocess.run(["bash", "-c", line], capture_output=True, timeout=60, check=False)
        self.assertNotEqual(ended.returncode, 0)
        self.assertEqual(self.page.read_text(), "the page of yesterday")
        self.assertEqual([it.name for it in self.page.parent.iterdir()], ["page.html"])

    def test_a_full_device(self) -> None:
        self.fails(3, "cannot write", "--output", "/dev/full", TRACES / "timer-late.trace")

    def test_wrong_arguments(self) -> None:
        for words in (("--from", "0"), ("--to", "x"), ("--nothing",), ("a", "b", "c")):
            ended = self.run_command(*words)
            self.assertEqual(ended.returncode, 64)
            self.assertEqual(ended.stdout, b"")

    def test_the_version_of_the_library_is_2_2(self) -> None:
        self.assertRegex(LIBRARY, r'VERSION="2\.2\.')


if __name__ == "__main__":
    unittest.main()
