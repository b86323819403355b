#!/usr/bin/env python3
"""Shows that the traces of the bench are what they are to be, that the programs which only read
refuse what is not in the format, and that the tables and aims say what was measured."""

import argparse
import contextlib
import io
import json
import os
import subprocess
import sys
import unittest
import unittest.mock
from pathlib import Path
from typing import Any

import conformance_path  # noqa: F401
import connections
import sender
from aims import AIMS, OF_FORMS, Aim, said_of
from comparing import AUDITOR, PACKETS, PEER, Row, clock, processor
from connections import AS_WRITTEN, CONNECTIONS
from constants import METRICS
from forms import ALL_FORMS, FORMAT, FORMS, Form
from kinds import FOREIGN, NAMES_COMPARED, compared
from readers import MissingError, WrongAnswerError, auditor, python, ran, serde
from shapes import (
    COMPARED,
    HANDSHAKE,
    MANY_RANGES,
    RECEIVERS,
    SHAPES,
    Shape,
    header_of,
    rounds_of,
)
from tables import Table
from testing import new_folder, script
from traces import Trace, repeated, written
from usage import Usage, run

ALL_SHAPES = (*SHAPES, *COMPARED, HANDSHAKE)
PLAIN = SHAPES[0]
EVENTS = 220
# Of a trace in which a receiver has 32 ranges to repeat.
MANY_EVENTS = 1_200
# The keys of a line in the order of the tables of docs/format.md.
# fmt: off
ORDER = (
    "event", "version", "role", "max_datagram_size", "initial_window", "time", "kind", "space",
    "number", "size", "eliciting", "in_flight", "leave", "ranges", "delay", "limited", *METRICS,
)
# fmt: on
UNKNOWN = ("note", "serial", "level", "msg", "source")


files = script(Path(__file__).resolve().parent / "files")
peers = script(Path(__file__).resolve().parent / "peers")
instructions = script(Path(__file__).resolve().parent / "instructions")


def lines_of(shape: Shape, form: Form, least: int = EVENTS) -> list[bytes]:
    """The lines of a trace."""
    return [
        header_of(shape, form),
        *(line for lines in rounds_of(shape, form, least) for line in lines),
    ]


def known(line: bytes) -> dict[str, Any]:
    """What a line says, without the keys that the format does not know and those that are null."""
    said = json.loads(line).items()
    return {key: value for key, value in said if key not in UNKNOWN and value is not None}


class Traces(unittest.TestCase):
    """Every form of a shape says the same events, and a sender of RFC 9002 makes them."""

    def test_forms_say_the_same(self) -> None:
        for shape in ALL_SHAPES:
            said = [known(line) for line in lines_of(shape, FORMAT)]
            for form in ALL_FORMS:
                self.assertEqual(
                    [known(line) for line in lines_of(shape, form)], said, (shape.name, form.name)
                )

    def test_the_sender_makes_them(self) -> None:
        for shape in ALL_SHAPES:
            least = MANY_EVENTS if shape in RECEIVERS else EVENTS
            header, *events = map(json.loads, lines_of(shape, FORMAT, least))
            report = sender.report_of(header, list(enumerate(events, 2)))
            self.assertEqual(
                report.splitlines()[:2], ["accepted", f"events {len(events)}"], shape.name
            )

    def test_how_lines_are_written(self) -> None:
        for shape in ALL_SHAPES:
            by_form = {form.name: lines_of(shape, form) for form in FORMS}
            for line in by_form["sorted"]:
                compact = json.dumps(json.loads(line), sort_keys=True, separators=(",", ":"))
                self.assertEqual(line.decode(), f"{compact}\n")
            for line in by_form["format"]:
                keys = list(json.loads(line))
                self.assertEqual(keys, [key for key in ORDER if key in keys])
            for line in by_form["spaces"]:
                self.assertEqual(line.decode(), json.dumps(json.loads(line)) + "\n")
            kinds = {known(line)["event"] for line in by_form["unknown"]}
            for kind in kinds - {"header"}:
                unknown = [
                    [key for key in json.loads(line) if key in UNKNOWN]
                    for line in by_form["unknown"]
                    if known(line)["event"] == kind
                ]
                self.assertEqual([len(keys) for keys in unknown], [1] * len(unknown))
                self.assertTrue(
                    len(unknown) < 4
                    or {key for keys in unknown for key in keys} == {"note", "serial"},
                    kind,
                )

    def test_how_other_loggers_write(self) -> None:
        by_form = {form.name: lines_of(COMPARED[0], form) for form in ALL_FORMS}
        for line in by_form["time-first"][1:]:
            self.assertTrue(line.startswith(b'{"time":'), line)
        orders = {tuple(json.loads(line)) for line in by_form["shuffled"] if b'"sent"' in line}
        self.assertGreater(len(orders), 3)
        for line in by_form["crlf"]:
            self.assertTrue(line.endswith(b"}\r\n"), line)
        for line in by_form["nulls"]:
            said = json.loads(line)
            if said["event"] in ("sent", "ack"):
                self.assertTrue({"leave"} <= set(said) or {"delay", "limited"} <= set(said), line)
        kinds = {
            "numbers": {float, int},
            "nested": {dict},
            "escapes": {str},
            "utf-8": {str},
        }
        for name, wanted in kinds.items():
            values = [json.loads(line) for line in by_form[name]]
            got = {type(it[key]) for it in values for key in ("note", "serial") if key in it}
            self.assertEqual(got, wanted, name)
        self.assertTrue(all(b"\\" in line for line in by_form["escapes"]))
        self.assertFalse(any(line.isascii() for line in by_form["utf-8"]))
        for line in by_form["slog"]:
            self.assertEqual(list(json.loads(line))[:3], ["level", "msg", "source"])

    def test_sizes(self) -> None:
        for shape in (*SHAPES, *COMPARED):
            for least in (1, 100, EVENTS):
                events = len(lines_of(shape, FORMAT, least)) - 1
                self.assertTrue(least <= events < least + 20, (shape.name, least, events))

    def test_what_shapes_have(self) -> None:
        kinds = {
            shape.name: {known(line)["event"] for line in lines_of(shape, FORMAT)}
            for shape in COMPARED
        }
        self.assertEqual(kinds["steady"], {"header", "confirmed", "sent", "ack", "lost", "timer"})
        self.assertEqual(
            kinds["mixed"],
            {"header", "sent", "ack", "timer", "discard", "confirmed", "keys", "metrics"},
        )
        self.assertEqual(kinds["unacknowledged"], {"header", "sent"})
        short = [known(line) for line in lines_of(HANDSHAKE, FORMAT)]
        self.assertEqual(
            {it["event"] for it in short}, {"header", "sent", "ack", "confirmed", "discard"}
        )
        self.assertEqual(
            {it["space"] for it in short if "space" in it}, {"initial", "handshake", "app"}
        )
        self.assertEqual(len(short), 39)

    def test_how_many_ranges(self) -> None:
        most = {
            shape.name: max(len(known(line).get("ranges", [])) for line in lines)
            for shape in (MANY_RANGES, *RECEIVERS)
            for lines in [lines_of(shape, FORMAT, MANY_EVENTS)]
        }
        self.assertEqual(
            most, {"32-ranges": 32, "receiver": 6, "receiver-32": 32, "receiver-32-bare": 32}
        )


class Connections(unittest.TestCase):
    """A connection is given again and again, and the others read a file of all of them."""

    def test_files(self) -> None:
        for connection in CONNECTIONS:
            folder, text = new_folder(self), connection.text(FORMAT)
            trace = repeated(folder, text, 1_500)
            self.assertEqual(trace.path.read_bytes(), text)
            self.assertEqual(trace.files, [str(folder / "connection")] * trace.times)
            whole = (folder / "trace").read_bytes()
            self.assertEqual(whole, text * trace.times)
            self.assertEqual((whole.count(b"\n"), len(whole)), (trace.lines, trace.bytes))
            self.assertTrue(1_500 <= trace.events < 1_500 + trace.events // trace.times)
            self.assertEqual(ran(python(), trace).text, f"lines {trace.lines}\n")
            trace.remove()
            self.assertEqual(list(folder.iterdir()), [])

    def test_real_logs_are_accepted(self) -> None:
        for name in FOREIGN:
            report = (connections.REAL / f"{name}.report").read_text(encoding="ascii")
            self.assertTrue(report.startswith("accepted\n"), name)

    def test_answers(self) -> None:
        trace = repeated(new_folder(self), b"header\none\ntwo\n", 4)
        said = f"file {trace.path}\naccepted\nevents 2\n"
        self.assertEqual(auditor("/program").answer(trace), said)
        self.assertEqual(
            auditor("/program").answer(Trace(trace.path, 2, 1)), said.split("\n", 1)[1]
        )


class Readers(unittest.TestCase):
    """The programs say what they read, and a wrong answer is seen."""

    def setUp(self) -> None:
        self.path = new_folder(self) / "trace"
        self.trace = written(self.path, COMPARED[0], 100)

    def test_trace(self) -> None:
        self.assertEqual(self.path.read_bytes().count(b"\n"), self.trace.lines)
        self.assertEqual(self.path.stat().st_size, self.trace.bytes)

    def test_python(self) -> None:
        self.assertEqual(ran(python(), self.trace).text, f"lines {self.trace.lines}\n")
        for wrong in (
            '{"event":"keys"}',
            '{"event":"keys","time":"1"}',
            '{"event":"keys","time":-1}',
            '{"event":"ke"}',
            '{"event":"lost","time":1,"space":"app","ranges":[[1]]}',
            "[]",
        ):
            self.path.write_text(wrong, encoding="ascii")
            done = subprocess.run(
                python().command + [str(self.path)], capture_output=True, text=True, check=False
            )
            self.assertEqual((done.returncode, done.stdout), (1, ""), wrong)

    def test_answers(self) -> None:
        trace = Trace(self.path, 3, 1)
        cases = (
            ("accepted\nevents 3", 0, True),
            ("accepted\nevents 3", 1, False),
            ("accepted\nevents 2", 0, False),
            ("accepted\nevents 30", 0, False),
            ("refused\nevents 3", 0, False),
        )
        for words, status, is_right in cases:
            program = self.path.with_name("program")
            program.write_text(f"#!/bin/sh\necho '{words}'\nexit {status}\n", encoding="ascii")
            program.chmod(0o755)
            with contextlib.ExitStack() as expected:
                if not is_right:
                    expected.enter_context(self.assertRaises(WrongAnswerError))
                ran(auditor(str(program)), trace)

    def test_status_and_memory(self) -> None:
        done = run(
            [
                sys.executable,
                "-c",
                "import sys, time; text = 'x' * 30_000_000; time.sleep(0.02); sys.exit(3)",
            ]
        )
        self.assertEqual(done.status, 3)
        self.assertTrue(30_000 < done.usage.kibibytes < 100_000, done.usage)
        self.assertGreater(done.usage.wall_seconds, 0.02)

    def test_what_is_missing(self) -> None:
        with self.assertRaisesRegex(MissingError, "librust-serde-json-dev|on the path"):
            serde(str(self.path.parent), "/nowhere")


def row(
    seconds: dict[str, float],
    shape: str = "steady",
    form: str = "sorted",
    lines: int = 1001,
    kibibytes: int = 1000,
) -> Row:
    """A row, with a second round in which all is slower."""
    rounds = [
        {name: Usage(slower * it, 2 * slower * it, kibibytes) for name, it in seconds.items()}
        for slower in (1, 3)
    ]
    return Row(shape, form, 100_100, lines, rounds)


class Results(unittest.TestCase):
    """The table and the aims, on rows that are made up."""

    def test_table(self) -> None:
        made = row({AUDITOR: 0.0001001, PEER: 0.0005005})
        table = Table([AUDITOR, PEER], processor, True)
        self.assertEqual(
            table.headings(),
            [
                "| Trace | Form | MB | Lines | qaudit | serde_json | Ratio | Peak |",
                "|---|---|---:|---:|---:|---:|---:|---:|",
            ],
        )
        self.assertEqual(
            table.row(made),
            "| steady | sorted | 0.1 | 1,001 | 100 (1000) | 500 (200) | 5.00 | 1.0 |",
        )
        self.assertIn("| 200 (500) |", Table([AUDITOR, PEER], clock, True).row(made))
        alone = row({AUDITOR: 0.0001001})
        self.assertEqual(
            Table([AUDITOR], processor, True).row(alone),
            "| steady | sorted | 0.1 | 1,001 | 100 (1000) |  | 1.0 |",
        )
        aligned = Table([AUDITOR], processor, False)
        self.assertEqual(len(aligned.row(alone)), len(aligned.headings()[0]))

    def test_aims(self) -> None:
        aim = Aim("quick", lambda it: it.form == "sorted", lambda it: it.ratio(processor), 5)
        slow, quick = row({AUDITOR: 1.0, PEER: 4.9}), row({AUDITOR: 1.0, PEER: 5.0})
        of_other_form = row({AUDITOR: 1.0, PEER: 1.0}, form="spaces")
        self.assertEqual(said_of(aim, [quick]), "met: quick (5.00, steady sorted)")
        self.assertEqual(said_of(aim, [quick, slow]), "missed: quick (4.90, steady sorted)")
        self.assertEqual(said_of(aim, [of_other_form]), "not measured: quick")
        self.assertEqual(said_of(aim, [row({AUDITOR: 1.0})]), "not measured: quick")

    def test_each_aim(self) -> None:
        rows = [
            row({AUDITOR: 1.0, PEER: 2.9}, shape.name, form.name)
            for shape in (*COMPARED, HANDSHAKE)
            for form in FORMS
        ]
        rows += [row({AUDITOR: 1.0, PEER: 2.9}, name, AS_WRITTEN) for name in FOREIGN]
        seconds = {AUDITOR: 1.0, PEER: 3.9}
        rows.append(row(seconds, "unacknowledged", "sorted", PACKETS + 1, 195_313))
        said = [said_of(aim, rows).partition(":")[0] for aim in AIMS]
        self.assertEqual(said, ["missed"] * 7 + ["met"])
        rows = [
            it._replace(rounds=[{AUDITOR: Usage(1, 1, 7_813), PEER: Usage(6, 6, 0)}]) for it in rows
        ]
        said = [said_of(aim, rows).partition(":")[0] for aim in AIMS]
        self.assertEqual(said, ["met"] * 7 + ["missed"])


class Instructions(unittest.TestCase):
    """Instructions are those that callgrind says, of a trace that is accepted."""

    def counted(self, answer: str, told: str, status: int = 0) -> str:
        """The row of a trace, with a program that stands in for valgrind."""
        folder = new_folder(self)
        program = folder / "valgrind"
        words = f"#!/bin/sh\necho '{answer}'\necho '{told}' >&2\nexit {status}\n"
        program.write_text(words, encoding="ascii")
        program.chmod(0o755)
        path = f"{folder}{os.pathsep}{os.environ['PATH']}"
        with unittest.mock.patch.dict(os.environ, {"PATH": path}):
            given = argparse.Namespace(program="/program", form=FORMAT.name, lines=3)
            row: str = instructions.row_of_shape(given, PLAIN.name, str(folder))
        return row

    def test_rows(self) -> None:
        told = "==1== Collected : 4800"
        self.assertEqual(self.counted("accepted\nevents 3", told), "| plain | 1,200 |  |")
        for answer, words, status in (
            ("accepted\nevents 3", told, 1),
            ("accepted\nevents 2", told, 0),
            ("accepted\nevents 3", "==1== Events : Ir", 0),
        ):
            with self.assertRaises(WrongAnswerError):
                self.counted(answer, words, status)

    def test_arguments(self) -> None:
        given = instructions.parsed([sys.executable])
        self.assertEqual((given.lines, given.form, given.shape), (20_000, "sorted", None))
        given = instructions.parsed(["--form", "spaces", "--shape", "lost", sys.executable])
        self.assertEqual((given.form, given.shape), ("spaces", ["lost"]))
        self.assertTrue(instructions.parsed(["--forms", sys.executable]).forms)

    def test_aims_of_forms(self) -> None:
        self.assertEqual(instructions.aim_of("steady", FORMAT), 1_300)
        by_name = {it.name: it for it in ALL_FORMS}
        self.assertEqual(instructions.aim_of("mixed", by_name["crlf"]), 1_900)
        self.assertEqual(instructions.aim_of("32-ranges", by_name["nested"]), 2_700)
        self.assertIsNone(instructions.aim_of("receiver", by_name["nulls"]))
        self.assertEqual(set(OF_FORMS), {it.name for it in ALL_FORMS} - {"sorted", "format"})


class Files(unittest.TestCase):
    """A file costs what one more costs, of those with events and of those without."""

    def test_files(self) -> None:
        folder = new_folder(self)
        empty, short = files.written(folder)
        self.assertEqual((empty.events, short.events), (0, 38))
        header, *events = short.path.read_bytes().splitlines(keepends=True)
        self.assertEqual((empty.path.read_bytes(), len(events)), (header, 38))
        trace = short.again(3)
        self.assertEqual(trace.files, [str(folder / "handshake")] * 3)
        self.assertEqual((trace.events, trace.lines), (114, 117))

    def test_instructions(self) -> None:
        """Of a program that takes 500 to start and 7 a file."""
        file = files.File(Path(__file__), 38)
        with unittest.mock.patch.object(files, "count", lambda _, it: 500 + 7 * it.times):
            self.assertEqual(files.instructions("/program", file, 10), 7)

    def test_aims(self) -> None:
        short, empty = (files.File(Path(__file__), it) for it in (38, 0))
        self.assertEqual(files.aim_of(short, 15_001), "")
        self.assertEqual(files.aim_of(empty, 15_000), "15,000")
        self.assertEqual(files.aim_of(empty, 15_001), "15,000, missed")

    def test_arguments(self) -> None:
        self.assertEqual(files.parsed([sys.executable]).files, 10_000)
        for wrong in (["--files", "0", sys.executable], ["--shape", "lost", sys.executable]):
            with self.assertRaises(SystemExit), contextlib.redirect_stderr(io.StringIO()):
                files.parsed(wrong)


class Arguments(unittest.TestCase):
    """What the arguments of the comparison ask for."""

    def test_arguments(self) -> None:
        given = peers.parsed([sys.executable])
        self.assertEqual(
            (given.lines, given.markdown, given.shape),
            (200_000, False, NAMES_COMPARED),
        )
        given = peers.parsed(["--lines", "7", "--markdown", "--shape", "mixed", sys.executable])
        self.assertEqual((given.lines, given.markdown, given.shape), (7, True, ["mixed"]))
        for wrong in (
            [],
            ["--lines", "0", sys.executable],
            ["--shape", "plain", sys.executable],
            ["/nowhere"],
        ):
            with self.assertRaises(SystemExit), contextlib.redirect_stderr(io.StringIO()):
                peers.parsed(wrong)

    def test_which_traces(self) -> None:
        kinds = list(compared(NAMES_COMPARED, 7))
        made = len(NAMES_COMPARED) - len(FOREIGN)
        self.assertEqual(len(kinds), made * len(FORMS) + len(FOREIGN) + 1)
        self.assertEqual([kind.least for kind in kinds].count(PACKETS), 1)
        names = [kind.form_name for kind in compared(["mixed"], 7)]
        self.assertEqual(names, [it.name for it in FORMS])
        self.assertEqual([kind.form_name for kind in compared(FOREIGN[:1], 7)], [AS_WRITTEN])


if __name__ == "__main__":
    unittest.main()
