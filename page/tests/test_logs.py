"""Logs in place of traces: what a file is, how it is converted, and where in it a line is from."""

import argparse
import gzip
import json
import lzma
import os
import shutil
import signal
import subprocess
import sys
import threading
import time
import unittest
import zipapp
from pathlib import Path
from typing import Any
from unittest import mock

from tests.made import (
    CONVERTER,
    HEADER,
    NO_LIBRARY,
    PAGE,
    PROGRAM,
    PROGRAMS,
    PROJECT,
    InFolder,
    Page,
    joined,
    sent,
)
from tests.test_input import NO_ZSTD, zstd

from qaudit_page import converter, logs
from qaudit_page.alignment import End, alignment_of
from qaudit_page.converter import Asked, check, options_of
from qaudit_page.failure import Failure, NoTraceError, Status
from qaudit_page.lenient import SPACES
from qaudit_page.page import audited
from qaudit_page.places import Place, place_of, places_of
from qaudit_page.search import Search, left_out_of
from qlog_to_trace.detection import form_of
from qlog_to_trace.events import events_of

MILLISECOND = 1_000_000
REAL = PROJECT / "conformance" / "real" / "traces"
LOG = REAL / "ngtcp2-past-window.qlog"
NETLOG = REAL / "chromium-156-probe.netlog"
FIRST = {"qlog_version": "0.3", "qlog_format": "JSON-SEQ"}
TRACE = joined(HEADER, sent(0))
Record = dict[str, Any]


def packet(time: int, number: int, name: str = "sent", **more: Any) -> Record:
    """A packet of a log."""
    data = {"header": {"packet_type": "1RTT", "packet_number": number}, **more}
    return {"time": time, "name": f"transport:packet_{name}", "data": data}


def left(time: int, number: int, size: int = 1200) -> Record:
    """A packet that was sent."""
    return packet(time, number, raw={"length": size}, frames=[{"frame_type": "stream"}])


def came(time: int, *ranges: tuple[int, int]) -> Record:
    """A packet that came, with an acknowledgment."""
    ack = {"frame_type": "ack", "ack_delay": 0, "acked_ranges": [list(it) for it in ranges]}
    return packet(time, 0, "received", frames=[ack])


def sequence(*records: Record, role: str = "server", mark: str = "\x1e") -> bytes:
    """A log of a record a line. The first record is at line 2."""
    trace = {"vantage_point": {"type": role}, "common_fields": {"time_format": "relative"}}
    lines = [FIRST | {"trace": trace}, *records]
    return "".join(f"{mark}{json.dumps(it)}\n" for it in lines).encode()


# Packet 0 is sent twice: the second time is refused, at line 3 of the trace and of the log.
GOOD = sequence(left(0, 0), left(1, 1), came(50, (0, 1)))
BAD = sequence(left(0, 0), left(1, 0))
TWO = sequence(left(0, 0, 500) | {"group_id": "a"}, left(0, 0, 600) | {"group_id": "b"})
TORN = GOOD[:-9]
NO_JSON = GOOD + b'\x1e{"name":"packet_sent",}\n'


class Kinds(unittest.TestCase):
    """What a file is, by its beginning."""

    def test_logs(self) -> None:
        rest = b' "x",\n "traces": [\n'
        for first in (
            GOOD,
            GOOD[1:],
            b"\n" + GOOD,
            b'{"qlog_version":"0.4","traces":[]}',
            b' \t\r\n{"traces":[]}\n',
            b'{"qlog_version":"0.3","qlog_for',
            b'{\n "title":' + rest,
            b'{"title":"' + b"x" * 2_000 + b'",' + rest,
            b'{"file_schema":"urn:ietf:params:qlog:file:sequential"}\n',
            b'{"constants": {"logEventTypes":',
            b'{"traces":' * 5_000,
            # What is neither, and is known by its first bytes.
            b"BZh91AY",
            b"PK\x03\x04",
            b"\xef\xbb\xbf" + GOOD,
            b"\xef\xbb\xbf" + GOOD[1:],
            b"\xd4\xc3\xb2\xa1\x02",
            b"\n\r\r\n\x1c\x00",
        ):
            self.assertTrue(logs.is_log(first), first)

    def test_traces_and_what_is_neither(self) -> None:
        header = HEADER.encode()
        for first in (
            *(header[:length] for length in range(len(header))),
            TRACE,
            b"\n \r\n" + TRACE,
            b"\n\r\r\n" + TRACE,
            b"\xef\xbb\xbf" + TRACE,
            b'{"event":"header","traces":[]}\n',
            b'{"event":"header","qlog_version":"0.3",',
            b'{ "event" : "header",\n"traces" : [] }',
            b"[]",
            b"{}\n",
            b'{"time":5}\n' + GOOD,
            b"nothing of that kind",
            b"\x00" * 99,
            b"\xff\xfe",
            b"[" * 5_000,
            b'{"a":' * 5_000,
        ):
            self.assertFalse(logs.is_log(first), first)

    def test_of_real_stacks(self) -> None:
        paths = sorted(REAL.iterdir())
        kinds = {path.suffix: 0 for path in paths}
        for path in paths:
            if path.suffix == ".report":
                continue
            is_log = logs.is_log(path.read_bytes()[: logs.BEGINNING])
            self.assertEqual(is_log, path.suffix != ".trace", path.name)
            kinds[path.suffix] += 1
        self.assertGreater(min(kinds[it] for it in (".qlog", ".netlog", ".trace")), 1)

    def test_white_space(self) -> None:
        """It takes no longer than what it is long, and is no log."""
        for text in (b" ", b"\n", b"\r\n", b"{ "):
            self.assertFalse(logs.is_log(text * (2_000_000 // len(text))))


class Options(unittest.TestCase):
    """Options of the converter, in a word."""

    def test_they_are_handed_on(self) -> None:
        words = ("--dialect", "quic-go", "--notes")
        self.assertEqual(options_of("--dialect 'quic-go' --notes"), words)
        self.assertEqual(options_of(), ())
        for text in ("", "--connection 2 --dialect 'ngtcp2'", "--places", "--notes"):
            check(Asked(CONVERTER, options_of(text)))

    def test_wrong_ones(self) -> None:
        for text in ("'", '--dialect "'):
            with self.assertRaises(argparse.ArgumentTypeError, msg=text):
                options_of(text)
        for text, status in (
            ("client.qlog", Status.USAGE),
            ("--packet-threshold 2", Status.USAGE),
            ("--format 1 --window reported", Status.USAGE),
            ("--nothing", Status.USAGE),
            ("--connection", Status.USAGE),
            ("--version", Status.USAGE),
            ("--help", Status.USAGE),
        ):
            with self.subTest(text), self.assertRaises(Failure) as raised:
                check(Asked(CONVERTER, options_of(text)))
            self.assertEqual(raised.exception.status, status)
            said = str(raised.exception)
            self.assertTrue(said.startswith(f"qlog-to-trace {text}: "), said)
            self.assertTrue(said.isprintable(), said)

    def test_a_converter_that_is_none(self) -> None:
        for program, why in (("/nowhere", "there is no program"), ("/bin/false", "with status 1")):
            with self.assertRaises(Failure) as raised:
                check(Asked(Path(program), ("--notes",)))
            self.assertEqual(raised.exception.status, Status.FAULT)
            self.assertIn(why, str(raised.exception))


class Places(unittest.TestCase):
    """Where in the log a line is from."""

    def test_words(self) -> None:
        for said, words in (
            ("line 812", "line 812 of the log"),
            ("byte 10412", "byte 10,412 of the log"),
            ("line 812 to line 816", "lines 812 to 816 of the log"),
            ("guessed at line 5", "no record; guessed at line 5 of the log"),
        ):
            place = place_of(json.dumps({"x_place": said}).encode())
            self.assertEqual(place and place.text, words)

    def test_what_is_none(self) -> None:
        for said in ('"line"', '"line -1"', '"line 1<b>"', '"line \u0661"', "5", "null", "[]"):
            self.assertIsNone(place_of(f'{{"x_place":{said}}}'.encode()))
        for text in (b"", b"{", b"[]", b'"x_place"', b'{"x":"\\"x_place\\":\\"line 5\\""}'):
            self.assertIsNone(place_of(text))

    def test_of_some_lines(self) -> None:
        data = joined(HEADER, '{"x_place":"line 7"}', '{"x_place":"byte 9"}')
        wanted = {2: Place("line", 7, 7, is_guessed=False)}
        self.assertEqual(places_of(data, [0, 1, 2, 2, 99]), wanted)
        self.assertEqual(places_of(data, []), {})


class Taken(InFolder):
    """The trace of a file."""

    def taken(self, data: bytes, words: str = "", *, is_shown: bool = False) -> logs.Taken:
        """What is taken of a file."""
        path = self.file("given", data)
        return logs.taken(path, Asked(CONVERTER, options_of(words), is_shown=is_shown))

    def test_a_trace_is_taken_as_it_is(self) -> None:
        for data in (TRACE, b"", b"{", b"\n" * 9):
            self.assertEqual(self.taken(data), logs.Taken(data))

    def test_a_log_as_the_converter_does_it(self) -> None:
        ended = subprocess.run([CONVERTER, "--places", LOG], capture_output=True, check=True)
        found = self.taken(LOG.read_bytes())
        self.assertEqual((found.data, found.is_log), (ended.stdout, True))
        told = "".join(f"qlog-to-trace: {LOG}: {it}\n" for it in found.lacks + found.told)
        self.assertEqual(told.encode(), ended.stderr)

    def test_a_netlog(self) -> None:
        """It gives the trace of its qlog, with the places of the netlog."""
        program = PROJECT / "netlog" / "netlog-to-qlog"
        qlog = subprocess.run([program, NETLOG], capture_output=True, check=True).stdout
        wanted = subprocess.run([CONVERTER], input=qlog, capture_output=True, check=True).stdout
        found = self.taken(NETLOG.read_bytes())
        lines = [json.loads(it) for it in found.data.splitlines()]
        places = [line.pop("x_place", None) for line in lines]
        self.assertEqual(lines, list(map(json.loads, wanted.splitlines())))
        data = NETLOG.read_bytes()
        said = json.loads(data)
        names = {it: name for name, it in said["constants"]["logEventTypes"].items()}
        sent = 0
        for line, place in zip(lines[1:], places[1:], strict=True):
            self.assertRegex(place, r"^(guessed at )?byte [0-9]+( to byte [0-9]+)?$")
            if line["event"] == "sent":
                at = data[int(place.removeprefix("byte ")) :].decode()
                event = json.JSONDecoder().raw_decode(at)[0]
                self.assertEqual(names[event["type"]], "QUIC_SESSION_PACKET_SENT")
                self.assertEqual(int(event["params"]["packet_number"]), line["number"])
                sent += 1
        self.assertGreater(sent, 10)

    def test_what_of_a_netlog_is_not_in_it(self) -> None:
        data = NETLOG.read_bytes()
        at = data.rindex(b'{"params"')
        wanted = f"torn off at byte {at}; the trace ends there"
        self.assertEqual(self.taken(data[: at + 30]).lacks, (wanted,))
        with self.assertRaises(NoTraceError) as raised:
            self.taken(b'{"constants":{"logEventTypes":{}},"events":[]}')
        self.assertIn("a netlog without packets of QUIC", raised.exception.reason)

    def test_one_converter_for_a_log(self) -> None:
        """It is started once, and ends when nobody wants more of it."""
        path, count = self.folder / "converter", self.folder / "count"
        path.write_text(f'#!/bin/sh\necho $$ >> {count}\nwhile echo "{{}}"; do :; done\n')
        path.chmod(0o755)
        with mock.patch.object(converter, "MAX_INPUT", 5_000_000), self.assertRaises(Failure):
            logs.taken(self.file("given", GOOD), Asked(path))
        (number,) = count.read_text().split()
        self.assertFalse(Path(f"/proc/{number}").exists())

    def test_a_converter_that_fails(self) -> None:
        path = self.folder / "converter"
        for body, why in (
            ("echo 'qlog-to-trace: /dev/fd/0: x' >&2; exit 3", "ended with status 3: "),
            ('for it; do :; done; echo "qlog-to-trace: $it: full" >&2; exit 3', "status 3: full"),
            ("echo a >&2; exit 2", "ended with status 2: a"),
            ("kill -9 $$", "was killed by 9"),
            ("exit 64", "ended with status 64"),
        ):
            path.write_text(f"#!/bin/sh\n{body}\n")
            path.chmod(0o755)
            with self.subTest(body), self.assertRaises(Failure) as raised:
                logs.taken(self.file("given", GOOD), Asked(path))
            self.assertEqual(raised.exception.status, Status.FAULT)
            self.assertIn(why, str(raised.exception))

    def test_compressed(self) -> None:
        wanted = self.taken(GOOD)
        self.assertEqual(wanted.data.count(b"\n"), 4)
        forms = [gzip.compress(GOOD), lzma.compress(GOOD), *([] if NO_ZSTD else [zstd(GOOD)])]
        for data in forms:
            self.assertEqual(self.taken(data), wanted)

    def test_what_of_the_log_is_not_in_it(self) -> None:
        self.assertEqual(self.taken(GOOD).lacks, ())
        self.assertEqual(self.taken(TORN).lacks, ("torn off at line 4; the trace ends there",))
        (told,) = self.taken(NO_JSON).lacks
        self.assertRegex(told, r"^not JSON(: .*)? at line 5; the trace ends there$")
        (told,) = self.taken(TWO).lacks
        self.assertIn("it has 2 connections or paths; this is number 1", told)
        for words, size in (("", 500), ("--connection 2", 600)):
            lines = self.taken(TWO, words).data.splitlines()
            self.assertEqual(json.loads(lines[1])["size"], size)

    def test_notes_if_they_are_asked_for(self) -> None:
        self.assertFalse([it for it in self.taken(GOOD).told if it.startswith("guessed")])
        self.assertTrue([it for it in self.taken(GOOD, "--notes").told if it.startswith("guessed")])

    def test_what_gives_no_trace(self) -> None:
        for data, reason in (
            (b'{"qlog_version":"0.3","traces":[]}', "it has no traces"),
            (sequence(), "no packet_sent of a QUIC packet with a size"),
            (sequence({"name": "transport:packet_sent", "time": "x"}), "line 2: time"),
            (b'{"traces": 5, "title": "x"', "traces is "),
            (b"PK\x03\x04", "a zip archive: unpack it first"),
            (b'\x1e{"a":"\x1b[31m', "line 1: "),
        ):
            with self.assertRaises(NoTraceError) as raised:
                self.taken(data)
            self.assertTrue(raised.exception.reason.startswith(reason), raised.exception.reason)
            self.assertEqual(raised.exception.status, Status.UNSHOWN)
            self.assertTrue(raised.exception.reason.isprintable())

    def test_a_trace_that_is_too_long(self) -> None:
        for name, is_shown in (("MAX_LINES", True), ("MAX_SHOWN", True), ("MAX_INPUT", False)):
            before = getattr(converter, name)
            setattr(converter, name, 3)
            self.addCleanup(setattr, converter, name, before)
            with self.assertRaises(Failure) as raised:
                self.taken(GOOD, is_shown=is_shown)
            self.assertIn("gives a trace of more ", str(raised.exception))
            setattr(converter, name, before)


@unittest.skipIf(NO_LIBRARY, NO_LIBRARY)
class Pages(InFolder):
    """The command qaudit-page."""

    def ended(self, *words: object, data: bytes = b"", command: Path = PAGE / "qaudit-page") -> Any:
        """How the command ends."""
        arguments = [sys.executable, str(command), *PROGRAMS, *map(str, words)]
        return subprocess.run(arguments, input=data, capture_output=True, timeout=60, check=False)

    def page(self, *words: object, **more: Any) -> Page:
        """The page that the command writes."""
        ended = self.ended(*words, **more)
        self.assertEqual((ended.returncode, ended.stderr), (0, b""))
        return Page(ended.stdout.decode())

    def test_a_log(self) -> None:
        bad = self.file("bad.sqlog", BAD)
        page = self.page(bad)
        self.assertEqual(page.by_id["h1"], "bad.sqlog")
        self.assertIn("Refused at line 3: V6 number-not-higher.", page.by_id["p"])
        self.assertIn("from line 3 of the log", " ".join(page.by_id["facts"].split()))
        places = [json.loads(it).get("x_place") for it in page.lines()]
        self.assertEqual(places, [None, "line 2", "line 3"])
        # By a pipe, by standard input and by a FIFO.
        self.assertEqual(self.page(data=BAD).lines(), page.lines())
        with bad.open("rb") as file:
            words = [sys.executable, PAGE / "qaudit-page", *PROGRAMS]
            ended = subprocess.run(
                list(map(str, words)), stdin=file, capture_output=True, check=True
            )
        self.assertEqual(Page(ended.stdout.decode()).lines(), page.lines())

    def test_a_fifo(self) -> None:
        fifo = self.folder / "log"
        os.mkfifo(fifo)
        for data in (GOOD, gzip.compress(GOOD), TRACE):
            writing = threading.Thread(target=fifo.write_bytes, args=(data,))
            writing.start()
            page = self.page(fifo)
            writing.join()
            self.assertIn("Accepted", page.by_id["p"])
            self.assertEqual(len(page.lines()), 2 if data is TRACE else 4)

    def test_what_the_converter_says(self) -> None:
        told = "The converter says of the log: torn off at line 4; the trace ends there"
        page = self.page(self.file("torn.qlog", TORN))
        self.assertIn(told, "".join(page.texts["p"] + page.texts.get("summary", [])))
        page = self.page("--convert=--connection 2", self.file("two.qlog", TWO))
        self.assertEqual(json.loads(page.lines()[1])["size"], 600)

    def test_a_log_and_a_trace(self) -> None:
        page = self.page(self.file("a.sqlog", BAD), self.file("a.trace", TRACE))
        self.assertIn("a.sqlog and a.trace", page.by_id["title"])
        self.assertIn("from line 3 of the log", " ".join(page.by_id["first-facts"].split()))

    def test_what_gives_no_trace(self) -> None:
        bad, good = self.file("bad.qlog", b'{"traces":[]}'), self.file("good.qlog", GOOD)
        for words in ((bad,), (good, bad), (bad, good)):
            ended = self.ended(*words)
            self.assertEqual((ended.returncode, ended.stdout), (2, b""))
            self.assertEqual(ended.stderr.decode(), f"qaudit-page: {bad}: it has no traces\n")
        ended = self.ended("--convert=--vantage client", good)
        wanted = f"qaudit-page: {good}: no trace of a client is in it\n"
        self.assertEqual((ended.returncode, ended.stderr.decode()), (2, wanted))

    def test_what_is_neither(self) -> None:
        for data in (b"", b"neither\n", b" " * 2_000_000, b"\n" * 2_000_000):
            page = self.page("--to", 1, self.file("neither", data))
            self.assertIn("Unreadable at", page.by_id["p"])

    def test_wrong_options(self) -> None:
        for words in ("--nothing", "x.qlog"):
            ended = self.ended(f"--convert={words}", LOG)
            self.assertEqual((ended.returncode, ended.stdout), (64, b""))
            told = f"qaudit-page: qlog-to-trace {words}: "
            self.assertTrue(ended.stderr.decode().startswith(told), ended.stderr)
            self.assertEqual(ended.stderr.count(b"\n"), 1)

    def test_an_interrupt_ends_the_converter_too(self) -> None:
        converter, number = self.folder / "converter", self.folder / "number"
        body = f"echo $$ > {number}.new; mv {number}.new {number}; exec sleep 60"
        converter.write_text(f"#!/bin/sh\n{body}\n")
        converter.chmod(0o755)
        words = ["--program", PROGRAM, "--converter", converter, self.file("a.qlog", GOOD)]
        with subprocess.Popen(
            [sys.executable, str(PAGE / "qaudit-page"), *map(str, words)],
            # A command in the background of a shell has it ignored.
            preexec_fn=lambda: signal.signal(signal.SIGINT, signal.default_int_handler),
        ) as running:
            limit = time.monotonic() + 60
            while not number.exists() and time.monotonic() < limit:
                time.sleep(0.02)
            running.send_signal(signal.SIGINT)
            self.assertEqual(running.wait(60), -signal.SIGINT)
        self.assertFalse(Path(f"/proc/{number.read_text().strip()}").exists())

    def test_in_an_archive(self) -> None:
        """As release/pack makes it."""
        modules = self.folder / "modules"
        for package in (PAGE / "qaudit_page", PROJECT / "netlog" / "netlog_to_qlog"):
            shutil.copytree(package, modules / package.name)
            (modules / package.name / "VERSION").write_text("1.2.3\n")
        command = self.folder / "qaudit-page"
        zipapp.create_archive(modules, command, main="qaudit_page.command:program")
        page = self.page(self.file("bad.sqlog", BAD), command=command)
        self.assertEqual(page.by_id["h1"], "bad.sqlog")


class Searched(InFolder):
    """What is found in directories."""

    def put(self, *names: str) -> None:
        """Makes empty files, each a second younger than the one before."""
        for age, name in enumerate(names):
            path = self.folder / name
            path.parent.mkdir(parents=True, exist_ok=True)
            path.touch()
            os.utime(path, (age, age))

    def test_names(self) -> None:
        found = [f"{it}{packed}" for it in "abcde" for packed in ("", ".gz", ".xz", ".zst")]
        named = (".trace", ".qlog", ".sqlog", ".netlog", ".netlog.json")
        endings = dict(zip("abcde", named, strict=True))
        names = [f"{it[0]}{it[1:].replace('.', '-')}/x{endings[it[0]]}{it[1:]}" for it in found]
        self.put(*names, "x.qlog.bz2", "x.json", "qlog/y", "x.qlog-old")
        (self.folder / "folder.qlog").mkdir()
        search = Search([self.folder])
        keys = [f"{name.partition('/')[0]}/x" for name in names]
        self.assertEqual(sorted(key for _, key in search.found), sorted(keys))

    def test_a_log_beside_its_trace(self) -> None:
        self.put("a.sqlog", "a.trace", "b.qlog.gz", "b.trace.xz", "c.qlog", "c.qlog.trace")
        self.put("d.qlog", "e/d.trace", "f.qlog", "f.sqlog")
        search = Search([self.folder])
        found = [path.name for path, _ in search.found]
        traces = ["a.trace", "b.trace.xz", "c.qlog.trace"]
        self.assertEqual(found, [*traces, "d.qlog", "d.trace", "f.qlog", "f.sqlog"])
        self.assertEqual(search.note, "")
        # Files that are named are all taken.
        named = Search([self.folder / "a.sqlog", self.folder / "a.trace"])
        self.assertEqual([key for _, key in named.found], ["a", "a"])

    def test_a_trace_that_is_older(self) -> None:
        self.put("a.trace", "a.sqlog", "b.trace", "b.sqlog")
        at = self.folder
        wanted = (
            f"{at}/a.trace is audited, and not {at}/a.sqlog, which is newer: remove the trace to"
            " have it audited (and 1 more)"
        )
        self.assertEqual(Search([at]).note, wanted)

    def test_a_file_that_is_gone(self) -> None:
        (gone,) = left_out_of([Path("/nowhere/a.sqlog"), Path("/nowhere/a.trace")])
        self.assertFalse(gone.is_newer)


class Tables(InFolder):
    """The command qaudit-matrix."""

    def setUp(self) -> None:
        super().setUp()
        self.logs = self.folder / "logs"
        self.logs.mkdir()
        for name, data in (
            ("bad.sqlog", BAD),
            ("empty.qlog", b'{"traces":[]}'),
            ("good.qlog.gz", gzip.compress(GOOD)),
            ("torn.sqlog", TORN),
            ("trace.trace", TRACE),
        ):
            (self.logs / name).write_bytes(data)

    def run_command(self, *words: object, status: int = 2) -> str:
        """Runs the command; what it writes on standard error."""
        command = [sys.executable, PAGE / "qaudit-matrix", *PROGRAMS]
        command += ["--output", "table.html", "--json", "now.json", *words, "logs"]
        ended = subprocess.run(
            list(map(str, command)),
            cwd=self.folder,
            capture_output=True,
            text=True,
            timeout=60,
            check=False,
        )
        self.assertEqual(ended.returncode, status, ended.stderr)
        return str(ended.stdout + ended.stderr)

    def results(self) -> dict[str, Any]:
        """The results by their keys."""
        said = json.loads((self.folder / "now.json").read_text())
        return {it["key"]: it for it in said["traces"]}

    def table(self) -> str:
        """The text of the table."""
        return Page((self.folder / "table.html").read_text()).by_id["table"]

    def test_a_folder_of_logs_and_traces(self) -> None:
        self.assertEqual(self.run_command(), "")
        found = {key: it["kind"] for key, it in self.results().items()}
        wanted = {"bad": "refused", "empty": "unreadable", "good": "accepted", "torn": "accepted"}
        self.assertEqual(found, wanted | {"trace": "accepted"})
        self.assertEqual(self.results()["bad"]["place"], "line 3 of the log")
        lacks = ["torn off at line 4; the trace ends there"]
        self.assertEqual(self.results()["torn"]["log_lacks"], lacks)
        for text in (
            "V6 number-not-higher, line 3 (line 3 of the log)",
            "? unreadablelog not-convertedit has no traces",
            f"({chr(0x2713)}) accepted with allowances",
            lacks[0],
        ):
            self.assertIn(text, self.table())

    @unittest.skipIf(NO_LIBRARY, NO_LIBRARY)
    def test_with_pages(self) -> None:
        self.assertEqual(self.run_command("--pages", "pages", "--jobs", 1), "")
        self.assertEqual(self.results()["empty"]["page"], "")
        pages = sorted(it.name for it in (self.folder / "pages").iterdir())
        self.assertEqual(pages, [f"{it}.html" for it in ("bad", "good", "torn", "trace")])
        page = Page((self.folder / "pages" / "bad.html").read_text())
        self.assertEqual(json.loads(page.lines()[2])["x_place"], "line 3")

    def test_a_log_that_is_newer_than_its_trace(self) -> None:
        os.utime(self.logs / "bad.sqlog", (9, 9))
        (self.logs / "bad.trace").write_bytes(TRACE)
        self.assertEqual(self.run_command(), "")
        self.assertEqual(self.results()["bad"]["kind"], "accepted")
        os.utime(self.logs / "bad.trace", (5, 5))
        told = self.run_command()
        self.assertTrue(told.startswith("qaudit-matrix: logs/bad.trace is audited, and not logs/"))
        self.assertEqual(told.count("\n"), 1)

    def test_for_ci(self) -> None:
        told = self.run_command(
            *("--known", "known.json", "--write-known", "--annotate"),
            *("--junit", "junit.xml", "--sarif", "sarif.json"),
            status=0,
        )
        self.assertIn("notice file=logs/bad.sqlog,line=3,title=qaudit V6 number-not-higher", told)
        self.assertIn("(Line 3 of the trace that this log gives: line 3 of the log.)", told)
        self.assertIn("notice file=logs/empty.qlog,title=qaudit log not-converted::", told)
        said = json.loads((self.folder / "sarif.json").read_text())["runs"][0]
        rules = {it["id"] for it in said["tool"]["driver"]["rules"]}
        places = [it["locations"][0]["physicalLocation"] for it in said["results"]]
        self.assertEqual(
            [(it["artifactLocation"]["uri"], it.get("region")) for it in places],
            [("logs/bad.sqlog", {"startLine": 3}), ("logs/empty.qlog", None)],
        )
        self.assertLessEqual({it["ruleId"] for it in said["results"]}, rules)
        junit = (self.folder / "junit.xml").read_text()
        self.assertRegex(junit, r"logs/bad\.sqlog:3: V6 .*\(Line 3 of the trace that this log")
        self.assertIn("accepted with allowances, by lines of its trace\nlogs/good.qlog.gz: ", junit)
        (note, *_) = said["invocations"][0]["toolExecutionNotifications"]
        wanted = "good: accepted with allowances, by lines of its trace: "
        self.assertTrue(note["message"]["text"].startswith(wanted), note)
        self.run_command("--known", "known.json", status=0)
        (self.logs / "none.qlog").write_bytes(b'{"traces":[]}')
        told = self.run_command("--known", "known.json", status=1)
        self.assertEqual(told, "qaudit-matrix: none: new violation log not-converted\n")

    def test_places_of_bytes(self) -> None:
        records = json.dumps([left(0, 0), left(1, 0)])
        vantage = '"vantage_point":{"type":"server"},"common_fields":{"time_format":"relative"}'
        text = f'{{"qlog_version":"0.3","traces":[{{{vantage},"events":{records}}}]}}'
        (self.logs / "bad.sqlog").write_text(text)
        at = text.index('{"time": 1')
        told = self.run_command("--sarif", "sarif.json", "--annotate")
        self.assertEqual(self.results()["bad"]["place"], f"byte {at} of the log")
        self.assertIn("error file=logs/bad.sqlog,title=qaudit V6 number-not-higher (MUST)::", told)
        self.assertIn(f"(Line 3 of the trace that this log gives: byte {at} of the log.)", told)
        said = json.loads((self.folder / "sarif.json").read_text())["runs"][0]["results"][0]
        region = said["locations"][0]["physicalLocation"]["region"]
        self.assertEqual(region, {"byteOffset": at})

    def test_options(self) -> None:
        (self.logs / "two.qlog").write_bytes(TWO)
        self.run_command()
        told = "it has 2 connections or paths; this is number 1"
        self.assertIn(told, self.table())
        self.run_command("--convert=--connection 2")
        self.assertIn("it has 1 connections or paths, and no number 2", self.table())
        told = self.run_command("--convert=--nothing", status=64)
        self.assertTrue(told.startswith("qaudit-matrix: qlog-to-trace --nothing: "), told)

    def test_without_a_converter(self) -> None:
        """Traces are audited all the same."""
        self.run_command("--converter", "/nowhere", status=3)
        found = {key: it["kind"] for key, it in self.results().items()}
        self.assertEqual({key for key, kind in found.items() if kind == "accepted"}, {"trace"})
        self.assertIn("there is no program /nowhere; --converter names one", self.table())


class Ends(unittest.TestCase):
    """The logs of both ends of an upload over a link that takes DELAY each way, half of the time
    that a packet and its acknowledgment take: see conformance/real/README.md."""

    # How far off whole milliseconds, and an answer that takes a while, may make it.
    DELAY, SLACK = 30 * MILLISECOND, 6 * MILLISECOND

    def setUp(self) -> None:
        self.logs = [REAL / f"ngtcp2-upload-{side}.qlog" for side in ("client", "server")]
        self.ends = [self.end(path) for path in self.logs]

    def end(self, path: Path) -> End:
        """An end as a page has it."""
        given = logs.taken(path, Asked(CONVERTER))
        _, trace = audited(str(PROGRAM), given.data, readers=0)
        return End(trace, path.name)

    @staticmethod
    def sent(end: End) -> dict[tuple[str, int], int]:
        """When an end sent each packet, by its own clock."""
        packets = end.trace.packets
        spaces = map(SPACES.__getitem__, packets.space)
        return dict(zip(zip(spaces, packets.number, strict=True), end.sent, strict=True))

    @staticmethod
    def came(path: Path) -> dict[tuple[str, int], int]:
        """When each packet came by a log, by the clock of its trace."""
        with path.open("rb") as file:
            form = form_of(file)
            events = events_of(form.events(0), form.headers()[0])
            found = [it for it in events if it.name == "packet_received" and it.space]
            return {(str(it.space), it.number): it.time for it in found}

    def test_each_packet_is_sent_before_it_comes(self) -> None:
        shift = alignment_of(*self.ends).shift
        for end, log, later in (
            (self.ends[0], self.logs[1], shift),
            (self.ends[1], self.logs[0], -shift),
        ):
            sent, came = self.sent(end), self.came(log)
            ways = [came[it] + later - time for it, time in sent.items() if it in came]
            self.assertGreater(min(ways), 0)
            self.assertGreaterEqual(min(ways), self.DELAY - self.SLACK)
            self.assertLessEqual(max(ways), self.DELAY + self.SLACK)
            # All that came was sent, but for the packet that closes the connection.
            self.assertLessEqual(len(came.keys() - sent.keys()), 1)
        # Of the upload some packets were lost, as the client says.
        gone = self.sent(self.ends[0]).keys() - self.came(self.logs[1]).keys()
        self.assertGreater(len(gone), 2)
        packets = self.ends[0].trace.packets
        lost = {
            (SPACES[space], number)
            for space, number, at in zip(packets.space, packets.number, packets.lost, strict=False)
            if at
        }
        self.assertLessEqual(lost, gone)
        self.assertTrue(lost)

    @unittest.skipIf(NO_LIBRARY, NO_LIBRARY)
    def test_the_page_of_both(self) -> None:
        command = [sys.executable, PAGE / "qaudit-page", *PROGRAMS, *self.logs]
        ended = subprocess.run(list(map(str, command)), capture_output=True, check=True)
        page = Page(ended.stdout.decode())
        found = alignment_of(*self.ends)
        self.assertEqual(page.by_id["aligned"], found.text)
        self.assertIn("is half way between the Initial packet of ngtcp2-upload-client", found.text)
        self.assertRegex(found.text, r"All \d+ acknowledgments then follow a packet")


if __name__ == "__main__":
    unittest.main()
