#!/usr/bin/env python3
"""Tests that no program writes to a terminal what others said and cannot be seen as it is.

The names of files, traces, logs and arguments have escape sequences, marks that turn text around,
tags and names without an end. The programs in Python are run, and those that were proved if
QAUDIT and QAUDIT_WHY name them.
"""

import json
import os
import subprocess
import sys
import unittest
from collections.abc import Iterator
from pathlib import Path

from names import is_hidden, shown_name
from runners import FOLDER
from testing import new_folder

TOP = FOLDER.parent
TRACE = (FOLDER / "traces" / "eleventh-past-window.trace").read_bytes()
LOG = FOLDER / "real" / "traces" / "ngtcp2-past-window.qlog"
NETLOG = FOLDER / "real" / "traces" / "chromium-156-loss.netlog"
# What ends lines, moves the cursor, sets a title, rings, and turns text around.
HIDDEN = "\x1b[31m\x1b]0;title\x07\x7f\x9b2J\r\x08\u202e\u2066\u061c\u200f\u2028"
# What nobody sees: tags, fillers, a joiner, a soft hyphen and selectors of variants.
TAGS = "\U000e0041\U000e0001\u3164\uffa0\u115f\u200b\ufeff\u00ad\u034f\u180e\ufe0f\U000e0100"
LONG = "n" * 5_000
# The planes of Unicode that have a hidden character, and what can be in no name.
PLANES = (0, 1, 14)
NO_NAMES = "\0/"
CHARACTERS_OF_A_NAME = 20_000
# A name of 255 bytes has 60 characters of 4 bytes.
CHARACTERS_OF_A_FILE = 60
PYTHON = ("qaudit-page", "qaudit-matrix", "qlog-to-trace", "netlog-to-qlog")
# How inputs are named of programs that take no traces.
ENDINGS = {"qlog-to-trace": "qlog", "native": "qlog", "netlog-to-qlog": "netlog"}
WHY = os.environ.get("QAUDIT_WHY", str(TOP / "page" / "stand_in.py"))
SECONDS = 60
Ended = subprocess.CompletedProcess[bytes]
SCRIPT = 'x.VERSION = "2.2.1"\n'


def commands(folder: Path) -> Iterator[tuple[str, list[str]]]:
    """The programs, each with the words before the name of a file."""
    options = ["--program", WHY, "--dygraphs", str(folder / "dygraphs.js")]
    for name in PYTHON[:2]:
        yield name, [sys.executable, str(TOP / "page" / name), *options]
    yield PYTHON[2], [sys.executable, str(FOLDER / "qlog" / PYTHON[2])]
    yield PYTHON[3], [sys.executable, str(TOP / "netlog" / PYTHON[3])]
    if "QLOG_TO_TRACE" in os.environ:
        yield "native", [os.environ["QLOG_TO_TRACE"]]
    if "QAUDIT" in os.environ:
        for word in ("check", "explain"):
            yield "qaudit", [os.environ["QAUDIT"], word]
    if "QAUDIT_WHY" in os.environ:
        for words in (list[str](), ["--all", "--around", "3", "--warn"], ["--rows"]):
            yield "qaudit-why", [os.environ["QAUDIT_WHY"], *words]


def traces(evil: str) -> Iterator[bytes]:
    """Traces with this text as a key, a value, a line, and bytes that are no UTF-8."""
    first, *_, last = TRACE.splitlines(keepends=True)
    said, whole = json.loads(last), TRACE[: -len(last)]
    header = json.loads(first)
    for front, event in (
        (whole, said | {f"x_{evil}": evil}),
        (first, {"event": evil, "time": 0}),
        (first, said | {"space": evil}),
        (first, {"event": "sent", f"tim{evil}": 0}),
        (b"", header | {"role": evil}),
        (b"", {"event": evil}),
    ):
        yield front + json.dumps(event, ensure_ascii=False).encode() + b"\n"
    yield first + evil.encode() + b"\n"
    yield first + b'{"event":"sent","time":"\xff\xfe\x1b[2J"}\n'


def logs(evil: str) -> Iterator[bytes]:
    """Logs with this text at each key whose value a message shows, and around it."""
    text = LOG.read_text()
    first, *others = text.splitlines(keepends=True)
    for old in ('"relative"', '"ngtcp2"', '"server"', '"client"', '"1RTT"', '"packet_number":'):
        if old in text:
            new = json.dumps(evil, ensure_ascii=False) + (":" if old.endswith(":") else "")
            yield text.replace(old, new).encode()
    yield first.encode() + f"\x1e{evil}\n".encode() + "".join(others).encode()
    yield evil.encode()
    yield json.dumps({"event": "header", evil: evil}, ensure_ascii=False).encode()


def unseen(text: bytes, is_python: bool) -> set[str]:
    """The characters of a text that a terminal does not show as they are."""
    marks = set(text.decode("utf-8", "surrogateescape")) - {"\n"}
    # A program in Python escapes more: what Python does not call printable.
    return {
        f"U+{ord(it):04X}"
        for it in marks
        if is_hidden(it) or (is_python and not it.isprintable())
    }


def characters() -> str:
    """All characters of these planes that a name may have."""
    planes = (range(plane << 16, (plane + 1) << 16) for plane in PLANES)
    numbers = (it for plane in planes for it in plane if not 0xD800 <= it < 0xE000)
    return "".join(it for it in map(chr, numbers) if it not in NO_NAMES)


def pieces(text: str, count: int) -> Iterator[str]:
    """A text in pieces of so many characters."""
    for at in range(0, len(text), count):
        yield text[at : at + count]


class Terminals(unittest.TestCase):
    """What programs write."""

    def setUp(self) -> None:
        self.folder = new_folder(self)
        (self.folder / "dygraphs.js").write_text(SCRIPT)

    def check(self, name: str, words: list[str], ends: tuple[int, ...]) -> Ended:
        """A program ends by itself, and writes what can be seen."""
        ended = subprocess.run(
            words,
            cwd=self.folder,
            stdin=subprocess.DEVNULL,
            capture_output=True,
            timeout=SECONDS,
            check=False,
        )
        self.assertIn(ended.returncode, ends, (words, ended.stderr[-300:]))
        self.assertNotIn(b"Traceback", ended.stderr)
        # A record of a qlog begins with a mark that moves nothing.
        output = ended.stdout.replace(b"\x1e", b"") if name == "netlog-to-qlog" else ended.stdout
        for text in (output, ended.stderr):
            self.assertEqual(unseen(text, name in PYTHON), set(), (words, text[-300:]))
        return ended

    def test_names_of_files(self) -> None:
        evil = f"{HIDDEN}{TAGS}"
        (self.folder / f"{evil}.trace").write_bytes(TRACE)
        (self.folder / f"{evil}.qlog").write_bytes(LOG.read_bytes())
        (self.folder / f"{evil}.netlog").write_bytes(NETLOG.read_bytes())
        for name, words in commands(self.folder):
            ending = ENDINGS.get(name, "trace")
            self.check(name, [*words, f"{evil}.{ending}"], (0, 1))
            for missing in (f"none{evil}", LONG, LONG + evil):
                self.check(name, [*words, missing], (3,))

    def test_arguments(self) -> None:
        for name, words in commands(self.folder):
            for word in (f"--{HIDDEN}{TAGS}", f"--{LONG}{HIDDEN}", f"-{TAGS}"):
                self.check(name, [*words, word], (64,))

    @unittest.skipUnless("QAUDIT_WHY" in os.environ, "QAUDIT_WHY is not set")
    def test_arguments_of_why(self) -> None:
        for word in (
            f"--around={HIDDEN}",
            f"--around=5{TAGS}",
            f"--quiet={HIDDEN}{TAGS}",
            f"-q{TAGS}",
            f"--x{HIDDEN}\nx: accepted, 9 events",
        ):
            ended = self.check("qaudit-why", [os.environ["QAUDIT_WHY"], word], (64,))
            self.assertEqual(ended.stdout, b"")
            self.assertNotIn(b"\nx: accepted", ended.stderr)
        # It names what is wrong, as names are shown.
        ended = self.check("qaudit-why", [os.environ["QAUDIT_WHY"], "--x\n\u202e"], (64,))
        self.assertIn(b"unexpected argument '--x\\x0A\\xE2\\x80\\xAE' found", ended.stderr)

    def test_each_character(self) -> None:
        names = list(pieces(characters(), CHARACTERS_OF_A_NAME))
        for name, words in commands(self.folder):
            if name in PYTHON or name in ENDINGS or "explain" in words:
                continue
            ended = self.check(name, [*words, "--", *(f"none/{it}" for it in names)], (3,))
            wanted = "".join(f"{name}: cannot open none/{shown_name(it)}\n" for it in names)
            self.assertEqual(ended.stderr.decode(), wanted)

    @unittest.skipUnless("QAUDIT_WHY" in os.environ, "QAUDIT_WHY is not set")
    def test_objects(self) -> None:
        hidden = "".join(filter(is_hidden, characters()))
        names = list(pieces(f'{hidden}"\\{{', CHARACTERS_OF_A_FILE))
        for name in names:
            (self.folder / name).write_bytes(TRACE)
        for more in (list[str](), ["--all"]):
            words = [os.environ["QAUDIT_WHY"], "--json", *more, "--", *names]
            ended = self.check("qaudit-why", words, (1,))
            lines = ended.stdout.decode().split("\n")
            self.assertEqual([json.loads(it)["file"] for it in lines[:-1]], names)

    def test_other_names(self) -> None:
        (self.folder / "a.trace").write_bytes(TRACE)
        for name, words in commands(self.folder):
            options = ["output", "dygraphs", "program"]
            if name == "qaudit-matrix":
                options += ["pages", "json", "against", "known", "junit", "sarif"]
            for option in options if name in PYTHON[:2] else ():
                for value in (LONG + HIDDEN, f"none/{HIDDEN}"):
                    # Some are made, and some are not asked for.
                    ends = (1, 3) if option in ("pages", "dygraphs") else (3,)
                    self.check(name, [*words, f"--{option}", value, "a.trace"], ends)

    def test_traces(self) -> None:
        # The stand-in for qaudit-why knows nothing of some of these.
        ends = (0, 1, 2) if "QAUDIT_WHY" in os.environ else (0, 1, 2, 3)
        for name, words in commands(self.folder):
            for trace in () if name in ENDINGS else traces(HIDDEN + TAGS):
                (self.folder / "a.trace").write_bytes(trace)
                self.check(name, [*words, "a.trace"], ends)

    def test_logs(self) -> None:
        converters = [it for it in commands(self.folder) if ENDINGS.get(it[0]) == "qlog"]
        for log in logs(HIDDEN + TAGS):
            (self.folder / "a.qlog").write_bytes(log)
            for name, words in converters:
                for more in (list[str](), ["--notes"]):
                    self.check(name, [*words, *more, "a.qlog"], (0, 2))

    def test_netlogs(self) -> None:
        _, words = next(it for it in commands(self.folder) if it[0] == "netlog-to-qlog")
        text, evil = NETLOG.read_text(), HIDDEN + TAGS
        for old in ('"QUIC_SESSION_CRYPTO_FRAME_SENT"', '"ENCRYPTION_INITIAL"', '"packet_number"'):
            self.assertIn(old, text)
            new = text.replace(old, json.dumps(evil, ensure_ascii=False))
            for log in (new, f"{new[:-60]}{evil}", f"{evil}{new}"):
                (self.folder / "a.netlog").write_text(log)
                self.check("netlog-to-qlog", [*words, "a.netlog"], (0, 2))


if __name__ == "__main__":
    unittest.main()
