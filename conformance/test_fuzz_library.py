#!/usr/bin/env python3
"""Tests what fuzz_library finds, in a library that is none: it accepts everything.

It wants a clang that has libFuzzer, as Debian's with libclang-rt-14-dev.
"""

import argparse
import re
import subprocess
import sys
import tempfile
import unittest
from pathlib import Path
from unittest.mock import patch

import inputs
from runners import FOLDER
from testing import new_folder, script

LIBRARY = """
#include "qaudit.h"
#include <stdlib.h>
#include <string.h>
static volatile uint64_t seen;
static uint32_t now(qaudit *q) { return q->is_open ? *(uint32_t *)q->at : QAUDIT_CLOSED; }
void qaudit_close(qaudit *q) {
    if (q->is_open && !LEAKS) free(q->at);
    q->at = NULL;
    q->is_open = false;
}
uint32_t qaudit_open(qaudit *q) {
    qaudit_close(q);
    q->at = malloc(8);
    if (!q->at && !UNCHECKED) return QAUDIT_CLOSED;
    memset(q->at, 0, 8);
    q->is_open = true;
    return QAUDIT_OPEN;
}
uint32_t qaudit_open_recorded(qaudit *q) { return qaudit_open(q); }
uint32_t qaudit_status(qaudit *q) { return now(q); }
uint32_t qaudit_feed(qaudit *q, const uint8_t *b, size_t n) {
    for (size_t i = 0; i < n + READS_ON; i++) seen += b[i];
    if (MOVES && now(q) == QAUDIT_FINISHED) *(uint32_t *)q->at = QAUDIT_OPEN;
    return now(q);
}
uint32_t qaudit_header(qaudit *q, const qaudit_trace_header *h) { return now(q); }
uint32_t qaudit_sent(qaudit *q, const qaudit_packet *p) {
    return STATUS && now(q) == QAUDIT_OPEN ? 9 : now(q);
}
uint32_t qaudit_ack(qaudit *q, const qaudit_acknowledgment *a, const qaudit_range *r, size_t n) {
    for (size_t i = 0; i < n; i++) seen += r[i + READS_RANGES].least;
    return now(q);
}
uint32_t qaudit_lost(qaudit *q, uint64_t t, uint32_t s, const qaudit_range *r, size_t n) {
    return now(q);
}
uint32_t qaudit_timer(qaudit *q, const qaudit_fired_timer *t) { return now(q); }
uint32_t qaudit_discard(qaudit *q, uint64_t t, uint32_t s) { return now(q); }
uint32_t qaudit_confirmed(qaudit *q, uint64_t t) { return now(q); }
uint32_t qaudit_keys(qaudit *q, uint64_t t) { return now(q); }
uint32_t qaudit_metrics(qaudit *q, const qaudit_metrics_report *m) {
    void *block = malloc(1);
    bool forgets = FORGETS && !block && now(q) == QAUDIT_OPEN;
    free(block);
    return forgets ? QAUDIT_OUT_OF_MEMORY : now(q);
}
uint32_t qaudit_finish(qaudit *q) {
    if (q->is_open) *(uint32_t *)q->at = QAUDIT_FINISHED;
    return now(q);
}
static bool is_known(qaudit *q) { return now(q) == QAUDIT_FINISHED; }
bool qaudit_verdict(qaudit *q, qaudit_told *out) {
    if (is_known(q)) out->kind = QAUDIT_ACCEPTED;
    return is_known(q);
}
size_t qaudit_report(qaudit *q, uint8_t *out, size_t room) {
    static const char text[] = "accepted\\n";
    if (!is_known(q) && !TELLS) return 0;
    if (room >= 9 || WRITES) memcpy(out, text, 9);
    return 9;
}
size_t qaudit_first_line(qaudit *q, uint8_t *out, size_t room) {
    return qaudit_report(q, out, room);
}
size_t qaudit_why(qaudit *q, uint8_t *out, size_t room) {
    if (!q->is_open) return 0;
    if (room >= 1 || REASONS) *out = '-';
    return 1;
}
size_t qaudit_around(qaudit *q, uint16_t rows, uint8_t *out, size_t room) {
    return qaudit_why(q, out, room);
}
size_t qaudit_allowed(qaudit *q, qaudit_allowance *out, size_t room) { return ALLOWED; }
static size_t name(uint32_t which, uint8_t *out, size_t room) {
    if (which != 7) return 0;
    if (room >= 4 || NAMES) memcpy(out, "name", 4);
    return 4;
}
size_t qaudit_rule_name(uint32_t n, uint8_t *out, size_t room) { return name(n, out, room); }
size_t qaudit_fault_name(uint32_t n, uint8_t *out, size_t room) { return name(n, out, room); }
size_t qaudit_key_name(uint32_t n, uint8_t *out, size_t room) { return name(n, out, room); }
"""
# What each mistake of that library looks like.
MISTAKES = {
    "LEAKS": "LeakSanitizer: detected memory leaks",
    "READS_ON": "heap-buffer-overflow",
    "READS_RANGES": "heap-buffer-overflow",
    "MOVES": "a call moved an audit that was at its end",
    "STATUS": "no such status",
    "TELLS": "a report without a verdict, or none with it",
    "WRITES": "a short buffer was written to",
    "NAMES": "a name was written where it has no room",
    "REASONS": "a reason was written where it has no room",
    "ALLOWED": "something was allowed without a session",
    "UNCHECKED": "SEGV on unknown address",
    "FORGETS": "the status is another after a call",
}
PROGRAM = FOLDER / "fuzz_library"
# By a number and not for a time, so that a busy computer finds the same.
INPUTS = 100_000


def made(folder: Path, wrong: str = "") -> Path | None:
    """The library, with a mistake; none where there is no such clang."""
    flags = [f"-D{name}={int(name == wrong)}" for name in MISTAKES]
    words = ["clang", "-fsanitize=fuzzer-no-link,address", "-g", "-w", *flags]
    include = FOLDER.parent / "include"
    command = list(map(str, [*words, "-I", include, "-x", "c", "-c", "-", "-o", folder / "it.o"]))
    archive = ["ar", "rcs", str(folder / "it.a"), str(folder / "it.o")]
    link = ["clang", "-fsanitize=fuzzer,address", "-x", "c", "-", "-o", str(folder / "empty")]
    body = "int LLVMFuzzerTestOneInput(const char *b, unsigned long n) { return 0; }"
    try:
        subprocess.run(link, input=body, text=True, capture_output=True, check=True)
        subprocess.run(command, input=LIBRARY, text=True, capture_output=True, check=True)
        subprocess.run(archive, capture_output=True, check=True)
    except (OSError, subprocess.CalledProcessError):
        return None
    return folder / "it.a"


with tempfile.TemporaryDirectory() as first:
    NO_CLANG = "" if made(Path(first)) else "there is no clang with libFuzzer"


class Inputs(unittest.TestCase):
    """How calls are written."""

    def test_numbers(self) -> None:
        for value, wanted in (
            (0, "00"),
            (0xDF, "df"),
            (0xE0, "e0e000"),
            (0x1234, "e03412"),
            (0x12345, "e145230100"),
            (2**32, "e20000000001000000"),
        ):
            self.assertEqual(inputs.number(value).hex(), wanted)

    def test_calls(self) -> None:
        for command, wanted in (
            (b"feed 3\nabc", "0003616263"),
            (b"sent 1 2 3 2 0 1 0\n", "02010203020001" + "00"),
            (b"ack 9 0 2 1 1 4 5\n", "03090002" + "01" + "010405"),
            (b"lost 9 2 1 4 5\n", "040902010405"),
            (b"keys 9\n", "0809"),
        ):
            self.assertEqual(inputs.call(command).hex(), wanted)


class Kept(unittest.TestCase):
    """The inputs that are kept."""

    def test_they_are_read_as_they_were_written(self) -> None:
        wanted = [b"", b"\0\7{}\n", bytes(range(256))]
        with patch.object(inputs, "KEPT", new_folder(self) / "kept"):
            inputs.keep(reversed(wanted))
            self.assertEqual(inputs.kept_inputs(), wanted)

    def test_those_of_the_repository(self) -> None:
        kept = inputs.kept_inputs()
        self.assertTrue(kept)
        self.assertEqual(kept, sorted(set(kept), key=inputs.by_length))
        folder = new_folder(self)
        script(PROGRAM).lay_inputs(folder)
        laid = {path.read_bytes() for path in folder.iterdir()}
        self.assertEqual(laid, {*kept, *inputs.first_inputs().values()})


class Processes(unittest.TestCase):
    """How long a process goes on."""

    def test_goes_on_though_nobody_reads_what_it_says(self) -> None:
        folder = new_folder(self)
        program = folder / "fuzz"
        says = "yes | head -c 1000000 >&2\necho stat::number_of_executed_units: 7 >&2\n"
        program.write_text(f"#!/bin/sh\n{says}")
        program.chmod(0o755)
        script_of = script(PROGRAM)
        given = argparse.Namespace(minutes=1, inputs=0, folder=folder)
        running = script_of.started(program, given, 1)
        running.process.wait(timeout=60)
        self.assertEqual(script_of.ended(running), (7, "", (0, 0)))


@unittest.skipIf(NO_CLANG, NO_CLANG)
class Findings(unittest.TestCase):
    """What is found, and what is not."""

    def tried(self, wrong: str = "", *words: str) -> tuple[int, str]:
        """The status and what is printed for a library."""
        folder = new_folder(self)
        library = made(folder, wrong)
        command = [sys.executable, PROGRAM, "--inputs", INPUTS, *words, library]
        ended = subprocess.run(
            list(map(str, command)), capture_output=True, text=True, timeout=600, check=False
        )
        self.assertEqual(ended.stderr, "")
        return ended.returncode, ended.stdout

    def test_no_mistake(self) -> None:
        folder = new_folder(self)
        status, text = self.tried("", "--jobs", "2", "--folder", str(folder))
        self.assertEqual(status, 0, text)
        said = r"^\d+ inputs in \d+ seconds reached (\d+) of (\d+) branches\n2 passed, 0 failed\n$"
        match = re.match(said, text)
        assert match, text
        self.assertTrue(0 < int(match[1]) <= int(match[2]), text)
        self.assertTrue(list((folder / "corpus").iterdir()))

    def test_kept_inputs_reach_as_much(self) -> None:
        folder, script_of = new_folder(self), script(PROGRAM)
        library = made(folder)
        program = script_of.compiled(str(library), folder)
        first, corpus = set(inputs.first_inputs().values()), folder / "corpus"
        # Two that reach the same, of which one suffices, and one that reaches what no trace does.
        calls = {b"\1\x0a\x0e\0\7\x10", b"\1\x0a\x0e\0\7\x10\x0e\0\7\x10", b"\1\x0a\x0b"}
        corpus.mkdir()
        for number, data in enumerate(first | calls):
            (corpus / str(number)).write_bytes(data)
        with patch.object(inputs, "KEPT", folder / "kept"):
            script_of.keep_inputs(program, corpus)
            kept = inputs.kept_inputs()
        self.assertTrue(kept)
        self.assertLess(len(kept), len(first | calls))
        self.assertFalse(set(kept) & first)
        again = folder / "again"
        again.mkdir()
        for number, data in enumerate([*kept, *first]):
            (again / str(number)).write_bytes(data)
        reached = [self.reached(program, it) for it in (corpus, again)]
        self.assertEqual(*reached)

    def reached(self, program: Path, corpus: Path) -> int:
        """How many branches the inputs of a folder reach."""
        command = [str(program), "-runs=0", str(corpus)]
        said = subprocess.run(command, capture_output=True, text=True, check=True).stderr
        return int(re.findall(r"cov: (\d+)", said)[-1])

    def test_mistakes(self) -> None:
        for wrong, says in MISTAKES.items():
            status, text = self.tried(wrong)
            self.assertEqual(status, 1, wrong)
            self.assertIn(says, text)

    def test_no_library(self) -> None:
        command = [sys.executable, str(PROGRAM), "/none"]
        ended = subprocess.run(command, capture_output=True, text=True, check=False)
        self.assertEqual(ended.returncode, 1)
        self.assertIn("is no library: `make lib` builds it", ended.stdout)


if __name__ == "__main__":
    unittest.main()
