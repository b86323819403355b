#!/usr/bin/env python3
"""Tests `recipes`, and the recipes in examples/embedding, over a stand-in of the library.

It is compiled by `$CC`, or `cc`. It judges text: it refuses the eleventh packet in flight.
"""

import os
import shutil
import subprocess
import sys
import unittest

from runners import FOLDER
from testing import new_folder, script

COMPILER = os.environ.get("CC", "cc")
NO_COMPILER = "" if shutil.which(COMPILER) else f"there is no {COMPILER}"
LIBRARY = r"""
#include "qaudit.h"
#include <stdlib.h>
#include <string.h>
#ifndef MOST
#define MOST 10
#endif
struct state { char line[4096]; size_t count; int in_flight, is_fixed, is_finished; };
static size_t put(const char *text, uint8_t *out, size_t room) {
    size_t count = strlen(text);
    if (count <= room) memcpy(out, text, count);
    return count;
}
uint32_t qaudit_open(qaudit *q) {
    q->at = calloc(1, sizeof(struct state));
    return QAUDIT_OPEN;
}
uint32_t qaudit_open_recorded(qaudit *q) { return qaudit_open(q); }
void qaudit_close(qaudit *q) {
    free(q->at);
    q->at = NULL;
}
uint32_t qaudit_feed(qaudit *q, const uint8_t *bytes, size_t count) {
    struct state *it = q->at;
    for (; count > 0; count--, bytes++) {
        it->line[it->count++] = (char)*bytes;
        if (*bytes != '\n') continue;
        it->line[it->count - 1] = it->count = 0;
        if (strstr(it->line, "\"sent\"")) it->in_flight++;
        if (strstr(it->line, "\"ack\"")) it->in_flight = 0;
        if (it->in_flight > MOST) it->is_fixed = 1;
    }
    return it->is_fixed ? QAUDIT_FIXED : QAUDIT_OPEN;
}
uint32_t qaudit_header(qaudit *q, const qaudit_trace_header *header) { return QAUDIT_OPEN; }
uint32_t qaudit_sent(qaudit *q, const qaudit_packet *packet) { return QAUDIT_OPEN; }
uint32_t qaudit_ack(qaudit *q, const qaudit_acknowledgment *a, const qaudit_range *r, size_t n) {
    return QAUDIT_OPEN;
}
uint32_t qaudit_lost(qaudit *q, uint64_t time, uint32_t s, const qaudit_range *r, size_t n) {
    return QAUDIT_OPEN;
}
uint32_t qaudit_timer(qaudit *q, const qaudit_fired_timer *timer) { return QAUDIT_OPEN; }
uint32_t qaudit_discard(qaudit *q, uint64_t time, uint32_t space) { return QAUDIT_OPEN; }
uint32_t qaudit_confirmed(qaudit *q, uint64_t time) { return QAUDIT_OPEN; }
uint32_t qaudit_keys(qaudit *q, uint64_t time) { return QAUDIT_OPEN; }
uint32_t qaudit_metrics(qaudit *q, const qaudit_metrics_report *metrics) { return QAUDIT_OPEN; }
uint32_t qaudit_finish(qaudit *q) {
    ((struct state *)q->at)->is_finished = 1;
    return QAUDIT_FINISHED;
}
bool qaudit_verdict(qaudit *q, qaudit_told *out) {
    struct state *it = q->at;
    memset(out, 0, sizeof *out);
    out->kind = it->is_fixed ? QAUDIT_REFUSED : QAUDIT_ACCEPTED;
    return it->is_fixed || it->is_finished;
}
size_t qaudit_first_line(qaudit *q, uint8_t *out, size_t room) {
    return put("refused line 12 V7 past-window\n", out, room);
}
size_t qaudit_report(qaudit *q, uint8_t *out, size_t room) {
    return qaudit_first_line(q, out, room);
}
size_t qaudit_why(qaudit *q, uint8_t *out, size_t room) {
    return put("-:12: refused V7 past-window: packet 10 of app takes the bytes in flight to 13200,"
               " past the window of 12000\n", out, room);
}
size_t qaudit_around(qaudit *q, uint16_t rows, uint8_t *out, size_t room) {
    return qaudit_why(q, out, room);
}
size_t qaudit_allowed(qaudit *q, qaudit_allowance *out, size_t room) { return 0; }
size_t qaudit_rule_name(uint32_t rule, uint8_t *out, size_t room) { return 0; }
size_t qaudit_fault_name(uint32_t fault, uint8_t *out, size_t room) { return 0; }
size_t qaudit_key_name(uint32_t key, uint8_t *out, size_t room) { return 0; }
"""


@unittest.skipIf(NO_COMPILER, NO_COMPILER)
class Recipes(unittest.TestCase):
    """What `recipes` says."""

    def lines(self, status: int, *recipes: str, most: int = 10) -> list[str]:
        """What it prints over a library that refuses one packet more than these."""
        folder = new_folder(self)
        made, library, shared = folder / "it.o", folder / "it.a", folder / "it.so"
        options = ["-w", "-fPIC", f"-DMOST={most}", "-I", FOLDER.parent / "include"]
        compiling = [COMPILER, *options, "-c", "-x", "c", "-", "-o", made]
        subprocess.run(list(map(str, compiling)), input=LIBRARY, text=True, check=True)
        subprocess.run(["ar", "rcs", library, made], check=True)
        subprocess.run([COMPILER, "-shared", made, "-o", shared], check=True)
        ended = subprocess.run(
            [sys.executable, FOLDER / "recipes", library, shared, *recipes],
            capture_output=True,
            text=True,
            check=False,
        )
        self.assertEqual((ended.returncode, ended.stderr), (status, ""), ended.stdout)
        return ended.stdout.splitlines()

    def test_all_recipes(self) -> None:
        self.assertTrue(self.lines(0)[-1].endswith(" passed, 0 failed"))

    @unittest.skipUnless(shutil.which("cmake"), "there is no cmake")
    def test_a_test_that_has_to_fail_and_passes(self) -> None:
        lines = self.lines(1, "cmake", most=11)
        self.assertTrue(lines[0].startswith("FAILED examples/embedding/cmake, refused: status 0"))
        self.assertEqual(lines[-1], "1 passed, 1 failed")

    @unittest.skipUnless(shutil.which("cmake"), "there is no cmake")
    def test_a_test_that_has_to_pass_and_fails(self) -> None:
        lines = self.lines(1, "cmake", most=9)
        self.assertTrue(lines[0].startswith("FAILED examples/embedding/cmake: status 8"))

    def test_a_warning(self) -> None:
        recipes, folder = script(FOLDER / "recipes"), new_folder(self)
        source = folder / "example.c"
        for text, is_good in (("return 0;", True), ("int unused = 0;\nreturn 0;", False)):
            source.write_text(recipes.program_of(text))
            words = [COMPILER, *recipes.WARNINGS, str(source)]
            failure = recipes.failure_of_example(words, folder / "example")
            self.assertEqual(failure == "", is_good, failure)

    def test_an_example_is_a_program(self) -> None:
        program = script(FOLDER / "recipes").program_of("#include <a.h>\n\nf();\n")
        self.assertEqual(program, "#include <a.h>\nint main(void) {\n\nf();\n}\n")


if __name__ == "__main__":
    unittest.main()
