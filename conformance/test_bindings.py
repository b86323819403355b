#!/usr/bin/env python3
"""Tests what the bindings hand to the library, by a library that is none.

It is compiled by `$CC`, or `cc`. Each of its functions takes a while, and notes whether another was
called meanwhile, and which time it was given. The bindings for Go and Rust are tried where their
compilers are.
"""

import json
import os
import shutil
import subprocess
import sys
import unittest
from pathlib import Path

from runners import FOLDER
from testing import new_folder

COMPILER = os.environ.get("CC", "cc")
NO_COMPILER = "" if shutil.which(COMPILER) else f"there is no {COMPILER}"
BINDINGS = FOLDER.parent / "bindings"
INCLUDE = FOLDER.parent / "include"
LIBRARY = """
#include "qaudit.h"
#include <stdatomic.h>
#include <unistd.h>
static atomic_int inside;
int overlaps, calls;
uint64_t last_time, last_count;
static uint32_t take(void) {
    if (++inside > 1) overlaps = 1;
    calls++;
    usleep(500);
    --inside;
    return 0;
}
static uint32_t at(uint64_t time) { last_time = time; return take(); }
uint32_t qaudit_open(qaudit *q) { return take(); }
uint32_t qaudit_open_recorded(qaudit *q) { return take(); }
void qaudit_close(qaudit *q) { take(); }
uint32_t qaudit_feed(qaudit *q, const uint8_t *b, size_t n) { last_count = n; return take(); }
uint32_t qaudit_header(qaudit *q, const qaudit_trace_header *h) { return take(); }
uint32_t qaudit_sent(qaudit *q, const qaudit_packet *p) { return at(p->time); }
uint32_t qaudit_ack(qaudit *q, const qaudit_acknowledgment *a, const qaudit_range *r, size_t n) {
    return at(a->time);
}
uint32_t qaudit_lost(qaudit *q, uint64_t time, uint32_t s, const qaudit_range *r, size_t n) {
    return at(time);
}
uint32_t qaudit_timer(qaudit *q, const qaudit_fired_timer *t) { return at(t->time); }
uint32_t qaudit_discard(qaudit *q, uint64_t time, uint32_t s) { return at(time); }
uint32_t qaudit_confirmed(qaudit *q, uint64_t time) { return at(time); }
uint32_t qaudit_keys(qaudit *q, uint64_t time) { return at(time); }
uint32_t qaudit_metrics(qaudit *q, const qaudit_metrics_report *m) { return at(m->time); }
uint32_t qaudit_finish(qaudit *q) { return take(); }
bool qaudit_verdict(qaudit *q, qaudit_told *out) { out->kind = 1; return take() == 0; }
size_t qaudit_report(qaudit *q, uint8_t *out, size_t room) { return take(); }
size_t qaudit_first_line(qaudit *q, uint8_t *out, size_t room) { return take(); }
size_t qaudit_why(qaudit *q, uint8_t *out, size_t room) { return take(); }
size_t qaudit_around(qaudit *q, uint16_t rows, uint8_t *out, size_t room) { return take(); }
size_t qaudit_allowed(qaudit *q, qaudit_allowance *out, size_t room) { return take(); }
size_t qaudit_rule_name(uint32_t n, uint8_t *out, size_t room) { return 0; }
size_t qaudit_fault_name(uint32_t n, uint8_t *out, size_t room) { return 0; }
size_t qaudit_key_name(uint32_t n, uint8_t *out, size_t room) { return 0; }
uint32_t qaudit_status(qaudit *q) { return 0; }
"""
# Each thread makes each call, and the number of each kind is printed.
THREADS = """
import ctypes, json, threading
import qaudit
auditor = qaudit.Auditor(qaudit.Header(role="server", max_datagram_size=1200))
def each():
    for _ in range(20):
        auditor.feed(b"")
        auditor.sent(0, "app", 0, 1200)
        auditor.ack(0, "app", [(0, 0)])
        auditor.lost(0, "app", [(0, 0)])
        auditor.timer(0, "pto", "app")
        auditor.discard(0, "initial")
        auditor.confirmed(0)
        auditor.keys(0)
        auditor.metrics(0)
        auditor.report()
        auditor.first_line()
        auditor.why()
        auditor.around(3)
        auditor.allowed()
        auditor.verdict()
        auditor.finish()
        auditor.header(qaudit.Header(role="server", max_datagram_size=1200))
threads = [threading.Thread(target=each) for _ in range(4)]
for it in threads: it.start()
for it in threads: it.join()
number = lambda name: ctypes.c_int.in_dll(qaudit._library, name).value
print(json.dumps([number("overlaps"), number("calls")]))
"""
TIMES = """
import ctypes, json
import qaudit
auditor, late = qaudit.Auditor(), 10**15
last = ctypes.c_uint64.in_dll(qaudit._library, "last_time")
seen = []
for call in (
    lambda: auditor.sent(late, "app", 0, 1200),
    lambda: auditor.ack(late, "app", [(0, 0)]),
    lambda: auditor.lost(late, "app", [(0, 0)]),
    lambda: auditor.timer(late, "pto", "app"),
    lambda: auditor.discard(late, "initial"),
    lambda: auditor.confirmed(late),
    lambda: auditor.keys(late),
    lambda: auditor.metrics(late),
):
    last.value = 0
    call()
    seen.append(last.value)
print(json.dumps(seen))
"""
SIGNALS = """
import json, os, signal
import qaudit
auditor, said = qaudit.Auditor(), []
signal.signal(signal.SIGALRM, lambda *_: said.append(auditor.report()))
signal.setitimer(signal.ITIMER_REAL, 0.001, 0.001)
for _ in range(100):
    auditor.keys(0)
signal.setitimer(signal.ITIMER_REAL, 0)
print(json.dumps(len(said) > 0))
"""


# What is added to the package: what the library has noted, and goroutines that make each call.
NOTED_OF_GO = """
package qaudit

// extern int overlaps, calls;
import "C"

func noted() (int, int) { return int(C.overlaps), int(C.calls) }
"""
TEST_OF_GO = """
package qaudit

import (
    "sync"
    "testing"
)

func TestNoted(t *testing.T) {
    a, _ := New(nil)
    var all sync.WaitGroup
    for i := 0; i < 4; i++ {
        all.Add(1)
        go func() {
            defer all.Done()
            for n := 0; n < 20; n++ {
                a.Feed([]byte("x"))
                a.Header(&Header{})
                a.Sent(&Packet{})
                a.Ack(0, App, []Range{{0, 0}}, 0, false)
                a.Lost(0, App, nil)
                a.Timer(0, LossTimer, App)
                a.Discard(0, App)
                a.Confirmed(0)
                a.Keys(0)
                a.Metrics(0, &Metrics{})
                a.Report()
                a.FirstLine()
                a.Why()
                a.Around(3)
                a.Allowed()
                a.Verdict()
                a.Finish()
            }
        }()
    }
    all.Wait()
    if overlaps, calls := noted(); overlaps != 0 || calls != 1+4*20*18 {
        t.Errorf("overlaps %d, calls %d", overlaps, calls)
    }
}
"""


def compiled(folder: Path, *words: str) -> None:
    """Compiles the library in a folder."""
    command = [COMPILER, "-fPIC", "-w", "-I", str(INCLUDE), "-x", "c", "-", *words]
    subprocess.run(command, input=LIBRARY, text=True, cwd=folder, check=True)


def archived(folder: Path) -> None:
    """Makes libqaudit.a of it."""
    compiled(folder, "-c", "-o", "it.o")
    subprocess.run(["ar", "rcs", "libqaudit.a", "it.o"], cwd=folder, check=True)


@unittest.skipIf(NO_COMPILER, NO_COMPILER)
class Python(unittest.TestCase):
    """What programs see that use the binding."""

    def setUp(self) -> None:
        self.folder = new_folder(self)
        compiled(self.folder, "-shared", "-o", "libqaudit.so")

    def said_by(self, program: str) -> object:
        """What a program prints."""
        library, binding = self.folder / "libqaudit.so", BINDINGS / "python"
        environment = {"QAUDIT_LIB": str(library), "PYTHONPATH": str(binding)}
        ended = subprocess.run(
            [sys.executable, "-S", "-c", program],
            env={**os.environ, **environment},
            capture_output=True,
            text=True,
            timeout=60,
            check=False,
        )
        self.assertEqual((ended.returncode, ended.stderr), (0, ""))
        return json.loads(ended.stdout)

    def test_threads_wait_for_one_another(self) -> None:
        # Whether two calls were made at once, and how many were made.
        self.assertEqual(self.said_by(THREADS), [0, 2 + 4 * 20 * 18])

    def test_times_are_handed_on_whole(self) -> None:
        self.assertEqual(self.said_by(TIMES), [10**15] * 8)

    def test_a_handler_of_a_signal_may_make_a_call(self) -> None:
        self.assertIs(self.said_by(SIGNALS), True)


@unittest.skipIf(NO_COMPILER or not shutil.which("go"), "there is no go, or no C compiler")
class Go(unittest.TestCase):
    """Goroutines that share an auditor."""

    def test_goroutines_wait_for_one_another(self) -> None:
        top = new_folder(self)
        shutil.copytree(BINDINGS / "go", top / "bindings" / "go")
        shutil.copytree(INCLUDE, top / "include")
        (top / "bin").mkdir()
        archived(top / "bin")
        (top / "bindings/go/noted.go").write_text(NOTED_OF_GO)
        (top / "bindings/go/noted_test.go").write_text(TEST_OF_GO)
        command = ["go", "test", "-run", "TestNoted", "./..."]
        ended = subprocess.run(
            command, cwd=top / "bindings" / "go", capture_output=True, text=True, check=False
        )
        self.assertEqual(ended.returncode, 0, ended.stdout + ended.stderr)


@unittest.skipIf(NO_COMPILER or not shutil.which("cargo"), "there is no cargo, or no C compiler")
class Rust(unittest.TestCase):
    """An auditor goes to another thread, and threads share none without a lock."""

    def test_examples(self) -> None:
        folder = new_folder(self)
        archived(folder)
        shutil.copytree(BINDINGS / "rust", folder / "rust")
        ended = subprocess.run(
            ["cargo", "test", "--offline", "--quiet", "--doc", "Auditor"],
            cwd=folder / "rust",
            env={**os.environ, "QAUDIT_LIB_DIR": str(folder)},
            capture_output=True,
            text=True,
            check=False,
        )
        self.assertEqual(ended.returncode, 0, ended.stdout + ended.stderr)
        self.assertIn("3 passed", ended.stdout)


if __name__ == "__main__":
    unittest.main()
