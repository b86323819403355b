#!/usr/bin/env python3
"""Shows that conformance/refusals, failing and cuts pass what is right and fail what is not.

Each test gives a runner a small corpus of its own and a fake auditor in C, both in a temporary
folder. What is compiled is compiled once: the library that is loaded before the auditors, and each
of these.
"""

import functools
import os
import shutil
import subprocess
import sys
import tempfile
import unittest
from pathlib import Path

from runners import FOLDER, thinned
from testing import RunnerCase, script
from trials import compiled

TRACE = b"a line\nanother line\n"
REPORT = b"accepted\nevents 0\n"
EXPLANATION = b"line 1 row\nline 2 row\n" + REPORT
BAD_TRACE = b"a line\nbad\na third line\n"
BAD_REPORT = b"refused line 2 V1 time-back\n"
BAD_EXPLANATION = b"line 1 row\n" + BAD_REPORT
# Of 600 bytes.
LONGER_TRACE = (b"a" * 59 + b"\n") * 10
LONG_TRACE = LONGER_TRACE * 8 + b"\r\n" * 20 + b"b\nc"

# Reads lines, to the end or to one that says `bad`, and writes a row for each where it is to
# explain them. What it does where something fails is set by macros.
AUDITOR = r"""
#include <errno.h>
#include <fcntl.h>
#include <stdio.h>
#include <stdlib.h>
#include <string.h>
#include <unistd.h>
static int write_failed;
static int put(int stream, const char *text)
{
    size_t left = strlen(text);
    while (left) {
        ssize_t count = write(stream, text, left < WRITES ? left : WRITES);
        if (count <= 0 && !(GOES_ON_WRITING)) {
            write_failed = 1;
            return 0;
        }
        if (count > 0) {
            text += count;
            left -= count;
        }
    }
    return 1;
}
static int fault(const char *message, const char *name)
{
    put(2, message);
    put(2, name);
    put(2, "\n");
    return 3;
}
static int report(const char *text, int status)
{
    return put(1, text) ? status : fault("qaudit: write fault", "");
}
static int row(int line)
{
    char text[30];
    snprintf(text, sizeof text, "line %d row\n", line);
    return put(1, text);
}
static int audit(int file, const char *name, int explains)
{
    int lines = 0;
    char line[100], piece[4096];
    size_t length = 0;
    for (;;) {
        ssize_t read_now = read(file, piece, READS);
        if (read_now < 0 && (GOES_ON_READING))
            continue;
        if (read_now < 0 && !IGNORES_FAULTS)
            return fault("qaudit: read fault: ", name);
        if (read_now <= 0)
            break;
        for (ssize_t i = 0; i < read_now; i++) {
            if (piece[i] != '\n') {
                line[length++] = piece[i];
                continue;
            }
            lines++;
            if (length == 3 && !memcmp(line, "bad", 3)) {
                READS_ON;
                return report("refused line 2 V1 time-back\n", 1);
            }
            if (explains && !row(lines))
                return fault("qaudit: write fault", "");
            length = 0;
        }
        AT_EACH_PIECE;
    }
    return report("accepted\nevents 0\n", 0);
}
int main(int count, char **arguments)
{
    int explains = arguments[1][0] == 'e', status = 0;
    START;
    for (int i = 0; i < ALLOCATIONS; i++) {
        volatile char *block = malloc(16);
        if (!block) {
            REFUSED;
        }
    }
    BEHIND;
    if (arguments[1][0] == 'a') {
        put(2, "usage: qaudit check [FILE...] or qaudit explain [FILE]\n");
        return 64;
    }
    if (count == 2)
        return audit(0, "standard input", explains);
    for (int i = 2; i < count; i++) {
        if (!(put(1, "file ") && put(1, arguments[i]) && put(1, "\n")))
            return fault("qaudit: write fault", "");
        int ended = audit(open(arguments[i], O_RDONLY), arguments[i], 0);
        if (ended > status)
            status = ended;
        if (ended == 3 && STOPS)
            break;
    }
    return status;
}
"""
# The same of standard input alone, with the texts of a program that says why.
REASONER = (
    AUDITOR.replace("arguments[1][0] == 'e'", "0")
    .replace("arguments[1][0] == 'a'", "0")
    .replace("count == 2", "count == 1")
    .replace(r'"accepted\nevents 0\n"', r'"-: accepted, 0 events\n"')
    .replace('"qaudit: read fault: ", name', '"qaudit-why: read fault: -", ""')
    .replace('"qaudit: write fault", ""', '"qaudit-why: write fault: -", ""')
)
REASON = b"-: accepted, 0 events\n"
HEADER = b'{"event":"header","version":1,"role":"server","max_datagram_size":1200}\n'
RIGHT = {
    "START": "",
    "ALLOCATIONS": "5",
    "BEHIND": "",
    "REFUSED": 'return fault("qaudit: out of memory", "")',
    "WRITES": "4096",
    "READS": "4096",
    "GOES_ON_WRITING": "0",
    "GOES_ON_READING": "0",
    "IGNORES_FAULTS": "0",
    "READS_ON": "",
    "AT_EACH_PIECE": "",
    "STOPS": "write_failed",
}


def setUpModule() -> None:
    """Compiles the library, which the runners then take."""
    os.environ["TRIAL_LIBRARY"] = str(compiled(folder()))


def tearDownModule() -> None:
    del os.environ["TRIAL_LIBRARY"]
    shutil.rmtree(folder())


@functools.cache
def folder() -> Path:
    """Of what is compiled."""
    return Path(tempfile.mkdtemp())


@functools.cache
def auditor(text: str, *flags: str) -> Path:
    """A program of this text."""
    program = folder() / f"auditor-{auditor.cache_info().currsize}"
    command = [os.environ.get("CC", "cc"), *flags, "-o", str(program), "-x", "c", "-"]
    subprocess.run(command, input=text.encode(), check=True)
    return program


class TrialCase(RunnerCase):
    """A runner over two traces, of which one is refused before its end."""

    other = "first-loss"

    def setUp(self) -> None:
        super().setUp()
        self.write_trace(self.other, TRACE, REPORT, EXPLANATION)
        self.write_trace("bad", BAD_TRACE, BAD_REPORT, BAD_EXPLANATION)

    def write_trace(
        self, name: str, trace: bytes, report: bytes = REPORT, explanation: bytes | None = None
    ) -> None:
        """Writes a trace, its report, and its explanation where there is one."""
        files = {"trace": trace, "report": report, "explain": explanation}
        self.write_files("traces", name, files)

    def compile_program(
        self, text: str = AUDITOR, flags: tuple[str, ...] = (), **other: str
    ) -> None:
        """The right auditor, but for these macros."""
        macros = [f"-D{name}={value}" for name, value in {**RIGHT, **other}.items()]
        shutil.copy(auditor(text, *macros, *flags), self.program)

    def assert_first_failure(self, text: str) -> None:
        """The first failure that the runner prints begins so."""
        failure, *_others = self.lines(1)
        self.assertTrue(failure.startswith(f"FAILED {self.runner}: {text}"), failure)


class RefusalsTest(TrialCase):
    runner = "refusals"

    def test_right_program(self) -> None:
        self.compile_program()
        # Of 5 allocations and none, with all after them, on two traces to two subcommands, files,
        # and a usage.
        self.assert_passes((2 * 5 + 1) * 6)

    def test_longer_trace_is_refused_an_allocation_or_all_in_turns(self) -> None:
        self.write_trace("longer", LONGER_TRACE)
        self.compile_program()
        self.assert_passes((2 * 5 + 1) * 6 + (5 + 1) * 2)
        self.more = ("all",)
        self.assert_passes((2 * 5 + 1) * 8)

    def test_program_that_ignores_a_refusal_on_a_longer_trace(self) -> None:
        self.write_trace("a-longer", LONGER_TRACE)
        self.compile_program(REFUSED='return report("unreadable\\n", 2)')
        of_the_trace = [line.split(":")[1] for line in self.lines(1) if " check a-longer " in line]
        self.assertEqual(
            of_the_trace[:2],
            [
                " check a-longer without allocation 1",
                " check a-longer from allocation 2 on without memory",
            ],
        )

    def test_program_without_arguments(self) -> None:
        self.part = ("--traces",)
        self.compile_program(REFUSED="return 3")
        self.assert_passes((2 * 5 + 1) * 2)

    def test_program_with_a_message_of_which_there_is_to_be_none(self) -> None:
        self.part = ("--traces",)
        self.compile_program()
        self.assert_first_failure(
            "check bad without allocation 1: status 3, wanted 1; standard error"
        )

    def test_no_program(self) -> None:
        self.assert_fails(str(self.program))

    def test_program_that_is_not_linked_with_the_library_at_run_time(self) -> None:
        self.compile_program("int main(void) { return 0; }", flags=("-static",))
        self.assertEqual(
            self.lines(1),
            [
                f"FAILED {self.program}: the program is not linked with the C library at run time",
                "0 passed, 1 failed",
            ],
        )

    def test_program_that_allocates_nothing(self) -> None:
        self.compile_program(ALLOCATIONS="0")
        self.assert_first_failure("check bad: no run was out of memory")

    def test_program_that_is_always_out_of_memory(self) -> None:
        self.compile_program(START='return fault("qaudit: out of memory", "")')
        self.assert_first_failure(
            "check bad without allocation 1: out of memory, though none was refused; status 3"
        )

    def test_program_that_is_out_of_memory_behind_its_last_allocation(self) -> None:
        self.compile_program(BEHIND='return fault("qaudit: out of memory", "")')
        self.assert_first_failure(
            "check bad without allocation 6: out of memory, though none was refused; status 3"
        )

    def test_silent_program_that_is_out_of_memory_behind_its_last_allocation(self) -> None:
        self.part = ("--traces",)
        self.compile_program(REFUSED="return 3", BEHIND="return 3")
        self.assert_first_failure("check bad without allocation 6: status 3, wanted 1")

    def test_program_that_ignores_a_refusal(self) -> None:
        self.compile_program(REFUSED='return report("unreadable\\n", 2)')
        self.assert_first_failure(
            "check bad without allocation 1: status 2, wanted 1; "
            "standard output b'unreadable\\n', wanted "
        )

    def test_program_that_crashes(self) -> None:
        self.compile_program(REFUSED="*block = 1")
        self.assert_first_failure("check bad without allocation 1: status -11, wanted 1")

    def test_program_that_writes_a_part_of_its_report(self) -> None:
        self.compile_program(
            REFUSED='put(1, "refused\\n"); return fault("qaudit: out of memory", "")'
        )
        self.assert_first_failure("check bad without allocation 1: status 3")

    def test_program_that_writes_a_part_of_its_report_by_another_call(self) -> None:
        self.compile_program(
            REFUSED='dprintf(1, "refused\\n"); return fault("qaudit: out of memory", "")'
        )
        self.assert_first_failure("check bad without allocation 1: status 3")

    def test_program_that_explains_a_part_of_a_row(self) -> None:
        part = 'put(1, explains ? "line 1" : ""); return fault("qaudit: out of memory", "")'
        self.compile_program(REFUSED=part)
        self.assert_first_failure("explain bad without allocation 1: status 3")

    def test_program_that_says_nothing(self) -> None:
        self.compile_program(REFUSED="return 3")
        self.assert_first_failure("check bad without allocation 1: status 3, wanted 1")


failing = script(FOLDER / "failing")


class FewRefusalsTest(TrialCase):
    """Each seventh allocation, with the first and the last."""

    runner = "refusals"
    part = ("--every", "7")

    def test_right_program(self) -> None:
        self.compile_program(ALLOCATIONS="50")
        # Of 50 allocations 7 or 8, and the first and the last where they are none of these; and
        # none, with all after them, on two traces to two subcommands, files, and a usage.
        names = [f"{word} {name}" for word in ("check", "explain") for name in ("bad", self.other)]
        tried = (
            thinned(range(1, 51), 7, f"refusals: {name}") for name in (*names, "check a b", "audit")
        )
        counts = [2 * len(places) + 1 for places in tried]
        self.assertLessEqual(max(counts), 2 * 10 + 1)
        self.assert_passes(sum(counts))

    def test_program_that_ignores_each_fourth_refusal(self) -> None:
        self.compile_program(
            ALLOCATIONS="50",
            REFUSED='return i % 4 ? fault("qaudit: out of memory", "") : '
            'report("unreadable\\n", 2)',
        )
        self.assert_first_failure("check bad without allocation 1: status 2, wanted 1")

    def test_program_that_ignores_the_last_refusal(self) -> None:
        self.compile_program(
            ALLOCATIONS="50",
            REFUSED='return i == 49 ? report("unreadable\\n", 2) : '
            'fault("qaudit: out of memory", "")',
        )
        self.assert_first_failure("check bad without allocation 50: status 2, wanted 1")

    def test_places_that_turn_with_the_trace(self) -> None:
        places = range(1, 100)
        tried = [set(thinned(places, 7, f"trace {number}")) for number in range(60)]
        self.assertEqual(set().union(*tried), set(places))
        self.assertTrue(all(len(it) <= 99 // 7 + 3 and {1, 99} <= it for it in tried))


class FailingTest(TrialCase):
    runner = "failing"
    more: tuple[str, ...] = ("all",)
    other = "header-alone"

    def test_right_program(self) -> None:
        self.compile_program()
        # The last read of the first trace meets its end, and the second is read no further than its
        # second line.
        reads = (len(TRACE) + 2) * 2 + (len(b"a line\nbad\n") + 1) * 2
        writes = sum(len(text) + 1 for text in (REPORT, EXPLANATION, BAD_REPORT, BAD_EXPLANATION))
        self.assert_passes(3 * reads + 4 * writes + self.OF_FILES)

    # Of two files each read fails once, and each write.
    OF_FILES = 2 * (len(TRACE) + 1) + 2 * len(b"file a\n" + REPORT) + 1

    def write_traces(self) -> None:
        """One trace by each of the names that are tried where none is given."""
        self.more = ()
        names = failing.TRACES + failing.LONGER_TRACES
        for name in names:
            self.write_trace(name, TRACE, REPORT, EXPLANATION)

    def test_right_program_on_traces_that_are_not_named(self) -> None:
        self.write_traces()
        self.compile_program()
        # The calls of each subcommand, and one that there is not.
        reads = [len(TRACE) + 2] * 2
        writes = [len(REPORT) + 1, len(EXPLANATION) + 1]
        thirds = sum(len(range(1, calls, 3)) + 1 for calls in reads + writes)
        short, longer = len(failing.TRACES), len(failing.LONGER_TRACES)
        self.assert_passes(
            short * (3 * sum(reads) + 4 * sum(writes)) + longer * thirds + self.OF_FILES
        )

    def test_ways_take_turns_on_a_longer_trace(self) -> None:
        self.write_traces()
        self.compile_program(GOES_ON_WRITING="errno == EINTR")
        of_the_trace = [
            line.split(":")[1] for line in self.lines(1) if " check first-loss where " in line
        ]
        interrupted = range(4, len(REPORT) + 1, 3 * 4)
        self.assertEqual(
            of_the_trace,
            [f" check first-loss where write {number} is interrupted" for number in interrupted],
        )

    def test_program_without_arguments(self) -> None:
        self.part = ("--traces",)
        self.compile_program()
        self.assert_first_failure(
            "check bad where write 1 fails: standard error b'qaudit: write fault\\n', wanted b''"
        )

    def test_program_that_writes_on(self) -> None:
        self.compile_program(GOES_ON_WRITING="1")
        self.assert_first_failure("check bad where write 1 fails: status 1, wanted 3")

    def test_program_that_writes_again_after_an_interruption(self) -> None:
        self.compile_program(GOES_ON_WRITING="count < 0 && errno == EINTR")
        self.assert_first_failure("check bad where write 1 is interrupted: status 1, wanted 3")

    def test_program_that_writes_again_where_no_byte_was_taken(self) -> None:
        self.compile_program(GOES_ON_WRITING="count == 0")
        self.assert_first_failure("check bad where write 1 takes no byte: status 1, wanted 3")

    def test_program_that_reads_again_after_an_interruption(self) -> None:
        self.compile_program(GOES_ON_READING="errno == EINTR")
        self.assert_first_failure("check bad where read 1 is interrupted: status 1, wanted 3")

    def test_program_that_reads_again_where_it_would_block(self) -> None:
        self.compile_program(GOES_ON_READING="errno == EAGAIN")
        self.assert_first_failure("check bad where read 1 would block: status 1, wanted 3")

    def test_program_that_writes_again_where_it_would_block(self) -> None:
        self.compile_program(GOES_ON_WRITING="count < 0 && errno == EAGAIN")
        self.assert_first_failure("check bad where write 1 would block: status 1, wanted 3")

    def test_program_that_takes_a_fault_for_the_end(self) -> None:
        self.compile_program(IGNORES_FAULTS="1")
        self.assert_first_failure("check bad where read 1 fails: status 0, wanted 3")

    def test_program_that_reads_on_after_the_verdict(self) -> None:
        self.compile_program(READS_ON="read(0, piece, 1)")
        self.assert_first_failure("check bad where read 12 fails: status 1, wanted 3")

    def test_program_that_explains_a_line_before_its_end(self) -> None:
        self.compile_program(
            AT_EACH_PIECE='if (explains && length == 5 && !memcmp(line, "a lin", 5)) row(1)'
        )
        self.assert_first_failure("explain bad where write ")

    def test_program_that_stops_at_a_file(self) -> None:
        self.compile_program(STOPS="1")
        self.assert_first_failure(
            "check a b where read 1 fails: "
            "standard output b'file a\\n', wanted b'file a\\nfile b\\n"
        )

    def test_program_that_goes_on_to_another_file_after_a_failed_write(self) -> None:
        self.compile_program(STOPS="0")
        self.assert_first_failure(
            "check a b where write 8 fails: standard output b'file a\\nfile b\\n"
        )


class FewFailingTest(TrialCase):
    """Each seventh call fails, and those around each LF."""

    runner = "failing"
    part: tuple[str, ...] = ("--every", "7")
    more: tuple[str, ...] = ("header-alone",)
    other = "header-alone"

    def test_right_program(self) -> None:
        self.compile_program()
        passed = int(self.lines(0)[-1].split()[0])
        self.part = ()
        every = int(self.lines(0)[-1].split()[0])
        self.assertLess(passed, 0.6 * every)

    def test_mistakes_that_are_found(self) -> None:
        for macros, where in (
            ({"GOES_ON_WRITING": "1"}, "check header-alone where write 1 fails"),
            ({"GOES_ON_WRITING": "count == 0"}, "check header-alone where write 1 takes no byte"),
            ({"GOES_ON_READING": "errno == EAGAIN"}, "check header-alone where read 1 would block"),
            ({"IGNORES_FAULTS": "1"}, "check header-alone where read 1 fails"),
            ({"STOPS": "0"}, "check a b where write "),
        ):
            with self.subTest(macros):
                self.compile_program(AUDITOR, (), **macros)
                self.assert_first_failure(where)

    def test_mistake_at_an_lf_alone(self) -> None:
        # It goes on if the read of an LF fails, which is the seventh byte.
        self.compile_program(READS="1", GOES_ON_READING='length == 6 && !memcmp(line, "a line", 6)')
        self.assert_first_failure("check header-alone where read 7 fails")


class CutsTest(TrialCase):
    runner = "cuts"

    def test_right_program(self) -> None:
        self.compile_program()
        self.assert_passes(len(TRACE) - 1 + 2 + len(BAD_TRACE) - 1 + 2)

    def test_right_program_on_named_traces(self) -> None:
        self.more = ("bad",)
        self.compile_program()
        self.assert_passes(2 * (len(BAD_TRACE) - 1 + 2))

    def of_others(self) -> int:
        """How often the two other traces are run where none is named."""
        return len(TRACE) - 1 + 2 + len(BAD_TRACE) - 1 + 2

    def test_longer_trace_is_cut_around_each_lf_and_at_each_seventeenth_place(self) -> None:
        self.write_trace("longer", LONGER_TRACE)
        self.compile_program()
        length = len(LONGER_TRACE)
        places = {
            *range(17, length, 17),
            *(end + by for end in range(60, length, 60) for by in (-1, 0, 1)),
            length - 1,
        }
        self.assert_passes(self.of_others() + len(places) + 2)
        self.more = ("longer",)
        self.assert_passes(2 * (length - 1 + 2))

    def test_long_trace_is_cut_around_each_lf(self) -> None:
        self.write_trace("long", LONG_TRACE)
        self.compile_program()
        # Around the LF of each `a` line, and of the last two bytes before the end.
        self.assert_passes(self.of_others() + 3 * 80 + 2 + 2)
        self.more = ("long",)
        # Each place of the blank lines too: the first lies behind an `a` line, and the last before
        # `b`.
        self.assert_passes(2 * (3 * 80 + 2 * 20 + 1 + 2))

    def test_trace_of_hundred_thousand_bytes_is_cut_where_it_is_named(self) -> None:
        self.write_trace("long", LONG_TRACE * 21)
        self.compile_program()
        self.assert_passes(self.of_others() + 2)

    def test_program_that_loses_what_stood_before_a_cut(self) -> None:
        self.compile_program(AT_EACH_PIECE="length = 0")
        self.assert_first_failure("check bad byte by byte: status 0, wanted 1")

    def test_program_that_loses_it_at_one_place(self) -> None:
        self.compile_program(AT_EACH_PIECE="if (read_now == 9) length = 0")
        self.assert_first_failure("check bad at 9: status 0, wanted 1")

    def test_program_that_reads_on_after_the_verdict(self) -> None:
        self.compile_program(READS_ON="read(0, piece, 1)")
        self.assert_first_failure("check bad uncut: 2 reads, wanted 1")

    def test_program_that_writes_in_parts(self) -> None:
        self.compile_program(WRITES="20")
        self.assert_first_failure("check bad uncut: 2 writes, wanted 1")


class FewCutsTest(TrialCase):
    """Each seventh place, and those around each LF."""

    runner = "cuts"
    part = ("--every", "7")

    def test_right_program(self) -> None:
        self.write_trace("longer", b"a" * 80 + b"\n")
        self.compile_program()
        at_lf = {"bad": {6, 7, 8, 10, 11, 12, 23}, self.other: {6, 7, 8, 19}, "longer": {80}}
        lengths = {"bad": len(BAD_TRACE), self.other: len(TRACE), "longer": 81}
        tried = (
            thinned(range(1, length), 7, f"check {name}", at_lf[name])
            for name, length in lengths.items()
        )
        self.assert_passes(sum(len(places) + 2 for places in tried))

    def test_program_that_loses_what_stood_before_a_cut(self) -> None:
        self.compile_program(AT_EACH_PIECE="if (read_now != 1) length = 0")
        self.assert_first_failure("check bad at ")

    def test_program_that_loses_it_before_an_lf(self) -> None:
        self.compile_program(AT_EACH_PIECE="if (read_now == 10) length = 0")
        self.assert_first_failure("check bad at 10: status 0, wanted 1")

    def test_wrong_numbers(self) -> None:
        for number in ("0", "-1", "seven"):
            command = ["-S", str(FOLDER / "cuts"), "--every", number, str(self.program)]
            ended = subprocess.run([sys.executable, *command], capture_output=True, check=False)
            self.assertEqual(ended.returncode, os.EX_USAGE, ended.stderr)


class ReasonsTest(TrialCase):
    """The three of a program that says why."""

    part = ("--reasons",)

    def setUp(self) -> None:
        super().setUp()
        for path in (self.corpus / "traces").glob("bad.*"):
            path.unlink()
        # What an accepted verdict rests on is read off the trace.
        (self.corpus / "traces" / "first-loss.trace").write_bytes(HEADER)

    def compile_reasoner(self, **other: str) -> None:
        """The right program that says why, but for these macros."""
        refused = 'return fault("qaudit-why: out of memory: -", "")'
        other.setdefault("REFUSED", refused)
        self.compile_program(REASONER, (), **other)

    def test_refusals(self) -> None:
        self.runner = "refusals"
        self.compile_reasoner()
        self.assert_passes(2 * 5 + 1)
        self.compile_reasoner(REFUSED='return fault("qaudit: out of memory", "")')
        self.assert_first_failure("why first-loss without allocation 1: status 3, wanted 0")

    def test_failing(self) -> None:
        self.runner, self.more = "failing", (self.other,)
        self.compile_reasoner()
        self.assert_passes(3 * (len(HEADER) + 2) + 4 * (len(REASON) + 1))
        self.compile_reasoner(GOES_ON_WRITING="1")
        self.assert_first_failure("why first-loss where write 1 fails: status 0, wanted 3")
        self.compile_reasoner(IGNORES_FAULTS="1")
        self.assert_first_failure("why first-loss where read 1 fails: status 0, wanted 3")

    def test_cuts(self) -> None:
        self.runner = "cuts"
        self.compile_reasoner()
        self.assert_passes(len(HEADER) - 1 + 2)
        self.compile_reasoner(WRITES="20")
        self.assert_first_failure("why first-loss uncut: 2 writes, wanted 1")


if __name__ == "__main__":
    unittest.main()
