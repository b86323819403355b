"""The table of many traces."""

import gzip
import json
import lzma
import os
import pty
import shutil
import signal
import subprocess
import sys
import tempfile
import time
import unittest
from pathlib import Path
from typing import Any

from tests.made import HEADER, NO_LIBRARY, PAGE, PROGRAM, TRACES, Page, acked, joined, sent

from qaudit_page.matrix import Before, Change, Result, changes_of, pattern, place_of
from qaudit_page.matrix_command import workers

COMMAND = PAGE / "qaudit-matrix"
GOOD = joined(HEADER, sent(0))
BAD = joined(HEADER, sent(0), sent(0))
EVIL = 'a<script>b"&\u202e'
ALLOWED = "accepted with allowances"
# A timer is 79.999 ms late, less than its timeout of 80 ms, and as late as that.
TIMED = (
    '{"event":"header","version":1,"role":"server","max_datagram_size":1200,'
    '"max_ack_delay":20000,"initial_rtt":20000}',
    '{"event":"confirmed","time":0}',
    sent(0),
)
SHORTLY_LATE = joined(*TIMED, acked(159_999, (0, 0)))
LATE = joined(*TIMED, acked(160_000, (0, 0)))


def children_of(number: int) -> list[int]:
    """The processes that a process has started."""
    text = Path(f"/proc/{number}/task/{number}/children").read_text()
    return [int(it) for it in text.split()]


def children_when(count: int, number: int) -> list[int]:
    """The processes that one has started, once they are so many: on a busy machine that takes a
    while."""
    end = time.monotonic() + 30
    while len(found := children_of(number)) < count and time.monotonic() < end:
        time.sleep(0.05)
    return found


def is_running(number: int) -> bool:
    """Whether a process is there that has not ended; one that nobody has waited for has."""
    try:
        text = Path(f"/proc/{number}/stat").read_text()
    except OSError:
        return False
    return text.rpartition(")")[2].split()[0] not in "ZX"


def as_usual() -> None:
    """Has signals end a process, which a shell has it ignore in the background, or `nohup`."""
    for number in (signal.SIGINT, signal.SIGTERM, signal.SIGHUP):
        signal.signal(number, signal.SIG_DFL)


class Names(unittest.TestCase):
    """Rows and columns by names."""

    def test_patterns(self) -> None:
        for text, key, wanted in (
            ("CLIENT_SERVER_CASE", "quinn_quic-go_transfer", ("transfer", "quinn \u2192 quic-go")),
            (
                "SERVER_CLIENT/CASE",
                "logs/quinn_ngtcp2/handshakeloss/server/qlog/0",
                ("handshakeloss", "quinn \u2192 ngtcp2"),
            ),
            (
                "SERVER_CLIENT/CASE/SIDE",
                "quinn_ngtcp2/retry/client/1",
                ("retry", "quinn \u2192 ngtcp2 \u2192 client"),
            ),
            ("CASE", "retry", ("retry", "other")),
            ("CLIENT_SERVER_CASE", "odd", ("odd", "other")),
        ):
            with self.subTest(text):
                self.assertEqual(place_of(key, pattern(text)), wanted)

    def test_wrong_patterns(self) -> None:
        for text in ("", "CLIENT_SERVER", "CASE_CASE", "case"):
            with self.subTest(text), self.assertRaises(ValueError):
                pattern(text)

    def test_changes(self) -> None:
        results = [
            Result("a", "accepted"),
            Result("b", "refused", 9, "V7", "past-window"),
            Result("c", "refused", 3, "V1", "time-back"),
            Result("e", "accepted"),
        ]
        before = {
            "a": "refused V7 past-window",
            "b": "refused V7 past-window",
            "c": "accepted",
            "d": "accepted",
            "e": "accepted",
        }
        changes = changes_of(results, Before(before))
        self.assertEqual(
            changes,
            [
                Change("c", "accepted", "refused V1 time-back"),
                Change("a", "refused V7 past-window", "accepted"),
                Change("d", "accepted", ""),
            ],
        )
        self.assertEqual([it.is_worse for it in changes], [True, False, False])
        self.assertEqual([it.is_told for it in changes], [True, False, False])

    def test_changes_of_allowances(self) -> None:
        allowed, strict = Result("a", "accepted", with_allowances=True), Result("a", "accepted")
        refused = Result("a", "refused", 9, "V7", "past-window")
        for now, before, is_told in (
            (allowed, "accepted", True),
            (allowed, "refused V7 past-window", True),
            (allowed, "", True),
            (strict, ALLOWED, True),
            (strict, "refused V7 past-window", False),
            (strict, "", False),
            (refused, ALLOWED, True),
        ):
            with self.subTest(now=now, before=before):
                known = Before({"a": before} if before else {})
                (change,) = changes_of([now], known)
                self.assertEqual(change, Change("a", before, now.told))
                self.assertEqual((change.is_told, change.is_worse), (is_told, now is refused))
        for now in (allowed, strict):
            self.assertEqual(changes_of([now], Before({"a": now.told})), [])
            unclear = Before({"a": "accepted"}, frozenset("a"))
            self.assertEqual(changes_of([now], unclear), [])
        (change,) = changes_of([refused], unclear)
        self.assertTrue(change.is_worse)
        (change,) = changes_of([], Before({"a": ALLOWED}))
        self.assertFalse(change.is_told)


@unittest.skipIf(NO_LIBRARY, NO_LIBRARY)
class Tables(unittest.TestCase):
    """The command."""

    def setUp(self) -> None:
        folder = tempfile.TemporaryDirectory()
        self.addCleanup(folder.cleanup)
        self.folder = Path(folder.name)
        self.traces = self.folder / "traces"
        self.traces.mkdir()
        (self.traces / "quinn_ngtcp2_loss.trace").write_bytes(GOOD)
        (self.traces / "quinn_quic-go_loss.trace").write_bytes(BAD)
        self.table, self.json = self.folder / "table.html", self.folder / "now.json"

    def run_command(self, *words: object) -> Any:
        """How the command ends."""
        arguments = [
            sys.executable,
            COMMAND,
            "--program",
            PROGRAM,
            "--output",
            self.table,
            *words,
            self.traces,
        ]
        return subprocess.run(
            list(map(str, arguments)),
            capture_output=True,
            text=True,
            timeout=60,
            check=False,
            stdin=subprocess.DEVNULL,
        )

    def test_a_table_with_pages(self) -> None:
        pages = self.folder / "pages"
        ended = self.run_command(
            "--pattern", "CLIENT_SERVER_CASE", "--pages", pages, "--json", self.json
        )
        self.assertEqual((ended.returncode, ended.stdout, ended.stderr), (1, "", ""))
        page = Page(self.table.read_text())
        self.assertIn("1 accepted, 1 refused", page.by_id["sum"])
        self.assertIn("V6 number-not-higher, line 3", page.by_id["table"])
        self.assertIn("V6 number-not-higherMUST1", page.by_id["rules"])
        self.assertIn("quinn \u2192 quic-go", page.by_id["table"])
        links = [it["href"] for tag, it in page.tags if tag == "a"]
        # The page of a refused trace opens at the refused line.
        self.assertEqual(
            sorted(links), ["pages/quinn_ngtcp2_loss.html", "pages/quinn_quic-go_loss.html#line=3"]
        )
        for link in links:
            self.assertIn("</html>", (self.folder / str(link).split("#")[0]).read_text())
        self.assertIn("default-src 'none'", page.policy())
        said = json.loads(self.json.read_text())
        self.assertEqual([it["case"] for it in said["traces"]], ["loss", "loss"])

    def test_a_log_that_may_be_misread(self) -> None:
        noted = HEADER.replace("{", '{"x_note":["its order is another"],', 1)
        for name, header, lines in (("bad", noted, (0, 0)), ("good", noted, (0, 1))):
            trace = joined(header, *(sent(number) for number in lines))
            (self.traces / f"{name}.trace").write_bytes(trace)
        for more in ((), ("--pages", self.folder / "pages")):
            self.assertEqual(self.run_command("--json", self.json, *more).returncode, 1)
            said = json.loads(self.json.read_text())["traces"]
            self.assertEqual([it["key"] for it in said if it["is_doubtful"]], ["bad"])
            table = Page(self.table.read_text()).by_id["table"]
            self.assertEqual(table.count("its log may be misread"), 1)

    def test_against_a_run_before(self) -> None:
        self.assertEqual(self.run_command("--json", self.json).returncode, 1)
        ended = self.run_command("--against", self.json)
        self.assertEqual((ended.returncode, ended.stderr), (0, ""))
        (self.traces / "new.trace").write_bytes(GOOD)
        self.assertEqual(self.run_command("--against", self.json).returncode, 0)
        (self.traces / "quinn_ngtcp2_loss.trace").write_bytes(BAD)
        ended = self.run_command("--against", self.json)
        self.assertEqual(ended.returncode, 1)
        wanted = "quinn_ngtcp2_loss: refused V6 number-not-higher, before accepted\n"
        self.assertEqual(ended.stderr, f"qaudit-matrix: {wanted}")
        changes = Page(self.table.read_text()).by_id["changes"]
        self.assertIn("1 trace newly refused or by another rule, 1 other", changes)
        (self.traces / "quinn_ngtcp2_loss.trace").unlink()
        (self.traces / "quinn_quic-go_loss.trace").write_bytes(GOOD)
        ended = self.run_command("--against", self.json)
        self.assertEqual((ended.returncode, ended.stderr), (0, ""))
        self.assertIn("not there", Page(self.table.read_text()).by_id["changes"])

    def copied(self, *names: str) -> None:
        """Traces of the corpus."""
        for name in names:
            shutil.copyfile(TRACES / f"{name}.trace", self.traces / f"{name}.trace")

    def test_a_third_colour(self) -> None:
        names = ("silence-past-a-pto", "each-choice", "guessed-and-accepted", "timer-late")
        # The last one goes on past its violation, and with allowances.
        self.copied(*names, "no-event", "late-since-confirmed", "broken-and-allowed")
        (self.traces / "as-late-as-its-timeout.trace").write_bytes(LATE)
        (self.traces / "less-late.trace").write_bytes(SHORTLY_LATE)
        choices = ["refresh_min_rtt", "window", "sample_eliciting_only", "packet_threshold"]
        later = ["loss_by_number", "threshold_counts", "reset_rtt"]
        later += ["latest_rtt_less_delay", "time_threshold_eighths", "recovery_by_order"]
        wanted = {
            "as-late-as-its-timeout": (True, ["V18"]),
            "broken-and-allowed": (False, []),
            "each-choice": (True, [*choices, *later]),
            "guessed-and-accepted": (True, ["guesses"]),
            "late-since-confirmed": (False, ["V18"]),
            "less-late": (False, ["V18"]),
            "no-event": (False, []),
            "quinn_ngtcp2_loss": (False, []),
            "quinn_quic-go_loss": (False, []),
            "silence-past-a-pto": (True, ["V18"]),
            "timer-late": (False, []),
        }
        for more in ((), ("--pages", self.folder / "pages"), ("--junit", self.folder / "j.xml")):
            self.assertEqual(self.run_command("--json", self.json, *more).returncode, 2)
            listed = json.loads(self.json.read_text())["traces"]
            found = {it["key"]: (it["with_allowances"], it["rests_on"]) for it in listed}
            self.assertEqual(found, wanted)
            kinds = {it["kind"] for it in listed if it["rests_on"]}
            self.assertEqual(kinds, {"accepted"})
            page = Page(self.table.read_text())
            told = "3 accepted, 4 accepted with allowances, 3 refused, 1 unreadable"
            self.assertEqual(page.by_id["sum"], told)
            classes = [it["class"] for _, it in page.tags if it.get("title") in wanted]
            colours = ("amber", "accepted", "refused", "unreadable")
            self.assertEqual([classes.count(it) for it in colours], [4, 3, 3, 1])
            self.assertIn(f"(\u2713) {ALLOWED}guesses", page.by_id["table"])
            self.assertIn("Accepted with allowances: the verdict rests on", page.by_id["p"])

    def test_allowances_do_not_fail(self) -> None:
        (self.traces / "quinn_quic-go_loss.trace").unlink()
        self.copied("silence-past-a-pto")
        self.assertEqual(self.run_command("--json", self.json).returncode, 0)
        self.assertEqual(self.run_command("--against", self.json).returncode, 0)
        (self.traces / "silence-past-a-pto.trace").unlink()
        self.run_command()
        self.assertNotIn("p", Page(self.table.read_text()).by_id)

    def test_a_trace_that_became_amber_and_one_that_is_no_more(self) -> None:
        self.copied("silence-past-a-pto")
        self.assertEqual(self.run_command("--json", self.json).returncode, 1)
        (self.traces / "quinn_ngtcp2_loss.trace").write_bytes(LATE)
        (self.traces / "silence-past-a-pto.trace").write_bytes(GOOD)
        ended = self.run_command("--against", self.json)
        self.assertEqual(ended.returncode, 0)
        told = [
            f"qaudit-matrix: quinn_ngtcp2_loss: {ALLOWED}, before accepted\n",
            f"qaudit-matrix: silence-past-a-pto: accepted, before {ALLOWED}\n",
        ]
        self.assertEqual(ended.stderr, "".join(told))
        changes = Page(self.table.read_text()).by_id["changes"]
        wanted = f"0 traces newly refused or by another rule, 1 newly {ALLOWED}, 1 other"
        self.assertIn(wanted, changes)

    def test_against_results_without_allowances(self) -> None:
        self.copied("silence-past-a-pto", "timer-late")
        self.assertEqual(self.run_command("--json", self.json).returncode, 1)
        said = json.loads(self.json.read_text())
        for it in said["traces"]:
            del it["with_allowances"], it["rests_on"]
        self.json.write_text(json.dumps(said))
        note = (
            "The earlier results do not list allowances of 2 accepted traces;"
            " these are not compared."
        )
        ended = self.run_command("--against", self.json)
        self.assertEqual((ended.returncode, ended.stderr), (0, f"qaudit-matrix: {note}\n"))
        self.assertIn(note, Page(self.table.read_text()).by_id["changes"])
        (self.traces / "silence-past-a-pto.trace").write_bytes(BAD)
        ended = self.run_command("--against", self.json)
        self.assertEqual(ended.returncode, 1)
        worse = "silence-past-a-pto: refused V6 number-not-higher, before accepted\n"
        told = f"qaudit-matrix: {worse}qaudit-matrix: {note}\n"
        self.assertEqual(ended.stderr, told)

    def test_a_terminal_shows_how_far_it_is(self) -> None:
        main, other = pty.openpty()
        words = [sys.executable, COMMAND, "--program", PROGRAM, "--output", self.table, self.traces]
        try:
            subprocess.run(list(map(str, words)), stderr=other, timeout=60, check=False)
            shown = os.read(main, 10_000).decode()
        finally:
            os.close(main)
            os.close(other)
        self.assertIn(f"[{20 * '#'}{20 * '.'}] 1 of 2", shown)
        self.assertTrue(shown.endswith(f"[{40 * '#'}] 2 of 2\r\n"))

    def test_processes_are_bounded(self) -> None:
        cores = len(os.sched_getaffinity(0))
        self.assertEqual(workers(100_000, 100_000), 4 * cores)
        self.assertEqual(workers(100_000, 3), 3)
        self.assertEqual(workers(0, 3), 1)

    def test_an_interrupt_ends_all_at_once(self) -> None:
        with tempfile.TemporaryDirectory() as folder:
            slow = Path(folder) / "slow"
            slow.write_text("#!/bin/sh\nexec sleep 60\n")
            slow.chmod(0o755)
            for number in range(20):
                (Path(folder) / f"{number}.trace").write_bytes(GOOD)
            command = [str(COMMAND), "--program", str(slow), "--jobs", "4", folder]
            with subprocess.Popen(
                command,
                stdout=subprocess.PIPE,
                stderr=subprocess.PIPE,
                start_new_session=True,
                preexec_fn=as_usual,
            ) as running:
                time.sleep(2)
                os.killpg(running.pid, signal.SIGINT)
                out, err = running.communicate(timeout=10)
            self.assertEqual(running.returncode, -signal.SIGINT)
            self.assertEqual((out, err), (b"", b""))

    def test_processes_end_with_the_one_that_started_them(self) -> None:
        for ending in (signal.SIGTERM, signal.SIGKILL, signal.SIGHUP):
            with tempfile.TemporaryDirectory() as folder:
                slow = Path(folder) / "slow"
                slow.write_text("#!/bin/sh\nexec sleep 3\n")
                slow.chmod(0o755)
                for number in range(20):
                    (Path(folder) / f"{number}.trace").write_bytes(GOOD)
                command = [str(COMMAND), "--program", str(slow), "--jobs", "4", folder]
                with subprocess.Popen(
                    command, stdout=subprocess.DEVNULL, preexec_fn=as_usual
                ) as running:
                    workers = children_when(4, running.pid)
                    running.send_signal(ending)
                    self.assertEqual(running.wait(10), -ending)
                left = set(workers)
                end = time.monotonic() + 2
                while left and time.monotonic() < end:
                    left = {it for it in left if is_running(it)}
                for number in left:
                    os.kill(number, signal.SIGKILL)
                self.assertEqual((len(workers), left), (4, set()))

    def test_what_is_no_record(self) -> None:
        for text in ("", "[]", '{"version":2,"traces":[]}', '{"version":1,"traces":[{}]}'):
            self.json.write_text(text)
            ended = self.run_command("--against", self.json)
            self.assertEqual(ended.returncode, 3)
            self.assertIn("is not what qaudit-matrix --json writes", ended.stderr)

    def test_names_that_mean_harm(self) -> None:
        (self.traces / f"{EVIL}.trace").write_bytes(BAD)
        shutil.copyfile(TRACES / "timer-late.trace", self.traces / "-.trace")
        ended = self.run_command("--pages", self.folder / "pages", "--json", self.json)
        self.assertEqual((ended.returncode, ended.stderr), (1, ""))
        page = Page(self.table.read_text())
        self.assertNotIn("script", [tag for tag, _ in page.tags])
        self.assertIn('a<script>b"&\\u{202e}', page.by_id["table"])
        for tag, attributes in page.tags:
            if tag == "a":
                href = str(attributes["href"])
                self.assertRegex(href, r"^pages/[A-Za-z0-9._-]+\.html(#line=\d+)?$")
                self.assertTrue((self.folder / href.split("#")[0]).exists())

    def test_below_directories_and_one_name_twice(self) -> None:
        for name in ("a", "b"):
            (self.traces / name).mkdir()
            (self.traces / name / "0.trace").write_bytes(GOOD)
        ended = self.run_command(
            "--json", self.json, self.traces / "a" / "0.trace", self.traces / "a"
        )
        self.assertEqual(ended.returncode, 1)
        keys = [it["key"] for it in json.loads(self.json.read_text())["traces"]]
        self.assertEqual(len(set(keys)), 6)
        self.assertIn("b/0", keys)

    def test_what_cannot_be_read(self) -> None:
        (self.traces / "bad.trace").write_bytes(b"{\n")
        self.assertEqual(self.run_command().returncode, 2)
        (self.traces / "gone.trace").symlink_to("/nowhere")
        self.assertEqual(self.run_command().returncode, 3)
        told = f"cannot open {self.traces}/gone.trace: no such file"
        self.assertIn(told, Page(self.table.read_text()).by_id["table"])

    def test_compressed_traces(self) -> None:
        (self.traces / "one.trace.gz").write_bytes(gzip.compress(BAD))
        (self.traces / "two.trace.xz").write_bytes(lzma.compress(GOOD))
        # What a file is, its bytes say, and not its name.
        (self.traces / "three.qlog.gz").write_bytes(gzip.compress(GOOD))
        (self.traces / "four.txt.gz").write_bytes(gzip.compress(GOOD))
        self.assertEqual(self.run_command("--json", self.json).returncode, 1)
        listed = json.loads(self.json.read_text())["traces"]
        found = {it["key"]: it["kind"] for it in listed if "_" not in it["key"]}
        self.assertEqual(found, {"one": "refused", "two": "accepted", "three": "accepted"})

    def test_nothing_and_wrong_arguments(self) -> None:
        empty = self.folder / "empty"
        empty.mkdir()
        words = [sys.executable, str(COMMAND), "--program", str(PROGRAM)]
        wrong: list[tuple[list[str], int]] = [
            ([str(empty)], 3),
            ([], 64),
            (["--pattern", "x", "y"], 64),
        ]
        for more, status in wrong:
            ended = subprocess.run([*words, *more], capture_output=True, timeout=60, check=False)
            self.assertEqual(ended.returncode, status)
            self.assertEqual(ended.stdout, b"")


if __name__ == "__main__":
    unittest.main()
