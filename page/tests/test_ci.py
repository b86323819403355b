"""What the table of many traces writes for CI: known violations, JUnit, SARIF, annotations."""

import gzip
import json
import os
import re
import shutil
import subprocess
import sys
import tempfile
import unittest
from pathlib import Path
from typing import Any
from xml.etree import ElementTree

from tests.made import CONVERTER, HEADER, PAGE, PROGRAM, PROJECT, TRACES, joined, sent

from qaudit_page.ci import annotation, uri
from qaudit_page.known import Compared, Known, Seen, compared
from qaudit_page.program import Verdict
from qaudit_page.violations import Violation, violations_of

COMMAND = PAGE / "qaudit-matrix"
GOOD = joined(HEADER, sent(0))
BAD = joined(HEADER, sent(0), sent(0))
UNREADABLE = joined(HEADER, '{"time":5}')
EVIL = "a<b>&\x01,c"
# Violations of two rules, at lines 13 to 22 and at line 24.
SEVERAL = TRACES / "several-departures.trace"
PATTERN = ("--pattern", "CLIENT_SERVER_CASE")
STRICT = {"QLOG_TO_TRACE_OPTIONS": "--window-overshoot no"}


def violation(rule: str, line: int = 3) -> Violation:
    """A violation of a rule."""
    return Violation(rule, "name", "", line, 1, "")


class Parts(unittest.TestCase):
    """What is known beside what is seen, and texts."""

    def test_compared(self) -> None:
        v6, v7, gone, absent = (
            Known("loss", "a", "V6", "name", ""),
            Known("loss", "a", "V7", "name", ""),
            Known("loss", "a", "V1", "name", ""),
            Known("other", "a", "V1", "name", ""),
        )
        seen = [Seen("x", violation("V6"), v6), Seen("y", violation("V7"), v7)]
        found = compared(seen, [("loss", "a")], {v6, gone, absent})
        self.assertEqual(found, Compared([seen[1]], [gone], [absent]))
        self.assertEqual(
            found.lines(),
            [
                "y: new violation V7 name, line 3",
                "loss (a): V1 name is known, and not seen any more",
                "other (a): V1 name is known, and there is no trace of it",
            ],
        )

    def test_an_older_program_has_the_first_alone(self) -> None:
        said = {
            "verdict": "refused",
            "line": 3,
            "rule": "V6",
            "name": "number-not-higher",
            "event": "sent",
            "time_us": 0,
            "space": "app",
            "number": 0,
            "size_bytes": 1200,
            "greatest_sent": 0,
        }
        (found,) = violations_of(Verdict(said))
        self.assertEqual((found.title, found.line), ("V6 number-not-higher", 3))
        self.assertIn("Packet app 0, 1,200 B", found.text)

    def test_annotations_cannot_be_broken_out_of(self) -> None:
        told = annotation("error", "a:b,c%\n", 3, "t:u,v", "100%\n::error::x")
        wanted = (
            "::error file=a%3Ab%2Cc%25\\u{a},line=3,title=t%3Au%2Cv::100%25\\u{a}::error::x"
        )
        self.assertEqual(told, wanted)

    def test_uris(self) -> None:
        self.assertEqual(uri("a b/#.trace"), "a%20b/%23.trace")
        self.assertEqual(uri("/a b"), "file:///a%20b")
        # A byte that is no UTF-8, and the text that it is shown as.
        self.assertEqual(uri(os.fsdecode(b"\xff")), "%FF")
        self.assertEqual(uri(os.fsdecode(b"/\xff")), "file:///%FF")
        self.assertEqual(uri("\\xff"), "%5Cxff")


class Files(unittest.TestCase):
    """The command."""

    def setUp(self) -> None:
        folder = tempfile.TemporaryDirectory()
        self.addCleanup(folder.cleanup)
        self.folder = Path(folder.name)
        self.traces = self.folder / "traces"
        self.traces.mkdir()
        self.put("quinn_ngtcp2_loss", GOOD)
        self.put("quinn_quic-go_loss", BAD)
        self.known = self.folder / "known.json"

    def put(self, name: str, data: bytes) -> None:
        """Writes a trace."""
        (self.traces / f"{name}.trace").write_bytes(data)

    def run_command(self, *words: object) -> Any:
        """How the command ends."""
        arguments = [
            sys.executable,
            COMMAND,
            "--program",
            PROGRAM,
            "--output",
            "table.html",
            *PATTERN,
            *words,
            "traces",
        ]
        return subprocess.run(
            list(map(str, arguments)),
            cwd=self.folder,
            capture_output=True,
            text=True,
            timeout=60,
            check=False,
            stdin=subprocess.DEVNULL,
        )

    def test_known_violations_do_not_fail(self) -> None:
        ended = self.run_command("--known", "known.json", "--write-known")
        self.assertEqual((ended.returncode, ended.stdout, ended.stderr), (0, "", ""))
        said = json.loads(self.known.read_text())
        wanted = {
            "case": "loss",
            "stacks": "quinn \u2192 quic-go",
            "rule": "V6",
            "name": "number-not-higher",
            "field": "",
        }
        self.assertEqual(said, {"version": 1, "known": [wanted]})
        ended = self.run_command("--known", "known.json")
        self.assertEqual((ended.returncode, ended.stderr), (0, ""))
        shutil.copyfile(SEVERAL, self.traces / "quinn_quic-go_loss.trace")
        ended = self.run_command("--known", "known.json")
        self.assertEqual(ended.returncode, 1)
        lines = [
            "quinn_quic-go_loss: new violation V7 past-window, line 13",
            "quinn_quic-go_loss: new violation V13 timer-early, line 24",
            "loss (quinn \u2192 quic-go): V6 number-not-higher is known, and not seen any more",
        ]
        told = ended.stderr.splitlines()
        self.assertEqual(told, [f"qaudit-matrix: {line}" for line in lines])

    def test_what_is_gone_is_told_and_does_not_fail(self) -> None:
        self.run_command("--known", "known.json", "--write-known")
        self.put("quinn_quic-go_loss", GOOD)
        ended = self.run_command("--known", "known.json")
        self.assertEqual(ended.returncode, 0)
        self.assertIn("V6 number-not-higher is known, and not seen any more", ended.stderr)
        (self.traces / "quinn_quic-go_loss.trace").unlink()
        ended = self.run_command("--known", "known.json")
        self.assertEqual(ended.returncode, 0)
        self.assertIn("is known, and there is no trace of it", ended.stderr)

    def test_an_unreadable_trace_can_be_new(self) -> None:
        self.run_command("--known", "known.json", "--write-known")
        self.put("quinn_ngtcp2_loss", UNREADABLE)
        ended = self.run_command("--known", "known.json")
        self.assertEqual(ended.returncode, 1)
        self.assertIn("new violation F3 missing event, line 2", ended.stderr)

    def test_a_failed_trace_makes_nothing_known(self) -> None:
        (self.traces / "gone.trace").symlink_to("/nowhere")
        ended = self.run_command("--known", "known.json", "--write-known")
        self.assertEqual(ended.returncode, 3)
        self.assertIn("1 trace failed, so known.json is not written", ended.stderr)
        self.assertFalse(self.known.exists())

    def test_what_is_no_list_of_known_violations(self) -> None:
        for text in ("", "[]", '{"version":2,"known":[]}', '{"version":1,"known":[{}]}'):
            self.known.write_text(text)
            ended = self.run_command("--known", "known.json")
            self.assertEqual(ended.returncode, 3)
            self.assertIn("is not what qaudit-matrix --write-known writes", ended.stderr)
        self.known.unlink()
        ended = self.run_command("--known", "known.json")
        self.assertEqual(ended.returncode, 3)
        self.assertIn("cannot open known.json: no such file", ended.stderr)

    def test_junit(self) -> None:
        (self.traces / "gone.trace").symlink_to("/nowhere")
        self.put(EVIL, BAD)
        self.put("quinn_ngtcp2_retry", UNREADABLE)
        ended = self.run_command("--junit", "junit.xml")
        self.assertEqual(ended.returncode, 3)
        suite = ElementTree.parse(self.folder / "junit.xml").getroot()[0]
        counts = {name: suite.get(name) for name in ("tests", "failures", "errors", "skipped")}
        self.assertEqual(
            counts, {"tests": "5", "failures": "3", "errors": "1", "skipped": "0"}
        )
        by_name = {case.get("name"): case for case in suite}
        self.assertEqual(list(by_name["quinn_ngtcp2_loss"]), [])
        refused = by_name["quinn_quic-go_loss"]
        self.assertEqual(refused.get("classname"), "quinn \u2192 quic-go")
        (failure,) = refused
        self.assertEqual((failure.tag, failure.get("type")), ("failure", "V6"))
        self.assertEqual(failure.get("message"), "V6 number-not-higher (MUST)")
        self.assertIn("traces/quinn_quic-go_loss.trace:3: V6", failure.text or "")
        self.assertEqual(by_name["quinn_ngtcp2_retry"][0].get("message"), "F3 missing event")
        self.assertEqual(by_name["gone"][0].tag, "error")
        self.assertIn(EVIL.replace("\x01", "\\u{1}"), by_name)

    def test_junit_of_what_is_known(self) -> None:
        words = ("--known", "known.json", "--write-known", "--junit", "junit.xml")
        self.assertEqual(self.run_command(*words).returncode, 0)
        suite = ElementTree.parse(self.folder / "junit.xml").getroot()[0]
        self.assertEqual((suite.get("failures"), suite.get("skipped")), ("0", "1"))

    def test_sarif(self) -> None:
        shutil.copyfile(SEVERAL, self.traces / "quinn_quic-go_loss.trace")
        ended = self.run_command("--sarif", "all.sarif")
        self.assertEqual(ended.returncode, 1)
        said = json.loads((self.folder / "all.sarif").read_text())
        self.assertEqual(said["version"], "2.1.0")
        (run,) = said["runs"]
        self.assertTrue(run["invocations"][0]["executionSuccessful"])
        rules = {it["id"]: it["defaultConfiguration"] for it in run["tool"]["driver"]["rules"]}
        ids = [*rules]
        for rule, level in (("V7", "error"), ("V10", "warning"), ("V12", "note"), ("F3", "error")):
            self.assertEqual(rules[rule], {"level": level})
        found = [
            (
                it["ruleId"],
                it["level"],
                it["occurrenceCount"],
                it["locations"][0]["physicalLocation"]["artifactLocation"]["uri"],
                it["locations"][0]["physicalLocation"]["region"]["startLine"],
            )
            for it in run["results"]
        ]
        trace = "traces/quinn_quic-go_loss.trace"
        self.assertEqual(
            found, [("V7", "error", 4, trace, 13), ("V13", "note", 1, trace, 24)]
        )
        self.assertLessEqual({it["ruleId"] for it in run["results"]}, set(ids))
        text = run["results"][0]["message"]["text"]
        self.assertIn("(RFC 9002, 7, MUST NOT) 4 times, first at line 13. At most 1,740 B.", text)
        self.assertNotIn("baselineState", run["results"][0])

    def test_sarif_of_what_is_known(self) -> None:
        self.run_command("--known", "known.json", "--write-known")
        self.put("quinn_ngtcp2_loss", BAD)
        ended = self.run_command("--known", "known.json", "--sarif", "all.sarif")
        self.assertEqual(ended.returncode, 1)
        results = json.loads((self.folder / "all.sarif").read_text())["runs"][0]["results"]
        found = {
            it["baselineState"]: (it["level"], len(it["suppressions"])) for it in results
        }
        self.assertEqual(found, {"new": ("error", 0), "unchanged": ("note", 1)})
        prints = {json.dumps(it["partialFingerprints"]) for it in results}
        self.assertEqual(len(prints), 2)

    def test_levels_that_fail(self) -> None:
        # V7 is a MUST, V13 described, V2 the format's, and F3 of a line that cannot be read.
        traces = {"several-departures": (1, 1, 1), "ack-while-loss-owed": (0, 0, 1)}
        traces |= {"ack-of-skipped-number": (0, 1, 1), "app-pto-early": (0, 0, 1)}
        for name, wanted in traces.items():
            shutil.copyfile(TRACES / f"{name}.trace", self.traces / "quinn_quic-go_loss.trace")
            for fail_on, status in zip(("must", "should", "any"), wanted, strict=True):
                with self.subTest(name, fail_on=fail_on):
                    self.assertEqual(self.run_command("--fail-on", fail_on).returncode, status)
        self.put("quinn_quic-go_loss", UNREADABLE)
        self.assertEqual(self.run_command("--fail-on", "must").returncode, 2)

    def test_levels_that_fail_among_new_violations(self) -> None:
        self.known.write_text('{"version":1,"known":[]}')
        path = self.traces / "quinn_quic-go_loss.trace"
        shutil.copyfile(TRACES / "app-pto-early.trace", path)
        words = ("--known", "known.json", "--junit", "junit.xml", "--annotate")
        for fail_on, status, counts in (("should", 0, ("0", "1")), ("any", 1, ("1", "0"))):
            ended = self.run_command(*words, "--fail-on", fail_on)
            self.assertEqual(ended.returncode, status)
            self.assertTrue(ended.stdout.startswith("::notice file="), ended.stdout)
            suite = ElementTree.parse(self.folder / "junit.xml").getroot()[0]
            self.assertEqual((suite.get("failures"), suite.get("skipped")), counts)
        self.run_command(*words, "--fail-on", "should")
        told = (self.folder / "junit.xml").read_text()
        self.assertIn("below --fail-on should: V13 timer-early (described)", told)

    def test_what_is_accepted_with_allowances(self) -> None:
        shutil.copyfile(TRACES / "silence-past-a-pto.trace", self.traces / "quiet.trace")
        words = ("--junit", "junit.xml", "--sarif", "all.sarif", "--annotate")
        ended = self.run_command(*words)
        self.assertEqual(ended.returncode, 1)
        self.assertNotIn("quiet", ended.stdout)
        suite = ElementTree.parse(self.folder / "junit.xml").getroot()[0]
        self.assertEqual((suite.get("failures"), suite.get("skipped")), ("1", "0"))
        by_name = {case.get("name"): case for case in suite}
        (told,) = by_name["quiet"]
        line = "V18 timer-late: once, at line 13, by 5.92 s (no timer_late_us in the header)"
        text = f"accepted with allowances\ntraces/quiet.trace:13: {line}"
        self.assertEqual((told.tag, told.text), ("system-out", text))
        self.assertEqual(list(by_name["quinn_ngtcp2_loss"]), [])
        run = json.loads((self.folder / "all.sarif").read_text())["runs"][0]
        self.assertEqual([it["ruleId"] for it in run["results"]], ["V6"])
        (invocation,) = run["invocations"]
        self.assertTrue(invocation["executionSuccessful"])
        (note,) = invocation["toolExecutionNotifications"]
        self.assertEqual(note["level"], "note")
        self.assertEqual(note["message"]["text"], f"quiet: accepted with allowances: {line}")
        (place,) = note["locations"]
        self.assertEqual(
            place["physicalLocation"],
            {"artifactLocation": {"uri": "traces/quiet.trace"}, "region": {"startLine": 13}},
        )

    def test_annotations(self) -> None:
        self.run_command("--known", "known.json", "--write-known")
        self.put("quinn_ngtcp2_loss", BAD)
        ended = self.run_command("--known", "known.json", "--annotate")
        lines = ended.stdout.splitlines()
        self.assertEqual([line.split("::")[1].split()[0] for line in lines], ["error", "notice"])
        wanted = "::error file=traces/quinn_ngtcp2_loss.trace,line=3,title=qaudit V6 "
        self.assertTrue(lines[0].startswith(wanted), lines[0])

    def test_wrong_arguments(self) -> None:
        program = [sys.executable, str(COMMAND), "--program", str(PROGRAM), "traces"]
        for words in (["--write-known"], ["--annotate"]):
            ended = subprocess.run([*program, *words], capture_output=True, check=False)
            self.assertEqual(ended.returncode, os.EX_USAGE)


class Recipes(unittest.TestCase):
    """`ci/audit`, and the recipes that run it: the action of GitHub and the template of GitLab."""

    def setUp(self) -> None:
        folder = tempfile.TemporaryDirectory()
        self.addCleanup(folder.cleanup)
        self.folder = Path(folder.name)
        self.bin = self.folder / "bin"
        self.bin.mkdir()
        for name, program in (
            ("qaudit-why", PROGRAM),
            ("qaudit-matrix", COMMAND),
            ("qlog-to-trace", CONVERTER),
        ):
            (self.bin / name).symlink_to(program)
        real = PROJECT / "conformance" / "real" / "traces"
        logs = self.folder / "logs" / "ngtcp2" / "loss"
        logs.mkdir(parents=True)
        log = (real / "ngtcp2-past-window.qlog").read_bytes()
        netlog = (real / "chromium-156-probe.netlog").read_bytes()
        (logs / "client.qlog").write_bytes(log)
        (logs / "packed.sqlog.gz").write_bytes(gzip.compress(log))
        (logs / "chrome.netlog.json").write_bytes(netlog)
        shutil.copyfile(TRACES / "eleventh-past-window.trace", logs / "own.trace")
        (logs / "note.txt").write_text("no log")

    def run_script(self, script: str, **names: str) -> Any:
        """How a script ends, with the programs on the path."""
        path = f"{self.bin}:{os.environ['PATH']}"
        return subprocess.run(
            ["bash", "-e", "-o", "pipefail", "-c", script],
            cwd=self.folder,
            env={**os.environ, "PATH": path, **names},
            capture_output=True,
            text=True,
            timeout=120,
            check=False,
            stdin=subprocess.DEVNULL,
        )

    def test_a_folder_of_logs(self) -> None:
        audit = str(PROJECT / "ci" / "audit")
        words = "logs out --pattern STACK/CASE/SIDE --annotate"
        ended = self.run_script(f"{audit} {words}", **STRICT)
        self.assertEqual(ended.returncode, 1, ended.stderr)
        self.assertIn("::error file=logs/ngtcp2/loss/own.trace,line=12,", ended.stdout)
        # Of a log, at its record: by a line of it, or in words.
        self.assertIn("::error file=logs/ngtcp2/loss/client.qlog,line=42,", ended.stdout)
        words = "file=logs/ngtcp2/loss/chrome.netlog.json,title=.* byte [0-9,]+ of the log"
        self.assertRegex(ended.stdout, words)
        for name in ("table.html", "junit.xml", "qaudit.sarif", "verdicts.json"):
            self.assertTrue((self.folder / "out" / name).exists(), name)
        listed = json.loads((self.folder / "out/verdicts.json").read_text())["traces"]
        self.assertEqual({it["case"] for it in listed}, {"loss"})
        self.assertEqual(
            {it["key"] for it in listed},
            {f"ngtcp2/loss/{name}" for name in ("chrome", "client", "own", "packed")},
        )

    def test_options_of_the_converter_and_known_violations(self) -> None:
        audit = str(PROJECT / "ci" / "audit")
        ended = self.run_script(f"{audit} logs out --known known.json --write-known", **STRICT)
        self.assertEqual(ended.returncode, 0, ended.stderr)
        known = json.loads((self.folder / "known.json").read_text())["known"]
        self.assertIn("V7", {it["rule"] for it in known if it["case"].endswith("client")})
        ended = self.run_script(f"{audit} logs out --known known.json", **STRICT)
        self.assertEqual(ended.returncode, 0, ended.stderr)

    def test_a_log_that_cannot_be_converted_fails(self) -> None:
        audit = f"{PROJECT / 'ci' / 'audit'} logs out --known k"
        self.assertEqual(self.run_script(f"{audit} --write-known").returncode, 0)
        (self.folder / "logs" / "bad.sqlog").write_bytes(b'{"traces":[]}')
        ended = self.run_script(audit)
        self.assertEqual(ended.returncode, 1)
        self.assertEqual(ended.stderr, "qaudit-matrix: bad: new violation log not-converted\n")

    def test_no_logs(self) -> None:
        (self.folder / "empty").mkdir()
        ended = self.run_script(f"{PROJECT / 'ci' / 'audit'} empty out")
        self.assertEqual(ended.returncode, 3)
        ended = self.run_script(f"{PROJECT / 'ci' / 'audit'}")
        self.assertEqual(ended.returncode, os.EX_USAGE)

    def steps_of(self, file: str) -> list[str]:
        """The scripts of the steps `run: |` or `- |` of a YAML file, without their indent."""
        lines = (PROJECT / file).read_text().splitlines()
        scripts, place = [], 0
        while place < len(lines):
            match = re.fullmatch(r"( *)(?:- )?(?:run: )?\|", lines[place])
            place += 1
            if match is None:
                continue
            script = []
            indent = len(match[1])
            while place < len(lines) and (
                not lines[place].strip() or len(lines[place]) - len(lines[place].lstrip()) > indent
            ):
                script.append(lines[place].strip())
                place += 1
            scripts.append("\n".join(script))
        return scripts

    def test_the_action_of_github(self) -> None:
        install, audit = self.steps_of("action.yml")
        self.assertIn("tar xzf", install)
        known = self.folder / "known.json"
        names = {
            "QAUDIT_LOGS": "logs",
            "QAUDIT_RESULTS": "out",
            "QAUDIT_PATTERN": "STACK/CASE",
            "QAUDIT_KNOWN": "",
            "GITHUB_ACTION_PATH": str(PROJECT),
        }
        ended = self.run_script(audit, **names)
        self.assertEqual(ended.returncode, 1, ended.stderr)
        self.assertIn("::error file=", ended.stdout)
        audit_script = str(PROJECT / "ci" / "audit")
        words = "--pattern STACK/CASE --known known.json --write-known"
        self.run_script(f"{audit_script} logs out {words}")
        ended = self.run_script(audit, **{**names, "QAUDIT_KNOWN": str(known)})
        self.assertEqual(ended.returncode, 0, ended.stderr)
        self.assertIn("::notice file=", ended.stdout)
        shutil.rmtree(self.folder / "logs")
        (self.folder / "logs").mkdir()
        shutil.copyfile(TRACES / "app-pto-early.trace", self.folder / "logs" / "own.trace")
        for fail_on, status in (("must", 0), ("any", 1)):
            ended = self.run_script(audit, **names, QAUDIT_FAIL_ON=fail_on)
            self.assertEqual(ended.returncode, status, ended.stderr)

    def test_the_template_of_gitlab(self) -> None:
        install, audit = self.steps_of("ci/gitlab.yml")
        self.assertIn("tar xzf", install)
        names = {"QAUDIT_LOGS": "logs", "QAUDIT_PATTERN": "STACK/CASE", "QAUDIT_KNOWN": ""}
        release = self.folder / "qaudit-0.0.0-x86_64-linux"
        release.mkdir()
        (release / "ci").symlink_to(PROJECT / "ci")
        ended = self.run_script(audit, **names)
        self.assertEqual(ended.returncode, 1, ended.stderr)
        self.assertTrue((self.folder / "qaudit-results/junit.xml").exists())
        shutil.rmtree(self.folder / "logs")
        (self.folder / "logs").mkdir()
        shutil.copyfile(TRACES / "app-pto-early.trace", self.folder / "logs" / "own.trace")
        self.assertEqual(self.run_script(audit, **names, QAUDIT_FAIL_ON="should").returncode, 0)


if __name__ == "__main__":
    unittest.main()
