"""The manual page, the completions, logs of real stacks and the example of a logger."""

import json
import subprocess
import sys
import unittest

from qlog_to_trace.command import arguments
from qlog_to_trace.dialects import DIALECTS

from .made import FOLDER, TOP, End, Line

sys.path.append(str(TOP / "conformance"))

from converters import check_options, completions_of  # noqa: E402

REAL = TOP / "conformance" / "real" / "traces"
# What a header of each version says if it leaves a key out.
DEFAULTS: dict[int, Line] = {
    1: {},
    2: {"refresh_min_rtt": False},
    3: {
        "threshold_counts": "numbers",
        "reset_rtt": False,
        "latest_rtt_less_delay": False,
        "time_threshold_eighths": 9,
        "recovery_by_order": False,
    },
}


def said_by(line: str) -> Line:
    """What a line says, also by keys that it leaves out."""
    said: Line = json.loads(line)
    if said["event"] != "header":
        return said
    unit, size = 1_000 if said.get("unit") == "ns" else 1, said["max_datagram_size"]
    found = {"max_ack_delay": 25_000 * unit, "initial_rtt": 333_000 * unit}
    found["initial_window"] = min(10 * size, max(14_720, 2 * size))
    for version in range(1, said["version"] + 1):
        found |= DEFAULTS[version]
    return found | said


class Pages(unittest.TestCase):
    """The manual page and the completions have each option and each kind of log."""

    def test_options(self) -> None:
        check_options(self, arguments())

    def test_kinds_of_logs(self) -> None:
        names = " ".join(dialect.name for dialect in DIALECTS)
        for path in completions_of(arguments().prog):
            self.assertRegex(path.read_text(), rf"[(']{names}[)']", path.name)

    def test_what_is_set_for_each_kind_of_log(self) -> None:
        words = [sys.executable, str(FOLDER / "dialects")]
        table = subprocess.run(words, capture_output=True, text=True, check=True).stdout
        page = (TOP / "docs" / "stacks.md").read_text()
        self.assertIn(f"\n\n{table}\n", page, "`conformance/qlog/dialects --write` mends it")


class Real(unittest.TestCase):
    """Each log of conformance/real/traces gives a trace that says what the one beside it does. That
    sets no limit for late timers, and in it the latest round-trip time may be kept whole."""

    def test_real(self) -> None:
        paths = sorted(REAL.glob("*.qlog"))
        self.assertTrue(paths)
        for path in paths:
            with self.subTest(path.name):
                expected = path.with_suffix(".trace").read_text()
                header = json.loads(expected.partition("\n")[0])
                version = header["version"]
                words = ["--version", str(version), *(("--timer-late", "no") * (version >= 2))]
                if version >= 3:
                    is_less = header.get("latest_rtt_less_delay", False)
                    words += ["--latest-rtt-less-delay", "yes" if is_less else "no"]
                    by_order = header.get("recovery_by_order", False)
                    words += ["--recovery-by-order", "yes" if by_order else "no"]
                    words += ["--threshold-counts", header.get("threshold_counts", "numbers")]
                written = End(path.read_bytes(), *words).text
                self.assertEqual(written.count("\n"), expected.count("\n"))
                for found, line in zip(written.splitlines(), expected.splitlines(), strict=True):
                    self.assertEqual(json.loads(found), said_by(line))
                    self.assertEqual(list(json.loads(found)), sorted(json.loads(found)))


class Example(unittest.TestCase):
    """The example of a logger in Python."""

    def test_it_writes_a_trace(self) -> None:
        logger = TOP / "examples" / "logger.py"
        end = subprocess.run([sys.executable, logger], capture_output=True, text=True, check=True)
        kinds = [json.loads(line)["event"] for line in end.stdout.splitlines()]
        self.assertEqual(kinds, ["header", *["sent"] * 4, "ack", "lost", "metrics"])
