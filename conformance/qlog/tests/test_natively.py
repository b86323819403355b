"""That the table of dialects of crates/qa_convert is that of this converter."""

import re
import unittest
from dataclasses import fields
from pathlib import Path

from qlog_to_trace.dialects import DIALECTS, GENERIC, Absent, Dialect, Limited

SOURCES = Path(__file__).parents[3] / "crates/qa_convert/src"
SOURCE = SOURCES / "dialects.rt"
CONSTANT = re.compile(r"const (\w+): Dialect = Dialect \{\n(.*?)\n\};", re.DOTALL)
ORDER = re.compile(r"const DIALECTS: \[Dialect; \d+\] = \[\n(.*?)\n\];", re.DOTALL)
BASE = re.compile(r"\.\.(\w+)")
# What has the texts of each stack, by functions, and an arm of one.
STACKS = SOURCES / "stacks.rt"
TEXTS = re.compile(
    r"fn (\w+)\(self\) -> &'static str\n.*?\bmatch self \{\n(.*?)\n {8}\}\n", re.DOTALL
)
ARM = re.compile(r'([\w:|\s]+)=>\s*(?:\{\s*)?"(.*?)"')
# Keys that have another name there, and the one that only documents need.
NAMES = {"marks": "mark", "schemas": "schema", "delay_spaces": "subtracts_delay"}
NOT_THERE = {"is_tried"}
SPACES = {
    ("app",): "APP_ALONE",
    ("handshake", "app"): "ALL_BUT_INITIAL",
    ("initial", "handshake", "app"): "ALL_SPACES",
}
WORDS: dict[object, str] = {
    Absent.SAME: "Absent::Same",
    Absent.SAME_OR_ZERO: "Absent::SameOrZero",
    Absent.NONE: "Absent::Unknown",
    Limited.BY_STATE: "Limited::ByState",
    Limited.BY_WINDOW: "Limited::ByWindow",
    Limited.NEVER: "Limited::Never",
}
UNITS = {"us": "Microseconds", "ns": "Nanoseconds"}
# Keys whose values may be absent there.
OPTIONAL = {"initial_rtt", "logs_timers", "packets_between_pings", "unit"}


def texts_in(source: str) -> dict[str, dict[str, str]]:
    """What the functions of a source say, each by its patterns."""
    return {
        name: {
            pattern.strip(): text
            for patterns, text in ARM.findall(body)
            for pattern in patterns.split("|")
        }
        for name, body in TEXTS.findall(source)
    }


def texts_of(stack: str, texts: dict[str, dict[str, str]]) -> dict[str, str]:
    """What each function says of a stack, as it stands there."""
    found = {name: of[stack if stack in of else "_"] for name, of in texts.items()}
    return {name: f'"{text}"' for name, text in found.items()}


def found_in(text: str, texts: dict[str, dict[str, str]]) -> dict[str, dict[str, str]]:
    """The constants of a source, each with its fields, and the texts of its stack."""
    constants: dict[str, dict[str, str]] = {}
    for name, body in CONSTANT.findall(text):
        base = BASE.search(body)
        values = dict(constants[base.group(1)]) if base else {}
        lines = (line.strip().rstrip(",") for line in body.split("\n"))
        values |= dict(line.split(": ", 1) for line in lines if ": " in line)
        constants[name] = values
    for values in constants.values():
        values |= texts_of(values.pop("stack"), texts)
    return constants


def written(name: str, value: object) -> str:
    """A value of a dialect as it stands in the source."""
    if name in ("marks", "schemas"):
        assert isinstance(value, tuple)
        return f'"{value[0] if value else ""}"'
    if name == "delay_spaces":
        assert isinstance(value, tuple)
        return SPACES[value]
    if value is None:
        return "None"
    if name == "unit":
        return f"Some(TimeUnit::{UNITS[str(value)]})"
    if value in WORDS:
        return WORDS[value]
    text = f'"{value}"'
    if isinstance(value, bool):
        text = str(value).lower()
    elif isinstance(value, int):
        text = f"{value:_}"
    return f"Some({text})" if name in OPTIONAL else text


def constant_of(dialect: Dialect) -> str:
    """The name of its constant."""
    return dialect.name.upper().replace("-", "_").replace(".", "_")


class Table(unittest.TestCase):
    """Each dialect of one table is in the other."""

    def test_the_values_of_each(self) -> None:
        constants = found_in(SOURCE.read_text(), texts_in(STACKS.read_text()))
        self.assertEqual(set(constants), {constant_of(it) for it in DIALECTS})
        for dialect in DIALECTS:
            expected = {
                NAMES.get(it.name, it.name): written(it.name, getattr(dialect, it.name))
                for it in fields(dialect)
                if it.name not in NOT_THERE
            }
            with self.subTest(dialect.name):
                self.assertEqual(constants[constant_of(dialect)], expected)

    def test_their_order(self) -> None:
        listed = ORDER.search(SOURCE.read_text())
        assert listed
        names = [line.strip().rstrip(",") for line in listed.group(1).split("\n")]
        self.assertEqual(names, [constant_of(it) for it in DIALECTS if it is not GENERIC])


if __name__ == "__main__":
    unittest.main()
