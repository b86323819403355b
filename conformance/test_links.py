#!/usr/bin/env python3
"""Shows that conformance/links passes what is right and fails what is not.

Each test has a small repository of its own in a temporary folder, which begins as a right one.
"""

import subprocess
import sys
import unittest
from pathlib import Path

from runners import FOLDER
from testing import new_folder

SPECS = """\
-- what is not defined: unknown : Bool
use Rattle.std.specs.Prelude.{List}
pub mod Other

abbrev pub is_time_back : List Event → Event → Bool
is_time_back h e = false

unfoldable pub pto_count : ℕ
plain : ℕ
pub record Due : Type 0 where
  pub time : ℕ
"""
CODE = """\
//! fn unknown
use other;

fn is_time_back<S: State>(state: &S) -> bool
{
}

impl State {
    pub(crate) fn owes_now(&self) -> bool
}
"""
MACHINE = """\
# The machine

The deadline (`Due`, `Breaches`, `Breaches.plain`) is a [definition](#the-rules) in `Breaches.antt`,
and `limited` is a key. So is `2 * time`, which is no name.

| Definition | What it says |
|---|---|
| `Breaches.pto_count`, `plain` | `anything` |
| the `time` | |

## The rules

Code stands in `crates/qa/src/rules.rt`; `owes_now` is a function.

| Rule | Definition | Code |
|---|---|---|
| V1 `time-back` | `Breaches.is_time_back` | `is_time_back` |
| V17 `owed` | `Due` | `owes_now` in `others.rt` |

| RFC 9002 | In `specs/` |
|---|---|
| 6.2 | `Breaches.pto_count` |

```
[no link](nowhere) in a block, and `no_name`
```
"""


class LinksTest(unittest.TestCase):
    """The checker, on a repository and on what is wrong with it."""

    def setUp(self) -> None:
        self.top = new_folder(self)
        self.write("crates/qa/specs/machine/Breaches.antt", SPECS)
        self.write("crates/qa/src/rules.rt", CODE)
        self.write("crates/qa/src/others.rt", CODE)
        self.write_trace("back", "V1 time-back")
        self.write_trace("owed", "V17 owed-at-end")
        self.write("docs/format.md", "# Lines\n\nThe key `limited`.\n")
        self.write("docs/machine.md", MACHINE)

    def write(self, name: str, text: str) -> None:
        """Writes a file of the repository."""
        path: Path = self.top / name
        path.parent.mkdir(parents=True, exist_ok=True)
        path.write_text(text)

    def write_trace(self, name: str, rule: str) -> None:
        """Writes a trace that is refused by a rule."""
        self.write(f"conformance/traces/{name}.trace", "")
        self.write(f"conformance/traces/{name}.report", f"refused line 2 {rule}\nevents 0\n")

    def lines(self, status: int) -> list[str]:
        """Runs the checker, which must end with this status, and answers what it printed."""
        command = [sys.executable, "-S", str(FOLDER / "links"), str(self.top)]
        ended = subprocess.run(command, capture_output=True, text=True, check=False)
        self.assertEqual(ended.stderr, "")
        self.assertEqual(ended.returncode, status, ended.stdout)
        return ended.stdout.splitlines()

    def assert_fails(self, *failures: str) -> None:
        """These are the failures, each without the page and the number of the line."""
        *printed, last = self.lines(1)
        self.assertEqual([line.split(": ", 1)[1] for line in printed], list(failures))
        self.assertTrue(last.endswith(f" {len(failures)} failed"), last)

    def assert_page_fails(self, right: str, faulty: str, *failures: str) -> None:
        """With this text in the place of another these are the failures."""
        self.assertEqual(MACHINE.count(right), 1, right)
        self.write("docs/machine.md", MACHINE.replace(right, faulty))
        self.assert_fails(*failures)

    def assert_page_passes(self, other: str, text: str) -> None:
        """With this text in the place of another all is right."""
        self.assertEqual(MACHINE.count(other), 1, other)
        self.write("docs/machine.md", MACHINE.replace(other, text))
        self.lines(0)

    def test_right_pages(self) -> None:
        (last,) = self.lines(0)
        self.assertTrue(last.endswith(" passed, 0 failed"), last)

    def test_no_page_of_names(self) -> None:
        (self.top / "docs/machine.md").unlink()
        self.assertIn("FAILED docs/machine.md: there is no such page", self.lines(1))

    # Links and paths.

    def test_link_of_any_page_to_no_file(self) -> None:
        for page in ("README.md", "docs/proofs.md", "conformance/README.md"):
            self.write(page, "See [a page](nowhere.md#part).\n")
            failure, _last = self.lines(1)
            self.assertEqual(
                failure, f"FAILED {page} line 1: nowhere.md#part: there is no such file"
            )
            (self.top / page).unlink()

    def test_links_elsewhere_are_not_followed(self) -> None:
        self.write("README.md", "See [a page](https://example.org/nowhere).\n")
        self.lines(0)

    def test_link_to_no_heading(self) -> None:
        link = "[definition](#the-rules)"
        self.assert_page_fails(link, "[a](#the-rule)", "#the-rule: there is no such heading")
        self.assert_page_fails(
            link, "[a](format.md#rules)", "format.md#rules: there is no such heading"
        )
        self.assert_page_passes(link, "[a](format.md#lines) [folder](../crates/qa)")

    def test_link_to_lines_that_there_are_not(self) -> None:
        rules = "../crates/qa/src/rules.rt"
        link = "[definition](#the-rules)"
        self.assert_page_fails(link, f"[a]({rules}#L99)", f"{rules}#L99: the file has fewer lines")
        self.assert_page_passes(link, f"[a]({rules}#L4-L6)")

    def test_path_that_is_not_there(self) -> None:
        text = "and `limited` is a key"
        path = "crates/qa/src/rule.rt"
        self.assert_page_fails(text, f"`{path}`", f"`{path}`: there is no such file")
        self.assert_page_passes(text, "`crates/qa/src` and `crates/qa/out/qa`")

    # Names of tables.

    def test_definition_that_there_is_not(self) -> None:
        self.assert_page_fails(
            "`Breaches.is_time_back`",
            "`Breaches.is_back`",
            "`Breaches.is_back`: no definition in Breaches.antt",
        )
        self.assert_page_fails(
            "| the `time` | |", "| the `unknown` | |", "`unknown`: no definition in crates/*/specs"
        )

    def test_definition_in_the_table_of_the_standard(self) -> None:
        self.assert_page_fails(
            "| 6.2 | `Breaches.pto_count` |",
            "| 6.2 | `Breaches.backoff` |",
            "`Breaches.backoff`: no definition in Breaches.antt",
        )

    def test_column_that_has_another_heading(self) -> None:
        self.assert_page_fails(
            "| In `specs/` |", "| In specs |", "In `specs/`: no table has such a column"
        )

    def test_definition_in_another_file(self) -> None:
        self.write("crates/qa/specs/machine/Timer.antt", "deadline : ℕ\n")
        failure = "`{}`: no definition in Breaches.antt"
        name = "`Breaches.is_time_back`"
        other = "Breaches.deadline"
        self.assert_page_fails(name, f"`{other}`", failure.format(other))
        # What follows without a file is in the file before.
        self.assert_page_fails(name, f"{name}, `deadline`", failure.format("deadline"))
        self.assert_page_passes(name, f"{name}, `Timer.deadline`")

    def test_function_that_there_is_not(self) -> None:
        self.assert_page_fails(
            "| `is_time_back` |", "| `time_rule` |", "`time_rule`: no function in rules.rt"
        )

    def test_function_in_another_file(self) -> None:
        self.write("crates/qa/src/others.rt", "fn other() {}\n")
        self.assert_fails("`owes_now`: no function in others.rt")
        file = "crates/qa/src/rules.rt"
        self.assert_page_passes("`others.rt`", f"`{file}`")

    def test_rule_that_refuses_no_trace(self) -> None:
        (self.top / "conformance/traces/owed.report").unlink()
        self.assert_fails("V17: no trace is refused by it")

    def test_rule_that_has_no_row(self) -> None:
        self.write_trace("early", "V2 loss-owed")
        self.assert_fails("V2: it refuses traces, and has no row")

    # Names that are links.

    def test_linked_names(self) -> None:
        specs, code = "../crates/qa/specs/machine/Breaches.antt", "../crates/qa/src/rules.rt"
        definition = "| `Breaches.is_time_back` |"
        function = "| `is_time_back` |"
        for target in (specs, f"{specs}#L5", f"{specs}#L4-L6"):
            self.assert_page_passes(definition, f"| [`Breaches.is_time_back`]({target}) |")
        for target in (code, f"{code}#L4"):
            self.assert_page_passes(function, f"| [`is_time_back`]({target}) |")
            self.assert_page_passes(function, f"| [`rules::is_time_back`]({target}) |")
        self.assert_page_passes("(`Due`, ", f"([`Due`]({specs}), ")

    def test_linked_name_that_is_not_in_the_file(self) -> None:
        code = "../crates/qa/src/rules.rt"
        self.assert_page_fails(
            "| `is_time_back` |",
            f"| [`time_rule`]({code}) |",
            f"`time_rule`: {code} does not define it",
        )

    def test_linked_name_that_is_not_in_the_lines(self) -> None:
        specs = "../crates/qa/specs/machine/Breaches.antt"
        self.assert_page_fails(
            "| `Breaches.is_time_back` |",
            f"| [`Breaches.is_time_back`]({specs}#L6) |",
            f"`Breaches.is_time_back`: {specs}#L6 does not define it",
        )

    def test_linked_name_without_a_file(self) -> None:
        code = "../crates/qa/src/rule.rt"
        self.assert_page_fails(
            "| `is_time_back` |",
            f"| [`is_time_back`]({code}) |",
            f"{code}: there is no such file",
            f"`is_time_back`: {code} is no file",
        )

    # Other names of the page.

    def test_name_that_nothing_has(self) -> None:
        place = "(`Due`, "
        for name in ("backoff", "Timer", "Breaches.backoff", "Timer.antt", "no_name"):
            self.assert_page_fails(place, f"(`{name}`, ", f"`{name}`: nothing has this name")
        for name in ("pto_count", "owes_now", "limited"):
            self.assert_page_passes(place, f"(`{name}`, ")


if __name__ == "__main__":
    unittest.main()
