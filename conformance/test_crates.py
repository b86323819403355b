#!/usr/bin/env python3
"""Shows that conformance/crates passes a page that names the crates as they are, and fails others.

Each test has a small repository of its own in a temporary folder, which begins as a right one.
"""

import subprocess
import sys
import unittest
from pathlib import Path

from runners import FOLDER
from testing import new_folder

LISTED = """\
# Below
low: thiserror
# Above
top: low clap
"""
PAGE = """\
Before.

<!-- conformance/crates --write puts what follows here -->
<!-- up to here -->

Behind.
"""
MADE = """\
```
top
low
```

| Crate | What it is for | Built on |
|---|---|---|
| **Below** | | |
| `low` | What stands below, in two lines. |  |
| **Above** | | |
| `top` | The program. | `low` |
"""


class Crates(unittest.TestCase):
    """The check over small repositories."""

    def setUp(self) -> None:
        self.folder = new_folder(self)
        self.put("crates.txt", LISTED)
        self.put("docs/architecture.md", PAGE)
        head = "//! What stands below,\n//! in two lines.\n//!\n//! More.\n"
        self.put("crates/low/src/lib.rt", head)
        self.put("crates/top/src/main.rt", "//! The program.\n")
        self.run_check("--write")

    def put(self, path: str, text: str) -> None:
        """Writes a file of the repository."""
        file = Path(self.folder) / path
        file.parent.mkdir(parents=True, exist_ok=True)
        file.write_text(text, encoding="utf-8")

    def run_check(self, *options: str) -> tuple[int, str]:
        """The exit status of the check, and what it prints."""
        command = [sys.executable, str(FOLDER / "crates"), *options, str(self.folder)]
        ended = subprocess.run(command, capture_output=True, text=True, check=False)
        return ended.returncode, ended.stdout + ended.stderr

    def assert_fails(self, told: str) -> None:
        """The check fails and says this."""
        status, text = self.run_check()
        self.assertEqual(status, 1, text)
        self.assertIn(told, text)

    def test_what_is_written_passes(self) -> None:
        page = (Path(self.folder) / "docs/architecture.md").read_text(encoding="utf-8")
        self.assertIn(MADE, page)
        self.assertTrue(page.startswith("Before.") and page.endswith("Behind.\n"))
        self.assertEqual(self.run_check(), (0, "3 passed, 0 failed\n"))

    def test_another_head_fails(self) -> None:
        self.put("crates/top/src/main.rt", "//! Another program.\n")
        self.assert_fails("docs/architecture.md: does not say this")

    def test_another_library_below_fails(self) -> None:
        self.put("crates.txt", LISTED.replace("top: low clap", "top: clap"))
        self.assert_fails("docs/architecture.md: does not say this")

    def test_a_crate_that_is_not_listed_fails(self) -> None:
        self.put("crates/other/src/lib.rt", "//! Another.\n")
        self.assert_fails("crates.txt: lists other crates than there are: other")

    def test_a_long_line_fails(self) -> None:
        self.put("crates/low/specs/Low.antt", f"{'a' * 50} → {'b' * 50}\n")
        self.assert_fails("crates/low/specs/Low.antt:1: 103 columns")

    def test_a_long_line_of_another_language_fails(self) -> None:
        for path in ("include/low.h", "conformance/low.c", "examples/low/low.go"):
            with self.subTest(path):
                self.put(path, f"// {'a' * 98}\n")
                self.assert_fails(f"{path}:1: 101 columns")

    def test_what_was_built_passes(self) -> None:
        self.put("bindings/rust/target/low.rs", f"// {'a' * 98}\n")
        self.assertEqual(self.run_check()[0], 0)

    def test_columns_are_counted_and_not_bytes(self) -> None:
        self.put("crates/low/specs/Low.antt", f"{'→' * 100}\n")
        self.assertEqual(self.run_check()[0], 0)

    def test_a_long_text_passes(self) -> None:
        self.put("crates/low/src/text.rt", f'    "{"a" * 120}"\n')
        self.assertEqual(self.run_check()[0], 0)


if __name__ == "__main__":
    unittest.main()
