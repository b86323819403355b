#!/usr/bin/env python3
"""Shows that conformance/words finds words in pages, man pages and programs, and nothing in code.

Each test has a small repository of its own in a temporary folder.
"""

import json
import subprocess
import sys
import unittest
from typing import Any

from runners import FOLDER
from testing import new_folder

LIST: dict[str, Any] = {
    "words": [{"find": "(?i)\\bfoo\\b", "write": "bar"}],
    "files": ["*.md", "*.1", "*.py"],
    "left_out": ["other.md"],
    "exceptions": [],
    "not_revised": {},
}


class Found(unittest.TestCase):
    """The check over small repositories."""

    def setUp(self) -> None:
        self.folder = new_folder(self)
        self.put("conformance/words.json", json.dumps(LIST))

    def put(self, name: str, text: str) -> None:
        """Writes a file."""
        path = self.folder / name
        path.parent.mkdir(parents=True, exist_ok=True)
        path.write_text(text)

    def run_check(self, *words: str) -> tuple[int, str]:
        """How the check ends, and what it prints."""
        command = [sys.executable, str(FOLDER / "words"), *words, str(self.folder)]
        ended = subprocess.run(command, capture_output=True, text=True, check=False)
        return ended.returncode, ended.stdout + ended.stderr

    def listed(self, **more: Any) -> None:
        """Changes what words.json says."""
        self.put("conformance/words.json", json.dumps({**LIST, **more}))

    def test_a_page(self) -> None:
        self.put("page.md", "Good.\n\nFoo is not.\n")
        status, told = self.run_check()
        self.assertEqual(status, 1)
        self.assertIn("page.md:3: `Foo`; write bar", told)
        self.assertIn("FAILED page.md: 1 words", told)

    def test_code_is_not_read(self) -> None:
        self.put("page.md", "`foo` and [a link](foo).\n\n```\nfoo\n```\n\n    foo\n")
        self.put("other.md", "foo\n")
        self.assertEqual(self.run_check(), (0, "1 passed, 0 failed\n"))

    def test_a_man_page(self) -> None:
        self.put("a.1", ".Nm foo\n.Fl foo\nfoo\n")
        self.assertIn("a.1:3: `foo`", self.run_check()[1])
        self.put("a.1", ".Nm foo\n.It Fl foo Ar foo\nbar\n")
        self.assertEqual(self.run_check()[0], 0)

    def test_texts_of_a_program(self) -> None:
        self.put("a.py", '"""A foo module."""\n\nWORD = "foo"\n# foo\nTEXT = f"a foo {WORD}"\n')
        status, told = self.run_check()
        self.assertEqual((status, told.splitlines()[0]), (1, "a.py:5: `foo`; write bar"))
        self.put("a.py", 'def one() -> None:\n    """Foo and foo."""\n')
        self.assertEqual(self.run_check()[0], 0)
        self.put("a.py", '#!/usr/bin/env python3\n"""A foo program."""\n')
        self.assertEqual(self.run_check()[0], 1)

    def test_exceptions(self) -> None:
        exception = {"file": "page.md", "text": "a foo", "why": "its name"}
        self.listed(exceptions=[exception])
        self.put("page.md", "This is a foo.\n")
        self.assertEqual(self.run_check()[0], 0)
        self.put("page.md", "This is one.\n")
        status, told = self.run_check()
        self.assertEqual(status, 1)
        self.assertIn("page.md: a foo: is an exception", told)

    def test_a_page_that_is_not_revised(self) -> None:
        self.listed(not_revised={"page.md": 2})
        self.put("page.md", "Foo foo.\n")
        self.assertEqual(self.run_check(), (0, "1 passed, 0 failed\n"))
        self.assertIn("page.md:1: `Foo`", self.run_check("--list")[1])
        self.put("page.md", "Foo foo foo.\n")
        status, told = self.run_check()
        self.assertEqual(status, 1)
        self.assertIn("3 words that are listed", told)
        self.assertIn("and 2 are allowed until it is revised", told)

    def test_numbers_are_lowered(self) -> None:
        self.listed(not_revised={"page.md": 2, "two.md": 1})
        self.put("page.md", "Foo.\n")
        self.put("two.md", "Bar.\n")
        self.assertEqual(self.run_check("--lower")[0], 0)
        said = json.loads((self.folder / "conformance/words.json").read_text())
        self.assertEqual(said["not_revised"], {"page.md": 1})

    def test_a_page_that_is_too_long(self) -> None:
        self.listed(most_words={"page.md": 2})
        self.put("page.md", "One two.\n")
        self.assertEqual(self.run_check()[0], 0)
        self.put("page.md", "One two three.\n")
        status, told = self.run_check()
        self.assertEqual(status, 1)
        self.assertIn("FAILED page.md: has 3 words, and 2 at most", told)

    def test_a_number_of_a_page_that_is_gone(self) -> None:
        self.listed(not_revised={"gone.md": 2})
        self.put("page.md", "Bar.\n")
        status, told = self.run_check()
        self.assertEqual(status, 1)
        self.assertIn("FAILED gone.md", told)


if __name__ == "__main__":
    unittest.main()
