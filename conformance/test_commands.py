#!/usr/bin/env python3
"""Shows that conformance/commands runs the blocks of a page, and fails those that are not listed.

Each test has a page and a list of its own in a temporary folder.
"""

import json
import re
import shutil
import subprocess
import sys
import unittest
from typing import Any

from runners import FOLDER
from testing import new_folder


class Commands(unittest.TestCase):
    """The check over a page."""

    def setUp(self) -> None:
        self.folder = new_folder(self)
        (self.folder / "conformance").mkdir()

    def run_check(self, page: str, *listed: dict[str, Any]) -> tuple[int, str]:
        """How the check ends on a page, and what it prints."""
        (self.folder / "page.md").write_text(page)
        text = json.dumps({"page.md": list(listed)})
        (self.folder / "conformance/commands.json").write_text(text)
        command = [sys.executable, str(FOLDER / "commands"), str(self.folder)]
        ended = subprocess.run(command, capture_output=True, text=True, check=False)
        return ended.returncode, ended.stdout + ended.stderr

    def fails(self, told: str, page: str, *listed: dict[str, Any]) -> None:
        """The check fails, and says why."""
        status, printed = self.run_check(page, *listed)
        self.assertEqual(status, 1)
        self.assertIn(told, printed)

    def test_a_block_is_run(self) -> None:
        page = "```sh\nqaudit check my.trace\n```\n\n```c\nint x;\n```\n"
        listed = {"begins": "qaudit", "status": 1, "prints": "^refused line 12 V7"}
        self.assertEqual(self.run_check(page, listed), (0, "1 passed, 0 failed\n"))
        self.fails("the exit status is 1 and not 0", page, {"begins": "qaudit"})
        self.fails("it does not print 'V8'", page, {**listed, "prints": "V8"})

    def test_what_is_not_listed(self) -> None:
        self.fails("page.md: true: is not in", "```\ntrue\n```\n")
        self.fails("false: is in conformance/commands.json, and not", "", {"begins": "false"})

    def test_a_command_with_its_output(self) -> None:
        self.assertEqual(self.run_check("```\n$ echo a\na\n```\n")[0], 0)
        self.fails("it prints 'a\\n'", "```\n$ echo a\nb\n```\n")

    def test_what_is_not_run(self) -> None:
        page = "```\nfalse\n```\n"
        self.assertEqual(self.run_check(page, {"begins": "false", "why_not": "it fails"})[0], 0)
        status, printed = self.run_check(
            page + "```\ntrue\n```\n", {"begins": "false", "needs": ["/none"]}, {"begins": "true"}
        )
        self.assertEqual((status, printed.splitlines()[-1]), (0, "1 passed, 0 failed"))
        self.assertIn("left out page.md: false: /none is not installed", printed)

    def test_lines_before_and_lines_that_are_left_out(self) -> None:
        page = "```\nfalse\ncat file\n```\n"
        listed = {"begins": "false", "before": "echo here > file", "leave_out": ["false"]}
        self.assertEqual(self.run_check(page, {**listed, "prints": "here"})[0], 0)
        self.fails("the exit status is 1", page, {"begins": "false", "before": "touch file"})
        page = "```\nfalse\ntrue\n```\n"
        self.assertEqual(self.run_check(page, {"begins": "false", "goes_on": True})[0], 0)

    def test_the_programs_of_the_pages(self) -> None:
        page = (
            "```\nqaudit-why --quiet --all traces/quinn_ngtcp2_loss.trace | grep -c 'late timers'\n"
            "qlog-to-trace client.qlog | qaudit-why --json | grep -c accepted\n"
            "zcat connection.trace.gz | qaudit check | head -n 1\n```\n"
        )
        listed = {"begins": "qaudit-why", "prints": "^1\n1\naccepted\n$"}
        self.assertEqual(self.run_check(page, listed)[0], 0)


class Examples(unittest.TestCase):
    """The examples of docs/embedding.md that need no library to be checked."""

    def setUp(self) -> None:
        text = (FOLDER.parent / "docs/embedding.md").read_text()
        self.blocks = dict(re.findall(r"^```(\w+)\n(.*?)^```", text, re.MULTILINE | re.DOTALL))

    def test_c_and_c_plus_plus(self) -> None:
        lines = self.blocks["c"].splitlines()
        heads = [it for it in lines if it.startswith("#include")]
        body = [it for it in lines if it not in heads]
        source = ["#include <stdio.h>", *heads, "void f(void);", "void f(void) {", *body, "}"]
        for compiler, language, standard in (("cc", "c", "c11"), ("c++", "c++", "c++20")):
            if shutil.which(compiler) is None:
                continue
            options = [f"-std={standard}", "-fsyntax-only", "-x", language]
            command = [compiler, *options, "-I", str(FOLDER.parent / "include"), "-"]
            text = "\n".join(source) + "\n"
            ended = subprocess.run(command, input=text, capture_output=True, text=True, check=False)
            self.assertEqual((ended.returncode, ended.stderr), (0, ""))

    def test_python(self) -> None:
        compile(self.blocks["python"], "docs/embedding.md", "exec")


if __name__ == "__main__":
    unittest.main()
