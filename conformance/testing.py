"""What the tests of the programs here share."""

import importlib.machinery
import importlib.util
import subprocess
import sys
import tempfile
import unittest
from pathlib import Path
from types import ModuleType
from typing import Any

from runners import FOLDER


def script(path: Path) -> Any:
    """A program as a module, whatever the ending of its name."""
    loader = importlib.machinery.SourceFileLoader(f"{path.stem}_program", str(path))
    spec = importlib.util.spec_from_loader(loader.name, loader)
    assert spec is not None
    module: ModuleType = importlib.util.module_from_spec(spec)
    loader.exec_module(module)
    return module


def new_folder(test: unittest.TestCase) -> Path:
    """A folder that is there for one test."""
    return Path(test.enterContext(tempfile.TemporaryDirectory()))


def write_program(path: Path, body: str) -> None:
    """Writes a program in Python. It starts without what is installed beside Python, for a machine
    may take longer for that than for the rest."""
    path.write_text(f"#!{sys.executable} -IS\n{body}")
    path.chmod(0o755)


class RunnerCase(unittest.TestCase):
    """A runner of a part of the corpus, which begins as a corpus that a right program passes."""

    runner = "run"
    part: tuple[str, ...] = ()
    more: tuple[str, ...] = ()

    def setUp(self) -> None:
        self.corpus = new_folder(self)
        self.program = self.corpus / "program"

    def write_program(self, body: str) -> None:
        """Writes the program that is run."""
        write_program(self.program, body)

    def write_files(self, folder: str, name: str, files: dict[str, bytes | None]) -> None:
        """Writes the files of a case, by their suffixes; one without bytes is not there."""
        (self.corpus / folder).mkdir(exist_ok=True)
        for suffix, data in files.items():
            if data is not None:
                (self.corpus / folder / f"{name}.{suffix}").write_bytes(data)

    def lines(self, status: int) -> list[str]:
        """Runs the runner, which must end with this status, and answers what it printed."""
        runner = [sys.executable, "-S", FOLDER / self.runner]
        command = [*runner, *self.part, self.program, self.corpus, *self.more]
        ended = subprocess.run(list(map(str, command)), capture_output=True, text=True, check=False)
        self.assertEqual(ended.stderr, "")
        self.assertEqual(ended.returncode, status, ended.stdout)
        return ended.stdout.splitlines()

    def assert_passes(self, count: int) -> None:
        """The runner passes with so many cases."""
        self.assertEqual(self.lines(0), [f"{count} passed, 0 failed"])

    def assert_fails(self, *names: str) -> None:
        """The runner fails, and the lines before the last name just these failures."""
        *failures, last = self.lines(1)
        wanted = [f"FAILED {name}" for name in names]
        self.assertEqual([line.split(":")[0] for line in failures], wanted)
        self.assertTrue(last.endswith(f" passed, {len(names)} failed"), last)
