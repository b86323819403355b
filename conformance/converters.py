"""What the tests of the two converters in Python share, of qlogs and of netlogs."""

import argparse
import os
import subprocess
import sys
import tempfile
import unittest
from pathlib import Path

TOP = Path(__file__).resolve().parent.parent
CLOSED = "cannot write standard output: bad file descriptor"
FULL = "cannot write standard output: no space left on device"
SECONDS = 60


class Streams(unittest.TestCase):
    """How a converter ends, and what it says, where standard streams are closed or full, or nobody
    reads them, and where a file is none."""

    program: Path
    # A log that it converts; how one begins whose list, which is put in, takes more memory than
    # there is; and what it says of zeros.
    log: bytes
    large: str
    of_zeros: str

    def setUp(self) -> None:
        self.folder = Path(self.enterContext(tempfile.TemporaryDirectory()))
        (self.folder / "a.log").write_bytes(self.log)

    def check(self, words: str, status: int, says: str = "") -> bytes:
        """A command of a shell ends with this status and this line; what it writes."""
        program = f"exec '{sys.executable}' '{self.program}' "
        ended = subprocess.run(
            ["bash", "-c", program + words],
            cwd=self.folder,
            stdin=subprocess.DEVNULL,
            capture_output=True,
            timeout=SECONDS,
            check=False,
        )
        told = f"{self.program.name}: {says}\n".encode() if says else b""
        self.assertEqual((ended.returncode, ended.stderr), (status, told), words)
        return ended.stdout

    def test_output(self) -> None:
        for words in ("a.log", "--help", "--version"):
            self.check(f"{words} > /dev/full", 3, FULL)
            self.check(f"{words} >&-", 3, CLOSED)
            self.check(f"{words} > >(exec true; sleep 9)", 3)

    def test_errors(self) -> None:
        written = self.check("a.log", 0)
        for errors in ("2> /dev/full", "2>&-"):
            self.assertEqual(self.check(f"a.log {errors}", 0), written)
            self.check(f"none.log {errors}", 3)
            self.check(f"--none {errors}", 64)
            self.check(f"a.log > /dev/full {errors}", 3)

    def test_input(self) -> None:
        self.check("<&-", 3, "standard input: Bad file descriptor")
        self.check("< /dev/null", 2, "standard input: empty")
        written = self.check("a.log", 0)
        self.assertTrue(written)
        self.assertEqual(self.check("< a.log", 0), written)
        self.assertEqual(self.check("< <(cat a.log)", 0), written)

    def test_a_pipe_that_would_block_has_not_ended(self) -> None:
        for data in (self.log, self.log[:100]):
            reading, writing = os.pipe()
            os.write(writing, data)
            os.set_blocking(reading, False)
            with os.fdopen(reading), os.fdopen(writing):
                ended = subprocess.run(
                    [sys.executable, str(self.program)],
                    stdin=reading,
                    capture_output=True,
                    text=True,
                    timeout=SECONDS,
                    check=False,
                )
            told = "standard input: Resource temporarily unavailable"
            wanted = (3, "", f"{self.program.name}: {told}\n")
            self.assertEqual((ended.returncode, ended.stdout, ended.stderr), wanted)

    def test_files_that_are_none(self) -> None:
        self.check("none", 3, "cannot open none: no such file")
        self.check("/", 3, "/: Is a directory")
        self.check("/dev/zero", 2, f"/dev/zero: {self.of_zeros}")
        with (self.folder / "sparse").open("wb") as file:
            file.truncate(1 << 32)
        self.check("sparse", 2, f"sparse: {self.of_zeros}")
        os.mkfifo(self.folder / "fifo")
        with subprocess.Popen(["sh", "-c", "cat a.log > fifo"], cwd=self.folder):
            self.assertEqual(self.check("fifo", 0), self.check("a.log", 0))

    def test_little_memory(self) -> None:
        items = ",".join(["{}"] * 4_000_000)
        (self.folder / "large").write_text(self.large.replace("[]", f"[{items}]", 1))
        program = f"ulimit -v 200000; exec '{sys.executable}' '{self.program}' large"
        ended = subprocess.run(
            ["bash", "-c", program], cwd=self.folder, capture_output=True, text=True, check=False
        )
        wanted = (3, "", f"{self.program.name}: large: out of memory\n")
        self.assertEqual((ended.returncode, ended.stdout, ended.stderr), wanted)


def completions_of(program: str) -> list[Path]:
    """The completions of a program, one for each shell."""
    return sorted((TOP / "release" / "completions").glob(f"*{program}*"))


def check_options(test: unittest.TestCase, parser: argparse.ArgumentParser) -> None:
    """The manual page of a program and its completions have each option."""
    completions = completions_of(parser.prog)
    test.assertEqual(len(completions), 3)
    options = [it for action in parser._actions for it in action.option_strings]
    for path in (TOP / "docs" / f"{parser.prog}.1", *completions):
        text = path.read_text()
        for option in options:
            if option == "-h" or (option == "--help" and path.suffix == ".1"):
                continue
            word = {".1": f"Fl {option[1:]}", ".fish": f"-l {option[2:]} "}.get(path.suffix)
            test.assertIn(word or option, text, path.name)
