"""What the commands read and say of it: compressed traces, a terminal, paths, their version."""

import gzip
import lzma
import os
import pty
import resource
import shutil
import subprocess
import sys
import tempfile
import unittest
import zipapp
import zlib
from pathlib import Path

from tests.made import HEADER, NO_LIBRARY, PAGE, PROGRAM, PROJECT, InFolder, Page, joined, sent

from qaudit_page import files
from qaudit_page.failure import Failure, Status

VERSION = (PROJECT / "VERSION").read_text().strip()
TRACE = joined(HEADER, *(sent(number) for number in range(10)))
PACKED = {"trace.gz": gzip.compress(TRACE), "trace.xz": lzma.compress(TRACE)}
NO_ZSTD = "" if shutil.which("zstd") else "zstd is not installed"
MANY = 100_000
# How the format writes it, but for a byte.
FOUR_GIBIBYTES = 40


def zstd(data: bytes) -> bytes:
    """Data as the program zstd compresses it."""
    command = ["zstd", "--quiet", "--stdout"]
    return subprocess.run(command, input=data, capture_output=True, check=True).stdout


class Compressed(InFolder):
    """Files that are compressed."""

    def failure(self, path: Path) -> Failure:
        """Why a file is not read."""
        with self.assertRaises(Failure) as raised:
            files.read(path)
        return raised.exception

    def test_forms(self) -> None:
        for name, data in PACKED.items():
            self.assertEqual(files.read(self.file(name, data)), TRACE)
            # The bytes count, and not the name.
            self.assertEqual(files.read(self.file("plain.trace", data)), TRACE)
            self.assertEqual(files.read(self.file("two", data + data)), TRACE + TRACE)
        self.assertEqual(files.read(self.file("plain.trace.gz", TRACE)), TRACE)

    @unittest.skipIf(NO_ZSTD, NO_ZSTD)
    def test_zstd(self) -> None:
        data = zstd(TRACE)
        self.assertEqual(files.read(self.file("trace.zst", data)), TRACE)
        failure = self.failure(self.file("part.zst", data[:-4]))
        wanted = f"{self.folder}/part.zst: broken or not whole, as zstd data"
        self.assertEqual(str(failure), wanted)

    def test_zstd_without_its_program(self) -> None:
        path = self.file("trace.zst", b"\x28\xb5\x2f\xfd")
        before = os.environ["PATH"]
        self.addCleanup(os.environ.update, {"PATH": before})
        os.environ["PATH"] = "/nowhere"
        failure = self.failure(path)
        self.assertEqual(failure.status, Status.FAULT)
        self.assertIn("which needs the program zstd: install it", str(failure))

    def test_what_is_broken(self) -> None:
        for name, data in PACKED.items():
            middle = len(data) // 2
            for part in (data[:-4], data[:middle], data[:8] + b"\xff" * 8 + data[16:]):
                failure = self.failure(self.file(name, part))
                self.assertEqual(failure.status, Status.UNSHOWN)
                self.assertIn(f"{self.folder}/{name}: broken or not whole", str(failure))

    def test_no_more_is_unpacked_than_is_taken(self) -> None:
        zeros = bytes(MANY)
        forms = [gzip.compress(zeros), lzma.compress(zeros)]
        forms += [] if NO_ZSTD else [zstd(zeros)]
        for data in forms:
            with self.file("zeros", data).open("rb") as file:
                self.assertEqual(len(files.beginning(file, "zeros", 100)), 100)

    def test_what_takes_too_much_memory(self) -> None:
        """A dictionary of xz may be larger than memory."""
        data = bytearray(lzma.compress(b"\n"))
        # The head of the only block: 12 bytes, of which the fifth is the size of the dictionary,
        # and the last four are the checksum of the others.
        data[16] = FOUR_GIBIBYTES
        data[20:24] = zlib.crc32(data[12:20]).to_bytes(4, "little")
        path = self.file("trace.xz", bytes(data))
        text = "import sys; from pathlib import Path; from qaudit_page import failure, files\n"
        text += "try: files.read(Path(sys.argv[1]))\n"
        text += "except failure.Failure as fault: print(fault)"
        limit = 2**31

        def limited() -> None:
            resource.setrlimit(resource.RLIMIT_AS, (limit, limit))

        ended = subprocess.run(
            [sys.executable, "-c", text, path],
            cwd=PAGE,
            preexec_fn=limited,
            capture_output=True,
            text=True,
            check=False,
        )
        wanted = f"{path}: it takes more memory than there is, as xz data\n"
        self.assertEqual((ended.stdout, ended.stderr), (wanted, ""))


@unittest.skipIf(NO_LIBRARY, NO_LIBRARY)
class Commands(InFolder):
    """The commands."""

    def test_pages_of_compressed_traces(self) -> None:
        for name, data in PACKED.items():
            trace = self.folder / name
            trace.write_bytes(data)
            ways: list[tuple[list[Path], bytes]] = [([trace], b""), ([], data)]
            for words, given in ways:
                command = [sys.executable, PAGE / "qaudit-page", "--program", PROGRAM, *words]
                ended = subprocess.run(
                    list(map(str, command)), input=given, capture_output=True, check=False
                )
                self.assertEqual((ended.returncode, ended.stderr), (0, b""))
                page = Page(ended.stdout.decode())
                self.assertEqual(page.lines(), TRACE.decode().splitlines())
                self.assertEqual(page.by_id["h1"], name if words else "standard input")

    def test_a_terminal_is_told_what_is_awaited(self) -> None:
        main, other = pty.openpty()
        command = [sys.executable, PAGE / "qaudit-page", "--program", PROGRAM]
        with subprocess.Popen(
            list(map(str, command)), stdin=other, stdout=subprocess.DEVNULL, stderr=subprocess.PIPE
        ) as running:
            assert running.stderr is not None
            self.assertEqual(running.stderr.readline(), b"qaudit-page: reading standard input\n")
            os.write(main, HEADER.encode() + b"\n\x04")
            self.assertEqual(running.wait(60), 0)
            self.assertEqual(running.stderr.read(), b"")
        os.close(main)
        os.close(other)

    def test_standard_input_that_is_closed(self) -> None:
        command = f"'{sys.executable}' '{PAGE}/qaudit-page' --program '{PROGRAM}' <&-"
        ended = subprocess.run(["sh", "-c", command], capture_output=True, text=True, check=False)
        self.assertEqual(ended.returncode, 3)
        wanted = "qaudit-page: cannot read standard input: bad file descriptor\n"
        self.assertEqual(ended.stderr, wanted)

    def test_a_folder_is_no_trace(self) -> None:
        command = [sys.executable, PAGE / "qaudit-page", "--program", PROGRAM, self.folder]
        ended = subprocess.run(
            list(map(str, command)), capture_output=True, text=True, check=False
        )
        wanted = f"qaudit-page: cannot open {self.folder}: is a directory\n"
        self.assertEqual((ended.returncode, ended.stderr), (3, wanted))


class Sizes(unittest.TestCase):
    """What is more than a page takes."""

    def setUp(self) -> None:
        folder = Path(self.enterContext(tempfile.TemporaryDirectory()))
        self.trace = folder / "a.trace"

    def failure(self) -> str:
        """Why it is not read for a page; it is read for an audit."""
        self.assertTrue(files.read(self.trace))
        with self.assertRaises(Failure) as raised:
            files.read(self.trace, is_shown=True)
        self.assertEqual(raised.exception.status, Status.UNSHOWN)
        return str(raised.exception)

    def test_lines(self) -> None:
        self.trace.write_bytes(b"\n" * files.MAX_LINES)
        self.assertEqual(len(files.read(self.trace, is_shown=True)), files.MAX_LINES)
        # Also where they take a few bytes.
        self.trace.write_bytes(gzip.compress(b"\n" * (files.MAX_LINES + 1)))
        wanted = f"{self.trace} has more than 2,000,000 lines: cut it into parts"
        self.assertEqual(self.failure(), wanted)

    def test_bytes(self) -> None:
        with self.trace.open("wb") as file:
            file.truncate(files.MAX_SHOWN + 1)
        wanted = f"{self.trace} has more than 268,435,456 bytes: cut it into parts"
        self.assertEqual(self.failure(), wanted)


class Pipes(unittest.TestCase):
    """What is read from a pipe, which can be read only once."""

    def setUp(self) -> None:
        reading, self.writing = os.pipe()
        self.file = os.fdopen(reading, "rb")
        self.addCleanup(self.file.close)

    def test_it_is_copied(self) -> None:
        os.write(self.writing, TRACE)
        os.close(self.writing)
        with files.copy_of(self.file, "a pipe") as copy:
            self.assertEqual(copy.read(), TRACE)
            self.assertEqual(copy.seek(0), 0)

    def test_one_with_more_than_is_taken(self) -> None:
        self.addCleanup(setattr, files, "MAX_INPUT", files.MAX_INPUT)
        files.MAX_INPUT = len(TRACE) - 1
        os.write(self.writing, TRACE)
        os.close(self.writing)
        with self.assertRaises(Failure) as raised:
            files.copy_of(self.file, "a pipe")
        self.assertEqual(raised.exception.status, Status.UNSHOWN)
        self.assertRegex(str(raised.exception), "^a pipe has more than [0-9,]+ bytes, too many for")

    def test_one_that_would_have_a_reader_wait(self) -> None:
        os.set_blocking(self.file.fileno(), False)
        with self.assertRaises(BlockingIOError):
            files.copy_of(self.file, "a pipe")
        os.close(self.writing)


@unittest.skipIf(NO_LIBRARY, NO_LIBRARY)
class Streams(InFolder):
    """Standard streams that are closed or full, or that nobody reads."""

    def setUp(self) -> None:
        super().setUp()
        (self.folder / "a.trace").write_bytes(TRACE)

    def check(self, name: str, words: str, status: int, says: str = "") -> bytes:
        """A command of a shell ends with this status and this line; what it writes."""
        options = "" if words.startswith("--") else f"--program '{PROGRAM}' "
        ended = subprocess.run(
            ["bash", "-c", f"exec '{sys.executable}' '{PAGE}/{name}' {options}{words}"],
            cwd=self.folder,
            stdin=subprocess.DEVNULL,
            capture_output=True,
            check=False,
        )
        told = f"{name}: {says}\n".encode() if says else b""
        self.assertEqual((ended.returncode, ended.stderr), (status, told), words)
        return ended.stdout

    def test_output(self) -> None:
        for name in ("qaudit-page", "qaudit-matrix"):
            for words in ("a.trace", "--help", "--version"):
                for to, why in (
                    ("/dev/full", "no space left on device"),
                    ("&-", "bad file descriptor"),
                    (">(exec true; sleep 9)", "broken pipe"),
                ):
                    says = f"cannot write standard output: {why}"
                    self.check(name, f"{words} > {to}".replace("> &", ">&"), 3, says)

    def test_errors(self) -> None:
        for name in ("qaudit-page", "qaudit-matrix"):
            output = self.check(name, "a.trace", 0)
            for errors in ("2> /dev/full", "2>&-", "2> >(exec true; sleep 9)"):
                self.assertEqual(self.check(name, f"a.trace {errors}", 0), output)
                self.check(name, f"none.trace {errors}", 3)
                self.check(name, f"--none {errors}", 64)
                self.check(name, f"a.trace > /dev/full {errors}", 3)

    def test_none_at_all(self) -> None:
        for name in ("qaudit-page", "qaudit-matrix"):
            output = self.check(name, "a.trace", 0)
            self.check(name, "a.trace --output a.html <&- >&- 2>&-", 0)
            self.assertEqual((self.folder / "a.html").read_bytes(), output)


class Versions(unittest.TestCase):
    """The version of the commands."""

    def said_by(self, command: Path) -> str:
        """What a command says with --version."""
        words = [sys.executable, str(command), "--version"]
        ended = subprocess.run(words, capture_output=True, text=True, cwd="/", check=False)
        self.assertEqual((ended.returncode, ended.stderr), (0, ""))
        return ended.stdout

    def test_in_the_repository(self) -> None:
        for name in ("qaudit-page", "qaudit-matrix"):
            self.assertEqual(self.said_by(PAGE / name), f"{name} {VERSION}\n")

    def test_in_an_archive(self) -> None:
        """As release/pack makes it."""
        folder = Path(self.enterContext(tempfile.TemporaryDirectory()))
        shutil.copytree(PAGE / "qaudit_page", folder / "modules" / "qaudit_page")
        shutil.copytree(PROJECT / "netlog/netlog_to_qlog", folder / "modules/netlog_to_qlog")
        (folder / "modules" / "qaudit_page" / "VERSION").write_text("1.2.3\n")
        target = folder / "qaudit-page"
        zipapp.create_archive(folder / "modules", target, main="qaudit_page.command:program")
        self.assertEqual(self.said_by(target), "qaudit-page 1.2.3\n")


if __name__ == "__main__":
    unittest.main()
