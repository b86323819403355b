"""Standard streams that are closed or full, or that nobody reads, what a file can be, and files
that are compressed."""

import fcntl
import gzip
import lzma
import shutil
import signal
import struct
import subprocess
import sys
import termios
import time
import unittest

from made_netlogs import PROGRAM, TOP, End, netlog, sent

from netlog_to_qlog.command import arguments

sys.path.append(str(TOP / "conformance"))

import converters  # noqa: E402

NETLOG = netlog([it for number in range(10) for it in sent(number, number)]).encode()
SECONDS = 60
EVIL = "\x1b[31m\u202e\U000e0041\u3164"
SHOWN = "\\u{1b}[31m\\u{202e}\\u{e0041}\\u{3164}"


def unread(pipe: int) -> int:
    """How many bytes a pipe holds that nobody has read."""
    return struct.unpack("i", fcntl.ioctl(pipe, termios.FIONREAD, bytes(4)))[0]  # type: ignore


class Streams(converters.Streams):
    """How the command ends, and what it says."""

    program = PROGRAM
    log = NETLOG
    large = '{"constants":[],"events":[]}'
    of_zeros = "no netlog of Chromium"

    def test_an_interrupt_ends_it(self) -> None:
        with subprocess.Popen(
            [sys.executable, str(PROGRAM)],
            stdin=subprocess.PIPE,
            stdout=subprocess.PIPE,
            stderr=subprocess.PIPE,
            # A command in the background of a shell has it ignored.
            preexec_fn=lambda: signal.signal(signal.SIGINT, signal.default_int_handler),
        ) as running:
            assert running.stdin and running.stdout and running.stderr
            running.stdin.write(NETLOG[:100])
            running.stdin.flush()
            # Once it has read that, it waits for more.
            limit = time.monotonic() + SECONDS
            while unread(running.stdin.fileno()) and time.monotonic() < limit:
                time.sleep(0.02)
            running.send_signal(signal.SIGINT)
            self.assertEqual(running.wait(SECONDS), -signal.SIGINT)
            self.assertEqual(running.stderr.read(), b"")

    def test_names_and_arguments_are_shown(self) -> None:
        (self.folder / EVIL).write_bytes(b"")
        for words, status in ((EVIL, 2), (f"none{EVIL}", 3), (f"--{EVIL}", 64)):
            ended = subprocess.run(
                [sys.executable, str(PROGRAM), words],
                cwd=self.folder,
                capture_output=True,
                text=True,
                check=False,
            )
            self.assertEqual(ended.returncode, status)
            self.assertIn(SHOWN, ended.stderr)
            self.assertTrue(ended.stderr.replace("\n", "").isprintable())

    def test_version(self) -> None:
        version = (TOP / "VERSION").read_text().strip()
        self.assertEqual(self.check("--version", 0).decode(), f"netlog-to-qlog {version}\n")


class Compressed(unittest.TestCase):
    """Netlogs that are compressed."""

    def forms(self, data: bytes) -> list[bytes]:
        """The same by each program that is there."""
        packed = [gzip.compress(data), lzma.compress(data)]
        if shutil.which("zstd"):
            made = subprocess.run(["zstd", "-c"], input=data, capture_output=True, check=True)
            packed.append(made.stdout)
        return packed

    def test_they_are_unpacked(self) -> None:
        wanted = End(NETLOG).qlog
        self.assertEqual(wanted.status, 0)
        for data in self.forms(NETLOG):
            found = End(data).qlog
            self.assertEqual((found.status, found.text, found.errors), (0, wanted.text, ""))
            ended = subprocess.run([PROGRAM], input=data, capture_output=True, check=True)
            self.assertEqual(ended.stdout.decode(), wanted.text)

    def refused(self, data: bytes, reason: str) -> None:
        """A file gives no qlog, and one line that says why."""
        found = End(data).qlog
        told = f"netlog-to-qlog: LOG: {reason}\n"
        self.assertEqual((found.status, found.text, found.errors), (2, "", told))

    def test_what_is_broken(self) -> None:
        for data, name in zip(self.forms(NETLOG), ("gzip", "xz", "zstd"), strict=False):
            self.refused(data[:-9], f"broken or not whole, as {name} data")
            self.refused(data[:6] + NETLOG, f"broken or not whole, as {name} data")

    def test_what_it_unpacks_to(self) -> None:
        zeros = bytes(1 << 20)
        why = "unpacked it has more than 67,108,864 bytes: unpack it first"
        for data, says in ((zeros * 64, "no netlog of Chromium"), (zeros * 64 + b" ", why)):
            for packed in (gzip.compress(data), lzma.compress(data)):
                self.refused(packed, says)


class Pages(unittest.TestCase):
    """The manual page and the completions have each option."""

    def test_options(self) -> None:
        converters.check_options(self, arguments())


if __name__ == "__main__":
    unittest.main()
