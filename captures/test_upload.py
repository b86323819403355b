#!/usr/bin/env python3
"""Tests of examples/upload, with stand-ins for the programs of ngtcp2."""

import os
import socket
import subprocess
import tempfile
import unittest
from pathlib import Path

UPLOAD = Path(__file__).resolve().parents[1] / "examples" / "upload"
# Each notes what it is asked for, as the true ones do.
SERVER = "exec sleep 20"
CLIENT = """for word; do case $word in
    --qlog-file=*) echo log > "${word#*=}" ;;
    --download=*) folder=${word#*=} ;;
esac; done
"""
ANSWERED = 'echo answer > "$folder/index.html"\n'


def free_port() -> int:
    """A UDP port that is free, with the one behind it."""
    for port in range(40_000, 60_000, 2):
        with socket.socket(type=socket.SOCK_DGRAM) as one, socket.socket(
            type=socket.SOCK_DGRAM
        ) as other:
            try:
                one.bind(("127.0.0.1", port))
                other.bind(("127.0.0.1", port + 1))
            except OSError:
                continue
            return port
    raise OSError("no port is free")


class Uploads(unittest.TestCase):
    """How it ends."""

    def setUp(self) -> None:
        folder = tempfile.TemporaryDirectory()
        self.addCleanup(folder.cleanup)
        self.folder = Path(folder.name)
        self.log = self.folder / "client.qlog"
        self.programs = self.folder / "bin"
        self.programs.mkdir()
        self.add("openssl", "exit 0")

    def add(self, name: str, text: str) -> None:
        """A stand-in for a program."""
        path = self.programs / name
        path.write_text(f"#!/bin/sh\n{text}\n")
        path.chmod(0o755)

    def upload(self, port: int, path: str | None = None) -> "subprocess.CompletedProcess[str]":
        """Runs it over two ports."""
        found = path or f"{self.programs}:{os.environ['PATH']}"
        return subprocess.run(
            ["/bin/sh", str(UPLOAD), str(self.log), str(port)],
            capture_output=True,
            text=True,
            timeout=15,
            check=False,
            env={"PATH": found},
        )

    def check_failed(self, ended: "subprocess.CompletedProcess[str]", why: str) -> None:
        """It said why, in a line, and has left no log."""
        wanted = f"upload: {why}; {self.log} is not written\n"
        self.assertEqual((ended.returncode, ended.stdout, ended.stderr), (1, "", wanted))
        self.assertFalse(self.log.exists())

    def test_an_upload(self) -> None:
        self.add("gtlsserver", SERVER)
        self.add("gtlsclient", CLIENT + ANSWERED)
        ended = self.upload(free_port())
        self.assertEqual((ended.returncode, ended.stderr), (0, ""))
        self.assertEqual(self.log.read_text(), "log\n")

    def test_a_program_is_missing(self) -> None:
        (self.programs / "openssl").unlink()
        ended = self.upload(free_port(), str(self.programs))
        self.check_failed(ended, "the program openssl is not installed")

    def test_a_port_is_taken(self) -> None:
        self.add("gtlsserver", SERVER)
        self.add("gtlsclient", CLIENT + ANSWERED)
        for offset in range(2):
            port = free_port()
            with socket.socket(type=socket.SOCK_DGRAM) as taken:
                taken.bind(("127.0.0.1", port + offset))
                ended = self.upload(port)
            why = f"UDP port {port + offset} cannot be opened: [Errno 98] Address already in use"
            self.check_failed(ended, why)

    def test_a_handshake_that_fails(self) -> None:
        self.add("gtlsserver", SERVER)
        self.add("gtlsclient", CLIENT)
        self.check_failed(self.upload(free_port()), "the server has not answered")

    def test_a_server_that_ends(self) -> None:
        self.add("gtlsserver", "echo no key; exit 1")
        self.add("gtlsclient", "exec sleep 20")
        self.check_failed(self.upload(free_port()), "gtlsserver has ended: no key")


if __name__ == "__main__":
    unittest.main()
