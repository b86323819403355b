#!/usr/bin/env python3
"""Tests of examples/delay.py."""

import socket
import subprocess
import sys
import time
import unittest
from itertools import pairwise
from pathlib import Path

from test_upload import free_port

DELAY = Path(__file__).resolve().parents[1] / "examples" / "delay.py"
sys.path.append(str(DELAY.parent))

from delay import Stop  # noqa: E402

HOST = "127.0.0.1"


class Stops(unittest.TestCase):
    """What is lost."""

    def test_a_span_that_counts_from_the_first_datagram(self) -> None:
        stop = Stop(2, 6)
        times = (100, 101.9, 102, 107.9, 108, 200)
        self.assertEqual([stop.holds(it) for it in times], [False, False, True, True, False, False])

    def test_the_first_datagram(self) -> None:
        stop = Stop(0, 6)
        self.assertEqual([stop.holds(it) for it in (100, 105, 106)], [True, True, False])

    def test_nothing_is_lost_without_it(self) -> None:
        stop = Stop(0, 0)
        self.assertFalse(any(stop.holds(it) for it in (100, 100, 101)))


class Datagrams(unittest.TestCase):
    """What comes through."""

    def start(self, *options: str) -> None:
        """Starts it between a client and a server."""
        port = free_port()
        self.server, self.client = self.open(port + 1), self.open(0)
        self.listens = (HOST, port)
        command = [sys.executable, str(DELAY), str(port), str(port + 1), *options]
        process = subprocess.Popen(command)
        self.addCleanup(process.wait)
        self.addCleanup(process.kill)

    def open(self, port: int) -> socket.socket:
        """A socket."""
        made = socket.socket(type=socket.SOCK_DGRAM)
        self.addCleanup(made.close)
        made.bind((HOST, port))
        made.settimeout(0.02)
        return made

    def came(self, end: float) -> list[float]:
        """When what comes through was sent, of datagrams that the client sends until this time."""
        found = []
        while time.monotonic() < end:
            self.client.sendto(repr(time.monotonic()).encode(), self.listens)
            try:
                found.append(float(self.server.recv(100)))
            except TimeoutError:
                pass
            else:
                time.sleep(0.02)
        return found

    def test_a_delay(self) -> None:
        self.start("60")
        self.assertTrue(self.came(time.monotonic() + 1))
        self.server.settimeout(10)
        self.client.settimeout(10)
        began = time.monotonic()
        self.client.sendto(b"there", self.listens)
        while (read := self.server.recvfrom(100))[0] != b"there":
            pass
        self.server.sendto(b"back", read[1])
        self.assertEqual(self.client.recv(100), b"back")
        self.assertGreaterEqual(time.monotonic() - began, 0.12)

    def test_a_stop(self) -> None:
        self.start("0", "--stop", "0.5", "1")
        found = self.came(time.monotonic() + 3)
        gaps = [later - earlier for earlier, later in pairwise(found)]
        self.assertGreater(max(gaps), 0.9)


if __name__ == "__main__":
    unittest.main()
