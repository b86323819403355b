#!/usr/bin/env python3
"""An example: an auditor hooked into a small sender, and a test that fails at the first violation.

The sender knows its window and nothing else of loss recovery. It tells its hook what it does, in
the lines where a real one would.
"""

import unittest

from qaudit import Auditor, Header, Progress

SIZE = 1200
WINDOW = 12_000


class Hook:
    """What a sender calls. It fails the test at the first call that departs from RFC 9002."""

    def __init__(self) -> None:
        self.auditor = Auditor(Header(role="server", max_datagram_size=SIZE))

    def check(self, progress: Progress) -> None:
        """Fails where the verdict is fixed before the sender has ended."""
        if progress is not Progress.OPEN:
            raise AssertionError(self.auditor.report())

    def on_packet_sent(self, time: int, number: int) -> None:
        """A packet is handed to loss recovery."""
        self.check(self.auditor.sent(time, "app", number, SIZE))

    def on_ack_received(self, time: int, first: int, last: int) -> None:
        """An ACK frame is taken in."""
        self.check(self.auditor.ack(time, "app", [(first, last)]))


class Sender:
    """A small sender, which sends as much as its window has room for."""

    def __init__(self, hook: Hook, window: int) -> None:
        self.hook = hook
        self.window = window
        self.time = 0
        self.number = 0
        self.first_in_flight = 0

    def send_all(self) -> None:
        """Sends packets until the window is full."""
        while (self.number + 1 - self.first_in_flight) * SIZE <= self.window:
            self.hook.on_packet_sent(self.time, self.number)
            self.number += 1

    def receive(self, time: int) -> None:
        """All packets are acknowledged."""
        self.time = time
        self.hook.on_ack_received(time, self.first_in_flight, self.number - 1)
        self.first_in_flight = self.number


class Transfers(unittest.TestCase):
    """What a test run of a sender has."""

    def test_a_transfer(self) -> None:
        sender = Sender(Hook(), WINDOW)
        sender.send_all()
        sender.receive(100_000)
        sender.send_all()

    def test_a_packet_too_many(self) -> None:
        sender = Sender(Hook(), WINDOW + SIZE)
        with self.assertRaisesRegex(AssertionError, "refused line 12 V7 past-window"):
            sender.send_all()


if __name__ == "__main__":
    unittest.main()
