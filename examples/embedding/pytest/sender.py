"""A small sender. It calls a hook where loss recovery does something."""

from typing import Protocol

SIZE = 1200
WINDOW = 12_000  # bytes that the sender keeps in flight


class Hook(Protocol):
    """What a sender calls."""

    def on_packet_sent(self, time: int, number: int) -> None: ...
    def on_ack_received(self, time: int, first: int, last: int) -> None: ...


class Sender:
    """Sends as much as its window has room for."""

    def __init__(self, hook: Hook) -> None:
        self.hook = hook
        self.time = self.number = self.first_in_flight = 0

    def send_all(self) -> None:
        """Sends packets until the window is full."""
        while (self.number + 1 - self.first_in_flight) * SIZE <= WINDOW:
            self.hook.on_packet_sent(self.time, self.number)
            self.number += 1

    def receive(self, time: int) -> None:
        """All packets are acknowledged."""
        self.time = time
        self.hook.on_ack_received(time, self.first_in_flight, self.number - 1)
        self.first_in_flight = self.number
