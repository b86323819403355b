#!/usr/bin/env python3
"""Example logger for a sender in Python. Run it to print a short trace.

Times and durations are in whole microseconds from the start of the connection.
"""

import json
import sys
from typing import Any, TextIO

Ranges = list[tuple[int, int]]


def text_of(line: dict[str, Any]) -> str:
    """A line without white space, which is read quickest."""
    return json.dumps(line, separators=(",", ":"))


class Logger:
    """Keeps the lines of a connection until it ends, since the header may be known late."""

    def __init__(self, role: str, max_datagram_size: int) -> None:
        # `max_ack_delay` and others of the header may be set until the end.
        self.header: dict[str, Any] = {"version": 1, "role": role}
        self.header["max_datagram_size"] = max_datagram_size
        self.lines: list[str] = []

    def _event(self, event: str, time: int, **keys: Any) -> None:
        self.lines.append(text_of({"event": event, "time": time, **keys}))

    def sent(self, time: int, space: str, number: int, size: int, **keys: Any) -> None:
        """OnPacketSent (A.5), with `eliciting`, `in_flight`, and `leave` where it is a probe."""
        self._event("sent", time, space=space, number=number, size=size, **keys)

    def ack(self, time: int, space: str, ranges: Ranges, delay: int, limited: bool = False) -> None:
        """OnAckReceived (A.7), before anything is done about it."""
        self._event("ack", time, space=space, ranges=ranges, delay=delay, limited=limited)

    def lost(self, time: int, space: str, numbers: list[int]) -> None:
        """OnPacketsLost (B.8), right behind the `ack` or the `timer` that showed the loss."""
        self._event("lost", time, space=space, ranges=[(it, it) for it in numbers])

    def timer(self, time: int, kind: str, space: str) -> None:
        """OnLossDetectionTimeout (A.9): kind `loss` or `pto`."""
        self._event("timer", time, kind=kind, space=space)

    def discard(self, time: int, space: str) -> None:
        """OnPacketNumberSpaceDiscarded (A.11): `initial` or `handshake`."""
        self._event("discard", time, space=space)

    def handshake(self, time: int, event: str) -> None:
        """`keys` where Handshake keys come, `confirmed` where the handshake is confirmed."""
        self._event(event, time)

    def metrics(self, time: int, **values: int) -> None:
        """Your own `window`, `bytes_in_flight`, `smoothed_rtt` and others, which are compared."""
        self._event("metrics", time, **values)

    def write(self, file: TextIO) -> None:
        """Writes the trace, at the end of the connection."""
        header = text_of({"event": "header", **self.header})
        file.write("".join(f"{line}\n" for line in [header, *self.lines]))


if __name__ == "__main__":
    logger = Logger("server", 1200)
    for packet in range(4):
        logger.sent(packet * 100, "app", packet, 1200, eliciting=True, in_flight=True)
    logger.ack(100_000, "app", [(3, 3)], 0)
    logger.lost(100_000, "app", [0])
    logger.metrics(100_000, window=6000, bytes_in_flight=2400, latest_rtt=99_700)
    logger.header["max_ack_delay"] = 25_000
    logger.write(sys.stdout)
