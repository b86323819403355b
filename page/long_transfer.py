#!/usr/bin/env python3
"""Writes a long transfer for the measurements: a trace, and what qaudit-why would say of it.

`long_transfer.py LINES FOLDER` writes LINES lines of a NewReno sender over a bottleneck with drops
to FOLDER/LINES.trace, and its rows and its object beside it. The state is what this generator
keeps, and no more than plausible; it stands for a program that reads rows from the disk.
"""

import json
import random
import sys
from collections import deque
from pathlib import Path
from typing import Any

SIZE = 1200
RATE, DELAY, ROOM, DROPS, REPORTS = 6.0, 12_000, 150_000, 0.00015, 0.15
HEADER = {"event": "header", "version": 1, "role": "server", "max_datagram_size": SIZE}


class Transfer:
    """A sender and its network."""

    def __init__(self, lines: int) -> None:
        self.lines, self.random = lines, random.Random(3)
        self.trace: list[str] = []
        self.rows: list[str] = []
        self.now, self.window, self.flying = 0, 12_000, 0
        self.ssthresh: int | None = None
        self.recovery: int | None = None
        self.latest = self.least = 0
        self.smoothed, self.rttvar = 333_000, 166_500
        self.number, self.greatest, self.busy = 0, -1, 0.0
        self.sent: dict[int, int] = {}
        self.open: deque[int] = deque()
        self.network: deque[tuple[int, int]] = deque()

    def put(self, event: dict[str, Any], owed: list[int] | None = None) -> None:
        """A line, and its row."""
        self.trace.append(json.dumps(event, separators=(",", ":")))
        timeout = self.smoothed + 4 * self.rttvar + 25_000
        due = self.now + timeout if self.flying else None
        state = {
            "events": len(self.rows),
            "window_bytes": self.window,
            "ssthresh_bytes": self.ssthresh,
            "in_flight_bytes": self.flying,
            "latest_rtt_us": self.latest,
            "min_rtt_us": self.least,
            "smoothed_rtt_us": self.smoothed,
            "rttvar_us": self.rttvar,
            "pto_count": 0,
            "owed_space": "app" if owed else None,
            "owed": [[it, it] for it in owed or []],
            "set_kind": "pto" if due else None,
            "set_space": "app" if due else None,
            "deadline_us": due,
        }
        row = {"line": len(self.trace), "event": dict(sorted(event.items())), "state": state}
        self.rows.append(json.dumps(row, separators=(",", ":")))

    def run(self) -> None:
        """The whole transfer."""
        self.put(HEADER)
        self.put({"event": "confirmed", "time": 0})
        while len(self.trace) < self.lines:
            if self.flying + SIZE <= self.window:
                self.send()
            else:
                self.acknowledge()

    def send(self) -> None:
        """A packet."""
        self.now += 5
        self.flying += SIZE
        self.sent[self.number] = self.now
        self.open.append(self.number)
        self.put(
            {
                "event": "sent",
                "time": self.now,
                "space": "app",
                "number": self.number,
                "size": SIZE,
                "eliciting": True,
                "in_flight": True,
                "leave": "window",
            }
        )
        waits = max(0.0, self.busy - self.now) * RATE
        if waits + SIZE <= ROOM and self.random.random() > DROPS:
            self.busy = max(self.busy, self.now) + SIZE / RATE
            self.network.append((int(self.busy) + 2 * DELAY, self.number))
        self.number += 1

    def acknowledge(self) -> None:
        """Two packets are acknowledged, and what lies behind is lost."""
        arrived = [self.network.popleft() for _ in range(min(2, len(self.network)))]
        numbers = sorted(number for _, number in arrived)
        self.now = max(self.now, arrived[-1][0])
        self.greatest = max(self.greatest, numbers[-1])
        self.sample(self.now - self.sent[numbers[-1]])
        for number in numbers:
            del self.sent[number]
        self.flying -= SIZE * len(numbers)
        lost = self.lost()
        self.window += (
            0
            if lost
            else SIZE * len(numbers)
            if self.ssthresh is None
            else (SIZE * SIZE * len(numbers) // self.window)
        )
        ranges = [[it, it] for it in reversed(numbers)]
        self.put({"event": "ack", "time": self.now, "space": "app", "ranges": ranges}, lost)
        if lost:
            self.put(
                {
                    "event": "lost",
                    "time": self.now,
                    "space": "app",
                    "ranges": [[it, it] for it in lost],
                }
            )
        if self.random.random() < REPORTS:
            self.put(
                {
                    "event": "metrics",
                    "time": self.now,
                    "window": self.window,
                    "bytes_in_flight": self.flying,
                    "smoothed_rtt": self.smoothed,
                }
            )

    def sample(self, rtt: int) -> None:
        """A sample of the round-trip time."""
        self.least = min(self.least or rtt, rtt)
        if self.latest:
            self.rttvar = (3 * self.rttvar + abs(self.smoothed - rtt)) // 4
            self.smoothed = (7 * self.smoothed + rtt) // 8
        else:
            self.smoothed, self.rttvar = rtt, rtt // 2
        self.latest = rtt

    def lost(self) -> list[int]:
        """What lies three behind the greatest that is acknowledged."""
        found = []
        while self.open and self.open[0] <= self.greatest - 3:
            number = self.open.popleft()
            if number in self.sent:
                found.append(number)
                del self.sent[number]
        self.flying -= SIZE * len(found)
        if found and (self.recovery is None or self.now - self.recovery > self.smoothed):
            self.recovery, self.ssthresh = self.now, max(2 * SIZE, self.window // 2)
            self.window = self.ssthresh
        return found


def write(lines: int, folder: Path) -> Path:
    """Writes a transfer, and returns its trace."""
    transfer = Transfer(lines)
    transfer.run()
    trace = folder / f"{lines}.trace"
    trace.write_text("".join(f"{line}\n" for line in transfer.trace[:lines]))
    trace.with_suffix(".rows").write_text("".join(f"{row}\n" for row in transfer.rows[:lines]))
    said: dict[str, Any] = {"file": "-", "verdict": "accepted", "events": lines - 1}
    said |= {"departures": []}
    trace.with_suffix(".json").write_text(json.dumps(said) + "\n")
    return trace


if __name__ == "__main__":
    write(int(sys.argv[1]), Path(sys.argv[2]))
