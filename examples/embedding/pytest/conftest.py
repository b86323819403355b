"""An audit inside a test, which fails at the first violation of RFC 9002, with the reason."""

import json
from collections.abc import Iterator
from pathlib import Path
from typing import Any

import pytest
from qaudit import Auditor, Progress


class Audit:
    """Judges what a sender does, and keeps the trace in a file."""

    def __init__(self, path: Path) -> None:
        self.path = path
        self.auditor = Auditor(recorded=True)

    def line(self, event: str, **keys: Any) -> None:
        """Judges a line of the trace, and keeps it."""
        __tracebackhide__ = True
        text = json.dumps({"event": event, **keys}, separators=(",", ":")) + "\n"
        with self.path.open("a") as trace:
            trace.write(text)
        if self.auditor.feed(text.encode()) is not Progress.OPEN:
            self.fail()

    def finish(self) -> None:
        """Losses that were not declared show only at the end."""
        __tracebackhide__ = True
        if self.auditor.finish().kind != "accepted":
            self.fail()

    def fail(self) -> None:
        """Fails the test, with the reason."""
        __tracebackhide__ = True
        pytest.fail(f"{self.auditor.around(3)}the trace is {self.path}")


@pytest.fixture
def audit(tmp_path: Path) -> Iterator[Audit]:
    """The audit of a test, which ends with it."""
    it = Audit(tmp_path / "sender.trace")
    yield it
    it.auditor.close()
