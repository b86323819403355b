"""Small netlogs that tests make, and how they are converted: to a qlog, and that to a trace by the
reference of the converter."""

import contextlib
import io
import json
import sys
import tempfile
from pathlib import Path
from typing import Any

HERE = Path(__file__).resolve().parent
TOP = HERE.parent
PROGRAM = HERE / "netlog-to-qlog"
REFERENCE = TOP / "conformance" / "qlog"
REAL = TOP / "conformance" / "real" / "traces"
sys.path.append(str(REFERENCE))

from netlog_to_qlog.command import main  # noqa: E402
from qlog_to_trace.command import main as convert  # noqa: E402

TYPES = {
    "QUIC_SESSION_PACKET_SENT": 1,
    "QUIC_SESSION_PACKET_LOST": 2,
    "QUIC_SESSION_ACK_FRAME_RECEIVED": 3,
    "QUIC_SESSION_UNAUTHENTICATED_PACKET_HEADER_RECEIVED": 4,
    "QUIC_SESSION_STREAM_FRAME_SENT": 5,
    "QUIC_SESSION_ACK_FRAME_SENT": 6,
    "QUIC_SESSION_PATH_CHALLENGE_FRAME_SENT": 7,
    "QUIC_SESSION_TRANSPORT_PARAMETERS_RECEIVED": 8,
    "QUIC_SESSION_HANDSHAKE_DONE_FRAME_RECEIVED": 9,
    "QUIC_SESSION_CONNECTION_CLOSE_FRAME_SENT": 10,
    "URL_REQUEST_START_JOB": 11,
    "QUIC_SESSION_PACKET_RECEIVED": 12,
    "QUIC_SESSION_CRYPTO_FRAME_SENT": 13,
}
# The moment at which the log begins, in milliseconds.
START = 3_118_714
Event = dict[str, Any]
Line = dict[str, Any]


def event(name: str, time: float, source: int = 20, **params: Any) -> Event:
    """An event of a netlog at a time behind its beginning, in milliseconds."""
    kind = TYPES.get(name) or TYPES[f"QUIC_SESSION_{name}"]
    member: Event = {"type": kind, "time": str(START + int(time)), "phase": 0}
    return member | {"source": {"id": source, "type": 13}, "params": params}


def sent(time: float, number: int, *frames: str, source: int = 20, **params: Any) -> list[Event]:
    """A packet that was sent, behind its frames."""
    named = [event(f"{it}_FRAME_SENT", time, source) for it in frames or ("STREAM",)]
    said: Event = {"encryption_level": "ENCRYPTION_FORWARD_SECURE", "packet_number": number}
    said |= {"size": 1250, "sent_time_us": int((START + time) * 1000), **params}
    return [*named, event("PACKET_SENT", time, source, **said)]


def acked(
    time: float, low: int, high: int, *missing: int, delay: int = 0, source: int = 20
) -> list[Event]:
    """An acknowledgment."""
    form = "IETF_QUIC_SHORT_HEADER_PACKET"
    said: Event = {"smallest_observed": low, "largest_observed": high}
    said |= {"missing_packets": list(missing), "delta_time_largest_observed_us": delay}
    head = event("UNAUTHENTICATED_PACKET_HEADER_RECEIVED", time, source, header_format=form)
    return [head, event("ACK_FRAME_RECEIVED", time, source, **said)]


def lost(time: float, number: int) -> Event:
    """A packet that was declared lost."""
    found = int((START + time) * 1000)
    return event("PACKET_LOST", time, packet_number=number, detection_time_us=found)


def netlog(*events: Event | list[Event]) -> str:
    """A netlog of these events."""
    flat = [it for part in events for it in (part if isinstance(part, list) else [part])]
    return json.dumps({"constants": {"logEventTypes": TYPES}, "events": flat, "polledData": {}})


class Ended:
    """How a command ended on a file: its status, and what it wrote."""

    def __init__(self, command: Any, data: bytes, words: tuple[str, ...] = ()) -> None:
        output, errors = io.StringIO(), io.StringIO()
        with tempfile.NamedTemporaryFile(suffix=".log") as file:
            file.write(data)
            file.flush()
            with contextlib.redirect_stdout(output), contextlib.redirect_stderr(errors):
                self.status = command([*words, file.name])
            self.errors = errors.getvalue().replace(file.name, "LOG")
        self.text = output.getvalue()


class End:
    """How a netlog ends as a qlog, and that as a trace."""

    def __init__(self, text: str | bytes, *words: str) -> None:
        data = text.encode() if isinstance(text, str) else text
        self.qlog = Ended(main, data)
        self.trace = Ended(convert, self.qlog.text.encode(), words)
        self.lines: list[Line] = [json.loads(line) for line in self.trace.text.splitlines()]

    @property
    def records(self) -> list[Event]:
        """What the qlog has after its header."""
        texts = self.qlog.text.split("\x1e")[2:]
        return [json.loads(it) for it in texts if it.endswith("\n")]

    @property
    def kinds(self) -> list[str]:
        """What kinds of lines the trace has."""
        return [line["event"] for line in self.lines]

    def only(self, kind: str) -> list[Line]:
        """The lines of a kind."""
        return [line for line in self.lines if line["event"] == kind]
