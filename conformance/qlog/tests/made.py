"""Small logs that tests make, and how the command ends on them."""

import contextlib
import io
import json
import tempfile
from pathlib import Path
from typing import Any

from qlog_to_trace.command import main

HERE = Path(__file__).parent
PROGRAM = HERE.parent / "qlog-to-trace"
FOLDER = HERE.parent
TOP = HERE.parents[2]

Event = dict[str, Any]
Line = dict[str, Any]


def sent(
    time: Any,
    number: Any,
    kind: str = "1RTT",
    size: Any = 1200,
    frames: tuple[str, ...] = ("stream",),
) -> Event:
    """A packet that was sent."""
    header = {"packet_type": kind, "packet_number": number}
    named = [{"frame_type": it} for it in frames]
    data = {"header": header, "raw": {"length": size}, "frames": named}
    return {"time": time, "name": "transport:packet_sent", "data": data}


def received(
    time: Any,
    ranges: Any = None,
    kind: str = "1RTT",
    delay: Any = 0,
    frames: tuple[str, ...] = (),
) -> Event:
    """A packet that came, with an ACK frame if there are ranges."""
    ack = {"frame_type": "ack", "ack_delay": delay, "acked_ranges": ranges}
    named = [ack] * bool(ranges) + [{"frame_type": it} for it in frames]
    data = {"header": {"packet_type": kind, "packet_number": 0}, "frames": named}
    return {"time": time, "name": "transport:packet_received", "data": data}


def lost(time: Any, number: int, kind: str = "1RTT") -> Event:
    """A packet that was declared lost."""
    header = {"packet_type": kind, "packet_number": number}
    return {"time": time, "name": "recovery:packet_lost", "data": {"header": header}}


def metrics(time: Any, **values: Any) -> Event:
    """A report of the sender's state."""
    return {"time": time, "name": "recovery:metrics_updated", "data": values}


def parameters(**values: Any) -> Event:
    """The peer's transport parameters."""
    data = {"owner": "remote", **values}
    return {"time": 0, "name": "transport:parameters_set", "data": data}


def header(
    name: str = "ngtcp2", role: str = "server", form: str = "relative", schema: str = ""
) -> Event:
    """The header of a trace. Logs of quic-go are of 0.29 where no schema is said."""
    said = schema or ("draft-02" if name == "quic-go" else "0.3")
    return {
        "qlog_version": said,
        **({"file_schema": said} if said.startswith("urn:") else {}),
        "vantage_point": {"name": name, "type": role},
        "common_fields": {"time_format": form},
    }


def sequence(head: Event, events: list[Event], mark: str = "\x1e") -> str:
    """A log of a record a line."""
    first = {"qlog_format": "JSON-SEQ", "qlog_version": "0.3", "title": None, "trace": head}
    return "".join(f"{mark}{json.dumps(it)}\n" for it in [first, *events])


def document(head: Event, events: list[Event], **options: Any) -> str:
    """A log that is one object."""
    return json.dumps({"qlog_version": "0.3", "traces": [{**head, "events": events}]}, **options)


class End:
    """How the command ended on a log."""

    def __init__(self, text: str | bytes, *words: str) -> None:
        data = text.encode() if isinstance(text, str) else text
        output, errors = io.StringIO(), io.StringIO()
        with tempfile.NamedTemporaryFile(suffix=".qlog") as file:
            file.write(data)
            file.flush()
            with contextlib.redirect_stdout(output), contextlib.redirect_stderr(errors):
                self.status = main([*words, file.name])
            self.errors = errors.getvalue().replace(file.name, "LOG")
        self.text = output.getvalue()
        self.lines: list[Line] = [json.loads(line) for line in self.text.splitlines()]

    @property
    def kinds(self) -> list[str]:
        """What kinds of lines there are."""
        return [line["event"] for line in self.lines]

    def only(self, kind: str) -> list[Line]:
        """The lines of a kind."""
        return [line for line in self.lines if line["event"] == kind]


def converted(events: list[Event], *words: str, **head: str) -> End:
    """What a sequence of these events gives."""
    return End(sequence(header(**head), events), *words)
