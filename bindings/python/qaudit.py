"""An auditor of QUIC loss recovery (RFC 9002), fed while a sender runs.

    from qaudit import Auditor, Header, Progress

    with Auditor(Header(role="server", max_datagram_size=1200)) as auditor:
        for number in range(11):
            if auditor.sent(number, "app", number, 1200) is not Progress.OPEN:
                break
        print(auditor.first_line())    # refused line 12 V7 past-window

With `recorded=True` the auditor keeps the text of what it is handed, and says why: `why`, `around`
and `allowed`.

It loads `libqaudit.so`, which `make lib` makes of `libqaudit.a`: the one that QAUDIT_LIB names, or
else that in `bin/` of the repository or `lib/` of a release, or else one that the system finds.
"""

import ctypes
import os
import threading
from collections.abc import Iterable
from ctypes import (
    POINTER,
    Structure,
    byref,
    c_bool,
    c_size_t,
    c_uint8,
    c_uint16,
    c_uint32,
    c_uint64,
    c_void_p,
)
from dataclasses import dataclass
from enum import IntEnum
from pathlib import Path
from types import TracebackType
from typing import Any

SPACES = {"initial": 0, "handshake": 1, "app": 2}
LEAVES = {"window": 0, "probe": 1, "recovery": 2}
TIMERS = {"loss": 0, "pto": 1}
ROLES = {"client": 0, "server": 1}
UNITS = {"us": 0, "ns": 1}
WINDOWS = {"newreno": 0, "reported": 1}
LOSSES = {"must": 0, "may": 1}
COUNTS = {"numbers": 0, "packets": 1}
METRICS = (
    "window",
    "ssthresh",
    "bytes_in_flight",
    "latest_rtt",
    "min_rtt",
    "smoothed_rtt",
    "rttvar",
)
TOTALS = (
    "events",
    "window",
    "ssthresh",
    "bytes_in_flight",
    "latest_rtt",
    "min_rtt",
    "smoothed_rtt",
    "rttvar",
    "pto_count",
    "owed",
)
ROOM = 4096
MOST_ALLOWED = 14


class Progress(IntEnum):
    """How far an audit is."""

    OPEN = 0
    FIXED = 1
    FINISHED = 2


class QauditError(Exception):
    """Why nothing was taken."""


ERRORS = {
    3: "out of memory",
    4: "the auditor is closed",
    5: "a value is outside its range",
    6: "no memory for the ranges",
    7: "the bytes that were fed end inside a line",
}


@dataclass(frozen=True)
class Header:
    """What holds of the whole connection. A value of None is the default of the trace format."""

    role: str
    max_datagram_size: int
    unit: str = "us"
    max_ack_delay: int | None = None
    initial_rtt: int | None = None
    initial_window: int | None = None
    timer_late_us: int | None = None
    timer_early_us: int = 0
    report_slack_us: int = 0
    report_slack_bytes: int = 0
    packet_threshold: int | None = None
    window: str = "newreno"
    loss_by_number: str = "must"
    refresh_min_rtt: bool = False
    window_overshoot: bool = False
    sample_eliciting_only: bool = False
    threshold_counts: str = "numbers"
    reset_rtt: bool = False
    latest_rtt_less_delay: bool = False
    time_threshold_eighths: int | None = None
    recovery_by_order: bool = False


@dataclass(frozen=True)
class Verdict:
    """What is said of what was handed in: `accepted`, `refused` or `unreadable`, and the line, the
    number and the name of the rule or the fault, and the key or the value that it is about."""

    kind: str
    line: int
    code: int
    name: str
    subject: str
    totals: dict[str, int | None] | None


@dataclass(frozen=True)
class Allowance:
    """What the header of an accepted trace allowed past a rule: the number of the rule and its
    name, at V16 the reported value, the key of the header that allows it, how many events went past
    the rule and on which lines, how far at most, and how far the header allows it if it sets a
    limit."""

    rule: int
    name: str
    subject: str
    key: str
    count: int
    first: int
    last: int
    greatest: int
    limit: int | None


class _Qaudit(Structure):
    _fields_ = [("at", c_void_p), ("is_open", c_bool)]


class _Header(Structure):
    _fields_ = [
        ("max_datagram_size", c_uint64),
        ("max_ack_delay", c_uint64),
        ("initial_rtt", c_uint64),
        ("initial_window", c_uint64),
        ("timer_late_us", c_uint64),
        ("timer_early_us", c_uint64),
        ("report_slack_us", c_uint64),
        ("report_slack_bytes", c_uint64),
        ("packet_threshold", c_uint64),
        ("time_threshold_eighths", c_uint64),
        ("role", c_uint32),
        ("unit", c_uint32),
        ("window", c_uint32),
        ("loss_by_number", c_uint32),
        ("threshold_counts", c_uint32),
        ("has_max_ack_delay", c_bool),
        ("has_initial_rtt", c_bool),
        ("has_initial_window", c_bool),
        ("has_timer_late_us", c_bool),
        ("has_packet_threshold", c_bool),
        ("has_time_threshold_eighths", c_bool),
        ("refresh_min_rtt", c_bool),
        ("window_overshoot", c_bool),
        ("sample_eliciting_only", c_bool),
        ("reset_rtt", c_bool),
        ("latest_rtt_less_delay", c_bool),
        ("recovery_by_order", c_bool),
    ]


class _Packet(Structure):
    _fields_ = [
        ("time", c_uint64),
        ("number", c_uint64),
        ("size", c_uint64),
        ("space", c_uint32),
        ("leave", c_uint32),
        ("eliciting", c_bool),
        ("in_flight", c_bool),
    ]


class _Range(Structure):
    _fields_ = [("least", c_uint64), ("greatest", c_uint64)]


class _Acknowledgment(Structure):
    _fields_ = [
        ("time", c_uint64),
        ("delay", c_uint64),
        ("space", c_uint32),
        ("app_limited", c_bool),
    ]


class _Timer(Structure):
    _fields_ = [("time", c_uint64), ("kind", c_uint32), ("space", c_uint32)]


class _Metrics(Structure):
    _fields_ = [
        ("time", c_uint64),
        *((name, c_uint64) for name in METRICS),
        *((f"has_{name}", c_bool) for name in METRICS),
    ]


class _Totals(Structure):
    _fields_ = [*((name, c_uint64) for name in TOTALS), ("has_ssthresh", c_bool)]


class _Told(Structure):
    _fields_ = [
        ("kind", c_uint32),
        ("code", c_uint32),
        ("line", c_uint64),
        ("subject", c_uint32),
        ("totals", _Totals),
        ("has_totals", c_bool),
    ]


class _Allowance(Structure):
    _fields_ = [
        *((name, c_uint64) for name in ("count", "first", "last", "greatest", "limit")),
        *((name, c_uint32) for name in ("rule", "subject", "key")),
        ("has_limit", c_bool),
    ]


def _place() -> str:
    """The library that is loaded."""
    if named := os.environ.get("QAUDIT_LIB"):
        return named
    top = Path(__file__).resolve().parent.parent.parent
    near = (top / folder / "libqaudit.so" for folder in ("bin", "lib"))
    return next((str(it) for it in near if it.exists()), "libqaudit.so")


def _loaded() -> ctypes.CDLL:
    """The library, with the types of its functions."""
    library = ctypes.CDLL(_place())
    q, text = POINTER(_Qaudit), POINTER(c_uint8)
    status: dict[str, list[type]] = {
        "open": [q],
        "open_recorded": [q],
        "feed": [q, ctypes.c_char_p, c_size_t],
        "header": [q, POINTER(_Header)],
        "sent": [q, POINTER(_Packet)],
        "ack": [q, POINTER(_Acknowledgment), POINTER(_Range), c_size_t],
        "lost": [q, c_uint64, c_uint32, POINTER(_Range), c_size_t],
        "timer": [q, POINTER(_Timer)],
        "discard": [q, c_uint64, c_uint32],
        "confirmed": [q, c_uint64],
        "keys": [q, c_uint64],
        "metrics": [q, POINTER(_Metrics)],
        "finish": [q],
    }
    texts: dict[str, list[type]] = {
        "report": [q, text, c_size_t],
        "first_line": [q, text, c_size_t],
        "why": [q, text, c_size_t],
        "around": [q, c_uint16, text, c_size_t],
        "allowed": [q, POINTER(_Allowance), c_size_t],
        **{f"{what}_name": [c_uint32, text, c_size_t] for what in ("rule", "fault", "key")},
    }
    for name in (*status, *texts):
        # Of an attribute ctypes keeps the types; of an item it makes a new function each time.
        function = getattr(library, f"qaudit_{name}")
        function.argtypes = status[name] if name in status else texts[name]
        function.restype = c_uint32 if name in status else c_size_t
    library.qaudit_verdict.argtypes = [q, POINTER(_Told)]
    library.qaudit_verdict.restype = c_bool
    library.qaudit_close.argtypes = [q]
    library.qaudit_close.restype = None
    return library


_library = _loaded()


def _number(names: dict[str, int], name: str) -> int:
    """The number of a name."""
    if name not in names:
        raise ValueError(f"{name} is none of {', '.join(names)}")
    return names[name]


def _word(value: int) -> int:
    """An integer that a struct can hold: ctypes would cut a greater one."""
    if not 0 <= value < 2**64:
        raise QauditError(ERRORS[5])
    return value


def _name(what: str, number: int) -> str:
    """The name of a rule, a fault or a key."""
    out = (c_uint8 * ROOM)()
    count = getattr(_library, f"qaudit_{what}_name")(number, out, ROOM)
    return bytes(out[:count]).decode()


class Auditor:
    """An audit that is handed bytes and events. Threads may share it: a call waits for another.

    One that is `recorded` keeps the text of what it is handed: about 100 to 150 bytes per event."""

    def __init__(self, header: Header | None = None, *, recorded: bool = False) -> None:
        # The library has one call at a time, and ctypes lets other threads run meanwhile. A signal
        # may come while the lock is held, and its handler may make a call.
        self._lock = threading.RLock()
        self._q = _Qaudit()
        self._take("open_recorded" if recorded else "open")
        if header is not None:
            self.header(header)

    def _call(self, name: str, *words: object) -> Any:
        """What a function of the library returns, which nobody else calls meanwhile."""
        with self._lock:
            return getattr(_library, f"qaudit_{name}")(byref(self._q), *words)

    def __enter__(self) -> "Auditor":
        return self

    def __exit__(
        self,
        kind: type[BaseException] | None,
        error: BaseException | None,
        trace: TracebackType | None,
    ) -> None:
        self.close()

    def __del__(self) -> None:
        self.close()

    def close(self) -> None:
        """Gives its memory back. A closed one takes nothing."""
        self._call("close")

    def _take(self, name: str, *words: object) -> Progress:
        status = self._call(name, *words)
        if status in ERRORS:
            raise QauditError(ERRORS[status])
        return Progress(status)

    def feed(self, data: bytes) -> Progress:
        """Takes the next bytes of a trace, which may be any part of it."""
        return self._take("feed", data, len(data))

    def header(self, header: Header) -> Progress:
        """Takes a header."""
        raw = _Header(
            max_datagram_size=_word(header.max_datagram_size),
            timer_early_us=_word(header.timer_early_us),
            report_slack_us=_word(header.report_slack_us),
            report_slack_bytes=_word(header.report_slack_bytes),
            role=_number(ROLES, header.role),
            unit=_number(UNITS, header.unit),
            window=_number(WINDOWS, header.window),
            loss_by_number=_number(LOSSES, header.loss_by_number),
            threshold_counts=_number(COUNTS, header.threshold_counts),
            refresh_min_rtt=header.refresh_min_rtt,
            window_overshoot=header.window_overshoot,
            sample_eliciting_only=header.sample_eliciting_only,
            reset_rtt=header.reset_rtt,
            latest_rtt_less_delay=header.latest_rtt_less_delay,
            recovery_by_order=header.recovery_by_order,
        )
        for name in (
            "max_ack_delay",
            "initial_rtt",
            "initial_window",
            "timer_late_us",
            "packet_threshold",
            "time_threshold_eighths",
        ):
            self._give(raw, name, getattr(header, name))
        return self._take("header", byref(raw))

    @staticmethod
    def _give(raw: Structure, name: str, value: int | None) -> None:
        if value is not None:
            setattr(raw, name, _word(value))
            setattr(raw, f"has_{name}", True)

    def sent(
        self,
        time: int,
        space: str,
        number: int,
        size: int,
        *,
        eliciting: bool = True,
        in_flight: bool = True,
        leave: str = "window",
    ) -> Progress:
        """Takes a packet that was sent."""
        raw = _Packet(
            time=_word(time),
            number=_word(number),
            size=_word(size),
            space=_number(SPACES, space),
            leave=_number(LEAVES, leave),
            eliciting=eliciting,
            in_flight=in_flight,
        )
        return self._take("sent", byref(raw))

    def ack(
        self,
        time: int,
        space: str,
        ranges: Iterable[tuple[int, int]],
        *,
        delay: int = 0,
        app_limited: bool = False,
    ) -> Progress:
        """Takes an acknowledgment that came, of ranges in any order."""
        raw = _Acknowledgment(_word(time), _word(delay), _number(SPACES, space), app_limited)
        items = self._ranges(ranges)
        return self._take("ack", byref(raw), items, len(items))

    def lost(self, time: int, space: str, ranges: Iterable[tuple[int, int]]) -> Progress:
        """Takes packets that the sender declared lost."""
        items = self._ranges(ranges)
        number = _number(SPACES, space)
        return self._take("lost", _word(time), number, items, len(items))

    @staticmethod
    def _ranges(ranges: Iterable[tuple[int, int]]) -> "ctypes.Array[_Range]":
        items = [_Range(_word(least), _word(greatest)) for least, greatest in ranges]
        return (_Range * len(items))(*items)

    def timer(self, time: int, kind: str, space: str) -> Progress:
        """Takes a timer that fired."""
        raw = _Timer(_word(time), _number(TIMERS, kind), _number(SPACES, space))
        return self._take("timer", byref(raw))

    def discard(self, time: int, space: str) -> Progress:
        """Takes that the keys of a space were discarded."""
        number = _number(SPACES, space)
        return self._take("discard", _word(time), number)

    def confirmed(self, time: int) -> Progress:
        """Takes that the handshake was confirmed."""
        return self._take("confirmed", _word(time))

    def keys(self, time: int) -> Progress:
        """Takes that the keys of the Handshake space are there."""
        return self._take("keys", _word(time))

    def metrics(self, time: int, **values: int) -> Progress:
        """Takes what the sender reports of itself, by the names in METRICS."""
        raw = _Metrics(time=_word(time))
        for name, value in values.items():
            if name not in METRICS:
                raise ValueError(f"{name} is none of {', '.join(METRICS)}")
            self._give(raw, name, value)
        return self._take("metrics", byref(raw))

    def finish(self) -> Verdict:
        """Says that nothing follows, and returns the verdict."""
        self._take("finish")
        verdict = self.verdict()
        if verdict is None:
            raise QauditError(ERRORS[3])
        return verdict

    def verdict(self) -> Verdict | None:
        """The verdict, where it is known: once it is fixed, and after `finish`."""
        told = _Told()
        if not self._call("verdict", byref(told)):
            return None
        totals: dict[str, int | None] = {name: getattr(told.totals, name) for name in TOTALS}
        if not told.totals.has_ssthresh:
            totals["ssthresh"] = None
        what = {2: "rule", 3: "fault"}.get(told.kind)
        return Verdict(
            kind=("accepted", "refused", "unreadable")[told.kind - 1],
            line=told.line,
            code=told.code,
            name=_name(what, told.code) if what else "",
            subject=_name("key", told.subject),
            totals=totals if told.has_totals else None,
        )

    def report(self) -> str:
        """The report, as `qaudit check` writes it; empty where no verdict is known."""
        return self._text("report")

    def first_line(self) -> str:
        """The first line of the report; empty where no verdict is known."""
        return self._text("first_line").rstrip()

    def why(self) -> str:
        """Why it is refused, as `qaudit-why` writes it; empty if nothing was recorded."""
        return self._text("why")

    def around(self, rows: int) -> str:
        """The same with the state after each of the last `rows` lines before, 65535 at most."""
        if not 0 <= rows < 2**16:
            raise QauditError(ERRORS[5])
        return self._text("around", rows)

    def allowed(self) -> list[Allowance]:
        """What the header allowed, if what was recorded is accepted; empty if nothing."""
        out = (_Allowance * MOST_ALLOWED)()
        count = self._call("allowed", out, MOST_ALLOWED)
        return [
            Allowance(
                rule=it.rule,
                name=_name("rule", it.rule),
                subject=_name("key", it.subject),
                key=_name("key", it.key),
                count=it.count,
                first=it.first,
                last=it.last,
                greatest=it.greatest,
                limit=it.limit if it.has_limit else None,
            )
            for it in out[:count]
        ]

    def _text(self, name: str, *words: object) -> str:
        with self._lock:
            out = (c_uint8 * ROOM)()
            count = self._call(name, *words, out, ROOM)
            if count > ROOM:
                out = (c_uint8 * count)()
                count = self._call(name, *words, out, count)
        return bytes(out[:count]).decode()
