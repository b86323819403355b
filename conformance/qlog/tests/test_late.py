"""The limit for late timers, silences that it refuses, and what no limit can judge.

Traces are judged by conformance/sender.py, which shares nothing with the program.
"""

import json
import sys
import unittest

from qlog_to_trace.dialects import TIMER_LATE, TIMER_LATE_UNSEEN

from .made import (
    TOP,
    End,
    Event,
    Line,
    converted,
    header,
    metrics,
    parameters,
    received,
    sent,
    sequence,
)

sys.path.insert(0, str(TOP / "conformance"))

from sender import Sender, report_of  # noqa: E402

REAL = TOP / "conformance" / "real" / "traces"
SEQUENTIAL = "urn:ietf:params:qlog:file:sequential"
PING = ("ping", "padding")
GOOD = "accepted"
LATE = "refused line 3 V18 timer-late"
MICROSECONDS = 1000
# Of times in milliseconds, by which floats may be off.
ROUNDING = 1e-4


def verdict_on(lines: list[Line]) -> str:
    """The verdict of the second machine on a trace."""
    first, *events = lines
    return report_of(first, list(enumerate(events, 2))).partition("\n")[0]


def deadline_of(lines: list[Line]) -> int:
    """For when the timer is set behind the lines of a trace."""
    sender = Sender(lines[0])
    for line in lines[1:]:
        sender.follow(line)
    due = sender.packet_deadline()
    assert due
    return due.time


class Silences(unittest.TestCase):
    """A packet, a silence, and another packet, in each kind of log."""

    def log(self, name: str, schema: str, time: float, *, has_count: bool = True) -> End:
        """A log whose second packet is sent at a time."""
        count = [metrics(0, pto_count=0)] if has_count else []
        events = [sent(0, 0, "initial"), *count, sent(time, 1, "initial", frames=("crypto",))]
        return converted(events, name=name, schema=schema, role="client")

    def test_each_kind_of_log(self) -> None:
        for name, schema, limit in (
            ("quic-go", "draft-02", TIMER_LATE),
            ("quic-go", "0.3", TIMER_LATE),
            ("quic-go", SEQUENTIAL, TIMER_LATE),
            ("ngtcp2", "0.3", TIMER_LATE),
            ("aioquic", "0.3", TIMER_LATE),
            ("OpenSSL/3.5.9 (x)", "0.3", TIMER_LATE_UNSEEN),
            ("neqo-Client", "0.3", TIMER_LATE),
            ("quiche", "0.3", TIMER_LATE),
            ("something", "0.3", TIMER_LATE),
            ("netlog of Chromium", "", TIMER_LATE),
        ):
            lines = self.log(name, schema, 1).lines
            self.assertEqual(lines[0]["timer_late_us"], limit)
            due = deadline_of(lines[:2]) / MICROSECONDS
            most = limit / MICROSECONDS
            for late, verdict in ((0, GOOD), (most, GOOD), (most + 1, LATE), (1_000, LATE)):
                with self.subTest(name=name, schema=schema, late=late):
                    found = self.log(name, schema, due + late).lines
                    self.assertEqual(verdict_on(found), verdict)

    def test_a_log_that_shows_no_probe_timeouts(self) -> None:
        # Of one that does not show, the next one is late by a probe timeout.
        for name in ("something", "ngtcp2"):
            end = self.log(name, "0.3", 1, has_count=False)
            self.assertEqual(end.lines[0]["timer_late_us"], TIMER_LATE_UNSEEN)
            late = self.log(name, "0.3", 999 + 1_000, has_count=False)
            self.assertEqual(verdict_on(late.lines), LATE)
        self.assertIn("no probe timeouts", converted([sent(0, 0)], "--notes", name="x").errors)

    def long_stall(self, count: int, *words: str, part: float = 0) -> End:
        """A log of so many probe timeouts in a row, by a sample that is longer than it says."""
        sample, first = 100.9, 101 + part
        before = [sent(0, 0, "initial"), received(100, [[0]], "initial")]
        probes = [sent(first, 1, "initial"), metrics(101, pto_count=0)]
        time = 101.0
        for number in range(1, count + 1):
            time += 3 * sample * 2 ** (number - 1)
            probe = sent(int(time), number + 1, "initial")
            probes += [probe, metrics(int(time), pto_count=number)]
        return converted([*before, *probes], *words, name="ngtcp2", role="client")

    def test_each_timeout_in_a_row_doubles_what_a_clock_of_milliseconds_is_off(self) -> None:
        for count, limit in ((1, TIMER_LATE), (5, TIMER_LATE), (6, 320_000), (8, 1_280_000)):
            lines = self.long_stall(count).lines
            self.assertEqual(lines[0]["timer_late_us"], limit)
            self.assertEqual(verdict_on(lines), GOOD)
        refused = self.long_stall(8, "--timer-late", str(TIMER_LATE)).lines
        self.assertRegex(verdict_on(refused), "V18 timer-late$")
        self.assertIn("found: whole milliseconds, and 6 ", self.long_stall(6, "--notes").errors)
        # A clock that is finer is not off, and a count has no end.
        finer = self.long_stall(8, part=0.5).lines[0]
        self.assertEqual(finer["timer_late_us"], TIMER_LATE)
        events = [sent(0, 0), metrics(0, pto_count=1 << 60)]
        largest = converted([sent(0, 0), metrics(0, pto_count=32)]).lines[0]["timer_late_us"]
        self.assertEqual(largest, 10_000 << 31)
        self.assertIn("pto_count", converted(events).errors)

    def test_no_real_log_is_refused_for_its_grain(self) -> None:
        for path in sorted(REAL.glob("*.qlog")):
            with self.subTest(path.name):
                log = path.read_bytes()
                without, limited = End(log, "--timer-late", "no"), End(log)
                self.assertEqual(without.lines[1:], limited.lines[1:])
                self.assertEqual(verdict_on(limited.lines), verdict_on(without.lines))
                self.assertIn("timer_late_us", limited.lines[0])


class Stalls(unittest.TestCase):
    """Real logs, in which a sender is silent for its probe timeout and a second."""

    def test_real_logs(self) -> None:
        kinds = set()
        for path in sorted(REAL.glob("*.qlog")):
            lines = End(path.read_bytes()).lines
            place = next(at for at, line in enumerate(lines) if line["event"] == "ack")
            if verdict_on(lines[:place]) != "accepted":
                continue
            microsecond = 1_000 if lines[0].get("unit") == "ns" else 1
            ack, due = lines[place]["time"], deadline_of(lines[:place])
            silence = (due - ack) / microsecond / MICROSECONDS + 1_000
            with self.subTest(path.name):
                log = stalled(path.read_text(), ack / microsecond / MICROSECONDS, silence)
                found = verdict_on(End(log).lines)
                self.assertEqual(found, f"refused line {place + 1} V18 timer-late")
                kinds.add(lines[0]["x_dialect"])
        tried = {"quic-go", "quic-go-0.50", "quic-go-0.59", "ngtcp2", "aioquic", "openssl", "neqo"}
        self.assertEqual(kinds, tried)


def stalled(log: str, start: float, silence: float) -> str:
    """A log in which all is later from a time on, both in milliseconds."""
    records = [json.loads(it.strip("\x1e")) for it in log.split("\n") if it.strip("\x1e")]
    is_whole = "traces" in records[0]
    trace = records[0]["traces"][0] if is_whole else records[0].get("trace", {})
    is_delta = trace.get("common_fields", {}).get("time_format") == "delta"
    events = trace["events"] if is_whole else records[1:]
    time, first, is_later = 0.0, events[0]["time"] if is_whole or is_delta else 0, False
    for event in events:
        time = time + event["time"] if is_delta else event["time"]
        if time - first >= start - ROUNDING and not (is_later and is_delta):
            event["time"] += silence
            is_later = True
    mark = "" if is_whole else "\x1e"
    return "".join(f"{mark}{json.dumps(it)}\n" for it in records)


class Options(unittest.TestCase):
    """What the command line says."""

    def test_a_limit_is_said(self) -> None:
        for words, limit in (
            (("--timer-late", "9"), 9),
            (("--timer-late-us", "8"), 8),
            (("--timer-late", "0"), 0),
            (("--timer-late", "no"), None),
            (("--timer-late", "7", "--format", "2"), 7),
            (("--format", "2"), TIMER_LATE_UNSEEN),
            (("--format", "1"), None),
        ):
            line = converted([sent(0, 0)], *words, name="something").lines[0]
            self.assertEqual(line.get("timer_late_us"), limit, words)

    def test_what_is_no_limit(self) -> None:
        for words in (("none",), ("-1",), (str(10**15 + 1),), ("no", "--format", "1")):
            with self.assertRaises(SystemExit) as ended:
                converted([sent(0, 0)], "--timer-late", *words)
            self.assertEqual(ended.exception.code, 64, words)


class Unvalidated(unittest.TestCase):
    """A server that may not send before the client's address is validated."""

    # The client's first datagram, and three packets, which is as much as it may send.
    FULL = [received(0, kind="initial"), *(sent(1, it, "initial") for it in range(3))]
    TOKEN = {"raw": {"length": 2, "data": "abcd"}}

    def limit(self, *events: Event, **head: str) -> int | None:
        """The limit in the header."""
        end = converted(list(events), **{"name": "quic-go", **head})
        limit: int | None = end.lines[0].get("timer_late_us")
        return limit

    def test_a_silence_is_no_late_timer(self) -> None:
        events = [*self.FULL, received(5_000, [[0, 2]], "initial")]
        end = converted(events, "--notes", name="quic-go")
        self.assertNotIn("timer_late_us", end.lines[0])
        self.assertIn("left out 1: the limit for late timers: the server may not send", end.errors)
        self.assertEqual(verdict_on(end.lines), "accepted")
        # One that the command line says stays.
        said = converted(events, "--timer-late", "9")
        self.assertEqual(said.lines[0]["timer_late_us"], 9)

    def test_the_silence_is_measured_from_the_probe_timeout(self) -> None:
        # quic-go's is 200 milliseconds.
        for time, limit in ((400, TIMER_LATE), (403, None)):
            self.assertEqual(self.limit(*self.FULL, sent(time, 3, "initial")), limit)
        # Others have one of 999, or that of a round-trip time that they say.
        for time, limit in ((1_199, TIMER_LATE), (1_202, None)):
            events = (*self.FULL, metrics(1, pto_count=0), sent(time, 3, "initial"))
            self.assertEqual(self.limit(*events, name="ngtcp2"), limit)
        report = metrics(1, pto_count=0, smoothed_rtt=50)
        for time, limit in ((350, TIMER_LATE), (352, None)):
            events = (*self.FULL, report, sent(time, 3, "initial"))
            self.assertEqual(self.limit(*events, name="ngtcp2"), limit)

    def test_behind_an_acknowledgment(self) -> None:
        acked = received(30, [[0]], "initial")
        full = (*self.FULL, acked, *(sent(31, it, "initial") for it in range(3, 6)))
        for time, limit in ((231, TIMER_LATE), (232, None)):
            self.assertEqual(self.limit(*full, received(time, [[1]], "initial")), limit)

    def test_an_address_that_is_validated(self) -> None:
        late = received(5_000, [[0]], "initial")
        token = received(0, kind="initial")
        token["data"]["header"]["token"] = self.TOKEN
        for validated in (
            [token, *self.FULL[1:]],
            [*self.FULL, received(30, kind="handshake")],
            [*self.FULL, received(30, kind="1RTT")],
            # There is room for a datagram.
            self.FULL[:3],
            # A timer fired.
            [*self.FULL, expired(200), expired(4_900)],
        ):
            self.assertEqual(self.limit(*validated, late), TIMER_LATE)
        # A packet of 0-RTT says nothing, and a client has no such limit.
        early = received(30, kind="0RTT")
        self.assertEqual(self.limit(*self.FULL, early, late), None)
        self.assertEqual(self.limit(*self.FULL, late, role="client"), TIMER_LATE)


def expired(time: float) -> Event:
    """A probe timeout that fired."""
    data = {"event_type": "expired", "timer_type": "pto", "packet_number_space": "initial"}
    return {"time": time, "name": "recovery:loss_timer_updated", "data": data}


class ProbesOfOpenssl(unittest.TestCase):
    """A PING in the handshake is that of a probe."""

    def kinds(self, *events: Event) -> list[str]:
        """The kinds of lines behind the header."""
        head = header(name="OpenSSL/3.6.5 (x)", role="client")
        return End(sequence(head, [parameters(), *events])).kinds[1:]

    def test_a_ping_is_a_probe(self) -> None:
        first = sent(0, 0, "initial")
        ping = sent(999, 1, "initial", frames=("ping", "padding"))
        self.assertEqual(self.kinds(first, ping), ["sent", "timer", "sent"])
        timer = converted([first, ping], name="OpenSSL/3.6", role="client").only("timer")[0]
        self.assertEqual((timer["space"], timer["kind"]), ("initial", "pto"))
        self.assertIn("a PING was sent", timer["x_guess"][0])

    def test_the_count_doubles_the_next_timeout(self) -> None:
        pings = [sent(it, at, "initial", frames=("ping",)) for at, it in ((1, 999), (2, 2997))]
        found = converted([sent(0, 0, "initial"), *pings], name="OpenSSL/3.6", role="client")
        self.assertEqual(found.kinds, ["header", "sent", "timer", "sent", "timer", "sent"])
        self.assertEqual(verdict_on(found.lines), "accepted")

    def test_a_ping_is_no_probe(self) -> None:
        first, ping = sent(0, 0, "initial"), sent(999, 1, "initial", frames=("ping",))
        # As an answer, at once, or where a program may have sent it.
        self.assertEqual(self.kinds(first, received(999, kind="initial"), ping), ["sent", "sent"])
        self.assertEqual(self.kinds(first, sent(0, 1, "initial", frames=("ping",))), ["sent"] * 2)
        self.assertEqual(self.kinds(sent(0, 0), sent(999, 1, frames=("ping",))), ["sent"] * 2)
        # Once something was acknowledged, or where nothing is to be.
        acked = received(20, [[0]], "initial")
        kinds = self.kinds(first, sent(0, 1, "initial"), acked, sent(999, 2, "initial", 1200, PING))
        self.assertEqual(kinds, ["sent", "sent", "ack", "sent"])
        ack = sent(0, 0, "initial", frames=("ack", "padding"))
        self.assertEqual(self.kinds(ack, sent(999, 1, "initial", 1200, PING)), ["sent"] * 2)
        # Other logs show probe timeouts by their count.
        head = {"name": "ngtcp2", "role": "client"}
        self.assertEqual(converted([first, ping], **head).kinds, ["header", "sent", "sent"])
