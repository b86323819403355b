"""The forms of logs, their times, and what is at their ends."""

import json
import os
import pty
import signal
import subprocess
import tempfile
import unittest
from pathlib import Path

from .made import (
    End,
    Event,
    PROGRAM,
    TOP,
    converted,
    document,
    header,
    metrics,
    received,
    sent,
    sequence,
)


class Forms(unittest.TestCase):
    """The forms of logs, their times, and what is at their ends."""

    EVENTS = [sent(1.5, 0), received(20.25, [[0]], delay=0.5)]

    def test_the_forms_say_the_same(self) -> None:
        expected = converted(self.EVENTS).text
        self.assertIn('"space":"app","time":1500}', expected)
        for text in (
            sequence(header(), self.EVENTS, ""),
            document(header(), self.EVENTS),
            document(header(), self.EVENTS, indent=1),
            sequence(header(), self.EVENTS).replace("\n", "\r\n"),
            sequence(header(), self.EVENTS).replace(", ", ",\n"),
        ):
            self.assertEqual(End(text).text, expected)

    def test_a_document_may_have_its_header_behind_its_events(self) -> None:
        trace = {"events": self.EVENTS, **header()}
        self.assertEqual(End(json.dumps({"traces": [trace]})).text, converted(self.EVENTS).text)

    def test_a_document_of_many_pieces(self) -> None:
        events = [sent(number, number, frames=("stream",) * 20) for number in range(2000)]
        text = document(header(), events)
        self.assertGreater(len(text), 1 << 20)
        self.assertEqual(End(text).text, converted(events).text)

    def test_standard_input(self) -> None:
        log = sequence(header(), self.EVENTS).encode()
        end = subprocess.run([PROGRAM], input=log, capture_output=True, check=True)
        self.assertEqual(end.stdout.decode(), converted(self.EVENTS).text)

    def test_times_are_exact_and_rounded_down(self) -> None:
        times = [it["time"] for it in converted([sent(0.1234569, 0), sent(4.35, 1)]).only("sent")]
        self.assertEqual(times, [123, 4350])

    def test_absolute_and_delta_times(self) -> None:
        late = [sent(1795474052428.5, 0), sent(1795474052430.75, 1)]
        early = [sent(1.5, 0), sent(2, 1)]
        for form, events, times in (
            ("absolute", late, [0, 2250]),
            ("relative_to_epoch", late, [0, 2250]),
            ("delta", early, [1500, 3500]),
            ("relative_to_previous_event", early, [1500, 3500]),
            # The first counts from an epoch, and the others from the one before.
            ("delta", [sent(1795474052428, 0), sent(2, 1)], [0, 2000]),
            ("relative_to_previous_event", [sent(1795474052428, 0), sent(2, 1)], [0, 2000]),
        ):
            found = converted(events, form=form).only("sent")
            self.assertEqual([it["time"] for it in found], times, form)

    def test_a_time_that_goes_back_is_told(self) -> None:
        last = converted([sent(5, 0), sent(4, 1)]).lines[-1]
        self.assertEqual(last["time"], 5000)
        self.assertIn("went back", last["x_guess"][0])

    def test_events_as_lists_in_microseconds(self) -> None:
        head = header() | {
            "event_fields": ["relative_time", "category", "event", "data"],
            "configuration": {"time_units": "us"},
            "common_fields": {},
        }
        events = [[1500, "transport", "packet_sent", sent(0, 0)["data"]]]
        found = End(json.dumps({"traces": [head | {"events": events}]}))
        self.assertEqual(found.only("sent")[0]["time"], 1500)

    def test_names_of_later_drafts(self) -> None:
        events = [sent(0, 0), metrics(0, congestion_window=40000)]
        events[0]["name"], events[1]["name"] = "quic:packet_sent", "quic:recovery_metrics_updated"
        self.assertEqual(converted(events).only("metrics")[0]["window"], 40000)


class Ends(unittest.TestCase):
    """Torn and bad logs: one clear line, and the place."""

    EVENTS = Forms.EVENTS

    def test_a_torn_end_is_told(self) -> None:
        for text, place in (
            (sequence(header(), self.EVENTS)[:-10], "line 3"),
            (sequence(header(), self.EVENTS, "")[:-10], "line 3"),
            (document(header(), self.EVENTS)[:-20], "byte "),
        ):
            end = End(text)
            self.assertEqual((end.status, end.kinds), (0, ["header", "sent"]))
            self.assertRegex(end.errors, f"^qlog-to-trace: LOG: torn off at {place}.*\n$")

    def test_a_log_of_no_events_that_is_torn(self) -> None:
        self.assertEqual(End(sequence(header(), self.EVENTS)[:60]).status, 2)

    def test_bad_logs(self) -> None:
        good = sequence(header(), self.EVENTS)
        middle = good.replace('"time": 1.5', '"time": 1.5}')
        role: Event = {"vantage_point": "client"}
        bad: list[tuple[str | bytes, str]] = [
            ("", "empty"),
            ("hello\n", "byte 0: neither"),
            ("[1]\n", "byte 0: neither"),
            ("{}", "it has no traces"),
            (middle, "line 2: not JSON"),
            (document(header(), self.EVENTS).replace("1.5,", "1.5,,"), "byte [0-9]+: not JSON"),
            (document(header(), self.EVENTS) + "{}", "byte [0-9]+: not JSON"),
            (sequence(header(), [sent("soon", 0)]), "line 2: time is no number"),
            (sequence(header(), [sent(0, None)]), "line 2: packet_sent: no packet_number"),
            (sequence(header(), [sent(0, -1)]), "line 2: packet_sent: packet_number is no whole"),
            (sequence(header(), [sent(0, 0, size=None)]), "line 2: packet_sent: no raw.length"),
            (sequence(header(), [sent(0, 0), received(1, [[5, 4]])]), "line 3: .*range 5 to 4"),
            (sequence(header(), []), "no packet_sent"),
            (sequence(header(role="network"), self.EVENTS), ".*by qlog-to-trace --vantage"),
            (sequence(header(form="sidereal"), self.EVENTS), "time_format is sidereal"),
            (sequence({"common_fields": 5} | role, []), "common_fields is no object"),
            (sequence({"event_fields": 5} | role, []), "event_fields is no list"),
            (sequence({"configuration": {"time_units": []}} | role, []), "time_units is"),
            ('{"qlog_format": "NDJSON", "trace": 5}\n', "trace is no object"),
            (b"\x1e\xff\n" + good.encode(), "line 1: not JSON"),
            (sequence(header(), [sent(0, "1e999999999")]), "line 2: .*: packet_number is no who"),
            (sequence(header(), [sent("1e999999999", 0)]), "line 2: time is a number of too many"),
            (sequence(header(), [sent(0, 10**4000)]), "line 2: .*: packet_number is no whole num"),
            (sequence(header(), [received(1, True), sent(0, 0)]), "line 2: .* is no list"),
        ]
        for text, reason in bad:
            end = End(text)
            self.assertEqual((end.status, end.text), (2, ""), text[-200:])
            self.assertRegex(end.errors, f"^qlog-to-trace: LOG: {reason}.*\n$")

    def test_losses_that_name_no_packets(self) -> None:
        event = {"time": 1, "name": "recovery:packets_lost", "data": {"lost_packets": 2}}
        end = converted([sent(0, 0), event])
        self.assertEqual((end.status, end.text), (2, ""))

    def test_a_trace_that_stops_midway_is_told(self) -> None:
        events = [sent(0, 0), metrics(0, pto_count=0), sent(1, 1), metrics(1, pto_count=99)]
        end = converted(events)
        self.assertEqual((end.status, end.kinds), (2, ["header", "sent"]))
        self.assertRegex(end.errors, "line 4: .*pto_count.*; the trace ends after its line 2\n$")

    def test_traces_that_nobody_could_read_are_not_written(self) -> None:
        many = [[number, number] for number in range(0, 12_000, 2)]
        for event, reason in (
            (sent(10**12 + 1, 1), "it goes on past 1000000000000000 us, the last time of a trace"),
            (received(1, many), "a line of [0-9]+ bytes; a trace has 65536 at most"),
        ):
            end = converted([sent(0, 0), event])
            self.assertEqual(end.status, 2)
            self.assertRegex(end.errors, f"LOG: {reason}; the trace ends after its line 2\n$")

    def test_arguments(self) -> None:
        for words in (
            ["--version", "2", "--unit", "ns"],
            ["--version", "2", "--window", "reported"],
            ["--version", "1", "--slack-us", "1"],
            ["--slack-us", "-1"],
            ["--slack-us", "1000000001"],
            ["--packet-threshold", "2"],
            ["--version", "9"],
            ["--format", "9"],
            ["--format", "2", "--unit", "ns"],
            ["--window", "cubic"],
            ["--window-overshoot", "maybe"],
        ):
            command = [str(PROGRAM), *words, "x"]
            end = subprocess.run(command, capture_output=True, text=True, check=False)
            self.assertEqual((end.returncode, end.stdout), (64, ""))
        end = subprocess.run([PROGRAM, "--help"], capture_output=True, text=True, check=True)
        self.assertIn("--notes", end.stdout)

    def test_the_version_of_the_program_and_of_the_format(self) -> None:
        told = (TOP / "VERSION").read_text().strip()
        end = subprocess.run([PROGRAM, "--version"], capture_output=True, text=True, check=True)
        self.assertEqual(end.stdout, f"qlog-to-trace {told}\n")
        for option in ("--format", "--version"):
            lines = converted([sent(0, 0)], option, "2").lines
            self.assertEqual(lines[0]["version"], 2)
        self.assertEqual(converted([sent(0, 0)]).lines[0]["version"], 3)

    def test_an_interrupt_is_quiet(self) -> None:
        with tempfile.TemporaryDirectory() as folder:
            pipe = Path(folder) / "pipe"
            os.mkfifo(pipe)
            with subprocess.Popen(
                [PROGRAM, pipe],
                stdout=subprocess.PIPE,
                stderr=subprocess.PIPE,
                # A job in the background ignores interrupts, and what it starts does too.
                preexec_fn=lambda: signal.signal(signal.SIGINT, signal.SIG_DFL),
            ) as running, pipe.open("wb") as log:
                # The program has opened the pipe, and waits for the rest of the log.
                log.write(b"{")
                log.flush()
                running.send_signal(signal.SIGINT)
                output, errors = running.communicate(timeout=60)
        self.assertEqual((running.returncode, output, errors), (-signal.SIGINT, b"", b""))

    def test_a_pipe_that_is_named(self) -> None:
        log = sequence(header(), [sent(0, 0)]).encode()
        words = f"{PROGRAM} <(cat)"
        end = subprocess.run(["bash", "-c", words], input=log, capture_output=True, check=True)
        self.assertEqual(end.stdout.count(b"\n"), 2)

    def test_a_terminal_is_told_what_is_read(self) -> None:
        main, other = pty.openpty()
        try:
            os.write(main, b"\x04")
            end = subprocess.run([PROGRAM], stdin=other, capture_output=True, check=False)
        finally:
            os.close(main)
            os.close(other)
        self.assertEqual(end.returncode, 2)
        self.assertTrue(end.stderr.startswith(b"qlog-to-trace: reading standard input\n"))

    def test_a_reader_that_has_gone(self) -> None:
        log = sequence(header(), [sent(number, number) for number in range(2000)]).encode()
        words = f"{PROGRAM} | head -n 1; echo ${{PIPESTATUS[0]}}"
        end = subprocess.run(["bash", "-c", words], input=log, capture_output=True, check=True)
        self.assertEqual(end.stderr, b"")
        self.assertTrue(end.stdout.endswith(b"}\n3\n"))

    def test_a_file_that_is_not_there(self) -> None:
        end = subprocess.run([PROGRAM, "/none"], capture_output=True, text=True, check=False)
        self.assertEqual(end.returncode, 3)
        self.assertEqual(end.stderr, "qlog-to-trace: cannot open /none: no such file\n")
