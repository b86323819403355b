"""What held a sender back, against traces by hand and against the sender of conformance/."""

import unittest
from collections.abc import Iterable

from tests.made import HEADER, TRACES, Page, acked, joined, made, report_of, seen, sent

from departures import course_of
from rows import first_not_followed, followed
from sender import Event, Sender

from qaudit_page.held import Held, held_after, words
from qaudit_page.timers import late_timers, longest_silences

LIMITED = acked(100, (0, 0)).replace("}", ',"limited":true}')
OVERSHOOT = HEADER.replace('"version":1', '"version":3,"window_overshoot":true')
LATE = HEADER.replace('"version":1', '"version":2,"timer_late_us":1000')
FIRED = '{"event":"timer","time":1100000,"kind":"pto","space":"app"}'
METRICS = '{"event":"metrics","time":100}'
REAL = TRACES.parent / "real" / "traces"
ROOM = "room in the window and nothing sent"
# Longer traces are left out, since here each line is compared with all others.
MOST_BYTES = 100_000
# The timer is due after the initial round-trip time, four times its half, and max_ack_delay.
OVER = 1_100_000 - (333_000 + 4 * 166_500 + 25_000)
CONFIRMED = '{"event":"confirmed","time":0}'


def says(events: Iterable[Event]) -> str:
    """What the first of some events that sends or acknowledges says."""
    for event in events:
        if event["event"] == "sent" and event["in_flight"]:
            return "sent"
        if event["event"] == "ack":
            return "limited" if event.get("limited") else "ack"
    return ""


def wanted(sender: Sender) -> Held:
    """What held a sender back by its own state, without what the log says of it."""
    if sender.owed:
        return Held.LOSS
    if sender.probe_due:
        return Held.PROBE
    room = sender.window - sender.bytes_in_flight
    if room < (1 if sender.settings.may_overshoot else sender.settings.max_datagram_size):
        return Held.WINDOW
    due = sender.deadline()
    if due and (due.kind == "loss" or sender.pto_count):
        return Held.TIMER
    return Held.ROOM


class Corpus(unittest.TestCase):
    """The traces of conformance/, by the second machine."""

    def test_each_line_of_each_trace(self) -> None:
        met = set()
        for path in sorted((*TRACES.glob("*.trace"), *REAL.glob("*.trace"))):
            data, report = path.read_bytes(), report_of(path)
            if len(data) > MOST_BYTES:
                continue
            with self.subTest(path.stem):
                trace, _ = seen(data, report)
                found = held_after(trace)
                last = first_not_followed(data, report, course_of("", data, report))
                self.compare(found, states(data, last))
                met |= set(map(Held, found))
        self.assertEqual(met, set(Held))

    def compare(self, found: bytearray, by_line: list[tuple[Event, Held]]) -> None:
        """Compares what held a sender back after each line that has a row."""
        self.assertEqual(len(found), len(by_line))
        events = [event for event, _ in by_line]
        for row, (_, held) in enumerate(by_line):
            said = (says(reversed(events[: row + 1])), says(events[row + 1 :]))
            is_limited = held < Held.LIMITED and "limited" in said
            self.assertEqual(Held(found[row]), Held.LIMITED if is_limited else held, row)


def states(data: bytes, last: int | None) -> list[tuple[Event, Held]]:
    """Each event with what held the sender back after it, by its state alone."""
    return [(event, wanted(sender)) for _, sender, event in followed(data, last)]


# Of real logs with a stall, a probe timeout or a violation: the line that ended the longest
# silence, and what held the sender back in it.
ANSWERS = {
    "aioquic-crypto-lost": (4, f"{ROOM}, 11,501 B of the window left"),
    "curl-8.14-openssl-stalled": (
        83,
        "waiting for the probe timeout of app after 5 probe timeouts in a row,"
        " 13,478 B of the window left",
    ),
    "neqo-153-latest": (6, f"{ROOM}, 10,016 B of the window left"),
    "ngtcp2-halved": (427, "window full: 7,863 B past it"),
    "ngtcp2-probe-count": (
        7,
        "waiting for the probe timeout of initial after 1 probe timeout in a row,"
        " 12,120 B of the window left",
    ),
    "ngtcp2-reno-loss": (548, "window full: 1,476 B past it"),
    "ngtcp2-stalled": (222, "window full: 7,132 B past it"),
    "openssl-3.5-loss": (
        169,
        "waiting for the probe timeout of app after 1 probe timeout in a row,"
        " 1,191 B of the window left",
    ),
    "openssl-3.6-loss": (186, "window full: 115 B past it"),
    "quic-go-probe": (4, f"{ROOM}, 38,812 B of the window left"),
    "quic-go-past-window": (
        4,
        "application limited, as the log says, 38,812 B of the window left",
    ),
    "quinn-loss": (586, "application limited, as the log says, 22,197 B of the window left"),
    "quinn-validated": (18, "window full: 368 B left, a datagram has 1,232 B"),
}


class Real(unittest.TestCase):
    """What held the sender back in the longest silence of real logs."""

    def test_answers(self) -> None:
        for name, answer in ANSWERS.items():
            with self.subTest(name):
                path = REAL / f"{name}.trace"
                trace, verdict = seen(path.read_bytes(), report_of(path))
                silence = longest_silences(trace, verdict.first_unjudged)[0]
                why = words(trace, held_after(trace)[silence.row], silence.row)
                self.assertEqual((silence.line, why), answer)


class ByHand(unittest.TestCase):
    """Traces whose reasons are known."""

    def reasons(self, *lines: str) -> list[str]:
        """What held the sender back after each line."""
        trace, _ = seen(joined(*lines))
        return [words(trace, code, row) for row, code in enumerate(held_after(trace))]

    def test_room_is_no_more_than_room(self) -> None:
        told = self.reasons(HEADER, sent(0))
        self.assertEqual(told[1], f"{ROOM}, 10,800 B of the window left")

    def test_limited_is_said_by_the_log(self) -> None:
        told = self.reasons(HEADER, sent(0), LIMITED, METRICS, sent(1, 200), acked(300, (1, 1)))
        limited = [it.startswith("application limited, as the log says") for it in told]
        # Before the acknowledgment and after it, up to the next packet.
        self.assertEqual(limited, [False, True, True, True, False, False])

    def test_what_is_not_in_flight_does_not_end_it(self) -> None:
        bare = sent(1, 200).replace('"in_flight":true', '"in_flight":false')
        bare = bare.replace('"eliciting":true', '"eliciting":false')
        told = self.reasons(HEADER, sent(0), LIMITED, bare, sent(2, 300))
        self.assertEqual(["limited" in it for it in told], [False, True, True, True, False])

    def test_a_window_is_full_if_no_datagram_fits(self) -> None:
        full = [sent(n) for n in range(9)]
        told = self.reasons(HEADER, *full, sent(9, size=1))
        self.assertEqual(told[9], f"{ROOM}, 1,200 B of the window left")
        self.assertEqual(told[10], "window full: 1,199 B left, a datagram has 1,200 B")
        told = self.reasons(HEADER, *full, sent(9), sent(10, size=7))
        self.assertEqual(told[10:], ["window full: nothing left", "window full: 7 B past it"])

    def test_a_window_that_may_be_overshot_is_full_when_nothing_is_left(self) -> None:
        told = self.reasons(OVERSHOOT, *(sent(n) for n in range(9)), sent(9, size=1199))
        self.assertEqual(told[10], f"{ROOM}, 1 B of the window left")

    def test_a_probe_is_owed_until_one_is_sent(self) -> None:
        other = sent(0, 1_100_100, space="handshake", more=',"leave":"probe"')
        probe = sent(1, 1_100_200, more=',"leave":"probe"')
        told = self.reasons(HEADER, CONFIRMED, sent(0), FIRED, other, probe)
        owed = [it == "a probe is owed since the last probe timeout" for it in told]
        self.assertEqual(owed, [False, False, False, True, True, False])
        told = self.reasons(HEADER, CONFIRMED, sent(0), FIRED, probe)
        self.assertEqual(
            told[4],
            "waiting for the probe timeout of app after 1 probe timeout in a row,"
            " 9,600 B of the window left",
        )

    def test_what_is_owed_comes_first(self) -> None:
        told = self.reasons(HEADER, *(sent(n) for n in range(10)), acked(9, (3, 9)))
        self.assertEqual(told[11], "a loss is owed: app 0-2 is to be declared lost first")

    def test_the_loss_timer(self) -> None:
        told = self.reasons(HEADER, sent(0), sent(1), acked(100_000, (1, 1)))
        self.assertRegex(told[3], "^waiting for the loss timer of app, [0-9,]+ B of the window")


class Late(unittest.TestCase):
    """How far a stretch goes on past a deadline."""

    def test_the_first_line_that_is_not_judged_may_end_it(self) -> None:
        lines = (LATE, CONFIRMED, sent(0), FIRED)
        trace, verdict = seen(joined(*lines), is_strict=True)
        self.assertEqual(verdict.first_unjudged, 4)
        late = [(it.line, it.amount) for it in late_timers(trace, verdict.first_unjudged)]
        self.assertEqual(late, [(4, OVER)])
        self.assertEqual(list(late_timers(trace)), [])

    def test_the_list_names_what_held_the_sender_back(self) -> None:
        lines = (HEADER, CONFIRMED, *(sent(n) for n in range(10)), acked(90, (9, 9)))
        told = Page(made(joined(*lines))).by_id["silences"]
        self.assertIn("0.09 ms, window full: nothing left, 12,000 B in flight", told)

    def test_a_silence_has_the_row_before_its_end(self) -> None:
        trace, _ = seen(joined(HEADER, sent(0), METRICS, acked(190, (0, 0))))
        self.assertEqual([it.row for it in longest_silences(trace, None)], [2])


if __name__ == "__main__":
    unittest.main()
