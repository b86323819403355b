"""The banner of a page: green, amber or red, what an accepted verdict rests on, and silences."""

import json
import re
import unittest
from collections.abc import Iterator
from functools import cache
from html import unescape
from pathlib import Path
from typing import NamedTuple

from tests.made import HEADER, TRACES, Page, acked, joined, made, report_of, seen, sent

from allowed import Rest, rest_of
from sender import Deadline, Event, Sender
from why import said_by

from qaudit_page.banner import banner
from qaudit_page.failure import Failure
from qaudit_page.grounds import Basis, basis_of
from qaudit_page.lenient import SPACES
from qaudit_page.page import basis_by, opening_of
from qaudit_page.program import Object, Verdict
from qaudit_page.said import OF_LOSS
from qaudit_page.texts import span
from qaudit_page.timers import Silence, late_timers, longest_silences
from qaudit_page.trace import Trace

REAL = TRACES.parent / "real" / "traces"
FOLLOWED = "In everything that the trace shows, the sender followed RFC 9002."
EVIL = "<img src=x onerror=window.pwned=1>&\u202e"
# The choices that RFC 9002 does not leave to a sender, by docs/format.md.
DEVIATING = {"sample_eliciting_only", "latest_rtt_less_delay"}
# After 80 ms, 20 + 4 * 10 + 20, the probe timeout of a packet that is sent at 0 is over.
TIMED = (
    '{"event":"header","version":1,"role":"server","max_datagram_size":1200,'
    '"max_ack_delay":20000,"initial_rtt":20000}',
    '{"event":"confirmed","time":0}',
    sent(0),
)


def ack(time: int) -> str:
    """The acknowledgment of the first packet."""
    return acked(time, (0, 0))


def accepted() -> Iterator[Path]:
    """The traces that are accepted."""
    for path in sorted([*TRACES.glob("*.trace"), *REAL.glob("*.trace")]):
        if report_of(path).startswith("accepted"):
            yield path


def events_of(data: bytes) -> list[tuple[int, Event]]:
    """The lines of a trace that are not blank, with what they say."""
    lines = enumerate(data.split(b"\n"), 1)
    return [(at, said_by(line)) for at, line in lines if line.strip(b" \t\r")]


class Late(NamedTuple):
    """A late timer by the second machine, as `late_timers` has it."""

    line: int
    amount: int
    timeout: int


def timeout_by(sender: Sender, due: Deadline) -> int:
    """How long a timer runs that packets set (RFC 9002, 6.1.2 and 6.2.1)."""
    if due.kind == "loss":
        return sender.loss_delay
    delay = sender.settings.max_ack_delay if due.space == "app" else 0
    return int((sender.pto_base + delay) * 2**sender.pto_count)


@cache
def lates_of(data: bytes) -> list[Late]:
    """The late timers of an accepted trace by the second machine."""
    (_, header), *events = events_of(data)
    sender = Sender(header)
    rest, found = Rest(header, sender, []), []
    for line, event in events:
        amount, due = rest.late_by(event), sender.packet_deadline()
        if amount and due:
            found.append(Late(line, amount, timeout_by(sender, due)))
        sender.follow(event)
        rest.after(event)
    return found


def is_green(data: bytes) -> bool:
    """Whether the verdict on an accepted trace rests on nothing, as the second machine has it:
    nothing is allowed but late timers of less than their own timeout, nothing is guessed, and no
    choice is against RFC 9002."""
    rest = rest_of(data)
    is_late_only = all(it.what.startswith("V18") for it in rest.allowed)
    are_short = all(it.amount < it.timeout for it in lates_of(data))
    is_left = DEVIATING.isdisjoint(rest.choices())
    return is_late_only and are_short and is_left and not rest.guesses


def silence_by(data: bytes) -> tuple[int, int, int, int, int] | None:
    """The longest silence of an accepted trace by the second machine: the line that ended it, how
    long it was, what was in flight, the timer, and how long it went on past that."""
    (_, header), *events = events_of(data)
    sender = Sender(header)
    found: tuple[int, int, int, int, int] | None = None
    begin, since, flying = 0, 0, 0
    due: Deadline | None = None
    for line, event in events:
        time = event["time"]
        if (flying or due) and time - begin > (found[1] if found else 0):
            code = 3 if due is None else SPACES.index(due.space) + OF_LOSS * (due.kind == "loss")
            over = 0 if due is None else int(max(0, time - max(due.time, since)))
            found = (line, time - begin, flying, code, over)
        sender.follow(event)
        if event["event"] == "metrics":
            continue
        begin, flying, before, due = time, sender.bytes_in_flight, due, sender.deadline()
        since = since if due == before else time
    return found


class Shown(NamedTuple):
    """A banner: its colour, its text without markup, and each thing that it lists with its line."""

    kind: str
    text: str
    items: list[tuple[int, str]]


def shown(page: str) -> Shown:
    """The banner of a page."""
    found = re.search(r'<div class="verdict (\w+)">(.*?)</div></div>', page)
    assert found is not None
    kind, inner = found.groups()
    items = re.findall(r'<li>(?:<a href="#line=(\d+)">)?(.*?)</li>', inner)
    return Shown(kind, plain(inner), [(int(line or 0), plain(text)) for line, text in items])


def plain(text: str) -> str:
    """HTML without its tags."""
    return unescape(re.sub(r"<[^>]*>", "", text))


@cache
def banner_in(path: Path) -> Shown:
    """The banner of the trace in a file."""
    return shown(made(path.read_bytes(), report_of(path)))


def banner_of(name: str) -> Shown:
    """The banner of a trace of the corpus."""
    return banner_in(TRACES / f"{name}.trace")


@cache
def trace_in(path: Path) -> Trace:
    """The trace in a file, as a page has it."""
    return seen(path.read_bytes(), report_of(path))[0]


class Colours(unittest.TestCase):
    """Green, amber and red."""

    def test_the_corpus_has_the_colours_of_the_second_machine(self) -> None:
        met = {True: 0, False: 0}
        for path in accepted():
            with self.subTest(path.stem):
                found, green = banner_in(path), is_green(path.read_bytes())
                met[green] += 1
                self.assertEqual(found.kind, "accepted" if green else "amber")
                self.assertEqual(FOLLOWED in found.text, green)
                self.assertEqual("Accepted, with what the" in found.text, not green)
        self.assertGreater(min(met.values()), 15, met)

    def test_what_is_refused_or_cannot_be_read_is_neither(self) -> None:
        for name, kind in (("timer-late", "refused"), ("no-event", "unreadable")):
            found = banner_of(name)
            self.assertEqual((found.kind, found.items), (kind, []))
            self.assertNotIn("ccepted", found.text)

    def test_a_timer_is_late_by_its_own_timeout(self) -> None:
        for time, kind in ((80_000, "accepted"), (159_999, "accepted"), (160_000, "amber")):
            found = shown(made(joined(*TIMED, ack(time))))
            self.assertEqual(found.kind, kind, time)
            self.assertEqual("V18 timer-late" in found.text, time > 80_000)

    def test_a_timeout_that_was_doubled(self) -> None:
        timer = '{"event":"timer","time":80000,"kind":"pto","space":"app"}'
        probe = sent(1, 80_000, more=',"leave":"probe"')
        # Twice 80 ms after the probe.
        for time, kind in ((399_999, "accepted"), (400_000, "amber")):
            found = shown(made(joined(*TIMED, timer, probe, ack(time))))
            self.assertEqual(found.kind, kind, time)

    def test_choices_that_the_standard_leaves_to_a_sender_are_green(self) -> None:
        choices: tuple[tuple[dict[str, object], str], ...] = (
            ({"refresh_min_rtt": True}, "accepted"),
            ({"window": "reported"}, "accepted"),
            ({"packet_threshold": 4}, "accepted"),
            ({"window": "reported", "loss_by_number": "may"}, "accepted"),
            ({"sample_eliciting_only": True}, "amber"),
            ({"threshold_counts": "packets"}, "accepted"),
            ({"reset_rtt": True}, "accepted"),
            ({"latest_rtt_less_delay": True}, "amber"),
            ({"time_threshold_eighths": 10}, "accepted"),
            ({"recovery_by_order": True}, "accepted"),
            ({"window_overshoot": True}, "accepted"),
        )
        for choice, kind in choices:
            header = json.dumps(json.loads(HEADER) | {"version": 3} | choice)
            found = shown(made(joined(header, sent(0))))
            self.assertEqual(found.kind, kind, choice)
            wanted = [key for key in choice if key != "window_overshoot"]
            self.assertEqual([text.split(":")[0] for _, text in found.items], wanted)

    def test_a_choice_that_is_not_known_yet(self) -> None:
        said = {"verdict": "accepted", "events": 1, "allowed": [], "guesses": None, "last": None}
        for key, is_amber in (("latest_rtt_less_delay", True), ("a_later_choice", False)):
            found = basis_of(Verdict(said | {"choices": [key]}), {}, 1, lambda _: True)
            self.assertEqual((found.names, found.is_amber), ([key], is_amber))

    def test_an_older_program_is_not_green(self) -> None:
        said = Verdict({"verdict": "accepted", "events": 1})
        found = basis_of(said, {}, 1, lambda _: True)
        self.assertTrue(found.is_amber)
        text = plain(banner(said, found, None, "us"))
        self.assertIn("Accepted, and what that rests on is not known.", text)
        self.assertIn("this qaudit-why is older", text)


class Words(unittest.TestCase):
    """What the banner says."""

    def test_a_silence_past_a_probe_timeout(self) -> None:
        self.assertEqual(
            banner_of("silence-past-a-pto").text,
            "(\u2713)Accepted, with what the header allows."
            "Longest silence: 6 s, 12,000 B in flight, 5.92 s past the probe timeout of app."
            "V18 timer-late: once, at line 13, by 5.92 s (no timer_late_us in the header)",
        )
        self.assertIn("(timer_late_us allows 6 s)", banner_of("silence-within-a-limit").text)

    def test_each_rule(self) -> None:
        for name, items in (
            (
                "allowed-past-window",
                [(11, "V7 past-window: 2 times, lines 11 to 13, by at most 1,011 B"
                  " (window_overshoot allows it)")],
            ),
            (
                "early-loss-timer",
                [(5, "V13 timer-early: once, at line 5, by 1 ms (timer_early_us allows 1 ms)")],
            ),
            (
                "collapse-within-the-slack",
                [
                    (9, "V19 collapse-missing: once, at line 9, by 40 B"
                     " (report_slack_bytes allows 50 B)"),
                    (1, "window: the window is the reported one;"
                     " its growth and ssthresh were not compared"),
                ],
            ),
            (
                "late-and-within-the-slack",
                [
                    (8, "V18 timer-late: 2 times, lines 8 to 9, by at most 0.1 ms"
                     " (timer_late_us allows 0.2 ms)"),
                    (8, "V16 metric smoothed_rtt: once, at line 8, by 0.004 ms"
                     " (report_slack_us allows 0.005 ms)"),
                ],
            ),
            ("guessed-and-accepted",
             [(3, "guessed by the converter: 3 lines, the first is line 3")]),
            ("guessed-once-and-accepted", [(3, "guessed by the converter: line 3")]),
        ):
            with self.subTest(name):
                self.assertEqual(banner_of(name).items, items)

    def test_items_and_lines_are_those_of_the_second_machine(self) -> None:
        for path in accepted():
            rest = rest_of(path.read_bytes())
            wanted = {(found[0].line, what) for what, found in rest.rows()}
            wanted |= {(rest.guesses[0], "guessed by the converter")} if rest.guesses else set()
            found = {(line, text.split(":")[0]) for line, text in banner_in(path).items}
            chosen = {it for it in found if it[1] in rest.choices()}
            with self.subTest(path.stem):
                self.assertEqual(found - chosen, wanted)
                self.assertEqual({key for _, key in chosen}, set(rest.choices()))

    def test_amounts_in_nanoseconds(self) -> None:
        found = banner_of("allowed-in-nanoseconds").items
        self.assertEqual(
            [text for _, text in found],
            [
                "V18 timer-late: once, at line 5, by 0.0015 ms (no timer_late_us in the header)",
                "V16 metric latest_rtt: once, at line 6, by 0.002 ms"
                " (report_slack_us allows 0.002 ms)",
                "V16 metric smoothed_rtt: once, at line 4, by 0.00075 ms"
                " (report_slack_us allows 0.002 ms)",
            ],
        )

    def test_many_are_folded(self) -> None:
        page = Page(made(*corpus("allowed-of-each-value")))
        self.assertIn("3 more: V16", page.texts["summary"])
        self.assertEqual(len(banner_of("allowed-of-each-value").items), 7)
        self.assertEqual(page.texts["summary"].count("Options of the header"), 1)

    def test_lines_that_were_guessed_and_nothing_else(self) -> None:
        found = banner_of("guessed-once-and-accepted")
        self.assertIn("Accepted, with what the converter guessed.", found.text)

    def test_the_title_says_it_too(self) -> None:
        for name, title in (
            ("silence-past-a-pto", "made.trace: accepted, with what the header allows"),
            ("header-alone", "made.trace: accepted"),
            ("timer-late", "made.trace: refused line 3 V18 timer-late"),
        ):
            self.assertEqual(Page(made(*corpus(name))).by_id["title"], title)

    def test_how_a_trace_ends(self) -> None:
        for name, told in (
            ("guessed-once-and-accepted", "At the end: 2,400 B in flight, no timer is set."),
            (
                "allowed-of-each-value",
                "At the end: 2,400 B in flight, the loss timer of app is due at 112.5 ms.",
            ),
        ):
            self.assertIn(told, banner_of(name).text)
        self.assertNotIn("At the end", banner_of("header-alone").text)

    def test_past_violations(self) -> None:
        page = Page(made(*corpus("broken-and-allowed")))
        told = " ".join(page.by_id["departures"].split())
        ends = "Everything else in the trace is accepted, with what the header allows."
        self.assertIn(ends, told)
        self.assertIn("V16 metric rttvar: once, at line 9, by 0.003 ms", told)
        self.assertNotIn("follows RFC 9002", told)
        found = banner_of("broken-and-allowed")
        self.assertEqual((found.kind, found.items), ("refused", []))
        self.assertIn("At the end: 2,400 B in flight", found.text)

    def test_names_are_no_markup(self) -> None:
        item = {"rule": EVIL, "name": EVIL, "by": EVIL, "limit_bytes": None, "count": 1}
        item |= {"first": 1, "last": 1, "greatest_bytes": 1}
        said = {"verdict": "accepted", "events": 1, "allowed": [item], "choices": [EVIL]}
        verdict = Verdict(said | {"guesses": None, "last": None})
        text = banner(verdict, basis_of(verdict, {EVIL: EVIL}, 1, lambda _: True), None, "us")
        self.assertNotIn("<img", text)
        self.assertNotIn("\u202e", text)

    def test_unknown_members_are_a_failure(self) -> None:
        known: Object = {"verdict": "accepted", "allowed": [], "choices": [], "guesses": None}
        wrongs: tuple[Object, ...] = (
            {"allowed": [{}]},
            {"allowed": 5},
            {"choices": None},
            {"guesses": {"x": 1}},
        )
        for wrong in wrongs:
            with self.subTest(wrong), self.assertRaisesRegex(Failure, "unknown object"):
                basis_of(Verdict(known | wrong), {}, 1, lambda _: True)
        with self.assertRaisesRegex(Failure, "unknown end"):
            banner(Verdict(known | {"last": {"time_us": 0}}), Basis(), None, "us")


def longest_silence(trace: Trace, unjudged: int | None) -> Silence | None:
    """The longest silence."""
    return next(iter(longest_silences(trace, unjudged)), None)


class Opening(unittest.TestCase):
    """The line about which a page opens."""

    def opens(self, data: bytes, report: str | None = None) -> int:
        """That line; 0 for the whole run."""
        found: int = Page(made(data, report)).data()["opens"]
        return found

    def test_what_is_refused_or_cannot_be_read(self) -> None:
        for name, line in (("several-departures", 13), ("no-event", 2)):
            path = TRACES / f"{name}.trace"
            self.assertEqual(self.opens(path.read_bytes(), report_of(path)), line)

    def test_green(self) -> None:
        self.assertEqual(self.opens(joined(*TIMED, ack(70_000))), 0)

    def test_a_silence_that_was_mostly_past_its_deadline(self) -> None:
        self.assertEqual(self.opens(joined(*TIMED, ack(6_000_000))), 4)

    def test_the_first_ground_after_the_header(self) -> None:
        path = REAL / "curl-8.23-ngtcp2-loss.trace"
        self.assertEqual(self.opens(path.read_bytes(), report_of(path)), 43)
        # The header has no event: what it chooses leads to the longest silence.
        header = TIMED[0].replace('"version":1', '"version":3,"sample_eliciting_only":true')
        self.assertEqual(self.opens(joined(header, *TIMED[1:], ack(70_000))), 4)

    def test_an_older_program(self) -> None:
        trace, verdict = seen(joined(*TIMED, ack(70_000)))
        old = Verdict({"verdict": "accepted"})
        silence = longest_silence(trace, verdict.first_unjudged)
        self.assertEqual(opening_of(old, basis_by(trace, old), silence, trace), 4)
        self.assertEqual(opening_of(old, basis_by(trace, old), None, trace), 0)


class Timers(unittest.TestCase):
    """Silences and late timers, against the second machine."""

    def test_late_timers_of_the_corpus(self) -> None:
        met = 0
        for path in accepted():
            found = [tuple(it) for it in late_timers(trace_in(path))]
            met += len(found)
            with self.subTest(path.stem):
                self.assertEqual(found, [tuple(it) for it in lates_of(path.read_bytes())])
        self.assertGreater(met, 50)

    def test_silences_of_the_corpus(self) -> None:
        met = 0
        for path in accepted():
            it = longest_silence(trace_in(path), None)
            found = it and (it.line, it.long, it.in_flight, it.timer, it.over)
            met += bool(it and it.over)
            with self.subTest(path.stem):
                self.assertEqual(found, silence_by(path.read_bytes()))
        self.assertGreater(met, 10)

    def test_a_client_that_awaits_nothing_is_not_late(self) -> None:
        header = HEADER.replace("server", "client")
        packet = sent(0, 0, "initial", more="").replace('"eliciting":true', '"eliciting":false')
        data = joined(header, packet, sent(1, 9_000_000, "initial"))
        trace, verdict = seen(data)
        self.assertEqual([*late_timers(trace)], [])
        self.assertFalse(basis_by(trace, verdict).is_amber)
        text = shown(made(data)).text
        self.assertIn("Longest silence: 9 s, 1,200 B in flight, 8.001 s past the probe", text)

    def test_a_packet_that_is_acknowledged_after_it_was_lost(self) -> None:
        header = HEADER.replace("server", "client")
        packets = [sent(number, 0, "initial") for number in range(4)]
        trace = (
            acked(100_000, (1, 3), space="initial"),
            '{"event":"lost","time":100000,"space":"initial","ranges":[[0,0]]}',
            # The timer against a deadlock is due at 400 ms.
            sent(4, 5_000_000, "initial"),
            acked(5_010_000, (0, 4), space="initial"),
        )
        found, verdict = seen(joined(header, *packets, *trace))
        self.assertEqual((verdict.kind, [*late_timers(found)]), ("accepted", []))

    def test_the_longest_are_listed(self) -> None:
        """Twelve packets, each acknowledged 10 ms later than the one before: ten are listed."""
        lines, time = [], 0
        for number in range(1, 13):
            lines += [sent(number, time), f'{{"event":"metrics","time":{time + 1}}}']
            time += 1_000 + 1_000 * number
            lines.append(acked(time, (number, number)))
        data = joined(*TIMED[:2], *lines)
        trace, _ = seen(data)
        found = longest_silences(trace, None)
        self.assertEqual([it.long for it in found], [1_000 * n for n in range(13, 3, -1)])
        self.assertEqual([it.line for it in found], [3 * n + 2 for n in range(12, 2, -1)])
        page = Page(made(data))
        told = " ".join(page.by_id["silences"].split())
        self.assertIn("13 ms, room in the window and nothing sent, 24,000 B of the window", told)
        self.assertIn("left, 1,200 B in flight, not past the probe timeout of app, until", told)
        self.assertIn("until line 38 (ack)", told)
        self.assertNotIn("silences", Page(made(joined(HEADER, sent(0)))).by_id)

    def test_a_report_ends_no_silence(self) -> None:
        reports = [f'{{"event":"metrics","time":{at}}}' for at in (1_000_000, 3_000_000)]
        told = "Longest silence: 6 s, 1,200 B in flight, 5.92 s past the probe timeout of app."
        self.assertIn(told, shown(made(joined(*TIMED, *reports, ack(6_000_000)))).text)
        told = "Longest silence: 3 s, 1,200 B in flight, 2.92 s past the probe timeout of app."
        self.assertIn(told, shown(made(joined(*TIMED, *reports))).text)

    def test_a_line_that_is_refused_ends_a_silence(self) -> None:
        trace = (TIMED[0].replace('"version":1', '"version":2,"timer_late_us":1000'), *TIMED[1:])
        for is_strict in (False, True):
            found = shown(made(joined(*trace, ack(6_000_000)), is_strict=is_strict))
            self.assertEqual(found.kind, "refused")
            self.assertIn("Longest silence: 6 s, 1,200 B in flight, 5.92 s past", found.text)

    def test_without_a_timer_and_with_nothing_in_flight(self) -> None:
        found = shown(made(joined(HEADER, sent(0), ack(50_000), sent(1, 9_000_000))))
        self.assertIn("Longest silence: 50 ms, 1,200 B in flight, no timer was set.", found.text)
        self.assertNotIn("Longest silence", shown(made(joined(HEADER, sent(0)))).text)

    def test_a_timer_that_is_not_due(self) -> None:
        found = shown(made(joined(*TIMED, ack(70_000))))
        told = "Longest silence: 70 ms, 1,200 B in flight, not past the probe timeout of app."
        self.assertIn(told, found.text)

    def test_lengths_of_time(self) -> None:
        for value, unit, told in (
            (999_999, "us", "999.999 ms"),
            (1_000_000, "us", "1 s"),
            (5_920_001, "us", "5.920001 s"),
            (1_500, "ns", "0.0015 ms"),
            (3_000_000_000_000, "us", "3,000,000 s"),
        ):
            self.assertEqual(span(value, unit), told)


def corpus(name: str) -> tuple[bytes, str]:
    """A trace of the corpus, and its report."""
    path = TRACES / f"{name}.trace"
    return path.read_bytes(), report_of(path)


if __name__ == "__main__":
    unittest.main()
