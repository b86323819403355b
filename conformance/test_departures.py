#!/usr/bin/env python3
"""Shows that conformance/departures passes a program that writes the texts of departures.py, and
fails what writes others, and that departures and faults are told as they have to be."""

import json
import unittest
from collections import Counter
from operator import itemgetter
from typing import Any

import departing
import departure_objects
from constants import MOST_DOUBLINGS
from departures import KINDS, STORED, Course, Departure, course_of, is_borne, table_of
from faults import UndecidedError, fault_of
from objects import object_of
from runners import FOLDER
from sender import Event, Sender
from testing import RunnerCase, script

TRACES = FOLDER / "traces"
# Writes what lies beside a trace, but for what is changed in it.
TELLS = """
import sys
words = {options!r}
assert sys.argv[1:len(words) + 1] == words
text = open(sys.argv[-1].replace(".trace", {suffix!r})).read()
if "--quiet" in sys.argv and "--json" not in sys.argv:
    text += "1 traces: 0 accepted, 1 refused, 0 unreadable\\n"
sys.stdout.write({change})
sys.stderr.write({error!r})
sys.exit({status})
"""
HEADER: Event = {"event": "header", "version": 1, "role": "client", "max_datagram_size": 1200}


class OfForm(RunnerCase):
    """The runner over a corpus of one trace, and over no simulated sender."""

    runner = "departures"
    form = "TEXT"

    def setUp(self) -> None:
        super().setUp()
        self.script = script(FOLDER / "departures")
        self.asked = getattr(self.script, self.form)
        name = "several-departures"
        data = (TRACES / f"{name}.trace").read_bytes()
        report = (TRACES / f"{name}.report").read_bytes()
        files = {"trace": data, "report": report}
        self.write_files("traces", name, dict(files))
        self.trace = self.corpus / "traces" / f"{name}.trace"
        text = self.asked.told_of(self.script.case_of_file(self.trace))
        self.trace.with_suffix(self.asked.suffix).write_bytes(text)

    def failures(self, change: str = "text", error: str = "", status: int = 1) -> list[str]:
        """What fails of a program that writes a text with a change."""
        how = {"options": list(self.asked.options), "suffix": self.asked.suffix}
        self.write_program(TELLS.format(change=change, error=error, status=status, **how))
        found = [
            *self.script.results_of_trace(self.asked, str(self.program), self.trace),
            self.script.result_of_all(self.asked, str(self.program), self.trace.parent),
        ]
        return [it.failure for it in found if it.failure]

    def assert_each_fails(self, *changes: str) -> None:
        """Each of these changes is seen, in a run of one trace and in one of all."""
        for change in changes:
            with self.subTest(change):
                self.assertEqual(len(self.failures(change)), 2)


class Departures(OfForm):
    """Runs with `--all`."""

    def test_right_text_passes(self) -> None:
        self.assertEqual(self.failures(), [])

    def test_other_text_fails(self) -> None:
        self.assert_each_fails(
            "''",
            "text + text[-1]",
            "text[:text.rindex('  V13')]",
            "text.replace(': departure V13', ': refused V13', 1)",
            "text.replace('departs 5 times', 'departs 6 times', 1)",
            "text.replace('lines 13 to 22', 'lines 13 to 17', 1)",
            "text.replace('by at most 1740 bytes', 'by at most 1200 bytes', 1)",
            "text.replace('by 200 us', 'by at most 200 us', 1)",
        )

    def test_another_end_fails(self) -> None:
        self.assertEqual(len(self.failures(status=0)), 2)
        self.assertEqual(len(self.failures(status=2)), 2)
        self.assertEqual(len(self.failures(error="x")), 2)

    def test_a_line_is_named(self) -> None:
        change = "text.replace('departs 5 times', 'departs 6 times', 1)"
        self.assertTrue(self.failures(change)[0].startswith("line 9 is "))

    def test_a_text_that_nobody_names_fails(self) -> None:
        result = self.script.result_of_stored(self.asked, self.trace)
        self.assertIn("nobody names it", result.failure)


class Objects(OfForm):
    """Runs with `--all --json`."""

    form = "OBJECTS"

    def test_right_object_passes(self) -> None:
        self.assertEqual(self.failures(), [])

    def test_other_objects_fail(self) -> None:
        self.assert_each_fails(
            "''",
            "text.strip()",
            "text + text",
            "text.replace('\"events\":22,', '', 1)",
            "text.replace('\"events\":22', '\"events\":23', 1)",
            "text.replace('\"count\":4', '\"count\":5', 1)",
            "text.replace('\"last\":22', '\"last\":17', 1)",
            "text.replace('greatest_bytes', 'greatest_us', 1)",
            "text.replace('15,17', '17,15', 1)",
            "text.replace('{\"verdict\":\"accepted\"', '{\"verdict\":\"refused\"', 1)",
            "text.replace('\"rule\":', '\"rule\": ', 1)",
        )

    def test_another_end_fails(self) -> None:
        self.assertEqual(len(self.failures(status=0)), 2)
        self.assertEqual(len(self.failures(error="x")), 2)

    def test_of_many_departures_a_thousand_lines_are_named(self) -> None:
        case = self.script.case_of_many()
        row = json.loads(self.script.object_of(case))["departures"][0]
        self.assertEqual((row["count"], row["first"], row["last"]), (1003, 12, 1014))
        self.assertEqual(row["lines"], list(range(12, 1012)))
        self.assertEqual(row["greatest_bytes"], 1003 * 1200)


class Texts(unittest.TestCase):
    """What is written of a trace."""

    def test_each_kind_stands_in_a_text(self) -> None:
        texts = "".join((TRACES / f"{name}.all").read_text() for name in STORED)
        for what in KINDS:
            with self.subTest(what):
                self.assertTrue(f" departure {what}: " in texts, "there is none")
                self.assertTrue(f"\n  {what}: " in texts, "there is no row")

    def test_first_departures_are_what_why_says(self) -> None:
        """Up to the first departure a trace is told as without `--all`."""
        for name in STORED:
            report = (TRACES / f"{name}.report").read_text()
            course = course_of(f"{name}.trace", (TRACES / f"{name}.trace").read_bytes(), report)
            why = TRACES / f"{name}.why"
            text = why.read_bytes() if why.exists() else course.end
            with self.subTest(name):
                told = (*(it.text for it in course.firsts), course.end)[0]
                self.assertEqual(told.replace(b": departure ", b": refused ", 1), text)

    def test_words(self) -> None:
        departure = Departure(2, KINDS[0], 1)
        for verdict in ("refused", "unreadable"):
            self.assertEqual(Course(verdict, [departure]).word, verdict)
        self.assertEqual(Course("accepted", [departure]).word, "refused")
        self.assertEqual(Course("accepted").word, "accepted")

    def test_a_table_goes_by_the_rules(self) -> None:
        found = [
            Departure(2, "V18 timer-late", 3),
            Departure(2, "V16 metric ssthresh", None),
            Departure(4, "V16 metric ssthresh", 5),
            Departure(4, "V14 probe-owed", None),
        ]
        self.assertEqual(
            "".join(table_of("x", Course(departures=found, events=7, unit="ns"))),
            "x: departs 4 times in 7 events\n"
            "  V14 probe-owed: once, line 4\n"
            "  V16 metric ssthresh: 2 times, lines 2 to 4, by at most 5 bytes\n"
            "  V18 timer-late: once, line 2, by 3 ns\n",
        )
        once = "".join(table_of("x", Course(departures=found[:1], events=1)))
        self.assertTrue(once.startswith("x: departs once in 1 events\n"), once)

    def test_early_timers_are_borne_up_to_a_bound(self) -> None:
        sender = Sender(HEADER)
        sender.pto_count = MOST_DOUBLINGS - 1
        self.assertTrue(is_borne(sender, "V13 timer-early"))
        sender.pto_count += 1
        self.assertFalse(is_borne(sender, "V13 timer-early"))
        self.assertTrue(is_borne(sender, "V16 metric rttvar"))
        self.assertFalse(is_borne(sender, "V11 timer-not-set"))


class Told(unittest.TestCase):
    """What stands in the objects of traces."""

    objects: list[tuple[str, Any, Course]]

    @classmethod
    def setUpClass(cls) -> None:
        """The names, objects and courses of the traces that have a file of objects."""
        cls.objects = []
        for name in departure_objects.STORED:
            path = TRACES / f"{name}.trace"
            said = json.loads(path.with_suffix(departure_objects.SUFFIX).read_bytes())
            report = path.with_suffix(".report").read_text()
            cls.objects.append((name, said, course_of(path.name, path.read_bytes(), report)))

    def test_each_begins_as_without_departures(self) -> None:
        """Up to `departures` stands what `--json` writes."""
        for name, said, _ in self.objects:
            path = TRACES / f"{name}.trace"
            report = path.with_suffix(".report").read_text()
            members = list(object_of(path.name, path.read_bytes(), report).items())
            with self.subTest(name):
                self.assertEqual(list(said.items())[: len(members)], members)
                more = ["events", "departures", "end"] if said["departures"] else ["departures"]
                self.assertEqual(list(said)[len(members) :], more)

    def test_rows_are_those_of_the_table(self) -> None:
        for name, said, course in self.objects:
            rows = [
                " ".join(row[key] for key in ("rule", "name", "field") if key in row)
                for row in said["departures"]
            ]
            found = {str(it.what) for it in course.departures}
            with self.subTest(name):
                self.assertEqual(rows, [it for it in KINDS if it in found])
                self.assertEqual(
                    sum(row["count"] for row in said["departures"]), len(course.departures)
                )

    def test_the_first_departure_is_the_one_that_is_refused(self) -> None:
        for name, said, _ in self.objects:
            if said["departures"]:
                first = sorted(said["departures"], key=itemgetter("first"))[0]
                with self.subTest(name):
                    self.assertEqual(said["verdict"], "refused")
                    for key, wanted in (("line", "first"), ("rule", "rule"), ("name", "name")):
                        self.assertEqual(said[key], first[wanted])
                    self.assertEqual(said.get("field"), first.get("field"))

    def test_each_kind_and_each_end_stands_in_an_object(self) -> None:
        kinds, ends, without = set(), set(), set()
        for _, said, course in self.objects:
            kinds |= {str(it.what) for it in course.departures}
            if said["departures"]:
                end = said["end"]
                ends.add((end["verdict"], end.get("rule", "")))
            else:
                without.add(said["verdict"])
        self.assertEqual(kinds, set(map(str, KINDS)))
        wanted = {("accepted", ""), ("unreadable", "")}
        wanted |= {("refused", rule) for rule in ("V4", "V13", "V17")}
        self.assertEqual(ends, wanted)
        self.assertEqual(without, {"accepted", "refused", "unreadable"})

    def test_amounts_by_hand(self) -> None:
        path = TRACES / f"departures-in-nanoseconds{departure_objects.SUFFIX}"
        rows = {it["rule"]: it for it in json.loads(path.read_bytes())["departures"]}
        self.assertEqual(rows["V7"]["greatest_bytes"], 1200)
        for rule, amount in (("V13", 1), ("V16", 1001), ("V18", 1001)):
            self.assertEqual(rows[rule]["greatest_ns"], amount)


class Departing(unittest.TestCase):
    """Senders that depart again and again."""

    def test_they_depart_in_each_way_and_end_in_each(self) -> None:
        times, ends, most = Counter[str](), Counter[str](), 0
        for seed in range(1, 121):
            case = departing.case_of(seed)
            course = course_of("a sender", case.trace, case.report)
            times.update(str(it.what) for it in course.departures)
            ends[course.verdict] += 1
            most = max(most, len(course.departures))
        self.assertEqual(times.keys(), set(map(str, KINDS)))
        self.assertEqual(ends.keys(), {"accepted", "refused", "unreadable"})
        self.assertGreater(sum(times.values()), 500)
        self.assertGreater(most, 20)

    def test_a_seed_makes_one_trace(self) -> None:
        self.assertEqual(departing.case_of(7), departing.case_of(7))
        self.assertNotEqual(departing.case_of(7), departing.case_of(8))

    def test_reports_are_those_of_the_first_departure(self) -> None:
        for seed in range(1, 41):
            case = departing.case_of(seed)
            course = course_of("a sender", case.trace, case.report)
            if course.departures:
                first = course.departures[0]
                with self.subTest(seed):
                    wanted = f"refused line {first.line} {first.what}\n"
                    self.assertTrue(case.report.startswith(wanted))


class Rules(unittest.TestCase):
    """All rules that an event breaks."""

    def test_a_timer_breaks_several(self) -> None:
        sender = Sender(HEADER)
        timer: Event = {"event": "timer", "time": 5, "kind": "pto", "space": "initial"}
        self.assertEqual(list(sender.broken(timer)), ["V11 timer-not-set"])
        packet = {"number": 0, "size": 1200, "eliciting": True, "in_flight": True}
        sender.follow({"event": "sent", "time": 5, "space": "initial", **packet})
        sender.follow(timer)
        wrong = ["V12 timer-other", "V13 timer-early", "V14 probe-owed"]
        self.assertEqual(list(sender.broken({**timer, "space": "app"})), wrong)
        early = {**timer, "time": 4}
        self.assertEqual(list(sender.broken(early)), ["V1 time-back", *wrong[1:]])

    def test_a_lost_line_breaks_both(self) -> None:
        lost: Event = {"event": "lost", "time": 0, "space": "app", "ranges": [[0, 0]]}
        broken = list(Sender(HEADER).broken(lost))
        self.assertEqual(broken, ["V3 loss-not-owed", "V4 loss-set"])


class Faults(unittest.TestCase):
    """The faults of lines behind a header are those of the corpus of lines."""

    def test_lines(self) -> None:
        tried = 0
        for lines in sorted((FOLDER / "lines").glob("*.lines")):
            answers = lines.with_suffix(".said").read_bytes().split(b"\n")
            for line, answer in zip(lines.read_bytes().split(b"\n"), answers, strict=False):
                try:
                    fault = fault_of(line)
                except UndecidedError:
                    continue
                tried += 1
                if fault != self.wanted(answer):
                    self.fail(f"{lines.name}: {line[:200]!r}: {fault} and not {answer[:200]!r}")
        self.assertGreater(tried, 10000)

    def wanted(self, answer: bytes) -> str | None:
        """The fault of a line behind a header that has this answer."""
        if b'"event":"header"' in answer:
            return "F7 header-place"
        return None if answer[:1] in (b"", b"{") else answer.decode()


if __name__ == "__main__":
    unittest.main()
