"""The columns of a page against traces by hand and against the sender of conformance/."""

import json
import unittest
from collections.abc import Iterator
from typing import Any

from tests.made import (
    HEADER,
    TRACES,
    Page,
    acked,
    joined,
    made,
    report_of,
    seen,
    sent,
    summed,
    values_of,
)

from mutants import mutant
import departing
from constants import METRICS_IN_BYTES
from departures import course_of
from rows import first_not_followed, first_not_good, followed
from sender import Event, Sender
from why import said_by

from qaudit_page.departures import departures_of
from qaudit_page.held import held_after
from qaudit_page.payload import part_of, payload
from qaudit_page.program import Verdict
from qaudit_page.texts import milliseconds, size
from qaudit_page.trace import trace_of

SPACES = ("initial", "handshake", "app")


def last_past(data: bytes, report: str) -> int | None:
    """The first line of a trace that is not judged past departures."""
    return first_not_followed(data, report, course_of("", data, report))


def states(
    data: bytes, report: str, *, is_strict: bool = False
) -> Iterator[tuple[int, Sender, dict[str, Any]]]:
    """Each judged line with the sender behind it."""
    return followed(data, (first_not_good if is_strict else last_past)(data, report))


def wanted_state(sender: Sender) -> tuple[object, ...]:
    """What a page has to hold of a sender."""
    due = sender.deadline()
    code = SPACES.index(due.space) + 4 * (due.kind == "loss") if due else 3
    return (
        sender.window,
        sender.ssthresh,
        sender.bytes_in_flight,
        sender.latest_rtt,
        sender.min_rtt,
        sender.smoothed_rtt,
        sender.rttvar,
        sender.pto_count,
        sender.owed,
        code,
        due.time if due else None,
    )


def shown_states(data: Any) -> list[tuple[int, tuple[object, ...]]]:
    """The states that a page holds, each with its line."""
    state, times = data["state"], summed(data["time"])
    lines = summed(state["line"])
    columns: list[list[Any]] = [
        values_of(state[name])
        for name in (
            "window",
            "ssthresh",
            "in_flight",
            "latest_rtt",
            "min_rtt",
            "smoothed_rtt",
            "rttvar",
            "pto_count",
        )
    ]
    columns += [summed(state["owed"]), [int(digit) for digit in state["timer"]]]
    due = [
        after + times[line - data["first"]]
        for after, line in zip(summed(state["deadline"]["by"]), lines, strict=True)
    ]
    for place, digits in state["deadline"]["exact"].items():
        due[int(place)] = int(digits)
    columns.append(
        [time if code != 3 else None for time, code in zip(due, columns[-1], strict=True)]
    )
    return list(zip(lines, zip(*columns, strict=True), strict=True))


class Columns(unittest.TestCase):
    """What a page holds."""

    def test_states_are_those_of_the_second_machine(self) -> None:
        for path in sorted(TRACES.glob("*.trace")):
            data, report = path.read_bytes(), report_of(path)
            # Without departures both are one.
            departs = last_past(data, report) != first_not_good(data, report)
            for is_strict in (False, True) if departs else (False,):
                with self.subTest(path.stem, is_strict=is_strict):
                    page = Page(made(data, report, is_strict=is_strict))
                    judged = states(data, report, is_strict=is_strict)
                    wanted = [(line, wanted_state(it)) for line, it, _ in judged]
                    self.assertEqual(shown_states(page.data()), wanted)

    def test_fates_of_packets(self) -> None:
        data = joined(
            HEADER,
            sent(0),
            sent(1),
            sent(2),
            sent(5),
            sent(6, 3),
            acked(100, (0, 0), (5, 5)),
            '{"event":"lost","time":100,"space":"app","ranges":[[1,2]]}',
            sent(0, 101, "initial"),
            '{"event":"discard","time":102,"space":"initial"}',
        )
        packets = Page(made(data)).data()["packets"]
        lines = summed(packets["line"])
        self.assertEqual(lines, [2, 3, 4, 5, 6, 9])
        ends = {
            name: [line + by if by else 0 for line, by in zip(lines, packets[name], strict=True)]
            for name in ("acked", "lost", "gone")
        }
        self.assertEqual(ends["acked"], [7, 0, 0, 7, 0, 0])
        self.assertEqual(ends["lost"], [0, 8, 8, 0, 0, 0])
        self.assertEqual(ends["gone"], [0, 0, 0, 0, 0, 10])
        self.assertEqual(packets["space"], "222220")
        self.assertEqual(packets["flags"], "333333")

    def test_leaves_and_bare_packets(self) -> None:
        bare = sent(1, 2).replace(
            '"eliciting":true,"in_flight":true', '"eliciting":false,' '"in_flight":false'
        )
        data = joined(
            HEADER,
            sent(0, 1, "initial"),
            '{"event":"timer","time":999001,"kind":"pto","space":"initial"}',
            sent(1, 999001, "initial", more=',"leave":"probe"'),
            bare.replace('"time":2', '"time":999002'),
        )
        page = Page(made(data)).data()
        self.assertEqual(page["packets"]["flags"], "370")
        self.assertEqual(page["kind"], "hstss")
        self.assertEqual(page["space"], "30002")

    def test_great_numbers_are_exact(self) -> None:
        first, last = 2**62 - 3, 2**62 - 1
        report = f'{{"event":"metrics","time":1,"bytes_in_flight":{2**64 - 1}}}'
        data = joined(HEADER, sent(0), sent(first), sent(last), acked(1, (last, last)), report)
        page = Page(made(data)).data()
        packets = page["packets"]
        least = int(packets["least"][2])
        numbers = [least + (n or 0) for n in values_of(packets["number"])]
        self.assertEqual(numbers, [0, first, last])
        self.assertEqual(values_of(page["acks"]["greatest"]), [last - least])
        self.assertEqual(values_of(page["metrics"]["bytes_in_flight"]), [2**64 - 1])

    def test_a_part_has_the_packets_that_are_open_where_it_begins(self) -> None:
        data = joined(
            HEADER, sent(0, 10), sent(1, 20), acked(30, (0, 0)), sent(2, 40), acked(50, (1, 2))
        )
        page = Page(made(data, first=5))
        packets = page.data()["packets"]
        self.assertEqual(summed(packets["line"]), [3, 5])
        self.assertEqual(packets["before"], [20])
        self.assertEqual(page.lines(), [sent(2, 40), acked(50, (1, 2))])

    def test_what_was_not_judged_has_no_state(self) -> None:
        data = (TRACES / "quinn-growth-before-the-loss.trace").read_bytes()
        page = Page(made(data, is_strict=True)).data()
        self.assertEqual(page["unjudged"], 84)
        self.assertEqual(summed(page["state"]["line"])[-1], 83)
        self.assertEqual(page["count"], 2585)
        self.assertEqual((page["end"], page["departures"]), (None, []))
        self.assertGreater(len(page["packets"]["space"]), 800)

    def test_lines_behind_the_verdict_are_read_as_they_seem(self) -> None:
        data = joined(
            HEADER,
            "5",
            '{"event":"sent"}',
            sent(0, 7),
            '{"event":[]}',
            "",
            acked(8, (0, 0)),
            '{"event":"ack","time":9,"space":"app","ranges":[[2,1]]}',
            '{"event":"metrics","time":9,"window":"x"}',
            '{"event":"keys","time":9}',
        )
        page = Page(made(data)).data()
        self.assertEqual(page["kind"], "huusubauuk")
        self.assertEqual(summed(page["state"]["line"]), [1])
        self.assertEqual(page["packets"]["acked"], [3])


# Rules of conduct, a number each.
CONDUCT = ("V7", "V8", "V9", "V13", "V14", "V16", "V18", "V19")
Departed = dict[str, list[tuple[int, int | None]]]


def amount_by(sender: Sender, event: Event, rule: str, field: str) -> int | None:
    """By how much an event departs, from what the sender holds before it."""
    settings, due = sender.settings, sender.deadline()
    if rule == "V7":
        return int(sender.bytes_in_flight + event["size"] - sender.window)
    if rule == "V8" and sender.probe_spent is not None:
        return int(sender.probe_spent + event["size"] - 2 * settings.max_datagram_size)
    if rule == "V13" and due:
        return int(due.time - event["time"])
    if rule == "V16":
        held = sender.total(field)
        return None if held is None else abs(event[field] - held)
    if rule == "V18" and due:
        return int(event["time"] - max(due.time, sender.due_since))
    if rule == "V19":
        least = 2 * settings.max_datagram_size + (sender.acked_since_collapse or 0)
        return int(event["window"] - least)
    return None


def departed(data: bytes, last: int | None) -> Departed:
    """The departures of a trace before a line, by the rules that its sender breaks: lines and
    amounts."""
    sender: Sender | None = None
    found: Departed = {}
    for number, line in enumerate(data.split(b"\n"), 1):
        if number == last:
            break
        if not line.strip(b" \t\r"):
            continue
        event = said_by(line)
        if sender is None:
            sender = Sender(event)
            continue
        for what in sender.broken(event):
            rule, _, *field = what.split(" ")
            assert rule in CONDUCT
            amount = amount_by(sender, event, rule, "".join(field))
            found.setdefault(str(what), []).append((number, amount))
        sender.follow(event)
    return found


class Departures(unittest.TestCase):
    """The departures that a page marks and tells of."""

    def check(self, data: bytes, report: str) -> set[str]:
        """What a page marks and tells of a trace is what its sender breaks; returns that."""
        is_read = not report.startswith("unreadable")
        found: Departed = departed(data, last_past(data, report)) if is_read else {}
        if not found:
            self.assertEqual(departures_of(seen(data, report)[1]), [])
            return set()
        page = Page(made(data, report))
        columns = page.data()
        marked = {f"{it['rule']} {it['name']}": summed(it["lines"]) for it in columns["departures"]}
        lines = {what: [line for line, _ in told] for what, told in found.items()}
        self.assertEqual(marked, lines)
        rows = {what: row_by(what, told, columns["unit"]) for what, told in found.items()}
        self.assertEqual({row[0]: row[2:] for row in page.rows()}, rows)
        wanted = [(line, wanted_state(it)) for line, it, _ in states(data, report)]
        self.assertEqual(shown_states(columns), wanted)
        return set(found)

    def test_they_are_those_of_the_second_machine(self) -> None:
        met = set()
        for path in sorted(TRACES.glob("*.trace")):
            with self.subTest(path.stem):
                met |= self.check(path.read_bytes(), report_of(path))
        self.assertEqual({it.split()[0] for it in met}, set(CONDUCT))

    def test_senders_that_depart_again_and_again(self) -> None:
        for seed in range(1, 61):
            with self.subTest(seed):
                self.check(*departing.case_of(seed))

    def test_those_of_a_part_alone_are_marked(self) -> None:
        path = TRACES / "several-departures.trace"
        page = Page(made(path.read_bytes(), report_of(path), first=14, last=22))
        marked = {it["rule"]: summed(it["lines"]) for it in page.data()["departures"]}
        self.assertEqual(marked, {"V7": [15, 17, 22], "V13": []})
        self.assertEqual([row[4] for row in page.rows()], ["13 15 17 22", "24"])

    def test_lines_behind_the_end_are_read_as_they_seem(self) -> None:
        path = TRACES / "departure-and-then-no-json.trace"
        page = Page(made(path.read_bytes(), report_of(path))).data()
        self.assertEqual(page["verdict"]["line"], 13)
        self.assertEqual((page["end"]["kind"], page["end"]["line"]), ("unreadable", 15))
        self.assertEqual(page["unjudged"], 15)
        self.assertEqual(summed(page["state"]["line"]), list(range(1, 14)))
        self.assertEqual(page["kind"], "hc" + "s" * 11 + "buc")

    def test_a_departure_at_another_line_would_be_seen(self) -> None:
        path = TRACES / "several-departures.trace"
        said = json.loads(path.with_suffix(".all.json").read_bytes())
        said["departures"][0]["lines"][1] += 1
        data = path.read_bytes()
        trace, _ = seen(data, report_of(path))
        part = part_of(trace, Verdict(said), None, None)
        columns = payload(trace, Verdict(said), part, held_after(trace))
        found = [line for line, _ in departed(data, None)["V7 past-window"]]
        self.assertNotEqual(summed(columns["departures"][0]["lines"]), found)


def row_by(what: str, told: list[tuple[int, int | None]], unit: str) -> tuple[str, ...]:
    """What the table of a page has to say of a kind: how often, by how much, at which lines."""
    amounts = [amount for _, amount in told if amount is not None]
    rule, _, *field = what.split(" ")
    is_of_bytes = rule in ("V7", "V8", "V19") or "".join(field) in METRICS_IN_BYTES
    shown = size if is_of_bytes else lambda amount: milliseconds(amount, unit)
    most = shown(max(amounts)) if amounts else ""
    return f"{len(told):,}", most, " ".join(f"{line:,}" for line, _ in told)


class Mutated(unittest.TestCase):
    """Lines of all sorts, none of which was judged."""

    def test_they_are_read_as_they_seem(self) -> None:
        said = {"verdict": "unreadable", "line": 1, "fault": "F1", "name": "not-json"}
        verdict, met = Verdict(said), set()
        for seed in range(200):
            trace = trace_of(mutant(seed), [])
            trace.read_rest(1)
            part = part_of(trace, verdict, None, None)
            columns = payload(trace, verdict, part, held_after(trace))
            met |= set(columns["kind"])
            self.assertEqual(len(columns["kind"]), len(trace.lines))
            self.assertEqual(columns["state"]["line"], [])
        self.assertEqual(met, set("hsaltdckmbu"))


class WrongPages(unittest.TestCase):
    """Wrong columns, each of which the comparison with the second machine has to see."""

    def setUp(self) -> None:
        self.path = TRACES / "quinn-handshake-loss.trace"
        data, report = self.path.read_bytes(), report_of(self.path)
        self.right = [(line, wanted_state(it)) for line, it, _ in states(data, report)]
        self.data = Page(made(data, report)).data()

    def test_it_is_right(self) -> None:
        self.assertEqual(shown_states(self.data), self.right)

    def test_a_row_shifted_by_one(self) -> None:
        self.data["state"]["window"]["by"].insert(0, self.data["state"]["window"]["by"].pop())
        self.assertNotEqual(shown_states(self.data), self.right)

    def test_the_deadline_of_another_space(self) -> None:
        timer = self.data["state"]["timer"]
        self.data["state"]["timer"] = timer.replace("0", "1")
        self.assertNotEqual(shown_states(self.data), self.right)

    def test_a_deadline_a_microsecond_off(self) -> None:
        self.data["state"]["deadline"]["by"][5] += 1
        self.assertNotEqual(shown_states(self.data), self.right)

    def test_a_state_past_the_verdict(self) -> None:
        path = TRACES / "quinn-growth-before-the-loss.trace"
        data, report = path.read_bytes(), report_of(path)
        page = Page(made(data, report, is_strict=True)).data()
        right = [(line, wanted_state(it)) for line, it, _ in states(data, report, is_strict=True)]
        for column in page["state"].values():
            if isinstance(column, dict) and "by" in column:
                column["by"].append(0)
        for name in ("line", "owed"):
            page["state"][name].append(1 if name == "line" else 0)
        page["state"]["timer"] += page["state"]["timer"][-1]
        self.assertNotEqual(shown_states(page), right)


class Stored(unittest.TestCase):
    """The files of rows that lie in conformance/traces."""

    def test_each_is_read(self) -> None:
        for path in sorted(TRACES.glob("*.rows")):
            rows = [json.loads(line) for line in path.read_bytes().splitlines()]
            is_strict = not path.name.endswith(".all.rows")
            trace = TRACES / f"{path.name.split('.')[0]}.trace"
            with self.subTest(path.name):
                page = made(trace.read_bytes(), report_of(trace), is_strict=is_strict)
                state = Page(page).data()["state"]
                self.assertEqual(summed(state["line"]), [row["line"] for row in rows])


if __name__ == "__main__":
    unittest.main()
