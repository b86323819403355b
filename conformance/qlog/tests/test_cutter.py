"""Logs that are one object, cut into their records."""

import io
import json
import unittest

from qlog_to_trace.cutter import Cutter
from qlog_to_trace.errors import Unusable
from qlog_to_trace.scanner import PIECE

from .made import End, Event, header, sent


def cut(text: str) -> tuple[list[tuple[int, int, str]], str, int | None]:
    """The records of a log with their traces and places, what is beside them, and where it is torn
    off."""
    cutter = Cutter(io.BytesIO(text.encode()))
    records = [(it.trace, it.place, it.text.decode()) for it in cutter.records()]
    return records, cutter.skeleton.decode(), cutter.torn_at


class Cutting(unittest.TestCase):
    """What a log is cut into."""

    def test_a_whole_log(self) -> None:
        text = ' {"a": 1,"traces": [{"events":[{"b":"]}"}, [2],"\\"c", 3 ],"d":{}}, {}], "e":[] }\n'
        records = [(1, 31, '{"b":"]}"}'), (1, 43, "[2]"), (1, 47, '"\\"c"'), (1, 54, "3")]
        beside = '{"a":1,"traces":[{"events":[],"d":{}},{}],"e":[]}'
        self.assertEqual(cut(text), (records, beside, None))

    def test_a_torn_log(self) -> None:
        text = '{"a":1,"traces":[{"b":[2],"events":[{"c":3},{"d":4}]}],"e":5}'
        beside = '{"a":1,"traces":[{"b":[2],"events":[]}],"e":5}'
        self.assertEqual(cut(text)[1], beside)
        for end in range(1, len(text)):
            records, skeleton, torn_at = cut(text[:end])
            self.assertLessEqual(len(json.loads(skeleton)), 3)
            self.assertEqual(len(records), (end >= 43) + (end >= 51))
            # At the value that has no end, or behind all.
            self.assertTrue(torn_at is not None and torn_at <= end)
        for end, skeleton, torn_at in (
            (6, "{}", 5),
            (7, '{"a":1}', 7),
            (17, '{"a":1,"traces":[]}', 17),
            (18, '{"a":1,"traces":[{}]}', 18),
            (24, '{"a":1,"traces":[{}]}', 22),
            (40, '{"a":1,"traces":[{"b":[2],"events":[]}]}', 36),
            (54, '{"a":1,"traces":[{"b":[2],"events":[]}]}', 54),
            (59, '{"a":1,"traces":[{"b":[2],"events":[]}]}', 59),
        ):
            self.assertEqual(cut(text[:end])[1:], (skeleton, torn_at), text[:end])

    def test_a_value_without_an_end_takes_in_the_rest(self) -> None:
        text = '{"traces":[{"events":[{"a":1},{"b":"2},{"c":3}]}]}'
        records, skeleton, torn_at = cut(text)
        self.assertEqual(([it[2] for it in records], torn_at), (['{"a":1}'], 30))
        self.assertEqual(skeleton, '{"traces":[{"events":[]}]}')

    def test_what_cannot_be_there(self) -> None:
        for text in (
            *("[]", "5", '{"a"}', '{"a" 1}', "{a:1}", '{"a":1,}', '{"a":,}', '{"a":[];"b":2}'),
            *('{"traces":[,]}', '{"traces":[{}{}]}', '{"traces":[{"events":[1,]}]}', "{}x", "{}{}"),
        ):
            self.assertRaises(Unusable, cut, text)

    def test_only_the_outer_containers_are_looked_at(self) -> None:
        for text, beside in (
            ('{"traces":{"events":[1]}}', '{"traces":{"events":[1]}}'),
            ('{"a":[{"events":[1]}]}', '{"a":[{"events":[1]}]}'),
            ('{"traces":[[{"events":[1]}]]}', '{"traces":[[{"events":[1]}]]}'),
            ('{"tr\\u0061ces":[{"events":[1]}]}', '{"tr\\u0061ces":[{"events":[1]}]}'),
            ('{"a":tru,"b":1x"]}', '{"a":tru,"b":1x"]}'),
        ):
            with self.subTest(text):
                try:
                    self.assertEqual(cut(text), ([], beside, None))
                except Unusable:
                    self.assertIn('x"]', text)

    def test_pieces(self) -> None:
        # Records and places are the same, wherever the pieces of a log end.
        events = [{"a": "x" * 1_000, "b": number} for number in range(3 * PIECE // 1_000)]
        text = json.dumps({"traces": [{"events": events}]})
        records, skeleton, torn_at = cut(text)
        self.assertEqual((skeleton, torn_at), ('{"traces":[{"events":[]}]}', None))
        self.assertEqual([json.loads(it[2]) for it in records], events)
        for _, place, record in records:
            self.assertTrue(text[place:].startswith(record))


class Documents(unittest.TestCase):
    """What is read of them."""

    def test_records_of_other_traces_are_not_read(self) -> None:
        for role in ("client", "network"):
            traces = [{**header(role=role), "events": [sent(0, 0), "it"]}]
            traces += [{**header(role="server"), "events": [sent(0, 0)]}]
            text = json.dumps({"traces": traces}).replace('"it"', '{"a":tru}')
            self.assertEqual(End(text, "--vantage", "server").kinds, ["header", "sent"], role)
            self.assertEqual(End(text, "--vantage", "client").status, 2, role)

    def test_a_trace_whose_header_cannot_be_read_is_none_that_is_meant(self) -> None:
        good: Event = {**header(role="server"), "events": [sent(0, 0)]}
        bad: Event = {**good, "common_fields": {"time_format": "sidereal"}}
        bad["vantage_point"] = {"type": "client"}
        end = End(json.dumps({"traces": [bad, good]}))
        self.assertEqual((end.status, end.lines[0]["role"], end.errors), (0, "server", ""))
        for words in ((), ("--vantage", "client")):
            self.assertEqual(End(json.dumps({"traces": [bad]}), *words).status, 2)

    def test_of_two_lists_of_traces_the_last_counts(self) -> None:
        first, last = ({**header(), "events": [sent(0, number)]} for number in (1, 2))
        text = f'{{"traces":[{json.dumps(first)}],"traces":[{json.dumps(last)}]}}'
        self.assertEqual([it["number"] for it in End(text).only("sent")], [2])


if __name__ == "__main__":
    unittest.main()
