"""Netlogs that nobody would write, by themselves and as traces."""

import json
import os
import random
import sys
import time
import unittest
from itertools import islice
from pathlib import Path
from typing import BinaryIO
from unittest import mock

from made_netlogs import REAL, REFERENCE, TYPES, End, acked, event, netlog, sent

from netlog_to_qlog import command
from netlog_to_qlog import netlog as reading

sys.path.append(str(REFERENCE))

from tests.hostile import Case, Seed, cases, fault_of_trace, in_time  # noqa: E402

CASES = 200
MEBIBYTE = 1 << 20


def failure_of(case: Case) -> str | None:
    """How a netlog fails to give a qlog, or that a trace; nothing if it does not."""
    with in_time():
        end = End(case.data)
    for name, ended in (("netlog-to-qlog", end.qlog), ("qlog-to-trace", end.trace)):
        told = ended.errors.splitlines()
        if not all(line.startswith(f"{name}: LOG: ") and line.isprintable() for line in told):
            return f"a line of others: {ended.errors!r}"
        if ended.status == 2:
            return None if len(told) == 1 else f"{name}: status 2 with {len(told)} lines"
        if ended.status:
            return f"{name}: status {ended.status}"
    return fault_of_trace(end.trace.text.encode())


class Hostile(unittest.TestCase):
    """What is refused, and with which words."""

    def refused(self, text: str, reason: str) -> None:
        """It gives no qlog, and one line that says why."""
        found = End(text).qlog
        self.assertEqual((found.status, found.text, found.errors.count("\n")), (2, "", 1))
        self.assertIn(reason, found.errors)

    def test_cases(self) -> None:
        logs = [Seed(path) for path in sorted(REAL.glob("*.netlog"))]
        for case in islice(cases(1, logs=logs), CASES):
            if reading.is_netlog(case.data):
                self.assertIsNone(failure_of(case), case.name)

    def test_numbers(self) -> None:
        text = netlog(event("PACKET_SENT", 0, packet_number=0, size=1200, sent_time_us="PLACE"))
        for number in ("1e999999999", "9" * 5_000, '"x"', "null", "[]", f'"{"9" * 5_000}"'):
            said = text.replace('"PLACE"', number)
            self.refused(said, "a netlog without sent_time_us in an event that has one")
        self.refused(text.replace('"PLACE"', "NaN"), "NaN is no JSON")

    def test_a_source_that_is_no_number(self) -> None:
        found = End(netlog(sent(0, 1, source=[1, {}]))).qlog  # type: ignore[arg-type]
        self.assertEqual(found.status, 0)

    def test_nesting(self) -> None:
        for depth in (100_000, 10_000_000):
            self.refused('{"constants":' + "[" * depth, "byte 13: ")

    def test_large_values(self) -> None:
        said = netlog(event("PACKET_SENT", 0, padding="x" * MEBIBYTE))
        self.refused(said, "a value of more than 1,048,576 characters")
        text = "x" * (16 * MEBIBYTE)
        self.refused(f'{{"constants":"{text}"}}', "a value of more than 16,777,216")
        keys = ",".join(f'"{number}":1' for number in range(1_001))
        self.refused(netlog()[:-1] + f",{keys}}}", "an object of more than 1,000 keys")

    def test_many_sessions(self) -> None:
        before = reading.MOST_SESSIONS
        self.addCleanup(setattr, reading, "MOST_SESSIONS", before)
        reading.MOST_SESSIONS = 2
        sessions = [sent(0, 1, source=number) for number in range(3)]
        self.assertEqual(End(netlog(*sessions[:2])).qlog.status, 0)
        self.refused(netlog(*sessions), "a netlog of more than 2 sessions")

    def test_a_netlog_that_changes_between_its_readings(self) -> None:
        def looked_at(file: BinaryIO) -> reading.Netlog:
            found = reading.looked_at(file)
            os.truncate(file.name, Path(file.name).stat().st_size - 1)
            return found

        with mock.patch.object(command, "looked_at", looked_at):
            found = End(netlog(sent(0, 1))).qlog
        told = "netlog-to-qlog: LOG: the file changed while it was read\n"
        self.assertEqual((found.status, found.errors), (3, told))

    def test_names_of_frames(self) -> None:
        names = {f"QUIC_SESSION_{it}_FRAME_SENT": at for at, it in ((20, "\ud800"), (21, "X" * 99))}
        types = TYPES | names
        odd = [{**event("STREAM_FRAME_SENT", 0), "type": number} for number in (20, 21)]
        packet = event("PACKET_SENT", 0, packet_number=1, size=1200, sent_time_us=0)
        text = json.dumps({"constants": {"logEventTypes": types}, "events": [*odd, packet]})
        (record,) = End(text).records
        self.assertEqual(record["data"]["frames"], [{"frame_type": "unknown"}] * 2)

    def test_frames_of_no_packet(self) -> None:
        frames = [event("STREAM_FRAME_SENT", 0)] * 100_000
        (record,) = End(netlog(frames, sent(0, 1))).records
        self.assertLess(len(json.dumps(record)), MEBIBYTE)

    def test_acknowledgments_take_no_longer_than_packets(self) -> None:
        chance, many = random.Random(1), 4_000
        packets = [it for number in range(many) for it in sent(number / 100, number)]
        numbers = chance.sample(range(many), many // 2)
        seconds = []
        for missing in (list[int](), numbers):
            began = time.process_time()
            acks = [it for at in range(20) for it in acked(50 + at, 0, many, *missing)]
            End(netlog(packets, acks))
            seconds.append(time.process_time() - began)
        self.assertLess(seconds[1], 5 * seconds[0])


if __name__ == "__main__":
    unittest.main()
