#!/usr/bin/env python3
"""Compares what captures/aioquic_timers.py finds in aioquic with what docs/reports.md says of it.

Without aioquic only the deadlines of RFC 9002 could be tried, which other tests do, so all is
skipped, and a line says so.
"""

import sys
import unittest

import aioquic_timers

FOUND = aioquic_timers.modules()
MISSING = "aioquic is not installed, so captures/aioquic_timers.py is not tried"


@unittest.skipIf(FOUND is None, MISSING)
class Timers(unittest.TestCase):
    """For what aioquic sets its timer."""

    def setUp(self) -> None:
        assert FOUND is not None
        self.steps = aioquic_timers.steps(FOUND)

    def test_the_first_timeout_is_after_twice_a_tenth_of_a_second(self) -> None:
        first = self.steps[0]
        self.assertEqual((first.aioquic, first.rfc, first.space), (200, 999, "initial"))

    def test_the_peers_delay_counts_in_the_handshake_too(self) -> None:
        second = self.steps[1]
        self.assertEqual((second.aioquic, second.rfc, second.space), (225, 200, "handshake"))

    def test_each_1_rtt_packet_puts_off_the_timeout_of_the_handshake(self) -> None:
        later = self.steps[2:-1]
        self.assertEqual([it.aioquic for it in later], [235, 260, 285, 310, 335])
        self.assertEqual({(it.rfc, it.space) for it in later}, {(200, "handshake")})

    def test_a_timeout_of_1_rtt_packets_is_set_before_confirmation(self) -> None:
        last = self.steps[-1]
        self.assertIsNone(last.rfc)
        self.assertIsNotNone(last.aioquic)

    def test_a_probe_timeout_declares_a_packet_lost_and_asks_for_a_probe(self) -> None:
        assert FOUND is not None
        timeout = aioquic_timers.at_a_timeout(FOUND)
        self.assertEqual(timeout, ((1200, 0), (12000, 6000), 1))


if __name__ == "__main__":
    if FOUND is None:
        print(MISSING, file=sys.stderr)
    unittest.main()
