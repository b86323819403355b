"""What the events of a log give."""

import unittest

from .made import converted, lost, metrics, received, sent


class Events(unittest.TestCase):
    """What the events of a log give."""

    def test_frames_decide_what_a_packet_is(self) -> None:
        kinds = (("ack",), ("ack", "padding"), ("ping",))
        found = converted([sent(0, n, frames=it) for n, it in enumerate(kinds)]).only("sent")
        marks = [(it["eliciting"], it["in_flight"]) for it in found]
        self.assertEqual(marks, [(False, False), (False, True), (True, True)])

    def test_losses_before_the_packet_that_shows_them(self) -> None:
        shown = [lost(20, 1), lost(20, 0), received(20, [[2, 4]])]
        events = [*(sent(0, n) for n in range(5)), *shown, metrics(20, congestion_window=7000)]
        found = converted(events)
        self.assertEqual(found.kinds[6:9], ["ack", "lost", "metrics"])
        self.assertEqual(found.only("lost")[0]["ranges"], [[0, 1]])

    def test_losses_after_the_packet_that_shows_them(self) -> None:
        shown = [received(20, [[2, 4]]), lost(20, 0), lost(20, 1)]
        events = [*(sent(0, n) for n in range(5)), *shown, metrics(20, congestion_window=7000)]
        self.assertEqual(converted(events, name="quic-go").kinds[6:9], ["ack", "lost", "metrics"])

    def test_a_loss_that_nothing_shows_is_one_of_a_timer(self) -> None:
        rtt = metrics(20, latest_rtt=19, smoothed_rtt=19, min_rtt=19)
        events = [sent(0, 0), sent(1, 1), received(20, [[1]]), rtt, lost(23, 0), sent(23, 2)]
        found = converted(events)
        self.assertEqual(found.kinds[-3:], ["timer", "lost", "sent"])
        timer = found.only("timer")[0]
        self.assertEqual((timer["kind"], timer["time"]), ("loss", 23000))
        self.assertIn("loss timer", timer["x_guess"][0])

    def test_a_loss_behind_a_packet_without_an_ack(self) -> None:
        events = [sent(0, 0), sent(1, 1), received(20, None, frames=("ping",)), lost(20, 0)]
        timed = [*events[:2], received(10, [[1]]), *events[2:]]
        for name, log, last in (
            ("quic-go", events, ["sent", "lost"]),
            ("aioquic", events, ["sent", "lost"]),
            ("quic-go", timed, ["ack", "lost"]),
            ("aioquic", timed, ["ack", "timer", "lost"]),
        ):
            kinds = converted(log, name=name).kinds
            self.assertEqual(kinds[-len(last) :], last, name)

    def test_a_window_is_told_before_the_next_packet(self) -> None:
        rtt = metrics(20, latest_rtt=19, smoothed_rtt=19, congestion_window=13000)
        log = [sent(0, 0), metrics(0, congestion_window=12000)]
        log += [sent(1, 1), received(20, [[1]]), rtt]
        # The log tells of what the loss did to the window behind the next packet.
        log += [lost(23, 0), sent(24, 2), metrics(24, congestion_window=6500)]
        found = converted(log)
        last = ["ack", "metrics", "timer", "lost", "metrics", "sent", "metrics"]
        self.assertEqual(found.kinds[-len(last) :], last)
        line = {"event": "metrics", "time": 24000, "window": 6500}
        self.assertEqual(found.lines[-3], line)
        for words in (("--window", "newreno"), ("--version", "2")):
            kinds = converted(log, *words).kinds
            self.assertEqual(kinds[-4:], ["timer", "lost", "sent", "metrics"])

    def test_the_report_of_a_window_stands_behind_the_lost_line(self) -> None:
        acks = [received(20, [[2, 4]]), lost(20, 0), metrics(20, congestion_window=6000)]
        acks += [metrics(20, congestion_window=6100), sent(21, 5)]
        for name in ("quic-go", "aioquic"):
            found = converted([*(sent(0, n) for n in range(5)), *acks], name=name)
            self.assertEqual(found.kinds[6:9], ["ack", "lost", "metrics"])
            before = found.lines[: found.kinds.index("sent", 6)]
            self.assertEqual(before[-1]["window"], 6100)

    def test_an_acknowledgment_that_is_logged_late(self) -> None:
        for name, came, delay, latest, before, time in (
            # The sample is 20 milliseconds by the log.
            ("quic-go", 20, 0, 16, (), 16_000),
            ("quic-go", 20, 0, 19.5, (), 20_000),
            # The delay was taken off, or may have been; a stall.
            ("quic-go", 20, 4, 16, (), 20_000),
            ("quic-go", 20, 2, 16, (), 16_000),
            ("quic-go", 20, 0, 9, (), 20_000),
            # Something is logged between, or the values are not reported late.
            ("quic-go", 20, 0, 16, (sent(17, 1),), 20_000),
            ("aioquic", 20, 0, 16, (), 20_000),
        ):
            report = metrics(came, latest_rtt=latest, min_rtt=latest, smoothed_rtt=latest)
            events = [sent(0, 0), *before, received(came, [[0]], delay=delay), report]
            if name == "aioquic":
                events[-2:] = reversed(events[-2:])
            found = converted(events, name=name)
            with self.subTest(name=name, delay=delay, latest=latest, before=len(before)):
                self.assertEqual(found.only("ack")[0]["time"], time)
                self.assertEqual("x_guess" in found.only("ack")[0], time != 20_000)

    def test_values_behind_a_loss_that_nothing_shows(self) -> None:
        events = [sent(0, 0), lost(20, 0), metrics(20, congestion_window=6000)]
        found = converted(events, name="quic-go")
        self.assertEqual(found.kinds, ["header", "sent", "lost", "metrics"])

    def test_losses_that_nothing_can_show_stand_alone(self) -> None:
        first = [sent(0, 0, "handshake"), sent(0, 1, "handshake")]
        log = [received(20, [[0]], "handshake"), metrics(20, congestion_window=13000)]
        log += [lost(220, 1, "handshake"), metrics(220, congestion_window=6500)]
        found = converted([*first, *log], "--notes", name="aioquic")
        last = ["ack", "metrics", "lost", "metrics"]
        self.assertEqual(found.kinds[-len(last) :], last)
        self.assertEqual(found.only("lost")[0]["time"], 220_000)
        self.assertIn("left out 1: a loss that neither", found.errors)

    def test_a_loss_of_what_is_acknowledged_at_once_is_one_of_a_timer(self) -> None:
        events = [sent(0, 0), sent(0, 1), received(20, [[1]]), lost(23, 0), received(23, [[0, 1]])]
        self.assertEqual(converted(events).kinds[-3:], ["timer", "lost", "ack"])

    def test_a_loss_at_a_later_time_is_one_of_a_timer(self) -> None:
        first = [sent(0, 0), sent(1, 1), sent(2, 2)]
        for events, last in (
            ([received(20, [[2]]), lost(23, 0), sent(23, 3)], ["ack", "timer", "lost", "sent"]),
            ([received(20, [[2]]), lost(20, 0), sent(23, 3)], ["ack", "lost", "sent"]),
            # Each time has a timer of its own.
            ([received(20, [[2]]), lost(23, 0), lost(24, 1)], ["timer", "lost", "timer", "lost"]),
        ):
            kinds = converted(first + events, name="OpenSSL/3.6.5").kinds
            self.assertEqual(kinds[-len(last) :], last)

    def test_a_loss_by_number_is_shown_although_the_clock_went_on(self) -> None:
        events = [*(sent(0, n) for n in range(5)), received(20, [[2, 4]]), lost(21, 0), lost(21, 1)]
        kinds = converted(events, name="OpenSSL/3.6.5").kinds
        self.assertEqual(kinds[-2:], ["ack", "lost"])

    def test_a_trace_begins_behind_a_retry(self) -> None:
        retry = received(50, None, "retry")
        first = [sent(0, 0, "initial"), sent(0, 1, "initial"), retry, lost(50, 0, "initial")]
        rest = [sent(50, 2, "initial"), received(100, [[2]], "initial"), lost(100, 1, "initial")]
        end = converted(first + [retry] + rest, "--notes", name="OpenSSL/3.6.5", role="client")
        self.assertEqual(end.kinds, ["header", "sent", "ack"])
        self.assertEqual(end.only("sent")[0]["number"], 2)
        self.assertIn("the trace begins after the Retry at line 4; packets before", end.errors)
        self.assertIn("left out 2: a loss of a packet that was sent before a Retry", end.errors)
        closing = sent(120, 3, frames=("connection_close",))
        end = converted([*first, *rest, closing], name="OpenSSL/3.6.5", role="client")
        self.assertIn("the trace begins after the Retry at line 4; packets before", end.errors)

    def test_a_retry_whose_type_stands_beside_the_header(self) -> None:
        retry = received(50, None, "retry")
        retry["data"] = {"header": {}, "type": "retry", "frames": []}
        rest = [sent(50, 1, "initial"), received(90, [[1]], "initial")]
        end = converted([sent(0, 0, "initial"), retry, *rest], name="OpenSSL/3.6.5", role="client")
        self.assertIn("the trace begins after the Retry at line 3; packets before", end.errors)

    def test_a_retry_that_is_not_logged_shows_by_where_initial_packets_go(self) -> None:
        first, second, third = (sent(it * 40, it, "initial") for it in range(3))
        for event, destination in ((first, "aa"), (second, "bb"), (third, "cc")):
            event["data"]["header"]["dcid"] = destination
        measured = metrics(39, latest_rtt=38, smoothed_rtt=38, min_rtt=38, bytes_in_flight=0)
        rest = [received(79, [[1]], "initial"), third]
        end = converted([first, measured, second, *rest], name="neqo", role="client")
        self.assertEqual([line["number"] for line in end.only("sent")], [1, 2])
        self.assertEqual(end.lines[0]["initial_rtt"], 38_000)
        self.assertIn("after a Retry that is not in the log, at line 4; packets", end.errors)
        # The server names itself in its first packet.
        end = converted([first, received(39, [[0]], "initial"), third], name="neqo", role="client")
        self.assertEqual((len(end.only("sent")), end.errors), (2, ""))

    def test_a_rise_of_the_count_is_a_probe_timeout(self) -> None:
        first = [sent(0, 0, "initial"), metrics(0, pto_count=0)]
        found = converted([*first, sent(999, 1, "initial"), metrics(999, pto_count=1)])
        self.assertEqual(found.kinds, ["header", "sent", "timer", "sent"])
        self.assertEqual(found.only("timer")[0]["kind"], "pto")
        self.assertEqual(found.only("sent")[1]["leave"], "probe")
        self.assertIn("pto_count", found.only("timer")[0]["x_guess"][0])

    def test_a_ping_with_nothing_in_flight_is_that_of_a_program(self) -> None:
        events = [sent(0, 0), received(20, [[0]]), sent(300, 1, frames=("ping",))]
        self.assertEqual(converted(events, name="aioquic").only("timer"), [])
        # The handshake has a probe timeout with nothing in flight too (RFC 9002, 6.2.2.1).
        probe = sent(300, 0, "handshake", frames=("ping",))
        found = converted([*events[:2], probe], name="aioquic", role="client")
        self.assertEqual(len(found.only("timer")), 1)

    def test_a_ping_is_a_probe_but_for_those_that_ask_for_acknowledgments(self) -> None:
        for number, ranges, is_probe in (
            (8, [[0, 1], [3, 4]], False),
            (9, [[0, 1], [3, 4]], True),
            (8, [[0, 4]], True),
        ):
            ping = sent(300, number)
            ack = {"frame_type": "ack", "ack_delay": 0, "acked_ranges": ranges}
            ping["data"]["frames"] = [ack, {"frame_type": "ping"}]
            found = converted([sent(0, 0), ping], name="aioquic")
            self.assertEqual(bool(found.only("timer")), is_probe, (number, ranges))

    def test_timers_of_the_log(self) -> None:
        data = {"event_type": "expired", "timer_type": "pto"}
        data |= {"packet_number_space": "application_data"}
        expired = {"time": 200.5, "name": "recovery:loss_timer_updated", "data": data}
        found = converted([sent(0, 0), expired], name="quic-go").only("timer")
        line = {"event": "timer", "time": 200500, "kind": "pto", "space": "app"}
        self.assertEqual(found, [line])

    def test_a_client_discards_initial_with_its_first_handshake_packet(self) -> None:
        data = {"key_type": "client_initial_secret"}
        retired = {"time": 1, "name": "security:key_retired", "data": data}
        events = [
            sent(0, 0, "initial"),
            retired,
            sent(1, 1, "initial", frames=("ack",)),
            sent(1, 0, "handshake", frames=("crypto",)),
        ]
        kinds = converted(events, name="quic-go", role="client").kinds
        self.assertEqual(kinds, ["header", "sent", "sent", "discard", "sent"])

    def test_discards_of_a_server_that_logs_none(self) -> None:
        events = [
            sent(0, 0, "initial", 163, ("crypto",)),
            metrics(0, bytes_in_flight=163),
            received(30, None, "handshake", frames=("crypto",)),
            metrics(30, bytes_in_flight=163),
            received(30, None, frames=("stream",)),
            metrics(30, bytes_in_flight=0),
            sent(31, 0, frames=("handshake_done",)),
        ]
        found = converted(events)
        kinds = [kind for kind in found.kinds if kind != "metrics"]
        expected = ["header", "sent", "discard", "confirmed", "discard", "sent"]
        self.assertEqual(kinds, expected)
        self.assertTrue(all("x_guess" in line for line in found.only("discard")))

    def test_values_that_did_not_change_are_reported_again(self) -> None:
        reports = [
            metrics(0, congestion_window=40064, bytes_in_flight=1200),
            metrics(1, bytes_in_flight=2400),
        ]
        found = converted([sent(0, 0), reports[0], sent(1, 1), reports[1]], name="quic-go")
        self.assertEqual(found.only("metrics")[-1]["window"], 40064)

    def test_no_rtt_is_reported_before_a_sample(self) -> None:
        found = converted([sent(0, 0), metrics(0, smoothed_rtt=333, congestion_window=12000)])
        self.assertEqual(set(found.only("metrics")[0]), {"event", "time", "window"})

    def test_an_endpoint_that_is_closing_is_no_longer_followed(self) -> None:
        closing = received(5, None, frames=("connection_close",))
        self.assertEqual(converted([sent(0, 0), closing, sent(9, 1)]).kinds, ["header", "sent"])

    def test_application_limited(self) -> None:
        name, data = "recovery:congestion_state_updated", {"new": "application_limited"}
        state = {"time": 20, "name": name, "data": data}
        events = [sent(0, 0), received(20, [[0]]), state, metrics(20, bytes_in_flight=0)]
        self.assertTrue(converted(events, name="quic-go").only("ack")[0]["limited"])

    def test_packets_that_leave_with_no_event_are_told(self) -> None:
        events = [sent(0, 0), sent(0, 1), metrics(0, bytes_in_flight=1200)]
        end = converted(events, "--notes", name="quic-go")
        self.assertEqual(end.only("metrics")[0]["x_forgot"], [[0, 0]])
        self.assertIn("left out 1: packets that left the bytes in flight", end.errors)
