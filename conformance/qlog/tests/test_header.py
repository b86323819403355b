"""What the header takes from the log."""

import json
import unittest

from .made import End, converted, header, metrics, parameters, received, sent, sequence


class Header(unittest.TestCase):
    """What the header takes from the log."""

    def test_the_values_of_a_log(self) -> None:
        events = [
            parameters(max_ack_delay=26),
            sent(0, 0, size=1230),
            metrics(0, congestion_window=40064, smoothed_rtt=0, latest_rtt=0),
        ]
        line = converted(events, name="quic-go").lines[0]
        said = [line[key] for key in ("max_ack_delay", "max_datagram_size", "initial_window")]
        self.assertEqual(said, [26000, 1252, 40064])
        self.assertEqual(line["initial_rtt"], 66666)

    def test_the_parameters_of_recovery(self) -> None:
        said = {"initial_rtt": 100.0, "max_datagram_size": 1252, "reordering_threshold": 10}
        said |= {"initial_congestion_window": 12520, "time_threshold": 1.125}
        for name in ("recovery:parameters_set", "quic:recovery_parameters_set"):
            for stack in ("something", "quic-go"):
                events = [{"time": 0, "name": name, "data": said}, sent(0, 0, size=1100)]
                end = converted(events, name=stack)
                keys = ("initial_rtt", "max_datagram_size", "initial_window", "packet_threshold")
                values = [end.lines[0][key] for key in keys]
                self.assertEqual(values, [100_000, 1252, 12520, 10])
                self.assertEqual(end.errors, "")

    def test_parameters_of_recovery_that_a_header_cannot_say(self) -> None:
        for said, word in (
            ({"time_threshold": 1.3}, "its time_threshold is 1.3, and that of the header 9/8;"),
            ({"time_threshold": 1.0}, "its time_threshold is 1, and that of the header 9/8;"),
            ({"time_threshold": 4.125}, "its time_threshold is 4.125, and that of the header 9/8;"),
            ({"reordering_threshold": 2}, "its reordering_threshold is 2, which the header does"),
        ):
            event = {"time": 0, "name": "recovery:parameters_set", "data": said}
            end = converted([event, sent(0, 0)])
            self.assertEqual(end.lines[0]["packet_threshold"], 3)
            self.assertIn(f"qlog-to-trace: LOG: {word}", end.errors)

    def test_a_time_threshold_that_the_log_says(self) -> None:
        for said, eighths in ((1.125, 9), (1.25, 10), (1.249, 10), (4, 32)):
            event = {"time": 0, "name": "recovery:parameters_set", "data": {"time_threshold": said}}
            end = converted([event, sent(0, 0)])
            self.assertEqual(end.lines[0]["time_threshold_eighths"], eighths)
            self.assertEqual(end.errors, "")
        end = converted([event, sent(0, 0)], "--time-threshold-eighths", "10")
        self.assertEqual(end.lines[0]["time_threshold_eighths"], 10)
        self.assertIn("its time_threshold is 4, and that of the header 10/8;", end.errors)
        second = converted([event, sent(0, 0)], "--format", "2")
        self.assertNotIn("time_threshold_eighths", second.lines[0])
        self.assertIn("its time_threshold is 4, and that of the header 9/8;", second.errors)

    def test_the_defaults_of_values_that_a_header_cannot_have(self) -> None:
        said = {"initial_rtt": 0, "max_datagram_size": 100, "initial_congestion_window": 1}
        event = {"time": 0, "name": "recovery:parameters_set", "data": said}
        line = converted([event, sent(0, 0)]).lines[0]
        self.assertEqual(line["max_datagram_size"], 1200)
        # RFC 9002, 6.2.2 and 7.2: 333 ms, and ten datagrams if they are no more than 14,720 bytes.
        self.assertEqual((line["initial_rtt"], line["initial_window"]), (333_000, 12_000))
        self.assertEqual(line["max_ack_delay"], 25_000)
        for size, window in ((1472, 14_720), (1500, 14_720), (7_360, 14_720), (8_000, 16_000)):
            line = converted([sent(0, 0, size=size)]).lines[0]
            self.assertEqual(line["initial_window"], window)
        line = converted([sent(0, 0)], "--unit", "ns").lines[0]
        times = (line["initial_rtt"], line["max_ack_delay"])
        self.assertEqual(times, (333_000_000, 25_000_000))
        end = converted([parameters(max_ack_delay=16_384), sent(0, 0)])
        self.assertEqual((end.status, end.text), (2, ""))
        self.assertIn("max_ack_delay is 16384", end.errors)

    def test_the_datagram_size_of_ten_in_the_window(self) -> None:
        line = converted([sent(0, 0), metrics(0, congestion_window=14520, smoothed_rtt=333)])
        self.assertEqual(line.lines[0]["max_datagram_size"], 1452)
        self.assertEqual(line.lines[0]["initial_rtt"], 333000)

    def test_the_three_versions(self) -> None:
        keys = {
            number: set(converted([sent(0, 0)], "--version", str(number)).lines[0])
            for number in (1, 2, 3)
        }
        first = {"event", "version", "role", "max_datagram_size", "max_ack_delay", "initial_rtt"}
        self.assertEqual(keys[1], first | {"initial_window", "x_dialect", "x_guess"})
        exact = {"timer_late_us", "refresh_min_rtt", "report_slack_us", "report_slack_bytes"}
        self.assertEqual(keys[2] - keys[1], exact)
        choices = {"unit", "window", "window_overshoot", "sample_eliciting_only", "reset_rtt"}
        choices |= {"packet_threshold", "timer_early_us", "loss_by_number", "recovery_by_order"}
        choices |= {"threshold_counts", "latest_rtt_less_delay", "time_threshold_eighths"}
        self.assertEqual(keys[3] - keys[2], choices)

    def test_the_options_of_each_kind_of_log(self) -> None:
        keys = ["window_overshoot", "sample_eliciting_only", "timer_early_us"]
        keys += ["report_slack_us", "report_slack_bytes", "loss_by_number"]
        for name, values in (
            ("quic-go", (True, True, 3_000, 1_000, 0, "must")),
            ("ngtcp2", (True, True, 3_000, 2_000, 64, "may")),
            ("aioquic", (False, False, 1_000, 1_000, 64, "must")),
            ("quinn", (False, False, 1_000, 1_000, 1_200, "must")),
            ("something", (False, False, 10, 10, 0, "must")),
        ):
            events = [sent(0, 0), metrics(0, congestion_window=12000)]
            line = converted(events, name=name).lines[0]
            self.assertEqual(tuple(line[key] for key in keys), values, name)
            said = (line["version"], line["window"], line["packet_threshold"], line["unit"])
            self.assertEqual(said, (3, "reported", 3, "us"), name)

    def test_the_options_of_todays_stacks(self) -> None:
        file = "urn:ietf:params:qlog:file:sequential"
        keys = ("x_dialect", "window_overshoot", "sample_eliciting_only", "timer_early_us")
        for name, schema, values in (
            ("quic-go", "0.3", ("quic-go-0.50", True, True, 3_000)),
            ("quic-go", file, ("quic-go-0.59", True, False, 3_000)),
            ("OpenSSL/3.5.9 (x)", "0.3", ("openssl", True, False, 3_000)),
            ("neqo-Client", "0.3", ("neqo", False, False, 1_000)),
            ("ngtcp2", "0.3", ("ngtcp2", True, True, 3_000)),
        ):
            line = converted([sent(0, 0)], name=name, schema=schema).lines[0]
            self.assertEqual(tuple(line[key] for key in keys), values, name)

    def test_the_window_is_newrenos_where_none_is_logged(self) -> None:
        line = converted([sent(0, 0), metrics(0, bytes_in_flight=1200)]).lines[0]
        self.assertEqual(line["window"], "newreno")
        self.assertIn("no window is logged", line["x_guess"][-1])

    def test_the_unit_is_that_of_the_times(self) -> None:
        for name, time, unit, expected in (
            ("quic-go", 1.5, "us", 1500),
            ("quic-go", 1.000001, "ns", 1_000_001),
            ("something", 1.000001, "ns", 1_000_001),
            # Digits that are those of a float alone.
            ("aioquic", 1.000001, "us", 1000),
        ):
            found = converted([sent(time, 0)], name=name)
            self.assertEqual(found.lines[0]["unit"], unit, name)
            self.assertEqual(found.only("sent")[0]["time"], expected, name)

    def test_version_2_has_microseconds(self) -> None:
        self.assertEqual(converted([sent(1.0009, 0)], "--version", "2").lines[1]["time"], 1000)

    def test_nanoseconds(self) -> None:
        events = [parameters(max_ack_delay=25), sent(1.5, 0), received(2, [[0]], delay=0.5)]
        found = converted(events, "--unit", "ns")
        self.assertEqual(found.lines[0]["max_ack_delay"], 25_000_000)
        self.assertEqual(found.only("ack")[0]["time"], 2_000_000)
        self.assertEqual(found.only("ack")[0]["delay"], 500_000)

    def test_options_of_the_command_line(self) -> None:
        for option, key, text, value in (
            ("--slack-us", "report_slack_us", "7", 7),
            ("--slack-bytes", "report_slack_bytes", "8", 8),
            ("--timer-late-us", "timer_late_us", "9", 9),
            ("--refresh-min-rtt", "refresh_min_rtt", "yes", True),
            ("--window", "window", "newreno", "newreno"),
            ("--window-overshoot", "window_overshoot", "no", False),
            ("--sample-eliciting-only", "sample_eliciting_only", "no", False),
            ("--packet-threshold", "packet_threshold", "4", 4),
            ("--timer-early-us", "timer_early_us", "0", 0),
            ("--loss-by-number", "loss_by_number", "may", "may"),
            ("--loss-by-number", "loss_by_number", "must", "must"),
            ("--threshold-counts", "threshold_counts", "packets", "packets"),
            ("--reset-rtt", "reset_rtt", "yes", True),
            ("--latest-rtt-less-delay", "latest_rtt_less_delay", "yes", True),
            ("--time-threshold-eighths", "time_threshold_eighths", "32", 32),
            ("--recovery-by-order", "recovery_by_order", "yes", True),
        ):
            events = [sent(0, 0), metrics(0, congestion_window=12000)]
            self.assertEqual(converted(events, option, text).lines[0][key], value)

    def test_losses_may_be_declared_where_the_window_is_reported(self) -> None:
        with_window = [sent(0, 0), metrics(0, congestion_window=12000)]
        without = [sent(0, 0), metrics(0, bytes_in_flight=1200)]
        for events, options in ((without, ()), (with_window, ("--window", "newreno"))):
            line = converted(events, *options, name="ngtcp2").lines[0]
            self.assertEqual((line["window"], line["loss_by_number"]), ("newreno", "must"))
            may = converted(events, *options, "--loss-by-number", "may", name="ngtcp2")
            self.assertEqual((may.status, may.lines), (2, []))
            self.assertIn("its losses may be declared only if", may.errors)
        must = converted(with_window, "--loss-by-number", "must", name="ngtcp2")
        self.assertEqual(must.lines[0]["loss_by_number"], "must")

    def test_a_sender_that_counts_packets(self) -> None:
        file = "urn:ietf:params:qlog:file:sequential"
        for schema, said in ((file, "packets"), ("0.3", "numbers")):
            events = [sent(0, 0), sent(0, 2), metrics(0, congestion_window=12000)]
            line = converted(events, name="quic-go", schema=schema).lines[0]
            self.assertEqual(line["threshold_counts"], said, schema)
            self.assertEqual(line["loss_by_number"], "must", schema)
        named = converted(events, "--threshold-counts", "numbers", name="quic-go", schema=file)
        self.assertEqual(named.lines[0]["threshold_counts"], "numbers")

    def test_a_sender_that_resets_the_rtt(self) -> None:
        first = {"smoothed_rtt": 333, "rtt_variance": 166}
        later = {"smoothed_rtt": 46, "rtt_variance": 4, "latest_rtt": 35}
        again = {**first, "latest_rtt": 35}
        for name, reports, said in (
            ("ngtcp2", (later, again), True),
            ("ngtcp2", (later, later), False),
            ("ngtcp2", (again, later), False),
            ("neqo", (later, again), False),
        ):
            events = [sent(0, 0), metrics(0, congestion_window=12000, **first)]
            events.append(received(40, [[0]]))
            events += [metrics(40 + at, **report) for at, report in enumerate(reports)]
            line = converted(events, name=name).lines[0]
            self.assertEqual(line["reset_rtt"], said, (name, reports))

    def test_recovery_goes_by_the_order_if_times_can_be_equal(self) -> None:
        for name, time, said in (
            ("neqo", 1.25, True),
            ("ngtcp2", 1, True),
            ("quic-go", 1, True),
            ("quic-go", 1.25, False),
        ):
            line = converted([sent(0, 0), sent(time, 1)], name=name).lines[0]
            self.assertEqual(line["recovery_by_order"], said, (name, time))

    def test_which_side(self) -> None:
        traces = [{**header(role=it), "events": [sent(0, 0)]} for it in ("server", "client")]
        text = json.dumps({"traces": traces})
        self.assertEqual(End(text).lines[0]["role"], "server")
        self.assertEqual(End(text, "--vantage", "client").lines[0]["role"], "client")
        log = sequence(header(role="unknown"), [sent(0, 0)])
        self.assertEqual(End(log, "--vantage", "client").lines[0]["role"], "client")
        self.assertEqual(End(sequence(header(), [sent(0, 0)]), "--vantage", "client").status, 2)

    def test_guesses_are_told_on_the_line_and_counted(self) -> None:
        end = converted([sent(0, 0)], "--notes")
        self.assertEqual(len(end.lines[0]["x_guess"]), 3)
        self.assertEqual(end.errors.count("guessed 1: "), 3)
