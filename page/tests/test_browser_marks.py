"""Marks at their places, by the labels of the axes and the colours of the picture."""

import base64
import json
import re
import unittest
import zlib
from typing import Any

from tests.made import HEADER, TRACES, acked, joined, made, report_of, sent
from tests.pixels import Scale
from tests.test_browser import REFUSED, SMALL, Browsing


class Marks(Browsing):
    """Marks at their places, by the labels of the axes and the colours of the picture."""

    page = ""

    @classmethod
    def setUpClass(cls) -> None:
        super().setUpClass()
        cls.page = made(joined(*SMALL), is_strict=True)

    def deselected(self) -> None:
        """Selects a line away from what is looked at."""
        self.key("Home")
        self.key("0")

    def test_window(self) -> None:
        self.show(self.page)
        self.assertEqual(self.selected(), REFUSED)
        self.deselected()
        at = Scale(self.browser, "window")
        self.assertTrue(at.has(50, 12_000, "app"), "the window before the loss")
        self.assertTrue(at.has(160, 6_000, "app"), "the window behind the loss")
        self.assertTrue(at.has(160, 6_000, "app") and not at.has(160, 9_000, "app"))
        self.assertTrue(at.has(60, 6_000, "flight"), "five packets in flight")
        self.assertTrue(at.has(200, 7_200, "refused"), "the cross at what is refused")
        self.assertFalse(at.has(180, 7_200, "refused"))
        self.assertFalse(at.has(280, 6_000, "app"), "no state behind the verdict")

    def test_headroom(self) -> None:
        self.show(self.page)
        self.deselected()
        at = Scale(self.browser, "headroom")
        self.assertTrue(at.has(160, 2_400, "flight"), "three packets in a window of 6,000")
        self.assertTrue(at.has(200, -1_200, "refused"), "the packet that has no room")
        self.assertFalse(at.has(180, -1_200, "refused"))
        self.show(made(joined(*SMALL)))
        self.deselected()
        at = Scale(self.browser, "headroom")
        self.assertTrue(at.has(250, -700, "refused"), "past the window until the acknowledgment")
        self.assertFalse(at.has(305, -700, "refused"))

    def test_the_axis_fits_what_is_seen(self) -> None:
        """The next report, out of sight, has 54,598 bytes, and the window is 40,064."""
        path = TRACES.parent / "real" / "traces" / "quic-go-past-window.trace"
        self.show(made(path.read_bytes(), report_of(path)), "#line=93")
        for _ in range(8):
            self.key("+")
        labels = (
            "return [...document.querySelectorAll('#chart-window .dygraph-axis-label-y')]"
            "  .map(it => parseFloat(it.textContent.replaceAll(',', '')))"
        )
        found = self.browser.run(labels)
        self.assertGreater(min(found), 30_000)
        self.assertLess(max(found), 50_000)
        self.key("0")
        self.assertEqual(min(self.browser.run(labels)), 0)

    def test_packets(self) -> None:
        self.show(self.page)
        self.deselected()
        at = Scale(self.browser, "packets-app")
        self.assertTrue(at.has(10, 1, "app"), "packet 1")
        self.assertTrue(at.has(40, 4, "app"), "packet 4")
        self.assertFalse(at.has(10, 4, "app"))
        self.assertTrue(at.has(100, 0, "lost") and at.has(100, 2, "lost"), "declared lost")
        self.assertFalse(at.has(100, 3, "lost"))
        self.assertTrue(at.has(310, 9, "soft"), "a packet that was not judged is grey")
        self.assertFalse(at.has(310, 9, "app"))
        self.assertTrue(at.has(200, 6, "refused"), "the line of the verdict")
        self.assertTrue(at.has(127, 7, "app"), "packet 7, which was judged")
        self.assertTrue(at.has(300, 7, "soft"), "its acknowledgment, which was not")
        self.assertFalse(at.has(300, 7, "app"))

    def test_rtt(self) -> None:
        self.show(self.page)
        self.deselected()
        at = Scale(self.browser, "rtt")
        self.assertTrue(at.has(150, 60, "latest"), "the first sample")
        found = self.browser.run("return qauditPage.ranges().rtt")
        self.assertLess(found[1], 100, "the loss delay and the probe timeout are on another lane")
        header = HEADER.replace('"version":1', '"version":1,"initial_rtt":60000')
        confirmed = '{"event":"confirmed","time":0}'
        later = (acked(60_000, (0, 0)), sent(1, 70_000), sent(2, 200_000))
        self.show(made(joined(header, confirmed, sent(0), *later)))
        self.deselected()
        at = Scale(self.browser, "packets-timer")
        self.assertTrue(at.has(170, 67.5, "lost"), "the loss delay")
        self.assertTrue(at.has(170, 60 + 120 + 25, "timer"), "the probe timeout")

    def test_a_silence_says_what_is_in_flight(self) -> None:
        texts = (
            "const said = []; const fill = CanvasRenderingContext2D.prototype.fillText;"
            "CanvasRenderingContext2D.prototype.fillText = function (text, ...more) {"
            "  said.push(text); return fill.call(this, text, ...more); };"
            "window.saidTexts = said;"
        )
        header = HEADER.replace('"version":1', '"version":2,"timer_late_us":1000')
        data = joined(
            header,
            '{"event":"confirmed","time":0}',
            sent(0, 0),
            sent(1, 10),
            '{"event":"metrics","time":9000000}',
        )
        self.show(made(data))
        self.browser.run(texts)
        self.key("+")
        self.key("0")
        said = self.browser.run("return window.saidTexts")
        wanted = "8,999.99 ms without an event, 2,400 B in flight, 7,975.99 ms past the deadline"
        self.assertIn(wanted, said)

    def test_lines_of_the_rtt_diagram_are_those_of_the_second_machine(self) -> None:
        from tests.test_columns import states

        path = TRACES / "quinn-handshake-loss.trace"
        data, report = path.read_bytes(), report_of(path)
        self.show(made(data, report))
        lines = self.browser.run(
            "return [[...qauditPage.lines.timer.lossDelay], [...qauditPage.lines.timer.timeout]]"
        )
        met = 0
        for line, sender, _ in states(data, report):
            if sender.first_rtt_sample is not None:
                met += 1
                self.assertAlmostEqual(lines[0][line - 1], sender.loss_delay / 1000)
                timeout = sender.pto_base + sender.settings.max_ack_delay
                self.assertAlmostEqual(lines[1][line - 1], timeout / 1000)
        self.assertGreater(met, 50)


class WrongPages(Browsing):
    """Wrong pages, which the marks at their places have to tell from right ones."""

    def changed(
        self, change: Any, trace: tuple[str, ...] = SMALL, *, is_strict: bool = True
    ) -> str:
        """The page of a small trace with other columns."""
        text = made(joined(*trace), is_strict=is_strict)
        block = re.search(r'id="data">([^<]*)<', text)
        assert block is not None
        data = json.loads(zlib.decompress(base64.b64decode(block[1])))
        change(data)
        packed = base64.b64encode(zlib.compress(json.dumps(data).encode())).decode()
        return text.replace(block[1], packed)

    def test_a_state_past_the_verdict(self) -> None:
        def change(data: Any) -> None:
            data["unjudged"] = None

        self.show(self.changed(change))
        self.key("Home")
        self.key("0")
        self.assertTrue(Scale(self.browser, "window").has(280, 6_000, "app"))

    def test_a_row_shifted_by_one(self) -> None:
        def change(data: Any) -> None:
            by = data["state"]["window"]["by"]
            by.insert(0, 12_000)
            by[1] = 0
            by.pop()

        self.show(self.changed(change))
        self.key("Home")
        self.key("0")
        self.assertTrue(Scale(self.browser, "window").has(101, 12_000, "app"))

    def test_a_departure_that_is_not_marked(self) -> None:
        def change(data: Any) -> None:
            data["departures"][0]["lines"].pop()

        trace = (HEADER, *(sent(n) for n in range(10)), sent(10, 50_000), sent(11, 100_000))
        for page, is_marked in (
            (made(joined(*trace)), True),
            (self.changed(change, trace, is_strict=False), False),
        ):
            self.show(page)
            self.key("Home")
            self.key("0")
            self.assertEqual(Scale(self.browser, "window").has(100, 14_400, "faint"), is_marked)

    def test_a_trace_that_ends_at_another_line(self) -> None:
        def change(data: Any) -> None:
            data["unjudged"] = REFUSED + 1

        self.show(self.changed(change, is_strict=False))
        self.key("Home")
        self.key("0")
        self.assertFalse(Scale(self.browser, "packets-app").has(310, 9, "app"))

    def test_a_packet_at_another_number(self) -> None:
        def change(data: Any) -> None:
            data["packets"]["number"]["by"][1] += 1

        self.show(self.changed(change))
        self.key("Home")
        self.key("0")
        self.assertFalse(Scale(self.browser, "packets-app").has(10, 1, "app"))


if __name__ == "__main__":
    unittest.main()
