"""Pages of two traces in a headless Chromium: one span, one cursor, and links between the two."""

import unittest
from typing import Any

from tests.made import CONVERTER, HEADER, joined, made_of_two, sent
from tests.test_browser import EVIL, SMALL, Browsing
from tests.test_logs import REAL
from tests.test_pair import CLIENT, heard, initial

from qaudit_page.converter import Asked
from qaudit_page.logs import taken
from qaudit_page.places import place_of

# In the clock of the client, packet n of the client is sent at 100 n ms; the clock of the server is
# 1,000 ms ahead.
BEGIN = (initial(0, 0), heard(0, 20))
CLIENT_END = (CLIENT, *BEGIN, *(sent(n, 100_000 * n) for n in range(1, 10)))
SERVER_END = (HEADER, initial(0, 1_010), *(sent(n, 1_050_000 + 100_000 * n) for n in range(1, 10)))
RUNS = ("first", "second")
MARKED = "return [...document.querySelectorAll('.run.active')].map(it => it.id)"
TOP = "return document.querySelector(arguments[0]).getBoundingClientRect().top"


class Together(Browsing):
    """Both ends of a connection."""

    page = ""

    @classmethod
    def setUpClass(cls) -> None:
        super().setUpClass()
        cls.page = made_of_two(joined(*CLIENT_END), joined(*SERVER_END))

    def of(self, run: str, what: str) -> Any:
        """What a run says of itself."""
        return self.browser.run(f"return qauditPage[{run!r}].{what}")

    def spans(self) -> list[list[float]]:
        """What both show."""
        return [[self.of(run, "view.from"), self.of(run, "view.to")] for run in RUNS]

    def lines(self) -> list[int | None]:
        """The lines that are selected in both."""
        return [self.of(run, "selected()") for run in RUNS]

    def cursors(self) -> list[list[float]]:
        """Where the cursors of both are, in pixels from the left of the page."""
        return [
            self.browser.run(
                "return [...document.querySelectorAll(`#${arguments[0]}-run .cursor`)]"
                ".filter(it => !it.hidden).map(it => it.getBoundingClientRect().left)",
                run,
            )
            for run in RUNS
        ]

    def test_one_axis(self) -> None:
        self.show(self.page)
        first, second = self.spans()
        self.assertEqual(first, second)
        # Packet 3 of the client was sent at 300 ms, and that of the server at 350 ms.
        x = [self.of("first", "view.x[5]"), self.of("second", "view.x[4]")]
        self.assertEqual(x, [300, 350])
        self.assertLess(first[0], 0)
        self.assertGreater(first[1], 950)
        charts = [f"#{run}-chart-{name}" for run in RUNS for name in ("packets", "rtt")]
        self.assertEqual(len({self.box(f"{chart} canvas")[0] for chart in charts}), 1)

    def test_one_span(self) -> None:
        self.show(self.page)
        whole = self.spans()[0]
        self.key("+")
        self.assert_both_show(whole, 0.5)
        self.click("zoom-in")
        # One click zooms once, and not once for each run.
        self.assert_both_show(whole, 0.25)
        self.drag(*self.inside("second"), 200)
        dragged = self.spans()
        self.assertEqual(dragged[0], dragged[1])
        self.click("pan-right")
        self.assertNotEqual(self.spans(), dragged)
        self.assertEqual(*self.spans())
        self.key("0")
        self.assert_both_show(whole, 1)

    def click(self, name: str) -> None:
        """A button that both share is clicked."""
        self.browser.run("document.getElementById(arguments[0]).click()", name)
        self.browser.settled()

    def assert_both_show(self, whole: list[float], share: float) -> None:
        """Both show one span, which is such a share of the whole."""
        first, second = self.spans()
        self.assertEqual(first, second)
        self.assertAlmostEqual(first[1] - first[0], share * (whole[1] - whole[0]), places=6)

    def inside(self, run: str) -> tuple[float, float]:
        """A place in the packets of a run."""
        left, top, width, _ = self.box(f"#{run}-chart-packets")
        return left + width * 0.6, top + 60

    def test_one_cursor(self) -> None:
        self.show(self.page)
        for run, other in (RUNS, RUNS[::-1]):
            x, y = self.inside(run)
            self.mouse("mouseMoved", x, y)
            self.browser.settled()
            both = self.cursors()
            # One in each of the four diagrams of both, and all at one place.
            self.assertEqual([len(it) for it in both], [4, 4])
            lefts = [left for it in both for left in it]
            self.assertLess(max(lefts) - min(lefts), 0.01)
            self.assertIn("under the cursor", self.text(f"#{run}-panel"))
            self.assertIn("at the same time", self.text(f"#{other}-panel"))
        self.mouse("mouseMoved", 5, 5)
        self.browser.settled()
        self.assertEqual(self.cursors(), [[], []])

    def test_the_line_at_the_same_time(self) -> None:
        self.show(self.page, "#first=6")
        # Line 6 of the client is packet 3, at 300 ms: the server had sent packet 2, at 250 ms.
        self.assertEqual(self.lines(), [6, None])
        link = "#first-panel .other a"
        self.assertEqual(self.text(link), "second.trace at the same time: line 4")
        hashed = f"return document.querySelector('{link}').hash"
        self.assertEqual(self.browser.run(hashed), "#second=4")
        self.browser.run(f"document.querySelector('{link}').click()")
        self.browser.settled()
        self.assertEqual(self.lines(), [6, 4])
        self.assertEqual(self.browser.run("return location.hash"), "#second=4")
        back = "#second-panel .other a"
        # At 250 ms the client had sent packet 2, at 200 ms.
        self.assertEqual(self.text(back), "first.trace at the same time: line 5")
        self.assertIn("Line 4 at 1,250 ms", self.text("#second-panel"))
        self.assertIn("at 250 ms on the axis", self.text("#second-panel"))

    def test_before_the_other_begins(self) -> None:
        self.show(self.page, "#first=2")
        self.assertIn("second.trace begins later", self.text("#first-panel"))

    def test_keys_are_for_the_run_that_was_used_last(self) -> None:
        self.show(self.page)
        self.key("Home")
        self.assertEqual(self.lines(), [1, None])
        x, y = self.inside("second")
        self.mouse("mousePressed", x, y)
        self.mouse("mouseReleased", x, y)
        self.browser.settled()
        self.assertEqual(self.browser.run(MARKED), ["second-run", "second-below"])
        self.key("End")
        self.assertEqual(self.lines(), [1, len(SERVER_END)])
        self.key("?")
        self.assertTrue(self.browser.run("return document.getElementById('help').open"))
        self.key("?")
        self.assertFalse(self.browser.run("return document.getElementById('help').open"))

    def test_an_address_of_the_second(self) -> None:
        self.show(self.page, "#second=5")
        self.assertEqual(self.lines(), [None, 5])
        self.assertEqual(self.text("#second-rows .selected th"), "5")
        self.assertEqual(self.browser.run(MARKED), ["second-run", "second-below"])
        self.assertEqual(*self.spans())

    def test_a_line_that_is_not_there(self) -> None:
        self.show(self.page, "#second=500")
        told = "second.trace: Line 500 is not in this page, which has lines 1 to 11 of 11."
        self.assertEqual(self.text("#trouble"), told)

    def test_widths(self) -> None:
        try:
            for width in (1900, 1400, 1000, 390):
                self.browser.resize(width, 900)
                self.show(self.page)
                wide = self.browser.run("return document.documentElement.scrollWidth")
                self.assertLessEqual(wide, width)
                tops = [self.browser.run(TOP, f"#{run}-run") for run in RUNS]
                # Side by side on a wide screen, and else below each other.
                self.assertEqual(tops[0] == tops[1], width >= 1800)
        finally:
            self.browser.resize(1200, 900)


class Parting(Browsing):
    """Two runs of one stack."""

    def test_it_opens_where_they_part(self) -> None:
        other = (*SMALL[:10], sent(7, 130_000, size=1_000), *SMALL[11:])
        self.show(made_of_two(joined(*SMALL), joined(*other)))
        lines = [self.browser.run(f"return qauditPage.{it}.selected()") for it in RUNS]
        self.assertEqual(lines, [11, 11])
        view = "qauditPage.first.view"
        low, high = self.browser.run(f"return [{view}.from, {view}.to]")
        self.assertTrue(low < 122 < high)
        self.browser.run("document.querySelector('#parting a[href^=\"#second\"]').click()")
        self.browser.settled()
        self.assertEqual(self.browser.run("return location.hash"), "#second=11")

    def test_one_without_lines(self) -> None:
        self.show(made_of_two(joined(*SMALL), b""))
        self.assertIn("second.trace: The trace has no line.", self.text("#trouble"))
        self.assertEqual(self.browser.run("return Object.keys(qauditPage)"), ["first"])
        self.key("Home")
        self.assertEqual(self.browser.run("return qauditPage.first.selected()"), 1)

    def test_traces_and_names_that_mean_harm(self) -> None:
        evil = joined(HEADER, sent(0), f'{{"event":"sent","x":"{EVIL}"}}', EVIL)
        self.show(made_of_two(evil, joined(HEADER, sent(0)), EVIL, f"{EVIL}2"), "#first=3")
        self.browser.settled()
        self.assertIsNone(self.browser.run("return window.pwned ?? null"))
        self.assertIn("<script>window.pwned=1", self.text("#parting"))
        self.assertIn("<img src=x", self.text("#first-panel .other"))
        self.assertIn("\\u{202e}", self.text("#first-panel .other"))
        self.assertNotIn("\u202e", self.browser.run("return document.body.innerText"))
        count = "return document.querySelectorAll('img, svg').length"
        self.assertEqual(self.browser.run(count), 0)


class Logs(Browsing):
    """The logs of both ends of an upload."""

    def test_where_in_the_log_a_line_is_from(self) -> None:
        client, server = (
            taken(REAL / f"ngtcp2-upload-{side}.qlog", Asked(CONVERTER)).data
            for side in ("client", "server")
        )
        self.show(made_of_two(client, server), "#second=20")
        for run, data in zip(RUNS, (client, server), strict=True):
            line = self.browser.run(f"return qauditPage[{run!r}].selected()")
            place = place_of(data.split(b"\n")[line - 1])
            assert place, line
            self.assertEqual(self.text(f"#{run}-panel .origin"), place.text)


if __name__ == "__main__":
    unittest.main()
