"""Pages in a headless browser: what a person does, and what departs from the rules."""

import json
import sys
import tempfile
import unittest
from pathlib import Path
from typing import Any

from tests.browsers import MISSING, Browser, begun
from tests.firefox import Firefox
from tests.made import HEADER, NO_LIBRARY, TRACES, acked, joined, made, report_of, sent
from tests.pixels import Scale

EVIL = (
    "</script><script>window.pwned=1</script><img src=x onerror=window.pwned=2>"
    "<svg/onload=window.pwned=3>\u2028\u202e\u0000"
)
LOST = '{"event":"lost","time":100000,"space":"app","ranges":[[0,2]]}'
# Packets 0 to 2 are lost; packet 8 at 200 ms goes past the window of 6,000 bytes.
SMALL = (
    HEADER,
    *(sent(n, n * 10_000) for n in range(5)),
    acked(100_000, (3, 4)),
    LOST,
    *(sent(n, 120_000 + 1000 * n) for n in range(5, 8)),
    sent(8, 200_000, size=3600),
    acked(300_000, (5, 8)),
    sent(9, 310_000),
)
REFUSED = SMALL.index(sent(8, 200_000, size=3600)) + 1

if MISSING:
    print(f"pages are not tried in a browser: {MISSING}", file=sys.stderr)


@unittest.skipIf(MISSING or NO_LIBRARY, MISSING or NO_LIBRARY)
class Browsing(unittest.TestCase):
    """One browser for all tests of a class."""

    browser: Browser
    folder: tempfile.TemporaryDirectory[str]

    @classmethod
    def setUpClass(cls) -> None:
        cls.browser = begun()
        cls.folder = tempfile.TemporaryDirectory()

    @classmethod
    def tearDownClass(cls) -> None:
        cls.browser.close()
        cls.folder.cleanup()

    def show(self, text: str, fragment: str = "") -> None:
        """Opens a page."""
        page = Path(self.folder.name, "page.html")
        page.write_bytes(text.encode("utf-8", "backslashreplace"))
        self.browser.requests()
        self.browser.open(page, fragment)

    def tearDown(self) -> None:
        """No page says anything on the console or asks for anything."""
        self.assertEqual(self.browser.messages(), [])
        asked = [
            url
            for url in self.browser.requests()
            if not url.startswith(("data:", "about:", "blob:")) and "/page.html" not in url
        ]
        self.assertEqual(asked, [])

    def key(self, key: str, **more: Any) -> None:
        """A key is pressed."""
        event = json.dumps({"key": key, "bubbles": True, "cancelable": True, **more})
        self.browser.run(f"document.body.dispatchEvent(new KeyboardEvent('keydown', {event}))")
        self.browser.settled()

    def mouse(self, kind: str, x: float, y: float, **more: Any) -> None:
        """An event of the mouse, as from the machine itself."""
        self.browser.mouse(kind, x, y, **more)

    def drag(self, x: float, y: float, by: float, **more: Any) -> None:
        """The mouse is pressed, moved and let go."""
        self.mouse("mousePressed", x, y, **more)
        for share in (0.3, 0.6, 1):
            self.mouse("mouseMoved", x + by * share, y, buttons=1, **more)
        self.mouse("mouseReleased", x + by, y, **more)
        self.browser.settled()

    def touch(self, kind: str, *points: tuple[float, float]) -> None:
        """Fingers are put down, moved or lifted."""
        self.browser.touch(kind, *points)

    def of_chromium(self) -> Any:
        """The driver of Chromium, which can do more than that of Firefox."""
        if isinstance(self.browser, Firefox):
            self.skipTest("Firefox cannot be told to")
        return self.browser.driver

    def box(self, selector: str) -> Any:
        """Where an element is: its left, top, width and height."""
        script = (
            "const it = document.querySelector(arguments[0]); it.scrollIntoView({block: 'center'});"
            "const b = it.getBoundingClientRect(); return [b.left, b.top, b.width, b.height]"
        )
        return self.browser.run(script, selector)

    def view(self) -> list[float]:
        """The span that is shown."""
        found: list[float] = self.browser.run("return [qauditPage.view.from, qauditPage.view.to]")
        return found

    def selected(self) -> Any:
        """The line that is selected."""
        return self.browser.run("return qauditPage.selected()")

    def text(self, selector: str) -> str:
        """The text of an element."""
        script = "return document.querySelector(arguments[0]).textContent"
        return str(self.browser.run(script, selector))


REAL = TRACES / "quinn-growth-before-the-loss.trace"


class Using(Browsing):
    """What a person does."""

    page = ""

    @classmethod
    def setUpClass(cls) -> None:
        super().setUpClass()
        cls.page = made(REAL.read_bytes(), report_of(REAL), is_strict=True)

    def test_it_opens_at_the_refused_line(self) -> None:
        self.show(self.page)
        self.assertEqual(self.selected(), 84)
        self.assertIn("refused V16 metric window", self.text("tr.selected"))
        self.assertIn("the model stops before", self.text("tr.selected"))
        self.assertIn("not judged", self.text("tr.selected + tr"))
        self.assertLessEqual(
            self.browser.run("return document.querySelectorAll('#rows tr').length"), 24
        )

    def test_the_table_has_the_rows_of_the_machine(self) -> None:
        self.show(self.page, "#line=83")
        said = "return [...document.querySelectorAll('tr.selected td')].map(it => it.textContent)"
        cells = self.browser.run(said)
        self.assertEqual(cells[0], "144.684")
        self.assertEqual(
            cells[2:],
            [
                "13,960",
                "25,200",
                "13,960",
                "41.086",
                "40.594",
                "41.938",
                "1.67",
                "0",
                "0",
                "PTO app 217.922",
            ],
        )

    def test_keys(self) -> None:
        self.show(self.page)
        self.key("ArrowRight")
        self.assertEqual(self.selected(), 85)
        self.key("ArrowLeft")
        self.key("ArrowLeft")
        self.assertEqual(self.selected(), 83)
        self.assertTrue(self.browser.run("return location.hash") == "#line=83")
        self.assertIn("Line 83, lost", self.text("#said"))
        self.key("0")
        whole = self.view()
        self.key("+")
        near = self.view()
        self.assertAlmostEqual((near[1] - near[0]) / (whole[1] - whole[0]), 0.5, delta=0.01)
        self.key("ArrowRight", shiftKey=True)
        self.assertGreater(self.view()[0], near[0])
        self.key("-")
        self.key("0")
        self.assertEqual(self.view(), whole)
        self.key("End")
        self.assertEqual(self.selected(), 2585)
        self.key("v")
        self.assertEqual(self.selected(), 84)

    def test_addresses(self) -> None:
        self.show(self.page, "#line=1000")
        self.assertEqual(self.selected(), 1000)
        self.browser.run("location.hash = '#line=1200'")
        self.browser.settled()
        self.assertEqual(self.selected(), 1200)
        self.browser.run("location.hash = '#line=99999'")
        self.browser.settled()
        self.assertIn("Line 99999 is not in this page", self.text("#trouble"))

    def test_a_click_selects_and_a_drag_zooms_or_pans(self) -> None:
        self.show(self.page)
        self.key("0")
        left, top, width, height = self.box("#chart-window")
        x, y = left + width / 2, top + height / 2
        self.mouse("mouseMoved", x, y, button="none")
        self.assertIn("under the cursor", self.text("#panel"))
        self.drag(x, y, 0)
        self.assertGreater(self.selected(), 1000)
        whole = self.view()
        self.drag(x, y, 100)
        near = self.view()
        self.assertLess(near[1] - near[0], (whole[1] - whole[0]) / 5)
        self.drag(x, y, -60, modifiers=8)
        panned = self.view()
        self.assertAlmostEqual(panned[1] - panned[0], near[1] - near[0], places=3)
        self.assertGreater(panned[0], near[0])
        self.mouse("mouseWheel", x, y, deltaX=0, deltaY=-100, modifiers=2)
        self.browser.settled()
        self.assertLess(self.view()[1] - self.view()[0], panned[1] - panned[0])
        self.mouse("mousePressed", x, y, clickCount=1)
        self.mouse("mouseReleased", x, y, clickCount=1)
        self.mouse("mousePressed", x, y, clickCount=2)
        self.mouse("mouseReleased", x, y, clickCount=2)
        self.browser.settled()
        self.assertEqual(self.view(), whole)

    def test_all_diagrams_have_one_span(self) -> None:
        self.show(self.page)
        self.key("+")
        ends = []
        for chart in ("packets", "rtt"):
            script = (
                f"return document.querySelector('#chart-{chart} .dygraph-axis-label-x').textContent"
            )
            ends.append(self.browser.run(script))
        self.assertEqual(len(set(ends)), 1)

    def test_fingers(self) -> None:
        self.show(self.page)
        self.key("+")
        left, top, width, height = self.box("#chart-packets")
        x, y = left + width / 2, top + height / 2
        before = self.view()
        self.touch("touchStart", (x, y))
        for by in (20, 60, 120):
            self.touch("touchMove", (x - by, y))
        self.touch("touchEnd")
        self.browser.settled()
        panned = self.view()
        self.assertGreater(panned[0], before[0])
        self.assertAlmostEqual(panned[1] - panned[0], before[1] - before[0], places=3)
        self.touch("touchStart", (x - 50, y), (x + 50, y))
        for by in (60, 80, 100):
            self.touch("touchMove", (x - by, y), (x + by, y))
        self.touch("touchEnd")
        self.browser.settled()
        pinched = self.view()
        self.assertAlmostEqual((pinched[1] - pinched[0]) / (panned[1] - panned[0]), 0.5, delta=0.1)

    def find(self, text: str) -> None:
        """Looks for something."""
        self.browser.run(
            "const it = document.getElementById('find'); it.value = arguments[0];"
            "it.dispatchEvent(new KeyboardEvent('keydown', {key: 'Enter', bubbles: true}))",
            text,
        )
        self.browser.settled()

    def test_find_and_the_axis_of_lines(self) -> None:
        self.show(self.page)
        self.find("app 100")
        self.assertIn('"number":100,', self.text("tr.selected"))
        at = self.selected()
        self.browser.run(
            "const it = document.getElementById('axis'); it.value = 'line';"
            "it.dispatchEvent(new Event('change'))"
        )
        self.browser.settled()
        low, high = self.view()
        self.assertTrue(low < at < high < 3000)
        self.find("app 99999")
        self.assertIn("not in this page", self.text("#found"))
        self.find("2")
        self.assertEqual(self.selected(), 2)

    def test_a_great_number_is_found_and_shown(self) -> None:
        great = 2**62 - 1
        self.show(made(joined(HEADER, sent(0), sent(great - 1, 5), sent(great, 9))))
        self.find(f"app {great}")
        self.assertEqual(self.selected(), 4)
        self.assertIn(f"packet {great} of app", self.text("#said"))

    def test_great_numbers_fit_their_axis(self) -> None:
        # Senders begin at 0, or at a random number, as ngtcp2 does.
        cut = """return [...document.querySelectorAll('.dygraph-axis-label-y')]
            .filter(it => it.scrollWidth > it.clientWidth).map(it => it.textContent)"""
        for number in (0, 1_955_220_002):
            text = joined(HEADER, *(sent(number + it, it) for it in range(9)))
            self.show(made(text))
            shown = self.browser.run("return document.getElementById('chart-packets').textContent")
            self.assertIn(f"{number + 2:,}", shown)
            self.assertEqual(self.browser.run(cut), [])

    def test_acks_of_before_leave_a_lane_as_it_is(self) -> None:
        acks = (sent(n, n * 1_000, size=50).replace("true", "false") for n in range(50))
        later = (sent(5_000 + n, 1_000_000 + n * 1_000) for n in range(10))
        self.show(made(joined(HEADER, *acks, *later)))
        self.browser.run("location.hash = '#line=60'")
        self.key("+")
        self.key("+")
        self.key("+")
        self.assertGreater(self.view()[0], 500)
        low, high = self.browser.run("return [qauditPage.lanes[0].low, qauditPage.lanes[0].high]")
        self.assertLess(high - low, 20)

    def test_a_space_is_hidden(self) -> None:
        self.show(self.page)
        labels = (
            "return [...document.querySelectorAll('#chart-packets .dygraph-axis-label-y')]"
            "  .map(it => it.textContent + it.getBoundingClientRect().top)"
        )
        before = self.browser.run(labels)
        self.browser.run("document.querySelector('#spaces button.initial').click()")
        self.browser.settled()
        self.browser.settled()
        self.assertEqual(
            self.browser.run("return document.querySelector('#spaces button.initial').ariaPressed"),
            "false",
        )
        self.assertNotEqual(self.browser.run(labels), before)

    def test_widths_and_colours(self) -> None:
        try:
            for is_dark in (False, True):
                for width in (1200, 400):
                    self.browser.resize(width, 900)
                    self.browser.dress(is_dark=is_dark)
                    self.show(self.page)
                    wide = self.browser.run("return document.documentElement.scrollWidth")
                    self.assertLessEqual(wide, width)
        finally:
            self.browser.resize(1200, 900)
            self.browser.dress(is_dark=False)

    def test_paper_is_light(self) -> None:
        self.browser.dress(is_dark=True)
        try:
            self.show(self.page)
            paper = "return getComputedStyle(document.body).backgroundColor"
            turned = "return getComputedStyle(document.querySelector('.chart canvas')).filter"
            self.assertEqual(self.browser.run(turned), "none")
            self.assertNotEqual(self.browser.run(paper), "rgb(255, 255, 255)")
            self.browser.dress(is_dark=True, media="print")
            self.assertEqual(self.browser.run(paper), "rgb(255, 255, 255)")
            self.assertIn("invert(1)", self.browser.run(turned))
            shown = "return getComputedStyle(document.getElementById('controls')).display"
            self.assertEqual(self.browser.run(shown), "none")
        finally:
            self.browser.dress(is_dark=False)

    def test_a_part(self) -> None:
        part = {"first": 1000, "last": 1100}
        self.show(made(REAL.read_bytes(), report_of(REAL), is_strict=True, **part))
        self.assertIn("Line 84 is not in this page", self.text("#trouble"))
        self.find("1050")
        self.assertEqual(self.selected(), 1050)


class Past(Browsing):
    """Pages that go on past departures."""

    def corpus(self, name: str, **more: Any) -> None:
        """Opens the page of a trace of the corpus."""
        path = TRACES / f"{name}.trace"
        self.show(made(path.read_bytes(), report_of(path), **more))

    def tags(self) -> Any:
        """What is said against the line that is selected."""
        script = (
            "return [...document.querySelectorAll('tr.selected .tag')].map(it => it.textContent)"
        )
        return self.browser.run(script)

    def test_the_lines_behind_have_their_state(self) -> None:
        self.corpus("several-departures")
        self.assertEqual(self.selected(), 13)
        self.assertEqual(self.tags(), ["refused V7 past-window"])
        self.assertIn("13,200", self.text("tr.selected"))
        self.browser.run("location.hash = '#line=24'")
        self.browser.wait("return qauditPage.selected() === 24")
        self.assertEqual(self.text("tr.selected td[data-name=PTOs]"), "1")
        unjudged = "return document.querySelectorAll('#rows tr.unjudged').length"
        self.assertEqual(self.browser.run(unjudged), 0)

    def test_keys_and_buttons_go_from_one_to_the_next(self) -> None:
        self.corpus("several-departures")
        for line in (15, 17, 22, 24, 24):
            self.key("n")
            self.assertEqual(self.selected(), line)
        self.assertEqual(self.tags(), ["violation V13 timer-early"])
        self.assertIn("violation V13 timer-early", self.text("#said"))
        self.key("p")
        self.assertEqual(self.selected(), 22)
        self.browser.run("document.getElementById('departure-before').click()")
        self.assertEqual(self.selected(), 17)
        self.browser.run("document.getElementById('departure-next').click()")
        self.assertEqual(self.selected(), 22)
        self.key("v")
        self.assertEqual(self.selected(), 13)

    def test_a_link_of_the_table_opens_its_line(self) -> None:
        self.corpus("several-departures")
        self.browser.run("document.querySelector('#departures a[href=\"#line=24\"]').click()")
        self.browser.wait("return qauditPage.selected() === 24")
        self.assertEqual(self.tags(), ["violation V13 timer-early"])

    def test_several_rules_at_one_line(self) -> None:
        self.corpus("two-departures-at-one-event")
        self.assertEqual(self.tags(), ["refused V13 timer-early", "violation V14 probe-owed"])
        self.key("n")
        names = [f"violation V16 metric {it}" for it in ("window", "ssthresh", "smoothed_rtt")]
        self.assertEqual(self.tags(), names)

    def test_behind_the_end_nothing_is_judged(self) -> None:
        self.corpus("departure-and-then-a-loss-set")
        self.key("End")
        self.assertIn("not judged", self.text("tr.selected"))
        self.assertEqual(self.browser.run("return document.querySelector('.unjudged') !== null"), 1)
        self.key("ArrowLeft")
        self.assertEqual(self.selected(), 15)
        self.assertEqual(self.tags(), ["refused V4 loss-set"])
        self.assertIn("the model stops before this line", self.text("tr.selected"))
        self.key("ArrowLeft")
        self.assertIn("3: app 0-2", self.text("tr.selected"))

    def test_an_end_that_cannot_be_read(self) -> None:
        self.corpus("departure-and-then-no-json")
        self.browser.run("location.hash = '#line=15'")
        self.browser.wait("return qauditPage.selected() === 15")
        self.assertEqual(self.tags(), ["unreadable F1 not-json"])

    def test_a_loss_that_is_owed_at_the_end(self) -> None:
        self.corpus("departure-and-a-loss-owed-at-the-end")
        self.browser.run("location.hash = '#line=14'")
        self.browser.wait("return qauditPage.selected() === 14")
        self.assertEqual(self.tags(), ["refused V17 owed-at-end"])
        self.assertIn("2: app 0-1", self.text("tr.selected"))

    def test_a_page_without_departures_has_no_buttons_for_them(self) -> None:
        self.corpus("app-pto")
        hidden = "return document.getElementById('departures-bar').hidden"
        self.assertTrue(self.browser.run(hidden))

    def test_a_part(self) -> None:
        self.corpus("several-departures", first=14, last=20)
        self.assertIn("Line 13 is not in this page", self.text("#trouble"))
        self.browser.run("document.querySelector('#departures a[href=\"#line=15\"]').click()")
        self.browser.wait("return qauditPage.selected() === 15")
        self.browser.run("document.querySelector('#departures a[href=\"#line=24\"]').click()")
        self.browser.wait(
            "return document.getElementById('trouble').textContent.includes('Line 24 is not')"
        )

    def test_widths(self) -> None:
        try:
            for width in (1200, 400):
                self.browser.resize(width, 900)
                for name in ("quinn-growth-before-the-loss", "departure-and-then-a-loss-set"):
                    self.corpus(name)
                    wide = self.browser.run("return document.documentElement.scrollWidth")
                    self.assertLessEqual(wide, width)
        finally:
            self.browser.resize(1200, 900)

    def test_places(self) -> None:
        """The diagrams go on past the departure, in colour."""
        self.show(made(joined(*SMALL)))
        self.key("Home")
        self.key("0")
        at = Scale(self.browser, "window")
        self.assertTrue(at.has(200, 7_200, "refused"), "the cross at what departs")
        self.assertTrue(at.has(280, 6_000, "app"), "the window behind it")
        at = Scale(self.browser, "packets-app")
        self.assertTrue(at.has(310, 9, "app"), "a packet behind it")
        self.assertFalse(at.has(310, 9, "soft"))
        self.assertTrue(at.has(200, 6, "refused"), "the line of the verdict")

    def test_each_departure_is_marked(self) -> None:
        """Two packets past the window: the second has an upright, and a cross of its own."""
        data = joined(HEADER, *(sent(n) for n in range(10)), sent(10, 50_000), sent(11, 100_000))
        self.show(made(data + joined(sent(12, 200_000, size=1, more=""))))
        self.key("Home")
        self.key("0")
        at = Scale(self.browser, "window")
        for time, flying in ((50, 13_200), (100, 14_400), (200, 14_401)):
            # Those after the first are faint.
            tone = "refused" if time == 50 else "faint"
            self.assertTrue(at.has(time, flying, tone), f"the cross at {time} ms")
            self.assertTrue(at.has(time, 2_000, tone), f"the upright at {time} ms")
        self.assertFalse(at.has(150, 14_400, "faint"))
        self.assertFalse(at.has(150, 2_000, "faint"))

    def test_many_are_ticks(self) -> None:
        """Where many depart each has a short upright at the bottom, and hides nothing."""
        many = (sent(10 + n, 1000 * n) for n in range(100))
        self.show(made(joined(HEADER, *(sent(n) for n in range(10)), *many)))
        self.key("Home")
        self.key("0")
        at = Scale(self.browser, "window")
        self.assertTrue(at.has(50, 1_000, "faint"))
        self.assertFalse(at.has(50, 30_000, "faint"))
        self.assertTrue(at.has(50, 12_000, "app"), "the window")
        self.assertTrue(at.has(50, 13_200 + 50 * 1_200, "faint"), "a cross")
