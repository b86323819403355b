"""Where pages open, what is seen of them without scrolling, and the strip of the whole run, in a
headless Chromium."""

from tests.made import HEADER, TRACES, acked, joined, made, sent
from tests.test_browser import SMALL, Browsing
from tests.test_browser_banner import corpus

REAL = TRACES.parent / "real" / "traces"
# What is seen when a page opens: the bottom of each diagram.
BOTTOMS = (
    "return [...document.querySelectorAll('.chart')].map(it => it.getBoundingClientRect().bottom)"
)
TALL = "return document.querySelector(arguments[0]).offsetHeight"
PIXELS = "return [...document.querySelectorAll('.chart canvas')].map(it => it.toDataURL())"
# A transfer in rounds of 50 ms, and one whose last packet has no room in the window.
ROUNDS = tuple(
    line
    for at in range(20)
    for line in (
        *(sent(10 * at + n, 50_000 * at + n) for n in range(10)),
        acked(50_000 * at + 50_000 - 10, (10 * at, 10 * at + 9)),
    )
)
TOO_MANY = (HEADER, *ROUNDS[:110], *(sent(200 + n, 510_000, size=60_000) for n in range(3)))
REFUSED = len(TOO_MANY)


class Ahead(Browsing):
    """The whole run is drawn ahead, out of sight."""

    def open(self) -> None:
        """Opens a page that shows a part of the run."""
        after = (sent(203 + n, 600_000 + 10_000 * n) for n in range(200))
        self.show(made(joined(*TOO_MANY, *after), is_strict=True))

    def test_nothing_of_it_is_seen(self) -> None:
        self.open()
        before = self.browser.run(PIXELS), self.view()
        self.browser.wait("return qauditPage.isDrawnAhead()")
        self.browser.settled()
        self.assertEqual((self.browser.run(PIXELS), self.view()), before)
        self.assertEqual(self.browser.run("return qauditPage.frames()"), 1)

    def test_a_browser_that_does_not_say_when_it_is_idle(self) -> None:
        driver = self.of_chromium()
        without = {"source": "window.requestIdleCallback = undefined"}
        added = driver.execute_cdp_cmd("Page.addScriptToEvaluateOnNewDocument", without)
        self.addCleanup(
            driver.execute_cdp_cmd, "Page.removeScriptToEvaluateOnNewDocument", added
        )
        self.open()
        self.browser.wait("return qauditPage.isDrawnAhead()")
        self.assertEqual(self.browser.run("return qauditPage.frames()"), 1)

    def test_it_ends_once_the_run_is_shown(self) -> None:
        self.open()
        self.key("0")
        self.browser.settled()
        self.assertTrue(self.browser.run("return qauditPage.isDrawnAhead()"))
        self.assertEqual(self.browser.run("return qauditPage.frames()"), 2)


class Opening(Browsing):
    """What a page shows when it opens."""

    def whole(self) -> list[float]:
        """The ends of the run."""
        found: list[float] = self.browser.run("return [qauditPage.view.low, qauditPage.view.high]")
        return found

    def test_a_few_round_trips_about_the_refused_line(self) -> None:
        after = (sent(203 + n, 600_000 + 10_000 * n) for n in range(200))
        self.show(made(joined(*TOO_MANY, *after), is_strict=True))
        self.assertEqual(self.selected(), REFUSED)
        low, high = self.view()
        # Two round-trips of 50 ms before it and one after, and a little room.
        self.assertAlmostEqual(low, 510 - 100, delta=10)
        self.assertAlmostEqual(high, 510 + 50, delta=10)

    def test_at_most_a_third_of_the_run(self) -> None:
        self.show(corpus("quic-go-past-window", REAL))
        self.assertEqual(self.selected(), 83)
        (low, high), (first, last) = self.view(), self.whole()
        self.assertTrue(low < 49.144 < high)
        self.assertLess((high - low) / (last - first), 0.37)
        self.key("0")
        self.key("v")
        self.browser.settled()
        self.assertEqual(self.view(), [low, high])

    def test_the_silence_before_and_the_deadline_are_seen(self) -> None:
        self.show(corpus("ngtcp2-probe-count", REAL))
        low, high = self.view()
        # The timer of line 12 is early: it should fire at 3,403 ms.
        self.assertTrue(low < 3_125 < 3_403 < high < 3_600)
        fired = '{"event":"timer","time":9000000,"kind":"pto","space":"app"}'
        late = HEADER.replace('"version":1', '"version":2,"timer_late_us":1000')
        self.show(made(joined(late, *ROUNDS, sent(200, 1_000_000), fired), is_strict=True))
        self.assertEqual(self.selected(), len(ROUNDS) + 3)
        self.assertLess(self.view()[0], 1_000)

    def test_an_accepted_trace(self) -> None:
        for name, line, words in (
            ("header-alone", None, ""),
            ("silence-past-a-pto", 13, "Go to line 13"),
            ("app-pto", None, ""),
        ):
            with self.subTest(name):
                self.show(corpus(name))
                self.assertEqual(self.selected(), line)
                shown = self.browser.run("return document.getElementById('to-verdict').hidden")
                self.assertEqual(shown, line is None)
                if line is None:
                    self.assertEqual(self.view(), self.whole())
                else:
                    self.assertEqual(self.text("#to-verdict"), words)

    def test_three_diagrams_without_scrolling(self) -> None:
        self.browser.resize(1400, 900)
        try:
            for name in ("quic-go-past-window", "ngtcp2-probe-count", "curl-8.23-ngtcp2-loss"):
                for is_dark in (False, True):
                    self.browser.dress(is_dark=is_dark)
                    self.show(corpus(name, REAL))
                    with self.subTest(name, is_dark=is_dark):
                        self.assertLessEqual(max(self.browser.run(BOTTOMS)), 900)
                        self.assertEqual(self.browser.run("return scrollY"), 0)
        finally:
            self.browser.resize(1200, 900)
            self.browser.dress(is_dark=False)

    def test_silences_are_clicked(self) -> None:
        self.show(corpus("ngtcp2-probe-count", REAL))
        links = "return [...document.querySelectorAll('#silences a')].map(it => it.hash)"
        hashes = self.browser.run(links)
        self.assertEqual(len(hashes), 10)
        click = "document.querySelectorAll('#silences a')[arguments[0]].click()"
        for place, found in enumerate(hashes):
            self.browser.run(click, place)
            self.browser.settled()
            self.assertEqual(f"#line={self.selected()}", found)
        self.browser.run(click, 0)
        self.browser.settled()
        low, high = self.view()
        # The first probe timeout was 2 s after the one before it.
        self.assertTrue(low < 1_000 < 3_000 < high)
        self.key("0")
        self.browser.run(click, 0)
        self.browser.settled()
        self.assertEqual(self.view(), [low, high])

    def test_violations_are_folded_to_a_line(self) -> None:
        self.show(corpus("quic-go-past-window", REAL))
        self.assertLess(self.browser.run(TALL, "#departures"), 30)
        self.assertIn("227 times in 455 events", self.text("#departures summary"))
        self.browser.run("document.querySelector('#departures summary').click()")
        self.assertGreater(self.browser.run(TALL, "#departures"), 100)
        self.browser.run("document.querySelector('#departures summary').click()")
        self.browser.run("dispatchEvent(new Event('beforeprint'))")
        self.assertGreater(self.browser.run(TALL, "#departures"), 100)

    def test_widths(self) -> None:
        try:
            for width in (1400, 1000, 390):
                self.browser.resize(width, 900)
                for name in ("quic-go-past-window", "curl-8.23-ngtcp2-loss"):
                    self.show(corpus(name, REAL))
                    wide = self.browser.run("return document.documentElement.scrollWidth")
                    self.assertLessEqual(wide, width, name)
        finally:
            self.browser.resize(1200, 900)


class Strip(Browsing):
    """The strip of the whole run."""

    page = ""

    @classmethod
    def setUpClass(cls) -> None:
        super().setUpClass()
        cls.page = made(joined(*SMALL), is_strict=True)

    def middle(self, selector: str) -> tuple[float, float]:
        """The middle of an element."""
        left, top, width, height = self.box(selector)
        return left + width / 2, top + height / 2

    def test_the_ends_and_the_span_are_dragged(self) -> None:
        self.show(self.page)
        self.key("0")
        low, high = self.view()
        x, y = self.middle(".grip")
        self.drag(x, y, 300)
        first = self.view()
        self.assertGreater(first[0], low)
        self.assertAlmostEqual(first[1], high, places=6)
        x, y = self.middle(".grip + .grip")
        self.drag(x, y, -300)
        second = self.view()
        self.assertAlmostEqual(second[0], first[0], places=6)
        self.assertLess(second[1], high)
        x, y = self.middle("#span")
        self.drag(x, y, 100)
        third = self.view()
        self.assertGreater(third[0], second[0])
        self.assertAlmostEqual(third[1] - third[0], second[1] - second[0], places=6)

    def test_an_end_is_dragged_past_the_other(self) -> None:
        self.show(self.page)
        self.key("0")
        x, y = self.middle(".grip")
        self.drag(x, y, 200)
        first = self.view()
        x, y = self.middle(".grip")
        left, _, width, _ = self.box("#span")
        self.drag(x, y, width + 50 - 200)
        self.assertLess(self.view()[1] - self.view()[0], first[1] - first[0])

    def test_a_new_span_and_a_click(self) -> None:
        self.show(self.page)
        self.key("0")
        left, top, width, height = self.box("#strip")
        x, y = left + width / 2, top + height / 2
        self.drag(x, y, 100)
        near = self.view()
        whole = self.browser.run("return qauditPage.view.high - qauditPage.view.low")
        self.assertLess(near[1] - near[0], whole / 5)
        self.drag(left + width * 0.9, y, 0)
        clicked = self.view()
        self.assertAlmostEqual(clicked[1] - clicked[0], near[1] - near[0], places=6)
        self.assertGreater(clicked[0], near[1])

    def test_it_is_drawn_again_for_another_axis(self) -> None:
        self.show(self.page)
        picture = "return document.querySelector('#strip canvas').toDataURL()"
        before = self.browser.run(picture)
        self.key("+")
        self.assertEqual(self.browser.run(picture), before)
        self.browser.run(
            "const it = document.getElementById('axis'); it.value = 'line';"
            "it.dispatchEvent(new Event('change'))"
        )
        self.browser.settled()
        self.assertNotEqual(self.browser.run(picture), before)
