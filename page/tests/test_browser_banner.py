"""The banner of a page and the table of many traces in a headless Chromium."""

import re
from pathlib import Path

from tests.made import HEADER, TRACES, joined, made, report_of, sent
from tests.test_browser import Browsing

from qaudit_page.grounds import Ground
from qaudit_page.matrix import Result, table

REAL = TRACES.parent / "real" / "traces"
LATE = (
    HEADER.replace("{", '{"max_ack_delay":20000,"initial_rtt":20000,', 1),
    '{"event":"confirmed","time":0}',
    sent(0),
)
ACK = '{"event":"ack","time":6000000,"space":"app","ranges":[[0,0]]}'
# The name of each colour by its greatest part, where yellow has two.
COLOUR = (
    "const [red, green, blue] = getComputedStyle(document.querySelector(arguments[0]))"
    "  [arguments[1]].match(/\\d+/g).map(Number);"
    "if (Math.max(red, green, blue) - Math.min(red, green, blue) < 30) return 'grey';"
    "if (red > green * 1.7 && red > blue * 1.15) return 'red';"
    "return red > green ? 'amber' : 'green';"
)
# Keeps what is written into the diagrams from now on.
KEEP_TEXTS = (
    "const said = window.saidTexts = [], fill = CanvasRenderingContext2D.prototype.fillText;"
    "CanvasRenderingContext2D.prototype.fillText = function (text, ...more) {"
    "  said.push(text); return fill.call(this, text, ...more); };"
)


def corpus(name: str, folder: Path = TRACES) -> str:
    """The page of a trace of the corpus."""
    path = folder / f"{name}.trace"
    return made(path.read_bytes(), report_of(path))


class Banners(Browsing):
    """The banner."""

    def test_colours_and_words(self) -> None:
        try:
            for is_dark in (False, True):
                self.browser.dress(is_dark=is_dark)
                for name, colour, words in (
                    ("header-alone", "green", "\u2713Accepted. In everything"),
                    ("silence-past-a-pto", "amber", "(\u2713)Accepted, with what the header"),
                    ("timer-late", "red", "\u2717Refused at line 3"),
                    ("no-event", "red", "?Unreadable at line 2"),
                ):
                    self.show(corpus(name))
                    with self.subTest(name, is_dark=is_dark):
                        found = self.browser.run(COLOUR, ".verdict", "borderLeftColor")
                        self.assertEqual(found, colour)
                        self.assertTrue(self.text(".verdict").startswith(words))
        finally:
            self.browser.dress(is_dark=False)

    def test_links_go_to_the_lines(self) -> None:
        self.show(corpus("curl-8.23-ngtcp2-loss", REAL))
        self.key("0")
        whole = self.view()
        links = "return [...document.querySelectorAll('.verdict a')].map(it => it.hash)"
        hashes = self.browser.run(links)
        # The silence, the window that was passed, an early and a late timer, the header.
        self.assertEqual(hashes[:5], ["#line=6", "#line=43", "#line=245", "#line=179", "#line=1"])
        for place, found in enumerate(hashes):
            click = "[...document.querySelectorAll('.verdict a')][arguments[0]].click()"
            self.browser.run(click, place)
            self.browser.settled()
            wanted = int(re.sub(r"\D", "", found))
            self.assertEqual(self.selected(), wanted)
            self.assertIn(f"Line {wanted},", self.text("#said"))
        self.assertLess(self.view()[1] - self.view()[0], whole[1] - whole[0])

    def test_the_longest_silence_is_the_one_that_has_an_arrow(self) -> None:
        reports = [f'{{"event":"metrics","time":{at}}}' for at in (1_000_000, 3_000_000)]
        self.show(made(joined(*LATE, *reports, ACK)))
        self.browser.run(KEEP_TEXTS)
        self.key("+")
        self.key("0")
        said = self.browser.run("return window.saidTexts.filter(it => it.includes('without'))")
        arrow = "6,000 ms without an event, 1,200 B in flight, 5,920 ms past the deadline"
        self.assertEqual(set(said), {arrow})
        silence = "Longest silence: 6 s, 1,200 B in flight, 5.92 s past the probe timeout of app."
        self.assertIn(silence, self.text(".verdict"))

    def test_folding_and_widths(self) -> None:
        page = corpus("curl-8.23-ngtcp2-loss", REAL)
        try:
            for width in (1200, 390):
                self.browser.resize(width, 900)
                self.show(page)
                tall = "return document.querySelector('.verdict').offsetHeight"
                before = self.browser.run(tall)
                self.browser.run("document.querySelector('.verdict details').open = true")
                self.assertGreater(self.browser.run(tall), before)
                wide = self.browser.run("return document.documentElement.scrollWidth")
                self.assertLessEqual(wide, width)
        finally:
            self.browser.resize(1200, 900)


class Tables(Browsing):
    """The table of many traces."""

    def test_colours(self) -> None:
        ground = Ground("V18", "V18 timer-late", "once", 13)
        results = [
            Result("a", "accepted"),
            Result("b", "accepted", grounds=(ground,), with_allowances=True),
            Result("c", "refused", 3, "V6", "number-not-higher"),
            Result("d", "unreadable", 2, "F1", "not-json"),
        ]
        page = Path(self.folder.name, "page.html")
        page.write_text(table(results, None, page.parent, ""))
        try:
            for is_dark in (False, True):
                self.browser.dress(is_dark=is_dark)
                self.browser.get(page.resolve().as_uri())
                colours = ("green", "amber", "red", "red")
                for key, colour in zip("abcd", colours, strict=True):
                    found = self.browser.run(COLOUR, f"[title={key}]", "color")
                    self.assertEqual(found, colour, key)
                said = self.text("[title=b]")
                self.assertEqual(said, "(\u2713) accepted with allowancesV18")
        finally:
            self.browser.dress(is_dark=False)
