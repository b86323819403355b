"""The keys of the diagrams and what is looked for, in a headless Chromium."""

from typing import Any

from tests.made import HEADER, acked, joined, made, sent
from tests.pixels import Scale
from tests.test_browser import REFUSED, SMALL, Browsing
from tests.test_browser_banner import corpus
from tests.test_browser_opening import REAL
from tests.test_held import CONFIRMED, LIMITED

CLICK = """const it = [...document.querySelectorAll('.key button')]
  .find(it => it.textContent === arguments[0]);
it.click(); return it.getAttribute('aria-pressed');"""
ENTRIES = "return [...document.querySelectorAll('.key > *')].map(it => it.textContent)"
REPORT = '{"event":"metrics","time":5,"ssthresh":9000,"min_rtt":1,"latest_rtt":2,"window":1}'
FIRED = '{"event":"timer","time":1100000,"kind":"pto","space":"app"}'
PROBE = sent(3, 1_100_001, more=',"leave":"probe"')
# Lines 3 to 12.
TRACE = (
    *(HEADER, CONFIRMED, sent(0), sent(1), sent(2), LIMITED, sent(7, 200), acked(300, (1, 1))),
    *(FIRED, PROBE, acked(1_200_000, (3, 3)), '{"event":"lost","time":1200000,"space":"app",'),
)


class Keys(Browsing):
    """A key has an entry for each thing that is drawn, and hides what is clicked."""

    def test_it_hides_what_is_clicked_and_says_so(self) -> None:
        self.show(made(joined(*SMALL), is_strict=True))
        self.key("Home")
        self.key("0")
        self.assertTrue(Scale(self.browser, "window").has(160, 6_000, "app"))
        self.assertEqual(self.browser.run(CLICK, "congestion window"), "false")
        self.browser.settled()
        self.assertEqual(self.text("#said"), "congestion window: hidden")
        self.assertFalse(Scale(self.browser, "window").has(160, 6_000, "app"))
        self.assertEqual(self.browser.run(CLICK, "congestion window"), "true")
        self.browser.settled()
        self.assertEqual(self.text("#said"), "congestion window: shown")
        self.assertTrue(Scale(self.browser, "window").has(160, 6_000, "app"))
        self.assertTrue(Scale(self.browser, "packets-app").has(100, 2, "lost"))
        self.browser.run(CLICK, "declared lost")
        self.browser.settled()
        self.assertFalse(Scale(self.browser, "packets-app").has(100, 2, "lost"))

    def test_each_entry_can_be_clicked(self) -> None:
        self.show(corpus("quic-go-past-window", REAL))
        for name in set(self.browser.run(ENTRIES.replace("> *", "button"))):
            self.assertEqual(self.browser.run(CLICK, name), "false", name)
        self.browser.settled()
        pressed = "return document.querySelectorAll('.key button[aria-pressed=true]').length"
        self.assertEqual(self.browser.run(pressed), 0)

    def test_reported_values_have_entries(self) -> None:
        self.show(made(joined(HEADER, sent(0), REPORT)))
        entries = self.browser.run(ENTRIES)
        for name in ("window", "ssthresh", "latest", "min"):
            self.assertIn(f"reported {name}", entries)

    def test_later_violations_are_faint(self) -> None:
        trace = (HEADER, *(sent(n) for n in range(10)), sent(10, 50_000), sent(11, 100_000))
        self.show(made(joined(*trace)))
        self.key("Home")
        self.key("0")
        at = Scale(self.browser, "window")
        self.assertTrue(at.has(50, 13_200, "refused"))
        self.assertTrue(at.has(100, 14_400, "faint"))
        self.assertFalse(at.has(100, 14_400, "refused"))
        self.browser.run(CLICK, "other violation")
        self.browser.settled()
        self.assertFalse(Scale(self.browser, "window").has(100, 14_400, "faint"))


class Finding(Browsing):
    """What is typed into the field."""

    def find(self, text: str, **more: Any) -> tuple[Any, str]:
        """The line that is selected when this is looked for, and what is said of it."""
        self.browser.run(
            "const it = document.getElementById('find'); it.value = arguments[0];"
            "it.dispatchEvent(new KeyboardEvent('keydown', {key: 'Enter', ...arguments[1]}))",
            text,
            more,
        )
        self.browser.settled()
        return self.selected(), self.text("#found")

    def test_words_and_rules(self) -> None:
        self.show(made(joined(*SMALL)))
        self.key("Home")
        self.assertEqual(self.find(f"{REFUSED}")[0], REFUSED)
        self.key("Home")
        self.assertEqual(self.find("V7")[0], REFUSED)
        self.key("Home")
        lost = self.find("lost")[0]
        self.assertIn('"event":"lost"', self.text("tr.selected"))
        self.key("Home")
        self.assertEqual(self.find('"EVENT":"lost"')[0], lost)
        self.assertIn("not in this page; try", self.find("v99")[1])
        self.assertIn("not in this page; try", self.find("<b>nothing</b>")[1])
        self.assertEqual(self.find("")[1], "")

    def test_the_next_one_and_the_one_before(self) -> None:
        self.show(made(joined(*TRACE[:10])))
        self.key("Home")
        self.assertEqual(self.find("sent"), (3, "1 of 5"))
        self.assertEqual(self.find("sent"), (4, "2 of 5"))
        self.assertEqual(self.find("sent", shiftKey=True), (3, "1 of 5"))
        self.assertEqual(self.find("sent", shiftKey=True), (10, "5 of 5"))
        self.assertEqual(self.find("sent"), (3, "1 of 5"))
        self.assertEqual(self.find("pto"), (9, ""))
        self.assertEqual(self.find("probe"), (10, ""))
        self.assertEqual(self.find("app 7"), (7, ""))
        self.assertEqual(self.find("probe owed"), (9, ""))
        self.assertEqual(self.find("application limited"), (5, ""))
