"""The cursor through all diagrams and the panel beside them, in a headless Chromium."""

from tests.made import HEADER, acked, joined, made, sent
from tests.test_browser import Browsing
from tests.test_held import CONFIRMED

REPORT = '{"event":"metrics","time":5,"bytes_in_flight":2500,"smoothed_rtt":333000}'
GREAT = '{"event":"metrics","time":5,"bytes_in_flight":9223372036854775807}'
HOSTILE = '{"event":"metrics","time":7,"x":"<img src=x onerror=alert(1)>\u202e"}'
# Places in the log as the converter writes them, and one as it does not.
PLACED = (
    HEADER,
    sent(0, more=',"x_place":"line 1812"'),
    '{"event":"metrics","time":0,"x_place":"guessed at byte 10412"}',
    sent(1, more=',"x_place":"line 5 to line 7"'),
    sent(2, more=',"x_place":"line 5<img src=x onerror=alert(1)>"'),
    sent(3, more=',"x_place":["line 5"]'),
)
PLACES = (
    "line 1,812 of the log",
    "no record; guessed at byte 10,412 of the log",
    "lines 5 to 7 of the log",
)
TRACE = (HEADER, CONFIRMED, sent(0), sent(1, 3), REPORT, sent(2, 6), HOSTILE, acked(90_000, (0, 2)))
# Where the cursor is in each diagram, from the left of the page; nothing where it is hidden.
CURSORS = """return [...document.querySelectorAll('.chart .cursor')].filter(it => !it.hidden)
  .map(it => Math.round(it.getBoundingClientRect().left))"""
# The rows of the panel's table, each with its cells; a value that changed has a star.
ROWS = """return [...document.querySelectorAll('#panel tr')].map(row =>
  [...row.children].map(it => (it.classList.contains('changed') ? '*' : '') + it.textContent))"""


class Panel(Browsing):
    """The panel and the cursor."""

    def rows(self) -> dict[str, list[str]]:
        """The rows of the table by their names."""
        return {name: cells for name, *cells in self.browser.run(ROWS)}

    def test_the_cursor_is_in_all_diagrams(self) -> None:
        self.show(made(joined(*TRACE)))
        self.key("End")
        left, top, width, height = self.box("#chart-window")
        self.mouse("mouseMoved", left + width / 2, top + height / 2)
        self.browser.settled()
        found = self.browser.run(CURSORS)
        self.assertEqual(len(found), 4)
        self.assertEqual(len(set(found)), 1)
        place = self.browser.run("return qauditPage.cursor()")
        self.assertIn(f"Line {place + 1} ", self.text("#panel h2"))
        self.assertIn("under the cursor", self.text("#panel h2"))
        self.assertEqual(self.selected(), 8)
        self.mouse("mouseMoved", 2, 2)
        self.browser.settled()
        self.assertEqual(self.browser.run(CURSORS), [])
        self.assertIn("Line 8 ", self.text("#panel h2"))
        self.assertIn("selected", self.text("#panel h2"))

    def test_values_of_the_model_and_of_a_report(self) -> None:
        self.show(made(joined(*TRACE)), "#line=5")
        rows = self.rows()
        self.assertEqual(rows["in flight"], ["2,400 B", "2,500 B", "+100 B"])
        self.assertEqual(rows["smoothed"], ["333 ms", "333 ms", "0"])
        self.assertEqual(rows["window"], ["12,000 B", "", ""])
        self.assertIn("report of the sender", self.text("#panel"))
        self.assertIn("V16", self.text("#panel .stand"))
        # The report right after a packet is of the state after it; what came before is not.
        self.key("ArrowLeft")
        self.assertEqual(self.rows()["in flight"], ["*2,400 B", "2,500 B", "+100 B"])
        self.key("ArrowLeft")
        self.assertEqual(self.rows()["in flight"], ["*1,200 B", "", ""])

    def test_amounts_are_exact(self) -> None:
        self.show(made(joined(*TRACE[:4], GREAT)), "#line=5")
        self.assertEqual(
            self.rows()["in flight"],
            ["2,400 B", "9,223,372,036,854,775,807 B", "+9,223,372,036,854,773,407 B"],
        )

    def test_what_a_line_changes_is_bold(self) -> None:
        self.show(made(joined(*TRACE)), "#line=6")
        changed = [name for name, cells in self.rows().items() if "*" in "".join(cells)]
        self.assertEqual(changed, ["in flight", "headroom", "timer"])
        bold = "return [...document.querySelectorAll('#rows tr.selected .changed')]"
        self.assertEqual(
            self.browser.run(f"{bold}.map(it => it.dataset.name)"), ["in flight (B)", "timer (ms)"]
        )

    def test_where_in_the_log_a_line_is_from(self) -> None:
        self.show(made(joined(*PLACED)), "#line=1")
        found = "[...document.querySelectorAll('#panel .origin')]"
        origins = f"return {found}.map(it => it.textContent)"
        self.assertEqual(self.browser.run(origins), [])
        for words in PLACES:
            self.key("ArrowRight")
            self.assertEqual(self.browser.run(origins), [words])
            self.assertIn(words, self.text("#said"))
        for _ in range(2):
            self.key("ArrowRight")
            self.assertEqual(self.browser.run(origins), [])

    def test_the_json_is_there_on_demand(self) -> None:
        self.show(made(joined(*TRACE)), "#line=7")
        shown = "return document.querySelector('#panel code').checkVisibility()"
        self.assertFalse(self.browser.run(shown))
        self.browser.run("document.querySelector('#panel summary').click()")
        self.browser.settled()
        self.assertTrue(self.browser.run(shown))
        self.assertIn("<img src=x onerror=alert(1)>\\u{202e}", self.text("#panel code"))
        self.key("ArrowRight")
        self.assertTrue(self.browser.run(shown))
        told = self.text("#panel .what")
        self.assertEqual(told, "acknowledgment of app: 3 packets, 3,600 B for the first time")
