"""What held a sender back, as a page draws it and tells it, in a headless Chromium."""

from tests.made import HEADER, acked, joined, made, sent
from tests.test_browser import Browsing
from tests.test_browser_banner import corpus
from tests.test_browser_opening import REAL
from tests.test_held import CONFIRMED, LATE, METRICS

from qaudit_page.held import Held

FULL = (HEADER, CONFIRMED, *(sent(n) for n in range(10)), METRICS, acked(90_000, (0, 9)))
TIMER = '{"event":"timer","time":3000000,"kind":"pto","space":"app"}'
# For each silence of the list, what it says and what the panel says when its link is clicked.
TOLD = """const done = arguments[0], told = [];
const drawn = () => new Promise(go => requestAnimationFrame(() => requestAnimationFrame(go)));
(async () => {
  for (const it of document.querySelectorAll('#silences li')) {
    const link = it.querySelector('a');
    link.click();
    do await drawn(); while (`#line=${qauditPage.selected()}` !== link.hash);
    const said = [it, document.getElementById("panel")];
    told.push(said.map(its => its.querySelector(".why").textContent));
  }
  done(told);
})();"""
KEYS = "return [...document.querySelectorAll('#key-packets > *')].map(it => it.textContent.trim())"
# The reasons that columns of the lane have, 255 for none.
LANE = "return [...new Set(qauditPage.heldColumns())].sort((a, b) => a - b)"


class HeldBack(Browsing):
    """The lane and the panel."""

    def test_the_list_and_the_panel_say_the_same(self) -> None:
        for name in ("ngtcp2-probe-count", "ngtcp2-stalled", "curl-8.14-openssl-stalled"):
            with self.subTest(name):
                self.show(corpus(name, REAL))
                told = self.browser.run_async(TOLD)
                self.assertEqual(len(told), 10)
                for listed, panel in told:
                    self.assertEqual(listed, panel.split("; ")[0])

    def test_a_click_into_the_lane(self) -> None:
        self.show(made(joined(*FULL)))
        self.assertIn("click into it to select a line", self.text("#panel"))
        left, top, width, _ = self.box("#chart-packets")
        lane = self.browser.run("return qauditPage.heldLane()")
        self.drag(left + width / 2, top + lane["top"] + lane["tall"] / 2, 0)
        self.assertEqual(self.selected(), 13)
        told = self.text("#panel")
        self.assertIn("After it nothing happened for 89.9 ms, until line 14 (ack):", told)
        self.assertIn("window full: nothing left; the probe timeout of app had", told)
        self.key("ArrowRight")
        told = self.text("#panel")
        self.assertIn("Before it nothing happened for 90 ms, since line 12 (sent):", told)
        self.assertIn("After it no line comes:", told)
        self.assertIn("window full: nothing left", self.text("#panel .held-flight"))

    def test_the_lane_and_its_key_have_what_there_is(self) -> None:
        self.show(made(joined(*FULL)))
        self.assertEqual(self.browser.run(LANE), [Held.WINDOW, 255])
        self.assertIn("window full", self.browser.run(KEYS))
        self.assertNotIn("probe owed", self.browser.run(KEYS))
        self.show(made(joined(LATE, *FULL[1:12], TIMER)))
        self.assertEqual(self.browser.run(LANE), [Held.WINDOW, 6, 255])
        self.assertIn("timer late", self.browser.run(KEYS))
        self.key("End")
        self.assertIn("late at line 13", self.text("#panel"))
