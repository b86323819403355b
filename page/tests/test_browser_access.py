"""Pages for whoever has no mouse, no small fingers, or colours of their own, in a headless
Chromium."""

from tests.made import joined, made
from tests.test_browser import SMALL, Browsing

OPEN = "return document.getElementById('help').open"
FOCUS = """const it = document.querySelector(arguments[0]); it.focus({focusVisible: true});
const style = getComputedStyle(it);
return [document.activeElement === it, style.outlineStyle, style.outlineWidth];"""
# The elements that a finger can hit and that are seen, which are less than 44 pixels high or wide.
SMALL_TARGETS = """return [...document.querySelectorAll('button, select, input, summary')]
  .filter(it => it.checkVisibility()).map(it => [it.textContent, it.getBoundingClientRect()])
  .filter(([, box]) => box.height < 44 || box.width < 44).map(([text, box]) => text)"""
LABELS = """return [...document.querySelectorAll(`#chart-${arguments[0]} .dygraph-axis-label`)]
  .map(it => it.textContent)"""


class Access(Browsing):
    """Keys, focus, targets and colours."""

    page = ""

    @classmethod
    def setUpClass(cls) -> None:
        super().setUpClass()
        cls.page = made(joined(*SMALL), is_strict=True)

    def emulate(self, command: str, **wanted: object) -> None:
        """What a device has, or what a person prefers."""
        self.of_chromium().execute_cdp_cmd(f"Emulation.{command}", wanted)

    def test_a_question_mark_shows_the_keys(self) -> None:
        self.show(self.page)
        self.assertFalse(self.browser.run(OPEN))
        self.key("?")
        self.assertTrue(self.browser.run(OPEN))
        told = self.text("#help")
        for words in ("the line of the verdict", "the next violation", "zoom in", "find:"):
            self.assertIn(words, told)
        before = self.selected()
        self.key("ArrowLeft")
        self.assertEqual(self.selected(), before)
        self.key("?")
        self.assertFalse(self.browser.run(OPEN))
        self.browser.run("document.getElementById('to-help').click()")
        self.assertTrue(self.browser.run(OPEN))
        self.browser.run("document.getElementById('help-close').click()")
        self.assertFalse(self.browser.run(OPEN))

    def test_the_focus_is_seen(self) -> None:
        self.show(self.page)
        charts = ("#chart-packets", "#chart-window", "#chart-headroom", "#chart-rtt")
        for selector in (*charts, "#zoom-in", "#find", ".key button", "#silences summary"):
            with self.subTest(selector):
                self.assertEqual(self.browser.run(FOCUS, selector), [True, "solid", "3px"])

    def test_fingers_have_targets_of_44_pixels(self) -> None:
        try:
            self.emulate("setTouchEmulationEnabled", enabled=True)
            self.show(self.page)
            self.assertTrue(self.browser.run("return matchMedia('(pointer: coarse)').matches"))
            self.assertEqual(self.browser.run(SMALL_TARGETS), [])
            self.browser.resize(390, 900)
            self.assertEqual(self.browser.run(SMALL_TARGETS), [])
            wide = self.browser.run("return document.documentElement.scrollWidth")
            self.assertLessEqual(wide, 390)
        finally:
            self.emulate("setTouchEmulationEnabled", enabled=False)
            self.browser.resize(1200, 900)

    def test_colours_of_a_person(self) -> None:
        canvas = "return document.querySelector('#chart-window canvas').toDataURL()"
        self.show(self.page)
        before = self.browser.run(canvas)
        try:
            for name, value in (("forced-colors", "active"), ("prefers-contrast", "more")):
                feature = {"name": name, "value": value}
                self.emulate("setEmulatedMedia", media="screen", features=[feature])
                self.browser.settled()
                self.browser.settled()
                with self.subTest(name):
                    # The diagrams are drawn again, in these colours.
                    self.assertNotEqual(self.browser.run(canvas), before)
        finally:
            self.browser.dress(is_dark=False)

    def test_nothing_moves_for_those_who_do_not_want_it(self) -> None:
        feature = {"name": "prefers-reduced-motion", "value": "reduce"}
        moving = (
            "return [...document.querySelectorAll('*')].map(it => getComputedStyle(it))"
            "  .some(it => it.scrollBehavior !== 'auto' || it.animationName !== 'none')"
        )
        try:
            self.emulate("setEmulatedMedia", media="screen", features=[feature])
            self.show(self.page)
            self.assertFalse(self.browser.run(moving))
        finally:
            self.browser.dress(is_dark=False)

    def test_numbers_have_units(self) -> None:
        self.show(self.page)
        for chart, pattern in (("window", " B$"), ("headroom", " B$"), ("rtt", " ms$")):
            labels = self.browser.run(LABELS, chart)
            self.assertGreater(len(labels), 1)
            for label in labels:
                self.assertRegex(label, pattern)
        heads = self.browser.run(
            "return [...document.querySelectorAll('#lines thead th')].map(it => it.textContent)"
        )
        self.assertEqual(heads[3:7], ["window (B)", "in flight (B)", "ssthresh (B)", "latest (ms)"])
