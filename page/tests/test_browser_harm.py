"""Traces that mean harm, as pages in a browser."""

import json
import re
import unittest
from pathlib import Path

from tests.browsers import IS_FIREFOX
from tests.made import HEADER, TRACES, acked, joined, made, report_of, sent
from tests.test_browser import EVIL, Browsing


class Harm(Browsing):
    """Traces that mean harm."""

    def harmless(self, data: bytes, report: str | None = None) -> None:
        """A page runs nothing of its trace, and draws or says why not."""
        self.show(made(data, report, title=EVIL, trace=Path("a<b>&.trace")))
        for _ in range(3):
            self.key("ArrowRight")
        self.browser.run(
            "for (const name of ['packets', 'window', 'rtt']) {"
            "  const it = document.getElementById('chart-' + name);"
            "  const box = it.getBoundingClientRect();"
            "  for (let x = 70; x < box.width; x += 90) it.dispatchEvent(new PointerEvent("
            "    'pointermove', {clientX: box.left + x, clientY: box.top + 60, bubbles: true}));"
            "}"
        )
        self.assertIsNone(self.browser.run("return window.pwned ?? null"))
        self.assertEqual(
            self.browser.run("return document.querySelectorAll('img, svg, iframe').length"),
            0,
        )
        # Four blocks, what unpacks two of them, and these two.
        self.assertEqual(self.browser.run("return document.scripts.length"), 7)
        self.assertNotIn("could not be drawn", self.text("#trouble"))

    def test_markup(self) -> None:
        line = json.dumps({"event": "metrics", "time": 1, "note": EVIL}, ensure_ascii=False)
        self.harmless(joined(HEADER, line, sent(0, 2), f"<b>{EVIL}", line))
        self.assertIn("\\u{202e}", self.text("#rows"))
        self.assertIn("<script>window.pwned=1</script>", self.text("#rows"))

    def test_bytes(self) -> None:
        self.harmless(
            joined(HEADER) + b'{"a":"\xff\xed\xa0\x80\x00"}\n\xff\xfe\x00\n' + b"\r\n" * 5
        )
        self.assertIn("\\xff", self.text("#rows"))
        self.harmless(joined(HEADER, '{"event":"metrics","time":5,"x":"\\ud800\\u202e\u202e"}'))

    def test_empty(self) -> None:
        self.harmless(b"", "unreadable line 1 F7 header-place\n")
        self.harmless(b"\n\n\n", "unreadable line 4 F7 header-place\n")
        self.harmless(joined(HEADER))

    def test_a_line_of_ten_megabytes(self) -> None:
        self.harmless(joined(HEADER, sent(0)) + b"<" * 10_000_000 + b"\n" + joined(sent(1, 5)))
        self.assertIn("10,000,000 bytes, cut here", self.text("#rows"))

    def test_acknowledgments_of_all_numbers(self) -> None:
        every = acked(5, *[(0, 2**62 - 1)] * 2000)
        self.harmless(joined(HEADER, *(sent(n, n) for n in range(300)), *[every] * 300))

    def test_great_numbers(self) -> None:
        numbers = (2**53 - 1, 2**53 + 1, 2**61, 2**62 - 1)
        reports = (f'{{"event":"metrics","time":{10**15},"window":{2**64 - 1},"rttvar":{2**63}}}',)
        self.harmless(joined(HEADER, *(sent(n, 10**15 - 9) for n in numbers), *reports * 3))
        self.assertIn(str(2**64 - 1), self.text("#rows"))

    def test_great_state_is_exact(self) -> None:
        path = TRACES / "greatest-totals.trace"
        data, report = path.read_bytes(), report_of(path)
        self.harmless(data, report)
        self.key("v")
        self.key("ArrowLeft")
        totals = dict(line.split(" ", 1) for line in report.splitlines()[1:])
        row = self.text("tr.selected").replace(",", "")
        self.assertIn(totals["window"], row)

    def test_timers_without_end(self) -> None:
        fired = '{"event":"timer","time":%d,"kind":"%s","space":"app"}'
        timers = (fired % (n, ("pto", "loss")[n % 2]) for n in range(30_000))
        self.harmless(joined(HEADER, *timers))
        self.assertLess(self.browser.run("return qauditPage.lastFrame()"), 2000)

    def test_lines_that_deflate_ten_thousandfold(self) -> None:
        blank = b" " * 60_000 + b"\n"
        self.harmless(joined(HEADER, sent(0)) + blank * 300)

    def test_times_that_go_back_and_objects_of_all_kinds(self) -> None:
        odd = (
            '{"event":"sent","time":"x"}',
            '{"event":{"a":1}}',
            "[]",
            '"x"',
            "null",
            "{}",
            '{"event":"ack","time":9,"space":"app","ranges":[[5,1]]}',
            "[" * 5000,
        )
        self.harmless(
            joined(
                HEADER,
                sent(0, 50),
                sent(1, 40),
                *odd,
                sent(7, 3),
                sent(3, 60),
                HEADER,
                acked(2, (0, 9)),
            )
        )

    def test_what_cannot_be_unpacked(self) -> None:
        text = made(joined(HEADER, sent(0)))
        block = re.search(r'id="library">([^<]*)<', text)
        assert block is not None
        self.show(text.replace(block[1], block[1][::-1]))
        self.assertIn("The diagrams could not be drawn", self.text("#trouble"))
        self.assertIn("Accepted.", self.text(".verdict"))

    @unittest.skipIf(IS_FIREFOX, "only Chromium can be made one")
    def test_an_old_browser(self) -> None:
        driver = self.of_chromium()
        old = {"source": "delete window.DecompressionStream"}
        added = driver.execute_cdp_cmd("Page.addScriptToEvaluateOnNewDocument", old)
        try:
            self.show(made(joined(HEADER, sent(0))))
            self.assertIn("this browser is too old", self.text("#trouble"))
            self.assertIn("Accepted.", self.text(".verdict"))
        finally:
            driver.execute_cdp_cmd("Page.removeScriptToEvaluateOnNewDocument", added)

    def test_the_policy_holds(self) -> None:
        self.show(made(joined(HEADER, sent(0))))
        self.browser.run(
            "const add = (name, set) => { const it = document.createElement(name); set(it);"
            "  document.body.append(it); };"
            "add('script', it => { it.textContent = 'window.pwned = 1'; });"
            "add('div', it => { it.innerHTML = '<b onclick=\"window.pwned = 2\">x</b>'; });"
            "document.querySelector('b[onclick]').click();"
            "fetch('http://127.0.0.1:9/').catch(() => { window.isRefused = true; });"
        )
        self.browser.wait("return window.isRefused === true")
        self.assertIsNone(self.browser.run("return window.pwned ?? null"))
        # The browser says of each that it refused it.
        self.assertGreaterEqual(len(self.browser.messages()), 3)
        self.browser.requests()
