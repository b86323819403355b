"""Pages of two traces: how these are aligned, and which line is the first at which they part."""

import re
import subprocess
import sys
import tempfile
import unittest
from pathlib import Path
from typing import Any

from tests.made import (
    HEADER,
    NO_LIBRARY,
    PAGE,
    PROGRAM,
    TRACES,
    Page,
    acked,
    joined,
    made,
    made_of_two,
    seen,
    sent,
    unpacked,
)
from tests.test_page import EVIL

from qaudit_page.alignment import End, alignment_of
from qaudit_page.pair import named, names_of, style_of_two
from qaudit_page.parting import Parting, parting_of, words_of

COMMAND = PAGE / "qaudit-page"
CLIENT = HEADER.replace("server", "client")
IN_NANOSECONDS = HEADER.replace('"version":1', '"version":3,"unit":"ns"')
MILLISECOND = 1_000


def initial(number: int, milliseconds: float) -> str:
    """An Initial packet."""
    return sent(number, int(milliseconds * MILLISECOND), "initial")


def heard(number: int, milliseconds: float) -> str:
    """An acknowledgment of an Initial packet."""
    return acked(int(milliseconds * MILLISECOND), (number, number), space="initial")


# A packet takes 10 ms each way. The clock of the server is 1,000 ms ahead of that of the client.
CLIENT_END = (CLIENT, initial(0, 0), heard(0, 20), initial(1, 20))
SERVER_END = (HEADER, initial(0, 1_010), heard(0, 1_030))


def shift_of(first: tuple[str, ...], second: tuple[str, ...]) -> tuple[int, str]:
    """How much later the second of two traces is drawn, in nanoseconds, and what is said of it."""
    ends = (End(seen(joined(*lines))[0], name) for lines, name in ((first, "A"), (second, "B")))
    found = alignment_of(*ends)
    return found.shift, found.text


class Aligned(unittest.TestCase):
    """Two traces on one axis, by examples that were worked out from a clock that is known."""

    def test_half_a_round_trip(self) -> None:
        shift, text = shift_of(CLIENT_END, SERVER_END)
        self.assertEqual(shift, -1_000_000_000)
        self.assertEqual(
            text,
            "B is drawn 1,000 ms earlier than its clock says. So the first packet of B is half way"
            " between the Initial packet of A that it answers and the acknowledgment of that: 10 ms"
            " from each. All 2 acknowledgments then follow a packet in which they can come.",
        )

    def test_the_server_may_be_named_first(self) -> None:
        shift, text = shift_of(SERVER_END, CLIENT_END)
        self.assertEqual(shift, 1_000_000_000)
        self.assertIn("B is drawn 1,000 ms later than its clock says.", text)

    def test_units_differ(self) -> None:
        thousandfold = (re.sub(r'("time":\d+)', r"\g<1>000", line) for line in SERVER_END[1:])
        shift, _ = shift_of(CLIENT_END, (IN_NANOSECONDS, *thousandfold))
        self.assertEqual(shift, -1_000_000_000)

    def test_the_first_packet_of_the_client_is_lost(self) -> None:
        client = (CLIENT, initial(0, 0), initial(1, 999), heard(1, 1_019))
        self.assertEqual(shift_of(client, (HEADER, initial(0, 2_009)))[0], -1_000_000_000)

    def test_the_first_packet_of_the_server_is_lost(self) -> None:
        lost = '{"event":"lost","time":1530000,"space":"initial","ranges":[[0,0]]}'
        server = (HEADER, initial(0, 1_010), initial(1, 1_510), heard(1, 1_530), lost)
        shift, text = shift_of((CLIENT, initial(0, 0), heard(0, 520), initial(1, 520)), server)
        self.assertEqual(shift, -1_000_000_000)
        told = (
            "So the first packet of B is 10 ms after the Initial packet of A that it answers, and"
            " the first one that was not lost 10 ms before the acknowledgment of that."
        )
        self.assertIn(told, text)

    def test_acknowledgments_out_of_order(self) -> None:
        """The client heard of its packet at 400 ms, when the server had sent nothing since."""
        early = (*CLIENT_END, sent(0, 300_000), acked(400_000, (0, 0)))
        _, text = shift_of(early, SERVER_END)
        self.assertIn("Of 3 acknowledgments, 1 then follow no packet in which they can come", text)
        self.assertNotIn("two connections", text)
        later = (sent(n, 300_000 + 1_000 * n) for n in range(2, 6))
        heard_of = (acked(400_000 + 1_000 * n, (n, n)) for n in range(2, 6))
        _, text = shift_of((*CLIENT_END, *later, *heard_of), SERVER_END)
        self.assertIn("Of 6 acknowledgments, 4 then", text)
        self.assertIn("These may be the ends of two connections.", text)

    def test_no_handshake(self) -> None:
        for client in (
            (CLIENT, sent(0, 5_000)),
            (CLIENT, initial(0, 5)),
            # The acknowledgment comes before the packet that it acknowledges is sent.
            (CLIENT, initial(0, 5), heard(0, 4)),
        ):
            shift, text = shift_of(client, SERVER_END)
            self.assertEqual(shift, (5 - 1_010) * 1_000_000)
            self.assertIn("do not have the packets of one handshake", text)
            self.assertIn("So both send their first packet at once.", text)

    def test_two_runs(self) -> None:
        shift, text = shift_of((HEADER, sent(0, 7_000)), (HEADER, sent(0, 5_000)))
        self.assertEqual(shift, 2_000_000)
        self.assertNotIn("handshake", text)
        self.assertEqual(shift_of((HEADER,), (HEADER, sent(0, 5)))[0], 0)
        self.assertEqual(shift_of((), ())[0], 0)


def parted(first: tuple[str, ...], second: tuple[str, ...]) -> Parting:
    """How two runs part."""
    return parting_of(seen(joined(*first))[0], seen(joined(*second))[0])


class Parted(unittest.TestCase):
    """The first line at which two runs part."""

    def test_times_do_not_part(self) -> None:
        report = '{"event":"metrics","time":%d,"window":12000,"smoothed_rtt":%d,"x_own":%d}'
        ack = '{"event":"ack","time":%d,"space":"app","ranges":[[0,0]],"delay":%d}'
        runs = [
            (HEADER, sent(0, time), ack % (2 * time, time), report % (2 * time, time, time))
            for time in (1_000, 1_001)
        ]
        self.assertEqual(parted(runs[0], runs[1]), Parting(3, (None, None)))

    def test_the_first_line_that_differs(self) -> None:
        one = (HEADER, sent(0), "", sent(1), sent(2))
        other = (HEADER, sent(0, 7), sent(1, 8, size=1199), sent(3, 9))
        self.assertEqual(parted(one, other), Parting(1, (4, 3)))
        self.assertEqual(parted(one, other[:2]), Parting(1, (4, None)))
        self.assertEqual(parted(other[:2], one), Parting(1, (None, 4)))

    def test_the_order_of_keys_does_not_part(self) -> None:
        turned = '{"space":"app","event":"discard","time":5}'
        plain = '{"event":"discard","time":5,"space":"app"}'
        self.assertEqual(parted((HEADER, turned), (HEADER, plain)).lines, (None, None))

    def test_numbers_count_from_the_first_of_their_space(self) -> None:
        lost = '{"event":"lost","time":9,"space":"app","ranges":[[%d,%d]]}'
        runs = [
            (HEADER, sent(a, 1, "initial"), sent(b, 2), sent(b + 2, 3), acked(9, (b, b)))
            + (lost % (b + 2, b + 2),)
            for a, b in ((0, 0), (7, 2**61))
        ]
        self.assertEqual(parted(runs[0], runs[1]), Parting(5, (None, None)))
        skips = (*runs[1][:3], sent(2**61 + 1, 3))
        self.assertEqual(parted(runs[0], skips).lines, (4, 4))
        self.assertEqual(parted(runs[0], (*runs[1][:5], lost % (2**61, 2**61 + 2))).lines, (6, 6))

    def test_true_is_not_1(self) -> None:
        other = sent(0).replace("true", "1", 1)
        self.assertEqual(parted((HEADER, sent(0)), (HEADER, other)).lines, (2, 2))
        one, true = (f'{{"event":"sent","space":"app","number":{it}}}' for it in ("1", "true"))
        self.assertEqual(parted((HEADER, one), (HEADER, true)).lines, (2, 2))

    def test_headers(self) -> None:
        other = HEADER.replace("1200", "1300").replace("{", '{"x_note":["a"],', 1)
        found = parted((HEADER, sent(0)), (other, sent(0)))
        self.assertEqual(found, Parting(1, (None, None), ("max_datagram_size",)))

    def test_what_is_no_event(self) -> None:
        deep = "[" * 60_000
        self.assertEqual(parted((HEADER, deep), (HEADER, deep)).lines, (None, None))
        self.assertEqual(parted((HEADER, deep), (HEADER, deep + "[")).lines, (2, 2))

    def test_words(self) -> None:
        for line, wanted in (
            (sent(36, 5, more=',"leave":"probe"'), "sent: app 36, 1,200 B, a probe"),
            (acked(5, (3, 4), (0, 1)), "acknowledged: app 3-4, 0-1"),
            (
                '{"event":"lost","time":1,"space":"initial",'
                '"ranges":[[0,0],[2,2],[4,4],[6,6],[8,8]]}',
                "declared lost: initial 0, 2, 4, 6 and 1 range more",
            ),
            (
                '{"event":"timer","time":1,"kind":"pto","space":"app"}',
                "fired: probe timeout of app",
            ),
            ('{"event":"discard","time":1,"space":"initial"}', "initial keys discarded"),
            ('{"event":"confirmed","time":1}', "handshake confirmed"),
            (
                '{"event":"metrics","time":1,"window":12000,"min_rtt":5}',
                "metrics, window 12000",
            ),
            ('{"event":"sent","size":"x"}', '{"event":"sent","size":"x"}'),
            ('{"event":["sent"]}', '{"event":["sent"]}'),
            ("x" * 300, "x" * 200 + " .."),
        ):
            with self.subTest(line):
                self.assertEqual(words_of(line.encode()), wanted)


class Pages(unittest.TestCase):
    """The HTML."""

    def test_both_ends(self) -> None:
        page = Page(made_of_two(joined(*CLIENT_END), joined(*SERVER_END)))
        ids = [it["id"] for _, it in page.tags if it.get("id")]
        self.assertEqual(len(set(ids)), len(ids))
        self.assertIn("second.trace is drawn 1,000 ms earlier", page.by_id["aligned"])
        self.assertNotIn("parting", page.by_id)
        said = [unpacked(page.by_id[f"{run}-data"]) for run in ("first", "second")]
        self.assertIn('"shift":0,', said[0])
        self.assertIn('"shift":-1000.0,', said[1])
        lines = unpacked(page.by_id["second-text"]).split("\n")
        self.assertEqual(lines, [*SERVER_END])

    def test_two_runs_that_part(self) -> None:
        one = joined(HEADER, sent(0), sent(1))
        page = Page(made_of_two(one, joined(HEADER, sent(0), sent(2))))
        told = " ".join(page.by_id["parting"].split())
        self.assertEqual(
            told,
            "1 event is alike, apart from times. Then the runs part. first.trace line 3:"
            " sent: app 1, 1,200 B second.trace line 3: sent: app 2, 1,200 B",
        )
        links = [it["href"] for tag, it in page.tags if tag == "a"]
        self.assertIn("#first=3", links)
        self.assertIn("#second=3", links)
        alike = Page(made_of_two(one, one)).by_id["parting"]
        self.assertEqual(alike, "The runs are alike in all 2 events, apart from times.")

    def test_each_verdict_is_that_of_its_own_page(self) -> None:
        names = ("timer-late", "silence-past-a-pto")
        traces = [(TRACES / f"{name}.trace").read_bytes() for name in names]
        page = Page(made_of_two(traces[0], traces[1]))
        for run, data in zip(("first", "second"), traces, strict=True):
            alone = Page(made(data))
            for name in ("facts", "options", "silences", "quote", "departures"):
                self.assertEqual(page.by_id.get(f"{run}-{name}"), alone.by_id.get(name), name)
            prefix = f"#{run}="
            links = [it["href"] or "" for tag, it in page.tags if tag == "a"]
            found = [it.replace(prefix, "#line=") for it in links if it.startswith(prefix)]
            self.assertEqual(found, [it["href"] for tag, it in alone.tags if tag == "a"])
        links = [it["href"] or "" for tag, it in page.tags if tag == "a"]
        self.assertFalse([it for it in links if it.startswith("#line=")])

    def test_names_and_lines_that_mean_harm(self) -> None:
        evil = joined(HEADER, sent(0), f'{{"event":"{EVIL}","x":5}}', EVIL)
        names = (EVIL, f'{EVIL} id="x" href="#line=5"')
        text = made_of_two(evil, joined(HEADER, sent(0)), *names)
        page = Page(text)
        wanted = Page(made_of_two(joined(HEADER, sent(0), "x"), joined(HEADER, sent(0))))
        kinds = ("script", "img", "svg", "a", "button", "section")
        for kind in kinds:
            count = [tag for tag, _ in page.tags].count(kind)
            self.assertLessEqual(count, [tag for tag, _ in wanted.tags].count(kind), kind)
        self.assertNotIn("x", [it.get("id") for _, it in page.tags])
        self.assertNotIn("#line=5", [it.get("href") for _, it in page.tags])
        self.assertIn("default-src 'none'", page.policy())

    def test_what_is_named(self) -> None:
        markup = '<p id="quote" title=" id=&quot;a"><a href="#line=3">x</a></p>'
        wanted = '<p id="first-quote" title=" id=&quot;a"><a href="#first=3">x</a></p>'
        self.assertEqual(named(markup, "first"), wanted)
        style = "#panel b { color: #fff; } :root { --a: #abcdef }"
        both = ":is(#first-panel, #second-panel) b { color: #fff; } :root { --a: #abcdef }"
        self.assertEqual(style_of_two(style), both)

    def test_names(self) -> None:
        self.assertEqual(names_of(Path("a/x"), Path("b/y")), ("x", "y"))
        self.assertEqual(names_of(Path("a/x"), Path("b/x")), ("a/x", "b/x"))
        self.assertEqual(names_of(Path("x"), Path("x")), ("x (first)", "x (second)"))


@unittest.skipIf(NO_LIBRARY, NO_LIBRARY)
class Commands(unittest.TestCase):
    """The command."""

    def setUp(self) -> None:
        self.folder = Path(self.enterContext(tempfile.TemporaryDirectory()))
        (self.folder / "client.trace").write_bytes(joined(*CLIENT_END))
        (self.folder / "server.trace").write_bytes(joined(*SERVER_END))

    def run_command(self, *words: object) -> Any:
        """How the command ends."""
        command = [sys.executable, COMMAND, "--program", PROGRAM, *words]
        return subprocess.run(
            list(map(str, command)),
            capture_output=True,
            text=True,
            timeout=60,
            check=False,
            cwd=self.folder,
            stdin=subprocess.DEVNULL,
        )

    def test_two_traces(self) -> None:
        ended = self.run_command("client.trace", "server.trace")
        self.assertEqual((ended.returncode, ended.stderr), (0, ""))
        page = Page(ended.stdout)
        self.assertEqual(page.by_id["h1"], "client.trace and server.trace")
        self.assertIn("server.trace is drawn 1,000 ms earlier", page.by_id["aligned"])

    def test_a_part_of_both(self) -> None:
        ended = self.run_command("--from", 2, "--to", 3, "client.trace", "server.trace")
        page = Page(ended.stdout)
        for run, lines in (("first", CLIENT_END), ("second", SERVER_END)):
            self.assertEqual(unpacked(page.by_id[f"{run}-text"]).split("\n"), [*lines[1:3]])
        ended = self.run_command("--from", 4, "client.trace", "server.trace")
        self.assertEqual(ended.returncode, 2)
        told = "qaudit-page: server.trace: there is no line from 4 to 3: the trace has 3\n"
        self.assertEqual(ended.stderr, told)

    def test_what_is_missing_and_what_is_too_much(self) -> None:
        ended = self.run_command("client.trace", "gone.trace")
        self.assertEqual(ended.returncode, 3)
        self.assertEqual(ended.stderr.count("\n"), 1)
        self.assertIn("gone.trace", ended.stderr)
        ended = self.run_command("client.trace", "server.trace", "client.trace")
        self.assertEqual((ended.returncode, ended.stdout), (64, ""))


if __name__ == "__main__":
    unittest.main()
