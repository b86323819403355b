"""How verdicts went over several runs."""

import json
import re
import subprocess
import sys
import tempfile
import unittest
from collections import Counter
from pathlib import Path
from typing import Any

from tests.made import PROGRAM, Page
from tests.test_matrix import BAD, COMMAND, EVIL, GOOD

from qaudit_page.history import Night, history, picture
from qaudit_page.matrix import KINDS, Result, pattern

LOSS = Result("loss/quinn", "refused", 9, "V7", "past-window")
GOOD_LOSS = Result("loss/quinn", "accepted")
AMBER_LOSS = Result("loss/quinn", "accepted", with_allowances=True)
OTHER = Result("retry/quinn", "refused", 4, "V13", "early-timer")
GONE = Result("retry/quinn", "failed", fault="no such file")
CASES = pattern("CASE/STACK")


def rows(page: str, table: str) -> list[list[str]]:
    """The cells of a table without its head, as texts."""
    body = page.split(f'id="{table}"')[1].split("<tbody>")[1].split("</tbody>")[0]
    return [
        [" ".join(re.sub("<[^>]*>", " ", cell).split()) for cell in re.split("</t[hd]>", row)[:-1]]
        for row in body.split("</tr>")[:-1]
    ]


class Nights(unittest.TestCase):
    """Runs that are compared, by hand."""

    def test_counts_and_what_is_new_and_gone(self) -> None:
        nights = [
            Night("monday", [LOSS, OTHER]),
            Night("tuesday", [AMBER_LOSS, OTHER]),
            Night("wednesday", [GOOD_LOSS, GONE]),
            Night("thursday", [LOSS]),
        ]
        found = rows(history(nights, CASES), "nights")
        # The run, its traces, accepted, with allowances, refused, unreadable, failed; then what is
        # new and what is gone.
        v7, v13 = "loss/quinn: refused V7 past-window", "retry/quinn: refused V13 early-timer"
        self.assertEqual(
            found,
            [
                ["thursday", "1", "0", "0", "1", "0", "0", f"1 {v7}", "0"],
                ["wednesday", "2", "1", "0", "0", "0", "1", "0", f"1 {v13}"],
                ["tuesday", "2", "0", "1", "1", "0", "0", "0", f"1 {v7}"],
                ["monday", "2", "0", "0", "2", "0", "0", "", ""],
            ],
        )

    def test_another_line_is_not_new(self) -> None:
        moved = Result("loss/quinn", "refused", 90, "V7", "past-window")
        found = rows(history([Night("a", [LOSS]), Night("b", [moved])], None), "nights")
        self.assertEqual(found[0][-2:], ["0", "0"])
        another = Result("loss/quinn", "refused", 9, "V16", "metric rttvar")
        found = rows(history([Night("a", [LOSS]), Night("b", [another])], None), "nights")
        self.assertEqual([it[0] for it in found[0][-2:]], ["1", "1"])

    def test_rules_and_cases(self) -> None:
        nights = [Night("a", [LOSS, OTHER]), Night("b", [AMBER_LOSS, OTHER]), Night("c", [LOSS])]
        page = history(nights, CASES)
        self.assertEqual(
            rows(page, "rules-over-runs"),
            [
                ["V13 early-timer", "refused: 1 to 0, at most 1", "none"],
                ["V7 past-window", "refused: 1 to 1, at most 1", "1 refused"],
            ],
        )
        told = "accepted with allowances: 0 to 0, at most 1; refused: 1 to 1, at most 1"
        self.assertEqual(rows(page, "cases-over-runs")[0], ["loss", told, "1 refused"])

    def test_a_picture(self) -> None:
        """Two columns of 12 pixels less one: 1 of 4 amber, then 2 amber below 2 refused."""
        allowed, refused = KINDS[1:3]
        drawn = picture([Counter({allowed: 1}), Counter({allowed: 2, refused: 2})], 4)
        self.assertIn('<path class="amber" d="M0 28V21h11V28zM12 28V14h11V28z"/>', drawn)
        self.assertIn('<path class="refused" d="M12 14V0h11V14z"/>', drawn)

    def test_many_runs(self) -> None:
        nights = [Night(f"{n:03}", [LOSS]) for n in range(200)]
        page = history(nights, CASES)
        found = rows(page, "nights")
        self.assertEqual((len(found), found[0][0], found[-1][0]), (30, "199", "170"))
        self.assertIn("170 earlier runs not listed here", page)
        self.assertIn("from 080 to 199", page)
        self.assertEqual(page.count("V0h1V"), 2 * 120)

    def test_many_violations(self) -> None:
        results = [Result(f"{n:02}", "refused", 9, "V7", "past-window") for n in range(23)]
        page = history([Night("a", []), Night("b", results)], None)
        self.assertIn("<summary>23</summary>", page)
        self.assertIn("<li>3 more</li>", page)


class Commands(unittest.TestCase):
    """The command."""

    def setUp(self) -> None:
        self.folder = Path(self.enterContext(tempfile.TemporaryDirectory()))
        self.traces, self.nights = self.folder / "traces", self.folder / "nights"
        self.traces.mkdir()
        self.nights.mkdir()
        (self.traces / "a.trace").write_bytes(GOOD)
        self.table = self.folder / "table.html"

    def run_command(self, *words: object) -> Any:
        """How the command ends."""
        command = [sys.executable, COMMAND, "--program", PROGRAM, "--output", self.table]
        return subprocess.run(
            [*map(str, [*command, *words, self.traces])],
            capture_output=True,
            text=True,
            timeout=60,
            check=False,
        )

    def night(self, name: str, status: int) -> None:
        """A run whose results are kept."""
        file = self.nights / f"{name}.json"
        ended = self.run_command("--history", self.nights, "--json", file)
        self.assertEqual((ended.returncode, ended.stderr), (status, ""))

    def test_three_nights(self) -> None:
        self.night("2026-11-25", 0)
        (self.traces / "a.trace").write_bytes(BAD)
        self.night("2026-11-26", 1)
        (self.traces / "b.trace").write_bytes(GOOD)
        self.night("2026-11-27", 1)
        found = rows(self.table.read_text(), "nights")
        self.assertEqual([it[0] for it in found], ["2026-11-27", "2026-11-26", "2026-11-25"])
        self.assertEqual([it[1] for it in found], ["2", "1", "1"])
        new = "1 a: refused V6 number-not-higher"
        self.assertEqual([it[-2:] for it in found], [["0", "0"], [new, "0"], ["", ""]])
        # The same night again takes the place of its own results.
        self.night("2026-11-27", 1)
        self.assertEqual(rows(self.table.read_text(), "nights"), found)
        self.run_command("--history", self.nights)
        found = rows(self.table.read_text(), "nights")
        self.assertEqual([it[0] for it in found][:2], ["this run", "2026-11-27"])

    def test_without_history(self) -> None:
        self.run_command()
        self.assertNotIn("nights", Page(self.table.read_text()).by_id)

    def test_older_results(self) -> None:
        self.night("1", 0)
        file = self.nights / "1.json"
        said = json.loads(file.read_text())
        for it in said["traces"]:
            del it["with_allowances"], it["rests_on"]
        file.write_text(json.dumps(said))
        self.night("2", 0)
        self.assertEqual(len(rows(self.table.read_text(), "nights")), 2)

    def test_what_is_no_result(self) -> None:
        ended = self.run_command("--history", self.folder / "nowhere")
        self.assertEqual(ended.returncode, 3)
        self.assertIn("nowhere is no directory", ended.stderr)
        wrong = ("", "[]", '{"version":1,"traces":[{}]}', '{"version":1,"traces":5}', "[" * 9999)
        for text in wrong:
            (self.nights / "odd.json").write_text(text)
            ended = self.run_command("--history", self.nights)
            self.assertEqual(ended.returncode, 3, text)
            self.assertIn("odd.json is not what qaudit-matrix --json writes", ended.stderr)
            self.assertEqual(ended.stderr.count("\n"), 1)

    def test_names_that_mean_harm(self) -> None:
        (self.traces / f"{EVIL}.trace").write_bytes(BAD)
        self.night(EVIL, 1)
        odd = {"key": EVIL, "kind": EVIL, "line": 5, "rule": EVIL, "name": EVIL}
        file = self.nights / "odd.json"
        file.write_text(json.dumps({"version": 1, "traces": [odd, {**odd, "kind": "refused"}]}))
        self.night("last", 1)
        page = Page(self.table.read_text())
        tags = {tag for tag, _ in page.tags}
        self.assertLessEqual({"svg", "path"}, tags)
        self.assertNotIn("script", tags)
        names = {name for _, attributes in page.tags for name in attributes}
        self.assertFalse([name for name in names if name.startswith("on") or name == "style"])
        self.assertIn('a<script>b"&\\u{202e}', page.by_id["nights"])


if __name__ == "__main__":
    unittest.main()
