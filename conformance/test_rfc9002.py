#!/usr/bin/env python3
"""Shows that conformance/rfc9002 finds what is wrong in its table, its page and what pages quote.

Each test has a small repository of its own in a temporary folder, with one section of an RFC.
"""

import gzip
import json
import subprocess
import sys
import unittest
from pathlib import Path
from typing import Any

from runners import FOLDER
from testing import new_folder

ROW: dict[str, Any] = {
    "at": [1],
    "says": "a timeout loses nothing",
    "judged": "exactly",
    "definitions": ["Loss.owed"],
    "rules": ["V3"],
    "accepted": ["kept"],
    "refused": ["broken"],
}
PERMISSION = ROW | {"at": [2], "judged": "not judged", "accepted": [], "refused": []}
SECTION: dict[str, Any] = {
    "section": "6.2",
    "title": "Probe Timeout",
    "keywords": ["MUST NOT", "MAY"],
    "sentences": [ROW, PERMISSION],
}
PAGE = """\
# A page

<!-- conformance/rfc9002 --write puts what follows here -->
<!-- up to here -->
"""
RFC = """\
6.2.  Probe Timeout

   A PTO timer expiration event does not indicate packet loss and MUST
   NOT cause prior unacknowledged packets to be marked as lost.  An ack-
   eliciting packet MAY be sent.

     // A comment of two
     // lines in the pseudocode
"""


class Checked(unittest.TestCase):
    """The check over small repositories."""

    def setUp(self) -> None:
        self.folder = new_folder(self)
        self.put("crates/base/specs/machine/Loss.antt", "abbrev pub owed : List\nowed = []\n")
        self.put("crates/other/specs/Loss.antt", "abbrev pub another : List\n")
        self.put("conformance/traces/kept.report", "accepted\nevents 3\n")
        self.put("conformance/traces/broken.report", "refused line 4 V3 loss-not-owed\n")
        self.put("docs/rfc9002.md", PAGE)
        self.put("docs/machine.md", "| Rule |\n|---|\n| V3 `loss-not-owed` |\n| V13 `early` |\n")
        self.put("docs/format.md", "| Fault |\n|---|\n| F5 |\n")
        for name in ("rfc9000", "rfc9001", "rfc9002"):
            self.put(f"texts/{name}.txt", RFC if name == "rfc9002" else "")
        self.listed()

    def put(self, name: str, text: str) -> Path:
        """Writes a file."""
        path = self.folder / name
        path.parent.mkdir(parents=True, exist_ok=True)
        path.write_text(text)
        return path

    def listed(self, row: dict[str, Any] | None = None, **section: Any) -> None:
        """Changes the first row of the table, or its section, and writes the page again."""
        changed = SECTION | {"sentences": [ROW | (row or {}), PERMISSION]} | section
        said = {"no_quotes": [], "sections": [changed]}
        self.put("conformance/rfc9002.json", json.dumps(said))
        self.run_check("--write")

    def run_check(self, *words: str) -> tuple[int, str]:
        """How the check ends, and what it prints."""
        command = [sys.executable, str(FOLDER / "rfc9002"), *words, str(self.folder)]
        ended = subprocess.run(command, capture_output=True, text=True, check=False)
        return ended.returncode, ended.stdout + ended.stderr

    def check_rfc(self) -> tuple[int, str]:
        """The same with the texts of the RFCs."""
        return self.run_check("--rfc", str(self.folder / "texts"))

    def assert_fails(self, text: str, ended: tuple[int, str] | None = None) -> None:
        """That the check fails and says so."""
        status, told = ended or self.run_check()
        self.assertEqual(status, 1, told)
        self.assertIn(text, told)

    def test_all_is_well(self) -> None:
        status, told = self.check_rfc()
        self.assertEqual((status, told.splitlines()[-1]), (0, "5 passed, 0 failed"))
        page = (self.folder / "docs/rfc9002.md").read_text()
        self.assertIn("| MUST NOT | a timeout loses nothing | exactly | `Loss.owed` | V3 |", page)

    def test_without_the_rfcs_a_line_says_so(self) -> None:
        status, told = self.run_check()
        self.assertEqual(status, 0, told)
        if not Path("/usr/share/doc/RFC").exists():
            self.assertIn("quotes and keywords are not compared", told)

    def test_a_definition_that_is_not_there(self) -> None:
        self.listed({"definitions": ["Loss.due"]})
        self.assert_fails("there is no definition Loss.due")

    def test_a_file_of_definitions_that_is_not_there(self) -> None:
        self.listed({"definitions": ["Lost.owed"]})
        self.assert_fails("there is no definition Lost.owed")

    def test_a_rule_that_is_not_there(self) -> None:
        self.listed({"rules": ["V3", "V30"]})
        self.assert_fails("there is no rule V30")

    def test_a_trace_that_is_not_there(self) -> None:
        self.listed({"accepted": ["gone"]})
        self.assert_fails("gone is not accepted: None")

    def test_a_trace_on_the_wrong_side(self) -> None:
        self.listed({"accepted": ["broken"], "refused": ["kept"]})
        self.assert_fails("broken is not accepted: refused line 4 V3 loss-not-owed")
        self.assert_fails("kept is not refused: accepted")

    def test_a_trace_that_another_rule_refuses(self) -> None:
        self.listed({"rules": ["V13"]})
        self.assert_fails("broken is refused by none of its rules")

    def test_a_trace_that_cannot_be_read_counts_as_refused(self) -> None:
        self.put("conformance/real/traces/broken.report", "unreadable line 1 F5 out-of-range\n")
        self.listed({"rules": ["F5"], "refused": ["real/broken"]})
        self.assertEqual(self.run_check()[0], 0)

    def test_exactly_needs_a_trace_on_each_side(self) -> None:
        self.listed({"refused": []})
        self.assert_fails("it is judged exactly, and names no trace that is refused")
        self.listed({"accepted": []})
        self.assert_fails("it is judged exactly, and names no trace that is accepted")

    def test_more_strictly_and_more_laxly_need_one(self) -> None:
        self.listed({"judged": "more strictly", "refused": []})
        self.assert_fails("it is judged more strictly, and names no trace that is refused")
        self.listed({"judged": "more laxly", "accepted": []})
        self.assert_fails("it is judged more laxly, and names no trace that is accepted")

    def test_another_word_for_how_it_is_judged(self) -> None:
        self.listed({"judged": "well"})
        self.assert_fails("'well' is none of exactly,")

    def test_a_must_without_a_row(self) -> None:
        self.listed({"at": []})
        self.assert_fails("MUST NOT number 1 has 0 rows")

    def test_a_keyword_with_two_rows(self) -> None:
        self.listed({"at": [1, 2]})
        self.assert_fails("MAY number 2 has 2 rows")

    def test_a_keyword_that_the_section_has_not(self) -> None:
        self.listed({"at": [1, 3]})
        self.assert_fails("there is no keyword number 3")

    def test_a_page_that_was_not_written_again(self) -> None:
        page = self.folder / "docs/rfc9002.md"
        page.write_text(page.read_text().replace("loses nothing", "loses all"))
        self.assert_fails("it is not as the table has it")

    def test_a_page_without_the_lines(self) -> None:
        self.put("docs/rfc9002.md", "# A page\n")
        self.assert_fails("it lacks the lines between which the table is")

    def test_keywords_that_are_not_those_of_the_rfc(self) -> None:
        self.listed(keywords=["MUST", "MAY"])
        self.assertEqual(self.run_check()[0], 0)
        self.assert_fails("the RFC has ['MUST NOT', 'MAY'], the table ['MUST', 'MAY']",
                          self.check_rfc())

    def test_a_section_of_the_rfc_that_is_not_in_the_table(self) -> None:
        self.put("texts/rfc9002.txt", f"{RFC}\n7.7.  Pacing\n\n   Senders MUST limit bursts.\n")
        self.assert_fails("7.7: in the table: the section has keywords and no row",
                          self.check_rfc())

    def test_a_quote_over_lines_is_verbatim(self) -> None:
        self.put("docs/page.md", '6.2: "An ack-eliciting packet MAY be sent." and code:\n'
                 '`"these are four words"`\n```\n"these are four words"\n```\n'
                 '"A comment of two lines in the pseudocode"\n')
        self.assertEqual(self.check_rfc()[0], 0)

    def test_a_quote_with_another_word(self) -> None:
        self.put("docs/page.md", 'One line.\n\n6.2: "An ack-eliciting packet MUST be sent."\n')
        self.assert_fails("docs/page.md line 3: 'An ack-eliciting packet MUST be sent.' is in none",
                          self.check_rfc())

    def test_a_quote_of_another_section(self) -> None:
        self.put("docs/page.md", 'RFC 9002, 6.2: "An ack-eliciting packet MAY be sent."\n')
        self.assertEqual(self.check_rfc()[0], 0)
        self.put("docs/page.md", '7.5: "An ack-eliciting packet MAY be sent."\n')
        self.assert_fails("is not in 7.5 of rfc9002", self.check_rfc())
        self.put("docs/page.md", 'RFC 9001, 6.2: "An ack-eliciting packet MAY be sent."\n')
        self.assert_fails("is not in 6.2 of rfc9001", self.check_rfc())

    def test_what_is_no_quote_is_listed(self) -> None:
        self.put("README.md", 'A comment: "to do: look at this again"\n')
        said = json.loads((self.folder / "conformance/rfc9002.json").read_text())
        listed = {"file": "README.md", "text": "to do: look at this again", "why": "a comment"}
        self.put("conformance/rfc9002.json", json.dumps(said | {"no_quotes": [listed]}))
        self.assertEqual(self.check_rfc()[0], 0)
        self.put("README.md", "None.\n")
        self.assert_fails("'to do: look at this again' is not there", self.check_rfc())

    def test_a_compressed_text(self) -> None:
        path = self.folder / "texts/rfc9002.txt"
        path.with_suffix(".txt.gz").write_bytes(gzip.compress(path.read_bytes()))
        path.unlink()
        self.assertEqual(self.check_rfc()[0], 0)

    def test_a_folder_without_the_texts(self) -> None:
        (self.folder / "texts/rfc9001.txt").unlink()
        self.assert_fails("has not rfc9000, rfc9001, rfc9002", self.check_rfc())


if __name__ == "__main__":
    unittest.main()
