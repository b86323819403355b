#!/usr/bin/env python3
"""Shows that conformance/contracts passes right lists, and fails what is wrong in them by its line.

Each test has a small repository of its own in a temporary folder, which begins as a right one.
"""

import json
import subprocess
import sys
import unittest
from pathlib import Path
from typing import Any

from functions import Source
from runners import FOLDER
from testing import new_folder

FILE = "qa/src/packets.rt"
# A brace in a text, a lifetime and a comment within a clause are no code.
CODE = """\
//! Packets. `fn none() { ` in a comment is none.
ghost use Rattle.qa.specs.Packets.{far_below, taken};

pub(crate) fn is_far(header: &Header, number: u64) -> bool
    requires order { number ≤ largest }
    ensures { result ≡ nat_le
        header.now.threshold // the header's
        (largest - number) }
{
    let text = "} {";
    let brace = '}';
    header.threshold <= number
}

impl<'a, T: Clone + Drop> Packets<'a, T> {
    /// Takes a packet.
    pub fn take(&mut self, at: &[u64; 2]) -> Result<(), AllocError>
        ensures ok { OnOk result (self.new ≡ taken at self.old) }
        ensures err { OnErr result (self.new ≡ self.old) }
    {
        self.push(at)
    }

    fn push(&mut self, at: &[u64; 2]) -> Result<(), AllocError>
        ensures { self.new ≡ self.old ++ at ∷ [] }
    {
        self.list.push(at)?;
        Ok(())
    }
}

impl From<AllocError> for Fault {
    ghost from_gives = { λ _ fault. fault ≡ faults.OutOfMemory };

    fn from(_refused: AllocError) -> Fault {
        Fault::OutOfMemory
    }
}

impl From<Stop> for Fault {
    fn from(stop: Stop) -> Fault
        ensures { result ≡ fault_of stop }
    {
        Fault::Stopped
    }
}
"""
ORDER = "requires order { number ≤ largest }"
IS_FAR = "ensures { result ≡ nat_le header.now.threshold (largest - number) }"
STRICT = "file: src/packets.rt\nold: header.threshold <= number\nnew: header.threshold < number\n"
DROPPED = "file: src/packets.rt\nold: self.list.push(at)?;\nnew: let _at = at;\n"
NOT_TAKEN = "file: src/packets.rt\nold: self.push(at)\nnew: Ok(())\n"
IN_CONTRACTS, IN_REASONS = "conformance/contracts.json", "edits/reasons.json"
NO_REASON = f"has no reason, in {IN_CONTRACTS} or in {IN_REASONS}"


class ContractsTest(unittest.TestCase):
    """The checker, on a source, its edits and the two lists."""

    def setUp(self) -> None:
        self.top = new_folder(self)
        self.write(f"crates/{FILE}", CODE)
        self.write("crates/qa/must-fail/not_taken.edit", NOT_TAKEN)
        self.write("edits/qa/strict.edit", STRICT)
        self.write("edits/qa/dropped.edit", DROPPED)
        self.write_contracts(edits=["qa/strict"])
        self.write_reasons({"qa/dropped": "`Packets::take` sees it in `ok`, as `not_taken` does"})

    def write(self, name: str, text: str) -> Path:
        """Writes a file of the repository."""
        path = self.top / name
        path.parent.mkdir(parents=True, exist_ok=True)
        path.write_text(text)
        return path

    def write_contracts(
        self,
        function: str = "is_far",
        clauses: tuple[str, ...] = (ORDER, IS_FAR),
        edits: list[str] | None = None,
        gate: tuple[str, ...] = ("qa/not_taken",),
        tests: tuple[dict[str, str], ...] = (),
    ) -> None:
        """Writes a list of one function."""
        listed = {"file": FILE, "function": function, "clauses": clauses, "edits": edits or []}
        named = {"gate": gate, "tests": tests, "functions": [listed]}
        self.write(IN_CONTRACTS, json.dumps(named))

    def write_reasons(self, reasons: dict[str, str]) -> None:
        """Writes a list of reasons."""
        self.write(IN_REASONS, json.dumps(reasons))

    def write_changed(self, right: str, wrong: str) -> None:
        """Writes the source with this text in the place of another."""
        self.assertEqual(CODE.count(right), 1, right)
        self.write(f"crates/{FILE}", CODE.replace(right, wrong))

    def lines(self, status: int, *words: str) -> list[str]:
        """Runs the checker, which must end with this status, and answers what it printed."""
        command = [sys.executable, "-S", str(FOLDER / "contracts"), *words, str(self.top)]
        ended = subprocess.run(command, capture_output=True, text=True, check=False)
        self.assertEqual(ended.stderr, "")
        self.assertEqual(ended.returncode, status, ended.stdout)
        return ended.stdout.splitlines()

    def assert_failures(self, *failures: str) -> None:
        """These fail, and all else is right."""
        *lines, _last = self.lines(1)
        self.assertEqual(lines, [f"FAILED {failure}" for failure in failures])

    def test_right_lists(self) -> None:
        self.assertEqual(self.lines(0), ["8 passed, 0 failed"])

    def test_this_repository_is_right(self) -> None:
        command = [sys.executable, "-S", str(FOLDER / "contracts")]
        ended = subprocess.run(command, capture_output=True, text=True, check=False)
        self.assertIn(" passed, 0 failed", ended.stdout)

    # Contracts.

    def test_clause_that_changed(self) -> None:
        self.write_changed("ensures { result ≡ nat_le", "ensures { result ≡ nat_lt")
        self.assert_failures(
            f"{FILE}: is_far: `{IS_FAR}` is not word for word in its contract",
        )

    def test_clause_that_is_gone(self) -> None:
        self.write_changed(
            "    ensures { result ≡ nat_le\n        header.now.threshold // the header's\n"
            "        (largest - number) }\n",
            "",
        )
        self.assert_failures(f"{FILE}: is_far: `{IS_FAR}` is not word for word in its contract")

    def test_clause_of_another_name(self) -> None:
        self.write_changed("ensures { result ≡ nat_le", "ensures far { result ≡ nat_le")
        self.assert_failures(f"{FILE}: is_far: `{IS_FAR}` is not word for word in its contract")

    def test_clause_in_a_comment(self) -> None:
        self.write_changed("    requires order", "    // requires order")
        self.assert_failures(f"{FILE}: is_far: `{ORDER}` is not word for word in its contract")

    def test_contract_that_asks_for_more(self) -> None:
        self.write_changed("    requires order", "    requires never { 1 ≡ 0 }\n    requires order")
        self.assert_failures(
            f"{FILE}: is_far: it asks for more than is listed: `requires never {{ 1 ≡ 0 }}`"
        )

    def test_contract_that_promises_more(self) -> None:
        self.write_changed("    requires order", "    ensures more { 0 ≡ 0 }\n    requires order")
        self.lines(0)

    def test_white_space_does_not_count(self) -> None:
        self.write_changed("result ≡ nat_le\n        header", "result\n ≡   nat_le header")
        self.lines(0)

    def test_function_that_is_gone(self) -> None:
        self.write_changed("fn is_far(", "fn is_close(")
        self.assert_failures(
            f"{FILE}: is_far: there is no such function in the file",
            f"{FILE}: is_far: qa/strict: the edit changes nothing in this function",
        )

    def test_function_of_a_type(self) -> None:
        clause = "ensures { self.new ≡ self.old ++ at ∷ [] }"
        self.write_reasons({"qa/strict": "so it is"})
        self.write_contracts("Packets::push", (clause,), ["qa/dropped"])
        self.lines(0)

    def test_function_of_two_traits(self) -> None:
        self.write_reasons({"qa/strict": "so it is", "qa/dropped": "so it is"})
        self.write_contracts("Fault::from", ("ensures { result ≡ fault_of stop }",))
        self.lines(0)
        self.write_contracts("Fault::from", ("ensures { result ≡ fault_of stops }",))
        self.lines(1)

    def test_file_that_is_gone(self) -> None:
        (self.top / "crates" / FILE).rename(self.top / "crates/qa/src/other.rt")
        first = self.lines(1)[0]
        self.assertEqual(first, f"FAILED {FILE}: is_far: crates/{FILE} is not there")

    def test_function_with_no_promise(self) -> None:
        self.write_contracts(clauses=(ORDER,), edits=["qa/strict"])
        self.assert_failures(
            f"{FILE}: is_far: none of its clauses is listed that promises anything"
        )

    def test_function_that_is_listed_twice(self) -> None:
        listed: dict[str, Any] = {"file": FILE, "function": "is_far", "edits": []}
        listed["clauses"] = [ORDER, IS_FAR]
        functions = [listed | {"edits": ["qa/strict"]}, listed]
        named = {"gate": ["qa/not_taken"], "tests": [], "functions": functions}
        self.write(IN_CONTRACTS, json.dumps(named))
        self.assert_failures(*[f"{FILE}: is_far: is in {IN_CONTRACTS} twice"] * 2)

    def test_contract_for_an_edit_of_another_function(self) -> None:
        self.write_contracts(edits=["qa/strict", "qa/dropped"])
        self.write_reasons({})
        self.assert_failures(
            f"{FILE}: is_far: qa/dropped: the edit changes nothing in this function"
        )

    def test_contract_for_an_edit_that_is_gone(self) -> None:
        (self.top / "edits/qa/strict.edit").unlink()
        self.assert_failures(f"{FILE}: is_far: qa/strict: there is no such edit in edits/")

    # Reasons.

    def test_edit_without_a_reason(self) -> None:
        self.write_reasons({})
        self.assert_failures(f"edits/qa/dropped: {NO_REASON}")

    def test_edit_with_an_empty_reason(self) -> None:
        self.write_reasons({"qa/dropped": " "})
        self.assert_failures(f"edits/qa/dropped: {NO_REASON}")

    def test_edit_with_two_reasons(self) -> None:
        self.write_reasons({"qa/dropped": "so it is", "qa/strict": "so it is"})
        self.assert_failures(
            f"edits/qa/strict: has 2 reasons in {IN_CONTRACTS} and {IN_REASONS}, and may have one "
            "alone"
        )

    def test_edit_that_is_among_the_reasons_twice(self) -> None:
        self.write(IN_REASONS, '{"qa/dropped": "so it is", "qa/dropped": "so it is"}')
        self.assertIn("edits/qa/dropped: has 2 reasons", self.lines(1)[0])

    def test_reason_without_an_edit(self) -> None:
        (self.top / "edits/qa/dropped.edit").unlink()
        self.assert_failures(f"{IN_REASONS}: qa/dropped: there is no such edit in edits/")

    def test_reason_that_names_nothing(self) -> None:
        self.write_reasons({"qa/dropped": "`take` sees it in `okay`"})
        self.assert_failures(
            f"{IN_REASONS}: qa/dropped: `okay` is no function, no clause and no edit of the gate"
        )

    def test_reason_that_names_an_edit_of_a_release(self) -> None:
        self.write_reasons({"qa/dropped": "`qa/strict` is of the same function"})
        said = "the reason does not say that a release tries it"
        self.assert_failures(f"{IN_REASONS}: qa/dropped: `qa/strict` is in edits/, and {said}")
        self.write_reasons({"qa/dropped": "only a release tries it, as it does `qa/strict`"})
        self.lines(0)
        self.write_reasons({"qa/dropped": "only a release tries it, as it does `strict`"})
        self.lines(1)
        self.write_reasons({"qa/dropped": "`qa/not_taken` is of the same function"})
        self.lines(0)

    # Edits.

    def test_edit_that_cannot_be_applied(self) -> None:
        self.write("edits/qa/dropped.edit", DROPPED.replace("push(at)?;", "push(to)?;"))
        failure = f"cannot be applied: an old text is in crates/{FILE} 0 times"
        self.assert_failures(f"edits/qa/dropped: {failure}")

    def test_edit_of_what_stands_there_twice(self) -> None:
        self.write("edits/qa/dropped.edit", "file: src/packets.rt\nold: self\nnew: other\n")
        count = CODE.count("self")
        failure = f"cannot be applied: an old text is in crates/{FILE} {count} times"
        self.assert_failures(f"edits/qa/dropped: {failure}")

    def test_edit_of_what_an_earlier_pair_made(self) -> None:
        self.write("edits/qa/dropped.edit", f"{DROPPED}old: _at = at\nnew: _to = at\n")
        self.lines(0)

    def test_edit_that_changes_nothing(self) -> None:
        self.write("edits/qa/dropped.edit", "")
        self.assert_failures("edits/qa/dropped: changes nothing")

    def test_edit_that_the_gate_has_too(self) -> None:
        self.write("crates/qa/must-fail/dropped.edit", DROPPED)
        self.write_contracts(edits=["qa/strict"], gate=("qa/dropped", "qa/not_taken"))
        self.assert_failures("edits/qa/dropped: the gate has an edit of this name")

    def write_tested(self, edit: str, file: str, test: str) -> None:
        """Writes a list with an edit of which this test fails."""
        tested = {"edit": edit, "file": file, "test": test}
        self.write_contracts(edits=["qa/strict"], tests=(tested,))

    def test_edits_of_which_a_test_fails(self) -> None:
        self.write("crates/tests/src/far.rt", "#[test]\nfn far(rt: HostRuntime) {}\nfn near() {}\n")
        self.write("crates/program/stdin", "far\n")
        self.write_tested("qa/strict", "tests/src/far.rt", "far")
        self.lines(0)
        self.write_tested("qa/strict", "program/stdin", "")
        self.lines(0)
        self.write_tested("qa/strict", "tests/src/far.rt", "near")
        self.assert_failures("qa/strict: crates/tests/src/far.rt has no test `near`")
        self.write_tested("qa/strict", "program/stdout", "")
        self.assert_failures("qa/strict: crates/program/stdout is not there")
        self.write_tested("qa/not_taken", "program/stdin", "")
        self.assert_failures("qa/not_taken: there is no such edit in edits/")

    def test_edit_that_left_the_gate(self) -> None:
        self.write_contracts(edits=["qa/strict"], gate=("qa/not_taken", "qa/strict"))
        self.assert_failures("crates/qa/must-fail/strict.edit: the gate does not try this edit")

    def test_edit_that_nobody_let_into_the_gate(self) -> None:
        self.write_contracts(edits=["qa/strict"], gate=())
        failure = f"{IN_CONTRACTS} does not list it"
        self.assert_failures(f"crates/qa/must-fail/not_taken.edit: {failure}")

    # What it prints.

    def test_list(self) -> None:
        self.assertEqual(
            self.lines(0, "--list"),
            [
                "qa/dropped: release, `Packets::take` sees it in `ok`, as `not_taken` does",
                "qa/not_taken: gate",
                f"qa/strict: release, as {FILE}: is_far says",
                "1 in the gate, 2 before a release",
            ],
        )

    def test_entry(self) -> None:
        printed = json.loads("\n".join(self.lines(0, "--entry", FILE, "is_far")))
        wanted = {"file": FILE, "function": "is_far", "clauses": [ORDER, IS_FAR], "edits": []}
        self.assertEqual(printed, wanted)

    def test_functions_of_the_source(self) -> None:
        names = ["is_far", "Packets::take", "Packets::push", "Fault::from", "Fault::from"]
        self.assertEqual([it.name for it in Source(CODE).functions], names)


if __name__ == "__main__":
    unittest.main()
