#!/usr/bin/env python3
"""Shows that conformance/made_up passes what is on its list and fails what is not.

Each test has a small repository of its own in a temporary folder, which begins as a right one.
"""

import json
import subprocess
import sys
import unittest

from runners import FOLDER
from testing import new_folder

FILE = "crates/qa/src/ledger.rt"
# What is on the list is marked.
CODE = """\
//! A ledger. Err(AllocError) in a comment is none.
ghost use Rattle.std.specs.Prelude.{Err, OutOfMemory};

use std::alloc::{AllocError, Global};

#[derive(Clone, Error)]
pub enum Fault {
    #[error("OutOfMemory")]
    OutOfMemory,
    Broken,
}

pub struct Held {
    pub is_open: bool,
    ghost agrees: { is_open ≡ (fault == Fault.OutOfMemory) } by { Bool-set _ _ },
}

impl From<AllocError> for Fault {
    ghost from_gives = { λ _ fault. fault ≡ faults.OutOfMemory };

    fn from(_refused: AllocError) -> Fault {
        Fault::OutOfMemory
    }
}

impl<A: Clone, B> Ledger<A, B> {
    /// Returns `Fault::OutOfMemory` where it is out of memory.
    pub fn start(alloc: Global) -> Ledger<A, B> {
        Ledger { events: Vec::new(alloc), failed: false }
    }

    pub(crate) fn admit(&mut self, event: &Event) -> Result<(), Fault>
        requires few { self.old.events < max_lines }
        ensures failed { self.old.failed ≡ true → result ≡ Err Fault.OutOfMemory }
    {
        if self.failed {
            return Err(Fault::OutOfMemory);
        }
        let text = "Err(Fault::OutOfMemory), { a brace";
        match event {
            Event::Sent { time, .. } => self.send(*time)?,
            Event::Ack { .. } => {}
        }
        self.failed = false;
        Ok(())
    }

    fn hand_on(&self, result: Result<(), Stop>) -> Result<(), Fault> {
        match result {
            Ok(()) => Ok(()),
            Err(Stop::OutOfMemory) => Err(Fault::OutOfMemory),
            Err(Stop::Broken) => return Err(Fault::Broken),
        }
    }

    fn status(&self) -> u8 {
        match self.fault {
            Some(Fault::Broken | Fault::OutOfMemory) => 3,
            None => 0,
        }
    }
}
"""
FROM = ("from", "Fault::OutOfMemory")
ADMIT = ("admit", "if self.failed { return Err(Fault::OutOfMemory)")


class MadeUpTest(unittest.TestCase):
    """The checker, on sources and on a list of what they make."""

    def setUp(self) -> None:
        self.top = new_folder(self)
        (self.top / "conformance").mkdir()
        (self.top / FILE).parent.mkdir(parents=True)
        (self.top / FILE).write_text(CODE)
        self.write_list(FROM, ADMIT)

    def write_list(self, *places: tuple[str, str], reason: str = "so it is") -> None:
        """Writes a list of these places."""
        listed = [
            {"file": FILE, "function": function, "text": text, "reason": reason}
            for function, text in places
        ]
        path = self.top / "conformance/made_up.json"
        path.write_text(json.dumps({"places": listed}))

    def write_changed(self, right: str, wrong: str) -> None:
        """Writes the code with this text in the place of another."""
        self.assertEqual(CODE.count(right), 1, right)
        (self.top / FILE).write_text(CODE.replace(right, wrong))

    def lines(self, status: int) -> list[str]:
        """Runs the checker, which must end with this status, and answers what it printed."""
        command = [sys.executable, "-S", str(FOLDER / "made_up"), str(self.top)]
        ended = subprocess.run(command, capture_output=True, text=True, check=False)
        self.assertEqual(ended.stderr, "")
        self.assertEqual(ended.returncode, status, ended.stdout)
        return ended.stdout.splitlines()

    def assert_made(self, *places: tuple[str, str]) -> None:
        """These places are made and are not on the list, and all else is right."""
        *failures, _last = self.lines(1)
        failure = "makes an error, and is not on the list of conformance/made_up.json with a reason"
        wanted = [f"FAILED {FILE}: {name}: `{text}`: {failure}" for name, text in places]
        self.assertEqual(failures, wanted)

    def assert_admit_makes(self, code: str, text: str) -> None:
        """With this code in `admit` it makes an error, as this text."""
        self.write_changed("        self.failed = false;\n", code)
        self.assert_made(("admit", text))

    def test_right_list(self) -> None:
        self.assertEqual(self.lines(0), ["2 passed, 0 failed"])

    def test_this_repository_has_places(self) -> None:
        command = [sys.executable, "-S", str(FOLDER / "made_up")]
        ended = subprocess.run(command, capture_output=True, text=True, check=False)
        self.assertIn(" passed, 0 failed", ended.stdout)

    # What is made.

    def test_place_that_is_not_on_the_list(self) -> None:
        self.write_list(ADMIT)
        self.assert_made(FROM)

    def test_place_without_a_reason(self) -> None:
        self.write_list(FROM, ADMIT, reason=" ")
        self.assert_made(ADMIT, FROM)

    def test_error_at_one_size(self) -> None:
        self.assert_admit_makes(
            "if self.events.len() == 1_100_000 { return Err(Fault::OutOfMemory); }",
            "if self.events.len() == 1_100_000 { return Err(Fault::OutOfMemory)",
        )

    def test_error_of_the_allocator(self) -> None:
        self.assert_admit_makes("Err(AllocError)?;", "Err(AllocError)?")
        self.assert_admit_makes("let made = AllocError;", "let made = AllocError")

    def test_flag_that_is_set(self) -> None:
        self.assert_admit_makes("self.failed = true;", "self.failed = true")
        self.assert_admit_makes(
            "self.failed = self.events.len() == 9;", "self.failed = self.events.len() == 9"
        )

    def test_flag_that_is_set_at_the_start(self) -> None:
        self.write_changed("failed: false }", "failed: is_late }")
        self.assert_made(("start", "Ledger { failed: is_late"))

    def test_more_room_than_there_is(self) -> None:
        self.assert_admit_makes(
            "self.events.reserve(usize::MAX)?;", "self.events.reserve(usize::MAX)?"
        )
        self.assert_admit_makes(
            "let room = Vec::with_capacity(alloc, usize::MAX)?;",
            "let room = Vec::with_capacity(alloc, usize::MAX)?",
        )

    def test_error_of_a_stream(self) -> None:
        self.assert_admit_makes(
            "if late { return Err(io::Error::from(Kind::Other)); }",
            "if late { return Err(io::Error::from(Kind::Other))",
        )
        self.assert_admit_makes("let kind = ErrorKind::Other;", "let kind = ErrorKind::Other")

    def test_answer_to_c_that_nothing_was_taken(self) -> None:
        self.assert_admit_makes(
            "if 4_096 < ranges.len() { return refusal(session, NOT_TAKEN); }",
            "if 4_096 < ranges.len() { return refusal(session, NOT_TAKEN)",
        )

    def test_error_of_a_constant(self) -> None:
        self.write_changed("impl<A", "pub const MADE: AllocError = AllocError;\n\nimpl<A")
        self.assert_made(("", "pub const MADE: AllocError = AllocError"))

    def test_error_in_an_arm_that_matches_another(self) -> None:
        self.write_changed(
            "Err(Stop::Broken) => return Err(Fault::Broken)",
            "Err(_) => return Err(Fault::OutOfMemory)",
        )
        self.assert_made(("hand_on", "match result { Err(_) => return Err(Fault::OutOfMemory)"))

    def test_error_in_an_arm_that_hands_on_more(self) -> None:
        right = "Err(Stop::OutOfMemory) => Err(Fault::OutOfMemory)"
        for wrong in (
            "Err(Stop::OutOfMemory | Stop::Broken) => Err(Fault::OutOfMemory)",
            "Err(Stop::OutOfMemory) if late => Err(Fault::OutOfMemory)",
        ):
            self.write_changed(right, wrong)
            self.assert_made(("hand_on", f"match result {{ {wrong}"))

    def test_error_in_an_arm_with_a_block(self) -> None:
        self.write_changed(
            "Event::Ack { .. } => {}", "Event::Ack { .. } => { return Err(Fault::OutOfMemory); }"
        )
        self.assert_made(("admit", "Event::Ack {..} => { return Err(Fault::OutOfMemory)"))

    def test_condition_that_changes(self) -> None:
        self.write_changed("if self.failed {", "if self.failed || self.is_late() {")
        failures = self.lines(1)[:-1]
        self.assertEqual(len(failures), 2, failures)
        self.assertIn("`if self.failed || self.is_late() { return", failures[1])
        self.assertTrue(failures[0].endswith("is on the list, and is not there"), failures)

    def test_place_that_is_there_twice(self) -> None:
        self.write_changed(
            "        self.failed = false;\n", "if self.failed { return Err(Fault::OutOfMemory); }"
        )
        self.assert_made(ADMIT)
        self.write_list(FROM, ADMIT, ADMIT)
        self.lines(0)

    def test_place_that_is_gone(self) -> None:
        self.write_list(FROM, ADMIT, ("admit", "Err(AllocError)"))
        failure, _last = self.lines(1)
        self.assertEqual(
            failure, f"FAILED {FILE}: admit: `Err(AllocError)`: is on the list, and is not there"
        )

    def test_file_that_is_gone(self) -> None:
        (self.top / FILE).unlink()
        self.assertEqual(self.lines(1)[-1], "0 passed, 2 failed")


if __name__ == "__main__":
    unittest.main()
