#!/usr/bin/env python3
"""Shows what release/edits makes of the answers of a kit, and when edits/RESULT does not count.

Each test has a repository of its own in a temporary folder, and a stand-in for `rt`, which refuses
each edit that it finds in must-fail/ but those that say not to.
"""

import csv
import os
import shutil
import signal
import subprocess
import sys
import unittest
from pathlib import Path

from runners import FOLDER
from testing import new_folder, write_program

KIT = "kit-1 logic 2"
KIT_WITHOUT_NAMES = "rattle-kit-13b logic 2"
RT = f"""\
import os, pathlib, signal, sys
if sys.argv[1] == "version":
    print(os.environ.get("KIT", "{KIT}"))
    sys.exit()
print("rt:", *sys.argv[1:])
for built in sorted(pathlib.Path("crates").glob("*/out/*/stamp")):
    print("rt: has", built.read_text())
for edit in sorted(pathlib.Path("crates").glob("*/must-fail/*.edit")):
    name = f"must-fail {{edit.parts[1]}}/{{edit.name}}"
    if len(sys.argv) > 2 and edit.parts[1] not in sys.argv:
        continue
    if "still proved" in edit.read_text():
        print(f"rt: {{name}}: NOT REFUSED: the crate is still proved with this edit")
    elif "stops the kit" in edit.read_text():
        sys.exit("killed")
    elif "stops the run" in edit.read_text():
        os.kill(os.getppid(), signal.SIGKILL)
    elif "is untried" not in edit.read_text():
        print(f"rt: {{name}}: refused, as it must be: src/lib.rt:1:1: error")
"""


class EditsTest(unittest.TestCase):
    """The program, in a repository with two edits of a release and one of the gate."""

    def setUp(self) -> None:
        self.top = new_folder(self)
        self.write("crates.txt", "# Of this test\nqa: memchr\nqb: qa thiserror\nqc:\n")
        for name in ("qa/src/lib.rt", "qb/src/lib.rt", "qb/proofs/Lib.antt", "qc/src/lib.rt"):
            self.write(f"crates/{name}", "text\n")
        self.write("HANDLES", "Handles allowed: none.\n")
        self.write("crates/qa/must-fail/of_the_gate.edit", "still proved\n")
        self.write("edits/qa/one.edit", "file: src/lib.rt\n")
        self.write("edits/qb/two.edit", "file: src/lib.rt\n")
        (self.top / "release").mkdir()
        for name in ("edits", "crates.py", "machine.py"):
            shutil.copy(FOLDER.parent / "release" / name, self.top / "release")
        self.write(".gitignore", "bin/\n__pycache__/\n")
        (self.top / "bin").mkdir()
        write_program(self.top / "bin/rt", RT)
        self.git("init", "--quiet", "--initial-branch", "main")
        self.commit()

    def write(self, name: str, text: str) -> Path:
        """Writes a file of the repository."""
        path = self.top / name
        path.parent.mkdir(parents=True, exist_ok=True)
        path.write_text(text)
        return path

    def git(self, *words: str) -> str:
        """Runs git, which must end well, and answers what it printed."""
        named = ("-c", "user.name=Name", "-c", "user.email=name@example.org")
        ended = subprocess.run(
            ["git", *named, *words], cwd=self.top, capture_output=True, text=True, check=True
        )
        return ended.stdout.strip()

    def commit(self) -> str:
        """Commits all, and answers the commit."""
        self.git("add", "--all")
        self.git("commit", "--quiet", "--allow-empty", "--message", "All of it")
        return self.git("rev-parse", "HEAD")

    def run_edits(self, status: int, *words: str, kit: str = KIT) -> list[str]:
        """Runs the program, which must end with this status, and answers what it printed."""
        path = f"{self.top / 'bin'}:{os.environ['PATH']}"
        ended = subprocess.run(
            [sys.executable, "release/edits", *words],
            cwd=self.top,
            env={**os.environ, "PATH": path, "KIT": kit},
            capture_output=True,
            text=True,
            check=False,
        )
        self.assertEqual(ended.returncode, status, ended.stdout + ended.stderr)
        return (ended.stdout + ended.stderr).splitlines()

    def result(self) -> dict[str, dict[str, str]]:
        """The rows of edits/RESULT by their crates."""
        with (self.top / "edits/RESULT").open(newline="") as file:
            return {row.pop("crate"): row for row in csv.DictReader(file, delimiter="\t")}

    def asked(self, printed: list[str]) -> list[str]:
        """What the stand-in for `rt` was asked for."""
        return [line for line in printed if line.startswith("rt: ci")]

    # What it tries.

    def test_all_are_refused(self) -> None:
        commit = self.git("rev-parse", "HEAD")
        printed = self.run_edits(0)
        self.assertEqual(self.asked(printed), ["rt: ci qa", "rt: ci qb"])
        self.assertNotIn("of_the_gate", "\n".join(printed))
        for name in ("qa/one", "qb/two"):
            self.assertEqual(sum(f"must-fail {name}.edit" in line for line in printed), 1)
        rows = self.result()
        self.assertEqual(list(rows), ["qa", "qb"])
        for row in rows.values():
            self.assertRegex(row.pop("date"), r"\d{4}-\d\d-\d\d")
            self.assertRegex(row.pop("sources"), r"[0-9a-f]{16}")
            wanted = {"refused": "1", "not_refused": "none", "commit": commit, "kit": KIT}
            self.assertEqual(row, wanted)
        self.assertEqual(self.run_edits(0, "--check"), [])

    def test_kit_without_names(self) -> None:
        self.write(".gitignore", "bin/\nout/\n__pycache__/\n")
        for name in ("qa", "qc"):
            self.write(f"crates/{name}/out/rlib/stamp", name)
        self.write("edits/qb/three.edit", "still proved\n")
        self.commit()
        printed = self.run_edits(1, kit=KIT_WITHOUT_NAMES)
        self.assertEqual(self.asked(printed), [])
        # The libraries that qa and qb are made of are there, and no others.
        asked = ["rt: must-fail qa", "rt: has qa", "rt: must-fail qb", "rt: has qa"]
        is_asked = ("rt: must-fail qa\n", "rt: must-fail qb\n", "rt: has")
        self.assertEqual([it for it in printed if f"{it}\n".startswith(is_asked)], asked)
        rows = self.result()
        self.assertEqual([row["refused"] for row in rows.values()], ["1", "1"])
        self.assertEqual(rows["qb"]["not_refused"], "qb/three")
        self.assertEqual(rows["qb"]["kit"], KIT_WITHOUT_NAMES)

    def test_what_was_proved_here(self) -> None:
        self.write(".gitignore", "bin/\nout/\n__pycache__/\n")
        for name in ("qa/out/rlib", "qb/out/incremental"):
            self.write(f"crates/{name}/stamp", name)
        self.commit()
        printed = self.run_edits(0, "--here", "qb")
        wanted = ["rt: must-fail qb", "rt: has qa/out/rlib", "rt: has qb/out/incremental"]
        self.assertEqual(printed[: len(wanted)], wanted)
        self.assertEqual(self.result()["qb"]["refused"], "1")

    def test_nothing_is_tried_again(self) -> None:
        self.run_edits(0)
        printed = self.run_edits(0)
        wanted = "all edits were refused over these sources, as edits/RESULT says"
        self.assertEqual(printed, [wanted])

    def test_one_is_not_refused(self) -> None:
        self.write("edits/qa/one.edit", "still proved\n")
        self.commit()
        self.run_edits(1)
        rows = self.result()
        self.assertEqual(rows["qa"]["refused"], "0")
        self.assertEqual(rows["qa"]["not_refused"], "qa/one")
        self.assertEqual(rows["qb"]["not_refused"], "none")
        self.assertEqual(self.asked(self.run_edits(1)), ["rt: ci qa"])

    def test_one_is_not_tried(self) -> None:
        self.write("edits/qb/two.edit", "is untried\n")
        self.commit()
        self.run_edits(1)
        self.assertEqual(self.result()["qb"]["not_refused"], "qb/two")

    def test_one_of_two_is_not_refused(self) -> None:
        self.write("edits/qb/three.edit", "still proved\n")
        self.commit()
        self.run_edits(1)
        self.assertEqual(self.result()["qb"]["refused"], "1")
        self.assertEqual(self.result()["qb"]["not_refused"], "qb/three")

    def test_kit_that_fails(self) -> None:
        self.write("edits/qb/two.edit", "stops the kit\n")
        self.commit()
        self.run_edits(1)
        self.assertEqual(self.result()["qa"]["not_refused"], "none")
        self.assertEqual(self.result()["qb"]["not_refused"], "qb/two")

    def test_run_that_is_stopped(self) -> None:
        self.write("edits/qb/two.edit", "stops the run\n")
        self.commit()
        self.run_edits(-signal.SIGKILL)
        self.assertEqual([*self.result()], ["qa"])

    def test_named_crate(self) -> None:
        self.write("edits/qa/one.edit", "still proved\n")
        self.commit()
        printed = self.run_edits(0, "qb")
        self.assertEqual(self.asked(printed), ["rt: ci qb"])
        self.assertEqual(list(self.result()), ["qb"])
        self.run_edits(1, "qa")
        self.assertEqual(list(self.result()), ["qa", "qb"])

    def test_named_crate_is_tried_again(self) -> None:
        self.run_edits(0)
        self.assertEqual(self.asked(self.run_edits(0, "qa")), ["rt: ci qa"])

    def test_crate_without_edits(self) -> None:
        printed = self.run_edits(1, "qc")
        self.assertEqual(printed, ["release/edits: there are no edits of qc in edits/"])

    def test_change_that_is_not_committed(self) -> None:
        self.write("crates/qa/src/lib.rt", "other\n")
        printed = self.run_edits(1)
        self.assertIn("commit first what changed:", printed[0])
        self.assertFalse((self.top / "edits/RESULT").exists())

    # What counts.

    def assert_is_old(self, *crates: str) -> None:
        """The rows of these crates do not count, and only these are tried again."""
        printed = self.run_edits(1, "--check")
        why = f"edits/RESULT has no row of the sources as they are for {' '.join(crates)}:"
        self.assertIn(why, printed[0])
        self.commit()
        wanted = [f"rt: ci {crate}" for crate in crates]
        self.assertEqual(self.asked(self.run_edits(0)), wanted)
        self.run_edits(0, "--check")

    def test_no_result(self) -> None:
        self.assert_is_old("qa", "qb")

    def test_result_with_one_that_was_not_refused(self) -> None:
        self.write("edits/qa/one.edit", "still proved\n")
        self.commit()
        self.run_edits(1)
        printed = self.run_edits(1, "--check")
        self.assertIn("edits/RESULT has edits that were not refused: qa/one", printed[0])

    def test_result_that_is_no_table(self) -> None:
        self.write("edits/RESULT", "date: 2026-01-02\ncommit: 0\nrefused: 2\n")
        printed = self.run_edits(1, "--check")
        self.assertIn("edits/RESULT is no table of crates: delete it", printed[0])

    def test_crate_that_changed(self) -> None:
        self.run_edits(0)
        self.write("crates/qb/proofs/Lib.antt", "other\n")
        self.assert_is_old("qb")

    def test_crate_below_that_changed(self) -> None:
        self.run_edits(0)
        self.write("crates/qa/src/lib.rt", "other\n")
        self.assert_is_old("qa", "qb")

    def test_crate_below_with_a_new_file(self) -> None:
        self.run_edits(0)
        self.write("crates/qa/specs/Lib.antt", "")
        self.assert_is_old("qa", "qb")

    def test_crate_that_uses_another(self) -> None:
        self.run_edits(0)
        self.write("crates.txt", "# Of this test\nqa: memchr\nqb: qa itoa\nqc:\n")
        self.assert_is_old("qb")

    def test_crate_that_no_edit_rests_on(self) -> None:
        self.run_edits(0)
        self.write("crates/qc/src/lib.rt", "other\n")
        self.run_edits(0, "--check")

    def test_edit_that_changed(self) -> None:
        self.run_edits(0)
        self.write("edits/qb/two.edit", "other\n")
        self.assert_is_old("qb")

    def test_edit_that_is_new(self) -> None:
        self.run_edits(0)
        self.write("edits/qa/three.edit", "other\n")
        self.assert_is_old("qa")

    def test_edit_that_is_gone(self) -> None:
        self.write("edits/qa/three.edit", "other\n")
        self.commit()
        self.run_edits(0)
        (self.top / "edits/qa/three.edit").unlink()
        self.assert_is_old("qa")

    def test_crate_without_edits_any_more(self) -> None:
        self.run_edits(0)
        (self.top / "edits/qb/two.edit").unlink()
        self.assertEqual(self.run_edits(0, "--check"), [])
        self.commit()
        self.run_edits(0, "qa")
        self.assertEqual(list(self.result()), ["qa"])

    def test_page_that_changed(self) -> None:
        self.run_edits(0)
        self.write("edits/README.md", "other\n")
        self.run_edits(0, "--check")

    def test_sources_without_git(self) -> None:
        self.run_edits(0)
        shutil.rmtree(self.top / ".git")
        self.run_edits(0, "--check")


if __name__ == "__main__":
    unittest.main()
