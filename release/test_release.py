#!/usr/bin/env python3
"""Shows what `prove`, `unproved` and `minutes` make of the answers of a kit, and what a release is
made of.

Each test has a small repository in a temporary folder, or programs that are no more than that, and
a stand-in for `rt`.
"""

import contextlib
import gzip
import hashlib
import io
import json
import os
import re
import shutil
import signal
import subprocess
import sys
import time
import unittest
import unittest.mock
from pathlib import Path
from typing import Any

HERE = Path(__file__).resolve().parent
sys.path.append(str(HERE.parent / "conformance"))

from testing import new_folder, script, write_program  # noqa: E402

import machine  # noqa: E402
from crates import Crate, Stopped, crates_of, elapsed, minutes, processor_seconds  # noqa: E402
from watching import Watch  # noqa: E402

LISTED = """\
# What is below
low: thiserror
middle: low json
# Programs
the_program: middle
other: low   # and no more
"""
# It proves each crate of crates.txt, but one that says it is wrong, and builds each.
RT = """\
import os, pathlib, sys
words = sys.argv[1:]
print("said", *words)
print("jobs", os.environ.get("RT_JOBS"))
if words == ["ci"]:
    names = [line.split(":")[0] for line in open("crates.txt")]
    assert "#" not in open("crates.txt").read()
    crates = [pathlib.Path("crates") / name for name in names]
else:
    crates = [pathlib.Path()]
failed = 0
for crate in crates:
    if "wrong" in (crate / "src/lib.rt").read_text():
        print(f"rt: {crate.name} NOT PROVED")
        failed += 1
        continue
    print(f"== {crate.name}\\nrt: {crate.name} proved")
    (crate / "out").mkdir(exist_ok=True)
    (crate / "out" / pathlib.Path(crate).absolute().name).write_text("a program")
print(f"{len(crates) - failed} passed, {failed} failed")
sys.exit(1 if failed else 0)
"""
# It writes its number at the top of the repository, beside `kit/`, and does not end.
SLOW = """\
import os, pathlib, time
place = pathlib.Path(__file__).parents[1] / "number"
place.with_suffix(".new").write_text(str(os.getpid()))
place.with_suffix(".new").rename(place)
time.sleep(60)
"""
TRY = """\
import sys
print(*sys.argv[1:])
print({last!r}, file=sys.stderr)
sys.exit({status})
"""
# A converter that is the reference.
CONVERTER = f"""\
import sys
sys.path.insert(0, {str(HERE.parent / "conformance" / "qlog")!r})
from qlog_to_trace.command import program
program()
"""
PAGE = """\
Before.
<!-- release/minutes puts what follows here -->
<!-- up to here -->
Between.
<!-- release/minutes gate puts what follows here -->
<!-- up to here, by crate -->
After.
"""


class Repository(unittest.TestCase):
    """A repository of four crates, and a stand-in for `rt` on the path."""

    def setUp(self) -> None:
        self.top = new_folder(self)
        self.write("crates.txt", LISTED)
        self.write("HANDLES", "Handles allowed: none.\n")
        for name in ("low", "middle", "the_program", "other"):
            self.write(f"crates/{name}/src/lib.rt", 10 * "text\n")
        for path in HERE.iterdir():
            if path.is_file():
                shutil.copy(path, self.top / self.folder("release"))
        write_program(self.top / self.folder("kit") / "rt", RT)

    def folder(self, name: str) -> str:
        """Makes a folder."""
        (self.top / name).mkdir(parents=True, exist_ok=True)
        return name

    def write(self, name: str, text: str) -> None:
        """Writes a file."""
        (self.top / name).parent.mkdir(parents=True, exist_ok=True)
        (self.top / name).write_text(text)

    def run_program(self, *words: str, **names: str) -> tuple[int, str, str]:
        """Runs a program of the repository: its status, and what it writes on both streams."""
        path = f"{self.top / 'kit'}:{os.environ['PATH']}"
        ended = subprocess.run(
            [sys.executable, *words],
            cwd=self.top,
            env={**os.environ, "PATH": path, **names},
            capture_output=True,
            text=True,
            check=False,
        )
        return ended.returncode, ended.stdout, ended.stderr


class Proving(Repository):
    """`prove` in that repository."""

    def test_from_nothing(self) -> None:
        status, out, _ = self.run_program("release/prove", "bin", "the_program")
        self.assertEqual(status, 0)
        first, *proved, last = out.splitlines()
        self.assertRegex(first, r"proving 3 crates from nothing, \d+ at a time, about 1 minute")
        names = ("low", "middle", "the_program")
        wanted = [f"{place} of 3: {name} proved in" for place, name in enumerate(names, 1)]
        self.assertEqual([line.partition(" 0 s, so far 0:0")[0] for line in proved], wanted)
        self.assertEqual(last, "bin/the-program")
        self.assertEqual((self.top / "bin/the-program").read_text(), "a program")
        self.assertTrue(os.access(self.top / "bin/the-program", os.X_OK))
        # The proof was of a copy.
        self.assertFalse((self.top / "crates/low/out").exists())

    def test_what_is_not_proved(self) -> None:
        self.write("crates/middle/src/lib.rt", "wrong\n")
        status, out, error = self.run_program("release/prove", "bin", "the_program")
        self.assertEqual(status, 1)
        self.assertIn("1 of 3: low proved", out)
        self.assertIn("rt: middle NOT PROVED\n", error)
        self.assertIn("release/prove: ", error)
        self.assertFalse((self.top / "bin").exists())

    def test_over_what_earlier_checks_left(self) -> None:
        self.folder("crates/qa_base/out/incremental")
        status, out, _ = self.run_program("release/prove", "bin", "the_program", "other")
        self.assertEqual(status, 0)
        self.assertIn("4 crates, of which only what changed", out)
        self.assertEqual((self.top / "bin/other").read_text(), "a program")
        self.write("crates/other/src/lib.rt", "wrong\n")
        status, _, error = self.run_program("release/prove", "bin", "the_program", "other")
        self.assertEqual(status, 1)
        self.assertIn("said all check --jobs", error)

    def test_a_status_that_is_not_wanted(self) -> None:
        self.folder("crates/qa_base/out/incremental")
        self.write("crates/other/status", "2\n")
        status, _, error = self.run_program("release/prove", "bin", "other")
        self.assertEqual(status, 1)
        self.assertIn("other ended with status 0, and not 2", error)

    def test_an_interrupt_ends_the_kit_too(self) -> None:
        write_program(self.top / "kit/rt", SLOW)
        path = f"{self.top / 'kit'}:{os.environ['PATH']}"
        command = [sys.executable, "release/prove", "bin", "other"]
        with subprocess.Popen(
            command,
            cwd=self.top,
            env={**os.environ, "PATH": path},
            # A command in the background of a shell has it ignored.
            preexec_fn=lambda: signal.signal(signal.SIGINT, signal.SIG_DFL),
        ) as running:
            limit = time.monotonic() + 30
            while not (self.top / "number").exists() and time.monotonic() < limit:
                time.sleep(0.05)
            running.send_signal(signal.SIGINT)
            self.assertEqual(running.wait(30), 130)
        kit = Path("/proc") / (self.top / "number").read_text()
        self.assertFalse(kit.exists())

    def test_as_many_at_a_time_as_are_asked_for(self) -> None:
        self.write("crates/middle/src/lib.rt", "wrong\n")
        command = ("release/prove", "bin", "the_program")
        status, out, error = self.run_program(*command, RT_JOBS="7")
        self.assertEqual(status, 1)
        self.assertIn("proving 3 crates from nothing, 7 at a time, about 1 minute", out)
        self.assertIn("jobs 7\n", error)
        # Where nothing is asked for, the kit is told by how many too.
        _, out, error = self.run_program(*command, RT_JOBS="")
        found = re.search(r"from nothing, (\d+) at a time", out)
        self.assertIsNotNone(found)
        self.assertIn(f"jobs {found[1] if found else ''}\n", error)
        self.folder("crates/qa_base/out/incremental")
        self.write("crates/the_program/src/lib.rt", "wrong\n")
        _, _, error = self.run_program(*command, RT_JOBS="6")
        self.assertIn("said all check --jobs 6\njobs 6\n", error)

    def test_wrong_arguments(self) -> None:
        self.assertEqual(self.run_program("release/prove")[0], os.EX_USAGE)
        status, _, error = self.run_program("release/prove", "bin", "another")
        self.assertEqual((status, error), (1, "release/prove: crates.txt does not list another\n"))

    def test_seconds_are_written(self) -> None:
        words = ("release/prove", "--write-seconds", "seconds", "bin", "other")
        self.assertEqual(self.run_program(*words)[0], 0)
        self.assertIsInstance(json.loads((self.top / "seconds").read_text()), dict)


class Proofs(Repository):
    """What is said of the proofs."""

    def test_from_nothing_and_again(self) -> None:
        self.run_program("release/prove", "bin", "the_program")
        lines = (self.top / "bin/PROVED").read_text().splitlines()
        self.assertEqual(lines[0], "kit: said version")
        self.assertEqual(lines[1], "commit: unknown")
        self.assertEqual(lines[2], "result: rt ci of 3 crates: 3 passed, 0 failed")
        digest = hashlib.sha256(b"a program").hexdigest()
        self.assertEqual(lines[3:], [f"the-program: sha256 {digest}"])
        self.folder("crates/qa_base/out/incremental")
        self.run_program("release/prove", "bin", "the_program")
        text = (self.top / "bin/PROVED").read_text()
        self.assertIn("result: rt all check of 3 crates, over what earlier checks left", text)


class Releases(unittest.TestCase):
    """Releases of programs that are given: nothing is proved here."""

    def setUp(self) -> None:
        self.top = new_folder(self)
        (self.top / "kit").mkdir()
        write_program(self.top / "kit/rt", "print('a kit')\n")
        made = self.top / "bin"
        made.mkdir()
        source = self.top / "main.c"
        source.write_text("int main(void) { return 0; }\n")
        names = ("qaudit", "qaudit-why", "qlog-to-trace", "lib.a", "lib.so")
        self.programs = [made / name for name in names]
        program, why, converter, library, shared = self.programs
        subprocess.run(["cc", "-o", program, source], check=True)
        shutil.copy(program, why)
        # The reference stands in for the converter.
        write_program(converter, CONVERTER)
        subprocess.run(["cc", "-c", "-o", self.top / "main.o", source], check=True)
        subprocess.run(["ar", "rcsD", library, self.top / "main.o"], check=True)
        subprocess.run(["cc", "-shared", "-fPIC", "-o", shared, source], check=True)
        self.say_proved()

    def say_proved(self) -> None:
        """Says of the programs as they are that they were proved."""
        program, _, converter, *_ = self.programs
        digests = [hashlib.sha256(it.read_bytes()).hexdigest() for it in (program, converter)]
        lines = f"kit: a kit\nqaudit: sha256 {digests[0]}\nqlog-to-trace: sha256 {digests[1]}\n"
        (program.parent / "PROVED").write_text(lines)

    def run_words(self, *words: object, umask: int = 0o022, **names: str) -> Any:
        """How a command of the repository ends."""
        path = f"{self.top / 'kit'}:{os.environ['PATH']}"
        names = {"DEBEMAIL": "someone@lists.debian.org", **names}
        return subprocess.run(
            [str(it) for it in words],
            cwd=HERE.parent,
            env={**os.environ, "PATH": path, "SOURCE_DATE_EPOCH": "1700000000", **names},
            umask=umask,
            capture_output=True,
            text=True,
            check=False,
        )

    def packed(self, place: str, umask: int) -> Path:
        """A release."""
        folder = self.top / place / "qaudit-0-x86_64-linux"
        folder.parent.mkdir()
        ended = self.run_words("release/pack", *self.programs, folder, umask=umask)
        self.assertEqual((ended.returncode, ended.stderr), (0, ""))
        return folder

    def test_two_builds_give_one_tarball(self) -> None:
        tarballs = []
        for place, umask, zone in (("one", 0o022, "UTC"), ("two", 0o077, "Asia/Tokyo")):
            folder = self.packed(place, umask)
            file = self.top / f"{place}.tar.gz"
            ended = self.run_words("release/tarball", folder, file, umask=umask, TZ=zone)
            self.assertEqual((ended.returncode, ended.stderr), (0, ""))
            told = (self.top / f"{place}.tar.gz.sha256").read_text().split()[0]
            self.assertEqual(told, hashlib.sha256(file.read_bytes()).hexdigest())
            tarballs.append(file.read_bytes())
            time.sleep(1.1)
        self.assertEqual(tarballs[0], tarballs[1])

    def test_a_tarball_installs(self) -> None:
        file, there, to = self.top / "one.tar.gz", self.top / "there", self.top / "installed"
        self.run_words("release/tarball", self.packed("one", 0o077), file)
        there.mkdir()
        subprocess.run(["tar", "xzf", file, "--strip-components", "1"], cwd=there, check=True)
        checked = ["sha256sum", "--check", "--quiet", "--strict", "SHA256SUMS"]
        subprocess.run(checked, cwd=there, check=True)
        told = (there / "PROVED").read_text()
        self.assertTrue(told.startswith("kit: a kit\nqaudit: sha256 "))
        subprocess.run([there / "install", to], check=True)
        version = (HERE.parent / "VERSION").read_text().strip()
        for name in ("qaudit-page", "qaudit-matrix", "netlog-to-qlog"):
            command = [str(to / "bin" / name), "--version"]
            ended = subprocess.run(command, capture_output=True, text=True, check=True)
            self.assertEqual(ended.stdout, f"{name} {version}\n")
        self.assertEqual((to / "bin/qlog-to-trace").read_bytes(), self.programs[2].read_bytes())
        for name in ("qlog-to-trace", "netlog-to-qlog"):
            for place in (f"man/man1/{name}.1", f"bash-completion/completions/{name}"):
                self.assertTrue((to / "share" / place).exists(), place)
        # The pages find the converter beside them, and read netlogs and what is compressed.
        real = HERE.parent / "conformance/real/traces"
        packed = self.top / "packed.qlog.gz"
        packed.write_bytes(gzip.compress((real / "ngtcp2-past-window.qlog").read_bytes()))
        program = HERE.parent / "page/stand_in.py"
        command = [str(to / "bin/qaudit-matrix"), "--program", str(program), str(packed)]
        command += [str(real / "chromium-156-loss.netlog"), "--json", str(self.top / "said")]
        ended = subprocess.run(command, capture_output=True, text=True, check=False, cwd=to)
        self.assertEqual((ended.returncode, ended.stderr), (0, ""))
        said = json.loads((self.top / "said").read_text())["traces"]
        self.assertEqual([it["with_allowances"] for it in said], [True, True])
        # The reference is in the release, to compare the converter with it.
        log = "conformance/real/traces/ngtcp2-past-window.qlog"
        command = ["conformance/qlog/compare", "--native", "bin/qlog-to-trace", log]
        ended = subprocess.run(command, capture_output=True, text=True, check=True, cwd=there)
        self.assertEqual(ended.stdout, "4 alike, 0 differ\n")
        self.assertTrue((there / "ci/audit").exists())
        self.assertTrue((to / "share/doc/qaudit/PROVED").exists())

    def test_an_install_takes_what_it_finds(self) -> None:
        """Spaces, links, a dash, another umask, and a variable of the shell that has `cd` talk."""
        folder, to = self.packed("one", 0o022), self.top / "a  b" / "-c 'd'"
        (to / "bin").mkdir(parents=True)
        other, moved, link = self.top / "other", self.top / "moved", self.top / "link to install"
        other.write_text("stays")
        (to / "bin/qaudit").symlink_to(other)
        shutil.move(folder, moved)
        link.symlink_to(moved / "install")
        (to / "lib").symlink_to(self.top / "libraries")
        (self.top / "libraries").mkdir()
        ended = subprocess.run(
            [str(link), "-c 'd'"],
            cwd=to.parent,
            env={**os.environ, "CDPATH": f".:{self.top}"},
            umask=0o077,
            capture_output=True,
            text=True,
            check=False,
        )
        self.assertEqual((ended.returncode, ended.stdout, ended.stderr), (0, "", ""))
        self.assertEqual(other.read_text(), "stays")
        self.assertFalse((to / "bin/qaudit").is_symlink())
        self.assertTrue((self.top / "libraries/libqaudit.a").exists())
        made = [path for path in to.rglob("*") if not path.is_symlink()]
        self.assertGreater(len(made), 50)
        for path in made:
            is_run = path.is_dir() or path.parent == to / "bin"
            mode = path.stat().st_mode & 0o777
            if path != to / "bin":
                self.assertEqual(mode, 0o755 if is_run else 0o644, path)

    def test_pages_name_this_version(self) -> None:
        version = (HERE.parent / "VERSION").read_text().strip()
        for name in ("README.md", "Dockerfile", "docs/ci.md", "ci/gitlab.yml"):
            named = re.findall(r"qaudit-(\d+\.\d+\.\d+)", (HERE.parent / name).read_text())
            self.assertEqual(set(named), {version}, name)

    def test_what_was_not_proved_is_not_packed(self) -> None:
        for program in self.programs[:3]:
            before = program.read_bytes()
            program.write_text("another")
            ended = self.run_words("release/pack", *self.programs, self.top / "folder")
            self.assertEqual(ended.returncode, 1)
            self.assertIn(f"does not say that {program} was proved", ended.stderr)
            self.assertFalse((self.top / "folder").exists())
            program.write_bytes(before)

    @unittest.skipUnless(shutil.which("dpkg-deb"), "there is no dpkg-deb")
    def test_a_debian_package(self) -> None:
        packages = []
        for place, umask in (("one", 0o022), ("two", 0o077)):
            file = self.top / f"{place}.deb"
            folder = self.packed(place, umask)
            ended = self.run_words("release/deb", folder, file, umask=umask)
            self.assertEqual((ended.returncode, ended.stderr), (0, ""))
            packages.append(file.read_bytes())
        self.assertEqual(packages[0], packages[1])
        self.run_words("dpkg-deb", "--extract", self.top / "one.deb", self.top / "root")
        ended = self.run_words(self.top / "root/usr/bin/netlog-to-qlog", "--version")
        self.assertTrue(ended.stdout.startswith("netlog-to-qlog "), ended.stderr)
        first = (self.top / "root/usr/bin/netlog-to-qlog").read_bytes().partition(b"\n")[0]
        self.assertEqual(first.rstrip(), b"#!/usr/bin/python3")

    @unittest.skipUnless(shutil.which("lintian"), "there is no lintian")
    def test_lintian_has_no_errors(self) -> None:
        file = self.top / "qaudit_0.3.0-1_amd64.deb"
        # The converter of a release is not in Python: it would name the Python that runs this.
        shutil.copy(self.programs[0], self.programs[2])
        self.say_proved()
        self.run_words("release/deb", self.packed("one", 0o022), file)
        ended = self.run_words("lintian", "--allow-root", "--fail-on", "error", file)
        self.assertEqual(ended.returncode, 0, ended.stdout + ended.stderr)


class Estimates(Repository):
    """How long proofs take."""

    def test_which_crates(self) -> None:
        found = crates_of(["the_program"], self.top)
        self.assertEqual([crate.name for crate in found], ["low", "middle", "the_program"])
        self.assertEqual(found[1], Crate("middle", "middle: low json", ("low",)))
        self.write("crates.txt", "one: two\ntwo: one\n")
        with self.assertRaises(Stopped):
            crates_of(["one"], self.top)

    def test_elapsed(self) -> None:
        crates = crates_of(["the_program", "other"], self.top)
        seconds = {"low": 10.0, "middle": 20.0, "the_program": 5.0, "other": 7.0}
        # One after another; and with two processors, `other` beside `middle`.
        self.assertEqual(elapsed(crates, seconds, 1), 42)
        self.assertEqual(elapsed(crates, seconds, 2), 35)
        seconds["other"] = 30.0
        self.assertEqual(elapsed(crates, seconds, 2), 40)

    def test_minutes_by_jobs(self) -> None:
        self.write("release/seconds.json", '{"low": 60, "middle": 120, "other": 120}')
        crates = crates_of(["middle", "other"], self.top)
        with (
            unittest.mock.patch.dict(os.environ, {"RT_JOBS": "1"}),
            unittest.mock.patch.object(machine, "processors", lambda _root: 2),
        ):
            self.assertEqual(minutes(crates, self.top), 5)
            os.environ["RT_JOBS"] = "2"
            self.assertEqual(minutes(crates, self.top), 3)

    def test_seconds_by_lines(self) -> None:
        # Ten lines a crate, of which one was measured, and one has twice as many.
        self.write("release/seconds.json", '{"low": 30, "gone": 1000}')
        self.write("crates/middle/proofs/one.antt", 10 * "text\n")
        found = processor_seconds(crates_of(["the_program"], self.top), self.top)
        self.assertEqual(found, {"low": 30, "middle": 60, "the_program": 30})


class Machine(unittest.TestCase):
    """How many crates are proved at a time."""

    def setUp(self) -> None:
        self.top = new_folder(self)
        self.here = len(os.sched_getaffinity(0))
        patched = unittest.mock.patch.dict(os.environ, {"RT_JOBS": ""})
        patched.start()
        self.addCleanup(patched.stop)

    def write(self, name: str, text: str) -> None:
        """Writes a file of the system."""
        (self.top / name).parent.mkdir(parents=True, exist_ok=True)
        (self.top / name).write_text(text)

    def write_free(self, gigabytes: float) -> None:
        """So many gigabytes are free."""
        kilobytes = round(gigabytes * 1_000_000_000 / 1024)
        self.write("proc/meminfo", f"MemTotal: 9 kB\nMemAvailable:   {kilobytes} kB\n")

    def test_by_free_memory(self) -> None:
        with unittest.mock.patch.object(machine, "processors", lambda _root: 4):
            for gigabytes, wanted in ((22.5, 4), (20.1, 4), (19.9, 3), (10.1, 2), (3, 1), (90, 4)):
                self.write_free(gigabytes)
                self.assertEqual(machine.jobs(self.top), wanted, gigabytes)

    def test_by_processors(self) -> None:
        self.write_free(5_000)
        self.assertEqual(machine.jobs(self.top), self.here)
        self.write("sys/fs/cgroup/cpu.max", "max 100000\n")
        self.assertEqual(machine.jobs(self.top), self.here)
        self.write("sys/fs/cgroup/cpu.max", "100000 100000\n")
        self.assertEqual(machine.jobs(self.top), 1)
        self.write("sys/fs/cgroup/cpu.max", "50000 100000\n")
        self.assertEqual(machine.jobs(self.top), 1)
        self.write("sys/fs/cgroup/cpu.max", "max 100000\n")
        self.write("sys/fs/cgroup/cpu/cpu.cfs_quota_us", "150000\n")
        self.write("sys/fs/cgroup/cpu/cpu.cfs_period_us", "100000\n")
        self.assertEqual(machine.jobs(self.top), 1)

    def test_by_the_limit_of_a_control_group(self) -> None:
        self.write_free(90)
        self.write("sys/fs/cgroup/memory.max", "12000000000\n")
        self.write("sys/fs/cgroup/memory.stat", "file 9\nanon 1000000000\n")
        self.assertEqual(machine.free_memory(self.top), 11_000_000_000)
        self.write("sys/fs/cgroup/memory.max", "max\n")
        self.assertGreater(machine.free_memory(self.top), 89_000_000_000)

    def test_where_nothing_says_how_much_is_free(self) -> None:
        self.assertEqual(machine.jobs(self.top), 1)

    def test_what_is_asked_for(self) -> None:
        self.write_free(3)
        os.environ["RT_JOBS"] = str(self.here + 5)
        self.assertEqual(machine.jobs(self.top), self.here + 5)
        # More do not get on than there are processors.
        self.assertEqual(machine.lanes(self.top), self.here)
        for nothing in ("", "many", "0"):
            os.environ["RT_JOBS"] = nothing
            self.assertEqual(machine.jobs(self.top), 1)

    def test_the_program(self) -> None:
        command = [sys.executable, str(HERE / "jobs")]
        for wanted in ("3", str(machine.jobs())):
            names = {**os.environ, "RT_JOBS": wanted}
            ended = subprocess.run(command, env=names, capture_output=True, text=True, check=True)
            self.assertEqual(ended.stdout, f"{wanted}\n")
        ended = subprocess.run([*command, "more"], capture_output=True, text=True, check=False)
        self.assertEqual(ended.returncode, os.EX_USAGE)


class Watching(unittest.TestCase):
    """Which crates are being proved, by the processes."""

    def test_processes_below_this_one(self) -> None:
        text = "import time; time.sleep(60)"
        words = [sys.executable, "-c", text, "check", "--crate-name", "qa_thing", "src/lib.rt"]
        watch = Watch()
        with subprocess.Popen(words) as running:
            limit = time.monotonic() + 30
            while not watch.running and time.monotonic() < limit:
                watch.look(os.getpid(), 5.0)
            self.assertEqual(watch.running, ["qa_thing"])
            self.assertEqual(watch.began, {"qa_thing": 5.0})
            self.assertEqual([*watch.processor_seconds()], ["qa_thing"])
            # It is not below itself's child.
            other = Watch()
            with subprocess.Popen([sys.executable, "-c", text]) as beside:
                other.look(beside.pid, 6.0)
                beside.kill()
            self.assertEqual(other.running, [])
            running.kill()
        watch.look(os.getpid(), 9.0)
        self.assertEqual(watch.running, [])

    def test_processes_for_edits(self) -> None:
        words = [sys.executable, "-c", "import time; time.sleep(60)", "check", "--crate-name"]
        watch = Watch()
        with (
            subprocess.Popen([*words, "qa_thing", "--incremental", "/tmp/rt-edits-1-a/2"]) as one,
            subprocess.Popen([*words, "qa_thing", "--incremental", "out/incremental"]) as other,
        ):
            limit = time.monotonic() + 30
            while len(watch.seconds) < 2 and time.monotonic() < limit:
                watch.look(os.getpid(), 5.0)
            self.assertEqual(watch.for_edits, {one.pid})
            watch.seconds = {("qa_thing", one.pid): 2.0, ("qa_thing", other.pid): 5.0}
            one.kill()
            other.kill()
        self.assertEqual(watch.processor_seconds(), {"qa_thing": 7.0})
        self.assertEqual(watch.processor_seconds(of_edits=True), {"qa_thing": 2.0})
        self.assertEqual(watch.processor_seconds(of_edits=False), {"qa_thing": 5.0})

    def test_lines_while_it_is_quiet(self) -> None:
        program = script(HERE / "prove")
        said: list[str] = []
        progress = program.Progress(3, 100.0)
        progress.say = lambda text, now: said.append(text)
        watch = Watch({"low": 110.0, "middle": 105.0}, {}, ["low", "middle"])
        progress.quiet(watch, 129.9)
        self.assertEqual(said, [])
        progress.quiet(watch, 130.0)
        self.assertEqual(said.pop(), "  proving low (20 s), middle (25 s)")
        progress.crate_proved("low", watch, 131.0)
        self.assertEqual(said.pop(), "1 of 3: low proved in 21 s")
        progress.quiet(watch, 161.0)
        self.assertEqual(said.pop(), "  proving middle (56 s)")


class Unproved(Repository):
    """`unproved` in a repository."""

    def setUp(self) -> None:
        super().setUp()
        self.write("crates.txt", "qaudit: low\nqaudit_why: low\nqlog_to_trace: low\nlow: \n")
        self.write("crates/qaudit/src/lib.rt", "text\n")
        self.write("one.trace", "text\n")

    def tried(self, last: str, status: int) -> tuple[int, str, str]:
        """Runs it with a kit that ends so."""
        write_program(self.top / "kit/rt", TRY.format(last=last, status=status))
        return self.run_program("release/unproved", "one.trace")

    def test_reports_of_each_verdict(self) -> None:
        for verdict in range(3):
            last = f"checked: more\nrun=ended status={verdict} runners=1 proved=no"
            status, out, error = self.tried(last, verdict)
            self.assertEqual((status, error), (0, ""))
            self.assertTrue(out.startswith("no proof yet: about a minute; `make build` proves"))
            self.assertIn(f"--data one.trace={self.top}/one.trace -- check one.trace\n", out)
            self.assertIn("without a proof", out.partition("one.trace")[2])

    def test_what_did_not_run(self) -> None:
        for last, code in (("error\nrun=none proved=no", 1), ("run=ended status=3 x", 3)):
            status, out, error = self.tried(last, code)
            self.assertEqual(status, 1)
            self.assertIn(last, error)
            self.assertNotIn("without a proof", out)


# What the runner of a sweep writes, by what is in a file.
SWEEP = """\
#!{python}
import pathlib, sys
text = pathlib.Path("given").read_text()
print(f"{{sys.argv[1:]}} {{text}}")
print("FAILED" if text == "wrong" else f"{{text}} passed, 0 failed")
sys.exit(text in ("wrong", "0"))
"""


class Sweeps(Repository):
    """`sweeps` in a repository with two sweeps."""

    def setUp(self) -> None:
        super().setUp()
        self.sweeps = script(HERE / "sweeps")
        self.sweeps.TOP = self.top
        self.sweeps.SWEEPS = (
            self.sweeps.Sweep("one", ("./runner {other}", "./runner"), ("other",), ("given",)),
            self.sweeps.Sweep("two", (f"{sys.executable} tests.py",), (), ("tests.py",)),
        )
        self.write("runner", SWEEP.format(python=sys.executable))
        (self.top / "runner").chmod(0o755)
        self.write("given", "7")
        self.write_tests("2")
        self.write("crates/other/out/other", "a program")
        self.enterContext(contextlib.redirect_stdout(io.StringIO()))

    def write_tests(self, expected: str) -> None:
        """Tests of which one is that 1 + 1 is this."""
        test = f"    def test_it(self):\n        self.assertEqual(1 + 1, {expected})\n"
        head = "import unittest\nclass Test(unittest.TestCase):\n"
        self.write("tests.py", f"{head}{test}unittest.main()\n")

    def rows(self) -> dict[str, int]:
        """The rows, and how many runs passed."""
        return {row.sweep: row.passed for row in self.sweeps.read_rows().values()}

    def assert_stopped(self, said: str, names: tuple[str, ...] = ()) -> None:
        """A run is stopped, and so is a release."""
        with self.assertRaisesRegex(self.sweeps.Stopped, said):
            self.sweeps.run_all([*names])
        with self.assertRaisesRegex(self.sweeps.Stopped, "has no row of the files as they are"):
            self.sweeps.check()

    def test_a_row_for_each(self) -> None:
        with self.assertRaisesRegex(self.sweeps.Stopped, "for one two: `make sweeps` runs these"):
            self.sweeps.check()
        self.assertEqual(self.sweeps.run_all([]), 0)
        self.assertEqual(self.rows(), {"one": 14, "two": 1})
        self.assertEqual(self.sweeps.check(), 0)
        # Nothing is run again, not even a runner that would fail.
        self.write("runner", "no program")
        self.assertEqual(self.sweeps.run_all([]), 0)

    def test_what_changed_since(self) -> None:
        self.sweeps.run_all([])
        for name in ("given", "crates/other/src/lib.rt", "crates/low/specs/A.antt", "crates.txt"):
            before = (self.top / name).read_text() if (self.top / name).exists() else ""
            self.write(name, "8" if name == "given" else before.replace("low  ", "low ") + "\n")
            if name == "crates.txt":
                self.write(name, LISTED.replace("other: low", "other: low middle"))
            with self.assertRaisesRegex(self.sweeps.Stopped, "for one: "):
                self.sweeps.check()
            self.sweeps.run_all([])
            self.assertEqual(self.sweeps.check(), 0)
        # A crate that it does not use.
        self.write("crates/the_program/src/lib.rt", "other\n")
        self.assertEqual(self.sweeps.check(), 0)

    def test_what_fails_has_no_row(self) -> None:
        self.sweeps.run_all([])
        self.write("given", "wrong")
        self.assert_stopped("not all passed, or files changed, in one")
        self.assertEqual(self.rows(), {"two": 1})
        self.write("given", "0")
        self.assert_stopped("not all passed")
        self.write("given", "7")
        self.write_tests("3")
        self.assert_stopped("not all passed, or files changed, in two")
        self.assertEqual(self.rows(), {"one": 14})

    def test_what_is_left_out_has_not_passed(self) -> None:
        self.write_tests('self.skipTest("no tool")')
        self.assert_stopped("not all passed, or files changed, in two")
        text = (self.top / "tests.py").read_text()
        more = "    def test_more(self):\n        pass\nunittest.main()"
        self.write("tests.py", text.replace("unittest.main()", more))
        self.assertEqual(self.sweeps.run_all([]), 0)
        self.assertEqual(self.rows(), {"one": 14, "two": 1})

    def test_what_fails_after_it_passed(self) -> None:
        self.sweeps.run_all([])
        self.write("runner", "#!/bin/sh\nexit 1\n")
        self.assert_stopped("in one", ("one",))
        self.assertEqual(self.rows(), {"two": 1})

    def test_files_that_change_meanwhile(self) -> None:
        self.write("runner", "#!/bin/sh\nprintf 9 >> given\necho 3 passed, 0 failed\n")
        self.assert_stopped("in one")

    def test_what_is_not_there(self) -> None:
        (self.top / "crates/other/out/other").unlink()
        self.assert_stopped("there is no crates/other/out/other")
        (self.top / "given").unlink()
        with self.assertRaisesRegex(self.sweeps.Stopped, "one: there is no given"):
            self.sweeps.sources_of(self.sweeps.SWEEPS[0])

    def test_a_table_that_is_none(self) -> None:
        self.write("release/SWEEPS", "sweep\tother\none\t1\n")
        with self.assertRaisesRegex(self.sweeps.Stopped, "is no table of sweeps"):
            self.sweeps.check()

    def test_wrong_arguments(self) -> None:
        status, _, error = self.run_program("release/sweeps", "three")
        self.assertEqual(status, os.EX_USAGE)
        self.assertIn("there is no sweep three", error)


class SweepsHere(unittest.TestCase):
    """The sweeps of this repository."""

    def test_they_are_those_of_the_makefile(self) -> None:
        sweeps = script(HERE / "sweeps")
        text = (HERE.parent / "Makefile").read_text()
        names = {"program": "qaudit", "program_why": "qaudit_why"}
        names |= {"program_of_logs": "qlog_to_trace", "program_by_one_byte": "one_byte"}
        for name, program in names.items():
            text = text.replace(f"$({name})", f"{{{program}}}")
        thinned = re.findall(r"^\t(.* \$\(every\) .*)$", text, re.MULTILINE)
        made = [command.replace("$(every) ", "").split() for command in thinned]
        listed = [command.split() for it in sweeps.SWEEPS for command in it.commands]
        self.assertEqual(made, [it for it in listed if it[0] != "python3"])
        tests = re.search(r"^release_tests := (.*)$", text, re.MULTILINE)
        named = {it.name for it in sweeps.SWEEPS if it.name.startswith("test_")}
        self.assertEqual(set(tests[1].split()) if tests else None, named)

    def test_their_files_are_there(self) -> None:
        sweeps = script(HERE / "sweeps")
        for sweep in sweeps.SWEEPS:
            self.assertGreater(len(sweeps.files_of(sweep)), 3, sweep.name)
            self.assertNotIn(HERE / "SWEEPS", sweeps.files_of(sweep))


class Ci(unittest.TestCase):
    """What a server that tests this repository runs."""

    def run_it(self, apt: str) -> tuple[int, str]:
        """Runs it with this in the place of `apt-get`, and a `make` that says what it is asked."""
        top = new_folder(self)
        shutil.copytree(HERE.parent / ".ci", top / ".ci")
        bodies = {"apt-get": apt, "make": 'echo "make $@"', "timeout": 'shift; "$@"'}
        for name, body in bodies.items():
            (top / name).write_text(f"#!/bin/sh\n{body}\n")
            (top / name).chmod(0o755)
        command = ["/bin/sh", str(top / ".ci/run")]
        path = {"PATH": f"{top}:/bin"}
        ended = subprocess.run(command, env=path, capture_output=True, text=True, check=False)
        return ended.returncode, ended.stdout

    def test_it_waits_three_minutes_at_most(self) -> None:
        text = (HERE.parent / ".ci/run").read_text()
        limits = [int(seconds) for seconds in re.findall(r"timeout (\d+) apt-get", text)]
        self.assertEqual(len(limits), len(re.findall(r"apt-get --", text)))
        self.assertLessEqual(sum(limits), 180)

    @unittest.skipIf(shutil.which("chromedriver", path="/bin"), "there is a browser")
    def test_without_a_browser(self) -> None:
        said = "no browser and no valgrind within three minutes: the tests that want them are left"
        self.assertEqual(self.run_it("exit 1"), (0, f"{said} out\nmake test\n"))
        self.assertEqual(self.run_it('echo "$@"'), (0, "make test\n"))


class Timed(unittest.TestCase):
    """How long a part of a command takes."""

    def test_parts(self) -> None:
        top = new_folder(self)
        file, environment = top / "parts", {**os.environ, "QAUDIT_MINUTES": str(top / "parts")}
        for words, status in (("exit 0", 0), ("exit 3", 3), ("kill -9 $$", 137)):
            command = [sys.executable, str(HERE / "timed"), "pages", "sh", "-c", words]
            ended = subprocess.run(command, env=environment, check=False)
            self.assertEqual(ended.returncode, status)
        line = r"pages \d+\.\d{3} \d+\.\d{3}\n"
        self.assertRegex(file.read_text(), f"^({line}){{3}}$")
        command = [sys.executable, str(HERE / "timed"), "pages"]
        ended = subprocess.run(command, capture_output=True, check=False)
        self.assertEqual(ended.returncode, os.EX_USAGE)

    def test_no_file(self) -> None:
        command = [sys.executable, str(HERE / "timed"), "pages", "true"]
        environment = {key: it for key, it in os.environ.items() if key != "QAUDIT_MINUTES"}
        subprocess.run(command, env=environment, check=True)


class Minutes(unittest.TestCase):
    """The table of minutes."""

    def setUp(self) -> None:
        self.minutes = script(HERE / "minutes")

    def test_rows(self) -> None:
        made = self.minutes.Measured("build", 1475, 3600, 4, 0.25, "abcd")
        page = self.minutes.with_rows(PAGE, [made])
        self.assertIn("| `make build` | 24:35 | 60:00 | 4 | 0.2 | ", page)
        page = self.minutes.with_rows(page, [self.minutes.Measured("run", 44, 61, 4, 0, "abcd")])
        again = self.minutes.Measured("build", 59.6, 70, 1, 0, "abce")
        page = self.minutes.with_rows(page, [again])
        rows = [line for line in page.splitlines() if line.startswith("| `")]
        starts = ["| `make run` | 0:44 |", "| `make build` | 1:00"]
        self.assertEqual([row[:21] for row in rows], starts)
        self.assertTrue(page.startswith("Before.\n"))
        self.assertTrue(page.endswith("\nAfter.\n"))
        self.assertIn("about 1 minute, as measured on ", self.minutes.said_of("build", page))
        self.assertIn(" with 1 processor", self.minutes.said_of("build", page))
        wanted = "how long it takes was not measured"
        self.assertEqual(self.minutes.said_of("quick", page), wanted)

    def test_parts(self) -> None:
        file = new_folder(self) / "parts"
        whole = self.minutes.Measured("test", 3600, 9000, 4, 0.25, "abcd")
        self.assertEqual(self.minutes.parts_in(file, whole), [])
        lines = ("pages 61.4 90", "python 9.5 8", "other 5 5", "conformance 300 600")
        file.write_text("".join(f"{line}\n" for line in (*lines, "python 30 30")))
        parts = self.minutes.parts_in(file, whole)
        page = self.minutes.with_rows(PAGE, [whole, *parts])
        page = self.minutes.with_rows(page, [self.minutes.Measured("run", 44, 61, 4, 0, "abcd")])
        rows = [line.split("| 4 |")[0] for line in page.splitlines() if line.startswith("| `")]
        wanted = [
            "| `make run` | 0:44 | 1:01 ",
            "| `make test` | 60:00 | 150:00 ",
            "| `make test`, Python | 0:40 | 0:38 ",
            "| `make test`, conformance | 5:00 | 10:00 ",
            "| `make test`, pages | 1:01 | 1:30 ",
        ]
        self.assertEqual(rows, wanted)
        self.assertIn("about 60 minutes, as measured on ", self.minutes.said_of("test", page))
        # Measured again, it has the parts that it has then.
        page = self.minutes.with_rows(page, [whole, parts[1]])
        self.assertEqual(page.count("`make test`"), 2)
        self.assertEqual(page.count("`make run`"), 1)

    def test_minutes_in_the_readme(self) -> None:
        top = new_folder(self)
        self.minutes.TOP = top
        (top / "docs").mkdir()
        begin, end = self.minutes.BEGIN_README, self.minutes.END_README
        (top / "README.md").write_text(f"Before {begin}{end}. After.\n")
        (top / "docs/proofs.md").write_text(PAGE)
        with self.assertRaisesRegex(Exception, "has no row of `make test`"):
            self.minutes.check()
        page = self.minutes.with_rows(PAGE, [self.minutes.Measured("test", 3600, 1, 4, 0, "abcd")])
        (top / "docs/proofs.md").write_text(page)
        with self.assertRaisesRegex(Exception, "README.md has other minutes of `make test` than"):
            self.minutes.check()
        readme = self.minutes.with_minutes((top / "README.md").read_text(), page)
        self.assertRegex(readme, rf"^Before {begin}60 minutes{end}\. After\.\n$")
        (top / "README.md").write_text(readme)
        self.assertEqual(self.minutes.check(), 0)
        with self.assertRaisesRegex(Exception, "has no place for the minutes"):
            self.minutes.with_minutes("Before.\n", page)

    def test_wrong_arguments(self) -> None:
        for words in ("", "other", "--check test", "--check --say"):
            command = [sys.executable, str(HERE / "minutes"), *words.split()]
            ended = subprocess.run(command, capture_output=True, check=False)
            self.assertEqual(ended.returncode, os.EX_USAGE, words)

    def test_the_gate_from_nothing(self) -> None:
        self.assertEqual(self.minutes.gate("rattle-kit-13b logic 1"), ["rt", "ci"])
        self.assertEqual(self.minutes.gate("rattle-kit-13f logic 1"), ["rt", "ci", "--anew"])

    def test_minutes_by_crate(self) -> None:
        watch = Watch(seconds={("qa_base", 1): 90.0, ("qa_base", 2): 30.0}, for_edits={2})
        measured = self.minutes.Measured("gate", 100, 180, 4, 0.25, "abcd")
        page = self.minutes.with_crates(PAGE, watch, measured)
        self.assertIn("\nCommit abcd, 4 processors:\n", page)
        self.assertIn("\n| Crate | Proof, program and tests | Edits |\n", page)
        self.assertIn("\n| `qa_base` | 1.5 | 0.5 |\n| `qa_format` |  |  |\n", page)
        self.assertIn("\n| `rt` itself, and what was not seen | 1.0 | |\n", page)
        self.assertIn("\n| all | 2.5 | 0.5 |\n", page)
        self.assertEqual(page, self.minutes.with_crates(page, watch, measured))
        self.assertTrue(page.startswith("Before.\n"))
        self.assertTrue(page.endswith("\nAfter.\n"))

    def test_a_page_without_a_place(self) -> None:
        with self.assertRaisesRegex(Exception, "has no place for the table"):
            self.minutes.said_of("run", "Before.\n")
        with self.assertRaisesRegex(Exception, "has no place for the table"):
            measured = self.minutes.Measured("gate", 1, 1, 1, 0, "abcd")
            self.minutes.with_crates("Before.\n", Watch(), measured)


if __name__ == "__main__":
    unittest.main()
