"""Files and folders that mean harm, or are damaged, beside others that are as they should be."""

import json
import lzma
import os
import resource
import shutil
import signal
import subprocess
import sys
import threading
import time
import unittest
import zlib
from contextlib import redirect_stderr
from io import StringIO
from itertools import permutations
from pathlib import Path
from typing import Any
from unittest import mock

from tests.made import (
    CONVERTER,
    HEADER,
    NO_LIBRARY,
    PAGE,
    PROGRAM,
    PROGRAMS,
    InFolder,
    joined,
    sent,
)
from tests.test_logs import GOOD as LOG

from qaudit_page import files, logs
from qaudit_page.converter import Asked
from qaudit_page.failure import Failure, Status
from qaudit_page.matrix import Job, judged
from qaudit_page.matrix_command import Free
from qaudit_page.streams import ended

COMMAND = PAGE / "qaudit-matrix"
GOOD = joined(HEADER, sent(0))
BAD = joined(HEADER, sent(0), sent(0))
SECONDS = 60
NOBODY = 65_534
# One that may be run by who may not look into the home of root.
PYTHON = "/usr/bin/python3"
NO_NOBODY = f"nobody cannot run the command by {PYTHON}"


def as_nobody(most: int = 0) -> dict[str, Any]:
    """How somebody is run who may read no folder of others, and has at most so many processes: for
    root all that is allowed."""

    def change() -> None:
        if most:
            resource.setrlimit(resource.RLIMIT_NPROC, (most, most))
        os.setgroups([])
        os.setgid(NOBODY)
        os.setuid(NOBODY)

    path = {"PATH": "/usr/bin:/bin"}
    return {} if os.geteuid() else {"preexec_fn": change, "python": PYTHON, "env": path}


def may_nobody_run() -> bool:
    """Whether there is a Python that `nobody` may run, and this package for it."""
    options = as_nobody()
    words = [options.pop("python", sys.executable), str(COMMAND), "--version"]
    try:
        return not subprocess.run(words, capture_output=True, check=False, **options).returncode
    except (OSError, subprocess.SubprocessError):
        return False


class Tables(InFolder):
    """A folder of traces, and the table of it."""

    def setUp(self) -> None:
        super().setUp()
        self.logs = self.folder / "logs"
        self.logs.mkdir()
        self.put("good.trace", GOOD)

    def put(self, name: str, data: bytes) -> Path:
        """Writes a file among the logs."""
        path = self.logs / name
        path.parent.mkdir(exist_ok=True, parents=True)
        path.write_bytes(data)
        return path

    def run_command(
        self, *words: object, python: str = sys.executable, **options: Any
    ) -> Any:
        """How the command ends over the folder, or over what else is named after `--`."""
        command = [python, COMMAND, *PROGRAMS, "--output", "table.html"]
        command += ["--json", "now.json", *words, *(() if "--" in words else ("logs",))]
        return subprocess.run(
            list(map(str, command)),
            cwd=self.folder,
            capture_output=True,
            text=True,
            timeout=SECONDS,
            check=False,
            stdin=subprocess.DEVNULL,
            **options,
        )

    def check(self, ended: Any, status: int, *told: str) -> None:
        """How the command ended, and what it said: these lines, and no others."""
        lines = [f"qaudit-matrix: {line}" for line in told]
        self.assertEqual((ended.returncode, ended.stderr.splitlines()), (status, lines))

    def check_as_nobody(self, secret: Path, *words: object) -> None:
        """Somebody who cannot list a folder is told so, with status 3."""
        if not may_nobody_run():
            self.skipTest(NO_NOBODY)
        if os.geteuid():
            secret.chmod(0)
            self.addCleanup(secret.chmod, 0o700)
        else:
            self.folder.chmod(0o777)
            secret.chmod(0o700)
        name = secret if secret.parent == self.folder else secret.relative_to(self.folder)
        told = f"cannot read {name}: permission denied"
        self.check(self.run_command(*words, **as_nobody()), 3, told)

    def kinds(self) -> dict[str, str]:
        """The verdicts by the keys."""
        said = json.loads((self.folder / "now.json").read_text())
        return {it["key"]: it["kind"] for it in said["traces"]}


class Archives(Tables):
    """Compressed files that are damaged."""

    def test_a_second_stream_that_is_damaged(self) -> None:
        first, second = lzma.compress(GOOD), bytearray(lzma.compress(BAD[len(GOOD) :]))
        self.put("whole.trace.xz", first + second)
        second[len(second) // 2] ^= 255
        self.put("part.trace.xz", first + second)
        self.check(self.run_command(), 2)
        wanted = {"good": "accepted", "whole": "refused", "part": "unreadable"}
        self.assertEqual(self.kinds(), wanted)
        self.assertIn("broken or not whole, as xz data", (self.folder / "table.html").read_text())


class Changing(Tables):
    """Logs that change while they are read."""

    def setUp(self) -> None:
        super().setUp()
        self.log = self.put("log.sqlog", LOG)
        self.time = self.log.stat().st_mtime_ns

    def run_with(self, change: str) -> Any:
        """How the command ends if the log changes so before the converter reads it."""
        program = self.folder / "converter"
        program.write_text(f"#!/bin/sh\n{change}\nexec '{CONVERTER}' \"$@\"\n")
        program.chmod(0o755)
        return self.run_command("--converter", program)

    def test_there_is_no_verdict(self) -> None:
        as_before = f"touch -d @{self.time // 10**9}.{self.time % 10**9:09} logs/log.sqlog"
        for change in (
            "echo >> logs/log.sqlog",
            ": > logs/log.sqlog",
            "touch logs/log.sqlog",
            # With the size and the time that it had.
            f"printf 'x' | dd of=logs/log.sqlog conv=notrunc status=none; {as_before}",
        ):
            with self.subTest(change):
                self.log.write_bytes(LOG)
                os.utime(self.log, ns=(self.time, self.time))
                self.check(self.run_with(change), 3)
                self.assertEqual(self.kinds(), {"good": "accepted", "log": "failed"})
                told = "logs/log.sqlog: the file changed while it was read"
                self.assertIn(told, (self.folder / "table.html").read_text())

    def test_another_file_in_its_place(self) -> None:
        """It is opened once, so what has its name later is not read."""
        self.check(self.run_with("echo > logs/new; mv logs/new logs/log.sqlog"), 0)
        self.assertEqual(self.kinds(), {"good": "accepted", "log": "accepted"})

    def test_a_trace(self) -> None:
        trace, known = self.put("a.trace", GOOD), logs.is_log

        def changing(first: bytes) -> bool:
            trace.write_bytes(BAD)
            return known(first)

        with mock.patch.object(logs, "is_log", changing), self.assertRaises(Failure) as raised:
            logs.taken(trace, Asked())
        wanted = f"{trace}: the file changed while it was read"
        self.assertEqual((str(raised.exception), raised.exception.status), (wanted, Status.FAULT))


class Limits(Tables):
    """A machine with little memory, with few processes and with small files, and processes that are
    killed."""

    def program(self, *lines: str) -> Path:
        """A program in place of qaudit-why: these lines of a shell, and then that. `$in` has the
        trace."""
        path = self.folder / "program"
        text = 'in=$(mktemp)\ncat > "$in"\n' + "\n".join(lines)
        path.write_text(f"#!/bin/sh\n{text}\n'{PROGRAM}' \"$@\" < \"$in\"\n")
        path.chmod(0o755)
        return path

    def fault(self, key: str) -> str:
        """Why a trace has no verdict."""
        said = json.loads((self.folder / "now.json").read_text())
        return next(str(it["fault"]) for it in said["traces"] if it["key"] == key)

    def test_a_log_that_takes_all_memory(self) -> None:
        zeros, packer = bytes(1 << 20), zlib.compressobj(wbits=zlib.MAX_WBITS + 16)
        pieces = [packer.compress(zeros) for _ in range(600)]
        self.put("bomb.trace.gz", b"".join([*pieces, packer.flush()]))
        self.put("bad.trace", BAD)
        limit = 500 << 20
        ended = self.run_command(
            preexec_fn=lambda: resource.setrlimit(resource.RLIMIT_AS, (limit, limit))
        )
        self.check(ended, 3)
        self.assertEqual(
            self.kinds(), {"good": "accepted", "bad": "refused", "bomb": "failed"}
        )
        told = "logs/bomb.trace.gz: it takes more memory than there is, as gzip data"
        self.assertEqual(self.fault("bomb"), told)

    def test_a_process_that_is_killed(self) -> None:
        for number in range(12):
            self.put(f"{number}.trace", GOOD)
        self.put("3.trace", joined(HEADER, sent(66)))
        is_last = "[ $(ls tried* | wc -l) = 2 ]"
        for line, count, wanted in (
            ("kill -9 $PPID", 2, "failed"),
            # Once, as if it was another log that took the memory.
            (f"{is_last} || kill -9 $PPID", 4, "accepted"),
        ):
            with self.subTest(line):
                killing = f"if grep -q :66, \"$in\"; then mktemp tried.XXX >&2; {line}; fi"
                program = self.program(killing)
                ended = self.run_command("--program", program, "--jobs", count)
                self.check(ended, 3 if wanted == "failed" else 0)
                kinds = self.kinds()
                self.assertEqual((kinds.pop("3"), len(kinds)), (wanted, 12))
                self.assertEqual(set(kinds.values()), {"accepted"})
                for path in self.folder.glob("tried.*"):
                    path.unlink()

    def test_files_that_are_full(self) -> None:
        """As on a disk that is full."""
        self.put("long.trace", GOOD + b"\n" * 100_000)
        limit = 64 << 10
        ended = self.run_command(
            preexec_fn=lambda: resource.setrlimit(resource.RLIMIT_FSIZE, (limit, limit))
        )
        self.check(ended, 3)
        self.assertEqual(self.kinds(), {"good": "accepted", "long": "failed"})
        self.assertEqual(self.fault("long"), "cannot write a temporary file: file too large")

    @unittest.skipIf(os.geteuid(), "only root can run a process as somebody who has no other")
    def test_few_processes(self) -> None:
        if not may_nobody_run():
            self.skipTest(NO_NOBODY)
        self.folder.chmod(0o777)
        told = "cannot start a process: resource temporarily unavailable"
        self.check(self.run_command("--jobs", 4, **as_nobody(1)), 3, told)
        self.check(self.run_command("--jobs", 4, **as_nobody(2)), 3)
        self.assertIn("resource temporarily unavailable", self.fault("good").lower())


class Records(Tables):
    """Records of earlier runs and of what is known, that somebody else wrote."""

    RECORD = (
        '{"version":1,"traces":[{"key":"a","kind":"refused","line":LINE,"rule":"","name":"",'
        '"with_allowances":false}]}'
    )

    def setUp(self) -> None:
        super().setUp()
        self.nights = self.folder / "nights"
        self.nights.mkdir()

    def test_what_is_too_deep_or_too_large(self) -> None:
        endless = self.RECORD.replace("LINE", "1e999")
        for option in ("--known", "--against", "--history"):
            for text in ("[" * 200_000, endless, endless.replace("1e999", "NaN"), "[1e999]", "1"):
                (self.nights / "a.json").write_text(text)
                given = self.nights if option == "--history" else self.nights / "a.json"
                ended = self.run_command(option, given)
                self.assertEqual(ended.returncode, 3)
                self.assertRegex(
                    ended.stderr, r"^qaudit-matrix: .*/a\.json is not what qaudit-matrix .*\n$"
                )

    def test_links_that_loop(self) -> None:
        loop = self.nights / "a.json"
        loop.symlink_to("a.json")
        told = f"cannot open {loop}: too many levels of symbolic links"
        self.check(self.run_command("--history", self.nights), 3, told)
        loop.unlink()
        (self.folder / "now.json").symlink_to("now.json")
        self.check(self.run_command("--history", self.nights), 0)
        self.assertEqual(self.kinds(), {"good": "accepted"})

    def test_a_pipe_is_passed_over(self) -> None:
        os.mkfifo(self.nights / "a.json")
        told = f"{self.nights}/a.json is passed over: it is no regular file"
        self.check(self.run_command("--history", self.nights), 0, told)

    def test_a_folder_that_cannot_be_listed(self) -> None:
        self.check_as_nobody(self.nights, "--history", self.nights)

    def test_a_key_that_was_given_twice(self) -> None:
        """As by an older version, of which the last one counted."""
        one = self.RECORD.replace("LINE", "3").replace("refused", "accepted")
        two = one.replace("accepted", "refused").replace('"rule":""', '"rule":"V6"')
        record = one[:-2] + "," + two[two.index('{"key"') :]
        (self.nights / "a.json").write_text(record.replace('"a"', '"good"'))
        self.put("good.trace", BAD)
        told = "good: refused V6 number-not-higher, before not there"
        self.check(self.run_command("--against", self.nights / "a.json"), 1, told)


class Folders(Tables):
    """What may be in a folder that is no log."""

    def test_a_folder_that_cannot_be_read(self) -> None:
        secret = self.put("secret/bad.trace", BAD).parent
        self.check_as_nobody(secret)
        self.assertEqual(self.kinds(), {"good": "accepted"})

    def test_a_pipe_and_a_device(self) -> None:
        for name in ("pipe.trace", "##[x].sqlog"):
            os.mkfifo(self.logs / name)
        (self.logs / "zero.trace").symlink_to("/dev/zero")
        (self.logs / "other").symlink_to("/dev/null")
        told = [
            f"logs/{name} is passed over: it is no regular file"
            for name in ("#\\u{23}[x].sqlog", "pipe.trace", "zero.trace")
        ]
        self.check(self.run_command(), 0, *told)
        self.assertEqual(self.kinds(), {"good": "accepted"})

    def test_a_pipe_that_was_a_file_when_it_was_found(self) -> None:
        pipe = self.folder / "pipe.trace"
        os.mkfifo(pipe)
        result = judged(Job(pipe, "pipe", program=PROGRAM, is_found=True))
        wanted = f"cannot open {pipe}: it is no regular file"
        self.assertEqual((result.kind, result.fault), ("failed", wanted))

    def test_a_pipe_that_is_named(self) -> None:
        os.mkfifo(self.logs / "pipe.trace")
        writing = threading.Thread(target=(self.logs / "pipe.trace").write_bytes, args=(BAD,))
        writing.start()
        self.check(self.run_command("--", "logs/pipe.trace"), 1)
        writing.join()

    def test_links(self) -> None:
        real = self.folder / "real"
        real.mkdir()
        (real / "bad.trace").write_bytes(BAD)
        (self.logs / "latest").symlink_to("../real")
        (self.logs / "file.trace").symlink_to("../real/bad.trace")
        (self.logs / "again").symlink_to(".")
        (self.logs / "loop").symlink_to("loop")
        over = "is passed over: it is a link to a folder"
        told = [f"logs/again {over}", f"logs/latest {over} elsewhere, which you can name too"]
        self.check(self.run_command(), 3, *told)
        self.assertEqual(self.kinds(), {"file": "refused", "good": "accepted"})
        # What it leads to is audited in its own place.
        (self.logs / "latest").unlink()
        (self.logs / "file.trace").unlink()
        self.check(self.run_command(), 0, told[0])

    def test_many_nested_folders(self) -> None:
        """More than Python calls functions in functions, and than a path may have."""
        here = os.open(self.logs, os.O_RDONLY)
        self.addCleanup(shutil.rmtree, self.logs / "d", onerror=lambda *_: None)
        for depth in range(3_000):
            os.mkdir("d", dir_fd=here)
            inner = os.open("d", os.O_RDONLY, dir_fd=here)
            if depth == 1_500:
                file = os.open("deep.trace", os.O_WRONLY | os.O_CREAT, dir_fd=inner)
                os.write(file, BAD)
                os.close(file)
            os.close(here)
            here = inner
        os.close(here)
        ended = self.run_command()
        subprocess.run(["rm", "-rf", self.logs / "d"], check=True)
        self.assertEqual(ended.returncode, 3)
        self.assertEqual(sorted(self.kinds().values()), ["accepted", "refused"])
        told = r"^qaudit-matrix: cannot read logs/d/.*: file name too long\n$"
        self.assertRegex(ended.stderr, told)

    def test_many_that_are_passed_over(self) -> None:
        for number in range(25):
            os.mkfifo(self.logs / f"{number:02}.trace")
        lines = self.run_command().stderr.splitlines()
        self.assertEqual(len(lines), 21)
        self.assertEqual(lines[-1], "qaudit-matrix: and 5 more like the line before")


class Names(Tables):
    """Names that are alike, or that mean harm."""

    def test_two_traces_never_share_a_key(self) -> None:
        for name in ("1/a.trace", "3/a.trace", "2/a (2).trace"):
            self.put(name, GOOD)
        for order in permutations(("logs/1", "logs/3", "logs/2")):
            self.put("3/a.trace", GOOD)
            self.check(self.run_command("--", *order), 0)
            shutil.copyfile(self.folder / "now.json", self.folder / "old.json")
            self.assertEqual(len(self.kinds()), 3)
            self.put("3/a.trace", BAD)
            ended = self.run_command("--against", "old.json", "--", *order)
            self.assertEqual((ended.returncode, ended.stderr.count("\n")), (1, 1))

    def test_a_name_is_the_key_of_the_file_that_has_it(self) -> None:
        names = ["a", "a", "a (2)", "a (2)", "a", "b"]
        free = Free(names)
        found = [free.name(it, "{} ({})") for it in names]
        self.assertEqual(found, ["a", "a (3)", "a (2)", "a (2) (2)", "a (4)", "b"])
        free = Free([])
        found = [free.name(it, "{}-{}") for it in ("a-b", "a-b-2", "a-b", "a-b")]
        self.assertEqual(found, ["a-b", "a-b-2", "a-b-3", "a-b-4"])

    def test_lines_that_a_ci_system_takes_for_commands(self) -> None:
        (self.folder / "known.json").write_text('{"version":1,"known":[]}')
        for name in (
            "::stop-commands::tok",
            " ::error title=x::fake",
            "##[add-mask]accepted",
            "a##vso[task.complete]",
            "\x1b]0;title\x07\x85\u202e",
        ):
            self.put(f"{name}.trace", BAD)
        ended = self.run_command("--known", "known.json", "--annotate")
        self.assertEqual(ended.returncode, 1)
        errors, output = ended.stderr.splitlines(), ended.stdout.splitlines()
        self.assertEqual((len(errors), len(output)), (5, 5))
        for line in errors:
            self.assertTrue(line.startswith("qaudit-matrix: "), line)
        for line in output:
            self.assertTrue(line.startswith("::error file=logs/"), line)
            self.assertIn(",line=3,title=qaudit V6 number-not-higher (MUST)::", line)
        for line in errors + output:
            self.assertTrue(line.isprintable())
            self.assertNotIn("##", line)


class Written(Tables):
    """Files that are written whole or not at all."""

    def test_a_link_is_kept(self) -> None:
        (self.folder / "real").mkdir()
        (self.folder / "table.html").symlink_to("real/table.html")
        self.check(self.run_command(), 0)
        self.assertTrue((self.folder / "table.html").is_symlink())
        self.assertIn("1 trace", (self.folder / "real" / "table.html").read_text())

    def test_a_long_name(self) -> None:
        name = chr(0x1F600) * 62 + ".html"
        self.check(self.run_command("--output", name), 0)
        self.assertTrue((self.folder / name).is_file())

    def test_to_standard_output(self) -> None:
        """By its name, which may be one of a pipe or of a file."""
        ended = self.run_command("--output", "/dev/stdout")
        self.assertIn("</html>", ended.stdout)

    def test_a_kill_at_any_moment(self) -> None:
        """There is the file before or the file after, whole."""
        path = self.folder / "file"
        before, after = b"a" * 3_000_000, b"b" * 4_000_000
        path.write_bytes(before)
        code = "import sys\nfrom pathlib import Path\nfrom qaudit_page.files import replace\n"
        code += f"data = b'b' * {len(after)}\nprint(flush=True)\n"
        code += "replace(Path(sys.argv[1]), data)"
        command = [sys.executable, "-c", code, str(path)]
        for place in range(20):
            with subprocess.Popen(command, cwd=PAGE, stdout=subprocess.PIPE) as running:
                assert running.stdout is not None
                running.stdout.readline()
                time.sleep(place / 2_000)
                running.kill()
            self.assertIn(path.read_bytes(), (before, after))

    def test_it_is_on_the_disk_before_it_has_its_name(self) -> None:
        calls: list[str] = []
        real = Path.replace

        def moved(path: Path, target: Path) -> Path:
            calls.append("replace")
            return real(path, target)

        with (
            mock.patch.object(os, "fsync", lambda _: calls.append("fsync")),
            mock.patch.object(Path, "replace", moved),
        ):
            files.replace(self.folder / "file", b"data")
        self.assertEqual(calls, ["fsync", "replace"])

    def test_an_interrupt_while_a_command_is_imported(self) -> None:
        for name in ("qaudit-page", "qaudit-matrix"):
            code = f"import os, signal, sys; sys.argv[0] = '/bin/{name}'; import qaudit_page; "
            code += "os.kill(os.getpid(), signal.SIGINT)"
            ended = subprocess.run(
                [sys.executable, "-c", code],
                cwd=PAGE,
                capture_output=True,
                check=False,
                preexec_fn=lambda: signal.signal(signal.SIGINT, signal.default_int_handler),
            )
            self.assertEqual((ended.returncode, ended.stderr), (-signal.SIGINT, b""))

    def test_what_nobody_thought_of(self) -> None:
        def fails() -> Status:
            raise KeyError("a\nb")

        with redirect_stderr(StringIO()) as errors:
            self.assertEqual(ended("qaudit-matrix", fails), Status.FAULT)
        self.assertEqual(errors.getvalue(), "qaudit-matrix: KeyError: 'a\\nb'\n")


@unittest.skipIf(NO_LIBRARY, NO_LIBRARY)
class Pages(Tables):
    """The pages of a table."""

    def test_they_cannot_be_written(self) -> None:
        (self.folder / "pages" / "good.html").mkdir(parents=True)
        ended = self.run_command("--pages", "pages")
        told = "logs/good.trace: no page: cannot write pages/good.html: it is no regular file"
        self.check(ended, 3, told)
        self.assertEqual(self.kinds(), {"good": "accepted"})

    def test_a_pipe_with_the_name_of_one(self) -> None:
        (self.folder / "pages").mkdir()
        os.mkfifo(self.folder / "pages" / "good.html")
        self.assertEqual(self.run_command("--pages", "pages").returncode, 3)

    def test_a_disk_that_is_full(self) -> None:
        limit = 4 << 10
        ended = self.run_command(
            *("--pages", "pages", "--output", "/dev/stdout", "--json", "/dev/null"),
            preexec_fn=lambda: resource.setrlimit(resource.RLIMIT_FSIZE, (limit, limit)),
        )
        told = "logs/good.trace: no page: cannot write pages/good.html: file too large"
        self.check(ended, 3, told)
        self.assertEqual(list((self.folder / "pages").iterdir()), [])

    def test_a_damaged_archive_has_none(self) -> None:
        path = self.put("part.trace.xz", lzma.compress(GOOD) + b"more")
        command = [sys.executable, PAGE / "qaudit-page", *PROGRAMS, path]
        ended = subprocess.run(list(map(str, command)), capture_output=True, check=False)
        told = f"qaudit-page: {path}: broken or not whole, as xz data\n"
        self.assertEqual((ended.returncode, ended.stdout, ended.stderr.decode()), (2, b"", told))

    def test_two_traces_never_share_a_page(self) -> None:
        for name in ("a b", "a-b-2"):
            self.put(f"{name}.trace", GOOD)
        self.put("a-b.trace", BAD)
        self.check(self.run_command("--pages", "pages"), 1)
        said = json.loads((self.folder / "now.json").read_text())["traces"]
        pages = {it["key"]: it["page"] for it in said}
        self.assertEqual(len(set(pages.values())), 4)
        self.assertIn("Refused", (self.folder / pages["a-b"]).read_text())


if __name__ == "__main__":
    unittest.main()
