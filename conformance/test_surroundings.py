#!/usr/bin/env python3
"""Shows that the cases of surroundings.py see a program that does not do what they want."""

import unittest

from surroundings import TRACE, TRACE_NAME, Program, Tries, run
from testing import new_folder, write_program

# It does all that is wanted of a program which writes what it reads.
RIGHT = """
import os, sys
def end(status, text=""):
    try:
        if text:
            os.write(2, f"it: {text}\\n".encode())
    except OSError:
        pass
    os._exit(status)
words = sys.argv[1:]
if words and words[0].startswith("--"):
    end(64)
data = bytearray()
for word in words or ["/dev/stdin"]:
    try:
        place = os.open(word, os.O_RDONLY)
    except OSError:
        end(3, f"cannot open {word}")
    while piece := os.read(place, 1000):
        data += piece
        if b"\\0" in piece:
            os.write(1, b"zeros")
            end(2)
    os.close(place)
try:
    left = memoryview(data)
    while left:
        left = left[os.write(1, left):]
except OSError:
    end(3, "write fault")
end(0)
"""
# Of each change the cases that must fail.
WRONG = {
    ('end(3, "write fault")', "end(0)"): {
        "full-disk",
        "no-output",
        "closed-pipe",
        "no-errors-and-a-full-disk",
        "full-errors-and-a-full-disk",
    },
    ('end(3, f"cannot open {word}")', "end(3)"): {"missing-file"},
    ("    except OSError:\n        pass\n", "    finally:\n        pass\n"): {
        "no-errors-and-a-missing-file",
        "full-errors-and-a-missing-file",
        "no-errors-and-a-full-disk",
        "full-errors-and-a-full-disk",
    },
    ("    end(64)", "    end(1)"): {
        "no-errors-and-wrong-arguments",
        "full-errors-and-wrong-arguments",
    },
    ("            end(2)\n", "            end(1)\n"): {"zeros-without-end", "sparse-file"},
    ("os.read(place, 1000)", "os.read(place, 1 << (10 if len(words) < 2 else 33))"): {
        "zeros-without-end-among-several",
        "sparse-file-among-several",
        "many-files",
    },
    ("    os.close(place)\n", ""): {"many-files"},
    ("for word in words or", "for word in words[:12_000] or"): {"many-files"},
    ("while piece :=", "if piece :="): {"interrupted-calls"},
    ("bytearray()", "bytearray(b'' if len(os.listdir('/proc/self/fd')) < 900 else b'x')"): {
        "many-open-files",
    },
}


class Cases(unittest.TestCase):
    """What fails of a program."""

    def failed(self, body: str) -> set[str]:
        """The names of the cases that fail."""
        folder = new_folder(self)
        write_program(folder / "it", body)
        (folder / TRACE_NAME).write_bytes(TRACE.read_bytes())
        with (folder / "sparse").open("wb") as file:
            file.truncate(1 << 32)
        command = [str(folder / "it")]
        words = (TRACE_NAME, "write fault", "cannot open none", (2, ""))
        program = Program("it", command, *words, takes_several=True, is_python=False)
        usual = run([*command, TRACE_NAME], folder)
        self.assertEqual((usual.status, usual.error), (0, b""))
        tries = Tries(program, folder, usual.text())
        # Python takes more than twenty megabytes.
        cases = [it for it in tries.cases() if it.name != "little-memory"]
        found = {it.name for it in cases if tries.failure_of(it)}
        return found | ({"interrupted-calls"} if tries.stopped() else set())

    def test_right(self) -> None:
        self.assertEqual(self.failed(RIGHT), set())

    def test_wrong(self) -> None:
        for (old, new), names in WRONG.items():
            self.assertIn(old, RIGHT)
            self.assertLessEqual(names, self.failed(RIGHT.replace(old, new)), new)


if __name__ == "__main__":
    unittest.main()
