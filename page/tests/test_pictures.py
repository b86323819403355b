"""The pictures in docs are of today's page."""

import subprocess
import sys
import unittest

from tests.made import PROJECT


class Pictures(unittest.TestCase):
    """What page/picture keeps of each picture."""

    def test_each_is_of_what_makes_a_page_today(self) -> None:
        checked = subprocess.run(
            [sys.executable, PROJECT / "page" / "picture", "--check"],
            capture_output=True,
            text=True,
            check=False,
        )
        self.assertEqual((checked.stdout, checked.stderr, checked.returncode), ("", "", 0))


if __name__ == "__main__":
    unittest.main()
