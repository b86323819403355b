"""Standard streams that are closed or full, or that nobody reads, and what a file can be."""

import sys
import unittest

from .made import PROGRAM, TOP, header, sent, sequence

sys.path.append(str(TOP / "conformance"))

import converters  # noqa: E402


class Streams(converters.Streams):
    """How the command ends, and what it says."""

    program = PROGRAM
    log = sequence(header(), [sent(number, number) for number in range(10)]).encode()
    large = '{"title":[],"traces":[]}'
    of_zeros = "byte 0: neither JSON-SEQ nor a JSON text a line nor one JSON object"


if __name__ == "__main__":
    unittest.main()
