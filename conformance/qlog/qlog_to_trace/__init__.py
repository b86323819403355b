"""Turns the qlog of a QUIC connection into a trace that `qaudit check` reads.

What it does as netlog-to-qlog does it is in the package of that program: how it takes arguments and
its input, what it says, and how it ends.
"""

import sys
from importlib.util import find_spec
from pathlib import Path

if find_spec("netlog_to_qlog") is None:
    # It is in a folder of its own, in the repository and in a release.
    sys.path.append(str(Path(__file__).resolve().parents[3] / "netlog"))
