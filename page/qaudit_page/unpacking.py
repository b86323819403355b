"""The parts of the package netlog_to_qlog by which pages read netlogs and files that are
compressed."""

import sys
from importlib.util import find_spec
from pathlib import Path

if find_spec("netlog_to_qlog") is None:
    # A release has it beside this package, and the repository in a folder of its own.
    sys.path.append(str(Path(__file__).resolve().parents[2] / "netlog"))

from netlog_to_qlog.compressed import decompressed, unpacked  # noqa: E402
from netlog_to_qlog.errors import NoMemory, NoProgram, Unusable  # noqa: E402
from netlog_to_qlog.netlog import is_netlog, looked_at  # noqa: E402
from netlog_to_qlog.unchanged import Changed, unchanged  # noqa: E402

__all__ = [
    "Changed",
    "NoMemory",
    "NoProgram",
    "Unusable",
    "decompressed",
    "is_netlog",
    "looked_at",
    "unchanged",
    "unpacked",
]
