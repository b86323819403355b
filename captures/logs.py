"""Logs below folders, and the traces that qlog-to-trace makes of them."""

import shlex
import subprocess
from pathlib import Path

TOP = Path(__file__).parent.parent
# The reference of the converter, which needs no proof.
CONVERTER = TOP / "conformance" / "qlog" / "qlog-to-trace"
OF_NETLOG = TOP / "netlog" / "netlog-to-qlog"
NETLOGS = (".netlog", ".netlog.json")
KINDS = ("*.qlog", "*.sqlog", *(f"*{it}" for it in NETLOGS))


def paths_of(folder: Path) -> list[Path]:
    """The logs below a folder, and the traces that have none."""
    logs = [path for kind in KINDS for path in folder.rglob(kind)]
    converted = {path.with_suffix(".trace") for path in logs}
    traces = (path for path in folder.rglob("*.trace") if path not in converted)
    return sorted([*logs, *traces])


def trace_of(path: Path, options: str) -> bytes | None:
    """The trace of a log, if it has one."""
    if path.suffix == ".trace":
        return path.read_bytes()
    command, log = [str(CONVERTER), *shlex.split(options)], path.read_bytes()
    if path.name.endswith(NETLOGS):
        made = subprocess.run([str(OF_NETLOG), path], capture_output=True, check=False)
        if made.returncode:
            return None
        log = made.stdout
    converted = subprocess.run(command, input=log, capture_output=True, check=False)
    return converted.stdout if converted.returncode == 0 else None
