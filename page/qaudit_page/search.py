"""What is audited of the files and directories that are named, and by which keys."""

import os
from collections.abc import Iterable
from pathlib import Path
from typing import NamedTuple

from . import logs
from .files import as_text, name_of
from .folders import Folder

ENDING = ".trace"
# How the names of compressed files end.
PACKED = (".gz", ".xz", ".zst")
# How the names of files end that are looked for in directories.
FOUND = tuple(f"{it}{packed}" for it in (ENDING, *logs.ENDINGS) for packed in ("", *PACKED))


class LeftOut(NamedTuple):
    """A log that is not audited, since the trace that was made of it lies beside it."""

    log: Path
    trace: Path

    @property
    def is_newer(self) -> bool:
        """Whether the log was written after the trace."""
        try:
            return self.log.stat().st_mtime > self.trace.stat().st_mtime
        except OSError:
            return False


class Search:
    """The traces and logs that are named, and those in directories, each with its key."""

    def __init__(self, given: Iterable[Path]) -> None:
        self.found: list[tuple[Path, str]] = []
        self.left_out: list[LeftOut] = []
        # What is passed over in directories, and whether all that may be there was found.
        self.passed_over: list[str] = []
        self.is_whole = True
        for path in given:
            if os.path.isdir(path):
                self._look_into(path)
            else:
                self.found.append((path, key_of(name_of(path))))

    def _look_into(self, folder: Path) -> None:
        """Takes what is in a directory, but for logs whose traces are there."""
        looked = Folder(folder, lambda name: name.endswith(FOUND), is_deep=True)
        files, left_out = looked.files, left_out_of(looked.files)
        self.passed_over += looked.told
        self.is_whole = self.is_whole and looked.is_whole
        without = {it.log for it in left_out}
        self.left_out += left_out
        self.found += [
            (it, key_of(as_text(it.relative_to(folder)))) for it in files if it not in without
        ]

    @property
    def note(self) -> str:
        """What to say of logs that are newer than the traces beside them; empty if none is."""
        newer = [it for it in self.left_out if it.is_newer]
        if not newer:
            return ""
        log, trace = as_text(newer[0].log), as_text(newer[0].trace)
        told = f"{trace} is audited, and not {log}, which is newer: remove the trace to have it"
        return f"{told} audited" + (f" (and {len(newer) - 1} more)" if len(newer) > 1 else "")


def left_out_of(files: Iterable[Path]) -> list[LeftOut]:
    """The logs whose traces are in the same folder: of `x.sqlog` that is `x.trace`, or
    `x.sqlog.trace`."""
    files = list(files)
    traces = {it.parent / key_of(it.name): it for it in files if is_trace(it)}
    found = []
    for log in files:
        names = (log.parent / key_of(log.name), log.parent / unpacked(log.name))
        trace = next((traces[it] for it in names if it in traces), None)
        if trace is not None and not is_trace(log):
            found.append(LeftOut(log, trace))
    return found


def is_trace(path: Path) -> bool:
    """Whether a file has the name of a trace."""
    return unpacked(path.name).endswith(ENDING)


def unpacked(name: str) -> str:
    """The name of a file without the ending of its compression."""
    return next((name.removesuffix(it) for it in PACKED if name.endswith(it)), name)


def key_of(name: str) -> str:
    """The name of a trace or a log without its endings."""
    plain = unpacked(name)
    ending = next((it for it in (ENDING, *logs.ENDINGS) if plain.endswith(it)), "")
    return plain.removesuffix(ending)
