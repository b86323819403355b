"""Traces as files."""

from pathlib import Path
from typing import NamedTuple

from forms import FORMAT, Form
from shapes import Shape, header_of, rounds_of

BUFFER = 1 << 20


class Trace(NamedTuple):
    """The file of a trace, how many events it has, and its size. Of a connection that is audited
    again and again the file has one, and all of them stand in a file for those that only read."""

    path: Path
    events: int
    bytes: int
    times: int = 1
    whole: Path | None = None

    @property
    def lines(self) -> int:
        """The events and the headers."""
        return self.events + self.times

    @property
    def files(self) -> list[str]:
        """What the auditor is given."""
        return [str(self.path)] * self.times

    def remove(self) -> None:
        """Deletes the files."""
        self.path.unlink()
        if self.whole is not None:
            self.whole.unlink()


def written(path: Path, shape: Shape, least: int, form: Form = FORMAT) -> Trace:
    """Writes a trace of this many events, or a few more, so that its last round is whole."""
    events = 0
    with path.open("wb", buffering=BUFFER) as file:
        file.write(header_of(shape, form))
        for lines in rounds_of(shape, form, least):
            file.writelines(lines)
            events += len(lines)
    return Trace(path, events, path.stat().st_size)


def repeated(folder: Path, text: bytes, least: int) -> Trace:
    """Writes the lines of a connection, to be audited as often as makes so many events."""
    events = text.count(b"\n") - 1
    times = -(-least // events)
    path, whole = folder / "connection", folder / "trace"
    path.write_bytes(text)
    with whole.open("wb", buffering=BUFFER) as file:
        file.writelines([text] * times)
    return Trace(path, times * events, times * len(text), times, whole)
