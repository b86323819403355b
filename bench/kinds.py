"""All traces of the bench by their names, and how each is written to a folder."""

from collections.abc import Callable, Iterator
from pathlib import Path
from typing import NamedTuple

from comparing import PACKETS
from connections import AS_WRITTEN, CONNECTIONS, Connection
from forms import FORMAT, FORMS, SORTED, Form
from shapes import COMPARED, SHAPES, UNACKNOWLEDGED, Shape
from traces import Trace, repeated, written

# Of a form and of so many events, or a few more.
Making = Callable[[Path, Form, int], Trace]


def of_shape(shape: Shape) -> Making:
    """A long trace."""
    return lambda folder, form, least: written(folder / "trace", shape, least, form)


def of_connection(connection: Connection) -> Making:
    """A connection that is audited again and again."""
    return lambda folder, form, least: repeated(folder, connection.text(form), least)


TRACES = {it.name: of_shape(it) for it in (*COMPARED, *SHAPES)} | {
    it.name: of_connection(it) for it in CONNECTIONS
}
# Which are compared with other readers.
NAMES_COMPARED = [it.name for it in COMPARED] + [it.name for it in CONNECTIONS]
# Logs of others, of which there is one form.
FOREIGN = [it.name for it in CONNECTIONS if not it.is_made]


class Kind(NamedTuple):
    """A trace that is to be compared: its name, the form and its name, and how many events."""

    name: str
    form: Form
    form_name: str
    least: int

    def write(self, folder: Path) -> Trace:
        """Writes it to a folder."""
        return TRACES[self.name](folder, self.form, self.least)


def compared(names: list[str], least: int) -> Iterator[Kind]:
    """The traces of these names that are compared with other readers, each in all its forms. One of
    a million packets is there too."""
    for name in (it for it in NAMES_COMPARED if it in names):
        if name in FOREIGN:
            yield Kind(name, FORMAT, AS_WRITTEN, least)
        else:
            yield from (Kind(name, form, form.name, least) for form in FORMS)
    if UNACKNOWLEDGED.name in names:
        yield Kind(UNACKNOWLEDGED.name, SORTED, SORTED.name, PACKETS)
