"""Connections that are audited again and again, as tests leave them: a short one that is made, and
logs of real stacks."""

from collections.abc import Callable
from pathlib import Path
from typing import NamedTuple

from forms import Form
from shapes import HANDSHAKE, header_of, rounds_of

REAL = Path(__file__).resolve().parents[1] / "conformance" / "real" / "traces"
# How a form is named in which a log was written by others.
AS_WRITTEN = "as written"


class Connection(NamedTuple):
    """A name, and the lines of one connection."""

    name: str
    text: Callable[[Form], bytes]
    is_made: bool = False


def handshake(form: Form) -> bytes:
    """A short connection, in a form."""
    rounds = rounds_of(HANDSHAKE, form, 1)
    return header_of(HANDSHAKE, form) + b"".join(line for lines in rounds for line in lines)


def real(name: str) -> Connection:
    """The log of a real sender, which has the form that it was converted to."""
    return Connection(name, lambda _form: (REAL / f"{name}.trace").read_bytes())


CONNECTIONS = (
    Connection(HANDSHAKE.name, handshake, is_made=True),
    real("quic-go-reno-loss"),
    real("ngtcp2-reno-loss"),
    real("quinn-loss"),
)
