"""The longest silences of a trace as a list: what held the sender back in each, and a link to the
line that ended it."""

from collections.abc import Iterable

from .held import words
from .said import KINDS
from .texts import count, html, link, span
from .timers import Silence
from .trace import Trace

NAMES = {ord(kind): name for name, kind in KINDS.items()}


def section_of(silences: Iterable[Silence], trace: Trace, held: bytearray) -> str:
    """The list, folded; empty where there are none."""
    rows = "".join(f"<li>{row_of(it, trace, held)}</li>" for it in silences)
    if not rows:
        return ""
    return f'<details id="silences"><summary>Longest silences</summary><ol>{rows}</ol></details>'


def row_of(silence: Silence, trace: Trace, held: bytearray) -> str:
    """A silence: how long it was, what held the sender back, what was awaited, what ended it."""
    kind = NAMES.get(trace.kind[silence.line - 1], "")
    ended = f"until line {count(silence.line)}" + (f" ({kind})" if kind else "")
    long = link(silence.line, span(silence.long, trace.unit))
    why = html(words(trace, held[silence.row], silence.row))
    told = html(silence.text(trace.unit))
    return f'{long}, <span class="why">{why}</span>, {told}, {html(ended)}'
