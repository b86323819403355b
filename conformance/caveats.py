"""What a refusal may rest on besides the sender, in the words of docs/why.md: lines that were
guessed, lines that the log lost, and what the converter says of it.

It goes by the lines of the trace alone, and shares nothing with the proved program.
"""

import json
from collections.abc import Iterator
from typing import NamedTuple

from constants import Rule
from sender import Event

GUESS = "x_guess"
NOTE = "x_note"
NEAR_LINES = 8
SHOWN_OF_REMARK = 300
SPACES = ("initial", "handshake", "app")
# The rules that a lost line may be why a trace breaks.
LACKING = (Rule.LOSS_OWED, Rule.LOSS_SET, Rule.ACK_UNSENT)


class Refusal(NamedTuple):
    """The line that is refused, counted from 1, what it breaks as a report says it, and the line;
    at the end of a trace the last event's line, and no bytes."""

    number: int
    what: str
    line: bytes


class Missing(NamedTuple):
    """The numbers of a space that no packet has, below one that a packet has."""

    space: str
    runs: list[range]

    @property
    def size(self) -> int:
        """How many numbers."""
        return sum(map(len, self.runs))

    @property
    def least(self) -> int:
        """The first of them."""
        return self.runs[0][0]

    @property
    def greatest(self) -> int:
        """The last of them."""
        return self.runs[-1][-1]


def text_of(lines: list[bytes], refusal: Refusal) -> bytes:
    """The lines that stand behind the facts of a refusal, after these good lines."""
    guess = guess_of(lines, refusal)
    told = b""
    if guess is not None:
        is_there = guess == refusal.number and bool(refusal.line)
        front = "  guessed: " if is_there else f"  guessed on line {guess}: "
        told = remarks(front, GUESS, refusal.line if is_there else lines[guess - 1])
    gaps = "".join(f"  {sentence(it)}\n" for it in missing(lines, refusal.what)).encode()
    return told + gaps + note_of(lines)


def is_guessed(line: bytes) -> bool:
    """Whether something on a line was guessed."""
    return f'"{GUESS}"'.encode() in line


def guess_of(lines: list[bytes], refusal: Refusal) -> int | None:
    """The refused line if it was guessed, or else the last near line before it that was."""
    if is_guessed(refusal.line):
        return refusal.number
    last = max((at for at, line in enumerate(lines, 1) if is_guessed(line)), default=None)
    return last if last is not None and refusal.number - last <= NEAR_LINES else None


def remarks(front: str, key: str, line: bytes) -> bytes:
    """A line for each string that stands at a key of a line, alone or in a list."""
    try:
        said = json.loads(line)
    except (ValueError, RecursionError):
        return b""
    found = said.get(key) if isinstance(said, dict) else None
    strings = found if isinstance(found, list) else [found]
    return b"".join(front.encode() + shown(it) + b"\n" for it in strings if isinstance(it, str))


def shown(remark: str) -> bytes:
    """The first bytes of a remark, with a question mark for what is no printable ASCII."""
    data = remark.encode("utf-8", "surrogatepass")[:SHOWN_OF_REMARK]
    return bytes(it if 32 <= it <= 126 else ord("?") for it in data)


def note_of(lines: list[bytes]) -> bytes:
    """What the converter says in the header."""
    header = next((line for line, said in events(lines) if said["event"] == "header"), None)
    return b"" if header is None else remarks("  the converter says: ", NOTE, header)


def missing(lines: list[bytes], what: str) -> list[Missing]:
    """What the log skips of each space, if a lost line may be why the rule is broken."""
    if what not in (*LACKING, f"{Rule.METRIC} bytes_in_flight"):
        return []
    following = dict.fromkeys(SPACES, 0)
    runs: dict[str, list[range]] = {space: [] for space in SPACES}
    for _, said in events(lines):
        if said["event"] != "sent":
            continue
        space, number = said["space"], said["number"]
        if number > following[space]:
            runs[space].append(range(following[space], number))
        following[space] = number + 1
    return [Missing(space, found) for space, found in runs.items() if found]


def events(lines: list[bytes]) -> Iterator[tuple[bytes, Event]]:
    """The lines that are not blank, and what each says."""
    for line in lines:
        if line.strip(b" \t\r"):
            yield line, json.loads(line)


def sentence(gap: Missing) -> str:
    """Which numbers of a space are not in the log."""
    behind = "not in the log; it may have lost lines"
    if gap.size == 1:
        return f"number {gap.least} of {gap.space} is {behind}"
    span = f"{gap.least} to {gap.greatest}"
    if len(gap.runs) == 1:
        return f"numbers {span} of {gap.space} are {behind}"
    return f"{gap.size} numbers of {gap.space} from {span} are {behind}"
