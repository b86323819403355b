"""Words of the format of traces, for fuzzers that put words into what they try."""

from itertools import chain

from constants import MAX_PACKET_NUMBER, MAX_PACKET_SIZE, MAX_TIME
from mutants import WORDS
from near import HEADER_KEYS, KEYS

# fmt: off
NUMBERS = (
    0, 1, 1200, MAX_PACKET_SIZE, MAX_PACKET_SIZE + 1, MAX_TIME, MAX_TIME + 1, MAX_PACKET_NUMBER,
    MAX_PACKET_NUMBER + 1,
)
# fmt: on


def dictionary() -> str:
    """Words of the format, as AFL++ and libFuzzer read them."""
    keys = chain.from_iterable((*HEADER_KEYS.values(), *KEYS.values()))
    strings = [f'\\"{word}\\"' for word in (*WORDS, *keys)]
    others = ["true", "false", "null", "[[0,0]]", "\\x0a", "\\x0d\\x0a"]
    items = [*strings, *map(str, NUMBERS), *others]
    return "".join(f'"{item}"\n' for item in dict.fromkeys(items))
