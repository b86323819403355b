"""What does nothing silently in a trace, in the words of docs/why.md: the warnings that `--warn`
asks for.

Nothing is shared with the proved program.
"""

from collections.abc import Iterator

from names import shown_name
from near import keys_of_kind, names_in, near
from rows import first_not_good
from why import said_by

MOST = 100
SHOWN_OF_KEY = 40


def warnings_of(name: str, trace: bytes, report: str) -> bytes:
    """What is told on standard error of a trace whose report is this, under a name."""
    lines = trace.split(b"\n")
    last = first_not_good(trace, report)
    good = lines if last is None else lines[: last - 1]
    told = list(warnings_in(good))[:MOST]
    front = shown_name(name)
    return b"".join(f"{front}:{n}: warning: ".encode() + text + b"\n" for n, text in told)


def warnings_in(lines: list[bytes]) -> Iterator[tuple[int, bytes]]:
    """The numbers of lines, each with a warning; each is told once."""
    known: set[str] = set()
    largest, version = None, 1
    for number, line in enumerate(lines, 1):
        if not line.strip(b" \t\r"):
            continue
        event = said_by(line)
        match event["event"]:
            case "header":
                version, largest = event["version"], event["max_datagram_size"]
                for key in names_in(line):
                    if key not in keys_of_kind("header", version) and not is_own(key):
                        yield number, of_header(key, version)
            case "metrics":
                for key in names_in(line):
                    if key in keys_of_kind("metrics", version) or is_own(key) or key in known:
                        continue
                    known.add(key)
                    yield number, of_metrics(key)
            case "sent" if largest is not None and event["size"] > largest:
                packet = f"packet {event['number']} of {event['space']}"
                size = f"has {event['size']} bytes, more than max_datagram_size {largest}"
                yield number, f"{packet} {size}".encode()
                largest = None


def is_own(key: str) -> bool:
    """Whether a key is a logger's own."""
    return key.startswith("x_")


def shown_key(key: str) -> bytes:
    """The first bytes of a key, as a line shows them."""
    data = key.encode("utf-8", "surrogatepass")[:SHOWN_OF_KEY]
    return bytes(byte if 32 <= byte <= 126 else ord("?") for byte in data)


def meant(key: str | None) -> bytes:
    """The end of a warning that names a key."""
    return b"" if key is None else f"; is it {key}?".encode()


def of_header(key: str, version: int) -> bytes:
    """The warning of a key that a header of this version does not have."""
    front = b"the header has a key " + shown_key(key) + b", which does nothing"
    if key in keys_of_kind("header", 3):
        return front + f" in version {version}".encode()
    return front + meant(near(key, "header", version))


def of_metrics(key: str) -> bytes:
    """The warning of a key that a metrics line does not have."""
    front = b"a metrics line has a key " + shown_key(key) + b", which does nothing"
    return front + meant(near(key, "metrics", 3))
