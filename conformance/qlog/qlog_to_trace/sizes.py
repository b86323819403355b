"""Sizes of packets that were sent, for logs that do not have them."""

from collections.abc import Iterable, Iterator
from typing import Any

from .events import GREATEST_SIZE, Event
from .numbers import says, written

# Bytes of a packet number that is not known, of the tag of the encryption, and of a version.
NUMBER = 4
TAG = 16
VERSION = 4
# A packet that has to be ack-eliciting keeps room for a PING until something else elicits.
ROOM = 1
# The frames whose data is counted beside them, at `payload_length`.
FRAMES_OF_DATA = ("crypto", "stream")
Frame = dict[str, Any]


def length_of_varint(value: int) -> int:
    """How many bytes an integer takes (RFC 9000, section 16)."""
    return next((size for size, bits in ((1, 6), (2, 14), (4, 30)) if value < 1 << bits), 8)


def length_of_hex(text: object) -> int:
    """How many bytes a text of hexadecimal digits stands for."""
    return len(text.encode()) // 2 if isinstance(text, str) else 0


def token_of(header: dict[str, Any]) -> object:
    """The token of an Initial packet."""
    token: object = header.get("token")
    for key in ("raw", "data"):
        token = token.get(key) if isinstance(token, dict) else token
    return token


def size_with_header(event: Event, payload: int) -> int:
    """The size of a packet with so many bytes of frames (RFC 9000, section 17)."""
    header = event.header
    destination, source = header.get("dcid"), header.get("scid")
    has_source = isinstance(source, str) and source != ""
    destination, source = length_of_hex(destination), length_of_hex(source)
    if event.space == "app" and not has_source:
        return 1 + destination + NUMBER + payload + TAG
    size = 1 + VERSION + 1 + destination + 1 + source + NUMBER + payload + TAG
    size += length_of_varint(NUMBER + payload + TAG)
    if event.space == "initial":
        token = length_of_hex(token_of(header))
        size += length_of_varint(token) + token
    return size


def is_open(frame: Frame) -> bool:
    """Whether a STREAM frame has no length, and so goes to the end of its packet."""
    return frame.get("explicit_length") is False and not says(frame.get("payload_length"))


def stream_of(frame: Frame) -> str:
    """The number of its stream, as the log writes it."""
    return written(frame.get("stream_id"))


def offset_of(event: Event, frame: Frame) -> int:
    """At which byte of its stream its data begin."""
    offset = frame.get("offset")
    return event.integer(offset, "offset") if says(offset) else 0


class Sizes:
    """Finds the sizes that a log does not have by what it has.

    They are read off the headers and frames where each frame has its length. A STREAM frame that
    has none fills its packet, unless the next data of its stream begins earlier. Of the last one of
    a stream nothing says how long it is, so the least is taken.
    """

    def __init__(self, filled: int) -> None:
        # The size of a packet that is full.
        self._filled = filled
        # The data of frames without a length that do not fill their packets, by stream and offset.
        self._short: dict[tuple[str, int], int] = {}
        # The highest offset of each stream, and how much data had room there.
        self._highest: dict[str, tuple[int, int]] = {}
        # Whether a size was found so.
        self.are_guessed = False

    def see(self, event: Event) -> None:
        """Looks at a packet without a size in the first reading."""
        size = self._by_frames(event)
        if size is not None:
            self._see_frames(event, size)
        self.settle(event)

    def over(self, events: Iterable[Event]) -> Iterator[Event]:
        """The events of the second reading, each packet with its size."""
        for event in events:
            if event.name == "packet_sent" and event.space:
                self.settle(event)
            yield event

    def settle(self, event: Event) -> None:
        """Gives a packet a size if something says it."""
        if event.has_size:
            return
        size = self._by_frames(event)
        if size is None:
            size = self._by_payload(event)
        else:
            data = [self._data_of(event, frame, size) for frame in event.frames if is_open(frame)]
            size += sum(data)
            event.keeps_room = bool(data) and size == self._filled - ROOM
        if size is not None:
            self.are_guessed = event.is_size_guessed = True
            event.size = event.integer(size, "raw.length", GREATEST_SIZE, 1)

    @staticmethod
    def _by_frames(event: Event) -> int | None:
        """By frames of which each has a length, without data that has none."""
        total = 0
        for frame, kind in zip(event.frames, event.frame_types, strict=True):
            if frame.get("length") is None:
                return None
            total += event.integer(frame["length"], "length", GREATEST_SIZE)
            if kind in FRAMES_OF_DATA:
                if frame.get("payload_length") is None:
                    return None
                data = frame["payload_length"]
                total += event.integer(data, "payload_length", GREATEST_SIZE)
        return size_with_header(event, total) if event.frames else None

    @staticmethod
    def _by_payload(event: Event) -> int | None:
        """By the length of the payload, or by what the header says."""
        raw = event.data.get("raw")
        payload = raw.get("payload_length") if isinstance(raw, dict) else None
        if payload is not None:
            number = event.integer(payload, "raw.payload_length", GREATEST_SIZE)
            return size_with_header(event, number)
        length = event.header.get("length")
        return None if length is None else event.integer(length, "header.length", GREATEST_SIZE)

    def _data_of(self, event: Event, frame: Frame, size: int) -> int:
        """The data of a STREAM frame without a length, in a packet of so many other bytes."""
        left = max(0, self._filled - size)
        stream, offset = stream_of(frame), offset_of(event, frame)
        highest, _ = self._highest.get(stream, (None, 0))
        return 0 if offset == highest else min(left, self._short.get((stream, offset), left))

    def _see_frames(self, event: Event, size: int) -> None:
        """Compares the offsets of a stream's frames."""
        for frame, kind in zip(event.frames, event.frame_types, strict=True):
            if kind != "stream":
                continue
            stream, offset = stream_of(frame), offset_of(event, frame)
            before, left = self._highest.get(stream, (-1, 0))
            if offset <= before:
                continue
            if offset - before < left:
                self._short[stream, before] = offset - before
            self._highest[stream] = (offset, max(0, self._filled - size))
