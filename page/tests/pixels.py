"""The colours of a part of a picture, and where a diagram has a value by the labels of its axes."""

import re
import zlib
from collections.abc import Callable

from tests.browsers import Browser

Color = tuple[int, int, int]
# How far a channel of a colour may be off, for edges are smooth, and how far a mark from its place.
NEAR = 40
REACH = 4
LABELS = """
return [...document.querySelectorAll(`#chart-${arguments[0]} .dygraph-axis-label-${arguments[1]}`)]
  .filter(it => arguments[1] === 'y' || it.parentElement.style.textAlign === 'center')
  .map(it => [it.textContent, it.getBoundingClientRect()])
  .map(([text, box]) => [text, box.left + box.width / 2, box.top + box.height / 2])
"""


class Scale:
    """Where a diagram has values, by the labels that stand at its axes."""

    def __init__(self, browser: Browser, chart: str) -> None:
        """Of `packets-app` the first lane, where app is alone; of `packets-timer` the last one."""
        chart, _, lane = chart.partition("-")
        browser.run(
            "document.getElementById(`chart-${arguments[0]}`).scrollIntoView({block: 'center'})",
            chart,
        )
        browser.settled()
        self.browser = browser
        # The window and the headroom have the axis of the packets above them.
        above = "packets" if chart in ("window", "headroom") else chart
        self.x = line_through([(number(text), x) for text, x, _ in browser.run(LABELS, above, "x")])
        labels = [(number(text), y) for text, _, y in browser.run(LABELS, chart, "y")]
        of_lane = {"app": first_lane, "timer": last_lane}.get(lane, list)
        self.y = line_through(of_lane(labels))

    def has(self, x: float, y: float, tone: str) -> bool:
        """Whether the colour of a name is at a place of the diagram, or a few pixels beside it."""
        style = (
            "const style = getComputedStyle(document.documentElement);"
            "return style.getPropertyValue('--' + arguments[0])"
        )
        color = color_of(self.browser.run(style, tone))
        left, top = round(self.x(x)) - REACH, round(self.y(y)) - REACH
        found = colors(self.browser, left, top, 2 * REACH + 1, 2 * REACH + 1)
        return any(all(abs(a - b) < NEAR for a, b in zip(it, color, strict=True)) for it in found)


def first_lane(labels: list[tuple[float, float]]) -> list[tuple[float, float]]:
    """The labels of the uppermost lane: those above the first that does not rise from below."""
    ordered = sorted(labels, key=lambda it: it[1])
    lane = ordered[:1]
    for label in ordered[1:]:
        if label[0] >= lane[-1][0]:
            break
        lane.append(label)
    return lane


def last_lane(labels: list[tuple[float, float]]) -> list[tuple[float, float]]:
    """The labels of the lowest lane: those below the last that does not rise from below."""
    turned = first_lane([(-value, -y) for value, y in labels])
    return [(-value, -y) for value, y in turned]


def number(text: str) -> float:
    """The number of a label, without its unit."""
    return float(re.sub("[^0-9.-]", "", text))


def line_through(points: list[tuple[float, float]]) -> Callable[[float], float]:
    """The line through the outermost two points, in which all others lie but for two pixels."""
    (a, b), (c, d) = min(points), max(points)

    def place(value: float) -> float:
        return b + (value - a) * (d - b) / (c - a)

    if any(abs(place(value) - pixel) > 2 for value, pixel in points):
        raise AssertionError(f"the labels of an axis do not lie in a line: {points}")
    return place


def color_of(text: str) -> Color:
    """A colour as a style has it."""
    digits = re.sub(r"[^0-9a-f]", "", text.lower())
    digits = "".join(2 * it for it in digits) if len(digits) == 3 else digits
    return int(digits[:2], 16), int(digits[2:4], 16), int(digits[4:6], 16)


def colors(browser: Browser, left: float, top: float, width: int, height: int) -> list[Color]:
    """The colours of a part of what is seen."""
    scroll = browser.run("return [scrollX, scrollY]")
    clip = {"x": left + scroll[0], "y": top + scroll[1], "width": width, "height": height}
    return decoded(browser.shot(clip))


def decoded(png: bytes) -> list[Color]:
    """The colours of a picture, row by row; one of 8 bits a channel that is not interlaced."""
    at, data, width, channels = 8, b"", 0, 3
    while at < len(png):
        length, kind = int.from_bytes(png[at : at + 4]), png[at + 4 : at + 8]
        body = png[at + 8 : at + 8 + length]
        if kind == b"IHDR":
            width, channels = int.from_bytes(body[:4]), {2: 3, 6: 4}[body[9]]
        data += body if kind == b"IDAT" else b""
        at += length + 12
    return rows_of(zlib.decompress(data), width * channels, channels)


def rows_of(data: bytes, stride: int, step: int) -> list[Color]:
    """The colours of rows, each of which has a filter before it."""
    above, found = bytearray(stride), []
    for start in range(0, len(data), stride + 1):
        kind, row = data[start], bytearray(data[start + 1 : start + 1 + stride])
        for i, value in enumerate(row):
            left = row[i - step] if i >= step else 0
            corner = above[i - step] if i >= step else 0
            row[i] = (value + guess(kind, left, above[i], corner)) % 256
        found += [(row[i], row[i + 1], row[i + 2]) for i in range(0, stride, step)]
        above = row
    return found


def guess(kind: int, left: int, above: int, corner: int) -> int:
    """What a filter of PNG takes a byte for."""
    paeth = min((left, above, corner), key=lambda it: abs(left + above - corner - it))
    return (0, left, above, (left + above) // 2, paeth)[kind]
