"""The tables of the comparison."""


from comparing import Measure, Row

WIDTHS = (14, 8, 7, 9)
WIDTH_OF_A_READER = 13
WIDTH_OF_THE_REST = 6


def markdown(cells: list[str]) -> str:
    """Cells as a row of a table in Markdown."""
    return f"| {' | '.join(cells)} |"


class Table:
    """A table of the times of some programs, by one measure."""

    def __init__(self, names: list[str], measure: Measure, is_markdown: bool) -> None:
        self.names = names
        self.measure = measure
        self.is_markdown = is_markdown

    def headings(self) -> list[str]:
        """The lines above the rows."""
        cells = ["Trace", "Form", "MB", "Lines", *self.names, "Ratio", "Peak"]
        if self.is_markdown:
            return [markdown(cells), "|---|---|" + "---:|" * (len(cells) - 2)]
        return [self.aligned(cells)]

    def row(self, row: Row) -> str:
        """A row of the table."""
        ratio = row.ratio(self.measure)
        cells = [
            row.shape,
            row.form,
            f"{row.megabytes:.1f}",
            f"{row.lines:,}",
            *(self.cost(row, name) for name in self.names),
            "" if ratio is None else f"{ratio:.2f}",
            f"{row.peak / 1e6:.1f}",
        ]
        return markdown(cells) if self.is_markdown else self.aligned(cells)

    def cost(self, row: Row, name: str) -> str:
        """Nanoseconds a line, and megabytes a second."""
        seconds = row.seconds(name, self.measure)
        return f"{seconds * 1e9 / row.lines:.0f} ({row.megabytes / seconds:.0f})"

    def aligned(self, cells: list[str]) -> str:
        """Cells below each other, the first two to the left."""
        widths = [
            *WIDTHS,
            *(WIDTH_OF_A_READER for _ in self.names),
            WIDTH_OF_THE_REST,
            WIDTH_OF_THE_REST,
        ]
        sides = ["<", "<", *(">" for _ in cells[2:])]
        aligned = zip(cells, sides, widths, strict=True)
        return " ".join(f"{cell:{side}{width}}" for cell, side, width in aligned)
