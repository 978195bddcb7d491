"""The plot of how the cost of a fold grows: `python3 oracle/plot.py [FILE]` draws the tables of `bench --series` into docs/growth.svg.

    bench --series | python3 oracle/plot.py     # from standard input
    python3 oracle/plot.py oracle/README.md     # from a file, which may hold other text and tables as well

A table counts where it has the best times of the archive, its plain engine and the Rust for each size of what its first column
names; the last bold line above it is its title. Each gets a panel, both axes logarithmic, with the same times up and down in
all of them. The same tables give the same bytes.
"""

from __future__ import annotations

import argparse
import math
import sys
from html import escape
from pathlib import Path
from typing import Iterator, NamedTuple, TextIO

ROOT = Path(__file__).resolve().parent.parent
PLOT = ROOT / "docs" / "growth.svg"


class Line(NamedTuple):
    """A line of each panel: its column in the tables, its name in the legend, colour and marker."""

    column: str
    name: str
    colour: str
    marker: str


# Colours that the colour-blind can tell apart; the markers differ as well.
LINES = (
    Line("archive best", "this fold", "#0072b2", "circle"),
    Line("plain best", "its plain engine", "#009e73", "square"),
    Line("Rust best", "the Rust", "#d55e00", "triangle"),
)


class Panel(NamedTuple):
    title: str
    grows: str
    sizes: list[int]
    times: dict[str, list[float]]  # µs, by column


# Reading tables.


def cells(line: str) -> list[str]:
    return [cell.strip() for cell in line.strip().strip("|").split("|")]


def read_panels(text: TextIO) -> list[Panel]:
    panels: list[Panel] = []
    title, columns = "", []

    for line in text:
        if line.startswith("**"):
            title = line.strip().strip("*")
        if not line.startswith("|"):
            columns = []
        elif not columns:
            columns = cells(line)
            if is_series(columns):
                panels.append(Panel(title, columns[0], [], {each.column: [] for each in LINES}))
        elif is_series(columns) and not line.startswith("|---"):
            add_row(panels[-1], columns, cells(line))
    return [panel for panel in panels if len(panel.sizes) > 1]


def is_series(columns: list[str]) -> bool:
    return columns[0] != "sheet" and all(each.column in columns for each in LINES)


def add_row(panel: Panel, columns: list[str], row: list[str]) -> None:
    numbers = [cell.replace(",", "") for cell in row]
    panel.sizes.append(int(numbers[0]))
    for column, times in panel.times.items():
        times.append(float(numbers[columns.index(column)]))


# Drawing them. All lengths are in pixels.

COLUMNS = 2
WIDTH, HEIGHT = 420, 250  # of a panel's plot
LEFT, RIGHT, ABOVE, BELOW = 90, 24, 44, 62  # around it
HEAD = 74  # above all panels
INK, PALE = "#222222", "#dddddd"
FONT = "Helvetica, Arial, 'DejaVu Sans', sans-serif"


class Scale(NamedTuple):
    """A logarithmic scale from a lowest to a highest value, and where these are drawn."""

    lowest: float
    highest: float
    start: float
    end: float

    def place(self, value: float) -> float:
        part = math.log(value / self.lowest) / math.log(self.highest / self.lowest)
        return self.start + part * (self.end - self.start)


def number(value: float) -> str:
    return f"{value:.1f}".removesuffix(".0")


def text(x: float, y: float, words: str, size: int = 14, anchor: str = "middle", more: str = "") -> str:
    return f'<text x="{number(x)}" y="{number(y)}" font-size="{size}" text-anchor="{anchor}"{more}>{escape(words)}</text>'


def rule(x: float, y: float, to_x: float, to_y: float, colour: str = PALE) -> str:
    return f'<path d="M{number(x)} {number(y)}L{number(to_x)} {number(to_y)}" stroke="{colour}"/>'


def marker(line: Line, x: float, y: float) -> str:
    fill = f'fill="{line.colour}"'
    if line.marker == "circle":
        return f'<circle cx="{number(x)}" cy="{number(y)}" r="4" {fill}/>'
    if line.marker == "square":
        return f'<rect x="{number(x - 3.5)}" y="{number(y - 3.5)}" width="7" height="7" {fill}/>'
    corners = ((x, y - 5), (x - 4.5, y + 3.5), (x + 4.5, y + 3.5))
    return f'<polygon points="{" ".join(f"{number(a)},{number(b)}" for a, b in corners)}" {fill}/>'


def drawn_line(line: Line, points: list[tuple[float, float]]) -> Iterator[str]:
    path = " ".join(f"{number(x)},{number(y)}" for x, y in points)
    yield f'<polyline points="{path}" fill="none" stroke="{line.colour}" stroke-width="2"/>'
    yield from (marker(line, x, y) for x, y in points)


def decades(panels: list[Panel]) -> range:
    """The exponents of the powers of ten around all times."""
    times = [time for panel in panels for column in panel.times.values() for time in column]
    return range(math.floor(math.log10(min(times))), math.ceil(math.log10(max(times))) + 1)


def drawn_panel(panel: Panel, powers: range) -> Iterator[str]:
    """A panel whose plot begins at the origin, upper left."""
    across = Scale(panel.sizes[0], panel.sizes[-1], 14, WIDTH - 14)
    down = Scale(10.0 ** powers[0], 10.0 ** powers[-1], HEIGHT, 0)

    yield text(0, -16, panel.title, 15, "start", ' font-weight="bold"')
    for power in powers:
        y = down.place(10.0**power)
        yield rule(0, y, WIDTH, y)
        yield text(-8, y + 4.5, f"{10**power:,}" if power >= 0 else f"{10.0**power:g}", 12, "end")
    for size in panel.sizes:
        x = across.place(size)
        yield rule(x, HEIGHT, x, HEIGHT + 5, INK)
        yield text(x, HEIGHT + 20, f"{size:,}", 12)
    yield rule(0, HEIGHT, WIDTH, HEIGHT, INK)
    yield text(WIDTH / 2, HEIGHT + 42, panel.grows)
    middle = (-70, HEIGHT / 2)
    yield text(*middle, "µs for a fold", more=f' transform="rotate(-90 {number(middle[0])} {number(middle[1])})"')

    for line in reversed(LINES):  # so that the first one is on top
        points = zip(panel.sizes, panel.times[line.column])
        yield from drawn_line(line, [(across.place(size), down.place(time)) for size, time in points])


def drawn_legend() -> Iterator[str]:
    for place, line in enumerate(LINES):
        x = LEFT + 5 + 200 * place
        yield from drawn_line(line, [(x, 52), (x + 36, 52)])
        yield text(x + 46, 56.5, line.name, anchor="start")


def drawing(panels: list[Panel]) -> Iterator[str]:
    rows = math.ceil(len(panels) / COLUMNS)
    across, down = LEFT + WIDTH + RIGHT, ABOVE + HEIGHT + BELOW
    width, height = COLUMNS * across, HEAD + rows * down
    powers = decades(panels)
    about, how = "How the time of a fold grows", "best times; both axes logarithmic"

    yield (
        f'<svg xmlns="http://www.w3.org/2000/svg" width="{width}" height="{height}" viewBox="0 0 {width} {height}" '
        f'role="img" font-family="{FONT}" fill="{INK}">'
    )
    yield f"<title>{about}</title>"
    yield f'<rect width="{width}" height="{height}" fill="#ffffff"/>'
    yield text(LEFT, 30, about, 18, "start", ' font-weight="bold"')
    yield text(width - RIGHT, 30, how, anchor="end")
    yield from drawn_legend()
    for place, panel in enumerate(panels):
        x, y = place % COLUMNS * across + LEFT, HEAD + place // COLUMNS * down + ABOVE
        yield f'<g transform="translate({x} {y})">'
        yield from drawn_panel(panel, powers)
        yield "</g>"
    yield "</svg>"


def main() -> int:
    parser = argparse.ArgumentParser(description=__doc__, formatter_class=argparse.RawDescriptionHelpFormatter)
    parser.add_argument("file", nargs="?", type=argparse.FileType(encoding="utf-8"), default=sys.stdin)
    panels = read_panels(parser.parse_args().file)
    if not panels:
        parser.error("no table of a series was found")

    PLOT.write_text("\n".join(drawing(panels)) + "\n", encoding="utf-8")
    return 0


if __name__ == "__main__":
    sys.exit(main())
