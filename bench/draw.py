#!/usr/bin/env python3
"""Draws how the time of a search that finds nothing grows with the number of reports, from the figures of bench/passing.py.

usage: bench/draw.py FIGURES PICTURE [--events N]

Both axes are logarithmic. There is a line for each program, over the reports of so many `EventData` each. A hollow point was computed
from smaller sizes. The picture is an SVG for light and for dark pages. Needs: Python 3.11.
"""

import argparse
import math
import pathlib

import mixed
import passing

WORK = "nowhere, 8 bytes"
TITLE = "A search that finds nothing: time by the number of reports"
NAMES = {passing.BEFORE: "before", passing.AFTER: "after", passing.PEER: "plain Rust peer"}
# Sizes in pixels.
WIDE, HIGH = 720, 430
LEFT, RIGHT, TOP, BOTTOM = 84, 132, 52, 64
# Of text, of the grid, of a hollow point, and of each line, on light and on dark pages.
LIGHT = {"text": "#24303c", "grid": "#d5dae0", "paper": "#ffffff", passing.BEFORE: "#b3402a", passing.AFTER: "#1f6fb4", passing.PEER: "#6d7780"}
DARK = {"text": "#dbe2ea", "grid": "#3a444f", "paper": "#0d1117", passing.BEFORE: "#ff8a70", passing.AFTER: "#6db8ff", passing.PEER: "#a8b2bc"}
SHAPES = "text{font:13px sans-serif}.title{font-size:16px;font-weight:bold}.name{font-weight:bold}polyline{fill:none;stroke-width:2.5}circle{stroke-width:2}"

Point = tuple[int, float, bool]
Line = list[Point]


def lines_of(figures: list[passing.Figure], events: int) -> dict[str, Line]:
    """Reports, seconds, and whether these are computed, of each program."""
    found: dict[str, Line] = {name: [] for name in NAMES}
    for it in figures:
        if (it.work, it.events) == (WORK, events) and it.seconds:
            found[it.program].append((it.reports, it.seconds, it.is_reckoned))
    return {name: sorted(line) for name, line in found.items() if line}


def colours(of: dict[str, str]) -> str:
    """The rules of a style with these colours."""
    shapes = f"text{{fill:{of['text']}}}.grid{{stroke:{of['grid']}}}"
    lines = "".join(f".{it} polyline,.{it} circle{{stroke:{of[it]}}}.{it} circle,.{it} text{{fill:{of[it]}}}" for it in NAMES)
    return f"{shapes}{lines}g .hollow{{fill:{of['paper']}}}"


def seconds_text(exponent: int) -> str:
    value = 10.0**exponent
    return f"{value:g} s" if value >= 0.1 else f"{value * 1e3:g} ms"


class Axes:
    """Where a number of reports and a time are in the picture."""

    def __init__(self, lines: dict[str, Line]) -> None:
        points = [point for line in lines.values() for point in line]
        self.fewest, self.most = (math.log10(it) for it in (min(points)[0], max(points)[0]))
        times = [math.log10(seconds) for _, seconds, _ in points]
        self.low, self.high = math.floor(min(times)), math.ceil(max(times))

    def x(self, reports: float) -> float:
        share = (math.log10(reports) - self.fewest) / max(self.most - self.fewest, 1e-9)
        return LEFT + share * (WIDE - LEFT - RIGHT)

    def y(self, seconds: float) -> float:
        share = (math.log10(seconds) - self.low) / max(self.high - self.low, 1)
        return HIGH - BOTTOM - share * (HIGH - TOP - BOTTOM)

    def across(self, exponent: int) -> str:
        """The line of a time, with its name."""
        y = self.y(10.0**exponent)
        text = f'<text x="{LEFT - 10}" y="{y + 4:.1f}" text-anchor="end">{seconds_text(exponent)}</text>'
        return f'<line class="grid" x1="{LEFT}" x2="{WIDE - RIGHT}" y1="{y:.1f}" y2="{y:.1f}"/>{text}'

    def down(self, exponent: int) -> str:
        """The line of a number of reports, with that number."""
        x = self.x(10**exponent)
        text = f'<text x="{x:.1f}" y="{HIGH - BOTTOM + 22}" text-anchor="middle">{10**exponent:,}</text>'
        return f'<line class="grid" x1="{x:.1f}" x2="{x:.1f}" y1="{TOP}" y2="{HIGH - BOTTOM}"/>{text}'

    def grid(self) -> list[str]:
        across = [self.across(it) for it in range(self.low, self.high + 1)]
        return across + [self.down(it) for it in range(math.ceil(self.fewest), math.floor(self.most) + 1)]

    def line(self, name: str, line: Line) -> str:
        """The points of a program, joined, with its name at the last one."""
        places = [(self.x(reports), self.y(seconds), is_reckoned) for reports, seconds, is_reckoned in line]
        joined = " ".join(f"{x:.1f},{y:.1f}" for x, y, _ in places)
        dots = "".join(f'<circle class="{"hollow" if it else "full"}" cx="{x:.1f}" cy="{y:.1f}" r="4"/>' for x, y, it in places)
        x, y, _ = places[-1]
        return f'<g class="{name}"><polyline points="{joined}"/>{dots}<text class="name" x="{x + 12:.1f}" y="{y + 4:.1f}">{NAMES[name]}</text></g>'


def picture(lines: dict[str, Line]) -> str:
    axes = Axes(lines)
    middle = (TOP + HIGH - BOTTOM) / 2
    return "\n".join([
        f'<svg xmlns="http://www.w3.org/2000/svg" viewBox="0 0 {WIDE} {HIGH}" width="{WIDE}" height="{HIGH}">',
        f"<title>{TITLE}</title>",
        f"<style>{SHAPES}{colours(LIGHT)}@media (prefers-color-scheme:dark){{{colours(DARK)}}}</style>",
        f'<text class="title" x="{LEFT}" y="28">{TITLE}</text>',
        *axes.grid(),
        *(axes.line(name, line) for name, line in lines.items()),
        f'<text x="{(LEFT + WIDE - RIGHT) / 2:.0f}" y="{HIGH - 16}" text-anchor="middle">reports in the store</text>',
        f'<text transform="translate(20 {middle:.0f}) rotate(-90)" text-anchor="middle">time of one search, of a processor</text>',
        "</svg>\n",
    ])  # fmt: skip


def main() -> None:
    words = argparse.ArgumentParser(description=__doc__, formatter_class=argparse.RawDescriptionHelpFormatter)
    words.add_argument("figures", type=pathlib.Path)
    words.add_argument("picture", type=pathlib.Path)
    words.add_argument("--events", type=int, default=mixed.EVENTS)
    said = words.parse_args()
    lines = lines_of(passing.read(said.figures), said.events)
    if not lines:
        words.error(f"{said.figures} has no figure of `{WORK}`")
    said.picture.write_text(picture(lines))


if __name__ == "__main__":
    main()
