"""Draws the plots of docs/PERFORMANCE.md from the page's tables."""
from __future__ import annotations

import math
import os
import re
import sys
from collections.abc import Callable
from typing import List, Tuple

sys.path.insert(0, os.path.join(os.path.dirname(os.path.dirname(os.path.abspath(__file__))), "tools"))

import common  # noqa: E402
from svg import Picture  # noqa: E402

KEYS, RUNS = "A key, by the size of the text", "Runs, beside Lua and Python"
# the plot under each heading: its file, and what it shows
PLOTS = {
    KEYS: ("keys.svg", "Instructions for a change, and for reading from scratch, by the size of the text"),
    RUNS: ("runs.svg", "Instructions of ob0's runs, relative to Lua's and Python's"),
}
COLOURS = ["ink", "one", "two", "three", "four"]
Rows = List[Tuple[str, List[float]]]


def region(heading: str) -> re.Pattern[str]:
    """Returns a pattern that matches the section under a heading: a paragraph, then the plot and the table, or a line
    that says that they are missing."""
    return re.compile(rf"(## {re.escape(heading)}\n\n(?:[^\n]+\n)+\n)(Not counted yet[^\n]*\n|!\[[^\n]*\n\n(?:\|[^\n]*\n)+)")


def rows_of(page: str, heading: str) -> tuple[list[str], Rows]:
    """Returns the column heads and the rows (a name and numbers) of the table under a heading. Both are empty if the
    page has no table there."""
    text = common.match_of(region(heading).pattern, page)[2].partition("\n\n")[2]
    lines = [[it.strip() for it in line.strip("|").split("|")] for line in text.splitlines()]
    return lines[0] if lines else [], [(cells[0], [float(it.replace(",", "")) for it in cells[1:]]) for cells in lines[2:]]


def in_words(value: float) -> str:
    """Writes a power of ten in a form that is easy to read, for example "10 M"."""
    for unit, word in ((1e9, " G"), (1e6, " M"), (1e3, " k")):
        if value >= unit:
            return f"{value / unit:g}{word}"
    return f"{value:g}"


def scale(low: float, high: float, first: float, last: float) -> Callable[[float], float]:
    """Returns a function that maps a number to a coordinate, on a logarithmic scale. It maps 10**low to `first` and
    10**high to `last`."""
    return lambda value: first + (math.log10(value) - low) / (high - low) * (last - first)


def plot_of_keys(page: str) -> str:
    """Draws the instructions against the text's size, both on logarithmic scales, with a line for each row of the
    table. Returns the picture as SVG."""
    heads, rows = rows_of(page, KEYS)
    sizes = [float(it.replace(",", "").split()[0]) for it in heads[1:] if it.endswith("bytes")]
    values = [(name, found[: len(sizes)]) for name, found in rows]
    powers = [math.log10(it) for _, found in values for it in found]
    low, high = math.floor(min(powers)), math.ceil(max(powers))
    left, top, width, height, right = 66.0, 46.0, 380.0, 300.0, 350.0
    drawn = Picture(left + width + right, top + height + 50, PLOTS[KEYS][1])
    across = scale(math.log10(sizes[0]), math.log10(sizes[-1]), left + 10, left + width - 10)
    up = scale(low, high, top + height, top)
    drawn.text((14, 24), "Instructions (each line of the grid is ten times the one below)", weight="bold")
    for power in range(low, high + 1):
        drawn.line([(left, up(10**power)), (left + width, up(10**power))], "grid")
        drawn.text((left - 8, up(10**power) + 4), in_words(10**power), "faint", 12, "end")
    for size in sizes:
        drawn.text((across(size), top + height + 20), f"{size:,.0f}", "faint", 12, "middle")
    drawn.text((left + width / 2, top + height + 38), "bytes of the text", "faint", 12, "middle")
    names = apart([up(found[-1]) for _, found in values], 17)
    for (name, found), colour, at in zip(values, COLOURS, names):
        points = [(across(size), up(value)) for size, value in zip(sizes, found)]
        drawn.line(points, colour, 2)
        for point in points:
            drawn.dot(point, colour)
        drawn.text((left + width + 10, at + 4), name, colour, 12)
    return drawn.svg()


def apart(heights: list[float], least: float) -> list[float]:
    """Returns these coordinates, moved so that neighbours are at least `least` apart, in the same order."""
    found = list(heights)
    order = sorted(range(len(found)), key=found.__getitem__)
    for before, at in zip(order, order[1:]):
        found[at] = max(found[at], found[before] + least)
    return found


def plot_of_runs(page: str) -> str:
    """Draws two bars for each program: how many instructions ob0 executes for each one of Lua's, and of Python's.
    Returns the picture as SVG."""
    heads, rows = rows_of(page, RUNS)
    others = [it.partition(" by ")[2] for it in heads if " by " in it]
    values = [(name, found[-len(others) :]) for name, found in rows]
    left, top, width, step = 330.0, 62.0, 400.0, 34.0
    ratios = [math.log10(it) for _, found in values for it in found]
    low, high = min(-1, math.floor(min(ratios))), max(1, math.ceil(max(ratios)))
    across = scale(low, high, left, left + width)
    drawn = Picture(left + width + 60, top + len(values) * step + 30, PLOTS[RUNS][1])
    drawn.text((14, 24), "Instructions of ob0 for one of the other's: left of 1 it takes fewer", weight="bold")
    for at, other in enumerate(others):
        drawn.add("rect", x=left + 110 * at, y=36, width=12, height=10, class_=COLOURS[at + 1])
        drawn.text((left + 110 * at + 18, 45), f"by {other}", "faint", 12)
    bottom = top + len(values) * step
    for power in range(low, high + 1):
        drawn.line([(across(10.0**power), top - 6), (across(10.0**power), bottom)], "line" if power == 0 else "grid", 2 if power == 0 else 1)
        drawn.text((across(10.0**power), bottom + 16), f"{10.0**power:g}", "faint", 12, "middle")
    for at, (name, found) in enumerate(values):
        y = top + at * step
        drawn.text((left - 12, y + 17), name, size=12, anchor="end")
        for number, value in enumerate(found):
            start, end = sorted((across(1), across(value)))
            drawn.add("rect", x=start, y=y + 11 * number + 2, width=max(1.0, end - start), height=9, class_=COLOURS[number + 1])
            drawn.text((max(start, end) + 5, y + 11 * number + 10), f"{value:g}", "faint", 10)
    return drawn.svg()


def drawn_of(page: str) -> dict[str, str]:
    """Returns each plot as SVG by its file's name. Plots whose tables are missing on the page are left out."""
    made = {KEYS: plot_of_keys, RUNS: plot_of_runs}
    return {PLOTS[heading][0]: plot(page) for heading, plot in made.items() if rows_of(page, heading)[1]}
