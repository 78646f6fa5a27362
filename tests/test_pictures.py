"""Tests that the pictures on pages are up to date with their scripts, with the pages' text and tables, and with
Neovim's screen."""
from __future__ import annotations

import glob
import os
import re
import sys
import xml.etree.ElementTree
from collections.abc import Callable

import common
import harness
import package
import plots
import programs
import report
import rooms
import screens
from harness import TOP, holds, names_in, need_program, same, test, text_of, want
from homes import run_plainly, temporary

PICTURES = os.path.join("docs", "pictures")
PERFORMANCE = os.path.join("docs", "PERFORMANCE.md")


@test("pictures: each picture is shown on a page, contains texts and a title, and has colours for dark screens")
def shown() -> None:
    pages = [*glob.glob(os.path.join(TOP, "*.md")), *glob.glob(os.path.join(TOP, "docs", "*.md"))]
    linked = {os.path.normpath(os.path.join(os.path.dirname(page), it)) for page in pages for it in re.findall(r"!\[[^]]+\]\(([^)]+)\)", text_of(page))}
    found = {os.path.join(TOP, PICTURES, it) for it in names_in(PICTURES)}
    same(linked, found, "the pictures of the pages, and the files of the folder")
    holds(len(found) >= 3, str(found))
    for path in found:
        drawn = xml.etree.ElementTree.parse(path).getroot()
        texts = [it for it in drawn.iter() if it.tag.endswith("}text")]
        name = os.path.basename(path)
        holds(len(texts) > 5 and drawn.find("{http://www.w3.org/2000/svg}title") is not None, f"{name} has texts and a title")
        holds("prefers-color-scheme:dark" in text_of(path), f"{name} has colours for dark screens")
        # (the picture of a terminal has its own background)
        fixed = [it.text for it in texts if it.get("fill") and name != "editor.svg"]
        same(fixed, [], f"texts of {name} in a colour that doesn't change on dark screens")


@test("pictures: tools/rooms.py's pictures are up to date, and each of their steps cites a function or type of a crate")
def drawn_from_text() -> None:
    for name, drawn in rooms.pictures().items():
        same(text_of(PICTURES, name), drawn, f"{name} (tools/rooms.py draws it)")
    steps = rooms.steps_of(text_of("docs", "ARCHITECTURE.md"))
    holds(len(steps) > 5, "the steps of a message")
    for _, name, crate, _ in steps:
        sources = glob.glob(os.path.join(TOP, "crates", crate, "src", "*.rt"))
        holds(any(re.search(rf"\b(fn|struct|enum|trait|type) {name}\b", text_of(it)) for it in sources), f"{crate} has no {name}")


@test("pictures: each arrow between the rooms begins and ends at a box, and no two boxes overlap")
def placed() -> None:
    drawn = xml.etree.ElementTree.fromstring(text_of(PICTURES, "rooms.svg"))
    numbers: Callable[[str], float] = float
    boxes = [[numbers(it.get(name, "0")) for name in ("x", "y", "width", "height")] for it in drawn if it.tag.endswith("rect") and it.get("rx") == "5"]
    holds(len(boxes) > 10, f"{len(boxes)} boxes")
    for at, (x, y, width, height) in enumerate(boxes):
        for other in boxes[at + 1 :]:
            holds(abs(x - other[0]) >= width or abs(y - other[1]) >= height, f"two boxes overlap at {x}, {y}")
    for line in (it for it in drawn if it.tag.endswith("polyline")):
        points = [tuple(map(float, it.split(","))) for it in line.get("points", "").split()]
        (x, y), (u, v) = points[0], points[-1]
        holds(any(a <= x <= a + w and abs(b + h - y) < 1 for a, b, w, h in boxes), f"an arrow that begins at {x}, {y}")
        holds(any(a <= u <= a + w and abs(b - v) < 1 for a, b, w, _ in boxes), f"an arrow that ends at {u}, {v}")


@test("pictures: the README's picture equals what Neovim shows for a marked error and a refused rename")
def editor() -> None:
    want("Neovim", "tmux")
    need_program()
    with temporary() as room:
        path = os.path.join(room, "editor.svg")
        own = {**os.environ, "OB0": os.path.abspath(harness.BINARY)}
        status, said = run_plainly([sys.executable, "-B", os.path.join(TOP, "tools", "screens.py"), path], own, TOP)
        same(status, 0, said)
        kept, now = text_of(PICTURES, "editor.svg"), text_of(path)
    for scene in screens.SCENES:
        holds(scene.shows in now and scene.shows in kept, f"{scene.shows} in both pictures")
    if screens.version() in kept:
        same(now, kept, "the picture (tools/screens.py makes it)")


@test("pictures: a coloured line of a terminal is split into pieces of text with their styles")
def coloured() -> None:
    line = "a\x1b[1;31mb\x1b[0m \x1b[38;5;196;48;2;1;2;3mc\x1b[4;58;2;255;0;0md\x1b[24;39;49me\x1b[7mf"
    runs, last = screens.runs_of(line, screens.Style())
    red = screens.colour_of(1)
    wanted = [
        ("a", screens.Style()),
        ("b", screens.Style(colour=red, bold=True)),
        (" ", screens.Style()),
        ("c", screens.Style(colour="#ff0000", behind="#010203")),
        ("d", screens.Style(colour="#ff0000", behind="#010203", under="#ff0000", line=True)),
        ("e", screens.Style(under="#ff0000")),
        ("f", screens.Style(under="#ff0000", turned=True)),
    ]
    same([(text, style) for style, text in runs], wanted, "the stretches of a line")
    same(last, wanted[-1][1], "the style at its end")


@test("pictures: the plots match the tables of docs/PERFORMANCE.md, and the page lists the counted programs' versions")
def plotted() -> None:
    page = text_of(PERFORMANCE)
    for name, drawn in plots.drawn_of(page).items():
        same(text_of(PICTURES, name), drawn, f"{name} (bench/report.py --plots draws it)")
    holds("make bench" in page and not re.search(r"\d (ms|s|seconds)\b", page), "how the figures are made again, and no time of one day")
    # (until the programs are counted, the page has neither plots nor figures)
    if not plots.drawn_of(page):
        same(page.count("Not counted yet"), 2, "missing tables")
        return
    same([name for name, _ in plots.rows_of(page, plots.RUNS)[1]], list(programs.PROGRAMS), "the programs that were counted")
    ratios_fit(page)
    for word in ("- ob0: the proved program;", "the machine: x86-64 Linux", "valgrind: ", "Lua: ", "Python: "):
        holds(word in page, f"the page says nothing of {word}")
    counted_sources = common.match_of(r"the sum of its sources is `([0-9a-f]{64})`", page)[1]
    # (a released version has its own figures)
    if package.versions()[0].day:
        same(counted_sources, common.sum_of(common.sources(common.below("ob0"))), "the sources that were counted")


def ratios_fit(page: str) -> None:
    """Requires each ratio in the page's first table to fit the counts in that table."""
    heads, rows = plots.rows_of(page, plots.KEYS)
    sizes = len([it for it in heads if it.endswith("bytes")])
    for name, values in rows:
        for scratch, value, ratio in zip(rows[0][1], values[:sizes], values[sizes:]):
            holds(abs(scratch / value - ratio) <= 0.51 + ratio / 20, f"{name}: {scratch} is {ratio} times {value}")


@test("pictures: new figures replace the two tables of docs/PERFORMANCE.md, and each table gets one plot")
def counted() -> None:
    changes = {name: [10 ** (4 + at) // (number + 1) for at in range(3)] for number, name in enumerate((report.SCRATCH, *report.CHANGES, report.TYPED))}
    runs = {name: [1000 + number, 4000, 90000] for number, name in enumerate(programs.PROGRAMS)}
    page = text_of(PERFORMANCE)
    for _ in range(2):
        page = report.with_table(page, plots.KEYS, report.table_of_keys(changes))
        page = report.with_table(page, plots.RUNS, report.table_of_runs(runs))
        ratios_fit(page)
        drawn = plots.drawn_of(page)
        same(sorted(drawn), ["keys.svg", "runs.svg"], "the plots")
        same([page.count(f"(pictures/{it})") for it in drawn], [1, 1], "the lines that show them")
        for name, picture in drawn.items():
            texts = {it.text for it in xml.etree.ElementTree.fromstring(picture).iter() if it.tag.endswith("}text")}
            holds({*(changes if name == "keys.svg" else runs)} <= texts, f"the names on {name}: {texts}")
