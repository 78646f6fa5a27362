"""Draws text, boxes, arrows and curves as SVG, in colours that can be read on light and on dark screens.

Letters have a fixed width (`textLength`), so a picture looks the same with every font. The same calls give the same bytes."""
from __future__ import annotations

from html import escape
from typing import Sequence, Tuple

Point = Tuple[float, float]

# each colour's name, with its value for light screens and its value for dark ones
COLOURS = {
    "page": ("#ffffff", "#0d1117"),
    "ink": ("#1f2328", "#e6edf3"),
    "faint": ("#59636e", "#9198a1"),
    "line": ("#8c959f", "#6e7681"),
    "grid": ("#d8dee4", "#30363d"),
    "fill": ("#eef4fb", "#1b2534"),
    "one": ("#0969da", "#58a6ff"),
    "two": ("#bc4c00", "#f0883e"),
    "three": ("#1a7f37", "#3fb950"),
    "four": ("#8250df", "#bc8cff"),
}
SANS, MONO = "Helvetica, Arial, sans-serif", "'DejaVu Sans Mono', Menlo, Consolas, monospace"


def number(value: float) -> str:
    """Formats a number for SVG, with at most one digit after the point."""
    return f"{value:.1f}".rstrip("0").rstrip(".") if "." in f"{value:.1f}" else f"{value:.0f}"


class Picture:
    """A picture of a given size. Its methods add parts one after another."""

    def __init__(self, width: float, height: float, title: str) -> None:
        self.width, self.height, self.title = width, height, title
        self.parts: list[str] = []

    def add(self, tag: str, content: str | None = None, **given: object) -> None:
        """Adds an element with these attributes. In an attribute's name, `_` stands for `-`, except at its end:
        `class_` stands for `class`."""
        pairs = [(name.rstrip("_").replace("_", "-"), value) for name, value in given.items()]
        said = "".join(f' {name}="{number(it) if isinstance(it, (int, float)) else escape(str(it))}"' for name, it in pairs)
        self.parts.append(f"<{tag}{said}/>" if content is None else f"<{tag}{said}>{content}</{tag}>")

    def text(self, at: Point, text: str, colour: str = "ink", size: float = 13, anchor: str = "start", weight: str = "normal") -> None:
        """Adds a line of text. Its beginning, middle or end is at the point `at`, depending on `anchor`."""
        self.add("text", escape(text), x=at[0], y=at[1], class_=colour, font_size=size, text_anchor=anchor, font_weight=weight)

    def box(self, at: Point, size: Point, colour: str = "fill") -> None:
        self.add("rect", x=at[0], y=at[1], width=size[0], height=size[1], rx=5, class_=f"{colour} on-line")

    def line(self, points: Sequence[Point], colour: str = "line", width: float = 1, has_head: bool = False) -> None:
        """Adds a line through some points, with an arrowhead at its end if `has_head`."""
        path = " ".join(f"{number(x)},{number(y)}" for x, y in points)
        head = {"marker_end": "url(#head)"} if has_head else {}
        self.add("polyline", points=path, class_=f"none on-{colour}", stroke_width=width, **head)

    def dot(self, at: Point, colour: str) -> None:
        self.add("circle", cx=at[0], cy=at[1], r=3.5, class_=colour)

    def svg(self) -> str:
        """Returns the whole picture as SVG."""
        light, dark = ("".join(f".{name}{{fill:{it[at]}}}.on-{name}{{stroke:{it[at]}}}" for name, it in COLOURS.items()) for at in (0, 1))
        style = f"{light}.none{{fill:none}}@media(prefers-color-scheme:dark){{{dark}.none{{fill:none}}}}text{{font-family:{SANS}}}"
        head = '<marker id="head" viewBox="0 0 8 8" refX="7" refY="4" markerWidth="8" markerHeight="8" orient="auto">'
        width, height = number(self.width), number(self.height)
        lines = [
            f'<svg xmlns="http://www.w3.org/2000/svg" width="{width}" height="{height}" viewBox="0 0 {width} {height}" role="img">',
            f"<title>{escape(self.title)}</title>",
            f"<style>{style}</style>",
            f'<defs>{head}<path d="M0,0L8,4L0,8z" class="line"/></marker></defs>',
            f'<rect width="{width}" height="{height}" rx="6" class="page"/>',
            *self.parts,
            "</svg>",
        ]
        return "\n".join(lines) + "\n"
