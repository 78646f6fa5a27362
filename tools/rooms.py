#!/usr/bin/env python3
"""Draws the rooms of crates.txt and the life of a message for docs/ARCHITECTURE.md.

  tools/rooms.py           draws the rooms from crates.txt, writes them into the page, and draws the page's two pictures

The picture of the rooms shows the same as the page's text. The picture of a message shows the rows of the page's block.
A room is a heading of crates.txt, `# NAME: TEXT`, with the crates below it. It depends on the rooms of the crates that
its own crates use. The picture shows only the nearest of these rooms, on which no other one of them depends."""
from __future__ import annotations

import os
import re
import sys
from dataclasses import dataclass, field

import common
import layers
from svg import Picture

PAGE = os.path.join(common.TOP, "docs", "ARCHITECTURE.md")
PICTURE = re.compile(r"(## The rooms\n\n```\n).*?(```\n)", re.S)
STEPS = re.compile(r"(## The life of a message\n\n```\n)(.*?)(```\n)", re.S)
PICTURES = os.path.join(common.TOP, "docs", "pictures")
# the size of a box, and the size of the cell that contains it
BOX, CELL = (202, 50), (218, 84)


@dataclass
class Room:
    name: str
    text: str
    crates: list[str] = field(default_factory=list)


def read_rooms() -> list[Room]:
    """Returns the rooms in the order of crates.txt, lowest first; the crates of tests are in a separate room."""
    rooms: list[Room] = []
    with open(os.path.join(common.TOP, "crates.txt"), encoding="utf-8") as file:
        for line in file:
            heading = re.match(r"# (\w+)(?:: (.*))?$", line.strip())
            if heading:
                rooms.append(Room(heading[1], heading[2] or ""))
            elif line.strip():
                rooms[-1].crates.append(line.partition(":")[0].split()[0])
    return rooms


def all_below(name: str, named: dict[str, list[str]]) -> set[str]:
    """Returns all names below a name, without the name itself."""
    found: set[str] = set()
    waiting = list(named[name])
    while waiting:
        lower = waiting.pop()
        if lower not in found:
            found.add(lower)
            waiting += named[lower]
    return found


def nearest(named: dict[str, list[str]]) -> dict[str, list[str]]:
    """Returns the names that each name rests on directly: names on which another one of them also rests are left
    out."""
    below = {name: all_below(name, named) for name in named}
    return {name: [it for it in given if not any(it in below[other] for other in given)] for name, given in named.items()}


def rooms_below(rooms: list[Room]) -> dict[str, list[str]]:
    """Returns, for each room, the rooms that its crates use, highest first."""
    libraries = common.libraries()
    room_of = {crate: room.name for room in rooms for crate in room.crates}
    order = [room.name for room in reversed(rooms)]
    named = {room.name: {room_of[low] for crate in room.crates for low in libraries[crate]} for room in rooms}
    return {name: sorted(lower - {name}, key=order.index) for name, lower in named.items()}


def draw() -> str:
    """Returns the picture of the rooms as text. It has a line for each room except the tests', highest first, with the
    rooms on which it rests directly."""
    rooms = read_rooms()
    arrows = nearest(rooms_below(rooms))
    shown = [room for room in reversed(rooms) if room.name != "tests"]
    names = max(len(room.name) for room in shown)
    targets = max(len(", ".join(arrows[room.name])) for room in shown)
    lines = []
    for room in shown:
        lower = ", ".join(arrows[room.name])
        arrow = "──►" if lower else "   "
        lines.append(f"{room.name:<{names}} {arrow} {lower:<{targets}}   {room.text}".rstrip())
    return "".join(f"{line}\n" for line in lines)


def halves(text: str) -> list[str]:
    """Splits a text into two lines of about the same length, unless it fits into a box on one line."""
    words = text.split()
    cut = min(range(1, len(words) + 1), key=lambda at: max(len(" ".join(words[:at])), len(" ".join(words[at:]))))
    return [text] if len(text) <= 28 else [" ".join(words[:cut]), " ".join(words[cut:])]


def picture_of_rooms() -> str:
    """Draws the rooms as boxes, with an arrow from each room to every room that it rests on directly. Returns the
    picture as SVG."""
    rooms = [room for room in read_rooms() if room.name != "tests"]
    arrows = {name: lower for name, lower in nearest(rooms_below(read_rooms())).items() if name != "tests"}
    places = layers.placed(arrows)
    top, last = max(at for at, _ in places.values()), max(places[room.name][1] for room in rooms)
    width, height = (last + 0.5) * CELL[0] + 16, (top + 1) * CELL[1] - 10
    drawn = Picture(width, height, "The rooms of ob0's crates, and which rooms each one rests on")
    middles = {name: (8 + column * CELL[0], (top - at) * CELL[1] + 37) for name, (at, column) in places.items()}
    for path in layers.joints(arrows).values():
        # (an arrow goes straight down between boxes)
        points = [(x, y + side * BOX[1] / 2) for x, y in (middles[it] for it in path) for side in (-1, 1)]
        drawn.line(points[1:-1], has_head=True)
    for room in rooms:
        x, y = middles[room.name]
        drawn.box((x - BOX[0] / 2, y - BOX[1] / 2), BOX)
        lines = halves(room.text.partition(";")[0])
        drawn.text((x, y - 2 - 6 * (len(lines) - 1)), room.name, anchor="middle", weight="bold", size=14)
        for at, line in enumerate(lines):
            drawn.text((x, y + 15 - 6 * (len(lines) - 1) + 12 * at), line, "faint", 11, "middle")
    return drawn.svg()


def steps_of(page: str) -> list[list[str]]:
    """Returns the rows of the page's block about a message. Each row contains the arriving data, the function that
    handles it, its crate, and its effect."""
    return [re.split(r" +──► | {2,}", line) for line in common.match_of(STEPS.pattern, page, STEPS.flags)[2].splitlines()]


def picture_of_message(page: str) -> str:
    """Draws the life of a message from top to bottom: a box for each step, with the data that arrives there. Returns
    the picture as SVG."""
    rows = steps_of(page)
    width, step = 760, 62
    drawn = Picture(width, len(rows) * step + 26, "The life of a message, from bytes to bytes")
    for at, (given, function, crate, text) in enumerate(rows):
        y = 30 + at * step
        drawn.line([(190, y - 26), (190, y)], has_head=True)
        drawn.text((176, y - 11), given, "two", 12, "end")
        drawn.box((20, y), (340, 34))
        drawn.text((32, y + 22), function, weight="bold")
        drawn.text((348, y + 22), crate, "faint", 12, "end")
        drawn.text((378, y + 22), text, size=12)
    return drawn.svg()


def pictures() -> dict[str, str]:
    """Returns each picture as SVG by its file's name."""
    with open(PAGE, encoding="utf-8") as file:
        page = file.read()
    return {"rooms.svg": picture_of_rooms(), "message.svg": picture_of_message(page)}


def main() -> int:
    with open(PAGE, encoding="utf-8") as file:
        page = file.read()
    with open(PAGE, "w", encoding="utf-8") as file:
        file.write(PICTURE.sub(lambda found: found[1] + draw() + found[2], page))
    os.makedirs(PICTURES, exist_ok=True)
    for name, drawn in pictures().items():
        with open(os.path.join(PICTURES, name), "w", encoding="utf-8") as file:
            file.write(drawn)
    return 0


if __name__ == "__main__":
    sys.exit(main())
