"""Places the nodes of a drawing in layers, so that every arrow points down and few arrows cross."""
from __future__ import annotations

from typing import Dict, List, Tuple

Arrows = Dict[str, List[str]]
Place = Tuple[int, float]  # the number of a layer, counted from the bottom, and a column
SWEEPS = 12


def depth_of(name: str, arrows: Arrows) -> int:
    """Returns the number of arrows on the longest path down from a node."""
    return max((1 + depth_of(it, arrows) for it in arrows[name]), default=0)


def joints(arrows: Arrows) -> dict[tuple[str, str], list[str]]:
    """Returns, for each arrow, the points that it passes from top to bottom: its two nodes, and a joint in each layer
    between."""
    depth = {it: depth_of(it, arrows) for it in arrows}
    return {(a, b): [a, *(f"{a}>{b}@{at}" for at in range(depth[a] - 1, depth[b], -1)), b] for a in arrows for b in arrows[a]}


def middle(name: str, near: dict[str, list[str]], columns: dict[str, float]) -> float:
    """Returns the mean of the columns of a node's neighbours, or its own column if it has none."""
    found = [columns[it] for it in near[name]]
    return sum(found) / len(found) if found else columns[name]


def room_of(name: str) -> float:
    """Returns half of the width that a node needs. A joint needs less than a node."""
    return 0.15 if "@" in name else 0.5


def spread(row: list[str], wanted: dict[str, float]) -> dict[str, float]:
    """Returns columns for the nodes of a layer, close to the desired columns, in the same order and without
    overlaps."""
    found: dict[str, float] = {}
    for before, name in zip([None, *row], row):
        least = found[before] + room_of(before) + room_of(name) if before else wanted[name]
        found[name] = max(wanted[name], least)
    moved = sum(found[it] - wanted[it] for it in row) / len(row)
    return {it: at - moved for it, at in found.items()}


def placed(arrows: Arrows) -> dict[str, Place]:
    """Returns the layer and the column of each node and joint. The columns begin at 0."""
    paths = joints(arrows)
    layers: dict[int, list[str]] = {}
    depth = {it: depth_of(it, arrows) for it in arrows}
    below: dict[str, list[str]] = {it: [] for path in paths.values() for it in path}
    above: dict[str, list[str]] = {it: [] for it in below}
    for path in paths.values():
        for at, name in enumerate(path):
            row = layers.setdefault(depth[path[0]] - at, [])
            row += [name] if name not in row else []
        for upper, lower in zip(path, path[1:]):
            below[upper].append(lower)
            above[lower].append(upper)
    columns = {it: at - (len(row) - 1) / 2 for row in layers.values() for at, it in enumerate(row)}
    for sweep in range(SWEEPS):
        near = above if sweep % 2 == 0 else below
        for layer in sorted(layers, reverse=sweep % 2 == 0):
            wanted = {it: middle(it, near, columns) for it in layers[layer]}
            if sweep < SWEEPS // 2:
                layers[layer] = sorted(layers[layer], key=wanted.__getitem__)
            columns.update(spread(layers[layer], wanted))
    least = min(at - room_of(it) for it, at in columns.items())
    return {it: (layer, columns[it] - least) for layer, row in layers.items() for it in row}
