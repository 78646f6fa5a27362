"""Compares the assumptions that the checker prints at the gate with the list in docs/PROMISES.md."""
from __future__ import annotations

import os
import re
from typing import List

import common

PAGE = os.path.join(common.TOP, "docs", "PROMISES.md")
# The words in the checker's last line that state its assumptions.
WORD = re.compile(r"\b(?:axioms=\d+|native=\S+|\S+=trusted)")
BLOCK = re.compile(r"^## What is trusted$.*?^```\n(.*?)^```$", re.MULTILINE | re.DOTALL)


class Trusted:
    """Collects the lines of `rt ci` that list the assumptions of the crate `ob0`. There are none if an earlier run has
    proved this crate."""

    def __init__(self) -> None:
        self.lines: List[str] = []
        self.said: List[str] = []

    def take(self, line: str) -> None:
        """Handles a line of `rt ci`'s output. Collects the lines with assumptions, and keeps them if the line `rt: ob0
        proved` follows."""
        line = line.strip()
        if line.startswith("axioms "):
            self.lines.append(line)
        elif line.startswith("logic=proved"):
            self.lines.append(" ".join(WORD.findall(line)))
        elif line.startswith("rt: "):
            if line == "rt: ob0 proved":
                self.said = self.lines
            self.lines = []

    def difference(self) -> List[str]:
        """Returns the gate's lines if they differ from the page's. Returns an empty list if they agree, or if the gate
        printed none."""
        return [] if not self.said or listed() == self.said else self.said


def listed() -> List[str]:
    """Returns the lines of the code block in docs/PROMISES.md, What is trusted."""
    with open(PAGE, encoding="utf-8") as file:
        found = BLOCK.search(file.read())
    return found[1].splitlines() if found else []
