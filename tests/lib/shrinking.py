"""Shortens a random text for which a check fails."""
from __future__ import annotations

import re
import time
from typing import Callable

from harness import Failed
from random_texts import LEXEME

PIECE = re.compile(rf"\s+|(?:{LEXEME.pattern})\s*", re.S)
SECONDS = 60.0  # how long the shortening of a text may take
SHORT = 16  # stretches of at most this many lexemes are tried at each place


def shrunk(text: str, fails: Callable[[str], bool]) -> str:
    """Removes lexemes from a text for as long as it still fails, and returns the rest. Long stretches are tried first.
    If time doesn't run out, removing any short stretch of the rest would make it pass."""
    pieces, end = PIECE.findall(text), time.monotonic() + SECONDS
    before = len(pieces) + 1
    while len(pieces) < before and time.monotonic() < end:
        before = len(pieces)
        sizes = [before >> it for it in range(before.bit_length()) if before >> it > SHORT]
        for size in [*sizes, *range(SHORT, 0, -1)]:
            at = 0
            while at < len(pieces) and time.monotonic() < end:
                shorter = pieces[:at] + pieces[at + size :]
                if fails("".join(shorter)):
                    pieces = shorter
                else:
                    at += size if size > SHORT else 1
    return "".join(pieces)


def fail_shortly(text: str, check: Callable[[str], object]) -> None:
    """Raises the failure of a check, on the shortest part of the text for which it still fails. Returns if the check
    passes."""

    def fails(shorter: str) -> bool:
        try:
            check(shorter)
        except Failed:
            return True
        return False

    if fails(text):
        check(shrunk(text, fails))
