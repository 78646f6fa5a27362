"""Finds the first error of a text, and the hint for it."""
from __future__ import annotations

from typing import NamedTuple, Optional, Tuple

import ob0_hints
import ob0_scripts
from harness import Message, Server, did_close, did_open


class Found(NamedTuple):
    """Stores the first error of a text: its message, its line and column, the hint for it, and the rule that the hint
    comes from."""

    message: str
    place: Tuple[int, int]
    rule: Optional[ob0_hints.Rule]
    hint: str


def first_error(server: Server, text: str) -> Optional[Found]:
    """Returns the first error of a text, or None if there is no error."""
    diagnostics: list[Message] = server.notify(did_open(text))
    server.notify(did_close())
    if not diagnostics:
        return None
    message, start = diagnostics[0]["message"], diagnostics[0]["range"]["start"]
    starts = ob0_scripts.line_starts(text.encode())
    units = text.split("\n")[start["line"]].encode("utf-16-le")[: 2 * start["character"]]
    offset = starts[start["line"]] + len(units.decode("utf-16-le").encode())
    hints = ob0_hints.Hints(text.encode(), starts)
    return Found(message, (start["line"], start["character"]), hints.rule(message, offset), hints.hint(message, offset))
