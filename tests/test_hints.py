"""Tests the hints that are added to messages: each wrong module of inputs/slips.txt and inputs/judged_slips.txt gets a
hint that leads to its fix, except the modules that are listed here."""
from __future__ import annotations

import re
from collections.abc import Iterator
from typing import NamedTuple

import ob0_hints
import ob0_scripts
from harness import Server, holds, need_program, same, test, text_of
from hinted import Found, first_error


class Slip(NamedTuple):
    """Stores a wrong module and its fix, which replaces `old` by `new`. The hint has to match the pattern `says` (`-`
    if there is no hint)."""

    name: str
    old: str
    new: str
    says: str
    text: str


# The judged modules that get a wrong hint or no hint. Remove a name when a rule gets better, and never add one.
WRONG: list[str] = []
NONE = ["a slip in the closing name"]


def slips(file: str) -> Iterator[Slip]:
    """Yields the wrong modules of a file in tests/inputs/."""
    parts = re.split(r"^== (.*)\n", text_of("tests", "inputs", file), flags=re.M)[1:]
    for name, part in zip(parts[::2], parts[1::2]):
        cure, says, text = part.split("\n", 2)
        old, new = cure[len("cure: ") :].replace("⏎", "\n").split(" =>", 1)
        yield Slip(name, old, new[1:], says[len("says: ") :], text.rstrip("\n") + "\n")


def cured(server: Server, it: Slip) -> Found:
    """Returns the first error of a module. Fails if the module's fix leaves an error there or before."""
    found = first_error(server, it.text)
    holds(found and it.old in it.text, f"{it.name} has no error, or no place for the cure")
    assert found
    left = first_error(server, it.text.replace(it.old, it.new, 1))
    holds(left is None or left.place > found.place, f"{it.name}: the cure leaves {left}")
    return found


@test("hints: each mistake in slips.txt gets the expected hint or none, and its fix removes the first error")
def lead_to_cures() -> None:
    need_program()
    count = 0
    with Server() as server:
        for it in slips("slips.txt"):
            found = cured(server, it)
            count += found.message == "expected END"
            holds(re.search(it.says, found.hint) if it.says != "-" else not found.hint, f"{it.name}: {found}")
    holds(count >= 25, f"{count} of them begin with `expected END`")


@test("hints: each module in judged_slips.txt, except the known exceptions, gets a hint that leads to its fix")
def judged() -> None:
    need_program()
    right: list[str] = []
    wrong: list[str] = []
    none: list[str] = []
    with Server() as server:
        for it in slips("judged_slips.txt"):
            hint = cured(server, it).hint
            (none if not hint else right if re.search(it.says, hint) else wrong).append(it.name)
    same((len(right), wrong, none), (60 - len(WRONG) - len(NONE), WRONG, NONE), "right hints, wrong ones and none")


@test("hints: a hint contains no unfilled placeholder at any offset of a text, and the text's end has its own hint")
def any_text() -> None:
    for text in ("", "(*", "*)", "(* (* *)", "MODULE", "\u00e4", "\r\r\n(*)", "x *) y"):
        hints = ob0_hints.Hints(text.encode(), ob0_scripts.line_starts(text.encode()))
        for message in (*ob0_hints.rules(), "another message"):
            for offset in range(len(text.encode()) + 1):
                holds("{" not in hints.hint(message, offset).replace("{ comment", ""), f"{message} in {text!r}")
    hints = ob0_hints.Hints(b"MODULE M; BEGIN (* END *)", [0])
    same(hints.hint("expected END", 25), "the module ends with `END`, its name and a full stop", "the end of a text")
