"""Computes how far each line of a text is indented, by reading the whole text. The editors' files compute the same from
the nearest heading above a line."""
from __future__ import annotations

import re
from collections.abc import Iterator
from typing import List, NamedTuple, Tuple

TOKEN = re.compile(r"\(\*|[()\[\];]|[A-Za-z0-9]+|\S")
DELIMITER = re.compile(r"\(\*|\*\)")
FRESH = {";", "BEGIN", "THEN", "DO", "ELSE", "REPEAT", "CONST", "TYPE", "VAR"}


class State(NamedTuple):
    """The open constructs before a line: the depth of comments, a stack of blocks, statements and records with their
    levels, and the number of open parentheses. `fresh` says whether a statement or declaration begins there."""

    depth: int
    stack: List[Tuple[str, int]]
    parens: int
    fresh: bool


def tokens(line: str, depth: int) -> Iterator[Tuple[str, int]]:
    """Yields the tokens of a line outside comments, each with the depth of open comments. At the end of the line yields
    an empty token with the depth there."""
    at = 0
    while True:
        found = (DELIMITER if depth else TOKEN).search(line, at)
        if not found:
            yield "", depth
            return
        at = found.end()
        if found[0] == "(*":
            depth += 1
        elif depth:
            depth -= 1
        else:
            yield found[0], depth


def inside(stack: List[Tuple[str, int]]) -> int:
    """Returns the level of a line inside the innermost block or statement."""
    return next((level + 1 for kind, level in reversed(stack) if kind != "record"), 0)


def after(state: State, token: str) -> State:
    """Returns the state after a token."""
    stack, parens = list(state.stack), state.parens
    if token in ("MODULE", "RECORD"):
        stack.append(("block" if token == "MODULE" else "record", 0))
    elif token in ("PROCEDURE", "IF", "WHILE", "REPEAT"):
        stack.append(("block" if token == "PROCEDURE" else "statement", inside(stack)))
    elif token in ("END", "UNTIL"):
        stack = stack[:-1]
    parens += (token in "([") - (token in ")]")
    is_apart = parens <= 0 and not (stack and stack[-1][0] == "record")
    return State(state.depth, stack, parens, is_apart and token in FRESH)


def states(lines: List[str]) -> Iterator[State]:
    """Yields the state before each line."""
    state = State(0, [], 0, True)
    for line in lines:
        yield state
        for token, depth in tokens(line, state.depth):
            state = after(state, token) if token else state._replace(depth=depth)


def level(state: State, word: str) -> int:
    """Returns the level of a line that begins with this word, if `state` is the state before it."""
    if not state.stack:
        return 0
    kind, outer = state.stack[-1]
    records = sum(it == "record" for it, _ in state.stack)
    if state.parens <= 0 and kind == "block" and word in ("CONST", "TYPE", "VAR", "BEGIN"):
        return outer
    if kind != "record" and word in ("END", "ELSIF", "ELSE", "UNTIL"):
        return outer
    if records:
        return inside(state.stack) + records - (word == "END")
    return inside(state.stack) + (0 if state.fresh or word == "PROCEDURE" else 1)


def first_word(lines: List[str]) -> str:
    """Returns the first token in these lines, or "" if there is none."""
    depth = 0
    for line in lines:
        for token, depth in tokens(line, depth):
            if token:
                return token
    return ""


def levels(text: str) -> List[Tuple[int, bool]]:
    """Returns, for each line, its level and whether it begins inside a comment."""
    lines = text.split("\n")
    found = enumerate(states(lines))
    return [(level(state, first_word(lines[at : at + 51])), state.depth > 0) for at, state in found]


def indented(text: str, are_comments_left: bool) -> str:
    """Returns a text with each line indented by its level. Lines that begin inside a comment stay unchanged if
    `are_comments_left`."""
    found = []
    for line, (depth, is_comment) in zip(text.split("\n"), levels(text)):
        if is_comment and are_comments_left:
            found.append(line)
        else:
            plain = line.lstrip(" \t")
            found.append("  " * depth + plain if plain else "")
    return "\n".join(found)
