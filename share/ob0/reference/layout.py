"""Computes the edits that format a module, according to docs/LANGUAGE.md."""
from __future__ import annotations

from reference.edits import Edit
from reference.parser import Node
from reference.scanner import Token
from reference.text import Text


def levels(module: Node) -> dict[Token, int]:
    """Returns the tokens that begin a line in a formatted module, each with the line's level."""
    found = {module.first: 0}

    def block(node: Node, level: int) -> None:
        for it in node.words:
            found[it] = level
        for name, _ in (*node.constants, *node.types):
            found[name] = level + 1
        for names, _ in node.variables:
            found[names[0]] = level + 1
        for inner in node.procedures:
            found[inner.first] = level + 1
            block(inner, level + 1)
        body(node.body, level + 1)

    def body(statements: list[Node], level: int) -> None:
        for statement in statements:
            found[statement.first] = level
            for word in getattr(statement, "words", ()):
                found[word] = level
            for _, inner in getattr(statement, "parts", ()):
                body(inner, level + 1)
            body(getattr(statement, "other", []), level + 1)
            body(getattr(statement, "body", []), level + 1)

    block(module, 0)
    return found


def layout(text: str, indent: str) -> list[Edit]:
    """Returns the edits that format a well-typed text. Each edit replaces the whole white space between two lexemes."""
    found = Text(text)
    begins, parser = levels(found.module), found.parser
    lexemes = found.lexemes
    edits: list[Edit] = []

    def starts(level: int) -> str:
        return "\n" + indent * level

    def level_at(place: int) -> int:
        """Returns the level of the line that contains the first token at or after this index of the list of lexemes."""
        token = next((it for it in lexemes[place:] if it.kind != "comment"), None)
        if token is None:
            return 0
        return begins[max((it for it in begins if it.start <= token.start), key=lambda it: it.start)]

    def gap(place: int, old: str) -> str:
        before, after = lexemes[place - 1], lexemes[place]
        if after.kind == "comment":
            return starts(level_at(place)) if "\n" in old or "\r" in old else " "
        if after in begins:
            return starts(begins[after])
        if before.kind == "comment":
            return " "
        if after.kind in (";", ",", ":", ".", ")", "]", "[") or after in parser.opening:
            return ""
        if before.kind in ("(", "[", "~", ".") or before in parser.signs:
            return ""
        return " "

    ends = [0, *(it.end for it in lexemes)]
    for place in range(len(lexemes) + 1):
        start, end = ends[place], lexemes[place].start if place < len(lexemes) else len(text)
        old = text[start:end]
        new = "" if place == 0 else "\n" if place == len(lexemes) else gap(place, old)
        if new != old:
            edits.append((start, end, new))
    return edits
