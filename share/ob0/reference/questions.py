"""Answers questions about an identifier, according to docs/PROTOCOL.md and docs/LANGUAGE.md: its hover text, its
declaration and all its uses."""
from __future__ import annotations


from reference.names import Declared
from reference.scanner import Token
from reference.text import Span, Text
from reference.types import BOOLEAN, INTEGER, Type


def type_text(type_: Type | None) -> str:
    assert type_  # (in a well-typed module)
    if type_ in (INTEGER, BOOLEAN):
        return "INTEGER" if type_ is INTEGER else "BOOLEAN"
    if type_.form == "array":
        return f"ARRAY {type_.length} OF {type_text(type_.element)}"
    return f"RECORD with {len(type_.fields)} fields"


def name_text(name: str, declared: Declared) -> str:
    if declared.is_predeclared:
        return f"predeclared {name}"
    if declared.kind == "const":
        return f"CONST {name} = {str(declared.value).upper()}"
    if declared.kind == "type":
        return f"TYPE {name} = {type_text(declared.type)}"
    if declared.kind == "var":
        return f"VAR {name}: {type_text(declared.type)}"
    formals = declared.node.formals if declared.node else []
    names = [it for _, names, _ in formals for it in names]
    listed = [f"{'VAR ' if by_place else ''}{it.text}: {type_text(type_)}" for (by_place, type_), it in zip(declared.formals, names)]
    return f"PROCEDURE {name}({'; '.join(listed)})"


def on(token: Token, at: int) -> bool:
    return token.start <= at <= token.end


def span(token: Token) -> Span:
    return token.start, token.end


def at_place(found: Text, at: int) -> tuple[Span, str, Span | None, list[Span]] | None:
    """Returns four facts about the name or field at an offset of a well-typed text: its span, its hover text, the span
    of its declaration (None if it is predeclared), and the spans of all its occurrences. Returns None if there is no
    name or field."""
    for token, declared in found.bound.items():
        if on(token, at):
            at_declaration = span(declared.token) if declared.token else None
            return span(token), name_text(token.text, declared), at_declaration, found.places(declared)
    for token, declaring, record in found.fields:
        if on(token, at):
            type_ = next(it for _, it, name in record.fields if name is declaring)
            places = sorted(span(it) for it, other, _ in found.fields if other is declaring)
            return span(token), f"FIELD {token.text}: {type_text(type_)}", span(declaring), places
    return None
