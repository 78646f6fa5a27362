"""Computes the edits of renaming and inlining, according to docs/PROTOCOL.md and docs/LANGUAGE.md. An edit is a triple
of a start, an end and the new text. A refusal is a pair of its name and the range that it mentions, or None."""
from __future__ import annotations

import re
from collections.abc import Iterable
from typing import NamedTuple, Optional, Tuple

from reference.names import Declared
from reference.scanner import LIMIT, WORDS, Token
from reference.text import Span, Text
from reference.types import Type
from reference.values import Value

Edit = Tuple[int, int, str]
Refusal = Tuple[str, Optional[Span]]


class Meant(NamedTuple):
    """The thing that an identifier refers to. For a name: the identifier's token and its declaration. For a field: the
    token that declares the field, and its record type."""

    token: Token
    declared: Declared | None
    record: Type | None


def patched(text: str, edits: Iterable[Edit]) -> str:
    for start, end, new in sorted(edits, reverse=True):
        text = text[:start] + new + text[end:]
    return text


def at_place(found: Text, at: int) -> Meant | None:
    """Returns the thing that the identifier at an offset refers to, or None if there is no identifier."""
    for token, declared in found.bound.items():
        if token.start <= at <= token.end:
            return Meant(token, declared, None)
    for token, declaring, record in found.fields:
        if token.start <= at <= token.end:
            return Meant(declaring, None, record)
    return None


def bindings(found: Text) -> list[int | str]:
    """Returns, for each bound identifier in order, the index in this list of its declaration, or the name if it is
    predeclared."""
    names = sorted(found.bound.items(), key=lambda it: it[0].start)
    index = {declared: at for at, (token, declared) in enumerate(names) if declared.token is token}
    return [index.get(declared, declared.name) for _, declared in names]


def rename(text: str, at: int, new: str) -> list[Edit] | Refusal:
    """Returns the edits that rename the identifier at an offset of a well-typed text, or the refusal."""
    found = Text(text)
    meant = at_place(found, at)
    if not meant:
        return "NoName", None
    token, declared, record = meant
    if declared and declared.is_predeclared:
        return "Predeclared", None
    if not re.fullmatch(r"[A-Za-z][A-Za-z0-9]*", new) or new in WORDS:
        return "BadName", None
    if new == token.text:
        return []
    if declared:
        other = declared.block[new].token if new in declared.block else None
        places = found.places(declared)
    else:
        other = next((it for name, _, it in record.fields if name == new), None) if record else None
        places = [(it.start, it.end) for it, declaring, _ in found.fields if declaring is token]
    if other:
        return "Duplicate", (other.start, other.end)
    edits = [(start, end, new) for start, end in sorted(places)]
    after = patched(text, edits)
    if declared:
        # (a text over the limit has no tree, so names are looked up in the text without its last spaces)
        changed = Text(after.rstrip())
        names = sorted(found.bound.items(), key=lambda it: it[0].start)
        for before, now, (token, _) in zip(bindings(found), bindings(changed), names):
            if before != now:
                return "Captures", (token.start, token.end)
    return ("TooLong", None) if len(after.encode()) > LIMIT else edits


def literal(value: Value) -> str:
    if isinstance(value, bool):
        return "TRUE" if value else "FALSE"
    return str(value) if value >= 0 else "(-2147483647 - 1)" if value == -2147483648 else f"({value})"


def inline(text: str, at: int, everywhere: bool) -> list[Edit] | Refusal:
    """Returns the edits that replace one use of a constant by its value (or all uses, and its declaration, if
    `everywhere`), or the refusal."""
    found = Text(text)
    meant = at_place(found, at)
    of = meant.declared if meant else None
    if not meant or not of or of.kind != "const" or not of.token or of.value is None:
        return "NoName", None
    if not everywhere and meant.token is of.token:
        return "NoName", None
    written = literal(of.value)
    uses = [it for it, declared in found.bound.items() if declared is of and it is not of.token] if everywhere else [meant.token]
    uses.sort(key=lambda it: it.start)
    edits = [(it.start, it.end, written) for it in uses]
    semicolon = of.token
    if everywhere:
        rest = [it for it in found.lexemes if it.start > of.token.start]
        semicolon = next(it for it in rest if it.kind == ";")
        edits.insert(0, (of.token.start, semicolon.end, ""))
    after = patched(text, edits)
    if len(after.encode()) > LIMIT:
        return "TooLong", None
    if any(code == "TooDeep" for code, *_ in Text(after).faults):
        return "TooDeep", None
    if isinstance(of.value, bool):
        for use in uses:
            placed = Text(patched(text, [(use.start, use.end, written)]))
            bound = next(declared for name, declared in placed.bound.items() if name.start == use.start)
            if not bound.is_predeclared:
                return "Shadowed", None
    if everywhere and any(it.kind == "comment" and of.token.start < it.start < semicolon.start for it in found.lexemes):
        return "CommentInside", None
    return edits
