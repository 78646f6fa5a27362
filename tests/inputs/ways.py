"""Predicts which parts of an analysis can be reused after a change, according to the table of docs/ARCHITECTURE.md
("How an analysis is kept"). Everything, if all tokens are written as before. The tree or the refusal, if all tokens
have the same kinds as before, and then all bodies except one if the change lies in that one. Everything else, if only
the statements of one body were replaced, even if texts without a tree lie between. Otherwise, if the text has a tree,
all its names are bound and all its types are checked."""
from __future__ import annotations

from typing import List, NamedTuple, Optional

from harness import Message
from reference.parser import Node, Parser, Refused
from reference.scanner import Token, scan

WORDS, BODY, REFUSED, STATEMENTS = "written as before", "in one body", "refused alike", "other statements in one body"
MENDED = "mended in one body"
DECLARATIONS, TOKENS = "not in one body", "another module"
PARSED, LEXEMES = "refused at other tokens", "faults of lexemes"
SHORT = (WORDS, BODY, REFUSED, STATEMENTS, MENDED)
LONG = (DECLARATIONS, TOKENS)


class Lexed(NamedTuple):
    """A text without lexical faults, and its tokens."""

    text: str
    tokens: List[Token]


class Body(NamedTuple):
    """The offsets in a text at which the statements of a block begin and end."""

    start: int
    end: int


def lexed(text: str) -> Optional[Lexed]:
    """Returns a text with its tokens, or None if it has a lexical fault."""
    tokens, faults = scan(text)
    return None if faults else Lexed(text, [it for it in tokens if it.kind not in ("comment", "end")])


def bodies(node: Node) -> list[Body]:
    """Returns the bodies of a block and of all procedures in it. A body extends from BEGIN to the name after END."""
    found = [it for procedure in node.procedures for it in bodies(procedure)]
    begin = [it for it in node.words if it.kind == "BEGIN"]
    return found + [Body(it.end, node.closing.start) for it in begin]


def tree_of(text: Lexed) -> Optional[Node]:
    """Returns the syntax tree of a text, or None if the parser refuses it."""
    try:
        return Parser(text.text, scan(text.text)[0]).module()
    except Refused:
        return None


def is_module(text: str) -> bool:
    """Returns whether a text can be parsed as a module."""
    found = lexed(text)
    return found is not None and tree_of(found) is not None


def changed_body(old: Lexed, new: Lexed) -> tuple[str, Optional[Body]]:
    """Classifies a change that leaves the kind of every token unchanged, as REFUSED, BODY or DECLARATIONS. Returns
    that, and for BODY the changed body of the new text, otherwise None."""
    tree = tree_of(new)
    if tree is None:
        return REFUSED, None
    different = [at for at, (one, other) in enumerate(zip(old.tokens, new.tokens)) if one.text != other.text]
    first, last = new.tokens[different[0]].start, new.tokens[different[-1]].end
    inside = [it for it in bodies(tree) if it.start <= first and last <= it.end]
    return (BODY, inside[0]) if inside else (DECLARATIONS, None)


def common(one: List[Token], other: List[Token]) -> int:
    """Returns how many tokens two lists have in common at the beginning."""
    count = 0
    while count < min(len(one), len(other)) and (one[count].kind, one[count].text) == (other[count].kind, other[count].text):
        count += 1
    return count


def is_inside(text: Lexed, body: Body, first: int, end: int) -> bool:
    """Returns whether the tokens with indexes from `first` up to, not including, `end` lie between the body's first
    identifier and its END."""
    inside = [at for at, it in enumerate(text.tokens) if body.start <= it.start and it.end <= body.end]
    names = [at for at in inside if text.tokens[at].kind == "ident"]
    return bool(names) and names[0] < first and end <= inside[-1]


def different(old: Lexed, new: Lexed) -> tuple[int, int]:
    """Returns how many tokens two texts have in common at the beginning, and how many of the remaining ones at the
    end."""
    first = common(old.tokens, new.tokens)
    return first, min(common(old.tokens[::-1], new.tokens[::-1]), len(old.tokens) - first, len(new.tokens) - first)


def is_in_one_body(text: Lexed, other: Lexed) -> bool:
    """Returns whether a text is a module that differs from another text only in the statements of one body."""
    tree = tree_of(text)
    first, following = different(text, other)
    return tree is not None and any(is_inside(text, body, first, len(text.tokens) - following) for body in bodies(tree))


def are_statements(old: Lexed, new: Lexed) -> bool:
    """Returns whether both texts are modules that differ only in the statements of one body."""
    return is_in_one_body(old, new) and is_in_one_body(new, old)


def last_module(module: Optional[Lexed], new: Optional[Lexed]) -> Optional[Lexed]:
    """Returns the last text that was a module. Returns None if a later change wasn't in one body of it."""
    if new is None or tree_of(new) is not None:
        return new or module
    return module if module is not None and is_in_one_body(module, new) else None


def way_of(old: Optional[Lexed], new: Optional[Lexed], module: Optional[Lexed]) -> tuple[str, Optional[Body]]:
    """Returns the kind of a change (one of the constants above), and the changed body of the new text if the kind is
    BODY, otherwise None. `old` is the last text without lexical faults, and `module` the last one that was a module."""
    if old is None or new is None:
        return LEXEMES, None
    if [it.kind for it in old.tokens] != [it.kind for it in new.tokens]:
        if are_statements(old, new):
            return STATEMENTS, None
        if module is not None and module is not old and are_statements(module, new):
            return MENDED, None
        return (PARSED if tree_of(new) is None else TOKENS), None
    if [it.text for it in old.tokens] == [it.text for it in new.tokens]:
        return WORDS, None
    return changed_body(old, new)


NAMES = ("Duplicate", "Undeclared", "EndName")


def faults_about(published: list[Message], text: str, body: Body) -> set[str]:
    """Returns the kinds of a module's errors, such as 'names before it': errors about names or about types, before,
    in or after a body."""
    starts = [0]
    for line in text.splitlines(keepends=True):
        starts.append(starts[-1] + len(line))
    found = set()
    for it in published:
        start = it["range"]["start"]
        at = starts[min(start["line"], len(starts) - 1)] + start["character"]
        where = "before it" if at < body.start else "in it" if at < body.end else "after it"
        found.add(f"{'names' if it['code'] in NAMES else 'types'} {where}")
    return found
