"""Makes conversations that imitate an editor while its user types. They come in pairs: the second one does something
`n` more times than the first. So the difference of their costs, divided by `n`, is the cost of doing it once."""
from __future__ import annotations

import random
import re
from collections.abc import Callable, Iterator
from typing import List, Tuple

import corpus
from harness import did_change, did_open, extent, initialize, place, request
from common import match_of
from framing import Message

Longer = Tuple[List[Message], List[Message], int]  # two conversations, and how many repetitions the second one adds
URI = "file:///m"
LITERALS: Message = {"textDocument": {"codeAction": {"codeActionLiteralSupport": {}}}}
MIB = 1 << 20
SIZES = [10000, 100000, MIB - 1000]
LINES_LEFT = (131058, 65100, 32100, 15600, 7350, 3250, 1200, 300, 12)
TYPED = "\n  IF 1 > (0 + 12) * 3 THEN Write(7); WriteLn END;"


def place_of(text: str, at: int) -> tuple[int, int]:
    return text.count("\n", 0, at), at - (text.rfind("\n", 0, at) + 1)


def place_after(text: str, pattern: str) -> tuple[int, int]:
    """Returns the line and column after the first match of `pattern` in the text's second half."""
    middle = len(text) // 2
    return place_of(text, middle + match_of(pattern, text[middle:]).end())


def replaced(line: int, column: int, end: int, new: str, version: int) -> Message:
    return did_change([{"range": extent(f"{line}:{column}-{line}:{end}"), "text": new}], version=version)


def in_and_out(text: str, pattern: str, new: str) -> Longer:
    """Returns a pair of conversations that insert `new` after the first match of `pattern` in the text's second half
    and remove it again. The first makes 2 such changes, the second 6."""
    line, column = place_after(text, pattern)

    def changes(count: int) -> list[Message]:
        return [replaced(line, column, column + at % 2 * len(new), "" if at % 2 else new, 2 + at) for at in range(count)]

    return [did_open(text), *changes(2)], [did_open(text), *changes(6)], 4


def typed(text: str) -> Longer:
    """Returns a pair of conversations. In the second, a statement is typed letter by letter, with three requests after
    each letter, and then removed."""
    line, column = first = place_after(text, r":= [^;\n]*;")
    talk: list[Message] = []
    ident = 10
    for letter in TYPED:
        talk.append(replaced(line, column, column, letter, 2 + len(talk)))
        line, column = (line + 1, 0) if letter == "\n" else (line, column + 1)
        here = place(line, column)
        about = {"textDocument": {"uri": URI}, "position": here}
        action = {"textDocument": {"uri": URI}, "range": {"start": here, "end": here}, "context": {"diagnostics": []}}
        for method, params in (("codeAction", action), ("hover", about), ("definition", about)):
            ident += 1
            talk.append(request(ident, f"textDocument/{method}", params))
    whole = {"start": place(*first), "end": place(line, column)}
    talk.append(did_change([{"range": whole, "text": ""}], version=2 + len(talk)))
    return [did_open(text)], [did_open(text), *talk], len(TYPED)


def with_undeclared_name(text: str) -> str:
    """Returns the text with an assignment to an undeclared name inserted after its first assignment."""
    at = match_of(r":= [^;\n]*;", text).end()
    return f"{text[:at]} Undeclared1 := 1;{text[at:]}"


def with_constants(text: str) -> str:
    """Returns a module of bench/corpus.py with three more constants, and one use of each in its middle."""
    text = text.replace("  base = 7;", "  base = 7; seven = 7; least = -1; on = TRUE;", 1)
    middle = len(text) // 2
    at = middle + match_of(r":= [^;\n]*;", text[middle:]).end()
    return f"{text[:at]} v1 := seven; v1 := least; b4 := on;{text[at:]}"


def query(text: str, method: str, params: Message, times: int = 1) -> Longer:
    """Returns a pair of conversations. The second one sends the same request `times` times more."""
    question = request(5, f"textDocument/{method}", {"textDocument": {"uri": URI}, **params})
    return [did_open(text)], [did_open(text), *[question] * times], times


def action_at(text: str, at: int) -> Longer:
    """Returns a pair of conversations. The second one requests code actions at the offset `at` four times more."""
    here = place(*place_of(text, at))
    return query(text, "codeAction", {"range": {"start": here, "end": here}, "context": {"diagnostics": []}}, 4)


def hover_at(text: str, at: int) -> Longer:
    return query(text, "hover", {"position": place(*place_of(text, at))}, 4)


def rows_of_users(text: str) -> Iterator[tuple[str, Longer]]:
    """Yields named pairs of conversations about the middle of a module of bench/corpus.py: changes at the positions
    where users type, and requests about names that they read."""
    yield "  a statement that is the first of its body", in_and_out(text, r"\n *BEGIN", " v1 := 0;")
    yield "  a statement that is the second of its body", in_and_out(text, r"\n *BEGIN\n *\S+ := [^;\n]*;", " v1 := 0;")
    yield "  a statement that is the last of its body", in_and_out(text, r"[^\s;](?=\n *END p)", "; v1 := 0")
    yield "  a letter in a procedure's name", in_and_out(text, r"\n *PROCEDURE p[0-9]+", "q")
    yield "  a local declaration", in_and_out(text, r"\n +VAR", " q: INTEGER;")
    with_uses = with_constants(text)
    for name, word in (("a number", "seven"), ("a negative number", "least"), ("TRUE", "on")):
        yield f"  code actions on the declaration of {name}", action_at(with_uses, with_uses.index(f" {word} =") + 1)
        yield f"  code actions on a use of {name}", action_at(with_uses, with_uses.index(f":= {word};") + 3)
    middle = len(text) // 2
    yield "  hover on a field", hover_at(text, middle + match_of(r"r[0-9]+\.", text[middle:]).end())
    yield "  hover on a variable", hover_at(text, middle + match_of(r"\n *v(?=[0-9]+ :=)", text[middle:]).end())


def shrinking(count: int, seed: int = 0) -> list[Message]:
    """Returns messages that open eight documents and make `count` changes. Each change replaces the whole text of a
    random document by a text of between 100 bytes and 1 MB."""
    chance = random.Random(seed)
    texts = [corpus.module(int(100 * 10000 ** (it / 15)), it) for it in range(16)]
    uri: Callable[[int], str] = lambda it: f"file:///{it}"
    talk = [did_open(texts[0], uri(it)) for it in range(8)]
    return talk + [did_change(chance.choice(texts), uri(chance.randrange(8)), version) for version in range(2, 2 + count)]


def emptied(uri: str) -> list[Message]:
    """Returns messages that open a document of 1 MiB, most of it line ends, and make one change that leaves 16
    bytes."""
    lines = MIB - 576
    whole = {"range": extent(f"1:0-{lines}:0"), "text": ""}
    return [did_open("MODULE M;" + "\n" * lines + "END M.", uri), did_change([whole], uri)]


def made_smaller(uri: str, first: str = "", last: str = "") -> list[Message]:
    """Returns messages that open a document of 1 MiB and shrink it to 12 lines. Each change leaves less than half as
    many lines as the previous one. `first` is inserted at the top before these changes, and `last` after them."""
    top = "MODULE M; VAR x:INTEGER; BEGIN\n"
    left = LINES_LEFT[0]
    talk = [did_open(top + "x:=x+1;\n" * left + "END M.", uri)]
    changes = [(extent("1:0-1:0"), first)] if first else []
    kept = 1 + first.count("\n")
    for fewer in LINES_LEFT[1:]:
        changes.append((extent(f"{kept}:0-{kept + left - fewer}:0"), ""))
        left = fewer
    if last:
        changes.append((extent("1:0-1:0"), last))
    return talk + [did_change([{"range": where, "text": text}], uri, number) for number, (where, text) in enumerate(changes, 2)]


def rows() -> Iterator[tuple[str, Longer]]:
    """Yields all measurements: a name, and a pair of conversations."""
    for size in SIZES:
        text = corpus.module(size)
        yield f"a module of {size:,} is opened", ([], [did_open(text)], 1)
        yield "  a digit more in a number, or less", in_and_out(text, r":= [^;\n]*[0-9]", "1")
        yield "  a blank more or less", in_and_out(text, r":= [^;\n]*[0-9]", " ")
        yield "  a statement more or less", in_and_out(text, r":= [^;\n]*;", ";")
        yield "  a key typed, with three questions", typed(text)
        yield from rows_of_users(text)
        faulty = with_undeclared_name(text)
        yield "  a digit, with an undeclared name", in_and_out(faulty, r":= [^;\n]*[0-9]", "1")
        yield "  a statement, with an undeclared name", in_and_out(faulty, r":= [^;\n]*;", ";")
    records = corpus.records("variables", 40000)
    yield "hover on a field, after 40,000 variables of records", hover_at(records, records.rindex(".a") + 1)
    yield "a statement, after 20,000 names with one ending", in_and_out(corpus.many(20000, "ending"), "BEGIN [^;]*;", ";")
    uses = corpus.uses(100000, False)
    yield "references, 100,000 places", query(uses, "references", {"context": {"includeDeclaration": True}, "position": place(0, 18)})
    yield "rename, 100,000 places", query(uses, "rename", {"newName": "y", "position": place(0, 18)})
    spread = uses.replace("x", "  x  ")
    yield "formatting, 100,000 places", query(spread, "formatting", {"options": {"tabSize": 2, "insertSpaces": True}})


def conversation(messages: list[Message]) -> list[Message]:
    """Returns the messages of a whole conversation: `initialize`, these messages, `shutdown` and `exit`."""
    return [initialize(**LITERALS), *messages, request(9999, "shutdown"), {"jsonrpc": "2.0", "method": "exit"}]
