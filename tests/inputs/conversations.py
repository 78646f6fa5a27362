"""Contains conversations and commands that are run with failing allocations and devices, each with its input and
file."""
from __future__ import annotations

from typing import Any, NamedTuple

import corpus
from first_conversation import INPUT
from harness import EXIT, SHUTDOWN, Content, Message, did_change, did_close, did_open, extent, frames, initialize, notice, place, request
from modules import COUNTS, DIVIDES, FAULTY, LEAST, WRITES_A_GLOBAL


DOCUMENT: Message = {"uri": "file:///m"}
LITERALS: Message = {"textDocument": {"codeAction": {"codeActionLiteralSupport": {}}}}


def query(ident: int, method: str, line: int, character: int, **params: Any) -> Message:
    given: Message = {"position": place(line, character), "textDocument": DOCUMENT, **params}
    return request(ident, f"textDocument/{method}", given)


def acted(ident: int, line: int, character: int) -> Message:
    where = {"end": place(line, character), "start": place(line, character)}
    return request(ident, "textDocument/codeAction", {"context": {}, "range": where, "textDocument": DOCUMENT})


def laid_out(ident: int) -> Message:
    return request(ident, "textDocument/formatting", {"options": {"insertSpaces": True, "tabSize": 2}, "textDocument": DOCUMENT})


def talk(*contents: Content, **capabilities: Any) -> bytes:
    """Returns the bytes of a conversation: `initialize`, these messages, `shutdown` and `exit`."""
    return frames([initialize(**capabilities), *contents, {**SHUTDOWN, "id": 99}, EXIT])


ON_ONE_LINE = "MODULE M;VAR x:INTEGER;BEGIN x:=-1;IF x<0 THEN Write(x)(* a (* b *) c *)END;WriteLn END M.(* end *)"
LINE_ENDINGS = [
    {"range": extent("1:0-1:0"), "text": "\n"},
    {"range": extent("1:1-1:1"), "text": "\nc"},
    {"range": extent("2:0-2:1"), "text": "d"},
]
MANY = "MODULE M; VAR v0" + "".join(f",v{at}" for at in range(1, 200)) + ": INTEGER; BEGIN" + "".join(
    f" v{at} := v{at + 1};" for at in range(199)
) + " WriteLn END M."


def about(uri: str, message: Message) -> Message:
    """Returns a copy of a message that is about another document."""
    document = {**message["params"]["textDocument"], "uri": uri}
    return {**message, "params": {**message["params"], "textDocument": document}}


# (its text and its table of lines give memory back when all lines but one go)
MANY_LINES = "MODULE M; BEGIN WriteLn" + "\n" * 10_000 + "END M."

# (five such texts are more than the session keeps analyses of)
COMMENT = "(*" + "x" * 900_000 + "*)\n"
KEPT = [f"file:///{it}" for it in "abcde"]


def several_documents() -> bytes:
    """Returns a conversation about so many documents that the server drops some analyses and makes them again."""
    opened = [about(it, did_open(COMMENT + LEAST)) for it in KEPT]
    queried = [about(it, query(10 + at, "hover", 4, 15)) for at, it in enumerate(KEPT + KEPT[:1])]
    changed = [about(it, did_change([{"range": extent("4:0-4:0"), "text": new}], version=2)) for it, new in zip(KEPT, (" ", "$", "1"))]
    again = [about(it, query(20 + at, "definition", 4, 16)) for at, it in enumerate(KEPT)]
    closed = [about(KEPT[0], did_close()), about(KEPT[0], query(30, "hover", 4, 15)), about(KEPT[0], did_open(LEAST))]
    return talk(*opened, *queried, *changed, *again, *closed, about(KEPT[0], query(31, "hover", 3, 15)))


BYTE_BY_BYTE = 1 << 40  # (the call that fails: there are never that many)


class Case(NamedTuple):
    """A command: its arguments, its standard input, and the content of the file m.mod (None if there is no such file).
    `reads` is the number of the read that fails if each read returns one byte."""

    words: list[str]
    given: bytes
    text: str | bytes | None
    reads: int | None = None


SHORT = {
    "the first conversation": Case(["serve"], INPUT, None),
    "the first conversation, read byte by byte": Case(["serve"], INPUT, None, BYTE_BY_BYTE),
    "a change that joins line endings": Case(["serve"], talk(did_open("a\rb"), did_change(LINE_ENDINGS)), None),
    "a check of a module": Case(["check", "m.mod"], b"", COUNTS),
    "a check of a text with two errors": Case(["check", "m.mod"], b"", "12ab $"),
    "a run of a module": Case(["run", "m.mod"], b"2", COUNTS),
    "a run that ends with a fault": Case(["run", "m.mod"], b"", DIVIDES),
    "a rename of a variable": Case(["rename", "m.mod", "1", "4", "k"], b"", COUNTS),
    "a refused rename": Case(["rename", "m.mod", "1", "4", "P"], b"", COUNTS),
}
LONG = {
    "faults of every kind, changed": Case(
        ["serve"],
        talk(
            did_open(FAULTY),
            did_change([{"range": extent("4:0-4:0"), "text": "$ "}]),
            did_change([], version=3),
            did_change([{"range": extent("1:0-4:0"), "text": ""}], version=4),
            notice("textDocument/didChange", {"textDocument": {**DOCUMENT, "version": 5}}),
            query(3, "hover", 0, 0),
            did_close(),
            query(4, "hover", 0, 0),
            "[]",
            "x",
            request(5, "x"),
            request(6, "textDocument/rename", {}),
        ),
        None,
    ),
    "questions about names": Case(
        ["serve"],
        talk(
            did_open(WRITES_A_GLOBAL),
            query(3, "hover", 4, 10),
            query(4, "definition", 5, 9),
            query(5, "references", 4, 10, context={"includeDeclaration": True}),
            query(6, "prepareRename", 4, 10),
            query(7, "rename", 4, 10, newName="Q"),
            query(8, "rename", 4, 10, newName="P"),
        ),
        None,
    ),
    "a name edited, with the version": Case(
        ["serve"],
        talk(did_open(WRITES_A_GLOBAL, version=-7), query(3, "rename", 4, 10, newName="B"), workspace={"workspaceEdit": {"documentChanges": True}}),
        None,
    ),
    "positions in bytes": Case(
        ["serve"],
        talk(did_open("a\r\n(* 😀 *) $"), did_change([{"range": extent("1:11-1:12"), "text": "$$"}]), general={"positionEncodings": ["utf-8"]}),
        None,
    ),
    "five documents, whose analyses are kept, dropped and made again": Case(["serve"], several_documents(), None),
    "a document made smaller": Case(
        ["serve"],
        talk(did_open(MANY_LINES), did_change([{"range": extent("1:0-10000:0"), "text": ""}]), query(3, "hover", 0, 7)),
        None,
    ),
    "a constant inlined": Case(["serve"], talk(did_open(LEAST), acted(3, 3, 15), acted(4, 1, 6), **LITERALS), None),
    "a layout": Case(["serve"], talk(did_open(ON_ONE_LINE), laid_out(3)), None),
    "200 variables, renamed and formatted": Case(
        ["serve"],
        talk(did_open(MANY), query(3, "rename", 0, 14, newName="w"), laid_out(4), **LITERALS),
        None,
    ),
    "a check of a module of 5,000 bytes": Case(["check", "m.mod"], b"", corpus.module(5000)),
    "a check of a text that is too long": Case(["check", "m.mod"], b"", "$" * 1048577),
    "a check of an ill-typed module": Case(["check", "m.mod"], b"", FAULTY),
    "a check of a missing file": Case(["check", "none.mod"], b"", COUNTS),
    "a check of a text that isn't UTF-8": Case(["check", "m.mod"], b"", b"MODULE \xff"),
    "a run on bad input": Case(["run", "m.mod"], b"1 x", COUNTS),
    "a run with too little input": Case(["run", "m.mod"], b"", COUNTS),
    "a run with many calls": Case(["run", "m.mod", "--calls", "3"], b"", WRITES_A_GLOBAL),
    "a rename in 200 variables": Case(["rename", "m.mod", "0", "14", "w"], b"", MANY),
    "a refused command line": Case(["check", "m.mod", "x"], b"", COUNTS),
    "help": Case(["--help"], b"", None),
}
