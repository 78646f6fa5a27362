"""Generates the largest accepted inputs: texts of 1 MiB, long lists of errors, of changes and of messages, and many
documents. Each can be made in any size, so that bench/run.py can measure how its cost grows."""
from __future__ import annotations

from collections.abc import Callable
from typing import List, Tuple

import corpus
from harness import EXIT, MESSAGES, SHUTDOWN, Content, Message, answer, capabilities, did_change, did_open, error, extent, frames, initialize
from harness import diagnostic, place, published, request


Talk = Tuple[List[Content], List[str]]  # messages, and what is sent for them
MIB = 1 << 20
NO_MESSAGE = error(None, -32600, "not a message")
FIRST, LAST = answer(1, {"capabilities": capabilities()}), answer(2, None)


def filled(before: str, middle: str, after: str = "") -> Callable[[int], str]:
    """Returns a function that makes a text of a given size: `before`, as many copies of `middle` as fit, `after`, and
    spaces up to the size."""
    return lambda size: (before + middle * ((size - len(before) - len(after)) // len(middle)) + after).ljust(size)


def nested_comments(size: int) -> str:
    depth = (size - len("MODULE M;  END M.")) // 4
    return ("MODULE M; " + "(*" * depth + "*)" * depth + " END M.").ljust(size)


def long_name(size: int) -> str:
    name = "a" * ((size - len("MODULE ; END .")) // 2)
    return f"MODULE {name}; END {name}.".ljust(size)


def faults(code: str, first: int, apart: int, length: int = 1) -> Callable[[int], list[Message]]:
    """Returns a function that ignores the size it is given and returns the expected diagnostics: 100 errors on one
    line, `apart` columns apart."""
    starts = range(first, first + 100 * apart, apart)
    return lambda size: [diagnostic(code, MESSAGES[code], f"0:{at}-0:{at + length}") for at in starts]


def one(code: str, where: str, message: str | None = None) -> Callable[[int], list[Message]]:
    return lambda size: [diagnostic(code, message or MESSAGES[code], where.format(size=size))]


def none(_size: int) -> list[Message]:
    return []


# name after the size: the size, the text of a size, its diagnostics
TEXTS = {
    "bytes of text: semicolons in a module": (MIB, filled("MODULE M; BEGIN", ";", " END M."), none),
    "bytes of text: only semicolons": (MIB, filled("", ";"), one("Syntax", "0:0-0:1", "expected MODULE")),
    "bytes of text: opening parentheses": (MIB, filled("MODULE M; VAR x: INTEGER; BEGIN x := ", "("), one("TooDeep", "0:137-0:138")),
    "bytes of text: nested comments": (MIB, nested_comments, none),
    "bytes of text: comments that aren't closed": (MIB, filled("", "(*"), one("OpenComment", "0:0-0:2")),
    "bytes of text: empty fields of a record": (MIB, filled("MODULE M; VAR r: RECORD ", ";", " END; END M."), none),
    "bytes of text: a record without its END": (MIB, filled("MODULE M; VAR r: RECORD ", ";"), one("Syntax", "0:{size}-0:{size}", "expected END")),
    "bytes of text: a module with a long name": (MIB, long_name, none),
    "bytes of text: leading zeros of a number": (MIB, filled("MODULE M; CONST c = ", "0", "1; END M."), none),
    "bytes of text: digits of a number that is too large": (MIB, filled("", "7"), one("NumberTooLarge", "0:0-0:{size}")),
    "declarations of one name": (170000, lambda size: "MODULE M; VAR x" + ",x" * (size - 1) + ": INTEGER; END M.", faults("Duplicate", 16, 2)),
    "bad characters": (100000, lambda size: "$" * size, faults("BadChar", 0, 1)),
    "bytes of text: a comment and then bad characters": (MIB, lambda size: ("(*" + " " * (size - 104) + "*)").ljust(size - 100) + "$" * 100, lambda size: faults("BadChar", size - 100, 1)(size)),
    "uses of an undeclared name": (100000, lambda size: "MODULE M; BEGIN " + "a:=1;" * size + " END M.", faults("Undeclared", 16, 5)),
    "assignments of a wrong type": (60000, lambda size: "MODULE M; VAR b: BOOLEAN; BEGIN " + "b:=1;" * size + " END M.", faults("TypeMismatch", 35, 5)),
}


def opened(count: int) -> Talk:
    text = corpus.module(10000)
    return [did_open(text, uri=f"file:///{at}") for at in range(count)], [published([], uri=f"file:///{at}") for at in range(count)]


def changed_in_one_note(count: int) -> Talk:
    blank = {"range": extent("0:9-0:9"), "text": " "}
    return [did_open("MODULE M; END M."), did_change([blank] * count)], [published([]), published([], version=2)]


def whole_texts_in_one_note(count: int) -> Talk:
    text = corpus.module(MIB // 2)
    return [did_open("$"), did_change([{"text": text}] * count)], [published([diagnostic("BadChar", "bad character", "0:0-0:1")]), published([], version=2)]


def queries_at_once(count: int) -> Talk:
    hover: Callable[[int], Message] = lambda at: request(at + 9, "textDocument/hover", {"position": place(0, 0), "textDocument": {"uri": "file:///m"}})
    return [hover(at) for at in range(count)], [error(at + 9, -32803, "unopened") for at in range(count)]


def blanks_in_a_message(size: int) -> Talk:
    return [b"[" + b" " * (size - 2) + b"]"], [NO_MESSAGE]


def objects_in_a_message(size: int) -> Talk:
    return [b"[" + b"{}," * ((size - 4) // 3) + b"{}]"], [NO_MESSAGE]


def text_in_a_message(size: int) -> Talk:
    opening = did_open("")
    opening["params"]["textDocument"]["text"] = "$" * (size - len(frames([opening])) + len(b"Content-Length: 000\r\n\r\n"))
    return [opening], [published([diagnostic("TooLong", "text too long", "0:0-0:0")])]


# name after the size: the size, the messages of a size, what is sent for them
TALKS = {
    "open documents of 10,000 bytes": (1000, opened),
    "changes in one notification": (10000, changed_in_one_note),
    "texts of 0.5 MiB in one notification": (30, whole_texts_in_one_note),
    "requests that are sent at once": (10000, queries_at_once),
    "bytes in one message: blanks in an array": (16777216, blanks_in_a_message),
    "bytes in one message: empty objects in an array": (16777216, objects_in_a_message),
    "bytes in one message: a text that is too long": (16777216, text_in_a_message),
}


def of_text(make: Callable[[int], str], wanted: Callable[[int], list[Message]]) -> Callable[[int], Talk]:
    return lambda size: ([did_open(make(size))], [published(wanted(size))])


CASES = {
    **{name: (size, of_text(make, wanted)) for name, (size, make, wanted) in TEXTS.items()},
    **TALKS,
}


def conversation(make: Callable[[int], Talk], size: int) -> tuple[bytes, list[str]]:
    """Returns the bytes of a conversation of a given size, and the messages that the server must send."""
    messages, wanted = make(size)
    return frames([initialize(), *messages, SHUTDOWN, EXIT]), [FIRST, *wanted, LAST]
