"""Tests what the server publishes when documents are opened, changed and closed: versions, and lexical errors."""
from __future__ import annotations

import json
from typing import Any

from harness import Content, Message, answer, did_change, did_close, did_open, error, holds, initialize, notice, place, published, request, same, serve
from harness import Server, capabilities, diagnostic, extent, frames, test

FIRST = answer(1, {"capabilities": capabilities()})
MODULE = "MODULE M; VAR x: INTEGER; END M."
LIMIT = 1048576


def of(text: str, **named: Any) -> list[Message]:
    """Opens a text, and returns the diagnostics that are published."""
    with Server() as server:
        return server.notify(did_open(text, **named))


def talk(*contents: Content) -> list[str]:
    """Sends `initialize` and these messages, and ends the input without `exit`. Requires status 1, and returns the
    server's messages after its first answer."""
    found = serve([initialize(), *contents])
    same((found.err, found.status), (b"", 1), "the end")
    same(found.contents()[0], FIRST, "the first answer")
    return found.contents()[1:]


@test("documents: the diagnostics of the text `12ab $` are published with exactly the expected bytes")
def two_faults() -> None:
    found = serve([initialize(), did_open("12ab $")])
    wanted = (
        b'Content-Length: 397\r\n\r\n{"jsonrpc":"2.0","method":"textDocument/publishDiagnostics","params":'
        b'{"diagnostics":[{"code":"NumberJoinsLetter","message":"letter after number","range":{"end":{"character":4,'
        b'"line":0},"start":{"character":0,"line":0}},"severity":1},{"code":"BadChar","message":"bad character",'
        b'"range":{"end":{"character":6,"line":0},"start":{"character":5,"line":0}},"severity":1}],'
        b'"uri":"file:///m","version":1}}'
    )
    same(found.out, frames([FIRST]) + wanted, "the output")


# each text with its expected diagnostics
FAULTS = {
    "(* (* *)": [diagnostic("OpenComment", "comment not closed", "0:0-0:2")],
    "x (* (* *) (*": [diagnostic("OpenComment", "comment not closed", "0:2-0:4")],
    "$ (*": [diagnostic("BadChar", "bad character", "0:0-0:1"), diagnostic("OpenComment", "comment not closed", "0:2-0:4")],
    "(* $": [diagnostic("OpenComment", "comment not closed", "0:0-0:2")],
    "(*)": [diagnostic("OpenComment", "comment not closed", "0:0-0:2")],
    "2147483648": [diagnostic("NumberTooLarge", "number too large", "0:0-0:10")],
    "0002147483648": [diagnostic("NumberTooLarge", "number too large", "0:0-0:13")],
    "99999999999999999999999x 1a2b": [
        diagnostic("NumberJoinsLetter", "letter after number", "0:0-0:24"),
        diagnostic("NumberJoinsLetter", "letter after number", "0:25-0:29"),
    ],
    "0FH": [diagnostic("NumberJoinsLetter", "letter after number", "0:0-0:3")],
    "a_b": [diagnostic("BadChar", "bad character", "0:1-0:2")],
    "é": [diagnostic("BadChar", "bad character", "0:0-0:1")],
    "😀$": [diagnostic("BadChar", "bad character", "0:0-0:2"), diagnostic("BadChar", "bad character", "0:2-0:3")],
    "\ufeff": [diagnostic("BadChar", "bad character", "0:0-0:1")],
    "\u00a0\u2028\v\f\0": [diagnostic("BadChar", "bad character", f"0:{at}-0:{at + 1}") for at in range(5)],
    "a\r\n(* 😀 *) $": [diagnostic("BadChar", "bad character", "1:9-1:10")],
    "\n\r\r\n$\n$": [diagnostic("BadChar", "bad character", "3:0-3:1"), diagnostic("BadChar", "bad character", "4:0-4:1")],
    "(* \r\n \n \r *) !": [diagnostic("BadChar", "bad character", "3:4-3:5")],
    "\"'": [diagnostic("BadChar", "bad character", "0:0-0:1"), diagnostic("BadChar", "bad character", "0:1-0:2")],
}


@test("documents: each lexical error is published with its code, and with its range in UTF-16 units")
def faults() -> None:
    with Server() as server:
        for version, (text, wanted) in enumerate(FAULTS.items()):
            same(server.notify(did_open(text, version=version)), wanted, repr(text))


@test("documents: valid modules with nested comments, tabs and large numbers get no diagnostics")
def good() -> None:
    texts = [
        MODULE,
        "MODULE M; CONST c = 2147483647; d = 000000000002147483647; END M.",
        "MODULE M; (* (* *) (* 😀 $ 12ab *) *) END M. (**)",
        "(***)MODULE M;\tEND\r\nM\n.\r",
        "MODULE M; VAR a: ARRAY 2 OF INTEGER; b: BOOLEAN; BEGIN a[0] := -(1 + 2); b := ~(1 <= 2) & (3 >= 2) OR FALSE END M.",
    ]
    with Server() as server:
        for text in texts:
            same(server.notify(did_open(text)), [], text)


@test("documents: only the first 100 errors of a text with 1,001 errors are published")
def many_faults() -> None:
    same(len(of("$" * 100)), 100, "of 100 faults")
    found = of("$" * 1000 + "(*")
    same(found, [diagnostic("BadChar", "bad character", f"0:{at}-0:{at + 1}") for at in range(100)], "of 1,001 faults")


@test("documents: a text of 1,048,576 bytes is accepted, and a longer text is reported as too long")
def lengths() -> None:
    too_long = [diagnostic("TooLong", "text too long", "0:0-0:0")]
    with Server() as server:
        same(server.notify(did_open(MODULE.ljust(LIMIT))), [], "at the limit")
        same(server.notify(did_open(MODULE.ljust(LIMIT + 1))), too_long, "over the limit")
        same(server.notify(did_open("$" * (LIMIT + 1))), too_long, "other faults over the limit")
        same(server.notify(did_open("é" * (LIMIT // 2 + 1))), too_long, "over the limit in bytes, but not in characters")


@test("documents: a change of the whole text publishes the new text's diagnostics, with the change's version")
def whole() -> None:
    found = talk(did_open("$"), did_change(MODULE, version=7), did_change("$", version=-8))
    bad = diagnostic("BadChar", "bad character", "0:0-0:1")
    same(found, [published([bad]), published([], version=7), published([bad], version=-8)])


@test("documents: if a notification contains two changes of the whole text, the document has the second text")
def two_changes() -> None:
    same(talk(did_open("$"), did_change([{"text": "$$"}, {"text": MODULE}]))[1:], [published([], version=2)])


@test("documents: a didChange with an empty list of changes sets the version and keeps the text")
def no_change() -> None:
    same(talk(did_open("$"), did_change([], version=5))[1:], [published([diagnostic("BadChar", "bad character", "0:0-0:1")], version=5)])


@test("documents: after a malformed didChange nothing is published about the document until its full text is sent")
def out_of_step() -> None:
    broken = notice("textDocument/didChange", {"textDocument": {"uri": "file:///m", "version": 2}})
    skipped = did_change([{"range": extent("0:0-0:1"), "text": ""}], version=3)
    found = talk(did_open("$"), broken, skipped, did_change([], version=4), did_change(MODULE, version=5))
    same(found[1:], [published([], version=5)])


@test("documents: a message with half a surrogate pair is answered with `not JSON`, and its change isn't made")
def half_a_pair() -> None:
    halves = [json.dumps(did_change(text, version=2)) for text in ("\ud83d", "\ude00", "\ude00\ud83d", "$\ud83dx")]
    whole = json.dumps(did_change("$\ud83d\ude00", version=4))
    found = talk(did_open("$"), *halves, did_change([{"range": extent("0:0-0:1"), "text": "$$"}], version=3), whole)
    bad = [diagnostic("BadChar", "bad character", at) for at in ("0:0-0:1", "0:1-0:2", "0:1-0:3")]
    same(found[1:], [error(None, -32700, "not JSON")] * len(halves) + [published(bad[:2], version=3), published([bad[0], bad[2]], version=4)])


@test("documents: after a malformed didOpen nothing is published about an open document until it is opened again")
def broken_open() -> None:
    broken = notice("textDocument/didOpen", {"textDocument": {"uri": "file:///m", "version": 2}})
    same(talk(did_open("$"), broken, did_change([], version=3), did_open(MODULE, version=4))[1:], [published([], version=4)])


@test("documents: a version may be any signed 64-bit integer, and a didOpen with any other version publishes nothing")
def versions() -> None:
    with Server() as server:
        for version in (-9223372036854775808, 9223372036854775807, 0):
            same(server.notify(did_open(MODULE, version=version)), [], f"version {version}")
    for other in (9223372036854775808, 1.5, "1", None, True):
        same(talk(did_open(MODULE, version=other)), [], f"version {other!r}")


@test("documents: malformed or unknown notifications, and changes of documents that aren't open, publish nothing")
def nothing() -> None:
    notes = [
        did_change(MODULE),
        did_close(),
        notice("textDocument/didOpen"),
        notice("textDocument/didOpen", {"textDocument": {"uri": 7, "version": 1, "text": ""}}),
        notice("textDocument/didOpen", {"textDocument": {"uri": "file:///n", "version": 1}}),
        notice("textDocument/didOpen", [1]),
        notice("textDocument/didClose", {}),
        notice("textDocument/didSave", {"textDocument": {"uri": "file:///m"}}),
    ]
    same(talk(*notes), [])


AT_START = {"position": place(0, 0), "textDocument": {"uri": "file:///m"}}


@test("documents: after a malformed change hover is refused as `out of step`, and the next full text gets diagnostics")
def hover_out_of_step() -> None:
    broken = notice("textDocument/didChange", {"textDocument": {"uri": "file:///m", "version": 2}})
    hover = request(3, "textDocument/hover", AT_START)
    bad = published([diagnostic("BadChar", "bad character", "0:0-0:1")], version=3)
    found = talk(did_open(MODULE), broken, hover, did_change("$", version=3))
    same(found, [published([]), error(3, -32803, "out of step"), bad])
    same(found[1], '{"error":{"code":-32803,"message":"out of step"},"id":3,"jsonrpc":"2.0"}')


@test("documents: hover in a document that was never opened is refused as `unopened`")
def hover_unopened() -> None:
    hover = request("h", "textDocument/hover", AT_START)
    same(talk(hover), [error("h", -32803, "unopened")])
    same(talk(did_open(MODULE, uri="file:///n"), hover)[1:], [error("h", -32803, "unopened")], "next to another one")


@test("documents: closing a document after a malformed change clears its diagnostics once")
def closed_out_of_step() -> None:
    broken = notice("textDocument/didChange", {"textDocument": {"uri": "file:///m", "version": 2}})
    found = talk(did_open("$"), broken, did_close(), did_close(), did_change(MODULE, version=3))
    same(found[1:], [published([], version=None)])


@test("documents: closing a document clears its diagnostics once, in a publication without a version")
def closed() -> None:
    found = talk(did_open("$"), did_close(), did_close(), did_change("$"), did_open(MODULE, version=3))
    same(found[1:], [published([], version=None), published([], version=3)])


@test("documents: a didOpen of an open document replaces the document's text and diagnostics")
def opened_anew() -> None:
    same(talk(did_open("$"), did_open(MODULE, version=1)), [published([diagnostic("BadChar", "bad character", "0:0-0:1")]), published([])])


@test("documents: several documents can be open at once, and their uris are compared as plain strings")
def several() -> None:
    found = talk(
        did_open("$", uri="a"),
        did_open(MODULE, uri="A"),
        did_open(MODULE, uri=""),
        did_close(uri="A"),
        did_change("$$", uri="a", version=2),
    )
    bad = [diagnostic("BadChar", "bad character", f"0:{at}-0:{at + 1}") for at in range(2)]
    same(
        found,
        [
            published(bad[:1], uri="a"),
            published([], uri="A"),
            published([], uri=""),
            published([], uri="A", version=None),
            published(bad, uri="a", version=2),
        ],
    )


@test("documents: a change whose range is null replaces the whole text")
def null_range() -> None:
    same(talk(did_open("$"), did_change([{"range": None, "text": MODULE}]))[1:], [published([], version=2)])


@test("documents: seven documents keep separate texts over 200 notifications")
def long_talk() -> None:
    with Server() as server:
        for number in range(200):
            uri, text = f"file:///{number % 7}", "$" * (number % 5) + "(**)"
            found = server.notify(did_open(text, uri) if number < 7 else did_change(text, uri, number))
            holds(len(found) >= number % 5, f"document {number}")
        same(server.query("x").get("error", {}).get("message"), "unknown method")
        same(server.end(), 0, "the status")


@test("documents: definition is refused in a document that isn't open, and after a malformed change")
def refused_questions() -> None:
    where = {"position": {"character": 0, "line": 0}, "textDocument": {"uri": "file:///m"}}
    broken = notice("textDocument/didChange", {"textDocument": {"uri": "file:///m", "version": 2}})
    with Server() as server:
        unopened = {"code": -32803, "message": "unopened"}
        same(server.query("textDocument/definition", where).get("error"), unopened)
        server.notify(did_open(MODULE))
        server.send(broken)
        same(server.query("textDocument/definition", where).get("error"), {"code": -32803, "message": "out of step"})
        same(server.notify(did_change(MODULE, version=3)), [])
        server.send(request(99, "textDocument/definition", {}))
        same(server.take().get("error"), {"code": -32602, "message": "bad params"})
