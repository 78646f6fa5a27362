"""Tests the server's answers to hover, definition, references and prepareRename."""
from __future__ import annotations

from typing import Any

from harness import Message, Server, answer, compact, did_change, did_open, extent, frames, initialize, place
from harness import request, same, serve, test
from modules import CALLS

URI = "file:///m"
PLACES = ["1:10-1:11", "2:30-2:31", "2:47-2:48", "3:6-3:7"]


def where(line: int, character: int, **more: Any) -> Message:
    return {"position": place(line, character), "textDocument": {"uri": URI}, **more}


class Asked(Server):
    """Runs a server with one open document, and asks about the document's text."""

    def __init__(self, text: str, **capabilities: Any) -> None:
        super().__init__(capabilities=capabilities)
        self.notify(did_open(text, URI))

    def result(self, what: str, line: int, character: int, **more: Any) -> Any:
        found = self.query(f"textDocument/{what}", where(line, character, **more))
        return found["result"] if "result" in found else found["error"]

    def hover(self, line: int, character: int) -> Any:
        found = self.result("hover", line, character)
        return found and (found["contents"]["value"], found["range"])

    def references(self, line: int, character: int, include: bool) -> list[Message]:
        found = self.result("references", line, character, context={"includeDeclaration": include})
        assert all(it["uri"] == URI for it in found)
        return [it["range"] for it in found]

    def definition(self, line: int, character: int) -> Any:
        found = self.result("definition", line, character)
        return found and found["range"]


@test("questions: hover is answered with exactly the expected bytes")
def hover_bytes() -> None:
    found = serve(frames([initialize(), did_open(CALLS), request(3, "textDocument/hover", where(3, 7))])).contents()[2]
    wanted = (
        '{"id":3,"jsonrpc":"2.0","result":{"contents":{"kind":"plaintext","value":"PROCEDURE F(n: INTEGER)"},'
        '"range":{"end":{"character":7,"line":3},"start":{"character":6,"line":3}}}}'
    )
    same(found, wanted)


@test("questions: definition, references and prepareRename are answered with exactly the expected bytes")
def references_bytes() -> None:
    queries = [
        request(3, "textDocument/definition", where(2, 47)),
        request(4, "textDocument/references", where(2, 47, context={"includeDeclaration": True})),
        request(5, "textDocument/references", where(2, 47, context={"includeDeclaration": False})),
        request(6, "textDocument/prepareRename", where(2, 47)),
    ]
    found = serve(frames([initialize(), did_open(CALLS), *queries])).contents()[2:]
    locations = [{"range": extent(it), "uri": URI} for it in PLACES]
    same(found[0], answer(3, locations[0]))
    same(found[1], answer(4, locations))
    same(found[2], answer(5, locations[1:]))
    same(found[3], answer(6, extent(PLACES[2])))
    same(
        found[0],
        '{"id":3,"jsonrpc":"2.0","result":{"range":{"end":{"character":11,"line":1},"start":{"character":10,"line":1}},"uri":"file:///m"}}',
    )


@test("questions: a predeclared name has no definition, and a position without a name has no definition or references")
def no_names() -> None:
    with Asked(CALLS) as server:
        write = [extent("2:20-2:25")]
        same(server.definition(2, 20), None)
        same(server.result("prepareRename", 2, 20), None)
        same(server.references(2, 20, True), write)
        same(server.references(2, 20, False), write)
        for line, character in ((0, 7), (0, 8), (0, 0), (2, 0), (3, 9), (3, 16), (9, 9)):
            same(server.references(line, character, True), [], f"references at {line}:{character}")
            same(server.definition(line, character), None, f"definition at {line}:{character}")


@test("questions: hover describes a predeclared name, and answers null at a position without a name")
def no_hover() -> None:
    with Asked(CALLS) as server:
        same(server.hover(2, 20), ("predeclared Write", extent("2:20-2:25")))
        for line, character in ((0, 7), (0, 8), (0, 0), (2, 0), (3, 9), (3, 16), (9, 9)):
            same(server.hover(line, character), None, f"hover at {line}:{character}")
    with Asked("MODULE M") as server:
        same(server.result("hover", 0, 7), None)


@test("questions: definition and prepareRename answer null, and references an empty list, if the text isn't well-typed")
def ill_typed() -> None:
    with Asked("MODULE M") as server:
        for what in ("definition", "prepareRename"):
            same(server.result(what, 0, 7), None, what)
        same(server.references(0, 7, True), [])


@test("questions: hover, definition and references find nothing at any position of a text that isn't well-typed")
def ill_typed_places() -> None:
    with Asked("MODULE M") as server:
        for character in range(9):
            for what in ("hover", "definition"):
                same(server.result(what, 0, character), None, f"{what} at 0:{character}")
            for include in (True, False):
                found = server.result("references", 0, character, context={"includeDeclaration": include})
                same(found, [], f"references at 0:{character}")


@test("questions: a malformed position is refused as `bad params`, and one after the text counts as the text's end")
def positions() -> None:
    bad = {"code": -32602, "message": "bad params"}
    with Asked(CALLS) as server:
        lines: list[Any] = [18446744073709551616, -1, 1.0, "1", None, []]
        for line in lines:
            same(server.result("definition", line, 0), bad, f"line {line!r}")
        same(server.result("definition", 18446744073709551615, 18446744073709551615), None)
        others: list[Any] = [None, {}, [], {"position": place(0, 0)}, {"position": {}, "textDocument": {"uri": URI}}]
        for params in others:
            same(server.query("textDocument/definition", params).get("error"), bad, f"params {params!r}")
        same(server.query("textDocument/references", where(0, 0)).get("error"), bad, "no context")
        refused = {"code": -32803, "message": "unopened"}
        same(server.query("textDocument/definition", {**where(0, 0), "textDocument": {"uri": "x"}}).get("error"), refused)
    with Asked("MODULE M; VAR x: INTEGER; END M") as server:
        # (a position on a line after the last one is the text's end, whatever its character is)
        far = place(18446744073709551615, 0)
        change = {"range": {"start": far, "end": far}, "text": "."}
        same(server.notify(did_change([change], URI)), [], "the name and a dot after it")
        same(server.hover(0, 15), ("VAR x: INTEGER", extent("0:14-0:15")))
        same(server.definition(18446744073709551615, 0), None, "definition at the end, after the dot")


NAMES = """MODULE M;
CONST c = 7; d = -c; on = c = 7;
TYPE A = ARRAY c OF INTEGER; P = RECORD x, y: INTEGER; on: BOOLEAN END; E = RECORD END; I = INTEGER;
VAR a: A; p: ARRAY 2 OF ARRAY 3 OF P; b: BOOLEAN; i: I;
PROCEDURE Q(n: INTEGER; VAR p: P; q, r: BOOLEAN);
VAR c: INTEGER;
PROCEDURE R; BEGIN c := p.x; p.on := q; Q(c, p, q, on) END R;
BEGIN c := n; R END Q;
BEGIN a[c] := d; Q(a[0], p[0][1], on, b); b := TRUE END M.
"""


def shows(server: Asked, wanted: dict[str, str]) -> None:
    """Requires hover to show the given text at both ends of each given range."""
    for span, text in wanted.items():
        at = extent(span)
        for end in ("start", "end"):
            same(server.hover(at[end]["line"], at[end]["character"]), (text, at), f"at {span}")


@test("questions: hover shows the declaration of each kind of name")
def hovers() -> None:
    wanted = {
        "1:6-1:7": "CONST c = 7",
        "1:13-1:14": "CONST d = -7",
        "1:21-1:23": "CONST on = TRUE",
        "2:5-2:6": "TYPE A = ARRAY 7 OF INTEGER",
        "2:29-2:30": "TYPE P = RECORD with 3 fields",
        "2:72-2:73": "TYPE E = RECORD with 0 fields",
        "2:88-2:89": "TYPE I = INTEGER",
        "3:4-3:5": "VAR a: ARRAY 7 OF INTEGER",
        "3:10-3:11": "VAR p: ARRAY 2 OF ARRAY 3 OF RECORD with 3 fields",
        "3:50-3:51": "VAR i: INTEGER",
        "4:10-4:11": "PROCEDURE Q(n: INTEGER; VAR p: RECORD with 3 fields; q: BOOLEAN; r: BOOLEAN)",
        "4:12-4:13": "VAR n: INTEGER",
        "4:28-4:29": "VAR p: RECORD with 3 fields",
        "6:10-6:11": "PROCEDURE R()",
        "6:19-6:20": "VAR c: INTEGER",
        "6:51-6:53": "CONST on = TRUE",
        "6:59-6:60": "PROCEDURE R()",
        "8:47-8:51": "predeclared TRUE",
        "2:20-2:27": "predeclared INTEGER",
    }
    with Asked(NAMES) as server:
        shows(server, wanted)


@test("questions: hover shows the value of a constant that is FALSE")
def hover_false() -> None:
    text = "MODULE M; CONST c = FALSE; d = 1 > 2; BEGIN IF c OR d THEN WriteLn END END M."
    wanted = {"0:16-0:17": "CONST c = FALSE", "0:27-0:28": "CONST d = FALSE", "0:47-0:48": "CONST c = FALSE"}
    with Asked(text) as server:
        shows(server, wanted)


@test("questions: definition and references distinguish redeclared names, and references includes closing names")
def scopes() -> None:
    with Asked(NAMES) as server:
        same(server.definition(6, 19), extent("5:4-5:5"), "the inner c")
        same(server.definition(8, 8), extent("1:6-1:7"), "the outer c")
        same(server.references(1, 6, True), [extent(it) for it in ("1:6-1:7", "1:18-1:19", "1:26-1:27", "2:15-2:16", "8:8-8:9")])
        same(server.references(6, 59, True), [extent(it) for it in ("6:10-6:11", "6:59-6:60", "7:14-7:15")])
        same(server.references(7, 20, False), [extent(it) for it in ("6:40-6:41", "7:20-7:21", "8:17-8:18")])


@test("questions: definition and references distinguish fields of the same name in different records")
def fields() -> None:
    with Asked(NAMES) as server:
        same(server.hover(6, 26), ("FIELD x: INTEGER", extent("6:26-6:27")))
        same(server.definition(6, 26), extent("2:40-2:41"))
        same(server.references(2, 56, True), [extent("2:55-2:57"), extent("6:31-6:33")])
    text = """MODULE M;
TYPE R = RECORD a, b: INTEGER END;
VAR r: R; s: RECORD a: INTEGER END; a: INTEGER;
BEGIN r.a := 1; s.a := 2; a := r.a + s.a; Write(a) END M.
"""
    with Asked(text) as server:
        same(server.hover(3, 8), ("FIELD a: INTEGER", extent("3:8-3:9")))
        same(server.definition(3, 8), extent("1:16-1:17"))
        same(server.references(3, 8, True), [extent(it) for it in ("1:16-1:17", "3:8-3:9", "3:33-3:34")])
        same(server.references(3, 18, True), [extent(it) for it in ("2:20-2:21", "3:18-3:19", "3:39-3:40")])
        same(server.references(3, 26, True), [extent(it) for it in ("2:36-2:37", "3:26-3:27", "3:48-3:49")])


@test("questions: hover shows the type of a field at its declaration")
def declared_fields() -> None:
    wanted = {
        "2:40-2:41": "FIELD x: INTEGER",
        "2:43-2:44": "FIELD y: INTEGER",
        "2:55-2:57": "FIELD on: BOOLEAN",
    }
    with Asked(NAMES) as server:
        shows(server, wanted)
    text = """MODULE M;
TYPE A = ARRAY 2 OF RECORD a: ARRAY 3 OF BOOLEAN; r: RECORD END END;
VAR v: RECORD a: A; b, c: RECORD a, d: INTEGER END END;
PROCEDURE P(VAR p: RECORD x: A END); TYPE A = INTEGER; VAR w: RECORD a: A END;
BEGIN w.a := 1; v.b.a := w.a END P;
END M.
"""
    wanted = {
        "1:27-1:28": "FIELD a: ARRAY 3 OF BOOLEAN",
        "1:50-1:51": "FIELD r: RECORD with 0 fields",
        "2:14-2:15": "FIELD a: ARRAY 2 OF RECORD with 2 fields",
        "2:20-2:21": "FIELD b: RECORD with 2 fields",
        "2:23-2:24": "FIELD c: RECORD with 2 fields",
        "2:33-2:34": "FIELD a: INTEGER",
        "2:36-2:37": "FIELD d: INTEGER",
        "3:26-3:27": "FIELD x: ARRAY 2 OF RECORD with 2 fields",
        "3:69-3:70": "FIELD a: INTEGER",
        "4:8-4:9": "FIELD a: INTEGER",
        "4:18-4:19": "FIELD b: RECORD with 2 fields",
    }
    with Asked(text) as server:
        shows(server, wanted)
        for line, character in ((1, 20), (1, 29), (2, 8), (2, 26), (2, 55)):
            same(server.hover(line, character), None, f"at {line}:{character}")


@test("questions: prepareRename returns the range of a field at the field's declaration and at its uses")
def renamable_fields() -> None:
    with Asked(NAMES) as server:
        same(server.result("prepareRename", 6, 31), extent("6:31-6:33"))
        same(server.result("prepareRename", 6, 33), extent("6:31-6:33"))
        same(server.result("prepareRename", 2, 55), extent("2:55-2:57"))
        same(server.result("prepareRename", 2, 41), extent("2:40-2:41"))


@test("questions: prepareRename at a field is answered with exactly the expected bytes")
def renamable_bytes() -> None:
    text = "MODULE M; VAR r: RECORD a: INTEGER END; BEGIN (* 😀 *) r.a := 1 END M."
    queries = [request(3, "textDocument/prepareRename", where(0, 24)), request(4, "textDocument/prepareRename", where(0, 57))]
    found = serve(frames([initialize(), did_open(text), *queries])).contents()[2:]
    same(found[0], '{"id":3,"jsonrpc":"2.0","result":{"end":{"character":25,"line":0},"start":{"character":24,"line":0}}}')
    same(found[1], '{"id":4,"jsonrpc":"2.0","result":{"end":{"character":58,"line":0},"start":{"character":57,"line":0}}}')
    with Asked(text, general={"positionEncodings": ["utf-8"]}) as server:
        same(server.result("prepareRename", 0, 59), extent("0:59-0:60"))


@test("questions: positions are counted in UTF-8 units if the client offers utf-8, and in UTF-16 units otherwise")
def utf8() -> None:
    text = "MODULE M; VAR x: INTEGER; BEGIN (* 😀é *) x := 1 END M."
    with Asked(text, general={"positionEncodings": ["utf-8"]}) as server:
        same(server.references(0, 14, True), [extent("0:14-0:15"), extent("0:45-0:46")])
    with Asked(text) as server:
        same(server.references(0, 14, True), [extent("0:14-0:15"), extent("0:42-0:43")])


@test("questions: references finds 5,000 uses of a name, on many lines and on one line")
def many() -> None:
    for gap in ("\n", " ", "\r\n", " (* 😀 *) "):
        text = "MODULE M; VAR x: INTEGER; BEGIN" + f"{gap}x := 1;" * 5000 + " END M."
        with Asked(text) as server:
            found = server.references(0, 14, True)
        same(len(found), 5001, "how many")
        same(len({compact(it) for it in found}), 5001, "how many places")
