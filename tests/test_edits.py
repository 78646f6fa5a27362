"""Tests rename, inlining and formatting through `serve`, and rename also through `ob0 rename`."""
from __future__ import annotations

import json
from collections.abc import Callable, Sequence
from typing import Any, List, Optional, Tuple, Union

from harness import Message, Server, did_change, did_open, edited, ends, extent, frames, initialize, marked, on_file, place, request, run, same, serve, test
from modules import CALLS, FIVE, LEAST, NESTED, RECORDS, SHADOWED, WRITES_A_GLOBAL

URI = "file:///m"
ACCENTED = "MODULE M; VAR x: INTEGER; (* é *) BEGIN x := x END M."

# each row: a text, a line, a character, the new name, and the places that change or the refusal
Row = Tuple[str, int, int, str, Union[List[str], str]]
RENAMES: List[Row] = [
    (NESTED, 1, 4, "z", ["1:4-1:5", "4:14-4:15", "5:15-5:16"]),
    (NESTED, 5, 16, "z", ["1:4-1:5", "4:14-4:15", "5:15-5:16"]),
    (NESTED, 1, 4, "x", []),
    (NESTED, 1, 4, "y", "Captures 4:14-4:15"),
    (NESTED, 1, 4, "Write", "Captures 5:9-5:14"),
    (NESTED, 1, 4, "P", "Duplicate 2:10-2:11"),
    (WRITES_A_GLOBAL, 4, 10, "Q", ["4:10-4:11", "4:32-4:33", "5:9-5:10"]),
    (WRITES_A_GLOBAL, 4, 10, "P", "Duplicate 3:10-3:11"),
    (WRITES_A_GLOBAL, 4, 10, "A", ["4:10-4:11", "4:32-4:33", "5:9-5:10"]),
    (WRITES_A_GLOBAL, 1, 4, "P", "Captures 3:19-3:20"),
    (CALLS, 2, 47, "G", ["1:10-1:11", "2:30-2:31", "2:47-2:48", "3:6-3:7"]),
    (CALLS, 2, 47, "n", "Captures 2:30-2:31"),
    (CALLS, 2, 47, "END", "BadName"),
    (CALLS, 2, 47, "REPEAT", "BadName"),
    (CALLS, 2, 47, "UNTIL", "BadName"),
    (CALLS, 2, 47, "1a", "BadName"),
    (CALLS, 2, 47, "a b", "BadName"),
    (CALLS, 2, 47, "é", "BadName"),
    (CALLS, 2, 47, "", "BadName"),
    (CALLS, 2, 20, "W", "Predeclared"),
    (CALLS, 0, 7, "W", "NoName"),
    (CALLS, 0, 0, "W", "NoName"),
    (ACCENTED, 0, 14, "yz", ["0:14-0:15", "0:40-0:41", "0:45-0:46"]),
    (ACCENTED, 0, 41, "x", []),
]
FIELD_RENAMES: List[Row] = [
    (RECORDS, 3, 8, "c", ["1:16-1:17", "3:8-3:9", "3:33-3:34"]),
    (RECORDS, 3, 8, "r", ["1:16-1:17", "3:8-3:9", "3:33-3:34"]),
    (RECORDS, 3, 8, "b", "Duplicate 1:19-1:20"),
    (RECORDS, 1, 17, "INTEGER", ["1:16-1:17", "3:8-3:9", "3:33-3:34"]),
    (RECORDS, 3, 39, "b", ["2:20-2:21", "3:18-3:19", "3:39-3:40"]),
    (RECORDS, 1, 19, "a", "Duplicate 1:16-1:17"),
    (RECORDS, 1, 19, "c", ["1:19-1:20"]),
    (RECORDS, 3, 8, "a", []),
    (RECORDS, 3, 8, "END", "BadName"),
    (RECORDS, 3, 8, "1a", "BadName"),
    (RECORDS, 3, 8, "", "BadName"),
]

# texts with all places of one field marked, and new names that it may have
FIELDS_MARKED = [
    (
        """MODULE M;
TYPE P = RECORD ⟦x⟧, y: INTEGER; on: BOOLEAN END; Q = P;
VAR a: ARRAY 2 OF RECORD p: P; x: INTEGER END; q: Q; x: INTEGER;
PROCEDURE W(VAR r: P; x: INTEGER);
BEGIN r.⟦x⟧ := x; r.on := ~r.on; a[r.⟦x⟧].p.⟦x⟧ := r.⟦x⟧; a[a[0].x].x := q.⟦x⟧ END W;
BEGIN W(q, 1); W(a[1].p, 0); x := a[0].p.⟦x⟧ + a[1].x; Write(x); Write(q.⟦x⟧); Write(a[a[1].p.⟦x⟧].x) END M.
""",
        ["z", "p", "a", "P", "M", "W", "Write", "INTEGER"],
    ),
    (
        """MODULE M;
TYPE P = RECORD x, y: INTEGER; on: BOOLEAN END; Q = P;
VAR a: ARRAY 2 OF RECORD p: P; ⟦x⟧: INTEGER END; q: Q; x: INTEGER;
PROCEDURE W(VAR r: P; x: INTEGER);
BEGIN r.x := x; a[r.x].p.x := r.x; a[a[0].⟦x⟧].⟦x⟧ := q.x END W;
BEGIN W(q, 1); a[1].⟦x⟧ := a[0].p.x + 1; Write(a[1].⟦x⟧) END M.
""",
        ["z", "y", "on", "a"],
    ),
    (
        """MODULE M;
VAR r: RECORD r: RECORD ⟦r⟧: INTEGER END; s: INTEGER END;
PROCEDURE P(s: INTEGER); VAR r: RECORD r: INTEGER END; BEGIN r.r := s; Write(r.r) END P;
BEGIN r.r.⟦r⟧ := 7; r.s := r.r.⟦r⟧ + 1; P(r.r.⟦r⟧); Write(r.s) END M.
""",
        ["s", "P", "TRUE"],
    ),
]


def unmarked(text: str) -> tuple[str, list[str]]:
    """Returns a text without the marks ⟦ and ⟧, and the ranges that they marked."""
    plain, diagnostics = marked(text, *["Undeclared"] * text.count("⟦"))
    spell: Callable[[Message], str] = lambda it: f"{it['line']}:{it['character']}"
    return plain, [f"{spell(it['range']['start'])}-{spell(it['range']['end'])}" for it in diagnostics]


def patched(text: str, edits: list[Message]) -> str:
    """Returns a text after the edits of an answer, which must be in text order."""
    starts = [0]
    for at, it in enumerate(text):
        if it == "\n" or it == "\r" and text[at + 1 : at + 2] != "\n":
            starts.append(at + 1)
    for edit in reversed(edits):
        start, end = (starts[it["line"]] + it["character"] for it in (edit["range"]["start"], edit["range"]["end"]))
        text = text[:start] + edit["newText"] + text[end:]
    return text


def where(line: int, character: int, **more: Any) -> Message:
    return {"position": place(line, character), "textDocument": {"uri": URI}, **more}


def through_serve(rows: Sequence[Row]) -> None:
    with Server() as server:
        for text, line, character, new, wanted in rows:
            server.notify(did_open(text, URI))
            found = server.query("textDocument/rename", where(line, character, newName=new))
            if isinstance(wanted, str):
                same(found.get("error"), {"code": -32803, "message": wanted}, f"{line}:{character} to {new}")
            else:
                edits = [{"newText": new, "range": extent(it)} for it in wanted]
                same(found.get("result"), {"changes": {URI: edits}}, f"{line}:{character} to {new}")


def through_command(rows: Sequence[Row]) -> None:
    for text, line, character, new, wanted in rows:
        found = on_file("rename", text, str(line), str(character), new)
        if isinstance(wanted, str):
            ends(found, "", 1, f"refused: {wanted}\n")
        else:
            ends(found, edited(text, wanted, new), 0)


@test("rename: `serve` answers each sample request with the expected edits or refusal")
def renames() -> None:
    through_serve(RENAMES)


@test("rename: `ob0 rename` prints the renamed text or the expected refusal for each sample")
def renamed() -> None:
    through_command(RENAMES)


@test("rename: `serve` answers each sample request about a record's field with the expected edits or refusal")
def field_renamed() -> None:
    through_serve(FIELD_RENAMES)


@test("rename: `ob0 rename` prints the text with the renamed field, or the expected refusal, for each sample")
def field_renamed_by_command() -> None:
    through_command(FIELD_RENAMES)


@test("rename: a field can be renamed at its declaration and at each use, and the module's output is unchanged")
def field_places() -> None:
    for text, names in FIELDS_MARKED:
        plain, places = unmarked(text)
        out = on_file("run", plain).out
        for span in places:
            for end in ("start", "end"):
                at = extent(span)[end]
                through_serve([(plain, at["line"], at["character"], names[0], places)])
        at = extent(places[0])["start"]
        through_serve([(plain, at["line"], at["character"], new, places) for new in names])
        through_command([(plain, at["line"], at["character"], new, places) for new in names])
        for new in names:
            ends(on_file("run", edited(plain, places, new)), out, 0)


@test("rename: the edits and the refusal for a field are sent with exactly the expected bytes")
def field_bytes() -> None:
    queries = [request(3, "textDocument/rename", where(3, 8, newName="b")), request(4, "textDocument/rename", where(1, 19, newName="c"))]
    found = serve(frames([initialize(), did_open(RECORDS, URI), *queries])).contents()[2:]
    same(found[0], '{"error":{"code":-32803,"message":"Duplicate 1:19-1:20"},"id":3,"jsonrpc":"2.0"}')
    same(
        found[1],
        '{"id":4,"jsonrpc":"2.0","result":{"changes":{"file:///m":[{"newText":"c","range":{"end":{"character":20,"line":1},'
        '"start":{"character":19,"line":1}}}]}}}',
    )


@test("rename: the edits for a field contain the document's version, and positions in the agreed unit")
def field_units() -> None:
    text = "MODULE M; VAR r: RECORD a: INTEGER END; BEGIN (* 😀é *) r.a := 1; Write(r.a) END M."
    support = {"workspace": {"workspaceEdit": {"documentChanges": True}}}
    for encodings, places in ((["utf-16"], ["0:24-0:25", "0:58-0:59", "0:74-0:75"]), (["utf-8"], ["0:24-0:25", "0:61-0:62", "0:77-0:78"])):
        with Server(capabilities={**support, "general": {"positionEncodings": encodings}}) as server:
            server.notify(did_open(text, URI, 7))
            edits = [{"newText": "b", "range": extent(it)} for it in places]
            for span in places:
                at = extent(span)["start"]
                found = server.query("textDocument/rename", where(at["line"], at["character"], newName="b"))["result"]
                same(found, {"documentChanges": [{"edits": edits, "textDocument": {"uri": URI, "version": 7}}]})


@test("rename: renaming a field may make a text of the greatest length, and is refused as TooLong above that")
def field_longest() -> None:
    text = "MODULE M; VAR r: RECORD x: INTEGER END; END M.".ljust(1048576)
    ends(on_file("rename", text, "0", "24", "y"), text.replace("x", "y"), 0)
    ends(on_file("rename", text, "0", "24", "xy"), "", 1, "refused: TooLong\n")


@test("rename: a refusal, and an answer without edits, are sent with exactly the expected bytes")
def rename_bytes() -> None:
    queries = [request(3, "textDocument/rename", where(1, 4, newName="y")), request(4, "textDocument/rename", where(1, 4, newName="x"))]
    found = serve(frames([initialize(), did_open(NESTED, URI), *queries])).contents()[2:]
    same(found[0], '{"error":{"code":-32803,"message":"Captures 4:14-4:15"},"id":3,"jsonrpc":"2.0"}')
    same(found[1], '{"id":4,"jsonrpc":"2.0","result":{"changes":{"file:///m":[]}}}')


@test("rename: an answer contains documentChanges with the version if the client supports documentChanges")
def document_changes() -> None:
    with Server(capabilities={"workspace": {"workspaceEdit": {"documentChanges": True}}}) as server:
        server.notify(did_open(NESTED, URI, 7))
        edits = [{"newText": "z", "range": extent(it)} for it in ("1:4-1:5", "4:14-4:15", "5:15-5:16")]
        for new, wanted in (("z", edits), ("x", [])):
            found = server.query("textDocument/rename", where(1, 4, newName=new))["result"]
            same(found, {"documentChanges": [{"edits": wanted, "textDocument": {"uri": URI, "version": 7}}]})


@test("rename: the server announces prepareProvider only if the client supports prepareRename")
def announced() -> None:
    for support, wanted in ((True, {"prepareProvider": True}), (False, True), (None, True), (1, True)):
        with Server(capabilities={"textDocument": {"rename": {"prepareSupport": support}}}) as server:
            same(server.first["result"]["capabilities"]["renameProvider"], wanted)


@test("rename: in a module with an error `serve` refuses a rename, and `ob0 rename` prints the error")
def ill_typed() -> None:
    with Server() as server:
        server.notify(did_open("MODULE M", URI))
        found = server.query("textDocument/rename", where(0, 7, newName="x"))
        same(found.get("error"), {"code": -32803, "message": "ill-typed"})
    ends(on_file("rename", "MODULE M", "0", "7", "x"), "0:8: Syntax: expected ;\n", 1)
    ends(on_file("rename", "MODULE M; END N.", "0", "7", "x"), "0:14: EndName: wrong closing name\n", 1)
    ends(on_file("rename", b"MODULE \xff", "0", "7", "x"), "", 4, "fault: Utf8\n")


@test("rename: `ob0 rename` makes texts up to the greatest length, and refuses to make longer ones with TooLong")
def longest() -> None:
    text = "MODULE M; VAR x: INTEGER; END M.".ljust(1048576)
    ends(on_file("rename", text, "0", "14", "y"), text.replace("x", "y"), 0)
    ends(on_file("rename", text, "0", "14", "xy"), "", 1, "refused: TooLong\n")


@test("rename: `serve` makes texts up to the greatest length, and refuses to make longer ones with TooLong")
def longest_served() -> None:
    text, places = "MODULE M; VAR x: INTEGER; END M.".ljust(1048576), ["0:14-0:15"]
    through_serve([(text, 0, 14, "y", places), (text, 0, 14, "xy", "TooLong"), (text[:-1], 0, 14, "xy", places)])


@test("rename: each renaming in the samples leaves the module's output and status unchanged")
def same_run() -> None:
    for text, _, _, new, wanted in [*RENAMES, *FIELD_RENAMES]:
        if not isinstance(wanted, str):
            before = on_file("run", text)
            ends(on_file("run", edited(text, wanted, new)), before.out, before.status, before.err)


@test("rename: renaming a record's field doesn't change what the module prints")
def field_runs() -> None:
    for new in ("c", "r"):
        ends(on_file("run", on_file("rename", RECORDS, "3", "8", new).out), " 3", 0)


@test("rename: `ob0 rename` refuses bad arguments with status 2, and a position outside the text with NoName")
def lines() -> None:
    for words in (["0"], ["0", "0"], ["-1", "0", "x"], ["0", "18446744073709551616", "x"], ["18446744073709551616", "0", "x"], ["0", "x", "y"], ["0", "0", "x", "y"]):
        same(on_file("rename", NESTED, *words).status, 2, " ".join(words))
    ends(on_file("rename", NESTED, "18446744073709551615", "18446744073709551615", "x"), "", 1, "refused: NoName\n")
    ends(run(["rename", "/nowhere", "0", "0", "x"]), "", 4, "fault: File\n")


LITERALS: Message = {"textDocument": {"codeAction": {"codeActionLiteralSupport": {}}}}


def acting(line: int, character: int, context: object = None, end: Message | None = None) -> Message:
    """Returns the params of a code action request at a position, or for the range from there to `end`."""
    at = {"end": end or place(line, character), "start": place(line, character)}
    return {"context": {} if context is None else context, "range": at, "textDocument": {"uri": URI}}


def actions(
    text: str,
    line: int,
    character: int,
    context: object = None,
    capabilities: Message | None = None,
    end: Message | None = None,
) -> dict[str, Any]:
    """Requests the code actions at a position. Returns the edits of each action by its title, or the error if the
    request is refused."""
    with Server(capabilities=LITERALS if capabilities is None else capabilities) as server:
        server.notify(did_open(text, URI))
        found = server.query("textDocument/codeAction", acting(line, character, context, end))
        if "error" in found:
            refused: dict[str, Any] = found["error"]
            return refused
        same([it["kind"] for it in found["result"]], ["refactor.inline"] * len(found["result"]), "the kinds")
        return {it["title"]: [(e["range"], e["newText"]) for e in it["edit"]["changes"][URI]] for it in found["result"]}


@test("inline: one action is offered at a constant's declaration, with exactly the expected bytes")
def inline_bytes() -> None:
    query = request(4, "textDocument/codeAction", acting(1, 6))
    found = serve(frames([initialize(**LITERALS), did_open(LEAST, URI), query])).contents()[2]
    same(
        found,
        '{"id":4,"jsonrpc":"2.0","result":[{"edit":{"changes":{"file:///m":[{"newText":"","range":{"end":'
        '{"character":26,"line":1},"start":{"character":6,"line":1}}},{"newText":"(-2147483647 - 1)","range":{"end":'
        '{"character":16,"line":3},"start":{"character":15,"line":3}}}]}},"kind":"refactor.inline",'
        '"title":"Inline everywhere"}]}',
    )


@test("inline: two actions are offered at a constant's use, with exactly the expected bytes")
def actions_bytes() -> None:
    query = request(5, "textDocument/codeAction", acting(3, 15))
    found = serve(frames([initialize(**LITERALS), did_open(LEAST, URI), query])).contents()[2]
    use = '{"newText":"(-2147483647 - 1)","range":{"end":{"character":16,"line":3},"start":{"character":15,"line":3}}}'
    gone = '{"newText":"","range":{"end":{"character":26,"line":1},"start":{"character":6,"line":1}}}'

    def action(title: str, *edits: str) -> str:
        return f'{{"edit":{{"changes":{{"file:///m":[{",".join(edits)}]}}}},"kind":"refactor.inline","title":"{title}"}}'

    both = f'[{action("Inline here", use)},{action("Inline everywhere", gone, use)}]'
    same(found, f'{{"id":5,"jsonrpc":"2.0","result":{both}}}')


@test("inline: `only` filters the actions, and a variable, or a client without action literals, is offered none")
def inlined() -> None:
    use, gone = (extent("3:15-3:16"), "(-2147483647 - 1)"), (extent("1:6-1:26"), "")
    both = {"Inline here": [use], "Inline everywhere": [gone, use]}
    same(actions(LEAST, 3, 15), both)
    only: Any
    for only in (["refactor"], [""], ["refactor.inline"], ["x", "refactor"]):
        same(actions(LEAST, 3, 15, {"only": only}), both, f"only {only}")
    for only in (["refactor.extract"], []):
        same(actions(LEAST, 3, 15, {"only": only}), {}, f"only {only}")
    for only in ([1], [None], "refactor"):
        same(actions(LEAST, 3, 15, {"only": only}), {"code": -32602, "message": "bad params"}, f"only {only}")
    same(actions(LEAST, 3, 15, capabilities={}), {}, "without literals")
    same(actions(LEAST, 2, 4), {}, "at a variable")


@test("inline: a negative value is put in parentheses, and a use that is shadowed or too deep gets no action")
def inline_values() -> None:
    text = "MODULE M; CONST c = -5; t = 1 = 1; VAR a: INTEGER; BEGIN a := a - c; Write(c DIV 3); IF t THEN END END M."
    uses = [at for at in range(len(text)) if text.startswith("c;", at) or text.startswith("c DIV", at)]
    same(actions(text, 0, uses[0])["Inline here"], [(extent(f"0:{uses[0]}-0:{uses[0] + 1}"), "(-5)")])
    at = text.index("t THEN")
    same(actions(text, 0, at)["Inline here"], [(extent(f"0:{at}-0:{at + 1}"), "TRUE")])
    same(actions(SHADOWED, 2, 46), {}, "shadowed")
    comment = "MODULE M; CONST c (* five *) = 5; BEGIN Write(c) END M."
    same([*actions(comment, 0, comment.index("c)"))], ["Inline here"], "a comment in the declaration")
    both = ["Inline here", "Inline everywhere"]
    for levels, value, offered in ((100, "-1", []), (99, "-1", both), (100, "1", both)):
        deep = f"MODULE M; CONST c = {value}; VAR x: INTEGER; BEGIN x := " + "(" * levels + "c" + ")" * levels + " END M."
        same([*actions(deep, 0, deep.index("c)"))], offered, f"{value} below {levels} levels")


@test("inline: if the client supports documentChanges, both actions contain exactly the expected documentChanges")
def inline_changes() -> None:
    support: Message = {**LITERALS, "workspace": {"workspaceEdit": {"documentChanges": True}}}
    query = request(4, "textDocument/codeAction", acting(3, 15))
    found = serve(frames([initialize(**support), did_open(LEAST, URI, 7), query])).contents()[2]
    use = '{"newText":"(-2147483647 - 1)","range":{"end":{"character":16,"line":3},"start":{"character":15,"line":3}}}'
    gone = '{"newText":"","range":{"end":{"character":26,"line":1},"start":{"character":6,"line":1}}}'

    def action(edits: str, title: str) -> str:
        return (
            f'{{"edit":{{"documentChanges":[{{"edits":[{edits}],"textDocument":{{"uri":"file:///m","version":7}}}}]}},'
            f'"kind":"refactor.inline","title":"{title}"}}'
        )

    same(found, f'{{"id":4,"jsonrpc":"2.0","result":[{action(use, "Inline here")},{action(gone + "," + use, "Inline everywhere")}]}}')


@test("inline: actions are offered at both ends of a name, and their edits have positions in the agreed unit")
def inline_units() -> None:
    text = "MODULE M; CONST (* é *) c = 5; BEGIN (* 😀 *) Write(c) END M."
    for encodings, gone, use in ((["utf-16"], "0:24-0:30", "0:52-0:53"), (["utf-8"], "0:25-0:31", "0:55-0:56")):
        support: Message = {**LITERALS, "general": {"positionEncodings": encodings}}
        both = {"Inline here": [(extent(use), "5")], "Inline everywhere": [(extent(gone), ""), (extent(use), "5")]}
        for end in ("start", "end"):
            same(actions(text, 0, extent(use)[end]["character"], capabilities=support), both, f"{encodings}, at the {end} of the use")
        same(actions(text, 0, extent(gone)["start"]["character"], capabilities=support), {"Inline everywhere": both["Inline everywhere"]})


@test("inline: a request for a range is answered for the range's first position, even if start and end are swapped")
def inline_ranges() -> None:
    both = actions(LEAST, 3, 15)
    same([*both], ["Inline here", "Inline everywhere"])
    same(actions(LEAST, 3, 15, end=place(3, 30)), both, "a range")
    same(actions(LEAST, 3, 30, end=place(3, 15)), both, "a swapped range")
    same(actions(LEAST, 3, 12, end=place(3, 16)), {}, "a range that begins before the name")


# each row: a text in which the uses of a constant are marked, the value written there, and the actions that aren't
# offered
INLINED: List[Tuple[str, Optional[str], List[str]]] = [
    ("MODULE M; CONST c = -5; VAR a: INTEGER; BEGIN a := a - ⟦c⟧; Write(⟦c⟧ DIV 3); Write(a) END M.", "(-5)", []),
    ("MODULE M; CONST k = 2; c = k * 3; d = ⟦c⟧ - k; VAR a: ARRAY ⟦c⟧ OF INTEGER; BEGIN a[⟦c⟧ - 1] := d; Write(a[5]) END M.", "6", []),
    ("MODULE M; CONST t = 1 = 1; u = ~⟦t⟧; BEGIN IF ⟦t⟧ & ~u THEN Write(1) ELSE Write(0) END END M.", "TRUE", []),
    ("MODULE M; CONST TRUE = 1 = 1; BEGIN IF ⟦TRUE⟧ THEN Write(1) ELSE Write(0) END END M.", None, ["Inline here", "Inline everywhere"]),
    ("MODULE M; CONST TRUE = 1 = 1; t = TRUE; BEGIN IF ⟦t⟧ THEN Write(1) END END M.", None, ["Inline here", "Inline everywhere"]),
    ("MODULE M; CONST TRUE = 1 = 2; BEGIN IF ⟦TRUE⟧ THEN Write(1) ELSE Write(0) END END M.", "FALSE", []),
    ("MODULE M; CONST c (* five *) = 5; BEGIN Write(⟦c⟧); Write(⟦c⟧ * 2) END M.", "5", ["Inline everywhere"]),
    ("MODULE M; CONST c = (* five *) 5; BEGIN Write(⟦c⟧) END M.", "5", ["Inline everywhere"]),
    ("MODULE M; CONST c = 5 (* five *) ; BEGIN Write(⟦c⟧) END M.", "5", ["Inline everywhere"]),
    ("MODULE M; CONST (* five *) c = 5; (* so *) BEGIN Write(⟦c⟧) END M.", "5", []),
    ("MODULE M; CONST c = 5; PROCEDURE P(c: INTEGER); BEGIN Write(c) END P; PROCEDURE Q; CONST d = ⟦c⟧; c = 7; BEGIN Write(c); Write(d) END Q; BEGIN P(⟦c⟧); Q END M.", "5", []),
    ("MODULE M; CONST c = 2147483647; BEGIN REPEAT UNTIL ⟦c⟧ = 2147483647; Write(-⟦c⟧) END M.", "2147483647", []),
]


@test("inline: both actions make the expected edits, and the module's output is unchanged")
def inline_runs() -> None:
    for text, written, refused in INLINED:
        plain, uses = unmarked(text)
        out = on_file("run", plain).out
        for use in uses:
            at = extent(use)
            with Server(capabilities=LITERALS) as server:
                server.notify(did_open(plain, URI))
                params = acting(at["end"]["line"], at["end"]["character"])
                found = {it["title"]: it["edit"]["changes"][URI] for it in server.query("textDocument/codeAction", params)["result"]}
            same([*found], [it for it in ("Inline here", "Inline everywhere") if it not in refused], f"what is offered at {use} of {plain}")
            for title, edits in found.items():
                wanted = [use] if title == "Inline here" else uses
                same([it["range"] for it in edits if it["newText"]], [extent(it) for it in wanted], f"{title} at {use} of {plain}")
                same({it["newText"] for it in edits}, {written} if title == "Inline here" else {written, ""}, plain)
                ends(on_file("run", patched(plain, edits)), out, 0)


def inlinings(text: str, line: int, character: int) -> dict[str, str]:
    """Returns for each action offered at a position, by its title, the text after its edits."""
    found = actions(text, line, character)
    return {title: patched(text, [{"newText": new, "range": it} for it, new in edits]) for title, edits in found.items()}


@test("inline: inlining a negative constant, here or everywhere, doesn't change what the module prints")
def inline_negative() -> None:
    rows = [
        (LEAST, 3, 15, "0 + c", "0 + (-2147483647 - 1)", "c = -2147483647 - 1;", " -2147483648"),
        (FIVE, 0, 36, "c DIV 3", "(-5) DIV 3", "c = -5;", " -2"),
    ]
    for text, line, character, use, written, declared, out in rows:
        here = text.replace(use, written)
        found = inlinings(text, line, character)
        same(found, {"Inline here": here, "Inline everywhere": here.replace(declared, "")}, text)
        for it in (text, *found.values()):
            ends(on_file("run", it), out, 0)


@test("inline: `Inline everywhere` removes the declaration of a constant that is never used")
def inline_unused() -> None:
    text = "MODULE M; CONST c = 5; d = 6; BEGIN Write(d) END M."
    same(actions(text, 0, 16), {"Inline everywhere": [(extent("0:16-0:22"), "")]})


@test("inline: no action is offered in an invalid module, after the text, or at anything except a declared constant")
def inline_nowhere() -> None:
    text = "MODULE M; TYPE R = RECORD c: INTEGER END; VAR x: R; PROCEDURE P; BEGIN IF TRUE THEN x.c := 1 END END P; BEGIN P; Write(x.c) END M."
    for what in ("M", "R", "c", "INTEGER", "x", "P", "TRUE", "1", "Write", "IF", "; VAR"):
        same(actions(text, 0, text.index(what)), {}, f"at {what}")
    same(actions("MODULE M", 0, 7), {}, "a text that isn't well-typed")
    same(actions(LEAST, 99, 0), {}, "after the text")


@test("inline: an action isn't offered if it would make the text too long")
def inline_longest() -> None:
    text = "MODULE M; CONST c = 10; d = c + c; END M."
    whole: Callable[[int], dict[str, Any]] = lambda size: actions(text.ljust(size), 0, text.index("c +"))
    same([*whole(1048576 - 1)], ["Inline here", "Inline everywhere"])
    same([*whole(1048576)], ["Inline everywhere"], "the text would be too long by one use")


@test("inline: a request with malformed params, for a document that isn't open, or after a malformed change is refused")
def inline_refused() -> None:
    bad = {"code": -32602, "message": "bad params"}
    for support in (LITERALS, {}):
        with Server(capabilities=support) as server:
            ask: Callable[[object], Any] = lambda params: server.query("textDocument/codeAction", params).get("error")
            same(ask(acting(0, 0)), {"code": -32803, "message": "unopened"})
            server.notify(did_open(LEAST, URI))
            for lacking in ("context", "range", "textDocument"):
                same(ask({key: it for key, it in acting(0, 0).items() if key != lacking}), bad, f"without {lacking}")
            for context in (1, [], {"only": 1}, {"only": {}}, {"only": [[]]}):
                same(ask(acting(0, 0, context)), bad, f"context {context}")
            same(ask({**acting(0, 0), "range": place(0, 0)}), bad, "a range that is none")
            same(ask(acting(0, 0, {"only": None})), None, "an `only` that is null")
            server.send(did_change([{"range": {}, "text": ""}], URI))
            same(ask(acting(0, 0)), {"code": -32803, "message": "out of step"})


# each row: tabSize, insertSpaces, a text, and the formatted text
LAYOUTS = [
    (
        2,
        True,
        "MODULE M;VAR x:INTEGER;BEGIN x:=-1;IF x<0 THEN Write(x)(* a (* b *) c *)END;WriteLn END M.(* end *)",
        "MODULE M;\nVAR\n  x: INTEGER;\nBEGIN\n  x := -1;\n  IF x < 0 THEN\n    Write(x) (* a (* b *) c *)\n  END;\n  WriteLn\nEND M. (* end *)\n",
    ),
    (
        4,
        False,
        "MODULE M;CONST a=1;b=-a;TYPE T=RECORD x,y:INTEGER END;PROCEDURE P(VAR t:T;n:INTEGER);BEGIN t.x:=-n+t.y;WHILE ~(n=0)DO P(t,n-1)END END P;END M.",
        "MODULE M;\nCONST\n\ta = 1;\n\tb = -a;\nTYPE\n\tT = RECORD x, y: INTEGER END;\n\tPROCEDURE P(VAR t: T; n: INTEGER);\n\tBEGIN\n"
        "\t\tt.x := -n + t.y;\n\t\tWHILE ~(n = 0) DO\n\t\t\tP(t, n - 1)\n\t\tEND\n\tEND P;\nEND M.\n",
    ),
    (2, True, "MODULE M; BEGIN ; WriteLn; END M.", "MODULE M;\nBEGIN;\n  WriteLn;\nEND M.\n"),
    (0, True, "MODULE M; BEGIN WriteLn END M.", "MODULE M;\nBEGIN\n WriteLn\nEND M.\n"),
    (99, True, "MODULE M; BEGIN WriteLn END M.", "MODULE M;\nBEGIN\n" + " " * 16 + "WriteLn\nEND M.\n"),
    (
        2,
        True,
        "MODULE M;\nVAR n: INTEGER;\nBEGIN Read(n); REPEAT Write(n); n := n - 1 UNTIL n <= 0 END M.\n",
        "MODULE M;\nVAR\n  n: INTEGER;\nBEGIN\n  Read(n);\n  REPEAT\n    Write(n);\n    n := n - 1\n  UNTIL n <= 0\nEND M.\n",
    ),
    (
        2,
        True,
        "(* a *)MODULE M;(* b *)\r\n(* c *)  VAR x:INTEGER;(*d*)y:INTEGER;\n\n(* e *) END (* f *) M .\n\n(* g *)",
        "(* a *)\nMODULE M; (* b *)\n(* c *)\nVAR\n  x: INTEGER; (*d*)\n  y: INTEGER;\n(* e *)\nEND (* f *) M.\n(* g *)\n",
    ),
]


def formatted(text: str, size: int, spaces: bool) -> tuple[list[Message], str]:
    """Formats a text through `serve`. Returns the edits, and the text after them."""
    with Server() as server:
        server.notify(did_open(text, URI))
        options = {"insertSpaces": spaces, "tabSize": size}
        found = server.query("textDocument/formatting", {"options": options, "textDocument": {"uri": URI}})["result"]
    return found, patched(text, found)


@test("format: each sample is formatted as expected, and formatting the result changes nothing")
def formats() -> None:
    for size, spaces, text, wanted in LAYOUTS:
        _, found = formatted(text, size, spaces)
        same(found, wanted, text)
        same(formatted(wanted, size, spaces)[0], [], "formatted again")


@test("format: the edits of a module on one line have exactly the expected bytes, and cover only gaps between tokens")
def gaps() -> None:
    options = {"insertSpaces": True, "tabSize": 2}
    query = request(2, "textDocument/formatting", {"options": options, "textDocument": {"uri": URI}})
    found = serve(frames([initialize(), did_open("MODULE M;BEGIN WriteLn END M.", URI), query])).contents()[2]
    same(
        found,
        '{"id":2,"jsonrpc":"2.0","result":[{"newText":"\\n","range":{"end":{"character":9,"line":0},"start":{"character":9,"line":0}}},'
        '{"newText":"\\n  ","range":{"end":{"character":15,"line":0},"start":{"character":14,"line":0}}},'
        '{"newText":"\\n","range":{"end":{"character":23,"line":0},"start":{"character":22,"line":0}}},'
        '{"newText":"\\n","range":{"end":{"character":29,"line":0},"start":{"character":29,"line":0}}}]}',
    )


@test("format: malformed options are refused as `bad params`, and a module with an error is refused as `ill-typed`")
def options() -> None:
    with Server() as server:
        server.notify(did_open("MODULE M; END M.", URI))
        ask: Callable[[object], Any] = lambda given: server.query("textDocument/formatting", {"options": given, "textDocument": {"uri": URI}})
        for given in ({}, {"tabSize": -1, "insertSpaces": True}, {"tabSize": 1.5, "insertSpaces": True}, {"tabSize": 2}, None):
            same(ask(given).get("error"), {"code": -32602, "message": "bad params"}, json.dumps(given))
        same("result" in ask({"tabSize": 18446744073709551615, "insertSpaces": True, "x": 1}), True)
        server.notify(did_open("MODULE M", URI))
        same(ask({"tabSize": 2, "insertSpaces": True}).get("error"), {"code": -32803, "message": "ill-typed"})


def short_statements(longer: int) -> str:
    """Returns a module on one line. Formatted with 16 spaces it has 1,048,573 bytes, and one more for each of the
    `longer` calls of Write."""
    return "MODULE M;BEGIN " + "Write(1);" * longer + "WriteLn;" * (41942 - longer) + "END M."


def length_after(text: str, edits: list[Message]) -> int:
    """Returns the length in bytes of an ASCII text on one line after these edits."""
    ranges: list[tuple[str, int, int]] = [
        (it["newText"], it["range"]["start"]["character"], it["range"]["end"]["character"]) for it in edits
    ]
    return len(text) + sum(len(new) - (end - start) for new, start, end in ranges)


@test("format: a result of the greatest length is sent, and a longer result is refused as TooLong")
def longest_layout() -> None:
    params = {"options": {"insertSpaces": True, "tabSize": 16}, "textDocument": {"uri": URI}}
    with Server() as server:
        text = short_statements(3)
        same(server.notify(did_open(text, URI)), [], "the diagnostics of the text")
        found = server.query("textDocument/formatting", params)
        same(length_after(text, found["result"]), 1048576, "the layout's length")
        same(server.notify(did_open(short_statements(4), URI)), [], "the diagnostics of the longer text")
        found = server.query("textDocument/formatting", params)
        same(found, {"error": {"code": -32803, "message": "TooLong"}, "id": 3, "jsonrpc": "2.0"})
