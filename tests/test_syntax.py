"""Tests the parser's diagnostics: they are at the first unexpected token, and say what was expected instead."""
from __future__ import annotations

from harness import Server, diagnostic, did_open, ends, frames, initialize, on_file, same, serve, test

# each text with the place of its error and what is expected there
EXPECTED = {
    "": ("0:0-0:0", "MODULE"),
    "MODULE M; BEGIN x = 1 END M.": ("0:18-0:19", "END"),
    "MODULE M; BEGIN x[0] END M.": ("0:21-0:24", ":="),
    "MODULE M; VAR x INTEGER; END M.": ("0:16-0:23", ":"),
    "MODULE M; VAR x: ; END M.": ("0:17-0:18", "type"),
    "MODULE M; END M. x": ("0:17-0:18", "end of text"),
    "MODULE M; BEGIN WriteLn END M": ("0:29-0:29", "."),
    "MODULE M; VAR UNTIL: INTEGER; END M.": ("0:14-0:19", "END"),
    "MODULE M; BEGIN x.1 := 2 END M.": ("0:18-0:19", "identifier"),
    "MODULE M; BEGIN x := END M.": ("0:21-0:24", "expression"),
    "MODULE M; BEGIN x := a - -5 END M.": ("0:25-0:26", "expression"),
    "MODULE M; BEGIN x := (1 END M.": ("0:24-0:27", ")"),
    "MODULE M; BEGIN x := a[1 END M.": ("0:25-0:28", "]"),
    "MODULE M; BEGIN IF x END M.": ("0:21-0:24", "THEN"),
    "MODULE M; BEGIN IF x THEN ELSE ELSE END END M.": ("0:31-0:35", "END"),
    "MODULE M; BEGIN WHILE x END M.": ("0:24-0:27", "DO"),
    "MODULE M; BEGIN REPEAT x := 1 END M.": ("0:30-0:33", "UNTIL"),
    "MODULE M; BEGIN REPEAT UNTIL END M.": ("0:29-0:32", "expression"),
    "MODULE M; TYPE T = ARRAY 3 INTEGER; END M.": ("0:27-0:34", "OF"),
    "MODULE M; TYPE T = RECORD x: INTEGER; END M.": ("0:42-0:43", ";"),
    "MODULE M; CONST c 1; END M.": ("0:18-0:19", "="),
    "MODULE M; PROCEDURE P(x); END P; END M.": ("0:23-0:24", ":"),
    "MODULE M; PROCEDURE P; END P END M.": ("0:29-0:32", ";"),
    "MODULE M; PROCEDURE; END M.": ("0:19-0:20", "identifier"),
    "MODULE M": ("0:8-0:8", ";"),
    "MODULE 1": ("0:7-0:8", "identifier"),
    "M": ("0:0-0:1", "MODULE"),
    "MODULE M; BEGIN P(1,) END M.": ("0:20-0:21", "expression"),
    "MODULE M;\r\n(* 😀 *) BEGIN x = 1 END M.": ("1:17-1:18", "END"),
}


@test("syntax: a syntax error is reported at the first unexpected token, with what was expected there")
def expected() -> None:
    with Server() as server:
        for text, (where, what) in EXPECTED.items():
            same(server.notify(did_open(text)), [diagnostic("Syntax", f"expected {what}", where)], repr(text))


@test("syntax: the diagnostic of the empty text is published with exactly the expected bytes")
def empty() -> None:
    wanted = (
        b'{"jsonrpc":"2.0","method":"textDocument/publishDiagnostics","params":{"diagnostics":[{"code":"Syntax",'
        b'"message":"expected MODULE","range":{"end":{"character":0,"line":0},"start":{"character":0,"line":0}},'
        b'"severity":1}],"uri":"file:///m","version":1}}'
    )
    found = serve(frames([initialize(), did_open("")]))
    same(found.contents()[1].encode(), wanted)


@test("syntax: only lexical errors are reported if a text has a lexical error")
def scanning_first() -> None:
    with Server() as server:
        same(server.notify(did_open("MODULE 12ab")), [diagnostic("NumberJoinsLetter", "letter after number", "0:7-0:11")])


DEEP = {
    "parentheses": ("MODULE M; VAR x: INTEGER; BEGIN x := ", "(", "1", ")", " END M.", "0:137-0:138"),
    "IF": ("MODULE M; BEGIN ", "IF TRUE THEN ", "", "END ", "END M.", "0:1316-0:1318"),
    "PROCEDURE": ("MODULE M; ", "PROCEDURE P; ", "", "END P; ", "END M.", "0:1310-0:1319"),
    "ARRAY": ("MODULE M; VAR x: ", "ARRAY 1 OF ", "INTEGER", "", "; END M.", "0:1117-0:1122"),
    "REPEAT": ("MODULE M; BEGIN ", "REPEAT ", "", "UNTIL TRUE ", "END M.", "0:716-0:722"),
}


@test("syntax: 100 nested constructs of one kind are accepted, and the 101st is reported as TooDeep")
def deep() -> None:
    with Server() as server:
        for name, (before, opened, middle, closed, after, where) in DEEP.items():
            for depth, wanted in ((100, []), (101, [diagnostic("TooDeep", "nested too deep", where)])):
                text = before + opened * depth + middle + closed * depth + after
                same(server.notify(did_open(text)), wanted, f"{depth} of {name}")


@test("syntax: long chains, such as 100,000 statements, don't count as nesting")
def chains() -> None:
    count = 100000
    texts = {
        "operands": "MODULE M; VAR x: INTEGER; BEGIN x := 1" + "+1" * count + " END M.",
        "factors": "MODULE M; VAR x: INTEGER; BEGIN x := 1" + "*1" * count + " END M.",
        "statements": "MODULE M; BEGIN" + " WriteLn;" * count + " END M.",
        "empty statements": "MODULE M; BEGIN" + ";" * count + " END M.",
        "ELSIF parts": "MODULE M; BEGIN IF TRUE THEN" + " ELSIF 1=1 THEN" * (count // 2) + " END END M.",
        "declarations": "MODULE M; VAR" + "".join(f" v{at}:INTEGER;" for at in range(count // 2)) + " END M.",
        "names of one declaration": "MODULE M; VAR v" + "".join(f",v{at}" for at in range(count)) + ": INTEGER; END M.",
        "procedures": "MODULE M;" + "".join(f"PROCEDURE p{at};END p{at};" for at in range(count // 3)) + " END M.",
        "fields": "MODULE M; VAR r: RECORD " + "".join(f"f{at}:INTEGER;" for at in range(count // 2)) + " END; END M.",
    }
    with Server() as server:
        for name, text in texts.items():
            same(server.notify(did_open(text)), [], name)
        # (a chain of selectors isn't nested either, but its fields don't exist, so only syntax errors count)
        found = server.notify(did_open("MODULE M; VAR x: INTEGER; BEGIN x" + ".x" * count + " := 1 END M."))
        same([it for it in found if it["code"] in ("Syntax", "TooDeep")], [], "selectors")


@test("syntax: `ob0 check` reports the empty text as `expected MODULE` at its start")
def checked() -> None:
    ends(on_file("check", ""), "0:0: Syntax: expected MODULE\n", 1)
