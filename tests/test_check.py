"""Tests `ob0 check` and the diagnostics about scopes and types: examples of each code, limits of size, and files that
can't be read."""
from __future__ import annotations

import os
import subprocess
import tempfile
from collections.abc import Callable
from typing import Any

import harness
from harness import Ended, Server, did_open, ends, marked, on_file, run, same, test

LONG = """MODULE M;
CONST k = 1 DIV 0; m = 1;
VAR i: INTEGER; b: BOOLEAN;
PROCEDURE P(VAR j: INTEGER); BEGIN j := 1 END Q;
BEGIN i := b; P(3); P; z := 1; i.f := 1; i[0] := 1; Write(P); m := 2 END M.
"""
LONG_TOLD = """1:10: ConstFault: constant has a fault
3:46: EndName: wrong closing name
4:11: TypeMismatch: wrong type
4:16: NotVariable: not a variable
4:20: ArgumentCount: wrong number of arguments
4:23: Undeclared: not declared
4:32: NotRecord: not a record
4:42: NotArray: not an array
4:58: WrongKind: wrong kind of name
4:62: NotVariable: not a variable
"""


@test("check: `ob0 check` prints the expected ten lines for a module with ten errors")
def ten_faults() -> None:
    ends(on_file("check", LONG), LONG_TOLD, 1)


@test("check: two array types that are written separately are different types, even if they are otherwise equal")
def arrays() -> None:
    ends(
        on_file("check", "MODULE M; VAR a: ARRAY 3 OF INTEGER; b: ARRAY 3 OF INTEGER; BEGIN a := b END M."),
        "0:71: TypeMismatch: wrong type\n",
        1,
    )
    ends(on_file("check", "MODULE M; VAR a, b: ARRAY 3 OF INTEGER; BEGIN a := b END M."), "", 0)
    ends(on_file("check", "MODULE M; TYPE T = ARRAY 3 OF INTEGER; VAR a: T; b: T; BEGIN a := b END M."), "", 0)


def chain(count: int) -> str:
    """Returns a module with `count` types, each an array of length 1 whose elements have the previous type."""
    names = ["INTEGER", *(f"A{at}" for at in range(1, count + 1))]
    types = "".join(f"\n{name} = ARRAY 1 OF {before};" for before, name in zip(names, names[1:]))
    return f"MODULE M; TYPE{types}\nEND M."


@test("check: types at the limits of size, length and nesting are accepted, and types over a limit are reported")
def sizes() -> None:
    of: Callable[[str], Ended] = lambda text: on_file("check", f"MODULE M; VAR a: {text}; END M.")
    ends(of("ARRAY 256 OF ARRAY 256 OF INTEGER"), "", 0)
    ends(of("ARRAY 256 OF ARRAY 257 OF INTEGER"), "0:17: TypeTooLarge: type too large\n", 1)
    ends(of("ARRAY 65536 OF INTEGER"), "", 0)
    ends(of("ARRAY 65537 OF INTEGER"), "0:23: ArrayLength: bad array length\n", 1)
    ends(of("ARRAY 65536 OF RECORD END"), "", 0)
    ends(of("RECORD a: ARRAY 65535 OF BOOLEAN; b: INTEGER END"), "", 0)
    ends(of("RECORD a: ARRAY 65535 OF BOOLEAN; b, c: INTEGER END"), "0:17: TypeTooLarge: type too large\n", 1)
    ends(on_file("check", chain(100)), "", 0)
    ends(on_file("check", chain(101)), "101:7: TypeTooLarge: type too large\n", 1)


# Texts in which each error is marked, with the errors' codes.
EXAMPLES = [
    # names
    ("MODULE M; VAR x: INTEGER; ⟦x⟧: BOOLEAN; END M.", "Duplicate"),
    ("MODULE M; VAR x, ⟦x⟧, ⟦x⟧: INTEGER; END M.", "Duplicate", "Duplicate"),
    ("MODULE M; CONST c = 1; TYPE ⟦c⟧ = INTEGER; END M.", "Duplicate"),
    ("MODULE M; PROCEDURE P(a: INTEGER); VAR ⟦a⟧: INTEGER; END P; END M.", "Duplicate"),
    ("MODULE M; PROCEDURE P(a: INTEGER; VAR ⟦a⟧: BOOLEAN); END P; END M.", "Duplicate"),
    ("MODULE M; PROCEDURE P; END P; PROCEDURE ⟦P⟧; END P; END M.", "Duplicate"),
    ("MODULE M; VAR r: RECORD a: INTEGER; ⟦a⟧: BOOLEAN END; BEGIN r.a := 1 END M.", "Duplicate"),
    ("MODULE M; VAR x: INTEGER; ⟦x⟧: BOOLEAN; BEGIN x := TRUE END M.", "Duplicate"),
    ("MODULE M; VAR INTEGER, TRUE, Write, x: BOOLEAN; PROCEDURE P; VAR x: BOOLEAN; END P; END M.",),
    ("MODULE M; BEGIN ⟦x⟧ := 1 END M.", "Undeclared"),
    ("MODULE M; BEGIN ⟦M⟧ := 1 END M.", "Undeclared"),
    ("MODULE M; CONST a = ⟦b⟧; b = 1; c = ⟦c⟧; END M.", "Undeclared", "Undeclared"),
    ("MODULE M; TYPE a = ARRAY 2 OF ⟦a⟧; b = RECORD x: ⟦b⟧ END; END M.", "Undeclared", "Undeclared"),
    ("MODULE M; PROCEDURE P; BEGIN P; ⟦Q⟧ END P; PROCEDURE Q; BEGIN P; Q END Q; BEGIN P; Q END M.", "Undeclared"),
    ("MODULE M; PROCEDURE P(a: ⟦P⟧); END P; END M.", "Undeclared"),
    ("MODULE M; PROCEDURE P; VAR x: INTEGER; PROCEDURE Q; BEGIN x := 1 END Q; END P; BEGIN ⟦x⟧ := 1 END M.", "Undeclared"),
    ("MODULE M; VAR x: INTEGER; PROCEDURE P; VAR y: INTEGER; PROCEDURE Q; BEGIN x := 1; y := 2 END Q; END P; END M.",),
    ("MODULE M; CONST c = 1; PROCEDURE P; CONST c = c + 1; VAR a: ARRAY c OF INTEGER; BEGIN a[1] := c END P; END M.",),
    ("MODULE M; TYPE T = INTEGER; PROCEDURE P(T: INTEGER; x: ⟦T⟧); END P; END M.", "WrongKind"),
    ("MODULE M; END ⟦N⟧.", "EndName"),
    ("MODULE M; PROCEDURE P; END ⟦M⟧; END M.", "EndName"),
    # kinds of names
    ("MODULE M; CONST c = 1; VAR x: ⟦c⟧; END M.", "WrongKind"),
    ("MODULE M; VAR x: ⟦TRUE⟧; y: ⟦Write⟧; END M.", "WrongKind", "WrongKind"),
    ("MODULE M; VAR x: INTEGER; BEGIN x := ⟦INTEGER⟧; x := ⟦WriteLn⟧; ⟦x⟧ END M.", "WrongKind", "WrongKind", "WrongKind"),
    ("MODULE M; PROCEDURE P; END P; BEGIN ⟦P⟧ := 1; ⟦INTEGER⟧ := 1; ⟦Read⟧[0] := 1 END M.", "WrongKind", "WrongKind", "WrongKind"),
    ("MODULE M; BEGIN ⟦TRUE⟧; ⟦INTEGER⟧(1) END M.", "WrongKind", "WrongKind"),
    ("MODULE M; BEGIN Read(⟦Read⟧); Read(⟦INTEGER⟧); Write(⟦Write⟧) END M.", "WrongKind", "WrongKind", "WrongKind"),
    # types
    ("MODULE M; VAR i: INTEGER; b: BOOLEAN; BEGIN i := ⟦b⟧; b := ⟦i⟧; b := b; i := i END M.", "TypeMismatch", "TypeMismatch"),
    ("MODULE M; VAR b: BOOLEAN; BEGIN b := ⟦TRUE⟧ + FALSE END M.", "TypeMismatch"),
    ("MODULE M; VAR b: BOOLEAN; BEGIN b := 1 < ⟦TRUE⟧; b := 1 = ⟦TRUE⟧; b := TRUE # ⟦2⟧ END M.", "TypeMismatch", "TypeMismatch", "TypeMismatch"),
    ("MODULE M; VAR a: ARRAY 2 OF INTEGER; b: BOOLEAN; BEGIN b := ⟦a⟧ = a; b := ⟦a⟧ # 1; b := 1 = ⟦a⟧ END M.", "TypeMismatch", "TypeMismatch", "TypeMismatch"),
    ("MODULE M; VAR b: BOOLEAN; BEGIN b := ~⟦1⟧; b := b & ⟦1⟧; b := ⟦2⟧ OR b; b := -⟦b⟧ = 1 END M.", "TypeMismatch", "TypeMismatch", "TypeMismatch", "TypeMismatch"),
    ("MODULE M; BEGIN IF ⟦1⟧ THEN ELSIF ⟦2⟧ THEN END; WHILE ⟦3⟧ DO END; REPEAT UNTIL ⟦4⟧ END M.", *["TypeMismatch"] * 4),
    ("MODULE M; VAR a: ARRAY 2 OF INTEGER; BEGIN a[⟦TRUE⟧] := 1; a[0] := ⟦FALSE⟧; a[a[1]] := 2 END M.", "TypeMismatch", "TypeMismatch"),
    ("MODULE M; BEGIN Write(⟦TRUE⟧); Write(1) END M.", "TypeMismatch"),
    ("MODULE M; VAR b: BOOLEAN; BEGIN Read(⟦b⟧) END M.", "TypeMismatch"),
    ("MODULE M; TYPE R = RECORD x: INTEGER END; VAR a, b: R; c: RECORD x: INTEGER END; BEGIN a := b; a := ⟦c⟧; a.x := c.x END M.", "TypeMismatch"),
    ("MODULE M; VAR a: ARRAY ⟦TRUE⟧ OF INTEGER; END M.", "TypeMismatch"),
    ("MODULE M; VAR i: INTEGER; BEGIN i := ⟦1 = 2⟧; i := ⟦~TRUE⟧ END M.", "TypeMismatch", "TypeMismatch"),
    # constants
    ("MODULE M; VAR n: INTEGER; a: ARRAY ⟦n⟧ OF INTEGER; END M.", "NotConstant"),
    ("MODULE M; CONST c = ⟦2147483647 + 1⟧; d = ⟦-(-2147483647 - 1)⟧; e = ⟦7 MOD (-2)⟧; f = ⟦1 DIV 0⟧; END M.", *["ConstFault"] * 4),
    ("MODULE M; CONST c = FALSE & (1 DIV 0 = 1); d = TRUE OR (1 DIV 0 = 1); e = -2147483647 - 1; f = (-7) DIV 2; END M.",),
    ("MODULE M; VAR a: ARRAY ⟦1 DIV 0⟧ OF INTEGER; BEGIN a := 1; a[0] := TRUE END M.", "ConstFault"),
    ("MODULE M; VAR a: ARRAY ⟦0⟧ OF INTEGER; b: ARRAY ⟦65537⟧ OF INTEGER; c: ARRAY ⟦-1⟧ OF INTEGER; END M.", *["ArrayLength"] * 3),
    ("MODULE M; CONST n = (-7) DIV 2; VAR a: ARRAY n + 5 OF INTEGER; END M.",),
    ("MODULE M; CONST n = (-7) DIV 2; VAR a: ARRAY ⟦n + 4⟧ OF INTEGER; END M.", "ArrayLength"),
    # sizes
    ("MODULE M; VAR a: ⟦ARRAY⟧ 256 OF ARRAY 257 OF INTEGER; END M.", "TypeTooLarge"),
    ("MODULE M; TYPE R = ⟦RECORD⟧ a: ARRAY 65535 OF BOOLEAN; b, c: INTEGER END; VAR r: R; BEGIN r := 1 END M.", "TypeTooLarge"),
    # calls
    ("MODULE M; PROCEDURE P(x: INTEGER); END P; BEGIN ⟦P⟧; ⟦P⟧(1, 2); P(3); ⟦P⟧(TRUE, FALSE) END M.", *["ArgumentCount"] * 3),
    ("MODULE M; BEGIN ⟦Read⟧; ⟦Write⟧(); ⟦WriteLn⟧(1); WriteLn; WriteLn() END M.", *["ArgumentCount"] * 3),
    ("MODULE M; PROCEDURE P; END P; BEGIN ⟦P⟧(⟦u⟧) END M.", "ArgumentCount", "Undeclared"),
    ("MODULE M; CONST c = 1; BEGIN ⟦c⟧ := 2; ⟦TRUE⟧ := FALSE; Read(⟦c⟧) END M.", "NotVariable", "NotVariable", "NotVariable"),
    ("MODULE M; VAR x: INTEGER; BEGIN Read(⟦3⟧); Read(⟦x + 1⟧); Read(⟦(x)⟧); Read(⟦TRUE⟧); Read(x) END M.", *["NotVariable"] * 4),
    ("MODULE M; PROCEDURE P(x: INTEGER); BEGIN x := 1; Read(x) END P; BEGIN P(2) END M.",),
    ("MODULE M; CONST c = 1; BEGIN ⟦c⟧ := ⟦u⟧ END M.", "NotVariable", "Undeclared"),
    # selectors
    ("MODULE M; VAR r: RECORD a: INTEGER END; BEGIN r.⟦b⟧ := 1; r.a := 2 END M.", "NoField"),
    ("MODULE M; VAR x: INTEGER; BEGIN x⟦[⟧0] := 1; x⟦.⟧f := 1 END M.", "NotArray", "NotRecord"),
    ("MODULE M; VAR x: INTEGER; BEGIN x⟦[⟧⟦TRUE⟧] := 1 END M.", "NotArray", "TypeMismatch"),
    ("MODULE M; VAR a: ARRAY 2 OF RECORD b: ARRAY 3 OF INTEGER END; BEGIN a[1].b[2] := a[0].b[1]; a⟦.⟧b := 1 END M.", "NotRecord"),
    # an error causes no second one
    ("MODULE M; VAR b: BOOLEAN; BEGIN b := ⟦u⟧ + 1; b := ⟦v⟧ END M.", "Undeclared", "Undeclared"),
    ("MODULE M; VAR a: ARRAY 2 OF INTEGER; BEGIN a[⟦TRUE⟧] := TRUE END M.", "TypeMismatch"),
    ("MODULE M; VAR x: ⟦t⟧; BEGIN x := 1; x := TRUE; x.f := 1; x[0] := 2 END M.", "Undeclared"),
    ("MODULE M; BEGIN ⟦P⟧(TRUE, 1 + ⟦FALSE⟧) END M.", "Undeclared", "TypeMismatch"),
]


@test("check: `serve` publishes the expected code and range for each example of a scope or type error")
def examples() -> None:
    with Server() as server:
        for text, *codes in EXAMPLES:
            plain, wanted = marked(text, *codes)
            same(server.notify(did_open(plain)), wanted, text)


@test("check: `ob0 check` prints the expected line for each example of a scope or type error")
def examples_checked() -> None:
    for text, *codes in EXAMPLES:
        plain, wanted = marked(text, *codes)
        lines = [f"{it['range']['start']['line']}:{it['range']['start']['character']}: {it['code']}: {it['message']}\n" for it in wanted]
        ends(on_file("check", plain), "".join(lines), 1 if lines else 0)


@test("check: only the first 100 errors of a module with 1,000 errors are reported")
def hundred() -> None:
    with Server() as server:
        text = "MODULE M; BEGIN" + " x;" * 1000 + " END M."
        found = server.notify(did_open(text))
    same([it["range"]["start"]["character"] for it in found], [16 + 3 * at for at in range(100)], "where")


@test("check: a module may assign to parameters, call procedures recursively, and repeat field names")
def well_typed() -> None:
    texts = [
        "MODULE M; VAR r: RECORD a: INTEGER END; s: RECORD a: BOOLEAN END; BEGIN r.a := 1; s.a := TRUE END M.",
        "MODULE M; PROCEDURE P(VAR a: INTEGER; b: INTEGER); BEGIN a := b; b := a; P(b, a) END P; END M.",
        "MODULE M; TYPE T = INTEGER; U = T; VAR x: T; y: U; BEGIN x := y; y := x + 1 END M.",
        "MODULE M; CONST a = TRUE; b = a & ~FALSE; c = b = a; VAR x: BOOLEAN; BEGIN x := a; x := c OR b END M.",
    ]
    for text in texts:
        ends(on_file("check", text), "", 0)


@test("check: `check` reports unclosed comments, too large numbers and bad characters at their positions")
def scanning() -> None:
    ends(on_file("check", "12ab $"), "0:0: NumberJoinsLetter: letter after number\n0:5: BadChar: bad character\n", 1)
    ends(on_file("check", "MODULE M;\n(* 😀 *) $"), "1:9: BadChar: bad character\n", 1)
    ends(on_file("check", "MODULE M;\n(* (* *) END M."), "1:0: OpenComment: comment not closed\n", 1)
    ends(on_file("check", "MODULE M; CONST c = 2147483648; END M."), "0:20: NumberTooLarge: number too large\n", 1)
    ends(
        on_file("check", "MODULE M;\nCONST c = 002147483648; d = 2147483647; (* 😀 END M."),
        "1:10: NumberTooLarge: number too large\n1:40: OpenComment: comment not closed\n",
        1,
    )


@test("check: errors of scopes and types aren't reported if the text has a lexical or syntax error")
def earlier() -> None:
    ends(on_file("check", "MODULE M; BEGIN x := 1a END M."), "0:21: NumberJoinsLetter: letter after number\n", 1)
    ends(on_file("check", "MODULE M; BEGIN x = 1 END M."), "0:18: Syntax: expected END\n", 1)
    ends(on_file("check", ""), "0:0: Syntax: expected MODULE\n", 1)
    deep = "MODULE M; VAR x: INTEGER; BEGIN x := " + "(" * 101 + "1" + ")" * 101 + " END M."
    ends(on_file("check", deep), "0:137: TooDeep: nested too deep\n", 1)


@test("check: a missing or non-UTF-8 file ends `ob0 check` with status 4, and a text that is too long is an error")
def files() -> None:
    good = "MODULE M; VAR x: INTEGER; END M."
    too_long = "0:0: TooLong: text too long\n"
    ends(run(["check", "/nowhere/m.mod"]), "", 4, "fault: File\n")
    ends(run(["check", "/"]), "", 4, "fault: File\n")
    ends(on_file("check", b"MODULE M; (* \xff *) END M."), "", 4, "fault: Utf8\n")
    ends(on_file("check", b"MODULE M; \xed\xa0\x80 END M."), "", 4, "fault: Utf8\n")
    ends(on_file("check", good.ljust(1048576)), "", 0)
    ends(on_file("check", good.ljust(1048577)), too_long, 1)
    ends(on_file("check", b"\xff" * 1048577), too_long, 1)
    ends(on_file("check", b"\xff" * 3000000), too_long, 1)
    ends(on_file("check", good, name="a b é.mod"), "", 0)


@test("check: `ob0 check` without a file, with two files or with an unknown option ends with status 2")
def lines() -> None:
    for words in (["check"], ["check", "a", "b"], ["check", "--x", "a"]):
        found = run(words)
        same((found.out, bool(found.err), found.status), (b"", True, 2), " ".join(words))


@test("check: `ob0 check` ends with `fault: Write` and status 4 if its output is a full device")
def full() -> None:
    with tempfile.TemporaryDirectory() as room:
        file = os.path.join(room, "m.mod")
        with open(file, "w", encoding="utf-8") as it:
            it.write(LONG)
        with open("/dev/full", "wb") as device:
            how: dict[str, Any] = {"stdin": subprocess.DEVNULL, "stdout": device, "stderr": subprocess.PIPE}
            ran = subprocess.run([harness.BINARY, "check", file], timeout=harness.SECONDS, check=False, **how)
    same((ran.stderr, ran.returncode), (b"fault: Write\n", 4))
