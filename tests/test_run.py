"""Tests `ob0 run`: its output, its input, the seven ways in which a run can end, the bounds, and the exit statuses."""
from __future__ import annotations

import os
import tempfile
from collections.abc import Callable
from typing import Dict, Tuple

from harness import BINARY, edited, ends, holds, leave_out, on_file, run, same, test
from modules import CALLS, COUNTS, DIVIDES, FIVE, LEAST, NESTED, RECORDS, SHADOWED, WRITES_A_GLOBAL

ALIASES = """MODULE M;
VAR a: ARRAY 2 OF INTEGER; i: INTEGER;
PROCEDURE S(VAR p: INTEGER; q: INTEGER; VAR r: INTEGER);
BEGIN i := 1; p := q + 1; r := p * 10; Write(q) END S;
BEGIN i := 0; S(a[i], a[i], a[i]); Write(a[0]); Write(a[1]); S(i, i, i); Write(i); a[i] := 0 END M.
"""
ACTIVATIONS = """MODULE M;
PROCEDURE P(n: INTEGER);
VAR k: INTEGER;
PROCEDURE Q; BEGIN k := k + n END Q;
BEGIN IF n > 0 THEN P(n - 1) END; Q; Q; Write(k) END P;
BEGIN P(2) END M.
"""
REPEATED = """MODULE M;
VAR n: INTEGER;
BEGIN Read(n); REPEAT Write(n); n := n - 1 UNTIL n <= 0 END M.
"""


def ran(
    text: str | bytes, out: str, end: str = "", given: str = "", calls: int | None = None, turns: int | None = None
) -> None:
    """Runs a module, and requires this output and this end (by default Done)."""
    bounds = [*(["--calls", str(calls)] if calls is not None else []), *(["--turns", str(turns)] if turns is not None else [])]
    ends(on_file("run", text, *bounds, given=given.encode()), out, 1 if end else 0, f"fault: {end}\n" if end else "")


def body(statements: str, variables: str = "x, y: INTEGER; b: BOOLEAN") -> str:
    return f"MODULE M; VAR {variables}; BEGIN {statements} END M."


def four_runs(text: str | bytes) -> None:
    """Runs COUNTS, or a renamed copy of it, with four inputs and bounds, and requires the expected outputs and ends."""
    ran(text, "", "InputEnd")
    ran(text, "\n\n\n", "TurnBound", "7", 0, 3)
    ran(text, "\n\n", "CallBound", "2", 0, 3)
    ran(text, "\n\n 0", "", "2", 1, 3)


@test("run: two modules have the expected outputs and ends for given inputs and bounds on turns and calls")
def bounds() -> None:
    four_runs(COUNTS)
    ran(CALLS, " 2 1", "", "", 3)
    ran(CALLS, " 2 1", "CallBound", "", 2)
    ran(CALLS, " 2 1")


@test("run: renaming a variable doesn't change the outputs and ends of a module with a WHILE")
def renamed_runs() -> None:
    found = on_file("rename", COUNTS, "1", "4", "k")
    ends(found, edited(COUNTS, ["1:4-1:5", "2:25-2:26", "3:11-3:12", "3:21-3:22", "3:30-3:31", "3:35-3:36"], "k"), 0)
    four_runs(found.out)


@test("run: modules with equal field names, constants below 0 or a redeclared name have the expected outputs")
def before_edits() -> None:
    ran(RECORDS, " 3")
    ran(LEAST, " -2147483648")
    ran(FIVE, " -2")
    ran(SHADOWED, "")


@test("run: a name refers to the innermost declaration, and to the right activation of a procedure")
def scopes() -> None:
    ran(NESTED, " 1")
    ran(WRITES_A_GLOBAL, " 2 7")
    ran(ACTIVATIONS, " 0 2 4", "", "", 4)
    ran(ACTIVATIONS, "", "CallBound", "", 3)


@test("run: a VAR parameter is an alias of the element that was selected at the call")
def aliases() -> None:
    ran(ALIASES, " 0 10 0 1 20", "Index", "", 1)
    ran(ALIASES, "", "CallBound", "", 0)


@test("run: 32-bit arithmetic, DIV and MOD give the defined results, or the faults Overflow and Divisor")
def arithmetic() -> None:
    ran(DIVIDES, " -2 -3 2", "Divisor")
    ran(body("Write(2147483647 + 1)"), "", "Overflow")
    ran(body("Write(-(-2147483647 - 1))"), "", "Overflow")
    ran(body("Write(7 MOD (-2))"), "", "Divisor")
    ran(body("Write(7 DIV (-2))"), "", "Divisor")
    ran(body("Write(-2147483647 - 1); Write((-2147483647 - 1) DIV 1); Write((-2147483647 - 1) MOD 2147483647)"), " -2147483648 -2147483648 2147483646")
    ran(body("Write(65536 * 32767); Write(65536 * (-32768)); Write(65536 * 32768)"), " 2147418112 -2147483648", "Overflow")
    ran(body("Write(-1); Write(+1); Write(007); Write(- 7 MOD 3); Write(1 - 2 - 3); Write(2 + 3 * 4)"), " -1 1 7 -1 -4 14")
    ran(body("x := -2147483647; Write(x - 1); Write(x - 2)"), " -2147483648", "Overflow")


@test("run: relations give the right values, and & and OR don't evaluate an operand that isn't needed")
def truth() -> None:
    shows: Callable[[str], str] = lambda it: f"IF {it} THEN Write(1) ELSE Write(0) END"
    ran(body("; ".join(shows(it) for it in ("1 < 2", "1 <= 1", "2 > 2", "2 >= 2", "1 = 1", "1 # 1", "TRUE = FALSE", "TRUE # b"))), " 1 1 0 1 1 0 0 1")
    ran(body(shows("b & (1 DIV 0 = 1)") + ";" + shows("~b OR (1 DIV 0 = 1)")), " 0 1")
    ran(body(shows("~b & (1 DIV 0 = 1)")), "", "Divisor")
    ran(body(shows("b OR (1 DIV 0 = 1)")), "", "Divisor")


@test("run: IF, WHILE and empty statements have their defined effects, and an endless loop ends with TurnBound")
def statements() -> None:
    ran(body("IF b THEN Write(1) ELSIF x = 0 THEN Write(2) ELSE Write(3) END"), " 2")
    ran(body("IF b THEN Write(1) ELSIF b THEN Write(2) END; WriteLn; ;; Write(4)"), "\n 4")
    ran(body("WHILE x < 3 DO y := 0; WHILE y < 2 DO Write(x * 10 + y); y := y + 1 END; x := x + 1 END"), " 0 1 10 11 20 21")
    ran(body("WHILE x < 3 DO y := 0; WHILE y < 3 DO Write(y); y := y + 1 END; x := x + 1 END", "x, y: INTEGER"), " 0 1 2" * 3, "", "", None, 3)
    ran(body("WHILE TRUE DO x := x + 1 END"), "", "TurnBound")
    ran(body("WHILE x < 100000 DO x := x + 1 END; Write(x)"), " 100000")
    ran(body("WHILE x <= 100000 DO x := x + 1 END; Write(x)"), "", "TurnBound")


@test("run: REPEAT runs its body at least once, and its repetitions count towards the bound on turns")
def repeated() -> None:
    ran(REPEATED, " 0", "", "0", None, 0)
    ran(REPEATED, " 2", "TurnBound", "2", None, 0)
    ran(REPEATED, " 2", "TurnBound", "2", None, 1)
    ran(REPEATED, " 2 1", "", "2", None, 2)


@test("run: arrays and records are copied by value, and an index outside an array ends a run with Index")
def arrays() -> None:
    ran(body("a[0] := 1; b := a; b[0] := 2; Write(a[0]); Write(b[0]); Write(b[1])", "a, b: ARRAY 2 OF INTEGER"), " 1 2 0")
    ran(body("r.x[1].y := 5; Write(r.x[1].y); Write(r.x[0].y); IF ~r.b THEN WriteLn END", "r: RECORD x: ARRAY 2 OF RECORD y: INTEGER END; b: BOOLEAN END"), " 5 0\n")
    ran(body("a[2] := 1", "a: ARRAY 2 OF INTEGER"), "", "Index")
    ran(body("a[-1] := 1", "a: ARRAY 2 OF INTEGER"), "", "Index")
    ran(body("Write(a[5])", "a: ARRAY 2 OF INTEGER"), "", "Index")
    ran(body("a[a[0]] := 1 DIV a[1]", "a: ARRAY 2 OF INTEGER"), "", "Divisor")
    ran(body("a[7] := 1 DIV a[1]", "a: ARRAY 2 OF INTEGER"), "", "Index")
    text = "MODULE M; TYPE A = ARRAY 2 OF INTEGER; VAR a: A; PROCEDURE P(b: A; VAR c: A); BEGIN b[0] := 7; c[1] := b[0]; Write(b[1]) END P; "
    ran(text + "BEGIN P(a, a); Write(a[0]); Write(a[1]) END M.", " 0 0 7")


@test("run: a procedure's variables begin as 0 or FALSE at each call")
def begin_again() -> None:
    ran("MODULE M; PROCEDURE P; VAR x: INTEGER; b: BOOLEAN; BEGIN IF b THEN Write(9) END; x := x + 1; b := TRUE; Write(x) END P; BEGIN P; P END M.", " 1 1")


@test("run: `ob0 run` reads whole numbers between white space, and refuses any other input with `fault: Input`")
def inputs() -> None:
    text = body("Read(x); Read(y); Write(x + y)")
    ran(text, " 3", "", "1 2")
    ran(text, " -2147483648", "", "\t-2147483648\r\n 0 ")
    ran(text, " 8", "", "0001 0007 9 9 9")
    ran(text, "", "InputEnd", "1")
    for given in ("1 x", "1 2 +3", "1 2147483648", "-2147483649", "1 - 2", "1.0 2", "1,2", "--1", "1 2 \x00", "é"):
        ends(on_file("run", text, given=given.encode()), "", 4, "fault: Input\n")
    ends(on_file("run", text, given=b"1 2 \xff"), "", 4, "fault: Input\n")
    ends(on_file("run", text, given=b"1 2".ljust(16777216)), " 3", 0)
    ends(on_file("run", text, given=b"1 2".ljust(16777217)), "", 4, "fault: Input\n")
    ends(on_file("run", DIVIDES, given=b"1 x"), "", 4, "fault: Input\n")


@test("run: `ob0 run` reports a file that isn't well-typed as `check` does, and doesn't read the input")
def ill_typed() -> None:
    ends(on_file("run", "MODULE M; BEGIN x := 1 END M.", given=b"x"), "0:16: Undeclared: not declared\n", 1)
    ends(on_file("run", "", given=b"x"), "0:0: Syntax: expected MODULE\n", 1)
    ends(on_file("run", b"\xff"), "", 4, "fault: Utf8\n")
    ends(run(["run", "/nowhere"]), "", 4, "fault: File\n")


@test("run: `ob0 run` refuses a bound over its limit, or another bad argument, with status 2")
def lines() -> None:
    for words in (["--calls", "65"], ["--turns", "100001"], ["--calls", "-1"], ["--turns=-1"], ["--calls", "x"], ["--calls"], ["y"]):
        found = on_file("run", DIVIDES, *words)
        same((found.out, bool(found.err), found.status), (b"", True, 2), " ".join(words))
    ran(DIVIDES, " -2 -3 2", "Divisor", "", 64, 100000)
    ends(on_file("run", COUNTS, "--turns=3", "--calls=0", given=b"2"), "\n\n", 1, "fault: CallBound\n")
    same(run(["run"]).status, 2)


@test("run: `ob0 run` accepts its options before and after the file")
def options() -> None:
    with tempfile.TemporaryDirectory() as room:
        with open(os.path.join(room, "m.mod"), "w", encoding="utf-8") as file:
            file.write(COUNTS)
        for words in (["--calls", "1", "m.mod", "--turns=1"], ["--turns=1", "--calls=1", "m.mod"], ["m.mod", "--turns", "1", "--calls", "1"]):
            ends(run(["run", *words], b"2", cwd=room), "\n", 1, "fault: TurnBound\n")


@test("run: a predeclared name that is declared again has its new meaning")
def declared_anew() -> None:
    text = "MODULE M; VAR x: INTEGER; PROCEDURE Write(VAR n: INTEGER); BEGIN n := 3 END Write; "
    ran(text + "PROCEDURE P; BEGIN Write(x) END P; BEGIN P; IF x = 3 THEN WriteLn END END M.", "\n")
    ran("MODULE M; CONST TRUE = 1 = 2; BEGIN IF TRUE THEN Write(1) ELSE Write(0) END END M.", " 0")


@test("run: a module that prints 1,000 lines prints all of them")
def long_run() -> None:
    text = body("WHILE x < 1000 DO y := 0; WHILE y < 100 DO Write(y); y := y + 1 END; WriteLn; x := x + 1 END")
    line = "".join(f" {at}" for at in range(100)) + "\n"
    ran(text, line * 1000)


@test("run: an array may have 65,536 elements, and an index outside it ends a run with Index")
def longest_array() -> None:
    text = body("Read(x); a[65535] := 7; Write(a[65535]); Write(a[0]); Write(a[x])", "x: INTEGER; a: ARRAY 65536 OF INTEGER")
    ran(text, " 7 0 7", "", "65535")
    ran(text, " 7 0", "Index", "65536")
    ran(text, " 7 0", "Index", "-1")


@test("run: a procedure that needs 2^32 cells is accepted, and the module runs unless the procedure is called")
def too_many_cells() -> None:
    names = ",".join(f"v{at:x}" for at in range(65536))
    ran(f"MODULE M; TYPE T = ARRAY 65536 OF INTEGER; PROCEDURE P; VAR {names}: T; BEGIN END P; BEGIN Write(1) END M.", " 1")
    ran(f"MODULE M; TYPE T = ARRAY 65536 OF INTEGER; PROCEDURE P(b: INTEGER); VAR {names}: T; BEGIN Write(b) END P; BEGIN Write(1); P(2) END M.", " 1", "CallBound", calls=0)


# for each chain: the function that makes its text, the number of links (as many as fit into 1 MiB, or 100,000), and the
# output
CHAINS: Dict[str, Tuple[Callable[[int], str], int, str]] = {
    "operands of +": (lambda count: body("Write(" + "+".join(["1"] * count) + ")"), 100000, " 100000"),
    "operands of *": (lambda count: body("Write(" + "*".join(["1"] * count) + ")"), 100000, " 1"),
    "operands of &": (lambda count: body("IF " + "&".join(["TRUE"] * count) + " THEN Write(1) END"), 100000, " 1"),
    "operands of OR": (lambda count: body("IF " + " OR ".join(["b"] * count) + " OR TRUE THEN Write(1) END"), 100000, " 1"),
    "ELSIF parts": (lambda count: body("IF b THEN " + "ELSIF b THEN " * count + "ELSE Write(1) END"), 80000, " 1"),
    "statements": (lambda count: body("x:=x+1;" * count + "Write(x)"), 100000, " 100000"),
    "empty statements": (lambda count: body(";" * count + "Write(1)"), 1000000, " 1"),
    "calls": (lambda count: f"MODULE M; VAR x: INTEGER; PROCEDURE P; BEGIN x := x + 1 END P; BEGIN {'P;' * count}Write(x) END M.", 100000, " 100000"),
    "selectors, 100 in each designator": (
        lambda count: f"MODULE M; VAR x: INTEGER; a: {'ARRAY 1 OF ' * 100}INTEGER; BEGIN {('x:=a' + '[0]' * 100 + '+1;') * (count // 100)}Write(x) END M.",
        100000,
        " 1",
    ),
}


@test("run: chains of 80,000 and more operands, ELSIF parts, statements, calls or selectors fit a stack of 4 MiB")
def chains() -> None:
    for name, (make, count, out) in CHAINS.items():
        text = make(count)
        same(len(text) <= 1048576, True, f"{name}: {len(text)} bytes fit")
        found = on_file("run", text, stack=4096)
        same((found.out, found.err, found.status), (out.encode(), b"", 0), name)


@test("run: the functions that a loop calls at each turn are inlined in the program")
def inlined() -> None:
    # (the toolchain silently stops inlining a function that has grown too large, and loops then take a quarter longer)
    with open(BINARY, "rb") as file:
        program = file.read()
    if b"ob0_run_machine::statements::run_while" not in program:
        leave_out("the program has no symbols")
    for name in ("statements::run_statement", "statements::run_sequence_inline", "statements::run_conditional", "call_arguments::pass_arguments"):
        holds(f"ob0_run_machine::{name}".encode() not in program, f"{name} isn't inlined")
