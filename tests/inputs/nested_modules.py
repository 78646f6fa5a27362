"""Generates modules that are nested to any depth, with one construct or a random mix.
Each step opens one construct that counts as a level of nesting, and leads to the position of the next one. There are
five kinds of positions: declarations D, a type T, statements S, an expression E, a factor F."""
from __future__ import annotations

import random
from collections.abc import Callable
from typing import Tuple

Entered = Tuple[str, str, str]

# construct, from where, to where, before (with | before its opening token), after
STEPS = [
    ("parenthesis", "F", "E", "|(", ")"),
    ("not", "F", "F", "|~ ", ""),
    ("index in an expression", "F", "E", "a|[", "]"),
    ("index of a target", "S", "E", "a|[", "] := 1"),
    ("IF, its condition", "S", "E", "|IF ", " THEN END"),
    ("IF, its statements", "S", "S", "|IF TRUE THEN ", " END"),
    ("IF, an ELSIF's condition", "S", "E", "|IF TRUE THEN ELSIF ", " THEN END"),
    ("IF, an ELSIF's statements", "S", "S", "|IF TRUE THEN ELSIF TRUE THEN ", " END"),
    ("IF, an ELSE", "S", "S", "|IF TRUE THEN ELSE ", " END"),
    ("WHILE, its condition", "S", "E", "|WHILE ", " DO END"),
    ("WHILE, its statements", "S", "S", "|WHILE FALSE DO ", " END"),
    ("REPEAT, its statements", "S", "S", "|REPEAT ", " UNTIL TRUE"),
    ("REPEAT, its condition", "S", "E", "|REPEAT UNTIL ", ""),
    ("ARRAY, its length", "T", "E", "|ARRAY ", " OF INTEGER"),
    ("ARRAY, its element", "T", "T", "|ARRAY 1 OF ", ""),
    ("RECORD", "T", "T", "|RECORD b: INTEGER; c: ", " END"),
    ("PROCEDURE, its procedures", "D", "D", "|PROCEDURE P; ", " END P;"),
    ("PROCEDURE, its variables", "D", "T", "|PROCEDURE P; VAR v: ", "; END P;"),
    ("PROCEDURE, its parameters", "D", "T", "|PROCEDURE P(VAR v: ", "); END P;"),
    ("PROCEDURE, its body", "D", "S", "|PROCEDURE P; BEGIN ", " END P;"),
]

# forms that add no level of nesting: the kind outside, the kind inside, the texts before and after
PASSES = [
    ("D", "T", "VAR v: ", ";"),
    ("D", "T", "TYPE t = ", ";"),
    ("D", "E", "CONST c = ", ";"),
    ("D", "S", "BEGIN ", ""),
    ("S", "E", "Write(", ")"),
    ("S", "E", "x := ", ""),
    ("S", "S", "; WriteLn; ", ";"),
    ("E", "F", "", ""),
    ("E", "F", "1 + 2 * ", ""),
    ("E", "F", "-", " MOD 2 = 3"),
]

LEAVES = {"D": "", "T": "INTEGER", "S": "x := 1", "E": "1", "F": "1"}
BEFORE, AFTER = "MODULE M; ", " END M."


def module(walk: list[tuple[str, str]]) -> tuple[str, int]:
    """Returns the module that nests the given (before, after) texts in order, and the offset of the last token that is
    marked by `|` in a `before`. The marks are removed."""
    text, opening, ends = BEFORE, 0, [AFTER]
    for before, after in walk:
        if "|" in before:
            opening = len(text) + before.index("|")
        text += before.replace("|", "")
        ends.append(after)
    return text + "".join(reversed(ends)), opening


def leaf(walk: list[tuple[str, str]], kind: str) -> list[tuple[str, str]]:
    return [*walk, (LEAVES[kind], "")]


def of_one(name: str, depth: int) -> tuple[str, int]:
    """Returns a module with one construct nested `depth` times in itself, and the offset of the innermost one's
    token."""
    _, start, end, before, after = next(it for it in STEPS if it[0] == name)
    into: dict[str, list[tuple[str, str]]] = {"D": [], "T": [("VAR v: ", ";")], "S": [("BEGIN ", "")], "F": [("BEGIN x := ", "")]}
    if name not in REPEATED:
        raise ValueError(f"{name} can't stand in itself")
    return module(leaf([*into[start], *[(before, after)] * depth], end))


# (a factor is an expression)
REPEATED = [it[0] for it in STEPS if it[1] == it[2] or it[1:3] == ("F", "E")]


def mixed(seed: int, depth: int) -> tuple[str, int]:
    """Returns a module with random constructs nested `depth` times, and the offset of the innermost construct's
    token."""
    chance, kind, left = random.Random(seed), "D", depth
    walk: list[tuple[str, str]] = []
    while left:
        steps = [it for it in STEPS if it[1] == kind]
        passes = [it for it in PASSES if it[0] == kind]
        # (what is in an expression is an expression, and in a type a type: stay above them at times)
        if chance.random() < 0.6:
            stay = [it for it in steps if it[2] == kind]
            steps, passes = stay or steps, passes if not steps else [] if stay else passes
        if passes and (not steps or chance.random() < 0.3):
            _, kind, before, after = chance.choice(passes)
        else:
            _, _, kind, before, after = chance.choice(steps)
            left -= 1
        walk.append((before, after))
    return module(leaf(walk, kind))


# statements that hold one statement, which is run once: before, after (b is a BOOLEAN)
ENTERED = [
    ("IF, its statements", "IF b = b THEN ", " END"),
    ("IF, an ELSIF's statements", "IF FALSE THEN ELSIF b = b THEN ", " END"),
    ("IF, an ELSE", "IF b # b THEN ELSE ", " END"),
    ("WHILE, its statements", "b := TRUE; WHILE b DO ", "; b := FALSE END"),
    ("REPEAT, its statements", "REPEAT ", " UNTIL b = b"),
]


def around(statement: str, depth: int, choose: Callable[[], Entered]) -> str:
    """Returns a statement nested inside `depth` other statements, which `choose` returns."""
    found = [choose() for _ in range(depth)]
    return "".join(it[1] for it in found) + statement + "".join(it[2] for it in reversed(found))


def recursive(calls: int, choose: Callable[[], Entered]) -> tuple[str, str]:
    """Returns a module that recurses until `calls` calls are open, each made inside 100 nested constructs, and the
    output that it must write. Each call copies a value whose type nests 100 arrays and records."""
    types = ["t0 = ARRAY 1 OF INTEGER"] + [f"t{at} = {'RECORD f: t%d END' if at % 2 else 'ARRAY 1 OF t%d'}" % (at - 1) for at in range(1, 100)]
    local = "b: BOOLEAN"
    # (a procedure counts for nesting, and also the IF around its call)
    body = around("Write(n); IF n > 1 THEN P(n - 1, v, m) END; m := m + 1", 98, choose)
    first = around(f"P({calls}, v, m)", 100, choose)
    text = (
        f"MODULE M; TYPE {'; '.join(types)}; VAR v: t99; m: INTEGER; {local};\n"
        f"PROCEDURE P(n: INTEGER; v: t99; VAR m: INTEGER); VAR {local}; BEGIN {body} END P;\n"
        f"BEGIN {first}; Write(m) END M.\n"
    )
    return text, "".join(f" {at}" for at in range(calls, 0, -1)) + f" {calls}"


def inward(calls: int, choose: Callable[[], Entered]) -> tuple[str, str]:
    """Returns a module similar to `recursive`'s, and its output, but with nested procedures that each call the one
    inside. The innermost call is nested as deeply as is allowed."""
    names = [f"p{at}" for at in range(1, calls + 1)]
    text = "MODULE M; VAR m: INTEGER;\n"
    text += "".join(f"PROCEDURE {name}(n{at}: INTEGER); VAR b: BOOLEAN;\n" for at, name in enumerate(names, 1))
    for at in range(calls, 0, -1):
        inner = f"p{at + 1}(n{at} - 1)" if at < calls else "m := m + n1 + n" + str(calls)
        text += f"BEGIN {around(inner, 100 - at, choose)} END p{at};\n"
    return text + f"BEGIN p1({calls}); Write(m) END M.\n", f" {calls + 1}"
