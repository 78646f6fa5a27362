#!/usr/bin/env python3
"""Makes well-typed modules of a given size, the same ones each time.

  bench/corpus.py SIZE [--line] [--seed N]    a module of SIZE bytes, --line: all on one line
  bench/corpus.py --block N                   N declarations in one block, each used
  bench/corpus.py --nest N                    N procedures inside one another, each using its outer one's variable
  bench/corpus.py --many N WAY                N variables: in `one` declaration, in one with names of one `ending`, or `each` in its own; half are used
  bench/corpus.py --records N WAY             N records of one field: as types of `variables`, of the `fields` of one record, or as `types`
  bench/corpus.py --uses N [--line]           one variable that is used N times
  bench/corpus.py --fields N [--line]         one field of a record that is used N times
  bench/corpus.py --constants N [--line]      one constant that is used N times"""
from __future__ import annotations

import random
import sys
from collections.abc import Callable

KINDS = ("int", "bool", "array", "record")


class Scope:
    """The names that are visible at one point of the module, grouped by kind."""

    def __init__(self, outer: Scope | None = None) -> None:
        self.names: dict[str, list[str]] = {it: list(outer.names[it]) if outer else [] for it in (*KINDS, "const")}
        self.procedures: list[str] = list(outer.procedures) if outer else []


class Maker:
    """Generates a random module; `seed` determines it completely."""

    def __init__(self, seed: int) -> None:
        self.chance = random.Random(seed)
        self.made = 0

    def fresh(self, letter: str) -> str:
        self.made += 1
        return f"{letter}{self.made}"

    def pick(self, scope: Scope, kind: str) -> str:
        # (usually the newest names, as people write)
        names = scope.names[kind]
        return names[max(0, len(names) - 1 - int(self.chance.expovariate(0.15)))]

    def integer(self, scope: Scope, depth: int = 0) -> str:
        """Returns a random INTEGER expression that can stand wherever a factor can."""
        way = self.chance.random()
        if depth > 2 or way < 0.25:
            return str(self.chance.randrange(1000))
        if way < 0.5 and scope.names["int"]:
            return self.pick(scope, "int")
        if way < 0.6 and scope.names["const"]:
            return self.pick(scope, "const")
        if way < 0.72 and scope.names["array"]:
            return f"{self.pick(scope, 'array')}[{self.integer(scope, depth + 1)} MOD 16]"
        if way < 0.82 and scope.names["record"]:
            return f"{self.pick(scope, 'record')}.{self.chance.choice('xy')}"
        operator = self.chance.choice(["+", "-", "*", "DIV", "MOD"])
        return f"({self.integer(scope, depth + 1)} {operator} {self.integer(scope, depth + 1)})"

    def truth(self, scope: Scope, depth: int = 0) -> str:
        """Returns a random BOOLEAN expression that can stand wherever a factor can."""
        way = self.chance.random()
        if way < 0.2 and scope.names["bool"]:
            return self.pick(scope, "bool")
        if way < 0.3 and scope.names["record"]:
            return f"{self.pick(scope, 'record')}.done"
        if depth < 2 and way < 0.45:
            return f"~{self.truth(scope, depth + 1)}"
        if depth < 2 and way < 0.65:
            return f"({self.truth(scope, depth + 1)} {self.chance.choice(['&', 'OR'])} {self.truth(scope, depth + 1)})"
        relation = self.chance.choice(["=", "#", "<", "<=", ">", ">="])
        return f"({self.integer(scope, depth + 1)} {relation} {self.integer(scope, depth + 1)})"

    def target(self, scope: Scope) -> str:
        """Returns the text of a randomly chosen INTEGER variable, array element or record field, to assign to."""
        kinds = [it for it in ("int", "array", "record") if scope.names[it]]
        kind = self.chance.choice(kinds)
        name = self.pick(scope, kind)
        if kind == "array":
            return f"{name}[{self.integer(scope, 2)} MOD 16]"
        return f"{name}.{self.chance.choice('xy')}" if kind == "record" else name

    def statement(self, scope: Scope, depth: int, indent: int) -> list[str]:
        """Returns the lines of a random statement."""
        way = self.chance.random()
        room = "  " * indent
        if depth > 2 or way < 0.5:
            return [f"{room}{self.target(scope)} := {self.integer(scope)}"]
        if way < 0.56 and scope.names["bool"]:
            return [f"{room}{self.pick(scope, 'bool')} := {self.truth(scope)}"]
        if way < 0.72 and scope.procedures:
            name = self.chance.choice(scope.procedures[-20:])
            return [f"{room}{name}({self.integer(scope)}, {self.target(scope)})"]
        inner: Callable[[], list[str]] = lambda: self.statements(scope, depth + 1, indent + 1, 1 + self.chance.randrange(3))
        if way < 0.86:
            found = [f"{room}IF {self.truth(scope)} THEN", *inner()]
            if self.chance.random() < 0.4:
                found += [f"{room}ELSIF {self.truth(scope)} THEN", *inner()]
            if self.chance.random() < 0.4:
                found += [f"{room}ELSE", *inner()]
            return [*found, f"{room}END"]
        if way < 0.93:
            return [f"{room}WHILE {self.truth(scope)} DO", *inner(), f"{room}END"]
        return [f"{room}REPEAT", *inner(), f"{room}UNTIL {self.truth(scope)}"]

    def statements(self, scope: Scope, depth: int, indent: int, count: int) -> list[str]:
        found = []
        for at in range(count):
            lines = self.statement(scope, depth, indent)
            found += lines if at == count - 1 else [*lines[:-1], lines[-1] + ";"]
        return found

    def variables(self, scope: Scope, indent: int, outermost: bool = False) -> list[str]:
        """Returns the lines of a VAR section, and adds its names to `scope`."""
        room = "  " * indent
        integers, truth = [self.fresh("v") for _ in range(3)], self.fresh("b")
        scope.names["int"] += integers
        scope.names["bool"].append(truth)
        found = [f"{room}VAR", f"{room}  {', '.join(integers)}: INTEGER;", f"{room}  {truth}: BOOLEAN;"]
        if outermost or self.chance.random() < 0.4:
            array, record = self.fresh("a"), self.fresh("r")
            scope.names["array"].append(array)
            scope.names["record"].append(record)
            found += [f"{room}  {array}: Line;", f"{room}  {record}: Point;"]
        return found

    def procedure(self, outer: Scope, depth: int) -> list[str]:
        """Returns the lines of a procedure p(n: INTEGER; VAR m: INTEGER), and adds its name to `outer`."""
        scope, name, room = Scope(outer), self.fresh("p"), "  " * depth
        value, place, constant = self.fresh("n"), self.fresh("m"), self.fresh("c")
        scope.procedures.append(name)
        scope.names["int"] += [value, place]
        found = [f"{room}PROCEDURE {name}({value}: INTEGER; VAR {place}: INTEGER);"]
        known = self.pick(outer, "const")
        found += [f"{room}CONST", f"{room}  {constant} = ({known} * 3 + {self.chance.randrange(100)}) MOD 1000;"]
        scope.names["const"].append(constant)
        found += self.variables(scope, depth)
        if depth < 4 and self.chance.random() < 0.35:
            found += self.procedure(scope, depth + 1)
        if self.chance.random() < 0.3:
            found.append(f"{room}  (* {name} works on {value} (* and writes to {place} *) *)")
        found += [f"{room}BEGIN", *self.statements(scope, 0, depth + 1, 3 + self.chance.randrange(6)), f"{room}END {name};"]
        outer.procedures.append(name)
        return found


def module(size: int, seed: int = 0, on_line: bool = False) -> str:
    """Returns a well-typed module of exactly `size` bytes (at least 700). A comment after the module fills up the
    rest."""
    maker, scope = Maker(seed), Scope()
    head = ["MODULE Corpus;", "CONST", "  base = 7;", "TYPE", "  Line = ARRAY 16 OF INTEGER;"]
    head += ["  Point = RECORD x, y: INTEGER; done: BOOLEAN END;"]
    scope.names["const"].append("base")
    head += maker.variables(scope, 0, outermost=True)
    tail = ["BEGIN", *maker.statements(scope, 0, 1, 3), "END Corpus.", ""]
    lines, room = head, size - sum(len(it) + 1 for it in head) - sum(len(it) + 1 for it in tail) + 1
    while True:
        more = maker.procedure(scope, 1)
        length = sum(len(it) + 1 for it in more)
        if length > room:
            break
        lines += more
        room -= length
    text = (" " if on_line else "\n").join([*lines, *tail])
    # (the rest is filled up by a comment after the module)
    left = size - len(text)
    if left >= 4:
        text += "(*" + "." * (left - 4) + "*)"
    return text + " " * (size - len(text))


def block(count: int) -> str:
    """Returns a module with `count` declarations in one block, each used once."""
    names = [f"v{at}" for at in range(count)]
    declared = "\n".join(f"  {it}: INTEGER;" for it in names)
    used = ";\n".join(f"  {it} := {it} + 1" for it in names)
    return f"MODULE Block;\nVAR\n{declared}\nBEGIN\n{used}\nEND Block.\n"


def nest(count: int) -> str:
    """Returns a module with `count` procedures, each declared inside the previous one."""
    lines = ["MODULE Nest;", "VAR v0: INTEGER;"]
    lines += [f"PROCEDURE p{at}(n{at}: INTEGER); VAR v{at}: INTEGER;" for at in range(1, count + 1)]
    lines += [f"BEGIN v{at} := v{at - 1} + n{at}; v0 := v{at} END p{at};" for at in range(count, 0, -1)]
    return "\n".join([*lines, "BEGIN p1(1) END Nest.", ""])


def many(count: int, way: str) -> str:
    """Returns a module with `count` variables, in one declaration or (with `each`) in separate ones. Every second one
    is used. With `ending`, all names end in the same eight letters."""
    names = [f"v{at}ofTheEnd" if way == "ending" else f"v{at}" for at in range(count)]
    declared = "".join(f"{it}:INTEGER;" for it in names) if way == "each" else ",".join(names) + ":INTEGER;"
    return f"MODULE M;VAR {declared}BEGIN {';'.join(f'{it}:=1' for it in names[::2])} END M."


def records(way: str, count: int) -> str:
    """Returns a module with `count` records of one field. According to `way`, each is the type of a variable, of a
    field of one record, or a declared type."""
    made = [f"v{at}" for at in range(count)]
    declared = "".join(f"{it}{'=' if way == 'types' else ':'}RECORD a:T END;" for it in made)
    if way == "types":
        return f"MODULE M;TYPE T=INTEGER;{declared}VAR v:{made[-1]};BEGIN v.a:=1 END M."
    if way == "fields":
        return f"MODULE M;TYPE T=INTEGER;VAR r:RECORD {declared}END;BEGIN r.{made[-1]}.a:=1 END M."
    return f"MODULE M;TYPE T=INTEGER;VAR {declared}BEGIN {made[-1]}.a:=1 END M."


def nested_records(count: int, depth: int) -> str:
    """Returns a module that declares `count` types, each with records nested `depth` deep."""
    one = "RECORD a:" * depth + "T" + " END" * depth
    return "MODULE M;TYPE T=INTEGER;" + "".join(f"t{at}={one};" for at in range(count)) + "END M."


def repeated(kind: str, statement: str, count: int) -> str:
    """Returns a module whose body is one statement about a variable `x` of type `kind`, repeated `count` times."""
    return f"MODULE M;VAR x:{kind};BEGIN " + ";".join([statement] * count) + " END M."


def lines_of(head: str, used: list[str], on_line: bool) -> str:
    """Returns a module that consists of a heading and these statements. Each statement is on its own line unless
    `on_line`."""
    return (" " if on_line else "\n").join([head, "BEGIN", *(it + ";" for it in used[:-1]), used[-1] + " END Uses."])


def uses(count: int, on_line: bool = False) -> str:
    """Returns a module with one variable that is used `count` times."""
    return lines_of("MODULE Uses; VAR x: INTEGER;", [f"x:={at % 10}" for at in range(count)], on_line)


def chain(count: int) -> str:
    """Returns a module that uses one variable `count` times in one assignment, in as few bytes as possible."""
    return "MODULE Uses; VAR x: INTEGER; BEGIN x:=" + "x+" * (count - 2) + "x END Uses.\n"


def fields(count: int, on_line: bool = False) -> str:
    """Returns a module that uses one field of a record `count` times."""
    return lines_of("MODULE Uses; VAR r:RECORD x:INTEGER END;", [f"r.x:={at % 10}" for at in range(count)], on_line)


def constants(count: int, on_line: bool = False) -> str:
    """Returns a module that uses one constant `count` times."""
    return lines_of("MODULE Uses; CONST c=7; VAR x: INTEGER;", ["x:=c"] * count, on_line)


def main(words: list[str]) -> None:
    number: Callable[[str, int], int] = lambda name, other: int(words[words.index(name) + 1]) if name in words else other
    on_line = "--line" in words
    if "--block" in words:
        text = block(number("--block", 0))
    elif "--nest" in words:
        text = nest(number("--nest", 0))
    elif "--many" in words:
        text = many(number("--many", 0), words[-1])
    elif "--records" in words:
        text = records(words[-1], number("--records", 0))
    elif "--uses" in words:
        text = uses(number("--uses", 0), on_line)
    elif "--fields" in words:
        text = fields(number("--fields", 0), on_line)
    elif "--constants" in words:
        text = constants(number("--constants", 0), on_line)
    else:
        text = module(int(words[0]), number("--seed", 0), on_line)
    sys.stdout.write(text)


if __name__ == "__main__":
    main(sys.argv[1:])
