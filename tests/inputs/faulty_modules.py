"""Generates modules that follow the grammar but ignore scopes and types, with few names. A module usually has many
errors, about thirty, and occasionally none. Together they have all error codes of scopes and types, most of which a
changed corpus never has (lengths, sizes, constants, counts of arguments)."""
from __future__ import annotations

import random
from collections.abc import Callable

NAMES = ["a", "b", "c", "d", "T", "U", "P", "Q", "f", "g"]
PREDECLARED = ["INTEGER", "BOOLEAN", "TRUE", "FALSE", "Read", "Write", "WriteLn"]
NUMBERS = ["0", "1", "2", "3", "7", "255", "256", "65536", "65537", "2147483647"]


class Wild:
    def __init__(self, seed: int) -> None:
        self.chance = random.Random(f"wild {seed}")
        # names of a kind, so that by far not everything is wrong
        self.known = {"const": ["TRUE", "FALSE"], "type": ["INTEGER", "BOOLEAN"], "var": ["a"], "procedure": ["Read", "Write", "WriteLn"]}

    def name(self, kind: str | None = None) -> str:
        if kind and self.chance.random() < 0.85:
            return self.chance.choice(self.known[kind])
        return self.chance.choice(NAMES + PREDECLARED)

    def declared(self, kind: str) -> str:
        name = self.chance.choice(NAMES + PREDECLARED[:1] * (self.chance.random() < 0.05))
        for names in self.known.values():
            if name in names and len(names) > 1:
                names.remove(name)
        self.known[kind].append(name)
        return name

    def some(self, most: int, make: Callable[[], str]) -> list[str]:
        return [make() for _ in range(self.chance.randrange(most + 1))]

    def designator(self, kind: str = "var", depth: int = 0) -> str:
        found = self.name(kind)
        while self.chance.random() < 0.25:
            found += f".{self.chance.choice('fgab')}" if self.chance.random() < 0.5 else f"[{self.expression('var', depth + 2)}]"
        return found

    def factor(self, kind: str, depth: int) -> str:
        way = self.chance.random()
        if way < 0.35 or depth > 3:
            return self.chance.choice(NUMBERS)
        if way < 0.75:
            return self.designator(self.chance.choice([kind, "const"]), depth)
        if way < 0.85:
            return "~" + self.factor(kind, depth + 1)
        return f"({self.expression(kind, depth + 1)})"

    def term(self, kind: str, depth: int) -> str:
        found = self.factor(kind, depth)
        while self.chance.random() < 0.2:
            found += f" {self.chance.choice(['*', 'DIV', 'MOD', '&'])} {self.factor(kind, depth)}"
        return found

    def simple(self, kind: str, depth: int) -> str:
        found = self.chance.choice(["", "", "", "-", "+"]) + self.term(kind, depth)
        while self.chance.random() < 0.2:
            found += f" {self.chance.choice(['+', '-', 'OR'])} {self.term(kind, depth)}"
        return found

    def expression(self, kind: str = "var", depth: int = 0) -> str:
        found = self.simple(kind, depth)
        if self.chance.random() < 0.2:
            found += f" {self.chance.choice(['=', '#', '<', '<=', '>', '>='])} {self.simple(kind, depth)}"
        return found

    def type(self, depth: int = 0) -> str:
        way = self.chance.random()
        if way < 0.55 or depth > 3:
            return self.name("type")
        if way < 0.8:
            return f"ARRAY {self.chance.choice(['2', '3', '256', self.expression('const', 2)])} OF {self.type(depth + 1)}"
        fields = "; ".join(self.some(3, lambda: f"{', '.join([self.chance.choice('fgab'), *self.some(1, lambda: self.chance.choice('fgab'))])}: {self.type(depth + 1)}"))
        return f"RECORD {fields} END"

    def statement(self, depth: int) -> str:
        way = self.chance.random()
        if way < 0.5 or depth > 2:
            return f"{self.designator(depth=1)} := {self.expression()}"
        if way < 0.75:
            arguments = ", ".join(self.some(2, lambda: self.designator() if self.chance.random() < 0.5 else self.expression()))
            return self.name("procedure") + (f"({arguments})" if arguments or self.chance.random() < 0.3 else "")
        body = self.body(depth + 1)
        if way < 0.85:
            return f"IF {self.expression()} THEN {body} ELSIF {self.expression()} THEN {body} ELSE {self.body(depth + 1)} END"
        return f"WHILE {self.expression()} DO {body} END" if way < 0.93 else f"REPEAT {body} UNTIL {self.expression()}"

    def body(self, depth: int = 0) -> str:
        return "; ".join(self.some(4, lambda: self.statement(depth)))

    def block(self, depth: int) -> str:
        found = ""
        constants = self.some(3, lambda: f"{{}} = {self.expression('const')};")
        if constants:
            # (a right side is made before its name is known)
            found += "CONST " + " ".join(it.replace("{}", self.declared("const"), 1) for it in constants) + "\n"
        types = self.some(2, lambda: f"{{}} = {self.type()};")
        if types:
            found += "TYPE " + " ".join(it.replace("{}", self.declared("type"), 1) for it in types) + "\n"
        if self.chance.random() < 0.9:
            found += "VAR " + " ".join(f"{', '.join([self.declared('var'), *self.some(1, lambda: self.declared('var'))])}: {self.type()};" for _ in range(3)) + "\n"
        if depth < 3:
            found += "".join(self.some(2, lambda: self.procedure(depth)))
        return found + (f"BEGIN {self.body()}\n" if self.chance.random() < 0.8 else "")

    def procedure(self, depth: int) -> str:
        name = self.declared("procedure")
        sections = "; ".join(self.some(2, lambda: f"{self.chance.choice(['', 'VAR '])}{', '.join([self.declared('var'), *self.some(1, lambda: self.declared('var'))])}: {self.type(3)}"))
        formals = f"({sections})" if sections or self.chance.random() < 0.2 else ""
        closing = name if self.chance.random() < 0.95 else self.name()
        return f"PROCEDURE {name}{formals};\n{self.block(depth + 1)}END {closing};\n"

    def module(self) -> str:
        return f"MODULE M;\n{self.block(0)}END {'M' if self.chance.random() < 0.95 else 'N'}.\n"


def module(seed: int) -> str:
    return Wild(seed).module()


class Records:
    """Generates modules that contain only declarations: nested records, arrays and parameters, with names that are
    declared again."""

    def __init__(self, seed: int) -> None:
        self.chance = random.Random(f"records {seed}")

    def type(self, known: list[str], depth: int) -> str:
        way = self.chance.random()
        if way < 0.35 or depth > 3:
            return self.chance.choice(["INTEGER", "BOOLEAN", *known[-4:]])
        if way < 0.55:
            return f"ARRAY {self.chance.choice(['1', '2', 'n'])} OF {self.type(known, depth + 1)}"
        return self.record(known, depth)

    def record(self, known: list[str], depth: int = 0) -> str:
        names = self.chance.sample("abcdefgh", self.chance.randrange(5))
        groups = [""] * self.chance.randrange(2)
        while names:
            count = 1 + self.chance.randrange(min(2, len(names)))
            groups.append(f"{', '.join(names[:count])}: {self.type(known, depth + 1)}")
            names = names[count:]
        return f"RECORD {'; '.join(groups)} END"

    def block(self, known: list[str], depth: int) -> str:
        constant = f"CONST n = {1 + self.chance.randrange(3)};\n" if not depth or self.chance.random() < 0.4 else ""
        here, declared = set(), ""
        for _ in range(self.chance.randrange(3)):
            name = self.chance.choice("RSTU")
            if name not in here:
                here.add(name)
                declared += f"{name} = {self.type(known, 0)}; "
                known = [*[it for it in known if it != name], name]
        variables = "".join(f"v{at}, w{at}: {self.type(known, 0)}; " for at in range(self.chance.randrange(4)))
        procedures = "".join(self.procedure(known, depth, at) for at in range(self.chance.randrange(3))) if depth < 3 else ""
        return constant + (f"TYPE {declared}\n" if declared else "") + (f"VAR {variables}\n" if variables else "") + procedures

    def procedure(self, known: list[str], depth: int, at: int) -> str:
        formals = "; ".join(f"{self.chance.choice(['', 'VAR '])}p{it}, q{it}: {self.type(known, 0)}" for it in range(self.chance.randrange(3)))
        return f"PROCEDURE P{at}({formals});\n{self.block(known, depth + 1)}END P{at};\n"

    def module(self) -> str:
        return f"MODULE M;\n{self.block([], 0)}END M.\n"


def records(seed: int) -> str:
    return Records(seed).module()
