"""Generates well-typed modules whose output shows in which variable each value is stored. They have few variables, of
nested arrays and records, which are passed by value and by VAR, and copied whole and in part. They also change indexes
while these are in use, and call nested procedures recursively. Nearly all variables are written at the end. `fuel` ends
recursions; `i` and `j` are indexes. (Procedures of bench/corpus.py have only a number and a VAR number as parameters,
and copy nothing.)"""
from __future__ import annotations

import random
from collections.abc import Sequence
from dataclasses import dataclass, replace
from typing import Callable, Tuple, TypeVar

NUMBERS = ["0", "1", "2", "3", "5", "(-1)", "(-4)", "(-7)", "2147483647"]


class Type:
    """A type: its name, and its elements (with their count) or its fields."""

    def __init__(
        self, name: str, count: int = 0, element: Type | None = None, fields: Sequence[tuple[str, Type]] = ()
    ) -> None:
        self.name, self.count, self.element, self.fields = name, count, element, fields

    def parts(self) -> list[tuple[str, Type]]:
        """Returns a type's parts as pairs of a selector and a type. The selector [] stands for each element of an
        array."""
        elements = [("[]", self.element)] if self.element else []
        return elements + [(f".{name}", it) for name, it in self.fields]

    def holds(self, wanted: Type) -> bool:
        return self is wanted or any(it.holds(wanted) for _, it in self.parts())


Variable = Tuple[str, Type]
Formal = Tuple[str, Type, bool]  # (whether it is a VAR parameter)
Way = TypeVar("Way")
INTEGER, BOOLEAN = Type("INTEGER"), Type("BOOLEAN")
SCALARS = (INTEGER, BOOLEAN)


@dataclass
class Scope:
    """The names that a statement can refer to: variables, procedures with their parameters, the enclosing procedures,
    and the loop counter."""

    variables: list[Variable]
    procedures: list[tuple[str, list[Formal]]]
    running: list[str]
    counter: str


Statement = Callable[[Scope, int], str]  # makes a statement at a depth


class Maker:
    def __init__(self, seed: int) -> None:
        self.chance = random.Random(f"aliases {seed}")
        self.types, self.made = [*SCALARS], 0

    def fresh(self, letter: str) -> str:
        self.made += 1
        return f"{letter}{self.made}"

    def pick(self, *ways: tuple[int, Way]) -> Way:
        """Chooses one of several alternatives at random, according to their weights."""
        return self.chance.choices([it for _, it in ways], [it for it, _ in ways])[0]

    def declared_types(self) -> str:
        """Returns declarations of a few random types, each built from the earlier ones, and adds them to
        `self.types`."""
        found = ""
        for _ in range(2 + self.chance.randrange(3)):
            name = self.fresh("T")
            parts = [it for it in self.types if it is not BOOLEAN or self.chance.random() < 0.4]
            if self.chance.random() < 0.6:
                made = Type(name, 2 + self.chance.randrange(2), self.chance.choice(parts))
                found += f" {name} = ARRAY {made.count} OF {made.parts()[0][1].name};"
            else:
                made = Type(name, fields=[(it, self.chance.choice(parts)) for it in "fgh"[: 1 + self.chance.randrange(3)]])
                found += f" {name} = RECORD {'; '.join(f'{field}: {it.name}' for field, it in made.fields)} END;"
            self.types.append(made)
        return f"TYPE{found}{self.array_of_records()}\n"

    def array_of_records(self) -> str:
        """Returns declarations of a record and an array of such records. In a quarter of all modules, returns an empty
        string."""
        if self.chance.random() < 0.25:
            return ""
        record = Type(self.fresh("T"), fields=[("f", INTEGER), ("g", self.chance.choice(self.types)), ("h", INTEGER)])
        array = Type(self.fresh("T"), 2 + self.chance.randrange(2), record)
        self.types += [record, array]
        fields = "; ".join(f"{field}: {it.name}" for field, it in record.fields)
        return f" {record.name} = RECORD {fields} END; {array.name} = ARRAY {array.count} OF {record.name};"

    # Expressions and places

    def index(self, scope: Scope, count: int, depth: int) -> str:
        """Returns an index expression, which is nearly always within the array's bounds."""
        if depth > 1:
            return f"{self.chance.choice('ij')} MOD {count}"
        some: Callable[[], str] = lambda: self.place(scope, INTEGER, depth + 1)
        ways: list[tuple[int, Callable[[], str]]] = [
            (30, lambda: str(self.chance.randrange(count))),
            (50, lambda: f"{self.chance.choice('ij')} MOD {count}"),
            (18, lambda: f"{some()} MOD {count}"),
            (1, some),
            (1, lambda: self.chance.choice([str(count), "-1"])),
        ]
        return self.pick(*ways)()

    def place(self, scope: Scope, wanted: Type, depth: int = 0) -> str:
        """Returns a random designator of type `wanted`. Some visible variable must contain a value of this type."""
        found = [it for it in scope.variables if it[1].holds(wanted)]
        name, type_ = self.chance.choice(found[-4:] if self.chance.random() < 0.6 else found)
        while type_ is not wanted:
            selector, part = self.chance.choice([it for it in type_.parts() if it[1].holds(wanted)])
            name += f"[{self.index(scope, type_.count, depth)}]" if selector == "[]" else selector
            type_ = part
        return name

    def integer(self, scope: Scope, depth: int = 0) -> str:
        some: Callable[[], str] = lambda: self.integer(scope, depth + 1)
        number: Callable[[], str] = lambda: self.chance.choice(NUMBERS[:8])
        place: Callable[[], str] = lambda: self.place(scope, INTEGER)
        if depth > 1:
            return self.pick((1, number), (2, place))()
        added: Callable[[], str] = lambda: f"({some()} {self.chance.choice('+-')} {some()})"
        divided: Callable[[], str] = lambda: f"({some()} {self.chance.choice(['DIV', 'MOD'])} {self.chance.choice('234')})"
        any_: Callable[[], str] = lambda: f"({some()} {self.chance.choice(['*', 'DIV', 'MOD'])} {self.chance.choice([*NUMBERS, some()])})"
        return self.pick((20, number), (45, place), (15, added), (18, divided), (2, any_))()

    def truth(self, scope: Scope, depth: int = 0) -> str:
        some: Callable[[], str] = lambda: self.truth(scope, depth + 1)
        related: Callable[[], str] = lambda: f"({self.integer(scope, 1)} {self.chance.choice(['=', '#', '<', '<=', '>', '>='])} {self.integer(scope, 1)})"
        if depth > 1:
            return related()
        joined: Callable[[], str] = lambda: f"({some()} {self.chance.choice(['&', 'OR', '=', '#'])} {some()})"
        constant: Callable[[], str] = lambda: self.chance.choice(["TRUE", "FALSE"])
        return self.pick((5, related), (3, lambda: self.place(scope, BOOLEAN)), (1, lambda: "~" + some()), (2, joined), (1, constant))()

    def value(self, scope: Scope, type_: Type) -> str:
        """Returns a random expression of a type. It is occasionally put in parentheses."""
        make = {INTEGER: self.integer, BOOLEAN: self.truth}.get(type_)
        found = make(scope) if make else self.place(scope, type_)
        return f"({found})" if self.chance.random() < 0.05 else found

    # Statements

    def assigned(self, scope: Scope, _depth: int) -> str:
        type_ = self.chance.choice([it for it in self.types for _, of in scope.variables if of.holds(it)])
        return f"{self.place(scope, type_)} := {self.value(scope, type_)}"

    def moved(self, _scope: Scope, _depth: int) -> str:
        """Returns an assignment that changes one of the indexes `i` and `j`."""
        name = self.chance.choice("ij")
        return f"{name} := {self.chance.choice([f'{name} + 1', '0', '1', '2'])}"

    def called(self, scope: Scope, _depth: int) -> str:
        """Returns a call. A call of an enclosing procedure is usually guarded by `fuel`, which it decreases."""
        if not scope.procedures:
            return self.moved(scope, 0)
        name, formals = self.chance.choice(scope.procedures[-5:])
        arguments = [self.place(scope, it) if by_place else self.value(scope, it) for _, it, by_place in formals]
        found = name + (f"({', '.join(arguments)})" if arguments else "")
        if name not in scope.running:
            return found
        return f"IF fuel > 0 THEN fuel := fuel - 1; {found} END" if self.chance.random() < 0.97 else found

    def branched(self, scope: Scope, depth: int) -> str:
        body: Callable[[], str] = lambda: self.body(scope, depth + 1)
        other = f" ELSIF {self.truth(scope)} THEN {body()}" if self.chance.random() < 0.3 else ""
        return f"IF {self.truth(scope)} THEN {body()}{other} ELSE {body()} END"

    def repeated(self, scope: Scope, depth: int) -> str:
        """Returns a loop. Its counter, which each block declares, usually ends it."""
        body, count, name = self.body(scope, depth + 1), self.chance.randrange(4), scope.counter
        ends = self.chance.random() < 0.1
        if self.chance.random() < 0.5:
            return f"{name} := 0; WHILE {self.truth(scope) if ends else f'{name} < {count}'} DO {body}; {name} := {name} + 1 END"
        return f"{name} := 0; REPEAT {body}; {name} := {name} + 1 UNTIL {self.truth(scope) if ends else f'{name} >= {count}'}"

    def statement(self, scope: Scope, depth: int) -> str:
        written: Statement = lambda *_: f"Write({self.integer(scope)})"
        read: Statement = lambda *_: f"Read({self.place(scope, INTEGER)})"
        ways = (40, self.assigned), (25, self.called), (12, self.moved), (10, written), (3, read)
        nested = ((6, self.branched), (6, self.repeated))[: 0 if depth > 1 else 2]
        return self.pick(*ways, *nested)(scope, depth)

    def body(self, scope: Scope, depth: int = 0) -> str:
        return "; ".join(self.statement(scope, depth) for _ in range(1 + self.chance.randrange(5 - 2 * depth)))

    def written(self, name: str, type_: Type) -> list[str]:
        """Returns statements that write all parts of a variable."""
        if type_ is INTEGER:
            return [f"Write({name})"]
        if type_ is BOOLEAN:
            return [f"IF {name} THEN Write(1) ELSE Write(0) END"]
        elements = [(f"[{at}]", type_.element) for at in range(type_.count) if type_.element]
        return [it for selector, part in elements or type_.parts() for it in self.written(name + selector, part)]

    def filled(self, variables: list[Variable]) -> list[str]:
        """Returns statements that assign a different number to each integer in these variables, for at most 24
        integers."""
        places = [it[len("Write(") : -1] for name, of in variables for it in self.written(name, of) if it.startswith("Write")]
        return [f"{name} := {at}" for at, name in enumerate(places[:24], 11)]

    # Blocks

    def block(self, scope: Scope, formals: list[Variable], first: list[str], depth: int) -> str:
        """Returns a block: its declarations, and statements that begin with `first`. At the end it writes some of its
        variables, and at depth 0 all of them."""
        own = [(self.fresh("v"), self.chance.choice(self.types)) for _ in range(1 + self.chance.randrange(2))]
        own += [] if depth else [(self.fresh("v"), it) for it in self.types]
        scope = Scope([*scope.variables, *own, *formals], list(scope.procedures), scope.running, self.fresh("k"))
        inside = "".join(self.procedure(scope, depth + 1) for _ in range(self.chance.randrange(*[(1, 4), (0, 3), (0, 2), (0, 1)][depth])))
        if not depth:
            first += self.filled(own) + [self.called(scope, 0) for _ in range(4)]
        end = [it for name, of in [*own, *formals] for it in self.written(name, of)]
        end = self.chance.sample(end, min(len(end), 8)) if depth else end
        declared = "".join(f" {name}: {of.name};" for name, of in own) + f" {scope.counter}{'' if depth else ', fuel, i, j'}: INTEGER;"
        return f"VAR{declared}\n{inside}BEGIN\n  {'; '.join([*first, self.body(scope)])};\n  {'; '.join(end)}; WriteLn\n"

    def procedure(self, scope: Scope, depth: int) -> str:
        """Returns a procedure, and adds it to `scope`. It can be called by itself, by procedures inside it, and by
        later code."""
        name = self.fresh("p")
        formals = [(self.fresh("n"), self.chance.choice(self.types), self.chance.random() < 0.6) for _ in range(self.chance.randrange(4))]
        scope.procedures.append((name, formals))
        heading = "; ".join(f"{'VAR ' if by_place else ''}{formal}: {of.name}" for formal, of, by_place in formals)
        inner = replace(scope, running=[*scope.running, name])
        block = self.block(inner, [it[:2] for it in formals], [], depth)
        return f"PROCEDURE {name}{f'({heading})' if heading else ''};\n{block}END {name};\n"

    def module(self) -> str:
        types, scope = self.declared_types(), Scope([], [], [], "")
        first = [f"fuel := {self.chance.randrange(7)}", f"i := {self.chance.randrange(3)}", f"j := {self.chance.randrange(3)}"]
        return f"MODULE M;\n{types}{self.block(scope, [], first, 0)}END M.\n"


def module(seed: int) -> str:
    return Maker(seed).module()
