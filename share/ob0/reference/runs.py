"""Runs a well-typed module according to docs/LANGUAGE.md: computes its output and how the run ends."""
from __future__ import annotations

import copy
from collections.abc import Iterable
from typing import Any, Dict, Tuple

from reference.names import Declared
from reference.parser import Node
from reference.text import Text
from reference.types import INTEGER, Type
from reference.values import Ends, apply, whole

Activation = Dict[Declared, Any]  # each variable's cell, and for each procedure the activation in which it was declared
Place = Tuple[Any, Any]  # a list or dict, and the key of a value in it


class Run:
    """A run of a well-typed module. `out` contains the written numbers and line ends, and `end` states how the run
    ended."""

    def __init__(self, text: str, given: Iterable[int] = (), calls: int = 64, turns: int = 100000) -> None:
        self.given, self.calls, self.turns, self.open = list(given), calls, turns, 0
        self.out: list[int | str] = []
        found = Text(text)
        self.bound = found.bound
        frame: Activation = {}
        try:
            self.enter(found.module, frame)
            self.end = "Done"
        except Ends as why:
            self.end = str(why)

    def output(self) -> str:
        return "".join("\n" if it == "\n" else f" {it}" for it in self.out)

    def enter(self, node: Node, frame: Activation) -> None:
        """Executes the body of a module or procedure after creating its variables in `frame`. An activation maps each
        variable to its cell, and each procedure to the activation in which it was declared."""
        for names, _ in node.variables:
            for it in names:
                declared = self.bound[it]
                frame[declared] = [zero(declared.type)]
        for procedure in node.procedures:
            frame[procedure.declared] = frame
        self.sequence(node.body, frame)

    def sequence(self, body: list[Node], frame: Activation) -> None:
        for it in body:
            self.statement(it, frame)

    def statement(self, node: Node, frame: Activation) -> None:
        if node.kind == "assign":
            put(*self.place(node.target, frame), copy.deepcopy(self.value(node.right, frame)))
        elif node.kind == "call":
            self.call(node, frame)
        elif node.kind == "IF":
            for condition, body in node.parts:
                if self.value(condition, frame):
                    return self.sequence(body, frame)
            self.sequence(node.other, frame)
        elif node.kind == "WHILE":
            turns = 0
            while self.value(node.condition, frame):
                if turns >= self.turns:
                    raise Ends("TurnBound")
                turns += 1
                self.sequence(node.body, frame)
        else:
            turns = 0
            while True:
                self.sequence(node.body, frame)
                turns += 1
                if self.value(node.condition, frame):
                    return None
                if turns >= self.turns:
                    raise Ends("TurnBound")
        return None

    def call(self, node: Node, frame: Activation) -> None:
        found = self.bound[node.name]
        cells = [
            self.place(argument, frame) if by_place else ([copy.deepcopy(self.value(argument, frame))], 0)
            for (by_place, _), argument in zip(found.formals, node.arguments)
        ]
        if not found.node:
            return self.predeclared(found.name, cells)
        if self.open >= self.calls:
            raise Ends("CallBound")
        inner = Frame(frame[found])
        names = [it for _, names, _ in found.node.formals for it in names]
        for token, cell in zip(names, cells):
            inner[self.bound[token]] = cell
        self.open += 1
        self.enter(found.node, inner)
        self.open -= 1
        return None

    def predeclared(self, name: str, cells: list[Place]) -> None:
        if name == "Read":
            if not self.given:
                raise Ends("InputEnd")
            holder, key = cells[0]
            holder[key] = self.given.pop(0)
        elif name == "Write":
            self.out.append(cells[0][0][0])
        else:
            self.out.append("\n")

    def place(self, node: Node, frame: Activation) -> Place:
        """Evaluates a designator to a place: a list or a dict, and the key of the value in it. Raises Ends if an index
        is out of range."""
        cell = frame[self.bound[node.first]]
        holder, key = cell if isinstance(cell, tuple) else (cell, 0)
        for _, part in node.selectors:
            holder = holder[key]
            if isinstance(part, Node):
                key = self.value(part, frame)
                if not 0 <= key < len(holder):
                    raise Ends("Index")
            else:
                key = part.text
        return holder, key

    def value(self, node: Node, frame: Activation) -> Any:
        if node.kind == "integer":
            return int(node.first.text)
        if node.kind == "parens":
            return self.value(node.inside, frame)
        if node.kind == "not":
            return not self.value(node.operand, frame)
        if node.kind == "sign":
            value = self.value(node.operand, frame)
            return whole(-value if node.operator == "-" else value)
        if node.kind == "designator":
            found = self.bound[node.first]
            if found.kind == "const":
                return found.value
            holder, key = self.place(node, frame)
            return holder[key]
        left = self.value(node.left, frame)
        if node.operator == "&" and not left or node.operator == "OR" and left:
            return left
        right = self.value(node.right, frame)
        return right if node.operator in ("&", "OR") else apply(node.operator, left, right)


def put(holder: Any, key: Any, value: Any) -> None:
    """Assigns a value to a place. An array or a record is overwritten part by part, because VAR parameters may still
    refer to its parts."""
    if isinstance(value, (list, dict)):
        for it in value if isinstance(value, dict) else range(len(value)):
            put(holder[key], it, value[it])
    else:
        holder[key] = value


class Frame(Activation):
    """The activation of a procedure. Names that it doesn't contain are looked up in the activation of the surrounding
    block."""

    def __init__(self, outer: Activation) -> None:
        super().__init__()
        self.outer = outer

    def __missing__(self, declared: Declared) -> Any:
        return self.outer[declared]


def zero(type_: Type | None) -> Any:
    """Returns the initial value of a variable of this type."""
    assert type_
    if type_.form == "array":
        return [zero(type_.element) for _ in range(type_.length)]
    if type_.form == "record":
        return {name: zero(it) for name, it, _ in type_.fields}
    return 0 if type_ is INTEGER else False
