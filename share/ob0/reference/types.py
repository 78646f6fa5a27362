"""Applies the rules of types in docs/LANGUAGE.md: computes the type of each declaration, expression and designator, and
finds the faults of types and constants."""
from __future__ import annotations

from collections.abc import Iterable
from typing import Tuple

from reference.names import Declared
from reference.parser import RELATIONS, Node
from reference.scanner import Token
from reference.values import Ends, Value, value_of

Field = Tuple[str, "Type | None", Token]  # its name, its type, and the token that declares it


class Type:
    """A type. Each ARRAY and RECORD in the text creates a different one. An unknown type is represented by None."""

    def __init__(self, form: str, length: int = 0, element: Type | None = None, fields: Iterable[Field] = ()) -> None:
        self.form, self.length, self.element, self.fields = form, length, element, list(fields)

    def size(self) -> tuple[int, int]:
        """Returns how many scalars a value of the type contains, and how deep arrays and records are nested in the
        type."""
        if self.form == "array":
            scalars, depth = self.element.size() if self.element else (0, 0)
            return self.length * scalars, depth + 1
        if self.form == "record":
            sizes = [it.size() if it else (0, 0) for _, it, _ in self.fields]
            return max(1, sum(it[0] for it in sizes)), 1 + max((it[1] for it in sizes), default=0)
        return 1, 0


INTEGER, BOOLEAN = Type("INTEGER"), Type("BOOLEAN")
PREDECLARED = [
    Declared("type", "INTEGER", INTEGER),
    Declared("type", "BOOLEAN", BOOLEAN),
    Declared("const", "TRUE", BOOLEAN, True),
    Declared("const", "FALSE", BOOLEAN, False),
    Declared("procedure", "Read", formals=[(True, INTEGER)]),
    Declared("procedure", "Write", formals=[(False, INTEGER)]),
    Declared("procedure", "WriteLn"),
]


class Types:
    """Computes the types of a module. `fields` lists each identifier of a field, with the identifier that declares the
    field and its record type."""

    def __init__(self, module: Node, bound: dict[Token, Declared]) -> None:
        self.faults: set[tuple[int, int, str]] = set()
        self.bound = bound
        self.fields: list[tuple[Token, Token, Type]] = []
        self.block(module)

    def report(self, code: str, first: Token, last: Token | None = None) -> None:
        self.faults.add((first.start, (last or first).end, code))

    def block(self, node: Node) -> None:
        if node.kind == "procedure":
            node.declared.formals = [
                (by_place, type_) for by_place, tokens, written in node.formals for type_ in self.variables(tokens, written)
            ]
        for token, right in node.constants:
            declared = self.bound[token]
            declared.type, declared.value = self.constant(right)
        for token, written in node.types:
            self.bound[token].type = self.type(written)
        for tokens, written in node.variables:
            self.variables(tokens, written)
        for it in node.procedures:
            self.block(it)
        self.sequence(node.body)

    def variables(self, tokens: list[Token], written: Node) -> list[Type | None]:
        """Sets the type of variables that are declared together, and returns a list with this type once for each of
        them."""
        type_ = self.type(written)
        for it in tokens:
            self.bound[it].type = type_
        return [type_] * len(tokens)

    def constant(self, node: Node, type_: Type | None = None) -> tuple[Type | None, Value | None]:
        """Returns the type and the value of a constant expression; each is None if it can't be computed. If a type is
        required and the expression has another one, reports that and doesn't evaluate the expression."""
        if type_ and not self.requires(node, type_, True):
            return None, None
        type_ = type_ or self.expression(node, True)
        if type_ not in (INTEGER, BOOLEAN):
            return type_, None
        try:
            return type_, value_of(node, self.constant_of)
        except Ends:
            self.report("ConstFault", node.first, node.last)
            return None, None

    def constant_of(self, node: Node) -> Value:
        """Returns the value of the constant that a designator names. Raises Ends if the value is unknown."""
        found = self.bound[node.first].value
        if found is None:
            raise Ends("Unknown")
        return found

    def type(self, node: Node) -> Type | None:
        if node.kind == "named":
            found = self.bound.get(node.first)
            if found and found.kind != "type":
                self.report("WrongKind", node.first)
                return None
            return found.type if found else None
        made = self.array(node) if node.kind == "array" else self.record(node)
        if made:
            scalars, depth = made.size()
            if scalars > 65536 or depth > 100:
                self.report("TypeTooLarge", node.first)
                return None
        return made

    def array(self, node: Node) -> Type | None:
        _, length = self.constant(node.length, INTEGER)
        element = self.type(node.element)
        if length is None:
            return None
        if not 1 <= length <= 65536:
            self.report("ArrayLength", node.length.first, node.length.last)
            return None
        return Type("array", length, element)

    def record(self, node: Node) -> Type:
        made = Type("record")
        for tokens, written in node.fields:
            type_ = self.type(written)
            for it in tokens:
                made.fields.append((it.text, type_, it))
                self.fields.append((it, it, made))
        return made

    def requires(self, node: Node, type_: Type, constant: bool = False) -> bool:
        """Returns whether an expression has this type. Reports TypeMismatch if it has another type."""
        found = self.expression(node, constant)
        if found and found is not type_:
            self.report("TypeMismatch", node.first, node.last)
        return found is type_

    def expression(self, node: Node, constant: bool = False) -> Type | None:
        """Returns the type of an expression, or None if a part of it has a fault."""
        if node.kind == "integer":
            return INTEGER
        if node.kind == "parens":
            return self.expression(node.inside, constant)
        if node.kind == "not":
            return BOOLEAN if self.requires(node.operand, BOOLEAN, constant) else None
        if node.kind == "sign":
            return INTEGER if self.requires(node.operand, INTEGER, constant) else None
        if node.kind == "designator":
            return self.designator(node, constant)
        return self.binary(node, constant)

    def binary(self, node: Node, constant: bool) -> Type | None:
        left, right = (self.expression(it, constant) for it in (node.left, node.right))
        result = BOOLEAN if node.operator in (*RELATIONS, "&", "OR") else INTEGER
        wants = [INTEGER, BOOLEAN] if node.operator in "=#" else [BOOLEAN] if node.operator in ("&", "OR") else [INTEGER]
        if left and left not in wants:
            self.report("TypeMismatch", node.left.first, node.left.last)
            return None
        if node.operator in "=#":
            # (if the left operand's type is unknown, the right operand may have any type)
            wants = [it for it in (left or right,) if it]
        if right and right not in wants:
            self.report("TypeMismatch", node.right.first, node.right.last)
            return None
        return result if left and right else None

    def designator(self, node: Node, constant: bool = False) -> Type | None:
        """Returns the type of a designator in an expression, or None if it has a fault. With `constant`, reports
        variables as NotConstant."""
        found, type_ = self.bound.get(node.first), None
        if found and found.kind in ("type", "procedure"):
            self.report("WrongKind", node.first)
        elif found and found.kind == "var" and constant:
            self.report("NotConstant", node.first)
        elif found:
            type_ = found.type
        return self.select(node, type_, constant)

    def select(self, node: Node, type_: Type | None, constant: bool = False) -> Type | None:
        """Returns the type of a designator after its selectors, if its name has the type `type_`."""
        for token, part in node.selectors:
            type_ = self.index(token, part, type_, constant) if isinstance(part, Node) else self.field(token, part, type_)
        return type_

    def index(self, token: Token, inside: Node, type_: Type | None, constant: bool) -> Type | None:
        well = self.requires(inside, INTEGER, constant)
        if type_ and type_.form != "array":
            self.report("NotArray", token)
            return None
        return type_.element if type_ and well else None

    def field(self, token: Token, name: Token, type_: Type | None) -> Type | None:
        if type_ and type_.form != "record":
            self.report("NotRecord", token)
            return None
        found = next((it for it in type_.fields if it[0] == name.text), None) if type_ else None
        if type_ and not found:
            self.report("NoField", name)
        if not found or not type_:
            return None
        self.fields.append((name, found[2], type_))
        return found[1]

    def sequence(self, body: list[Node]) -> None:
        for it in body:
            self.statement(it)

    def statement(self, node: Node) -> None:
        if node.kind == "assign":
            self.assignment(node)
        elif node.kind == "call":
            self.call(node)
        elif node.kind == "IF":
            for condition, body in node.parts:
                self.requires(condition, BOOLEAN)
                self.sequence(body)
            self.sequence(node.other)
        else:
            self.requires(node.condition, BOOLEAN)
            self.sequence(node.body)

    def assignment(self, node: Node) -> None:
        found = self.bound.get(node.target.first)
        if found and found.kind != "var":
            self.report("NotVariable" if found.kind == "const" else "WrongKind", node.target.first)
        type_ = self.select(node.target, found.type if found and found.kind == "var" else None)
        right = self.expression(node.right)
        if type_ and right and type_ is not right:
            self.report("TypeMismatch", node.right.first, node.right.last)

    def call(self, node: Node) -> None:
        found = self.bound.get(node.name)
        if found and found.kind != "procedure":
            self.report("WrongKind", node.name)
        if not found or found.kind != "procedure":
            for it in node.arguments:
                self.expression(it)
        elif len(found.formals) != len(node.arguments):
            # (the arguments' types aren't checked)
            self.report("ArgumentCount", node.name)
        else:
            for (by_place, type_), argument in zip(found.formals, node.arguments):
                given = self.place(argument) if by_place else self.expression(argument)
                if type_ and given and given is not type_:
                    self.report("TypeMismatch", argument.first, argument.last)

    def place(self, node: Node) -> Type | None:
        """Returns the type of an argument of a VAR parameter. Reports NotVariable if the argument isn't a variable."""
        if node.kind != "designator":
            self.expression(node)
            self.report("NotVariable", node.first, node.last)
            return None
        found, type_ = self.bound.get(node.first), self.designator(node)
        if found and found.kind == "const":
            self.report("NotVariable", node.first, node.last)
            return None
        return type_
