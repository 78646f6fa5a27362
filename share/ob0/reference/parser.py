"""Parses a text according to the grammar in docs/LANGUAGE.md: builds its tree, or finds the first syntax fault."""
from __future__ import annotations

from typing import Any, NoReturn, TYPE_CHECKING

from reference.scanner import Token

if TYPE_CHECKING:
    from reference.names import Declared


class Refused(Exception):
    """Raised at the first syntax fault. Its arguments are a code, a token and a message."""


class Node:
    """A node of the syntax tree, with its first and its last token. Its kind determines which of the attributes below
    it has."""

    # A module or a procedure has a name, declarations, a body and the closing name. A procedure also has parameters,
    # and the declaration that the rules of scopes create.
    name: Token
    constants: list[tuple[Token, Node]]
    types: list[tuple[Token, Node]]
    variables: list[tuple[list[Token], Node]]
    procedures: list[Node]
    body: list[Node]
    closing: Token
    formals: list[tuple[bool, list[Token], Node]]
    declared: Declared
    # a type
    length: Node
    element: Node
    fields: list[tuple[list[Token], Node]]
    # a statement: the parts of an IF are conditions with statements, and `other` contains the statements after its ELSE
    target: Node
    right: Node
    arguments: list[Node]
    condition: Node
    parts: list[tuple[Node, list[Node]]]
    other: list[Node]
    # an expression; a selector is a pair of `.` and the field's name, or of `[` and the index
    operator: str
    left: Node
    operand: Node
    inside: Node
    selectors: list[tuple[Token, Token | Node]]
    # the words, in addition to the node's first token, that begin a line
    words: list[Token]

    def __init__(self, kind: str, first: Token, **parts: Any) -> None:
        self.kind, self.first, self.last = kind, first, first
        self.__dict__.update(parts)


RELATIONS = ("=", "#", "<", "<=", ">", ">=")


class Parser:
    """A recursive-descent parser with a method for each production."""

    def __init__(self, text: str, tokens: list[Token]) -> None:
        end = Token("end", "", len(text))
        self.tokens, self.at = [*(it for it in tokens if it.kind != "comment"), end], 0
        # needed for formatting: unary signs, and parentheses that open parameters or arguments
        self.signs: set[Token] = set()
        self.opening: set[Token] = set()

    @property
    def kind(self) -> str:
        return self.tokens[self.at].kind

    def refuse(self, expected: str) -> NoReturn:
        raise Refused("Syntax", self.tokens[self.at], f"expected {expected}")

    def need(self, kind: str) -> Token:
        """Consumes a token of this kind and returns it. Raises Refused if the next token is of another kind."""
        if self.kind != kind:
            self.refuse({"ident": "identifier", "end": "end of text"}.get(kind, kind))
        self.at += 1
        return self.tokens[self.at - 1]

    def has(self, *kinds: str) -> Token | None:
        """Consumes and returns the next token if it is of one of these kinds, otherwise returns None."""
        if self.kind not in kinds:
            return None
        self.at += 1
        return self.tokens[self.at - 1]

    def deeper(self, depth: int) -> int:
        """Returns the nesting depth inside the construct that the next token opens. Raises Refused if it is nested too
        deep."""
        if depth == 100:
            raise Refused("TooDeep", self.tokens[self.at], "nested too deep")
        return depth + 1

    def close(self, node: Node) -> Node:
        node.last = self.tokens[self.at - 1]
        return node

    def module(self) -> Node:
        node = Node("module", self.need("MODULE"), name=self.need("ident"))
        self.need(";")
        self.block(node, 0)
        self.need(".")
        self.need("end")
        return self.close(node)

    def block(self, node: Node, depth: int) -> None:
        """Parses the declarations, the body, END and the closing name of a module or procedure."""
        node.constants, node.types, node.variables, node.procedures, node.body = [], [], [], [], []
        first = self.at
        if self.has("CONST"):
            while self.kind == "ident":
                name = self.need("ident")
                self.need("=")
                node.constants.append((name, self.expression(depth)))
                self.need(";")
        if self.has("TYPE"):
            while self.kind == "ident":
                name = self.need("ident")
                self.need("=")
                node.types.append((name, self.type(depth)))
                self.need(";")
        if self.has("VAR"):
            while self.kind == "ident":
                names = self.names()
                self.need(":")
                node.variables.append((names, self.type(depth)))
                self.need(";")
        while self.kind == "PROCEDURE":
            node.procedures.append(self.procedure(depth))
            self.need(";")
        start = self.at
        if self.has("BEGIN"):
            node.body = self.sequence(depth)
        own = [it for it in self.tokens[first:start] if it.kind in ("CONST", "TYPE", "VAR")] if not node.procedures else [
            it for it in self.tokens[first:start] if it.kind in ("CONST", "TYPE", "VAR") and it.start < node.procedures[0].first.start
        ]
        node.words = [*own, *([self.tokens[start]] if self.tokens[start].kind == "BEGIN" else []), self.need("END")]
        node.closing = self.need("ident")

    def names(self) -> list[Token]:
        found = [self.need("ident")]
        while self.has(","):
            found.append(self.need("ident"))
        return found

    def procedure(self, depth: int) -> Node:
        depth = self.deeper(depth)
        node = Node("procedure", self.need("PROCEDURE"), name=self.need("ident"), formals=[])
        if self.kind == "(":
            self.opening.add(self.need("("))
            if self.kind in ("VAR", "ident"):
                node.formals.append(self.section(depth))
                while self.has(";"):
                    node.formals.append(self.section(depth))
            self.need(")")
        self.need(";")
        self.block(node, depth)
        return self.close(node)

    def section(self, depth: int) -> tuple[bool, list[Token], Node]:
        by_place = bool(self.has("VAR"))
        names = self.names()
        self.need(":")
        return by_place, names, self.type(depth)

    def type(self, depth: int) -> Node:
        if self.kind == "ident":
            return self.close(Node("named", self.need("ident")))
        if self.kind == "ARRAY":
            depth = self.deeper(depth)
            node = Node("array", self.need("ARRAY"), length=self.expression(depth))
            self.need("OF")
            node.element = self.type(depth)
            return self.close(node)
        if self.kind == "RECORD":
            depth = self.deeper(depth)
            node = Node("record", self.need("RECORD"), fields=[])
            while True:
                if self.kind == "ident":
                    names = self.names()
                    self.need(":")
                    node.fields.append((names, self.type(depth)))
                if not self.has(";"):
                    break
            self.need("END")
            return self.close(node)
        return self.refuse("type")

    def sequence(self, depth: int) -> list[Node]:
        found = [self.statement(depth)]
        while self.has(";"):
            found.append(self.statement(depth))
        return [it for it in found if it]

    def statement(self, depth: int) -> Node | None:
        if self.kind == "ident":
            return self.assignment_or_call(depth)
        if self.kind not in ("IF", "WHILE", "REPEAT"):
            return None
        depth = self.deeper(depth)
        node = Node(self.kind, self.need(self.kind), words=[])
        if node.kind == "REPEAT":
            node.body = self.sequence(depth)
            node.words.append(self.need("UNTIL"))
            node.condition = self.expression(depth)
            return self.close(node)
        if node.kind == "WHILE":
            node.condition = self.expression(depth)
            self.need("DO")
            node.body = self.sequence(depth)
        else:
            node.parts, node.other = [self.guarded(depth)], []
            while self.kind == "ELSIF":
                node.words.append(self.need("ELSIF"))
                node.parts.append(self.guarded(depth))
            if self.kind == "ELSE":
                node.words.append(self.need("ELSE"))
                node.other = self.sequence(depth)
        node.words.append(self.need("END"))
        return self.close(node)

    def guarded(self, depth: int) -> tuple[Node, list[Node]]:
        condition = self.expression(depth)
        self.need("THEN")
        return condition, self.sequence(depth)

    def assignment_or_call(self, depth: int) -> Node:
        target = self.designator(depth)
        if target.selectors or self.kind == ":=":
            self.need(":=")
            return self.close(Node("assign", target.first, target=target, right=self.expression(depth)))
        node = Node("call", target.first, name=target.first, arguments=[])
        if self.kind == "(":
            self.opening.add(self.need("("))
            if self.kind in ("ident", "integer", "(", "~", "+", "-"):
                node.arguments.append(self.expression(depth))
                while self.has(","):
                    node.arguments.append(self.expression(depth))
            self.need(")")
        return self.close(node)

    def designator(self, depth: int) -> Node:
        node = Node("designator", self.need("ident"), selectors=[])
        while self.kind in (".", "["):
            if self.kind == ".":
                node.selectors.append((self.need("."), self.need("ident")))
            else:
                inner = self.deeper(depth)
                node.selectors.append((self.need("["), self.expression(inner)))
                self.need("]")
        return self.close(node)

    def expression(self, depth: int) -> Node:
        left = self.simple(depth)
        operator = self.has(*RELATIONS)
        if not operator:
            return left
        return self.close(Node("binary", left.first, operator=operator.kind, left=left, right=self.simple(depth)))

    def simple(self, depth: int) -> Node:
        sign = self.has("+", "-")
        left = self.term(depth)
        if sign:
            self.signs.add(sign)
            left = self.close(Node("sign", sign, operator=sign.kind, operand=left))
        while self.kind in ("+", "-", "OR"):
            operator = self.need(self.kind).kind
            left = self.close(Node("binary", left.first, operator=operator, left=left, right=self.term(depth)))
        return left

    def term(self, depth: int) -> Node:
        left = self.factor(depth)
        while self.kind in ("*", "DIV", "MOD", "&"):
            operator = self.need(self.kind).kind
            left = self.close(Node("binary", left.first, operator=operator, left=left, right=self.factor(depth)))
        return left

    def factor(self, depth: int) -> Node:
        if self.kind == "ident":
            return self.designator(depth)
        if self.kind == "integer":
            return Node("integer", self.need("integer"))
        if self.kind == "(":
            depth = self.deeper(depth)
            node = Node("parens", self.need("("), inside=self.expression(depth))
            self.need(")")
            return self.close(node)
        if self.kind == "~":
            depth = self.deeper(depth)
            return self.close(Node("not", self.need("~"), operand=self.factor(depth)))
        return self.refuse("expression")
