"""Applies the rules of scopes in docs/LANGUAGE.md: binds each name to its declaration, and finds the faults Duplicate,
Undeclared and EndName."""
from __future__ import annotations



from collections.abc import Iterable
from typing import TYPE_CHECKING
from reference.parser import Node
from reference.scanner import Token

if TYPE_CHECKING:
    from reference.types import Type
    from reference.values import Value


class Declared:
    """A declaration. Its kind is 'const', 'type', 'var' or 'procedure'. The rules of types fill in the type, the value
    and the formal parameters. A predeclared name has no token and an empty block."""

    def __init__(
        self,
        kind: str,
        name: str,
        type_: Type | None = None,
        value: Value | None = None,
        formals: Iterable[tuple[bool, Type | None]] = (),
        node: Node | None = None,
    ) -> None:
        self.kind, self.name, self.type, self.value = kind, name, type_, value
        self.formals, self.node = list(formals), node
        self.token: Token | None = None
        self.block: dict[str, Declared] = {}

    @property
    def is_predeclared(self) -> bool:
        return self.token is None


class Scopes:
    """Binds the names of a module. `bound` maps each identifier that declares, uses or closes a name to its
    declaration. It doesn't contain fields and the module's name."""

    def __init__(self, module: Node, predeclared: Iterable[Declared]) -> None:
        self.faults: set[tuple[int, int, str]] = set()
        self.bound: dict[Token, Declared] = {}
        self.blocks = [{it.name: it for it in predeclared}]
        self.block(module)

    def report(self, code: str, token: Token) -> None:
        self.faults.add((token.start, token.end, code))

    def declare(self, kind: str, token: Token, node: Node | None = None) -> Declared:
        """Declares a name in the innermost block, and returns the declaration. Reports Duplicate if the block already
        declares the name."""
        declared, block = Declared(kind, token.text, node=node), self.blocks[-1]
        if token.text in block:
            self.report("Duplicate", token)
        declared.token, declared.block = token, block
        block[token.text] = self.bound[token] = declared
        return declared

    def look_up(self, token: Token) -> None:
        found = next((it[token.text] for it in reversed(self.blocks) if token.text in it), None)
        if found:
            self.bound[token] = found
        else:
            self.report("Undeclared", token)

    def block(self, node: Node) -> None:
        self.blocks.append({})
        if node.kind == "procedure":
            self.heading(node)
        for token, right in node.constants:
            self.expression(right)
            self.declare("const", token)
        for token, written in node.types:
            self.type(written)
            self.declare("type", token)
        for tokens, written in node.variables:
            self.type(written)
            for it in tokens:
                self.declare("var", it)
        for procedure in node.procedures:
            self.block(procedure)
        self.sequence(node.body)
        if node.closing.text != node.name.text:
            self.report("EndName", node.closing)
        self.blocks.pop()
        if node.kind == "procedure":
            self.bound[node.closing] = node.declared

    def heading(self, node: Node) -> None:
        """Declares a procedure's parameters in its own block, and then its name in the surrounding block."""
        for _, tokens, written in node.formals:
            self.type(written)
            for it in tokens:
                self.declare("var", it)
        own = self.blocks.pop()
        node.declared = self.declare("procedure", node.name, node)
        self.blocks.append(own)

    def type(self, node: Node) -> None:
        if node.kind == "named":
            self.look_up(node.first)
        elif node.kind == "array":
            self.expression(node.length)
            self.type(node.element)
        else:
            seen = set()
            for tokens, written in node.fields:
                self.type(written)
                for token in tokens:
                    if token.text in seen:
                        self.report("Duplicate", token)
                    seen.add(token.text)

    def expression(self, node: Node) -> None:
        if node.kind == "designator":
            self.designator(node)
        elif node.kind == "parens":
            self.expression(node.inside)
        elif node.kind in ("not", "sign"):
            self.expression(node.operand)
        elif node.kind == "binary":
            self.expression(node.left)
            self.expression(node.right)

    def designator(self, node: Node) -> None:
        self.look_up(node.first)
        for _, part in node.selectors:
            if isinstance(part, Node):
                self.expression(part)

    def sequence(self, body: list[Node]) -> None:
        for it in body:
            self.statement(it)

    def statement(self, node: Node) -> None:
        if node.kind == "assign":
            self.designator(node.target)
            self.expression(node.right)
        elif node.kind == "call":
            self.look_up(node.name)
            for it in node.arguments:
                self.expression(it)
        elif node.kind == "IF":
            for condition, body in node.parts:
                self.expression(condition)
                self.sequence(body)
            self.sequence(node.other)
        else:
            self.expression(node.condition)
            self.sequence(node.body)
