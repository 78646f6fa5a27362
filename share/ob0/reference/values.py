"""Evaluates operators and constant expressions, according to docs/LANGUAGE.md."""
from __future__ import annotations

from collections.abc import Callable
from typing import Union

from reference.parser import Node

Value = Union[int, bool]
LEAST, MOST = -2147483648, 2147483647


class Ends(Exception):
    """Raised if a run, or the evaluation of a constant expression, ends early. The argument names the reason."""


def whole(number: int) -> int:
    if not LEAST <= number <= MOST:
        raise Ends("Overflow")
    return number


def apply(operator: str, left: Value, right: Value) -> Value:
    """Applies an operator, except & and OR, to two values. Raises Ends if the result overflows or a divisor isn't
    positive."""
    if operator in ("DIV", "MOD"):
        if right < 1:
            raise Ends("Divisor")
        return whole(left // right if operator == "DIV" else left % right)
    if operator in "+-*":
        return whole({"+": left + right, "-": left - right, "*": left * right}[operator])
    return {"=": left == right, "#": left != right, "<": left < right, "<=": left <= right, ">": left > right, ">=": left >= right}[operator]


def value_of(node: Node, constant_of: Callable[[Node], Value]) -> Value:
    """Returns the value of a constant expression, with `constant_of` for the constants in it. Raises Ends if an
    operation in it fails."""
    if node.kind == "integer":
        return int(node.first.text)
    if node.kind == "parens":
        return value_of(node.inside, constant_of)
    if node.kind == "not":
        return not value_of(node.operand, constant_of)
    if node.kind == "sign":
        value = value_of(node.operand, constant_of)
        return whole(-value if node.operator == "-" else value)
    if node.kind == "designator":
        return constant_of(node)
    left = value_of(node.left, constant_of)
    if node.operator == "&" and not left or node.operator == "OR" and left:
        return left
    right = value_of(node.right, constant_of)
    return right if node.operator in ("&", "OR") else apply(node.operator, left, right)
