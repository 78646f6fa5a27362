"""Applies all rules of the language to a text, one layer after another. A layer is checked only if the layers before it
found no fault."""
from __future__ import annotations

import re
import sys
from typing import Tuple

from reference import types
from reference.names import Declared, Scopes
from reference.parser import Parser, Refused
from reference.scanner import Token, scan

Span = Tuple[int, int]

CODES = (
    "TooLong BadChar OpenComment NumberTooLarge NumberJoinsLetter Syntax TooDeep Duplicate Undeclared EndName WrongKind "
    "TypeMismatch NotConstant ConstFault ArrayLength TypeTooLarge ArgumentCount NotVariable NoField NotArray NotRecord"
).split()
MAX_FAULTS = 100

sys.setrecursionlimit(20000)


class Text:
    """An analysed text. `faults` lists a code, a start, an end and a message for each fault; only the parser's faults
    have a message. `bound` and `fields` are the ones of Scopes and Types, and are empty if the text has no tree."""

    def __init__(self, text: str) -> None:
        self.text = text
        self.bound: dict[Token, Declared] = {}
        self.fields: list[tuple[Token, Token, types.Type]] = []
        self.lexemes, scanning = scan(text)
        self.faults: list[tuple[str, int, int, str | None]] = [(*it, None) for it in scanning[:MAX_FAULTS]]
        if self.faults:
            return
        self.parser = Parser(text, self.lexemes)
        try:
            self.module = self.parser.module()
        except Refused as why:
            code, token, message = why.args
            self.faults = [(code, token.start, token.end, message)]
            return
        scopes = Scopes(self.module, types.PREDECLARED)
        checked = types.Types(self.module, scopes.bound)
        self.bound, self.fields = scopes.bound, checked.fields
        found = sorted(scopes.faults | checked.faults, key=lambda it: (it[0], it[1], CODES.index(it[2])))
        self.faults = [(code, start, end, None) for start, end, code in found[:MAX_FAULTS]]

    @property
    def is_well_typed(self) -> bool:
        return not self.faults

    def position(self, at: int, utf8: bool = False) -> tuple[int, int]:
        """Returns the line and the character of an offset, as LSP counts them: in UTF-16 units, or in bytes if
        `utf8`."""
        before = re.split(r"\r\n|\r|\n", self.text[:at])
        # (an offset between CR and LF counts as the end of the line before)
        if self.text[at - 1 : at + 1] == "\r\n":
            before = re.split(r"\r\n|\r|\n", self.text[: at - 1])
        line = before[-1]
        return len(before) - 1, len(line.encode()) if utf8 else len(line.encode("utf-16-le")) // 2

    def places(self, declared: Declared) -> list[Span]:
        """Returns the spans at which a name is declared, used and closed, in order."""
        return sorted((token.start, token.end) for token, it in self.bound.items() if it is declared)
