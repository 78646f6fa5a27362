"""Scans a text into lexemes, according to docs/LANGUAGE.md, and finds the lexical faults. Offsets count characters."""
from __future__ import annotations

import re

WORDS = (
    "ARRAY BEGIN CONST DIV DO ELSE ELSIF END IF MOD MODULE OF OR PROCEDURE RECORD REPEAT THEN TYPE UNTIL VAR WHILE".split()
)
SYMBOLS = sorted("& * + - = # < <= > >= ~ . , ; : := ( ) [ ]".split(), key=len, reverse=True)
LIMIT, MOST = 1048576, 2147483647  # the maximal number of bytes of a text, and the greatest number


class Token:
    """A lexeme. Its kind is 'ident', 'integer', 'comment' or 'end'; the kind of a reserved word or a symbol is its
    spelling."""

    def __init__(self, kind: str, text: str, start: int) -> None:
        self.kind, self.text, self.start, self.end = kind, text, start, start + len(text)


def comment_end(text: str, at: int) -> int | None:
    """Returns the offset after the comment that opens at `at`, or None if it isn't closed."""
    depth = 0
    while at < len(text):
        pair = text[at : at + 2]
        if pair in ("(*", "*)"):
            depth += 1 if pair == "(*" else -1
            at += 2
            if not depth:
                return at
        else:
            at += 1
    return None


SPACE = re.compile(r"[ \t\r\n]+")
WORD = re.compile(r"[A-Za-z][A-Za-z0-9]*")
NUMBER = re.compile(r"([0-9]+)[A-Za-z0-9]*")  # a number, and letters that follow it without a space
SYMBOL = re.compile("|".join(map(re.escape, SYMBOLS)))


def scan(text: str) -> tuple[list[Token], list[tuple[str, int, int]]]:
    """Returns the lexemes of a text without white space, and the faults as triples of a code, a start and an end."""
    if len(text.encode()) > LIMIT:
        return [], [("TooLong", 0, 0)]
    found: list[Token] = []
    faults: list[tuple[str, int, int]] = []
    at = 0
    while at < len(text) and len(faults) < 100:
        if space := SPACE.match(text, at):
            at = space.end()
        elif text.startswith("(*", at):
            end = comment_end(text, at)
            if end is None:
                faults.append(("OpenComment", at, at + 2))
                break
            found.append(Token("comment", text[at:end], at))
            at = end
        elif word := WORD.match(text, at):
            found.append(Token(word[0] if word[0] in WORDS else "ident", word[0], at))
            at = word.end()
        elif number := NUMBER.match(text, at):
            if number.end() > number.end(1):
                faults.append(("NumberJoinsLetter", at, number.end()))
            elif int(number[1]) > MOST:
                faults.append(("NumberTooLarge", at, number.end()))
            found.append(Token("integer", number[1], at))
            at = number.end()
        elif symbol := SYMBOL.match(text, at):
            found.append(Token(symbol[0], symbol[0], at))
            at = symbol.end()
        else:
            faults.append(("BadChar", at, at + 1))
            at += 1
    return found, faults
