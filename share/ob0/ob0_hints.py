"""Finds a hint for an error message: what a beginner probably meant. The hints are in hints.json. For each message it
lists hints, each with the cases in which the hint is given; the first case that fits an error decides. A case contains
conditions on tokens: the one at the error (`at`), the two before it (`before`, `before2`), the next one, the first and
the last one in the line, and the word that opens the innermost construct (`inside`). `line` says whether the error is
in another line than the token before it. A condition lists tokens. A word in small letters stands for the word in any
case, unless it is reserved. `<name>` and similar words stand for a class of tokens. docs/MESSAGES.md has a row for each
case."""
from __future__ import annotations

import bisect
import difflib
import json
import os
import re
from typing import Callable, Dict, List, NamedTuple, Optional, Tuple

from reference.scanner import WORDS as RESERVED

TOKEN = re.compile(rb"\(\*|\*\)|[A-Za-z][A-Za-z0-9]*|[0-9][0-9A-Za-z]*|:=|<=|>=|[^\x00-\x7f]+|[^ \t\r\n]")
OPENING = ("MODULE", "PROCEDURE", "RECORD", "IF", "WHILE", "REPEAT")

Rule = Tuple[str, Dict[str, str]]  # a hint and a case


class Token(NamedTuple):
    """A token of the text, the offset at which it begins, and its line, counted from 1."""

    text: str
    start: int
    line: int


def rules() -> Dict[str, List[Rule]]:
    """Reads hints.json, and returns the rules for each message, in order."""
    found: Dict[str, List[Rule]] = {}
    with open(os.path.join(os.path.dirname(os.path.abspath(__file__)), "hints.json"), encoding="utf-8") as file:
        for messages, rows in json.load(file).items():
            for message in messages.split(" | "):
                found.setdefault(message, []).extend((hint, case) for hint, *cases in rows for case in cases)
    return found


def meant(word: str) -> str:
    """Returns the reserved word that the writer of a name probably meant, or "" if there is none."""
    if word in RESERVED or not word.isalpha():
        return ""
    close = difflib.get_close_matches(word.upper(), RESERVED, 1, 0.75) if len(word) > 2 and word.isupper() else []
    return word.upper() if word.upper() in RESERVED else "".join(close)


def is_one(token: str, pattern: str) -> bool:
    """Returns whether a token matches one word of a condition: a token, or a class such as `<name>`."""
    is_name = token[:1].isalpha() and token.isascii() and token not in RESERVED
    classes = {
        "<name>": is_name,
        "<number>": token[:1].isdigit(),
        "<reserved>": token in RESERVED,
        "<small>": is_name and token.upper() in RESERVED,
        "<meant>": is_name and bool(meant(token)),
        "<other>": not token.isascii(),
        "<end>": not token,
    }
    return classes.get(pattern, pattern == token or token not in RESERVED and pattern == token.lower())


class Hints:
    """Finds the hints for the errors of one text."""

    def __init__(self, text: bytes, starts: List[int]) -> None:
        self.rules, self.tokens, depth = rules(), [Token("", 0, 0)] * 2, 0
        for it in TOKEN.finditer(text):
            depth += it[0] == b"(*"
            if not depth:
                line = bisect.bisect_right(starts, it.start())
                self.tokens.append(Token(it[0].decode(errors="replace"), it.start(), line))
            depth -= it[0] == b"*)" and depth > 0

    def facts(self, offset: int) -> Dict[str, str]:
        """Returns, by name, the facts about the token at an offset, the tokens around it and their line. Conditions
        test these facts, and hints cite them."""
        index = next((index for index, it in enumerate(self.tokens) if index > 1 and it.start >= offset), len(self.tokens))
        before2, before, at, following = [*self.tokens, *[Token("", offset, 0)] * 2][index - 2 : index + 2]
        line, opened = at.line or before.line, [""]
        in_line = [it.text for it in self.tokens if it.line == line] or [""]
        for it in self.tokens[:index]:
            if it.text in OPENING:
                opened.append(it.text)
            elif it.text in ("END", "UNTIL") and len(opened) > 1:
                opened.pop()
        of_tokens = {"at": at.text, "before": before.text, "before2": before2.text, "next": following.text}
        of_line = {"first": in_line[0], "last": in_line[-1], "line": "same" if line == before.line else "new"}
        return {**of_tokens, **of_line, "inside": opened[-1], "number": str(before.line)}

    def rule(self, message: str, offset: int) -> Optional[Rule]:
        """Returns the first rule that fits an error, or None if no rule fits."""
        facts = self.facts(offset)
        fits: Callable[[Dict[str, str]], bool] = lambda case: all(any(is_one(facts[it], one) for one in case[it].split(" ")) for it in case)
        return next((it for it in self.rules.get(message, []) if fits(it[1])), None)

    def hint(self, message: str, offset: int) -> str:
        """Returns the hint for an error, or "" if there is none."""
        hint, case = self.rule(message, offset) or ("", {})
        facts = self.facts(offset)
        words = (meant(facts[it]) for it in ("at", "before", "first") if it in case)
        return hint.format(word=next((it for it in words if it), ""), **facts)
