"""Generates random texts, each from a number: modules with a few lexemes or names changed, texts of few characters,
programs with their input and limits, and texts with changed white space."""
from __future__ import annotations

import random
import re
from typing import List, Tuple

import aliasing_modules
import corpus
import counting_modules
from reference.scanner import SYMBOLS, WORDS

LEXEME = re.compile(r"\(\*.*?\*\)|[A-Za-z][A-Za-z0-9]*|[0-9]+|:=|<=|>=|\S", re.S)
Program = Tuple[str, List[int], int, int]  # a module, its input, and how many calls and iterations are allowed
OPERATORS = ["+", "-", "*", "DIV", "MOD", "&", "OR", "=", "#", "<", "<=", ">", ">="]
OTHERS = [*WORDS, *SYMBOLS, "0", "1", "x", "TRUE", "INTEGER", "WriteLn", "2147483648", "1a", "$", "é", "(*", "*)", "😀"]
NAMES = ["TRUE", "FALSE", "INTEGER", "BOOLEAN", "Read", "Write", "WriteLn", "unknown", "0", "65537"]


def changed(text: str, chance: random.Random, swap: bool) -> str:
    """Returns a text with a few lexemes changed. With `swap`, names become other names and operators other operators;
    otherwise anything can happen to a lexeme."""
    pieces, at = [], 0
    for it in LEXEME.finditer(text):
        pieces += [text[at : it.start()], it[0]]
        at = it.end()
    names = [it for it in pieces if re.fullmatch(r"[A-Za-z][A-Za-z0-9]*", it) and it not in WORDS]
    for _ in range(chance.choice([1, 1, 2, 3, 6])):
        where = chance.randrange(1, len(pieces), 2)
        old = pieces[where]
        if swap and old in OPERATORS:
            pieces[where] = chance.choice(OPERATORS[:5] if old in OPERATORS[:5] else OPERATORS[5:])
        elif swap and (re.fullmatch(r"[A-Za-z0-9]+", old) and old not in WORDS):
            pieces[where] = chance.choice(names if chance.random() < 0.7 else NAMES)
        elif not swap:
            pieces[where] = chance.choice(["", old + " " + old, chance.choice(OTHERS), chance.choice(pieces[1::2])])
    return "".join(pieces)


def changed_module(seed: int, swap: bool) -> str:
    """Returns a module with a few lexemes changed. (`swap` as for `changed`.)"""
    chance = random.Random(f"{seed} {swap}")
    text = corpus.module(chance.choice([900, 1500, 3000]), seed, chance.random() < 0.2)
    return changed(text.partition("END Corpus.")[0] + "END Corpus.", chance, swap)


def characters(seed: int) -> str:
    chance = random.Random(seed)
    return "".join(chance.choice("(*)1a $\r\n😀é2147483648:=<>;.MODULE") for _ in range(chance.randrange(40)))


def program(seed: int) -> Program:
    """Returns a random program that reads and writes, with its input and its limits of calls and iterations."""
    chance = random.Random(f"run {seed}")
    text = corpus.module(chance.choice([900, 1500, 2500]), seed)
    text = text.partition("END Corpus.")[0] + "END Corpus."

    def reported_too(assigned: re.Match[str]) -> str:
        way = chance.random()
        return assigned[0] + (f"; Write({assigned[1]})" if way < 0.4 else f"; Read({assigned[1]})" if way < 0.45 else "; WriteLn" if way < 0.5 else "")

    text = re.sub(r"\b([vnm][0-9]+) := [^;\n]*(?=;?\n)", reported_too, text)
    given = [chance.choice([0, 1, -1, 7, 1000, 2147483647, -2147483648]) for _ in range(chance.randrange(30))]
    return text, given, chance.choice([0, 1, 3, 8]), chance.choice([0, 1, 2, 5])


def aliased(seed: int) -> Program:
    """Returns a program that copies and passes arrays and records, with its input and its limits of calls and
    iterations."""
    chance = random.Random(f"run {seed}")
    given = [chance.choice([0, 1, -1, 2, 5]) for _ in range(chance.randrange(12))]
    return aliasing_modules.module(seed), given, chance.choice([0, 2, 4, 6, 9, 64, 64, 64]), chance.choice([0, 1, 2, 3, 20, 20])


def counting(seed: int) -> Program:
    """Returns a program with counting loops, with its input and its limits of calls and iterations."""
    chance = random.Random(f"run {seed}")
    given = [chance.choice([0, 1, -1, 3, 2147483647]) for _ in range(chance.randrange(6))]
    return counting_modules.module(seed), given, chance.choice([0, 1, 2, 8]), chance.choice([0, 1, 2, 3, 4, 20, 20])


def squeezed(text: str, chance: random.Random) -> str:
    """Returns a text with random white space and comments between its lexemes."""
    pieces, at = [], 0
    for lexeme in LEXEME.finditer(text):
        old = text[at : lexeme.start()]
        pieces += [chance.choice([old, old, " ", "\n", "\r\n  ", "\r", "(*a*)", " (* b\n *) ", "\t(**)\n"]) if old else chance.choice(["", "", "", " ", "\n"]), lexeme[0]]
        at = lexeme.end()
    return "".join(pieces)
