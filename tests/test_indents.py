"""Compares the indentation by the files of editors/ with one computed from the whole text. The files start at the
heading above a line. Also bounds how much code the editors run for it, by counts instead of times."""
from __future__ import annotations

import json
import os
import random
import re

from harness import TOP, examples, holds, same, test, text_of, want
from homes import at_home, run_in_terminal, run_plainly, temporary, write
import aliasing_modules
import corpus
from reference import indents

COMMENTS = [
    "(* one (* and in it *) line *)",
    "(* a heading (* in\nPROCEDURE Old(VAR x: INTEGER);\nBEGIN IF x > 1 THEN\n*) a\n  PROCEDURE Older;\n  comment *)",
    "(*) opened\nMODULE Old;\n*)",
    "(* (* two *) (* more *)\nPROCEDURE Old;\n(* in it *)\nEND Old; *)",
]


def with_comments(text: str, chance: random.Random) -> str:
    """Returns a text with comments inserted before some lines, and at the ends of others."""
    found = []
    for line in text.split("\n"):
        if line.strip() and chance.random() < 0.1:
            found.append(chance.choice(COMMENTS))
        found.append(line + " " + chance.choice(COMMENTS) if line.strip() and chance.random() < 0.05 else line)
    return "\n".join(found)


def texts() -> list[str]:
    """Returns varied modules, each as it is and with inserted comments."""
    found = [text_of(it) for it in examples()[::3]] + [corpus.module(3000), *(aliasing_modules.module(seed) for seed in range(3))]
    chance = random.Random(1)
    return found + [with_comments(it, chance) for it in found]


def files_in(room: str, made: list[str]) -> str:
    """Writes each text to a file, every fourth one with CR LF. Returns the files' paths as JSON."""
    names = [os.path.join(room, f"{at}.ob0") for at in range(len(made))]
    for at, name in enumerate(names):
        write(name, made[at].replace("\n", "\r\n") if at % 4 == 1 else made[at])
    return json.dumps(names)


def compared(room: str, made: list[str], are_comments_left: bool) -> None:
    """Compares each file that an editor has indented with its text as the reference implementation indents it."""
    for at, text in enumerate(made):
        with open(os.path.join(room, f"{at}.ob0"), encoding="utf-8", newline="") as file:
            found = file.read()
        same("\r\n" in found, at % 4 == 1, f"whether text {at} has CR LF")
        lines, wanted = (it.rstrip("\n").split("\n") for it in (found.replace("\r\n", "\n"), indents.indented(text, are_comments_left)))
        same(len(lines), len(wanted), f"how many lines text {at} has")
        for number, pair in enumerate(zip(lines, wanted), 1):
            same(pair[0].rstrip(), pair[1].rstrip(), f"line {number} of text {at}: {text}")


def by_vim(editor: str, words: list[str]) -> None:
    made = texts()
    with temporary() as room:
        own, report = at_home(room, editor), os.path.join(room, "report")
        rc = os.path.join(room, "rc.vim")
        write(rc, "set nocompatible\nfiletype plugin indent on\n")
        own.update(OB0_FILES=files_in(room, made), OB0_REPORT=report)
        words = [it.replace("RC", rc) for it in words]
        status, said = run_in_terminal([*words, "-S", os.path.join(TOP, "tests", "editors", "indents.vim")], own, room)
        same((status, json.loads(text_of(report))), (0, []), f"lines that are indented differently one at a time: {said[-500:]}")
        compared(room, made, False)


@test("indentation: Vim indents texts as the reference implementation does, all lines at once and line by line")
def in_vim() -> None:
    want("Vim")
    by_vim("vim", ["vim.nox", "-n", "-i", "NONE", "-u", "RC"])


@test("indentation: Neovim indents texts as the reference implementation does, all lines at once and line by line")
def in_neovim() -> None:
    want("Neovim")
    by_vim("neovim", ["nvim", "-n", "-i", "NONE", "-u", "RC"])


@test("indentation: Emacs indents texts as the reference implementation does, all lines at once and line by line")
def in_emacs() -> None:
    want("Emacs")
    made = texts()
    with temporary() as room:
        own = at_home(room, "emacs")
        own.update(OB0_FILES=files_in(room, made))
        words = ["emacs", "-Q", "--batch", "-L", os.path.join(room, ".emacs.d", "lisp"), "-l", "ob0-mode"]
        status, said = run_plainly([*words, "-l", os.path.join(TOP, "tests", "editors", "indents.el")], own, room)
        same((status, said.strip()), (0, ""), "what Emacs says")
        compared(room, made, True)


PROCEDURE = """
PROCEDURE P{}(VAR a: INTEGER);
BEGIN
  IF a > 1 THEN
    a := a + 1
  END;
  WHILE a < 7 DO
    a := a * (2 + a)
  END
END P{};
"""
SIZES = (5, 20)


def costly_files(room: str) -> list[str]:
    """Writes two modules, the second with four times as many procedures. Returns the files' paths."""
    names = [os.path.join(room, f"{size}.ob0") for size in SIZES]
    for size, name in zip(SIZES, names):
        procedures = "".join(PROCEDURE.replace("{}", str(at)) for at in range(size))
        write(name, f"MODULE M;\nVAR x: INTEGER;\n{procedures}\nBEGIN\n  x := 1;\n  P0(x)\nEND M.\n")
    return names


def bounded(counts: list[list[int]]) -> None:
    """Requires that in a file four times as long, one line near the end costs at most 1.1 times as much, and all lines
    at most 5 times as much."""
    (line, every), (later, all_later) = counts
    holds(0 < later <= 1.1 * line, f"a line near the end costs {line}, and {later} in a text four times as long")
    holds(0 < all_later <= 5 * every, f"all lines cost {every}, and {all_later} in a text four times as long")


def costs_by_vim(editor: str, words: list[str]) -> None:
    with temporary() as room:
        own, rc = at_home(room, editor), os.path.join(room, "rc.vim")
        write(rc, "set nocompatible\nfiletype plugin indent on\n")
        files = costly_files(room)
        own["OB0_FILES"] = json.dumps(files)
        script = os.path.join(TOP, "tests", "editors", "indent_costs.vim")
        status, said = run_in_terminal([*words, "-n", "-i", "NONE", "-u", rc, "-S", script], own, room)
        same(status, 0, said[-500:])
        # (tables of all functions follow the functions' lines)
        counted = [[text_of(f"{it}.{what}").partition("FUNCTIONS SORTED")[0] for what in ("line", "all")] for it in files]
        bounded([[sum(map(int, re.findall(r"^ *(\d+) ", it, re.M))) for it in pair] for pair in counted])


@test("indentation: in Vim the cost of indenting a line doesn't grow with the text, whether one or all are indented")
def costs_in_vim() -> None:
    want("Vim")
    costs_by_vim("vim", ["vim.nox"])


@test("indentation: in Neovim the cost of indenting a line doesn't grow with the text, whether one or all are indented")
def costs_in_neovim() -> None:
    want("Neovim")
    costs_by_vim("neovim", ["nvim"])


@test("indentation: in Emacs the cost of indenting a line doesn't grow with the text, whether one or all are indented")
def costs_in_emacs() -> None:
    want("Emacs")
    with temporary() as room:
        mode = os.path.join(TOP, "editors", "emacs", "ob0-mode.el")
        own = {**os.environ, "HOME": room, "OB0_MODE": mode, "OB0_FILES": json.dumps(costly_files(room))}
        status, said = run_plainly(["emacs", "-Q", "--batch", "-l", os.path.join(TOP, "tests", "editors", "indent_costs.el")], own, room)
        same(status, 0, said[-2000:])
        bounded(json.loads(said.splitlines()[-1]))
