"""Tests docs/TUTORIAL.md: its modules, its commands and their output, and its tables."""
from __future__ import annotations

import os
import re
import subprocess
import tempfile
from typing import Any

import harness
from common import match_of
from harness import TOP, Server, did_open, ends, holds, need_program, on_file, same, test, text_of
from homes import write
from snippets import fenced

PAGE = os.path.join("docs", "TUTORIAL.md")
# modules that show an error
FAULTY = ["Broken", "Repaired", "Types"]
VALUES = {"TRUE": "1", "FALSE": "0"}


def modules() -> dict[str, str]:
    """Returns the page's modules by name."""
    found = [text for language, text in fenced(PAGE) if language == "oberon"]
    return {match_of(r"MODULE (\w+);", it)[1]: it for it in found}


def typed(block: str) -> list[tuple[str, str]]:
    """Returns each command in a console block of the page, with its output."""
    parts = (it.partition("\n") for it in re.split(r"^\$ ", block, flags=re.M)[1:])
    return [(command, printed) for command, _, printed in parts]


def rows(head: str) -> list[list[list[str]]]:
    """Returns the texts in backticks in each cell, for all rows of the tables with this head."""
    tables = text_of(PAGE).split(f"{head}\n")[1:]
    holds(tables, f"there is no table {head}")
    lines = [line for table in tables for line in table.partition("\n\n")[0].splitlines()[1:]]
    return [[re.findall(r"`([^`]*)`", cell) for cell in line.split("|")[1:-1]] for line in lines]


@test("tutorial: each command on docs/TUTORIAL.md prints the output that is shown there")
def commands() -> None:
    need_program()
    blocks = [text for language, text in fenced(PAGE) if language == "console"]
    same({language for language, _ in fenced(PAGE)}, {"oberon", "console"}, "the kinds of blocks")
    with tempfile.TemporaryDirectory() as room:
        os.mkdir(os.path.join(room, "bin"))
        os.symlink(os.path.abspath(harness.BINARY), os.path.join(room, "bin", "ob0"))
        own = {**os.environ, "PATH": os.path.join(room, "bin") + os.pathsep + os.environ["PATH"]}
        for name, text in modules().items():
            write(os.path.join(room, f"{name}.ob0"), text)
        how: dict[str, Any] = {"cwd": room, "env": own, "stdin": subprocess.DEVNULL, "stdout": subprocess.PIPE, "stderr": subprocess.STDOUT}
        for words, wanted in (it for block in blocks for it in typed(block)):
            ran = subprocess.run(["sh", "-c", words], timeout=harness.SECONDS, check=False, **how)
            same(ran.stdout.decode(), wanted, f"what `{words}` prints")
    used = {name for block in blocks for words, _ in typed(block) for name in re.findall(r"(\w+)\.ob0", words)}
    same(sorted(used), sorted(modules()), "the modules that a command on the page names")


@test("tutorial: the modules on docs/TUTORIAL.md are valid and formatted, except the modules that show an error")
def laid_out() -> None:
    with Server() as server:
        for name, text in modules().items():
            uri = f"file:///{name}"
            same(bool(server.notify(did_open(text, uri=uri))), name in FAULTY, f"whether {name} has a fault")
            if name not in FAULTY:
                options = {"textDocument": {"uri": uri}, "options": {"tabSize": 2, "insertSpaces": True}}
                same(server.query("textDocument/formatting", options).get("result"), [], f"the layout of {name}")


@test("tutorial: each expression on docs/TUTORIAL.md has the value given there")
def expressions() -> None:
    found = rows("| Expression | Value | |")
    holds(len(found) >= 12, f"there are {len(found)}")
    for (expression,), (value,), *_ in found:
        shown = f"IF {expression} THEN Write(1) ELSE Write(0) END" if value in VALUES else f"Write({expression})"
        ends(on_file("run", f"MODULE M; BEGIN {shown} END M."), f" {VALUES.get(value, value)}", 0)


@test("tutorial: docs/TUTORIAL.md lists each way in which a run can end, except Done")
def run_ends() -> None:
    named = [it[0][0] for it in rows("| The run ends with | because |")]
    listed = re.findall(r"^\| (\w+) \|", text_of("docs", "LANGUAGE.md").partition("| End | Because |")[2].partition("\n\n")[0], re.M)
    same(named, [it for it in listed if it != "Done"], "the ends")


@test("tutorial: inputs that docs/TUTORIAL.md calls wrong are refused, and inputs in the recommended form are read")
def numbers() -> None:
    page = " ".join(text_of(PAGE).split())
    refused = match_of(r"`([^`]*)`, `([^`]*)` or `([^`]*)` give the same\. \*\*Write whole numbers with spaces or line ends", page)
    for given in ("3, 4", *refused.groups()):
        ends(on_file("run", modules()["Rectangle"], given=given.encode()), "", 4, "fault: Input\n")
    for given in ("3 4", "3\n4\n", "-3 -4"):
        ends(on_file("run", modules()["Rectangle"], given=given.encode()), f" 12 {14 if given[0] == '3' else -14}\n", 0)


@test("tutorial: each Oberon-0 statement in docs/TUTORIAL.md's table of translations is valid")
def translated() -> None:
    found = [it[1] for it in rows("| C, Java, Python, Pascal | Oberon-0 |")]
    holds(len(found) >= 12, f"there are {len(found)}")
    names = match_of(r"declares\s+`([^`]*)`,\s+`([^`]*)`,\s+`([^`]*)`,\s+`([^`]*)`\s+and\s+procedures\s+`([^`]*)`\s+and\s+`([^`]*)`", text_of(PAGE))
    *variables, largest, go = (" ".join(it.split()) for it in names.groups())
    head = f"MODULE M; VAR {'; '.join(variables)}; PROCEDURE {largest}; END Max; PROCEDURE {go}; END Go; BEGIN "
    for (statement,) in found:
        ends(on_file("check", f"{head}{statement} END M."), "", 0)
