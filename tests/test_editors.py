"""Drives real editors without a screen. Each is set up by the commands and lines of its page in editors/.

Neovim is driven by its own client, Emacs by eglot and by lsp-mode, Vim by ALE and by YouCompleteMe, Kate by its plugin (on a screen
that nobody sees). Kakoune, which has no client, is in test_syntax_files.py.

If an editor is missing, its tests are skipped and listed; `make editors` installs the editors that Debian has."""
from __future__ import annotations

import functools
import glob
import io
import json
import os
import random
import re
import shutil
import time
import zipfile
from collections.abc import Iterator
from typing import Any, Callable, Dict, List, Tuple, Type, TypeVar
from unittest import mock

import harness
import holding
import keyed
import package
import vsix
from harness import Failed, Message, TOP, edited, ends, extent, holds, on_file, same, test, text_of, want
from holding import edits_of, patched
from homes import at_home, put_between, run_in_terminal, run_plainly, temporary, write
from modules import CALLS, FAULTY, LEAST, NESTED, RECORDS, WRITES_A_GLOBAL
from snippets import snippets

T = TypeVar("T")
Steps = List[Tuple[str, Any]]  # pairs of a step's name and its result
Client = Callable[..., Steps]  # drives an editor through some steps
Seen = Tuple[List[int], str, List[List[int]], List[int]]
Which = Type[keyed.Keyed]

EDITORS = os.path.join(TOP, "tests", "editors")
ENDED = {"code": 0, "signal": 0}


def play(
    editor: str,
    words: list[str],
    steps: str,
    text: str,
    given: Any,
    set_up: Callable[[str], object] = lambda room: None,
    in_terminal: bool = False,
    more: dict[str, str] | None = None,
) -> Steps:
    """Starts an editor on a file with this text, and lets its script run `steps`. The environment passes `given` and
    `more` to the script. Returns pairs of a step and its result."""
    harness.need_program()
    with temporary() as room:
        own = at_home(room, editor)
        set_up(room)
        file, report = os.path.join(room, "work", "m.mod"), os.path.join(room, "report")
        write(file, text)
        own.update(OB0_FILE=file, OB0_REPORT=report, OB0_STEPS=steps, OB0_GIVEN=json.dumps(given), **(more or {}))
        status, said = (run_in_terminal if in_terminal else run_plainly)(words, own, os.path.dirname(file))
        found = []
        if os.path.isfile(report):
            with open(report, encoding="utf-8") as it:
                found = [json.loads(line.replace(os.path.dirname(file), "")) for line in it]
        if status:
            raise Failed(f"{words[0]} ended with {status}: {found[-1:]}\n{said[-1500:]}")
    return [(it["step"], it["found"]) for it in found]


def in_neovim(steps: str, text: str, breaks: str = "", **given: Any) -> Steps:
    want("Neovim")
    words = ["nvim", "--headless", "-n", "-i", "NONE", "-S", os.path.join(EDITORS, "neovim.lua")]

    def set_up(room: str) -> None:
        write(os.path.join(room, ".config", "nvim", "init.lua"), "\n".join(snippets("neovim", "lua")))
        write(os.path.join(room, "breaks"), breaks)

    return play("neovim", words, steps, text, given, set_up)


def in_emacs_by(client: str, steps: str, text: str, given: dict[str, Any]) -> Steps:
    """Runs steps in Emacs with the client `eglot` or `lsp-mode`. The page has the lines for eglot first."""
    want("Emacs", client)
    lines = snippets("emacs", "elisp")["eglot lsp-mode".split().index(client)]
    init = os.path.join(".emacs.d", "init.el")
    words = ["emacs", "--batch", "--eval", f'(progn (package-initialize) (load "~/{init}"))', "-l", os.path.join(EDITORS, f"{client}.el")]

    def set_up(room: str) -> None:
        write(os.path.join(room, init), lines)
        write(os.path.join(room, "breaks"), given.get("breaks", ""))

    return play("emacs", words, steps, text, given, set_up)


def in_emacs(steps: str, text: str, **given: Any) -> Steps:
    return in_emacs_by("eglot", steps, text, given)


def in_lsp_mode(steps: str, text: str, **given: Any) -> Steps:
    return in_emacs_by("lsp-mode", steps, text, given)


def in_vim(steps: str, text: str, **given: Any) -> Steps:
    want("Vim", "ALE")
    words = ["vim.nox", "-n", "-i", "NONE", "-S", os.path.join(EDITORS, "vim.vim")]

    def set_up(room: str) -> None:
        write(os.path.join(room, ".vimrc"), "\n".join(snippets("vim", "vim")))
        write(os.path.join(room, "breaks"), given.get("breaks", ""))

    return play("vim", words, steps, text, given, set_up, in_terminal=True)


# words that the pages of several editors share, and words that only their common page has
ONLY_SHOWN = "**not applicable**: the server makes no edits in this editor"
ON_ALL = [
    "**unknown**: save before each edit, and compare afterwards",
    "**If an edit goes wrong**: undo it, save, close the file and open it again.",
    "Every verdict assumes that the file has no lone CR",
]
UNKNOWN = "any other version: **unknown**"
CONDITIONS = "[The guarantee, its conditions, and what to do after a wrong edit](../README.md#does-the-guarantee-hold-in-your-editor)"
ASKED = (
    "In short: the editor tells the server every change, in order, with positions in the agreed unit and texts of Unicode scalar values. "
    "It makes all edits of an answer as one change. It discards an answer if its text is no longer the one that it asked about."
)


def verdicts(page: str) -> list[tuple[str, str]]:
    """Returns the editor with its versions, and whether the guarantee holds, in each row of the first table of a page."""
    rows = re.findall(r"^\| ([^|]+) \| ([^|]+) \|", text_of(page).partition("\n|---|")[2].partition("\n\n")[0], re.M)
    holds(len(rows) > 7, f"the table of {page} has {rows}")
    return rows


def in_bold(cells: list[str]) -> set[str]:
    """Returns the texts that are in bold in these cells."""
    return {it for cell in cells for it in re.findall(r"\*\*([^*]+)\*\*", cell)}


def items_of(folder: str, rows: list[tuple[str, str]]) -> list[str]:
    """Returns the list items that an editor's page must contain, made from the rows about that editor."""
    found = []
    for which, verdict in rows:
        for name, after in re.findall(r"\]\((\w+)/README\.md\)([^\[]*)", which):
            versions = re.sub(r"\([^)]*\)", "", after).strip(" ,")
            if name == folder:
                found.append(f"- {versions}: {verdict}" if versions else f"- {verdict}")
    return found


@test("editors: README, editors/README.md and each editor's page agree whether the guarantee holds in an editor")
def held_here() -> None:
    rows = verdicts("editors/README.md")
    shared = " ".join(text_of("editors/README.md").split())
    same([it for it in ON_ALL if it not in shared], [], "missing on the editors' page")
    for which, verdict in verdicts("README.md"):
        named = re.findall(r"\]\(editors/(\w+)/README\.md\)", which)
        wanted_here = in_bold([said for row, said in rows if any(f"]({it}/README.md)" in row for it in named)])
        same(in_bold([verdict]), wanted_here, f"the verdicts of README on {named}")
    linked = set(re.findall(r"\]\((?:editors/)?(\w+)/README\.md\)", "".join(it for it, _ in verdicts("README.md"))))
    same(linked, set(re.findall(r"\]\((\w+)/README\.md\)", "".join(it for it, _ in rows))), "the editors of README")
    folders = {os.path.basename(os.path.dirname(it)) for it in glob.glob(os.path.join(TOP, "editors", "*", "README.md"))}
    for folder in folders - {"tree-sitter"}:
        wanted = items_of(folder, rows)
        holds(wanted, f"the table has no row of {folder}")
        if [ONLY_SHOWN] != [it[2:] for it in wanted]:
            wanted += [CONDITIONS] if folder in ("vscode", "kakoune") else [CONDITIONS, UNKNOWN]
        page = " ".join(text_of("editors", folder, "README.md").split())
        same([it for it in wanted if it not in page], [], f"what editors/{folder}/README.md doesn't say")


@test("editors: the editors' page, PROMISES.md and STATEMENT.md state an editor's duties in the same words")
def asked_of_editors() -> None:
    for page in ("editors/README.md", "docs/PROMISES.md", "docs/STATEMENT.md"):
        holds(ASKED in " ".join(text_of(page).split()), f"{page} doesn't say {ASKED!r}")


GOOD = "MODULE M; BEGIN WriteLn END M.\n"
TYPED = "MODULE M; VAR x: INTEGER; BEGIN WriteLn END M.\n"


@test("Neovim: a bad character's diagnostic appears when it is typed or restored, and disappears when it is removed")
def neovim_scanning() -> None:
    bad = [[0, 16, 0, 17, "BadChar", "bad character"]]
    wanted_steps = [("opened", []), ("typed", bad), ("mended", []), ("undone", bad), ("redone", []), ("ended", ENDED)]
    same(in_neovim("scanning", GOOD), wanted_steps)


def while_typing() -> Steps:
    """Returns the steps with the diagnostics that must be shown after each letter of `; x := 1`."""
    typed, at = "; x := 1", TYPED.index(" END")
    wanted_steps: Steps = [("opened", [])]
    for count, letter in enumerate(typed, 1):
        found: list[Any] = []
        name, end = at + 2, at + count + 1
        if letter == ":":
            found = [[0, at + 4, 0, at + 5, "Syntax", "expected END"]]
        elif count in (6, 7):
            found = [[0, end, 0, end + 3, "Syntax", "expected expression"]]
        elif count in (3, 4):
            found = [[0, name, 0, name + 1, "WrongKind", "wrong kind of name"]]
        wanted_steps.append((f"typed {letter}", found))
    return [*wanted_steps, ("ended", ENDED)]


@test("Neovim: the expected diagnostic is shown after each letter of a typed statement")
def neovim_typing() -> None:
    same(in_neovim("typing", TYPED), while_typing())


FAULTS_REPORTED = [
    "1:10-1:17 ConstFault: constant has a fault",
    "3:46-3:47 EndName: wrong closing name",
    "4:11-4:12 TypeMismatch: wrong type",
    "4:16-4:17 NotVariable: not a variable",
    "4:20-4:21 ArgumentCount: wrong number of arguments",
    "4:23-4:24 Undeclared: not declared",
    "4:32-4:33 NotRecord: not a record",
    "4:42-4:43 NotArray: not an array",
    "4:58-4:59 WrongKind: wrong kind of name",
    "4:62-4:63 NotVariable: not a variable",
]
MENDED = """MODULE M;
CONST k = 1 DIV 1; m = 1;
VAR i: INTEGER; b: BOOLEAN;
PROCEDURE P(VAR j: INTEGER); BEGIN j := 1 END P;
BEGIN i := 0; P(i); b := m = 1; Write(k) END M.
"""


def as_neovim_shows() -> list[Any]:
    found = []
    for line in FAULTS_REPORTED:
        where, code, message = line.split(" ", 2)
        place = extent(where)
        ends = [place[end][part] for end in ("start", "end") for part in ("line", "character")]
        found.append([*ends, code[:-1], message])
    return found


def as_emacs_shows() -> list[Any]:
    lines = FAULTY.split("\n")
    offset: Callable[[Message], int] = lambda at: sum(len(it) + 1 for it in lines[: at["line"]]) + int(at["character"])
    found = []
    for it in FAULTS_REPORTED:
        where, code, message = it.split(" ", 2)
        found.append([offset(extent(where)["start"]), offset(extent(where)["end"]), f" [{code[:-1]}]: {message}"])
    return found


@test("Neovim: all errors of an invalid module are shown, and they disappear once the module is fixed")
def neovim_types() -> None:
    same(in_neovim("mending", FAULTY, mended=MENDED), [("opened", as_neovim_shows()), ("mended", []), ("ended", ENDED)])


@test("Emacs: all errors of an invalid module are shown, and they disappear once the module is fixed")
def emacs_types() -> None:
    same(in_emacs("mending", FAULTY, mended=MENDED), [("opened", as_emacs_shows()), ("mended", []), ("ended", 0)])


@test("lsp-mode: all errors of an invalid module are shown, and they disappear once the module is fixed")
def lsp_mode_types() -> None:
    same(in_lsp_mode("mending", FAULTY, mended=MENDED), [("opened", as_neovim_shows()), ("mended", [])])


@test("Vim: all errors of an invalid module are shown, and they disappear once the module is fixed")
def vim_types() -> None:
    same(in_vim("mending", FAULTY, mended=MENDED), [("opened", as_neovim_shows()), ("mended", [])])


@test("Emacs: a bad character's diagnostic appears when the character is typed, and disappears when it is removed")
def emacs_scanning() -> None:
    bad = [[16, 17, " [BadChar]: bad character"]]
    same(in_emacs("scanning", GOOD), [("opened", []), ("typed", bad), ("mended", []), ("ended", 0)])


@test("Emacs: eglot shows a late diagnostic even if its position is now inside a character")
def emacs_outdated() -> None:
    text = "MODULE M; (* \U0001f600 *)\nBEGIN\n  WriteLn\nEND M.\n"
    same(in_emacs("outdated", text), [("opened", []), ("outdated", 1), ("ended", 0)])


PLACES = ["1:10-1:11", "2:30-2:31", "2:47-2:48", "3:6-3:7"]
HOVER = {"contents": {"kind": "plaintext", "value": "PROCEDURE F(n: INTEGER)"}, "range": extent("3:6-3:7")}
DEFINITION = {"range": extent("1:10-1:11"), "uri": "file:///m.mod"}
REFERENCES = [{"range": extent(it), "uri": "file:///m.mod"} for it in PLACES]
ANSWERED = [("opened", []), ("hover", HOVER), ("definition", DEFINITION), ("references", REFERENCES)]


@test("Neovim: the server gives the expected answers to Neovim's hover, definition and references requests")
def neovim_questions() -> None:
    same(in_neovim("questions", CALLS), [*ANSWERED, ("ended", ENDED)])


@test("Emacs: the server gives the expected answers to eglot's hover, definition and references requests")
def emacs_questions() -> None:
    same(in_emacs("questions", CALLS), [*ANSWERED, ("ended", 0)])


# places, each with its hover text, the listed places, and the declaration of its name
CALLS_SEEN = [
    ([3, 6], "PROCEDURE F(n: INTEGER)", [[1, 10], [2, 30], [2, 47], [3, 6]], [1, 10]),
    ([2, 47], "PROCEDURE F(n: INTEGER)", [[1, 10], [2, 30], [2, 47], [3, 6]], [1, 10]),
    ([2, 32], "VAR n: INTEGER", [[1, 12], [2, 9], [2, 26], [2, 32]], [1, 12]),
]
RECORDS_SEEN = [
    ([3, 8], "FIELD a: INTEGER", [[1, 16], [3, 8], [3, 33]], [1, 16]),
    ([3, 39], "FIELD a: INTEGER", [[2, 20], [3, 18], [3, 39]], [2, 20]),
]


def looked(seen: list[Seen]) -> Steps:
    found: Steps = [("opened", [])]
    for _, shown, listed, declared in seen:
        found += [("shown", shown), ("listed", listed), ("jumped", declared)]
    return found


def without_declarations(seen: list[Seen]) -> list[Seen]:
    """Returns `seen` without the declarations, for a client that requests references without them."""
    return [(place, shown, [it for it in listed if it != declared], declared) for place, shown, listed, declared in seen]


@test("Neovim: the editor's own hover, reference list and go-to-definition show the server's answers")
def neovim_looking() -> None:
    for text, seen in ((CALLS, CALLS_SEEN), (RECORDS, RECORDS_SEEN)):
        same(in_neovim("looking", text, places=[it[0] for it in seen]), [*looked(seen), ("ended", ENDED)])


@test("Neovim: if the program ob0 is missing, one line says so")
def neovim_without() -> None:
    want("Neovim")
    with temporary() as room:
        own, file = at_home(room, "neovim"), os.path.join(room, "m.ob0")
        write(file, GOOD)
        words = ["nvim", "--headless", "-n", "-i", "NONE", "--cmd", "let g:ob0_program = 'no-such-program'", file, "+qall!"]
        status, said = run_plainly(words, own, room)
    same((status, said.strip()), (0, "There is no program no-such-program: set vim.g.ob0_program to its path"))


@test("Neovim: if text is typed into an empty buffer, the text that the server gets ends with a line end")
def neovim_emptied() -> None:
    same(in_neovim("emptied", CALLS), [("opened", []), *[("left to do", [])] * 3, ("ended", ENDED)])


REFUSING = """MODULE M;
VAR x, y: INTEGER;
  PROCEDURE P(z: INTEGER);
  BEGIN (* \u00e4\U0001f600 *) x := z + y
  END P;
BEGIN Write(1)
END M.
"""
ILL_TYPED = "the module has an error: fix the first one that is marked"
# renames of REFUSING that are refused: a place, the new name, and what an editor shows
REFUSED_RENAMES = [
    ([1, 4], "y", "`y` is declared in line 2 already"),
    ([1, 4], "z", "with the new name, `x` in line 4 would refer to another declaration"),
    ([1, 4], "END", "a name has letters and digits, a letter first, and isn't a reserved word"),
    (
        [0, 7],
        "other",
        "no name here can be renamed: predeclared ones and the module's can't",
    ),
]


@test("Neovim: the refusal of a rename, or of a request in an invalid module, is explained in a sentence")
def neovim_refused() -> None:
    steps = [(name, f"ob0: {words}") for _, name, words in REFUSED_RENAMES]
    told = [(it, f"ob0: {ILL_TYPED}") for it in ("rename", "hover", "definition", "format")]
    found = in_neovim("refused", REFUSING, renames=[it[:2] for it in REFUSED_RENAMES])
    same(found, [("opened", []), *steps, *told, ("ended", ENDED)])


# what an editor says about a text that the server can't read: at first, and if the text can't be read after that either
HOWS = ("it is opened again", "it stays closed until it is changed")
UNREAD = [f"ob0: the server can't read m.mod: {how}" for how in HOWS]


@test("Neovim: a document that the server can't read is reopened once, and then again at the next change")
def neovim_unread() -> None:
    text = "MODULE M;\n\nBEGIN Write(1) END M.\n"
    again, closed = (f"{it} (not JSON)" for it in UNREAD)
    steps = [
        (" a  ", ["didChange didClose didOpen didClose", f"{again} | {closed}"]),
        (" b  ", ["didOpen didClose", ""]),
        ("", ["didOpen", ""]),
        ("read", [[1, 0, 1, 1, "BadChar", "bad character"]]),
    ]
    same(in_neovim("unread", text, breaks="readable"), [("opened", []), *steps, ("ended", ENDED)])


# a module with two errors, and the hint for each: the second error is reported once the first is fixed
HINTED = "MODULE M;\nVAR x: INTEGER;\nBEGIN\n  x = 1;\n  Inc(x)\nEND M.\n"
EXPECTED_END = [3, 4, 3, 5, "Syntax", "expected END"]
NOT_DECLARED = [4, 2, 4, 5, "Undeclared", "not declared"]
ASSIGN = "hint: an assignment is written `:=`, as in `x := 1`; `=` compares"
NO_INC = "hint: there is no Inc: `x := x + 1`"


@test("Neovim: a hint is shown below the line of an error, unless the user turns hints off")
def neovim_hinted() -> None:
    changes = [["  x := 1;", 3], ["  WriteLn", 4], ["  Inc(x)", 4]]
    steps = [
        ("opened", [[EXPECTED_END], [[3, f"  {ASSIGN}"]]]),
        ("  x := 1;", [[NOT_DECLARED], [[4, f"  {NO_INC}"]]]),
        ("  WriteLn", [[], []]),
        ("  Inc(x)", [[NOT_DECLARED], [[4, f"  {NO_INC}"]]]),
        ("turned off", []),
        ("ended", ENDED),
    ]
    same(in_neovim("hinted", HINTED, changes=changes), steps)


@test("Emacs: a hint is appended to a diagnostic's message, and the echo area shows both")
def emacs_hinted() -> None:
    start, called = HINTED.index("="), HINTED.replace("=", ":=").index("Inc")
    expected_end, not_declared = " [Syntax]: expected END", " [Undeclared]: not declared"
    steps = [
        ("opened", [[start, start + 1, expected_end]]),
        ("hinted", [[start, start + 1, f"{expected_end}\n{ASSIGN}"]]),
        ("changed", [[called, called + 3, not_declared]]),
        ("hinted again", [[called, called + 3, f"{not_declared}\n{NO_INC}"]]),
        ("echo area", f"{not_declared}\n{NO_INC}"),
        ("mended", []),
        ("ended", 0),
    ]
    same(in_emacs("hinted", HINTED), steps)


@test("lsp-mode: a hint is appended to the message of a diagnostic")
def lsp_mode_hinted() -> None:
    with_hint: Callable[[List[Any], str], List[List[Any]]] = lambda it, hint: [[*it[:5], f"{it[5]}\n{hint}"]]
    steps = [
        ("opened", [EXPECTED_END]),
        ("hinted", with_hint(EXPECTED_END, ASSIGN)),
        ("changed", [NOT_DECLARED]),
        ("hinted again", with_hint(NOT_DECLARED, NO_INC)),
        ("mended", []),
    ]
    same(in_lsp_mode("hinted", HINTED), steps)


@test("Vim: with ALE a hint is appended to a diagnostic's message, unless the user turns hints off")
def vim_hinted() -> None:
    with_hint: Callable[[List[Any], str], List[List[Any]]] = lambda it, hint: [[*it[:5], f"{it[5]} | {hint}"]]
    steps = [
        ("opened", [EXPECTED_END]),
        ("hinted", with_hint(EXPECTED_END, ASSIGN)),
        ("listed", [f"Syntax: expected END | {ASSIGN}"]),
        ("changed", [NOT_DECLARED]),
        ("hinted again", with_hint(NOT_DECLARED, NO_INC)),
        ("turned off", ["expected END"]),
    ]
    same(in_vim("hinted", HINTED), steps)


# each row: a text, whether formatting changes it, and the file that is saved afterwards
LINES_ENDED = [
    ("MODULE M;\nBEGIN Write(1) END M.", True, "MODULE M;\nBEGIN\n  Write(1)\nEND M.\n"),
    ("MODULE M;\nBEGIN\n  Write(1)\nEND M.", False, "MODULE M;\nBEGIN\n  Write(1)\nEND M.\n"),
    ("MODULE M;\r\nBEGIN Write(1) END M.\r\n", True, "MODULE M;\r\nBEGIN\r\n  Write(1)\r\nEND M.\r\n"),
    ("MODULE M;\r\nBEGIN\r\n  Write(1)\r\nEND M.\r\n", False, "MODULE M;\r\nBEGIN\r\n  Write(1)\r\nEND M.\r\n"),
    (
        "MODULE M;\r\n(* é\U0001f600 *) BEGIN Write(1) END M.",
        True,
        "MODULE M;\r\n(* é\U0001f600 *)\r\nBEGIN\r\n  Write(1)\r\nEND M.\r\n",
    ),
]


@test("Neovim: formatting keeps CR LF line endings, even without a last one, and a second formatting changes nothing")
def neovim_line_ends() -> None:
    for text, changes, written in LINES_ENDED:
        steps = [("opened", []), ("changes", changes), ("changes", False), ("file", written), ("ended", ENDED)]
        same(in_neovim("formatted", text), steps, f"the steps on {text!r}")


def line_ends_in_emacs(editor: Client, end: Steps) -> None:
    for text, changes, written in LINES_ENDED[2:4]:
        steps = [("opened", []), ("changes", changes), ("changes", False), ("file", written), *end]
        same(editor("formatted", text), steps, f"the steps on {text!r}")


@test("Emacs: formatting keeps a file's CR LF line endings, and a second formatting changes nothing")
def emacs_line_ends() -> None:
    line_ends_in_emacs(in_emacs, [("ended", 0)])


@test("lsp-mode: formatting keeps a file's CR LF line endings, and a second formatting changes nothing")
def lsp_mode_line_ends() -> None:
    line_ends_in_emacs(in_lsp_mode, [])


@test("Emacs: a document that eglot can't send, or that the server can't read, is reopened at the next change")
def emacs_unread() -> None:
    found = in_emacs("unread", "MODULE M;\n\nEND M.\n", breaks="readable")
    told = {step: it for step, it in found if step not in ("opened", "ended")}
    same(list(told), ["half a pair", "still", "mended", "no message"], "the steps")
    # (eglot itself fails to send the first change and the first two openings)
    wanted_told = ["didChange didClose didOpen didClose", "didOpen", "didOpen", "didClose didOpen"]
    same([told[it][0] for it in told], wanted_told, "what is told")
    again, closed = (told["half a pair"][1] + " | ").split(" | ")[:2]
    holds(again.startswith(UNREAD[0]), again)
    holds(closed.startswith(UNREAD[1]), closed)
    same([told["still"][1], told["mended"][1]], ["", ""], "the messages while it stays closed, and then")
    same(told["no message"][1], f"{UNREAD[0]} (not JSON)", "the last message")


@test("lsp-mode: a document that lsp-mode can't send, or that the server can't read, is reopened at the next change")
def lsp_mode_unread() -> None:
    found = in_lsp_mode("unread", "MODULE M;\n\nEND M.\n", breaks="readable")
    told = {step: it for step, it in found if step not in ("opened", "read")}
    wanted_told = ["didChange didClose didOpen didClose", "didOpen", "didOpen", "didClose didOpen"]
    same([it[0] for it in told.values()], wanted_told, "the notifications")
    said = [re.sub(r" \(.*", "", it) for step in told for it in told[step][1].split(" | ")]
    same(said, [*UNREAD, "", "", UNREAD[0]], "the messages")
    same(dict(found)["read"], [[1, 0, 1, 1, "BadChar", "bad character"]], "the diagnostics once it is read")


@test("Vim: with ALE a document that the server can't read is reopened once, and then again at the next change")
def vim_unread() -> None:
    said = [f"{it} (not JSON)" for it in UNREAD]
    steps = [("opened", []), ("said", said), ("read", [[0, 9, 0, 10, "BadChar", "bad character"]])]
    same(in_vim("unread", GOOD, breaks="readable"), steps)


def refused_in_emacs(editor: Client, end: Steps, *more: str) -> None:
    steps = [(name, f"ob0: {words}") for _, name, words in REFUSED_RENAMES]
    told = [(it, f"ob0: {ILL_TYPED}") for it in ("rename", "definition", "format", *more)]
    found = editor("refused", REFUSING, renames=[it[:2] for it in REFUSED_RENAMES])
    same(found, [("opened", []), *steps, *told, *end])


@test("Emacs: the refusal of a rename, or of a request in an invalid module, is explained in a sentence")
def emacs_refused() -> None:
    refused_in_emacs(in_emacs, [("ended", 0)])


@test("lsp-mode: the refusal of a rename, or of a request in an invalid module, is explained in a sentence")
def lsp_mode_refused() -> None:
    refused_in_emacs(in_lsp_mode, [], "prompt")


@test("Vim: with ALE the refusal of a rename, or of a request in an invalid module, is explained in a sentence")
def vim_refused() -> None:
    steps = [(name, f"ob0: {words}") for _, name, words in REFUSED_RENAMES]
    told = [(it, f"ob0: {ILL_TYPED}") for it in ("rename", "hover", "definition")]
    found = in_vim("refused", REFUSING, renames=[it[:2] for it in REFUSED_RENAMES], title="")
    same(found, [("opened", []), *steps, *told])


@test("Vim: ALE formats a module with ob0-format, and the line endings and the module's output are unchanged")
def vim_formatted() -> None:
    for line_end in ("\n", "\r\n"):
        text, written = "MODULE M;\nBEGIN Write(1) END M.\n", "MODULE M;\nBEGIN\n  Write(1)\nEND M.\n"
        found = in_vim("formatted", text.replace("\n", line_end), title="")
        same(found, [("opened", []), ("formatted", []), ("text", written), ("file", written.replace("\n", line_end))])
        keeps_the_run(text, written, " 1")


@test("Neovim: the prompt of a rename contains the old name, even after letters that aren't ASCII")
def neovim_prompted() -> None:
    column = len("  BEGIN (* \u00e4\U0001f600 *) ".encode())
    found = in_neovim("prompted", REFUSING.replace("x", "total"), place=[3, column])
    same(found, [("opened", []), ("prompted", "total"), ("ended", ENDED)])


@test("Neovim: ob0's files show the messages of diagnostics if Neovim doesn't, unless the user prevents it")
def neovim_messages() -> None:
    shown = [("by Neovim", 0), ("by the user's choice", 0), ("by ob0", 1)]
    same(in_neovim("messages", GOOD.replace("WriteLn", "x := 1")), [("opened", 1), *shown, ("ended", ENDED)])


@test("Emacs: imenu lists the module's procedures while eglot is on")
def emacs_index() -> None:
    same(in_emacs("index", CALLS), [("opened", []), ("index", ["*Rescan*", "F"]), ("ended", 0)])


@test("Emacs: the editor's own hover, reference list and go-to-definition show the server's answers")
def emacs_looking() -> None:
    for text, seen in ((CALLS, CALLS_SEEN), (RECORDS, RECORDS_SEEN)):
        same(in_emacs("looking", text, places=[it[0] for it in seen]), [*looked(seen), ("ended", 0)])


@test("lsp-mode: the editor's own hover, reference list and go-to-definition show the server's answers")
def lsp_mode_looking() -> None:
    for text, seen in ((CALLS, CALLS_SEEN), (RECORDS, RECORDS_SEEN)):
        found = in_lsp_mode("looking", text, places=[it[0] for it in seen])
        # (version 8 requests references without the declaration, version 9 with it)
        same(found, looked(seen) if found == looked(seen) else looked(without_declarations(seen)))


@test("Vim: the hover, reference list and go-to-definition of ALE show the server's answers")
def vim_looking() -> None:
    for text, seen in ((CALLS, CALLS_SEEN), (RECORDS, RECORDS_SEEN)):
        same(in_vim("looking", text, places=[it[0] for it in seen]), looked(without_declarations(seen)))


def keeps_the_run(before: str, after: str, out: str, given: bytes = b"") -> None:
    """Requires a text before and after an editor's edits to print `out` on this input, and to end with status 0."""
    for text in (before, after):
        ends(on_file("run", text, given=given), out, 0)


def example(name: str) -> tuple[str, str]:
    """Returns the text of an example, and the text that it prints."""
    with open(os.path.join(TOP, "examples", f"{name}.mod"), encoding="utf-8") as text, open(os.path.join(TOP, "examples", f"{name}.out"), encoding="utf-8") as out:
        return text.read(), out.read()


NESTED_EXAMPLE, NESTED_PRINTS = example("Nested")
INNER = [
    f"{line}:{found.start()}-{line}:{found.end()}"
    for line, text in enumerate(NESTED_EXAMPLE.split("\n"))
    if "(*" not in text
    for found in re.finditer(r"\bInner\b", text)
]
COLLATZ, COLLATZ_PRINTS = example("Collatz")

# each row: a text, a place in it, the new name, the places that change, and what the text prints before and after
RENAMED = [
    (NESTED_EXAMPLE, [6, 14], "Add", INNER, NESTED_PRINTS),
    (CALLS, [2, 47], "G", PLACES, " 2 1"),
    (NESTED, [1, 4], "z", ["1:4-1:5", "4:14-4:15", "5:15-5:16"], " 1"),
    (WRITES_A_GLOBAL, [4, 10], "Q", ["4:10-4:11", "4:32-4:33", "5:9-5:10"], " 2 7"),
]
FIELDS = ["1:16-1:17", "3:8-3:9", "3:33-3:34"]
FIELDS_RENAMED = [
    (RECORDS, [3, 8], "r", FIELDS, " 3"),
    (RECORDS, [1, 16], "c", FIELDS, " 3"),
]


def renames(editor: Client, end: Steps, rows: list[tuple[str, list[int], str, list[str], str]]) -> None:
    for text, place, new, places, out in rows:
        found = editor("rename", text, place=place, name=new)
        steps = [("opened", []), ("renamed", []), ("text", edited(text, places, new)), *end]
        same(found, steps, f"{new} at {place}")
        keeps_the_run(text, dict(found)["text"], out)


# each editor that renames, with the function that drives it and its last steps
CLIENTS: List[Tuple[str, Client, Steps]] = [
    ("Neovim", in_neovim, [("ended", ENDED)]),
    ("Emacs", in_emacs, [("ended", 0)]),
    ("lsp-mode", in_lsp_mode, []),
    ("Vim", in_vim, []),
]


def in_each(what: str, clients: list[tuple[str, Client, Steps]], function: Callable[..., None], *more: object) -> None:
    """Registers a test 'CLIENT: WHAT' for each of these clients."""
    for name, editor, end in clients:
        test(f"{name}: {what}")(functools.partial(function, editor, end, *more))


in_each("a rename is applied, and the module's output is unchanged", CLIENTS, renames, RENAMED)
in_each("a rename of a record's field is applied, and the module's output is unchanged", CLIENTS, renames, FIELDS_RENAMED)

LEAST_HERE = LEAST.replace("+ c", "+ (-2147483647 - 1)")
LEAST_EVERYWHERE = LEAST_HERE.replace("c = -2147483647 - 1;", "")
FIVE = "MODULE M;\nCONST c = -5;\nBEGIN Write(c DIV 3) END M.\n"
FIVE_HERE = FIVE.replace("c DIV", "(-5) DIV")

# each row: a text, a place in it, the chosen action, the number of offered actions, the text afterwards, and what it
# prints
ACTED = [
    (LEAST, [3, 15], "Inline here", 2, LEAST_HERE, " -2147483648"),
    (LEAST, [3, 15], "Inline everywhere", 2, LEAST_EVERYWHERE, " -2147483648"),
    (LEAST, [1, 6], "Inline everywhere", 1, LEAST_EVERYWHERE, " -2147483648"),
    (FIVE, [2, 12], "Inline here", 2, FIVE_HERE, " -2"),
    (FIVE, [2, 12], "Inline everywhere", 2, FIVE_HERE.replace("c = -5;", ""), " -2"),
]


def inlines(editor: Client, end: Steps) -> None:
    for text, place, title, count, wanted_text, out in ACTED:
        found = editor("acting", text, place=place, title=title)
        offered = ["Inline here", "Inline everywhere"][2 - count :]
        steps = [("opened", []), ("acted", []), ("offered", offered), ("text", wanted_text), *end]
        same(found, steps, f"{title} at {place}")
        keeps_the_run(text, dict(found)["text"], out)


in_each("both ways to inline a constant are offered and applied, and the module's output is unchanged", CLIENTS, inlines)

# each row: the width of a level, whether it is spaces, a text, the formatted text, an input, and what both print for it
FORMATTED = [
    # (an example, all on one line, is formatted as it is in its file)
    (2, True, " ".join(COLLATZ.split()), COLLATZ, b"15", COLLATZ_PRINTS),
    (
        2,
        True,
        "MODULE M;VAR x:INTEGER;BEGIN x:=-1;IF x<0 THEN Write(x)(* a (* b *) c *)END;WriteLn END M.(* end *)",
        "MODULE M;\nVAR\n  x: INTEGER;\nBEGIN\n  x := -1;\n  IF x < 0 THEN\n    Write(x) (* a (* b *) c *)\n  END;\n  WriteLn\n"
        "END M. (* end *)\n",
        b"",
        " -1\n",
    ),
    (
        4,
        False,
        "MODULE M;CONST a=1;b=-a;TYPE T=RECORD x,y:INTEGER END;PROCEDURE P(VAR t:T;n:INTEGER);"
        "BEGIN t.x:=-n+t.y;WHILE ~(n=0)DO P(t,n-1)END END P;END M.",
        "MODULE M;\nCONST\n\ta = 1;\n\tb = -a;\nTYPE\n\tT = RECORD x, y: INTEGER END;\n\tPROCEDURE P(VAR t: T; n: INTEGER);\n"
        "\tBEGIN\n\t\tt.x := -n + t.y;\n\t\tWHILE ~(n = 0) DO\n\t\t\tP(t, n - 1)\n\t\tEND\n\tEND P;\nEND M.\n",
        b"",
        "",
    ),
    (
        2,
        True,
        "MODULE M;\nVAR n: INTEGER;\nBEGIN Read(n); REPEAT Write(n); n := n - 1 UNTIL n <= 0 END M.\n",
        "MODULE M;\nVAR\n  n: INTEGER;\nBEGIN\n  Read(n);\n  REPEAT\n    Write(n);\n    n := n - 1\n  UNTIL n <= 0\nEND M.\n",
        b"2",
        " 2 1",
    ),
]


def formats(editor: Client, end: Steps) -> None:
    for size, spaces, text, wanted, given, out in FORMATTED:
        found = editor("format", text, size=size, spaces=spaces)
        once = [("opened", []), ("formatted", []), ("text", wanted)]
        same(found, [*once, ("left to do", []), ("changes", 0), ("text again", wanted), *end], wanted)
        keeps_the_run(text, dict(found)["text"], out, given)


in_each("a module is formatted, a second formatting changes nothing, and the module's output is unchanged", CLIENTS[:2], formats)


@test("lsp-mode: a module is formatted as expected, and the module's output is unchanged")
def lsp_mode_format() -> None:
    for size, spaces, text, wanted, given, out in FORMATTED:
        if (size, spaces) == (2, True):  # (what ob0-mode requests)
            found = in_lsp_mode("format", text)
            same(found, [("opened", []), ("formatted", []), ("text", wanted)], wanted)
            keeps_the_run(text, dict(found)["text"], out, given)


CONSTANT = "MODULE M;\nCONST k = 7;\nBEGIN Write(k) END M.\n"
WITH_A_LINE = CONSTANT.replace("\n", "\n(* new *)\n", 1)
# the documents that VS Code's extension leaves: after answers that come at once, and after answers that come after a
# change
MADE_AT_ONCE = {
    "rename": CONSTANT.replace("k", "z"),
    "layout": "MODULE M;\nCONST\n  k = 7;\nBEGIN\n  Write(k)\nEND M.\n",
    "inlining": CONSTANT.replace("(k)", "(7)"),
}
MADE_LATE = {
    **{f"{asked}, {when}": WITH_A_LINE for asked in MADE_AT_ONCE for when in ("first version", "reopened")},
    **{f"{asked}, later version": " " + WITH_A_LINE for asked in MADE_AT_ONCE},
    "list of actions": WITH_A_LINE,
}
def in_vscode(folder: str, *kind: str) -> tuple[str, Any, list[Message], list[Message]]:
    """Runs VS Code's extension from a folder under Node. Returns the path of the module, the results, the `initialize`
    requests that were sent, and the answers to renames."""
    with temporary() as room:
        own = at_home(room, "vscode")
        put_between(room)
        write(os.path.join(room, "breaks"), "" if "real" in kind else "readable")
        # (a packed extension contains its modules)
        nodes = vsix.modules() if folder == vsix.FOLDER else None
        own["NODE_PATH"] = os.pathsep.join(nodes.folders) if nodes else ""
        file = os.path.join(room, "work", "it's a.mod")
        write(file, "MODULE M;\nBEGIN x := 1 END M.\n")
        words = ["node", os.path.join(EDITORS, "vscode.js"), folder, file, room, *kind]
        status, said = run_plainly(words, own, room)
        same(status, 0, said[-2000:])
        wire = holding.Wire(room)
        return file, json.loads(said.splitlines()[-1]), wire.sent("initialize"), wire.answers("textDocument/rename")


def in_vscode_by(*kind: str, folder: str = vsix.FOLDER) -> None:
    file, found, started, renamed = in_vscode(folder, *kind)
    nothing = {"ended": "activated", "stopped": "deactivated", "said": ["There is no program no-such-program: set ob0.path to its path."]}
    same(found["without"], nothing, "the message if there is no program")
    same(found["published"], ["Undeclared"], "the diagnostics")
    matched = [[file, "2", "7", "Undeclared", "not declared"]]
    tasks: dict[str, Any] = {"executed": ["check", "run"], "matchers": ["$ob0"], "matched": matched, "status": 1, "words": ["ob0", "run", file], "provided": ["check", "run"]}
    same(found["tasks"], {**tasks, "resolved": ["mine", file]}, "the tasks")
    unsaved = "The file wasn't saved, so there is nothing to run."
    same(found["unsaved"], {"ran": [os.path.join(os.path.dirname(file), "named.mod")], "said": [unsaved, unsaved]}, "files that aren't saved")
    ill_typed = f"ob0: {ILL_TYPED}"
    faulty: dict[str, Any] = {it: [False, [ill_typed]] for it in ("layout", "hover", "definition")}
    no_name = f"ob0: {REFUSED_RENAMES[-1][2]}"
    faulty = {**faulty, "prepare": [ill_typed, []], "unnamed": no_name}
    same((found["faulty"], found["told"]), (faulty, []), "the messages in a module with an error, and shown over it")
    refused = [
        "with the new name, `Write` in line 3 would refer to another declaration",
        "`j` is declared in line 2 already",
    ]
    same(found["refused"], refused, "renames that are refused, with the lines as the editor counts them")
    no_inc = ["not declared", ["hint: there is no inc: `x := x + 1`"]]
    same(found["hinted"], [[no_inc], [["not declared", []]] * 2, [no_inc] * 2], "the hints, which come after the messages")
    unread = [f"The server can't read FILE: {how} (not JSON)." for how in HOWS]
    said = None if "real" in kind else [unread, [], []]
    same(found.get("half"), said, "the messages about a text with half a surrogate pair, and about it without that")
    formatted = MADE_AT_ONCE["layout"].replace("\n", "\r\n")
    same(found["carriageReturns"], [True, 0, formatted], "a text with CR LF that is formatted")
    same(found["edits"]["made"], MADE_AT_ONCE, "what answers leave that come at once")
    same(found["edits"]["late"], MADE_LATE, "what answers leave that come after a change")
    same(found["edits"]["said"], ["The text was changed since the action was offered: ask for it again."], "the message about an old action")
    same((found["stopped"], found["restarted"]), ("deactivated", {"said": [], "shutdowns": 3}), "how it ends, and restarts one after another")
    same(found["settings"], ["ob0.path", "ob0.trace.server"], "the settings that are declared")
    announced = [it["params"]["capabilities"]["workspace"]["workspaceEdit"]["documentChanges"] for it in started]
    same(announced, [True] * 4, "whether the client announces that it takes versions, at its start and each restart")
    same({version for it in renamed if "result" in it for change in it["result"]["documentChanges"] for version in [change["textDocument"]["version"]]}, {1, 2}, "the versions")


@test("VS Code: with a stand-in for the editor, the extension starts the server, drops late answers, checks and runs")
def vscode() -> None:
    want("Node")
    harness.need_program()
    in_vscode_by()


@test("VS Code: the extension also starts the server, drops late answers, checks and runs with the real client")
def vscode_client() -> None:
    # (`npm install` in editors/vscode gets the client, and `make editors RELEASE=trixie` makes it in its root)
    want("Node", vsix.CLIENT)
    harness.need_program()
    in_vscode_by("real")


@test("VS Code: the packed extension starts the server, drops late answers, checks and runs with the real client")
def vscode_packed() -> None:
    want("Node", vsix.CLIENT)
    harness.need_program()
    with temporary() as room:
        for content in package.extension().values():
            with zipfile.ZipFile(io.BytesIO(content)) as archive:
                archive.extractall(room)
        in_vscode_by("real", folder=os.path.join(room, "extension"))


def in_vim_by_ycm(steps: str, text: str, **given: Any) -> Steps:
    want("Vim", "YouCompleteMe")
    words = ["vim.nox", "-n", "-i", "NONE", "-S", os.path.join(EDITORS, "ycm.vim")]
    # (its server needs the system's Python, whichever one is first on PATH)
    lines = "\n".join([*snippets("vim", "viml"), "let g:ycm_server_python_interpreter = '/usr/bin/python3'"])
    return play("vim", words, steps, text, given, lambda room: write(os.path.join(room, ".vimrc"), lines), in_terminal=True)


LAID_OUT = """MODULE M;
  PROCEDURE G(n: INTEGER);
  BEGIN
    IF n > 0 THEN
      Write(n);
      G(n - 1)
    END
  END G;
BEGIN
  G(2)
END M.
"""
YCM_TYPED = [("typed", ["bad character [BadChar]"]), ("mended", [])]


@test("Vim by YouCompleteMe: diagnostics, hover, references, renaming and formatting have the expected results")
def ycm_names() -> None:
    steps = [("shown", "PROCEDURE F(n: INTEGER)"), ("listed", [[1, 10], [2, 30], [2, 47], [3, 6]]), ("jumped", [1, 10])]
    steps += [("renamed", edited(CALLS, PLACES, "G")), ("laid out", LAID_OUT)]
    same(in_vim_by_ycm("names", CALLS, place=[3, 6], name="G"), [*YCM_TYPED, *steps])
    keeps_the_run(CALLS, LAID_OUT, " 2 1")


@test("Vim by YouCompleteMe: a constant can be inlined after an emoji on the same line")
def ycm_inline() -> None:
    text = "MODULE M;\nCONST k = 7;\nBEGIN (* \U0001f600 *) Write(k) END M.\n"
    wanted = text.replace("Write(k)", "Write(7)")
    found = in_vim_by_ycm("inlining", text, place=[2, len("BEGIN (* \U0001f600 *) Write(".encode())])
    same(found, [*YCM_TYPED, ("offered", ["Inline here", "Inline everywhere"]), ("acted", wanted)])
    keeps_the_run(text, wanted, " 7")


@test("Vim by YouCompleteMe: formatting keeps a file's CR LF line endings")
def ycm_line_ends() -> None:
    for text, _, written in LINES_ENDED[2:4]:
        found = in_vim_by_ycm("formatted", text)
        laid_out = written.replace("\r\n", "\n")
        same(found, [*YCM_TYPED, ("laid out", laid_out), ("file", written)], f"the steps on {text!r}")


def in_kate(steps: str, text: str, **given: Any) -> Steps:
    want("Kate", "Xvfb", "xauth", "openbox", "xdotool", "D-Bus")

    def set_up(room: str) -> None:
        """Puts the program that holds answers before the server, and switches on Kate's plugin with the permission to
        start it."""
        program = put_between(room)
        write(os.path.join(room, ".config", "katerc"), f"[Kate Plugins]\nlspclientplugin=true\n\n[lspclient]\nAllowedServerCommandLines={program} serve\n")
        own["OB0_WIRE"] = room
        write(os.path.join(room, "breaks"), "late-edit" if steps == "late" else "")  # (as its page says)

    own: dict[str, str] = {}
    words = ["xvfb-run", "-a", "dbus-run-session", "--", "python3", os.path.join(EDITORS, "kate.py")]
    return play("kate", words, steps, text, given, set_up, more=own)


@test("Kate: diagnostics, hover, references, renaming and formatting by keyboard have the expected results")
def kate_names() -> None:
    steps = [("opened", []), ("typed", ["BadChar"]), ("undone", []), ("shown", "PROCEDURE F(n: INTEGER)")]
    steps += [("listed", [[1, 10], [2, 30], [2, 47], [3, 6]]), ("jumped", [1, 10])]
    steps += [("renamed", []), ("text", edited(CALLS, PLACES, "G")), ("laid out", []), ("text", LAID_OUT)]
    same(in_kate("names", CALLS, place=[3, 7]), steps)
    keeps_the_run(CALLS, LAID_OUT, " 2 1")


@test("Kate: a constant can be inlined by keyboard")
def kate_inline() -> None:
    text = "MODULE M;\nCONST k = 7;\nBEGIN Write(k) END M.\n"
    wanted = text.replace("Write(k)", "Write(7)")
    steps = [("opened", []), ("offered", ["Inline here", "Inline everywhere"]), ("acted", []), ("text", wanted)]
    same(in_kate("inlining", text, place=[2, 12]), steps)
    keeps_the_run(text, wanted, " 7")


@test("Kate: formatting keeps a file's CR LF line endings, and a second formatting changes nothing")
def kate_line_ends() -> None:
    text, _, written = LINES_ENDED[2]
    formatted = written.replace("\r\n", "\n")
    steps = [("opened", []), ("formatted", []), ("text", formatted), ("file", written), ("left to do", [])]
    same(in_kate("formatted", text, place=[0, 0]), steps)


@test("Kate: the edits of a late answer are made at positions that moved with the text, as Kate's page warns")
def kate_late() -> None:
    renamed = NEW_LINE + re.sub(r"\bn\b", "tot", LATE)
    laid_out = f"{2 * NEW_LINE}MODULE M;\nCONST\n  k = 7;\nVAR\n  tot: INTEGER;\nBEGIN\n  tot := 1;\n  Write(tot);\n  Write(k);\n"
    laid_out += "  tot := tot + 1;\n  Write(tot)\nEND M.\n"
    same(in_kate("late", LATE, place=LATE_AT[keyed.RENAME]), [("opened", []), ("renamed", renamed), ("laid out", laid_out)])


# (each line with `n` precedes a line of the same form with `k`, so that an edit one line off is hard to see)
LATE = """MODULE M;
CONST k = 7;
VAR n: INTEGER;
BEGIN
  n := 1;
  Write(n);
  Write(k); n := n + 1;
  Write(n)
END M.
"""
NEW_LINE = "(* new *)\n"
LATE_AT = {keyed.RENAME: (2, 4), keyed.ACTION: (6, 8), keyed.LAYOUT: (0, 0)}
# How many seconds an answer is held at least, and how many times as long as the editor needed to write its text. An
# editor that is only slow, and doesn't wait for the answer, is then seen to accept keys.
HELD, HELD_TIMES = 0.4, 3
WHEN = ["in the first version", "in a later version", "closed and opened again"]


def is_late(editor: keyed.Keyed, asked: str, when: str) -> None:
    """Requires an answer to have no effect if it comes after a line was typed above, or after the file was closed,
    changed and opened again. An editor that waits for the answer makes its edits first."""
    keys, method, waits = editor.asks[asked]
    write(editor.file, LATE)
    editor.keys(editor.reopening())
    start = time.monotonic()
    same(editor.text(comes_last=True), LATE, f"the text before the {asked}")
    held = max(HELD, HELD_TIMES * (time.monotonic() - start))
    editor.reports(LATE)
    for typed, text in ((editor.line_above, NEW_LINE + LATE), (editor.line_removed, LATE)) if when == WHEN[1] else ():
        editor.keys(typed)
        editor.reports(text)
    editor.wire.hold(method)
    editor.keys(editor.going(*LATE_AT[method]) + keys)
    editor.await_(f"the request of a {asked}", editor.wire.is_held)
    wanted = NEW_LINE + LATE
    if when == WHEN[2] and not waits:
        write(editor.file, wanted)
    editor.keys(editor.reopening() if when == WHEN[2] else editor.line_above)
    asked_for = editor.asked_for_text()
    if waits:
        holds(not editor.waits(lambda: asked_for() is not None, held), f"it takes keys while it waits for the {asked}")
    else:
        editor.await_("the line above", lambda: asked_for() is not None)
    editor.wire.release()
    edits = edits_of(editor.wire.answers(method)[-1].get("result"))
    holds(edits, f"the {asked} had edits")
    if waits:
        wanted = LATE if when == WHEN[2] else NEW_LINE + patched(LATE, edits, editor.wire.encoding())
    same(editor.text(comes_last=True), wanted, f"the text after the {asked}, {when}")


def by_keys(does: Callable[[Any], T], which: Which, text: str, *names: str) -> T:
    """Starts an editor in a temporary folder on a file with this text. Returns the result of `does` on the editor."""
    want(*names)
    harness.need_program()
    with temporary() as folder, which(folder, text) as editor:
        return does(editor)


class Deaf(keyed.Keyed):
    """Stands in for an editor whose server never gets the text."""

    opened = 0

    def __init__(self, folder: str, text: str) -> None:  # pylint: disable=super-init-not-called
        Deaf.opened += 1
        self.wire, self.screen = mock.MagicMock(), mock.MagicMock(drawn=b"")

    def __enter__(self) -> Deaf:
        return self

    def waits(self, holds: Callable[[], object], seconds: float = 0) -> bool:
        return bool(holds())


@test("editors: a test of an editor fails at the first try if the server never gets the editor's text")
def not_again() -> None:
    played = mock.Mock(side_effect=Failed("no key was taken"))
    Deaf.opened = 0
    never: Callable[[keyed.Keyed], None] = lambda editor: editor.reports("a text")
    tests: Dict[str, harness.Test] = {"by keys": lambda: by_keys(never, Deaf, LATE, "Deaf"), "Kate": lambda: in_kate("names", LATE)}
    with mock.patch.object(harness, "need_program"), mock.patch.dict(globals(), {"play": played, "want": mock.Mock()}):
        for what, does in tests.items():
            try:
                does()
            except Failed:
                continue
            raise Failed(f"{what}: it passes")
    same((Deaf.opened, played.call_count), (1, 1), "how often each was tried")


def late_answers(which: Which, *names: str) -> None:
    def each(editor: keyed.Keyed) -> None:
        for asked in editor.asks:
            for when in WHEN:
                is_late(editor, asked, when)

    by_keys(each, which, LATE, *names)


KEYED: Dict[str, Any] = {
    "Neovim": (keyed.Neovim, "Neovim"),
    "Vim by ALE": (keyed.Ale, "Vim", "ALE"),
    "Vim by YouCompleteMe": (keyed.Ycm, "Vim", "YouCompleteMe"),
    "Emacs by eglot": (keyed.Eglot, "Emacs", "eglot"),
    "Emacs by lsp-mode": (keyed.LspMode, "Emacs", "lsp-mode"),
}
for name, which in KEYED.items():
    test(f"{name}: a late answer changes only the text for which it was requested")(functools.partial(late_answers, *which))


CHANGED = LATE.replace("VAR", "VAR (* N and n *)").rstrip("\n").replace("\n", "\r\n")  # (with CR LF, except after the last line)


def lines_of(text: str | None) -> str:
    """Returns a text with LF at the end of each line, including the last one."""
    plain = (text or "").replace("\r\n", "\n")
    return plain if plain.endswith("\n") else plain + "\n"


def every_change(which: Which, count: int, seed: int, text: str, *names: str) -> str:
    """Makes random changes by keys, and requires the server to have the editor's text after every ten of them. Returns
    a phrase such as "40 changes"."""

    def compared(editor: keyed.Keyed) -> str:
        chance, made = random.Random(seed), []
        for _ in range(count // 10):
            for _ in range(10):
                made.append(editor.change(chance))
                editor.keys(made[-1])
            found = lines_of(editor.text())
            editor.waits(lambda: lines_of(editor.wire.text()) == found)
            same(lines_of(editor.wire.text()), found, f"the server's text after {len(made)} changes, at last {made[-10:]}")
        return f"{count} changes"

    return by_keys(compared, which, text, *names)


for name, which in KEYED.items():
    test(f"{name}: the server's text equals the editor's after 40 random changes")(functools.partial(every_change, which[0], 40, 3, CHANGED, *which[1:]))


def changes_by_keys() -> Iterator[tuple[Any, str, str]]:
    """Yields the cases that only `make faults` tries: for each editor and kind of line ends, the editor, a text and a
    name."""
    for name, which in KEYED.items():
        for kind, text in (("LF", LATE), ("CR LF", LATE.replace("\n", "\r\n")), ("no end of the last line", LATE.rstrip("\n"))):
            yield which, text, f"changes by keys: {name}, {kind}"


def replaced_in_other_cases(which: Which, *names: str) -> None:
    """Replaces a name in a text that also contains it in the other case. Requires the server to have the editor's text
    afterwards."""

    def replaced(editor: keyed.Keyed) -> None:
        new = editor.letters[-1]
        editor.keys(f'\x1b:(progn (goto-char 1) (replace-string "n" "{new}"))\r')
        found = editor.text()
        same(lines_of(found), lines_of(re.sub("n", new, CHANGED)), "the replaced text")
        editor.waits(lambda: lines_of(editor.wire.text()) == lines_of(found))
        same(lines_of(editor.wire.text()), lines_of(found), "the server's text")

    by_keys(replaced, which, CHANGED, *names)


for name in ("Emacs by eglot", "Emacs by lsp-mode"):
    test(f"{name}: a replacement of `n` leaves `N` unchanged, and the server's text equals the editor's")(functools.partial(replaced_in_other_cases, *KEYED[name]))


@test("Neovim: a chosen code action does nothing if the text has changed since the action was offered")
def neovim_chosen_late() -> None:
    def chosen(editor: keyed.Neovim) -> None:
        editor.keys(":let g:chooses_later = 1\r")
        for change, wanted in ((editor.line_above, NEW_LINE + LATE), (editor.reopening(), LATE), ("", LATE.replace("Write(k)", "Write(7)"))):
            write(editor.file, LATE)
            editor.keys(editor.reopening() + editor.going(*LATE_AT[keyed.ACTION]) + editor.asks["inlining"][0])
            same(editor.text(comes_last=True), LATE, "the text while the list is open")
            editor.keys(change + f"{keyed.NORMAL}:lua Choose()\r")
            same(editor.text(comes_last=True), wanted, "the text after the choice")

    by_keys(chosen, keyed.Neovim, LATE, "Neovim")


@test("Neovim: only one server starts if ob0's files are installed twice")
def neovim_copied_twice() -> None:
    class Twice(keyed.Neovim):
        def settings(self) -> dict[str, str]:
            start = os.path.join(self.folder, ".local", "share", "nvim", "site", "pack")
            shutil.copytree(os.path.join(start, "ob0"), os.path.join(start, "another"))
            return super().settings()

    def counted(editor: keyed.Keyed) -> None:
        editor.text(comes_last=True)
        same(len(editor.wire.sent("initialize")), 1, "the servers that were started")

    by_keys(counted, Twice, LATE, "Neovim")
