"""Tests that the snippets of VS Code, Vim, Neovim and Emacs are the same, and that they are valid and formatted."""
from __future__ import annotations

import json
import os
import re
from typing import Tuple

from harness import TOP, Server, did_open, holds, names_in, same, test, text_of, want
from homes import at_home, run_plainly, temporary

Snippet = Tuple[str, str, str]  # a key, a description and a body
NAMES = ["module", "procedure", "if", "ifelse", "while", "repeat", "count", "array", "record"]


def of_vscode() -> list[Snippet]:
    contributed = json.loads(text_of("editors", "vscode", "package.json"))["contributes"]["snippets"]
    same([it["language"] for it in contributed], ["oberon0"], "the language of the snippets")
    found = json.loads(text_of("editors", "vscode", contributed[0]["path"]))
    return [(it["prefix"], title, "\n".join(it["body"])) for title, it in found.items()]


def of_vim() -> list[Snippet]:
    parts = re.split(r"^snippet ", text_of("editors", "vim", "snippets", "ob0.snippets"), flags=re.M)[1:]
    found = []
    for part in parts:
        head, *lines = part.rstrip("\n").split("\n")
        holds(all(it.startswith("\t") for it in lines), f"lines of {head}")
        key, title = head.split(" ", 1)
        found.append((key, title, "\n".join(it[1:] for it in lines)))
    return found


def of_emacs() -> list[Snippet]:
    folder = os.path.join("editors", "emacs", "snippets", "ob0-mode")
    same(names_in(folder), sorted(NAMES), "the files")
    found = []
    for name in NAMES:
        head, body = text_of(folder, name).split("# --\n")
        fields = dict(re.findall(r"^# (\w+): (.*)$", head, re.M))
        found.append((fields["key"], fields["name"], body))
    return found


def filled(body: str) -> str:
    """Returns a snippet's text with its default values, and with a statement at the cursor's final position."""
    values: dict[str, str] = dict(re.findall(r"\$\{(\d):([^}]*)\}", body))

    def proposed(place: re.Match[str]) -> str:
        return values[place[1] or place[2]]

    text = re.sub(r"\$\{(\d):[^}]*\}|\$([1-9])", proposed, body)
    return text.replace("$0", "WriteLn")


def module_of(key: str, text: str) -> str:
    """Returns a formatted module that contains a snippet."""
    if key == "module":
        return text + "\n"
    if key in ("array", "record"):
        return f"MODULE M;\nTYPE\n  {text}\nEND M.\n"
    inner = "".join(f"  {line}\n" for line in text.split("\n"))
    return f"MODULE M;\n{inner}END M.\n" if key == "procedure" else f"MODULE M;\nVAR\n  i: INTEGER;\nBEGIN\n{inner}END M.\n"


@test("snippets: Vim, Neovim and Emacs have the same snippets as VS Code")
def alike() -> None:
    same([it[0] for it in of_vscode()], NAMES, "the keys")
    same(of_vim(), of_vscode(), "Vim's and Neovim's")
    same(of_emacs(), of_vscode(), "Emacs's")


@test("snippets: each snippet, put in a module, is valid and formatted as the server would format it")
def correct() -> None:
    with Server() as server:
        for key, _, body in of_vscode():
            text = module_of(key, filled(body))
            uri = f"file:///{key}"
            same(server.notify(did_open(text, uri=uri)), [], text)
            options = {"textDocument": {"uri": uri}, "options": {"tabSize": 2, "insertSpaces": True}}
            same(server.query("textDocument/formatting", options).get("result"), [], f"the layout of {text}")


@test("snippets: yasnippet expands each snippet in Emacs to the text of VS Code's snippet")
def in_emacs() -> None:
    want("Emacs", "yasnippet")
    with temporary() as room:
        own = at_home(room, "emacs")
        steps = """(progn (package-initialize) (require 'yasnippet) (require 'ob0-mode)
          (dolist (it '(%s))
            (with-temp-buffer (ob0-mode) (yas-minor-mode 1) (insert it) (yas-expand) (yas-exit-all-snippets)
              (princ (format "%%s\\n--\\n" (buffer-string))))))"""
        words = ["emacs", "--batch", "-L", os.path.join(room, ".emacs.d", "lisp"), "--eval"]
        status, said = run_plainly([*words, steps % " ".join(f'"{it}"' for it in NAMES)], own, room)
        same(status, 0, said[-1500:])
        got = [it.split() for it in said.split("--\n")[:-1]]
        wanted = [filled(body).replace("WriteLn", "").split() for _, _, body in of_vscode()]
        # (before the first snippet Emacs prints what it loads)
        same([it[-len(due) :] for it, due in zip(got, wanted)], wanted, said[-1500:])
